// A connection that comes again by itself, and notices within three seconds that the network is gone.
// Orders that aren't answered are sent again under their numbers, so that each is executed once.

const BEAT = 250, PING = 1000, SILENT = 2400, DEAD = 6000, LATE = 1500;
const KEPT = "venue.open";

export class Connection {
  // `take` gets each message, and `away` and `here` where the network goes and comes.
  constructor(token, take) {
    Object.assign(this, { token, take, pause: 250, isOver: false, isAway: false, isWelcome: false });
    this.open = new Map(this.kept().map((sent) => [sent.number, sent]));
    this.since = new Map();
    this.next = Date.now() * 1000 + Math.floor(Math.random() * 1000);
    this.beaten = this.heard = this.pinged = Date.now();
    this.connect();
    this.timer = setInterval(() => this.beat(), BEAT);
    window.addEventListener("offline", () => this.lose());
  }

  connect() {
    if (this.isOver) return;
    this.heard = Date.now();
    const socket = new WebSocket(`${location.origin.replace(/^http/, "ws")}/api/socket`);
    this.socket = socket;
    socket.onopen = () => socket.send(JSON.stringify({ type: "hello", token: this.token }));
    socket.onmessage = (event) => { if (socket === this.socket) this.hear(JSON.parse(event.data)); };
    socket.onclose = () => { if (socket === this.socket) this.again(); };
  }

  // Whether what is sent now goes out.
  get isReady() {
    return this.isWelcome && this.socket?.readyState === WebSocket.OPEN;
  }

  // Asks for a sign of life, and says where none has come for a while. A tab that slept listens anew.
  beat() {
    const now = Date.now();
    if (now - this.beaten > LATE) this.heard = now;
    this.beaten = now;
    if (this.isOver) return;
    if (this.isReady && now - this.pinged >= PING) {
      this.pinged = now;
      this.socket.send(JSON.stringify({ type: "ping" }));
    }
    if (now - this.heard > SILENT) this.lose();
    if (this.socket && now - this.heard > DEAD) this.again();
  }

  lose() {
    if (this.isAway || this.isOver) return;
    this.isAway = true;
    this.take({ type: "away" });
  }

  // Tries another connection, each time later.
  again() {
    const old = this.socket;
    this.socket = null;
    this.isWelcome = false;
    old?.close();
    this.lose();
    setTimeout(() => this.connect(), this.pause);
    this.pause = Math.min(4000, this.pause * 2);
  }

  hear(message) {
    this.heard = Date.now();
    if (message.type === "welcome") this.welcomed();
    if (message.type === "error" && message.error === "bad_token") this.end();
    if (this.isAway && this.isWelcome) {
      this.isAway = false;
      this.take({ type: "here" });
    }
    if (message.type === "pong") return;
    if (message.number) {
      message.sent = this.open.get(message.number);
      this.open.delete(message.number);
      this.since.delete(message.number);
      this.keep();
    }
    this.take(message);
  }

  welcomed() {
    this.isWelcome = true;
    this.pause = 250;
    for (const sent of this.open.values()) this.socket.send(JSON.stringify(sent));
  }

  // Sends an order, now or as soon as there is a connection; answers its number.
  send(message) {
    const sent = { ...message, number: this.next++ };
    this.open.set(sent.number, sent);
    this.since.set(sent.number, Date.now());
    this.keep();
    if (this.isReady) this.socket.send(JSON.stringify(sent));
    return sent.number;
  }

  // The messages that have waited so long for their answer, in milliseconds.
  slow(least) {
    const now = Date.now();
    return [...this.open.values()].filter((it) => this.isAway || now - (this.since.get(it.number) ?? 0) >= least);
  }

  // What isn't answered yet outlasts a reload of the page.
  keep() {
    sessionStorage.setItem(KEPT, JSON.stringify({ token: this.token, open: [...this.open.values()] }));
  }

  kept() {
    const { token, open = [] } = JSON.parse(sessionStorage.getItem(KEPT) ?? "{}");
    return token === this.token ? open : [];
  }

  end() {
    this.isOver = true;
    clearInterval(this.timer);
    this.socket?.close();
  }
}
