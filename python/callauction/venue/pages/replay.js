// The replay of the last auction: its book as it grew, order by order, with the price that it had.
import { find, price, put, shares, text } from "./common.js";
import { bookPicture, reachOf } from "./pictures.js";

const PAUSE = 250, LONGEST = 30000;

const bookOf = (frame) => frame.levels.map(([limit, bid, ask]) => ({ price: limit, bid, ask }));

// The levels of a book as the venue's replay has its last one.
export function lastBook(book) {
  const { bid, ask } = book.market;
  const market = bid || ask ? [{ price: null, bid, ask }] : [];
  return [...market, ...book.levels.filter((it) => it.bid || it.ask)];
}

export class Replay {
  // Draws on `place`; `onEnd` is called when the last book is there, or it is stopped.
  constructor(place, onEnd) {
    Object.assign(this, { place, onEnd, timer: null, isGoing: false });
  }

  start(frames, terms) {
    this.stop();
    if (!frames.length) return;
    Object.assign(this, { frames, terms, at: 0, isGoing: true, reach: reachOf(frames.map(bookOf)) });
    this.step();
  }

  step() {
    const frame = this.frames[this.at];
    bookPicture(this.place, bookOf(frame), frame.indication, this.terms, this.reach);
    const first = this.frames[0].entry, last = this.frames.at(-1).entry;
    const count = text("replay_at", shares(frame.entry - first + 1), shares(last - first + 1));
    const { indication } = frame;
    const at = indication.price === null ? "" : ` · ${text("price")} ${price(indication.price)}`;
    put(find("replay-at"), count + at);
    this.at += 1;
    if (this.at < this.frames.length) this.timer = setTimeout(() => this.step(), this.pause());
    else this.timer = setTimeout(() => this.stop(), 4 * PAUSE);
  }

  pause() {
    return Math.max(60, Math.min(4 * PAUSE, LONGEST / this.frames.length));
  }

  stop() {
    clearTimeout(this.timer);
    if (!this.isGoing) return;
    this.isGoing = false;
    put(find("replay-at"), "");
    this.onEnd();
  }
}
