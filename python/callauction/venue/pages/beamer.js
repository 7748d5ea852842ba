// The page of the beamer: how to join, then the call, then what came of it and why.
import {
  ask, choices, errorText, figures, find, hide, make, money, offerLanguages, price, put, robotsText, shares, speak,
  spoken, text, tokenOfAddress,
} from "./common.js";
import { Connection } from "./connection.js";
import { bookPicture, coursePicture, drawCode } from "./pictures.js";
import { lastBook, Replay } from "./replay.js";
import { roundText } from "./rounds.js";
import { fill } from "./rows.js";
import {
  Clock, forgetUnknown, indicationFigures, isCall, nextText, phaseText, resultOf, showInterruption, tradesOf,
} from "./states.js";
import { reasonsOf } from "./why.js";

const MOST_GAINS = 3, MOST_ROWS = 12, NAMES = "venue.names";
const clock = new Clock(find("clock"));
const said = { state: {}, ladder: {}, trades: {}, efficiency: {}, course: {} };
const replays = {};
let round = null, ranking = [], shownReplay = null;
let hidesNames = sessionStorage.getItem(NAMES) === "hidden";
let terms = [], chosen = "", screen = { shows: "indication", code: "" }, lostAt = null, isOpen = false, token = "";

const term = () => terms.find((it) => it.name === chosen);
const replay = new Replay(find("crossing"), draw);

function sceneOf(state) {
  if (resultOf(state)) return "result";
  return ["waiting", "unknown"].includes(state.phase) ? "join" : "call";
}

function draw() {
  hide(find("open"), !isOpen);
  hide(find("lost"), lostAt === null || !isOpen);
  if (lostAt !== null) put(find("lost"), text("away", lostAt.toLocaleTimeString(spoken())));
  document.body.classList.toggle("stale", lostAt !== null);
  hide(find("nameless"), !hidesNames);
  const state = said.state[chosen];
  hide(find("choosing"), terms.length < 2);
  if (!state) return;
  const scene = sceneOf(state);
  put(find("phase"), phaseText(state));
  put(find("next"), nextText(state));
  clock.set(state);
  showInterruption(find("interruption"), state);
  for (const name of ["join", "call", "result"]) hide(find(`scene-${name}`), name !== scene);
  hide(find("figures"), scene !== "call");
  drawRound();
  drawJoin(scene);
  if (scene !== "result") replay.stop();
  if (scene === "call") drawCall(state);
  if (scene === "result") drawResult(state);
}

function drawRound() {
  hide(find("message"), !round?.message);
  if (!round) return;
  const isPlain = round.round === 1 && !round.title && !round.practice;
  put(find("round"), isPlain ? "" : `· ${roundText(round)}`);
  put(find("message"), round.message);
}

// ---- joining

function drawJoin(scene) {
  find("scene-join").className = screen.qr ? "scene two" : "scene";
  const address = screen.url ?? `${location.origin}/`;
  put(find("address"), address);
  put(find("code"), screen.code);
  put(find("count"), shares(screen.members ?? 0));
  put(find("robots"), screen.robots ? `· ${robotsText(screen.robots)}` : "");
  hide(find("join-small"), scene === "join" || !screen.code);
  put(find("join-small"), `${text("join_at")} ${address} · ${text("code")} ${screen.code}`);
  hide(find("qr-place"), !screen.qr);
  if (screen.qr) drawCode(find("qr"), screen.qr);
}

// ---- the call

function drawCall(state) {
  const showsBook = screen.shows === "all" || round?.book === "open";
  figures(find("figures"), indicationFigures(state));
  hide(find("booking"), !showsBook);
  find("scene-call").className = showsBook ? "scene even" : "scene";
  const course = said.course[chosen] ?? { began: null, points: [] };
  coursePicture(find("course"), course, isCall(state) ? clock.now() : state.now, term());
  if (showsBook) bookPicture(find("book"), said.ladder[chosen]?.levels ?? [], state.indication, term());
}

// ---- what came of it

// The auctions that have ended in this round.
const endedOf = (state) => state.results.filter((it) => it.auction !== "interrupted");

function drawResult(state) {
  const ended = endedOf(state), place = chosenPlace(ended);
  const result = ended[place], last = said.trades[chosen]?.trades.at(-1)?.trade ?? 0;
  const isLast = place === ended.length - 1 && last >= tradesOf(ended);
  const hasPrice = result.price !== null, words = hasPrice ? price(result.price) : text("no_price");
  put(find("result"), words, hasPrice ? "price-large" : "price-large none");
  put(find("why-head"), text(hasPrice ? "why" : "why_not"));
  put(find("result-volume"), hasPrice ? shares(result.volume) : "–");
  put(find("efficiency"), isLast ? efficiencyText() : "");
  put(find("predicted"), isLast ? predictedText() : "");
  fetchReplay(place + 1);
  drawCrossing(place + 1);
  const before = tradesOf(ended.slice(0, place));
  fit((count) => {
    const most = showsRanking() ? count : Math.min(MOST_GAINS, Math.ceil(count / 2));
    const gains = drawGains(isLast ? most : 0);
    drawTrades(before, result.trades, count - gains);
  });
}

// Which auction is shown, from 0: the last one, until another is chosen.
function chosenPlace(ended) {
  const which = find("which"), last = keyOf(ended.length);
  choices(which, ended.map((it, place) => [String(place + 1), text(it.auction)]));
  if (which.dataset.last !== last) which.value = String(ended.length);
  which.dataset.last = last;
  hide(find("which-place"), ended.length < 2);
  return Number(which.value) - 1;
}

// Draws as many rows as there is room for: `draw` is given the most of them.
function fit(draw) {
  const section = find("trading").parentElement;
  for (let count = MOST_ROWS; count >= 0; count--) {
    draw(count);
    if (section.scrollHeight <= section.clientHeight) return;
  }
}

const showsRanking = () => screen.payoffs === "ranking" && ranking.length > 0;

// Who gained most of all rounds, where the teacher shows that, else of this one: how many rows.
function drawGains(most) {
  const isRanking = showsRanking();
  const rows = (isRanking ? ranking : said.efficiency[chosen]?.gains ?? []).slice(0, most);
  hide(find("placing"), !rows.length);
  put(find("ranking").caption, text(isRanking ? "ranking" : "who_gained"));
  put(find("ranking-head"), text(isRanking ? "name" : "who_gained"));
  fill(find("ranking"), rows, (it) => it.name, (it) => [{ number: String(it.rank) },
    { text: hidesNames ? "" : it.name, classes: "name" }, { number: price(it.gain) }]);
  return rows.length;
}

function predictedText() {
  const found = said.efficiency[chosen]?.predicted;
  if (!found) return "";
  const span = (low, high) => (low === high ? low : text("from_to", low, high));
  const volume = span(shares(found.volume), shares(found.most_volume));
  return text("predicted", span(price(found.low), price(found.high)), volume);
}

function efficiencyText() {
  const found = said.efficiency[chosen];
  if (found?.percent == null || !said.trades[chosen]?.trades.length) return "";
  return text("efficiency_short", shares(found.percent), price(found.gain), money(found.most, term()));
}

// The first trades of an auction, none where names are hidden: it has `count` of them, and those before
// it `before`.
function drawTrades(before, count, most) {
  const rows = (hidesNames ? [] : said.trades[chosen]?.trades ?? [])
    .filter((it) => it.trade > before && it.trade <= before + count).slice(0, most);
  hide(find("trading"), !rows.length);
  put(find("more-trades"), count > rows.length ? text("more_trades", shares(count - rows.length)) : "");
  fill(find("trades"), rows, (it) => it.trade, (it) => [{ text: it.buyer ?? "", classes: "name" },
    { text: it.seller ?? "", classes: "name" }, { number: shares(it.quantity) }]);
}

// Asks for the books of an auction that ended, once.
async function fetchReplay(number) {
  const key = keyOf(number);
  if (replays[key]) return;
  const found = { book: null, frames: [] };
  replays[key] = found;
  try {
    Object.assign(found, await ask(`/api/replay/${chosen}?auction=${number}`, token));
  } catch {
    setTimeout(() => {
      delete replays[key];
      draw();
    }, 5000);
  }
  draw();
}

const keyOf = (number) => [chosen, said.state[chosen].round, number].join(" ");

function drawCrossing(number) {
  shownReplay = replays[keyOf(number)];
  const { book, frames = [] } = shownReplay ?? {};
  hide(find("replay"), !frames.length);
  put(find("replay"), text(replay.isGoing ? "stop" : "replay"));
  find("why").replaceChildren(...(book ? reasonsOf(book) : []).map((words) => make("p", words)));
  if (replay.isGoing) return;
  if (!book) {
    find("crossing").replaceChildren(make("p", text("preparing"), "soft"));
    return;
  }
  const volume = book.levels.find((it) => it.price === book.price)?.volume ?? 0;
  bookPicture(find("crossing"), lastBook(book), { price: book.price, volume }, term());
}

// ---- what comes

function take(message) {
  const { type } = message;
  if (type === "welcome") welcome(message);
  else if (type === "away") lostAt = new Date();
  else if (type === "here") lostAt = null;
  else if (type === "error" && message.error === "bad_token") close();
  else if (type === "error") put(find("phase"), errorText(message));
  else if (type === "beamer") screen = message;
  else if (type === "round") round = message;
  else if (type === "ranking") ranking = message.rows;
  else if (type in said) said[type][message.instrument] = message;
  if (type === "state") forgetUnknown(message, [said.ladder, said.trades, said.efficiency, said.course]);
  draw();
}

function welcome(message) {
  if (message.role === "member") {
    close();
    return;
  }
  terms = message.instruments;
  isOpen = true;
  if (!term()) chosen = terms[0].name;
  put(find("title"), message.title);
  document.title = message.title;
  choices(find("instrument"), terms.map((it) => [it.name, it.title]));
}

function close() {
  isOpen = false;
  hide(find("closed"), false);
  put(find("closed-why"), text("no_beamer"));
  draw();
}

find("instrument").addEventListener("change", (event) => {
  chosen = event.target.value;
  replay.stop();
  draw();
});
find("replay").addEventListener("click", () => {
  if (replay.isGoing) replay.stop();
  else replay.start(shownReplay.frames, term());
  draw();
});
find("which").addEventListener("change", () => {
  replay.stop();
  draw();
});
// A list of choices takes letters for itself while it has the focus: once something was chosen by the
// mouse, it hasn't.
for (const list of [find("instrument"), find("which")]) {
  let isPointed = false;
  list.addEventListener("pointerdown", () => { isPointed = true; });
  list.addEventListener("keydown", () => { isPointed = false; });
  list.addEventListener("change", () => { if (isPointed) list.blur(); });
}
// The key n hides names, and shows them again; held, it does so once.
document.addEventListener("keydown", ({ key, target, repeat, ctrlKey, altKey, metaKey }) => {
  if (key.toLowerCase() !== "n" || repeat || ctrlKey || altKey || metaKey || target.matches("select")) return;
  hidesNames = !hidesNames;
  sessionStorage.setItem(NAMES, hidesNames ? "hidden" : "shown");
  draw();
});
offerLanguages(draw);
window.addEventListener("resize", draw);
setInterval(() => {
  const state = said.state[chosen];
  if (state && sceneOf(state) === "call") drawCall(state);
}, 1000);
token = tokenOfAddress("venue.beamer");
ask("/api/day").then((day) => speak(day.language), () => speak("en")).finally(() => {
  if (token) new Connection(token, take);
  else close();
});
