// What the state of an auction is, in words: its phase, its clock, its indication, what came of it.
import { hide, price, put, reasonText, shares, text } from "./common.js";

// The clock of a phase, by the venue's time. It stands in a halt, in which nothing ends.
export class Clock {
  constructor(node) {
    this.node = node;
    this.halts = {};
    setInterval(() => this.show(), 250);
  }

  set(state) {
    if (this.state !== state) this.ahead = state.now - Date.now() / 1000;
    this.state = state;
    if (state.halted) this.halts[state.instrument] ??= state.now;
    else delete this.halts[state.instrument];
    this.show();
  }

  // The venue's time now, in seconds of the epoch.
  now() {
    if (this.state?.frozen) return this.state.now;
    return this.halts[this.state?.instrument] ?? Date.now() / 1000 + (this.ahead ?? 0);
  }

  show() {
    put(this.node, this.words());
  }

  words() {
    const state = this.state;
    if (!state || state.ends === null || !isCall(state)) return "";
    const left = Math.max(0, Math.ceil(state.ends - this.now()));
    if (left === 0 && state.latest > state.ends) return text("random");
    return `${Math.floor(left / 60)}:${String(left % 60).padStart(2, "0")}`;
  }
}

// How many trades auctions had.
export const tradesOf = (results) => results.reduce((sum, it) => sum + (it.trades ?? 0), 0);

export const isCall = (state) => ["call", "extended"].includes(state.phase);
export const takesOrders = (state) => isCall(state) && !state.frozen && !state.halted;

// Whether it is known what the day has: not of one that has halted since the venue began.
export const isKnown = (state) => state.phase !== "unknown";

// Forgets what was said of an instrument's lists where it isn't known any more what it has, as after
// a start of the venue on a page that was open before.
export function forgetUnknown(state, lists) {
  if (!isKnown(state)) for (const those of lists) delete those[state.instrument];
}

// The interruption that extended the call, if one did: nothing was executed then.
export function interruptionOf(state) {
  const last = state.results?.at(-1);
  const isGoing = ["call", "extended", "ended"].includes(state.phase);
  return isGoing && last?.auction === "interrupted" ? last : null;
}

// What the last auction came to, while no other one goes on.
export function resultOf(state) {
  const last = state.results?.at(-1);
  return ["waiting", "over"].includes(state.phase) && last && last.auction !== "interrupted" ? last : null;
}

export function phaseText(state) {
  if (state.halted || !isKnown(state)) return text("halted");
  const auction = state.phase === "over" ? "" : `${text(state.auction)} · `;
  if (state.frozen) return `${auction}${text("frozen")}`;
  const last = resultOf(state);
  if (last && state.phase === "waiting") return `${text(last.auction)} · ${text("is_over")}`;
  return auction + text(interruptionOf(state) && state.phase === "extended" ? "interrupted" : state.phase);
}

// What the teacher is to do under a halt: the first that fits why it halted.
const HALTS = [[/waits for the disk/, "halt_slow"], [/^journal in use/, "halt_in_use"],
  [/: chmod go-w$|, then chown$/, "halt_rights"], [/changed by others/, "halt_file"],
  [/^journal failed|log can't be written|No space/, "halt_disk"],
  [/^the program hasn't/, "halt_hung"], [/^the program/, "halt_program"], [/./, "halt_file"]];

export const isOfVenue = (why) => why?.startsWith("the venue") ?? false;

// What has halted, why, and what to do.
export const haltText = (what, why) => [text("has_halted", what, reasonText(why)),
  text(HALTS.find(([it]) => it.test(why))[1], text("resume"))].join(" ");

// What comes after the auction that is over.
export function nextText(state) {
  if (state.halted) return text("halted_help");
  if (state.phase === "over") return text("over_help");
  return resultOf(state) ? text("next_auction", text(state.auction)) : "";
}

// The figures of a call: each keeps its place, whether there is a price or not.
export function indicationFigures(state) {
  const found = state.indication, dash = "–";
  if (!isKnown(state)) {
    return ["best_bid", "best_ask", "volume", "reference"].map((key) => [text(key), text("not_known")]);
  }
  const reference = [text("reference"), price(state.reference)];
  if (found.price === null) {
    return [[text("best_bid"), found.bid === null ? dash : price(found.bid), "bid"],
      [text("best_ask"), found.ask === null ? dash : price(found.ask), "ask"], [text("volume"), dash], reference];
  }
  const surplus = found.surplus ? `${text("surplus")}, ${text(`surplus_${found.side}`)}` : text("surplus");
  return [[text("indication"), price(found.price), "good"], [text("volume"), shares(found.volume)],
    [surplus, shares(found.surplus)], reference];
}

export function resultText(result) {
  const auction = text(result.auction);
  if (result.price === null) return `${auction}: ${text("no_price")}`;
  return text("result_is", auction, price(result.price), shares(result.volume));
}

// Says that an interruption executed nothing, where there is one.
export function showInterruption(node, state) {
  const found = interruptionOf(state);
  hide(node, !found);
  const key = state.phase === "ended" ? "interruption_ended" : "interruption";
  if (found) put(node, text(key, price(found.price), price(state.reference)));
}
