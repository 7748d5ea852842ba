// The page of a member: joining, orders, fills.
import { asks } from "./asking.js";
import {
  ask, choices, disable, errorText, figures, find, hide, isOff, money, offerLanguages, price, put, shares, speak,
  text,
} from "./common.js";
import { Connection } from "./connection.js";
import { limitText, orderText, OrderForm, sentText } from "./form.js";
import { bookPicture } from "./pictures.js";
import { roundText, treatmentTexts } from "./rounds.js";
import { fill } from "./rows.js";
import {
  Clock, forgetUnknown, indicationFigures, interruptionOf, isKnown, nextText, phaseText, resultOf, resultText,
  showInterruption, takesOrders, tradesOf,
} from "./states.js";

const KEPT = "venue.token", WHY = "venue.why";
const SLOW = 300;
const LATER = ["join_later", "halted"], AGAIN = 3000, SPREAD = 2000;
const OTHER_DEVICE = "goes on at another device";
const clock = new Clock(find("clock"));
const said = { states: {}, orders: {}, fills: {}, trades: {}, ladder: {} };
let round = null, payoff = null;
let terms = [], chosen = "", connection = null, name = "", lostAt = null, words = null, again = 0;

const term = () => terms.find((it) => it.name === chosen);
const shown = (kind) => said[kind][chosen];
const form = new OrderForm({ term, closed, send, say });

// Says what came of the last order, or why it wasn't sent.
function say(found, isBad = false) {
  words = found && { found, isBad };
  drawSaid();
}

// Why no order is taken now, or nothing.
function closed() {
  const state = shown("states");
  if (!state || takesOrders(state)) return "";
  return text(state.halted ? "e_halted" : state.frozen ? "e_frozen" : "e_not_now");
}

// ---- drawing

function draw() {
  hide(find("joining"), connection !== null);
  hide(find("trading"), connection === null || !terms.length);
  hide(find("leave"), connection === null);
  document.body.classList.toggle("joined", connection !== null);
  hide(find("lost"), lostAt === null || connection === null);
  put(find("who"), name);
  if (lostAt !== null) put(find("lost"), text("away", lostAt.toLocaleTimeString(document.documentElement.lang)));
  document.body.classList.toggle("stale", lostAt !== null);
  hide(find("choosing"), terms.length < 2);
  if (!connection || !shown("states")) return;
  drawState();
  drawRound();
  form.draw();
  drawOrders();
  drawTrades();
  drawSaid();
}

function drawState() {
  const state = shown("states"), result = resultOf(state);
  put(find("phase"), phaseText(state));
  clock.set(state);
  showInterruption(find("interruption"), state);
  hide(find("outcome"), !result);
  hide(find("figures"), Boolean(result));
  if (result) {
    put(find("result"), resultText(result), result.price === null ? "large none" : "large");
    put(find("own-result"), ownResult(state));
  }
  figures(find("figures"), indicationFigures(state));
  put(find("next"), nextText(state));
}

function drawRound() {
  hide(find("round"), !round);
  hide(find("message"), !round?.message);
  hide(find("booking"), round?.book !== "open");
  if (!round) return;
  const isPlain = round.round === 1 && !round.title && !round.practice;
  const group = round.groups > 1 ? text("your_group", term()?.title) : "";
  const parts = [isPlain ? "" : `${roundText(round)}.`, ...treatmentTexts(round, term(), terms.length > 1), group];
  put(find("round"), parts.filter(Boolean).join(" "));
  put(find("message"), round.message);
  if (round.book === "open" && isKnown(shown("states"))) {
    bookPicture(find("book"), shown("ladder")?.levels ?? [], shown("states").indication, term());
  }
  drawPayoff();
}

function drawPayoff() {
  hide(find("payoff"), !payoff);
  if (!payoff) return;
  put(find("paid"), text("paid", money(payoff.paid, payoff)));
  put(find("place"), payoff.rank === null ? "" : text("place", shares(payoff.rank), shares(payoff.of)));
  const gains = payoff.rounds.filter((it) => it.gain !== null);
  put(find("gains"), gains.map((it) => `${roundText(it)}: ${price(it.gain)}`).join("\n"), "soft lines");
}

// What the last auction brought, by the trades that it added to those before it; nothing as long as
// these haven't come: own ones come before all.
function ownResult({ results }) {
  const before = tradesOf(results.slice(0, -1)), known = shown("trades")?.trades.at(-1)?.trade ?? 0;
  if (known < tradesOf(results)) return "";
  const fills = (shown("fills")?.fills ?? []).filter((it) => it.trade > before);
  const of = (side) => fills.filter((it) => it.side === side).reduce((sum, it) => sum + it.quantity, 0);
  const found = [["bid", "bought"], ["ask", "sold"]].filter(([side]) => of(side))
    .map(([side, key]) => text(key, shares(of(side)), price(fills[0].price)));
  return found.join(" ") || text("nothing_traded");
}

// Says that a list is empty, or in a halt that it isn't known; nothing while it is still to come.
function drawNone(kind, rows, none, unknown) {
  const node = find(`no-${kind}`), isThere = Boolean(shown(kind));
  hide(node, rows.length > 0 || !(isThere || shown("states").halted));
  put(node, text(isThere ? none : unknown));
}

function drawOrders() {
  const orders = shown("orders")?.orders ?? [];
  hide(find("orders"), !orders.length);
  drawNone("orders", orders, "no_orders", "unknown_orders");
  const waiting = new Set([...connection.open.values()].map((it) => it.instrument === chosen && it.order));
  fill(find("orders"), orders, (it) => it.order, (it) => {
    const off = waiting.has(it.order);
    const hidden = it.visible < it.open ? ` (${text("visible_part", shares(it.visible))})` : "";
    const only = it.only ? ` · ${text(`${it.only}_only`)}` : "";
    return [{ text: text(it.side), classes: `side ${it.side}` }, { number: shares(it.open) + hidden },
      { number: limitText(it.price ?? "market") + only, label: text("limit") },
      { number: it.filled ? shares(it.filled) : "", label: text("filled") },
      { classes: "doing", buttons: [
        { name: "change", text: text("change"), off, label: `${text("change")} ${it.order}`, press: change },
        { name: "delete", text: text("delete"), off, label: `${text("delete")} ${it.order}`, press: remove },
      ] }];
  });
  form.check(orders);
}

function drawTrades() {
  const mine = shown("fills"), fills = mine?.fills ?? [], all = shown("trades")?.trades ?? [];
  hide(find("fills").parentElement, !fills.length);
  drawNone("fills", fills, "no_fills", "unknown_fills");
  fill(find("fills"), [...fills].reverse(), (it) => `${it.trade} ${it.side}`, (it) => [
    { text: text(it.side), classes: it.side }, { number: shares(it.quantity) }, { number: price(it.price) },
    { number: String(it.order) }]);
  hide(find("trades").parentElement, !all.length);
  drawNone("trades", all, "no_trades", "unknown_trades");
  fill(find("trades"), [...all].reverse(), (it) => it.trade, (it) => [{ number: String(it.trade) },
    { number: shares(it.quantity) }, { number: price(it.price) }]);
  put(find("value"), valueText(mine));
  hide(find("value"), !valueText(mine));
}

function valueText(mine) {
  if (!mine?.value) return mine?.gain == null ? "" : text("gain_without", money(mine.gain, term()));
  const { side, quantity, price: worth } = mine.value;
  const may = text(side === "bid" ? "may_buy" : "may_sell", shares(quantity), money(worth, term()));
  if (!mine.fills.length) return may;
  const left = mine.left == null ? "" : `${text("left_of_value", shares(mine.left))} `;
  return `${may} ${left}${text("gain")}: ${money(mine.gain, term())}`;
}

// What isn't answered, once that takes a while; else what came of the last order.
function drawSaid() {
  const slow = connection ? connection.slow(SLOW) : [];
  const key = lostAt === null ? "sending" : "unconfirmed";
  const waiting = slow.map((it) => text(key, sentText(it))).join("\n");
  if (waiting) put(find("said"), waiting, "said waits");
  else put(find("said"), words ? words.found : "", words?.isBad ? "said bad" : "said good");
}

// ---- what comes

function take(message) {
  const { type } = message;
  if (type === "welcome") welcome(message);
  else if (type === "away") lostAt = new Date();
  else if (type === "here") lostAt = null;
  else if (type === "answer") takeAnswer(message);
  else if (type === "error") takeError(message);
  else if (type === "state") takeState(message);
  else if (type === "round") takeRound(message);
  else if (type === "payoff") payoff = message;
  else if (type in said) said[type][message.instrument] = message;
  if (type === "fills" && message.value) form.prefer(message.value.side);
  draw();
}

function welcome(message) {
  [terms, name] = [message.instruments, message.name];
  if (!term()) chosen = terms[0].name;
  put(find("title"), message.title);
  document.title = message.title;
  choices(find("instrument"), terms.map((it) => [it.name, it.title]));
}

// Another phase: what was said of an order belongs to the one before. What an auction came to is in
// sight at once.
function takeState(message) {
  const before = said.states[message.instrument];
  said.states[message.instrument] = message;
  forgetUnknown(message, [said.orders, said.fills, said.trades, said.ladder]);
  if (before?.halted && !message.halted && message.instrument === chosen && words?.isBad) say("");
  if (!before || message.instrument !== chosen || before.phase === message.phase) return;
  say("");
  form.mark(null);
  if (resultOf(message) || interruptionOf(message)) window.scrollTo(0, 0);
}

// Another round: what was said of the one before is over.
function takeRound(message) {
  if (round && round.round !== message.round) [said.ladder, payoff] = [{}, null];
  round = message;
}

function takeAnswer({ number, reply, order, sent }) {
  const [word, , refusal] = reply.split(" ");
  if (word === "refused") {
    const ends = term() ? [price(term().low), price(term().high)] : [];
    say(text("refused", text(refusal, ...ends)), true);
    form.failed(number, refusal);
    return;
  }
  form.done(number);
  if (sent) say(doneText(reply, order, sent));
}

function doneText(reply, order, sent) {
  if (sent.type === "enter") return text("entered", order, orderText(sent));
  if (sent.type === "delete") return text("deleted", sent.order);
  const key = reply === "changed moved" ? "changed_moved" : "changed";
  return text(key, sent.order, shares(sent.quantity), limitText(sent.price));
}

function takeError(message) {
  if (message.error === "bad_token") {
    leave(message.text.endsWith(OTHER_DEVICE) ? text("other_device") : errorText(message));
    return;
  }
  say(errorText(message), true);
  form.failed(message.number, `e_${message.error}`);
}

// ---- what is sent

function send(message) {
  const number = connection.send({ instrument: chosen, ...message });
  setTimeout(drawSaid, SLOW + 50);
  return number;
}

function change(order) {
  say("");
  form.begin(order);
}

function remove(order) {
  say("");
  send({ type: "delete", order: order.order });
  drawOrders();
}

function sayJoin(found) {
  put(find("join-said"), found, "said bad");
}

// A second press while the first isn't answered does nothing. What is refused for now alone is asked for
// again in a while, until the form is changed.
async function join(event) {
  event?.preventDefault();
  clearTimeout(again);
  const button = find("join").querySelector("button");
  if (isOff(button)) return;
  disable(button, true);
  try {
    const found = await ask("/api/join", "", { code: find("code").value, name: find("name").value });
    localStorage.setItem(KEPT, found.token);
    sayJoin("");
    begin(found.token);
    if (found.again) say(text("came_again", found.name));
  } catch (fault) {
    const isLater = LATER.includes(fault.code);
    sayJoin(isLater ? text(fault.code === "halted" ? "join_halted" : "e_join_later")
      : fault.code ? errorText(fault) : text("away_join"));
    if (isLater) again = setTimeout(join, AGAIN + SPREAD * Math.random());
  } finally {
    disable(button, false);
  }
}

// Why it isn't its own wish is said in its other tabs too.
function leave(why = "") {
  sayJoin(why);
  localStorage.setItem(WHY, why);
  if (localStorage.getItem(KEPT) === connection?.token) localStorage.removeItem(KEPT);
  connection?.end();
  [connection, name, lostAt, words, round, payoff] = [null, "", null, null, null, null];
  for (const kind of Object.keys(said)) said[kind] = {};
  draw();
}

function begin(token) {
  clearTimeout(again);
  connection = new Connection(token, take);
  draw();
}

// Another tab of this telephone left, or joined as somebody else.
function follow({ key, newValue }) {
  if (key !== KEPT || newValue === (connection?.token ?? null)) return;
  if (connection) leave(newValue ? "" : localStorage.getItem(WHY) ?? "");
  if (newValue) begin(newValue);
}

find("join").addEventListener("submit", join);
find("join").addEventListener("input", () => {
  clearTimeout(again);
  sayJoin("");
});
window.addEventListener("storage", follow);
find("leave").addEventListener("click", async () => {
  if (await asks(text("leave_asks"), text("leave_help"), text("leave"))) leave();
});
find("instrument").addEventListener("change", (event) => {
  chosen = event.target.value;
  say("");
  form.begin(null);
  draw();
});
find("code").value = location.hash.slice(1).replace(/[^A-Za-z0-9-]/g, "");
offerLanguages(draw);
ask("/api/day").then((day) => {
  put(find("title"), day.title);
  document.title = day.title;
  speak(day.language);
}, () => speak("en")).finally(() => {
  const token = localStorage.getItem(KEPT);
  if (token) begin(token);
  else draw();
});
