// The page of the teacher: phases, members, values, downloads.
import { asks } from "./asking.js";
import {
  ask, choices, disable, errorText, figures, find, hide, isOff, money, offerLanguages, price, put, reasonText, shares,
  speak, spoken, text, tokenOfAddress,
} from "./common.js";
import { Connection } from "./connection.js";
import { Handing, losingText } from "./handing.js";
import { bookPicture } from "./pictures.js";
import { marketOf, People } from "./people.js";
import { RoundForm } from "./roundform.js";
import { roundText } from "./rounds.js";
import { fill } from "./rows.js";
import {
  Clock, forgetUnknown, haltText, indicationFigures, isCall, isKnown, isOfVenue, nextText, phaseText, resultOf,
  resultText, showInterruption,
} from "./states.js";
import { offerTabs } from "./tabs.js";

const clock = new Clock(find("clock"));
const said = { state: {}, ladder: {}, trades: {}, efficiency: {}, course: {} };
let terms = [], chosen = "", token = "", lostAt = null, isOpen = false, round = null, stepped = null;

const term = () => terms.find((it) => it.name === chosen);

// The title of what is chosen, for all groups, where the day has several instruments; else empty.
function marketTitle() {
  if (new Set(terms.map((it) => marketOf(it.name))).size < 2) return "";
  return round?.groups > 1 ? term().title.replace(/ · \d+$/, "") : term().title;
}

const handing = new Handing(term, act);
const roundForm = new RoundForm(term, act);
const people = new People(act);
const say = (words, isBad = false) => put(find("said"), words, isBad ? "said bad" : "said good");
const refuse = (fault) => say(fault.code ? errorText(fault) : text("away_join"), true);

// ---- the auction

function draw() {
  hide(find("open"), !isOpen);
  hide(find("lost"), lostAt === null || !isOpen);
  if (lostAt !== null) put(find("lost"), text("away", lostAt.toLocaleTimeString(spoken())));
  document.body.classList.toggle("stale", lostAt !== null);
  const state = said.state[chosen];
  hide(find("choosing"), terms.length < 2);
  if (!state) return;
  put(find("phase"), phaseText(state));
  clock.set(state);
  drawSteps(state, drawHalts());
  drawOutcome(state);
  drawBook(state);
  drawRound(state);
  people.draw(chosen, round?.begun, marketTitle());
  handing.fields.draw();
}

// Says what has halted of all that there is, of earlier rounds too: whether anything has.
function drawHalts() {
  const states = terms.map((it) => said.state[it.name]).filter((it) => it?.halted);
  const whole = states.find((it) => isOfVenue(it.halted));
  const title = (state) => terms.find((it) => it.name === state.instrument).title;
  const texts = whole ? [haltText(text("the_venue"), whole.halted)]
    : [...states.map((it) => haltText(title(it), it.halted)), ...(round?.halts ?? []).map(earlyText)];
  hide(find("halts"), !texts.length);
  put(find("halts"), texts.join("\n"));
  return texts.length > 0;
}

const earlyText = (it) => haltText(`${it.instrument}, ${text("round", it.round)}`, it.why);

// Says of calls that their end had passed as the venue began, and what comes of them.
function drawLate() {
  const late = round?.late ?? [];
  hide(find("late"), !late.length);
  put(find("late"), late.map((it) => `${reasonText(it.why)}: ${reasonText(it.does)}`).join("\n"));
}

function drawRound(state) {
  if (!round) return;
  drawLate();
  put(find("round"), roundText(round));
  hide(find("message"), !round.message);
  put(find("message"), round.message);
  hide(find("shows-open"), round.book !== "open");
  roundForm.draw(["waiting", "over"].includes(state.phase) && !isOfVenue(state.halted), marketTitle() !== "");
}

function drawSteps(state, hasHalted) {
  const { phase, frozen, halted } = state, isHeld = isOfVenue(halted), goes = isCall(state) && !isHeld;
  const may = {
    start: phase === "waiting" && !halted, end: goes && !frozen, freeze: goes && !frozen, thaw: frozen && !isHeld,
    uncross: (goes || phase === "ended") && !frozen && !halted, resume: hasHalted,
  };
  if (hasHalted) document.querySelector("[data-do=resume]").closest("details").open = true;
  for (const button of document.querySelectorAll("[data-do]")) disable(button, !may[button.dataset.do]);
  disable(find("extend"), !goes && (phase !== "ended" || isHeld));
}

function nextOf(state) {
  if (state.halted) return "";
  return state.phase === "over" ? text("over_next") : nextText(state);
}

function drawOutcome(state) {
  const result = resultOf(state), found = said.efficiency[chosen];
  showInterruption(find("interruption"), state);
  hide(find("outcome"), !result);
  if (result) put(find("result"), resultText(result), result.price === null ? "large none" : "large");
  put(find("efficiency"), efficiencyText(found));
  figures(find("figures"), [...indicationFigures(state), [text("left"), leftText(state)]]);
  put(find("next"), nextOf(state));
}

const leftText = (state) => (isKnown(state) ? shares(state.calls_left_to_members) : text("not_known"));

function efficiencyText(found) {
  if (found?.percent == null || !said.trades[chosen]?.trades.length) return "";
  const words = text("efficiency_is", shares(found.percent), money(found.gain, term()), money(found.most, term()));
  return `${text("efficiency")}: ${words}`;
}

function drawBook(state) {
  if (!find("auction").hidden && isKnown(state)) {
    bookPicture(find("book"), said.ladder[chosen]?.levels ?? [], state.indication, term());
  }
  hide(find("ladder"), !said.ladder[chosen]?.levels.length);
  fill(find("ladder"), said.ladder[chosen]?.levels ?? [], (it) => it.price, (it) => [
    { number: it.bid ? shares(it.bid) : "", classes: "bid" },
    { number: it.price === null ? text("market_orders") : price(it.price) },
    { number: it.ask ? shares(it.ask) : "", classes: "ask" }]);
  const trades = said.trades[chosen]?.trades ?? [];
  hide(find("trades").parentElement, !trades.length);
  hide(find("no-trades"), Boolean(trades.length) || !isKnown(state));
  fill(find("trades"), [...trades].reverse(), (it) => it.trade, (it) => [{ number: String(it.trade) },
    { text: it.buyer, classes: "name" }, { text: it.seller, classes: "name" }, { number: shares(it.quantity) },
    { number: price(it.price) }]);
}

// ---- what comes

function take(message) {
  const { type } = message;
  if (type === "welcome") welcome(message);
  else if (type === "away") lostAt = new Date();
  else if (type === "here") lostAt = null;
  else if (type === "error") takeError(message);
  else if (type === "members") people.take(message);
  else if (type === "beamer") takeShown(message);
  else if (type === "round") takeRound(message);
  else if (type in said) keep(message);
  if (type === "state") forgetUnknown(message, [said.ladder, said.trades, said.efficiency, said.course]);
  draw();
}

// What was done isn't said any more in a halt, nor what was refused in it once it goes on.
function keep(message) {
  const those = said[message.type], before = those[message.instrument];
  those[message.instrument] = message;
  const isBad = find("said").classList.contains("bad");
  if (before && Boolean(before.halted) !== Boolean(message.halted) && isBad === Boolean(before.halted)) say("");
}

function welcome(message) {
  if (message.role !== "operator") {
    close();
    return;
  }
  terms = message.instruments;
  isOpen = true;
  if (!term()) chosen = terms[0].name;
  put(find("title"), message.title);
  document.title = message.title;
  choices(find("instrument"), terms.map((it) => [it.name, it.title]));
  handing.show();
}

function takeShown({ shows, payoffs = "none" }) {
  find("showing").querySelector(`[value=${shows}]`).checked = true;
  find("paying").querySelector(`[value=${payoffs}]`).checked = true;
}

function takeRound(message) {
  round = message;
  roundForm.take(message);
  handing.take(message);
}

function takeError(message) {
  if (message.error === "bad_token") close();
  else refuse({ code: message.error, text: message.text });
}

// Nobody who may see this page has opened it.
function close() {
  isOpen = false;
  hide(find("closed"), false);
  put(find("closed-why"), text("no_teacher"));
  draw();
}

// ---- what is done

async function asksToReplace(body, fault) {
  const title = marketTitle(), whose = title && text("of_instrument", title);
  return await asks(text("give_asks", whose), losingText(body, fault, whose), text("give_now")) && { replace: true };
}

// Whether to begin a round though it isn't known what boards of this one have.
async function asksToBegin({ round: number }, { boards }) {
  const head = text("unknown_asks", boards.join(", "), number);
  return await asks(head, text("unknown_help", text("resume")), text("begin_anyway")) && { anyway: true };
}

// Does what the operator asks for: what is answered, or nothing where it isn't done. What would take
// values away, or begin a round beside one that isn't known, is done after a question alone.
async function act(body) {
  say(text("one_moment"));
  try {
    const found = await ask("/api/operator", token, { instrument: chosen, ...body });
    say(text("done"));
    return found;
  } catch (fault) {
    say("");
    const question = { has_values: asksToReplace, not_known: asksToBegin }[fault.code];
    const more = question ? await question(body, fault) : refuse(fault);
    return more ? act({ ...body, ...more }) : null;
  }
}

// A step of the auction, of all instruments where it tries again what has halted; a second press before the
// page shows what came of the first does nothing.
async function takeStep(button) {
  const state = said.state[chosen];
  if (isOff(button) || stepped === state) return;
  stepped = state;
  const step = { do: button.dataset.do, phase: state.phase };
  if (step.do === "resume") step.instrument = undefined;
  if (!await act(step)) stepped = null;
}

function extend(event) {
  event.preventDefault();
  if (!isOff(find("extend"))) act({ do: "extend", seconds: Number(find("seconds").value) });
}

async function download(kind) {
  say(text("preparing"));
  const path = `/api/download/${kind}/${chosen}?language=${spoken()}`;
  const answer = await fetch(path, { headers: { Authorization: `Bearer ${token}` } });
  if (!answer.ok) {
    say(reasonText((await answer.json()).text), true);
    return;
  }
  const link = document.createElement("a");
  link.href = URL.createObjectURL(await answer.blob());
  link.download = decodeURIComponent(answer.headers.get("Content-Disposition").split("UTF-8''")[1]);
  link.click();
  say(text("done"));
  setTimeout(() => URL.revokeObjectURL(link.href), 10000);
}

for (const button of document.querySelectorAll("[data-do]")) {
  button.addEventListener("click", () => takeStep(button));
}
for (const button of document.querySelectorAll("[data-get]")) {
  button.addEventListener("click", () => download(button.dataset.get).catch(() => refuse({})));
}
find("extending").addEventListener("submit", extend);
find("showing").addEventListener("change", (event) => act({ do: "show", shows: event.target.value }));
find("paying").addEventListener("change", (event) => act({ do: "payoffs", shows: event.target.value }));
find("announcing").addEventListener("submit", (event) => {
  event.preventDefault();
  act({ do: "message", text: find("announced").value.trim() });
});
find("instrument").addEventListener("change", (event) => {
  chosen = event.target.value;
  handing.show();
  draw();
});
offerTabs(document.querySelector(".tabs"), draw);
offerLanguages(draw);
window.addEventListener("resize", draw);
token = tokenOfAddress("venue.operator");
ask("/api/day").then((day) => speak(day.language), () => speak("en")).finally(() => {
  if (token) new Connection(token, take);
  else close();
});
