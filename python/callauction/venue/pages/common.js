// What all pages share: words in the chosen language, elements that are changed in place, questions
// to the venue.
import { grouped, NumberFault, retyped, typed } from "./numbers.js";
import { reasonIn } from "./reasons.js";
import { TEXTS } from "./texts.js";

export const find = (id) => document.getElementById(id);
const KEPT = "venue.language";
const SAYS_MORE = ["bad_message", "bad_phase", "above_limit", "not_covered", "no_shares", "no_money"];
const OF_A_NAME = "a name has ";
let language = localStorage.getItem(KEPT) || "";

export const spoken = () => (language in TEXTS ? language : "en");

// The words of a key in the chosen language; {0}, {1}, .. are filled with values.
export function text(key, ...values) {
  const words = TEXTS[spoken()][key] ?? key;
  return words.replace(/\{(\d)\}/g, (_, place) => values[place]);
}

// Puts the words of the chosen language into the page; the day's language where none was chosen.
export function speak(given) {
  language ||= given in TEXTS ? given : "en";
  document.documentElement.lang = language;
  for (const node of document.querySelectorAll("[data-text]")) node.textContent = text(node.dataset.text);
  find("language").lang = language === "de" ? "en" : "de";
}

// What is typed into fields stays the number that it was: one price, or several with spaces between.
function retype(before) {
  for (const field of document.querySelectorAll("input[inputmode]")) {
    const parts = field.inputMode === "text" ? field.value.split(/([\s;]+)/) : [field.value];
    const words = parts.map((it) => retyped(it, before, spoken())).join("");
    if (field.value !== words) field.value = words;
  }
}

export function offerLanguages(redraw) {
  find("language").addEventListener("click", () => {
    const before = spoken();
    language = language === "de" ? "en" : "de";
    retype(before);
    localStorage.setItem(KEPT, language);
    speak(language);
    redraw();
  });
}

// A number of shares, a decimal price, and an amount of money, as the language writes them.
export const shares = (number) => grouped(number, spoken());
export const price = (decimal) => grouped(decimal, spoken());
export const money = (amount, terms) => `${price(amount)} ${terms.currency}`;
export const asTyped = (decimal) => typed(decimal, spoken());

export const robotsText = (count) => text(count === 1 ? "robot_count" : "robots_count", shares(count));

// What is wrong, by the code of an error of the venue; what it says more is added where it says more.
export function errorText(fault) {
  const code = fault.code ?? fault.error, reason = fault.text ?? "";
  const isOther = code === "bad_name" && reason && !reason.startsWith(OF_A_NAME);
  const known = text(isOther ? "e_bad_message" : `e_${code}`);
  return reason && (isOther || SAYS_MORE.includes(code)) ? `${known} (${reasonText(reason)})` : known;
}

// What the venue says why, in the page's language.
export const reasonText = (words) => reasonIn(words, spoken());

// Why what was typed into a field is no number here. Raises what is no NumberFault.
export function faultText(fault, field, words) {
  if (!(fault instanceof NumberFault)) throw fault;
  return text(fault.code, field, words.trim(), ...fault.values);
}

export function make(tag, content = "", classes = "") {
  const node = document.createElement(tag);
  node.textContent = content;
  if (classes) node.className = classes;
  return node;
}

// Changes an element's text, or its class, where it is another: what is the same keeps its focus,
// its selection and a press that has begun.
export function put(node, words, classes) {
  if (node.textContent !== words) node.textContent = words;
  if (classes !== undefined && node.className !== classes) node.className = classes;
}

export function hide(node, isHidden) {
  if (node.hidden !== isHidden) node.hidden = isHidden;
}

// A button that can't be used now keeps its focus, and says so.
export function disable(button, isOff) {
  const words = String(Boolean(isOff));
  if (button.getAttribute("aria-disabled") !== words) button.setAttribute("aria-disabled", words);
}

export const isOff = (button) => button.getAttribute("aria-disabled") === "true";

// Figures: words and numbers, each in a place of its own that stays.
export function figures(list, pairs) {
  while (list.children.length > pairs.length) list.lastElementChild.remove();
  pairs.forEach(([word, number, classes = ""], place) => {
    let pair = list.children[place];
    if (!pair) {
      pair = make("div");
      pair.append(make("dt"), make("dd", "", "figure"));
      list.append(pair);
    }
    put(pair.firstElementChild, word);
    put(pair.lastElementChild, number, `figure ${classes}`.trim());
  });
}

// The choices of a list, which keeps the chosen one where it is still there.
export function choices(list, pairs) {
  const words = JSON.stringify(pairs);
  if (list.dataset.choices === words) return;
  list.dataset.choices = words;
  const chosen = list.value;
  list.replaceChildren(...pairs.map(([value, word]) => new Option(word, value)));
  if (pairs.some(([value]) => value === chosen)) list.value = chosen;
}

export async function ask(path, token, body) {
  const headers = token ? { Authorization: `Bearer ${token}` } : {};
  if (body) headers["Content-Type"] = "application/json";
  const answer = await fetch(path, { method: body ? "POST" : "GET", headers, body: body && JSON.stringify(body) });
  const found = await answer.json();
  if (!answer.ok) throw Object.assign(new Error(found.text), { ...found, code: found.error });
  return found;
}

// The token that the page's address brings, which the tab keeps and the address bar doesn't show.
export function tokenOfAddress(kept) {
  const token = location.hash.slice(1) || sessionStorage.getItem(kept) || "";
  if (token) sessionStorage.setItem(kept, token);
  history.replaceState(null, "", location.pathname);
  return token;
}
