// Numbers as people write them in the page's language, and decimal texts such as 1234.50 as it shows
// them. A text that could be two numbers is refused with its reason, never taken as the other one.

const MARKS = { en: { point: ".", group: "," }, de: { point: ",", group: "." } };
const SPACES = /[\u00a0\u2009\u202f]/g;

// Why a text is no number here: `code` names a text of the pages, `values` fill its gaps.
export class NumberFault extends Error {
  constructor(code, ...values) {
    super(code);
    Object.assign(this, { code, values });
  }
}

const marksOf = (language) => MARKS[language] ?? MARKS.en;

// 1234.5 for "1,234.5" and "1 234.5" in English. The other language's point is taken where it can be
// no mark of thousands: 5.40 for "5,40". Raises NumberFault.
export function decimalOf(typed, language) {
  const { point, group } = marksOf(language);
  const text = typed.replace(SPACES, " ").trim();
  if (!text) throw new NumberFault("n_empty");
  if (/^[-−–+]/.test(text)) throw new NumberFault("n_signed");
  const whole = `\\d+|[1-9]\\d{0,2}(?:(?:\\${group}\\d{3})+|(?: \\d{3})+)`;
  const own = new RegExp(`^(${whole})?(?:\\${point}(\\d+))?$`).exec(text);
  const other = new RegExp(`^(\\d+)\\${group}(\\d+)$`).exec(text);
  if (own) return shortest(own[1] ?? "0", own[2]);
  if (other && (other[1] === "0" || other[2].length !== 3)) return shortest(other[1], other[2]);
  throw new NumberFault("n_unread", grouped("1000", language), grouped("1234.5", language));
}

function shortest(whole, part) {
  const found = whole.replace(/[^\d]/g, "").replace(/^0+(?=\d)/, "");
  return part === undefined ? found : `${found}.${part}`;
}

// A count of shares from 1 to `most`. Raises NumberFault.
export function quantityOf(typed, language, most) {
  const found = decimalOf(typed, language);
  if (found.includes(".")) throw new NumberFault("n_whole", grouped("1000", language));
  if (found === "0") throw new NumberFault("n_none");
  if (scaled(found, 0) > BigInt(most)) throw new NumberFault("n_above", grouped(most, language));
  return Number(found);
}

// A decimal price within the bounds of an instrument, and on its ticks, with as many digits as they have.
// Raises NumberFault.
export function priceOf(typed, language, { low, high, tick_size: tick }) {
  const found = decimalOf(typed, language);
  const digits = Math.max(...[found, low, high, tick].map((it) => digitsOf(it)));
  const [price, least, most, step] = [found, low, high, tick].map((it) => scaled(it, digits));
  if (price < least || price > most) throw new NumberFault("n_bounds", grouped(low, language), grouped(high, language));
  if (price % step) throw new NumberFault("n_step", grouped(tick, language));
  const [whole, part = ""] = found.split("."), shown = digitsOf(tick);
  return shown ? `${whole}.${part.padEnd(shown, "0").slice(0, shown)}` : whole;
}

const digitsOf = (decimal) => (decimal.split(".")[1] ?? "").length;

// A decimal as a whole number of units of its last digit.
function scaled(decimal, digits) {
  const [whole, part = ""] = decimal.split(".");
  return BigInt(whole + part.padEnd(digits, "0"));
}

// A decimal, or a whole number, with marks of thousands and the language's point.
export function grouped(number, language) {
  const { point, group } = marksOf(language);
  const [whole, part] = String(number).split(".");
  const marked = whole.replace("-", "−").replace(/\B(?=(\d{3})+$)/g, group);
  return part === undefined ? marked : `${marked}${point}${part}`;
}

// What was typed as a number in one language, as it is typed in another; else what it was.
export function retyped(words, before, after) {
  try {
    return typed(decimalOf(words, before), after);
  } catch (fault) {
    if (fault instanceof NumberFault) return words;
    throw fault;
  }
}

// A decimal as one would type it: without marks of thousands.
export const typed = (decimal, language) => decimal.replace(".", marksOf(language).point);
