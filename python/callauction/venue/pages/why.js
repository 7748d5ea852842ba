// Why an auction has its price, in a few sentences: the program says which limits are best and which
// rule made the price; here it is put into words, with the book's numbers.
import { price, shares, text } from "./common.js";

const MOST_NAMED = 3;

function listed(words) {
  return words.length < 2 ? words.join("") : `${words.slice(0, -1).join(", ")} ${text("and")} ${words.at(-1)}`;
}

// The sentences of a book as the venue's replay has it.
export function reasonsOf(book) {
  const limits = book.levels.filter((it) => it.bid || it.ask);
  if (book.rule === null) return [withoutPrice(book, limits)];
  if (book.rule === "market") return [text("why_market", price(book.price))];
  const best = book.levels.filter((it) => it.is_best).reverse();
  return [...best.length ? mostOf(limits, best) : [], ...decidedBy(book, best)];
}

function withoutPrice({ market }, limits) {
  const bid = limits.find((it) => it.bid), ask = limits.findLast((it) => it.ask);
  const [hasBids, hasAsks] = [market.bid || bid, market.ask || ask];
  if (!hasBids && !hasAsks) return text("why_empty");
  if (!hasAsks) return text("why_no_asks");
  if (!hasBids) return text("why_no_bids");
  return text("why_none", price(bid.price), price(ask.price));
}

// Which limits execute most and, where several do, which of them leave the least over.
function mostOf(limits, best) {
  const { volume, surplus } = best[0];
  const most = limits.filter((it) => it.volume === volume).reverse();
  const names = (rows) => rows.map((it) => price(it.price));
  const found = [mostText(names(most), volume)];
  if (most.length > best.length) {
    const key = best.length === 1 ? "why_least" : "why_least_some";
    found.push(text(key, listed(names(best)), shares(surplus)));
  }
  return found;
}

function mostText(names, volume) {
  if (names.length === 1) return text("why_most_one", names[0], shares(volume));
  if (names.length <= MOST_NAMED) return text("why_most_some", shares(volume), listed(names));
  return text("why_most_span", shares(volume), names[0], names.at(-1), shares(names.length));
}

function decidedBy({ rule, price: at, reference }, best) {
  if (rule === "highest" || rule === "lowest") return [text(`why_${rule}`, price(at))];
  return rule === "reference" ? byReference(best, reference) : [];
}

// Two limits are kept, by the side of what is left over, and the reference chooses. The best limits come
// from the lowest up.
function byReference(best, reference) {
  const lower = best.findLast((it) => it.side === "bid"), upper = best.find((it) => it.side === "ask");
  const hasSides = lower && upper, [low, high] = hasSides ? [lower, upper] : [best[0], best.at(-1)];
  const sides = hasSides ? [text("why_sides", price(low.price), price(high.price))] : [];
  return [...sides, chosenText(Number(reference), reference, low.price, high.price)];
}

function chosenText(number, reference, low, high) {
  if (number >= Number(high)) return text("why_above", price(reference), price(high));
  if (number <= Number(low)) return text("why_below", price(reference), price(low));
  return text("why_at", price(reference));
}
