// Which round it is and what its treatment is, in words.
import { money, shares, text } from "./common.js";

// The number of a round, its title, and whether it is for practice.
export function roundText({ round, title, practice }) {
  return [text("round", round), title, practice ? text("practice") : ""].filter(Boolean).join(" · ");
}

// What members may see and do in a round, a sentence each; with several instruments what is limited is limited
// in each.
export function treatmentTexts(found, terms, hasSeveral) {
  const [sharesKey, moneyKey] = hasSeveral ? ["shares_of_each", "money_of_each"] : ["shares_says", "money_says"];
  return [
    text(found.book === "open" ? "book_open" : "book_closed"),
    found.covered && text("covered_says"),
    !found.own_trades && text("own_trades_says"),
    found.shares !== null && text(sharesKey, shares(found.shares)),
    found.money && text(moneyKey, money(found.money, terms)),
  ].filter(Boolean);
}
