// The teacher's form of the next round: as the day plans it, until something else is written there.
import { asks } from "./asking.js";
import { asTyped, disable, faultText, find, isOff, put, spoken, text } from "./common.js";
import { ValueFields } from "./handing.js";
import { decimalOf, priceOf, quantityOf } from "./numbers.js";
import { roundText, treatmentTexts } from "./rounds.js";

export class RoundForm {
  // `term` gives the instrument, `act` does what is asked for.
  constructor(term, act) {
    Object.assign(this, { term, act, round: null, isEdited: false });
    const form = find("next-form");
    this.fields = new ValueFields(form, "next-", term);
    form.addEventListener("input", () => { this.isEdited = true; });
    form.addEventListener("submit", (event) => this.submit(event));
    find("next-round").addEventListener("click", () => this.ask());
    find("treat").addEventListener("click", () => this.treat());
  }

  // Another round is played, or this one is another by now.
  take(round) {
    const isNew = this.round?.round !== round.round;
    this.round = round;
    if (isNew || !this.isEdited) this.show(round.next);
  }

  show(next) {
    const price = (words) => (words ? asTyped(words) : "");
    const values = {
      title: next.title, message: next.message, how: next.values, low: price(next.low), high: price(next.high),
      quantity: String(next.quantity), demand: next.demand.map(price).join(" "), reference: price(next.reference),
      supply: next.supply.map(price).join(" "), call: next.call ?? "", shares: next.shares ?? "",
      money: price(next.money),
    };
    for (const [name, value] of Object.entries(values)) find(`next-${name}`).value = value;
    find("next-practice").checked = next.practice;
    find("next-book").checked = next.book === "open";
    find("next-covered").checked = next.covered;
    find("next-own").checked = !next.own_trades;
    this.isEdited = false;
    this.fields.draw();
  }

  // `hasSeveral` says whether there are several instruments.
  draw(isBetween, hasSeveral) {
    this.hasSeveral = hasSeveral;
    if (!this.round) return;
    put(find("this-round"), roundText(this.round));
    put(find("this-treatment"), treatmentTexts(this.round, this.term(), this.hasSeveral).join(" "));
    put(find("next-head"), text("next_round", this.round.round + 1));
    put(find("begin-next"), text("begin_round", this.round.round + 1));
    for (const id of ["next-round", "begin-next"]) disable(find(id), !isBetween);
    disable(find("treat"), this.round.begun);
    this.fields.draw();
  }

  say(words, isBad = false) {
    put(find("next-said"), words, isBad ? "said bad" : "said good");
  }

  // Says a fault also beside the button from which the form may be out of sight.
  sayFault(fault) {
    this.say(fault.message, true);
    put(find("said"), fault.message, "said bad");
  }

  // The round as the form says it. Raises an error whose text says what can't be read.
  async read() {
    const written = (name) => find(`next-${name}`).value.trim();
    const optional = (name, read) => {
      const words = written(name);
      if (!words) return {};
      try {
        return { [name]: read(words) };
      } catch (fault) {
        throw new Error(faultText(fault, text(`next_${name}`), words));
      }
    };
    const whole = (words) => (words === "0" ? 0 : quantityOf(words, spoken(), this.term().most_quantity));
    return {
      title: written("title"), practice: find("next-practice").checked, message: written("message"),
      book: find("next-book").checked ? "open" : "closed", covered: find("next-covered").checked,
      own_trades: !find("next-own").checked, values: this.fields.how, ...await this.fields.read(),
      ...optional("reference", (words) => priceOf(words, spoken(), this.term())), ...optional("call", whole),
      ...optional("shares", whole), ...optional("money", (words) => decimalOf(words, spoken())),
    };
  }

  submit(event) {
    event.preventDefault();
    this.ask();
  }

  // Begins the next round, after a question.
  async ask() {
    if (isOff(find("next-round"))) return;
    const number = this.round.round + 1;
    try {
      const body = { do: "next", round: number };
      if (this.isEdited) body.treatment = await this.read();
      if (!await asks(text("next_asks", number), text("next_asks_help"), text("begin_round", number))) return;
      this.say((await this.act(body)) ? text("done") : "");
    } catch (fault) {
      this.sayFault(fault);
    }
  }

  // Makes this round another one, as long as it hasn't begun.
  async treat() {
    if (isOff(find("treat"))) return;
    try {
      const found = await this.act({ do: "treat", treatment: await this.read() });
      if (found) this.say(text("treated"));
    } catch (fault) {
      this.sayFault(fault);
    }
  }
}
