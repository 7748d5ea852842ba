// How values are handed out, as fields of a form say it; and the form by which they are handed out now.
import { asTyped, faultText, find, hide, put, spoken, text } from "./common.js";
import { priceOf, quantityOf } from "./numbers.js";

const HAVE_PRICES = ["chance", "schedule"];

// The fields of a form whose elements are named by this prefix; `term` gives the instrument.
export class ValueFields {
  constructor(form, prefix, term) {
    Object.assign(this, { form, prefix, term });
    this.field("how").addEventListener("change", () => this.draw());
  }

  field(name) {
    return find(this.prefix + name);
  }

  get how() {
    return this.field("how").value;
  }

  draw() {
    put(this.field("how-help"), text(`help_${this.how}`));
    for (const field of this.form.querySelectorAll("[data-how]")) {
      hide(field, !field.dataset.how.split(" ").includes(this.how));
    }
  }

  // The values of a round; by chance within the bounds of the instrument where it has no prices.
  show({ values = "", low = "", high = "", quantity = 100, demand = [], supply = [] }) {
    const bounds = this.term(), several = (prices) => prices.map(asTyped).join(" ");
    const written = { low: asTyped(low || bounds.low), high: asTyped(high || bounds.high), quantity: String(quantity),
      demand: several(demand), supply: several(supply) };
    for (const [name, words] of Object.entries(written)) this.field(name).value = words;
    if (HAVE_PRICES.includes(values)) this.field("how").value = values;
    this.draw();
  }

  // What they say, as the venue takes it. Raises an error whose text says what can't be read.
  async read() {
    const { how } = this;
    if (how === "list") return { file: await this.file() };
    if (how !== "chance" && how !== "schedule") return {};
    const most = this.term().most_quantity;
    const quantity = this.readField("quantity", (words) => quantityOf(words, spoken(), most));
    if (how === "schedule") return { quantity, demand: this.prices("demand"), supply: this.prices("supply") };
    const [low, high] = ["low", "high"].map((name) => this.prices(name)[0]);
    if (Number(low) > Number(high)) throw new Error(text("low_above"));
    return { quantity, low, high };
  }

  // The prices of a field, with spaces or semicolons between.
  prices(name) {
    const read = (words) => priceOf(words, spoken(), this.term());
    return this.readField(name, (words) => words.trim().split(/[\s;]+/).map(read));
  }

  async file() {
    const [file] = this.field("file").files;
    if (!file) throw new Error(text("no_file"));
    const bytes = await file.arrayBuffer();
    try {
      return new TextDecoder("utf-8", { fatal: true }).decode(bytes);
    } catch {
      throw new Error(text("not_utf8"));
    }
  }

  readField(name, read) {
    const words = this.field(name).value;
    try {
      return read(words);
    } catch (fault) {
      throw new Error(faultText(fault, text(name), words));
    }
  }
}

const MOST_NAMES = 12;

const listed = (names) => (names.length <= MOST_NAMES ? names.join(", ")
  : text("and_more", names.slice(0, MOST_NAMES).join(", "), names.length - MOST_NAMES));

// Who gets a new value and who keeps its own, where a question is asked before that is done; `whose` names
// the instrument where there are several.
export function losingText({ to }, { gets, keeps }, whose) {
  if (to === "all") return text("give_asks_help", whose);
  const rest = keeps.length ? text("give_keeps", listed(keeps)) : text("give_keeps_none");
  return `${text("give_gets", listed(gets), whose)} ${rest}`;
}

// The form by which the teacher hands out values now. `act` does what is asked for.
export class Handing {
  constructor(term, act) {
    Object.assign(this, { act, number: 0, round: {}, isEdited: false });
    this.fields = new ValueFields(find("giving"), "", term);
    find("giving").addEventListener("input", () => { this.isEdited = true; });
    find("giving").addEventListener("submit", (event) => this.submit(event));
  }

  // Another round is played, or this one is another by now. What was written stays where it has no prices.
  take({ round: number, now }) {
    if (number !== this.number && HAVE_PRICES.includes(now.values)) this.isEdited = false;
    Object.assign(this, { number, round: now });
    this.show();
  }

  // The values that the round hands out, until others are written there.
  show() {
    if (!this.isEdited) this.fields.show(this.round);
  }

  say(words, isBad = false) {
    put(find("give-said"), words, isBad ? "said bad" : "said good");
  }

  async submit(event) {
    event.preventDefault();
    this.say("");
    const { how } = this.fields, to = how === "list" ? "named" : how === "shuffle" ? "all" : find("whom").value;
    try {
      const found = await this.act({ do: "give", how, to, ...await this.fields.read() });
      if (!found) return;
      const absent = found.absent?.length ? ` ${text("absent", found.absent.join(", "))}` : "";
      this.say(text("given", found.given) + absent);
    } catch (fault) {
      this.say(fault.message, true);
    }
  }
}
