// The form of a new order, or of a change of one. What is refused stays in it; a second press while the
// first isn't answered sends nothing; the side stays as it was chosen.
import { asTyped, disable, faultText, find, hide, money, price, put, shares, spoken, text } from "./common.js";
import { NumberFault, priceOf, quantityOf } from "./numbers.js";

const FIELDS = ["quantity", "price", "peak"];
const WORDS_OF_FIELDS = { quantity: "quantity", price: "limit", peak: "peak" };
const FIELD_OF_REFUSAL = { BadQuantity: "quantity", BadLimit: "price", BadPeak: "peak", e_bad_price: "price",
  e_not_covered: "quantity" };

export const limitText = (limit) => (limit === "market" ? text("at_market") : price(limit));
export const orderText = ({ side, quantity, price: limit }) =>
  text(`order_${side}${limit === "market" ? "_market" : ""}`, shares(quantity), limitText(limit));

// What a message that is sent asks for, in words.
export function sentText(sent) {
  if (sent.type === "enter") return orderText(sent);
  if (sent.type === "delete") return text("sends_delete", sent.order);
  return text("sends_change", sent.order, shares(sent.quantity), limitText(sent.price));
}

export class OrderForm {
  // `page` has what the form asks of it: term(), closed() as the text of why no order is taken,
  // send(message), say(words, isBad).
  constructor(page) {
    Object.assign(this, { page, changing: null, number: null, before: "", hasChosen: false });
    find("order").addEventListener("submit", (event) => this.submit(event));
    find("order").addEventListener("input", () => this.edited());
    find("cancel").addEventListener("click", () => this.begin(null));
    find("market").addEventListener("change", () => this.draw());
    find("sides").addEventListener("change", () => { this.hasChosen = true; });
  }

  // ---- what is in it

  get side() {
    return this.changing?.side ?? find("order").elements.side.value;
  }

  // The side that one's value asks for, until another is chosen by hand, or a value of the other comes.
  prefer(side) {
    if (side !== this.preferred) Object.assign(this, { preferred: side, hasChosen: false });
    if (!this.hasChosen) find("order").elements.side.value = side;
  }

  // Begins a change of an order, or a new one: the side alone stays.
  begin(order) {
    this.changing = order;
    find("quantity").value = order ? String(order.open) : "";
    find("market").checked = order ? order.price === null : false;
    find("price").value = order?.price ? asTyped(order.price) : "";
    find("peak").value = find("only").value = "";
    this.mark(null);
    this.draw();
    if (order) find("quantity").focus();
  }

  content() {
    return JSON.stringify([...FIELDS.map((id) => find(id).value), find("market").checked, this.changing?.order]);
  }

  // The order that it says. Raises NumberFault, whose field is named.
  read() {
    const terms = this.page.term(), isMarket = find("market").checked;
    const quantity = this.readField("quantity", (words) => quantityOf(words, spoken(), terms.most_quantity));
    const limit = isMarket ? "market" : this.readField("price", (words) => priceOf(words, spoken(), terms));
    const found = { quantity, price: limit };
    if (this.changing) return { ...found, type: "change", order: this.changing.order };
    const only = find("only").value;
    const peak = find("peak").value.trim() && this.readField("peak", (words) => this.peakOf(words, quantity, isMarket));
    return { ...found, type: "enter", side: this.side, ...(peak && { peak }), ...(only && { only }) };
  }

  readField(id, read) {
    const words = find(id).value;
    try {
      return read(words);
    } catch (fault) {
      if (fault instanceof NumberFault) fault.field = id;
      throw fault;
    }
  }

  peakOf(words, quantity, isMarket) {
    const found = quantityOf(words, spoken(), this.page.term().most_quantity);
    if (isMarket || found > quantity) throw new NumberFault("n_peak");
    return found;
  }

  // ---- drawing

  draw() {
    const { changing } = this, terms = this.page.term();
    put(find("order-head"), changing ? text("change_order", changing.order) : text("new_order"));
    put(find("send"), text(changing ? "send_change" : "send"));
    hide(find("cancel"), !changing);
    hide(find("sides"), Boolean(changing));
    hide(find("more"), Boolean(changing));
    find("price").disabled = find("market").checked;
    disable(find("send"), this.page.closed() || this.number !== null);
    if (!terms) return;
    const ends = [terms.low, terms.high, terms.tick_size].map(price);
    put(find("bounds"), text("bounds", ...ends, shares(terms.most_quantity)));
    put(find("preview"), this.preview(terms));
  }

  // What the fields come to, as far as they can be read.
  preview(terms) {
    if (!find("quantity").value.trim()) return "\u00a0";
    try {
      const order = this.read();
      const words = orderText({ ...order, side: this.side });
      if (order.price === "market") return text("preview", words);
      return text("preview", text("together", words, money(product(order.quantity, order.price), terms)));
    } catch (fault) {
      if (fault instanceof NumberFault) return "\u00a0";
      throw fault;
    }
  }

  edited() {
    this.mark(null);
    this.page.say("");
    this.draw();
  }

  mark(id) {
    for (const field of FIELDS) find(field).setAttribute("aria-invalid", String(field === id));
  }

  // ---- sending, and what comes of it

  submit(event) {
    event.preventDefault();
    find("said").scrollIntoView({ block: "nearest" });
    if (this.number !== null) return;
    const why = this.page.closed();
    if (why) {
      this.page.say(why, true);
      return;
    }
    try {
      this.before = this.content();
      this.page.say("");
      this.number = this.page.send(this.read());
      this.draw();
    } catch (fault) {
      if (!(fault instanceof NumberFault)) throw fault;
      const field = find(fault.field);
      this.page.say(faultText(fault, text(WORDS_OF_FIELDS[fault.field]), field.value), true);
      this.mark(fault.field);
      field.focus();
    }
  }

  // Its message was done: it is empty again, unless it says something else by now.
  done(number) {
    if (number !== this.number) return;
    this.number = null;
    if (this.content() === this.before) this.begin(null);
    else this.draw();
  }

  // Its message wasn't done: what was sent stays.
  failed(number, code) {
    if (number !== this.number) return;
    this.number = null;
    if (this.content() === this.before) this.mark(FIELD_OF_REFUSAL[code] ?? null);
    this.draw();
  }

  // The order that is being changed is gone.
  check(orders) {
    if (!this.changing || this.number !== null || orders.some((it) => it.order === this.changing.order)) return;
    this.page.say(text("order_gone", this.changing.order), true);
    this.begin(null);
  }
}

// Shares times a decimal price.
function product(quantity, decimal) {
  const [whole, part = ""] = decimal.split(".");
  const digits = String(BigInt(whole + part) * BigInt(quantity)).padStart(part.length + 1, "0");
  const end = digits.length - part.length;
  return part ? `${digits.slice(0, end)}.${digits.slice(end)}` : digits;
}
