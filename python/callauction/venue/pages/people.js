// The members as the teacher sees them: who is there, what they have and gained, and what is done with
// one of them, with the door, with robots.
import { asks } from "./asking.js";
import { find, hide, price, put, robotsText, shares, spoken, text } from "./common.js";
import { fill } from "./rows.js";

const KEYS = {
  name: (it) => it.name.toLocaleLowerCase(spoken()), status: (it) => Number(!it.is_here),
  value: (it) => Number(it.value?.price ?? -1), gain: (it) => Number(it.gain ?? -Infinity),
};

// Whether a row is of a member that is still in the venue, and has a gain.
const hasPlace = (row) => !row.is_removed && row.gain != null;

export class People {
  // `act` does what is asked for.
  constructor(act) {
    Object.assign(this, { act, members: [], codes: {}, isOpen: true, most: Infinity, slowed: [], small: [] });
    this.sorted = { by: "", isDown: false };
    for (const head of document.querySelectorAll("[data-sort]")) {
      head.querySelector("button").addEventListener("click", () => this.sortBy(head.dataset.sort));
    }
    find("door").addEventListener("click", () => act({ do: "door", open: !this.isOpen }));
    find("day-code").addEventListener("click", () => act({ do: "code" }));
    find("remove-away").addEventListener("click", () => this.removeAway());
    find("robot-form").addEventListener("submit", (event) => this.addRobots(event));
    find("no-robots").addEventListener("click", () => act({ do: "robots", count: 0 }));
  }

  // Robots that were removed are no longer listed.
  take({ members, codes, open = true, most = Infinity, slowed = [], small = [] }) {
    Object.assign(this, { codes, isOpen: open, most, slowed, small });
    this.members = members.filter((it) => !it.is_removed || !it.robot);
  }

  // Says who came late into a group that is nearly empty; that nobody more can join, or which addresses are slowed,
  // and what to do.
  drawArrivals(count) {
    const full = count < this.most ? [] : [text("all_taken", shares(this.most))];
    const texts = [...full, ...this.slowed.map((it) => text("slowed", it.address, shares(it.count), it.last))];
    if (texts.length) texts.push(text("arrivals_do"));
    texts.unshift(...this.small.map((it) => text("small_group", it.group, it.names.join(", "))));
    hide(find("arrivals"), !texts.length);
    put(find("arrivals"), texts.join("\n"));
  }

  // The members with what they have, by their gains or as the teacher sorts them. Who was removed has no place.
  ranked(chosen) {
    const rows = this.members.map((it) => ({ ...it, ...valueOf(it, chosen) }));
    const gains = rows.filter(hasPlace).map((it) => Number(it.gain));
    const isRanked = gains.some((it) => it !== gains[0]);
    for (const row of rows) {
      const before = gains.filter((it) => it > Number(row.gain)).length;
      row.rank = isRanked && hasPlace(row) ? String(1 + before) : "";
    }
    const { by, isDown } = this.sorted;
    if (!by) return rows;
    const key = KEYS[by], sign = isDown ? -1 : 1;
    return rows.sort((one, other) => sign * (key(one) > key(other) ? 1 : key(one) < key(other) ? -1 : 0));
  }

  // Who is no robot, and not here.
  get away() {
    return this.members.filter((it) => !it.is_removed && !it.robot && !it.is_here);
  }

  // `hasBegun` says whether the values of the round are handed out; `title` is the instrument's where there are
  // several.
  draw(chosen, hasBegun = this.hasBegun, title = this.title) {
    Object.assign(this, { chosen, hasBegun, title });
    for (const key of ["values", "gains"]) put(document.querySelector(`#members [data-text=${key}]`), this.headOf(key));
    const there = this.members.filter((it) => !it.is_removed), here = there.filter((it) => it.is_here);
    this.drawArrivals(there.length);
    put(find("door"), text(this.isOpen ? "close_door" : "open_door"));
    hide(find("no-members"), Boolean(this.members.length));
    hide(find("members").parentElement, !this.members.length);
    const robots = there.filter((it) => it.robot);
    const [count, countHere] = [there, here].map((those) => those.length - robots.length);
    const words = text(count === 1 ? "member_count" : "members_count", shares(count), shares(countHere));
    put(find("count"), robots.length ? `${words}, ${robotsText(robots.length)}` : words);
    hide(find("remove-away"), !this.away.length);
    hide(find("no-robots"), !robots.length);
    const lacks = robots.some((it) => it.robot !== "zero" && !valueOf(it, chosen).value);
    hide(find("robots-help"), !lacks || !(hasBegun || there.some((it) => valueOf(it, chosen).value)));
    this.drawLacking(there.filter((it) => !it.robot));
    find("members").classList.toggle("one-group", there.every((it) => it.group === 1));
    fill(find("members"), this.ranked(chosen), (it) => it.name, (it) => this.cellsOf(it));
    for (const head of document.querySelectorAll("[data-sort]")) this.markSorted(head);
    this.drawCodes();
  }

  // Says how many of those who are no robots have no value, where others have one.
  drawLacking(those) {
    const lacking = those.filter((it) => !valueOf(it, this.chosen).value).length;
    hide(find("lacking"), !lacking || lacking === those.length);
    put(find("lacking"), text("lacking", shares(lacking)));
  }

  cellsOf(it) {
    const here = text(it.is_removed ? "is_removed" : it.is_here ? "is_here" : "is_away");
    const status = it.robot ? `${text("robot")}: ${text(`robot_${it.robot}`)}` : here;
    const value = it.value ? { text: valueText(it.value), classes: it.value.side }
      : { text: text("no_value"), classes: "soft" };
    const act = (name, key, press) => ({ name, text: text(key), label: `${text(key)}: ${it.name}`, press });
    const back = act("remove", it.is_removed ? "readmit" : "remove", (member) => this.removeOrReadmit(member));
    const buttons = [act("code", "new_code", (member) => this.act({ do: "code", member: member.name })),
      act("rename", "rename", (member) => this.rename(member)), back];
    return [
      { number: it.rank, label: text("rank") }, { text: it.name, classes: "name" },
      { text: status, classes: it.is_here && !it.is_removed ? "good" : "soft" }, value,
      { number: it.gain == null ? "" : price(it.gain), label: this.headOf("gains") },
      { text: Object.hasOwn(this.codes, it.name) ? this.codes[it.name] : "", classes: "own-code" },
      { number: shares(it.group), label: text("group"), classes: "group" },
      { classes: "doing", buttons: it.robot ? [back] : buttons },
    ];
  }

  headOf(key) {
    return this.title ? text("head_of", text(key), this.title) : text(key);
  }

  markSorted(head) {
    if (head.dataset.sort !== this.sorted.by) head.removeAttribute("aria-sort");
    else head.setAttribute("aria-sort", this.sorted.isDown ? "descending" : "ascending");
  }

  // The code of the day, and those of names that nobody has taken yet.
  drawCodes() {
    const others = Object.entries(this.codes).filter(([name]) => name && !this.members.some((it) => it.name === name));
    const day = this.codes[""] && `${text("code")}: ${this.codes[""]}`;
    put(find("codes"), [day, ...others.map(([name, code]) => `${name}: ${code}`)].filter(Boolean).join(" · "));
  }

  sortBy(by) {
    const isGain = by === "gain", { sorted } = this;
    if (sorted.by !== by) this.sorted = { by, isDown: isGain };
    else this.sorted = sorted.isDown === isGain ? { by, isDown: !isGain } : { by: "", isDown: false };
    this.draw(this.chosen);
  }

  async rename({ name }) {
    const written = await asks(text("rename_asks", name), "", text("rename"), name);
    if (written) await this.act({ do: "rename", member: name, name: written });
  }

  async removeOrReadmit({ name, is_removed: isRemoved }) {
    if (isRemoved) await this.act({ do: "readmit", member: name });
    else if (await asks(text("remove_asks", name), text("remove_help"), text("remove"))) {
      await this.act({ do: "remove", member: name });
    }
  }

  async removeAway() {
    const names = this.away.map((it) => it.name);
    const help = `${text("remove_away_help")} ${text("remove_help")}`;
    if (await asks(text("remove_away_asks", shares(names.length)), help, text("remove"))) {
      await this.act({ do: "remove", members: names });
    }
  }

  async addRobots(event) {
    event.preventDefault();
    const count = find("robots").value.trim();
    if (/^\d{1,3}$/.test(count)) await this.act({ do: "robots", count: Number(count), kind: find("robot-kind").value });
  }
}

// The instrument of a board, whose name has the number of its group behind it.
export const marketOf = (name) => name.replace(/\.\d+$/, "");

// What a member has of an instrument, on the board of its own group.
function valueOf(it, chosen) {
  const own = Object.keys(it.values).find((name) => marketOf(name) === marketOf(chosen));
  return it.values[own] ?? {};
}

const valueText = ({ side, quantity, price: worth }) => `${text(side)} ${shares(quantity)} · ${price(worth)}`;
