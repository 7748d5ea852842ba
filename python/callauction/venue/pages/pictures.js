// Pictures of a book and of the course of a price, drawn as large as their place, in its letters.
import { make, price, shares, text } from "./common.js";

const NAMES = "http://www.w3.org/2000/svg";
const LETTER = 0.6, FLAT = 0.56, LEAST_HIGH = 230;

function drawn(tag, attributes, content = "") {
  const node = document.createElementNS(NAMES, tag);
  for (const [name, value] of Object.entries(attributes)) node.setAttribute(name, value);
  node.textContent = content;
  return node;
}

// The values to be written at an axis, no more than `count`: multiples of 1, 2 or 5 of a power of ten units.
function marks([least, most], unit, count) {
  let step = unit;
  for (let place = 0; (most - least) / step > count; place++) step *= place % 3 === 1 ? 2.5 : 2;
  const found = [];
  for (let times = Math.ceil(least / step - 1e-9); times * step <= most + 1e-9 * step; times++) {
    found.push(times * step + 0);
  }
  return found;
}

// An empty picture with its axes, below some lines of words: for each axis the least and the most, its
// unit, the text of a value, its name.
function picture(place, label, across, up, lines) {
  const size = parseFloat(getComputedStyle(place).fontSize);
  const wide = Math.max(240, place.clientWidth), space = place.clientHeight;
  const high = Math.max(LEAST_HIGH, place.classList.contains("filled") ? space : Math.min(wide * FLAT, 420));
  const upMarks = marks(up.ends, up.unit, (high - 4 * size) / (2.2 * size));
  const left = Math.max(...upMarks.map((value) => up.text(value).length)) * size * LETTER + 0.8 * size;
  const right = 1.6 * size, above = lines * size, bottom = high - 3 * size;
  const letters = Math.max(...across.ends.map((value) => across.text(value).length)) + 3;
  const acrossMarks = marks(across.ends, across.unit, (wide - left - right) / (letters * size * LETTER));
  const part = ([least, most], value) => (value - least) / (most - least || 1);
  const x = (value) => left + part(across.ends, value) * (wide - left - right);
  const y = (value) => bottom - part(up.ends, value) * (bottom - above);
  const node = drawn("svg", { viewBox: `0 0 ${wide} ${high}`, role: "img", "aria-label": label, "font-size": size });
  node.append(drawn("path", { class: "axis", d: `M${left} ${above}V${bottom}H${wide - right}` }));
  for (const value of upMarks) {
    const at = { x: left - 0.5 * size, y: y(value) + 0.35 * size, "text-anchor": "end" };
    node.append(drawn("text", at, up.text(value)));
  }
  for (const value of acrossMarks) {
    const at = { x: x(value), y: bottom + 1.3 * size, "text-anchor": "middle" };
    node.append(drawn("text", at, across.text(value)));
  }
  const end = { class: "name", x: wide - right, y: high - 0.4 * size, "text-anchor": "end" };
  node.append(drawn("text", end, across.name));
  return { node, x, y, left, right: wide - right, above, size };
}

function put(place, node) {
  place.replaceChildren(node);
}

// The axis of prices: from below the least to above the most.
function priceAxis(prices, terms) {
  const tick = Number(terms.tick_size), digits = (terms.tick_size.split(".")[1] || "").length;
  const ends = [Math.min(...prices) - tick, Math.max(...prices) + tick];
  return { ends, unit: tick, text: (value) => price(value.toFixed(digits)) };
}

// Demand and supply at each limit of a book, the highest first, and the most of both.
function curves(levels) {
  const priced = levels.filter((level) => level.price !== null);
  const market = levels.find((level) => level.price === null) ?? { bid: 0, ask: 0 };
  let [demand, supply] = [market.bid, market.ask];
  const bids = priced.map((level) => (demand += level.bid));
  const asks = [...priced].reverse().map((level) => (supply += level.ask)).reverse();
  return { prices: priced.map((level) => Number(level.price)), market, bids, asks, most: Math.max(demand, supply) };
}

// How far a picture of several books reaches: all their limits, the most of all their quantities.
export function reachOf(books) {
  const found = books.map(curves);
  return { prices: [...new Set(found.flatMap((it) => it.prices))], most: Math.max(0, ...found.map((it) => it.most)) };
}

// Demand and supply of a book as steps over the prices, with the price where they cross.
export function bookPicture(place, levels, crossing, terms, reach = null) {
  const { prices, market, bids, asks, most } = curves(levels);
  const reached = reach?.prices ?? prices;
  if (!reached.length) return put(place, make("p", text("no_limits"), "soft"));
  const up = priceAxis(reached, terms), [lowest, highest] = up.ends;
  const ends = [0, Math.max(reach?.most ?? most, 1)];
  const across = { ends, unit: 1, text: shares, name: text("shares") };
  const label = `${text("book")}: ${text("demand")}, ${text("supply")}`;
  const { node, x, y, left, right, size } = picture(place, label, across, up, 3);
  let path = `M${x(market.bid)} ${y(highest)}`;
  prices.forEach((value, step) => { path += `V${y(value)}H${x(bids[step])}`; });
  node.append(drawn("path", { class: "bids", d: `${path}V${y(lowest)}` }));
  path = `M${x(market.ask)} ${y(lowest)}`;
  [...prices].reverse().forEach((value, step) => { path += `V${y(value)}H${x(asks[prices.length - 1 - step])}`; });
  node.append(drawn("path", { class: "asks", d: `${path}V${y(highest)}` }));
  node.append(drawn("text", { class: "bids", x: 0, y: 1.2 * size }, `— ${text("demand")}`));
  const end = { class: "asks", x: right, y: 1.2 * size, "text-anchor": "end" };
  node.append(drawn("text", end, `- - ${text("supply")}`));
  if (crossing.price !== null) drawCrossing(node, crossing, { x, y, left, right, size });
  return put(place, node);
}

// The price as a line with its figure, and a dot at the volume that can be executed there.
function drawCrossing(node, { price: at, volume }, { x, y, left, right, size }) {
  const high = y(Number(at));
  node.append(drawn("path", { class: "price", d: `M${left} ${high}H${right}` }));
  node.append(drawn("circle", { class: "crossing", cx: x(volume), cy: high, r: 0.4 * size }));
  const words = { class: "at", x: right, y: high - 0.4 * size, "text-anchor": "end" };
  node.append(drawn("text", words, price(at)));
}

// The indicative price over the seconds of the call, from its begin to `end`.
export function coursePicture(place, { began, points }, end, terms) {
  const priced = points.filter((point) => point.price !== null);
  if (!priced.length) return put(place, make("p", text("no_price_yet"), "soft"));
  const begin = began ?? points[0].time, last = Math.max(end, points.at(-1).time, begin + 1);
  const across = { ends: [0, last - begin], unit: 1, text: (it) => shares(Math.round(it)), name: text("seconds") };
  const up = priceAxis(priced.map((point) => Number(point.price)), terms);
  const { node, x, y, size } = picture(place, text("course"), across, up, 1);
  let path = "", before = null;
  for (const point of points) {
    const time = x(Math.max(0, point.time - begin));
    if (before !== null) path += `H${time}`;
    if (point.price !== null) path += `${before === null ? `M${time} ` : "V"}${y(Number(point.price))}`;
    before = point.price;
  }
  node.append(drawn("path", { class: "course", d: before === null ? path : `${path}H${x(last - begin)}` }));
  if (before !== null) {
    node.append(drawn("circle", { class: "crossing", cx: x(last - begin), cy: y(Number(before)), r: 0.4 * size }));
  }
  return put(place, node);
}

// A QR code: `path` draws its dark modules.
export function drawCode(node, { size, path }) {
  if (node.dataset.path === path) return;
  node.dataset.path = path;
  node.setAttribute("viewBox", `0 0 ${size} ${size}`);
  node.replaceChildren(drawn("path", { d: path }));
}
