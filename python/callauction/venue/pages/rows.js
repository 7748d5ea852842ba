// Tables whose rows stay the same elements while what is in them changes, so that a press or a focus
// on a button of a row outlasts the traffic of others.
import { disable, isOff, make, put } from "./common.js";

// Fills the body of a table: an item a row, known by its key. A cell is a text; or an object with
// `text` and `classes`; or `number`; or `buttons`, each with its name, text, label and `press`.
// Where a row is narrow a cell with a `label` shows it before its text.
export function fill(table, items, keyOf, cellsOf) {
  const body = table.tBodies[0], focused = document.activeElement;
  const wanted = new Set(items.map((item) => String(keyOf(item))));
  for (const row of [...body.rows]) if (!wanted.has(row.dataset.key)) leave(row, focused, table);
  const rows = new Map([...body.rows].map((row) => [row.dataset.key, row]));
  let place = body.firstElementChild;
  for (const item of items) {
    const key = String(keyOf(item));
    const row = rows.get(key) ?? made(key);
    if (row === place) place = place.nextElementSibling;
    else body.insertBefore(row, place);
    row.item = item;
    change(row, cellsOf(item));
  }
  if (focused !== document.activeElement && body.contains(focused)) focused.focus({ preventScroll: true });
}

function made(key) {
  const row = make("tr");
  row.dataset.key = key;
  row.setAttribute("role", "row");
  return row;
}

// Takes a row away. A focus in it goes to the same button of a neighbour, else to the table's section.
function leave(row, focused, table) {
  if (row.contains(focused)) {
    const near = row.nextElementSibling ?? row.previousElementSibling;
    const same = near?.querySelector(`[data-name="${focused.dataset.name}"]`);
    (same ?? table.closest("section")).focus({ preventScroll: true });
  }
  row.remove();
}

function change(row, cells) {
  cells.forEach((cell, place) => {
    let node = row.cells[place];
    if (!node) {
      node = make("td");
      node.setAttribute("role", "cell");
      row.append(node);
    }
    if (cell.label !== undefined && node.dataset.label !== cell.label) node.dataset.label = cell.label;
    if (cell.buttons) changeButtons(row, node, cell);
    else if (cell.number !== undefined) put(node, cell.number, `number ${cell.classes ?? ""}`.trim());
    else put(node, cell.text ?? cell, cell.classes ?? "");
  });
}

function changeButtons(row, node, { buttons, classes = "" }) {
  if (node.className !== classes) node.className = classes;
  if (!node.firstElementChild) node.append(make("div", "", "buttons"));
  const place = node.firstElementChild;
  for (const { name, text, label, press, off = false, kind = "small" } of buttons) {
    let button = place.querySelector(`[data-name="${name}"]`);
    if (!button) {
      button = make("button", text, kind);
      Object.assign(button, { type: "button" });
      button.dataset.name = name;
      button.addEventListener("click", () => { if (!isOff(button)) press(row.item, button); });
      place.append(button);
    }
    put(button, text);
    if (label && button.getAttribute("aria-label") !== label) button.setAttribute("aria-label", label);
    disable(button, off);
  }
}
