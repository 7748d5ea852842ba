"""What of a page is hard to read: texts with too little contrast, and lines."""
from typing import Any

FAULTS = """
const [leastOfText, leastOfLine] = arguments;

function parsed(text) {
  const [red, green, blue, alpha = 1] = text.match(/[\\d.]+/g).map(Number);
  return { rgb: [red, green, blue], alpha };
}

const over = (rgb, under, alpha) => rgb.map((value, at) => value * alpha + under[at] * (1 - alpha));

function light(rgb) {
  const [red, green, blue] = rgb.map((value) => value / 255)
    .map((it) => (it <= 0.03928 ? it / 12.92 : ((it + 0.055) / 1.055) ** 2.4));
  return 0.2126 * red + 0.7152 * green + 0.0722 * blue;
}

function ratio(first, second) {
  const [less, more] = [light(first), light(second)].sort((one, other) => one - other);
  return (more + 0.05) / (less + 0.05);
}

// An element and all that it is in.
function* around(node) {
  for (let it = node; it; it = it.parentElement) yield it;
}

function ground(node) {
  const found = [...around(node)].map((it) => parsed(getComputedStyle(it).backgroundColor));
  return found.reverse()
    .reduce((under, { rgb, alpha }) => over(rgb, under, alpha), [255, 255, 255]);
}

const found = new Set();

function judge(node, colour, what, least) {
  const { rgb, alpha } = parsed(colour), under = ground(node);
  const seen = [...around(node)].reduce((all, it) => all * getComputedStyle(it).opacity, alpha);
  const contrast = ratio(over(rgb, under, seen), under);
  if (contrast < least) found.add(`${contrast.toFixed(2)}: ${what}`);
}

for (const node of document.querySelectorAll("body *")) {
  const style = getComputedStyle(node);
  const name = `${node.tagName} ${node.id} ${node.textContent.trim()}`;
  if (!node.getClientRects().length || style.visibility === "hidden") continue;
  const isField = node.matches("input:not([type=radio], [type=checkbox]), select");
  const isDrawn = node instanceof SVGElement;
  if (isField || [...node.childNodes].some((it) => it.nodeType === 3 && it.data.trim())) {
    judge(node, isDrawn ? style.fill : style.color, name, leastOfText);
  }
  if (isDrawn && node.tagName === "path") judge(node, style.stroke, name, leastOfLine);
  if (isField || node.matches("button")) {
    judge(node.parentElement, style.borderColor, name, leastOfLine);
  }
}
return [...found];
"""
TEXT, LINE = 4.5, 3.0
"""The least contrasts: of texts, of the lines of pictures and around fields."""


def faults(driver: Any, scheme: str) -> list[str]:
    """What has less contrast than it must have, each with what it has, to somebody who prefers this
    scheme of colours: light or dark.
    """
    media = {"features": [{"name": "prefers-color-scheme", "value": scheme}]}
    driver.execute_cdp_cmd("Emulation.setEmulatedMedia", media)
    return [str(it) for it in driver.execute_script(FAULTS, TEXT, LINE)]
