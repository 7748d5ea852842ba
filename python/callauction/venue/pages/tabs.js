// Tabs, by mouse and by the arrow keys: one panel is shown, and the tab remembers which.
import { find, hide } from "./common.js";

const KEPT = "venue.tab";

export function offerTabs(list, onChange) {
  const tabs = [...list.querySelectorAll("[role=tab]")];
  const choose = (chosen, isByKey = false) => {
    for (const tab of tabs) {
      const isChosen = tab === chosen;
      tab.setAttribute("aria-selected", String(isChosen));
      tab.tabIndex = isChosen ? 0 : -1;
      hide(find(tab.getAttribute("aria-controls")), !isChosen);
    }
    if (isByKey) chosen.focus();
    sessionStorage.setItem(KEPT, chosen.id);
    onChange();
  };
  for (const tab of tabs) tab.addEventListener("click", () => choose(tab));
  list.addEventListener("keydown", ({ key }) => {
    const step = { ArrowRight: 1, ArrowLeft: -1 }[key];
    const place = tabs.indexOf(document.activeElement);
    if (step && place >= 0) choose(tabs[(place + step + tabs.length) % tabs.length], true);
  });
  choose(tabs.find((tab) => tab.id === sessionStorage.getItem(KEPT)) ?? tabs[0]);
}
