// A question before what can't be taken back: nothing is done but by the button that names it.
import { find, hide, put } from "./common.js";

// Whether it is to be done; or, where the question has a field, what is written there then.
export function asks(head, help, yes, written = null) {
  const dialog = find("asking"), field = find("asking-field");
  put(find("asking-head"), head);
  put(find("asking-help"), help);
  put(find("asking-yes"), yes);
  hide(field, written === null);
  field.value = written ?? "";
  return new Promise((settle) => {
    find("asking-form").onsubmit = (event) => {
      event.preventDefault();
      settle(written === null ? true : field.value);
      dialog.close();
    };
    find("asking-no").onclick = () => dialog.close();
    dialog.onclose = () => settle(null);
    dialog.showModal();
  });
}
