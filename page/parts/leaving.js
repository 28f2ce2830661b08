// @ts-check
// Asks before typed work is left.

import { phrases } from "../language.js";
import { actions, button, element, newId } from "./dom.js";

/** Whether to leave. Escape, and Enter of a scanner, stay.
 * @param {string} what is so far @param {string} then what becomes of it @param {string} label of the button that leaves
 * @returns {Promise<boolean>} */
export function askToLeave(what, then, label) {
  const id = newId("ask");
  const close = (/** @type {string} */ answer) => () => dialog.close(answer);
  const dialog = /** @type {HTMLDialogElement} */ (
    element(
      "dialog",
      { class: "card ask", "aria-labelledby": id },
      element("h2", { id }, what),
      element("p", {}, then),
      actions(button(phrases.leaving.stay, close("stay"), { class: "primary" }), button(label, close("leave"))),
    )
  );
  const opener = /** @type {HTMLElement | null} */ (document.activeElement);
  document.body.append(dialog);
  dialog.showModal();
  return new Promise((done) => {
    dialog.addEventListener("close", () => {
      dialog.remove();
      if (dialog.returnValue !== "leave") opener?.focus();
      done(dialog.returnValue === "leave");
    });
  });
}
