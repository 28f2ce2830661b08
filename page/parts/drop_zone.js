// @ts-check
// A place where files are chosen, or dropped.

import { element, newId } from "./dom.js";

/** @param {{ label: string, hint: string, accept: string, multiple?: boolean }} words @param {(files: File[]) => void} take */
export function dropZone({ label, hint, accept, multiple = true }, take) {
  const id = newId("files");
  const input = /** @type {HTMLInputElement} */ (element("input", { type: "file", id, multiple, accept, class: "file" }));
  input.addEventListener("change", () => {
    take([...(input.files ?? [])]);
    input.value = "";
  });
  const zone = element("div", { class: "drop" }, element("label", { for: id }, label), input, element("p", { class: "hint" }, hint));
  listenToDrops(zone, take);
  return zone;
}

/** @param {HTMLElement} zone @param {(files: File[]) => void} take */
function listenToDrops(zone, take) {
  const over = (/** @type {boolean} */ is) => (/** @type {Event} */ event) => {
    event.preventDefault();
    zone.classList.toggle("over", is);
  };
  zone.addEventListener("dragover", over(true));
  zone.addEventListener("dragleave", over(false));
  zone.addEventListener("drop", (event) => {
    over(false)(event);
    const files = /** @type {DragEvent} */ (event).dataTransfer?.files;
    if (files) take([...files]);
  });
}
