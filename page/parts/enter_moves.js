// @ts-check
// Makes Enter in a field go on to the next field. A barcode scanner ends each code with Enter, which must not send anything.

/** @param {HTMLElement} input @param {HTMLElement[]} all */
function isStop(input, all) {
  if (!(input instanceof HTMLInputElement) || input.type !== "radio") return true;
  // the tabulator stops once in a group of radios
  const group = all.filter((it) => it instanceof HTMLInputElement && it.name === input.name);
  const checked = group.find((it) => /** @type {HTMLInputElement} */ (it).checked);
  return input === (checked ?? group[0]);
}

/** @param {HTMLElement} root @param {HTMLElement} input @param {HTMLElement} last what comes after the last field */
function following(root, input, last) {
  const all = /** @type {HTMLElement[]} */ ([...root.querySelectorAll("input, select")]).filter((it) => it.checkVisibility());
  const name = input instanceof HTMLInputElement && input.type === "radio" ? input.name : null;
  const rest = all.slice(all.indexOf(input) + 1).filter((it) => !(name && it instanceof HTMLInputElement && it.name === name));
  return rest.find((it) => isStop(it, all)) ?? last;
}

/** @param {HTMLElement} root @param {HTMLElement} last */
export function enterMoves(root, last) {
  root.addEventListener("keydown", (event) => {
    const { target } = event;
    const isField = target instanceof HTMLInputElement || target instanceof HTMLSelectElement;
    if (event.key !== "Enter" || event.isComposing || !isField) return;
    event.preventDefault();
    const next = following(root, target, last);
    next.focus();
    if (next instanceof HTMLInputElement) next.select();
  });
}
