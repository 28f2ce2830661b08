// @ts-check
// A cancellation: a quantity of an order line that is still open.

import { gtinAsPrinted } from "../edi/identifiers.js";
import { cancellationText } from "../hub/cancellation.js";
import { KnownLine } from "../hub/known_line.js";
import { phrases } from "../language.js";
import { cancellationInWords, tooMuchInWords } from "../parts/cancellation_words.js";
import { actions, button, element, figure, heading, link } from "../parts/dom.js";
import { wrongNumber } from "../parts/document_number.js";
import { Field, check, focusFirstWrong, wholeNumber } from "../parts/field.js";
import { wrongGln } from "../parts/gln.js";
import { look } from "../parts/look.js";
import { documentNumber } from "../parts/order_number.js";
import { sendingForm } from "../parts/sending_form.js";
import { clockTime } from "../parts/sending_panel.js";
import { partyNames } from "../party_names.js";

/** @typedef {Record<"supplier" | "order" | "line" | "quantity", Field>} Fields */

/** @type {Record<string, "supplier" | "order" | "line" | "quantity">} */
const PLACES = { B02: "supplier", B05: "order", B06: "line", B17: "quantity" };

/** @param {import("../start.js").Context} context @param {...string} words supplier, order and line, where they are known */
export async function cancelScreen(context, ...words) {
  const { session, go } = context;
  const [supplier = session.supplier, order = "", line = ""] = words;
  const wrong = supplier && wrongGln(supplier);
  const known = new KnownLine(session);
  const { byName } = partyNames(session);
  if (supplier && order && !wrong) await known.ask({ supplier, order, line: Number(line) });
  const fields = fieldsFor({ supplier, order, line });
  const all = Object.values(fields);
  fields.supplier.say(wrong);
  for (const it of [fields.supplier, fields.order, fields.line]) it.input.addEventListener("input", () => showOpen(fields, known));
  const next = element("div", {});
  const form = await sendingForm({
    context,
    kind: "cancellation",
    what: () => cancellationInWords(typedIn(fields)),
    noun: phrases.cancel.noun,
    draft: ["cancel", ...words].join("/"),
    content: all.map((it) => it.element),
    check: () => checked(fields, all),
    look: { ask: () => known.ask(typedIn(fields)), check: () => isOpen(fields, known) },
    summary: () => summaryOf(fields, known, byName),
    write: ({ reference }) => bodyOf(fields, reference),
    settled: ({ outcome, code }) => {
      if (outcome === "refused") return showRefusal(fields, known, code);
      next.replaceChildren(nextSteps(fields.supplier.trimmed, go));
    },
  });
  showOpen(fields, known);
  const content = [heading(phrases.cancel.heading), element("div", { class: "narrow" }, form, next)];
  return { title: phrases.cancel.title, content, focus: wrong ? fields.supplier.input : undefined };
}

/** @param {{ supplier: string, order: string, line: string }} words @returns {Fields} */
function fieldsFor({ supplier, order, line }) {
  const short = { inputmode: "numeric", class: "short" };
  const hint = phrases.cancel.atMostOpen;
  const { supplier: ofSupplier, order: ofOrder, line: ofLine, quantity: ofQuantity } = phrases.cancel;
  return {
    supplier: new Field({ label: ofSupplier, field: "cancel.supplier", value: supplier, inputmode: "numeric", maxlength: 20 }),
    order: new Field({ label: ofOrder, field: "cancel.order", value: order, maxlength: 35 }),
    line: new Field({ label: ofLine, field: "cancel.line", value: line, maxlength: 6, ...short }),
    quantity: new Field({ label: ofQuantity, field: "cancel.quantity", hint, maxlength: 9, ...short }),
  };
}

/** @param {string} supplier @param {(to: string) => void} go */
function nextSteps(supplier, go) {
  return actions(
    link(phrases.common.statusOfThisSupplier, `supplier/${supplier}`, { class: "button primary" }),
    button(phrases.cancel.another, () => go(`cancel/${supplier}`)),
  );
}

/** What is typed; a number that is missing is NaN.
 * @param {Fields} fields */
const typedIn = ({ supplier, order, line, quantity }) => ({
  supplier: supplier.trimmed,
  order: order.value,
  line: wholeNumber(line.value),
  quantity: wholeNumber(quantity.value),
});

/** Says at the quantity what is open of the line that is typed, if that is known.
 * @param {Fields} fields @param {KnownLine} known */
function showOpen(fields, known) {
  const line = known.of(typedIn(fields));
  const words = line ? phrases.cancel.areOpen(gtinAsPrinted(line.gtin), line.open) : phrases.cancel.atMostOpen;
  fields.quantity.hint?.replaceChildren(words);
}

/** @param {Fields} fields @param {KnownLine} known @param {(gln: string) => string} byName
 * @returns {import("../parts/summary.js").SummaryWords} */
function summaryOf(fields, known, byName) {
  const { supplier, order, line, quantity } = typedIn(fields);
  const it = known.of({ supplier, order, line });
  const article = it ? gtinAsPrinted(it.gtin) : "";
  const open = !it ? "" : known.isFresh ? phrases.cancel.nowOpen(it.open) : phrases.cancel.wereOpen(it.open, clockTime(known.at));
  return { lead: [...phrases.cancel.lead(quantity, article, documentNumber(order), figure(line), byName(supplier)), open && ` ${open}`] };
}

/** @param {Fields} fields @param {Field[]} all */
function checked(fields, all) {
  const line = wholeNumber(fields.line.value);
  const right = [
    check(fields.supplier, wrongGln(fields.supplier.trimmed)),
    check(fields.order, wrongNumber(fields.order.value)),
    check(fields.line, line >= 1 && line <= 999_999 ? "" : phrases.cancel.wrongLine),
    check(fields.quantity, wholeNumber(fields.quantity.value) >= 1 ? "" : phrases.cancel.fromOne),
  ].every(Boolean);
  if (!right) focusFirstWrong(all);
  return right;
}

/** Checks the quantity against what is known to be open.
 * @param {Fields} fields @param {KnownLine} known */
function isOpen(fields, known) {
  showOpen(fields, known);
  const typed = typedIn(fields);
  const right = check(fields.quantity, tooMuchInWords(typed.quantity, known.of(typed)?.open ?? Infinity, known.at));
  if (!right) fields.quantity.input.focus();
  return right;
}

/** Says what the hub refused at the field that its code speaks of; of a quantity, by the status as it is now.
 * @param {Fields} fields @param {KnownLine} known @param {string} code */
async function showRefusal(fields, known, code) {
  const place = PLACES[code];
  if (!place) return;
  fields[place].say(phrases.cancel.hubRefused(code));
  fields[place].input.focus();
  if (place !== "quantity") return;
  await look(() => known.ask(typedIn(fields)));
  if (fields.quantity.isWrong && isOpen(fields, known)) fields.quantity.say(phrases.cancel.hubRefused(code));
}

// Null while a number is missing.
/** @param {Fields} fields @param {string} reference */
function bodyOf(fields, reference) {
  const typed = typedIn(fields);
  if (Number.isNaN(typed.line) || Number.isNaN(typed.quantity) || !typed.order) return null;
  return cancellationText({ ...typed, reference });
}
