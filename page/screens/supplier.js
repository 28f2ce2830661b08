// @ts-check
// A supplier's status, as the retailer sees it.

import { Articles } from "../articles.js";
import { day } from "../edi/dates.js";
import { Refused } from "../hub/client.js";
import { phrases } from "../language.js";
import { element, heading, link, newId, saying } from "../parts/dom.js";
import { dueColumn } from "../parts/due.js";
import { Field, check, focusFirstWrong } from "../parts/field.js";
import { wrongGln } from "../parts/gln.js";
import { LineChoice } from "../parts/line_choice.js";
import { orderInWords } from "../parts/order_number.js";
import { dueOf } from "../suppliers/open_rows.js";
import { plannerOf } from "../suppliers/planner.js";
import { statusView } from "./status.js";

/** @typedef {import("../hub/replies.js").StatusLine} StatusLine */

/** @param {import("../start.js").Context} context @param {string} [gln] */
export async function supplierScreen(context, gln = context.session.supplier) {
  const { session, go } = context;
  const planner = await plannerOf(session);
  const field = new Field({ label: phrases.supplier.gln, value: gln, inputmode: "numeric", maxlength: 20 });
  const names = knownSuppliers(planner.list.suppliers, field);
  const submit = element("button", { type: "submit", class: "primary" }, phrases.supplier.show);
  const form = element("form", { class: "filter", novalidate: true, onsubmit: ask }, field.element, names, submit);

  /** @param {Event} event */
  function ask(event) {
    event.preventDefault();
    const asked = field.trimmed.replace(/\s/g, "");
    if (check(field, wrongGln(asked))) go(`supplier/${asked}`);
    else focusFirstWrong([field]);
  }

  // what the address names is checked before it is asked for
  const isRight = gln !== "" && check(field, wrongGln(gln));
  const status = isRight ? await shown(context, gln) : [];
  const name = planner.list.nameOf(gln);
  const content = [heading(name && isRight ? phrases.supplier.statusOf(name) : phrases.supplier.heading), form, ...status];
  const title = isRight ? phrases.supplier.statusOf(name || gln) : phrases.common.status;
  return { title, content, focus: field.isWrong ? field.input : undefined };
}

/** What the field offers: the suppliers of the list, by name.
 * @param {import("../suppliers/file.js").Supplier[]} suppliers @param {Field} field */
function knownSuppliers(suppliers, field) {
  if (!suppliers.length) return null;
  const id = newId("suppliers");
  field.input.setAttribute("list", id);
  return element("datalist", { id }, ...suppliers.map(({ gln, name }) => element("option", { value: gln }, name)));
}

/** @param {import("../start.js").Context} context @param {string} gln */
async function shown(context, gln) {
  const { session } = context;
  try {
    const status = await session.status(gln);
    session.supplier = gln;
    const choice = new LineChoice(context, gln, status.lines);
    /** @type {import("../parts/table.js").Column<StatusLine>} */
    const actions = { title: phrases.cancel.title, csv: false, cell: (it) => action(gln, it, choice) };
    const wanted = await wantedColumn(session, gln, status.lines);
    // there is no room for both
    const without = wanted.length ? ["shares"] : [];
    // where each row begins, so that it is in view also if the table is wider than the screen
    const more = { first: [actions], last: wanted };
    const answer = phrases.common.suppliersAnswer;
    return statusView(status, new Articles(), { answer, without, more, under: (lines) => choice.bar(lines) });
  } catch (why) {
    if (!(why instanceof Refused && why.status === 404)) throw why;
    return [saying("bad", phrases.supplier.unknown(gln))];
  }
}

// Once the planner has given files with orders of this supplier.
/** @param {import("../session.js").Session} session @param {string} gln @param {StatusLine[]} lines */
async function wantedColumn(session, gln, lines) {
  const planner = await plannerOf(session);
  const today = day(new Date());
  const due = (/** @type {StatusLine} */ it) => dueOf(planner, gln, it.order, today, it.open > 0);
  return lines.some((it) => due(it).isWanted) ? [dueColumn(due)] : [];
}

/** @param {string} gln @param {StatusLine} line @param {LineChoice} choice */
const action = (gln, line, choice) =>
  line.open > 0 ? element("span", { class: "line-actions" }, choice.cell(line), cancelLink(gln, line)) : "";

// Of an order of which the number is unsure the person types it, with its blanks.
/** @param {string} gln @param {import("../hub/replies.js").StatusLine} it */
function cancelLink(gln, it) {
  const label = phrases.supplier.cancelOf(orderInWords(it), it.line);
  const which = it.unsure ? gln : `${gln}/${encodeURIComponent(it.order)}/${it.line}`;
  return link(phrases.supplier.cancel, `cancel/${which}`, { "aria-label": label });
}
