// @ts-check
// The retailer's interchanges, chosen or dropped as files, listed, and sent by a second press as they are, one after another.

import { namesInFile } from "../edi/document_names.js";
import { readUpload } from "../hub/replies.js";
import { UploadQueue, contentInWords } from "../hub/upload_queue.js";
import { phrases } from "../language.js";
import { codeInWords } from "../parts/code.js";
import { actions, button, element, heading, link, notice, saying } from "../parts/dom.js";
import { dropZone } from "../parts/drop_zone.js";
import { documentNumber } from "../parts/order_number.js";
import { notUnderstood } from "../parts/raw.js";
import { denial, sendingRegion, tell } from "../parts/sending_panel.js";
import { Table } from "../parts/table.js";
import { plannerAtOnce } from "../suppliers/planner.js";

/** @typedef {import("../hub/replies.js").MessageReply} MessageReply */
/** @typedef {import("../hub/sending.js").Sending} Sending */
/** @typedef {import("../hub/upload_queue.js").Item} Item */

const choice = () => ({ label: phrases.upload.choose, hint: phrases.upload.chooseHint, accept: ".edi,.edifact,.txt" });

/** @type {WeakMap<import("../session.js").Session, UploadQueue>} */
const QUEUES = new WeakMap();

/** The files of this session: they stay when the screen is left.
 * @param {import("../session.js").Session} session */
function queueOf(session) {
  const queue = QUEUES.get(session) ?? new UploadQueue(session.sent);
  QUEUES.set(session, queue);
  return queue;
}

/** @param {import("../start.js").Context} context */
export async function uploadScreen({ session }) {
  const queue = queueOf(session);
  // names are wanted only once the hub has answered
  const { list } = plannerAtOnce(session);
  const zone = dropZone(choice(), (files) => queue.choose(files));
  const check = element("p", {}, ...phrases.explain.without(link(phrases.explain.title, "explain")));
  const { title } = phrases.upload;
  return { title, content: [heading(title), zone, check, ...queueView(queue, zone, (gln) => list.nameOf(gln))] };
}

/** @param {UploadQueue} queue @param {HTMLElement} zone where files are chosen @param {(gln: string) => string} nameOf */
function queueView(queue, zone, nameOf) {
  const summary = element("div", { class: "happened", role: "status", tabindex: "-1" });
  const list = element("div", { class: "uploads" });
  /** @type {Map<Item, HTMLElement>} */
  const rows = new Map();
  let said = "";
  const draw = () => {
    for (const item of queue.items) if (!rows.has(item)) rows.set(item, itemRow(queue, item, nameOf));
    for (const [item, row] of rows) if (!queue.items.includes(item)) rows.delete(item) && takeOut(row, zone);
    const missing = queue.items.map((it) => /** @type {HTMLElement} */ (rows.get(it))).filter((it) => it.parentElement !== list);
    missing.forEach((it) => list.prepend(it));
    const says = `${queue.state} ${queue.ready.length} ${queue.wrong}`;
    if (says === said) return;
    said = says;
    const focused = summary.contains(document.activeElement);
    summary.replaceChildren(...whatNext(queue));
    // once there is nothing to press, the next file that is sent says what happens
    const next = rows.get(queue.waiting[0] ?? queue.items[queue.items.length - 1]);
    const place = summary.childElementCount ? summary : next?.querySelector(".delivery");
    if (focused) /** @type {HTMLElement | null} */ (place)?.focus({ preventScroll: true });
  };
  queue.addEventListener("change", draw);
  draw();
  return [summary, list];
}

/** Removes a file from the list; if it had the focus, the next one gets it, or else the place where files are chosen.
 * @param {HTMLElement} row @param {HTMLElement} zone */
function takeOut(row, zone) {
  const focused = row.contains(document.activeElement);
  const near = [row.nextElementSibling, row.previousElementSibling].flatMap((it) => it?.querySelector("button") ?? []);
  row.remove();
  if (focused) (near[0] ?? zone.querySelector("input"))?.focus();
}

/** The summary with the press that sends, and the one that continues.
 * @param {UploadQueue} queue @returns {Node[]} */
function whatNext(queue) {
  const count = queue.ready.length;
  // the second click of a double click sends nothing
  const once = (/** @type {Event} */ event) => /** @type {MouseEvent} */ (event).detail < 2 && queue.send();
  const rest = button(phrases.common.continueWithTheRest, () => void queue.proceed());
  const paused = notice("warn", element("p", {}, phrases.upload.paused), rest);
  return [
    ...(queue.wrong ? [saying("bad", phrases.upload.cannotBeSent(queue.wrong))] : []),
    ...(queue.state === "paused" ? [paused] : []),
    ...(count ? [saying("plain", `${phrases.upload.youAreSending(count)} ${phrases.summary.noTurningBack}`)] : []),
    ...(count ? [actions(button(phrases.upload.send(count), once, { class: "primary" }))] : []),
  ];
}

/** A file, and how it is doing.
 * @param {UploadQueue} queue @param {Item} item @param {(gln: string) => string} nameOf */
function itemRow(queue, item, nameOf) {
  const region = sendingRegion();
  // what it is before it is sent, which nobody has to be told of at once
  const before = element("div", {});
  const row = element("section", { class: "card upload" }, element("h2", {}, item.name), before, region);
  const { sending } = item;
  const label = phrases.upload.removeOne(item.name);
  const remove = button(phrases.upload.remove, () => queue.remove(item), { class: "quiet", "aria-label": label });
  if (!sending) before.replaceChildren(saying("bad", item.wrong === "unreadable" ? phrases.upload.unreadable : denial("413")), remove);
  else {
    const draw = () => {
      if (sending.state !== "review") {
        before.replaceChildren();
        tell(region, sending, (it) => answered(it, nameOf));
      } else if (queue.waiting.includes(item)) before.replaceChildren(element("p", {}, phrases.common.waits));
      else if (!remove.isConnected) before.replaceChildren(element("p", {}, contentOf(item)), remove);
    };
    sending.addEventListener("change", draw);
    queue.addEventListener("change", () => sending.state === "review" && draw());
    draw();
  }
  return row;
}

/** @param {Item} item */
function contentOf({ text }) {
  const found = contentInWords(text);
  return found ? phrases.upload.content(found, text.length) : phrases.upload.unread(text.length);
}

/** What the hub said of each message, with the document and the supplier that the file names.
 * @param {Sending} sending @param {(gln: string) => string} nameOf @returns {Node[]} */
function answered({ state, facts: { file, reply, text } }, nameOf) {
  if (state === "denied") return [saying("bad", denial(reply))];
  const read = readUpload(reply);
  if (!read) return [notUnderstood(phrases.common.notUnderstood, reply)];
  if (read.code) return [saying("bad", `${phrases.upload.refused} `, codeInWords(read.code))];
  const words = { caption: phrases.upload.caption(file), empty: phrases.upload.empty };
  const table = new Table({ ...words, columns: columns(namesInFile(text), nameOf), rows: read.messages });
  return [element("p", { class: "hint" }, phrases.upload.interchange(read.reference)), table.element];
}

/** @param {ReturnType<typeof namesInFile>} names @param {(gln: string) => string} nameOf
 * @returns {import("../parts/table.js").Column<MessageReply>[]} */
function columns(names, nameOf) {
  const supplierOf = (/** @type {MessageReply} */ { reference }) => names.get(reference)?.supplier ?? "";
  const documentOf = (/** @type {MessageReply} */ { reference }) => names.get(reference)?.document ?? "";
  const result = (/** @type {MessageReply} */ { outcome, code }) =>
    element("span", { class: `result ${outcome}` }, phrases.outcomes[outcome], code && " ", code && codeInWords(code));
  return [
    { title: phrases.upload.message, cell: (it) => it.reference },
    { title: phrases.common.type, cell: (it) => phrases.types[it.type] ?? it.type },
    { title: phrases.upload.document, cell: (it) => documentNumber(documentOf(it)), value: documentOf },
    { title: phrases.common.supplier, cell: (it) => supplierInWords(supplierOf(it), nameOf), value: supplierOf },
    { title: phrases.common.result, cell: result, kind: "long" },
  ];
}

/** @param {string} gln @param {(gln: string) => string} nameOf */
function supplierInWords(gln, nameOf) {
  const to = `supplier/${encodeURIComponent(gln)}`;
  const name = nameOf(gln);
  if (!name) return gln && link(gln, to);
  return element("span", {}, link(name, to), " ", element("small", { class: "digits" }, gln));
}
