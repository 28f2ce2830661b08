// @ts-check
// One entry of the mailbox: an order or a receiving advice as a page that one can print; anything else as it stands.

import { articlesOf } from "../articles.js";
import { phrases } from "../language.js";
import { button, element, heading, link, saying } from "../parts/dom.js";
import { downloadButton } from "../parts/download.js";
import { documentNumber, numberInWords } from "../parts/order_number.js";
import { rawDetails } from "../parts/raw.js";
import { partyNames } from "../party_names.js";
import { orderView } from "./order.js";
import { receiptView } from "./receipt.js";

/** @param {import("../start.js").Context} context @param {string} word the entry's number */
export async function entryScreen(context, word) {
  const entry = await context.session.entry(Number(word));
  if (!entry) return missing(word);
  const record = entry.order ?? entry.receipt;
  const type = entry.interchange?.messages[0]?.type ?? "";
  const title = record ? `${phrases.types[type]} ${numberInWords(record.document)}` : phrases.common.entry(word);
  return {
    title,
    content: [
      element("p", { class: "back no-print" }, link(`‹ ${phrases.mailbox.title}`, "mailbox")),
      heading(record ? `${phrases.types[type]} ` : title, record ? documentNumber(record.document) : null),
      actions(context, entry),
      ...(await content(context, entry)),
      rawDetails(phrases.entry.asGiven, entry.text, !record),
    ],
  };
}

/** @param {string} word */
const missing = (word) => ({
  title: phrases.entry.missing,
  content: [heading(phrases.entry.missing), element("p", {}, `${phrases.entry.hasNo(word)} `, link(phrases.mailbox.title, "mailbox"))],
});

/** @param {import("../start.js").Context} context @param {import("../session.js").Entry} entry */
async function content({ session }, entry) {
  const { order, receipt } = entry;
  const { nameOf, byName } = partyNames(session);
  if (order) return orderView(order, entry, await session.status(), nameOf);
  if (receipt) return receiptView(receipt, entry, await session.status(), articlesOf(session), byName(receipt.buyer));
  return [saying("warn", phrases.entry.notUnderstood)];
}

/** @param {import("../start.js").Context} context @param {import("../session.js").Entry} entry */
function actions({ session }, entry) {
  const said = element("span", { class: "said", role: "status", tabindex: "-1" });
  const mark = async () => {
    await session.hub.takeMail(entry.number);
    session.taken.add(entry.number);
    said.textContent = phrases.entry.marked;
    said.focus();
    take.disabled = true;
  };
  const take = button(phrases.common.markAsRead, mark, { title: phrases.mailbox.readHint });
  const file = `${entry.order ? "order" : "entry"}-${entry.number}.edi`;
  return element(
    "div",
    { class: "actions no-print" },
    entry.order ? link(phrases.today.answer, `answer/${entry.number}`, { class: "button primary" }) : null,
    entry.order ? link(phrases.common.announceADespatch, `despatch/${entry.number}`, { class: "button" }) : null,
    take,
    downloadButton(phrases.common.downloadEdi, file, entry.text),
    button(phrases.entry.print, () => window.print(), { class: "quiet" }),
    said,
  );
}
