// @ts-check
// The papers of a despatch that the hub has accepted: labels for its pallets, and a despatch note.

import { articlesOf } from "../articles.js";
import { readDespatch } from "../edi/despatch.js";
import { readInterchange } from "../edi/envelope.js";
import { despatchNote } from "../labels/despatch_note.js";
import { label } from "../labels/label.js";
import { ordersIn, partiesOf } from "../labels/parties.js";
import { SIZES } from "../labels/sizes.js";
import { phrases } from "../language.js";
import { actions, button, element, heading, link, newId, saying } from "../parts/dom.js";
import { documentNumber, numberInWords } from "../parts/order_number.js";

/** @typedef {import("../edi/despatch.js").Despatch} Despatch */
/** @typedef {import("../hub/sending.js").Sending} Sending */
/** @typedef {import("../session.js").Session} Session */
const COPIES = 2;

/** The despatch advice that a sending is, once the hub has accepted it; else null.
 * @param {Sending} sending @returns {Despatch | null} */
export function acceptedDespatch({ state, facts }) {
  if (state !== "accepted" || facts.kind !== "document" || !facts.text.includes("+DESADV:")) return null;
  const message = readInterchange(facts.text)?.messages[0];
  return message ? readDespatch(message) : null;
}

/** @param {string} id of a sending */
export const labelsAddress = (id) => `labels/${id}`;

/** @param {import("../start.js").Context} context @param {string} id of the sending */
export async function labelsScreen({ session }, id) {
  const sending = session.sent.sendings.find((it) => it.facts.id === id);
  const despatch = sending ? acceptedDespatch(sending) : null;
  if (!despatch) return missing();
  await knowOrders(session, despatch);
  const papers = element("div", { class: "papers" }, element("div", { class: "labels" }));
  const parties = partiesOf(session, despatch, despatch.units.flatMap((it) => it.lines));
  papers.append(despatchNote(despatch, parties, articlesOf(session)));
  const title = phrases.labels.titleOf(numberInWords(despatch.document)).join("");
  return {
    title,
    content: [
      element("p", { class: "back no-print" }, link(`‹ ${phrases.sent.title}`, "sent")),
      element("div", { class: "no-print" }, heading(...phrases.labels.titleOf(documentNumber(despatch.document)))),
      tools(session, despatch, papers),
      papers,
    ],
  };
}

const missing = () => ({
  title: phrases.labels.none,
  content: [
    heading(phrases.labels.none),
    saying("plain", phrases.labels.noneHere),
    link(phrases.sent.title, "sent", { class: "button" }),
  ],
});

// After a reload the tab has read no orders. Labels are complete without them, so an answer that does not come is no failure.
/** @param {Session} session @param {Despatch} despatch */
async function knowOrders(session, despatch) {
  const orders = ordersIn(despatch.units.flatMap((it) => it.lines));
  const known = new Set([...session.entries.values()].map((it) => it.order?.document));
  if ([...orders].every((it) => known.has(it))) return;
  await session.status(undefined, (it) => orders.has(it.order)).catch(() => null);
}

/** The choice of the size, and what is printed.
 * @param {Session} session @param {Despatch} despatch @param {HTMLElement} papers */
function tools(session, despatch, papers) {
  const name = newId("size");
  const draw = (/** @type {import("../labels/sizes.js").Size} */ size) =>
    papers.querySelector(".labels")?.replaceChildren(...labels(session, despatch, size));
  const choices = SIZES.map((size, place) => {
    const words = { type: "radio", name, value: size.name, onchange: () => draw(size), checked: place === 0 };
    return element("label", { class: "choice" }, element("input", words), element("span", {}, size.name));
  });
  draw(SIZES[0]);
  const legend = element("legend", {}, phrases.labels.size);
  return element(
    "div",
    { class: "no-print" },
    element("p", { class: "lead" }, phrases.labels.hint),
    element("fieldset", { class: "label-sizes" }, legend, element("div", { class: "choices" }, ...choices)),
    actions(
      button(phrases.labels.print, () => print(papers, "labels"), { class: "primary" }),
      button(phrases.labels.printNote, () => print(papers, "note")),
      link(phrases.common.status, "status", { class: "button quiet" }),
    ),
  );
}

/** @param {Session} session @param {Despatch} despatch @param {import("../labels/sizes.js").Size} size */
function labels(session, despatch, size) {
  const articles = articlesOf(session);
  return despatch.units.flatMap((unit, place) => {
    const name = phrases.labels.ofPallet(place + 1, despatch.units.length);
    const words = { unit, name, despatch: despatch.document, ...partiesOf(session, despatch, unit.lines) };
    return Array.from({ length: COPIES }, (_, copy) => label(words, size, articles, copy > 0));
  });
}

// The stylesheet leaves out what is not asked for. The browser's own printing prints all of it.
/** @param {HTMLElement} papers @param {"labels" | "note"} what */
function print(papers, what) {
  papers.dataset.print = what;
  addEventListener("afterprint", () => delete papers.dataset.print, { once: true });
  window.print();
}
