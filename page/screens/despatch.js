// @ts-check
// A despatch advice (DESADV): pallets, and on each the lines of one or more orders, with no more than is open.

import { articlesOf } from "../articles.js";
import { Ledger, nameOf } from "../despatch/ledger.js";
import { interchangeText } from "../edi/envelope.js";
import { day } from "../edi/dates.js";
import { despatchText } from "../edi/despatch.js";
import { isSscc } from "../edi/identifiers.js";
import { phrases } from "../language.js";
import { actions, button, element, heading, link, saying } from "../parts/dom.js";
import { proposedNumber, wrongNumber } from "../parts/document_number.js";
import { Field, check, focusFirstWrong } from "../parts/field.js";
import { sendingForm } from "../parts/sending_form.js";
import { palletsIn, putOnPallets, quantitiesOn } from "./despatch_draft.js";
import { despatchSummary } from "./despatch_summary.js";
import { labelsAddress } from "./labels.js";
import { LeftLines } from "./left_lines.js";
import { OrderChoice } from "./order_choice.js";
import { Pallets } from "./pallets.js";
import { pastePallets } from "./paste_pallets.js";

/** @typedef {import("../hub/replies.js").StatusLine} StatusLine */
/** @typedef {import("./pallet.js").Pallet} Pallet */
/** @typedef {{ lines: StatusLine[], pallets: import("../hub/replies.js").StatusPallet[] }} Status */

class DespatchForm {
  /** @param {import("../session.js").Session} session @param {Status} status @param {string | null} order to begin with */
  constructor(session, status, order) {
    this.session = session;
    const articles = articlesOf(session);
    this.ledger = new Ledger();
    /** @type {StatusLine[]} */
    this.open = [];
    /** @type {Set<string>} */
    this.used = new Set();
    this.know(status);
    this.orders = new OrderChoice(this.open, order, () => this.offer());
    const hint = phrases.despatch.numberHint;
    this.document = new Field({ label: phrases.despatch.number, field: "despatch.number", hint, value: proposedNumber(), maxlength: 35 });
    this.pallets = new Pallets({ session, ledger: this.ledger, articles, used: () => this.used });
    this.left = new LeftLines(this.ledger, articles);
    this.ledger.addEventListener("change", () => this.left.draw());
    this.wrong = element("div", { role: "alert" });
    this.renumbered = element("span", { class: "said", role: "status" });
    this.offer();
  }

  get sscc() {
    return this.pallets.sscc;
  }

  /** What the hub's status says now; a line that was offered stays, though nothing of it may be open any more.
   * @param {Status} status */
  know(status) {
    const offered = new Set(this.open.map(nameOf));
    this.open = status.lines.filter((it) => !it.unsure && (it.open > 0 || offered.has(nameOf(it))));
    this.used = new Set(status.pallets.map((it) => it.sscc));
    this.ledger.know(this.open);
  }

  /** Offers the lines of the chosen orders on each pallet. */
  offer() {
    this.ledger.lines = this.open.filter((it) => this.orders.has(it.order));
    this.pallets.offer();
    this.left.draw();
  }

  /** New SSCCs for all pallets that are not labelled. */
  async renumber() {
    this.renumbered.textContent = await this.pallets.renumber();
  }

  /** Frees its SSCCs for other forms, unless what was sent has no answer yet. */
  leave() {
    if (!this.session.sent.unsettled.length) this.sscc.held.end();
  }

  /** Puts pasted rows on the pallets, and chooses the orders that they name.
   * @param {import("./paste_pallets.js").Placing[]} rows */
  place(rows) {
    this.orders.choose(rows.map((it) => it.line.order));
    return this.pallets.place(rows);
  }

  /** What was typed of lines that pallets need not list. */
  get apart() {
    return {
      content: () => quantitiesOn(this.pallets.all),
      putBack: async (/** @type {string} */ quantities) => {
        const lost = putOnPallets(quantities, this.pallets.all, this.ledger);
        await this.pallets.drawRestored();
        return lost;
      },
    };
  }

  get fields() {
    return [this.document, ...this.sscc.fields, this.orders, ...this.pallets.all.flatMap((it) => it.fields)];
  }

  check() {
    const prefix = this.sscc.prefix.trimmed;
    const pallets = this.pallets.all;
    const right = [
      check(this.document, wrongNumber(this.document.value)),
      this.sscc.check(),
      this.orders.check(),
      ...pallets.map((it, place) => it.check({ prefix, used: this.used, others: pallets.slice(0, place) })),
    ].every(Boolean);
    this.wrong.replaceChildren();
    this.pallets.offerNewSsccs();
    if (right) return true;
    pallets.find((it) => it.isWrong)?.reveal();
    focusFirstWrong(this.fields);
    return false;
  }

  /** The message, or null while a pallet is not complete.
   * @param {Date} moment @param {string} buyer */
  message(moment, buyer) {
    const pallets = this.pallets.all;
    if (pallets.some((it) => !it.load.size || !isSscc(it.number))) return null;
    const units = pallets.map((pallet) => ({
      sscc: pallet.number,
      lines: pallet.contents.map(({ line: { order, line, gtin }, quantity }) => ({ order, line, gtin, quantity })),
    }));
    return despatchText({ document: this.document.value, date: day(moment), buyer, supplier: this.session.hub.caller, units });
  }

  /** Says what the hub refused at the fields that its code speaks of, by the status as it is now.
   * @param {string} code */
  async showRefusal(code) {
    this.know(await this.session.status());
    // a disabled field does not take the focus
    await this.pallets.lock(false);
    this.offer();
    if (this.check()) {
      if (code === "B13") this.document.say(phrases.despatch.numberUsed);
      if (code === "M02") this.document.say(phrases.common.numberNotTaken);
      if (code === "B11") this.sayAtPallets(phrases.despatch.otherPrefix);
      if (code === "B12") this.sayAtPallets(phrases.despatch.ssccUsed);
      const unknown = ["B05", "B06", "B09"].includes(code);
      if (unknown) this.wrong.replaceChildren(saying("bad", phrases.despatch.unknownLine));
    }
    focusFirstWrong(this.fields);
  }

  /** @param {string} wrong */
  sayAtPallets(wrong) {
    for (const pallet of this.pallets.all) pallet.sscc.say(wrong);
    this.pallets.offerNewSsccs();
  }
}

/** @param {import("../start.js").Context} context @param {string} [word] the number of an order's entry */
export async function despatchScreen(context, word) {
  const { session, go } = context;
  const entry = word ? await session.entry(Number(word)) : null;
  const parties = await session.parties();
  const status = await session.status(undefined, (it) => it.open > 0);
  const title = phrases.common.announceADespatch;
  const orders = [...new Set(status.lines.filter((it) => it.open > 0 && !it.unsure).map((it) => it.order))];
  const unsure = unsureNotice(status);
  if (!parties || !orders.length) {
    const nothing = saying("plain", phrases.despatch.nothingOpen);
    return { title, content: [heading(title), ...(unsure.length ? unsure : [nothing])] };
  }
  const form = new DespatchForm(session, status, entry?.order?.document ?? (orders.length === 1 ? orders[0] : null));
  await form.pallets.add();
  const next = element("div", {});
  let sent = "";
  const sending = await sendingForm({
    context,
    kind: "document",
    what: () => phrases.despatch.what(form.document.value),
    noun: phrases.despatch.noun,
    draft: `despatch/${word ?? ""}`,
    content: contentOf(form, unsure),
    prepare: (draft) => form.pallets.makeRoom(palletsIn(draft)),
    apart: form.apart,
    check: () => form.check(),
    lock: (isLocked) => form.pallets.lock(isLocked),
    summary: () => despatchSummary(form.document.value, form.pallets.all),
    write: ({ reference, moment }) => {
      const message = form.message(moment, parties.buyer);
      sent = reference;
      return message && interchangeText({ sender: session.hub.caller, recipient: parties.hub, reference, moment }, message);
    },
    settled: ({ outcome, code }) => {
      if (outcome === "refused") return form.showRefusal(code);
      form.sscc.held.announce(form.pallets.all.map((it) => it.number));
      next.replaceChildren(nextSteps(go, sent));
    },
  });
  return { title, content: [heading(title), sending, next], leave: () => form.leave() };
}

// Orders of which the page does not know which line is whose are not offered.
/** @param {Status} status */
function unsureNotice({ lines }) {
  const numbers = [...new Set(lines.filter((it) => it.unsure && it.open > 0).map((it) => it.order))];
  const words = (/** @type {string} */ it) => phrases.despatch.severalOrders(it);
  return numbers.map((it) => saying("warn", words(it)));
}

/** @param {DespatchForm} form @param {HTMLElement[]} unsure */
function contentOf(form, unsure) {
  const { pallets } = form;
  const fields = [form.document, ...form.sscc.fields].map((it) => it.element);
  const ssccs = () => pallets.all.map((it) => it.number);
  const paste = pastePallets({ lines: () => form.open, pallets: ssccs, place: (rows) => form.place(rows) });
  const seen = actions(
    button(phrases.despatch.collapse, () => pallets.collapseAll(true), { class: "quiet collapse" }),
    button(phrases.despatch.expand, () => pallets.collapseAll(false), { class: "quiet expand" }),
  );
  const overall = [form.orders.element, paste, form.left.element, seen];
  return [element("div", { class: "columns" }, ...fields), ...unsure, ...overall, pallets.element, tools(form), form.wrong];
}

/** @param {DespatchForm} form */
function tools(form) {
  const add = async () => {
    const pallet = await form.pallets.add();
    pallet.sscc.input.focus();
    form.pallets.tools.changed();
  };
  const renumber = button(phrases.despatch.renumber, () => form.renumber(), { class: "renumber" });
  return actions(button(phrases.despatch.add, add, { class: "add" }), renumber, form.renumbered);
}

/** @param {(to: string) => void} go @param {string} sent the reference of what was sent */
function nextSteps(go, sent) {
  return actions(
    link(phrases.common.labels, labelsAddress(sent), { class: "button primary" }),
    link(phrases.common.status, "status", { class: "button" }),
    button(phrases.despatch.another, () => go("despatch")),
    link(phrases.mailbox.title, "mailbox", { class: "button quiet" }),
  );
}
