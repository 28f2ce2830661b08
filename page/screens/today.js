// @ts-check
// Today, a supplier's first screen: what waits for it, each with what to do. It is refreshed while the tab is visible.

import { day } from "../edi/dates.js";
import { gtinAsPrinted } from "../edi/identifiers.js";
import { Broken } from "../hub/client.js";
import { phrases } from "../language.js";
import { MOST_REQUESTS } from "../mail_search.js";
import { difference } from "../parts/difference.js";
import { button, element, figure, heading, link, sayOnce, saying } from "../parts/dom.js";
import { dueColumn } from "../parts/due.js";
import { orderInWords, orderNumber } from "../parts/order_number.js";
import { clockTime } from "../parts/sending_panel.js";
import { Table } from "../parts/table.js";
import { hasShort, ordersWanted, rowsOf } from "../today_rows.js";

/** @typedef {import("../today_rows.js").Rows} Rows */
/** @typedef {import("../parts/dom.js").Child} Child */

const EVERY = 5 * 60_000;
const LOOK = 1_000;
const MOST_ROWS = 100;

/** A part of the screen: its heading and its table, or what it says if nothing waits.
 * @template Row */
class Part {
  /** @param {{ title: string, empty: string, columns: import("../parts/table.js").Column<Row>[] }} words */
  constructor({ title, empty, columns }) {
    this.title = title;
    this.heading = element("h2", { tabindex: "-1" }, title);
    this.table = new Table({ caption: title, columns, rows: /** @type {Row[]} */ ([]), kind: "today" });
    this.empty = element("p", { class: "nothing" }, empty);
    this.more = element("p", { class: "hint" });
    this.element = element("section", {}, this.heading, this.empty, this.table.element, this.more);
    this.table.element.hidden = true;
    this.drawn = "[]";
  }

  /** Shows these rows, if they are others; what has the focus keeps it, if it is still there.
   * @param {Row[]} rows */
  show(rows) {
    const drawn = JSON.stringify(rows);
    if (drawn === this.drawn) return;
    this.drawn = drawn;
    const focused = this.table.element.contains(document.activeElement) ? document.activeElement : null;
    this.heading.textContent = rows.length ? `${this.title} (${figure(rows.length)})` : this.title;
    this.table.show(rows.slice(0, MOST_ROWS));
    this.table.element.hidden = !rows.length;
    this.empty.hidden = rows.length > 0;
    this.more.textContent = rows.length > MOST_ROWS ? phrases.today.first(MOST_ROWS) : "";
    if (!focused || focused.isConnected) return;
    const again = [...this.table.element.querySelectorAll("a")].find((it) => it.getAttribute("href") === focused.getAttribute("href"));
    (again ?? this.heading).focus({ preventScroll: true });
  }
}

class Today {
  /** @param {import("../session.js").Session} session */
  constructor(session) {
    this.session = session;
    this.lead = element("p", { class: "lead", role: "status" });
    this.asOf = element("p", { class: "hint" });
    this.problem = element("div", { role: "status" });
    this.parts = { orders: ordersPart(), lines: linesPart(), pallets: palletsPart(), short: shortPart() };
    this.title = phrases.today.title;
    this.lookedAt = 0;
    this.isLooking = false;
    // until the mailbox was searched, no link stands in for one that comes a moment later at the same place
    this.isSearching = true;
    /** @type {{ lines: import("../hub/replies.js").StatusLine[], pallets: import("../hub/replies.js").StatusPallet[] }} */
    this.status = { lines: [], pallets: [] };
  }

  /** Asks for the status, and draws what it says. */
  async begin() {
    this.lookedAt = Date.now();
    this.status = await this.session.report();
    this.draw();
  }

  /** Searches the mailbox for what the status does not say: entries, dates and advices. */
  async complete() {
    await this.session.mail.search(ordersWanted(this.status), hasShort(this.status)).finally(() => (this.isSearching = false));
    this.draw();
    this.asOf.replaceChildren(`${phrases.today.asOf(clockTime(this.lookedAt))} ${phrases.today.refreshed(MOST_REQUESTS)}`);
    this.problem.replaceChildren(...(this.session.mail.isComplete ? [] : [saying("plain", phrases.today.leftOver)]));
  }

  /** @param {() => Promise<void>} act one look at a time; a failure is told, and what was shown stays */
  async look(act) {
    if (this.isLooking) return;
    this.isLooking = true;
    try {
      await act();
    } catch (why) {
      if (!(why instanceof Broken)) throw why;
      this.draw();
      this.problem.replaceChildren(saying("warn", phrases.today.noReply(clockTime(this.lookedAt))));
    } finally {
      this.isLooking = false;
    }
  }

  refresh() {
    return this.look(async () => {
      await this.begin();
      await this.complete();
    });
  }

  draw() {
    const rows = rowsOf(this.session, this.status, day(new Date()));
    const { isSearching } = this;
    this.parts.orders.show(rows.orders.map((it) => ({ ...it, isSearching })));
    this.parts.lines.show(rows.lines.map((it) => ({ ...it, isSearching })));
    this.parts.pallets.show(rows.pallets);
    this.parts.short.show(rows.short);
    sayOnce(this.lead, inWords(rows));
    const count = rows.orders.length + rows.lines.length + rows.short.length;
    this.title = count ? `(${figure(count)}) ${phrases.today.title}` : phrases.today.title;
    if (this.lead.isConnected) document.title = `${this.title} · edihub`;
  }

  /** Refreshes when it is time, unless the tab is hidden or locked; a locked tab has put the screen away. */
  watch() {
    const look = () => {
      const isSeen = document.visibilityState === "visible" && this.lead.isConnected;
      if (isSeen && Date.now() - this.lookedAt >= EVERY) this.refresh();
    };
    document.addEventListener("visibilitychange", look);
    const clock = setInterval(look, LOOK);
    return () => {
      document.removeEventListener("visibilitychange", look);
      clearInterval(clock);
    };
  }
}

/** @param {import("../start.js").Context} context */
export async function todayScreen({ session }) {
  const today = new Today(session);
  await today.begin();
  today.look(() => today.complete());
  const again = button(phrases.today.again, () => void today.refresh(), { class: "quiet no-print" });
  const parts = Object.values(today.parts).map((it) => it.element);
  const content = [heading(phrases.today.title), today.lead, today.problem, ...parts, today.asOf, again];
  return { title: today.title, content, leave: today.watch() };
}

/** @param {Rows} rows */
function inWords({ orders, lines, pallets, short }) {
  const { toAnswer, toDespatch, overdue, announced, receivedShort, nothing } = phrases.today;
  const late = lines.filter((it) => it.isLate).length;
  const kinds = /** @type {const} */ ([
    [orders.length, toAnswer],
    [lines.length, toDespatch],
    [late, overdue],
    [pallets.length, announced],
    [short.length, receivedShort],
  ]);
  const found = kinds.flatMap(([count, inWords]) => (count ? [inWords(count)] : []));
  return found.length ? `${found.join(", ")}.` : nothing;
}

/** A link to a screen of the entry, or to the mailbox if it was not found.
 * @param {string} label @param {string} screen @param {{ entry: number | null, isSearching: boolean }} row @param {string} what */
function action(label, screen, { entry, isSearching }, what) {
  if (entry === null && isSearching) return "…";
  if (entry === null) return link(phrases.mailbox.title, "mailbox", { "aria-label": phrases.today.lookFor(what) });
  return link(label, `${screen}/${entry}`, { "aria-label": `${label} ${what}` });
}

/** @param {number | null} entry @param {{ order: string, unsure?: number }} line */
const orderLink = (entry, line) => (entry === null ? orderNumber(line) : link(orderNumber(line), `entry/${entry}`));

/** @returns {Part<import("../today_rows.js").OrderRow & { isSearching: boolean }>} */
const ordersPart = () =>
  new Part({
    title: phrases.today.ordersTitle,
    empty: phrases.today.noOrders,
    columns: [
      { title: phrases.common.order, cell: (it) => orderLink(it.entry, it), value: (it) => it.order },
      { title: phrases.today.lines, cell: (it) => figure(it.lines), value: (it) => it.lines, number: true },
      { title: phrases.today.pieces, cell: (it) => figure(it.open), value: (it) => it.open, number: true },
      dueColumn((it) => it),
      { title: "", cell: (it) => action(phrases.today.answer, "answer", it, phrases.today.order(orderInWords(it))), kind: "action" },
    ],
  });

/** @returns {Part<import("../today_rows.js").LineRow & { isSearching: boolean }>} */
const linesPart = () =>
  new Part({
    title: phrases.today.linesTitle,
    empty: phrases.today.noLines,
    columns: [
      { title: phrases.common.order, cell: (it) => orderLink(it.entry, it.line), value: (it) => it.line.order },
      { title: phrases.common.line, cell: (it) => it.line.line, value: (it) => it.line.line },
      { title: phrases.common.articleGtin, cell: (it) => gtinAsPrinted(it.line.gtin), value: (it) => it.line.gtin, kind: "digits" },
      { title: phrases.common.open, cell: (it) => figure(it.line.open), value: (it) => it.line.open, number: true },
      dueColumn((it) => it),
      { title: "", cell: (it) => action(phrases.today.despatch, "despatch", it, lineInWords(it)), kind: "action" },
    ],
  });

/** @param {import("../today_rows.js").LineRow} row */
const lineInWords = ({ line }) => phrases.common.orderLine(orderInWords(line), line.line);

/** @returns {Part<import("../today_rows.js").PalletRow>} */
const palletsPart = () =>
  new Part({
    title: phrases.common.announcedNotReceived,
    empty: phrases.today.noPallets,
    columns: [
      { title: phrases.common.palletSscc, cell: (it) => it.sscc, value: (it) => it.sscc, kind: "digits" },
      { title: phrases.today.articles, cell: (it) => figure(it.articles), value: (it) => it.articles, number: true },
      { title: phrases.today.pieces, cell: (it) => figure(it.pieces), value: (it) => it.pieces, number: true },
      { title: "", cell: (it) => palletLink(it.sscc), kind: "action" },
    ],
  });

/** @param {string} sscc */
const palletLink = (sscc) => link(phrases.today.show, `status/${sscc}`, { "aria-label": phrases.today.showPallet(sscc) });

/** @returns {Part<import("../today_rows.js").ShortRow>} */
function shortPart() {
  const { palletSscc, articleGtin, despatched, difference: lack } = phrases.common;
  return new Part({
    title: phrases.today.shortTitle,
    empty: phrases.today.noShort,
    columns: [
      { title: palletSscc, cell: ({ pallet }) => pallet.sscc, value: ({ pallet }) => pallet.sscc, kind: "digits" },
      { title: articleGtin, cell: ({ pallet }) => gtinAsPrinted(pallet.gtin), value: ({ pallet }) => pallet.gtin, kind: "digits" },
      { title: despatched, cell: ({ pallet }) => figure(pallet.despatched), value: ({ pallet }) => pallet.despatched, number: true },
      { title: lack, cell: ({ pallet }) => difference(pallet.difference), csv: ({ pallet }) => pallet.difference, number: true },
      { title: "", cell: shortLink, kind: "action" },
    ],
  });
}

/** @param {import("../today_rows.js").ShortRow} row */
const shortLink = ({ pallet: { sscc }, advice }) =>
  advice === null ? palletLink(sscc) : link(phrases.today.read, `entry/${advice}`, { "aria-label": phrases.today.readOf(sscc) });
