// @ts-check
// The mailbox: what is new, and apart from it what was marked as read, which the hub calls taken.

import { cameInInWords, dateInWords, moment, preparedMoment } from "../edi/dates.js";
import { lastEntry } from "../entries.js";
import { phrases } from "../language.js";
import { button, element, heading, link } from "../parts/dom.js";
import { documentNumber, numberInWords } from "../parts/order_number.js";
import { notUnderstood } from "../parts/raw.js";
import { Table } from "../parts/table.js";

/** @typedef {{ number: number, type: string, document: string, date: Text, moment: number, arrived: Text, arrival: number }} Row */

const AT_ONCE = 20;

/** @param {import("../start.js").Context} context */
export async function mailboxScreen({ session }) {
  const { entries, raw } = await session.untaken();
  const rows = entries.reverse().map((it) => ({ ...it, date: new Text("…"), moment: 0, arrived: new Text("…"), arrival: 0 }));
  const label = (/** @type {Row} */ row) => phrases.mailbox.markOne(numberInWords(row.document));
  const table = new Table({
    caption: phrases.mailbox.caption,
    kind: "mailbox",
    columns: columns((row) => button(phrases.common.markAsRead, () => take(row), { class: "quiet", "aria-label": label(row) })),
    rows,
    empty: phrases.mailbox.empty,
  });
  // the table may have been sorted by dates that were not there yet
  fillDates(session, rows).then(() => table.sortAgain());

  // The focus goes to the entry that takes the place of the one that is gone.
  /** @param {Row} row */
  async function take(row) {
    await session.hub.takeMail(row.number);
    session.taken.add(row.number);
    const place = table.shown.indexOf(row);
    rows.splice(rows.indexOf(row), 1);
    table.show(rows);
    count.textContent = newOnes(rows.length);
    const links = table.body.querySelectorAll("a");
    (links[Math.min(place, links.length - 1)] ?? count).focus();
  }

  const count = element("p", { class: "lead happened", role: "status", tabindex: "-1" }, newOnes(rows.length));
  return {
    title: phrases.mailbox.title,
    content: [
      heading(phrases.mailbox.title),
      count,
      element("p", { class: "hint" }, phrases.mailbox.readHint),
      table.element,
      raw.length ? notUnderstood(phrases.mailbox.notUnderstoodLines, raw.join("\n")) : null,
      takenPart(session, new Set(entries.map((it) => it.number))),
    ],
  };
}

/** @param {number} number */
const newOnes = (number) => phrases.mailbox.newEntries(number);

/** @param {(row: Row) => Node} [action] @returns {import("../parts/table.js").Column<Row>[]} */
function columns(action) {
  const badge = (/** @type {Row} */ { type }) => element("span", { class: `badge ${type.toLowerCase()}` }, phrases.types[type] ?? type);
  return [
    { title: phrases.mailbox.number, cell: (it) => it.number, value: (it) => it.number },
    { title: phrases.common.type, cell: badge, value: (it) => it.type },
    { title: phrases.mailbox.document, cell: (it) => link(documentNumber(it.document), `entry/${it.number}`), value: (it) => it.document },
    { title: phrases.common.date, cell: (it) => it.date, value: (it) => it.moment },
    { title: phrases.common.cameIn, cell: (it) => it.arrived, value: (it) => it.arrival },
    ...(action ? [{ title: "", cell: action, kind: "action" }] : []),
  ];
}

// The list names no dates, so each entry is asked for its own, one after another.
/** @param {import("../session.js").Session} session @param {Row[]} rows */
async function fillDates(session, rows) {
  for (const row of [...rows]) {
    try {
      const found = datesOf(await session.entry(row.number));
      row.date.data = found.date;
      row.arrived.data = found.arrived;
      [row.moment, row.arrival] = [found.moment, found.arrival];
    } catch {
      row.date.data = row.arrived.data = phrases.mailbox.notLoaded;
    }
  }
}

/** @param {import("../session.js").Entry | null} entry */
function datesOf(entry) {
  const record = entry?.order ?? entry?.receipt;
  const { interchange } = entry ?? {};
  return {
    date: record ? dateInWords(record.date, record.format) : phrases.mailbox.notUnderstood,
    moment: record ? moment(record.date, record.format) : 0,
    arrived: interchange ? cameInInWords(interchange) : "",
    arrival: interchange ? preparedMoment(interchange.date, interchange.time) : 0,
  };
}

/** @param {import("../session.js").Session} session @param {Set<number>} untaken */
function takenPart(session, untaken) {
  /** @type {Row[]} */
  const rows = [];
  const words = { caption: phrases.mailbox.readCaption, empty: phrases.mailbox.noneRead };
  const table = new Table({ ...words, kind: "mailbox", columns: columns(), rows });
  table.element.hidden = true;
  let next = 0;
  let begun = false;
  let isShowing = false;
  const more = button(phrases.mailbox.showRead, show);

  async function show() {
    if (isShowing) return;
    isShowing = true;
    const before = rows.length;
    await readMore().finally(() => (isShowing = false));
    table.show(rows);
    table.element.hidden = false;
    more.textContent = phrases.mailbox.showEarlier;
    more.hidden = next === 0;
    // the first of those that were found, if the person is not elsewhere by now
    const first = table.body.rows[before]?.querySelector("a") ?? title;
    if (document.activeElement === more || document.activeElement === document.body) first.focus();
  }

  async function readMore() {
    if (!begun) next = await lastEntry(session, Math.max(0, ...untaken));
    begun = true;
    for (let found = 0; next > 0 && found < AT_ONCE; next -= 1) {
      if (untaken.has(next) && !session.taken.has(next)) continue;
      rows.push(rowOf(await session.entry(next), next));
      found += 1;
    }
  }

  const title = element("h2", { tabindex: "-1" }, phrases.mailbox.read);
  return element("section", { class: "taken" }, title, table.element, more);
}

/** @param {import("../session.js").Entry | null} entry @param {number} number @returns {Row} */
function rowOf(entry, number) {
  const type = entry?.interchange?.messages[0]?.type ?? "";
  const document = (entry?.order ?? entry?.receipt)?.document ?? phrases.common.entry(number);
  const { date, arrived, ...found } = datesOf(entry);
  return { number, type, document, ...found, date: new Text(date), arrived: new Text(arrived) };
}
