// Reads interchanges by the page's own readers, and prints what they say in the lines of `edihub show`: an array of texts (as latin-1) in
// JSON on standard input, an array of lines, or null for what is not understood, on standard output. A message that is not understood is
// `refused`.
import { readInterchange } from "../../page/edi/envelope.js";
import { readOrder } from "../../page/edi/order.js";
import { readResponse } from "../../page/edi/response.js";
import { readDespatch } from "../../page/edi/despatch.js";
import { readReceipt } from "../../page/edi/receipt.js";

const parties = (it) => [`buyer ${it.buyer || "-"}`, `supplier ${it.supplier}`];

function orderLines(order) {
  const lines = order.lines.map((it) => `line ${it.line} item ${it.gtin} ordered ${it.quantity}`);
  return [`order ${order.document}`, ...parties(order), ...lines];
}

function responseLines(response) {
  const all = { 27: ["all refused"], 29: ["all accepted"] }[response.function];
  const answer = (it) => (it.answer === "changed" ? `changed ${it.quantity}` : it.answer);
  const lines = response.lines.map((it) => `line ${it.line ?? "-"} item ${it.gtin} ${answer(it)}`);
  return [`response ${response.document}`, ...parties(response), `answers ${response.order}`, ...(all ?? lines)];
}

function units(of, line) {
  return of.units.flatMap((it) => [`unit ${it.sscc}`, ...it.lines.map((one) => `  item ${one.gtin} ${line(one)}`)]);
}

function despatchLines(it) {
  const line = (one) => `despatched ${one.quantity} line ${one.line ?? "-"} order ${one.order}`;
  return [`despatch ${it.document}`, ...parties(it), ...units(it, line)];
}

function receiptLines(it) {
  const line = (one) => `accepted ${one.accepted} returned ${one.returned} destroyed ${one.destroyed}`;
  return [`receipt ${it.document}`, ...parties(it), ...(it.replaces ? ["replaces what was received"] : []), ...units(it, line)];
}

const KINDS = {
  ORDERS: [readOrder, orderLines],
  ORDRSP: [readResponse, responseLines],
  DESADV: [readDespatch, despatchLines],
  RECADV: [readReceipt, receiptLines],
};

function messageLines(message, place) {
  const [read, lines] = KINDS[message.type] ?? [() => null];
  const record = read(message);
  const said = record ? lines(record) : ["refused"];
  return [`message ${place + 1}`, ...[`reference ${message.reference}`, `type ${message.type}`, ...said].map((it) => `  ${it}`)];
}

function shown(text) {
  const it = readInterchange(text);
  if (!it) return null;
  return [
    `service component : element + decimal ${it.decimal} release ? terminator '`,
    `interchange ${it.reference}`,
    `  sender ${it.sender}`,
    `  recipient ${it.recipient}`,
    `  prepared ${it.date} ${it.time}`,
    `  messages ${it.messages.length}`,
    ...it.messages.flatMap(messageLines),
  ];
}

let input = "";
for await (const piece of process.stdin.setEncoding("utf8")) input += piece;
console.log(JSON.stringify(JSON.parse(input).map(shown)));
