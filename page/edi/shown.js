// @ts-check
// Reads what `edihub show` prints of an interchange (docs/FORMATS.md, "Lines of show").

/** @typedef {{ code: string, segment: number | null, offset: number | null }} Fault segments count from UNB as 1, bytes from 0 */
/** @typedef {{ place: number, reference: string, type: string, fault: Fault | null, lines: string[] }} ShownMessage */
/** @typedef {{ reference: string, sender: string, recipient: string, date: string, time: string }} Head */
/** @typedef {{ fault: Fault | null, head: Head | null, messages: ShownMessage[] }} Shown a fault alone if the text is refused as a whole */

const FAULT = /^refused ([EM]\d\d) [^\n]*?(?: at (?:offset (\d+) line \d+ )?segment (\d+))?$/;

/** What the lines say, or null if they are not such lines.
 * @param {string} text @returns {Shown | null} */
export function readShown(text) {
  const lines = text.replace(/\n$/, "").split("\n");
  const fault = readFault(lines[0]);
  if (fault) return lines.length === 1 ? { fault, head: null, messages: [] } : null;
  const starts = lines.flatMap((it, at) => (/^message \d+$/.test(it) ? [at] : []));
  const head = readHead(lines.slice(0, starts[0] ?? lines.length));
  const messages = starts.map((at, place) => readMessage(lines.slice(at, starts[place + 1] ?? lines.length)));
  return head && !messages.includes(null) ? { fault: null, head, messages: /** @type {ShownMessage[]} */ (messages) } : null;
}

/** @param {string} line @returns {Fault | null} */
function readFault(line) {
  const [, code, offset, segment] = FAULT.exec(line) ?? [];
  return code ? { code, segment: segment ? Number(segment) : null, offset: offset ? Number(offset) : null } : null;
}

/** @param {string[]} lines @returns {Head | null} */
function readHead([service, ...lines]) {
  const found = /^interchange (.*)\n  sender (.*)\n  recipient (.*)\n  prepared (\d{6}) (\d{4})\n  messages \d+$/.exec(lines.join("\n"));
  if (!found || !service.startsWith("service ")) return null;
  const [, reference, sender, recipient, date, time] = found;
  return { reference, sender, recipient, date, time };
}

/** @param {string[]} lines @returns {ShownMessage | null} */
function readMessage([first, ...lines]) {
  const said = lines.map((it) => it.replace(/^  /, ""));
  const [, reference] = /^reference (.*)$/.exec(said[0] ?? "") ?? [];
  const [, type] = /^type (.*)$/.exec(said[1] ?? "") ?? [];
  if (!reference || !type) return null;
  const fault = said.length === 3 ? readFault(said[2]) : null;
  return { place: Number(first.slice("message ".length)), reference, type, fault, lines: fault ? [] : said.slice(2) };
}
