// @ts-check
// What the page can send, how the hub is asked, and how its reply is read. A reply that does not read is no answer.

import { readCancellation, readUpload, readUploadOfOne } from "./replies.js";

/** @typedef {"document" | "file" | "cancellation"} Kind an interchange of one message that the page wrote; a file; a cancellation */
/** @typedef {{ outcome: "accepted" | "partly" | "repeated" | "refused", code: string }} Verdict `partly`: some messages are refused */
/** @typedef {import("./client.js").Hub} Hub */
/** @typedef {{ ask: (hub: Hub, bytes: Uint8Array) => Promise<string>, read: (reply: string) => Verdict | null }} Way */

/** @type {Record<Kind, Way>} */
export const KINDS = {
  document: { ask: (hub, bytes) => hub.upload(bytes), read: readUploadOfOne },
  file: { ask: (hub, bytes) => hub.upload(bytes), read: readFile },
  cancellation: { ask: (hub, bytes) => hub.cancel(bytes), read: readCancellation },
};

/** The verdict on all messages of a file: refused or repeated if each of them is, accepted in part if some are refused.
 * @param {string} reply @returns {Verdict | null} */
export function readFile(reply) {
  const read = readUpload(reply);
  if (!read) return null;
  const outcomes = new Set(read.messages.map((it) => it.outcome));
  const [alike] = outcomes.size === 1 ? outcomes : [];
  return { outcome: read.code ? "refused" : alike ?? (outcomes.has("refused") ? "partly" : "accepted"), code: read.code };
}
