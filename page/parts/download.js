// @ts-check
// Files that are made in the tab: an interchange, or the rows of a table.

import { bytesOf } from "../hub/client.js";
import { phrases } from "../language.js";
import { button, element } from "./dom.js";

// by which spreadsheets know UTF-8
const MARK = "\ufeff";

/** @param {string} name @param {BlobPart} content @param {string} type */
function download(name, content, type) {
  const address = URL.createObjectURL(new Blob([content], { type }));
  element("a", { href: address, download: name }).click();
  setTimeout(() => URL.revokeObjectURL(address), 60_000);
}

/** @param {string} label @param {string} name @param {string} text */
export const downloadButton = (label, name, text) =>
  button(label, () => download(name, bytesOf(text), "application/octet-stream"), { class: "quiet" });

/** @param {string} caption of the table @param {() => string} write */
export function csvButton(caption, write) {
  const plain = caption.toLowerCase().normalize("NFD").replace(/[\u0300-\u036f]/g, "");
  const name = `${plain.replace(/[^a-z0-9]+/g, "-").replace(/^-|-$/g, "")}.csv`;
  const save = () => download(name, MARK + write(), "text/csv;charset=utf-8");
  return button(phrases.download.csv, save, { class: "quiet csv no-print", "aria-label": phrases.download.csvOf(caption) });
}
