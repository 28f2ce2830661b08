// @ts-check
// Has an interchange explained by the site of the page: POST /show answers with the lines that `edihub show` prints. That asks no hub and
// needs no key, and a site need not serve it.

import { textOfBytes } from "./client.js";
import { within } from "./patience.js";

/** @typedef {"absent" | "busy" | "long" | "broken"} Why why there is no explanation */

const PATH = "/show";
const SERVED = "edihub show\n";
const PATIENCE = 60_000;

/** @param {Uint8Array} [body] @returns {Promise<{ text: string, why: Why | "" }>} */
async function ask(body) {
  try {
    const response = await fetch(PATH, {
      method: body ? "POST" : "GET",
      body,
      cache: "no-store",
      credentials: "omit",
      redirect: "error",
      referrerPolicy: "no-referrer",
      signal: within(PATIENCE),
    });
    return { text: textOfBytes(await response.arrayBuffer()), why: whyNot(response.status) };
  } catch {
    return { text: "", why: "broken" };
  }
}

/** @param {number} status @returns {Why | ""} */
function whyNot(status) {
  if (status === 200) return "";
  if (status === 413) return "long";
  if (status === 429 || status === 503) return "busy";
  return status === 404 || status === 405 ? "absent" : "broken";
}

/** Why files are not explained here, or "" if they are.
 * @returns {Promise<Why | "">} */
export async function whyNotHere() {
  const { text, why } = await ask();
  // a site that answers each path with its page does not serve this one
  return why || (text === SERVED ? "" : "absent");
}

/** The lines about an interchange, or why there are none.
 * @param {Uint8Array} interchange */
export const explain = (interchange) => ask(interchange);
