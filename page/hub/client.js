// @ts-check
// The hub's HTTP paths, as one caller asks them. A body is a string with one character for each byte.

import { reasonOf, waitOf } from "./answers.js";
import { within } from "./patience.js";

/** There is no answer: whether it was done is not known, and the same may be asked again, after the wait that was asked for. */
export class Broken extends Error {
  /** @param {string} said @param {import("./answers.js").Reason} reason @param {number} [wait] milliseconds */
  constructor(said, reason, wait = 0) {
    super(said);
    this.reason = reason;
    this.wait = wait;
  }
}

/** The hub answered that it does not do this. */
export class Refused extends Error {
  /** @param {number} status @param {string} body */
  constructor(status, body) {
    super(`${status} ${body}`.trim());
    this.status = status;
    this.body = body.trim();
  }
}

// The front takes 30 seconds for a request, keeps it 90 in its queue, tries the hub 60 times in as many seconds, and waits 60 for its
// answer (examples/front/haproxy.cfg). A page that gives up earlier asks again while its first request still waits for its turn.
const PATIENCE = 250_000;
const ONCE_MORE = 400;

/** @param {string} text */
export const bytesOf = (text) => Uint8Array.from(text, (it) => it.charCodeAt(0));

/** @param {ArrayBuffer} buffer */
export function textOfBytes(buffer) {
  const bytes = new Uint8Array(buffer);
  const pieces = [];
  for (let at = 0; at < bytes.length; at += 8192) pieces.push(String.fromCharCode(...bytes.subarray(at, at + 8192)));
  return pieces.join("");
}

export class Hub {
  /** @type {string | Promise<string>} */
  #key;
  /** @type {(key: string) => void} */
  #bringKey = () => {};

  /** @param {string} caller a GLN
   * @param {string} key */
  constructor(caller, key) {
    this.caller = caller;
    this.#key = key;
  }

  /** Forgets the key: what is asked from now on waits until `unlock` brings it back. */
  lock() {
    this.#key = new Promise((done) => (this.#bringKey = done));
  }

  /** @param {string} key */
  unlock(key) {
    this.#key = key;
    this.#bringKey(key);
  }

  /** Waits while the key is forgotten. */
  async ready() {
    await this.#key;
  }

  get isLocked() {
    return typeof this.#key !== "string";
  }

  /** @param {string} path @param {Uint8Array} [body] @param {AbortSignal} [stop] by which the person stops it */
  async #ask(path, body, stop) {
    const key = await this.#key;
    let status, text, wait;
    try {
      const response = await fetch(`/p/${this.caller}/${path}`, {
        method: body ? "POST" : "GET",
        body,
        headers: { "X-Hub-Key": key },
        cache: "no-store",
        credentials: "omit",
        redirect: "error",
        referrerPolicy: "no-referrer",
        signal: within(PATIENCE, stop),
      });
      status = response.status;
      text = textOfBytes(await response.arrayBuffer());
      wait = waitOf(response.headers.get("Retry-After"));
    } catch (why) {
      throw new Broken(String(why), why instanceof DOMException && why.name === "TimeoutError" ? "patience" : "connection");
    }
    const reason = reasonOf(status, text);
    if (reason) throw new Broken(`${status} ${text}`.trim(), reason, wait);
    if (status !== 200 && !(status === 400 && text.startsWith("refused "))) throw new Refused(status, text);
    return text;
  }

  // What only reads is asked once more if the connection breaks, unless a longer wait was asked for.
  /** @param {string} path */
  async #read(path) {
    try {
      return await this.#ask(path);
    } catch (why) {
      if (!(why instanceof Broken) || why.wait) throw why;
      await new Promise((done) => setTimeout(done, ONCE_MORE));
      return this.#ask(path);
    }
  }

  /** @param {number} number */
  mailAfter(number) {
    return this.#read(`mail/after/${number}`);
  }

  /** @param {number} number */
  mailItem(number) {
    return this.#read(`mail/item/${number}`);
  }

  /** @param {number} number */
  takeMail(number) {
    return this.#ask(`mail/item/${number}/taken`, new Uint8Array());
  }

  status() {
    return this.#read("status");
  }

  /** @param {string} supplier a GLN */
  statusOf(supplier) {
    return this.#read(`status/${supplier}`);
  }

  /** The same by one request, which can be stopped.
   * @param {string} supplier a GLN @param {AbortSignal} stop */
  statusOnce(supplier, stop) {
    return this.#ask(`status/${supplier}`, undefined, stop);
  }

  /** @param {Uint8Array} interchange */
  upload(interchange) {
    return this.#ask("interchanges", interchange);
  }

  /** @param {Uint8Array} cancellation */
  cancel(cancellation) {
    return this.#ask("cancellations", cancellation);
  }
}
