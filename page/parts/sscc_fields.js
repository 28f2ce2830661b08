// @ts-check
// What SSCCs are proposed from: the company prefix and the first serial number, kept in the tab, and the numbers that are taken already.

import { isPrefix } from "../edi/identifiers.js";
import { nextSscc, serialsUnder } from "../edi/sscc.js";
import { phrases } from "../language.js";
import { Field, check, focusFirstWrong } from "./field.js";
import { HeldSsccs } from "./held_sscc.js";

export class SsccFields {
  /** @param {import("../session.js").Session} session
   * @param {(free: Set<string>) => string[]} taken used ones, and those of the form but for these */
  constructor(session, taken) {
    this.session = session;
    this.taken = taken;
    this.held = new HeldSsccs();
    this.prefix = new Field({
      label: phrases.ssccFields.prefix,
      field: "ssccFields.prefix",
      hint: phrases.ssccFields.prefixHint,
      value: session.prefix,
      inputmode: "numeric",
      maxlength: 12,
    });
    this.first = new Field({
      label: phrases.ssccFields.first,
      field: "ssccFields.first",
      hint: phrases.ssccFields.firstHint,
      value: session.firstSerial,
      inputmode: "numeric",
      maxlength: 12,
    });
  }

  get fields() {
    return [this.prefix, this.first];
  }

  get #wrongFirst() {
    const prefix = this.prefix.trimmed;
    const first = this.first.trimmed;
    if (first === "") return "";
    if (!/^\d{1,12}$/.test(first)) return phrases.ssccFields.digitsAlone;
    if (!isPrefix(prefix)) return prefix ? "" : phrases.ssccFields.prefixToo;
    if (Number(first) < serialsUnder(prefix)) return "";
    return phrases.ssccFields.tooLong(prefix, 16 - prefix.length);
  }

  check() {
    const prefix = this.prefix.trimmed;
    const wrong = prefix === "" || isPrefix(prefix) ? "" : phrases.ssccFields.wrongPrefix;
    return [check(this.prefix, wrong), check(this.first, this.#wrongFirst)].every(Boolean);
  }

  /** Takes what was typed for the forms that follow in this tab. Whether it is right. */
  take() {
    const right = this.check();
    if (right) [this.session.prefix, this.session.firstSerial] = [this.prefix.trimmed, this.first.trimmed];
    return right;
  }

  /** Says at the prefix, if nothing else is wrong, that it is needed. */
  askForPrefix() {
    if (this.check()) this.prefix.say(phrases.ssccFields.prefixNeeded);
    focusFirstWrong(this.fields);
  }

  /** The next free SSCC, held for this form; empty if none can be proposed.
   * @param {Set<string>} [free] what pallets of the form have, and may be given again */
  async next(free = new Set()) {
    const prefix = isPrefix(this.prefix.trimmed) ? this.prefix.trimmed : "";
    const first = this.first.trimmed && !this.#wrongFirst ? Number(this.first.trimmed) : null;
    const taken = [...this.taken(free), ...(await this.held.all(free))];
    for (;;) {
      const sscc = nextSscc(prefix, taken, first);
      if (!sscc || (await this.held.hold(sscc))) return sscc;
      // another tab was quicker
      taken.push(sscc);
    }
  }
}
