// @ts-check
// A form whose content is checked, summed up, and sent by a second press as an interchange or a cancellation. It lives as
// hub/sending_states.js says: while no answer came it is locked, so that the same bytes are sent again and never others in their place.

import { dropDraft, draftOf, keepDraft } from "../kept.js";
import { isSettled, isUnsent, isUnsettled } from "../hub/sending_states.js";
import { phrases } from "../language.js";
import { actions, button, element, notice, saying } from "./dom.js";
import { enterMoves } from "./enter_moves.js";
import { contentOf, fieldInWords, putBack } from "./form_content.js";
import { look } from "./look.js";
import { preview } from "./preview.js";
import { sendingRegion, tell } from "./sending_panel.js";
import { Summary } from "./summary.js";

/** @typedef {import("../hub/kinds.js").Verdict} Verdict */
/** @typedef {import("./form_content.js").FormContent} FormContent */
/** @typedef {{ reference: string, moment: Date }} Stamp */
/**
 * @typedef {{
 *   context: import("../start.js").Context,
 *   kind: import("../hub/kinds.js").Kind,
 *   what: () => string,
 *   noun: string,
 *   draft: string,
 *   content: Node[],
 *   prepare?: (draft: FormContent) => Promise<void>,
 *   apart?: { content: () => string, putBack: (content: string) => Promise<string[]> },
 *   check: () => boolean,
 *   look?: { ask: () => Promise<void>, check: () => boolean },
 *   lock?: (isLocked: boolean) => Promise<void>,
 *   summary: () => import("./summary.js").SummaryWords,
 *   write: (stamp: Stamp) => string | null,
 *   settled: (verdict: Verdict) => Promise<void> | void,
 * }} FormWords `draft` names the form's draft; `prepare` makes room in the form for a draft; `apart` is what was typed that is in no field,
 *   and `putBack` returns what found no place in the form; `look` asks the hub, and checks what was typed against what is known then;
 *   `lock` disables or enables very many fields in pieces, as all at once would make the page pause
 */

// how many things that are wrong are said above the form too
const MOST_FOUND = 3;
// the name of what is in no field, which no field has
const APART = "apart";

/** The form, with the draft that the tab keeps of it.
 * @param {FormWords} words */
export async function sendingForm(words) {
  const form = new SendingForm(words);
  await form.takeDraft();
  return form.element;
}

class SendingForm {
  /** @param {FormWords} words */
  constructor(words) {
    this.words = words;
    this.list = words.context.session.sent;
    this.caller = words.context.session.hub.caller;
    this.sending = this.begin();
    const checkButton = button(phrases.sendingForm.check(words.noun), () => this.review(), { class: "primary" });
    // what is of no use any more once it is sent
    this.before = [preview(() => words.write(this.stamp())), actions(checkButton)];
    this.fields = /** @type {HTMLFieldSetElement} */ (element("fieldset", { class: "bare" }, ...words.content, ...this.before));
    this.summary = new Summary(words.noun, () => this.send(), () => this.edit());
    this.restored = element("div", { role: "status" });
    this.unkept = element("div", { role: "status" });
    this.first = element("div", { role: "alert" });
    this.region = sendingRegion();
    const parts = [this.restored, this.fields, this.unkept, this.first, this.summary.element, this.region];
    this.element = element("form", { novalidate: true, onsubmit: (event) => event.preventDefault() }, ...parts);
    enterMoves(this.fields, checkButton);
    this.pristine = JSON.stringify(this.content);
    this.isNoting = false;
    for (const it of ["input", "change", "click"]) this.fields.addEventListener(it, () => this.noteSoon());
  }

  /** A new document, with a reference of its own. */
  begin() {
    const sending = this.list.begin(this.words.kind, "");
    sending.addEventListener("change", () => this.draw(sending));
    return sending;
  }

  /** What was typed.
   * @returns {FormContent} */
  get content() {
    const { apart } = this.words;
    return { ...contentOf(this.fields), ...(apart && { [APART]: apart.content() }) };
  }

  stamp() {
    return { reference: this.sending.facts.id, moment: new Date() };
  }

  async takeDraft() {
    const draft = draftOf(this.caller, this.words.draft);
    if (!draft) return;
    await this.words.prepare?.(draft);
    const { [APART]: apart, ...typed } = draft;
    const missing = putBack(this.fields, typed).map(fieldInWords);
    if (apart) missing.push(...((await this.words.apart?.putBack(apart)) ?? []));
    const scratch = button(phrases.sendingForm.fromScratch, () => this.discard(), { class: "quiet" });
    const lost = missing.length ? `${phrases.sendingForm.lost(missing.join(", "))} ` : "";
    this.restored.replaceChildren(notice("plain", element("p", {}, `${phrases.sendingForm.isBack} `, lost, scratch)));
    this.note();
  }

  discard() {
    dropDraft(this.caller, this.words.draft);
    delete this.element.dataset.typed;
    this.words.context.go(location.hash.slice(1));
  }

  /** Notes once for all that happens now. */
  noteSoon() {
    if (this.isNoting) return;
    this.isNoting = true;
    setTimeout(() => this.note());
  }

  /** Notes whether there is typed work, and keeps it. */
  note() {
    this.isNoting = false;
    if (this.fields.disabled || !["empty", "typed"].includes(this.sending.state)) return;
    const { content } = this;
    const typed = JSON.stringify(content) !== this.pristine;
    this.sending.happen(typed ? "type" : "clear");
    if (!typed) dropDraft(this.caller, this.words.draft);
    this.warn(typed && !keepDraft(this.caller, this.words.draft, content));
  }

  /** Says, or no longer says, that the browser does not keep what was typed.
   * @param {boolean} isLost */
  warn(isLost) {
    if (isLost === this.element.hasAttribute("data-unkept")) return;
    this.element.toggleAttribute("data-unkept", isLost);
    this.unkept.replaceChildren(...(isLost ? [saying("warn", phrases.start.unkept)] : []));
  }

  async review() {
    this.note();
    const waits = this.list.unsettled.length > 0;
    this.first.replaceChildren(...(waits ? [saying("warn", phrases.sending.first)] : []));
    if (waits || !this.words.check() || this.words.write(this.stamp()) === null) return;
    if (this.words.look && !(await this.isUnchangedAfter(this.words.look.ask) && this.words.look.check())) return;
    if (!(await this.lock())) return;
    if (!this.sending.happen("review")) return;
    // an earlier refusal was of what the form said before
    this.region.replaceChildren();
    this.summary.show(this.words.summary());
  }

  /** Locks what takes a while to lock. Returns whether the form is as it was: if not, it is unlocked again. */
  async lock() {
    const { lock } = this.words;
    if (!lock || (await this.isUnchangedAfter(() => lock(true)))) return true;
    lock(false);
    return false;
  }

  /** Asks the hub, which need not answer, or does something else that takes a while. Returns whether the form is as it was, so that it
   * need not be checked from scratch.
   * @param {() => Promise<void>} ask */
  async isUnchangedAfter(ask) {
    const before = JSON.stringify(this.content);
    await look(ask);
    return this.element.isConnected && JSON.stringify(this.content) === before;
  }

  edit() {
    this.sending.happen("edit");
    this.note();
    /** @type {HTMLElement | null} */ (this.fields.querySelector("input:not(:disabled)"))?.focus();
  }

  send() {
    const text = this.words.write(this.stamp());
    if (text === null || this.sending.state !== "review") return;
    const draft = { name: this.words.draft, content: this.content };
    dropDraft(this.caller, draft.name);
    this.restored.replaceChildren();
    this.sending.send(text, { what: this.words.what(), draft });
  }

  /** @param {import("../hub/sending.js").Sending} sending */
  draw(sending) {
    const { state } = sending;
    const focused = this.element.contains(document.activeElement) || document.activeElement === document.body;
    if (state !== "review") this.summary.hide();
    this.fields.disabled = !["empty", "typed", "refused", "denied"].includes(state);
    if (!this.fields.disabled) this.words.lock?.(false);
    if (isUnsent(state)) this.element.dataset.typed = this.words.what();
    else delete this.element.dataset.typed;
    if (!isUnsettled(state) && !isSettled(state)) return;
    tell(this.region, sending);
    if (this.element.isConnected && focused) this.region.focus({ preventScroll: true });
    this.region.scrollIntoView({ block: "center" });
    if (isSettled(state)) this.end(sending);
  }

  /** The hub answered: what it did not take is typed work again, with a new reference.
   * @param {import("../hub/sending.js").Sending} sending */
  async end(sending) {
    if (sending.state === "accepted") for (const it of this.before) it.hidden = true;
    else {
      this.sending = this.begin();
      this.sending.happen("type");
    }
    const { verdict } = sending;
    if (!verdict || sending.state === "denied") return;
    await this.words.settled(verdict);
    if (verdict.outcome === "refused") this.sayFirst(verdict.code);
  }

  /** Says before the usual causes of a refusal what was found at the fields, unless it says the code alone.
   * @param {string} code */
  sayFirst(code) {
    const said = [...this.fields.querySelectorAll(".wrong:not(:empty)")].map((it) => it.textContent ?? "");
    const found = said.filter((it) => !it.includes(code));
    const first = [...new Set(found)].slice(0, MOST_FOUND).map((it) => element("p", { class: "found" }, it));
    this.region.querySelector(".outcome")?.after(...first);
  }
}
