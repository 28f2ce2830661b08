// @ts-check
// The pallets in the form of a despatch: adds, copies, splits, fills from rows, renumbers and removes them. Each gets an SSCC that no other
// form of this browser holds.

import { evenSplit } from "../despatch/even_split.js";
import { MOST_PALLETS } from "../despatch/pallet_rows.js";
import { isSscc } from "../edi/identifiers.js";
import { ssccOf } from "../edi/sscc.js";
import { phrases } from "../language.js";
import { element } from "../parts/dom.js";
import { SsccFields } from "../parts/sscc_fields.js";
import { Pallet } from "./pallet.js";

/** @typedef {import("../despatch/ledger.js").Ledger} Ledger */
/** @typedef {{ isCollapsed?: boolean, wantsAll?: boolean | null }} Look */

// a draft with more quantities than this comes back with its pallets collapsed
const MANY = 60;
// how many milliseconds are spent on pallets before the page takes what was typed
const AT_ONCE = 10;
// how many milliseconds a page that is left may take to let go of its SSCCs
const LEAVING = 2_000;

const breath = () => new Promise((done) => setTimeout(done));

export class Pallets {
  /** @param {{ session: import("../session.js").Session, ledger: Ledger, articles: import("../articles.js").Articles,
   *   used: () => Set<string> }} words */
  constructor({ session, ledger, articles, used }) {
    this.session = session;
    this.ledger = ledger;
    this.articles = articles;
    /** @type {Pallet[]} */
    this.all = [];
    this.sscc = new SsccFields(session, (free) => [...used(), ...this.all.map((it) => it.number).filter((it) => !free.has(it))]);
    this.sscc.prefix.input.addEventListener("change", () => this.propose((it) => !isSscc(it.number)));
    const isOwn = (/** @type {Pallet} */ it) => !isSscc(it.number) || it.number === it.proposed;
    this.sscc.first.input.addEventListener("change", () => this.propose(isOwn, true));
    this.element = element("div", { class: "pallets", onchange: () => this.hold() });
    /** @type {Promise<unknown>} */
    this.numbering = Promise.resolve();
    this.isLocked = false;
    this.tools = {
      copy: (/** @type {Pallet} */ from) => this.copy(from),
      split: (/** @type {Pallet} */ from, /** @type {number} */ count) => this.split(from, count),
      remove: (/** @type {Pallet} */ it) => this.remove(it),
      changed: () => this.element.dispatchEvent(new Event("input", { bubbles: true })),
    };
    ledger.addEventListener("change", (event) => this.all.forEach((it) => it.refresh(/** @type {CustomEvent} */ (event).detail)));
  }

  /** Does what takes SSCCs in turn, so that two actions never take the same.
   * @template T
   * @param {() => Promise<T>} action
   * @returns {Promise<T>} */
  inTurn(action) {
    const done = this.numbering.then(action);
    this.numbering = done.catch(() => {});
    return done;
  }

  /** Proposes SSCCs for the pallets that need one now, but not for those that are labelled; returns how many got one.
   * @param {(pallet: Pallet) => boolean} needs @param {boolean} [again] whether one that they have may be proposed again */
  async propose(needs, again = false) {
    if (!this.sscc.take()) return 0;
    const found = this.all.filter((it) => !it.isLabelled && needs(it)).map((pallet) => ({ pallet, value: pallet.sscc.value }));
    return this.inTurn(async () => {
      const free = new Set(again ? found.map(({ pallet }) => pallet.number) : []);
      let count = 0;
      for (const { pallet, value } of found) {
        const sscc = await this.sscc.next(free);
        // what the person types meanwhile stays
        if (!sscc || (pallet.sscc.value !== value && pallet.number !== pallet.proposed)) continue;
        free.delete(sscc);
        pallet.propose(sscc);
        count += 1;
      }
      this.hold();
      return count;
    });
  }

  /** Gives new SSCCs to all pallets that are not labelled, and says to how many. */
  async renumber() {
    const count = await this.propose(() => true);
    const kept = this.all.length - count;
    if (!count && this.all.some((it) => !it.isLabelled)) this.sscc.askForPrefix();
    const words = [phrases.pallets.renumbered(count), kept ? phrases.pallets.unchanged(kept) : ""];
    return words.join(" ").trim();
  }

  /** Holds the SSCCs of the form, so that another tab does not propose them; and says where another tab was earlier. */
  hold() {
    this.sscc.held.keepOnly(this.all.map((it) => it.number));
    for (const pallet of this.all) if (isSscc(pallet.number)) this.#holdOne(pallet);
  }

  /** A page that is left lets go of its SSCCs a moment later, so a draft that comes back after a reload waits for them.
   * @param {Pallet} pallet */
  async #holdOne(pallet) {
    const { number } = pallet;
    if ((await this.sscc.held.hold(number, LEAVING)) || pallet.number !== number) return;
    pallet.sscc.say(phrases.pallets.heldElsewhere);
    this.offerNewSsccs();
  }

  /** Offers new SSCCs once one is wrong, and which pallets keep theirs; the stylesheet hides both before. */
  offerNewSsccs() {
    if (this.all.some((it) => it.sscc.isWrong || it.isLabelled)) this.element.classList.add("needs-ssccs");
  }

  /** Adds a pallet for a person who goes on with it: it lists all lines, and the others only their own. */
  async add() {
    for (const it of this.all) if (it.wantsAll) [it.wantsAll, it.isStale] = [null, true];
    const [pallet] = await this.addSeveral(1, { wantsAll: true });
    this.draw();
    return pallet;
  }

  /** Adds pallets, and draws them.
   * @param {number} count @param {Look} [look]
   * @returns {Promise<Pallet[]>} */
  addSeveral(count, look) {
    return this.inTurn(async () => {
      /** @type {Pallet[]} */
      const added = [];
      for (let it = 0; it < count; it += 1) added.push(await this.#addNext(look));
      this.number();
      this.hold();
      return added;
    });
  }

  /** @param {Look} [look]
   * @returns {Promise<Pallet>} */
  async #addNext(look) {
    const { ledger, articles, tools } = this;
    const pallet = new Pallet({ sscc: await this.sscc.next(), ledger, articles, form: tools, ...look });
    this.all.push(pallet);
    pallet.draw();
    this.element.append(pallet.element);
    return pallet;
  }

  /** How a pallet looks that the page has filled.
   * @returns {Look} */
  get #filledLook() {
    return { isCollapsed: true };
  }

  /** Adds a pallet with the same on it as far as so much is left, and says so.
   * @param {Pallet} from
   * @returns {Promise<string>} */
  async copy(from) {
    if (!from.contents.length) return phrases.palletTools.nothingOnIt;
    if (this.all.length >= MOST_PALLETS) return phrases.pallets.full(MOST_PALLETS);
    if (!this.#leftOf(from).length) return phrases.pallets.nothingLeft;
    const [copy] = await this.addSeveral(1, this.#filledLook);
    copy.load.replace(this.#leftOf(from));
    const less = from.contents.length - copy.contents.length;
    const fewer = from.load.pieces - copy.load.pieces;
    const place = this.all.indexOf(copy) + 1;
    return less || fewer ? phrases.pallets.copiedWhatWasLeft(place, fewer) : phrases.pallets.copied(place);
  }

  /** @param {Pallet} from */
  #leftOf(from) {
    const least = from.contents.map(({ line, quantity }) => ({ line, quantity: Math.min(quantity, this.ledger.left(line)) }));
    return least.filter((it) => it.quantity > 0);
  }

  /** Splits what is on a pallet evenly over it and new ones, and says so.
   * @param {Pallet} from @param {number} count of pallets in all
   * @returns {Promise<string>} */
  async split(from, count) {
    if (this.all.length + count - 1 > MOST_PALLETS) return phrases.pallets.full(MOST_PALLETS);
    const first = this.all.length + 1;
    const others = await this.addSeveral(count - 1, this.#filledLook);
    const contents = from.contents;
    const shares = evenSplit(contents.map((it) => it.quantity), count);
    [from, ...others].forEach((pallet, place) => contents.forEach(({ line }, at) => pallet.load.set(line, shares[place][at])));
    from.draw();
    const last = first + others.length - 1;
    return phrases.pallets.split(first, last);
  }

  /** Puts on pallets what rows say, and says so.
   * @param {import("./paste_pallets.js").Placing[]} rows */
  async place(rows) {
    const pallets = await this.#named([...new Set(rows.map((it) => it.pallet))]);
    for (const [name, pallet] of pallets) {
      pallet.load.replace(rows.filter((it) => it.pallet === name));
      pallet.isStale = true;
    }
    this.hold();
    this.draw();
    const pieces = rows.reduce((all, it) => all + it.quantity, 0);
    this.tools.changed();
    return phrases.pallets.placed(pieces, rows.length, pallets.size);
  }

  /** The pallets of these numbers and SSCCs; an SSCC that no pallet has goes to one that is empty, or else to a new one.
   * @param {(number | string)[]} names @returns {Promise<Map<number | string, Pallet>>} */
  async #named(names) {
    const numbers = names.flatMap((it) => (typeof it === "number" ? [it] : []));
    const ssccs = names.flatMap((it) => (typeof it === "string" ? [it] : []));
    await this.addSeveral(Math.max(0, Math.max(0, ...numbers) - this.all.length), this.#filledLook);
    /** @type {Map<number | string, Pallet>} */
    const found = new Map(numbers.map((it) => [it, this.all[it - 1]]));
    for (const sscc of ssccs) {
      const known = this.all.find((it) => it.number === sscc);
      if (known) found.set(sscc, known);
    }
    const isFree = (/** @type {Pallet} */ it) => !it.load.size && !it.isLabelled && ![...found.values()].includes(it);
    for (const sscc of ssccs.filter((it) => !found.get(it))) {
      const pallet = this.all.find(isFree) ?? (await this.addSeveral(1, this.#filledLook))[0];
      pallet.sscc.value = ssccOf(sscc);
      found.set(sscc, pallet);
    }
    return found;
  }

  /** Has as many pallets as a draft, whose SSCCs are the person's.
   * @param {number} count */
  async makeRoom(count) {
    await this.addSeveral(Math.max(0, count - this.all.length));
    for (const pallet of this.all) [pallet.proposed, pallet.wantsAll] = ["", null];
  }

  /** Draws the pallets of a draft: collapsed if very much is on them. */
  drawRestored() {
    const isCollapsed = this.all.reduce((all, it) => all + it.load.size, 0) > MANY;
    for (const pallet of this.all) pallet.isCollapsed = isCollapsed;
    this.offerNewSsccs();
    return this.drawAgain();
  }

  /** @param {Pallet} pallet */
  async remove(pallet) {
    this.all.splice(this.all.indexOf(pallet), 1);
    pallet.load.keepOnly([]);
    pallet.element.remove();
    this.hold();
    if (!this.all.length) await this.add();
    this.number();
    this.tools.changed();
    this.all[this.all.length - 1].sscc.input.focus();
  }

  number() {
    this.all.forEach((it, place) => {
      const words = phrases.pallets.pallet(place + 1);
      it.element.dataset.field = `pallets.pallet/${place + 1}`;
      if (it.legend.textContent !== words) it.legend.textContent = words;
    });
  }

  /** @param {boolean} isCollapsed */
  collapseAll(isCollapsed) {
    for (const it of this.all) if (it.isCollapsed !== isCollapsed) [it.isCollapsed, it.isStale] = [isCollapsed, true];
    this.draw();
  }

  /** The lines that can be on them were changed: what was typed for others is forgotten. */
  offer() {
    for (const it of this.all) it.load.keepOnly(this.ledger.lines);
    this.drawAgain();
  }

  drawAgain() {
    for (const it of this.all) it.isStale = true;
    return this.draw();
  }

  /** Draws what changed. */
  draw() {
    return this.#inPieces((it) => it.isStale, (it) => it.draw());
  }

  /** Disables the fields of all pallets, or enables them.
   * @param {boolean} isLocked */
  lock(isLocked) {
    this.isLocked = isLocked;
    return this.#inPieces((it) => it.element.disabled !== this.isLocked, (it) => (it.element.disabled = this.isLocked));
  }

  /** Does something with each pallet that needs it, in pieces between which the page takes what is typed.
   * @param {(pallet: Pallet) => boolean} needs @param {(pallet: Pallet) => void} act */
  async #inPieces(needs, act) {
    let end = performance.now() + AT_ONCE;
    for (let it = this.all.find(needs); it; it = this.all.find(needs)) {
      if (performance.now() > end) {
        await breath();
        end = performance.now() + AT_ONCE;
      } else {
        act(it);
        // Makes the browser style it now, as part of this piece. Firefox styles even what is out of sight, and would otherwise do so for
        // several pieces at once.
        getComputedStyle(it.toggle).color;
      }
    }
  }
}
