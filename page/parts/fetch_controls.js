// @ts-check
// Fetches the statuses of suppliers by a press, shows how far that is, and stops it by another.

import { phrases } from "../language.js";
import { actions, button, element, newId, sayOnce } from "./dom.js";
import { clockTime } from "./sending_panel.js";

/** @typedef {import("../suppliers/planner.js").Planner} Planner */

export class FetchControls {
  /** @param {Planner} planner */
  constructor(planner) {
    this.planner = planner;
    const id = newId("progress");
    this.fetch = button("", () => this.begin(planner.list.suppliers.map((it) => it.gln)), { class: "primary" });
    this.again = button("", () => this.begin(this.failed), {});
    this.stop = button(phrases.fetchControls.stop, () => this.end(), {});
    this.bar = /** @type {HTMLProgressElement} */ (element("progress", { id }));
    this.count = element("label", { for: id });
    this.progress = element("div", { class: "progress" }, this.count, this.bar);
    this.said = element("p", { class: "lead happened", role: "status", tabindex: "-1" });
    this.element = element("section", { class: "no-print" }, actions(this.fetch, this.again, this.stop), this.progress, this.said);
    this.draw();
  }

  /** Those of which the last request brought no status. */
  get failed() {
    return [...this.planner.round.results].flatMap(([gln, { wrong }]) => (wrong ? [gln] : []));
  }

  /** @param {string[]} glns */
  begin(glns) {
    this.planner.round.run(glns);
    this.draw();
    this.said.focus({ preventScroll: true });
  }

  end() {
    this.planner.round.stop();
    this.draw();
    this.said.focus({ preventScroll: true });
  }

  draw() {
    const { round, list } = this.planner;
    const [count, failed] = [list.suppliers.length, this.failed.length];
    const wasStop = document.activeElement === this.stop;
    this.element.hidden = !count;
    this.fetch.textContent = phrases.fetchControls.fetch(count);
    this.fetch.hidden = round.isRunning;
    this.again.textContent = phrases.fetchControls.again(failed);
    this.again.hidden = round.isRunning || !failed;
    this.stop.hidden = this.progress.hidden = !round.isRunning;
    this.bar.max = Math.max(1, round.total);
    this.bar.value = round.done;
    this.count.textContent = phrases.fetchControls.count(round.done, round.total);
    sayOnce(this.said, this.inWords());
    if (wasStop && this.stop.hidden) this.said.focus({ preventScroll: true });
  }

  inWords() {
    const { done, total, failed, until, isRunning } = this.planner.round;
    if (until) return phrases.fetchControls.waits(clockTime(until, "medium"));
    if (isRunning) return phrases.fetchControls.fetching(total);
    if (!total) return phrases.fetchControls.nothingYet;
    if (done < total) return phrases.fetchControls.stopped(done, total);
    if (!failed) return phrases.fetchControls.fetched(total);
    return phrases.fetchControls.someFailed(total - failed, total, failed);
  }
}
