// @ts-check
// Says when nobody has used the tab for ten minutes.

export const IDLE = 10 * 60_000;
const LOOK = 1_000;
const SIGNS = ["keydown", "pointerdown", "pointermove", "wheel", "touchstart", "input"];

/** Calls `idle` once nobody has used the tab for ten minutes, by the clock: so also when a computer wakes up. `used` is called on use, at
 * most once a second.
 * @param {() => void} idle @param {() => void} used */
export function watchUse(idle, used) {
  let last = Date.now();
  let noted = last;
  const isOver = () => Date.now() - last >= IDLE;
  const look = () => {
    if (isOver()) idle();
  };
  const use = () => {
    // the first sign of use after a rest locks too, before it does anything
    look();
    last = Date.now();
    if (last - noted < LOOK) return;
    noted = last;
    used();
  };
  for (const sign of SIGNS) addEventListener(sign, use, { capture: true, passive: true });
  setInterval(look, LOOK);
}
