// @ts-check
// Keeps things in the tab's own store (`sessionStorage`), which a reload leaves alone and which ends with the tab. A browser that has it
// switched off keeps nothing.

/** @template Result @param {() => Result} act @param {Result} otherwise */
function guarded(act, otherwise) {
  try {
    return act();
  } catch {
    return otherwise;
  }
}

/** Keeps something; false if there was no room.
 * @param {string} name @param {unknown} content */
export const put = (name, content) =>
  guarded(() => {
    sessionStorage.setItem(name, JSON.stringify(content));
    return true;
  }, false);

/** What is kept under a name, or null.
 * @param {string} name */
export const get = (name) => guarded(() => JSON.parse(sessionStorage.getItem(name) ?? "null"), null);

/** @param {string} name */
export const drop = (name) => guarded(() => sessionStorage.removeItem(name), undefined);

export const dropAll = () => guarded(() => sessionStorage.clear(), undefined);

/** The names that begin with this.
 * @param {string} prefix */
export const namesUnder = (prefix) => guarded(() => Object.keys(sessionStorage).filter((it) => it.startsWith(prefix)), []);
