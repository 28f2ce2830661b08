// @ts-check
// Keeps the language that a person chose, for all tabs of this browser (`localStorage`). It says nothing of who signs in. A browser that
// has the store switched off keeps nothing.

const NAME = "edihub.language";

/** @returns {string | null} */
export function keptLanguage() {
  try {
    return localStorage.getItem(NAME);
  } catch {
    return null;
  }
}

/** @param {string} language */
export function keepLanguage(language) {
  try {
    localStorage.setItem(NAME, language);
  } catch {
    // the next page begins in the browser's language again
  }
}
