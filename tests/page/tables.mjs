// Prints the tables of words in JSON: of each language a map from the name of each text to what it is. A text is a string, a list an
// array, and a function an object with the names of its parameters and what it answers: with numbers from 1001 on, and with 1 in the place
// of each.
import { de } from "../../page/words/de.js";
import { en } from "../../page/words/en.js";
import { takeStyle } from "../../page/words/figures.js";
import { fr } from "../../page/words/fr.js";
import { nl } from "../../page/words/nl.js";

const FIRST = 1001;

function parameters(of) {
  const text = String(of).replace(/\/\*.*?\*\//gs, "");
  return text.slice(text.indexOf("(") + 1, text.indexOf("=>")).replace(/\)\s*$/, "").split(",").map((it) => it.trim()).filter(Boolean);
}

const said = (answer) => [answer].flat().join("");

function variants(of, count) {
  const usual = Array.from({ length: count }, (_, place) => FIRST + place);
  const singular = usual.map((_, place) => usual.map((it, at) => (at === place ? 1 : it)));
  const others = count > 1 ? [usual.map(() => 1), usual.map((it, at) => (at === count - 1 ? "" : it))] : [];
  return [usual, ...singular, ...others].map((words) => ({ words, said: said(of(...words)) }));
}

function flat(table, before = "") {
  return Object.entries(table).flatMap(([key, it]) => {
    const name = before + key;
    if (typeof it === "string" || Array.isArray(it)) return [[name, it]];
    if (typeof it !== "function") return flat(it, `${name}.`);
    const names = parameters(it);
    return [[name, { parameters: names, variants: variants(it, names.length) }]];
  });
}

const found = {};
for (const [language, table] of Object.entries({ en, de, fr, nl })) {
  takeStyle(language === "en" ? "en-GB" : language);
  found[language] = Object.fromEntries(flat(table));
}
console.log(JSON.stringify(found));
