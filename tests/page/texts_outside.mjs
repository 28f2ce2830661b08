// Prints the texts in modules of the page that a person would read, in JSON: what the compiler's parser finds as a string or a template.
// The first word is the file of the compiler, the others are modules.
import { createRequire } from "node:module";
import { readFileSync } from "node:fs";

const [compiler, ...files] = process.argv.slice(2);
const ts = createRequire(import.meta.url)(compiler);

// properties and calls whose strings are for the browser, and not for people
const PROPERTIES = new RegExp(
  "^(accept|autocomplete|block|cache|class|credentials|d|dateStyle|field|fill|href|id|inputmode|kind|lang|method|name|role|scope|type|" +
    "redirect|referrerPolicy|timeStyle|viewBox|preserveAspectRatio|shape-rendering|data-.*|" +
    "aria-(controls|current|describedby|expanded|labelledby|live|sort))$",
);
const CALLS = new RegExp(
  "(^|\\.)(querySelector|querySelectorAll|closest|matches|createElement|createElementNS|getAttribute|setAttribute|hasAttribute|" +
    "removeAttribute|addEventListener|dispatchEvent|Event|CustomEvent|startsWith|endsWith|includes|split|join|getElementById|" +
    "setProperty|RegExp)$",
);
const WORDS = /\p{L}{2,}[,:;.…]? \p{L}/u;
const NAME = /^[‹“]? ?\p{Lu}\p{Ll}{2,}/u;
// a word beside what is filled in, such as the one of `${number}, line ${line}`
const BESIDE = /\}[,:;]? \p{L}{2,}|\p{L}{2,}:? \$\{/u;
const isProse = (text) => [WORDS, NAME, BESIDE, /\p{L}…$/u].some((it) => it.test(text));

function textOf(node) {
  if (ts.isStringLiteralLike(node)) return node.text;
  if (!ts.isTemplateExpression(node)) return null;
  return node.head.text + node.templateSpans.map((it) => `\${}${it.literal.text}`).join("");
}

function isForBrowser(node) {
  const { parent } = node;
  if (ts.isImportDeclaration(parent) || ts.isExportDeclaration(parent) || ts.isCaseClause(parent)) return true;
  if (ts.isPropertyAssignment(parent)) return parent.name === node || PROPERTIES.test(parent.name.text ?? "");
  if (ts.isBinaryExpression(parent)) return ["===", "!=="].includes(parent.operatorToken.getText());
  if (ts.isNewExpression(parent) || ts.isCallExpression(parent)) return CALLS.test(parent.expression.getText());
  if (ts.isConditionalExpression(parent)) return isForBrowser(parent);
  return false;
}

const found = [];
for (const file of files) {
  const source = ts.createSourceFile(file, readFileSync(file, "utf8"), ts.ScriptTarget.Latest, true, ts.ScriptKind.JS);
  const visit = (node) => {
    const text = textOf(node);
    if (text !== null && isProse(text) && !isForBrowser(node)) found.push([file, text]);
    ts.forEachChild(node, visit);
  };
  visit(source);
}
console.log(JSON.stringify(found));
