// @ts-check
// Reads the interchange of a file in whatever spelling it comes: with separators of its own (UNA), line ends, and empty ends.

import { readInterchange } from "./envelope.js";
import { USUAL_SERVICE, segmentText } from "./segments.js";

// without UNA the usual characters hold, of which `UNA` is not one
const SERVICE = "UNA";
const SERVICE_LENGTH = USUAL_SERVICE.length;
const NO_RELEASE = " ";

/** The interchange of a file, or null if the page cannot read it.
 * @param {string} text one character for each byte */
export function readAnySpelling(text) {
  const plain = text.replace(/^[\r\n]+/, "");
  const hasService = plain.startsWith(SERVICE);
  const service = hasService ? plain.slice(0, SERVICE_LENGTH) : USUAL_SERVICE;
  const segments = segmentsOf(hasService ? plain.slice(SERVICE_LENGTH) : plain, service);
  if (!segments) return null;
  const spelled = segments.map(([[tag], ...elements]) => segmentText(tag, ...elements)).join("");
  return readInterchange(`UNA:+${service[5]}? '${spelled}`);
}

/** The segments, each as its elements and these as their components; null if the text ends inside of one.
 * @param {string} text @param {string} service */
function segmentsOf(text, service) {
  const [component, element, , release, , terminator] = service.slice(SERVICE.length);
  const segments = [];
  let elements = [[""]];
  for (let at = 0; at < text.length; at += 1) {
    const isReleased = release !== NO_RELEASE && text[at] === release;
    const components = elements[elements.length - 1];
    if (isReleased) components[components.length - 1] += text[(at += 1)] ?? "";
    else if (text[at] === element) elements.push([""]);
    else if (text[at] === component) components.push("");
    else if (text[at] === terminator) {
      segments.push(elements);
      elements = [[""]];
    } else if (elements[0][0] !== "" || !/[\r\n]/.test(text[at])) components[components.length - 1] += text[at];
  }
  return elements[0][0] === "" ? segments : null;
}
