// Writes messages by the page's own writers: records in JSON on standard input, an array of interchanges on standard output.
import { interchangeText } from "../../page/edi/envelope.js";
import { responseText } from "../../page/edi/response.js";
import { despatchText } from "../../page/edi/despatch.js";

const WRITERS = { ORDRSP: responseText, DESADV: despatchText };
const words = { sender: "4012345500004", recipient: "5412345000006", moment: new Date(2025, 5, 3, 9, 15) };

let input = "";
for await (const piece of process.stdin.setEncoding("utf8")) input += piece;
const written = ({ kind, reference, message }) => interchangeText({ ...words, reference }, WRITERS[kind](message));
console.log(JSON.stringify(JSON.parse(input).map(written)));
