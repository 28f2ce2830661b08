// Plays documents on their way to the hub by the page's own modules, without a browser: an array of plays in JSON on standard input, each
// with the answers that come; an array of the states, texts and pauses of each on standard output. Where the page waits for the person, the
// person sends again as long as answers are left.
import { Broken, Refused } from "../../page/hub/client.js";
import { Sending } from "../../page/hub/sending.js";
import { TRANSITIONS } from "../../page/hub/sending_states.js";

function answered([kind, ...words]) {
  if (kind === "reply") return words[0];
  if (kind === "refused") throw new Refused(...words);
  if (kind === "broken") throw new Broken("", ...words);
  throw new TypeError("a fault of the page");
}

async function played({ kind, answers }) {
  const left = [...answers];
  const texts = [];
  const pauses = [];
  const states = [];
  const ask = async (text) => answered(left.shift(), texts.push(text));
  const sending = new Sending({ id: "R1", kind, what: "It" }, ask, async (milliseconds) => void pauses.push(Math.round(milliseconds / 100) * 100));
  sending.addEventListener("change", () => states.push(sending.state));
  sending.happen("type");
  sending.happen("review");
  await sending.send("the text");
  // what comes at a wrong time changes nothing
  await sending.send("another text");
  while (sending.state === "unanswered" && left.length) await sending.again();
  const { text, tries, reason } = sending.facts;
  return { states, texts, pauses, text, tries, reason, verdict: sending.verdict };
}

let input = "";
for await (const piece of process.stdin.setEncoding("utf8")) input += piece;
const plays = [];
for (const play of JSON.parse(input)) plays.push(await played(play));
console.log(JSON.stringify({ table: TRANSITIONS, plays }));
