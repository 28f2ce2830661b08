// Calls functions of the page's modules: an array of a module, a name and words in JSON on standard input, an array of what they answer on
// standard output, a map as an array of pairs.
let input = "";
for await (const piece of process.stdin.setEncoding("utf8")) input += piece;
const answers = [];
for (const [module, name, ...words] of JSON.parse(input)) {
  const answer = (await import(`../../page/${module}`))[name](...words) ?? null;
  answers.push(answer instanceof Map ? [...answer] : answer);
}
console.log(JSON.stringify(answers));
