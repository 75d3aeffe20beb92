#!/usr/bin/env -S node --experimental-wasm-memory64
// Runs the traces of examples/ through the module of a page, and compares what comes with the texts beside them, to the byte; and then
// searches, and compares what is found.
//
//   library/viewer/module.mjs PAGE.html SEARCHES.json    the searches are those of library/searched.py
//
// The last line is 'N passed, M failed'.
import fs from "node:fs";
import path from "node:path";
import { fileURLToPath } from "node:url";
import { Library } from "./pool.js";
import { searched } from "./searcher.js";
import { Words, configOf, linesOf, textOf } from "./trace.js";

const TOP = path.resolve(path.dirname(fileURLToPath(import.meta.url)), "../..");
// events that are made to take the time: a map, and then stores and loads of its page
const TIMED = 300_000;

const html = fs.readFileSync(process.argv[2], "utf8");
const data = JSON.parse(html.match(/<script type="application\/json" id="data">(.*?)<\/script>/s)[1]);
const library = await Library.of(Buffer.from(data.wasm, "base64"), data.header);
const words = new Words(data.header.numbers);
let passed = 0;
let failed = 0;

function expect(what, found, wanted) {
  if (found === wanted) {
    passed++;
    return;
  }
  failed++;
  const place = [...found].findIndex((it, at) => it !== wanted[at]);
  console.log(`page: ${what}: another text from ${place} on: ${JSON.stringify(found.slice(Math.max(0, place - 40), place + 80))}`);
}

const read = (file) => (fs.existsSync(file) ? fs.readFileSync(file, "utf8") : null);

/** The state as a replay writes it, from the numbers that the page shows. */
function state() {
  const { free, resv, calls, used, files, tasks, has_quota } = library.poolNumbers();
  const lines = [`free ${free} resv ${resv} calls ${calls}${has_quota ? ` used ${used}` : ""}`];
  for (let file = 0; file < files; file++) {
    const it = library.file(file);
    lines.push(`file ${file} size ${it.size} reserved ${it.reserved} regions ${it.regions} pages ${it.pages} changes ${it.changes} spare ${it.spare}`);
  }
  for (let task = 1; task <= tasks; task++) {
    const it = library.task(task);
    lines.push(`task ${task} ${words.lives[it.life]} mappings ${it.mappings} entries ${it.entries}`);
  }
  return lines;
}

function start(lines) {
  return library.start(configOf(lines[0]), lines.slice(1).map((it) => words.event(it))).map((it) => words.outcome(it));
}

/** A good trace: its outcomes and its state by numbers, and its texts. */
function tried(name, trace, beside) {
  const lines = linesOf(trace);
  const outcomes = start(lines);
  const out = beside("out");
  if (out !== null) expect(`${name}: outcomes and state`, textOf([...outcomes, ...state()]), out);
  if (out !== null) expect(`${name}: replay`, library.text("replay", trace), out);
  if (beside("explained") !== null) expect(`${name}: explain`, library.text("explain", trace), beside("explained"));
  const picture = read(path.join(TOP, "docs", "pictures", `${name}.svg`));
  if (picture !== null) expect(`${name}: draw`, library.text("draw", trace), picture);
  expect(`${name}: audits`, lines.map((_, at) => (library.go(at), library.audit())).join(""), "0".repeat(lines.length));
  library.go(lines.length - 1);
  if (out !== null) expect(`${name}: state, gone back to`, textOf([...outcomes, ...state()]), out);
}

function tryTrace(file) {
  const name = path.basename(file, ".trace");
  const beside = (kind) => read(file.replace(/trace$/, kind));
  const trace = read(file);
  const fault = library.fault(trace);
  if (fault === null) return tried(name, trace, beside);
  const where = fault.isHeader ? "line 1 is not a pool header" : `line ${fault.line} is not allowed here`;
  expect(`${name}: the fault`, `hugepool: ${where}\nhugepool: ${fault.why}\n`, beside("err"));
}

const NUMBERS = { find: ["seed", "runs", "deny", "kill"], every: ["denials", "kills", "states"], minimize: [] };

/** A search of examples/commands: what is found, or that nothing is, or that a line is none. */
function trySearch({ name, words: [search, conditions, ...given], text, status, wanted }) {
  const kind = { "find-every": "every" }[search] ?? search;
  if (!(kind in NUMBERS) || !(`hugepool_${search.replace("-", "_")}` in library.exports)) return;
  const numbers = Object.fromEntries(NUMBERS[kind].map((it, at) => [it, it === "seed" ? BigInt(given[at]) : Number(given[at])]));
  const asked = { text: kind === "minimize" ? library.format(text.replace(/ x(\d+)$/gm, " *$1")).text : text, conditions, numbers };
  const last = [...searched(library, kind, asked)].at(-1);
  expect(`${name}: the answer`, last.answer, { 0: "found", 1: "none", 2: "condition", 3: "limit" }[status]);
  if (status === 0) expect(`${name}: what is found`, last.text, wanted);
  if (status === 0 && kind === "find") expect(`${name}: the run`, `${last.run}`, name.includes("seeds wrap") ? "1" : "0");
}

/** Random runs are searched in slices, also where seeds wrap. */
function trySlices() {
  if (!library.exports.hugepool_find) return;
  const text = read(path.join(TOP, "examples", "truncate-against-fault.script"));
  const asked = { text, conditions: "blocked 2\nanswer 1:2=beyond", numbers: { seed: 2n ** 64n - 40n, runs: 100, deny: 0, kill: 0 } };
  const find = (more, conditions = asked.conditions) => [...searched(library, "find", { text, conditions, numbers: { ...asked.numbers, ...more } })];
  const whole = library.search("find", text, asked.conditions, "hunt_words", { ...asked.numbers, limit: 100 });
  const sliced = find({}).at(-1);
  expect("slices", `${sliced.run} ${sliced.text}`, `${whole.number} ${whole.text}`);
  const first = find({ seed: 1n }).at(-1);
  expect("the run of docs/EXPLORING.md", `${first.run} ${linesOf(first.text).length - 1}`, "4 30");
  const told = find({ runs: 5 }, "answer 1:2=segv");
  expect("runs are counted", `${told[0].done} ${told.at(-2).done} ${told.at(-1).answer}`, "1 5 none");
}

/** How long an event takes in the module, all of them made in one call. */
function time() {
  const round = ["step 1", "step 1", "step 1", "step 1", "step 1", "step 1", "step 1", "begin 1 store 0 7"];
  const lines = ["pool 4 1 4 2", "begin 1 map 0 0 1", ...Array.from({ length: TIMED }, (_, at) => round[at % round.length])];
  start(lines);
  library.go(0);
  const began = performance.now();
  library.go(TIMED + 1);
  console.log(`page: ${((1e6 * (performance.now() - began)) / TIMED).toFixed(0)} ns an event in the module`);
  library.end();
}

for (const it of fs.readdirSync(path.join(TOP, "examples"), { recursive: true }).sort()) {
  if (it.endsWith(".trace")) tryTrace(path.join(TOP, "examples", it));
}
for (const it of JSON.parse(read(process.argv[3]))) trySearch(it);
trySlices();
expect("no text", JSON.stringify(library.fault("")?.isHeader), "true");
library.end();
time();
console.log(`${passed} passed, ${failed} failed`);
process.exit(failed ? 1 : 0);
