#!/usr/bin/env node
// Tries functions of the page that need no browser: what an address asks for, a trace in an address, lines of conditions, and whether each
// phase and each answer has words.
//
//   library/viewer/functions.mjs PAGE.html
//
// The last line is 'N passed, M failed'.
import fs from "node:fs";
import { ANSWERS, ASKED, CONDITIONS, conditionOf, optionsOf, wrongWords } from "./conditions.js";
import { bytesOf, lettersOf, pack, readAddress, unpack } from "./address.js";

const html = fs.readFileSync(process.argv[2], "utf8");
const data = JSON.parse(html.match(/<script type="application\/json" id="data">(.*?)<\/script>/s)[1]);
let passed = 0;
let failed = 0;

function expect(what, is, wanted) {
  const [one, other] = [is, wanted].map((it) => JSON.stringify(it, (_, value) => (value === Infinity ? "the last" : value)));
  if (one === other) passed++;
  else {
    failed++;
    console.log(`page: ${what}: ${one}, not ${other}`);
  }
}

const asks = (hash) => (({ name, packed, isScript, place, why }) => [name ?? packed, isScript ?? "", place, why !== ""])(readAddress(hash));
for (const [hash, wanted] of Object.entries({
  "": ["", "", Infinity, false],
  "#two-maps-one-lock": ["two-maps-one-lock", "", Infinity, false],
  "#two-maps-one-lock@5": ["two-maps-one-lock", "", 5, false],
  "#two%2Dmaps@0": ["two-maps", "", 0, false],
  "#two-maps@abc": ["two-maps", "", Infinity, true],
  "#two-maps@-1": ["two-maps", "", Infinity, true],
  "#two-maps@1.5": ["two-maps", "", Infinity, true],
  "#two-maps@1e3": ["two-maps", "", Infinity, true],
  "#two-maps@": ["two-maps", "", Infinity, true],
  "#%": ["", "", Infinity, true],
  "#trace=a-_b@7": ["a-_b", false, 7, false],
  "#script=ab": ["ab", true, Infinity, false],
})) expect(`the address ${hash}`, asks(hash), wanted);

const all = Uint8Array.from({ length: 256 }, (_, at) => at);
expect("bytes in letters", [...bytesOf(lettersOf(all))], [...all]);
expect("letters of an address alone", /^[\w-]*$/.test(lettersOf(all)), true);
expect("the letters of RFC 4648", lettersOf(new TextEncoder().encode("foobar")), "Zm9vYmFy");
const text = "pool 4 1 4 2\n" + "step 1\n".repeat(19_000);
const packed = await pack(text);
expect("a trace in an address", (await unpack(packed, text.length)) === text, true);
expect("it is small", packed.length < 1000, true);
for (const [what, letters, most] of [["too many bytes", packed, text.length - 1], ["cut letters", packed.slice(0, -4), text.length], ["no letters", "!", 10], ["no text", lettersOf(all), 999]]) {
  expect(what, await unpack(letters, most).catch(() => "refused"), "refused");
}

const parts = { task: "*", call: "2", answer: "SIGBUS", phase: "found", other: "3", otherPhase: "evict", count: "pages:1", sign: ">=", number: "7" };
for (const [word, isNot, wanted] of [
  ["answer", false, "answer *:2=SIGBUS"],
  ["at", true, "at not *:2=SIGBUS pages:1>=7"],
  ["blocked", false, "blocked *"],
  ["meet", true, "meet not *:found,3:evict"],
  ["final", true, "final not pages:1>=7"],
  ["rest", false, "rest"],
  ["anywhere", false, "anywhere"],
]) expect(`a line of ${word}`, conditionOf(word, isNot, parts), wanted);
expect("each condition begins a line", Object.keys(ASKED).every((it) => Object.hasOwn(CONDITIONS, it.split(" ")[0])), true);
expect("options of the program", optionsOf(["answer 1:2=beyond", "at *:*=SIGBUS free>0", "rest"]), " --answer 1:2=beyond --at '*:*=SIGBUS free>0' --rest");
expect("a quote in an option", optionsOf(["blocked 1'2"]), ` --blocked '1'\\''2'`);
for (const [line, number, wanted] of [
  ["", 0, "No line says a condition yet."],
  ["blocked 0", 2, 'Line 2 is no condition: "blocked 0". Its form is blocked T: T is a task, from 1, or *, which is any.'],
  ["rest 1", 3, 'Line 3 is no condition: "rest 1". Nothing stands behind rest.'],
  ["constructor 1", 1, 'Line 1 is no condition: "constructor 1". A line begins with answer, at, blocked, meet, final, rest, anywhere.'],
]) expect(`what is wrong with ${line}`, wrongWords({ line, number }), wanted);

expect("more conditions than there may be", wrongWords({ line: "rest", number: 65_540 }, true), "There may be 65,536 conditions: line 65540 says one more.");

const answers = Object.keys(data.header.numbers).filter((it) => it.startsWith("ANSWER_")).map((it) => it.slice(7).replaceAll("_", "").toLowerCase()).sort();
expect("each answer has words", Object.keys(ANSWERS).sort(), answers);
const phases = Object.keys(data.header.numbers).filter((it) => it.startsWith("PHASE_") && it !== "PHASE_NONE").map((it) => it.slice(6).toLowerCase()).sort();
const glossary = fs.readFileSync(new URL("glossary.js", import.meta.url), "utf8").match(/const PHASES = \{\n(.*?)\n\};/s)[1];
expect("each phase has words", [...glossary.matchAll(/^  (\w+): "/gm)].map((it) => it[1]).sort(), phases);
expect("each phase has Linux's function", Object.keys(data.linux).sort(), phases);
console.log(`${passed} passed, ${failed} failed`);
process.exit(failed ? 1 : 0);
