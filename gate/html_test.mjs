#!/usr/bin/env node
// Tries the page's functions that read a run, search it, draw it and tell of it, on runs that are written out here, with a page and a
// canvas that remember what is put on them. The last line is 'N passed, M failed'.
import vm from "node:vm";
import { textOf } from "./html_texts.mjs";

const SCRIPTS = ["RUN_SCRIPT", "PICTURE_SCRIPT", "VIEWER_SCRIPT", "PAGE_SCRIPT"];

// ---- a page without a browser

/** An element, which knows its words and what is in it. */
function newElement() {
  const made = {
    own: "", inside: [], style: {}, value: "", context: newContext(), getContext: () => made.context, addEventListener: () => {}, setAttribute: () => {},
    append: (...more) => made.inside.push(...more), replaceChildren: (...more) => { made.inside = more; },
    set textContent(words) { made.own = `${words}`; },
    get textContent() { return made.own + made.inside.map((it) => it.textContent ?? it).join(" "); },
  };
  return made;
}

/** What draws, and keeps the corners of each line and each box with its colour, and all words. */
function newContext() {
  const lines = [];
  const words = [];
  const boxes = [];
  let corners = [];
  const kept = {
    words, fillText: (text) => words.push(text), boxes, fillRect: (left, top, width) => boxes.push({ colour: kept.fillStyle, left, width }),
    lines, beginPath: () => { corners = []; }, moveTo: (x, y) => corners.push([x, y]), lineTo: (x, y) => corners.push([x, y]),
    stroke: (path) => lines.push({ colour: kept.strokeStyle, corners: path ? [] : corners }), measureText: (words) => ({ width: words.length * 6 }),
  };
  return new Proxy(kept, { get: (it, name) => (name in it ? it[name] : () => {}) });
}

const elements = new Map();
const byId = (id) => elements.get(id) ?? elements.set(id, newElement()).get(id);
const sandbox = {
  document: { getElementById: byId, createElement: newElement, addEventListener: () => {} },
  Path2D: class { moveTo() {} lineTo() {} closePath() {} arc() {} rect() {} },
};
vm.createContext(sandbox);
vm.runInContext(`"use strict";${SCRIPTS.map(textOf).join("").split("</script>")[0]}`, sandbox);
const page = new Proxy({}, { get: (_, name) => vm.runInContext(name, sandbox) });
const { readRun, standingAt, waitAt, lifeAt, findEvents, nextMatch, rangeOf, seriesOf, eventAt, eventWords, outcomeWords, waitWords } = page;
const { extendRun, countsAt, waitGroups, groupWords, view, topOf, drawCurves, drawLanes, drawLegend, sayCounts, sayWaits } = page;

// task 1 maps, and holds the lock of file 0; task 2's truncation waits for it; then a resize, a kill, a refusal and a store of a long word
const COUNTS = '"free":4,"resv":0,"owed":0';
const LINES = [
  '{"pool":{"frames":4,"files":1,"slots":4,"tasks":2}}',
  `{"line":2,"task":1,"event":"begin","op":"map","numbers":[0,0,4],"outcome":"begun","at":"start","holds":{},"wants":{"lock":0},"owes":0,${COUNTS}}`,
  `{"line":3,"task":1,"event":"step","outcome":"moved","phase":"room","linux":"inode_lock","at":"room","holds":{"lock":0},"wants":{},"owes":0,${COUNTS}}`,
  `{"line":4,"task":2,"event":"begin","op":"trunc","numbers":[0,1],"outcome":"begun","at":"start","holds":{},"wants":{"lock":0},"owes":0,${COUNTS},"waits":[{"task":2,"for":1,"lock":0}]}`,
  `{"line":5,"task":2,"event":"step","outcome":"blocked","by":1,"at":"start","holds":{},"wants":{"lock":0},"owes":0,${COUNTS}}`,
  `{"line":6,"event":"resize","frames":6,"outcome":"resized","number":6,"free":6,"resv":2,"owed":-1}`,
  `{"line":7,"task":2,"event":"kill","outcome":"marked","at":"start","holds":{},"wants":{},"owes":0,${COUNTS},"waits":[{"task":2,"for":null}]}`,
  `{"line":8,"task":2,"event":"step","outcome":"ended","answer":"killed",${COUNTS}}`,
  `{"line":9,"task":9,"event":"step","outcome":"refused","reason":"notalive",${COUNTS}}`,
  `{"line":10,"task":1,"event":"begin","op":"store","numbers":[0,18446744073709551615],"outcome":"refused","reason":"incall","at":"room","holds":{"lock":0},"wants":{},"owes":0,${COUNTS}}`,
  '{"end":{"calls":1,"free":4}}',
];

let passed = 0;
let failed = 0;

function expect(what, is, wanted) {
  const [one, other] = [JSON.stringify(is), JSON.stringify(wanted)];
  if (one === other) passed++;
  else {
    failed++;
    console.log(`  page: ${what}: ${one}, not ${other}`);
  }
}

const run = readRun(`\n${LINES.join("\n")}\n`);
const [pool, one, two] = run.lanes;
const row = (at) => `${eventWords(eventAt(run, at))}: ${outcomeWords(eventAt(run, at))}`;

expect("a run", [run.count, run.end.calls, run.lanes.map((lane) => lane.name)], [9, 1, ["pool", "task 1", "task 2"]]);
expect("rows", [0, 1, 3, 4, 6, 7].map(row), [
  "begin 1 map 0 0 4: begun", "step 1: moved room", "step 2: blocked by 1: lock of file 0", "resize 6: resized 6", "step 2: ended killed", "step 9: refused notalive",
]);
expect("a word of 64 bits", row(8), "begin 1 store 0 18446744073709551615: refused incall");
expect("a call's stays", [one.stays.since, one.stays.until, one.stays.phase], [[0, 1], [1, 9], ["start", "room"]]);
expect("a call that is over, and one that isn't", [two.calls.isOver, one.calls.isOver], [[true], [false]]);
expect("where a call stands later", standingAt(run, one, 5).holds, { lock: 0 });
expect("where a call stands that has ended", [standingAt(run, two, 5).phase, standingAt(run, two, 6)], ["start", null]);
expect("a wait", [1, 2, 4, 5].map((at) => waitAt(run, two, at)?.holder ?? null), [null, 1, 1, null]);
expect("its words", waitWords(waitAt(run, two, 4)), "task 2 waits for 1: lock of file 0");
expect("lives", [lifeAt(two, 4), lifeAt(two, 5), lifeAt(one, 8)], ["alive", "killed", "alive"]);
expect("marks", [two.marks.blocked, two.marks.killed, two.marks.failed, pool.marks.resized, pool.marks.refused], [[3], [5], [6], [4], [7]]);
expect("reserved without a page", run.columns.bare[4], 3);

for (const [query, found] of Object.entries({
  "task 2": [2, 3, 5, 6], trunc: [2], "of trunc": [2, 3, 5, 6], "task 2 blocked": [3], get_unmapped_area: [], inode_lock: [1], incall: [8], waits: [2, 5],
  "line 6": [4], "6": [4], nothing: [], "": [],
})) expect(`find ${query}`, findEvents(run, query), found);
expect("a number is missing", findEvents(run, "task"), null);
expect("from match to match", [nextMatch([2, 5], 2, true), nextMatch([2, 5], 5, true), nextMatch([2, 5], 2, false), nextMatch([], 0, true)], [5, 2, 5, -1]);

const values = Int32Array.from({ length: 1000 }, (_, at) => (at * 7919) % 1009);
const series = seriesOf(values);
const isRight = (from, to) => rangeOf(series, from, to).join() === [Math.min(...values.slice(from, to)), Math.max(...values.slice(from, to))].join();
expect("the least and the greatest", [[0, 1000], [63, 64], [60, 200], [64, 128], [999, 1000]].every(([from, to]) => isRight(from, to)), true);

// task 1 exits, and task 2 waits for it up to the end of the data; task 3 has a denied step; numbers are as long as a double has no room for
const LAST = [
  '{"pool":{"frames":4,"files":1,"slots":4,"tasks":3}}',
  `{"line":2,"task":1,"event":"begin","op":"exit","numbers":[],"outcome":"begun","at":"exit start","holds":{},"wants":{},"owes":0,${COUNTS}}`,
  `{"line":3,"task":3,"event":"begin","op":"store","numbers":[0,9007199254740993],"outcome":"begun","at":"look","holds":{},"wants":{},"owes":0,${COUNTS}}`,
  `{"line":4,"task":3,"event":"deny","outcome":"moved","phase":"want","at":"want","holds":{},"wants":{},"owes":0,${COUNTS},"waits":[{"task":2,"for":1,"lock":0}]}`,
  `{"line":5,"task":1,"event":"step","outcome":"ended","answer":"done",${COUNTS}}`,
  `{"line":6,"task":3,"event":"step","outcome":"moved","phase":"take","at":"take","holds":{},"wants":{},"owes":0,${COUNTS}}`,
];
const last = readRun(LAST.join("\n"));
const [exited, waiter, denied] = last.lanes;
expect("a number of 16 digits", eventWords(eventAt(last, 1)), "begin 3 store 0 9007199254740993");
expect("a denied step", [denied.marks.denied, denied.marks.blocked], [[2], []]);
expect("a task is dead from its exit's end on", [2, 3, 4].map((at) => lifeAt(exited, at)), ["alive", "dead", "dead"]);
expect("a wait up to the end", [1, 2, 4].map((at) => waitAt(last, waiter, at)?.holder ?? null), [null, 1, 1]);

// two tasks wait at once, then one of them for another; a touch of index 1 of file 0, and one of index 0 of file 1; a quota of 6
const counts = (free, resv, owed, used) => `"free":${free},"resv":${resv},"owed":${owed},"used":${used}`;
const waiting = (task, holder) => `{"task":${task},"for":${holder},"lock":0}`;
const moved = (line, task, file, index) => `"line":${line},"task":${task},"event":"step","outcome":"moved","phase":"taken","file":${file},"index":${index}`;
const MANY = [
  '{"pool":{"frames":9,"files":2,"slots":4,"tasks":3,"quota":6}}',
  `{"line":2,"task":1,"event":"begin","op":"map","numbers":[0,0,4],"outcome":"begun","at":"start",${counts(9, 1, 0, 3)}}`,
  `{${moved(3, 2, 0, 1)},${counts(8, 2, 1, 4)},"waits":[${waiting(2, 1)},${waiting(3, 1)}]}`,
  `{${moved(4, 1, 1, 0)},${counts(7, 3, 1, 5)},"waits":[{"task":3,"for":2,"slot":1,"file":1,"index":0}]}`,
  '{"end":{"calls":1,"free":7}}',
];
const many = readRun(MANY.join("\n"));
const holders = (at) => many.lanes.map((lane) => waitAt(many, lane, at)?.holder ?? null);
expect("two waits at once", holders(1), [null, 1, 1]);
expect("a wait for another holder", holders(2), [null, 1, 2]);
expect("an index, and a file", ["index 1", "file 1", "index 0", "file 0"].map((query) => findEvents(many, query)), [[1], [2], [2], [1]]);

const colours = new Proxy({}, { get: (_, name) => name });
const room = { run: many, colours, context: newContext(), labels: new Map(), tiles: new Map(), letter: 6, scale: 1, step: 20, left: 0, gutter: 0, picked: 0 };
Object.assign(view, room, { sight: { from: 0, to: many.count }, width: 800, height: 600, below: 200, curvesTop: 400, pitch: 60, tall: 28 });
view.scroller = { scrollTop: 0, scrollLeft: 0 };
drawCurves(view);
const countOf = (panel, y) => Math.round(((panel.base - y) * panel.most) / panel.height);
const curves = view.context.lines.filter((it) => it.corners.length > 2);
const drawn = curves.map(({ colour, corners }, place) => [colour, ...[corners[0], corners.at(-1)].map(([, y]) => countOf(view.panels[place < 3 ? 0 : 1], y))]);
expect("curves, each with its first count and its last", drawn, [["free", 9, 7], ["resv", 1, 3], ["used", 3, 5], ["resv", 1, 3], ["bare", 1, 2]]);
view.context = newContext();
view.picked = 2;
drawLegend(view);
expect("curves are named, with their counts", view.context.words, ["free 7", "resv 3", "used 5", "resv 3", "no page 2", "owed 1"]);
view.context = newContext();
drawLanes(view);
const ends = view.context.lines.filter((it) => it.colour === "wait" && it.corners.length === 2).map((it) => it.corners[1][1]);
const below = (row) => topOf(view, row) + view.tall;
expect("waits lead to their holders", ends, [below(0), below(0), below(1)]);
sayWaits(2);
const said = "task 2 waits for 1: lock of file 0, since line 3 task 3 waits for 2: slot 1, file 1 index 0, since line 4";
expect("each wait is told", byId("waits").textContent.replace(/ +/g, " "), said);
sayCounts(2);
expect("counts are told", byId("counts").textContent, "free 7 resv 3 no page 2 owed 1 used of the quota 5 of 6");

// a run that is extended is the run that is read at once, wherever it was cut before, and whatever came there
for (let kept = 0; kept <= run.count; kept++) {
  const grown = readRun(LINES.join("\n"));
  extendRun(grown, kept, MANY.slice(2, 4).map((line) => line.replace(/"waits.*/, `"at":"room"}`)));
  extendRun(grown, kept, LINES.slice(kept + 1));
  const parts = ({ lines, count, end, lanes, counts, columns }) => JSON.stringify([
    lines, count, end, lanes, counts.free.least, counts.resv.greatest, counts.bare.top, ["free", "task", "call", "index"].map((name) => [...columns[name].subarray(0, count)]),
  ]);
  expect(`a run that is extended behind ${kept} events`, parts(grown), parts(run));
}
expect("counts before the first event", countsAt(many, -1), { free: 9, resv: 0, bare: 0, owed: 0, used: 0 });

// 61 tasks wait for the one that holds the lock
const CROWD = [
  '{"pool":{"frames":4,"files":1,"slots":4,"tasks":64}}',
  `{"line":2,"task":55,"event":"begin","op":"map","numbers":[0,0,4],"outcome":"begun","at":"start",${COUNTS},"waits":[${Array.from({ length: 61 }, (_, at) => waiting(at < 54 ? at + 1 : at + 2, 55)).join()}]}`,
];
expect("many waits in a line", waitGroups(readRun(CROWD.join("\n")), 0).map(groupWords), ["61 wait for task 55: lock of file 0"]);

// a run of 4,000 events in 2,000 pixels: each tile has its curves from its first pixel to its last
const wide = readRun([MANY[0], ...Array.from({ length: 4000 }, (_, at) => `{${moved(at + 2, 1, 0, at % 2)},${counts(at % 2 ? 5 : 6, 2, 1, 4)}}`)].join("\n"));
Object.assign(view, { run: wide, tiles: new Map(), step: 0.5, width: 1100, context: newContext(), sight: { from: 0, to: 2200 } });
drawCurves(view);
for (const [name, tile] of view.tiles) {
  const free = tile.context.boxes.filter((it) => it.colour === (name.startsWith("free") ? "free" : "bare"));
  const isWhole = free.reduce((end, it) => (it.left === end ? end + it.width : end), 0) >= 512;
  expect(`the curves of tile ${name}`, isWhole, true);
}
expect("tiles of curves", view.tiles.size, 6);

// the help names keys that there are: two of them are asked for elsewhere
const ARROWS = { "&larr;": "ArrowLeft", "&rarr;": "ArrowRight", "&uarr;": "ArrowUp", "&darr;": "ArrowDown" };
const helped = [...textOf("HELP").matchAll(/<kbd>(.*?)<\/kbd>/g)].map(([, key]) => ARROWS[key] ?? key.replace(" ", ""));
expect("keys that the help names", helped.filter((it) => !Object.hasOwn(page.KEYS, it)), ["Esc", "?"]);

const cut = readRun(LINES.slice(0, 5).join("\n").slice(0, -30));
expect("data that are cut", [cut.count, cut.end], [3, null]);
expect("data that are none", [readRun(""), readRun("{\n"), readRun("[]\n")], [null, null, null]);
console.log(`${passed} passed, ${failed} failed`);
process.exit(failed > 0 ? 1 : 0);
