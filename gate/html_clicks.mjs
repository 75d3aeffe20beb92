#!/usr/bin/env node
// Clicks through pages of `draw --html` in the browsers that are there: pages are made here of runs that are written out here.
// The last line is 'N passed, M failed'.
import fs from "node:fs";
import os from "node:os";
import path from "node:path";
import { pathToFileURL } from "node:url";
import { inBrowsers } from "../library/viewer/browsers.mjs";
import { HEAD, TAIL } from "./html_texts.mjs";

const room = fs.mkdtempSync(path.join(os.tmpdir(), "page-clicks-"));
// milliseconds in which the page has to come to what is expected, however busy the machine is
const PATIENCE = 60_000;
let passed = 0;
let failed = 0;
let browser, kind;

async function expect(what, expression) {
  const isWell = await browser.until(expression, PATIENCE);
  if (isWell) passed++;
  else failed++;
  if (!isWell) console.log(`  page: ${kind.name}: it isn't so: ${what}`);
}

const counts = (free, resv, owed) => `"free":${free},"resv":${resv},"owed":${owed}`;
const begun = (line, task, holds = "{}") => `{"line":${line},"task":${task},"event":"begin","op":"map","numbers":[0,0,4],"outcome":"begun","at":"start","holds":${holds},"wants":{"lock":0},"owes":0,${counts(4, 2, 1)}}`;
const moved = (line, task) => `{"line":${line},"task":${task},"event":"step","outcome":"moved","phase":"room","linux":"inode_lock","at":"room","holds":{"lock":0},"wants":{},"owes":0,${counts(4, 2, 1)}}`;
const END = '{"end":{"calls":1,"free":4}}';
const pool = (tasks) => `{"pool":{"frames":4,"files":1,"slots":4,"tasks":${tasks}}}`;

/** One call and its steps, all alike: what is painted has no edges but at its ends. */
function evenRun(count) {
  return [pool(1), begun(2, 1), ...Array.from({ length: count - 1 }, (_, at) => moved(at + 3, 1)), END];
}

/** 62 tasks wait for the lock that task 1 holds, and two calls go on. */
function crowd() {
  const lines = [pool(64), begun(2, 1), moved(3, 1)];
  for (let task = 2; task <= 63; task++) lines.push(`${begun(task + 2, task).slice(0, -1)},"waits":[{"task":${task},"for":1,"lock":0}]}`);
  return [...lines, begun(66, 64), moved(67, 64), END];
}

async function open(name, lines, hash = "") {
  const file = path.join(room, `${name}.html`);
  fs.writeFileSync(file, `${HEAD}${lines.join("\n")}\n${TAIL}`);
  await browser.go(pathToFileURL(file).href + hash);
  await browser.until("document.getElementById('row').textContent !== ''");
}

/** In how many places a pixel differs from the one before it, where an even run has curves, and near the top of its call's box. */
const UNEVEN = `(() => { const canvas = document.getElementById("canvas"); const { width, height } = canvas;
  const { data } = canvas.getContext("2d").getImageData(0, 0, width, height);
  const at = (x, y) => data.subarray(4 * (y * width + x), 4 * (y * width + x) + 3).join();
  let top = 27; while (top < height && at(200, top) !== "169,205,238") top++;
  const rows = [top + 3, ...Array.from({ length: 300 }, (_, it) => height - 300 + it)];
  const curves = new Set(rows.slice(1).map((y) => at(300, y)));
  return top === height || curves.size < 5 ? "no box, or no curves" : rows.reduce((sum, y) => { for (let x = 170; x < width - 40; x++) sum += at(x, y) !== at(x - 1, y); return sum; }, 0); })()`;

/** Where the picture scrolls, no tile has an edge that is seen. */
async function tryTiles() {
  await open("even", evenRun(20_000));
  await browser.click("#in");
  for (const left of [0, 37, 511, 700]) {
    await browser.run(`(document.getElementById("picture").scrollLeft = ${left}, new Promise((done) => requestAnimationFrame(() => requestAnimationFrame(done))))`);
    await expect(`no pixel differs from the one before it, scrolled by ${left}`, `${UNEVEN} === 0`);
  }
}

async function tryKeys() {
  await open("crowd", crowd(), "#line=5");
  await expect("the line of the address", `document.getElementById("row").textContent.startsWith("line 5: begin 3 map 0 0 4: begun")`);
  await browser.click("#picture", "200", "60");
  await browser.press("Home");
  await expect("the first event", `document.getElementById("row").textContent.startsWith("line 2:")`);
  await browser.press("ArrowRight");
  await browser.press("ArrowRight");
  await browser.press("ArrowLeft");
  await expect("on and back", `document.getElementById("row").textContent.startsWith("line 3:")`);
  await browser.click("#ask");
  await expect("the help is open", `!document.getElementById("help").hidden && document.querySelector("#legend .more").offsetWidth > 0`);
  await browser.press("Escape");
  await expect("Escape closes the help", `document.getElementById("help").hidden && document.querySelector("#legend .more").offsetWidth === 0`);
  await expect("the keyboard is where the help was asked for", `document.activeElement.id === "ask"`);
  await browser.run(`(document.getElementById("line").value = "4.4", document.getElementById("line").dispatchEvent(new Event("change")))`);
  await expect("a line that is no whole number", `document.getElementById("row").textContent.startsWith("line 4:")`);
}

/** With 64 tasks the calls in flight stay in sight, and the waits for one thing are one line. */
async function tryCrowd() {
  await open("crowd", crowd(), "#line=67");
  await expect("waits are folded", `document.querySelector("#waits summary").textContent === "62 wait for task 1: lock of file 0"`);
  const isSeen = `document.getElementById("calls").getBoundingClientRect().top < innerHeight - 60`;
  await expect("calls are in sight", isSeen);
  await browser.run(`document.querySelector("#waits details").open = true`);
  await expect("each wait is there", `document.querySelectorAll("#waits ul li").length === 62`);
  await expect("calls are in sight where the waits are open", isSeen);
  await expect("the legend is in sight", `(({ top, bottom }) => top > 0 && bottom < innerHeight)(document.getElementById("legend").getBoundingClientRect())`);
  await expect("one name for one curve", `!/\\bbare\\b|without a page/.test(document.body.innerText) && document.body.innerText.includes("no page")`);
}

/** Nothing is wider than the window, by width and by light. */
async function tryLooks() {
  for (const width of [1280, kind.narrow]) {
    for (const light of ["light", "dark"]) {
      await browser.size(width, 900);
      await browser.light(light);
      await open("crowd", crowd(), "#line=67");
      await expect(`nothing is wider than ${width} pixels`, `document.documentElement.scrollWidth <= ${width}`);
    }
  }
  await browser.size(1280, 900);
  await browser.light("light");
}

try {
  await inBrowsers(async (...it) => {
    [browser, kind] = it;
    for (const tries of [tryTiles, tryKeys, tryCrowd, tryLooks]) await tries();
    const wrong = await browser.complaints(pathToFileURL(room).href);
    wrong.forEach((it) => console.log(`  page: ${kind.name}: ${it}`));
    await expect("nothing goes wrong, and nothing is asked of the network", `${wrong.length} === 0`);
  });
} finally {
  fs.rmSync(room, { recursive: true, force: true });
}
console.log(`${passed} passed, ${failed} failed`);
process.exit(failed > 0 ? 1 : 0);
