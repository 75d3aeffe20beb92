#!/usr/bin/env node
// Times the page of ./viewer in the browsers that are there: how long 20,000 events take to be shown, and each kind of move at moments all
// over them.
//
//   bench/page.mjs [PAGE.html [ROUNDS]]    dist/hugepool.html and 3 rounds, if none are named
//
// The events are of three kinds: 64 tasks, of which 62 wait for one; 64 tasks in calls of all operations on the largest pool; and two
// tasks. A move takes as long as it keeps the page from anything else: its handler, the layout, and the work of the next frame, for which
// to wait isn't counted. Printed are the median and the most in milliseconds, by the clock and, behind /, of processor time of the page's
// own thread, on which other work of the machine tells less. Before a move the page rests for up to 0.3 s, so that what follows of one
// move meets the next: how late the next one comes then is `held`. Needs node, Linux, and what library/viewer/browsers.mjs says.
import { execFileSync } from "node:child_process";
import fs from "node:fs";
import path from "node:path";
import { fileURLToPath, pathToFileURL } from "node:url";
import { pack } from "../library/viewer/address.js";
import { inBrowsers } from "../library/viewer/browsers.mjs";

const TOP = path.dirname(path.dirname(fileURLToPath(import.meta.url)));
const [file = path.join(TOP, "dist", "hugepool.html"), rounds = "3"] = process.argv.slice(2);
const address = pathToFileURL(path.resolve(file)).href;
const EVENTS = 20_000;
const PLACES = [0, 300, 7_930, 19_999];
const RESTS = [0, 150, 300];

// ---- traces

/** One task holds the lock for which 62 wait. */
function waiting() {
  const lines = ["pool 64 1 16 64", "begin 55 map 0 0 1", "step 55"];
  for (let task = 1; task <= 61; task++) lines.push(`begin ${task < 55 ? task : task + 1} map 0 0 2`);
  lines.push("begin 63 map 0 0 1");
  while (lines.length <= EVENTS) lines.push(`step ${lines.length % 2 ? 3 : 63}`);
  return lines;
}

/** Events of all kinds, by a generator of its own, so that each try is of the same ones. */
function mixed(header, files, tasks) {
  let state = 12_345;
  const below = (count) => (state = (Math.imul(state, 1_103_515_245) + 12_345) & 0x7fffffff) % 65_521 % count;
  const range = () => `${below(files)} ${below(40)} ${1 + below(8)}`;
  const calls = [
    () => `map ${range()}`, () => `mapn ${range()}`, () => `unmap ${below(40)}`, () => `load ${below(40)}`, () => `store ${below(40)} ${below(100)}`,
    () => `alloc ${range()}`, () => `allock ${range()}`, () => `punch ${range()}`, () => `trunc ${below(files)} ${below(40)}`,
  ];
  const event = () => {
    const chance = below(1000);
    const task = 1 + below(tasks);
    if (chance < 150) return `begin ${task} ${calls[below(calls.length)]()}`;
    if (chance < 960) return `step ${task}`;
    if (chance < 995) return `deny ${task}`;
    return chance < 999 ? `resize ${1 + below(500)}` : `kill ${task}`;
  };
  return [header, ...Array.from({ length: EVENTS }, event)];
}

const TRACES = {
  "64, 62 wait": waiting(),
  "64, all calls": mixed("pool 512 16 64 64 4096", 16, 64),
  "2 tasks": mixed("pool 16 1 8 2", 1, 2),
};

// ---- what is done in the page

/** Functions of the page's: how long a move takes, and where it may begin. */
const TIMES = `
  const $ = (id) => document.getElementById(id);
  const rest = (time) => new Promise((done) => setTimeout(done, time));
  async function timed(does) {
    const { port1, port2 } = new MessageChannel();
    let frame;
    requestAnimationFrame(() => { frame = performance.now(); });
    const began = performance.now();
    does();
    document.body.offsetHeight;
    const handled = performance.now() - began;
    await new Promise((done) => requestAnimationFrame(() => { port1.onmessage = done; port2.postMessage(0); }));
    return handled + performance.now() - frame;
  }
  const slide = (place) => { $("scrub").value = place; $("scrub").dispatchEvent(new Event("input")); };
  const at = () => Number($("scrub").value);
  const key = (name) => document.body.dispatchEvent(new KeyboardEvent("keydown", { key: name, bubbles: true, cancelable: true }));
  const clickAt = (it, x, y) => it.dispatchEvent(new MouseEvent("click", { bubbles: true, clientX: x, clientY: y }));
  const isOn = (it) => it && it.ariaDisabled !== "true" && !it.hidden;
  const can = (word) => [...document.querySelectorAll(".task button")].find((it) => it.textContent === word && isOn(it));
`;

// each kind of move that leaves the trace as it is, from some moment on
const MOVES = {
  on: `$("on").click()`,
  back: `$("back").click()`,
  first: `$("first").click()`,
  last: `$("last").click()`,
  slider: `slide((at() + 7919) % ${EVENTS})`,
  "key ArrowRight": `key("ArrowRight")`,
  line: `{ const rows = [...document.querySelectorAll("#lines .row")]; const { left, top } = rows[rows.length >> 1].getBoundingClientRect();
    clickAt(rows[rows.length >> 1], left + 5, top + 5); }`,
  picture: `{ const { left, top, width } = $("canvas").getBoundingClientRect();
    clickAt($("canvas"), left + width * (0.3 + ((at() * 7) % 10) / 20), top + 60); }`,
};

// each kind that puts an event behind the moment; what it is of may not be there at each
const TURNS = {
  "random turn": `$("chance")`,
  step: `can("step")`,
  deny: `can("deny")`,
  kill: `can("kill")`,
  begin: `document.querySelector("#begin button")`,
  resize: `document.querySelector("#resize button")`,
};

/** How long it takes until all events are shown, of a text that is pasted, of a file, and of an address. */
const LOADS = {
  paste: (text) => `$("text").value = ${JSON.stringify(text)}; $("text").getBoundingClientRect();
    first = performance.now(); $("text").dispatchEvent(new InputEvent("input", { inputType: "insertFromPaste" }));`,
  file: (text) => `const files = new DataTransfer(); files.items.add(new File([${JSON.stringify(text)}], "mine.trace"));
    $("file").files = files.files; first = performance.now(); $("file").dispatchEvent(new Event("change"));`,
  address: (_, packed) => `first = performance.now(); location.hash = "#trace=${packed}";`,
};

const inPage = (code) => `(async () => { ${TIMES} ${code} })()`;
const untilThere = `while (!$("now").textContent.includes("(event ${EVENTS} of ${EVENTS})") && performance.now() < first + 20_000) await rest(5);
  await new Promise((done) => requestAnimationFrame(() => setTimeout(done)));`;

// ---- processor time

/** The processes that a process began, and those that they did. */
function begunBy(parent) {
  const all = execFileSync("ps", ["-eo", "pid=,ppid="], { encoding: "utf8" }).trim().split("\n").map((it) => it.trim().split(/ +/).map(Number));
  const below = (pid) => all.filter((it) => it[1] === pid).flatMap(([it]) => [it, ...below(it)]);
  return below(parent);
}

/** Milliseconds of processor time of a process's first thread. */
function spent(pid) {
  try {
    return Number(fs.readFileSync(`/proc/${pid}/task/${pid}/schedstat`, "utf8").split(" ")[0]) / 1e6;
  } catch {
    return 0;
  }
}

/** The process of the page: the one that is busy while the page is. */
async function processOf(browser) {
  const before = new Map(begunBy(browser.process.pid).map((it) => [it, spent(it)]));
  await browser.run("(() => { for (const end = performance.now() + 200; performance.now() < end; ); })()");
  return [...before].map(([it, time]) => [it, spent(it) - time]).sort((one, other) => other[1] - one[1])[0][0];
}

// ---- timing

/** Times all moves on a trace that is shown; `note` hears each. */
async function timeMoves(browser, note) {
  const pid = await processOf(browser);
  let count = 0;
  const once = async (kind, code) => {
    const time = RESTS[count++ % RESTS.length];
    const late = await browser.run(inPage(`const due = performance.now() + ${time}; await rest(${time}); return performance.now() - due;`));
    const before = spent(pid);
    const clock = await browser.run(inPage(`return timed(() => ${code});`));
    note(kind, clock, spent(pid) - before);
    note("held", late, NaN);
  };
  const go = (place, time) => browser.run(inPage(`slide(${place}); await rest(${time});`));
  for (const place of PLACES) {
    for (const [kind, code] of Object.entries(MOVES)) {
      await go(place, 0);
      await once(kind, code);
    }
    for (const [kind, button] of Object.entries(TURNS)) {
      await go(place, 300); // (cards out of sight follow)
      if (!(await browser.run(inPage(`return Boolean(isOn(${button}));`)))) continue;
      await once(kind, `${button}.click()`);
      for (const it of ["undo", "redo", "undo"]) await once(it, `$("${it}").click()`);
    }
  }
}

async function timeLoads(browser, lines, note) {
  const text = lines.map((it) => `${it}\n`).join("");
  const packed = await pack(text);
  for (const [way, code] of Object.entries(LOADS)) {
    await browser.go(address);
    await browser.until("document.body.dataset.isReady === 'true'");
    await browser.run(inPage(`$("editing").open = true; await rest(500);`));
    const pid = await processOf(browser);
    const before = spent(pid);
    const clock = await browser.run(inPage(`let first; ${code(text, packed)} ${untilThere} return performance.now() - first;`));
    note(`load: ${way}`, clock, spent(pid) - before);
  }
  await browser.run(inPage("await rest(2000);"));
}

// ---- what is printed

const sorted = (times) => times.filter((it) => !Number.isNaN(it)).sort((one, other) => one - other);
const middle = (times) => (times.length > 0 ? sorted(times)[times.length >> 1].toFixed(0) : "-");
const most = (times) => (times.length > 0 ? Math.max(...times).toFixed(0) : "-");
const pair = (times) => `${middle(times)} ${most(times).padStart(4)}`;
const cell = ({ clock, own }) => `${pair(clock)} / ${Number.isNaN(own[0]) ? "-" : pair(own)}`;
const row = (words) => console.log(words.map((it, place) => (place === 0 ? it.padEnd(14) : it.padStart(24))).join(" "));

async function timePage(browser) {
  const rows = new Map();
  for (let round = 0; round < Number(rounds); round++) {
    for (const [name, lines] of Object.entries(TRACES)) {
      const note = (kind, clock, own) => {
        if (!rows.has(kind)) rows.set(kind, new Map(Object.keys(TRACES).map((it) => [it, { clock: [], own: [] }])));
        const times = rows.get(kind).get(name);
        times.clock.push(clock);
        times.own.push(own);
      };
      await timeLoads(browser, lines, note);
      await timeMoves(browser, note);
    }
  }
  const [load] = fs.readFileSync("/proc/loadavg", "utf8").split(" ");
  console.log(`${browser.name}, load ${load}: milliseconds by the clock / of processor time, median and most`);
  row(["", ...Object.keys(TRACES)]);
  for (const [kind, by] of rows) row([kind, ...[...by.values()].map(cell)]);
}

await inBrowsers(timePage);
