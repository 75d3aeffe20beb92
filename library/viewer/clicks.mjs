#!/usr/bin/env node
// Clicks through the page in the browsers that are there, without a window, and looks at what it shows.
//
//   library/viewer/clicks.mjs PAGE.html [FOLDER]    with FOLDER: pictures of the page, by width and by light, are put there
//
// TRIES names the tries that are made, as 'Moves Events'; all are if it doesn't. The last line is 'N passed, M failed'.
import fs from "node:fs";
import path from "node:path";
import { pathToFileURL } from "node:url";
import { inBrowsers } from "./browsers.mjs";

const [file, pictures] = process.argv.slice(2);
const address = pathToFileURL(path.resolve(file)).href;
// milliseconds in which the page has to come to what is expected, however busy the machine is
const PATIENCE = 60_000;

let passed = 0;
let failed = 0;
let browser, kind;
const text = (selector) => `document.querySelector(${JSON.stringify(selector)}).textContent`;
const card = (task) => `[aria-label="Task ${task}"]`;
const isOff = (selector) => `(document.querySelector(${JSON.stringify(selector)}).getAttribute("aria-disabled") === "true")`;
const turn = (kind_, task) => `[aria-label="${kind_} task ${task}"]`;
const turnOf = (kind_, task) => `document.querySelector('${turn(kind_, task)}').click();`;
const now = (start) => `${text("#now")}.startsWith(${JSON.stringify(start)})`;
const isAt = (at, count) => `${text("#now")}.includes("(event ${at} of ${count})")`;

async function expect(what, expression) {
  const isWell = await browser.until(expression, PATIENCE);
  if (isWell) passed++;
  else failed++;
  if (!isWell) console.log(`page: ${kind.name}: it isn't so: ${what}: ${expression}; the page is at ${await browser.run(text("#now"))}`);
}

async function open(hash) {
  await browser.go(address + hash);
  await browser.until("document.body.dataset.isReady === 'true' || !document.getElementById('missing').hidden");
}

const act = (statements) => browser.run(`(() => { ${statements} })()`);

const set = (selector, value) => act(`const it = document.querySelector("${selector}"); it.value = ${JSON.stringify(value)}; it.dispatchEvent(new Event("input", { bubbles: true }));`);

async function choose(selector, value) {
  await act(`const it = document.querySelector(${JSON.stringify(selector)}); it.value = ${JSON.stringify(value)}; it.dispatchEvent(new Event("change"));`);
}

async function type(lines) {
  await act(`document.getElementById("editing").open = true; document.getElementById("text").focus();`);
  await browser.run("new Promise((done) => setTimeout(done, 50))"); // (in which the field gets the trace that is shown)
  await act(`const it = document.getElementById("text"); it.value = ${JSON.stringify(lines.join("\n"))}; it.dispatchEvent(new Event("input"));`);
}

async function tryMoves() {
  await open("#two-maps-one-lock@5");
  await expect("a place in an example", now("After line 6, step 2: blocked 1"));
  await expect("who is blocked by whom, and since when", `${text(`${card(2)} .waits`)} === "waits for task 1: lock of file 0, since line 5"`);
  await expect("who blocks", `${text(`${card(1)} .blocks`)} === "holds back task 2"`);
  await expect("a blocked task can't step", `${isOff(turn("step", 2))} && ${isOff(turn("deny", 2))} && !${isOff(turn("kill", 2))} && !${isOff(turn("step", 1))}`);
  await browser.press("ArrowRight");
  await expect("an event on", now("After line 7, step 1: moved changed"));
  await browser.press("ArrowLeft");
  await browser.press("ArrowLeft");
  await expect("two events back", now("After line 5, begin 2 map 0 1 3: begun"));
  await browser.click(`${card(2)} .waits .link`);
  await expect("to where a wait began", isAt(4, 17));
  await browser.click("#last");
  await expect("the last event", isAt(17, 17));
  await browser.click("#lines-8");
  await expect("a line that is clicked", isAt(8, 17));
  await browser.press("ArrowUp");
  await browser.press("ArrowUp");
  await expect("lines by the keyboard", `${isAt(6, 17)} && document.activeElement.id === "lines" && document.querySelector("#lines [aria-selected]").id === "lines-6"`);
  await browser.press("End");
  await browser.press("Home");
  await expect("the first line", `${now("Before the first event")} && ${isOff("#back")}`);
}

/** A click in the picture moves there, and turns of tasks act on it. */
async function tryPicture() {
  await open("#two-maps-one-lock@8");
  const inks = `(() => { const it = document.getElementById("canvas"); return it.getContext("2d").getImageData(0, 0, it.width, it.height).data.reduce((sum, value) => (sum * 31 + value) % 1000003, 0); })()`;
  await expect("the picture and its legend are in sight", `["picture", "legend"].every((id) => { const { top, bottom } = document.getElementById(id).getBoundingClientRect(); return top >= 0 && bottom <= innerHeight; })`);
  const before = await browser.run(inks);
  await browser.click("#picture", "200", "70");
  await expect("a click moves there", `!${isAt(8, 17)} && /event ([2-9]) of 17/.test(${text("#now")})`);
  await expect("the picture follows", `${inks} !== ${before}`);
  await browser.press("ArrowDown");
  await browser.press("PageDown");
  await expect("keys of the picture", `${isAt(17, 17)} || /event 1[0-9] of 17/.test(${text("#now")})`);
  await act(`document.getElementById("query").value = "blocked"; document.getElementById("query").dispatchEvent(new Event("input"));`);
  await browser.click("#match-on");
  await expect("a match", `${isAt(5, 17)} && ${text("#found")} === "1 of 1 match"`);
  await browser.click(turn("step", 1));
  await expect("a step is in the picture", `${isAt(6, 6)} && ${inks} !== ${before}`);
  await browser.click("#ask");
  await browser.press("Escape");
  await expect("Escape closes the help", `document.getElementById("help").hidden && document.activeElement.id === "ask"`);
}

async function tryEvents() {
  await open("#two-maps-one-lock@8");
  await browser.click(turn("kill", 2));
  await expect("a kill replaces what came behind", `${text("#now")}.includes("kill 2: marked (event 9 of 9)") && ${text(`${card(2)} .killed`)} === "killed"`);
  await expect("the keyboard stays on a button that is off", `document.activeElement.getAttribute("aria-label") === "kill task 2" && ${isOff(turn("kill", 2))}`);
  await browser.press("Enter");
  await expect("a button that is off does nothing", isAt(9, 9));
  await browser.click(turn("step", 1));
  await expect("a step", now("After line 11, step 1: moved leave"));
  await browser.press("z", { ctrl: true });
  await browser.press("z", { ctrl: true });
  await expect("undone", isAt(8, 17));
  await browser.click("#last");
  await expect("what was undone ends as it did", `${now("After line 18, step 2: ended mapped 0")} && ${text("#counts")}.startsWith("frames4free4resv4")`);
  await browser.press("z", { ctrl: true, shift: true });
  await expect("made again", isAt(9, 9));
  await browser.click("#redo");
  await expect("and again", `${now("After line 11, step 1: moved leave")} && ${isOff("#redo")}`);
  await browser.click("#clear");
  await expect("no events", now("Before the first event"));
  await choose("#begin-call", "store");
  await browser.click("#begin button");
  await expect("a call that is begun", `${text(`${card(1)} .call`)} === "store 0 0 in look"`);
  await expect("what its next step does, in Linux, too", `${text(`${card(1)} .linux`)} === "next: looks whether the page is mapped, and translated already (Linux: hugetlb_fault)"`);
  await browser.click(turn("deny", 1));
  await expect("its end", `${text("#now")}.includes("ended segv")`);
  await type(["pool 4 1 4 2", "begin 1 map 0 0 2", "step 1", "stop 1"]);
  await expect("a line that is wrong", `${isAt(2, 2)} && ${text("#fault")}.startsWith("Line 4 is not allowed here: ")`);
  await browser.click(turn("kill", 1));
  await expect("a turn in its place", `${isAt(3, 3)} && document.getElementById("fault").hidden`);
  await browser.click("#undo");
  await expect("it is wrong again", `${isAt(2, 2)} && ${text("#fault")}.startsWith("Line 4 is not allowed here: ")`);
}

async function tryFields() {
  await open("#two-maps-one-lock@0");
  for (const wrong of ["1e3", "01", "-1", "1.5", "4294967296", ""]) {
    await set("#begin-numbers input", wrong);
    await browser.click("#begin button");
    await expect(`no call begins with ${wrong}`, `${isAt(0, 17)} && !document.querySelector("#begin-numbers input").checkValidity()`);
  }
  await set("#resize-frames", "7");
  await browser.click("#resize button");
  await expect("a resize", `${text("#now")}.includes("resize 7: resized 7") && ${text("#counts")}.startsWith("frames7free7")`);
  await browser.press("z", { ctrl: true });
  await browser.click("#undo");
  await expect("the field has the pool's frames", `document.getElementById("resize-frames").value === "4" && ${isAt(0, 17)}`);
}

async function tryTexts() {
  const shows = (count) => `document.querySelector("#lines .row").getAttribute("aria-setsize") === "${count}"`;
  await open("");
  await type(["pool 4 1 4 2", "begin 1 map 0 0 2", "step 01", "step 1"]);
  await expect("what is wrong with a line", `${text("#fault")} === 'Line 3 is not allowed here: 01 begins with a zero: "step 01"'`);
  await expect("the line says so", `${text("#lines .bad")}.includes("begins with a zero")`);
  await expect("the lines before it are run", isAt(1, 1));
  await type(["pool 0 1 4 2"]);
  await expect("what is wrong with a header", `${text("#fault")}.startsWith("Line 1 is not a pool header: ")`);
  await type([]);
  await expect("no line at all", `document.querySelectorAll("#lines .row").length === 0 && !document.getElementById("fault").hidden`);
  await browser.click("#script");
  await expect("which is no script", `${text("#fault")}.startsWith("Line 1 is not a pool header: ")`);
  await type(["# two pages", "pool 4 1 4 2  # small", "", "begin 1 map 0 0 2", "step 1 *3", "step 1 until ended"]);
  await expect("comments and repeats", `${text("#now")}.includes("ended mapped 0 (event 8 of 8)") && document.getElementById("fault").hidden && ${shows(9)}`);
  await type(["pool 4 1 4 2", "# a store ends at once", "begin 1 store 0 7", "step 1 until taken"]);
  await expect("what is wrong with a loose line", `${text("#notice")} === "Line 4 names a phase that the call doesn't reach: it ended segv. The lines before it are shown." && ${isAt(1, 1)}`);
  await choose("#example", "truncate-against-store");
  await browser.click("#undo");
  await expect("an example that is undone", isAt(1, 1));
  await choose("#example", "truncate-against-store");
  await expect("a script", `${now("Before the first event")} && ${text(`${card(2)} .buttons`)}.includes("begin 2 map 0 0 4")`);
  await act(`const it = document.getElementById("chance");
    for (let turns = 0; turns < 500 && it.getAttribute("aria-disabled") !== "true"; turns++) it.click();`);
  await expect("a script is played to its end", `${text("#counts")}.includes("calls in flight0") && Number(document.querySelector("#lines .row").getAttribute("aria-setsize")) > 40`);
}

/** A script whose call waits for calls of another task. */
async function tryWaits() {
  await open("#truncate-after-store");
  const next = `${card(2)} .buttons .go:not([hidden])`;
  await expect("a call waits by its script", `${text(next)} === "begin 2 trunc 0 2" && ${isOff(next)} && document.querySelector('${next}').title.includes("2 calls of task 1")`);
  await act(`for (let turns = 0; turns < 100 && ${isOff(next)}; turns++) document.getElementById("chance").click();`);
  await expect("it is due once they ended", `${text("#now")}.includes("step 1: ended done") && !${isOff(next)}`);
  await browser.click("#link");
  await expect("the link is there", `location.hash.startsWith("#script=")`);
  await open(await browser.run("location.hash"));
  await expect("a link keeps what waits", `!${isOff(next)}`);
  await browser.click("#first");
  await expect("which waits at the first moment", isOff(next));
  const given = (lines) => act(`const files = new DataTransfer(); files.items.add(new File([${JSON.stringify(lines.join("\n"))}], "mine.script")); const it = document.getElementById("file");
    it.files = files.files; it.dispatchEvent(new Event("change"));`);
  await given(["script 4 1 4 2", "begin 1 map 0 0 1", "after 1", "begin 2 mop 0 0 1"]);
  await expect("what is wrong with a script", `${text("#notice")}.startsWith('"begin 2 mop 0 0 1" is not allowed in a script: ')`);
  await given(["script 4 1 4 2", "begin 1 map 0 0 1", "after 1", "begin 2 map 0 0 1"]);
  await expect("a script that is opened", `${isAt(0, 0)} && ${text(next)} === "begin 2 map 0 0 1" && ${isOff(next)} && document.getElementById("notice").hidden`);
}

/** Playing, and the slider. */
async function tryPlaying() {
  await open("#two-maps-one-lock@0");
  await choose("#speed", "100");
  await browser.click("#play");
  await expect("it plays to the end, and stops", `${isAt(17, 17)} && ${text("#play")} === "play"`);
  await act(`const it = document.getElementById("scrub"); it.value = 3; it.dispatchEvent(new Event("input"));`);
  await expect("the slider", `${isAt(3, 17)} && ${text("#place")} === "3 of 17"`);
  await choose("#speed", "1");
  await browser.click("#play");
  await expect("it plays", `${text("#play")} === "pause" && ${isAt(4, 17)}`);
  await browser.click("#back");
  await expect("a move stops it", `${text("#play")} === "play"`);
}

async function tryAddresses() {
  for (const [hash, place, why] of [
    ["#two-maps-one-lock@abc", isAt(17, 17), 'The address ends with "@abc", which is no number of events: the last one is shown.'],
    ["#two-maps-one-lock@-1", isAt(17, 17), 'The address ends with "@-1", which is no number of events: the last one is shown.'],
    ["#two-maps-one-lock@1.5", isAt(17, 17), 'The address ends with "@1.5", which is no number of events: the last one is shown.'],
    ["#two-maps-one-lock@99", isAt(17, 17), "The trace has 17 events, so none is behind 99 of them."],
    ["#%", isAt(17, 17), 'The address ends with "#%", which can\'t be read.'],
    ["#no-such", isAt(17, 17), 'No example is named "no-such".'],
    ["#trace=!", isAt(17, 17), null],
    ["#trace=", isAt(17, 17), null],
  ]) {
    await open(hash);
    await expect(`the address ${hash}`, `${place} && !document.getElementById("notice").hidden${why ? ` && ${text("#notice")} === ${JSON.stringify(why)}` : ""}`);
    await expect("it is one sentence", `!${text("#notice")}.endsWith("..")`);
  }
  await open("#two-maps-one-lock@3");
  await act(`location.hash = "#kill-and-exit@2";`);
  await expect("an address that changes in an open page", `document.getElementById("example").value === "kill-and-exit" && ${text("#now")}.includes("(event 2 of ")`);
  await act(`location.hash = "#proof";`);
  await expect("a place on the page is no example", `document.getElementById("notice").hidden && document.getElementById("example").value === "kill-and-exit"`);
  await type(["pool 4 1 4 2", "begin 1 map 0 0 2", "step 1 *4"]);
  await expect("one's own trace", isAt(5, 5));
  await browser.click("#back");
  await browser.click("#link");
  await expect("its link stands in the address", `location.hash.startsWith("#trace=") && location.hash.endsWith("@4")`);
  const hash = await browser.run("location.hash");
  await open(hash);
  await expect("the link leads to the trace", `${isAt(4, 5)} && ${now("After line 5, step 1: moved ")} && document.getElementById("notice").hidden`);
  // (a script of so many random numbers can't be made small)
  await act(`const number = () => Math.floor(Math.random() * 4_294_967_296);
    const lines = Array.from({ length: 80_000 }, () => \`begin 1 store \${number()} 1\${number()}\${number() % 1_000_000_000}\`);
    const files = new DataTransfer(); files.items.add(new File([["script 1 1 1 1", ...lines].join("\\n")], "long.script")); const it = document.getElementById("file");
    it.files = files.files; it.dispatchEvent(new Event("change"));`);
  await expect("a long script", `${text(`${card(1)} .go:not([hidden])`)}.startsWith("begin 1 store ")`);
  const before = await browser.run("location.hash");
  await browser.click("#link");
  await expect("a link that would be too long", `/^The link would have \\d,\\d{3},\\d{3} characters, and browsers take 1,000,000: save a file instead\\.$/.test(${text("#notice")}) && location.hash === ${JSON.stringify(before)}`);
}

/** Files: one that is opened, and one that is saved. */
async function tryFiles() {
  await open("");
  await act(`const files = new DataTransfer(); files.items.add(new File(["pool 2 1 4 1\\nbegin 1 map 0 0 1\\n"], "mine.trace")); const it = document.getElementById("file");
    it.files = files.files; it.dispatchEvent(new Event("change"));`);
  await expect("a file that is opened", isAt(1, 1));
  if (kind.name !== "Chromium") return; // (the other one keeps a script of a test from the page's own functions)
  const saved = (button) => browser.run(`new Promise((done) => { const made = URL.createObjectURL; URL.createObjectURL = (blob) => { blob.text().then(done); return made.call(URL, blob); };
    document.getElementById("${button}").click(); URL.createObjectURL = made; })`);
  await expect("a file that is saved", `${JSON.stringify(await saved("save"))} === ${JSON.stringify("pool 2 1 4 1\nbegin 1 map 0 0 1\n")}`);
  await open("#two-maps-one-lock@5");
  const script = await saved("save-script");
  await expect("a script of its begins alone", `${JSON.stringify(script)} === ${JSON.stringify("pool 4 1 4 2\nbegin 1 map 0 0 2\nbegin 2 map 0 1 3\n")}`);
  await open("#truncate-after-store");
  const example = fs.readFileSync(new URL("../../examples/truncate-after-store.script", import.meta.url), "utf8");
  await expect("a script whose calls wait", `${JSON.stringify(await saved("save-script"))} === ${JSON.stringify(example)}`);
}

const asks = (...lines) => set("#conditions", lines.join("\n"));
const areAsked = (...lines) => `document.getElementById("conditions").value === ${JSON.stringify(lines.join("\n"))}`;
const isSaid = (words) => `${text("#search-said")} === ${JSON.stringify(words)}`;
const word = (name) => act(`[...document.querySelectorAll("#condition-words button")].find((it) => it.textContent === "${name}").click();`);

/** Conditions that are typed and picked. */
async function tryConditions() {
  await open("#two-maps-one-lock@5");
  await browser.click("#minimize");
  await expect("there has to be a condition", `${text("#condition-fault")} === "No line says a condition yet." && document.activeElement.id === "conditions"`);
  await asks("", "blocked *", "", "blocked 0");
  await expect("the first line that is none", `${text("#condition-fault")}.startsWith('Line 4 is no condition: "blocked 0".') && document.getElementById("conditions").getAttribute("aria-invalid") === "true"`);
  await browser.click("#minimize");
  await expect("it is picked", `(() => { const it = document.getElementById("conditions"); return it.value.slice(it.selectionStart, it.selectionEnd) === "blocked 0"; })()`);
  await act(`const it = document.getElementById("conditions"); it.value = "\\n" + "rest\\n".repeat(65537); it.dispatchEvent(new Event("input"));`);
  await expect("more than there may be", `${text("#condition-fault")} === "There may be 65,536 conditions: line 65538 says one more."`);
  await asks("blocked *");
  await expect("the fault goes", `document.getElementById("condition-fault").hidden`);
  await word("at");
  await choose("#condition-fields [name=call]", "map");
  await set("#condition-fields [name=number]", "3");
  await browser.click("#condition-not");
  await browser.click("#condition fieldset button");
  await expect("a condition that is picked", `${areAsked("blocked *", "at not *:map=SIGBUS free=3")} && document.getElementById("condition-fault").hidden`);
  await word("meet");
  await browser.click("#condition fieldset button");
  await expect("two tasks are two", areAsked("blocked *", "at not *:map=SIGBUS free=3", "meet 1:start,2:start"));
  await expect("the program's commands have them", `${text("#searches")}.includes("hugepool find --every --blocked '*' --at 'not *:map=SIGBUS free=3' --meet 1:start,2:start two-maps-one-lock.script")`);
  await choose("#condition-example", "rest");
  await expect("an example", areAsked("rest"));
}

/** Searches, and what they find. What they say of examples is what docs/EXPLORING.md has. */
async function tryFinding() {
  await open("#truncate-against-fault");
  await asks("blocked 2", "answer 1:2=beyond");
  await browser.click("#find");
  await expect("a run is found", `${isSaid("Run 4 (seed 5) is the first that meets all conditions, with 30 events. Find goes on behind it. It is shown now.")} && ${isAt(30, 30)}`);
  await expect("the next search goes on", `document.getElementById("search-seed").value === "6" && document.getElementById("beside").hidden && ${isOff("#stop-search")}`);
  await act(`document.getElementById("conditions").focus();`);
  await browser.press("Enter", { ctrl: true });
  await expect("another is found beside it", `/^Run \\d+ \\(seed \\d+\\) .* stands beside it below\\.$/.test(${text("#search-said")}) && ${text("#parting")}.startsWith("The runs are one up to line ")`);
  await browser.click("#undo");
  await expect("which is undone", isAt(30, 30));
  await open("#two-files-one-quota");
  await asks("answer 1:1=done", "answer 2:1=done");
  await browser.click("#every");
  await expect("no schedule", isSaid("No schedule of these calls meets all conditions."));
  await open("#balloon-against-guest");
  await asks("at *:*=SIGBUS resv>0");
  await browser.click("#every");
  await expect("a shortest schedule", `${text("#search-said")}.startsWith("A shortest schedule that meets all conditions has ") && ${text("#now")}.includes("ended noframe") && ${text("#counts")}.includes("free2resv2")`);
}

async function tryMinimizing() {
  await open("#two-maps-one-lock");
  await asks("blocked 2");
  await browser.click("#minimize");
  await expect("a small trace beside the run that was shown", `${isSaid("Of 17 events 3 are left: none of them can go, and no number can be one less. It is shown now, and what was shown stands beside it below.")} && ${isAt(3, 3)}`);
  await asks("answer 2:1=segv");
  await browser.click("#minimize");
  await expect("what doesn't meet them", isSaid("The run that is shown doesn't meet all conditions."));
}

/** Searches that are long: the page goes on, they say how far they are, and stop. */
async function tryStops() {
  await open("#two-maps-one-lock");
  await act(`document.getElementById("search-numbers").open = true;`);
  await asks("answer 1:1=segv");
  await set("#search-states", "1");
  await browser.click("#every");
  await expect("a bound", isSaid("The bound of 1 state was reached: no schedule of fewer than 1 turn meets all conditions."));
  await set("#search-runs", "4000000000");
  await browser.click("#find");
  await expect("runs are counted", `/^[\\d,]+ runs/.test(${text("#search-count")}) && ${isOff("#find")} && document.getElementById("searching").getAttribute("aria-busy") === "true"`);
  const waits = await browser.run(`(async () => { let most = 0; let last = performance.now();
    for (const end = last + 500; last < end; ) { await new Promise((done) => setTimeout(done)); const now = performance.now(); most = Math.max(most, now - last); last = now; } return most; })()`);
  console.log(`page: ${browser.name}: a search holds the page for ${waits.toFixed(0)} ms`);
  await browser.click("#back");
  await expect("the page goes on", isAt(16, 17));
  await browser.press("Escape");
  await act(`document.getElementById("searching").scrollIntoView();`);
  await browser.click("#stop-search");
  await expect("it stops", `/^Stopped: none of [\\d,]+ runs meets all conditions\\. /.test(${text("#search-said")}) && ${isOff("#stop-search")} && Number(document.getElementById("search-seed").value) > 1`);
  await set("#search-runs", "0x1");
  await browser.click("#find");
  await expect("a number that is none", `!document.getElementById("search-runs").checkValidity() && ${isOff("#stop-search")}`);
  await open("#64-backends-one-segment");
  await asks("answer 1:9=segv");
  await set("#search-states", "90000000");
  await browser.click("#every");
  await expect("turns are counted", `/^no schedule of fewer than \\d+ turns/.test(${text("#search-count")})`);
  await act(`document.getElementById("conditions").focus();`);
  await browser.press("Escape");
  await expect("Escape stops it", isSaid("Stopped."));
}

/** What a stopped worker sent before is dropped. */
async function tryStopped() {
  await open("#two-maps-one-lock");
  await act(`window.made = []; window.Worker = class { constructor() { made.push(this); } postMessage() {} terminate() {} };`);
  const sends = (worker, told) => act(`setTimeout(() => made[${worker}].onmessage({ data: ${JSON.stringify(told)} }));`);
  await asks("blocked 2");
  await browser.click("#find");
  await sends(0, { answer: "so far", done: 3 });
  await expect("it is heard", `${text("#search-count")}.startsWith("3 runs")`);
  await browser.click("#stop-search");
  await sends(0, { answer: "so far", done: 7 });
  await browser.click("#find");
  await sends(0, { answer: "none" });
  await browser.run("new Promise((done) => setTimeout(done, 50))");
  await expect("nothing is heard of the one that was stopped", `document.getElementById("searching").getAttribute("aria-busy") === "true" && document.getElementById("fault").hidden`);
  await sends(1, { answer: "none" });
  await expect("the next one is heard", `${text("#search-said")}.startsWith("None of 65,536 runs meets all conditions")`);
}

/** Two schedules of one script, side by side. */
async function tryBeside() {
  await open("#two-maps-one-lock@5");
  await browser.click("#keep");
  await expect("a run beside itself", `${text("#parting")} === "The two runs are one."`);
  await browser.click(turn("kill", 2));
  await expect("where they part", `${text("#parting")} === "The runs are one up to line 6, and part behind it." && ${text("#beside-lines .differs")} === "7step 1moved changedkill 2marked"`);
  await browser.click("#forget");
  await expect("it is forgotten", `document.getElementById("beside").hidden && document.activeElement.id === "keep"`);
}

const took = (does) => browser.run(`(async () => { const began = performance.now(); ${does}; document.body.offsetHeight; return performance.now() - began; })()`);
const least = (times) => Math.min(...times).toFixed(0);
const midst = (times) => [...times].sort((one, other) => one - other)[times.length >> 1].toFixed(0);
const most = (times) => Math.max(...times).toFixed(0);

/** 64 tasks, 61 of which wait for the one that holds the lock; and 20,000 events. */
function longTrace() {
  const lines = ["pool 64 1 16 64", "begin 55 map 0 0 1", "step 55"];
  for (let task = 1; task <= 61; task++) lines.push(`begin ${task < 55 ? task : task + 1} map 0 0 2`);
  lines.push("begin 63 map 0 0 1");
  while (lines.length < 20_001) lines.push(`step ${lines.length % 2 ? 3 : 63}`);
  return lines;
}

const press = (id) => `document.getElementById("${id}").click()`;
const slide = (place) => `const it = document.getElementById("scrub"); it.value = ${place}; it.dispatchEvent(new Event("input"))`;

/** Moves from end to end, by one event, and to moments anywhere. */
async function tryMoved() {
  const places = Array.from({ length: 20 }, (_, at) => (at * 7919 + 11) % 20_000);
  const does = [...Array(4).fill(["back", "on", "first", "last", "back", "first", "on", "on", "last"]).flat().map(press), ...places.map(slide)];
  const times = [];
  for (const it of does) times.push(await took(it));
  return times;
}

/** Random turns at the end, in the midst and near the beginning, each in the trace that was opened. */
async function tryTurned() {
  const times = [];
  for (const place of [19_000, 10_000, 10_000, 10_000, 1_000, 300, 100, 64, 3, 1]) {
    await act(slide(place));
    for (let tries = 0; tries < 2; tries++) times.push(await took(press("chance")));
    await act(`${press("undo")}; ${press("undo")};`);
  }
  return times;
}

async function tryLoads() {
  const times = [];
  for (let tries = 0; tries < 3; tries++) {
    await type(["pool 4 1 4 2"]);
    await expect("a pool alone", isAt(0, 0));
    times.push(await browser.run(`(async () => { const it = document.getElementById("text"); it.value = ${JSON.stringify(longTrace().join("\n"))};
    it.getBoundingClientRect(); const began = performance.now(); it.dispatchEvent(new InputEvent("input", { inputType: "insertFromPaste" }));
    while (!document.getElementById("now").textContent.includes("(event 20000 of 20000)") && performance.now() < began + 20000) await new Promise((done) => setTimeout(done, 5));
    await new Promise((done) => requestAnimationFrame(() => setTimeout(done))); return performance.now() - began; })()`));
  }
  return times;
}

async function tryLong() {
  await open("");
  const loads = await tryLoads();
  await expect("20,000 events", isAt(20_000, 20_000));
  await expect("those that wait are folded", `[...document.querySelectorAll(".fold summary")].some((it) => it.textContent === "62 wait for task 55: lock of file 0")`);
  await browser.run(`new Promise((done) => setTimeout(done, 500))`);
  const moves = await tryMoved();
  const turns = await tryTurned();
  await expect("turns that are undone", `${text("#now")}.includes("(event 1 of 20000)")`);
  await act(slide(0));
  await expect("those that do nothing are folded", `${text("#folds")} === "64 idle, with 0 mappings and 0 translated pages" && document.querySelector("#tasks .task") === null`);
  await act(slide(10_000));
  await browser.click("#chance");
  await expect("a turn in the midst", isAt(10_001, 10_001));
  await browser.click("#undo");
  await expect("which is undone", `${text("#now")}.includes("(event 10000 of ")`);
  await browser.click("#explanation");
  await expect("rows of the explanation", `document.querySelectorAll("#explanation .row").length > 5 && document.querySelector("#explanation [aria-current]") !== null`);
  const texts = await browser.run(`(async () => { document.getElementById("back").click(); let most = 0; let last = performance.now();
    for (const end = last + 800; last < end; ) { await new Promise((done) => setTimeout(done)); const now = performance.now(); most = Math.max(most, now - last); last = now; } return most; })()`);
  await expect("nothing went wrong", `document.getElementById("fault").hidden`);
  console.log(`page: ${browser.name}: 20,000 events of 64 tasks are there after ${least(loads)} to ${most(loads)} ms; a move takes ${midst(moves)} ms, at most ${most(moves)}; `
    + `a random turn ${midst(turns)} ms, at most ${most(turns)}; texts hold the page for ${texts.toFixed(0)} ms`);
}

/** A pool of many tasks: those that are alike are folded, cards out of sight follow, and the keyboard stays. */
async function tryFolds() {
  const begin = (task) => `document.querySelector('${card(task)} .go:not([hidden])').click();`;
  await open("#64-backends-one-segment");
  await expect("tasks with a call to begin have their cards", `document.querySelectorAll("#tasks > .task").length === 64 && document.querySelector("#folds").children.length === 0`);
  await expect("cards out of sight follow", `${text(`${card(64)} .go:not([hidden])`)}.startsWith("begin 64 map ")`);
  await act(`${begin(1)} ${turnOf("step", 1)} ${[2, 3, 4].map(begin).join(" ")}`);
  await expect("three that wait have their cards", `document.querySelectorAll("#tasks > .task.is-blocked").length === 3`);
  await act(`document.querySelector('${card(5)} .go:not([hidden])').focus();`);
  await browser.press("Enter");
  await expect("the fourth is folded with them, and the keyboard is at its line", `document.activeElement.tagName === "SUMMARY" && document.activeElement.textContent === "4 wait for task 1: lock of file 0"`);
  await browser.press("Enter");
  await expect("a fold that is opened", `document.querySelectorAll(".fold .task").length === 4 && ${text(`${card(5)} .waits`)} === "waits for task 1: lock of file 0, since line 7"`);
  await act(`document.querySelector('${card(5)} .link').focus();`);
  await browser.press("Enter");
  await expect("a moment behind its wait keeps the keyboard in the card", `${isAt(6, 6)} && document.activeElement.closest(".task")?.dataset.task === "5"`);
  await browser.press("ArrowLeft");
  await browser.press("ArrowLeft");
  await expect("it is a card again, as are the others", `${isAt(4, 6)} && document.querySelectorAll("#folds .fold").length === 0 && document.activeElement.closest(".task")?.dataset.task === "5"`);
}

/** Tasks out of sight follow a little later, and a button that is pressed there by its name is as it is now. */
async function tryUnseen() {
  await open("#two-maps-one-lock@5");
  await expect("a step that is off", isOff(turn("step", 2)));
  await act(`document.getElementById("proof").scrollIntoView();`);
  await browser.run("new Promise((done) => setTimeout(done, 200))"); // (in which the browser says what is in sight)
  await act(`${slide(10)}; ${turnOf("step", 2)}`);
  await expect("it is on where its task waits no more", `${isAt(11, 11)} && ${now("After line 12, step 2: moved room")}`);
  await expect("its card follows", `${text(`${card(2)} .call`)} === "map 0 1 3 in room"`);
  await act(`${press("undo")}; window.scrollTo(0, 0);`);
  await expect("so does one that comes into sight", `${isAt(10, 17)} && ${text(`${card(2)} .call`)} === "map 0 1 3 in start"`);
}

/** The text in its field follows a little later, but not what is typed there. */
async function tryText() {
  const has = (lines) => `document.getElementById("text").value.startsWith(${JSON.stringify(lines.join("\n"))})`;
  await open("#two-maps-one-lock@3");
  await act(`document.getElementById("editing").open = true;`);
  await expect("the trace is in its field", has(["pool 4 1 4 2", "begin 1 map 0 0 2"]));
  await browser.click(turn("kill", 1));
  await expect("a turn follows", `document.getElementById("text").value.endsWith("kill 1\\n")`);
  await type(["# mine", "pool 4 1 4 2", "begin 1 map 0 0 2"]);
  await expect("what is typed is read", isAt(1, 1));
  await act(`document.getElementById("text").blur();`);
  await browser.click("#back");
  await act(`document.getElementById("text").focus();`);
  await expect("and stays as it is typed", has(["# mine", "pool"]));
  await browser.click(turn("kill", 2));
  await act(`document.getElementById("text").focus();`);
  await expect("a turn replaces it, at once where somebody types", `document.getElementById("text").value === "pool 4 1 4 2\\nkill 2\\n"`);
}

/** (one browser can be made to lack something before the page is there) */
async function tryMissing() {
  if (kind.name !== "Chromium") return;
  const { identifier } = await browser.send("Page.addScriptToEvaluateOnNewDocument", { source: "WebAssembly.validate = () => false" });
  await open("");
  await expect("a browser without memory64", `document.getElementById("main").hidden && ${text("#missing")}.includes("Firefox from 134")`);
  await browser.send("Page.removeScriptToEvaluateOnNewDocument", { identifier });
  const none = await browser.send("Page.addScriptToEvaluateOnNewDocument", { source: "window.Worker = class { constructor() { throw new Error('no workers here'); } }" });
  await open("#two-maps-one-lock");
  await asks("blocked 2");
  await browser.click("#minimize");
  await expect("a browser without workers", isSaid("This browser lets the page have no worker, in which it would search (no workers here): the program can, see below."));
  await browser.send("Page.removeScriptToEvaluateOnNewDocument", none);
}

/** Nothing is wider than the window, by width and by light. */
async function tryLooks() {
  for (const width of [1280, kind.narrow]) {
    for (const light of ["light", "dark"]) {
      await browser.size(width, 900);
      await browser.light(light);
      await open("#calls-in-flight");
      await expect(`nothing is wider than ${width} pixels`, `document.documentElement.scrollWidth <= ${width}`);
      await expect("the picture is in the first screen", `document.getElementById("picture").getBoundingClientRect().bottom <= 900`);
      const sunk = light === "dark" ? "rgb(35, 39, 47)" : "rgb(240, 242, 246)";
      await expect("so have bars by which it is scrolled", `getComputedStyle(document.getElementById("picture")).scrollbarColor.endsWith("${sunk}")`);
      await expect("it has the light that is asked for", `getComputedStyle(document.body).backgroundColor === "${light === "dark" ? "rgb(20, 22, 27)" : "rgb(246, 247, 249)"}"`);
      if (pictures) fs.writeFileSync(path.join(pictures, `page-${kind.name}-${width}-${light}.png`), await browser.picture());
      await act(`for (const it of document.querySelectorAll("details")) it.open = true; document.getElementById("keep").click(); document.getElementById("ask").click();`);
      await expect(`nothing is wider than ${width} pixels where all is open`, `document.documentElement.scrollWidth <= ${width}`);
    }
  }
  await browser.size(1280, 900);
  await browser.light("light");
}

/** What goes wrong is shown, but not that the browser looks at sizes a frame later. */
async function tryErrors() {
  const says = (message) => act(`window.dispatchEvent(new ErrorEvent("error", { message: ${JSON.stringify(message)} }));`);
  await open("#two-maps-one-lock");
  await says("ResizeObserver loop completed with undelivered notifications.");
  await expect("that isn't shown", `document.getElementById("fault").hidden`);
  await says("out of memory");
  await expect("what went wrong", `${text("#fault")} === "out of memory" && !document.getElementById("fault").hidden`);
}

/** Moves stay in sight where the page scrolls, and what is said has roles and names. */
async function tryRoles() {
  await open("#two-maps-one-lock@5");
  await act("window.scrollTo(0, 900);");
  await expect("the moves are pinned", `document.getElementById("moves").getBoundingClientRect().top === 0`);
  await expect("each button and field has a name", `[...document.querySelectorAll("button, input, select, textarea")].every((it) => it.hidden || it.closest("[hidden]") || (it.textContent + (it.getAttribute("aria-label") ?? "") + (it.labels?.[0]?.textContent ?? "")).trim() !== "")`);
  await expect("phases have words", `document.querySelector(".task .call b").title.length > 5 && document.querySelectorAll("#phases dt").length === 27`);
  const meaning = (word) => `[...document.querySelectorAll("#counts dt")].find((it) => it.textContent === "${word}").title`;
  await expect("what is owed, and a deny, have words", `${meaning("owed")}.includes("resv less no page") && document.querySelector('${turn("deny", 1)}').title.includes("memory")`);
  await expect("counts have words, but for those that say it", `["frames", "free", "resv", "no page", "audit"].every((it) => [...document.querySelectorAll("#counts dt")].find((dt) => dt.textContent === it).title !== "") && ${meaning("calls in flight")} === ""`);
  await expect("they stand in the glossary, with the kernel's names", `["owed", "deny"].every((it) => [...document.querySelectorAll("#terms dt")].some((dt) => dt.textContent === it)) && document.querySelectorAll("#terms code").length > 5`);
}

const asked = process.env.TRIES?.split(" ").map((it) => `try${it}`);
await inBrowsers(async (...it) => {
  [browser, kind] = it;
  const all = [tryMoves, tryPicture, tryEvents, tryFields, tryTexts, tryWaits, tryPlaying, tryAddresses, tryFiles, tryConditions, tryMinimizing, tryFinding, tryStops, tryStopped, tryBeside, tryFolds, tryUnseen, tryText, tryLong, tryErrors, tryRoles, tryMissing, tryLooks];
  await open("");
  const finds = await browser.run(`!document.getElementById("find").hidden`);
  const left = finds ? [] : [tryFinding, tryStops, tryStopped];
  if (!finds) console.log("left out: random runs and all schedules, which the page's module doesn't search");
  for (const tries of all.filter((one) => !left.includes(one) && (!asked || asked.includes(one.name)))) await tries();
  const wrong = await browser.complaints(address);
  wrong.forEach((complaint) => console.log(`page: ${kind.name}: ${complaint}`));
  await expect("nothing goes wrong, and nothing is asked of the network", `${wrong.length} === 0`);
});
console.log(`${passed} passed, ${failed} failed`);
process.exit(failed ? 1 : 0);
