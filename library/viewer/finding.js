// Searching for a run: the worker that searches, what it tells, and what it finds.

/** The search that is made: its worker, its kind, what it was asked for, the run that was shown, when it began, how far it is; or null. */
let searching = null;
let searcherAddress = "";
// the call of the library that makes each search: a module that lacks it has no button for it
const SEARCH_CALLS = { find: "hugepool_find", every: "hugepool_find_every", minimize: "hugepool_minimize" };

/** A search is made, or isn't: which buttons can be pressed. */
function showSearch() {
  for (const it of Object.keys(SEARCH_CALLS)) setOff($(it), searching !== null);
  setOff($("stop-search"), searching === null);
  $("searching").setAttribute("aria-busy", `${searching !== null}`);
  if (searching === null) $("search-count").textContent = "";
}

function endSearch(words) {
  clearInterval(searching.timer);
  searching.worker?.terminate();
  searching = null;
  $("search-said").textContent = words;
  showSearch();
}

function countSearch() {
  const seconds = Math.floor((performance.now() - searching.began) / 1000);
  $("search-count").textContent = `${searching.far}${seconds > 0 ? `${searching.far && ", "}${seconds} s` : ""}`;
}

function makeSearcher() {
  searcherAddress ||= URL.createObjectURL(new Blob([data.searcher], { type: "text/javascript" }));
  return new Worker(searcherAddress);
}

const refuseSearch = (why) =>
  endSearch(`This browser lets the page have no worker, in which it would search${why ? ` (${why})` : ""}: the program can, see below.`);

/** Hears a worker, as long as it is the one that searches: one that was stopped may have sent something before. */
function listenToSearch(worker) {
  worker.onmessage = ({ data: told }) => {
    if (searching?.worker === worker) hearSearch(told);
  };
  worker.onerror = (event) => {
    event.preventDefault();
    if (searching?.worker === worker) refuseSearch(event.message);
  };
}

/** Begins a search by the conditions: of random runs, of all schedules, or for a small trace of what is shown. */
function beginSearch(kind) {
  if (searching !== null || $(kind).hidden || !readConditions(true)) return;
  const numbers = numbersAsked();
  if (!numbers) return;
  const shown = { lines: trace.lines.slice(0, trace.count + 1), outcomes: trace.outcomes.slice(0, trace.count) };
  const asked = { text: kind === "minimize" ? textOf(shown.lines) : scriptText(), conditions: textOf(conditionTexts()), numbers };
  searching = { kind, asked, shown, script, began: performance.now(), far: "", worker: null };
  $("search-said").textContent = "";
  try {
    searching.worker = makeSearcher();
  } catch (error) {
    refuseSearch(error.message);
    return;
  }
  listenToSearch(searching.worker);
  searching.worker.postMessage({ bytes: wasmBytes, header: data.header, kind, asked });
  searching.timer = setInterval(countSearch, 250);
  showSearch();
}

function hearSearch(told) {
  if (told.answer === "so far") {
    searching.done = told.done;
    searching.far = told.done === undefined ? `no schedule of fewer than ${plural(told.turns, "turn")}` : plural(told.done, "run");
    return countSearch();
  }
  const { kind, asked, shown, script: by } = searching;
  if (told.answer === "found") return showFound(told, kind, asked, shown, by);
  if (told.answer === "none" && kind === "find") seedOn(asked.numbers.runs);
  return endSearch(noneWords(told, kind, asked.numbers));
}

/** What is said where nothing is found. */
function noneWords({ answer, why, line, turns }, kind, { runs, denials, kills, states }) {
  if (answer === "failed") return `The search ended: ${why}.`;
  if (answer === "line" || answer === "header") return `Line ${line} of what is searched is not allowed there.`;
  if (answer === "limit") {
    return `The bound of ${plural(states, "state")} was reached: no schedule of fewer than ${plural(turns, "turn")} meets all conditions.`;
  }
  if (kind === "minimize") return "The run that is shown doesn't meet all conditions.";
  if (kind === "find") return `None of ${plural(runs, "run")} meets all conditions; a schedule still may. Find goes on with the next seed.`;
  const more = [denials && `${plural(denials, "allocation")} that fail${denials === 1 ? "s" : ""}`, kills && plural(kills, "kill")].filter((it) => it);
  return `No schedule of these calls${more.length > 0 ? `, with at most ${more.join(" and ")},` : ""} meets all conditions.`;
}

/** The next search of random runs goes on behind so many of the last one. */
function seedOn(runs) {
  $("search-seed").value = `${BigInt.asUintN(64, searching.asked.numbers.seed + BigInt(runs))}`;
  showSearches();
}

function runWords({ run }, kind, { numbers }, shown, events) {
  if (kind === "minimize") {
    const before = plural(shown.lines.length - 1, "event");
    return `Of ${before} ${events.toLocaleString("en")} are left: none of them can go, and no number can be one less.`;
  }
  if (kind === "every") return `A shortest schedule that meets all conditions has ${plural(events, "event")}.`;
  const seed = BigInt.asUintN(64, numbers.seed + BigInt(run));
  return `Run ${run.toLocaleString("en")} (seed ${seed}) is the first that meets all conditions, with ${plural(events, "event")}. Find goes on behind it.`;
}

/** Opens what was found, beside the run that was shown, if anything had happened there. */
function showFound(told, kind, asked, shown, by) {
  const lines = linesOf(told.text);
  if (kind === "find") seedOn(told.run + 1);
  const words = runWords(told, kind, asked, shown, lines.length - 1);
  const hasShown = shown.lines.length > 1;
  if (hasShown) kept = shown;
  stop();
  change(0, lines, Infinity, { example: "", script: kind === "minimize" ? scriptOf([]) : by });
  if (hasShown) markRow(besideList, at);
  endSearch(`${words} It is shown now${hasShown ? ", and what was shown stands beside it below" : ""}.`);
}

function stopSearch() {
  if (searching === null) return;
  const { kind, done = 0 } = searching;
  if (kind === "find") seedOn(done);
  endSearch(kind === "find" ? `Stopped: none of ${plural(done, "run")} meets all conditions. Find goes on behind them.` : "Stopped.");
}

// ---- the same in the program

/** The commands that search what is shown, by these conditions. */
function searches() {
  const lines = conditionTexts();
  const options = optionsOf(lines.length > 0 ? lines : Object.keys(ASKED).slice(0, 1));
  const isOther = (it) => $(`search-${it}`).value !== NUMBERS[it][0];
  const said = (...names) => names.filter(isOther).map((it) => ` --${it === "runs" ? "limit" : it} ${$(`search-${it}`).value}`).join("");
  const bounds = said("denials", "kills", "states");
  return `hugepool find${options}${said("seed", "runs", "deny", "kill")} ${nameOf("script")} > found.trace
hugepool find --every${options}${bounds} ${nameOf("script")} > found.trace
hugepool explore --every${bounds} ${nameOf("script")}
hugepool minimize${options} ${nameOf("trace")} > small.trace
`;
}

function showSearches() {
  $("searches").textContent = searches();
}

function listenToFinding() {
  for (const [kind, call] of Object.entries(SEARCH_CALLS)) {
    $(kind).hidden = !(call in library.exports);
    $(kind).onclick = () => beginSearch(kind);
  }
  $("search-numbers").hidden = $("find").hidden && $("every").hidden;
  $("stop-search").onclick = stopSearch;
  $("searching").addEventListener("keydown", (event) => event.key === "Escape" && stopSearch());
  $("save-script").onclick = () => saveAs(nameOf("script"), scriptText(), "text/plain");
  $("copy-searches").onclick = () => copyText(searches(), "copied");
  showSearch();
}
