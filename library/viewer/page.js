// The page around the library: what it shows of a moment, its keys, and its beginning.

// what is shown where the address names no example
const FIRST_EXAMPLE = "two-maps-one-lock";
const LINE_HEIGHT = 22;
// a module of nothing but a memory whose addresses have 64 bits
const MEMORY64 = new Uint8Array([0, 97, 115, 109, 1, 0, 0, 0, 5, 3, 1, 4, 1]);

const data = JSON.parse($("data").textContent);
let list;
// the module, of which a search has one of its own
let wasmBytes;

// ---- the lines

function fillLine(row, place) {
  const { lines, outcomes, fault } = trace;
  const isBad = fault !== null && place === fault.line - 1;
  const outcome = isBad ? fault.why : (outcomes[place - 1] ?? "");
  const className = isBad ? "row bad" : place > trace.count ? "row unmade" : "row";
  Object.assign(row, { className, role: "option", title: `${lines[place]}: ${outcome}` });
  setCells(row, "span", [place + 1, lines[place], outcome]);
  row.lastChild.className = outcome.startsWith("blocked") ? "blocked" : "";
}

function showFault() {
  const { fault } = trace;
  $("fault").hidden = fault === null;
  if (fault) $("fault").textContent = fault.line ? `Line ${fault.line} is not ${fault.isHeader ? "a pool header" : "allowed here"}: ${fault.why}` : fault.why;
}

/** Shows the trace, of which so many lines are as they were, and the moment. */
function showTrace(kept) {
  $("state").hidden = $("picture-part").hidden = !library.run;
  if (library.run) showPlace();
  setRows(list, Math.min(trace.lines.length, MOST_EVENTS + 2), Math.max(0, kept - 1));
  showFault();
  showText();
  showConditionSoon();
  showSearches();
  showBeside();
  if (library.run) showMoment(kept === 0);
  else showMoves();
}

// ---- the moment

/** Shows the moment in the picture, which of a long run may follow later. It looks how far it is scrolled: this comes first, while the page
 *  is laid out. */
const showPlace = () => showPicked(Math.min(at, view.run.count) - 1);

function showMoment(isOther) {
  const pool = library.poolNumbers();
  markRow(list, at);
  if (kept !== null) markRow(besideList, at);
  showMoves();
  showNow();
  showPool(pool);
  showFiles(pool.files);
  showBeginTasks(pool.tasks);
  showTasks(isOther);
  showResize(pool);
  later();
}

function show() {
  showPlace();
  showMoment();
}

function showNow() {
  const line = () => element("code", { textContent: trace.lines[at] });
  const title = at === 0 ? ["Before the first event"] : [`After line ${at + 1}, `, line(), `: ${trace.outcomes[at - 1]}`];
  $("now").replaceChildren(...title, element("span", { className: "soft", textContent: ` (event ${at} of ${trace.count})` }));
}

/** What parts of the page say: one that is to say the same is left alone. */
const partWords = new Map();

function isNews(part, words) {
  const is = partWords.get(part) !== words;
  partWords.set(part, words);
  return is;
}

function showPool(pool) {
  const found = library.audit();
  const counts = [
    ["frames", pool.frames, "frame"],
    ["free", pool.free, "frame"],
    ["resv", pool.resv],
    ["no page", pool.resv - pool.owed],
    ["owed", pool.owed],
    ...(pool.has_quota ? [[`used of a quota of ${pool.quota}`, pool.used, "used"]] : []),
    ["calls in flight", pool.calls],
    ["audit", found === 0 ? "ok" : `wrong: ${words.findings[found]}`, "audit", found === 0 ? "good" : "hot"],
  ];
  if (!isNews("counts", counts.join())) return;
  if (isNews("names of counts", counts.map(([name]) => name).join())) $("counts").replaceChildren(...counts.map(makeCount));
  counts.forEach(([, count, , className = ""], place) => {
    const dd = $("counts").children[place].lastChild;
    setText(dd, count);
    dd.className = className;
  });
  showBar(pool);
}

const makeCount = ([name, , word = name]) => element("div", {}, element("dt", { textContent: name, title: meaningOf(word) }), element("dd"));

function showBar({ frames, free, resv, owed }) {
  const parts = { taken: [frames - free, "in use"], promised: [resv, "free and promised"], spare: [free - resv, "free and not promised"] };
  for (const [part, [count, name]] of Object.entries(parts)) {
    $("bar").querySelector(`.${part}`).style.flex = `${count} 0 0`;
    setText($("sum").querySelector(`.${part} + span`), `${count} ${name}`);
  }
  setText($("equation"), `resv ${resv} = no page ${resv - owed} ${owed < 0 ? "\u2212" : "+"} owed ${Math.abs(owed)}`);
}

function showFiles(count) {
  const rows = Array.from({ length: count }, (_, file) => {
    const { size, reserved, pages, regions, changes, spare } = library.file(file);
    return [file, size, reserved, pages, regions, changes, spare];
  });
  if (!isNews("files", rows.join(";"))) return;
  const body = $("file-rows");
  while (body.rows.length > count) body.lastChild.remove();
  while (body.rows.length < count) body.append(element("tr"));
  rows.forEach((row, file) => setCells(body.rows[file], "td", row));
}

// ---- keys

const CHANGES = { z: (event) => (event.shiftKey ? redo() : undo()), y: redo };

/** What is typed stays the browser's to undo. */
function pressMore(event) {
  const isTyping = event.target.closest("input:not([type=range]), select, textarea");
  const does = CHANGES[event.key.toLowerCase()];
  if ((event.ctrlKey || event.metaKey) && !event.altKey && !isTyping && does) {
    event.preventDefault();
    stop();
    does(event);
  }
  if (event.key === " " && (event.target === document.body || event.target === view.scroller)) {
    event.preventDefault();
    play();
  }
}

function showPast() {
  setOff($("undo"), past.length === 0);
  setOff($("redo"), future.length === 0);
}

function showHelp(isShown) {
  if ($("help").contains(document.activeElement)) $("ask").focus();
  $("help").hidden = !isShown;
  $("legend").classList.toggle("is-long", isShown);
  $("ask").setAttribute("aria-expanded", `${isShown}`);
}

// ---- the beginning

function showExample(name) {
  example = name;
  $("example").value = name;
  const shows = data.examples.find((it) => it.name === name)?.shows ?? "";
  $("shows").textContent = shows.charAt(0).toUpperCase() + shows.slice(1);
}

function showOrigin() {
  const names = {
    commit: "commit",
    proof: "toolchain's verdict",
    toolchain: "toolchain",
    archive: "sha256 of libhp_c.a",
    module: "LLVM module",
    wasm: "sha256 of the WebAssembly",
    bytes: "its size",
  };
  const rows = Object.entries(data.origin).flatMap(([name, text]) => [element("dt", { textContent: names[name] }), element("dd", { textContent: text })]);
  $("origin").replaceChildren(...rows);
}

function showExamples() {
  const group = (label, kind) => {
    const made = element("optgroup", { label });
    made.append(...data.examples.filter((it) => it.kind === kind).map((it) => new Option(it.name)));
    return made;
  };
  $("example").append(new Option("your own", ""), group("Traces", "trace"), group("Scripts: each task has its calls, and you say who goes next", "script"));
}

function listenToPage() {
  $("example").onchange = () => {
    stop();
    if ($("example").value) chooseExample($("example").value);
    else showExample("");
  };
  $("clear").onclick = () => change(1, [], 0);
  $("script").onclick = () => takeScript(linesOf(scriptText()), "");
  $("ask").onclick = () => showHelp($("help").hidden);
  KEYS["?"] = $("ask").onclick;
  document.addEventListener("keydown", pressMore);
  document.addEventListener("keydown", (event) => event.key === "Escape" && !$("help").hidden && showHelp(false));
  // (a button that is off isn't disabled, so that the keyboard stays where it is)
  document.addEventListener("click", (event) => {
    freshen(event.target);
    if (!event.target.closest('[aria-disabled="true"]')) return;
    event.preventDefault();
    event.stopImmediatePropagation();
  }, true);
  // (where the browser has no memory left, for one; that what has another size is looked at a frame later is no error)
  window.addEventListener("error", ({ message }) => {
    if (message.startsWith("ResizeObserver loop")) return;
    $("fault").hidden = false;
    $("fault").textContent = message;
  });
}

function complain(why) {
  const missing = $("missing");
  missing.hidden = false;
  const from = "Chrome and Edge have from version 133 on, and Firefox from 134 on";
  missing.textContent = `${why} The page needs WebAssembly with a memory of 64 bits (memory64), which ${from}.`;
}

async function begins() {
  showOrigin();
  if (!WebAssembly.validate(MEMORY64)) return complain("This browser can't run this page.");
  try {
    wasmBytes = bytesOf(data.wasm);
    library = await Library.of(wasmBytes, data.header);
  } catch (error) {
    return complain(`This browser refused the module: ${error.message}.`);
  }
  words = new Words(data.header.numbers);
  showExamples();
  showGlossary();
  $("main").hidden = false;
  readColours(view);
  list = newRows($("lines"), LINE_HEIGHT, fillLine, (place) => {
    stop();
    go(Math.min(place, trace.count));
  });
  new IntersectionObserver(noteTasks, { rootMargin: NEAR }).observe($("tasks-part"));
  firstPicked = -1;
  Object.assign(hooks, { picks: (place) => { stop(); go(place + 1); } });
  for (const it of [listenToPicture, listenToMoves, listenToForms, listenToTexts, listenToFiles, listenToBeside, listenToAsking, listenToFinding, listenToPage]) it();
  await followAddress();
  past = [];
  showPast();
  document.body.dataset.isReady = "true";
  return undefined;
}

begins();
