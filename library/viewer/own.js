// The trace that is shown: its lines, what came of each event, and how it is changed, undone and done again.

// a longer trace is for the program, which takes a million events
const MOST_EVENTS = 20_000;
// so many changes can be undone, and no more than have so many lines
const MOST_PAST = 1000;
const MOST_PAST_LINES = 400_000;

let library, words;
/** The lines, what came of each event, how many events were made, the first bad line, and the places of each task's begins. */
const trace = { lines: [], outcomes: [], count: 0, fault: null, begins: new Map() };
/** How many events the shown moment is behind. */
let at = 0;
/** The example that is shown; none where the lines are somebody's own. */
let example = "";
/** The script that is played: its lines behind the header, and the calls that it has each task begin; none of either where there is none. */
let script = scriptOf([]);
let past = [];
let future = [];

// ---- reading

/** The first line that isn't allowed, and why, or null. */
function faultOf(lines) {
  if (lines.length <= MOST_EVENTS + 1) return library.fault(textOf(lines));
  return { line: 0, isHeader: false, why: `This page takes ${MOST_EVENTS.toLocaleString("en")} events, and the program takes 1,000,000.` };
}

/** Nothing is shown of lines that begin with no header, or are too many. */
function closeTrace(fault) {
  library.end();
  forgetDrawn(0);
  trace.begins.clear();
  Object.assign(trace, { outcomes: [], count: 0, fault });
}

/** Keeps of each task where its begins are. */
function noteBegins(keep) {
  const { lines, count, begins } = trace;
  for (const places of begins.values()) places.length = countBelow(places, keep);
  for (let place = keep; place < count; place++) {
    const line = lines[place + 1];
    if (line.startsWith("begin ")) putBehind(begins, Number(line.split(" ", 2)[1]), place);
  }
}

/** What was made of all events behind so many; null where not all lines are allowed. */
function madeBehind(keep) {
  if (!library.run || trace.fault) return null;
  return { keep, events: library.eventsBehind(keep), outcomes: trace.outcomes.slice(keep) };
}

/** Makes the events of the lines behind so many that are as they were, or puts back what was made of them. */
function makeEvents(keep, count, made) {
  const { lines, outcomes } = trace;
  if (keep === 0) library.begin(configOf(lines[0]));
  outcomes.length = keep;
  if (made) {
    library.putBack(keep, made.events);
    for (const it of made.outcomes) outcomes.push(it);
    return;
  }
  const events = lines.slice(keep + 1, count + 1).map((it) => words.event(it));
  for (const outcome of library.extend(keep, events)) outcomes.push(words.outcome(outcome));
}

/** Runs the lines, of which so many are as they were. Lines that are known to be allowed aren't checked, and those of which it is known what
 *  was made of them aren't made once more. */
function readLines(kept, { areAllowed = false, made = null }) {
  const { lines } = trace;
  const fault = areAllowed || made ? null : faultOf(lines);
  if (fault && (fault.isHeader || fault.line === 0)) return closeTrace(fault);
  const count = fault ? fault.line - 2 : lines.length - 1;
  const keep = library.run ? Math.max(0, Math.min(kept - 1, trace.count, count)) : 0;
  try {
    makeEvents(keep, count, made?.keep === keep ? made : null);
    Object.assign(trace, { count, fault });
    noteBegins(keep);
    followEvents(Math.min(keep, drawn));
  } catch (error) {
    closeTrace({ line: 0, isHeader: false, why: error.message });
  }
  return undefined;
}

// ---- changing

/** Has these lines behind so many that stay, and shows the moment behind so many events; the lines that went, with what was made of them. */
function replaceLines(kept, part, place) {
  const made = madeBehind(Math.max(0, kept - 1));
  const removed = { lines: trace.lines.splice(kept), made };
  for (const it of part.lines) trace.lines.push(it);
  readLines(kept, part);
  at = Math.min(place, trace.count);
  if (library.run) library.go(at);
  showTrace(kept);
  return removed;
}

/** What a change is of, besides lines. */
const surroundings = () => ({ at, script, example });

function surround(by) {
  ({ script } = by);
  showExample(by.example);
}

/** Changes the trace so that it can be undone; `by` are the script and the example that are shown then, and whether the lines are allowed. */
function change(kept, lines, place, by = {}) {
  const before = surroundings();
  surround({ ...before, ...by });
  const more = { lines, areAllowed: by.areAllowed };
  const removed = replaceLines(kept, more, place);
  past.push({ kept, removed, more, before, after: surroundings() });
  future = [];
  const size = () => past.reduce((sum, it) => sum + it.removed.lines.length + it.more.lines.length, 0);
  while (past.length > MOST_PAST || (past.length > 1 && size() > MOST_PAST_LINES)) past.shift();
  showPast();
}

/** Takes the last change of a list, has the lines and the surroundings that it has by these names, in place of its other lines, and keeps it
 *  in the other list. */
function shift(from, to, part, other, when) {
  const last = from.pop();
  if (!last) return;
  surround(last[when]);
  last[other] = replaceLines(last.kept, last[part], last[when].at);
  to.push(last);
  showPast();
}

const undo = () => shift(past, future, "removed", "more", "before");
const redo = () => shift(future, past, "more", "removed", "after");

/** An event behind the moment that is shown; it replaces what came there. (what buttons and fields make is allowed in any trace) */
function append(event) {
  const by = script.lines.length === 0 ? { example: "" } : {};
  if (at < MOST_EVENTS) change(at + 1, [event], at + 1, { ...by, areAllowed: true });
  else tell(`This page takes ${MOST_EVENTS.toLocaleString("en")} events: there is room for no other.`);
}

// ---- whole traces

/** A script of the lines that are begins and what these wait for. A task's calls are begun in their order, when somebody says so; each of
 *  them may wait for the end of so many calls of other tasks. */
function scriptOf(lines) {
  const made = { lines: lines.filter((it) => /^(begin|after) /.test(it)), calls: new Map() };
  let waits = [];
  for (const it of made.lines) {
    const task = Number(it.split(" ", 2)[1]);
    if (!made.calls.has(task)) made.calls.set(task, []);
    const calls = made.calls.get(task);
    if (it.startsWith("after ")) waits.push({ task, count: calls.length });
    else {
      calls.push({ begin: it, waits });
      waits = [];
    }
  }
  return made;
}

/** The header of a trace, or of a script; of no line, an empty one. */
const headerOf = (kind, line = "") => line.replace(/^\w+/, kind);

/** Takes lines as a script, of which nothing has happened yet. */
function takeScript(lines, name) {
  change(0, [headerOf("pool", lines[0])], 0, { example: name, script: scriptOf(lines) });
}

/** An example, or a script of it. */
function chooseExample(name, place = Infinity) {
  const { kind, text } = data.examples.find((it) => it.name === name);
  if (kind === "script") takeScript(linesOf(text), name);
  else change(0, linesOf(text), place, { example: name, script: scriptOf([]) });
}

/** Lines that were found to be allowed, as long as they aren't too many for the page. */
const allowed = (lines) => ({ lines, why: "", areAllowed: lines.length <= MOST_EVENTS + 1 });

/** What a text asks for: the lines of a strict trace, and what is wrong with it. A text in the loose form is read up to its first wrong line. */
function readText(text) {
  const lines = linesOf(text);
  const fault = library.fault(textOf(lines));
  if (!fault) return allowed(lines);
  const loose = library.format(text);
  if (loose.text !== undefined) return allowed(linesOf(loose.text));
  // (what is wrong with a line of no form is shown with its row)
  if (loose.line === fault.line && loose.why.startsWith("is not")) return { lines, why: "" };
  const front = library.format(textOf(lines.slice(0, loose.line - 1)));
  return { lines: front.text === undefined ? [] : linesOf(front.text), why: `Line ${loose.line} ${loose.why}. The lines before it are shown.` };
}

/** Takes a text as a script whose calls wait: its begins are those of a trace. */
function takeWaits(lines) {
  const begins = lines.filter((it) => !it.startsWith("after "));
  const fault = library.fault(textOf([headerOf("pool", begins[0]), ...begins.slice(1)]));
  if (!fault) takeScript(lines, "");
  tell(fault ? `"${begins[fault.line - 1]}" is not allowed in a script: ${fault.why}` : "");
}

/** Takes a text as the trace, strict or loose, with the script that it is played of. */
function takeText(text, place = Infinity, by = scriptOf([])) {
  if (text.startsWith("script ")) return takeWaits(linesOf(text));
  const { lines, why, areAllowed } = readText(text);
  change(0, lines, place, { example: "", script: by, areAllowed });
  return tell(why);
}
