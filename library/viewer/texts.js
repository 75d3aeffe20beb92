// The explanation of the run: its rows in sight, and in words how the pool stands at the shown moment.

// texts follow when nothing else is asked for so many milliseconds
const PAUSE = 80;
const ROW_HEIGHT = 19;
// a line behind all lines
const LAST_LINE = 0xffffffff;

/** The rows of the run, and by its lines where their rows stand; of which change of the trace they are, and of which they are asked for. */
const told = { of: -1, askedOf: -1, lines: [], places: [] };
let explained, pause = 0;
let isInSight = false;

function fillExplained(row, place) {
  Object.assign(row, { className: "row", role: "listitem" });
  setText(row, told.lines[place]);
}

const soFar = (count) => textOf(trace.lines.slice(0, count + 1));

function takeRows(text) {
  Object.assign(told, { of: changes, lines: linesOf(text), places: [] });
  told.lines.forEach((words, place) => {
    const number = /^ *(\d+) /.exec(words)?.[1];
    if (number !== undefined) told.places[number] ??= place;
  });
  const widest = told.lines.reduce((most, it) => Math.max(most, it.length), 0);
  explained.room.style.minWidth = `${widest}ch`;
  setRows(explained, told.lines.length);
}

/** Marks the moment's row, where these are the run's rows. */
function markTexts() {
  if (told.of === changes) markRow(explained, at === 0 ? 0 : (told.places[at + 1] ?? 0));
}

function explain() {
  if (told.askedOf === changes) return;
  const of = (told.askedOf = changes);
  tellOf("rows", "text", ["explain_rows", soFar(trace.count), 2, LAST_LINE], (text) => {
    if (of !== changes) return;
    takeRows(text);
    markTexts();
  });
}

function showTexts() {
  if (!library.run || !isInSight) return;
  explain();
  markTexts();
  const [of, moment] = [changes, at];
  // (of one row and what stands below it)
  tellOf("standing", "text", ["explain_rows", soFar(at), at + 1, at + 1], (text) => {
    if (of === changes && moment === at) $("standing").textContent = text;
  });
}

/** Shows the texts once nothing else is asked for. */
function later() {
  clearTimeout(pause);
  pause = setTimeout(showTexts, PAUSE);
}

function listenToTexts() {
  explained = newRows($("explanation"), ROW_HEIGHT, fillExplained);
  new IntersectionObserver(([{ isIntersecting }]) => {
    isInSight = isIntersecting;
    if (isInSight) later();
  }).observe($("explanation-part"));
}
