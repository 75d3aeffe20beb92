// The picture follows the trace: what the library tells of events is drawn, of a long run a little later.

// the rest of a long run is drawn when nothing else is asked for so many milliseconds, by so many events at once
const LATER = 120;
const DRAWN_AT_ONCE = 1000;

/** How many events the picture has, and when it is to have more. */
let drawn = 0;
let drawing = 0;
/** How often the trace was changed: what is told of it as it was before is dropped. */
let changes = 0;

/** Reads what is told of events that aren't drawn yet, so many at once, and then shows them. */
function readTold(run, lines, of = changes, from = 0) {
  if (of !== changes) return;
  const to = Math.min(from + DRAWN_AT_ONCE, lines.length);
  extendRun(run, drawn, lines.slice(from, to));
  drawn = run.count;
  if (to < lines.length) {
    drawing = setTimeout(() => readTold(run, lines, of, to));
    return;
  }
  showRun(run);
  show();
}

/** What is to be told of the events up to so many that aren't drawn yet. The library makes all events once more for it, and looks for whom
 *  each task waits. */
const drawnWords = (count) => [soFar(count), drawn + 2, count - drawn];

function drawRest() {
  const of = changes;
  tellOf("picture", "objects", drawnWords(trace.count), (told) => {
    if (of === changes) readTold(view.run, linesOf(told).slice(1));
  });
}

/** Draws the events behind so many that are drawn; of a long run a little later, so that a turn is there at once. */
function followEvents(keep) {
  forgetDrawn(keep);
  const run = keep === 0 ? readRun(library.objects(...drawnWords(0))) : view.run;
  if (isLong()) {
    extendRun(run, keep, []);
    showRun(run);
    drawing = setTimeout(drawRest, LATER);
  } else {
    extendRun(run, keep, linesOf(library.objects(...drawnWords(trace.count))).slice(1));
    drawn = trace.count;
    showRun(run);
  }
}

/** The trace was changed: nothing is drawn behind so many events. */
function forgetDrawn(keep) {
  clearTimeout(drawing);
  drawn = keep;
  changes++;
}
