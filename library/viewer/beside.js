// Two runs side by side: one that was kept, and the one that is shown, line by line, from where they part.

/** The kept run, or null. */
let kept = null;
let besideList;

function keepRun() {
  kept = { lines: [...trace.lines], outcomes: [...trace.outcomes] };
  showBeside();
  markRow(besideList, at);
  $("beside").scrollIntoView({ block: "nearest" });
}

/** The place of the first line that differs; as many as the shorter run has, where none does. */
function partingOf(one, other) {
  const most = Math.min(one.length, other.length);
  let place = 0;
  while (place < most && one[place] === other[place]) place++;
  return place;
}

function partingWords(place) {
  if (place === kept.lines.length && place === trace.lines.length) return "The two runs are one.";
  if (place === 0) return "The runs are of different pools.";
  return `The runs are one up to line ${place}, and part behind it.`;
}

function fillBeside(row, place) {
  const cells = [kept, trace].flatMap(({ lines, outcomes }) => [lines[place] ?? "", outcomes[place - 1] ?? ""]);
  const className = kept.lines[place] === trace.lines[place] ? "row" : "row differs";
  Object.assign(row, { className, role: "option", title: cells.join("\n") });
  setCells(row, "span", [place + 1, ...cells]);
}

/** Shows the runs once more, after one of them changed. */
function showBeside() {
  $("beside").hidden = kept === null;
  if (kept === null || !library.run) return;
  const place = partingOf(kept.lines, trace.lines);
  $("parting").textContent = partingWords(place);
  setRows(besideList, Math.max(kept.lines.length, trace.lines.length));
  scrollRows(besideList, (place - 3) * LINE_HEIGHT);
}

function listenToBeside() {
  besideList = newRows($("beside-lines"), LINE_HEIGHT, fillBeside, (place) => {
    stop();
    go(Math.min(place, trace.count));
  });
  $("keep").onclick = keepRun;
  $("forget").onclick = () => {
    kept = null;
    showBeside();
    $("keep").focus();
  };
}
