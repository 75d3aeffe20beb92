// Moving through the run: the buttons, the slider, and playing at a speed.

let timer = 0;

const isPlaying = () => timer !== 0;

function go(place) {
  if (!library.run || place < 0 || place > trace.count || place === at) return;
  at = place;
  library.go(at);
  show();
}

function showMoves() {
  const [isFirst, isLast] = [!library.run || at === 0, !library.run || at === trace.count];
  for (const id of ["first", "back"]) setOff($(id), isFirst);
  for (const id of ["on", "last"]) setOff($(id), isLast);
  setOff($("play"), !library.run || trace.count === 0);
  const scrub = $("scrub");
  scrub.max = trace.count;
  scrub.value = at;
  scrub.setAttribute("aria-valuetext", `event ${at} of ${trace.count}`);
  $("place").textContent = `${at} of ${trace.count}`;
}

function stop() {
  if (!isPlaying()) return;
  clearInterval(timer);
  timer = 0;
  $("play").textContent = "play";
  $("play").setAttribute("aria-pressed", "false");
}

/** Moves on; where it plays fast, by several events at once. */
function tick(events) {
  go(Math.min(trace.count, at + events));
  if (at === trace.count) stop();
}

/** Plays from the shown moment on, or from the first one where it is the last; or stops. */
function play() {
  if (isPlaying()) return stop();
  if (at === trace.count) go(0);
  const speed = Number($("speed").value);
  const events = Math.max(1, Math.round(speed / 30));
  timer = setInterval(() => tick(events), (1000 * events) / speed);
  $("play").textContent = "pause";
  return $("play").setAttribute("aria-pressed", "true");
}

function listenToMoves() {
  const clicks = { first: () => go(0), back: () => go(at - 1), on: () => go(at + 1), last: () => go(trace.count), play, chance: takeChance, undo, redo };
  for (const [id, does] of Object.entries(clicks)) {
    $(id).onclick = () => {
      if (id !== "play") stop();
      does();
    };
  }
  $("scrub").oninput = () => {
    stop();
    go(Number($("scrub").value));
  };
  $("speed").onchange = () => {
    if (!isPlaying()) return;
    stop();
    play();
  };
}
