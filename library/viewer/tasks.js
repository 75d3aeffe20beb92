// The tasks of the pool: their cards, those that are alike folded into a line, and the turns that may come next.

// in pools with more tasks than these, those that wait for one thing are folded, and those that do nothing
const FEW_TASKS = 6;

/** Each fold of tasks that are alike, by what they are alike by. */
const folds = new Map();
/** Whether any of the tasks is in sight, and whether cards and folds are those of the shown moment. */
let areInSight = true;
let areLaid = true;

/** All tasks of the pool, by their numbers. */
function allTasks() {
  const { tasks } = library.poolNumbers();
  return new Map(Array.from({ length: tasks }, (_, place) => [place + 1, library.task(place + 1)]));
}

/** Puts a value behind those of its key. */
function putBehind(lists, key, value) {
  if (lists.has(key)) lists.get(key).push(value);
  else lists.set(key, [value]);
}

/** By task, those that wait for it. */
function heldBackOf(tasks) {
  const heldBack = new Map();
  for (const [task, { is_blocked, holder }] of tasks) if (is_blocked) putBehind(heldBack, holder, task);
  return heldBack;
}

// ---- folds

/** What a task that waits, or that does nothing, is alike by; nothing of another one. */
function alikeBy(task, { life, phase, is_blocked, holder, mappings, entries }) {
  const { LIFE_DEAD, PHASE_NONE } = library.numbers;
  if (is_blocked) return `${holder} ${wantedBy(task)}`;
  if (life === LIFE_DEAD) return "dead";
  return phase !== PHASE_NONE || nextOf(task) ? "" : [life, mappings, entries].join();
}

/** What all tasks of a fold do, as this one does. */
function alikeWords(task) {
  const { life, is_blocked, holder, mappings, entries } = standing.tasks.get(task);
  const { LIFE_ALIVE, LIFE_DEAD } = library.numbers;
  if (is_blocked) return `wait for task ${holder}: ${wantedBy(task)}`;
  if (life === LIFE_DEAD) return "dead";
  const has = `${counted(mappings, "mapping")} and ${counted(entries, "translated page")}`;
  return `idle${life === LIFE_ALIVE ? "" : " and killed"}, with ${has}${mappings + entries > 0 ? " each" : ""}`;
}

/** The tasks that are folded, by what they are alike by. */
function foldedOf(tasks) {
  const groups = new Map();
  if (tasks.size > FEW_TASKS) for (const [task, numbers] of tasks) putBehind(groups, alikeBy(task, numbers), task);
  groups.delete("");
  return new Map([...groups].filter(([, list]) => list.length > FEW_WAITS));
}

function foldOf() {
  const parts = { summary: element("summary"), inside: element("div", { className: "tasks" }), list: [] };
  parts.root = element("details", { className: "fold", ontoggle: () => library.run && showTasks(true) }, parts.summary, parts.inside);
  return parts;
}

/** Puts elements into a place, and moves none that stays there. */
function put(place, elements) {
  const wanted = new Set(elements);
  for (const it of [...place.children]) if (!wanted.has(it)) it.remove();
  let next = place.firstChild;
  for (const it of elements) {
    if (it === next) next = next.nextSibling;
    else place.insertBefore(it, next);
  }
}

function showFold(key, list) {
  if (!folds.has(key)) folds.set(key, foldOf());
  const fold = folds.get(key);
  fold.list = list;
  setText(fold.summary, `${list.length} ${alikeWords(list[0])}`);
  fold.root.classList.toggle("is-waiting", standing.tasks.get(list[0]).is_blocked);
  put(fold.inside, fold.root.open ? showCards(list) : []);
  return fold.root;
}

// ---- all of them

/** The keyboard stays in the card where it was; where that is folded away, at its line. */
function keepKeyboard(had, task) {
  if (task === 0 || document.activeElement === had) return;
  const { root, step, next } = cards.get(task);
  const fold = [...folds.values()].find((it) => it.root.isConnected && it.list.includes(task));
  if (had.isConnected) had.focus({ preventScroll: true });
  else if (root.isConnected) (step.hidden ? next : step).focus({ preventScroll: true });
  else fold?.summary.focus({ preventScroll: true });
}

/** Puts the cards and the folds of the shown moment into their places. */
function layTasks() {
  const had = document.activeElement;
  const task = Number(had?.closest(".task")?.dataset.task ?? 0);
  const { tasks } = standing;
  const groups = foldedOf(tasks);
  const folded = new Set([...groups.values()].flat());
  stale.clear();
  areLaid = true;
  put($("tasks"), showCards([...tasks.keys()].filter((it) => !folded.has(it))));
  put($("folds"), [...groups].map(([key, list]) => showFold(key, list)));
  keepKeyboard(had, task);
}

/** All tasks are out of sight: they follow, since browsers take long for cards that come and go. */
function leaveTasks() {
  areLaid = false;
  stale.clear();
  for (const task of standing.tasks.keys()) if (cards.has(task)) stale.add(task);
}

/** Shows all tasks, at once where any may be in sight: of another trace the browser says only later where they stand. */
function showTasks(isOther = false) {
  const tasks = allTasks();
  standing = { tasks, heldBack: heldBackOf(tasks) };
  if (areInSight || isOther) layTasks();
  else leaveTasks();
  followSoon();
  const behind = trace.lines.length - at - 1;
  $("replaces").hidden = behind === 0;
  setText($("replaces"), `A turn here replaces the ${plural(behind, "line")} behind this moment.`);
  setOff($("chance"), turnsOf(tasks).length === 0);
}

/** Shows the tasks when they come into sight; as long as there is no run they are hidden, and may stand anywhere when there is one. */
function noteTasks(entries) {
  areInSight = entries.at(-1).isIntersecting || !library.run;
  if (areInSight && !areLaid && library.run) layTasks();
}

// ---- turns

/** The events that may come next of tasks that aren't blocked. */
function turnsOf(tasks) {
  return [...tasks].flatMap(([task, { life, phase, is_blocked }]) => {
    if (phase !== library.numbers.PHASE_NONE) return is_blocked ? [] : [`step ${task}`];
    const next = life === library.numbers.LIFE_DEAD ? undefined : nextOf(task);
    return next === undefined || leftOf(next, tasks) ? [] : [next.begin];
  });
}

function takeChance() {
  const found = turnsOf(allTasks());
  append(found[Math.floor(Math.random() * found.length)]);
}
