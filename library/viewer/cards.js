// A card for each task: its call, for whom it waits and since when, and what it may do next. Those in sight say at once what is so; the
// others follow once nothing else is asked for, or when they are pressed.

// so many new cards are shown at once wherever they stand: of these the browser says only later whether they are in sight
const FIRST_CARDS = 12;
// cards so near to what is in sight are as good as in sight
const NEAR = "100px";
// the others follow when nothing else is asked for so many milliseconds, so many at once
const FOLLOWING = 150;
const SLICE = 8;

const cards = new Map();
/** All tasks' numbers at the shown moment, and by task those that wait for it. */
let standing = { tasks: new Map(), heldBack: new Map() };
/** The tasks whose cards are in sight, and those whose cards don't say yet what is so. */
const seen = new Set();
const stale = new Set();
let following = 0;
const sight = new IntersectionObserver(noteSight, { rootMargin: NEAR });

function button(text, does, properties = {}) {
  return element("button", { type: "button", textContent: text, onclick: does, ...properties });
}

/** A button that is off stays where it is for the keyboard, and does nothing. */
function setOff(it, isOff) {
  if (isOff) it.setAttribute("aria-disabled", "true");
  else it.removeAttribute("aria-disabled");
}

/** As `plural`; of most numbers sooner, which have no separator. */
const counted = (count, word) => (count < 1000 ? `${count} ${word}${count === 1 ? "" : "s"}` : plural(count, word));

// ---- what a card is made of

const TURNS = {
  step: "Its call makes one step",
  deny: "Its call makes one step, and memory that the step wants is refused, as if the kernel had none",
  kill: "It is killed: its call notices at the next step that looks for signals",
};

/** A card, which is empty until it is shown. */
function cardOf(task) {
  const root = element("article", { className: "task" });
  root.setAttribute("aria-label", `Task ${task}`);
  root.dataset.task = task;
  sight.observe(root);
  return { root, key: "", isNew: true };
}

function fillCard(card, task) {
  Object.assign(card, {
    life: element("span"),
    call: element("p", { className: "call" }),
    waits: element("p", { className: "waits" }),
    linux: element("p", { className: "linux soft" }),
    blocks: element("p", { className: "blocks soft" }),
    held: element("p", { className: "soft" }),
    next: button("", () => append(nextOf(task).begin), { className: "go" }),
  });
  for (const [kind, title] of Object.entries(TURNS)) {
    card[kind] = button(kind, () => append(`${kind} ${task}`), { className: { step: "go", kill: "kill" }[kind] ?? "", title });
    card[kind].setAttribute("aria-label", `${kind} task ${task}`);
  }
  const title = element("h3", {}, `Task ${task}`, card.life);
  const buttons = element("div", { className: "buttons" }, card.step, card.deny, card.kill, card.next);
  card.root.append(title, card.call, card.linux, card.waits, card.blocks, card.held, buttons);
}

// ---- what it says

/** How many begins of the task came before the shown moment. */
const begunBy = (task) => countBelow(trace.begins.get(task) ?? [], at);

/** The call that a script has the task begin next, if there is one. */
function nextOf(task) {
  return script.calls.get(task)?.[begunBy(task)];
}

/** The first thing that a call waits for by its script, if there is one left: the end of so many calls of a task. */
function leftOf(next, tasks) {
  return next.waits.find(({ task, count }) => {
    const { life, phase } = tasks.get(task) ?? { life: library.numbers.LIFE_DEAD };
    const isInCall = phase !== library.numbers.PHASE_NONE;
    return life !== library.numbers.LIFE_DEAD && begunBy(task) < count + (isInCall ? 1 : 0);
  });
}

/** The call that the task began last, in words. */
function callOf(task) {
  const places = trace.begins.get(task) ?? [];
  for (let it = begunBy(task) - 1; it >= 0; it--) {
    if (trace.outcomes[places[it]] === "begun") return trace.lines[places[it] + 1].split(" ").slice(2).join(" ");
  }
  return "";
}

function wantedBy(task) {
  const { kind, file, index } = library.acquires(task);
  return kind === library.numbers.ACQUIRES_LOCK ? `lock of file ${file}` : `slot of index ${index} of file ${file}`;
}

/** Whom a task waits for, whom that one waits for, and so on: it ends at a call that goes on. */
function chainOf(task, tasks) {
  const parts = [];
  for (let it = task; tasks.get(it).is_blocked; it = tasks.get(it).holder) parts.push(`waits for task ${tasks.get(it).holder}: ${wantedBy(it)}`);
  return parts.join("; which ");
}

/** The event since which the task waits; undefined where the picture doesn't say. */
function sinceOf(task) {
  const lane = view.run.laneOf.get(task);
  return lane && waitAt(view.run, lane, at - 1)?.since;
}

const linuxOf = (call, word) => functionOf(view.run, call.split(" ", 1)[0], word) || data.linux[word];

/** All that a card says. */
function saidOf(task, { tasks, heldBack }) {
  const { life, phase, is_blocked, mappings, entries } = tasks.get(task);
  const isInCall = phase !== library.numbers.PHASE_NONE;
  const isDead = life === library.numbers.LIFE_DEAD;
  const call = isInCall ? callOf(task) : "";
  const next = isInCall || isDead ? undefined : nextOf(task);
  return {
    life, phase, is_blocked, mappings, entries, isInCall, isDead, call,
    begin: next?.begin,
    left: next && leftOf(next, tasks),
    linux: isInCall && !is_blocked ? linuxOf(call, words.phases[phase]) : "",
    chain: is_blocked ? chainOf(task, tasks) : "",
    since: is_blocked ? sinceOf(task) : undefined,
    blocked: heldBack.get(task) ?? [],
  };
}

function showCall(card, { phase, call, linux, isInCall }) {
  const word = words.phases[phase];
  card.call.replaceChildren(...(isInCall ? [`${call} in `, element("b", { textContent: word, title: PHASES[word] })] : ["no call in flight"]));
  setText(card.linux, linux && `next: ${PHASES[word]} (Linux: ${linux})`);
  card.linux.hidden = linux === "";
}

function showWaits(card, { is_blocked, chain, since, blocked }) {
  const link = (to) => button(`line ${lineOf(to)}`, () => pick(to), { className: "link", title: "Shows the moment behind that line" });
  card.waits.replaceChildren(chain, ...(since === undefined ? [] : [", since ", link(since)]));
  card.waits.hidden = !is_blocked;
  const named = `task${blocked.length === 1 ? "" : "s"} ${blocked.join(", ")}`;
  setText(card.blocks, `holds back ${blocked.length > FEW_WAITS ? `${blocked.length} tasks` : named}`);
  card.blocks.hidden = blocked.length === 0;
}

function showNext(card, { begin, left }) {
  card.step.hidden = card.deny.hidden = begin !== undefined;
  setText(card.next, begin ?? "");
  card.next.hidden = begin === undefined;
  const due = left && `The script begins it once ${plural(left.count, "call")} of task ${left.task} ended`;
  card.next.title = due ?? "The task's next call by the script";
  setOff(card.next, left !== undefined);
}

/** Has a card say what is so now; one that says so already is left alone, since the browser would lay it out anew. */
function showCard(task) {
  stale.delete(task);
  const card = cards.get(task);
  const said = saidOf(task, standing);
  const key = JSON.stringify(said);
  if (card.key === key) return;
  if (card.key === "") fillCard(card, task);
  card.key = key;
  const { life, is_blocked, mappings, entries, isInCall, isDead } = said;
  card.root.className = `task${is_blocked ? " is-blocked" : ""}${isDead ? " is-dead" : ""}`;
  setText(card.life, words.lives[life]);
  card.life.className = words.lives[life];
  showCall(card, said);
  showWaits(card, said);
  setText(card.held, `${counted(mappings, "mapping")}, ${counted(entries, "translated page")}`);
  for (const it of [card.step, card.deny]) setOff(it, !isInCall || is_blocked);
  setOff(card.kill, life !== library.numbers.LIFE_ALIVE);
  showNext(card, said);
}

// ---- which are shown at once

/** The cards of these tasks, of which those in sight say what is so now. */
function showCards(numbers) {
  return numbers.map((task, place) => {
    if (!cards.has(task)) cards.set(task, cardOf(task));
    const { root, isNew } = cards.get(task);
    if (seen.has(task) || (isNew && place < FIRST_CARDS)) showCard(task);
    else stale.add(task);
    return root;
  });
}

/** Shows cards that come into sight. */
function noteSight(entries) {
  for (const { target, isIntersecting } of entries) {
    const task = Number(target.dataset.task);
    cards.get(task).isNew = false;
    if (!isIntersecting) seen.delete(task);
    else seen.add(task);
    if (isIntersecting && stale.has(task) && library.run) showCard(task);
  }
}

/** Puts the cards into their places, or has some of them say what is so now; the others a moment later. */
function followCards() {
  if (library.run && !areLaid) layTasks();
  else if (library.run) for (const task of [...stale].slice(0, SLICE)) showCard(task);
  followSoon(0);
}

/** Has what is out of sight follow after so many milliseconds. */
function followSoon(pause = FOLLOWING) {
  clearTimeout(following);
  if (library.run && (stale.size > 0 || !areLaid)) following = setTimeout(followCards, pause);
}

/** A card that is pressed out of sight, by its name, says first what is so. */
function freshen(pressed) {
  const task = Number(pressed.closest(".task")?.dataset.task ?? 0);
  if (stale.has(task) && library.run) showCard(task);
}
