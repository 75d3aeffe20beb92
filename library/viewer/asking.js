// What a run is searched for: conditions, typed or picked, and numbers.

// what is typed is read once no key is pressed for so many milliseconds
const READING = 200;
const MOST_STATES = 100_000_000n;
// calls can be picked up to that number
const MOST_CALLS = 100;

/** The word of the condition that the form adds. */
let wordAdded = "answer";
/** For what the form has its fields: they are made anew where that is another. */
let shownFields = "";
let reading = 0;
let showing = 0;

// ---- what is asked for

/** The lines that say something, each with its number in the field. */
function conditionLines() {
  const lines = linesOf($("conditions").value).map((it, place) => ({ line: it.trim(), number: place + 1 }));
  return lines.filter(({ line }) => line !== "");
}

const conditionTexts = () => conditionLines().map(({ line }) => line);

/** The first line that is no condition is told, with what it may be; whether there is none. */
function readConditions(isAsked) {
  const lines = conditionLines();
  const bad = library.wrongCondition(textOf(conditionTexts()));
  const wrong = bad === null || (bad === 0 && !isAsked) ? null : (lines[bad - 1] ?? { line: "", number: 0 });
  $("condition-fault").hidden = wrong === null;
  $("condition-fault").textContent = wrong ? wrongWords(wrong, bad > MOST_CONDITIONS) : "";
  $("conditions").setAttribute("aria-invalid", `${wrong !== null}`);
  showSearches();
  if (isAsked && wrong) pickLine(wrong);
  return bad === null;
}

/** A line is picked in its field. */
function pickLine({ number }) {
  const lines = linesOf($("conditions").value);
  const from = textOf(lines.slice(0, Math.max(0, number - 1))).length;
  $("conditions").focus();
  $("conditions").setSelectionRange(from, from + (lines[number - 1]?.length ?? 0));
}

function readSoon() {
  clearTimeout(reading);
  reading = setTimeout(() => readConditions(false), READING);
}

function setConditions(lines) {
  $("conditions").value = lines.join("\n");
  readConditions(false);
}

// what can be set beside conditions, with what stands there at first and what a number may be, and for whom
const NUMBERS = {
  seed: ["1", MOST_WORD, "random", "Run 0 goes by the generator of this seed, the next run by that of the next seed"],
  runs: ["65536", MOST_NUMBER, "random", "So many runs are made, at most"],
  deny: ["0", 1000n, "random", "The chance in 1000 that an allocation of memory fails"],
  kill: ["0", 1000n, "random", "The chance in 1000 that a turn kills its task"],
  denials: ["0", 1000n, "every", "So many allocations of memory fail in a schedule, at most"],
  kills: ["0", 64n, "every", "So many tasks are killed in a schedule, at most"],
  states: ["1000000", MOST_STATES, "every", "So many states are kept at once, at most; some 500 bytes each"],
};

function showNumbers() {
  for (const [name, [value, most, group, title]] of Object.entries(NUMBERS)) {
    const field = numberField(name, value, most);
    Object.assign(field, { id: `search-${name}`, title });
    field.addEventListener("input", showSearches);
    $(`search-${group}`).append(element("label", { title }, `${name} `, field));
  }
}

/** The numbers as they stand in their fields; none if one of them can't be. */
function numbersAsked() {
  const fields = Object.keys(NUMBERS).map((it) => $(`search-${it}`));
  const wrong = fields.find((it) => !it.checkValidity());
  if (wrong) $("search-numbers").open = true;
  if (wrong) wrong.reportValidity();
  return wrong ? null : Object.fromEntries(fields.map((it) => [it.name, it.name === "seed" ? BigInt(it.value) : Number(it.value)]));
}

// ---- a condition that is picked

const option = (value, title = "", text = value) => Object.assign(new Option(text, value), { title });

function choice(name, label, title, ...groups) {
  const select = element("select", { name, title });
  for (const it of groups) select.append(...(Array.isArray(it) ? it : [it]));
  return element("label", { title }, `${label} `, select);
}

const described = (table) => Object.entries(table).map(([word, means]) => option(word, means));

function groupOf(label, options) {
  const made = element("optgroup", { label });
  made.append(...options);
  return made;
}

const numbersFrom = (count, any = []) => [...any, ...Array.from({ length: count }, (_, place) => option(place + 1))];

/** What the fields depend on: the pool's tasks and files, and how many calls a task has, at most. */
function asksAbout() {
  const { tasks = 1, files = 1 } = library.run?.config ?? {};
  const lists = [...trace.begins.values(), ...script.calls.values()];
  return { tasks, files, calls: Math.max(1, ...lists.map((it) => it.length)) };
}

const callChoices = ({ calls }) => [
  option("*", "any call"), groupOf("by name", Object.keys(CALLS).map((it) => option(it))), groupOf("by number", numbersFrom(Math.min(calls, MOST_CALLS))),
];

const countChoices = ({ files }) => Object.entries(COUNTS).flatMap(([word, means]) => (["reserved", "pages"].includes(word)
  ? Array.from({ length: files }, (_, file) => option(`${word}:${file}`, `${means}: file ${file}`)) : [option(word, means)]));

const anyTask = ({ tasks }) => choice("task", "task", PARTS.T, numbersFrom(tasks, [option("*", "any task")]));
const countParts = (about) => [
  choice("count", "count", PARTS.COUNT, countChoices(about)),
  choice("sign", "", PARTS["="], SIGNS.map((it) => option(it))),
  element("label", { title: "A whole number" }, element("span", { className: "hears", textContent: "number" }), numberField("number", "0", MOST_NUMBER)),
];
const answerParts = (about) => [
  anyTask(about),
  choice("call", "call", PARTS.K, ...callChoices(about)),
  choice("answer", "ends", PARTS.WORD, groupOf("Linux's", described(ERRORS)), groupOf("answers", described(ANSWERS))),
];
const phaseParts = ({ tasks }, task, phase, label) => [choice(task, label, PARTS.U, numbersFrom(tasks)), choice(phase, "in", PARTS.P, described(PHASES))];
const FIELDS = {
  answer: answerParts,
  at: (about) => [...answerParts(about), ...countParts(about)],
  blocked: (about) => [anyTask(about)],
  meet: (about) => [...phaseParts(about, "task", "phase", "task"), ...phaseParts(about, "other", "otherPhase", "and task")],
  final: countParts,
  rest: () => [],
  anywhere: () => [],
};

/** Shows the fields of the condition that the form adds. */
function showCondition() {
  const about = asksAbout();
  const key = JSON.stringify([wordAdded, about]);
  if (key === shownFields) return;
  shownFields = key;
  for (const it of $("condition-words").children) it.setAttribute("aria-pressed", `${it.textContent === wordAdded}`);
  const fields = FIELDS[wordAdded](about);
  $("condition-fields").replaceChildren(...fields);
  const second = $("condition-fields").querySelector("[name=other]");
  if (second) second.selectedIndex = Math.min(1, second.options.length - 1);
  $("condition-not").closest("label").hidden = fields.length === 0;
  $("condition-means").textContent = `${wordAdded}: ${CONDITIONS[wordAdded].means}.`;
}

/** Has the fields follow the trace once nothing else is asked for: they have hundreds of choices, and nobody looks at them meanwhile. */
function showConditionSoon() {
  clearTimeout(showing);
  showing = setTimeout(showCondition, READING);
}

function addCondition(event) {
  event.preventDefault();
  const parts = Object.fromEntries([...$("condition-fields").querySelectorAll("select, input")].map((it) => [it.name, it.value]));
  setConditions([...conditionTexts(), conditionOf(wordAdded, $("condition-not").checked, parts)]);
  $("condition-not").checked = false;
}

function showWords() {
  const title = (it) => `${it} ${CONDITIONS[it].form}: ${CONDITIONS[it].means}`;
  $("condition-words").append(...Object.keys(CONDITIONS).map((it) => button(it, () => {
    wordAdded = it;
    showCondition();
  }, { title: title(it) })));
  $("condition-parts").append(...Object.entries(CONDITIONS).flatMap(([it, { form, means }]) => definition(`${it} ${form}`, means, "")),
    ...Object.entries(PARTS).flatMap(([it, means]) => definition(it, means, "")),
    ...Object.entries({ ...ERRORS, ...ANSWERS }).flatMap(([it, means]) => definition(it, means, "")));
  $("condition-example").append(new Option("an example", ""), ...Object.entries(ASKED).map(([line, means]) => option(line, line, means)));
}

function listenToAsking() {
  showWords();
  showNumbers();
  $("conditions").oninput = readSoon;
  $("conditions").onkeydown = (event) => event.key === "Enter" && event.ctrlKey && beginSearch("find");
  $("condition").onsubmit = addCondition;
  $("condition-example").onchange = () => {
    setConditions([$("condition-example").value]);
    $("condition-example").value = "";
  };
}
