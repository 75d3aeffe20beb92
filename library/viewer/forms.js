// Calls that somebody begins, and a pool that is resized.

// numbers as a trace has them: no sign, no zero in front, no exponent
const NUMBER = "0|[1-9][0-9]{0,19}";
const MOST_NUMBER = 4_294_967_295n;
const MOST_WORD = 18_446_744_073_709_551_615n;

let isResizeTyped = false;

/** A field for a number; what is wrong with it is said where it stands. */
function numberField(name, value, most) {
  const field = element("input", { name, value, required: true, type: "text", inputMode: "numeric", size: most === MOST_WORD ? 12 : 6, pattern: NUMBER });
  field.oninput = () => checkField(field, most);
  return field;
}

function checkField(field, most) {
  const isNumber = new RegExp(`^(?:${NUMBER})$`).test(field.value);
  const isLarge = isNumber && BigInt(field.value) > most;
  field.setCustomValidity(isLarge ? `at most ${most}` : isNumber ? "" : "a whole number, without a sign, zeros in front or an exponent");
}

function showBeginTasks(count) {
  const select = $("begin-task");
  if (select.options.length !== count) select.replaceChildren(...Array.from({ length: count }, (_, place) => new Option(place + 1)));
}

function showBeginNumbers() {
  const fields = CALLS[$("begin-call").value].map((name) => {
    const field = numberField(name, name === "len" ? "1" : "0", name === "word" ? MOST_WORD : MOST_NUMBER);
    return element("label", {}, `${name} `, field);
  });
  $("begin-numbers").replaceChildren(...fields);
}

function beginCall(event) {
  event.preventDefault();
  const numbers = [...$("begin-numbers").querySelectorAll("input")].map((it) => it.value);
  append(["begin", $("begin-task").value, $("begin-call").value, ...numbers].join(" "));
}

/** The pool's frames stand in the field, until somebody types there. */
function showResize({ frames }) {
  if (!isResizeTyped) $("resize-frames").value = frames;
}

function resize(event) {
  event.preventDefault();
  isResizeTyped = false;
  append(`resize ${$("resize-frames").value}`);
}

function listenToForms() {
  $("begin-call").append(...Object.keys(CALLS).map((it) => new Option(it)));
  showBeginNumbers();
  $("begin").onsubmit = beginCall;
  $("begin-call").onchange = showBeginNumbers;
  $("resize-field").append(numberField("frames", "", MOST_NUMBER));
  $("resize-field").lastChild.id = "resize-frames";
  $("resize-field").addEventListener("input", () => { isResizeTyped = true; });
  $("resize").onsubmit = resize;
}
