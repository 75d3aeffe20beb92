// The trace as a text: typed, copied, opened, saved, and in an address.

// Firefox takes an address of so many characters; Chrome takes twice as many
const MOST_ADDRESS = 1_000_000;
// no trace of an address or a file has more bytes
const MOST_BYTES = 16_000_000;
const SAYING = 6000;
// the text follows in its field when nothing else is asked for so many milliseconds, and one more for so many lines
const PUTTING = 250;
const LINES_PUT = 10;

let typing = 0;
let putting = 0;
let saying = 0;
let isTextOld = true;

function say(text) {
  $("said").textContent = text;
  clearTimeout(saying);
  saying = setTimeout(() => ($("said").textContent = ""), SAYING);
}

/** What can't be done, or was read otherwise than it was asked for. */
function tell(why) {
  $("notice").hidden = why === "";
  $("notice").textContent = why;
}

// ---- typing

/** The text follows in its field once nothing else is asked for, since browsers take long for a long one, or when somebody types there; what
 *  is typed there stays as it is. */
function showText() {
  isTextOld = document.activeElement !== $("text");
  clearTimeout(putting);
  if (isTextOld && $("editing").open) putting = setTimeout(putText, PUTTING + trace.lines.length / LINES_PUT);
}

function putText() {
  if (isTextOld) $("text").value = textOf(trace.lines);
  isTextOld = false;
}

/** Takes what is typed once no key is pressed for a while, and what is pasted at once. */
function typed(event) {
  clearTimeout(typing);
  typing = setTimeout(() => takeText($("text").value), event.inputType === "insertFromPaste" ? 0 : 200);
}

async function copyText(text, done) {
  try {
    await navigator.clipboard.writeText(text);
    say(done);
  } catch {
    $("editing").open = true;
    clearTimeout(putting);
    isTextOld = false;
    $("text").value = text;
    $("text").select();
    say("It is selected in the field below: copy it from there.");
  }
}

// ---- files

async function openFile() {
  const [file] = $("file").files;
  $("file").value = "";
  if (!file) return;
  if (file.size > MOST_BYTES) return tell(`${file.name} has more than ${MOST_BYTES.toLocaleString("en")} bytes.`);
  takeText(await file.text());
}

function saveAs(name, text, type) {
  const to = element("a", { href: URL.createObjectURL(new Blob([text], { type })), download: name });
  to.click();
  setTimeout(() => URL.revokeObjectURL(to.href), 60_000);
}

const nameOf = (kind) => `${example || "own"}.${kind}`;

// ---- scripts

/** The pool and the calls alone: those of the script that is played, or the begins of the trace. */
function scriptText() {
  const { lines } = script.lines.length > 0 ? script : scriptOf(trace.lines.slice(0, trace.count + 1));
  const kind = lines.some((it) => it.startsWith("after ")) ? "script" : "pool";
  return textOf([headerOf(kind, trace.lines[0]), ...lines]);
}

// ---- addresses

/** What of the address leads to the trace: an example's name, or all of the trace, and behind an empty line the calls of its script. */
async function placeName() {
  if (script.lines.length > 0) return PACKED_SCRIPT + (await pack([textOf(trace.lines), textOf(script.lines)].join("\n")));
  return example || PACKED + (await pack(textOf(trace.lines)));
}

const addressOf = async () => `${location.href.split("#")[0]}#${await placeName()}@${at}`;

async function copyAddress() {
  const address = await addressOf();
  if (address.length > MOST_ADDRESS) {
    const [has, most] = [address.length, MOST_ADDRESS].map((it) => it.toLocaleString("en"));
    return tell(`The link would have ${has} characters, and browsers take ${most}: save a file instead.`);
  }
  history.replaceState(null, "", address);
  return copyText(address, "The link is copied; it also stands in the address.");
}

/** A trace of an address, and the script behind its empty line. */
async function takePacked({ packed, isScript, place }) {
  try {
    const text = await unpack(packed, MOST_BYTES);
    const end = isScript ? text.lastIndexOf("\n\n") + 1 : text.length;
    takeText(text.slice(0, end), place, scriptOf(linesOf(text.slice(end))));
  } catch (error) {
    chooseExample(FIRST_EXAMPLE);
    tell(`The trace in the address can't be read: ${error.message.replace(/\.$/, "")}.`);
  }
}

/** Shows what the address asks for. */
async function followAddress() {
  const asked = readAddress(location.hash);
  if (asked.name && $(asked.name)) return;
  if (asked.packed !== undefined) await takePacked(asked);
  else {
    const isKnown = data.examples.some((it) => it.name === asked.name);
    chooseExample(isKnown ? asked.name : FIRST_EXAMPLE, isKnown ? asked.place : Infinity);
    tell(isKnown || !asked.name ? "" : `No example is named "${asked.name}".`);
  }
  if (asked.place !== Infinity && asked.place > trace.count) tell(`The trace has ${plural(trace.count, "event")}, so none is behind ${asked.place} of them.`);
  if (asked.why) tell(asked.why);
}

function listenToFiles() {
  $("copy").onclick = () => copyText(textOf(trace.lines), "copied");
  $("link").onclick = copyAddress;
  $("open").onclick = () => $("file").click();
  $("file").onchange = openFile;
  $("save").onclick = () => saveAs(nameOf("trace"), textOf(trace.lines), "text/plain");
  $("save-picture").onclick = () => saveAs(nameOf("svg"), library.text("draw", soFar(trace.count)), "image/svg+xml");
  $("text").oninput = typed;
  $("text").onfocus = putText;
  $("editing").ontoggle = () => $("editing").open && putText();
  window.addEventListener("hashchange", followAddress);
}
