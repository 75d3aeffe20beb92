// The words of conditions, and lines of them. Nothing here touches the page.

const NUMBERED_CALL = "the number of a call, from 1, the name of a call (map, mapn, unmap, load, store, alloc, allock, punch, trunc, exit), or *";

/** By the word of its line, what a condition is: the form of its value, when a run meets it, and what its parts may be. */
export const CONDITIONS = {
  answer: { form: "T:K=WORD", means: "call K of task T ends with that answer", parts: ["T", "K", "WORD"] },
  at: { form: "T:K=WORD COUNT=N", means: "call K of task T ends with that answer, and the count is N then", parts: ["T", "K", "WORD", "COUNT", "="] },
  blocked: { form: "T", means: "at some moment the next step of task T's call is blocked", parts: ["T"] },
  meet: { form: "T:P,U:Q", means: "at some moment the call of task T is in phase P, and that of task U in phase Q", parts: ["U", "P"] },
  final: { form: "COUNT=N", means: "at the end of the run no call is in flight, and the count is N", parts: ["COUNT", "="] },
  rest: { form: "", means: "at the end of the run no call is in flight", parts: [] },
  anywhere: { form: "", means: "where a line final asks for a count at the end, calls may be in flight there", parts: [] },
};

/** What the parts of a condition may be. */
export const PARTS = {
  T: "T is a task, from 1, or *, which is any",
  U: "T and U are tasks, from 1",
  K: `K is ${NUMBERED_CALL}`,
  WORD: "WORD is the answer, or what Linux returns: SIGSEGV, SIGBUS, ENOSPC, ENOMEM or EINTR",
  P: "P and Q are phases, as a run shows them behind moved",
  COUNT: "COUNT is free, resv or used, or of file F reserved:F or pages:F",
  "=": "= may also be <, <=, > or >=; no count is below 0",
  not: "not before a value says that the run never does so",
  "|": "| stands between values of which one is enough",
};

/** Each answer of a call: why it comes. */
export const ANSWERS = {
  mapped: "a map ended well",
  word: "a load read its word",
  done: "any other call ended well",
  segv: "no mapping has the page (SIGSEGV)",
  beyond: "the page lies behind the end of the file (SIGBUS)",
  noframe: "no frame is free, or too few are free and not promised (a fault: SIGBUS, a map: ENOMEM, an allocation: ENOSPC)",
  noquota: "the files would have more pages than the quota (as noframe)",
  nomemory: "an allocation of memory failed (ENOMEM)",
  interrupted: "an allocation noticed that its task is killed (EINTR)",
  killed: "another call noticed that its task is killed",
  badfile: "no file has that number (EBADF)",
  badrange: "the range is empty, or too long (EINVAL, EFBIG)",
  notmapped: "no mapping begins there",
  noaddress: "there is no room for a mapping of that length (ENOMEM)",
};

/** What Linux returns, and of which answers it is. */
export const ERRORS = {
  SIGBUS: "a load or a store ends beyond, noframe or noquota",
  SIGSEGV: "a load or a store ends segv",
  ENOSPC: "an allocation ends noframe or noquota",
  ENOMEM: "a map ends noframe, noquota or noaddress, or a call that is no load and no store ends nomemory",
  EINTR: "an allocation ends interrupted",
};

/** Counts of a pool, in words. */
export const COUNTS = {
  free: "free frames",
  resv: "the reserve count",
  used: "used pages, where there is a quota",
  reserved: "reserved indices of a file",
  pages: "pages of a file",
};

export const SIGNS = ["=", "<", "<=", ">", ">="];

/** Conditions to begin with, and what they ask for. */
export const ASKED = {
  "at *:*=SIGBUS free>0": "a SIGBUS although a frame is free",
  "blocked *": "a task that waits for another",
  "answer not *:*=mapped": "no map that ends well",
  "answer *:*=SIGBUS|*:*=ENOMEM|*:*=ENOSPC": "a call that gets no page",
  "final resv>0": "promised frames at the end",
  "final not resv=0|free=0": "promised frames at the end, or free ones",
  "meet 1:found,2:found": "two tasks at one page at the same time",
  "rest": "a run to its end",
};

/** A line of a condition, from its word and the parts of its value. */
export function conditionOf(word, isNot, { task, call, answer, phase, other, otherPhase, count, sign, number }) {
  const counted = `${count}${sign}${number}`;
  const values = {
    answer: `${task}:${call}=${answer}`,
    at: `${task}:${call}=${answer} ${counted}`,
    blocked: `${task}`,
    meet: `${task}:${phase},${other}:${otherPhase}`,
    final: counted,
  };
  return word in values ? `${word} ${isNot ? "not " : ""}${values[word]}` : word;
}

/** A text of conditions has no more lines. */
export const MOST_CONDITIONS = 65_536;

/** What is wrong with a line of that number; 0 is the number where there is none at all. The last is
 *  whether it is behind all lines that there may be. */
export function wrongWords({ line, number }, isBeyond = false) {
  if (number === 0) return "No line says a condition yet.";
  if (isBeyond) return `There may be ${MOST_CONDITIONS.toLocaleString("en")} conditions: line ${number} says one more.`;
  const word = line.split(" ", 1)[0];
  const first = `Line ${number} is no condition: "${line}".`;
  if (!Object.hasOwn(CONDITIONS, word)) return `${first} A line begins with ${Object.keys(CONDITIONS).join(", ")}.`;
  const { form, parts } = CONDITIONS[word];
  if (form === "") return `${first} Nothing stands behind ${word}.`;
  return `${first} Its form is ${word} ${form}: ${parts.map((it) => PARTS[it]).join("; ")}.`;
}

const quoted = (value) => (/^[\w:=,.]+$/.test(value) ? value : `'${value.replaceAll("'", "'\\''")}'`);

/** The conditions as options of the program. */
export function optionsOf(lines) {
  return lines.map((line) => {
    const end = line.indexOf(" ");
    return end < 0 ? ` --${line}` : ` --${line.slice(0, end)} ${quoted(line.slice(end + 1))}`;
  }).join("");
}
