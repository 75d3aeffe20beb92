// Texts of a long run: a worker of the page's own asks its library for them, since the page would stand still for so long.

// of so many events, with the tasks that may wait, the page asks itself
const AT_ONCE = 10_000;

/** The worker: undefined before it is made, and null where there can't be one. */
let teller;
/** By what it is for, what the worker is asked, and what it is to be asked next: the call of the library, and who hears what it tells. */
const asked = new Map();
const waiting = new Map();

const isLong = () => trace.count * (2 + library.run.config.tasks) > AT_ONCE;

function ask(reason, it) {
  asked.set(reason, it);
  teller.postMessage({ bytes: wasmBytes, header: data.header, kind: "tell", asked: { reason, call: it.call, words: it.words } });
}

/** What is told is dropped where something newer is asked for the same. */
function hearTold(reason, text) {
  const { hears } = asked.get(reason);
  const next = waiting.get(reason);
  asked.delete(reason);
  waiting.delete(reason);
  if (next) ask(reason, next);
  else hears(text);
}

/** Where there is no worker, or it fails, the page goes on by itself. */
function goOnAlone() {
  const left = new Map([...asked, ...waiting]);
  teller = null;
  asked.clear();
  waiting.clear();
  for (const { call, words, hears } of left.values()) hears(library[call](...words));
}

function makeTeller() {
  try {
    const made = makeSearcher();
    made.onmessage = ({ data: { answer, reason, text } }) => (answer === "told" ? hearTold(reason, text) : goOnAlone());
    made.onerror = (event) => {
      event.preventDefault();
      goOnAlone();
    };
    return made;
  } catch {
    return null;
  }
}

/** Has `hears` hear what a call of the library tells: at once, and of a long run a little later, if nothing newer is asked for that
 *  reason. */
function tellOf(reason, call, words, hears) {
  if (isLong() && teller === undefined) teller = makeTeller();
  if (!isLong() || teller === null) hears(library[call](...words));
  else if (asked.has(reason)) waiting.set(reason, { call, words, hears });
  else ask(reason, { call, words, hears });
}
