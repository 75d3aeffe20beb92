// What searches, in a worker with a module of its own, so that the page never waits: it tells how far it is, and what it found. Of a long
// run it tells texts.

import { Library } from "./pool.js";

// a slice of random runs takes some milliseconds
const SLICE = 60;
// all schedules are searched with so many states at first, and then with ten times as many, up to the bound
const FIRST_STATES = 1000;

/** Random runs, slice by slice, until one meets the conditions. */
function* findRun(library, { text, conditions, numbers: { seed, runs, deny, kill } }) {
  for (let done = 0, limit = 1; done < runs; ) {
    const slice = { seed: BigInt.asUintN(64, seed + BigInt(done)), limit: Math.min(limit, runs - done), deny, kill };
    const began = performance.now();
    const told = library.search("find", text, conditions, "hunt_words", slice);
    if (told.answer !== "none") return yield { ...told, run: done + told.number };
    done += slice.limit;
    yield { answer: "so far", done };
    if (performance.now() - began < SLICE / 2) limit = slice.limit * 2;
  }
  return yield { answer: "none" };
}

/** All schedules, the shortest first. */
function* findEvery(library, { text, conditions, numbers: { denials, kills, states } }) {
  for (let bound = Math.min(FIRST_STATES, states); ; bound = Math.min(10 * bound, states)) {
    const told = library.search("find_every", text, conditions, "bounds_words", { denials, kills, states: bound });
    if (told.answer !== "limit" || bound === states) return yield { ...told, turns: told.number };
    yield { answer: "so far", turns: told.number, states: bound };
  }
}

function* minimize(library, { text, conditions }) {
  yield library.search("minimize", text, conditions);
}

/** What a search of that kind tells: how far it is, and at last what it found. */
export function searched(library, kind, asked) {
  return { find: findRun, every: findEvery, minimize }[kind](library, asked);
}

/** The module, which is made when something is asked for first. */
let made = null;

/** One search is asked for, or a text of a trace, of which one worker tells many. */
globalThis.onmessage = async ({ data: { bytes, header, kind, asked } }) => {
  try {
    made ??= Library.of(bytes, header);
    const library = await made;
    if (kind === "tell") postMessage({ answer: "told", reason: asked.reason, text: library[asked.call](...asked.words) });
    else for (const told of searched(library, kind, asked)) postMessage(told);
  } catch (error) {
    postMessage({ answer: "failed", why: error.message });
  }
};
