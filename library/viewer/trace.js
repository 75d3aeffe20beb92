// Lines of a trace as events in the library's numbers, and outcomes as lines.

// what each call names, in the order of a trace's line; a call has the place here that is its number
export const CALLS = {
  map: ["file", "from", "len"],
  mapn: ["file", "from", "len"],
  unmap: ["page"],
  load: ["page"],
  store: ["page", "word"],
  alloc: ["file", "from", "len"],
  allock: ["file", "from", "len"],
  punch: ["file", "from", "len"],
  trunc: ["file", "len"],
  exit: [],
};
const OPS = Object.keys(CALLS);

/** The words of traces: those of the header, by their numbers. */
export class Words {
  constructor(numbers) {
    this.numbers = numbers;
    this.phases = this.named("PHASE_");
    this.answers = this.named("ANSWER_");
    this.refusals = this.named("REFUSAL_");
    this.lives = this.named("LIFE_");
    this.findings = this.named("FOUND_");
  }

  /** NO_FRAME is noframe in a trace. */
  named(prefix) {
    const words = [];
    for (const [name, number] of Object.entries(this.numbers)) {
      if (name.startsWith(prefix)) words[number] = name.slice(prefix.length).replaceAll("_", "").toLowerCase();
    }
    return words;
  }

  /** The event of a line that the library's check let pass. */
  event(line) {
    const end = line.indexOf(" ");
    const kind = this.numbers[line.slice(0, end).toUpperCase()];
    if (kind === this.numbers.RESIZE) return { kind, len: Number(line.slice(end + 1)) };
    if (kind !== this.numbers.BEGIN) return { kind, task: Number(line.slice(end + 1)) };
    const [first, op, ...more] = line.slice(end + 1).split(" ");
    const event = { kind, task: Number(first) };
    const named = CALLS[op].map((name, place) => [name, name === "word" ? BigInt(more[place]) : Number(more[place])]);
    return { ...event, op: OPS.indexOf(op), ...Object.fromEntries(named) };
  }

  outcome(outcome) {
    const is = this.numbers;
    switch (outcome.kind) {
      case is.BEGUN: return "begun";
      case is.MOVED: return `moved ${this.phases[outcome.phase]}`;
      case is.BLOCKED: return `blocked ${outcome.task}`;
      case is.ENDED: return `ended ${this.answer(outcome)}`;
      case is.MARKED: return "marked";
      case is.RESIZED: return `resized ${outcome.frames}`;
      default: return `refused ${this.refusals[outcome.refusal]}`;
    }
  }

  answer(outcome) {
    const word = this.answers[outcome.answer];
    if (outcome.answer === this.numbers.ANSWER_MAPPED) return `${word} ${outcome.page}`;
    if (outcome.answer === this.numbers.ANSWER_WORD) return `${word} ${outcome.word}`;
    return word;
  }
}

/** The sizes in a header line that the library's check let pass. */
export function configOf(line) {
  const [frames, files, slots, tasks, quota] = line.split(" ").slice(1).map(Number);
  return { frames, files, slots, tasks, quota: quota ?? 0, has_quota: quota !== undefined };
}

/** The lines of a text; a last one that isn't ended is ended. */
export function linesOf(text) {
  const lines = text.split("\n");
  if (lines.at(-1) === "") lines.pop();
  return lines;
}

export function textOf(lines) {
  return lines.map((line) => `${line}\n`).join("");
}
