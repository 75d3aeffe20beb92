// The library in WebAssembly's memory: hugepool.h's structs, where the header puts them, and its calls.

const GETTERS = {
  u32: (view, at) => view.getUint32(at, true),
  u64: (view, at) => view.getBigUint64(at, true),
  i64: (view, at) => Number(view.getBigInt64(at, true)),
  size: (view, at) => Number(view.getBigUint64(at, true)),
  bool: (view, at) => view.getUint8(at) === 1,
  pointer: () => null,
};
const SETTERS = {
  u32: (view, at, value) => view.setUint32(at, value, true),
  u64: (view, at, value) => view.setBigUint64(at, BigInt(value), true),
  bool: (view, at, value) => view.setUint8(at, value ? 1 : 0),
};
// room for any one struct, and for the count and the line that a call puts beside a text
const SCRATCH = 256;
const TEXT = 1 << 16;
// a pool has room for so many events at first
const LEAST_EVENTS = 64;
// room for the trace that a search finds
const FOUND = 1 << 20;
// what a search may answer, by its code; of each other the page has no use
const SEARCHED = { found: "OK", none: "NONE_MEETS", limit: "LIMIT_REACHED", condition: "BAD_CONDITION", line: "BAD_LINE", header: "BAD_HEADER" };
// a line behind all lines
const LAST = 0xffffffff;

/** What a call answered that can't happen here: the page never asks for what isn't there. */
export class Refused extends Error {}

/** A module with one pool. Addresses are BigInts, since the memory has 64 bits. */
export class Library {
  constructor(exports, header) {
    this.exports = exports;
    this.structs = header.structs;
    this.numbers = header.numbers;
    this.pool = this.take(this.structs.pool.size);
    this.bytes(this.pool, this.structs.pool.size).fill(0);
    this.scratch = this.take(SCRATCH);
    this.beside = this.take(SCRATCH);
    this.run = null;
  }

  static async of(bytes, header) {
    return new Library((await WebAssembly.instantiate(bytes, {})).instance.exports, header);
  }

  // ---- memory

  take(size) {
    const at = this.exports.page_take(BigInt(size));
    if (at === 0n) throw new Refused("there is no memory left");
    return at;
  }

  give(at) {
    this.exports.page_give(at);
  }

  /** (anew each time, since a memory that grows leaves its old bytes behind) */
  bytes(at, size) {
    return new Uint8Array(this.exports.memory.buffer, Number(at), size);
  }

  /** The structs that stand one behind the other from a place on. */
  readAll(name, at, count) {
    const { size, fields } = this.structs[name];
    const view = new DataView(this.exports.memory.buffer, Number(at));
    const readers = fields.map(([field, kind, place]) => ({ field, get: GETTERS[kind], place }));
    return Array.from({ length: count }, (_, which) => {
      const values = {};
      for (const { field, get, place } of readers) values[field] = get(view, which * size + place);
      return values;
    });
  }

  /** Puts structs there; a field without a value is 0. */
  writeAll(name, at, list) {
    const { size, fields } = this.structs[name];
    this.bytes(at, size * list.length).fill(0);
    const view = new DataView(this.exports.memory.buffer, Number(at));
    list.forEach((values, which) => {
      for (const [field, kind, place] of fields) if (values[field]) SETTERS[kind](view, which * size + place, values[field]);
    });
  }

  read(name, at) {
    return this.readAll(name, at, 1)[0];
  }

  write(name, at, values) {
    this.writeAll(name, at, [values]);
  }

  // ---- calls

  answered(code) {
    if (code === this.numbers.OK) return;
    if (code === this.numbers.NO_MEMORY) throw new Refused("there is no memory left");
    throw new Refused(`a call answered with code ${code}`);
  }

  /** What a call puts into a struct. */
  told(call, name, ...words) {
    this.answered(this.exports[call](this.pool, ...words, this.scratch));
    return this.read(name, this.scratch);
  }

  open(config) {
    this.write("config_words", this.scratch, config);
    this.answered(this.exports.hugepool_open(this.pool, this.scratch));
  }

  /** Opens a pool to which nothing has happened yet. Its events stay in memory, so that any moment can be gone back to at once. */
  begin(config) {
    this.end();
    this.run = { config, count: 0, at: 0, room: 0, events: null, outcomes: null };
    this.widen(LEAST_EVENTS);
    this.open(config);
  }

  /** Has room for so many events. */
  widen(count) {
    const { run, structs } = this;
    if (count <= run.room) return;
    const room = Math.max(count, 2 * run.room);
    for (const [name, of] of [["events", "event_words"], ["outcomes", "outcome_words"]]) {
      const wider = this.take(structs[of].size * room);
      if (run[name] !== null) {
        this.bytes(wider, structs[of].size * run.count).set(this.bytes(run[name], structs[of].size * run.count));
        this.give(run[name]);
      }
      run[name] = wider;
    }
    run.room = room;
  }

  /** Where an event stands in memory, or an outcome. */
  placeOf(name, of, place) {
    return this.run[name] + BigInt(place * this.structs[of].size);
  }

  /** Makes these events behind so many that stay, in place of what came there; what came of each. */
  extend(keep, events) {
    this.go(keep);
    this.run.count = keep;
    this.widen(keep + events.length);
    this.writeAll("event_words", this.placeOf("events", "event_words", keep), events);
    this.run.count = keep + events.length;
    this.go(this.run.count); // (which tells what came of each)
    return this.readAll("outcome_words", this.placeOf("outcomes", "outcome_words", keep), events.length);
  }

  /** The events behind so many, in bytes, by which they can be put back. */
  eventsBehind(keep) {
    return this.bytes(this.placeOf("events", "event_words", keep), this.structs.event_words.size * (this.run.count - keep)).slice();
  }

  /** Has these events behind so many that stay, in place of what came there. What came of each is known: they are made where it is gone to
   *  a moment behind them. */
  putBack(keep, events) {
    this.go(Math.min(keep, this.run.at));
    this.run.count = keep;
    this.widen(keep + events.length / this.structs.event_words.size);
    this.bytes(this.placeOf("events", "event_words", keep), events.length).set(events);
    this.run.count = keep + events.length / this.structs.event_words.size;
  }

  /** Opens a pool and makes all events; what came of each. */
  start(config, events) {
    this.begin(config);
    return this.extend(0, events);
  }

  /** Forgets the events, and closes the pool. */
  end() {
    if (!this.run) return;
    this.exports.hugepool_close(this.pool);
    this.give(this.run.events);
    this.give(this.run.outcomes);
    this.run = null;
  }

  /** The pool as so many events leave it. */
  go(count) {
    const { run } = this;
    if (count < run.at) {
      this.open(run.config);
      run.at = 0;
    }
    const more = BigInt(count - run.at);
    const [events, outcomes] = [this.placeOf("events", "event_words", run.at), this.placeOf("outcomes", "outcome_words", run.at)];
    if (more > 0n) this.answered(this.exports.hugepool_events(this.pool, events, more, outcomes, more, this.scratch));
    run.at = count;
  }

  poolNumbers() {
    return this.told("hugepool_pool_numbers", "pool_words");
  }

  file(file) {
    return this.told("hugepool_file_numbers", "file_words", file);
  }

  task(task) {
    return this.told("hugepool_task_numbers", "task_words", task);
  }

  acquires(task) {
    return this.told("hugepool_acquires", "acquired_words", task);
  }

  /** What an audit finds: 0 is nothing. */
  audit() {
    this.answered(this.exports.hugepool_audit(this.pool, this.scratch));
    return new DataView(this.exports.memory.buffer).getUint32(Number(this.scratch), true);
  }

  // ---- traces as texts

  /** Calls with the bytes of a trace, which are given back behind it. */
  withTrace(trace, call) {
    const bytes = new TextEncoder().encode(trace);
    const at = this.take(bytes.length);
    this.bytes(at, bytes.length).set(bytes);
    try {
      return call(at, BigInt(bytes.length));
    } finally {
      this.give(at);
    }
  }

  /** The text that a call puts into a room that is large enough, or its code. Rooms begin with so many bytes. */
  put(call, least = TEXT) {
    for (let room = least; ; ) {
      const out = this.take(room);
      try {
        const code = call(out, BigInt(room), this.scratch);
        const needed = Number(new DataView(this.exports.memory.buffer).getBigUint64(Number(this.scratch), true));
        if (code === this.numbers.OK) return new TextDecoder().decode(this.bytes(out, needed));
        if (code !== this.numbers.TOO_SMALL) return code;
        room = needed;
      } finally {
        this.give(out);
      }
    }
  }

  /** A trace that is replayed, explained or drawn; with lines, of which only these are explained. */
  text(name, trace, ...lines) {
    const call = this.exports[`hugepool_${name}`];
    const told = this.withTrace(trace, (...bytes) => this.put((...out) => call(...bytes, ...lines, ...out, this.beside), TEXT));
    if (typeof told === "number") this.answered(told);
    return told;
  }

  /** The lines of JSON that explain so many events from a line on: the pool's, one an event, and the state's. An event's has some 250 bytes. */
  objects(trace, first, count) {
    const call = this.exports.hugepool_explain_json;
    const told = this.withTrace(trace, (...bytes) => this.put((...out) => call(...bytes, first, LAST, ...out, this.beside), TEXT + 320 * count));
    if (typeof told === "number") this.answered(told);
    return told;
  }

  /** The trace that a text in the loose form asks for, as `text`; or the first wrong line, counted from 1, and why. */
  format(loose) {
    return this.withTrace(loose, (...bytes) => {
      const text = this.put((...out) => this.exports.hugepool_format(...bytes, ...out, this.beside));
      if (typeof text === "string") return { text };
      if (text !== this.numbers.BAD_LINE) this.answered(text);
      const line = Number(new DataView(this.exports.memory.buffer).getBigUint64(Number(this.beside), true));
      const why = this.put((...out) => this.exports.hugepool_format_reason(...bytes, ...out));
      return { line, why: typeof why === "string" ? why : "" };
    });
  }

  // ---- searches

  /** What a search of a text by conditions answers: in a word; the text that it found, or the first bad line of the conditions or of the
   *  text; and the number that it tells beside. */
  search(name, text, conditions, struct, values) {
    const [line, number, given] = [this.beside, this.beside + 8n, this.beside + 16n];
    this.bytes(line, 16).fill(0);
    if (struct) this.write(struct, given, values);
    const call = this.exports[`hugepool_${name}`];
    const [before, behind] = struct ? [[given], [number]] : [[], []];
    const told = this.withTrace(text, (...one) => this.withTrace(conditions, (...other) =>
      this.put((...out) => call(...one, ...other, ...before, ...out, line, ...behind), FOUND)));
    const code = typeof told === "string" ? this.numbers.OK : told;
    const answer = Object.keys(SEARCHED).find((it) => this.numbers[SEARCHED[it]] === code);
    if (!answer) this.answered(code);
    const view = new DataView(this.exports.memory.buffer);
    return { answer, text: told, line: view.getUint32(Number(line), true), number: view.getUint32(Number(number), true) };
  }

  /** The number of the first line that is no condition; 0 where there is none at all, and null where all are. */
  wrongCondition(conditions) {
    const { answer, line } = this.search("minimize", "", conditions);
    return answer === "condition" ? line : null;
  }

  /** The first line of the trace that isn't allowed, counted from 1, and why; null if all are. */
  fault(trace) {
    return this.withTrace(trace, (...bytes) => {
      const code = this.exports.hugepool_check(...bytes, this.scratch, this.beside);
      if (code === this.numbers.OK) return null;
      const line = new DataView(this.exports.memory.buffer).getUint32(Number(this.beside), true);
      const why = this.put((...out) => this.exports.hugepool_reason(...bytes, line, ...out));
      return { line, isHeader: code === this.numbers.BAD_HEADER, why: typeof why === "string" ? why : "" };
    });
  }
}
