// The library of gtd.h as a module of WebAssembly. Its memory has 64 bits, so places and lengths are BigInts.
const NO = 0, YES = 1, MEMORY = 4, YEAR = 5, SHORT = 6;
const HANDLE = 16, QUESTION = 24, ROW = 4, SCRATCH = 64;
const FIRST_ROOM = 1 << 16;

/** The browser gave no more memory. */
export class NoMemory extends Error {}

/** The library, as a page calls it. Seconds and days are numbers of the road's own clock, day 0 being 1970-01-01. */
export class Library {
  #calls;

  constructor(instance) {
    this.#calls = instance.exports;
    /** Where a call may write its numbers. */
    this.scratch = this.take(SCRATCH);
  }

  static async load(url) {
    const answer = await fetch(url);
    if (!answer.ok) throw new Error(`${url}: ${answer.status}`);
    const { instance } = await WebAssembly.instantiate(await answer.arrayBuffer(), {});
    return new Library(instance);
  }

  // Memory of the module.
  take(count) {
    const place = this.#calls.gtd_malloc(BigInt(count));
    if (place === 0n) throw new NoMemory();
    return place;
  }

  free(place) {
    this.#calls.gtd_free(place);
  }

  bytes(place, count) {
    return new Uint8Array(this.#calls.memory.buffer, Number(place), count);
  }

  view(place) {
    return new DataView(this.#calls.memory.buffer, Number(place));
  }

  // A call by its name, with numbers and places in the types that it takes. Want of memory is thrown.
  call(name, ...given) {
    const answer = this.#calls[`gtd_${name}`](...given);
    if (answer === MEMORY) throw new NoMemory();
    return answer;
  }

  handle() {
    const place = this.take(HANDLE);
    this.bytes(place, HANDLE).fill(0);
    return place;
  }

  end(handle) {
    this.#calls.gtd_close(handle);
    this.free(handle);
  }

  // What `use` answers of a copy of the bytes in the module's memory.
  lend(bytes, use) {
    const place = this.take(Math.max(bytes.length, 1));
    try {
      this.bytes(place, bytes.length).set(bytes);
      return use(place, BigInt(bytes.length));
    } finally {
      this.free(place);
    }
  }

  // One number that a call writes: its value after yes, otherwise null.
  number(read, name, ...given) {
    return this.call(name, ...given, this.scratch) === YES ? read(this.view(this.scratch)) : null;
  }

  // The bytes that a call makes as a text handle.
  text(name, ...given) {
    const text = this.handle();
    try {
      return this.call(name, ...given, text) === YES ? this.#bytesOf(text) : null;
    } finally {
      this.end(text);
    }
  }

  #bytesOf(text) {
    return this.filled((out, room, length) => this.call("text_bytes", text, out, room, length));
  }

  // What a call writes into a room for items of a size, which is made larger where it is too small.
  filled(write, size = 1) {
    for (let room = FIRST_ROOM; ;) {
      const out = this.take(room * size);
      try {
        const answer = write(out, BigInt(room), this.scratch);
        const length = unsigned(this.view(this.scratch));
        if (answer === YES) return this.bytes(out, length * size).slice();
        if (answer !== SHORT) return null;
        room = length;
      } finally {
        this.free(out);
      }
    }
  }

  version() {
    return asText(this.filled((...out) => this.call("version", ...out)));
  }

  faultName(kind) {
    return asText(this.filled((...out) => this.call("fault_name", kind, ...out)));
  }

  recordFaultName(kind) {
    return asText(this.filled((...out) => this.call("record_fault_name", kind, ...out)));
  }

  /** The second of a text `YYYY-MM-DDThh:mm` with or without seconds; null where there is none. */
  second(text) {
    const parts = /^(\d{4})-(\d\d)-(\d\d)(?:T(\d\d):(\d\d)(?::(\d\d)(?:\.0*)?)?)?$/.exec(text);
    if (!parts) return null;
    const [year, ...rest] = parts.slice(1).map((part) => Number(part ?? 0));
    return this.number(signed, "second", BigInt(year), ...rest);
  }

  /** The same, from 1901 to 2199, as the programs ask about moments. */
  moment(text) {
    const second = this.second(text);
    return second === null || dayOf(second) >= AFTER_2199 ? null : second;
  }

  /** The second as `YYYY-MM-DDThh:mm:ss`. */
  stamp(second) {
    const out = this.scratch;
    return this.call("stamp", BigInt(second), out, 19n) === YES ? asText(this.bytes(out, 19)) : null;
  }

  /** The spans that a call opens, as pairs of seconds; null if a number was out of range. */
  spans(name, ...given) {
    const spans = this.handle(), found = [];
    try {
      if (this.call(name, ...given, spans) !== YES) return null;
      while (this.call("spans_next", spans, this.scratch, this.scratch + 8n) === YES) {
        const view = this.view(this.scratch);
        found.push([signed(view), Number(view.getBigInt64(8, true))]);
      }
      return found;
    } finally {
      this.end(spans);
    }
  }

  /** The domain of a text, or its fault. */
  domain(text) {
    const handle = this.handle();
    const opened = this.lend(new TextEncoder().encode(text), (place, length) =>
      this.call("domain_open", handle, place, length, this.scratch));
    if (opened === YES) return { domain: new Domain(this, handle) };
    const view = this.view(this.scratch), place = Number(view.getBigUint64(8, true)), kind = view.getUint32(0, true);
    this.end(handle);
    return { fault: { name: this.faultName(kind), place } };
  }

  /** The records of a file's bytes, or their first fault. */
  records(bytes) {
    const handle = this.handle();
    const opened = this.lend(bytes, (place, length) => this.call("records_open", handle, place, length, this.scratch));
    if (opened === YES) return { records: new Records(this, handle) };
    const view = this.view(this.scratch), fault = { row: view.getUint32(4, true) }, kind = view.getUint32(0, true);
    this.end(handle);
    return { fault: { ...fault, name: this.recordFaultName(kind) } };
  }
}

/** A time domain. */
class Domain {
  #library;
  #handle;

  constructor(library, handle) {
    this.#library = library;
    this.#handle = handle;
  }

  canon() {
    return asText(this.#library.text("domain_canon", this.#handle));
  }

  words() {
    return asText(this.#library.text("domain_words", this.#handle));
  }

  picture(year) {
    return asText(this.#library.text("domain_picture", this.#handle, year));
  }

  holds(second) {
    return this.#library.call("domain_holds", this.#handle, BigInt(second)) === YES;
  }

  /** The next change after a second: `{ at }`, `{ never }` over all time, or `{ until }`, the day before which there is none. */
  next(second) {
    const library = this.#library, given = BigInt(second);
    const answer = library.call("domain_ever", this.#handle, given, library.scratch);
    if (answer === YES) return { at: signed(library.view(library.scratch)) };
    if (answer === NO) return { never: true };
    const until = lastDay(second);
    const at = answer === YEAR ? library.number(signed, "domain_next", this.#handle, given, BigInt(until)) : null;
    return at === null ? { until } : { at };
  }

  close() {
    this.#library.end(this.#handle);
  }
}

/** The records of a file. */
class Records {
  #library;
  #handle;

  constructor(library, handle) {
    this.#library = library;
    this.#handle = handle;
  }

  count() {
    return this.#library.number(unsigned, "records_count", this.#handle);
  }

  /** The elements, as BigInts, in ascending order. */
  elements() {
    const found = [];
    for (let place = 0n; ; place++) {
      const element = this.#library.number((view) => view.getBigUint64(0, true), "records_element", this.#handle, place);
      if (element === null) return found;
      found.push(element);
    }
  }

  /** The rows that close, in ascending order. */
  closers({ element, negative }, vehicle, second) {
    const library = this.#library;
    const rows = library.filled((...out) =>
      library.call("records_closers", this.#handle, element, Number(negative), vehicle, BigInt(second), ...out), ROW);
    return rows && [...new Uint32Array(rows.buffer)];
  }

  /** The next change after a second; null if there is none before the last day that may be asked about. */
  next({ element, negative }, vehicle, second) {
    return this.#library.number(signed, "records_next", this.#handle, element, Number(negative), vehicle, BigInt(second),
      BigInt(lastDay(second)));
  }

  /** For each side of a road, 1 if it is closed. */
  closedMany(sides, vehicle, second) {
    const library = this.#library, count = sides.length;
    const questions = library.take(count * QUESTION + 1), answers = library.take(count + 1), done = library.take(8);
    try {
      const view = library.view(questions);
      sides.forEach(({ element, negative }, place) => {
        view.setBigUint64(place * QUESTION, element, true);
        view.setBigInt64(place * QUESTION + 8, BigInt(second), true);
        view.setUint8(place * QUESTION + 16, vehicle);
        view.setUint8(place * QUESTION + 17, Number(negative));
      });
      const answer = library.call("records_closed_many", this.#handle, questions, BigInt(count), answers, BigInt(count), done);
      return answer === YES ? library.bytes(answers, count).slice() : null;
    } finally {
      [questions, answers, done].forEach((place) => library.free(place));
    }
  }

  /** The spans in which a side of a road is open. */
  spans({ element, negative }, vehicle, from, until) {
    return this.#library.spans("records_spans", this.#handle, element, Number(negative), vehicle, BigInt(from), BigInt(until));
  }

  /** The bytes of the whole schedule; null if the days are no horizon. */
  schedule(from, until, vehicle) {
    return this.#library.text("records_schedule", this.#handle, BigInt(from), BigInt(until), vehicle);
  }

  close() {
    this.#library.end(this.#handle);
  }
}

export const DAY = 86400;
const AFTER_2199 = 84006; // 2200-01-01
const LAST_DAY = 266627; // 2700-01-01
const LONGEST = 146098;

export const dayOf = (second) => Math.floor(second / DAY);
const lastDay = (second) => Math.min(dayOf(second) + LONGEST, LAST_DAY);
const signed = (view) => Number(view.getBigInt64(0, true));
const unsigned = (view) => Number(view.getBigUint64(0, true));
const asText = (bytes) => bytes && new TextDecoder().decode(bytes);
