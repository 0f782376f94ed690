// The program gtdesk as a module of WebAssembly: each run is a new instance, with its words and one file in memory.
const NO_SUCH_WORD = -1n, NO_ROOM = -2n;

/** The program. */
export class Program {
  #module;

  constructor(module) {
    this.#module = module;
  }

  static async load(url) {
    const answer = await fetch(url);
    if (!answer.ok) throw new Error(`${url}: ${answer.status}`);
    return new Program(await WebAssembly.compile(await answer.arrayBuffer()));
  }

  /** Runs it with these words after its name. Whatever file they name has these bytes. */
  async run(words, file = new Uint8Array()) {
    const given = ["gtdesk", ...words].map((word) => new TextEncoder().encode(word));
    const put = { 1: [], 2: [] };
    let taken = 0, memory = null;
    const at = (place, count) => new Uint8Array(memory.buffer, Number(place), Number(count));
    const page = {
      word(number, into, room) {
        const word = given[Number(number)];
        if (!word) return NO_SUCH_WORD;
        if (BigInt(word.length) > room) return NO_ROOM;
        at(into, word.length).set(word);
        return BigInt(word.length);
      },
      read(into, room) {
        const part = file.subarray(taken, taken + Number(room));
        at(into, part.length).set(part);
        taken += part.length;
        return BigInt(part.length);
      },
      write(stream, bytes, count) {
        put[stream].push(at(bytes, count).slice());
        return count;
      },
    };
    const instance = await WebAssembly.instantiate(this.#module, { page });
    memory = instance.exports.memory;
    const status = instance.exports.gtdesk();
    return { status, output: await textOf(put[1]), errors: await textOf(put[2]) };
  }
}

const textOf = (parts) => new Blob(parts).text();
