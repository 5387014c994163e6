// The library as the page calls it: one method for each service that the page needs. Numbers that are pointers or
// lengths are BigInt, since the module has a 64-bit memory. include/fidrovelj.h says what each export takes and gives.
//
// Some exports are not in every build of the library: what they would say is left out where they are absent.

const PAGE_BYTES = 65536n;

/** The limits of a call by its size, standard and whole (docs/RULES.md, Sizes). */
const LIMITS = [
  { source: 2048, masked: 18431, text: 500000 },
  { source: 100000, masked: 899999, text: 27000000 },
];

/** Kinds of working tables: how many entries for each wire of the limit, and the bytes of an entry. */
const NUMBERS = [1, 8];
const WORDS = [1, 4];
const BYTES = [1, 1];
const RECORDS = [15, 8];
const NAMES = [8, 8];
const STATES = [8, 4];

/** The services: whose row of limits they take, and their working tables in the order of the header. */
const SERVICES = {
  rewrite: { row: 'masked', tables: [NUMBERS, NUMBERS, BYTES] },
  from_old: { row: 'masked', tables: [NUMBERS, NUMBERS, BYTES] },
  from_aiger: { row: 'source', tables: [NUMBERS, NUMBERS, WORDS] },
  from_verilog: { row: 'source', tables: [NUMBERS, NUMBERS, NAMES, NAMES, NAMES, STATES, STATES] },
  run: { row: 'masked', tables: [NUMBERS, NUMBERS, BYTES, NUMBERS] },
  run64: { row: 'masked', tables: [NUMBERS, NUMBERS, BYTES, NUMBERS] },
  mask: { row: 'source', tables: [NUMBERS, NUMBERS, WORDS, BYTES] },
  check: { row: 'masked', tables: [NUMBERS, NUMBERS, BYTES, NUMBERS, NUMBERS] },
  certify: { row: 'masked', tables: [NUMBERS, NUMBERS, BYTES, NUMBERS, NUMBERS, RECORDS] },
  explain_wires: { row: 'masked', tables: [NUMBERS, NUMBERS, BYTES, NUMBERS, NUMBERS] },
  polynomial: { row: 'masked', tables: [NUMBERS, NUMBERS, BYTES, NUMBERS] },
  counts: { row: 'masked', tables: [NUMBERS, NUMBERS, BYTES, NUMBERS, BYTES] },
  check_wide: {
    row: 'masked',
    tables: [NUMBERS, NUMBERS, BYTES, NUMBERS, NUMBERS, NUMBERS, NUMBERS, NUMBERS, NUMBERS, NUMBERS, BYTES],
  },
};

/** The products of twelve input bits and the mask pair, which is as many bits as a polynomial is told of. */
const MOST_PRODUCTS = 2 ** 14;

/** The questions that a larger size can answer otherwise: Length and Limits. */
const OF_SIZE = [2, 5];

/** The input bits that are one in a setting. */
const onesOf = (setting, bits) => Array.from({ length: bits }, (_, bit) => bit).filter((bit) => setting >> bit & 1);

/** A result buffer: how many entries, and the bytes of an entry. */
const room = (entries, bytes) => ({ entries, bytes });

/** The library in one instance of the module. */
export class Engine {
  #exports;
  #base;

  static async open(wasm) {
    const engine = new Engine();
    const { instance } = await WebAssembly.instantiate(wasm, {});
    engine.#exports = instance.exports;
    engine.#base = BigInt(instance.exports.__heap_base.value);
    return engine;
  }

  /** The bytes that the library's memory has by now. */
  get memory() {
    return this.#exports.memory.buffer.byteLength;
  }

  /** Whether this build of the library has an export of that name. */
  has(name) {
    return `fidrovelj_${name}` in this.#exports;
  }

  /** The library's version in words, where this build tells it. */
  get version() {
    const number = this.#exports.fidrovelj_version?.();
    if (number === undefined) return undefined;
    return [number / 10000, number / 100 % 100, number % 100].map(Math.floor).join('.');
  }

  /** The words of a refusal by its number, where this build tells them. */
  words(refused) {
    if (!this.has('refusal')) return undefined;
    const most = 1000;
    this.#grow(this.#base + BigInt(most));
    const length = Number(this.#exports.fidrovelj_refusal(refused, this.#base, BigInt(most)));
    return new TextDecoder().decode(this.#bytes(Number(this.#base), length));
  }

  /**
   * The first refused place of a text in Bristol Fashion, by the limits of a row and a size, where this build tells it:
   * the question, line and column from 1, and for the questions of numbers the one there is and the one that may be.
   */
  place(text, row, size) {
    if (!this.has('place')) return undefined;
    const { words, buffers } = this.#lay([text], [room(8, 8)], [BYTES], LIMITS[size][row]);
    const [at, length, answer, , marks, entries] = words;
    this.#exports.fidrovelj_place(answer, at, length, marks, entries, row === 'masked' ? 1 : 0, size);
    const [, line, column, , , have, most] = [...this.#numbers(buffers[0], 7)].map(Number);
    return { refused: this.#bytes(buffers[0] + 56, 1)[0], line, column, have, most };
  }

  /** The written form of a text in one of the notations that are read, or a refusal. */
  read(text, notation) {
    const service = { fashion: 'rewrite', old: 'from_old', aiger: 'from_aiger', equations: 'from_verilog' }[notation];
    return this.#sized(service, [text], (size) => [room(LIMITS[size].text, 1)], (length, [out]) => ({
      text: this.#bytes(out, length).slice(),
    }));
  }

  /** The masked netlist and the code of each output bit, or a refusal. */
  mask(text, codes, wanted) {
    const rooms = (size) => [room(LIMITS[size].text, 1), room(LIMITS[size].source, 1)];
    return this.#sized('mask', [text, codes, wanted], rooms, (length, [out, outCodes]) => ({
      text: this.#bytes(out, length).slice(),
      codes: [...this.#bytes(outCodes, wanted.length)],
    }));
  }

  /** The output bits for a list of input bits, or a refusal. */
  run(text, bits) {
    const rooms = (size) => [room(LIMITS[size].masked, 1)];
    return this.#sized('run', [text, bits], rooms, (length, [out]) => ({ bits: [...this.#bytes(out, length)] }));
  }

  /** A word of sixty-four settings for each output bit, of one for each input bit, or a refusal. */
  run64(text, words) {
    const rooms = (size) => [room(LIMITS[size].masked, 8)];
    return this.#sized('run64', [text, words], rooms, (length, [out]) => ({
      words: this.#numbers(out, length).slice(),
    }));
  }

  /** The verdict on a masked netlist, by the service that can give it: Check, Certify, or Check of many inputs. */
  check(text, codes) {
    const exact = this.#check(text, codes);
    if (exact.refused !== 12) return exact;
    const certified = this.#certify(text, codes);
    if (certified.verdict !== 'undecided') return certified;
    const wide = this.#checkWide(text, codes);
    return wide.refused === 12 ? certified : wide;
  }

  #check(text, codes) {
    return this.#sized('check', [text, codes], () => [room(4, 8)], (answer, [leak]) => {
      if (answer === 0) return { verdict: 'clean', how: 'exact' };
      const [wire, setting, base, own] = [...this.#numbers(leak, 4)].map(Number);
      return { verdict: 'leak', how: 'exact', lowest: true, wire, ones: onesOf(setting, codes.length), base, own };
    });
  }

  #certify(text, codes) {
    const rooms = () => [room(4, 8), room(codes.length + 1, 8)];
    return this.#sized('certify', [text, codes], rooms, (answer, [leak, ones]) => {
      if (answer === 0) return { verdict: 'clean', how: 'certified' };
      if (answer === 2) return { verdict: 'undecided', wire: Number(this.#numbers(leak, 1)[0]) };
      return this.#told(leak, ones, 'certified', false);
    });
  }

  #checkWide(text, codes) {
    const rooms = () => [room(4, 8), room(12, 8), room(1, 8)];
    return this.#sized('check_wide', [text, codes, new Uint32Array(0)], rooms, (answer, [leak, ones]) =>
      answer === 0 ? { verdict: 'clean', how: 'wide' } : this.#told(leak, ones, 'wide', true));
  }

  #told(leak, ones, how, lowest) {
    const [wire, many, base, own] = [...this.#numbers(leak, 4)].map(Number);
    return { verdict: 'leak', how, lowest, wire, ones: [...this.#numbers(ones, many)].map(Number), base, own };
  }

  /** A verdict on each wire, 0 where it does not leak, 1 where it does, 2 where it is a cause; or a refusal. */
  explainWires(text, codes) {
    const rooms = (size) => [room(LIMITS[size].masked, 1)];
    return this.#sized('explain_wires', [text, codes], rooms, (length, [out]) => ({
      wires: this.#bytes(out, length).slice(),
    }));
  }

  /**
   * The products whose sum a wire is, as numbers: bit 0 of a product's number is m0, bit 1 is m1 and bit i + 2 is input
   * bit i. Or a refusal.
   */
  polynomial(text, codes, wire) {
    const rooms = () => [room(MOST_PRODUCTS, 1)];
    return this.#sized('polynomial', [text, codes, BigInt(wire)], rooms, (length, [out]) => ({
      products: [...this.#bytes(out, length)].flatMap((stands, product) => (stands ? [product] : [])),
    }));
  }

  /** How many settings have each count on a wire, and where it leaks a witness with as few ones as there is. */
  counts(text, codes, wire) {
    return this.#sized('counts', [text, codes, BigInt(wire)], () => [room(8, 8)], (length, [out]) => {
      const [none, one, two, three, four, setting, base, own] = [...this.#numbers(out, length)].map(Number);
      const witness = length === 8 ? { ones: onesOf(setting, codes.length), base, own } : undefined;
      return { settings: [none, one, two, three, four], witness };
    });
  }

  /** One call, with the standard size and, where that is too small, with the whole one. */
  #sized(service, inputs, rooms, tell) {
    for (const size of [0, 1]) {
      const { answer, buffers } = this.#call(service, inputs, rooms(size), size);
      if (answer >= 0) return { ...tell(answer, buffers), size };
      if (size === 1 || !OF_SIZE.includes(-answer)) return { refused: -answer, size };
    }
  }

  #call(service, inputs, rooms, size) {
    const { row, tables } = SERVICES[service];
    const { words, buffers } = this.#lay(inputs, rooms, tables, LIMITS[size][row]);
    return { answer: Number(this.#exports[`fidrovelj_${service}`](...words, size)), buffers };
  }

  /**
   * Lays inputs, result buffers and working tables one after another from the heap's base: the words of the call, and
   * where the buffers are. An input may be a number.
   */
  #lay(inputs, rooms, tables, entries) {
    let end = this.#base;
    const words = [];
    const lay = (count, bytes) => {
      const pointer = (end + 15n) / 16n * 16n;
      end = pointer + BigInt(count * bytes);
      words.push(pointer, BigInt(count));
      return Number(pointer);
    };
    const places = inputs.map((list) => {
      if (typeof list !== 'bigint') return lay(list.length, list.BYTES_PER_ELEMENT);
      words.push(list);
    });
    const buffers = rooms.map(({ entries: count, bytes }) => lay(count, bytes));
    tables.forEach(([each, bytes]) => lay(each * entries, bytes));
    this.#grow(end);
    inputs.forEach((list, index) => {
      if (typeof list === 'bigint') return;
      const bytes = new Uint8Array(list.buffer, list.byteOffset, list.byteLength);
      new Uint8Array(this.#exports.memory.buffer).set(bytes, places[index]);
    });
    return { words, buffers };
  }

  #grow(end) {
    const { memory } = this.#exports;
    const missing = end - BigInt(memory.buffer.byteLength);
    if (missing <= 0n) return;
    const pages = (missing + PAGE_BYTES - 1n) / PAGE_BYTES;
    try {
      memory.grow(pages);
    } catch (error) {
      if (!(error instanceof TypeError)) throw error;
      memory.grow(Number(pages)); // a memory of 32-bit addresses counts its pages in Number
    }
  }

  #bytes(pointer, count) {
    return new Uint8Array(this.#exports.memory.buffer, pointer, count);
  }

  #numbers(pointer, count) {
    return new BigUint64Array(this.#exports.memory.buffer, pointer, count);
  }
}
