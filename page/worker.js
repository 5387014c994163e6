// The library in a Worker: the page asks by a name and a list, and is answered when the call is done.
import { Engine } from './engine.js';
import { bitsOf, coneOf, gatesOf, shapeOf, withAllOutputs } from './netlist.js';
import { maskOf } from './values.js';

const encode = (text) => new TextEncoder().encode(text);
const decode = (bytes) => new TextDecoder().decode(bytes);

/** The most wires that a picture shows. */
const MOST_DRAWN = 120;

/** The notations that a text can be in, the likeliest first. */
function notationsOf(text) {
  if (text.startsWith('aag ')) return ['aiger'];
  return /^\s*module\b/.test(text) ? ['equations'] : ['fashion', 'old'];
}

/**
 * The written form of a text, with its notation and shape. A text that no notation fits is refused as the likeliest,
 * or as the one in which its gates were come to.
 */
function read(engine, text, notation) {
  const bytes = encode(text);
  const notations = notation ? [notation] : notationsOf(text);
  const tried = notations.map((each) => ({ notation: each, ...engine.read(bytes, each) }));
  const read = tried.find((each) => !each.refused);
  if (!read) return tried.find((each) => each.refused > 6) ?? tried[0];
  const written = decode(read.text);
  return { notation: read.notation, text: written, shape: shapeOf(written) };
}

function mask(engine, text, codes, wanted) {
  const masked = engine.mask(encode(text), Uint8Array.from(codes), Uint8Array.from(wanted));
  if (masked.refused) return masked;
  const written = decode(masked.text);
  return { text: written, codes: masked.codes, shape: shapeOf(written) };
}

const check = (engine, text, codes) => engine.check(encode(text), Uint8Array.from(codes));

const run = (engine, text, bits) => engine.run(encode(text), Uint8Array.from(bits));

/** The lanes of Run64 that a number of the page holds: those of eight settings. */
const LANES = 0xffffffffn;

/**
 * Every wire of a masked netlist in up to eight input settings under the four mask settings, by one call of Run64: bit
 * 4s + m0 + 2 m1 of a wire's number is the wire in setting s.
 */
function wiresIn(engine, text, codes, settings) {
  const pairs = [[0, 0], [1, 0], [0, 1], [1, 1]];
  const lanes = settings.flatMap((setting) => pairs.map(([m0, m1]) => ({ setting, m0, m1 })));
  const word = (bitOf) => lanes.reduce((sum, lane, bit) => sum | BigInt(bitOf(lane)) << BigInt(bit), 0n);
  const inputs = codes.map((code, bit) => word(({ setting, m0, m1 }) => setting[bit] ^ maskOf(code, m0, m1)));
  const pair = [word(({ m0 }) => m0), word(({ m1 }) => m1)];
  const ran = engine.run64(encode(withAllOutputs(text)), BigUint64Array.from([...inputs, ...pair]));
  return ran.refused ? ran : { wires: Array.from(ran.words, (each) => Number(each & LANES)) };
}

/** The wires that reach a wire, as a picture shows them: gates, and what each is in a setting and in its base. */
function cone(engine, text, codes, wire, ones) {
  const own = codes.map((_, bit) => (ones.includes(bit) ? 1 : 0));
  const base = own.map((bit, place) => (codes[place] === 0 ? bit : 0));
  const ran = wiresIn(engine, text, codes, [base, own]);
  if (ran.refused) return ran;
  const gates = gatesOf(text);
  const { wires, cut } = coneOf(gates, wire, MOST_DRAWN);
  const drawn = new Set(wires);
  const inputs = bitsOf(shapeOf(text).inputs);
  const nodes = wires.map((each) => {
    const { kind, operands } = gates.get(each) ?? { kind: each < inputs ? 'input' : '', operands: [] };
    const shown = operands.filter((operand) => drawn.has(operand));
    return { wire: each, kind, operands: shown, all: operands, seen: ran.wires[each] & 0xff };
  });
  return { nodes, cut };
}

/** The wires that leak, and the causes among them; nothing where the library does not say. */
function leaking(engine, text, codes) {
  if (!engine.has('explain_wires')) return {};
  const { wires, refused } = engine.explainWires(encode(text), Uint8Array.from(codes));
  if (refused) return {};
  const where = (least) => [...wires.keys()].filter((wire) => wires[wire] >= least);
  return { leaking: where(1), causes: where(2) };
}

/** A wire's polynomial, how many settings have each count, and a witness; nothing where the library does not say. */
function facts(engine, text, codes, wire) {
  if (!engine.has('polynomial')) return {};
  const list = [encode(text), Uint8Array.from(codes), wire];
  const [{ products, refused }, { settings, witness }] = [engine.polynomial(...list), engine.counts(...list)];
  return refused ? {} : { products, settings, witness };
}

/** What can be said of a refusal: its words, and the place of it in a text in Bristol Fashion. */
function explainRefusal(engine, answer, service, text) {
  const { refused, size, notation = 'fashion' } = answer;
  answer.words = engine.words(refused);
  if (notation !== 'fashion' || refused > 9) return;
  const place = engine.place(encode(text), service === 'mask' ? 'source' : 'masked', size);
  if (place?.refused === refused) Object.assign(answer, { place, source: text });
}

const ANSWERS = { read, mask, check, run, seen: wiresIn, cone, leaking, facts };

let opening;
self.onmessage = async ({ data: { id, service, list } }) => {
  try {
    if (service === 'open') {
      opening = Engine.open(list[0]);
      return self.postMessage({ id, answer: { version: (await opening).version } });
    }
    const engine = await opening;
    const start = performance.now();
    const answer = ANSWERS[service](engine, ...list);
    if (answer.refused) explainRefusal(engine, answer, service, list[0]);
    self.postMessage({ id, answer, milliseconds: performance.now() - start, memory: engine.memory });
  } catch (error) {
    self.postMessage({ id, error: String(error) });
  }
};
