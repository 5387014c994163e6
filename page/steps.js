// The seven steps of a masked AND in an order of one's choice: three products, and four XORs that join five terms. For
// every way to join them the library's Check says whether a wire leaks, and on which step.
import { ask } from './ask.js';
import { count } from './picture.js';

/** The wires of the small netlist before the steps: two masked bits, the mask pair, m0 XOR m1, m0 AND m1, m0 OR m1. */
const OPENING = ['2 1 2 3 4 XOR', '2 1 2 3 5 AND', '2 1 4 5 6 XOR'];
const OR_WIRE = 6;
const FIRST_STEP = 7;
const maskWire = (code) => 1 + code;

/** The five terms that a masked AND adds up, for the codes of its operands A and B. */
export function termsOf([codeA, codeB]) {
  const [maskA, maskB] = [maskWire(codeA), maskWire(codeB)];
  return [
    { name: 'A·B', product: [0, 1] },
    { name: 'A·Q', product: [0, maskB] },
    { name: 'Q', wire: maskB },
    { name: 'P·B', product: [maskA, 1] },
    { name: 'O', wire: OR_WIRE },
  ];
}

/** All ways to join terms by XORs of two: trees whose leaves are the terms' places. */
export function treesOf(places) {
  if (places.length === 1) return [places[0]];
  const [first, ...rest] = places;
  const trees = [];
  for (let chosen = 0; chosen < 2 ** rest.length - 1; chosen++) {
    const left = [first, ...rest.filter((_, index) => chosen >> index & 1)];
    const right = rest.filter((_, index) => !(chosen >> index & 1));
    for (const leftTree of treesOf(left)) for (const rightTree of treesOf(right)) trees.push([leftTree, rightTree]);
  }
  return trees;
}

/** A tree in words: each join in parentheses but the last. */
export function treeName(tree, terms, outer = true) {
  if (typeof tree === 'number') return terms[tree].name;
  const name = tree.map((side) => treeName(side, terms, false)).join(' ⊕ ');
  return outer ? name : `(${name})`;
}

/** The steps of a tree, operands before their XOR: { name, line } with the gate's line. */
export function stepsOf(tree, terms) {
  const steps = [];
  const add = (name, left, right, kind) => {
    const wire = FIRST_STEP + steps.length;
    steps.push({ name, wire, line: `2 1 ${left} ${right} ${wire} ${kind}` });
    return wire;
  };
  const wireOf = (part) => {
    if (typeof part !== 'number') return add(treeName(part, terms), wireOf(part[0]), wireOf(part[1]), 'XOR');
    const { name, wire, product } = terms[part];
    return wire ?? add(name, ...product, 'AND');
  };
  wireOf(tree);
  return steps;
}

/** The netlist of the opening and so many steps; its one output bit is the last wire. */
export function netlistOf(steps, many) {
  const lines = [...OPENING, ...steps.slice(0, many).map((step) => step.line)];
  return [`${lines.length} ${lines.length + 4}`, '3 1 1 2', '1 1', '', ...lines, ''].join('\n');
}

/** The tree of Mask's own steps, read off the netlist that it makes of one AND. */
export async function treeOfMask(codes, terms) {
  const masked = await ask('mask', '1 3\n2 1 1\n1 1\n\n2 1 0 1 2 AND\n', codes, [0]);
  const lines = masked.text.split('\n').slice(4).map((line) => line.split(' '));
  const parts = new Map();
  terms.forEach(({ wire }, place) => wire !== undefined && parts.set(wire, place));
  for (const [, , left, right, result, kind] of lines.slice(OPENING.length)) {
    if (kind === 'AND') {
      parts.set(Number(result), terms.findIndex(({ product }) => product && `${product}` === `${[left, right]}`));
    } else if (kind === 'XOR') {
      parts.set(Number(result), [parts.get(Number(left)), parts.get(Number(right))]);
    }
  }
  return parts.get(Number(lines.at(-3)[4]));
}

/** A tree's sides in one order, so that two trees that differ in it alone are the same text. */
const plain = (tree) => (typeof tree === 'number' ? `${tree}` : `(${tree.map(plain).sort().join(' ')})`);
export const sameTree = (left, right) => plain(left) === plain(right);

/** What the library says of a netlist after so many steps. */
export const verdictOf = (steps, many, codes) => ask('check', netlistOf(steps, many), codes);

/** The counts of the steps' wires in the four settings of the two bits: a row for each setting. */
export async function countsOf(steps, codes) {
  const settings = [[0, 0], [1, 0], [0, 1], [1, 1]];
  const { wires } = await ask('seen', netlistOf(steps, steps.length), codes, settings);
  return steps.map(({ wire }) => settings.map((_, setting) => count(wires[wire] >> 4 * setting & 15)));
}
