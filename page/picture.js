// A leak drawn: the cone of a wire in layers, with what each wire is under the four mask settings.
import { layersOf } from './layers.js';
import { inputName } from './words.js';

const WIDE = 118;
const HIGH = 52;
const GAP = 46;
const ROW = 66;
const CELL = 9;

/** A wire under the mask settings m0 m1 = 00, 10, 01, 11, as the four low bits of a number, where it is a mask. */
const PATTERNS = { 1: 0b1010, 2: 0b1100, 3: 0b0110 };
export const FOLLOWS = { 0: 'no mask', 1: 'm0', 2: 'm1', 3: 'm0 ⊕ m1', mixed: 'mixed masks' };

const namespace = 'http://www.w3.org/2000/svg';

function svg(name, attributes, ...children) {
  const made = document.createElementNS(namespace, name);
  Object.entries(attributes).forEach(([key, value]) => made.setAttribute(key, value));
  made.append(...children);
  return made;
}

/** How many of the four mask settings make the wire one. */
export const count = (four) => [0, 1, 2, 3].filter((masks) => four >> masks & 1).length;

/** The code of the mask that the four bits follow, 0 where they are all the same, or mixed. */
function followOf(four) {
  if (four === 0 || four === 15) return '0';
  return Object.keys(PATTERNS).find((code) => four === PATTERNS[code] || four === (15 ^ PATTERNS[code])) ?? 'mixed';
}

/** The mask that a node follows in both settings. */
export function follows(node) {
  const [base, own] = [followOf(node.seen & 15), followOf(node.seen >> 4)];
  return base === own ? base : 'mixed';
}

/** What a node is, in words: the wire, and then its gate or what input it is, and the mask that it is under. */
export function nodeName(node, { inputs, codes }) {
  const mask = node.wire - codes.length;
  const input = mask >= 0 ? `mask bit m${mask}` : `input ${inputName(node.wire, inputs)}, code ${codes[node.wire]}`;
  return `wire ${node.wire} (${node.kind === 'input' ? input : node.kind}, under ${FOLLOWS[follows(node)]})`;
}

/** What a node shows, in words. */
export function nodeWords(node, told) {
  const [base, own] = [count(node.seen & 15), count(node.seen >> 4)];
  return `${nodeName(node, told)}: one for ${base} of the four mask settings where the secret bits are zero, ` +
    `for ${own} in the leak's setting`;
}

function cells(four, left, top) {
  return [0, 1, 2, 3].map((masks) => svg('rect', {
    x: left + masks * CELL, y: top, width: CELL - 1, height: CELL - 1, class: four >> masks & 1 ? 'one' : 'zero',
  }));
}

/** What a box says of its wire: its gate, or what input it is. */
function kindOf({ kind, wire }, codes) {
  if (kind !== 'input') return kind;
  return wire < codes.length ? `in · code ${codes[wire]}` : `m${wire - codes.length}`;
}

function box({ node, x, y }, told, mark) {
  const [base, own] = [node.seen & 15, node.seen >> 4];
  const label = (text, left, top, part) => svg('text', { x: left, y: top, class: part }, text);
  const more = node.all.length > node.operands.length ? [label('…', x - 12, y + HIGH / 2, 'more')] : [];
  return svg('g', { class: `node follow-${follows(node)} ${mark}`, 'data-wire': node.wire },
    svg('title', {}, nodeWords(node, told)),
    svg('rect', { x, y, width: WIDE, height: HIGH, rx: 7, class: 'frame' }),
    label(String(node.wire), x + 8, y + 18, 'wire'),
    label(kindOf(node, told.codes), x + WIDE - 8, y + 18, 'kind'),
    ...cells(base, x + 8, y + 24), label(`${count(base)}`, x + 8 + 4 * CELL + 4, y + 32, 'count'),
    ...cells(own, x + 8, y + 37), label(`${count(own)}`, x + 8 + 4 * CELL + 4, y + 45, 'count'),
    label(FOLLOWS[follows(node)].replace(' masks', ''), x + WIDE - 8, y + 40, 'mask'),
    ...more);
}

function line(from, to, mark) {
  const start = [from.x + WIDE, from.y + HIGH / 2];
  const end = [to.x, to.y + HIGH / 2];
  const pass = to.node ? '' : ` h ${WIDE}`;
  const path = `M ${start} C ${start[0] + GAP / 2} ${start[1]}, ${end[0] - GAP / 2} ${end[1]}, ${end}${pass}`;
  return svg('path', { d: path, class: `line ${mark}` });
}

/** Gives each place its corner: layer 0 on the right, each layer in the middle of the height. */
function measure(layers) {
  const most = Math.max(...layers.map((layer) => layer.length));
  layers.forEach((layer, depth) => layer.forEach((place, order) => {
    place.x = 20 + (layers.length - 1 - depth) * (WIDE + GAP);
    place.y = 12 + ((most - layer.length) / 2 + order) * ROW;
  }));
  return { width: layers.length * (WIDE + GAP) - GAP + 40, height: most * ROW + 12 };
}

/**
 * The picture of a cone. told: the masked netlist's input widths and codes, and where they are known the wires that
 * leak; else the explained wire alone is marked.
 */
export function picture(nodes, told) {
  const layers = layersOf(nodes);
  const { width, height } = measure(layers);
  const places = layers.flat();
  const root = nodes[0];
  const meets = (from, to) => to.node === root && root.operands.includes(from.wire);
  const mark = ({ node }) => {
    if (node === root) return 'leaks root';
    const meeting = root.operands.includes(node.wire) ? ' meets' : '';
    return `${told.leaking?.has(node.wire) ? 'leaks' : ''}${meeting}`;
  };
  const lines = places.flatMap((from) => {
    const colour = `follow-${follows(nodes.find(({ wire }) => wire === from.wire))}`;
    return from.next.map((to) => line(from, to, `${colour} ${meets(from, to) ? 'meets' : ''}`));
  });
  return svg('svg', {
    xmlns: namespace, width, height, viewBox: `0 0 ${width} ${height}`, role: 'img',
    'aria-label': `The ${nodes.length} wires that reach wire ${root.wire}, in layers`,
  }, ...lines, ...places.filter((place) => place.node).map((place) => box(place, told, mark(place))));
}
