// The verdict of a check, and where it is a leak its picture, its list, and the wires that meet in it.
import { ask } from './ask.js';
import { save } from './box.js';
import { at, tell } from './dom.js';
import { FOLLOWS, nodeName, nodeWords, picture } from './picture.js';
import { factWords, leakingWords, refusalWords, verdictWords, witnessWords } from './words.js';

/** The most wires of a list that the page offers to show. */
const MOST_OFFERED = 500;

let turn = 0;

/** Says something in place of a verdict. */
export function sayVerdict(kind, words) {
  turn++;
  tell(at('verdict'), kind, words);
  at('leak').hidden = true;
}

/** Shows the answer of a check of a netlist under codes. */
export async function showVerdict(verdict, { text, shape }, codes) {
  if (verdict.refused) return sayVerdict('refused', refusalWords(verdict));
  sayVerdict(verdict.verdict, verdictWords(verdict, shape));
  if (verdict.verdict !== 'leak') return;
  const { leaking, causes } = await ask('leaking', text, codes);
  const told = { verdict, text, codes, inputs: shape.inputs, leaking: leaking && new Set(leaking) };
  offer(leaking, causes, verdict.wire);
  at('wires').onchange = () => show(Number(at('wires').value), told);
  await show(verdict.wire, told);
}

/** Offers the leaking wires to be shown, the causes first. */
function offer(leaking = [], causes = [], wire) {
  const list = [...new Set([wire, ...causes, ...leaking])].slice(0, MOST_OFFERED);
  at('wires-label').hidden = list.length === 1;
  at('wires-words').textContent = leaking.length > 0 ? leakingWords({ leaking, causes }) : '';
  const name = (each) => `wire ${each}${causes.includes(each) ? ', a cause' : ''}`;
  at('wires').replaceChildren(...list.map((each) => new Option(name(each), each)));
}

/** Shows a leaking wire: in the verdict's setting where it is the verdict's, else in its own witness. */
async function show(wire, told) {
  const mine = ++turn;
  const facts = await ask('facts', told.text, told.codes, wire);
  const witness = wire === told.verdict.wire ? told.verdict : facts.witness;
  const cone = await ask('cone', told.text, told.codes, wire, witness.ones);
  if (mine !== turn || cone.refused) return;
  at('facts').textContent = facts.products ? factWords(wire, facts) : '';
  draw(cone, told, witness);
}

function draw({ nodes, cut }, told, witness) {
  const drawn = picture(nodes, told);
  at('leak').hidden = false;
  at('picture').replaceChildren(drawn);
  const [width, height] = [drawn.width.baseVal.value, drawn.height.baseVal.value];
  at('picture').scrollTo(width, (height - at('picture').clientHeight) / 2);
  at('meeting').textContent = meetingWords(nodes, told, witness) +
    (cut ? ` Of the wires that reach it the nearest ${nodes.length} are drawn.` : '');
  at('list').replaceChildren(...nodes.map((node) => {
    const item = document.createElement('li');
    item.textContent = nodeWords(node, told);
    return item;
  }));
}

/** Whether an operand is known not to leak: by the list of leaking wires, or since the check tells the lowest. */
function isClean(node, root, { leaking, verdict }) {
  return leaking ? !leaking.has(node.wire) : verdict.lowest && root.wire === verdict.wire && node.wire < root.wire;
}

/** The wires that meet in the leaking one. */
function meetingWords(nodes, told, witness) {
  const [root] = nodes;
  const operands = [...new Set(root.operands)].map((wire) => nodes.find((node) => node.wire === wire));
  const own = root.wire === told.verdict.wire ? '' : `Wire ${root.wire} ${witnessWords(witness, told.inputs)}. `;
  if (operands.length === 0) return `${own}${nodeName(root, told)}.`;
  const named = operands.map((node) => nodeName(node, told)).join(' and ');
  const alone = operands.every((node) => isClean(node, root, told));
  return `${own}Wire ${root.wire} is the ${root.kind} of ${named}.` +
    (alone ? ` ${operands.length === 1 ? 'It is' : 'Each of them is'} clean alone; here they tell the secret.` : '');
}

function legend() {
  at('legend').replaceChildren(...Object.entries(FOLLOWS).map(([code, words]) => {
    const item = document.createElement('li');
    item.className = `follow-${code}`;
    item.textContent = code > 0 ? `under ${words} (code ${code})` : `under ${words}`;
    return item;
  }));
}

function savePicture() {
  const drawn = at('picture').firstElementChild.cloneNode(true);
  const style = document.createElementNS(drawn.namespaceURI, 'style');
  style.textContent = at('style').textContent;
  drawn.prepend(style);
  save(new XMLSerializer().serializeToString(drawn), 'leak.svg', 'image/svg+xml');
}

export function startLeak() {
  legend();
  at('save-picture').addEventListener('click', savePicture);
}
