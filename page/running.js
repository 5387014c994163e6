// A run of one of the two netlists on values that a person writes.
import { ask } from './ask.js';
import { fieldValues, fields } from './box.js';
import { at, tell } from './dom.js';
import { bitsFrom, bitsTo, byValue, maskOf } from './values.js';
import { refusalWords } from './words.js';

const say = (kind, words) => tell(at('outputs'), kind, words);

/** Bits with the masks of their codes put on or taken off. */
const withMasks = (bits, codes, pair) => bits.map((bit, index) => bit ^ maskOf(codes[index], ...pair));

export class Running {
  constructor(boxes) {
    this.boxes = boxes;
    at('which').addEventListener('change', () => this.#shape());
    at('run').addEventListener('click', () => this.#run());
    Object.values(boxes).forEach((box) => box.addEventListener('read', () => this.#shape()));
    this.#shape();
  }

  /** Chooses a netlist, and fills the fields of its values. */
  choose(which, values = []) {
    at('which').value = which;
    this.#shape();
    at('values').querySelectorAll('input').forEach((input, index) => (input.value = values[index] ?? input.value));
  }

  #shape() {
    const box = this.boxes[at('which').value];
    const widths = box.netlist?.shape.inputs ?? [];
    const pair = (index) => box.pair && index === widths.length - 1;
    say('', 'Its output values stand here.');
    fields(at('values'), widths, (index) => (pair(index) ? 'm0 and m1' : `value ${index}`), '0x0');
    at('under-label').hidden = !box.pair;
  }

  async #run() {
    const box = this.boxes[at('which').value];
    const netlist = await box.read();
    if (!netlist) return say('refused', 'There is no netlist to run.');
    try {
      await this.#tell(box, netlist);
    } catch (error) {
      say('refused', error.message);
    }
  }

  async #tell(box, { text, shape: { inputs, outputs } }) {
    let bits = fieldValues(at('values')).flatMap((word, index) => bitsFrom(word, inputs[index]));
    const under = box.pair && at('under').checked;
    const pair = bits.slice(-2);
    if (under) bits = [...withMasks(bits.slice(0, -2), box.codes(), pair), ...pair];
    const ends = under && box.ends();
    const answer = await ask('run', text, bits);
    if (answer.refused) return say('refused', refusalWords(answer));
    const plain = under ? withMasks(answer.bits, ends, pair) : answer.bits;
    const values = byValue(plain, outputs).map(bitsTo);
    say('', values.map((value, index) => `value ${index}: ${value.hex} (bits ${value.bits})`).join('\n'));
  }
}
