// One of the two boxes: a text from a file, the clipboard or the keyboard, what the library reads in it, and the codes
// of its values.
import { ask } from './ask.js';
import { tell } from './dom.js';
import { byValue, codesFrom, codesTo } from './values.js';
import { refusalWords, shapeWords } from './words.js';

/** The longest text that is shown whole; of a longer one the beginning is shown. */
const SHOWN = 200000;

/** Offers a text for download under a file name. */
export function save(text, name, type = 'text/plain') {
  const link = document.createElement('a');
  link.href = URL.createObjectURL(new Blob([text], { type }));
  link.download = name;
  link.click();
  setTimeout(() => URL.revokeObjectURL(link.href), 1000);
}

/** Writes one field for each value into a fieldset; what stands in fields of the same widths stays. */
export function fields(fieldset, widths, name, start) {
  const kept = fieldset.dataset.widths === String(widths) ? fieldValues(fieldset) : [];
  fieldset.dataset.widths = widths;
  fieldset.querySelectorAll('label').forEach((label) => label.remove());
  widths.forEach((width, index) => {
    const label = document.createElement('label');
    const input = document.createElement('input');
    Object.assign(input, { type: 'text', value: kept[index] ?? start, spellcheck: false, autocomplete: 'off' });
    label.append(`${name(index)}, ${width} bit${width === 1 ? '' : 's'} `, input);
    fieldset.append(label);
  });
  fieldset.hidden = widths.length === 0;
}

export const fieldValues = (fieldset) => [...fieldset.querySelectorAll('input')].map((input) => input.value);

export class Box extends EventTarget {
  /** root: the section; options: file name of a download, whether the last input value is the mask pair. */
  constructor(root, { file, pair, ends }) {
    super();
    root.querySelector('.place').replaceWith(document.getElementById('box').content.cloneNode(true));
    Object.assign(this, { root, file, pair, text: '', asked: 0, netlist: undefined });
    this.part = (name) => root.querySelector(`.${name}`);
    const legend = (name, words) => (this.part(name).querySelector('legend').textContent = words);
    legend('codes', 'Mask codes: a digit for each bit, or one for all (0: public)');
    legend('ends', ends);
    this.part('text').setAttribute('aria-labelledby', root.getAttribute('aria-labelledby'));
    this.part('codes').hidden = this.part('ends').hidden = true;
    this.#listen();
  }

  #listen() {
    const area = this.part('text');
    area.addEventListener('input', () => {
      clearTimeout(this.pause);
      this.text = area.value;
      this.netlist = undefined;
      this.pause = setTimeout(() => this.look(), 250);
    });
    this.part('file').addEventListener('change', ({ target }) => target.files[0] && this.open(target.files[0]));
    this.part('notation').addEventListener('change', () => this.look());
    this.part('save').addEventListener('click', () => save(this.text, this.file));
    this.part('save-codes')?.addEventListener('click', () => this.#saveCodes());
    this.root.addEventListener('dragover', (event) => {
      event.preventDefault();
      this.root.classList.add('over');
    });
    this.root.addEventListener('dragleave', () => this.root.classList.remove('over'));
    this.root.addEventListener('drop', (event) => this.#dropped(event));
  }

  #dropped(event) {
    event.preventDefault();
    this.root.classList.remove('over');
    const [file] = event.dataTransfer.files;
    if (file) this.open(file);
  }

  async open(file) {
    await this.set(await file.text());
  }

  /** Puts a text into the box, and looks what it is. codes and ends, where given, fill the fields. */
  async set(text, { codes, ends } = {}) {
    this.text = text;
    const area = this.part('text');
    const whole = text.length <= SHOWN;
    area.value = whole ? text : `${text.slice(0, text.lastIndexOf('\n', SHOWN / 100))}\n…`;
    area.readOnly = !whole;
    this.part('note').hidden = whole;
    const bytes = text.length.toLocaleString('en');
    this.part('note').textContent = `The beginning is shown of ${bytes} bytes; all of it is used.`;
    this.part('notation').value = '';
    [this.part('codes'), this.part('ends')].forEach((fieldset) => delete fieldset.dataset.widths);
    await this.look();
    this.#fill('codes', codes);
    this.#fill('ends', ends);
    this.dispatchEvent(new Event('read'));
  }

  #fill(name, words) {
    if (!words) return;
    this.part(name).querySelectorAll('input').forEach((input, index) => (input.value = words[index] ?? input.value));
  }

  /** Asks the library what the text is, says it, and makes the fields for its values. */
  async look() {
    clearTimeout(this.pause);
    const turn = ++this.asked;
    this.netlist = undefined;
    if (this.text.trim() === '') return this.say('', '');
    const read = await ask('read', this.text, this.part('notation').value);
    if (turn !== this.asked) return;
    if (read.refused) return this.say('refused', refusalWords(read));
    this.netlist = read;
    this.say('', shapeWords(read));
    const { inputs, outputs } = read.shape;
    fields(this.part('codes'), this.pair ? inputs.slice(0, -1) : inputs, (index) => `value ${index}`, '1');
    fields(this.part('ends'), outputs, (index) => `value ${index}`, '0');
    this.dispatchEvent(new Event('read'));
  }

  say(kind, words) {
    tell(this.part('state'), kind, words);
  }

  /** The netlist that the text was read as, or undefined where it was refused, which the box says itself. */
  async read() {
    if (!this.netlist) await this.look();
    if (this.text.trim() === '') this.say('refused', 'There is no netlist yet: drop or paste one, or take an example.');
    return this.netlist;
  }

  /** The codes of the input bits, without the mask pair's. */
  codes() {
    const { inputs } = this.netlist.shape;
    return this.#codes('codes', this.pair ? inputs.slice(0, -1) : inputs);
  }

  /** The codes of the output bits: those that are wanted, or those that they have. */
  ends() {
    return this.#codes('ends', this.netlist.shape.outputs);
  }

  #codes(name, widths) {
    return fieldValues(this.part(name)).flatMap((word, index) => codesFrom(word, widths[index]));
  }

  /** Offers the codes, a line for those of the inputs and one for those of the outputs, by value. */
  #saveCodes() {
    const line = (name) => fieldValues(this.part(name)).map((word, index) => `${index}=${word.trim()}`).join(',');
    save(`inputs ${line('codes')}\noutputs ${line('ends')}\n`, this.file.replace('.txt', '.codes'));
  }
}

/** Codes over all bits as the words of a box's fields. */
export const codeWords = (codes, widths) => byValue(codes, widths).map(codesTo);
