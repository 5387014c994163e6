// The part of the page that shows the orders of a masked AND.
import { at } from './dom.js';
import { countsOf, netlistOf, sameTree, stepsOf, termsOf, treeName, treeOfMask, treesOf, verdictOf } from './steps.js';

const TREES = treesOf([0, 1, 2, 3, 4]);
const BITS = ['the bit of A', 'the bit of B'];

/** How many steps the slider has. */
const stepsDone = () => Number(at('slider').value);

export class Orders {
  /** take: what to do with a netlist and its codes that a person wants to check above. */
  constructor(take) {
    Object.assign(this, { take, turn: 0, chosen: undefined, joined: [] });
    ['code-a', 'code-b'].forEach((id) => at(id).addEventListener('change', () => this.try()));
    at('slider').addEventListener('input', () => this.#tell());
    at('again').addEventListener('click', () => this.#start());
    at('take-steps').addEventListener('click', () => this.take(netlistOf(this.steps, stepsDone()), this.codes));
    at('trees').addEventListener('keydown', (event) => this.#move(event));
  }

  /** Tries every way to join the terms under the chosen codes. */
  async try() {
    const turn = ++this.turn;
    this.codes = [Number(at('code-a').value), Number(at('code-b').value)];
    this.terms = termsOf(this.codes);
    const own = await treeOfMask([1, 2], termsOf([1, 2]));
    const verdicts = await Promise.all(TREES.map((tree) => verdictOf(stepsOf(tree, this.terms), 7, this.codes)));
    if (turn !== this.turn) return;
    this.own = TREES.findIndex((tree) => sameTree(tree, own));
    this.#marks(verdicts);
    const clean = verdicts.filter(({ verdict }) => verdict === 'clean').length;
    at('trees-words').textContent = `${clean} of ${TREES.length} ways are clean, ${TREES.length - clean} leak. ` +
      `Mask takes the way with a frame: ${treeName(TREES[this.own], this.terms)}.`;
    this.#start();
    await this.choose(this.chosen ?? this.own);
  }

  #marks(verdicts) {
    at('trees').replaceChildren(...TREES.map((tree, index) => {
      const leaks = verdicts[index].verdict !== 'clean';
      const mark = document.createElement('button');
      const title = treeName(tree, this.terms);
      Object.assign(mark, { type: 'button', textContent: leaks ? '✕' : '○', title, tabIndex: -1 });
      mark.className = `${leaks ? 'leak-mark' : 'clean-mark'} ${index === this.own ? 'own' : ''}`;
      mark.setAttribute('role', 'radio');
      mark.setAttribute('aria-label', `${title}: ${leaks ? 'leaks' : 'clean'}`);
      mark.addEventListener('click', () => this.choose(index));
      return mark;
    }));
  }

  /** The arrow keys choose the next way and the one before. */
  #move(event) {
    const step = { ArrowRight: 1, ArrowDown: 1, ArrowLeft: -1, ArrowUp: -1 }[event.key];
    if (!step) return;
    event.preventDefault();
    const next = (this.chosen + step + TREES.length) % TREES.length;
    this.choose(next);
    at('trees').children[next].focus();
  }

  /** Shows one of the ways. */
  async choose(index) {
    this.chosen = index;
    [...at('trees').children].forEach((mark, place) => {
      mark.setAttribute('aria-checked', String(place === index));
      mark.tabIndex = place === index ? 0 : -1;
    });
    this.steps = stepsOf(TREES[index], this.terms);
    this.counts = undefined;
    at('tree-name').textContent = treeName(TREES[index], this.terms);
    at('slider').value = 7;
    const [steps, counts] = [this.steps, await countsOf(this.steps, this.codes)];
    if (steps !== this.steps) return;
    this.counts = counts;
    await this.#tell();
  }

  /** Says what the check finds after as many steps as the slider has. */
  async #tell() {
    const many = stepsDone();
    const { steps } = this;
    at('done').textContent = `${many} of 7`;
    if (!this.counts) return;
    const verdict = await verdictOf(steps, many, this.codes);
    if (steps !== this.steps || many !== stepsDone()) return;
    this.#rows(many, verdict.wire);
    at('tree-verdict').className = `status ${verdict.verdict}`;
    const clean = verdict.verdict === 'clean';
    at('tree-verdict').textContent = clean ? `Clean after ${many} of 7 steps.` : this.#leakWords(verdict);
  }

  #leakWords({ wire, ones, own, base }) {
    const index = this.steps.findIndex((step) => step.wire === wire);
    const bits = `${ones.map((bit) => BITS[bit]).join(' and ')} ${ones.length === 1 ? 'is' : 'are'} one`;
    return `Leak: step ${index + 1}, ${this.steps[index].name}, is one for ${own} of the four mask settings where ` +
      `${bits}, and for ${base} where both are zero.`;
  }

  #rows(many, leaking) {
    at('counts').tBodies[0].replaceChildren(...this.steps.map(({ name, wire, line }, index) => {
      const row = document.createElement('tr');
      row.className = `${index < many ? '' : 'later'} ${wire === leaking ? 'leak' : ''}`;
      const head = document.createElement('th');
      head.scope = 'row';
      head.textContent = `${index + 1}. ${name}`;
      row.append(head, ...[`${wire} ${line.split(' ').at(-1)}`, ...this.counts[index]].map((text) => {
        const cell = document.createElement('td');
        cell.textContent = index < many ? text : '';
        return cell;
      }));
      return row;
    }));
  }

  #start() {
    this.joined = this.terms.map((_, place) => place);
    this.#pieces();
  }

  /** The pieces that are not joined yet, as buttons: the second that is pressed is joined to the first. */
  #pieces() {
    at('pieces').replaceChildren(...this.joined.map((piece) => {
      const button = document.createElement('button');
      Object.assign(button, { type: 'button', textContent: treeName(piece, this.terms) });
      button.setAttribute('aria-pressed', 'false');
      button.addEventListener('click', () => this.#press(piece, button));
      return button;
    }));
    this.first = undefined;
  }

  #press(piece, button) {
    if (this.first === undefined || this.first === piece) {
      this.first = this.first === piece ? undefined : piece;
      return button.setAttribute('aria-pressed', String(this.first === piece));
    }
    const made = [this.first, piece];
    this.joined = [...this.joined.filter((each) => each !== this.first && each !== piece), made];
    this.#pieces();
    at('pieces').lastElementChild.focus();
    if (this.joined.length === 1) this.choose(TREES.findIndex((tree) => sameTree(tree, made)));
  }
}
