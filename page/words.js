// Verdicts and refusals in words.

/** The names of the questions (docs/RULES.md, Questions), for a library that does not tell its refusals in words. */
const QUESTIONS = [
  '', 'Tables', 'Length', 'Bytes', 'Header', 'Limits', 'Count', 'Line', 'Operands', 'Wire', 'Masks', 'Inputs',
  'Settings', 'Wanted', 'Room', 'OldForm', 'Grammar', 'Names', 'Depth', 'Aiger', 'Latches', 'Pairs', 'Budget', 'Gate',
  'Place', 'Seam',
];

export const NOTATIONS = {
  fashion: 'Bristol Fashion',
  old: 'the older Bristol dialect',
  aiger: 'ASCII AIGER',
  equations: 'equations',
};

const plural = (count, word) => `${count.toLocaleString('en')} ${word}${count === 1 ? '' : 's'}`;

/** A netlist's size in words. */
export function shapeWords({ notation, shape: { gates, wires, inputs, outputs } }) {
  const widths = (list) => `${list.length === 1 ? 'one value' : `${list.length} values`} of ${list.join(', ')}`;
  return `Read as ${NOTATIONS[notation]}: ${plural(gates, 'gate')}, ${plural(wires, 'wire')}; ` +
    `in ${widths(inputs)}, out ${widths(outputs)} ${outputs.at(-1) === 1 ? 'bit' : 'bits'}.`;
}

/** The numbers of a refusal by Length, Limits or Count. */
function numberWords({ refused, have, most }) {
  const [there, may] = [have, most].map((number) => number.toLocaleString('en'));
  if (refused === 6) return ` (${there} gates, where ${may} would fit)`;
  return refused === 2 || refused === 5 ? ` (${there}, where ${may} may be)` : '';
}

/** A refusal: its words, and the line that it is about with a caret under the place, where the library tells them. */
export function refusalWords({ refused, words, place, source }) {
  const named = words ?? `question ${QUESTIONS[refused]} is answered no`;
  if (!place) return `Refused by ${refused}: ${named}.`;
  const line = source.split('\n')[place.line - 1] ?? '';
  const from = Math.max(0, place.column - 60);
  const shown = line.slice(from, from + 100).replaceAll('\r', ' ');
  const caret = `${' '.repeat(place.column - 1 - from)}^`;
  const where = `line ${place.line.toLocaleString('en')}, column ${place.column}`;
  return `Refused by ${refused} in ${where}: ${named}${numberWords(place)}.\n  ${shown}\n  ${caret}`;
}

/** An input bit by its value, where there are several. */
export function inputName(bit, inputs) {
  const values = inputs.slice(0, -1);
  if (values.length === 1) return `bit ${bit}`;
  if (values.every((width) => width === 1)) return `value ${bit}`;
  let first = 0;
  for (const [value, width] of values.entries()) {
    if (bit < first + width) return `bit ${bit - first} of value ${value}`;
    first += width;
  }
  return `bit ${bit}`;
}

/** A list as a person says it; of a long one the first so many. */
export function listWords(list, most = 12) {
  if (list.length < 2) return list.join('');
  const shown = list.length > most ? [...list.slice(0, most), `${list.length - most} more`] : list;
  return `${shown.slice(0, -1).join(', ')} and ${shown.at(-1)}`;
}

const HOW = {
  exact: 'tried under all settings of the input bits',
  certified: 'certified for all settings',
  wide: 'each wire tried under all settings of the input bits that reach it',
};

/** A verdict of the check. */
export function verdictWords(verdict, { wires, inputs }) {
  if (verdict.verdict === 'clean') {
    return `Clean: none of the ${plural(wires, 'wire')} tells anything of the secret bits (${HOW[verdict.how]}).`;
  }
  if (verdict.verdict === 'undecided') {
    return `Not decided: every wire below wire ${verdict.wire} is clean, and of that one neither was shown.`;
  }
  return `Leak: wire ${verdict.wire} ${witnessWords(verdict, inputs)} (${HOW[verdict.how]}).`;
}

/** What a wire is in a leak's setting and in its base. */
export function witnessWords({ own, base, ones }, inputs) {
  const names = listWords(ones.map((bit) => inputName(bit, inputs)));
  return `is one for ${own} of the four mask settings where of the input bits ${names} alone ` +
    `${ones.length === 1 ? 'is' : 'are'} one, and for ${base} of them where the secret bits are zero`;
}

/** Which wires leak, and which of them are causes. */
export function leakingWords({ leaking, causes }) {
  const are = leaking.length === 1 ? '1 wire leaks' : `${leaking.length.toLocaleString('en')} wires leak`;
  const these = causes.length === 1 ? 'the cause is' : 'the causes are';
  return `${are}; ${these} ${listWords(causes)}, whose operands are clean.`;
}

const SHOWN_PRODUCTS = 24;

/** A wire's polynomial, x for the input bits, and how many settings have each count. */
export function factWords(wire, { products, settings }) {
  const variables = (product) => [...product.toString(2)].reverse().flatMap((stands, bit) =>
    stands === '1' ? [bit < 2 ? `m${bit}` : `x${bit - 2}`] : []);
  const terms = products.map(variables).sort((left, right) => left.length - right.length);
  const shown = terms.slice(0, SHOWN_PRODUCTS).map((names) => names.join('·') || '1');
  const more = terms.length > SHOWN_PRODUCTS ? ` ⊕ ${terms.length - SHOWN_PRODUCTS} products more` : '';
  const counts = settings.flatMap((many, count) => (many ? [`${many.toLocaleString('en')} with count ${count}`] : []));
  return `Wire ${wire} = ${shown.join(' ⊕ ') || '0'}${more}, where x is an input bit, counted over all values. ` +
    `Settings of the input bits: ${listWords(counts)}.`;
}
