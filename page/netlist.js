// Netlists in the written form, which the library writes (docs/RULES.md, Written form): their header, their gates, and
// the wires that reach a wire.

/** The header of a written form: gates, wires, and the widths of the input values and of the output values. */
export function shapeOf(text) {
  const lines = text.split('\n', 3).map((line) => line.split(' ').map(Number));
  const [[gates, wires], [, ...inputs], [, ...outputs]] = lines;
  return { gates, wires, inputs, outputs };
}

/** How many bits widths have together. */
export const bitsOf = (widths) => widths.reduce((sum, width) => sum + width, 0);

/** The same netlist, but that every wire is an output bit, so that a run gives all of them. */
export function withAllOutputs(text) {
  const lines = text.split('\n', 3);
  const { wires } = shapeOf(text);
  return `${lines[0]}\n${lines[1]}\n1 ${wires}\n${text.slice(lines.join('\n').length + 1)}`;
}

/** The gates of a written form, by their result wire: { kind, operands }; a constant's value is in the kind. */
export function gatesOf(text) {
  const gates = new Map();
  for (const line of text.split('\n').slice(3)) {
    if (line === '') continue;
    const words = line.split(' ');
    const kind = words.at(-1);
    const wires = words.slice(2, -1).map(Number);
    const result = wires.pop();
    gates.set(result, kind === 'EQ' ? { kind: `EQ ${wires[0]}`, operands: [] } : { kind, operands: wires });
  }
  return gates;
}

/** The wires that reach a wire, nearest first, at most so many; and whether there are more. */
export function coneOf(gates, wire, most) {
  const wires = [wire];
  const seen = new Set(wires);
  for (let next = 0; next < wires.length; next++) {
    for (const operand of gates.get(wires[next])?.operands ?? []) {
      if (seen.has(operand)) continue;
      if (wires.length === most) return { wires, cut: true };
      seen.add(operand);
      wires.push(operand);
    }
  }
  return { wires, cut: false };
}
