//! Random netlists that every question admits.

use super::random::Random;
use crate::reference::mask;
use crate::reference::netlist::{Gate, Netlist};

/// Widths of at most `values` values that make up so many bits.
pub fn widths(random: &mut Random, bits: usize, values: usize) -> Vec<usize> {
    let count = if random.percent(60) { random.between(1, values.min(3)) } else { random.between(1, values) };
    split(random, bits, count.min(bits))
}

/// Widths of exactly `count` values that make up so many bits.
pub fn split(random: &mut Random, bits: usize, count: usize) -> Vec<usize> {
    let mut widths = vec![1; count];
    for _ in count..bits {
        widths[random.below(count)] += 1;
    }
    widths
}

/// The kinds of gates, some of them more often than others.
fn kinds(random: &mut Random) -> &'static [u8] {
    random.pick(&[
        b"XXXXAAAAIWE".as_slice(),
        b"XXXXAAAAIWE".as_slice(),
        b"XXXAAAAAAI".as_slice(),
        b"XAIWE".as_slice(),
        b"A".as_slice(),
        b"X".as_slice(),
        b"IWE".as_slice(),
    ])
}

/// So many gates over `inputs` input wires. Results stand in any order; an operand is an input or
/// the result of an earlier gate.
pub fn gates(random: &mut Random, inputs: usize, count: usize) -> Vec<Gate> {
    let kinds = kinds(random);
    let mut results: Vec<usize> = (inputs..inputs + count).collect();
    match random.below(4) {
        0 => random.shuffle(&mut results),
        1 => {
            let (low, high) = (random.below(count + 1), random.below(count + 1));
            random.shuffle(&mut results[low.min(high)..low.max(high)]);
        }
        _ => (),
    }
    let mut given: Vec<usize> = (0..inputs).collect();
    let mut gates = Vec::with_capacity(count);
    for c in results {
        let (a, b) = (operand(random, &given), operand(random, &given));
        gates.push(match random.pick(kinds) {
            b'X' => Gate::Xor(a, b, c),
            b'A' => Gate::And(a, b, c),
            b'I' => Gate::Inv(a, c),
            b'W' => Gate::Eqw(a, c),
            _ => Gate::Eq(random.below(2), c),
        });
        given.push(c);
    }
    gates
}

/// A given wire, often one of the last.
fn operand(random: &mut Random, given: &[usize]) -> usize {
    let reach = if random.percent(50) { given.len() } else { given.len().min(4) };
    given[given.len() - 1 - random.below(reach)]
}

/// A netlist of so many input bits and gates; its output bits may be any number of its wires.
pub fn netlist(random: &mut Random, bits: usize, gate_count: usize) -> Netlist {
    let wires = bits + gate_count;
    let most = if random.percent(70) { wires.min(8) } else { wires };
    let output_bits = random.between(1, most);
    Netlist {
        wires,
        inputs: widths(random, bits, 16),
        outputs: widths(random, output_bits, 16),
        gates: gates(random, bits, gate_count),
    }
}

/// A small netlist.
pub fn small(random: &mut Random) -> Netlist {
    let (bits, gate_count) = match random.below(10) {
        0 => (random.between(1, 2), random.below(3)),
        1..=6 => (random.between(1, 8), random.below(12)),
        7 | 8 => (random.between(1, 20), random.below(40)),
        _ => (random.between(1, 40), random.below(150)),
    };
    netlist(random, bits, gate_count)
}

/// A netlist with a mask pair and so many other input bits.
pub fn with_mask_pair(random: &mut Random, bits: usize, gate_count: usize) -> Netlist {
    let mut netlist = netlist(random, bits + 2, gate_count);
    netlist.inputs = widths(random, bits, 16);
    netlist.inputs.push(2);
    netlist
}

/// The codes of so many input bits, with public ones among them or without.
pub fn codes(random: &mut Random, bits: usize) -> Vec<u8> {
    let least = random.pick(&[0, 1]);
    random.list(bits, least, 3)
}

/// A netlist for Check and its codes: one made at random, a masked one, or a masked one with a
/// change, which leaks or not.
pub fn checkable(random: &mut Random) -> (Netlist, Vec<u8>) {
    let bits = match random.below(40) {
        0 => 12,
        1 => random.between(9, 11),
        2..=9 => random.between(5, 8),
        _ => random.between(1, 4),
    };
    let gate_count = random.below(if bits > 8 { 8 } else { 16 });
    if random.percent(40) {
        return (with_mask_pair(random, bits, gate_count), codes(random, bits));
    }
    let source = netlist(random, bits, gate_count);
    let mut list = codes(random, bits);
    let wanted = random.list(source.output_bits(), 0, 3);
    let (mut masked, _) = mask::mask(&source, &list, &wanted);
    match random.below(4) {
        0 => (),
        1 => list = codes(random, bits),
        _ => change_gate(random, &mut masked),
    }
    if random.percent(30) {
        renumber(random, &mut masked);
    }
    (masked, list)
}

/// Other numbers for the wires that are no inputs, so that low wires may be given late.
pub fn renumber(random: &mut Random, netlist: &mut Netlist) {
    let inputs = netlist.input_bits();
    let mut numbers: Vec<usize> = (0..netlist.wires).collect();
    random.shuffle(&mut numbers[inputs..]);
    for gate in &mut netlist.gates {
        *gate = match *gate {
            Gate::Xor(a, b, c) => Gate::Xor(numbers[a], numbers[b], numbers[c]),
            Gate::And(a, b, c) => Gate::And(numbers[a], numbers[b], numbers[c]),
            Gate::Inv(a, c) => Gate::Inv(numbers[a], numbers[c]),
            Gate::Eqw(a, c) => Gate::Eqw(numbers[a], numbers[c]),
            Gate::Eq(v, c) => Gate::Eq(v, numbers[c]),
        };
    }
}

/// Another kind or another operand for one of the last gates of a netlist whose results rise.
pub fn change_gate(random: &mut Random, netlist: &mut Netlist) {
    let place = netlist.gates.len() - 1 - random.below(netlist.gates.len().min(8));
    let gate = &mut netlist.gates[place];
    let other = random.below(gate.result());
    *gate = match *gate {
        Gate::Xor(a, b, c) => random.pick(&[
            Gate::And(a, b, c),
            Gate::Xor(other, b, c),
            Gate::Xor(a, other, c),
            Gate::Inv(b, c),
        ]),
        Gate::And(a, b, c) => random.pick(&[
            Gate::Xor(a, b, c),
            Gate::And(other, b, c),
            Gate::And(a, other, c),
            Gate::Eqw(a, c),
        ]),
        Gate::Inv(a, c) | Gate::Eqw(a, c) => random.pick(&[Gate::Xor(a, other, c), Gate::And(a, other, c)]),
        Gate::Eq(v, c) => random.pick(&[Gate::Eq(1 - v, c), Gate::Eqw(other, c)]),
    };
}
