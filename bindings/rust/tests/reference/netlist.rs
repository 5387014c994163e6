//! A netlist, read from its text (questions 2 to 9) and written.

use super::ask;
use super::text::{number, word_lines};

/// A gate: its operands, then its result wire. The operand of `Eq` is the constant.
#[derive(Clone, Copy, Debug, PartialEq, Eq)]
pub enum Gate {
    Xor(usize, usize, usize),
    And(usize, usize, usize),
    Inv(usize, usize),
    Eqw(usize, usize),
    Eq(usize, usize),
}

impl Gate {
    /// The wire that the gate gives.
    pub fn result(&self) -> usize {
        match *self {
            Gate::Xor(_, _, c) | Gate::And(_, _, c) | Gate::Inv(_, c) | Gate::Eqw(_, c) | Gate::Eq(_, c) => c,
        }
    }

    /// The words of the gate's line.
    pub fn words(&self) -> String {
        match *self {
            Gate::Xor(a, b, c) => format!("2 1 {a} {b} {c} XOR"),
            Gate::And(a, b, c) => format!("2 1 {a} {b} {c} AND"),
            Gate::Inv(a, c) => format!("1 1 {a} {c} INV"),
            Gate::Eqw(a, c) => format!("1 1 {a} {c} EQW"),
            Gate::Eq(v, c) => format!("1 1 {v} {c} EQ"),
        }
    }
}

/// A netlist: its wire count, the widths of its input and output values, and its gates.
#[derive(Clone, Debug, PartialEq, Eq)]
pub struct Netlist {
    pub wires: usize,
    pub inputs: Vec<usize>,
    pub outputs: Vec<usize>,
    pub gates: Vec<Gate>,
}

impl Netlist {
    pub fn input_bits(&self) -> usize {
        self.inputs.iter().sum()
    }

    pub fn output_bits(&self) -> usize {
        self.outputs.iter().sum()
    }

    /// The written form.
    pub fn write(&self) -> Vec<u8> {
        let mut text = format!("{} {}\n", self.gates.len(), self.wires);
        for widths in [&self.inputs, &self.outputs] {
            text += &widths.len().to_string();
            for width in widths {
                text += &format!(" {width}");
            }
            text += "\n";
        }
        text += "\n";
        for gate in &self.gates {
            text += &gate.words();
            text += "\n";
        }
        text.into_bytes()
    }
}

/// What a call admits: the least entries of a working table, the most bytes of text, wires, input
/// values and output values.
pub struct Limits {
    pub table: usize,
    pub text: usize,
    pub wires: usize,
    pub inputs: usize,
    pub outputs: usize,
}

/// Which limits a call takes: the old ones, or those for whole ciphers.
#[derive(Clone, Copy, Debug, PartialEq, Eq)]
pub enum Sizes {
    Standard,
    Whole,
}

impl Sizes {
    /// Mask's limits.
    pub fn small(self) -> &'static Limits {
        match self {
            Sizes::Standard => &SMALL,
            Sizes::Whole => &WHOLE_SMALL,
        }
    }

    /// The limits of Check, Run and Rewrite.
    pub fn large(self) -> &'static Limits {
        match self {
            Sizes::Standard => &LARGE,
            Sizes::Whole => &WHOLE_LARGE,
        }
    }
}

/// Mask's limits.
pub const SMALL: Limits = Limits { table: 2_048, text: 60_000, wires: 2_048, inputs: 16, outputs: 16 };

/// The limits of Check, Run and Rewrite.
pub const LARGE: Limits = Limits { table: 18_431, text: 500_000, wires: 18_431, inputs: 17, outputs: 16 };

/// Mask's limits for whole ciphers.
pub const WHOLE_SMALL: Limits =
    Limits { table: 100_000, text: 3_000_000, wires: 100_000, inputs: 16, outputs: 16 };

/// The limits of Check, Run and Rewrite for whole ciphers.
pub const WHOLE_LARGE: Limits =
    Limits { table: 899_999, text: 27_000_000, wires: 899_999, inputs: 17, outputs: 16 };

/// A text's netlist: questions 2 to 9 in order.
pub fn read(limits: &Limits, text: &[u8]) -> Result<Netlist, u8> {
    ask(2, text.len() <= limits.text)?;
    ask(3, (0..text.len()).all(|at| allowed(text[at]) || text[at..].starts_with(b"\r\n")))?;

    let lines = word_lines(text);
    let Some(header) = header(&lines) else { return Err(4) };
    let bits: usize = header.inputs.iter().sum();
    ask(5, header.wires <= limits.wires)?;
    ask(5, header.inputs.len() <= limits.inputs && header.outputs.len() <= limits.outputs)?;
    ask(5, bits <= header.wires && header.outputs.iter().sum::<usize>() <= header.wires)?;

    let gate_lines = &lines[3..];
    ask(6, header.gates == header.wires - bits && gate_lines.len() == header.gates)?;

    let mut given: Vec<bool> = (0..header.wires).map(|wire| wire < bits).collect();
    let mut gates = Vec::new();
    for line in gate_lines {
        let gate = gate(line).ok_or(7)?;
        ask(8, operands_good(&gate, &given))?;
        // An input is given from the start, so its wire is refused here as well.
        ask(9, gate.result() < header.wires && !given[gate.result()])?;
        given[gate.result()] = true;
        gates.push(gate);
    }
    Ok(Netlist { wires: header.wires, inputs: header.inputs, outputs: header.outputs, gates })
}

/// Question 3 of a byte that is no CR.
fn allowed(byte: u8) -> bool {
    byte.is_ascii_digit() || byte.is_ascii_uppercase() || byte == b' ' || byte == b'\n'
}

/// What the three header lines state.
struct Header {
    gates: usize,
    wires: usize,
    inputs: Vec<usize>,
    outputs: Vec<usize>,
}

/// Question 4.
fn header(lines: &[Vec<&[u8]>]) -> Option<Header> {
    let [first, second, third, ..] = lines else { return None };
    let [gates, wires] = first[..] else { return None };
    Some(Header {
        gates: number(gates)?,
        wires: number(wires)?,
        inputs: values(second)?,
        outputs: values(third)?,
    })
}

/// A line of values: how many, one or more, then the width of each, 1 or more.
fn values(line: &[&[u8]]) -> Option<Vec<usize>> {
    let numbers: Vec<usize> = line.iter().map(|word| number(word)).collect::<Option<_>>()?;
    let (&count, widths) = numbers.split_first()?;
    let good = count >= 1 && widths.len() == count && widths.iter().all(|&width| width >= 1);
    good.then(|| widths.to_vec())
}

/// Question 7: the gate of a line.
fn gate(line: &[&[u8]]) -> Option<Gate> {
    match *line {
        [b"2", b"1", a, b, c, b"XOR"] => Some(Gate::Xor(number(a)?, number(b)?, number(c)?)),
        [b"2", b"1", a, b, c, b"AND"] => Some(Gate::And(number(a)?, number(b)?, number(c)?)),
        [b"1", b"1", a, c, b"INV"] => Some(Gate::Inv(number(a)?, number(c)?)),
        [b"1", b"1", a, c, b"EQW"] => Some(Gate::Eqw(number(a)?, number(c)?)),
        [b"1", b"1", v, c, b"EQ"] => Some(Gate::Eq(number(v)?, number(c)?)),
        _ => None,
    }
}

/// Question 8: each operand is given; a constant is 0 or 1.
fn operands_good(gate: &Gate, given: &[bool]) -> bool {
    let is_given = |wire: usize| given.get(wire) == Some(&true);
    match *gate {
        Gate::Xor(a, b, _) | Gate::And(a, b, _) => is_given(a) && is_given(b),
        Gate::Inv(a, _) | Gate::Eqw(a, _) => is_given(a),
        Gate::Eq(v, _) => v <= 1,
    }
}
