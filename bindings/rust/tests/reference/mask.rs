//! How a source netlist becomes a masked one.

use super::netlist::{Gate, Netlist};

/// Where a bit of the source stands in the masked netlist: a wire, and the code of the mask on it.
#[derive(Clone, Copy)]
pub struct Twin {
    pub wire: usize,
    pub code: u8,
}

/// The code that neither of two different codes is.
fn third(a: u8, b: u8) -> u8 {
    match (a, b) {
        (1, 2) | (2, 1) => 3,
        (1, 3) | (3, 1) => 2,
        (2, 3) | (3, 2) => 1,
        _ => panic!("{a} and {b} are not two different codes"),
    }
}

/// The code after a code.
fn after(code: u8) -> u8 {
    match code {
        1 => 2,
        2 => 3,
        3 => 1,
        _ => panic!("{code} is no code"),
    }
}

/// A masked netlist in the making: the source's input bits, and the gates so far.
struct Masking {
    bits: usize,
    gates: Vec<Gate>,
}

impl Masking {
    /// One more gate, on the next wire.
    fn gate(&mut self, make: impl Fn(usize) -> Gate) -> usize {
        let wire = self.bits + 2 + self.gates.len();
        self.gates.push(make(wire));
        wire
    }

    fn xor(&mut self, a: usize, b: usize) -> usize {
        self.gate(|c| Gate::Xor(a, b, c))
    }

    fn and(&mut self, a: usize, b: usize) -> usize {
        self.gate(|c| Gate::And(a, b, c))
    }

    fn inv(&mut self, a: usize) -> usize {
        self.gate(|c| Gate::Inv(a, c))
    }

    fn eqw(&mut self, a: usize) -> usize {
        self.gate(|c| Gate::Eqw(a, c))
    }

    /// The wire of a code's mask.
    fn mask_wire(&self, code: u8) -> usize {
        self.bits + usize::from(code) - 1
    }

    /// The wire of m0 OR m1.
    fn either(&self) -> usize {
        self.bits + 4
    }

    /// The twin of an input bit; a public one, of code 0, gets mask m0.
    fn input(&mut self, wire: usize, code: u8) -> Twin {
        if code == 0 {
            return Twin { wire: self.xor(wire, self.bits), code: 1 };
        }
        Twin { wire, code }
    }

    /// The second operand of a gate, with its mask changed where it has the first's code.
    fn parted(&mut self, a: Twin, b: Twin) -> Twin {
        if a.code != b.code {
            return b;
        }
        let next = after(b.code);
        Twin { wire: self.xor(b.wire, self.mask_wire(next)), code: third(b.code, next) }
    }

    fn masked_xor(&mut self, a: Twin, b: Twin) -> Twin {
        let b = self.parted(a, b);
        Twin { wire: self.xor(a.wire, b.wire), code: third(a.code, b.code) }
    }

    fn masked_and(&mut self, a: Twin, b: Twin) -> Twin {
        let b = self.parted(a, b);
        let (p, q) = (self.mask_wire(a.code), self.mask_wire(b.code));
        let s1 = self.and(a.wire, b.wire);
        let s2 = self.and(a.wire, q);
        let s3 = self.xor(s2, q);
        let s4 = self.xor(s1, s3);
        let s5 = self.and(p, b.wire);
        let s6 = self.xor(s5, self.either());
        let s7 = self.xor(s4, s6);
        Twin { wire: s7, code: a.code }
    }

    /// The twin of a source gate's result, for the twins of the source's wires.
    fn masked(&mut self, gate: &Gate, twins: &[Option<Twin>]) -> Twin {
        let twin = |wire: usize| twins[wire].expect("an operand is given");
        match *gate {
            Gate::Xor(a, b, _) => self.masked_xor(twin(a), twin(b)),
            Gate::And(a, b, _) => self.masked_and(twin(a), twin(b)),
            Gate::Inv(a, _) => Twin { wire: self.inv(twin(a).wire), code: twin(a).code },
            Gate::Eqw(a, _) => Twin { wire: self.eqw(twin(a).wire), code: twin(a).code },
            Gate::Eq(0, _) => Twin { wire: self.eqw(self.bits), code: 1 },
            Gate::Eq(_, _) => Twin { wire: self.inv(self.bits), code: 1 },
        }
    }

    /// An output bit's gate, and its code.
    fn output(&mut self, twin: Twin, wanted: u8) -> u8 {
        if wanted == 0 || wanted == twin.code {
            self.eqw(twin.wire);
            return twin.code;
        }
        self.xor(twin.wire, self.mask_wire(third(twin.code, wanted)));
        wanted
    }
}

/// The gates before those of the output bits, and the twin of each source wire.
fn masked_source(source: &Netlist, codes: &[u8]) -> (Masking, Vec<Twin>) {
    let n = source.input_bits();
    let mut masking = Masking { bits: n, gates: Vec::new() };
    masking.xor(n, n + 1);
    masking.and(n, n + 1);
    masking.xor(n + 2, n + 3);

    let mut twins: Vec<Option<Twin>> = vec![None; source.wires];
    for (wire, &code) in codes.iter().enumerate() {
        twins[wire] = Some(masking.input(wire, code));
    }
    for gate in &source.gates {
        twins[gate.result()] = Some(masking.masked(gate, &twins));
    }
    (masking, twins.into_iter().map(|twin| twin.expect("every wire is given")).collect())
}

/// The twin of each source wire.
pub fn twins(source: &Netlist, codes: &[u8]) -> Vec<Twin> {
    masked_source(source, codes).1
}

/// The masked netlist of a source, and the code of each output bit.
pub fn mask(source: &Netlist, codes: &[u8], wanted: &[u8]) -> (Netlist, Vec<u8>) {
    let n = source.input_bits();
    let (mut masking, twins) = masked_source(source, codes);
    let outputs = &twins[source.wires - source.output_bits()..];
    let output_codes =
        outputs.iter().zip(wanted).map(|(&twin, &wanted)| masking.output(twin, wanted)).collect();

    let mut inputs = source.inputs.clone();
    inputs.push(2);
    let wires = n + 2 + masking.gates.len();
    let netlist = Netlist { wires, inputs, outputs: source.outputs.clone(), gates: masking.gates };
    (netlist, output_codes)
}
