//! Netlists that are read once and asked many times.

use std::fmt;

use crate::{Certified, Fewest, Gate, Leak, Masked, Pairs, Refusal, Tables, Twin, Wide};

/// A netlist that was read: its text in the written form, and its shape. The services are its methods.
///
/// ```
/// use fidrovelj::{Gate, Netlist, NetlistGate, Tables};
///
/// let tables = &mut Tables::new();
/// let netlist = Netlist::parse(b"2 4\n2 1 1\n1 2\n2 1 0 1 2 AND\n1 1 2 3 INV", tables)?;
/// assert_eq!((netlist.wires(), netlist.len(), netlist.inputs()), (4, 2, &[1, 1][..]));
/// let gates: Vec<NetlistGate> = netlist.gates().collect();
/// assert_eq!(gates[1], NetlistGate { gate: Gate::Inv(2), result: 3 });
/// assert_eq!(netlist.run(&[1, 1], tables)?, [1, 0]);
/// assert_eq!(netlist.to_string(), "2 4\n2 1 1\n1 2\n\n2 1 0 1 2 AND\n1 1 2 3 INV\n");
/// # Ok::<(), fidrovelj::Refusal>(())
/// ```
#[derive(Clone, PartialEq, Eq, Hash)]
pub struct Netlist {
    text: String,
    wires: u32,
    inputs: Vec<u32>,
    outputs: Vec<u32>,
}

/// A gate of a netlist, and the wire that it gives.
///
/// ```
/// use fidrovelj::{Gate, NetlistGate};
///
/// let gate = NetlistGate { gate: Gate::And(0, 1), result: 2 };
/// assert_eq!(gate.to_string(), "2 1 0 1 2 AND");
/// ```
#[derive(Clone, Copy, Debug, PartialEq, Eq, Hash)]
pub struct NetlistGate {
    /// What the gate does, and its operands.
    pub gate: Gate,
    /// The result wire.
    pub result: u32,
}

impl fmt::Display for NetlistGate {
    fn fmt(&self, f: &mut fmt::Formatter<'_>) -> fmt::Result {
        let result = self.result;
        match self.gate {
            Gate::Xor(a, b) => write!(f, "2 1 {a} {b} {result} XOR"),
            Gate::And(a, b) => write!(f, "2 1 {a} {b} {result} AND"),
            Gate::Inv(a) => write!(f, "1 1 {a} {result} INV"),
            Gate::Eqw(a) => write!(f, "1 1 {a} {result} EQW"),
            Gate::Eq(bit) => write!(f, "1 1 {} {result} EQ", u8::from(bit)),
        }
    }
}

/// The gates of a netlist, in order: [`Netlist::gates`].
///
/// ```
/// # use fidrovelj::{Netlist, Tables};
/// let netlist = Netlist::parse(b"1 2\n1 1\n1 1\n1 1 0 1 INV\n", &mut Tables::new())?;
/// assert_eq!(netlist.gates().len(), 1);
/// # Ok::<(), fidrovelj::Refusal>(())
/// ```
#[derive(Clone, Debug)]
pub struct Gates<'a> {
    lines: std::str::Lines<'a>,
    left: usize,
}

impl Iterator for Gates<'_> {
    type Item = NetlistGate;

    fn next(&mut self) -> Option<NetlistGate> {
        let gate = gate_of(self.lines.next()?);
        self.left -= 1;
        Some(gate)
    }

    fn size_hint(&self) -> (usize, Option<usize>) {
        (self.left, Some(self.left))
    }
}

impl ExactSizeIterator for Gates<'_> {}

/// The gate of a line in the written form.
fn gate_of(line: &str) -> NetlistGate {
    let words: Vec<&str> = line.split(' ').collect();
    let number = |place: usize| -> u32 { words[place].parse().expect("the written form has numbers") };
    let (gate, result) = match words[words.len() - 1] {
        "XOR" => (Gate::Xor(number(2), number(3)), number(4)),
        "AND" => (Gate::And(number(2), number(3)), number(4)),
        "INV" => (Gate::Inv(number(2)), number(3)),
        "EQW" => (Gate::Eqw(number(2)), number(3)),
        _ => (Gate::Eq(number(2) == 1), number(3)),
    };
    NetlistGate { gate, result }
}

impl Netlist {
    /// Reads a text in Bristol Fashion; it is refused by 2 to 9.
    ///
    /// ```
    /// use fidrovelj::{Netlist, Refusal, Tables};
    ///
    /// let tables = &mut Tables::new();
    /// assert!(Netlist::parse(b"0 1\n1 1\n1 1\n", tables).is_ok());
    /// let refusal = Netlist::parse(b"1 2\n1 1\n1 1\n1 1 0 1 NOT\n", tables).unwrap_err();
    /// assert_eq!(refusal, Refusal::Line);
    /// ```
    pub fn parse(text: &[u8], tables: &mut Tables) -> Result<Netlist, Refusal> {
        crate::rewrite(text, tables).map(Netlist::written)
    }

    /// Reads a text in the older dialect ([`from_old`](crate::from_old)).
    ///
    /// ```
    /// # use fidrovelj::{Netlist, Refusal, Tables};
    /// let netlist = Netlist::from_old(b"1 3\n1 1 1\n2 1 0 1 2 AND\n", &mut Tables::new())?;
    /// assert_eq!(netlist.inputs(), [1, 1]);
    /// # Ok::<(), Refusal>(())
    /// ```
    pub fn from_old(text: &[u8], tables: &mut Tables) -> Result<Netlist, Refusal> {
        crate::from_old(text, tables).map(Netlist::written)
    }

    /// Reads an ASCII AIGER file ([`from_aiger`](crate::from_aiger)).
    ///
    /// ```
    /// # use fidrovelj::{Netlist, Refusal, Tables};
    /// let netlist = Netlist::from_aiger(b"aag 3 2 0 1 1\n2\n4\n6\n6 4 2\n", &mut Tables::new())?;
    /// assert_eq!(netlist.input_bits(), 2);
    /// # Ok::<(), Refusal>(())
    /// ```
    pub fn from_aiger(text: &[u8], tables: &mut Tables) -> Result<Netlist, Refusal> {
        crate::from_aiger(text, tables).map(Netlist::written)
    }

    /// Reads equations ([`from_verilog`](crate::from_verilog)).
    ///
    /// ```
    /// # use fidrovelj::{Netlist, Refusal, Tables};
    /// let tables = &mut Tables::new();
    /// let module = b"module m(a, b, y); input a, b; output y; assign y = a & ~b; endmodule";
    /// assert_eq!(Netlist::from_verilog(module, tables)?.run(&[1, 0], tables)?, [1]);
    /// # Ok::<(), Refusal>(())
    /// ```
    pub fn from_verilog(text: &[u8], tables: &mut Tables) -> Result<Netlist, Refusal> {
        crate::from_verilog(text, tables).map(Netlist::written)
    }

    /// The netlist of a text in the written form.
    fn written(text: Vec<u8>) -> Netlist {
        let text = String::from_utf8(text).expect("the written form is ASCII");
        let mut lines = text.lines();
        let mut numbers = || -> Vec<u32> {
            let line = lines.next().expect("the written form has three header lines");
            line.split(' ').map(|word| word.parse().expect("the header has numbers")).collect()
        };
        let (first, inputs, outputs) = (numbers(), numbers(), numbers());
        Netlist { wires: first[1], inputs: inputs[1..].to_vec(), outputs: outputs[1..].to_vec(), text }
    }

    /// Its text, in the written form.
    ///
    /// ```
    /// # use fidrovelj::{Netlist, Refusal, Tables};
    /// assert_eq!(Netlist::parse(b"0 1\n1 1\n1 1", &mut Tables::new())?.text(), "0 1\n1 1\n1 1\n\n");
    /// # Ok::<(), Refusal>(())
    /// ```
    pub fn text(&self) -> &str {
        &self.text
    }

    /// How many wires it has.
    ///
    /// ```
    /// # use fidrovelj::{Netlist, Refusal, Tables};
    /// assert_eq!(Netlist::parse(b"0 1\n1 1\n1 1", &mut Tables::new())?.wires(), 1);
    /// # Ok::<(), Refusal>(())
    /// ```
    pub fn wires(&self) -> u32 {
        self.wires
    }

    /// The widths of its input values; their bits are its first wires.
    ///
    /// ```
    /// # use fidrovelj::{Netlist, Refusal, Tables};
    /// assert_eq!(Netlist::parse(b"0 3\n2 1 2\n1 1", &mut Tables::new())?.inputs(), [1, 2]);
    /// # Ok::<(), Refusal>(())
    /// ```
    pub fn inputs(&self) -> &[u32] {
        &self.inputs
    }

    /// The widths of its output values; their bits are its last wires.
    ///
    /// ```
    /// # use fidrovelj::{Netlist, Refusal, Tables};
    /// assert_eq!(Netlist::parse(b"0 3\n2 1 2\n1 1", &mut Tables::new())?.outputs(), [1]);
    /// # Ok::<(), Refusal>(())
    /// ```
    pub fn outputs(&self) -> &[u32] {
        &self.outputs
    }

    /// How many input bits it has: as many entries takes a list of bits or codes.
    ///
    /// ```
    /// # use fidrovelj::{Netlist, Refusal, Tables};
    /// assert_eq!(Netlist::parse(b"0 3\n2 1 2\n1 1", &mut Tables::new())?.input_bits(), 3);
    /// # Ok::<(), Refusal>(())
    /// ```
    pub fn input_bits(&self) -> usize {
        self.inputs.iter().sum::<u32>() as usize
    }

    /// How many output bits it has.
    ///
    /// ```
    /// # use fidrovelj::{Netlist, Refusal, Tables};
    /// assert_eq!(Netlist::parse(b"0 3\n2 1 2\n1 1", &mut Tables::new())?.output_bits(), 1);
    /// # Ok::<(), Refusal>(())
    /// ```
    pub fn output_bits(&self) -> usize {
        self.outputs.iter().sum::<u32>() as usize
    }

    /// How many gates it has.
    ///
    /// ```
    /// # use fidrovelj::{Netlist, Refusal, Tables};
    /// assert_eq!(Netlist::parse(b"1 2\n1 1\n1 1\n1 1 0 1 INV", &mut Tables::new())?.len(), 1);
    /// # Ok::<(), Refusal>(())
    /// ```
    pub fn len(&self) -> usize {
        self.wires as usize - self.input_bits()
    }

    /// Whether it has no gate.
    ///
    /// ```
    /// # use fidrovelj::{Netlist, Refusal, Tables};
    /// assert!(Netlist::parse(b"0 1\n1 1\n1 1", &mut Tables::new())?.is_empty());
    /// # Ok::<(), Refusal>(())
    /// ```
    pub fn is_empty(&self) -> bool {
        self.len() == 0
    }

    /// Its gates, in order.
    ///
    /// ```
    /// # use fidrovelj::{Gate, Netlist, Refusal, Tables};
    /// let netlist = Netlist::parse(b"1 2\n1 1\n1 1\n1 1 1 1 EQ", &mut Tables::new())?;
    /// assert!(netlist.gates().all(|it| it.gate == Gate::Eq(true)));
    /// # Ok::<(), Refusal>(())
    /// ```
    pub fn gates(&self) -> Gates<'_> {
        let mut lines = self.text.lines();
        lines.nth(3);
        Gates { lines, left: self.len() }
    }

    /// Its output bits for one bit, 0 or 1, for each input bit: [`run`](crate::run).
    ///
    /// ```
    /// # use fidrovelj::{Netlist, Refusal, Tables};
    /// let tables = &mut Tables::new();
    /// let inverter = Netlist::parse(b"1 2\n1 1\n1 1\n1 1 0 1 INV", tables)?;
    /// assert_eq!(inverter.run(&[0], tables)?, [1]);
    /// # Ok::<(), Refusal>(())
    /// ```
    pub fn run(&self, bits: &[u8], tables: &mut Tables) -> Result<Vec<u8>, Refusal> {
        crate::run(self.text.as_bytes(), bits, tables)
    }

    /// Its output words for a word for each input bit: [`run64`](crate::run64).
    ///
    /// ```
    /// # use fidrovelj::{Netlist, Refusal, Tables};
    /// let tables = &mut Tables::new();
    /// let inverter = Netlist::parse(b"1 2\n1 1\n1 1\n1 1 0 1 INV", tables)?;
    /// assert_eq!(inverter.run64(&[0b01], tables)?, [!0b01]);
    /// # Ok::<(), Refusal>(())
    /// ```
    pub fn run64(&self, words: &[u64], tables: &mut Tables) -> Result<Vec<u64>, Refusal> {
        crate::run64(self.text.as_bytes(), words, tables)
    }

    /// The masked netlist: [`mask`](crate::mask).
    ///
    /// ```
    /// # use fidrovelj::{codes, Netlist, Refusal, Tables};
    /// let tables = &mut Tables::new();
    /// let inverter = Netlist::parse(b"1 2\n1 1\n1 1\n1 1 0 1 INV", tables)?;
    /// assert_eq!(inverter.mask(&[codes::BOTH], &[codes::M1], tables)?.codes, [codes::M1]);
    /// # Ok::<(), Refusal>(())
    /// ```
    pub fn mask(&self, codes: &[u8], wanted: &[u8], tables: &mut Tables) -> Result<Masked, Refusal> {
        crate::mask(self.text.as_bytes(), codes, wanted, tables)
    }

    /// The masked netlist with the fewest changes that the budget finds: [`mask_fewest`](crate::mask_fewest).
    ///
    /// ```
    /// # use fidrovelj::{codes, Netlist, Refusal, Tables};
    /// let tables = &mut Tables::new();
    /// let and = Netlist::parse(b"1 3\n2 1 1\n1 1\n2 1 0 1 2 AND", tables)?;
    /// assert_eq!(and.mask_fewest(&[codes::FREE; 2], &[0], 18, tables)?.changes, 0);
    /// # Ok::<(), Refusal>(())
    /// ```
    pub fn mask_fewest(
        &self,
        codes: &[u8],
        wanted: &[u8],
        budget: u64,
        tables: &mut Tables,
    ) -> Result<Fewest, Refusal> {
        crate::mask_fewest(self.text.as_bytes(), codes, wanted, budget, tables)
    }

    /// Where each of its wires stands in the masked netlist: [`twins`](crate::twins).
    ///
    /// ```
    /// # use fidrovelj::{Netlist, Refusal, Tables, Twin};
    /// let tables = &mut Tables::new();
    /// let inverter = Netlist::parse(b"1 2\n1 1\n1 1\n1 1 0 1 INV", tables)?;
    /// assert_eq!(inverter.twins(&[3], tables)?[0], Twin { wire: 0, code: 3 });
    /// # Ok::<(), Refusal>(())
    /// ```
    pub fn twins(&self, codes: &[u8], tables: &mut Tables) -> Result<Vec<Twin>, Refusal> {
        crate::twins(self.text.as_bytes(), codes, tables)
    }

    /// Whether it is clean, or a leak: [`check`](crate::check).
    ///
    /// ```
    /// # use fidrovelj::{Netlist, Refusal, Tables};
    /// let tables = &mut Tables::new();
    /// let open = Netlist::parse(b"1 4\n2 1 2\n1 1\n\n2 1 0 1 3 XOR\n", tables)?;
    /// assert_eq!(open.check(&[1], tables)?.map(|leak| leak.wire), Some(3));
    /// # Ok::<(), Refusal>(())
    /// ```
    pub fn check(&self, codes: &[u8], tables: &mut Tables) -> Result<Option<Leak>, Refusal> {
        crate::check(self.text.as_bytes(), codes, tables)
    }

    /// Whether it is clean, and each listed pair of wires too: [`check_pairs`](crate::check_pairs).
    ///
    /// ```
    /// # use fidrovelj::{Netlist, Refusal, Tables};
    /// let tables = &mut Tables::new();
    /// let held = Netlist::parse(b"0 3\n2 1 2\n1 1\n", tables)?;
    /// assert_eq!(held.check_pairs(&[1], &[0, 2, 0, 1], tables)?.bad, Some(1));
    /// # Ok::<(), Refusal>(())
    /// ```
    pub fn check_pairs(&self, codes: &[u8], pairs: &[u32], tables: &mut Tables) -> Result<Pairs, Refusal> {
        crate::check_pairs(self.text.as_bytes(), codes, pairs, tables)
    }

    /// The same of many inputs: [`check_wide`](crate::check_wide).
    ///
    /// ```
    /// # use fidrovelj::{Netlist, Refusal, Tables};
    /// let tables = &mut Tables::new();
    /// let wide = Netlist::parse(b"0 22\n2 20 2\n1 1\n", tables)?;
    /// assert_eq!(wide.check_wide(&[1; 20], &[], tables)?.leak, None);
    /// # Ok::<(), Refusal>(())
    /// ```
    pub fn check_wide(&self, codes: &[u8], pairs: &[u32], tables: &mut Tables) -> Result<Wide, Refusal> {
        crate::check_wide(self.text.as_bytes(), codes, pairs, tables)
    }

    /// Clean, a leak or not decided, for any number of inputs: [`certify`](crate::certify).
    ///
    /// ```
    /// # use fidrovelj::{Certified, Netlist, Refusal, Tables};
    /// let tables = &mut Tables::new();
    /// let wide = Netlist::parse(b"0 22\n2 20 2\n1 1\n", tables)?;
    /// assert_eq!(wide.certify(&[1; 20], tables)?, Certified::Clean);
    /// # Ok::<(), Refusal>(())
    /// ```
    pub fn certify(&self, codes: &[u8], tables: &mut Tables) -> Result<Certified, Refusal> {
        crate::certify(self.text.as_bytes(), codes, tables)
    }

    /// Its text in the older dialect: [`to_old`](crate::to_old).
    ///
    /// ```
    /// # use fidrovelj::{Netlist, Refusal, Tables};
    /// let tables = &mut Tables::new();
    /// let and = Netlist::parse(b"1 3\n2 1 1\n1 1\n2 1 0 1 2 AND", tables)?;
    /// assert_eq!(and.to_old(tables)?, b"1 3\n1 1 1\n\n2 1 0 1 2 AND\n");
    /// # Ok::<(), Refusal>(())
    /// ```
    pub fn to_old(&self, tables: &mut Tables) -> Result<Vec<u8>, Refusal> {
        crate::to_old(self.text.as_bytes(), tables)
    }
}

impl fmt::Display for Netlist {
    fn fmt(&self, f: &mut fmt::Formatter<'_>) -> fmt::Result {
        f.write_str(&self.text)
    }
}

impl fmt::Debug for Netlist {
    fn fmt(&self, f: &mut fmt::Formatter<'_>) -> fmt::Result {
        let mut shown = f.debug_struct("Netlist");
        shown.field("gates", &self.len()).field("wires", &self.wires);
        shown.field("inputs", &self.inputs).field("outputs", &self.outputs).field("text", &self.text).finish()
    }
}
