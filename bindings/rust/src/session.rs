//! Sessions: gates added and taken off.

use crate::lent::answer;
use crate::tables::front;
use crate::{Masked, NetlistGate, Refusal, Sizes, Tables};

/// A gate of a session, as the library's lists hold it: a kind, the operands and the result wire.
///
/// ```
/// use fidrovelj::GateRecord;
///
/// let and = GateRecord { kind: 2, first: 0, second: 1, result: 2 };
/// assert_eq!(and.result, 2);
/// ```
#[repr(C)]
#[derive(Clone, Copy, Debug, Default, PartialEq, Eq, Hash)]
pub struct GateRecord {
    /// 1 XOR, 2 AND, 3 INV, 4 EQW, 5 EQ.
    pub kind: u32,
    /// The first operand; of EQ the constant.
    pub first: u32,
    /// The second operand, 0 where there is none.
    pub second: u32,
    /// The result wire.
    pub result: u32,
}

/// A source gate of a session, and where its result stands in the masked netlist.
///
/// ```
/// # use fidrovelj::{Gate, Refusal, Session, Sizes};
/// let mut session = Session::open(&[1], &[3], Sizes::Standard)?;
/// session.add(Gate::Inv(0))?;
/// let gate = session.gates()[0];
/// assert_eq!((gate.kind, gate.wire, gate.code), (3, 6, 3));
/// # Ok::<(), Refusal>(())
/// ```
#[repr(C)]
#[derive(Clone, Copy, Debug, Default, PartialEq, Eq, Hash)]
pub struct SourceGate {
    /// As in [`GateRecord`].
    pub kind: u32,
    /// As in [`GateRecord`].
    pub first: u32,
    /// As in [`GateRecord`].
    pub second: u32,
    /// As in [`GateRecord`].
    pub result: u32,
    /// The wire that the result stands on in the masked netlist.
    pub wire: u32,
    /// The place of the gate's first masked gate in the list of masked gates.
    pub from: u32,
    /// The code of the mask on the result.
    pub code: u8,
}

impl GateRecord {
    /// The gate by name, where the kind is one.
    ///
    /// ```
    /// use fidrovelj::{Gate, GateRecord, NetlistGate};
    ///
    /// let record = GateRecord { kind: 2, first: 0, second: 1, result: 2 };
    /// assert_eq!(record.gate(), Some(NetlistGate { gate: Gate::And(0, 1), result: 2 }));
    /// assert_eq!(GateRecord::default().gate(), None);
    /// ```
    pub fn gate(&self) -> Option<NetlistGate> {
        let gate = Gate::of(self.kind, self.first, self.second)?;
        Some(NetlistGate { gate, result: self.result })
    }
}

impl SourceGate {
    /// The gate by name, where the kind is one.
    ///
    /// ```
    /// use fidrovelj::{Gate, NetlistGate, SourceGate};
    ///
    /// let record = SourceGate { kind: 3, first: 0, result: 1, ..SourceGate::default() };
    /// assert_eq!(record.gate(), Some(NetlistGate { gate: Gate::Inv(0), result: 1 }));
    /// ```
    pub fn gate(&self) -> Option<NetlistGate> {
        let gate = Gate::of(self.kind, self.first, self.second)?;
        Some(NetlistGate { gate, result: self.result })
    }
}

/// How many source gates and how many masked gates stand at the front of a session's lists.
///
/// ```
/// # use fidrovelj::SessionState;
/// assert_eq!(SessionState::default(), SessionState { gates: 0, masked: 0 });
/// ```
#[repr(C)]
#[derive(Clone, Copy, Debug, Default, PartialEq, Eq, Hash)]
pub struct SessionState {
    /// The source gates.
    pub gates: u32,
    /// The masked gates.
    pub masked: u32,
}

/// A step's answer: the session after it, and 0 or the refusing question's number.
#[repr(C)]
struct Step {
    session: SessionState,
    refused: u8,
}

extern "C" {
    fn fidrovelj_session_open(
        widths: *const u32,
        widths_len: usize,
        codes: *const u8,
        codes_len: usize,
        masked: *mut GateRecord,
        masked_len: usize,
        sizes: u8,
    ) -> Step;

    fn fidrovelj_session_add(
        session: SessionState,
        gate: GateRecord,
        codes: *const u8,
        codes_len: usize,
        source: *mut SourceGate,
        source_len: usize,
        masked: *mut GateRecord,
        masked_len: usize,
        sizes: u8,
    ) -> Step;

    fn fidrovelj_session_take_off(
        session: SessionState,
        source: *const SourceGate,
        source_len: usize,
    ) -> Step;

    fn fidrovelj_session_gate(
        session: SessionState,
        gate: u32,
        source: *const SourceGate,
        source_len: usize,
    ) -> SourceGate;

    fn fidrovelj_session_text(
        session: SessionState,
        inputs: *const u32,
        inputs_len: usize,
        outputs: *const u32,
        outputs_len: usize,
        source: *const SourceGate,
        source_len: usize,
        out: *mut u8,
        out_len: usize,
        operands: *mut u64,
        operands_len: usize,
        results: *mut u64,
        results_len: usize,
        sizes: u8,
    ) -> i64;

    fn fidrovelj_session_masked(
        session: SessionState,
        inputs: *const u32,
        inputs_len: usize,
        outputs: *const u32,
        outputs_len: usize,
        source: *const SourceGate,
        source_len: usize,
        codes: *const u8,
        codes_len: usize,
        wanted: *const u8,
        wanted_len: usize,
        out: *mut u8,
        out_len: usize,
        out_codes: *mut u8,
        out_codes_len: usize,
        operands: *mut u64,
        operands_len: usize,
        results: *mut u64,
        results_len: usize,
        wires: *mut u32,
        wires_len: usize,
        marks: *mut u8,
        marks_len: usize,
        sizes: u8,
    ) -> i64;
}

/// A step's answer: the session after it, or the question and the session that the call gave with it.
fn step(step: Step) -> Result<SessionState, (Refusal, SessionState)> {
    match step.refused {
        0 => Ok(step.session),
        number => Err((Refusal::from_number(number).expect("a refusal has a number"), step.session)),
    }
}

/// Opens a session with input values of these widths and a code, 0 to 3, for each input bit: writes the masked gates
/// that stand before those of the source to the front of `masked`. A refusal (4, 5, 11, 14) writes nothing.
///
/// ```
/// # use fidrovelj::{session_open_lent, GateRecord, Refusal, Sizes};
/// # let sizes = Sizes::Standard;
/// let mut masked = [GateRecord::default(); 40];
/// let session = session_open_lent(&[2], &[1, 2], &mut masked, sizes).map_err(|(refusal, _)| refusal)?;
/// assert_eq!((session.gates, session.masked), (0, 3));
/// # Ok::<(), Refusal>(())
/// ```
pub fn session_open_lent(
    widths: &[u32],
    codes: &[u8],
    masked: &mut [GateRecord],
    sizes: Sizes,
) -> Result<SessionState, (Refusal, SessionState)> {
    // SAFETY: each pointer and length is that of a slice, and slices that are `&mut` overlap no other.
    step(unsafe {
        fidrovelj_session_open(
            widths.as_ptr(),
            widths.len(),
            codes.as_ptr(),
            codes.len(),
            masked.as_mut_ptr(),
            masked.len(),
            sizes as u8,
        )
    })
}

/// Adds a gate at the end: its record to `source` and its masked gates to `masked`, after those that are there. A
/// refusal (24, 7, 8, 9, 14) writes nothing.
///
/// ```
/// # use fidrovelj::{session_open_lent, session_add_lent, GateRecord, Refusal, Sizes, SourceGate};
/// # let sizes = Sizes::Standard;
/// let (mut source, mut masked) = ([SourceGate::default(); 4], [GateRecord::default(); 40]);
/// let session = session_open_lent(&[2], &[1, 2], &mut masked, sizes).map_err(|(refusal, _)| refusal)?;
/// let and = GateRecord { kind: 2, first: 0, second: 1, result: 2 };
/// let session = session_add_lent(session, and, &[1, 2], &mut source, &mut masked, sizes).map_err(|(no, _)| no)?;
/// assert_eq!((session.gates, session.masked, source[0].wire), (1, 10, 13));
/// # Ok::<(), Refusal>(())
/// ```
pub fn session_add_lent(
    session: SessionState,
    gate: GateRecord,
    codes: &[u8],
    source: &mut [SourceGate],
    masked: &mut [GateRecord],
    sizes: Sizes,
) -> Result<SessionState, (Refusal, SessionState)> {
    // SAFETY: as in `session_open_lent`.
    step(unsafe {
        fidrovelj_session_add(
            session,
            gate,
            codes.as_ptr(),
            codes.len(),
            source.as_mut_ptr(),
            source.len(),
            masked.as_mut_ptr(),
            masked.len(),
            sizes as u8,
        )
    })
}

/// Takes the last gate off. The lists are not written.
///
/// ```
/// # use fidrovelj::{session_add_lent, session_open_lent, session_take_off_lent};
/// # use fidrovelj::{GateRecord, Refusal, Sizes, SourceGate};
/// # let sizes = Sizes::Standard;
/// let (mut source, mut masked) = ([SourceGate::default(); 4], [GateRecord::default(); 40]);
/// let session = session_open_lent(&[2], &[1, 2], &mut masked, sizes).map_err(|(refusal, _)| refusal)?;
/// let and = GateRecord { kind: 2, first: 0, second: 1, result: 2 };
/// let session = session_add_lent(session, and, &[1, 2], &mut source, &mut masked, sizes).map_err(|(no, _)| no)?;
/// let session = session_take_off_lent(session, &source).map_err(|(refusal, _)| refusal)?;
/// assert_eq!(session.gates, 0);
/// # Ok::<(), Refusal>(())
/// ```
pub fn session_take_off_lent(
    session: SessionState,
    source: &[SourceGate],
) -> Result<SessionState, (Refusal, SessionState)> {
    // SAFETY: as in `session_open_lent`.
    step(unsafe { fidrovelj_session_take_off(session, source.as_ptr(), source.len()) })
}

/// Gate number `gate`, counted from 0, or nothing where there is no such gate.
///
/// ```
/// # use fidrovelj::{session_gate_lent, session_open_lent, session_add_lent, GateRecord, Refusal, Sizes, SourceGate};
/// # let sizes = Sizes::Standard;
/// let (mut source, mut masked) = ([SourceGate::default(); 4], [GateRecord::default(); 40]);
/// let session = session_open_lent(&[2], &[1, 2], &mut masked, sizes).map_err(|(refusal, _)| refusal)?;
/// let and = GateRecord { kind: 2, first: 0, second: 1, result: 2 };
/// let session = session_add_lent(session, and, &[1, 2], &mut source, &mut masked, sizes).map_err(|(no, _)| no)?;
/// assert_eq!(session_gate_lent(session, 0, &source).map(|gate| gate.kind), Some(2));
/// assert_eq!(session_gate_lent(session, 1, &source), None);
/// # Ok::<(), Refusal>(())
/// ```
pub fn session_gate_lent(session: SessionState, gate: u32, source: &[SourceGate]) -> Option<SourceGate> {
    // SAFETY: as in `session_open_lent`.
    let record = unsafe { fidrovelj_session_gate(session, gate, source.as_ptr(), source.len()) };
    // What stands nowhere has kind 0, and no gate has.
    (record.kind != 0).then_some(record)
}

/// Writes the session's netlist to `out` in the written form, with input and output values of these widths: its length.
/// Question 1 asks [`Sizes::source_wires`] entries of each table.
///
/// ```
/// # use fidrovelj::{session_text_lent, session_open_lent, session_add_lent, GateRecord, Refusal, Sizes, SourceGate};
/// # let sizes = Sizes::Standard;
/// let (mut source, mut masked) = ([SourceGate::default(); 4], [GateRecord::default(); 40]);
/// let session = session_open_lent(&[2], &[1, 2], &mut masked, sizes).map_err(|(refusal, _)| refusal)?;
/// let and = GateRecord { kind: 2, first: 0, second: 1, result: 2 };
/// let session = session_add_lent(session, and, &[1, 2], &mut source, &mut masked, sizes).map_err(|(no, _)| no)?;
/// let (mut operands, mut results) = (vec![0; sizes.source_wires()], vec![0; sizes.source_wires()]);
/// let mut out = [0; 100];
/// let length = session_text_lent(session, &[2], &[1], &source, &mut out, &mut operands, &mut results, sizes)?;
/// assert_eq!(&out[..length], b"1 3\n1 2\n1 1\n\n2 1 0 1 2 AND\n");
/// # Ok::<(), Refusal>(())
/// ```
#[allow(clippy::too_many_arguments)]
pub fn session_text_lent(
    session: SessionState,
    inputs: &[u32],
    outputs: &[u32],
    source: &[SourceGate],
    out: &mut [u8],
    operands: &mut [u64],
    results: &mut [u64],
    sizes: Sizes,
) -> Result<usize, Refusal> {
    // SAFETY: as in `session_open_lent`.
    answer(unsafe {
        fidrovelj_session_text(
            session,
            inputs.as_ptr(),
            inputs.len(),
            outputs.as_ptr(),
            outputs.len(),
            source.as_ptr(),
            source.len(),
            out.as_mut_ptr(),
            out.len(),
            operands.as_mut_ptr(),
            operands.len(),
            results.as_mut_ptr(),
            results.len(),
            sizes as u8,
        )
    })
}

/// Writes what [`mask`](crate::mask) gives for that text to `out`, and the code of each output bit to `out_codes`: the
/// masked text's length.
///
/// ```
/// # use fidrovelj::{session_masked_lent, session_open_lent, session_add_lent, GateRecord, Refusal, Sizes, SourceGate};
/// # let sizes = Sizes::Standard;
/// let (mut source, mut masked) = ([SourceGate::default(); 4], [GateRecord::default(); 40]);
/// let session = session_open_lent(&[2], &[1, 2], &mut masked, sizes).map_err(|(refusal, _)| refusal)?;
/// let and = GateRecord { kind: 2, first: 0, second: 1, result: 2 };
/// let session = session_add_lent(session, and, &[1, 2], &mut source, &mut masked, sizes).map_err(|(no, _)| no)?;
/// let (mut operands, mut results) = (vec![0; sizes.source_wires()], vec![0; sizes.source_wires()]);
/// let (mut wires, mut marks) = (vec![0; sizes.source_wires()], vec![0; sizes.source_wires()]);
/// let (mut out, mut codes) = ([0; 1000], [0; 1]);
/// session_masked_lent(
///     session, &[2], &[1], &source, &[1, 2], &[0], &mut out, &mut codes, &mut operands, &mut results, &mut wires,
///     &mut marks, sizes,
/// )?;
/// assert_eq!(codes, [1]);
/// # Ok::<(), Refusal>(())
/// ```
#[allow(clippy::too_many_arguments)]
pub fn session_masked_lent(
    session: SessionState,
    inputs: &[u32],
    outputs: &[u32],
    source: &[SourceGate],
    codes: &[u8],
    wanted: &[u8],
    out: &mut [u8],
    out_codes: &mut [u8],
    operands: &mut [u64],
    results: &mut [u64],
    wires: &mut [u32],
    marks: &mut [u8],
    sizes: Sizes,
) -> Result<usize, Refusal> {
    // SAFETY: as in `session_open_lent`.
    answer(unsafe {
        fidrovelj_session_masked(
            session,
            inputs.as_ptr(),
            inputs.len(),
            outputs.as_ptr(),
            outputs.len(),
            source.as_ptr(),
            source.len(),
            codes.as_ptr(),
            codes.len(),
            wanted.as_ptr(),
            wanted.len(),
            out.as_mut_ptr(),
            out.len(),
            out_codes.as_mut_ptr(),
            out_codes.len(),
            operands.as_mut_ptr(),
            operands.len(),
            results.as_mut_ptr(),
            results.len(),
            wires.as_mut_ptr(),
            wires.len(),
            marks.as_mut_ptr(),
            marks.len(),
            sizes as u8,
        )
    })
}

/// A gate for a [`Session`]: its operands. Its result is the next wire.
///
/// ```
/// use fidrovelj::Gate;
///
/// assert_eq!(format!("{:?}", Gate::And(0, 1)), "And(0, 1)");
/// ```
#[derive(Clone, Copy, Debug, PartialEq, Eq, Hash)]
pub enum Gate {
    /// One when the two differ.
    Xor(u32, u32),
    /// One when both are.
    And(u32, u32),
    /// The other bit.
    Inv(u32),
    /// The same bit.
    Eqw(u32),
    /// A constant.
    Eq(bool),
}

impl Gate {
    fn record(self, result: u32) -> GateRecord {
        let (kind, first, second) = match self {
            Gate::Xor(a, b) => (1, a, b),
            Gate::And(a, b) => (2, a, b),
            Gate::Inv(a) => (3, a, 0),
            Gate::Eqw(a) => (4, a, 0),
            Gate::Eq(bit) => (5, u32::from(bit), 0),
        };
        GateRecord { kind, first, second, result }
    }

    /// The gate of a kind's number and its operands; no kind has another number than 1 to 5.
    fn of(kind: u32, first: u32, second: u32) -> Option<Gate> {
        match kind {
            1 => Some(Gate::Xor(first, second)),
            2 => Some(Gate::And(first, second)),
            3 => Some(Gate::Inv(first)),
            4 => Some(Gate::Eqw(first)),
            5 => Some(Gate::Eq(first == 1)),
            _ => None,
        }
    }
}

/// A source netlist in the making, masked gate by gate: a gate is added at the end, or the last one taken off. At every
/// moment the masked gates are those that [`mask`](crate::mask) gives for the gates that are there. A step takes as
/// long however many there are.
///
/// ```
/// # use fidrovelj::{check, mask, Gate, Refusal, Session, Sizes, Tables};
/// let tables = &mut Tables::new();
/// // Two values of one bit, under masks m0 and m1: wires 0 and 1.
/// let mut session = Session::open(&[1, 1], &[1, 2], Sizes::Standard)?;
/// let and = session.add(Gate::And(0, 1))?;
/// assert_eq!((and, session.masked_gates().len()), (2, 10));
/// session.add(Gate::Xor(and, and))?;
///
/// // On second thoughts an inverter.
/// assert_eq!(session.undo()?, Gate::Xor(2, 2));
/// session.add(Gate::Inv(and))?;
/// let text = session.text(&[1], tables)?;
/// assert_eq!(text, b"2 4\n2 1 1\n1 1\n\n2 1 0 1 2 AND\n1 1 2 3 INV\n");
///
/// let masked = session.masked(&[1], &[0], tables)?;
/// assert_eq!(masked, mask(&text, &[1, 2], &[0], tables)?);
/// assert_eq!(check(&masked.text, &[1, 2], tables)?, None);
///
/// // Wire 9 is not there yet.
/// assert_eq!(session.add(Gate::Inv(9)), Err(Refusal::Operands));
/// # Ok::<(), Refusal>(())
/// ```
#[derive(Clone, Debug)]
pub struct Session {
    state: SessionState,
    widths: Vec<u32>,
    codes: Vec<u8>,
    source: Vec<SourceGate>,
    masked: Vec<GateRecord>,
    sizes: Sizes,
}

impl Session {
    /// A session without gates, with input values of these widths and a mask code, 0 to 3, for each input bit; 0 is a
    /// public bit. Mask's limits hold: there may be [`Sizes::source_wires`] wires.
    ///
    /// Widths that are none or 0 are refused by 4, too many values or bits by 5, and codes by 11.
    ///
    /// ```
    /// # use fidrovelj::{Refusal, Session, Sizes};
    /// assert!(Session::open(&[1, 1], &[1, 2], Sizes::Standard).is_ok());
    /// assert_eq!(Session::open(&[1, 1], &[1], Sizes::Standard).unwrap_err(), Refusal::Inputs);
    /// ```
    pub fn open(widths: &[u32], codes: &[u8], sizes: Sizes) -> Result<Session, Refusal> {
        let mut masked = vec![GateRecord::default(); 3 + codes.len()];
        let state = session_open_lent(widths, codes, &mut masked, sizes).map_err(|(refused, _)| refused)?;
        let (widths, codes) = (widths.to_vec(), codes.to_vec());
        Ok(Session { state, widths, codes, source: Vec::new(), masked, sizes })
    }

    /// Adds a gate at the end: the number of its wire, which is the next. An operand that is no wire yet is refused by
    /// 8, a gate beyond the most wires by 24.
    ///
    /// ```
    /// # use fidrovelj::{Gate, Refusal, Session, Sizes};
    /// let mut session = Session::open(&[1, 1], &[1, 2], Sizes::Standard)?;
    /// assert_eq!(session.add(Gate::And(0, 1))?, 2);
    /// assert_eq!(session.add(Gate::Inv(7)), Err(Refusal::Operands));
    /// # Ok::<(), Refusal>(())
    /// ```
    pub fn add(&mut self, gate: Gate) -> Result<u32, Refusal> {
        // The lists are long enough for any gate: eight masked ones at most.
        let (gates, masked) = (self.state.gates as usize, self.state.masked as usize);
        if self.source.len() == gates {
            self.source.resize(2 * gates + 16, SourceGate::default());
        }
        if self.masked.len() < masked + 8 {
            self.masked.resize(2 * masked + 8, GateRecord::default());
        }
        let result = self.wires();
        let Session { state, codes, source, masked, sizes, .. } = self;
        *state = session_add_lent(*state, gate.record(result), codes, source, masked, *sizes)
            .map_err(|(refused, _)| refused)?;
        Ok(result)
    }

    /// Takes the last gate off, and gives it back. Where there is none, it is refused by 23.
    ///
    /// ```
    /// # use fidrovelj::{Gate, Refusal, Session, Sizes};
    /// let mut session = Session::open(&[1, 1], &[1, 2], Sizes::Standard)?;
    /// session.add(Gate::And(0, 1))?;
    /// assert_eq!(session.undo()?, Gate::And(0, 1));
    /// assert_eq!(session.undo(), Err(Refusal::Gate));
    /// # Ok::<(), Refusal>(())
    /// ```
    pub fn undo(&mut self) -> Result<Gate, Refusal> {
        let last = self.gates().last().and_then(SourceGate::gate);
        self.state = session_take_off_lent(self.state, &self.source).map_err(|(refused, _)| refused)?;
        Ok(last.expect("a gate was taken off").gate)
    }

    /// The number of wires: the input bits and the gates.
    ///
    /// ```
    /// # use fidrovelj::{Gate, Refusal, Session, Sizes};
    /// let mut session = Session::open(&[1, 1], &[1, 2], Sizes::Standard)?;
    /// session.add(Gate::And(0, 1))?;
    /// assert_eq!(session.wires(), 3);
    /// # Ok::<(), Refusal>(())
    /// ```
    pub fn wires(&self) -> u32 {
        self.codes.len() as u32 + self.state.gates
    }

    /// The source gates, each with the masked wire that its result stands on and the code of its mask.
    ///
    /// ```
    /// # use fidrovelj::{Gate, Refusal, Session, Sizes};
    /// let mut session = Session::open(&[1, 1], &[1, 2], Sizes::Standard)?;
    /// session.add(Gate::And(0, 1))?;
    /// assert_eq!(session.gates()[0].result, 2);
    /// # Ok::<(), Refusal>(())
    /// ```
    pub fn gates(&self) -> &[SourceGate] {
        &self.source[..self.state.gates as usize]
    }

    /// The masked gates before the copies of the output bits.
    ///
    /// ```
    /// # use fidrovelj::{Gate, Refusal, Session, Sizes};
    /// let mut session = Session::open(&[1, 1], &[1, 2], Sizes::Standard)?;
    /// session.add(Gate::And(0, 1))?;
    /// assert_eq!(session.masked_gates().len(), 10);
    /// # Ok::<(), Refusal>(())
    /// ```
    pub fn masked_gates(&self) -> &[GateRecord] {
        &self.masked[..self.state.masked as usize]
    }

    /// Gate number `gate`, counted from 0, or nothing where there is no such gate.
    ///
    /// ```
    /// # use fidrovelj::{Gate, Refusal, Session, Sizes};
    /// let mut session = Session::open(&[1, 1], &[1, 2], Sizes::Standard)?;
    /// session.add(Gate::And(0, 1))?;
    /// assert_eq!(session.gate(0).map(|gate| gate.code), Some(1));
    /// assert_eq!(session.gate(1), None);
    /// # Ok::<(), Refusal>(())
    /// ```
    pub fn gate(&self, gate: u32) -> Option<SourceGate> {
        session_gate_lent(self.state, gate, &self.source)
    }

    /// The netlist, in the written form, with output values of these widths: their bits are the last wires. Widths that
    /// are none or 0 are refused by 4, too many values or bits by 5. Tables that are kept to smaller sizes than the
    /// session's are refused by 1.
    ///
    /// ```
    /// # use fidrovelj::{Gate, Refusal, Session, Sizes, Tables};
    /// let mut session = Session::open(&[1], &[1], Sizes::Standard)?;
    /// session.add(Gate::Inv(0))?;
    /// assert_eq!(session.text(&[1], &mut Tables::new())?, b"1 2\n1 1\n1 1\n\n1 1 0 1 INV\n");
    /// # Ok::<(), Refusal>(())
    /// ```
    pub fn text(&self, outputs: &[u32], tables: &mut Tables) -> Result<Vec<u8>, Refusal> {
        let sizes = tables.sizes_for(self.sizes);
        let t = tables;
        let table = sizes.source_wires();
        let length = session_text_lent(
            self.state,
            &self.widths,
            outputs,
            &self.source,
            front(&mut t.text, sizes.text()),
            front(&mut t.operands, table),
            front(&mut t.results, table),
            self.sizes,
        )?;
        Ok(t.text[..length].to_vec())
    }

    /// What [`mask`](crate::mask) gives for that netlist, with a wanted code, 0 to 3, for each output bit: other lists
    /// are refused by 13.
    ///
    /// ```
    /// # use fidrovelj::{mask, Gate, Refusal, Session, Sizes, Tables};
    /// let tables = &mut Tables::new();
    /// let mut session = Session::open(&[1], &[1], Sizes::Standard)?;
    /// session.add(Gate::Inv(0))?;
    /// let text = session.text(&[1], tables)?;
    /// assert_eq!(session.masked(&[1], &[2], tables)?, mask(&text, &[1], &[2], tables)?);
    /// # Ok::<(), Refusal>(())
    /// ```
    pub fn masked(&self, outputs: &[u32], wanted: &[u8], tables: &mut Tables) -> Result<Masked, Refusal> {
        let sizes = tables.sizes_for(self.sizes);
        let t = tables;
        let table = sizes.source_wires();
        let length = session_masked_lent(
            self.state,
            &self.widths,
            outputs,
            &self.source,
            &self.codes,
            wanted,
            front(&mut t.text, sizes.text()),
            front(&mut t.bits, sizes.masked_wires()),
            front(&mut t.operands, table),
            front(&mut t.results, table),
            front(&mut t.wires, table),
            front(&mut t.marks, table),
            self.sizes,
        )?;
        Ok(Masked { text: t.text[..length].to_vec(), codes: t.bits[..wanted.len()].to_vec() })
    }
}
