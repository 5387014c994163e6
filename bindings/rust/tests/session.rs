//! Sessions: rows of steps against a session written apart from the library, which keeps the list of source gates and
//! nothing else and masks it afresh whenever it is looked at. Every lent entry is compared after every step.
//!
//! `FIDROVELJ_CALLS` sets how many rows are made, a hundredth of it here, `FIDROVELJ_SEED` the first one's seed.

#[allow(dead_code)]
mod calls;
#[allow(dead_code)]
mod reference;

use calls::netlists::widths;
use calls::random::Random;
use calls::{circuits, netlists};
use fidrovelj::{
    check, mask, rewrite, session_add_lent, session_gate_lent, session_masked_lent, session_open_lent,
    session_take_off_lent, session_text_lent, twins, GateRecord, Masked, Refusal, Session, SessionState, SourceGate, Tables,
};
use reference::ask;
use reference::netlist::{read, Gate, Netlist, Sizes, LARGE, SMALL};
use std::env;

// ---- the session written apart

/// A session: what it was opened with, and its source gates.
#[derive(Clone, Debug)]
struct Model {
    sizes: Sizes,
    widths: Vec<usize>,
    codes: Vec<u8>,
    gates: Vec<Gate>,
}

/// The gate of a record: question 7 admits five kinds, and no second operand where there is one.
fn gate_of(record: &GateRecord) -> Option<Gate> {
    let GateRecord { kind, first, second, result } = *record;
    let (a, b, c) = (first as usize, second as usize, result as usize);
    match (kind, second) {
        (1, _) => Some(Gate::Xor(a, b, c)),
        (2, _) => Some(Gate::And(a, b, c)),
        (3, 0) => Some(Gate::Inv(a, c)),
        (4, 0) => Some(Gate::Eqw(a, c)),
        (5, 0) => Some(Gate::Eq(a, c)),
        _ => None,
    }
}

fn record_of(gate: &Gate) -> GateRecord {
    let (kind, first, second) = match *gate {
        Gate::Xor(a, b, _) => (1, a, b),
        Gate::And(a, b, _) => (2, a, b),
        Gate::Inv(a, _) => (3, a, 0),
        Gate::Eqw(a, _) => (4, a, 0),
        Gate::Eq(v, _) => (5, v, 0),
    };
    let number = |wire: usize| wire as u32;
    GateRecord { kind, first: number(first), second: number(second), result: number(gate.result()) }
}

impl Model {
    /// Opens with input widths and codes, under 4, 5, 11 and 14.
    fn open(widths: &[u32], codes: &[u8], room: usize, sizes: Sizes) -> Result<Model, u8> {
        let limits = sizes.small();
        let widths: Vec<usize> = widths.iter().map(|&width| width as usize).collect();
        ask(4, !widths.is_empty() && widths.iter().all(|&width| width >= 1))?;
        ask(5, widths.len() <= limits.inputs && widths.iter().sum::<usize>() <= limits.wires)?;
        ask(11, codes.len() == widths.iter().sum::<usize>() && codes.iter().all(|&code| code <= 3))?;
        let model = Model { sizes, widths, codes: codes.to_vec(), gates: Vec::new() };
        ask(14, model.masked_gates().len() <= room)?;
        Ok(model)
    }

    fn wires(&self) -> usize {
        self.codes.len() + self.gates.len()
    }

    /// The gate's own questions, 7 to 9: 9 is any result but the next wire.
    fn asked(&self, record: &GateRecord) -> Result<Gate, u8> {
        let next = self.wires();
        let gate = gate_of(record).ok_or(7)?;
        let given = |wire: usize| wire < next;
        ask(
            8,
            match gate {
                Gate::Xor(a, b, _) | Gate::And(a, b, _) => given(a) && given(b),
                Gate::Inv(a, _) | Gate::Eqw(a, _) => given(a),
                Gate::Eq(v, _) => v <= 1,
            },
        )?;
        ask(9, gate.result() == next)?;
        Ok(gate)
    }

    /// Adds at the end: 24, then the gate's own questions, then 14. Lists have room for so many records and masked gates.
    fn add(&mut self, record: &GateRecord, places: usize, room: usize) -> Result<(), u8> {
        ask(24, self.gates.len() < places && self.wires() < self.sizes.small().wires)?;
        let gate = self.asked(record)?;
        self.gates.push(gate);
        if self.masked_gates().len() > room {
            self.gates.pop();
            return Err(14);
        }
        Ok(())
    }

    fn take_off(&mut self) -> Result<(), u8> {
        self.gates.pop().map(|_| ()).ok_or(23)
    }

    fn netlist(&self, outputs: &[usize]) -> Netlist {
        let (inputs, outputs) = (self.widths.clone(), outputs.to_vec());
        Netlist { wires: self.wires(), inputs, outputs, gates: self.gates.clone() }
    }

    /// The masked gates before the output copies, by masking afresh: all but the copy of a single output bit.
    fn masked_gates(&self) -> Vec<GateRecord> {
        let (masked, _) = reference::mask::mask(&self.netlist(&[1]), &self.codes, &[0]);
        masked.gates[..masked.gates.len() - 1].iter().map(record_of).collect()
    }

    fn state(&self) -> SessionState {
        SessionState { gates: self.gates.len() as u32, masked: self.masked_gates().len() as u32 }
    }

    /// The records of the source gates: the twin of each result, and the place of the first masked gate.
    fn records(&self) -> Vec<SourceGate> {
        let twins = reference::mask::twins(&self.netlist(&[1]), &self.codes);
        let opening = 3 + self.codes.iter().filter(|&&code| code == 0).count();
        let mut from = opening;
        let mut records = Vec::new();
        for (gate, twin) in self.gates.iter().zip(&twins[self.codes.len()..]) {
            let GateRecord { kind, first, second, result } = record_of(gate);
            let (wire, code) = (twin.wire as u32, twin.code);
            records.push(SourceGate { kind, first, second, result, wire, from: from as u32, code });
            // A twin is the last of its gate's masked gates.
            from = twin.wire - self.codes.len() - 1;
        }
        records
    }
}

// ---- the library's session

/// A session of the library and its lists, each with some entries behind that are not lent.
#[derive(Clone, Debug, PartialEq, Eq)]
struct Lent {
    sizes: fidrovelj::Sizes,
    state: SessionState,
    codes: Vec<u8>,
    source: Vec<SourceGate>,
    masked: Vec<GateRecord>,
    places: usize,
    room: usize,
}

const BEHIND: usize = 12;

fn rubbish_gate(random: &mut Random) -> GateRecord {
    let mut number = || random.next() as u32;
    GateRecord { kind: number(), first: number(), second: number(), result: number() }
}

fn rubbish_source(random: &mut Random) -> SourceGate {
    let GateRecord { kind, first, second, result } = rubbish_gate(random);
    let (wire, from, code) = (random.next() as u32, random.next() as u32, random.next() as u8);
    SourceGate { kind, first, second, result, wire, from, code }
}

impl Lent {
    /// Lists full of rubbish, and a session without gates.
    fn new(random: &mut Random, sizes: Sizes, codes: &[u8], places: usize, room: usize) -> Lent {
        let sizes = match sizes {
            Sizes::Standard => fidrovelj::Sizes::Standard,
            Sizes::Whole => fidrovelj::Sizes::Whole,
        };
        let source = (0..places + BEHIND).map(|_| rubbish_source(random)).collect();
        let masked = (0..room + BEHIND).map(|_| rubbish_gate(random)).collect();
        Lent { sizes, state: SessionState::default(), codes: codes.to_vec(), source, masked, places, room }
    }

    /// A step's answer: the session behind it. With a refusal comes the session as it was.
    fn settle(&mut self, answer: Result<SessionState, (Refusal, SessionState)>) -> Result<(), Refusal> {
        let before = self.state;
        self.state = answer.map_err(|(refused, state)| {
            assert_eq!(state, before, "a refusal leaves the session as it was");
            refused
        })?;
        Ok(())
    }

    fn open(&mut self, widths: &[u32]) -> Result<(), Refusal> {
        let answer = session_open_lent(widths, &self.codes, &mut self.masked[..self.room], self.sizes);
        self.settle(answer)
    }

    fn add(&mut self, gate: GateRecord) -> Result<(), Refusal> {
        let (source, masked) = (&mut self.source[..self.places], &mut self.masked[..self.room]);
        let answer = session_add_lent(self.state, gate, &self.codes, source, masked, self.sizes);
        self.settle(answer)
    }

    fn take_off(&mut self) -> Result<(), Refusal> {
        let answer = session_take_off_lent(self.state, &self.source[..self.places]);
        self.settle(answer)
    }

    /// From `before` on only these entries of the lists were written.
    fn assert_written(&self, name: &str, before: &Lent, source: usize, masked: usize) {
        let (gates, first) = (before.state.gates as usize, before.state.masked as usize);
        for (place, (now, then)) in self.source.iter().zip(&before.source).enumerate() {
            let added = place >= gates && place - gates < source;
            assert!(added || now == then, "{name}: source gate {place} was written");
        }
        for (place, (now, then)) in self.masked.iter().zip(&before.masked).enumerate() {
            let added = place >= first && place - first < masked;
            assert!(added || now == then, "{name}: masked gate {place} was written");
        }
    }
}

#[derive(Clone, Copy, Debug)]
enum Move {
    Add(GateRecord),
    TakeOff,
}

/// One step on both sides: the same answer, the session's numbers, the gates at the fronts of the lists, and all other entries as
/// they were. The number of the question, or 0.
fn assert_step(name: &str, lent: &mut Lent, model: &mut Model, step: Move) -> u8 {
    let before = lent.clone();
    let (answer, expected) = match step {
        Move::Add(record) => (lent.add(record), model.add(&record, lent.places, lent.room)),
        Move::TakeOff => (lent.take_off(), model.take_off()),
    };
    assert_eq!(answer, expected.map_err(|question| Refusal::from_number(question).unwrap()), "{name}: {step:?}");
    assert_eq!(lent.state, model.state(), "{name}: {step:?}");
    let added = |now: u32, then: u32| now.saturating_sub(then) as usize;
    let (source, masked) =
        (added(lent.state.gates, before.state.gates), added(lent.state.masked, before.state.masked));
    lent.assert_written(&format!("{name}: {step:?}"), &before, source, masked);
    assert_eq!(lent.source[..model.gates.len()], model.records(), "{name}: {step:?}");
    let gates = model.masked_gates();
    assert_eq!(lent.masked[..gates.len()], gates, "{name}: {step:?}");
    expected.err().unwrap_or(0)
}

/// A session opened on both sides, or the question that refuses it.
fn assert_open(
    random: &mut Random,
    name: &str,
    sizes: Sizes,
    widths: &[u32],
    codes: &[u8],
    places: usize,
    room: usize,
) -> Result<(Lent, Model), u8> {
    let mut lent = Lent::new(random, sizes, codes, places, room);
    let before = lent.clone();
    let answer = lent.open(widths);
    let expected = Model::open(widths, codes, room, sizes);
    assert_eq!(answer, expected.as_ref().map(|_| ()).map_err(|&question| Refusal::from_number(question).unwrap()), "{name}");
    let model =
        expected.inspect_err(|_| assert!(lent == before, "{name}: a refused opening writes nothing"))?;
    let gates = model.masked_gates();
    assert_eq!(lent.state, model.state(), "{name}");
    assert_eq!(lent.masked[..gates.len()], gates, "{name}");
    lent.assert_written(name, &before, 0, gates.len());
    Ok((lent, model))
}

/// A gate that may be added, or one that some question refuses.
fn random_gate(random: &mut Random, next: usize) -> GateRecord {
    let operand = |random: &mut Random| {
        let reach = if random.percent(50) { next } else { next.min(4) };
        next - 1 - random.below(reach)
    };
    let (a, b) = (operand(random), operand(random));
    let b = if random.percent(10) { a } else { b };
    let gate = match random.below(9) {
        0..=2 => Gate::Xor(a, b, next),
        3..=5 => Gate::And(a, b, next),
        6 => Gate::Inv(a, next),
        7 => Gate::Eqw(a, next),
        _ => Gate::Eq(random.below(2), next),
    };
    let mut record = record_of(&gate);
    let near = [0, next as u32, next as u32 + 1, next as u32 - 1, u32::MAX, 2];
    for _ in 0..random.pick(&[0, 0, 0, 0, 0, 0, 0, 0, 1, 1, 2]) {
        match random.below(4) {
            0 => record.kind = random.pick(&[0, 1, 2, 3, 4, 5, 6, u32::MAX]),
            1 => record.first = random.pick(&near),
            2 => record.second = random.pick(&near),
            _ => record.result = random.pick(&near),
        }
    }
    record
}

fn setting(name: &str, default: u64) -> u64 {
    env::var(name).map_or(default, |value| value.parse().expect("a setting is a number"))
}

fn numbers(widths: &[usize]) -> Vec<u32> {
    widths.iter().map(|&width| width as u32).collect()
}

// ---- looking at a session

/// The tables and buffers of a look, with lengths that are asked for, or one less; full of rubbish.
struct Look {
    operands: Vec<u64>,
    results: Vec<u64>,
    wires: Vec<u32>,
    marks: Vec<u8>,
    text: Vec<u8>,
    codes: Vec<u8>,
}

impl Look {
    fn new(random: &mut Random, text: usize, codes: usize) -> Look {
        let mut length = || SMALL.wires - usize::from(random.percent(1));
        Look {
            operands: vec![u64::MAX; length()],
            results: vec![7; length()],
            wires: vec![9; length()],
            marks: vec![5; length()],
            text: vec![0xA5; text],
            codes: vec![0xA5; codes],
        }
    }

    fn assert_zero(&self, name: &str) {
        let words = self.operands.iter().chain(&self.results).all(|&entry| entry == 0);
        let others = self.wires.iter().all(|&entry| entry == 0) && self.marks.iter().all(|&entry| entry == 0);
        assert!(words && others, "{name}: the tables are zero");
    }

    /// A buffer holds the result alone, and is as it was behind it.
    fn assert_front(name: &str, buffer: &[u8], result: &[u8]) {
        assert!(buffer.starts_with(result), "{name}: the result");
        assert!(buffer[result.len()..].iter().all(|&byte| byte == 0xA5), "{name}: behind the result");
    }
}

/// The first no of a session's text, by the definition: 1, 4, 5, 6, and 7 to 9 record by record.
fn records_read(
    tables: &[usize],
    widths: &[u32],
    outputs: &[u32],
    state: SessionState,
    source: &[SourceGate],
) -> Result<Netlist, u8> {
    ask(1, tables.iter().all(|&length| length >= SMALL.wires))?;
    ask(4, [widths, outputs].iter().all(|values| !values.is_empty() && values.iter().all(|&width| width >= 1)))?;
    let sum = |values: &[u32]| values.iter().map(|&width| width as usize).sum::<usize>();
    let (n, gates) = (sum(widths), state.gates as usize);
    ask(5, n + gates <= SMALL.wires && widths.len() <= 16 && outputs.len() <= 16 && sum(outputs) <= n + gates)?;
    ask(6, gates <= source.len())?;
    let lengths = |values: &[u32]| values.iter().map(|&width| width as usize).collect::<Vec<_>>();
    let mut model = Model { sizes: Sizes::Standard, widths: lengths(widths), codes: vec![1; n], gates: Vec::new() };
    for &SourceGate { kind, first, second, result, .. } in &source[..gates] {
        let gate = model.asked(&GateRecord { kind, first, second, result })?;
        model.gates.push(gate);
    }
    Ok(model.netlist(&lengths(outputs)))
}

/// What a session shows: its text is what Rewrite gives for the present netlist, its masked text what Mask gives, its masked
/// gates those of the masked text before the copies of the output bits. Now and then records, widths or lists are damaged:
/// then the answer is the defined one.
fn look(random: &mut Random, name: &str, lent: &Lent, model: &Model, tables: &mut Tables) -> u8 {
    let bits = random.between(1, model.wires().min(9));
    let outputs = widths(random, bits, 16);
    let (text, wanted) = (model.netlist(&outputs).write(), random.list(bits, 0, 3));
    let afresh = mask(&text, &model.codes, &wanted, tables).expect("a session's netlist can be masked");
    let gates = read(&LARGE, &afresh.text).expect("a masked text is good").gates;
    let gates: Vec<GateRecord> = gates[..gates.len() - bits].iter().map(record_of).collect();
    assert_eq!(lent.masked[..lent.state.masked as usize], gates, "{name}: by Mask");
    assert_eq!(rewrite(&text, tables).as_ref(), Ok(&text), "{name}: by Rewrite");

    let (mut inputs, mut outputs) = (numbers(&model.widths), numbers(&outputs));
    let (mut state, mut source) = (lent.state, lent.source[..lent.places].to_vec());
    let (mut codes, mut wanted) = (model.codes.clone(), wanted);
    for _ in 0..random.pick(&[0, 0, 0, 1, 1, 2]) {
        let near = random.pick(&[0, 1, 5, 6, u32::MAX, model.wires() as u32]);
        let place = random.below(state.gates.clamp(1, 60) as usize);
        match random.below(11) {
            0 => inputs.push(near),
            1 => inputs[0] = near,
            2 => outputs.push(near),
            3 => outputs[0] = near,
            4 => state.gates = near,
            5 => state.gates = state.gates.wrapping_add(1),
            6 => codes[0] = random.pick(&[0, 1, 4]),
            7 => wanted[0] = random.pick(&[0, 3, 4]),
            8 => wanted.push(1),
            _ if place < source.len() => match random.below(4) {
                0 => source[place].kind = near,
                1 => source[place].first = near,
                2 => source[place].second = near,
                _ => source[place].result = near,
            },
            _ => (),
        }
    }
    for place in [0, 1, state.gates.saturating_sub(1), state.gates, u32::MAX] {
        let there = place < state.gates && (place as usize) < source.len() && source[place as usize].kind != 0;
        let record = there.then(|| source[place as usize]);
        assert_eq!(session_gate_lent(state, place, &source), record, "{name}: gate {place}");
    }

    let short = usize::from(random.percent(10));
    let mut shown = Look::new(random, text.len() + 9 - 10 * short, 0);
    let lengths = [shown.operands.len(), shown.results.len()];
    let expected = records_read(&lengths, &inputs, &outputs, state, &source).and_then(|netlist| {
        let text = netlist.write();
        ask(14, text.len() <= shown.text.len()).map(|()| text)
    });
    (shown.wires, shown.marks) = (vec![0; 1], vec![0; 1]);
    let Look { operands, results, text: buffer, .. } = &mut shown;
    let answer = session_text_lent(state, &inputs, &outputs, &source, buffer, operands, results, lent.sizes);
    assert_eq!(answer, expected.as_ref().map(Vec::len).map_err(|&question| Refusal::from_number(question).unwrap()), "{name}: the text");
    shown.assert_zero(name);
    Look::assert_front(name, &shown.text, expected.as_deref().unwrap_or(&[]));

    let codes_short = usize::from(random.percent(10));
    let mut shown = Look::new(random, afresh.text.len() + 99 - 100 * short, bits + 3 - 4 * codes_short);
    let lengths = [shown.operands.len(), shown.results.len(), shown.wires.len(), shown.marks.len()];
    let expected = records_read(&lengths, &inputs, &outputs, state, &source).and_then(|netlist| {
        let good = |list: &[u8], bits: usize| list.len() == bits && list.iter().all(|&code| code <= 3);
        ask(11, good(&codes, netlist.inputs.iter().sum()))?;
        ask(13, good(&wanted, netlist.outputs.iter().sum()))?;
        let Masked { text, codes } = mask(&netlist.write(), &codes, &wanted, tables).expect("it can be masked");
        ask(14, text.len() <= shown.text.len() && codes.len() <= shown.codes.len()).map(|()| (text, codes))
    });
    let Look { operands, results, wires, marks, text: buffer, codes: out_codes } = &mut shown;
    let answer = session_masked_lent(
        state, &inputs, &outputs, &source, &codes, &wanted, buffer, out_codes, operands, results, wires, marks, lent.sizes,
    );
    let lengths = expected.as_ref().map(|(text, _)| text.len()).map_err(|&question| Refusal::from_number(question).unwrap());
    assert_eq!(answer, lengths, "{name}: the masked text");
    shown.assert_zero(name);
    let (text, codes) = expected.as_ref().map_or((&[][..], &[][..]), |(text, codes)| (text, codes));
    Look::assert_front(name, &shown.text, text);
    Look::assert_front(name, &shown.codes, codes);
    expected.err().unwrap_or(0)
}

/// The texts of a session: refusals by the output widths and the wanted codes.
#[test]
fn texts() {
    let tables = &mut Tables::standard();
    let mut session = Session::open(&[2, 1], &[1, 2, 0], fidrovelj::Sizes::Standard).expect("it opens");
    assert_eq!(session.text(&[3], tables).as_deref(), Ok(b"0 3\n2 2 1\n1 3\n\n".as_slice()));
    for gate in [
        fidrovelj::Gate::And(0, 2),
        fidrovelj::Gate::Xor(3, 1),
        fidrovelj::Gate::Inv(4),
        fidrovelj::Gate::Eqw(5),
        fidrovelj::Gate::Eq(true),
    ] {
        session.add(gate).expect("it is good");
    }
    let text = b"5 8\n2 2 1\n2 1 2\n\n2 1 0 2 3 AND\n2 1 3 1 4 XOR\n1 1 4 5 INV\n1 1 5 6 EQW\n1 1 1 7 EQ\n";
    assert_eq!(session.text(&[1, 2], tables).as_deref(), Ok(text.as_slice()));
    assert_eq!(session.masked(&[1, 2], &[0, 1, 2], tables), mask(text, &[1, 2, 0], &[0, 1, 2], tables));
    for (outputs, question) in [([].as_slice(), 4), (&[0], 4), (&[9], 5), (&[1; 17], 5), (&[u32::MAX], 5)] {
        assert_eq!(session.text(outputs, tables), Err(Refusal::from_number(question).unwrap()), "{outputs:?}");
        assert_eq!(session.masked(outputs, &[], tables), Err(Refusal::from_number(question).unwrap()), "{outputs:?}");
    }
    assert_eq!(session.masked(&[1], &[4], tables), Err(Refusal::Wanted));
    assert_eq!(session.masked(&[1], &[], tables), Err(Refusal::Wanted));
    assert_eq!(session.gate(1).map(|gate| (gate.kind, gate.first, gate.result)), Some((1, 3, 4)));
    assert_eq!(session.gate(5), None);

    // A session for whole ciphers asks for larger tables.
    let whole = Session::open(&[1], &[1], fidrovelj::Sizes::Whole).expect("it opens");
    assert_eq!(whole.text(&[1], tables), Err(Refusal::Tables));
    assert_eq!(whole.masked(&[1], &[0], tables), Err(Refusal::Tables));
}

// ---- rows of steps

/// Long random rows of steps, with lists that are long enough or not, looked at now and then.
#[test]
fn random_rows() {
    let (first, rows) = (setting("FIDROVELJ_SEED", 1), setting("FIDROVELJ_CALLS", 200_000) / 100);
    let tables = &mut Tables::standard();
    let (mut openings, mut steps, mut looks) = ([0_u64; 26], [0_u64; 26], [0_u64; 26]);
    for seed in first..first + rows {
        let random = &mut Random::new(seed ^ 0x7365_7373);
        let name = format!("row {seed}");
        let bits = match random.below(40) {
            0 => random.between(2_040, 2_048),
            1 => 2_049,
            2..=9 => random.between(10, 60),
            _ => random.between(1, 8),
        };
        let mut widths = numbers(&widths(random, bits, 16));
        let mut codes = netlists::codes(random, bits);
        match random.below(40) {
            0 => widths.clear(),
            1 => widths.push(0),
            2 => widths = vec![1; 17],
            3 => codes.push(1),
            4 => codes[bits - 1] = random.pick(&[4, 255]),
            _ => (),
        }
        let places = random.pick(&[0, 1, 5, 30, 100, 300, 2_048]);
        let room = random.pick(&[0, 2, 3, 4, 40, 400, 4_000]) + random.below(12);
        let (mut lent, mut model) =
            match assert_open(random, &name, Sizes::Standard, &widths, &codes, places, room) {
                Ok(both) => both,
                Err(question) => {
                    openings[usize::from(question)] += 1;
                    continue;
                }
            };
        openings[0] += 1;
        let mut adding = 70;
        for _ in 0..random.between(1, if bits > 100 { 20 } else { 300 }) {
            if random.percent(3) {
                adding = random.pick(&[20, 50, 60, 70, 95]);
            }
            let step = match random.percent(adding) {
                true => Move::Add(random_gate(random, model.wires())),
                false => Move::TakeOff,
            };
            steps[usize::from(assert_step(&name, &mut lent, &mut model, step))] += 1;
            if random.percent(2) {
                looks[usize::from(look(random, &name, &lent, &model, tables))] += 1;
            }
        }
        looks[usize::from(look(random, &name, &lent, &model, tables))] += 1;
    }
    let seen = |ends: &[u64]| -> Vec<(usize, u64)> {
        ends.iter().copied().enumerate().filter(|&(_, count)| count > 0).collect()
    };
    println!("{rows} sessions by questions: opened {:?}", seen(&openings));
    println!("steps {:?}", seen(&steps));
    println!("looks {:?}", seen(&looks));
    for (ends, questions) in [
        (&openings, [0, 4, 5, 11, 14].as_slice()),
        (&steps, &[0, 7, 8, 9, 14, 23, 24]),
        (&looks, &[0, 1, 4, 5, 6, 7, 8, 9, 11, 13, 14]),
    ] {
        for &question in questions {
            assert!(ends[question] > 0 || rows < 200, "question {question} (0: none)");
        }
    }
}

/// A netlist with the results in the order of the gates, and copies of the output bits behind them.
fn rising(netlist: &Netlist) -> Netlist {
    let n = netlist.input_bits();
    let mut numbers: Vec<usize> = (0..netlist.wires).collect();
    for (place, gate) in netlist.gates.iter().enumerate() {
        numbers[gate.result()] = n + place;
    }
    let renumbered = netlist.gates.iter().map(|gate| match *gate {
        Gate::Xor(a, b, c) => Gate::Xor(numbers[a], numbers[b], numbers[c]),
        Gate::And(a, b, c) => Gate::And(numbers[a], numbers[b], numbers[c]),
        Gate::Inv(a, c) => Gate::Inv(numbers[a], numbers[c]),
        Gate::Eqw(a, c) => Gate::Eqw(numbers[a], numbers[c]),
        Gate::Eq(v, c) => Gate::Eq(v, numbers[c]),
    });
    let outputs = &numbers[netlist.wires - netlist.output_bits()..];
    let copies = outputs.iter().enumerate().map(|(bit, &wire)| Gate::Eqw(wire, netlist.wires + bit));
    let gates = renumbered.chain(copies).collect();
    Netlist { wires: netlist.wires + outputs.len(), gates, ..netlist.clone() }
}

/// Each circuit gate by gate, taken off again to the middle and added once more: at the end its masked text is Mask's.
#[test]
fn circuits_gate_by_gate() {
    let tables = &mut Tables::standard();
    let mut built = 0;
    for circuit in circuits::all() {
        let name = &circuit.name;
        let source = rising(&read(&LARGE, &circuit.text).expect("a circuit is good"));
        if source.wires > SMALL.wires {
            continue;
        }
        built += 1;
        let n = source.input_bits();
        let random = &mut Random::new(n as u64);
        let codes = random.list(n, 0, 3);
        let mut session =
            Session::open(&numbers(&source.inputs), &codes, fidrovelj::Sizes::Standard).expect("it opens");
        let gate = |gate: &Gate| match *gate {
            Gate::Xor(a, b, _) => fidrovelj::Gate::Xor(a as u32, b as u32),
            Gate::And(a, b, _) => fidrovelj::Gate::And(a as u32, b as u32),
            Gate::Inv(a, _) => fidrovelj::Gate::Inv(a as u32),
            Gate::Eqw(a, _) => fidrovelj::Gate::Eqw(a as u32),
            Gate::Eq(v, _) => fidrovelj::Gate::Eq(v == 1),
        };
        for next in &source.gates {
            assert_eq!(session.add(gate(next)), Ok(next.result() as u32), "{name}");
        }
        let second_half = &source.gates[source.gates.len() / 2..];
        for next in second_half.iter().rev() {
            assert_eq!(session.undo(), Ok(gate(next)), "{name}");
        }
        for next in second_half {
            session.add(gate(next)).expect("it was there before");
        }
        let outputs = numbers(&source.outputs);
        let wanted = random.list(source.output_bits(), 0, 3);
        let text = session.text(&outputs, tables).expect("it has a text");
        assert_eq!(text, source.write(), "{name}");
        let masked = session.masked(&outputs, &wanted, tables).expect("it can be masked");
        assert_eq!(mask(&text, &codes, &wanted, tables), Ok(masked.clone()), "{name}");
        let given = twins(&text, &codes, tables).expect("it has twins");
        for (gate, twin) in session.gates().iter().zip(&given[n..]) {
            assert_eq!((gate.wire, gate.code), (twin.wire, twin.code), "{name}");
        }
        if n <= 8 {
            assert_eq!(check(&masked.text, &codes, tables), Ok(None), "{name}");
        }
    }
    assert!(built > 20, "{built} circuits are small enough");
}

/// The limits for whole ciphers: a session of 100,000 wires, taken off again; and both sides of each limit.
#[test]
fn whole_sizes() {
    let tables = &mut Tables::whole();
    let mut session = Session::open(&[1], &[0], fidrovelj::Sizes::Whole).expect("it opens");
    for wire in 1..100_000 {
        assert_eq!(session.add(fidrovelj::Gate::And(wire - 1, wire - 1)), Ok(wire));
    }
    assert_eq!(session.add(fidrovelj::Gate::Inv(0)), Err(Refusal::Place));
    assert_eq!(session.masked_gates().len(), 4 + 8 * 99_999);
    let text = session.text(&[1], tables).expect("it has a text");
    let masked = session.masked(&[1], &[3], tables).expect("it can be masked");
    assert!(mask(&text, &[0], &[3], tables) == Ok(masked), "100,000 wires, masked");
    for wire in (50..100_000).rev() {
        assert_eq!(session.undo(), Ok(fidrovelj::Gate::And(wire - 1, wire - 1)));
    }
    let text = session.text(&[1], tables).expect("it has a text");
    let masked = session.masked(&[1], &[3], tables).expect("it can be masked");
    assert!(mask(&text, &[0], &[3], tables) == Ok(masked), "50 wires, masked");

    let random = &mut Random::new(3);
    for sizes in [Sizes::Standard, Sizes::Whole] {
        let wires = sizes.small().wires;
        let codes = random.list(wires, 0, 3);
        let open = |random: &mut Random, widths: &[u32], codes: &[u8], room: usize| {
            assert_open(random, "limits", sizes, widths, codes, 5, room).map(|_| ())
        };
        let gates = 3 + codes.iter().filter(|&&code| code == 0).count();
        assert_eq!(open(random, &[wires as u32], &codes, gates), Ok(()));
        assert_eq!(open(random, &[wires as u32], &codes, gates - 1), Err(14));
        assert_eq!(open(random, &[wires as u32 + 1], &codes, gates), Err(5));
        assert_eq!(open(random, &[u32::MAX, u32::MAX], &codes, gates), Err(5));
        assert_eq!(open(random, &[1; 16], &codes[..16], 100), Ok(()));
        assert_eq!(open(random, &[1; 17], &codes[..17], 100), Err(5));
        // The last wire, and one beyond it.
        let (mut lent, mut model) =
            assert_open(random, "limits", sizes, &[wires as u32 - 1], &codes[1..], 5, gates + 20)
                .expect("it opens");
        let inverter = |result: usize| Move::Add(record_of(&Gate::Inv(0, result)));
        assert_eq!(assert_step("limits", &mut lent, &mut model, inverter(wires - 1)), 0);
        assert_eq!(assert_step("limits", &mut lent, &mut model, inverter(wires)), 24);
        assert_eq!(assert_step("limits", &mut lent, &mut model, Move::TakeOff), 0);
        assert_eq!(assert_step("limits", &mut lent, &mut model, Move::TakeOff), 23);
    }
}

/// The order of the questions, by hand.
#[test]
fn order() {
    let random = &mut Random::new(1);
    let open = |random: &mut Random, widths: &[u32], codes: &[u8], room: usize| {
        assert_open(random, "order", Sizes::Standard, widths, codes, 2, room).map(|_| ())
    };
    // 4 before 5, 5 before 11, 11 before 14.
    assert_eq!(open(random, &[2_049, 0], &[4], 0), Err(4));
    assert_eq!(open(random, &[2_049], &[4], 0), Err(5));
    assert_eq!(open(random, &[2], &[4], 0), Err(11));
    assert_eq!(open(random, &[2], &[1, 0], 3), Err(14));

    let gate = |kind, first, second, result| Move::Add(GateRecord { kind, first, second, result });
    // Two input bits, two places, and room for an AND whose operands have one code, and one gate more.
    let (mut lent, mut model) =
        assert_open(random, "order", Sizes::Standard, &[2], &[1, 1], 2, 3 + 8 + 1).expect("it opens");
    let rows = [
        // Nothing to take off.
        (Move::TakeOff, 23),
        // 7 before 8 and 9: an unknown kind, a second operand where there is one.
        (gate(6, 9, 9, 9), 7),
        (gate(0, 0, 1, 2), 7),
        (gate(3, 9, 1, 9), 7),
        (gate(5, 9, 1, 9), 7),
        // 8 before 9: an operand that is the result, one beyond it, a constant of 2.
        (gate(1, 0, 2, 9), 8),
        (gate(2, 2, 0, 9), 8),
        (gate(3, 2, 0, 9), 8),
        (gate(4, u32::MAX, 0, 9), 8),
        (gate(5, 2, 0, 9), 8),
        // 9 is any result but the next wire: one given, an input, one beyond.
        (gate(1, 0, 1, 0), 9),
        (gate(1, 0, 1, 3), 9),
        (gate(5, 1, 0, u32::MAX), 9),
        // The AND changes a mask: eight masked gates.
        (gate(2, 0, 1, 2), 0),
        // The result repeats.
        (gate(2, 0, 1, 2), 9),
        // Two gates do not fit: 14, after 9.
        (gate(1, 0, 2, 3), 14),
        (gate(1, 0, 2, 2), 9),
        (gate(2, 0, 1, 3), 14),
        // One does.
        (gate(3, 2, 0, 3), 0),
        // The list of records is full: 24, before 7 to 9 and 14.
        (gate(6, 9, 9, 9), 24),
        (gate(2, 0, 1, 4), 24),
        (Move::TakeOff, 0),
        (gate(6, 9, 9, 9), 7),
        (gate(5, 1, 0, 3), 0),
        (Move::TakeOff, 0),
        (Move::TakeOff, 0),
        (Move::TakeOff, 23),
        // All room is there again.
        (gate(2, 1, 1, 2), 0),
    ];
    for (step, question) in rows {
        assert_eq!(assert_step("order", &mut lent, &mut model, step), question, "{step:?}");
    }
}

// ---- lists that no opening made

/// The masked gates that a gate gets and the record that is kept, from whatever the codes and the records say of its operands. The
/// questions admit the gate.
fn any_step(lent: &Lent, gate: &Gate) -> (Vec<GateRecord>, SourceGate) {
    let n = lent.codes.len();
    let bits = n as u32;
    let twin = |wire: usize| match lent.codes.get(wire) {
        None => (lent.source[wire - n].wire, lent.source[wire - n].code),
        Some(0) => (bits + 5 + lent.codes[..wire].iter().filter(|&&code| code == 0).count() as u32, 1),
        Some(&code) => (wire as u32, code),
    };
    let mask = |code: u8| bits + u32::from(code.max(1)) - 1;
    let mut gates = Vec::new();
    let mut make = |kind: u32, first: u32, second: u32| {
        let result = lent.state.masked.wrapping_add(bits + 2 + gates.len() as u32);
        gates.push(GateRecord { kind, first, second, result });
        result
    };
    let parted = |make: &mut dyn FnMut(u32, u32, u32) -> u32, a: usize, b: usize| {
        let ((wire, code), (other, other_code)) = (twin(a), twin(b));
        let after = other_code % 3 + 1;
        match code == other_code {
            true => (wire, code, make(1, other, mask(after)), other_code ^ after),
            false => (wire, code, other, other_code),
        }
    };
    let (wire, code) = match *gate {
        Gate::Xor(a, b, _) => {
            let (wire, code, other, other_code) = parted(&mut make, a, b);
            (make(1, wire, other), code ^ other_code)
        }
        Gate::And(a, b, _) => {
            let (wire, code, other, other_code) = parted(&mut make, a, b);
            let (p, q) = (mask(code), mask(other_code));
            let s1 = make(2, wire, other);
            let s2 = make(2, wire, q);
            let s3 = make(1, s2, q);
            let s4 = make(1, s1, s3);
            let s5 = make(2, p, other);
            let s6 = make(1, s5, bits + 4);
            (make(1, s4, s6), code)
        }
        Gate::Inv(a, _) => (make(3, twin(a).0, 0), twin(a).1),
        Gate::Eqw(a, _) => (make(4, twin(a).0, 0), twin(a).1),
        Gate::Eq(0, _) => (make(4, bits, 0), 1),
        Gate::Eq(..) => (make(3, bits, 0), 1),
    };
    let GateRecord { kind, first, second, result } = record_of(gate);
    (gates, SourceGate { kind, first, second, result, wire, from: lent.state.masked, code })
}

/// Any numbers in sessions, codes and lists: a step answers by the same rules, from whatever stands there.
#[test]
fn any_lists() {
    let count = setting("FIDROVELJ_CALLS", 200_000) / 4;
    let mut ended = [0_u64; 26];
    for seed in 0..count {
        let random = &mut Random::new(seed ^ 0x616e_7920);
        let bits = random.between(0, 6);
        let codes = if random.percent(80) { random.list(bits, 0, 3) } else { random.list(bits, 0, 255) };
        let (places, room) = (random.below(7), random.below(30));
        let sizes = random.pick(&[Sizes::Standard, Sizes::Whole]);
        let mut lent = Lent::new(random, sizes, &codes, places, room);
        // Numbers that often lie within the lists.
        for gate in &mut lent.source {
            if random.percent(60) {
                (gate.wire, gate.from, gate.code) =
                    (random.below(40) as u32, random.below(30) as u32, random.below(4) as u8);
            }
        }
        let number = |random: &mut Random, most: usize| match random.below(12) {
            0 => random.next() as u32,
            1 => u32::MAX - random.below(3) as u32,
            _ => random.below(most + 2) as u32,
        };
        lent.state = SessionState { gates: number(random, places), masked: number(random, room) };
        let (before, name) = (lent.clone(), format!("seed {seed}"));
        let SessionState { gates, masked } = before.state;
        if random.percent(20) {
            let answer = lent.take_off();
            lent.assert_written(&name, &before, 0, 0);
            if gates == 0 {
                assert_eq!(answer, Err(Refusal::Gate), "{name}");
            } else {
                // A session with more gates than the list has records.
                let from = before.source[..places].get(gates as usize - 1).map_or(0, |gate| gate.from);
                assert_eq!(answer, Ok(()), "{name}");
                assert_eq!(lent.state, SessionState { gates: gates - 1, masked: from }, "{name}");
            }
            continue;
        }
        let next = (bits as u64 + u64::from(gates)).min(u64::from(u32::MAX) - 1) as usize;
        let record = if next > 0 { random_gate(random, next.min(1 << 30)) } else { rubbish_gate(random) };
        let record =
            GateRecord { result: if random.percent(80) { next as u32 } else { record.result }, ..record };
        let answer = lent.add(record);
        let question = answer.err().map_or(0, |refusal| refusal.number());
        let full = gates as usize >= places || next >= sizes.small().wires;
        // 7 to 9 are put to the gate and the next wire alone, whatever the records are.
        let given = vec![Gate::Eq(0, 0); if full { 0 } else { gates as usize }];
        let model = Model { sizes, widths: vec![bits], codes: vec![1; bits], gates: given };
        let expected = ask(24, !full).and_then(|()| model.asked(&record)).and_then(|gate| {
            let step = any_step(&before, &gate);
            ask(14, masked as usize + step.0.len() <= room)?;
            Ok(step)
        });
        ended[usize::from(question)] += 1;
        assert_eq!(question, expected.as_ref().err().copied().unwrap_or(0), "{name}: {record:?}");
        let Ok((gates_added, kept)) = expected else {
            assert!(lent == before, "{name}: a refusal changes nothing");
            continue;
        };
        let behind = masked as usize + gates_added.len();
        assert_eq!(lent.state, SessionState { gates: gates + 1, masked: behind as u32 }, "{name}");
        lent.assert_written(&name, &before, 1, gates_added.len());
        assert_eq!(lent.masked[masked as usize..behind], gates_added, "{name}: {record:?}");
        assert_eq!(lent.source[gates as usize], kept, "{name}: {record:?}");
    }
    println!("steps on any lists, by questions: {ended:?}");
    for question in [0, 7, 8, 9, 14, 24] {
        assert!(ended[question] > 0 || count < 2_000, "no step ended with {question}");
    }
}
