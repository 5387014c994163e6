//! Joined blocks: the library against a second joiner, on worked cases, on random blocks and on damaged
//! ones; what the joined netlist computes and that it does not leak; three blocks in both orders.

#[allow(dead_code)]
mod calls;
#[allow(dead_code)]
mod reference;

use calls::circuits::circuit;
use calls::netlists;
use calls::random::Random;
use fidrovelj::{check, join, join_lent, mask, run, Masked, Refusal, Sizes, Tables};
use reference::ask;
use reference::netlist::{read, Gate, Netlist, LARGE, WHOLE_LARGE};

/// All that a call is handed besides its tables.
#[derive(Clone, Debug)]
struct Call {
    first: Vec<u8>,
    second: Vec<u8>,
    codes: Vec<u8>,
    ends: Vec<u8>,
    inner: Vec<u8>,
}

/// Questions 2 to 11 of a text with its input codes.
fn block(text: &[u8], codes: &[u8], sizes: Sizes) -> Result<Netlist, u8> {
    let netlist = read(if sizes == Sizes::Standard { &LARGE } else { &WHOLE_LARGE }, text)?;
    ask(10, netlist.inputs.len() >= 2 && netlist.inputs.last() == Some(&2))?;
    ask(11, codes.len() == netlist.input_bits() - 2 && codes.iter().all(|&code| code <= 3))?;
    Ok(netlist)
}

/// The joined netlist, wire by wire.
fn joined(a: &Netlist, b: &Netlist) -> Netlist {
    let bits = b.input_bits();
    let mut goes: Vec<usize> = (a.wires - a.output_bits()..a.wires).collect();
    goes.extend([a.input_bits() - 2, a.input_bits() - 1]);
    goes.extend((bits..b.wires).map(|w| a.wires + w - bits));
    let mut gates = a.gates.clone();
    gates.extend(b.gates.iter().map(|gate| match *gate {
        Gate::Xor(x, y, z) => Gate::Xor(goes[x], goes[y], goes[z]),
        Gate::And(x, y, z) => Gate::And(goes[x], goes[y], goes[z]),
        Gate::Inv(x, z) => Gate::Inv(goes[x], goes[z]),
        Gate::Eqw(x, z) => Gate::Eqw(goes[x], goes[z]),
        Gate::Eq(v, z) => Gate::Eq(v, goes[z]),
    }));
    Netlist { wires: a.wires + b.wires - bits, inputs: a.inputs.clone(), outputs: b.outputs.clone(), gates }
}

/// The outcome of a call.
fn outcome(call: &Call, tables: &[usize; 5], room: usize, sizes: Sizes) -> Result<Vec<u8>, u8> {
    ask(1, tables.iter().all(|&length| length >= sizes.masked_wires()))?;
    let a = block(&call.first, &call.codes, sizes)?;
    let b = block(&call.second, &call.inner, sizes)?;
    ask(25, call.ends.len() == a.output_bits() && call.ends == call.inner)?;
    ask(25, !call.inner.contains(&0) && b.gates.len() >= b.output_bits())?;
    let whole = joined(&a, &b);
    ask(5, whole.wires <= sizes.masked_wires())?;
    let text = whole.write();
    ask(14, text.len() <= room)?;
    Ok(text)
}

/// The library's answer, down to each byte of the buffer and the tables.
fn compare(call: &Call, tables: &[usize; 5], room: usize, sizes: Sizes) -> Result<Vec<u8>, u8> {
    let mut out = vec![0xa5; room];
    let [o, r, g, w, b] = *tables;
    let (mut o, mut r, mut g, mut w, mut b) =
        (vec![u64::MAX; o], vec![7; r], vec![1; g], vec![u64::MAX; w], vec![3; b]);
    let answer = join_lent(
        &call.first,
        &call.second,
        &call.codes,
        &call.ends,
        &call.inner,
        &mut out,
        &mut o,
        &mut r,
        &mut g,
        &mut w,
        &mut b,
        sizes,
    );
    let expected = outcome(call, tables, room, sizes);
    assert_eq!(answer, expected.as_ref().map(Vec::len).map_err(|&question| Refusal::from_number(question).unwrap()), "{call:?}");
    let mut buffer = vec![0xa5; room];
    if let Ok(text) = &expected {
        buffer[..text.len()].copy_from_slice(text);
    }
    assert!(out == buffer, "the buffer of {call:?}");
    for table in [&o, &r, &w, &b] {
        assert!(table.iter().all(|&entry| entry == 0), "a table is not zero after {call:?}");
    }
    assert!(g.iter().all(|&entry| entry == 0), "the table of given wires is not zero after {call:?}");
    expected
}

const TABLES: [usize; 5] = [18_431; 5];
const ROOM: usize = 500_000;

fn old(call: &Call) -> Result<Vec<u8>, u8> {
    compare(call, &TABLES, ROOM, Sizes::Standard)
}

fn call(first: &str, second: &str, codes: &[u8], ends: &[u8], inner: &[u8]) -> Call {
    let [codes, ends, inner] = [codes, ends, inner].map(<[u8]>::to_vec);
    Call { first: first.into(), second: second.into(), codes, ends, inner }
}

/// A masked copy and a masked inverter, both under code 2.
const COPY: &str = "4 7\n2 1 2\n1 1\n\n2 1 1 2 3 XOR\n2 1 1 2 4 AND\n2 1 3 4 5 XOR\n1 1 0 6 EQW\n";
const INVERTER: &str =
    "5 8\n2 1 2\n1 1\n\n2 1 1 2 3 XOR\n2 1 1 2 4 AND\n2 1 3 4 5 XOR\n1 1 0 6 INV\n1 1 6 7 EQW\n";
const BOTH: &str = "9 12\n2 1 2\n1 1\n\n2 1 1 2 3 XOR\n2 1 1 2 4 AND\n2 1 3 4 5 XOR\n1 1 0 6 EQW\n\
    2 1 1 2 7 XOR\n2 1 1 2 8 AND\n2 1 7 8 9 XOR\n1 1 6 10 INV\n1 1 10 11 EQW\n";

#[test]
fn worked_by_hand() {
    assert_eq!(old(&call(COPY, INVERTER, &[2], &[2], &[2])).unwrap(), BOTH.as_bytes());

    // Outputs of the first that are its inputs and its mask pair, and EQ constants in both.
    let first = "1 4\n2 1 2\n2 1 3\n\n1 1 1 3 EQ\n";
    let second = "3 9\n3 1 3 2\n1 3\n\n1 1 0 6 EQ\n2 1 0 5 7 XOR\n2 1 1 3 8 AND\n";
    let text = "4 7\n2 1 2\n1 3\n\n1 1 1 3 EQ\n1 1 0 4 EQ\n2 1 0 2 5 XOR\n2 1 1 3 6 AND\n";
    assert_eq!(old(&call(first, second, &[1], &[1, 1, 2, 3], &[1, 1, 2, 3])).unwrap(), text.as_bytes());

    // CR LF, blank lines and spaces are read as everywhere.
    let crlf = |text: &str| format!("\r\n{}  \r\n", text.replace('\n', "\r\n"));
    assert_eq!(old(&call(&crlf(COPY), &crlf(INVERTER), &[2], &[2], &[2])).unwrap(), BOTH.as_bytes());
}

/// Every way to 25, and the order of the questions.
#[test]
fn refusals_in_order() {
    let good = call(COPY, INVERTER, &[2], &[2], &[2]);
    let with = |change: fn(&mut Call)| {
        let mut call = good.clone();
        change(&mut call);
        old(&call)
    };
    // The first's output codes: not one for each output bit, here as many as the second's input codes.
    let two = "2 6\n2 2 2\n1 1\n\n2 1 0 1 4 XOR\n2 1 2 3 5 XOR\n";
    assert_eq!(old(&call(COPY, two, &[2], &[2, 2], &[2, 2])), Err(25));
    assert_eq!(with(|c| c.ends.clear()), Err(25));
    // Another number of codes than the second has inputs, other codes, and a public bit.
    assert_eq!(old(&call(COPY, two, &[2], &[2], &[2, 2])), Err(25));
    assert_eq!(with(|c| c.inner = vec![3]), Err(25));
    assert_eq!(with(|c| c.ends = vec![1]), Err(25));
    assert_eq!(with(|c| (c.ends, c.inner) = (vec![0], vec![0])), Err(25));
    // Output codes are only compared: what no list of input codes has is 25 too.
    assert_eq!(with(|c| c.ends = vec![255]), Err(25));
    // A second with fewer gates than output bits: one whose output is its input, and one of a gate and two outputs.
    let bare = "0 3\n2 1 2\n1 3\n";
    assert_eq!(old(&call(COPY, bare, &[2], &[2], &[2])), Err(25));
    let one = "1 4\n2 1 2\n1 2\n\n1 1 0 3 EQW\n";
    assert_eq!(old(&call(COPY, one, &[2], &[2], &[2])), Err(25));
    // As a first it joins.
    assert!(old(&call(bare, two, &[2], &[2, 1, 2], &[2, 1, 2])).is_err());

    // 10 and 11 of the first come before all of the second's; 2 to 11 of the second before 25.
    let no_masks = "1 4\n2 2 1\n1 1\n\n2 1 0 1 3 XOR\n";
    assert_eq!(old(&call(no_masks, "rubbish", &[], &[], &[])), Err(10));
    assert_eq!(old(&call(COPY, "rubbish", &[4], &[], &[])), Err(11));
    assert_eq!(old(&call(COPY, "rubbish", &[2], &[9], &[9])), Err(3));
    assert_eq!(old(&call(COPY, "", &[2], &[9], &[9])), Err(4));
    assert_eq!(old(&call(COPY, no_masks, &[2], &[9], &[9])), Err(10));
    assert_eq!(old(&call(COPY, INVERTER, &[2], &[9], &[9])), Err(11));
    assert_eq!(old(&call(COPY, INVERTER, &[2], &[9], &[2, 2])), Err(11));
    assert_eq!(old(&call("", INVERTER, &[2], &[2], &[2])), Err(4));
    // A public bit of the first is fine.
    let public = mask(b"0 1\n1 1\n1 1\n", &[0], &[2], &mut Tables::standard()).unwrap();
    assert!(old(&Call { first: public.text, codes: vec![0], ..good.clone() }).is_ok());

    // 1 before all, of each table; 14 last, by a byte.
    for short in 0..5 {
        let mut tables = TABLES;
        tables[short] -= 1;
        assert_eq!(compare(&call("", "", &[], &[], &[]), &tables, ROOM, Sizes::Standard), Err(1));
    }
    assert!(compare(&good, &TABLES, BOTH.len(), Sizes::Standard).is_ok());
    assert_eq!(compare(&good, &TABLES, BOTH.len() - 1, Sizes::Standard), Err(14));
    assert_eq!(compare(&good, &TABLES, 0, Sizes::Standard), Err(14));
}

/// A chain of so many EQW gates behind one bit and the mask pair.
fn chain(gates: usize) -> String {
    let mut text = format!("{gates} {}\n2 1 2\n1 1\n\n", gates + 3);
    for i in 0..gates {
        text += &format!("1 1 {} {} EQW\n", if i == 0 { 0 } else { i + 2 }, i + 3);
    }
    text
}

/// 5 of the joined wires: at the limit and one above, before 14 and after 25.
#[test]
fn joined_wires() {
    // 3 + a + b wires
    let two = |a: usize, b: usize| call(&chain(a), &chain(b), &[1], &[1], &[1]);
    let most = 18_431 - 3;
    assert!(old(&two(10_000, most - 10_000)).is_ok());
    assert!(old(&two(1, most - 1)).is_ok());
    assert_eq!(old(&two(10_000, most - 9_999)), Err(5));
    assert_eq!(compare(&two(10_000, most), &TABLES, 0, Sizes::Standard), Err(5));
    assert_eq!(old(&Call { inner: vec![2], ..two(10_000, most) }), Err(25));
    assert!(compare(&two(10_000, most), &[899_999; 5], 27_000_000, Sizes::Whole).is_ok());
}

/// A random source, masked under these codes.
fn random_block(random: &mut Random, codes: &[u8], tables: &mut Tables) -> (Vec<u8>, Masked) {
    let outputs = random.between(1, 6);
    let count = outputs.max(random.between(1, 12));
    let gates = netlists::gates(random, codes.len(), count);
    let wires = codes.len() + count;
    let source = Netlist {
        wires,
        inputs: netlists::widths(random, codes.len(), 4),
        outputs: netlists::widths(random, outputs, 4),
        gates,
    };
    let text = source.write();
    let wanted = random.list(outputs, 0, 3);
    let masked = mask(&text, codes, &wanted, tables).expect("a small source can be masked");
    (text, masked)
}

fn mask_of(code: u8, [m0, m1]: [u8; 2]) -> u8 {
    [0, m0, m1, m0 ^ m1][usize::from(code)]
}

/// A masked text gives these outputs for these inputs, under each mask setting.
fn assert_unmasks(
    text: &[u8],
    codes: &[u8],
    ends: &[u8],
    inputs: &[u8],
    outputs: &[u8],
    tables: &mut Tables,
) {
    for masks in [[0, 0], [1, 0], [0, 1], [1, 1]] {
        let put_on = inputs.iter().zip(codes).map(|(bit, &code)| bit ^ mask_of(code, masks));
        let put_on: Vec<u8> = put_on.chain(masks).collect();
        let given = run(text, &put_on, tables).expect("a joined text can be run");
        let taken_off = given.iter().zip(ends).map(|(bit, &code)| bit ^ mask_of(code, masks));
        assert!(taken_off.eq(outputs.iter().copied()), "outputs under masks {masks:?}");
    }
}

/// Blocks from Mask: the second source after the first, clean under the first's codes, and three of them
/// the same text in both orders.
#[test]
fn masked_blocks() {
    let tables = &mut Tables::standard();
    let mut public = 0;
    for seed in 1..=3_000 {
        let random = &mut Random::new(seed);
        let bits = random.between(1, 6);
        let codes = random.list(bits, u8::from(seed % 2 == 0), 3);
        public += u32::from(codes.contains(&0));
        let (one, a) = random_block(random, &codes, tables);
        let (two, b) = random_block(random, &a.codes, tables);
        let (three, c) = random_block(random, &b.codes, tables);
        let join_two = |first: &[u8], codes: &[u8], ends: &[u8], second: &[u8]| {
            old(&Call {
                first: first.to_vec(),
                second: second.to_vec(),
                codes: codes.to_vec(),
                ends: ends.to_vec(),
                inner: ends.to_vec(),
            })
            .expect("blocks from Mask join")
        };
        let ab = join_two(&a.text, &codes, &a.codes, &b.text);
        let bc = join_two(&b.text, &a.codes, &b.codes, &c.text);
        let left = join_two(&ab, &codes, &b.codes, &c.text);
        let right = join_two(&a.text, &codes, &a.codes, &bc);
        assert!(left == right, "seed {seed}: the two orders give two texts");
        assert_eq!(check(&ab, &codes, tables), Ok(None), "seed {seed}");
        assert_eq!(check(&left, &codes, tables), Ok(None), "seed {seed}");
        for _ in 0..3 {
            let inputs = random.list(bits, 0, 1);
            let middle = run(&one, &inputs, tables).unwrap();
            let outputs = run(&two, &middle, tables).unwrap();
            assert_unmasks(&ab, &codes, &b.codes, &inputs, &outputs, tables);
            let last = run(&three, &outputs, tables).unwrap();
            assert_unmasks(&left, &codes, &c.codes, &inputs, &last, tables);
        }
    }
    assert!(public > 500, "{public}");
}

fn damage(random: &mut Random, call: &mut Call) {
    let bytes = b"0123456789 \n\rXAEQW";
    let text = if random.percent(50) { &mut call.first } else { &mut call.second };
    match random.below(8) {
        0 if !text.is_empty() => {
            let at = random.below(text.len());
            text[at] = random.pick(bytes);
        }
        1 => text.insert(random.below(text.len() + 1), random.pick(bytes)),
        2 if !text.is_empty() => {
            text.remove(random.below(text.len()));
        }
        3 => text.truncate(random.below(text.len() + 1)),
        4 => call.codes.push(random.below(5) as u8),
        5 if !call.ends.is_empty() => {
            let at = random.below(call.ends.len());
            call.ends[at] = random.below(5) as u8;
        }
        6 if !call.inner.is_empty() => {
            let at = random.below(call.inner.len());
            call.inner[at] = random.below(5) as u8;
        }
        _ => {
            let code = random.below(4) as u8;
            call.ends.push(code);
            if random.percent(50) {
                call.inner.push(code);
            }
        }
    }
}

/// A netlist with a mask pair that need not come from Mask: its outputs may be inputs.
fn any_netlist(random: &mut Random, bits: usize) -> Netlist {
    let count = random.below(10);
    let wires = bits + 2 + count;
    let mut inputs = netlists::widths(random, bits, 4);
    // Now and then the last two bits are no pair.
    if random.percent(2) {
        inputs.extend([1, 1]);
    } else {
        inputs.push(2);
    }
    let outputs = random.between(1, wires.min(8));
    let outputs = netlists::widths(random, outputs, 4);
    Netlist { wires, inputs, outputs, gates: netlists::gates(random, bits + 2, count) }
}

#[test]
fn random_calls_and_damaged_ones() {
    let mut seen = [0; 26];
    for seed in 1..=30_000 {
        let random = &mut Random::new(seed);
        let bits = random.between(1, 6);
        let first = any_netlist(random, bits);
        let second = any_netlist(random, first.output_bits());
        let lowest = u8::from(random.percent(90));
        let ends = random.list(first.output_bits(), lowest, 3);
        let mut call = Call {
            first: first.write(),
            second: second.write(),
            codes: random.list(bits, 0, 3),
            inner: ends.clone(),
            ends,
        };
        for _ in 0..random.below(3) {
            damage(random, &mut call);
        }
        let mut tables = TABLES;
        if random.percent(3) {
            tables[random.below(5)] -= 1;
        }
        let room = if random.percent(20) { random.below(300) } else { 2_000 };
        let question = compare(&call, &tables, room, Sizes::Standard).err().unwrap_or(0);
        seen[usize::from(question)] += 1;
    }
    for question in [0, 1, 3, 4, 5, 6, 7, 8, 9, 10, 11, 14, 25] {
        assert!(seen[question] >= 20, "{question}: {seen:?}");
    }
}

/// Four S-boxes side by side: their outputs are the last wires.
fn side_by_side(sbox: &Netlist, count: usize) -> Netlist {
    let (ins, outs) = (sbox.input_bits(), sbox.output_bits());
    let inner = sbox.wires - ins - outs;
    let mut gates = Vec::new();
    for k in 0..count {
        let goes = |w: usize| match w {
            w if w < ins => k * ins + w,
            w if w < ins + inner => count * ins + k * inner + w - ins,
            w => count * (ins + inner) + k * outs + w - ins - inner,
        };
        gates.extend(sbox.gates.iter().map(|gate| match *gate {
            Gate::Xor(a, b, c) => Gate::Xor(goes(a), goes(b), goes(c)),
            Gate::And(a, b, c) => Gate::And(goes(a), goes(b), goes(c)),
            Gate::Inv(a, c) => Gate::Inv(goes(a), goes(c)),
            Gate::Eqw(a, c) => Gate::Eqw(goes(a), goes(c)),
            Gate::Eq(v, c) => Gate::Eq(v, goes(c)),
        }));
    }
    Netlist { wires: count * sbox.wires, inputs: vec![count * ins], outputs: vec![count * outs], gates }
}

/// A column of AES: four masked S-boxes and a masked MixColumns block against the plain circuit.
#[test]
fn aes_column() {
    let tables = &mut Tables::standard();
    let sboxes = side_by_side(&read(&LARGE, &circuit("aes_sbox").text).unwrap(), 4).write();
    let random = &mut Random::new(1);
    let codes = random.list(32, 0, 3);
    let a = mask(&sboxes, &codes, &random.list(32, 0, 3), tables).unwrap();
    let b = mask(&circuit("aes_mix_column").text, &a.codes, &random.list(32, 0, 3), tables).unwrap();
    let text = join(&a.text, &b.text, &codes, &a.codes, &a.codes, tables).unwrap();
    let call =
        Call { first: a.text, second: b.text, codes: codes.clone(), inner: a.codes.clone(), ends: a.codes };
    assert_eq!(old(&call).unwrap(), text);
    let plain = circuit("aes_column");
    for _ in 0..50 {
        let bits = random.list(32, 0, 1);
        let key_and_column = [vec![0; 32], bits.clone()].concat();
        let outputs = run(&plain.text, &key_and_column, tables).unwrap();
        assert_unmasks(&text, &codes, &b.codes, &bits, &outputs, tables);
    }
}
