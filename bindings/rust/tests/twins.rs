//! The twins of the source wires: the library against the reference down to every lent byte, and source and
//! masked netlist run side by side, every wire compared with its twin.

#[allow(dead_code)]
mod calls;
#[allow(dead_code)]
mod reference;

use calls::random::Random;
use calls::{circuits, plan, Service};
use fidrovelj::{check, mask, run64, to_words, twins, twins_lent, Refusal, Tables, Twin};
use reference::evaluate::{mask_of, masked_inputs, wires, MASKS};
use reference::netlist::{read, Gate, Netlist, Sizes, LARGE, SMALL};
use std::{env, fs};

/// All that a call is handed.
#[derive(Debug)]
struct Call {
    text: Vec<u8>,
    codes: Vec<u8>,
    wire_room: usize,
    code_room: usize,
    tables: [usize; 3],
    sizes: Sizes,
}

impl Call {
    /// A call with tables of the least length, and rooms for so many wires.
    fn new(sizes: Sizes, text: &[u8], codes: &[u8], wires: usize) -> Call {
        Call {
            text: text.to_vec(),
            codes: codes.to_vec(),
            wire_room: wires,
            code_room: wires,
            tables: [sizes.small().table; 3],
            sizes,
        }
    }

    fn outcome(&self) -> Result<(Vec<u32>, Vec<u8>), u8> {
        reference::twins(&self.tables, &self.text, &self.codes, self.wire_room, self.code_room, self.sizes)
    }

    /// The library's outcome is the expected one, to every byte that it is lent and to the entries behind.
    fn assert_outcome(&self, name: &str, expected: &Result<(Vec<u32>, Vec<u8>), u8>) {
        const BEHIND: usize = 16;
        let sizes = match self.sizes {
            Sizes::Standard => fidrovelj::Sizes::Standard,
            Sizes::Whole => fidrovelj::Sizes::Whole,
        };
        let mut wires = vec![0xa5a5_a5a5_u32; self.wire_room + BEHIND];
        let mut codes = vec![0xa5_u8; self.code_room + BEHIND];
        let (mut wires_left, mut codes_left) = (wires.clone(), codes.clone());
        let mut operands = vec![0x0123_4567_89ab_cdef_u64; self.tables[0]];
        let mut results = vec![0xfedc_ba98_7654_3210_u64; self.tables[1]];
        let mut given = vec![0x5a_u8; self.tables[2]];
        let answer = twins_lent(
            &self.text,
            &self.codes,
            &mut wires[..self.wire_room],
            &mut codes[..self.code_room],
            &mut operands,
            &mut results,
            &mut given,
            sizes,
        );
        let told = expected.as_ref().map(|twins| twins.0.len()).map_err(|&question| Refusal::from_number(question).unwrap());
        assert_eq!(answer, told, "{name}");
        if let Ok((expected_wires, expected_codes)) = expected {
            wires_left[..expected_wires.len()].copy_from_slice(expected_wires);
            codes_left[..expected_codes.len()].copy_from_slice(expected_codes);
        }
        assert!(wires == wires_left, "{name}: the buffer of wires");
        assert!(codes == codes_left, "{name}: the buffer of codes");
        assert!(operands.iter().chain(&results).all(|&entry| entry == 0), "{name}: operands and results");
        assert!(given.iter().all(|&entry| entry == 0), "{name}: given");
    }
}

/// On some input settings and all four mask settings each wire of the source is its twin with the mask off.
fn assert_carried(
    name: &str,
    source: &Netlist,
    codes: &[u8],
    masked: &Netlist,
    twins: &[Twin],
    settings: &[Vec<bool>],
) {
    assert_eq!(twins.len(), source.wires, "{name}");
    for setting in settings {
        let open = wires(source, setting);
        for masks in MASKS {
            let bits = wires(masked, &masked_inputs(setting, codes, masks));
            for (wire, twin) in twins.iter().enumerate() {
                let bit = bits[twin.wire as usize] != mask_of(twin.code, masks.0, masks.1);
                assert_eq!(bit, open[wire], "{name}: wire {wire}, {twin:?}, under {masks:?}");
            }
        }
    }
}

fn random_settings(random: &mut Random, bits: usize, count: usize) -> Vec<Vec<bool>> {
    (0..count).map(|_| random.list(bits, 0, 1).iter().map(|&bit| bit == 1).collect()).collect()
}

/// The rooms of a call: exact, an entry short or long, none, or ample.
fn room(random: &mut Random, wires: usize) -> usize {
    match random.below(16) {
        0 => wires.saturating_sub(1),
        1 => 0,
        2..=5 => wires + 1,
        6 => wires + random.below(1_000),
        _ => wires,
    }
}

fn setting(name: &str, default: u64) -> u64 {
    env::var(name).map_or(default, |value| value.parse().expect("a setting is a number"))
}

/// Random calls, good and damaged; each accepted one is held against what Mask writes under random wanted codes.
#[test]
fn random_calls() {
    let (first, count) = (setting("FIDROVELJ_SEED", 1), setting("FIDROVELJ_CALLS", 200_000) / 4);
    let tables = &mut Tables::standard();
    let (mut tally, mut compared) = ([0_u64; 15], 0);
    for seed in first..first + count {
        let plan = plan::call(seed);
        if plan.service != Service::Mask {
            continue;
        }
        let random = &mut Random::new(seed);
        let wires = read(plan.sizes.small(), &plan.text).map_or(20, |source| source.wires);
        let call = Call {
            text: plan.text,
            codes: plan.list,
            wire_room: room(random, wires),
            code_room: room(random, wires),
            tables: [plan.tables[0], plan.tables[1], plan.tables[3]],
            sizes: plan.sizes,
        };
        let expected = call.outcome();
        tally[expected.as_ref().err().map_or(0, |&question| usize::from(question))] += 1;
        call.assert_outcome(&format!("seed {seed}"), &expected);
        if expected.is_err() || call.sizes == Sizes::Whole {
            continue;
        }
        let source = read(&SMALL, &call.text).expect("it was read");
        let given = twins(&call.text, &call.codes, tables).expect("it was accepted");
        let wanted = random.list(source.output_bits(), 0, 3);
        let masked =
            mask(&call.text, &call.codes, &wanted, tables).expect("a source with twins can be masked");
        let masked = read(&LARGE, &masked.text).expect("a masked text is good");
        let settings = random_settings(random, source.input_bits(), 3);
        assert_carried(&format!("seed {seed}"), &source, &call.codes, &masked, &given, &settings);
        compared += 1;
    }
    println!(
        "twins: accepted {}, refused by 1 to 14 {:?}; {compared} sources compared",
        tally[0],
        &tally[1..]
    );
    for question in [0, 1, 2, 3, 4, 5, 6, 7, 8, 9, 11, 14] {
        assert!(tally[question] >= count / 5_000, "question {question} (0: accepted): {}", tally[question]);
    }
}

/// A netlist with a copy of each of some wires behind it, put out as one value.
fn with_copies(netlist: &Netlist, copied: impl Iterator<Item = usize>) -> Netlist {
    let mut longer = netlist.clone();
    for wire in copied {
        longer.gates.push(Gate::Eqw(wire, longer.wires));
        longer.wires += 1;
    }
    longer.outputs = vec![longer.wires - netlist.wires];
    longer
}

/// Each circuit: all wires with their twins on its vectors; and through the library, copies of all wires beside
/// copies of all twins, on 64 random settings under each of the four mask settings.
#[test]
fn circuits_wire_by_wire() {
    let tables = &mut Tables::whole();
    for circuit in circuits::all() {
        let name = &circuit.name;
        let Ok(source) = read(&SMALL, &circuit.text) else {
            assert!(twins(&circuit.text, &[], &mut Tables::standard()).is_err(), "{name}");
            continue;
        };
        for (lowest, highest) in [(1, 1), (1, 3), (0, 3), (0, 0)] {
            let random = &mut Random::new(1);
            let codes = random.list(source.input_bits(), lowest, highest);
            let wanted = random.list(source.output_bits(), 0, 3);
            let call = Call::new(Sizes::Standard, &circuit.text, &codes, source.wires);
            call.assert_outcome(name, &call.outcome());
            let given = twins(&circuit.text, &codes, tables).expect("a small circuit has twins");
            let text =
                mask(&circuit.text, &codes, &wanted, tables).expect("a small circuit can be masked").text;
            let masked = read(&LARGE, &text).expect("a masked text is good");
            let vectors = circuit.vectors.iter().rev().take(8);
            let settings: Vec<Vec<bool>> =
                vectors.map(|(inputs, _)| inputs.iter().map(|&bit| bit == 1).collect()).collect();
            assert_carried(name, &source, &codes, &masked, &given, &settings);

            let copies = with_copies(&source, 0..source.wires).write();
            let twin_copies = with_copies(&masked, given.iter().map(|twin| twin.wire as usize)).write();
            let settings: Vec<Vec<u8>> = (0..64).map(|_| random.list(codes.len(), 0, 1)).collect();
            let open = run64(&copies, &to_words(&settings), tables).expect("it can be run");
            for [m0, m1] in [[0, 0], [1, 0], [0, 1], [1, 1]] {
                let mask = |code: u8| [0, m0, m1, m0 ^ m1][usize::from(code)];
                let put_on = |bits: &Vec<u8>| -> Vec<u8> {
                    bits.iter().zip(&codes).map(|(bit, &code)| bit ^ mask(code)).chain([m0, m1]).collect()
                };
                let settings: Vec<Vec<u8>> = settings.iter().map(put_on).collect();
                let bits = run64(&twin_copies, &to_words(&settings), tables).expect("it can be run");
                for (wire, (word, twin)) in bits.iter().zip(&given).enumerate() {
                    let mask = if mask(twin.code) == 1 { u64::MAX } else { 0 };
                    assert_eq!(word ^ mask, open[wire], "{name}: wire {wire}, {twin:?}, under {m0}{m1}");
                }
            }
        }
    }
}

/// One gate more, an XOR of two twins with different codes, is clean; a gate that takes the mask off a twin is a leak.
#[test]
fn own_gates() {
    let tables = &mut Tables::standard();
    for name in ["present_sbox", "gift_sbox", "ascon_sbox", "keccak_chi_row"] {
        let text = circuits::circuit(name).text;
        let source = read(&SMALL, &text).expect("it is a source");
        let codes: Vec<u8> = (0..source.input_bits()).map(|bit| 1 + (bit % 3) as u8).collect();
        let masked = mask(&text, &codes, &vec![0; source.output_bits()], tables).expect("it can be masked");
        let masked = read(&LARGE, &masked.text).expect("a masked text is good");
        let given = twins(&text, &codes, tables).expect("it has twins");
        let with_xor = |a: u32, b: usize| {
            let mut longer = masked.clone();
            longer.gates.push(Gate::Xor(a as usize, b, longer.wires));
            longer.wires += 1;
            longer.write()
        };
        for a in &given {
            let bare = with_xor(a.wire, source.input_bits() + usize::from(a.code) - 1);
            let leak = check(&bare, &codes, tables).expect("it is checked").expect("a bare bit leaks");
            assert_eq!(leak.wire, masked.wires as u64, "{name}");
            for b in given.iter().filter(|b| b.code != a.code) {
                assert_eq!(
                    check(&with_xor(a.wire, b.wire as usize), &codes, tables),
                    Ok(None),
                    "{name}: {a:?} and {b:?}"
                );
            }
        }
    }
}

/// Both sides of the limits, under either choice: wires, bytes, tables and rooms.
#[test]
fn limits() {
    for sizes in [Sizes::Standard, Sizes::Whole] {
        let limits = sizes.small();
        let ladder = |wires: usize| {
            let gates = (1..wires).map(|c| Gate::And(c - 1, c - 1, c)).collect();
            Netlist { wires, inputs: vec![1], outputs: vec![1], gates }.write()
        };
        let most = ladder(limits.wires);
        for code in [0, 1] {
            let call = Call::new(sizes, &most, &[code], limits.wires);
            let expected = call.outcome();
            assert_eq!(expected.as_ref().map(|twins| twins.0.len()), Ok(limits.wires));
            call.assert_outcome("as many wires as may be", &expected);
        }
        let call = |text: &[u8]| Call::new(sizes, text, &[1], limits.wires);
        let refused = |name: &str, call: Call, question: u8| {
            assert_eq!(call.outcome(), Err(question), "{name}");
            call.assert_outcome(name, &Err(question));
        };
        refused("one wire more", call(&ladder(limits.wires + 1)), 5);
        refused("a wire without room", Call { wire_room: limits.wires - 1, ..call(&most) }, 14);
        refused("a code without room", Call { code_room: limits.wires - 1, ..call(&most) }, 14);
        for table in 0..3 {
            let mut short = call(&most);
            short.tables[table] -= 1;
            refused("a table one short", short, 1);
        }
        let mut long = ladder(4);
        long.resize(limits.text, b' ');
        call(&long).assert_outcome("as many bytes as may be", &call(&long).outcome());
        long.push(b' ');
        refused("one byte more", call(&long), 2);
    }
}

/// AES-128 whole: all its wires and their twins.
#[test]
fn whole_cipher() {
    let tables = &mut Tables::whole();
    let text =
        fs::read(concat!(env!("CARGO_MANIFEST_DIR"), "/../../circuits/aes_128.txt")).expect("it can be read");
    let source = read(Sizes::Whole.small(), &text).expect("it is a source");
    let random = &mut Random::new(8);
    let codes = random.list(source.input_bits(), 0, 3);
    let call = Call::new(Sizes::Whole, &text, &codes, source.wires);
    call.assert_outcome("AES-128", &call.outcome());
    let given = twins(&text, &codes, tables).expect("it has twins");
    let masked = mask(&text, &codes, &vec![0; source.output_bits()], tables).expect("it can be masked");
    let masked = read(Sizes::Whole.large(), &masked.text).expect("a masked text is good");
    let settings = random_settings(random, source.input_bits(), 4);
    assert_carried("AES-128", &source, &codes, &masked, &given, &settings);
}
