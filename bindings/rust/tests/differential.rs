//! The library against the reference: on the known results, on calls worked out by hand, on many
//! random calls, on circuits and on the largest netlists.
//!
//! Of each call are compared the answer, each byte of each buffer, and the tables, which must be
//! zero along their whole length.
//!
//! `FIDROVELJ_CALLS` sets how many random calls are made, `FIDROVELJ_SEED` the first one's seed.

mod calls;
mod library;
mod reference;

use calls::random::Random;
use calls::{circuits, known, plan, sizes, slips, Call, Given, Service, Tally};
use fidrovelj::{check, from_words, mask, rewrite, run, run64, to_words, Refusal, Tables};
use library::Library;
use reference::netlist::{read, Gate, Netlist, LARGE, SMALL};
use std::env;
use std::time::Instant;

#[test]
fn known_results() {
    let mut library = Library::new();
    for row in known::rows() {
        library.assert_outcome(&row.name, &row.call, &row.outcome);
    }
}

#[test]
fn rows_worked_out_by_hand() {
    let mut library = Library::new();
    for row in slips::rows() {
        library.assert_outcome(&row.name, &row.call, &row.outcome);
    }
}

fn setting(name: &str, default: u64) -> u64 {
    env::var(name).map_or(default, |value| value.parse().expect("a setting is a number"))
}

#[test]
fn random_calls() {
    let (first, count) = (setting("FIDROVELJ_SEED", 1), setting("FIDROVELJ_CALLS", 200_000));
    let start = Instant::now();
    let mut library = Library::new();
    let tables = &mut Tables::standard();
    let mut tally = Tally::new();
    let mut fed = 0;
    for seed in first..first + count {
        let call = plan::call(seed);
        let expected = call.outcome();
        tally.add(call.service, &expected);
        library.assert_outcome(&format!("seed {seed}"), &call, &expected);
        match (call.service, &expected) {
            (Service::Mask, Ok(masked)) => {
                assert_masked(&call, masked, seed, tables);
                fed += 1;
            }
            (Service::Run64, Ok(given)) if seed % 16 == 0 => {
                assert_lanes(&call.text, &call.words(), &given.words, tables);
            }
            _ => (),
        }
    }
    println!("{count} calls from seed {first} on, {:.1} s", start.elapsed().as_secs_f64());
    println!("{tally}\n{fed} masked texts fed to Check, Run and Rewrite");
    tally.assert_floor(count / 1_000);
}

/// A masked text is clean by Check, as written by Rewrite, and gives the source's outputs by Run
/// for some inputs under all four mask settings.
fn assert_masked(call: &Call, masked: &Given, seed: u64, tables: &mut Tables) {
    let random = &mut Random::new(seed);
    let rewritten = rewrite(&masked.text, tables);
    assert!(rewritten.as_deref() == Ok(&masked.text), "seed {seed}: a masked text is in the written form");
    let clean = check(&masked.text, &call.list, tables);
    assert_eq!(
        clean,
        if call.list.len() <= 12 { Ok(None) } else { Err(Refusal::Settings) },
        "seed {seed}\n{call:?}"
    );
    for _ in 0..2 {
        let inputs = random.list(call.list.len(), 0, 1);
        let outputs = run(&call.text, &inputs, tables).expect("a source that is masked can be run");
        assert_unmasks(call, masked, &inputs, &outputs, tables);
    }
}

/// Run on a masked text gives these outputs for these inputs, under each mask setting.
fn assert_unmasks(call: &Call, masked: &Given, inputs: &[u8], outputs: &[u8], tables: &mut Tables) {
    for masks in [[0, 0], [1, 0], [0, 1], [1, 1]] {
        let put_on = inputs.iter().zip(&call.list).map(|(bit, &code)| bit ^ mask_of(code, masks));
        let put_on: Vec<u8> = put_on.chain(masks).collect();
        let given = run(&masked.text, &put_on, tables).expect("a masked text can be run");
        let taken_off = given.iter().zip(&masked.list).map(|(bit, &code)| bit ^ mask_of(code, masks));
        assert!(taken_off.eq(outputs.iter().copied()), "outputs under masks {masks:?}\n{call:?}");
    }
}

/// Each of the sixty-four settings, run alone, gives its bits of the output words.
fn assert_lanes(text: &[u8], words: &[u64], outputs: &[u64], tables: &mut Tables) {
    let settings = from_words(words, 64).into_iter().zip(from_words(outputs, 64));
    for (setting, (inputs, outputs)) in settings.enumerate() {
        let alone = run(text, &inputs, tables).expect("what is run sixty-four times can be run once");
        assert!(alone == outputs, "setting {setting} of\n{}", String::from_utf8_lossy(text));
    }
}

fn mask_of(code: u8, [m0, m1]: [u8; 2]) -> u8 {
    [0, m0, m1, m0 ^ m1][usize::from(code)]
}

/// Each circuit: Rewrite leaves it as it is and Run agrees with its vectors. Masked, where it is
/// small enough, it is what the reference gives, has no leak and agrees with the vectors too.
#[test]
fn public_circuits() {
    let mut library = Library::new();
    let tables = &mut Tables::standard();
    for circuit in circuits::all() {
        let name = &circuit.name;
        assert!(rewrite(&circuit.text, tables).as_deref() == Ok(&circuit.text), "{name}");
        for (inputs, outputs) in &circuit.vectors {
            assert_eq!(run(&circuit.text, inputs, tables).as_ref(), Ok(outputs), "{name}");
        }
        let Ok(source) = read(&SMALL, &circuit.text) else {
            assert!(mask(&circuit.text, &[], &[], tables).is_err(), "{name}");
            continue;
        };
        for (lowest, highest) in [(1, 1), (1, 3), (0, 3)] {
            let random = &mut Random::new(1);
            let codes = random.list(source.input_bits(), lowest, highest);
            let wanted = random.list(source.output_bits(), lowest.max(1) - 1, highest);
            let call = Call::new(Service::Mask, &circuit.text, &codes, &wanted);
            let expected = call.outcome();
            library.assert_outcome(name, &call, &expected);
            let masked = expected.expect("a small circuit can be masked");
            if codes.len() <= 12 {
                assert_eq!(check(&masked.text, &codes, tables), Ok(None), "{name}");
            }
            for (inputs, outputs) in circuit.vectors.iter().rev().take(16) {
                assert_unmasks(&call, &masked, inputs, outputs, tables);
            }
        }
    }
}

/// Each circuit in passes of sixty-four: its vectors, and random words, whose every setting is run alone as well.
#[test]
fn circuits_sixty_four_at_once() {
    let mut library = Library::new();
    let tables = &mut Tables::standard();
    for circuit in circuits::all() {
        let (text, name) = (&circuit.text, &circuit.name);
        for vectors in circuit.vectors.chunks(64) {
            let (inputs, outputs): (Vec<_>, Vec<_>) = vectors.iter().cloned().unzip();
            let given = run64(text, &to_words(&inputs), tables).expect("a circuit can be run");
            assert!(from_words(&given, inputs.len()) == outputs, "{name}");
        }
        let bits = read(&LARGE, text).expect("a circuit is good").input_bits();
        let call = Call::new(Service::Run64, text, &Random::new(1).list(bits, 0, 255), &[]);
        let expected = call.outcome();
        library.assert_outcome(name, &call, &expected);
        assert_lanes(text, &call.words(), &expected.expect("a circuit can be run").words, tables);
    }
}

/// The masked netlist of the most wires: each service takes it.
#[test]
fn the_ladder() {
    let mut library = Library::new();
    let source = sizes::ladder().write();
    let wanted = vec![0; 2_048];
    for (code, length) in [(1, 398_136), (0, 398_158)] {
        let masked = Call::new(Service::Mask, &source, &[code], &wanted);
        let expected = masked.outcome();
        library.assert_outcome("the ladder, masked", &masked, &expected);
        let text = expected.expect("the ladder can be masked").text;
        assert_eq!(text.len(), length);
        for (service, list) in [
            (Service::Rewrite, vec![]),
            (Service::Run, vec![1, 0, 1]),
            (Service::Run64, vec![7, 8, 9]),
            (Service::Check, vec![code]),
        ] {
            let call = Call::new(service, &text, &list, &[]);
            let expected = call.outcome();
            assert!(expected.is_ok());
            library.assert_outcome("the masked ladder", &call, &expected);
        }
    }
}

/// A masked text that is longer than the ladder's, of fewer wires: ten values of one bit, ANDs of a wire with itself in a
/// chain, all wires put out as sixteen values, each under another code than it has.
#[test]
fn a_long_masked_text() {
    let mut library = Library::new();
    let gates = (10..2_048).map(|c| Gate::And(c - 1, c - 1, c)).collect();
    let source = Netlist { wires: 2_048, inputs: vec![1; 10], outputs: vec![128; 16], gates }.write();
    let (codes, wanted) = (vec![1; 10], vec![2; 2_048]);
    let masked = Call::new(Service::Mask, &source, &codes, &wanted);
    let expected = masked.outcome();
    library.assert_outcome("a long masked text", &masked, &expected);
    let text = expected.expect("it can be masked").text;
    assert_eq!(text.len(), 412_905);
    for (service, list) in [(Service::Rewrite, vec![]), (Service::Run, vec![1; 12]), (Service::Check, codes)] {
        let call = Call::new(service, &text, &list, &[]);
        let expected = call.outcome();
        assert!(expected.is_ok());
        library.assert_outcome("the long masked text", &call, &expected);
    }
}

/// A source of twelve bits and as many wires as may be, all further ones ANDs; the last is the AND
/// of all twelve bits.
fn twelve_bits() -> Netlist {
    let gates = (12..2_048).map(|c| Gate::And(c - 1, c - 12, c)).collect();
    Netlist { wires: 2_048, inputs: vec![12], outputs: vec![2_048], gates }
}

/// Twelve bits and nearly as many wires as may be: clean, and with one leak on the last wire.
#[test]
fn twelve_bits_of_many_wires() {
    let mut library = Library::new();
    let tables = &mut Tables::standard();
    let codes = [1, 2, 3, 1, 2, 3, 1, 2, 3, 1, 2, 3];
    let masked = mask(&twelve_bits().write(), &codes, &[0; 2_048], tables).expect("it can be masked");
    assert_eq!(check(&masked.text, &codes, tables), Ok(None));

    // One more gate takes the mask off the last output.
    let mut netlist = read(&LARGE, &masked.text).expect("it is good");
    let last = netlist.wires - 1;
    let mask_wire = 11 + usize::from(masked.codes[2_047]);
    netlist.gates.push(Gate::Xor(last, mask_wire, last + 1));
    netlist.wires += 1;
    let call = Call::new(Service::Check, &netlist.write(), &codes, &[]);
    let expected = call.outcome();
    assert_eq!(expected, known::leak([last as u64 + 1, 4_095, 0, 4]));
    library.assert_outcome("a leak on the last wire at the last setting", &call, &expected);
}
