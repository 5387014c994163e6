//! The reference and the random calls by themselves, without the library: the reference gives the
//! known results and the circuits' vectors, and the calls reach every question.

mod calls;
mod reference;

use calls::circuits;
use calls::{known, plan, sizes, slips, Call, Service, Tally, ROOM};
use reference::evaluate::{counts, masked_inputs, setting_bits, wires, MASKS};
use reference::netlist::{read, Gate, Netlist, Sizes, LARGE, SMALL};

#[test]
fn gives_known_results() {
    for row in known::rows().into_iter().chain(slips::rows()) {
        assert_eq!(row.call.outcome(), row.outcome, "{}\n{:?}", row.name, row.call);
    }
}

/// M4: the counts of s1 to s7 for all four operand pairs.
#[test]
fn counts_the_seven_steps() {
    let masked = read(&LARGE, known::MASKED_AND.as_bytes()).expect("M1's text is good");
    for setting in 0..4 {
        assert_eq!(counts(&masked, &[1, 2], setting)[7..14], [1, 1, 1, 2, 1, 2, 2]);
    }
}

/// M1's gates with another order or shortcut, and what then goes wrong.
#[test]
fn breaks_where_the_order_is_another() {
    let masked = read(&LARGE, known::MASKED_AND.as_bytes()).expect("M1's text is good");
    let changed = |gates: &[Gate]| {
        let mut other = masked.clone();
        other.gates[9 - gates.len() + 1..10].copy_from_slice(gates);
        other
    };
    // s4 and s5 before wire n+4
    let early = changed(&[Gate::Xor(10, 11, 12), Gate::Xor(12, 6, 13)]);
    for (setting, count) in [(0, 1), (1, 1), (2, 1), (3, 3)] {
        assert_eq!(counts(&early, &[1, 2], setting)[12], count);
    }
    // s1 and s5 first
    let first = changed(&[Gate::Xor(7, 11, 12), Gate::Xor(12, 6, 13)]);
    let own: Vec<u64> = (0..4).map(|setting| counts(&first, &[1, 2], setting)[12]).collect();
    assert_eq!([own[0], own[1]], [own[2], own[3]]);
    assert!(own[0] != own[1] && own[0].max(own[1]) == 2 && own[0].min(own[1]) == 0);
}

#[test]
fn agrees_with_the_circuits_vectors() {
    for circuit in circuits::all() {
        for (inputs, outputs) in &circuit.vectors {
            let call = Call::new(Service::Run, &circuit.text, inputs, &[]);
            let given = call.outcome().expect("a circuit is good");
            assert_eq!(&given.list, outputs, "{}", circuit.name);
            if circuit.text.len() > 60_000 {
                break;
            }
        }
        let rewritten = reference::rewrite(&[], &circuit.text, ROOM, Sizes::Standard).expect("a circuit is good");
        assert!(rewritten == circuit.text, "{} is in the written form", circuit.name);
    }
}

/// The masked netlist has no leak, and its outputs and the twins of all wires with masks off are the source's.
fn assert_masked(name: &str, source: &Netlist, codes: &[u8], wanted: &[u8]) {
    let masked = reference::mask(&[], &source.write(), codes, wanted, ROOM, ROOM, Sizes::Standard)
        .expect("it can be masked");
    let netlist = read(&LARGE, &masked.text).expect("a masked text is good");
    if codes.len() <= 8 {
        assert_eq!(reference::check(&[], &masked.text, codes, Sizes::Standard), Ok(None), "{name}");
    }
    let ands = source.gates.iter().filter(|gate| matches!(gate, Gate::And(..))).count();
    let publics = codes.iter().filter(|&&code| code == 0).count();
    let least = 3 + publics + source.gates.len() + 6 * ands + source.output_bits();
    assert!(netlist.gates.len() >= least && netlist.gates.len() <= least + source.gates.len(), "{name}");

    let setting = setting_bits(0x9e37_79b9_7f4a_7c15, codes.len().min(64));
    let setting: Vec<bool> = (0..codes.len()).map(|bit| setting[bit % setting.len()]).collect();
    let open = wires(source, &setting);
    for masks in MASKS {
        let bits = wires(&netlist, &masked_inputs(&setting, codes, masks));
        for (place, &code) in masked.codes.iter().enumerate() {
            let output = bits[netlist.wires - masked.codes.len() + place];
            let mask = reference::evaluate::mask_of(code, masks.0, masks.1);
            assert_eq!(output != mask, open[source.wires - masked.codes.len() + place], "{name}");
        }
        for (wire, twin) in reference::mask::twins(source, codes).iter().enumerate() {
            let mask = reference::evaluate::mask_of(twin.code, masks.0, masks.1);
            assert_eq!(bits[twin.wire] != mask, open[wire], "{name}: wire {wire}");
        }
    }
}

#[test]
fn masks_the_circuits() {
    for circuit in circuits::all() {
        let Ok(source) = read(&SMALL, &circuit.text) else { continue };
        let codes: Vec<u8> = (0..source.input_bits()).map(|bit| 1 + (bit % 3) as u8).collect();
        let wanted: Vec<u8> = (0..source.output_bits()).map(|bit| (bit % 4) as u8).collect();
        assert_masked(&circuit.name, &source, &codes, &wanted);
        assert_masked(&circuit.name, &source, &vec![1; codes.len()], &vec![0; wanted.len()]);
        let mixed: Vec<u8> = (0..codes.len()).map(|bit| (bit % 4) as u8).collect();
        assert_masked(&circuit.name, &source, &mixed, &wanted);
    }
}

/// The masked netlist of the most wires.
#[test]
fn masks_the_ladder() {
    let source = sizes::ladder().write();
    for (code, length, wires) in [(1, 398_136, 18_430), (0, 398_158, 18_431)] {
        let masked = reference::mask(&[], &source, &[code], &[0; 2_048], ROOM, ROOM, Sizes::Standard)
            .expect("the ladder can be masked");
        assert_eq!(masked.text.len(), length);
        assert_eq!(read(&LARGE, &masked.text).expect("the masked ladder is good").wires, wires);
    }
}

#[test]
fn random_calls_reach_every_question() {
    let mut tally = Tally::new();
    for seed in 0..30_000 {
        let call = plan::call(seed);
        tally.add(call.service, &call.outcome());
    }
    println!("{tally}");
    tally.assert_floor(30);
}
