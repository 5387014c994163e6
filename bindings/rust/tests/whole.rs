//! The library at the sizes of whole ciphers: unrolled ciphers with public vectors through Rewrite, Run
//! and Mask, and both sides of each limit against the reference.

#[allow(dead_code)]
mod calls;
mod ciphers;
mod library;
#[allow(dead_code)]
mod reference;

use calls::{Call, Given, Service};
use ciphers::Cipher;
use fidrovelj::{check, from_words, mask, rewrite, run, run64, to_words, Refusal, Tables};
use library::Library;
use reference::netlist::{Gate, Netlist, Sizes};
use std::time::Instant;

fn mask_of(code: u8, [m0, m1]: [u8; 2]) -> u8 {
    [0, m0, m1, m0 ^ m1][usize::from(code)]
}

/// Bits with the masks of their codes put on, or taken off.
fn masked(bits: &[u8], codes: &[u8], masks: [u8; 2]) -> Vec<u8> {
    bits.iter().zip(codes).map(|(bit, &code)| bit ^ mask_of(code, masks)).collect()
}

/// A masked cipher is what the reference gives, in the written form, and agrees with the vectors under all
/// four mask settings.
fn assert_masked(cipher: &Cipher, text: &[u8], tables: &mut Tables) -> usize {
    let name = cipher.name;
    let codes: Vec<u8> = (0..cipher.netlist.input_bits()).map(|bit| 1 + (bit % 3) as u8).collect();
    let wanted: Vec<u8> = (0..cipher.netlist.output_bits()).map(|bit| (bit % 4) as u8).collect();
    let given = mask(text, &codes, &wanted, tables).expect("the cipher can be masked");
    let expected = Call::of(Sizes::Whole, Service::Mask, text, &codes, &wanted).outcome();
    let expected = expected.expect("the reference masks it");
    assert!(given.text == expected.text && given.codes == expected.list, "{name}, masked");
    assert!(
        rewrite(&given.text, tables).as_deref() == Ok(&given.text),
        "{name}, masked, is in the written form"
    );
    for (inputs, outputs) in &cipher.vectors {
        for masks in [[0, 0], [1, 0], [0, 1], [1, 1]] {
            let mut bits = masked(inputs, &codes, masks);
            bits.extend(masks);
            let out = run(&given.text, &bits, tables).expect("a masked text can be run");
            assert!(masked(&out, &given.codes, masks) == *outputs, "{name}, masked, under {masks:?}");
        }
    }
    given.text.len()
}

#[test]
fn ciphers() {
    let tables = &mut Tables::whole();
    for cipher in ciphers::all() {
        let start = Instant::now();
        let name = cipher.name;
        let text = cipher.netlist.write();
        assert!(rewrite(&text, tables).as_deref() == Ok(&text), "{name} is in the written form");
        for (inputs, outputs) in &cipher.vectors {
            assert!(run(&text, inputs, tables).as_ref() == Ok(outputs), "{name}");
        }
        for vectors in cipher.vectors.chunks(64) {
            let (inputs, outputs): (Vec<_>, Vec<_>) = vectors.iter().cloned().unzip();
            let given = run64(&text, &to_words(&inputs), tables).expect("the cipher can be run");
            assert!(from_words(&given, inputs.len()) == outputs, "{name}, all vectors at once");
        }
        let gates = cipher.netlist.gates.len();
        if cipher.netlist.wires > 100_000 {
            assert_eq!(mask(&text, &[], &[], tables), Err(Refusal::Limits), "{name}");
            println!("{name}: {gates} gates, {} bytes, too many wires for Mask", text.len());
        } else {
            let length = assert_masked(&cipher, &text, tables);
            println!(
                "{name}: {gates} gates, {} bytes, masked {length} bytes, {:.1} s",
                text.len(),
                start.elapsed().as_secs_f64()
            );
        }
    }
}

/// Twelve bits and ANDs: clean when masked, and with one leak on the last wire.
#[test]
fn check_of_many_wires() {
    let tables = &mut Tables::whole();
    let gates = (12..20_000).map(|c| Gate::And(c - 1, c - 12, c)).collect();
    let source = Netlist { wires: 20_000, inputs: vec![12], outputs: vec![1], gates };
    let codes = [1, 2, 3, 1, 2, 3, 1, 2, 3, 1, 2, 3];
    let given = mask(&source.write(), &codes, &[0], tables).expect("it can be masked");
    assert_eq!(check(&given.text, &codes, tables), Ok(None));

    let mut netlist = reference::netlist::read(Sizes::Whole.large(), &given.text).expect("it is good");
    let last = netlist.wires - 1;
    netlist.gates.push(Gate::Xor(last, 11 + usize::from(given.codes[0]), last + 1));
    netlist.wires += 1;
    let leak = check(&netlist.write(), &codes, tables).expect("it is checked").expect("it leaks");
    assert_eq!((leak.wire, leak.setting, leak.base, leak.own), (last as u64 + 1, 4_095, 0, 4));
}

/// A netlist of so many wires, its last one a gate.
fn wide(wires: usize) -> Netlist {
    Netlist {
        wires,
        inputs: vec![wires - 3, 2],
        outputs: vec![1],
        gates: vec![Gate::And(0, wires - 2, wires - 1)],
    }
}

/// The call of a service on a netlist, with lists that fit.
fn fitted(service: Service, sizes: Sizes, netlist: &Netlist) -> Call {
    let bits = if service == Service::Check { netlist.input_bits() - 2 } else { netlist.input_bits() };
    let wanted = vec![0; if service == Service::Mask { netlist.output_bits() } else { 0 }];
    let list = vec![1; if service == Service::Rewrite { 0 } else { bits }];
    Call::of(sizes, service, &netlist.write(), &list, &wanted)
}

fn assert_answer(library: &mut Library, name: &str, call: &Call, question: Option<u8>) {
    let expected = call.outcome();
    assert_eq!(expected.as_ref().err().copied(), question, "{name}");
    library.assert_outcome(name, call, &expected);
}

/// Both sides of the limits on wires, under either choice.
#[test]
fn wires() {
    let library = &mut Library::new();
    for service in Service::ALL {
        // Check refuses so many bits by 12, once 5 is answered yes.
        let admitted = (service == Service::Check).then_some(12);
        for sizes in [Sizes::Standard, Sizes::Whole] {
            let most = service.limits_of(sizes).wires;
            assert_answer(library, "as many wires as may be", &fitted(service, sizes, &wide(most)), admitted);
            assert_answer(library, "one wire more", &fitted(service, sizes, &wide(most + 1)), Some(5));
        }
        let more = fitted(service, Sizes::Standard, &wide(service.limits_of(Sizes::Whole).wires));
        assert_answer(library, "whole wires under the old limits", &more, Some(5));
    }
}

/// Both sides of the limits on a text's bytes, under either choice.
#[test]
fn bytes() {
    let library = &mut Library::new();
    for service in Service::ALL {
        for sizes in [Sizes::Standard, Sizes::Whole] {
            let most = service.limits_of(sizes).text;
            let mut call = fitted(service, sizes, &wide(4));
            call.text.resize(most, b' ');
            assert_answer(library, "as many bytes as may be", &call, None);
            call.text.push(b'\n');
            assert_answer(library, "one byte more", &call, Some(2));
        }
    }
}

/// Each table one entry short, and tables for the other choice.
#[test]
fn tables() {
    let library = &mut Library::new();
    for service in Service::ALL {
        for table in 0..service.tables() {
            let mut call = fitted(service, Sizes::Whole, &wide(4));
            call.tables[table] -= 1;
            assert_answer(library, "a table one short", &call, Some(1));
        }
        let mut call = fitted(service, Sizes::Standard, &wide(4));
        call.tables.fill(service.limits_of(Sizes::Whole).table);
        assert_answer(library, "whole tables under the old limits", &call, None);
        call.sizes = Sizes::Whole;
        call.tables.fill(service.limits_of(Sizes::Standard).table);
        assert_answer(library, "old tables under the whole limits", &call, Some(1));
    }
}

/// Six digits and seven, under either choice.
#[test]
fn digits() {
    let library = &mut Library::new();
    for (text, question) in [
        ("0 999999\n1 1\n1 1\n", 5),
        ("0 1000000\n1 1\n1 1\n", 4),
        ("0 1\n1 999999\n1 1\n", 5),
        ("0 1\n1 1\n1 1000000\n", 4),
        ("999999 1\n1 1\n1 1\n", 6),
        ("1 2\n1 1\n1 1\n1 1 999999 1 INV\n", 8),
        ("1 2\n1 1\n1 1\n1 1 1000000 1 INV\n", 7),
        ("1 2\n1 1\n1 1\n1 1 0 999999 INV\n", 9),
        ("1 2\n1 1\n1 1\n1 1 0 1000000 INV\n", 7),
        ("1 2\n1 1\n1 1\n1 1 100000 1 EQ\n", 8),
        ("1 2\n1 1\n1 1\n1 1 0000001 1 EQ\n", 7),
    ] {
        for service in Service::ALL {
            for sizes in [Sizes::Standard, Sizes::Whole] {
                assert_answer(
                    library,
                    text,
                    &Call::of(sizes, service, text.as_bytes(), &[], &[]),
                    Some(question),
                );
            }
        }
    }
}

/// The masked netlist of the most wires, of a public bit: each service takes it, and a buffer a byte short is refused.
#[test]
fn the_ladder() {
    let library = &mut Library::new();
    let source = Call { list: vec![0], ..fitted(Service::Mask, Sizes::Whole, &ciphers::and_ladder(100_000)) };
    let Ok(Given { text, .. }) = source.outcome() else { panic!("the ladder can be masked") };
    assert!(text.starts_with(b"899996 899999\n"));
    println!("the masked ladder: {} bytes", text.len());
    let exact = Call { text_room: text.len(), ..source.clone() };
    assert_answer(library, "an exact fit", &exact, None);
    assert_answer(library, "a byte short", &Call { text_room: text.len() - 1, ..source }, Some(14));
    for (service, list) in
        [(Service::Rewrite, vec![]), (Service::Run, vec![1, 0, 1]), (Service::Run64, vec![7, 8, 9])]
    {
        assert_answer(
            library,
            "the masked ladder",
            &Call::of(Sizes::Whole, service, &text, &list, &[]),
            None,
        );
    }
    assert_eq!(check(&text, &[0], &mut Tables::whole()), Ok(None));
}
