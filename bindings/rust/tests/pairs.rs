//! Check with pairs: the library against the rule as it is stated, each of the four values of a pair
//! counted by itself, on random netlists, codes and lists of pairs, good and damaged, on masked
//! circuits, and on cases worked out by hand.
//!
//! `FIDROVELJ_CALLS` sets how many random calls are made, a tenth of it here, `FIDROVELJ_SEED` the first
//! one's seed.

#[allow(dead_code)]
mod calls;
#[allow(dead_code)]
mod reference;

use calls::random::Random;
use calls::{circuits, plan, Service};
use fidrovelj::{check, check_pairs, check_pairs_lent, mask, Leak, Pairs, Refusal, Sizes, Tables};
use reference::ask;
use reference::evaluate::{masked_inputs, setting_bits, wires, MASKS};
use reference::netlist::{read, Netlist, LARGE};
use std::collections::HashMap;
use std::env;

/// How often the four mask settings show each value of two wires, for an input setting.
fn shown(netlist: &Netlist, codes: &[u8], setting: &[bool], u: usize, v: usize) -> [u8; 4] {
    let mut counts = [0; 4];
    for masks in MASKS {
        let bits = wires(netlist, &masked_inputs(setting, codes, masks));
        counts[usize::from(bits[u]) + 2 * usize::from(bits[v])] += 1;
    }
    counts
}

/// Whether every value of a pair is shown equally often in all settings with the same public bits: each
/// group of settings, told apart by its public bits, has one row of counts.
fn clean(netlist: &Netlist, codes: &[u8], u: usize, v: usize) -> bool {
    let mut rows: HashMap<Vec<bool>, [u8; 4]> = HashMap::new();
    for number in 0..1 << codes.len() {
        let setting = setting_bits(number, codes.len());
        let public = setting.iter().zip(codes).filter(|(_, &code)| code == 0).map(|(&bit, _)| bit).collect();
        let counts = shown(netlist, codes, &setting, u, v);
        if *rows.entry(public).or_insert(counts) != counts {
            return false;
        }
    }
    true
}

/// Both answers, by the reference.
type Answers = (Option<[u64; 4]>, Option<u64>);

fn outcome(tables: &[usize], text: &[u8], codes: &[u8], pairs: &[u32]) -> Result<Answers, u8> {
    // Check has one table less, and puts the same questions to all.
    let leak = reference::check(tables, text, codes, reference::netlist::Sizes::Standard)?;
    let netlist = read(&LARGE, text).expect("Check has read it");
    ask(21, pairs.len().is_multiple_of(2) && pairs.iter().all(|&wire| (wire as usize) < netlist.wires))?;
    let pairs: Vec<_> = pairs.chunks(2).map(|pair| (pair[0] as usize, pair[1] as usize)).collect();
    let bad = pairs.iter().position(|&(u, v)| !clean(&netlist, codes, u, v));
    Ok((leak, bad.map(|place| place as u64)))
}

/// The library's answer with these lists and tables full of rubbish, down to every entry.
fn assert_call(
    name: &str,
    tables: &[usize],
    text: &[u8],
    codes: &[u8],
    pairs: &[u32],
    rooms: [usize; 2],
) -> u8 {
    let expected = outcome(tables, text, codes, pairs).and_then(|(leak, bad)| {
        ask(14, leak.is_none() || rooms[0] >= 4)?;
        ask(14, bad.is_none() || rooms[1] >= 1)?;
        Ok((leak, bad))
    });
    let (mut leak, mut bad) = (vec![77; rooms[0]], vec![78; rooms[1]]);
    let mut lent: Vec<Vec<u64>> = [0, 1, 3, 4, 5].map(|i| vec![0x5a5a_5a5a_5a5a_5a5a; tables[i]]).to_vec();
    let mut given = vec![0x5a; tables[2]];
    let [operands, results, words, base, bases] = &mut lent[..] else { unreachable!("five tables") };
    let answer = check_pairs_lent(
        text,
        codes,
        pairs,
        &mut leak,
        &mut bad,
        operands,
        results,
        &mut given,
        words,
        base,
        bases,
        Sizes::Standard,
    );
    let number = |(leak, bad): &Answers| usize::from(leak.is_some()) + 2 * usize::from(bad.is_some());
    let wanted = expected.as_ref().map(number).map_err(|&question| Refusal::from_number(question).unwrap());
    let shown_text = String::from_utf8_lossy(&text[..text.len().min(4_000)]);
    assert_eq!(answer, wanted, "{name}: {codes:?} {pairs:?}\n{shown_text}");
    let (wanted_leak, wanted_bad) = expected.unwrap_or((None, None));
    let mut front = vec![77; rooms[0]];
    if let Some(numbers) = wanted_leak {
        front[..4].copy_from_slice(&numbers);
    }
    assert_eq!(leak, front, "{name}: {codes:?} {pairs:?}\n{shown_text}");
    let mut front = vec![78; rooms[1]];
    if let Some(place) = wanted_bad {
        front[0] = place;
    }
    assert_eq!(bad, front, "{name}: {codes:?} {pairs:?}\n{shown_text}");
    assert!(lent.iter().flatten().all(|&entry| entry == 0), "{name}: tables");
    assert!(given.iter().all(|&entry| entry == 0), "{name}: given");
    match expected {
        Ok(answers) => number(&answers) as u8,
        Err(question) => 100 + question,
    }
}

/// A list of pairs of wires below some number: some pairs of one wire, some behind the end, some odd.
fn random_pairs(random: &mut Random, wires: usize) -> Vec<u32> {
    let many = random.pick(&[0, 1, 1, 2, 3, 5, 8, 20]);
    let mut pairs: Vec<u32> = (0..2 * many).map(|_| random.below(wires.max(1)) as u32).collect();
    for place in 0..many {
        if random.percent(10) {
            pairs[2 * place + 1] = pairs[2 * place];
        }
    }
    if random.percent(4) {
        pairs.push(0);
    }
    if random.percent(4) && !pairs.is_empty() {
        let place = random.below(pairs.len());
        pairs[place] = random.pick(&[wires as u32, wires as u32 + 1, u32::MAX]);
    }
    pairs
}

fn setting(name: &str, default: u64) -> u64 {
    env::var(name).map_or(default, |value| value.parse().expect("a setting is a number"))
}

#[test]
fn random_calls() {
    let (first, count) = (setting("FIDROVELJ_SEED", 1), setting("FIDROVELJ_CALLS", 200_000) / 10);
    let mut ended: HashMap<u8, u64> = HashMap::new();
    let mut made = 0;
    for seed in first.. {
        if made == count {
            break;
        }
        let call = plan::call(seed);
        if call.service != Service::Check || call.sizes != reference::netlist::Sizes::Standard {
            continue;
        }
        made += 1;
        let random = &mut Random::new(seed ^ 0x7061_6972);
        let wires = read(&LARGE, &call.text).map_or(10, |netlist| netlist.wires);
        let pairs = random_pairs(random, wires);
        let mut tables = call.tables.clone();
        tables.push(if random.percent(2) { LARGE.table - 1 } else { LARGE.table });
        let rooms = [random.pick(&[4, 4, 4, 4, 5, 3, 0]), random.pick(&[1, 1, 1, 1, 2, 0])];
        let end = assert_call(&format!("seed {seed}"), &tables, &call.text, &call.list, &pairs, rooms);
        *ended.entry(end).or_default() += 1;
    }
    let mut rows: Vec<_> = ended.iter().collect();
    rows.sort();
    println!("{count} calls with pairs: {rows:?} (0 to 3 by the answer, 100 and the question)");
    for end in [0, 1, 2, 3, 101, 103, 104, 105, 106, 107, 108, 109, 110, 111, 112, 114, 121] {
        assert!(ended.contains_key(&end) || count < 2_000, "no call ended with {end}");
    }
}

/// Small netlists that every question admits, all pairs of their wires.
#[test]
fn all_pairs_of_small_netlists() {
    let mut seen = [0; 4];
    for seed in 0..400 {
        let random = &mut Random::new(seed);
        let bits = random.between(1, 5);
        let netlist = calls::netlists::with_mask_pair(random, bits, random_gates(seed));
        let codes = random.list(bits, 0, 3);
        let wires = netlist.wires as u32;
        for u in 0..wires {
            for v in u..wires {
                let text = netlist.write();
                let end = assert_call("all pairs", &[LARGE.table; 6], &text, &codes, &[u, v], [4, 1]);
                seen[usize::from(end)] += 1;
            }
        }
    }
    println!("all pairs of small netlists, by the answer: {seen:?}");
    assert!(seen.iter().all(|&count| count > 100));
}

fn random_gates(seed: u64) -> usize {
    Random::new(seed ^ 99).between(0, 9)
}

/// Masked circuits: clean on every wire, and the pairs by the rule.
#[test]
fn masked_circuits() {
    let tables = &mut Tables::standard();
    let mut bad = 0;
    for circuit in circuits::all() {
        let Ok(source) = read(&reference::netlist::SMALL, &circuit.text) else { continue };
        if source.input_bits() > 8 || source.wires > 300 {
            continue;
        }
        let random = &mut Random::new(7);
        let codes = random.list(source.input_bits(), 0, 3);
        let masked =
            mask(&circuit.text, &codes, &vec![0; source.output_bits()], tables).expect("it is small");
        let netlist = read(&LARGE, &masked.text).expect("it is good");
        assert_eq!(check(&masked.text, &codes, tables), Ok(None), "{}", circuit.name);
        for _ in 0..8 {
            let pairs: Vec<u32> = (0..2).map(|_| random.below(netlist.wires) as u32).collect();
            let end = assert_call(&circuit.name, &[LARGE.table; 6], &masked.text, &codes, &pairs, [4, 1]);
            bad += u32::from(end == 2);
        }
    }
    assert!(bad > 0);
}

/// Rows worked out by hand: text, codes, pairs and both answers.
#[test]
fn by_hand() {
    let tables = &mut Tables::standard();
    let leak = |wire, setting, base, own| Some(Leak { wire, setting, base, own });
    let one = b"0 3\n2 1 2\n1 1\n".as_slice();
    let two = b"0 4\n2 2 2\n1 1\n".as_slice();
    let open = b"1 4\n2 1 2\n1 1\n2 1 0 1 3 XOR\n".as_slice();
    let rows: [(&[u8], &[u8], &[u32], _, _); 12] = [
        // A masked bit and then its mask; the other mask bit; the masks by themselves; one wire twice.
        (one, &[1], &[0, 1], None, Some(0)),
        (one, &[1], &[0, 2], None, None),
        (one, &[3], &[0, 1, 0, 2, 1, 2, 0, 0], None, None),
        // Two bits under one mask, under two, and one of them public.
        (two, &[1, 1], &[0, 1], None, Some(0)),
        (two, &[1, 2], &[0, 1, 1, 0], None, None),
        (two, &[1, 0], &[0, 1], None, None),
        // A public bit and the mask of the other; the other under its mask.
        (two, &[1, 0], &[1, 2, 0, 2], None, Some(1)),
        // The list is empty; the bad pair is the last.
        (two, &[1, 1], &[], None, None),
        (two, &[1, 1], &[0, 0, 1, 1, 0, 3, 1, 0], None, Some(3)),
        // A leak beside clean pairs, beside the leak's own wire, and beside a bad pair of clean wires.
        (open, &[1], &[0, 2, 1, 2], leak(3, 1, 0, 4), None),
        (open, &[1], &[0, 2, 3, 3], leak(3, 1, 0, 4), Some(1)),
        (open, &[1], &[2, 2, 0, 1], leak(3, 1, 0, 4), Some(1)),
    ];
    for (text, codes, pairs, leak, bad) in rows {
        assert_eq!(check_pairs(text, codes, pairs, tables), Ok(Pairs { leak, bad }), "{codes:?} {pairs:?}");
    }
    // 21 comes after 11 and 12: odd lists, wire W, the largest number.
    for pairs in [[0].as_slice(), &[0, 1, 2], &[0, 3], &[u32::MAX, 0]] {
        assert_eq!(check_pairs(one, &[1], pairs, tables), Err(Refusal::Pairs));
        assert_eq!(check_pairs(one, &[4], pairs, tables), Err(Refusal::Inputs));
        assert_eq!(check_pairs(b"0 15\n2 13 2\n1 1\n", &[1; 13], pairs, tables), Err(Refusal::Settings));
    }
    // Twelve bits are checked, pairs across all settings too: the last setting alone is bad.
    let mut text = b"12 26\n2 12 2\n1 1\n".to_vec();
    text.extend_from_slice(b"1 1 12 14 EQW\n");
    for bit in 0..11 {
        let line = format!("2 1 {} {} {} AND\n", if bit == 0 { 0 } else { 14 + bit }, bit + 1, 15 + bit);
        text.extend_from_slice(line.as_bytes());
    }
    // All twelve bits are public but the last, which travels under m0: wire 25 is their AND.
    let mut codes = [0; 12];
    codes[11] = 1;
    assert_eq!(
        check_pairs(&text, &codes, &[24, 12, 11, 13, 25, 12], tables).map(|both| both.bad),
        Ok(Some(2))
    );
}
