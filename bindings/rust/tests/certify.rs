//! Certify: what the library says held against evaluators written apart. Up to twelve bits every wire is decided by all
//! settings; above, leaks that are told are recounted, and settings drawn at random look for a leak where none is told.
//!
//! `FIDROVELJ_CALLS` sets how many random calls are made, half of it here, `FIDROVELJ_SEED` the first one's seed, and
//! `FIDROVELJ_CIRCUITS` a folder of further circuits to be masked and certified.

#[allow(dead_code)]
mod calls;
#[allow(dead_code)]
mod ciphers;
#[allow(dead_code)]
mod reference;

use calls::random::Random;
use calls::{circuits, netlists, plan, Service};
use fidrovelj::{certify, certify_lent, check, join, mask, Certified, Refusal, Tables};
use reference::ask;
use reference::evaluate::{masked_inputs, wires, MASKS};
use reference::netlist::{read, Gate, Netlist, Sizes, LARGE, WHOLE_LARGE, WHOLE_SMALL};
use std::time::Instant;
use std::{env, fs};

// ---- evaluators

/// The wires in sixty-four settings, a bit of each word for each, under one of the four mask settings.
fn lanes(netlist: &Netlist, codes: &[u8], settings: &[u64], masks: (bool, bool)) -> Vec<u64> {
    let all = |bit: bool| if bit { u64::MAX } else { 0 };
    let mask = [0, all(masks.0), all(masks.1), all(masks.0) ^ all(masks.1)];
    let mut words: Vec<u64> =
        settings.iter().zip(codes).map(|(word, &code)| word ^ mask[usize::from(code)]).collect();
    words.extend([mask[1], mask[2]]);
    words.resize(netlist.wires, 0);
    for gate in &netlist.gates {
        words[gate.result()] = match *gate {
            Gate::Xor(a, b, _) => words[a] ^ words[b],
            Gate::And(a, b, _) => words[a] & words[b],
            Gate::Inv(a, _) => !words[a],
            Gate::Eqw(a, _) => words[a],
            Gate::Eq(v, _) => all(v == 1),
        };
    }
    words
}

/// The binary digits of each wire's count in sixty-four settings: a word for the ones, the twos and the fours.
fn count_digits(netlist: &Netlist, codes: &[u8], settings: &[u64]) -> Vec<[u64; 3]> {
    let mut digits = vec![[0; 3]; netlist.wires];
    for masks in MASKS {
        for (digit, word) in digits.iter_mut().zip(lanes(netlist, codes, settings, masks)) {
            let twos = digit[0] & word;
            digit[0] ^= word;
            digit[2] ^= digit[1] & twos;
            digit[1] ^= twos;
        }
    }
    digits
}

/// Lane 0 of each word in all lanes.
fn broadcast(digits: [u64; 3]) -> [u64; 3] {
    digits.map(|word| if word & 1 == 1 { u64::MAX } else { 0 })
}

const WITHIN: [u64; 6] = [
    0xaaaa_aaaa_aaaa_aaaa,
    0xcccc_cccc_cccc_cccc,
    0xf0f0_f0f0_f0f0_f0f0,
    0xff00_ff00_ff00_ff00,
    0xffff_0000_ffff_0000,
    0xffff_ffff_0000_0000,
];

/// Which wires leak, by all settings: for each setting of the public bits all those of the secrets, sixty-four at a time.
fn leaking(netlist: &Netlist, codes: &[u8]) -> Vec<bool> {
    let places = |public: bool| (0..codes.len()).filter(move |&bit| (codes[bit] == 0) == public);
    let (public, secret): (Vec<usize>, Vec<usize>) = (places(true).collect(), places(false).collect());
    let mut leaking = vec![false; netlist.wires];
    let mut settings = vec![0; codes.len()];
    for open in 0..1 << public.len() {
        for (place, &bit) in public.iter().enumerate() {
            settings[bit] = if open >> place & 1 == 1 { u64::MAX } else { 0 };
        }
        let mut base = Vec::new();
        for block in 0..1 << secret.len().saturating_sub(6) {
            for (place, &bit) in secret.iter().enumerate() {
                settings[bit] = match place {
                    0..=5 => WITHIN[place],
                    _ if block >> (place - 6) & 1 == 1 => u64::MAX,
                    _ => 0,
                };
            }
            let digits = count_digits(netlist, codes, &settings);
            if block == 0 {
                base = digits.iter().map(|&digits| broadcast(digits)).collect();
            }
            for wire in 0..netlist.wires {
                leaking[wire] |= digits[wire] != base[wire];
            }
        }
    }
    leaking
}

/// Which wires some of the settings drawn show to leak; public bits are the same in each sixty-four of them.
fn seen_leaking(random: &mut Random, netlist: &Netlist, codes: &[u8], passes: usize) -> Vec<bool> {
    let mut leaking = vec![false; netlist.wires];
    for _ in 0..passes {
        let draw = |&code: &u8| match code {
            0 if random.percent(50) => u64::MAX,
            0 => 0,
            _ => random.next(),
        };
        let settings: Vec<u64> = codes.iter().map(draw).collect();
        for (leaking, digits) in leaking.iter_mut().zip(count_digits(netlist, codes, &settings)) {
            *leaking |= digits != broadcast(digits);
        }
    }
    leaking
}

/// The count of a wire in one setting, a bit at a time.
fn count(netlist: &Netlist, codes: &[u8], setting: &[bool], wire: usize) -> u64 {
    let ones = MASKS.iter().filter(|&&masks| wires(netlist, &masked_inputs(setting, codes, masks))[wire]);
    ones.count() as u64
}

/// A told leak is one: the counts are the wire's in the setting and in the one with its public bits and zero secrets.
fn assert_leak(name: &str, netlist: &Netlist, codes: &[u8], wire: u64, ones: &[u64], base: u64, own: u64) {
    let wire = wire as usize;
    assert!(wire < netlist.wires, "{name}: wire {wire}");
    assert!(ones.windows(2).all(|pair| pair[0] < pair[1]), "{name}: {ones:?} rise");
    assert!(ones.iter().all(|&bit| bit < codes.len() as u64), "{name}: {ones:?} are input bits");
    let mut setting = vec![false; codes.len()];
    for &bit in ones {
        setting[bit as usize] = true;
    }
    let public: Vec<bool> = setting.iter().zip(codes).map(|(&bit, &code)| bit && code == 0).collect();
    assert_eq!(count(netlist, codes, &setting, wire), own, "{name}: wire {wire} in {ones:?}");
    assert_eq!(count(netlist, codes, &public, wire), base, "{name}: wire {wire} in the base of {ones:?}");
    assert_ne!(base, own, "{name}: wire {wire} in {ones:?}");
}

/// What is said of a netlist is true, by which wires leak: 0 for clean, 1 for a leak, 2 for unknown.
fn assert_true(name: &str, netlist: &Netlist, codes: &[u8], said: &Certified, leaking: &[bool]) -> usize {
    let lowest = leaking.iter().position(|&leaks| leaks);
    match said {
        Certified::Clean => {
            assert_eq!(lowest, None, "{name} is called clean");
            0
        }
        Certified::Leak { wire, ones, base, own } => {
            assert_leak(name, netlist, codes, *wire, ones, *base, *own);
            1
        }
        Certified::Unknown { wire } => {
            assert!((*wire as usize) < netlist.wires, "{name}: wire {wire}");
            assert!(lowest.is_none_or(|lowest| lowest as u64 >= *wire), "{name}: a wire below {wire} leaks");
            2
        }
    }
}

// ---- netlists

/// Another kind or another operand for a gate anywhere.
fn change_gate(random: &mut Random, netlist: &mut Netlist) {
    let place = random.below(netlist.gates.len());
    let gate = netlist.gates[place];
    let c = gate.result();
    let given: Vec<usize> =
        (0..netlist.input_bits()).chain(netlist.gates[..place].iter().map(Gate::result)).collect();
    let other = random.pick(&given);
    netlist.gates[place] = match gate {
        Gate::Xor(a, b, _) => {
            random.pick(&[Gate::And(a, b, c), Gate::Xor(a, other, c), Gate::Eqw(a, c), Gate::Eqw(b, c)])
        }
        Gate::And(a, b, _) => {
            random.pick(&[Gate::Xor(a, b, c), Gate::And(a, other, c), Gate::Eqw(a, c), Gate::Inv(b, c)])
        }
        Gate::Inv(a, _) => random.pick(&[Gate::Eqw(a, c), Gate::Xor(a, other, c)]),
        Gate::Eqw(a, _) => random.pick(&[Gate::Inv(a, c), Gate::And(a, other, c)]),
        Gate::Eq(v, _) => Gate::Eq(1 - v, c),
    };
}

/// Another order of adding the five terms of a masked AND: A AND B, A AND Q, Q, P AND B, and the masks' OR.
fn reorder_and(random: &mut Random, netlist: &mut Netlist) {
    let is_and = |gates: &[Gate]| {
        matches!(
            gates,
            [
                Gate::And(..),
                Gate::And(..),
                Gate::Xor(..),
                Gate::Xor(..),
                Gate::And(..),
                Gate::Xor(..),
                Gate::Xor(..)
            ]
        )
    };
    let places: Vec<usize> =
        (3..netlist.gates.len().max(9) - 6).filter(|&at| is_and(&netlist.gates[at..at + 7])).collect();
    if places.is_empty() {
        return;
    }
    let at = random.pick(&places);
    let steps = &mut netlist.gates[at..at + 7];
    let (Gate::And(_, q, s2), Gate::Xor(_, or, s6), last) = (steps[1], steps[5], steps[6].result()) else {
        unreachable!("the seven steps have this form")
    };
    let (s1, s3, s4, s5) = (steps[0].result(), steps[2].result(), steps[3].result(), steps[4].result());
    steps.swap(2, 4);
    let mut terms = vec![s1, s2, q, s5, or];
    for (place, result) in [s3, s4, s6, last].into_iter().enumerate() {
        random.shuffle(&mut terms);
        let (a, b) = (terms.pop().expect("a term"), terms.pop().expect("a term"));
        steps[3 + place] = Gate::Xor(a, b, result);
        terms.push(result);
    }
}

/// One gate more, which takes the mask of some code off some wire, and is put out.
fn take_mask_off(random: &mut Random, netlist: &mut Netlist) {
    let (wire, mask) = (random.below(netlist.wires), netlist.input_bits() - 2 + random.below(3));
    netlist.gates.push(Gate::Xor(wire, mask, netlist.wires));
    netlist.wires += 1;
    netlist.outputs = vec![1];
}

/// A masked circuit, or a broken form of it, and its codes.
fn broken(random: &mut Random, sources: &[Netlist]) -> (Netlist, Vec<u8>, bool) {
    let source = &sources[random.below(sources.len())];
    let mut codes = netlists::codes(random, source.input_bits());
    let wanted = random.list(source.output_bits(), 0, 3);
    let (mut netlist, _) = reference::mask::mask(source, &codes, &wanted);
    let way = random.below(10);
    match way {
        0 => (),
        1 => codes = netlists::codes(random, codes.len()),
        2 => {
            let place = random.below(codes.len());
            codes[place] = (codes[place] + 1 + random.below(3) as u8) % 4;
        }
        3..=5 => change_gate(random, &mut netlist),
        6..=8 => reorder_and(random, &mut netlist),
        _ => take_mask_off(random, &mut netlist),
    }
    (netlist, codes, way == 0)
}

fn small_sources() -> Vec<Netlist> {
    let sources = circuits::all().into_iter().filter_map(|circuit| read(&LARGE, &circuit.text).ok());
    sources.filter(|source| source.input_bits() <= 12 && source.wires <= 300).collect()
}

fn setting(name: &str, default: u64) -> u64 {
    env::var(name).map_or(default, |value| value.parse().expect("a setting is a number"))
}

// ---- up to twelve bits

/// Masked and broken circuits and random netlists: whatever is said is true of every wire, by all settings, and never is clean
/// said where Check says leak.
#[test]
fn up_to_twelve_bits() {
    let (first, count) = (setting("FIDROVELJ_SEED", 1), setting("FIDROVELJ_CALLS", 200_000) / 2);
    let tables = &mut Tables::standard();
    let sources = small_sources();
    // By the truth, clean or leaking, then by the answer; and the unknown ones whose wire does not leak.
    let (mut said, mut astray) = ([[0_u64; 3]; 2], 0);
    for seed in first..first + count {
        let random = &mut Random::new(seed ^ 0x6365_7274);
        let (netlist, codes, unbroken) = if random.percent(50) {
            broken(random, &sources)
        } else {
            let (netlist, codes) = netlists::checkable(random);
            (netlist, codes, false)
        };
        let (name, text) = (format!("seed {seed}"), netlist.write());
        let answer = certify(&text, &codes, tables).expect("it is good");
        let leaking = leaking(&netlist, &codes);
        let leaks = leaking.contains(&true);
        let number = assert_true(&name, &netlist, &codes, &answer, &leaking);
        assert_eq!(check(&text, &codes, tables).expect("it is good").is_some(), leaks, "{name}, by Check");
        assert!(!unbroken || number == 0, "{name}: masked, and {answer:?}");
        said[usize::from(leaks)][number] += 1;
        if let Certified::Unknown { wire } = answer {
            astray += u64::from(!leaking[wire as usize]);
        }
    }
    println!(
        "{count} netlists of up to twelve bits, by clean, leak and unknown: clean {:?}, leaking {:?}",
        said[0], said[1]
    );
    println!("unknown at a wire that does not leak: {astray}");
    assert_eq!((said[0][1], said[1][0]), (0, 0));
    assert!(said[0][0] > count / 5 && said[1][1] > count / 5, "both are seen often");
    // Few are not decided.
    assert!(said[0][2] + said[1][2] < count / 20, "{} of {count} are unknown", said[0][2] + said[1][2]);
}

/// M5 to M7 and public bits, by hand.
#[test]
fn by_hand() {
    let tables = &mut Tables::standard();
    let leak = |wire, ones: &[u64], base, own| Certified::Leak { wire, ones: ones.to_vec(), base, own };
    let (xor, and) =
        (b"1 4\n2 1 2\n1 1\n2 1 0 1 3 XOR\n".as_slice(), b"1 4\n2 1 2\n1 1\n2 1 0 1 3 AND\n".as_slice());
    let mixed = b"2 6\n2 2 2\n1 1\n2 1 0 1 4 AND\n2 1 4 2 5 XOR\n".as_slice();
    let rows: [(&[u8], &[u8], Certified); 8] = [
        // The mask of a bit taken off, another put on; an AND with the mask.
        (xor, &[1], leak(3, &[0], 0, 4)),
        (xor, &[2], Certified::Clean),
        (and, &[1], leak(3, &[0], 2, 0)),
        // A public bit may be read, and put under a mask.
        (xor, &[0], Certified::Clean),
        (b"1 4\n2 1 2\n1 1\n1 1 0 3 INV\n", &[0], Certified::Clean),
        // Mixed with a secret that travels under m0, it tells the secret where it is one.
        (mixed, &[0, 1], leak(5, &[0, 1], 0, 4)),
        // Two public bits tell nothing but themselves.
        (mixed, &[0, 0], Certified::Clean),
        // No gate at all.
        (b"0 3\n2 1 2\n1 1\n", &[1], Certified::Clean),
    ];
    for (text, codes, said) in rows {
        assert_eq!(certify(text, codes, tables), Ok(said), "{codes:?}");
    }
}

// ---- any number of bits

/// Masked by the reference, which has no limits, under each of some lists of codes: certified clean.
fn assert_masked_clean(name: &str, source: &Netlist, tables: &mut Tables) -> (usize, f64) {
    let random = &mut Random::new(source.wires as u64);
    let (mut most, mut longest) = (0, 0.0_f64);
    let bits = source.input_bits();
    for codes in [vec![1; bits], random.list(bits, 1, 3), random.list(bits, 0, 3), vec![0; bits]] {
        let wanted = random.list(source.output_bits(), 0, 3);
        let (masked, _) = reference::mask::mask(source, &codes, &wanted);
        let text = masked.write();
        let start = Instant::now();
        assert_eq!(certify(&text, &codes, tables), Ok(Certified::Clean), "{name}, masked");
        longest = longest.max(start.elapsed().as_secs_f64());
        most = most.max(masked.wires);
    }
    (most, longest)
}

#[test]
fn masked_circuits() {
    let tables = &mut Tables::standard();
    for circuit in circuits::all() {
        let source = read(&LARGE, &circuit.text).expect("a circuit is good");
        let masked =
            mask(&circuit.text, &vec![1; source.input_bits()], &vec![0; source.output_bits()], tables);
        if let Ok(masked) = masked {
            let codes = vec![1; source.input_bits()];
            assert_eq!(certify(&masked.text, &codes, tables), Ok(Certified::Clean), "{}", circuit.name);
        }
    }
    let tables = &mut Tables::whole();
    for circuit in circuits::all() {
        let source = read(&LARGE, &circuit.text).expect("a circuit is good");
        assert_masked_clean(&circuit.name, &source, tables);
    }
}

/// AES-128, SHA-256, ChaCha20, Ascon-p12, Present-80 and others, whole.
#[test]
fn masked_ciphers() {
    let tables = &mut Tables::whole();
    for cipher in ciphers::all() {
        let (wires, seconds) = assert_masked_clean(cipher.name, &cipher.netlist, tables);
        println!("{}, masked: {wires} wires, certified clean in {seconds:.3} s", cipher.name);
        if cipher.netlist.wires <= WHOLE_SMALL.wires {
            let codes = vec![1; cipher.netlist.input_bits()];
            let wanted = vec![0; cipher.netlist.output_bits()];
            let masked = mask(&cipher.netlist.write(), &codes, &wanted, tables).expect("it can be masked");
            assert_eq!(certify(&masked.text, &codes, tables), Ok(Certified::Clean), "{}", cipher.name);
        }
    }
}

/// Two masked blocks, joined: clean, and a leak where the second was masked for other codes than the first puts out.
#[test]
fn joined_blocks() {
    let tables = &mut Tables::standard();
    let text = circuits::circuit("aes_sub_bytes").text;
    let random = &mut Random::new(4);
    let codes = random.list(128, 0, 3);
    let first = mask(&text, &codes, &[0; 128], tables).expect("it can be masked");
    let second = mask(&text, &first.codes, &[0; 128], tables).expect("it can be masked");
    let joined =
        join(&first.text, &second.text, &codes, &first.codes, &first.codes, tables).expect("they join");
    assert_eq!(certify(&joined, &codes, tables), Ok(Certified::Clean));

    let mut others = first.codes.clone();
    others[5] = others[5] % 3 + 1;
    let second = mask(&text, &others, &[0; 128], tables).expect("it can be masked");
    let joined =
        join(&first.text, &second.text, &codes, &first.codes, &first.codes, tables).expect("they join");
    let said = certify(&joined, &codes, tables).expect("it is good");
    assert!(matches!(said, Certified::Leak { .. }), "{said:?}");
    let netlist = read(&LARGE, &joined).expect("it is good");
    assert_true("joined", &netlist, &codes, &said, &[]);
}

/// Further circuits, if a folder is named.
#[test]
fn further_circuits() {
    let Some(folder) = env::var_os("FIDROVELJ_CIRCUITS") else { return };
    let tables = &mut Tables::whole();
    let mut files: Vec<_> = fs::read_dir(folder)
        .expect("FIDROVELJ_CIRCUITS is a folder")
        .map(|file| file.expect("it can be read").path())
        .filter(|path| path.extension().is_some_and(|end| end == "txt"))
        .collect();
    files.sort();
    assert!(!files.is_empty());
    for file in files {
        let name = file.display().to_string();
        let text = fs::read(&file).expect("a circuit can be read");
        let source = read(&WHOLE_LARGE, &text).unwrap_or_else(|question| panic!("{name}: {question}"));
        let (wires, seconds) = assert_masked_clean(&name, &source, tables);
        println!("{name}, masked: {wires} wires, certified clean in {seconds:.3} s");
    }
}

/// Masked circuits of many bits with a change somewhere: a told leak is one, and where none is told, settings drawn at random
/// show none.
#[test]
fn many_bits() {
    let count = setting("FIDROVELJ_CALLS", 200_000) / 200;
    let tables = &mut Tables::standard();
    let sources: Vec<Netlist> = circuits::all()
        .into_iter()
        .filter_map(|circuit| read(&LARGE, &circuit.text).ok())
        .filter(|source| source.input_bits() > 12 && source.wires <= 2_048)
        .collect();
    let mut said = [0; 3];
    for seed in 0..count {
        let random = &mut Random::new(seed);
        let (netlist, codes, unbroken) = broken(random, &sources);
        let name = format!("seed {seed}");
        let answer = certify(&netlist.write(), &codes, tables).expect("it is good");
        let seen = match answer {
            Certified::Leak { .. } => vec![false; netlist.wires],
            _ => seen_leaking(random, &netlist, &codes, 4),
        };
        let number = assert_true(&name, &netlist, &codes, &answer, &seen);
        assert!(!unbroken || number == 0, "{name}: masked, and {answer:?}");
        said[number] += 1;
    }
    println!("{count} netlists of many bits: clean, leak and unknown {said:?}");
    assert!(said[0] > 0 && said[1] > 0);
}

/// The AND of sixty-four bits with its mask taken off is one in a single setting, which no search meets: unknown, and at that wire.
#[test]
fn a_rare_leak() {
    let tables = &mut Tables::standard();
    let gates = (0..63).map(|i| Gate::And(if i == 0 { 0 } else { 63 + i }, i + 1, 64 + i)).collect();
    let source = Netlist { wires: 127, inputs: vec![64], outputs: vec![1], gates };
    let (mut netlist, codes) = reference::mask::mask(&source, &[1; 64], &[0]);
    assert_eq!(certify(&netlist.write(), &[1; 64], tables), Ok(Certified::Clean));
    let wire = netlist.wires;
    netlist.gates.push(Gate::Xor(wire - 1, 63 + usize::from(codes[0]), wire));
    netlist.wires += 1;
    let setting = [true; 64];
    assert_eq!(count(&netlist, &[1; 64], &setting, wire), 4);
    assert_eq!(count(&netlist, &[1; 64], &[false; 64], wire), 0);
    let unknown = Certified::Unknown { wire: wire as u64 };
    assert_eq!(certify(&netlist.write(), &[1; 64], tables), Ok(unknown));
}

// ---- every lent entry

/// All that a call is handed.
struct Call {
    text: Vec<u8>,
    codes: Vec<u8>,
    leak_room: usize,
    ones_room: usize,
    /// Operands, results, marks, words, base and records.
    tables: [usize; 6],
    sizes: Sizes,
}

const BEHIND: usize = 16;

impl Call {
    /// A call with tables of the least length and lists that hold any answer.
    fn new(sizes: Sizes, text: &[u8], codes: &[u8]) -> Call {
        let table = sizes.large().table;
        Call {
            text: text.to_vec(),
            codes: codes.to_vec(),
            leak_room: 4,
            ones_room: codes.len(),
            tables: [table, table, table, table, table, 15 * table],
            sizes,
        }
    }

    /// Questions 1 to 11.
    fn netlist(&self) -> Result<Netlist, u8> {
        let limits = self.sizes.large();
        let long = self.tables[..5].iter().all(|&length| length >= limits.table);
        ask(1, long && self.tables[5] >= 15 * limits.table)?;
        let netlist = read(limits, &self.text)?;
        ask(10, netlist.inputs.len() >= 2 && netlist.inputs.last() == Some(&2))?;
        ask(11, self.codes.len() == netlist.input_bits() - 2 && self.codes.iter().all(|&code| code <= 3))?;
        Ok(netlist)
    }

    /// The call's answer, by question or by number, once it is seen to be right, down to every lent entry.
    fn assert_outcome(&self, name: &str) -> Result<usize, u8> {
        let sizes = match self.sizes {
            Sizes::Standard => fidrovelj::Sizes::Standard,
            Sizes::Whole => fidrovelj::Sizes::Whole,
        };
        let (mut leak, mut ones) = (vec![77; self.leak_room + BEHIND], vec![78; self.ones_room + BEHIND]);
        let (leak_before, ones_before) = (leak.clone(), ones.clone());
        let rubbish = |table: usize| vec![0x0123_4567_89ab_cdef_u64; self.tables[table]];
        let (mut operands, mut results, mut words, mut base) =
            (rubbish(0), rubbish(1), rubbish(3), rubbish(4));
        let mut records = rubbish(5);
        let mut marks = vec![0x5a; self.tables[2]];
        let answer = certify_lent(
            &self.text,
            &self.codes,
            &mut leak[..self.leak_room],
            &mut ones[..self.ones_room],
            &mut operands,
            &mut results,
            &mut marks,
            &mut words,
            &mut base,
            &mut records,
            sizes,
        );
        for (table, entries) in [&operands, &results, &words, &base, &records].into_iter().enumerate() {
            assert!(entries.iter().all(|&entry| entry == 0), "{name}: table {table}");
        }
        assert!(marks.iter().all(|&entry| entry == 0), "{name}: marks");
        let netlist = match self.netlist() {
            Ok(netlist) => netlist,
            Err(question) => {
                assert_eq!(answer, Err(Refusal::from_number(question).unwrap()), "{name}");
                assert!(leak == leak_before && ones == ones_before, "{name}: a refusal writes nothing");
                return Err(question);
            }
        };
        // What a call says that has room for everything.
        let said = certify_with_room(&self.text, &self.codes, sizes);
        let told: (Vec<u64>, Vec<u64>, usize) = match &said {
            Certified::Clean => (vec![], vec![], 0),
            Certified::Leak { wire, ones, base, own } => {
                assert_leak(name, &netlist, &self.codes, *wire, ones, *base, *own);
                (vec![*wire, ones.len() as u64, *base, *own], ones.clone(), 1)
            }
            Certified::Unknown { wire } => (vec![*wire], vec![], 2),
        };
        let (mut leak_after, mut ones_after) = (leak_before, ones_before);
        let fits = told.0.len() <= self.leak_room && told.1.len() <= self.ones_room;
        if fits {
            leak_after[..told.0.len()].copy_from_slice(&told.0);
            ones_after[..told.1.len()].copy_from_slice(&told.1);
        }
        assert_eq!(answer, if fits { Ok(told.2) } else { Err(Refusal::Room) }, "{name}: {said:?}");
        assert_eq!(leak, leak_after, "{name}: the leak's numbers");
        assert_eq!(ones, ones_after, "{name}: the bits that are one");
        if fits {
            Ok(told.2)
        } else {
            Err(14)
        }
    }
}

fn certify_with_room(text: &[u8], codes: &[u8], sizes: fidrovelj::Sizes) -> Certified {
    let mut tables = match sizes {
        fidrovelj::Sizes::Standard => Tables::standard(),
        fidrovelj::Sizes::Whole => Tables::whole(),
    };
    certify(text, codes, &mut tables).expect("it is good")
}

/// Random calls, good and damaged, with short tables and lists.
#[test]
fn random_calls() {
    let (first, count) = (setting("FIDROVELJ_SEED", 1), setting("FIDROVELJ_CALLS", 200_000) / 20);
    let (mut ended, mut made) = ([0_u64; 18], 0);
    for seed in first.. {
        if made == count {
            break;
        }
        let plan = plan::call(seed);
        if plan.service != Service::Check || plan.sizes != Sizes::Standard {
            continue;
        }
        made += 1;
        let random = &mut Random::new(seed ^ 0x6365_7274);
        let table = plan.sizes.large().table;
        let mut call = Call::new(plan.sizes, &plan.text, &plan.list);
        call.tables[..5].copy_from_slice(&plan.tables);
        call.tables[5] = 15 * table - usize::from(random.percent(2)) + random.pick(&[0, 0, 1, 100]);
        call.leak_room = random.pick(&[4, 4, 4, 5, 3, 1, 0]);
        call.ones_room = random.pick(&[plan.list.len(), plan.list.len(), plan.list.len() + 3, 1, 0]);
        let end = call.assert_outcome(&format!("seed {seed}"));
        ended[end.map_or_else(usize::from, |number| 15 + number)] += 1;
    }
    println!(
        "{count} calls: refused by 1 to 14 {:?}; clean, leak and unknown {:?}",
        &ended[1..15],
        &ended[15..]
    );
    for question in [1, 2, 3, 4, 5, 6, 7, 8, 9, 10, 11, 14, 15, 16] {
        assert!(ended[question] > 0 || count < 2_000, "no call ended with {question}");
    }
    assert_eq!((ended[12], ended[13]), (0, 0));
}

/// Each list one entry short of what it is to be told, and lists that just hold it.
#[test]
fn short_lists() {
    let open = b"1 7\n2 4 2\n1 1\n2 1 2 4 6 XOR\n";
    let codes = [0, 0, 1, 1];
    let call = Call::new(Sizes::Standard, open, &codes);
    assert_eq!(call.assert_outcome("room for all"), Ok(1));
    let Certified::Leak { ones, .. } = certify_with_room(open, &codes, fidrovelj::Sizes::Standard) else {
        panic!("a bare bit leaks")
    };
    for leak_room in 0..4 {
        let short = Call { leak_room, ..Call::new(Sizes::Standard, open, &codes) };
        assert_eq!(short.assert_outcome("a short list of numbers"), Err(14));
    }
    for ones_room in 0..ones.len() {
        let short = Call { ones_room, ..Call::new(Sizes::Standard, open, &codes) };
        assert_eq!(short.assert_outcome("a short list of bits"), Err(14));
    }
    let exact = Call { ones_room: ones.len(), ..Call::new(Sizes::Standard, open, &codes) };
    assert_eq!(exact.assert_outcome("a list that just holds the bits"), Ok(1));
    // Where nothing is told, no list is needed.
    let clean = Call { leak_room: 0, ones_room: 0, ..Call::new(Sizes::Standard, open, &[2, 2, 2, 2]) };
    assert_eq!(clean.assert_outcome("nothing to tell"), Ok(0));
}

/// Each table one entry short, under either choice; wires and bytes on both sides of the limits; thirteen bits.
#[test]
fn limits() {
    for sizes in [Sizes::Standard, Sizes::Whole] {
        let limits = sizes.large();
        let good = b"1 4\n2 1 2\n1 1\n2 1 0 1 3 XOR\n";
        for table in 0..6 {
            let mut short = Call::new(sizes, good, &[1]);
            short.tables[table] -= 1;
            assert_eq!(short.assert_outcome("a table one short"), Err(1));
        }
        let wide = |wires: usize| {
            let gates = vec![Gate::Xor(0, wires - 3, wires - 1)];
            Netlist { wires, inputs: vec![wires - 3, 2], outputs: vec![1], gates }.write()
        };
        let codes = vec![1; limits.wires - 3];
        assert_eq!(
            Call::new(sizes, &wide(limits.wires), &codes).assert_outcome("as many wires as may be"),
            Ok(1)
        );
        assert_eq!(Call::new(sizes, &wide(limits.wires + 1), &codes).assert_outcome("one wire more"), Err(5));
        let mut long = good.to_vec();
        long.resize(limits.text, b' ');
        assert_eq!(Call::new(sizes, &long, &[2]).assert_outcome("as many bytes as may be"), Ok(0));
        long.push(b' ');
        assert_eq!(Call::new(sizes, &long, &[2]).assert_outcome("one byte more"), Err(2));
    }
    let thirteen = b"0 15\n2 13 2\n1 1\n";
    assert_eq!(Call::new(Sizes::Standard, thirteen, &[1; 13]).assert_outcome("12 is not put"), Ok(0));
    assert_eq!(Call::new(Sizes::Standard, thirteen, &[1; 12]).assert_outcome("a code too few"), Err(11));
    assert_eq!(Call::new(Sizes::Standard, b"0 3\n1 3\n1 1\n", &[1]).assert_outcome("no mask pair"), Err(10));
}
