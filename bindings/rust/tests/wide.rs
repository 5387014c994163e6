//! Check of netlists with many inputs: the library against the old check's rule over all settings, and over the
//! settings of the inputs that reach a wire, down to every lent byte, on random netlists, good and damaged, on
//! masked circuits, whole and broken, and on cases worked out by hand.
//!
//! `FIDROVELJ_CALLS` sets how many random calls are made, a twentieth of it against the rule and a fifth against
//! the old check, `FIDROVELJ_SEED` the first one's seed.

#[allow(dead_code)]
mod calls;
#[path = "library/margins.rs"]
mod margins;
#[allow(dead_code)]
mod reference;

use calls::damage::{damage_bytes, damage_list, Draft};
use calls::random::Random;
use calls::{circuits, netlists, plan, Service};
use fidrovelj::{check_pairs, check_wide, check_wide_lent, mask, Refusal, Tables, Wide, WideLeak};
use margins::Lent;
use reference::netlist::{read, Gate, Netlist, Sizes, LARGE, SMALL};
use reference::wide::{self, Answers};
use std::collections::BTreeMap;
use std::{env, fmt};

/// All that a call is handed.
#[derive(Clone)]
struct Call {
    text: Vec<u8>,
    codes: Vec<u8>,
    pairs: Vec<u32>,
    /// The lengths of the lists for the leak, the ones and the bad pair.
    rooms: [usize; 3],
    tables: [usize; 11],
    sizes: Sizes,
}

impl fmt::Debug for Call {
    fn fmt(&self, f: &mut fmt::Formatter<'_>) -> fmt::Result {
        let text = String::from_utf8_lossy(&self.text[..self.text.len().min(4_000)]);
        writeln!(f, "{:?}, a text of {} bytes:\n{text}", self.sizes, self.text.len())?;
        writeln!(f, "codes ({}) {:?}", self.codes.len(), &self.codes[..self.codes.len().min(100)])?;
        writeln!(f, "pairs ({}) {:?}", self.pairs.len(), &self.pairs[..self.pairs.len().min(100)])?;
        write!(f, "rooms {:?}, tables {:?}", self.rooms, self.tables)
    }
}

impl Call {
    /// A call with tables of the least length and just enough room.
    fn new(sizes: Sizes, text: &[u8], codes: &[u8], pairs: &[u32]) -> Call {
        Call {
            text: text.to_vec(),
            codes: codes.to_vec(),
            pairs: pairs.to_vec(),
            rooms: [4, 12, 1],
            tables: [sizes.large().table; 11],
            sizes,
        }
    }

    fn outcome(&self) -> Result<Answers, u8> {
        let Call { text, codes, pairs, rooms, tables, sizes } = self;
        wide::check_wide(tables, text, codes, pairs, *rooms, *sizes)
    }
}

/// 1 for a leak, and 2 more for a bad pair.
fn number((leak, bad): &Answers) -> usize {
    usize::from(leak.is_some()) + 2 * usize::from(bad.is_some())
}

/// All that calls of the library are lent.
struct Library {
    lists: [Lent<u64>; 3],
    numbers: [Lent<u64>; 9],
    marks: Lent<u8>,
    paints: Lent<u8>,
}

impl Library {
    fn new() -> Library {
        Library {
            lists: [(); 3].map(|()| Lent::new()),
            numbers: [(); 9].map(|()| Lent::new()),
            marks: Lent::new(),
            paints: Lent::new(),
        }
    }

    fn answer(&mut self, call: &Call) -> Result<usize, Refusal> {
        let random = &mut Random::new(call.text.len() as u64);
        let sizes = match call.sizes {
            Sizes::Standard => fidrovelj::Sizes::Standard,
            Sizes::Whole => fidrovelj::Sizes::Whole,
        };
        let [leak, ones, bad] = &mut self.lists;
        let [operands, results, words, base, bases, set0, set1, set2, set3] = &mut self.numbers;
        let lengths = &call.tables;
        check_wide_lent(
            &call.text,
            &call.codes,
            &call.pairs,
            leak.fill(random.next(), call.rooms[0]),
            ones.fill(random.next(), call.rooms[1]),
            bad.fill(random.next(), call.rooms[2]),
            operands.fill(random.next(), lengths[0]),
            results.fill(random.next(), lengths[1]),
            self.marks.fill(random.next(), lengths[2]),
            words.fill(random.next(), lengths[3]),
            base.fill(random.next(), lengths[4]),
            bases.fill(random.next(), lengths[5]),
            set0.fill(random.next(), lengths[6]),
            set1.fill(random.next(), lengths[7]),
            set2.fill(random.next(), lengths[8]),
            set3.fill(random.next(), lengths[9]),
            self.paints.fill(random.next(), lengths[10]),
            sizes,
        )
    }

    /// The library's outcome is the expected one, down to every byte that it was lent.
    fn assert_outcome(&mut self, name: &str, call: &Call, expected: &Result<Answers, u8>) {
        let answer = self.answer(call);
        let told = expected.as_ref().map(number).map_err(|&question| Refusal::from_number(question).unwrap());
        assert_eq!(answer, told, "{name}: {expected:?}\n{call:?}");
        let nothing = (None, None);
        let (leak, bad) = expected.as_ref().unwrap_or(&nothing);
        let (numbers, ones) = leak.as_ref().map_or((vec![], vec![]), |(wire, ones, base, own)| {
            (vec![*wire, ones.len() as u64, *base, *own], ones.clone())
        });
        assert!(self.lists[0].holds(&numbers), "{name}: the leak, {leak:?}\n{call:?}");
        assert!(self.lists[1].holds(&ones), "{name}: the ones, {leak:?}\n{call:?}");
        assert!(self.lists[2].holds(bad.as_slice()), "{name}: the bad pair, {bad:?}\n{call:?}");
        for (place, table) in self.numbers.iter().enumerate() {
            assert!(table.is_zero(), "{name}: table {place} of words");
        }
        assert!(self.marks.is_zero() && self.paints.is_zero(), "{name}: marks and paints");
    }

    /// The library gives what the reference gives.
    fn assert_call(&mut self, name: &str, call: &Call) -> Result<Answers, u8> {
        let expected = call.outcome();
        self.assert_outcome(name, call, &expected);
        expected
    }
}

fn setting(name: &str, default: u64) -> u64 {
    env::var(name).map_or(default, |value| value.parse().expect("a setting is a number"))
}

/// A list of pairs of wires below some number: some pairs of one wire, some behind the end, some odd.
fn random_pairs(random: &mut Random, wires: usize) -> Vec<u32> {
    let many = random.pick(&[0, 0, 1, 1, 2, 3, 5, 8, 20]);
    let mut pairs: Vec<u32> = (0..2 * many).map(|_| random.below(wires.max(1)) as u32).collect();
    for place in 0..many {
        if random.percent(10) {
            pairs[2 * place + 1] = pairs[2 * place];
        }
    }
    if random.percent(3) {
        pairs.push(0);
    }
    if random.percent(3) && !pairs.is_empty() {
        let place = random.below(pairs.len());
        pairs[place] = random.pick(&[wires as u32, wires as u32 + 1, u32::MAX]);
    }
    pairs
}

/// So many gates over `bits` input bits and what stands behind them, most of them within groups of few input bits,
/// which may overlap; in some a line of gates over about twelve input bits comes first.
fn grouped_gates(random: &mut Random, bits: usize, behind: usize, count: usize) -> Vec<Gate> {
    let inputs = bits + behind;
    let width = if random.percent(60) { random.between(1, 12) } else { random.between(10, 15) };
    let mut groups: Vec<Vec<usize>> = (0..random.between(1, 5))
        .map(|_| (0..width).map(|_| random.below(bits)).chain(bits..inputs).collect())
        .collect();
    let mut gates = Vec::new();
    if random.percent(25) {
        let mut line: Vec<usize> = (0..bits).collect();
        random.shuffle(&mut line);
        let mut a = line[0];
        for &b in line[1..].iter().take(random.between(9, 13)) {
            let c = inputs + gates.len();
            gates.push(if random.percent(50) { Gate::Xor(a, b, c) } else { Gate::And(b, a, c) });
            a = c;
        }
        groups[0].push(a);
    }
    for c in inputs + gates.len()..inputs + gates.len() + count {
        let place = random.below(groups.len());
        let group = &groups[place];
        let a = if random.percent(60) { group[group.len() - 1] } else { random.pick(group) };
        let other = if random.percent(3) { random.below(groups.len()) } else { place };
        let b = random.pick(&groups[other]);
        gates.push(match random.below(12) {
            0..=4 => Gate::Xor(a, b, c),
            5..=8 => Gate::And(a, b, c),
            9 => Gate::Inv(a, c),
            10 => Gate::Eqw(a, c),
            _ => Gate::Eq(random.below(2), c),
        });
        groups[place].push(c);
    }
    gates
}

/// A netlist with a mask pair and more input bits than the old check takes, or a few less, and its codes: one made
/// at random, a masked one, or a masked one with a change; its wires may have other numbers.
fn many_inputs(random: &mut Random) -> (Netlist, Vec<u8>) {
    let bits = match random.below(10) {
        0 => random.between(8, 12),
        1..=5 => random.between(13, 15),
        6..=8 => random.between(16, 40),
        _ => random.between(41, 200),
    };
    let (mut netlist, codes) = if random.percent(40) {
        let count = random.between(1, 40);
        let gates = grouped_gates(random, bits, 2, count);
        let mut inputs = netlists::widths(random, bits, 16);
        inputs.push(2);
        let netlist = Netlist { wires: bits + 2 + gates.len(), inputs, outputs: vec![1], gates };
        (netlist, netlists::codes(random, bits))
    } else {
        let count = random.between(1, 12);
        let gates = grouped_gates(random, bits, 0, count);
        let (inputs, wires) = (netlists::widths(random, bits, 16), bits + gates.len());
        let source = Netlist { wires, inputs, outputs: vec![1], gates };
        let codes = netlists::codes(random, bits);
        let wanted = random.list(1, 0, 3);
        let (mut masked, _) = reference::mask::mask(&source, &codes, &wanted);
        let changed = random.below(3);
        if changed == 0 {
            netlists::change_gate(random, &mut masked);
        }
        let codes = if changed == 1 { netlists::codes(random, bits) } else { codes };
        (masked, codes)
    };
    if random.percent(40) {
        netlists::renumber(random, &mut netlist);
    }
    (netlist, codes)
}

/// Tables of the least length, longer ones, or one that is short; lists for what is told, or too short for it.
fn choose_lengths(random: &mut Random, call: &mut Call) {
    let least = call.sizes.large().table;
    if random.percent(10) {
        for length in &mut call.tables {
            *length = least + random.pick(&[0, 1, 2, 100]);
        }
    }
    if random.percent(4) {
        call.tables[random.below(11)] = random.pick(&[least - 1, least - 1, least / 2, 0]);
    }
    call.rooms = [
        random.pick(&[4, 4, 4, 4, 5, 3, 0]),
        random.pick(&[12, 12, 12, 12, 14, 2, 1, 0]),
        random.pick(&[1, 1, 1, 1, 2, 0]),
    ];
}

/// A random call on a netlist of many inputs, good or damaged.
fn call_on_many_inputs(random: &mut Random) -> Call {
    let (netlist, mut codes) = many_inputs(random);
    let mut pairs = random_pairs(random, netlist.wires);
    if random.percent(50) && pairs.len().is_multiple_of(2) {
        // Pairs of wires that stand near each other share inputs.
        for pair in pairs.chunks_mut(2) {
            pair[1] = pair[0].saturating_add(random.below(4) as u32).min(netlist.wires as u32 - 1);
        }
    }
    let mut draft = Draft::new(&netlist);
    let mut bytes = 0;
    for _ in 0..random.pick(&[0, 0, 0, 0, 0, 0, 0, 1, 1, 2]) {
        match random.below(20) {
            0..=11 => draft.damage(random),
            12..=14 => bytes += 1,
            _ => damage_list(random, &mut codes),
        }
    }
    let mut text = if random.percent(60) { draft.written() } else { draft.loose(random) };
    for _ in 0..bytes {
        damage_bytes(random, &mut text);
    }
    Call::new(Sizes::Standard, &text, &codes, &pairs)
}

/// What the old check with pairs says, in this check's words.
fn old_answers(call: &Call, tables: &mut Tables) -> Result<Wide, Refusal> {
    let old = check_pairs(&call.text, &call.codes, &call.pairs, tables)?;
    let leak = old.leak.map(|leak| {
        let ones = (0..64).filter(|&bit| leak.setting >> bit & 1 == 1).collect();
        WideLeak { wire: leak.wire, ones, base: leak.base, own: leak.own }
    });
    Ok(Wide { leak, bad: old.bad })
}

/// Calls of Check, good and damaged, and calls on netlists of many inputs. Within twelve input bits the old check
/// with pairs gives the same answers.
#[test]
fn random_calls() {
    let (first, count) = (setting("FIDROVELJ_SEED", 1), setting("FIDROVELJ_CALLS", 200_000) / 20);
    let (library, tables) = (&mut Library::new(), &mut Tables::standard());
    let (mut ended, mut beyond): (BTreeMap<usize, u64>, BTreeMap<usize, u64>) =
        (BTreeMap::new(), BTreeMap::new());
    let (mut made, mut within) = (0, 0);
    for seed in first.. {
        if made == count {
            break;
        }
        let random = &mut Random::new(seed ^ 0x7769_6465);
        let mut call = if random.percent(40) {
            call_on_many_inputs(random)
        } else {
            let plan = plan::call(seed);
            if plan.service != Service::Check {
                continue;
            }
            let wires = read(plan.sizes.large(), &plan.text).map_or(10, |netlist| netlist.wires);
            let pairs = random_pairs(random, wires);
            Call::new(plan.sizes, &plan.text, &plan.list, &pairs)
        };
        choose_lengths(random, &mut call);
        made += 1;
        let name = format!("seed {seed}");
        let outcome = library.assert_call(&name, &call);
        let end = outcome.as_ref().map_or_else(|&question| 100 + usize::from(question), number);
        *ended.entry(end).or_default() += 1;
        let Ok(netlist) = read(&LARGE, &call.text) else { continue };
        if netlist.input_bits() > 14 {
            *beyond.entry(end).or_default() += 1;
            if let (Ok(answers), 16..=17) = (&outcome, netlist.input_bits()) {
                let pairs: Vec<_> =
                    call.pairs.chunks(2).map(|pair| (pair[0] as usize, pair[1] as usize)).collect();
                assert_eq!(
                    &wide::by_cones(&netlist, &call.codes, &pairs),
                    answers,
                    "{name}: cones\n{call:?}"
                );
            }
        } else if call.sizes == Sizes::Standard {
            let found = check_wide(&call.text, &call.codes, &call.pairs, tables);
            assert_eq!(found, old_answers(&call, tables), "{name}: the old check\n{call:?}");
            within += 1;
        }
    }
    println!(
        "{count} calls on netlists of any number of inputs, by answer, or 100 and the question: {ended:?}"
    );
    println!(
        "with more than twelve bits: {beyond:?}; {within} netlists of at most twelve by the old check too"
    );
    for end in [0, 1, 2, 3, 101, 103, 104, 105, 106, 107, 108, 109, 110, 111, 112, 114, 121] {
        assert!(ended.contains_key(&end) || count < 2_000, "no call ended with {end}");
    }
    for end in [0, 1, 2, 3, 112, 114, 121] {
        assert!(beyond.contains_key(&end) || count < 2_000, "no call with many inputs ended with {end}");
    }
}

/// Netlists of at most twelve bits, good and damaged: the old check with pairs gives the same answers.
#[test]
fn within_twelve_bits() {
    let (first, count) = (setting("FIDROVELJ_SEED", 1), setting("FIDROVELJ_CALLS", 200_000) / 5);
    let tables = &mut Tables::standard();
    let mut ended: BTreeMap<usize, u64> = BTreeMap::new();
    let calls = (first..).map(|seed| (seed, plan::call(seed)));
    for (seed, plan) in calls.filter(|(_, plan)| plan.service == Service::Check).take(count as usize) {
        let random = &mut Random::new(seed ^ 0x7477_656c);
        let netlist = read(&LARGE, &plan.text);
        if netlist.as_ref().is_ok_and(|netlist| netlist.input_bits() > 14) {
            continue;
        }
        let pairs = random_pairs(random, netlist.map_or(10, |netlist| netlist.wires));
        let call = Call::new(Sizes::Standard, &plan.text, &plan.list, &pairs);
        let found = check_wide(&call.text, &call.codes, &call.pairs, tables);
        assert_eq!(found, old_answers(&call, tables), "seed {seed}\n{call:?}");
        let told = |found: Wide| usize::from(found.leak.is_some()) + 2 * usize::from(found.bad.is_some());
        *ended.entry(found.map_or_else(|no| 100 + usize::from(no.number()), told)).or_default() += 1;
    }
    println!("at most twelve bits, by the old check's answer, or 100 and the question: {ended:?}");
    for end in [0, 1, 2, 3, 103, 104, 105, 106, 107, 108, 109, 110, 111, 121] {
        assert!(ended.contains_key(&end) || count < 4_000, "no call ended with {end}");
    }
}

/// A netlist of gate lines over one value of so many bits and the mask pair, with one output bit.
fn netlist(bits: usize, gates: &[Gate]) -> Netlist {
    Netlist { wires: bits + 2 + gates.len(), inputs: vec![bits, 2], outputs: vec![1], gates: gates.to_vec() }
}

/// A chain of gates over the input bits from one to another, both included, whose first wire is `wire`; the last
/// one is reached by all of them.
fn chain(first: usize, last: usize, wire: usize, make: impl Fn(usize, usize, usize) -> Gate) -> Vec<Gate> {
    let mut gates = Vec::new();
    for bit in first + 1..=last {
        let a = if bit == first + 1 { first } else { wire + gates.len() - 1 };
        gates.push(make(a, bit, wire + gates.len()));
    }
    gates
}

/// Twelve and thirteen that reach a wire.
#[test]
fn twelve_and_thirteen() {
    let library = &mut Library::new();
    let bits = 30;
    for (make, public) in [(Gate::Xor as fn(_, _, _) -> _, 1), (Gate::And, 1), (Gate::Xor, 0), (Gate::And, 0)]
    {
        let codes = vec![public; bits];
        // The first bits, some in the middle, the last ones.
        for first in [0, 7, 17] {
            let twelve = netlist(bits, &chain(first, first + 11, bits + 2, make));
            let answers = library.assert_call("twelve", &Call::new(Sizes::Standard, &twelve.write(), &codes, &[]));
            assert_eq!(answers.map(|(leak, _)| leak.is_some()), Ok(public == 1 && first + 11 < bits));
            let thirteen = netlist(bits, &chain(first, first + 12, bits + 2, make));
            let call = Call::new(Sizes::Standard, &thirteen.write(), &codes, &[]);
            assert_eq!(library.assert_call("thirteen", &call), Err(12));
            // 21 comes first, and 14 only after an answer.
            let odd = Call { pairs: vec![0], ..call.clone() };
            assert_eq!(library.assert_call("thirteen, an odd list", &odd), Err(21));
            let short = Call { rooms: [0; 3], ..call };
            assert_eq!(library.assert_call("thirteen, no room", &short), Err(12));
        }
    }
    // A wire that no output needs, and one behind a wire that leaks.
    let mut gates = chain(0, 12, bits + 2, Gate::Xor);
    gates.push(Gate::Inv(bits, bits + 2 + gates.len()));
    let call = Call::new(Sizes::Standard, &netlist(bits, &gates).write(), &[1; 30], &[]);
    assert_eq!(library.assert_call("a wire that nothing reads", &call), Err(12));
    // Mask bits and constants reach nothing, and no constant is a wire's number; a wire with itself is reached once.
    let mut gates = chain(2, 13, bits + 2, Gate::And);
    let at = |gates: &Vec<Gate>| bits + 2 + gates.len();
    gates.push(Gate::Xor(at(&gates) - 1, bits, at(&gates)));
    gates.push(Gate::And(at(&gates) - 1, bits + 1, at(&gates)));
    for constant in [0, 1] {
        gates.push(Gate::Eq(constant, at(&gates)));
        gates.push(Gate::Xor(at(&gates) - 2, at(&gates) - 1, at(&gates)));
    }
    gates.push(Gate::Xor(at(&gates) - 1, at(&gates) - 1, at(&gates)));
    let few = Call::new(Sizes::Standard, &netlist(bits, &gates).write(), &[2; 30], &[]);
    assert!(library.assert_call("masks, constants and one wire twice", &few).is_ok());
    // a XOR a is always 0 and reached by a's inputs all the same.
    gates.push(Gate::Xor(at(&gates) - 1, 20, at(&gates)));
    let many = Call::new(Sizes::Standard, &netlist(bits, &gates).write(), &[2; 30], &[]);
    assert_eq!(library.assert_call("a thirteenth", &many), Err(12));
}

/// Pairs: two wires of seven inputs each, apart and meeting; sets that share an input across two passes.
#[test]
fn pairs_of_sets() {
    let library = &mut Library::new();
    let bits = 40;
    let codes: Vec<u8> = (0..bits).map(|bit| 1 + (bit % 3) as u8).collect();
    let two = |second: usize, make: fn(usize, usize, usize) -> Gate| {
        let mut gates = chain(0, 6, bits + 2, make);
        gates.extend(chain(second, second + 6, bits + 2 + 6, make));
        netlist(bits, &gates).write()
    };
    let (u, v) = (bits as u32 + 7, bits as u32 + 13);
    for make in [Gate::Xor as fn(_, _, _) -> _, Gate::And] {
        // Seven and seven, sharing 2, 1 and none; each wire by itself is within twelve.
        for (second, many) in [(0, 7), (2, 9), (5, 12), (6, 13), (7, 14), (33, 14)] {
            let text = two(second, make);
            let call = Call::new(Sizes::Standard, &text, &codes, &[u, v]);
            let outcome = library.assert_call("seven and seven", &call);
            assert_eq!(outcome.is_err(), many > 12, "{second}: {outcome:?}");
            let last = Call { pairs: vec![u, u, 0, 1, v, v, v, u], ..call.clone() };
            let outcome = library.assert_call("the fourth pair", &last);
            assert_eq!(outcome.is_err(), many > 12, "{second}: {outcome:?}");
            let alone = Call { pairs: vec![u, u, v, v], ..call };
            assert!(library.assert_call("each with itself", &alone).is_ok());
        }
    }
    // Rings of sets that meet: every two neighbours of a ring of inputs, every three, up to every twelve.
    for width in 2..=12 {
        let mut gates = Vec::new();
        for first in 0..bits {
            for place in 1..width {
                let c = bits + 2 + gates.len();
                let a = if place == 1 { first } else { c - 1 };
                let b = (first + place) % bits;
                gates.push(if (first + place) % 2 == 0 { Gate::Xor(a, b, c) } else { Gate::And(a, b, c) });
            }
        }
        let ring = netlist(bits, &gates);
        let wires = ring.wires as u32;
        let pairs = [wires - 1, wires - 2, bits as u32 + 2, wires - 1, 3, 4];
        for codes in [vec![0; bits], codes.clone()] {
            for pairs in [&[], &pairs[..2], &pairs[..]] {
                library.assert_call("a ring", &Call::new(Sizes::Standard, &ring.write(), &codes, pairs)).ok();
            }
        }
    }
}

/// Leaks worked out by hand: the setting has few ones, high ones, or as many as there may be.
#[test]
fn leaks_by_hand() {
    let tables = &mut Tables::standard();
    let found = |bits: usize, gates: &[Gate], codes: &[u8], tables: &mut Tables| {
        let text = netlist(bits, gates).write();
        let call = Call::new(Sizes::Standard, &text, codes, &[]);
        Library::new().assert_call("by hand", &call).expect("it is accepted");
        check_wide(&text, codes, &[], tables).expect("it is accepted").leak
    };
    let leak = |wire, ones: &[u64], base, own| Some(WideLeak { wire, ones: ones.to_vec(), base, own });
    // The mask comes off the last of a hundred bits.
    let (m0, m1) = (100, 101);
    assert_eq!(found(100, &[Gate::Xor(99, m0, 102)], &[1; 100], tables), leak(102, &[99], 0, 4));
    assert_eq!(found(100, &[Gate::Xor(99, m1, 102)], &[1; 100], tables), None);
    // The product of bare bits 60, 80 and 99 is one when all are.
    let bare = [
        Gate::Xor(60, m0, 105),
        Gate::Xor(80, m0, 106),
        Gate::Xor(99, m0, 107),
        Gate::And(106, 107, 103),
        Gate::And(105, 103, 102),
        Gate::Eqw(102, 104),
    ];
    assert_eq!(found(100, &bare, &[1; 100], tables), leak(102, &[60, 80, 99], 0, 4));
    // Public bits belong to the setting and to its base: bit 7 shows where 50 and 90 are one.
    let mut codes = [1; 100];
    (codes[50], codes[90]) = (0, 0);
    let masked = [Gate::And(50, 90, 102), Gate::And(7, m0, 103), Gate::And(102, 7, 104)];
    assert_eq!(found(100, &masked, &codes, tables), leak(103, &[7], 2, 0));
    assert_eq!(found(100, &[masked[0], Gate::And(102, 7, 103)], &codes, tables), None);
    let open = [Gate::And(50, 90, 104), Gate::Xor(7, m0, 103), Gate::And(104, 103, 102)];
    assert_eq!(found(100, &open, &codes, tables), leak(102, &[7, 50, 90], 0, 4));
    // Twelve ones: the AND of twelve bare bits.
    let mut gates: Vec<Gate> = (0..12).map(|bit| Gate::Xor(8 * bit, m0, 113 + bit)).collect();
    for bit in 1..12 {
        let a = if bit == 1 { 113 } else { 114 - bit };
        gates.push(Gate::And(a, 113 + bit, 113 - bit));
    }
    let ones: Vec<u64> = (0..12).map(|bit| 8 * bit).collect();
    assert_eq!(found(100, &gates, &[1; 100], tables), leak(102, &ones, 0, 4));
    // A list for eleven of them is 14, and nothing is written.
    let text = netlist(100, &gates).write();
    let library = &mut Library::new();
    for (rooms, question) in [([4, 11, 1], 14), ([3, 12, 1], 14), ([4, 12, 0], 0), ([0, 0, 0], 14)] {
        let call = Call { rooms, ..Call::new(Sizes::Standard, &text, &[1; 100], &[]) };
        let outcome = library.assert_call("twelve ones", &call);
        assert_eq!(outcome.err().unwrap_or(0), question);
    }
}

/// A circuit masked under mixed codes: its text and codes.
fn masked(name: &str, least: u8, tables: &mut Tables) -> (Vec<u8>, Vec<u8>) {
    let text = circuits::circuit(name).text;
    let source = read(&SMALL, &text).expect("it is a source");
    let codes = Random::new(11).list(source.input_bits(), least, 3);
    let wanted = vec![0; source.output_bits()];
    let masked = mask(&text, &codes, &wanted, tables).expect("it can be masked");
    (masked.text, codes)
}

/// A masked netlist in which the steps of an AND are added in another order, or where there is none, a mask change
/// is left out: the first such place of so many.
fn broken(netlist: &Netlist, skip: usize) -> Option<Netlist> {
    let bits = netlist.input_bits() - 2;
    let mut other = netlist.clone();
    // s4 XOR s5, then wire n+4, where it was s5 XOR wire n+4, then s4.
    let mut orders = netlist.gates.windows(2).enumerate().filter_map(|(place, pair)| match *pair {
        [Gate::Xor(s5, either, s6), Gate::Xor(s4, last, s7)] if either == bits + 4 && last == s6 => {
            Some((place, [Gate::Xor(s4, s5, s6), Gate::Xor(s6, either, s7)]))
        }
        _ => None,
    });
    if let Some((place, pair)) = orders.nth(skip) {
        other.gates[place..place + 2].copy_from_slice(&pair);
        return Some(other);
    }
    // An XOR reads the wire whose mask was to be changed first.
    let mut changes = netlist.gates.windows(2).enumerate().filter_map(|(place, pair)| match *pair {
        [Gate::Xor(b, mask, changed), Gate::Xor(a, second, c)]
            if (bits..bits + 3).contains(&mask) && second == changed =>
        {
            Some((place + 1, Gate::Xor(a, b, c)))
        }
        _ => None,
    });
    let (place, gate) = changes.nth(skip)?;
    other.gates[place] = gate;
    Some(other)
}

/// Rounds and layers with far more than twelve inputs: clean when masked, with and without public bits; with one
/// gate order broken a leak, by the reference.
#[test]
fn masked_circuits() {
    let (library, tables) = (&mut Library::new(), &mut Tables::standard());
    for (name, bits) in [
        ("present_round", 128),
        ("ascon_sub_layer", 320),
        ("simon64_round", 96),
        ("aes_sub_bytes", 128),
        ("keccak_chi_two_rows", 10),
        ("aes_mix_column", 32),
    ] {
        for least in [1, 0] {
            let (text, codes) = masked(name, least, tables);
            assert_eq!(codes.len(), bits, "{name}");
            let netlist = read(&LARGE, &text).expect("a masked text is good");
            // Each input and an output one after the other, as long as at most twelve reach both.
            let sets = wide::reach(&netlist);
            let random = &mut Random::new(5);
            let mut pairs = Vec::new();
            while pairs.len() < 40 {
                let (u, v) = (random.below(netlist.wires), random.below(netlist.wires));
                if (&sets[u] | &sets[v]).len() <= 12 {
                    pairs.extend([u as u32, v as u32]);
                }
            }
            let call = Call::new(Sizes::Standard, &text, &codes, &pairs);
            let (leak, _) = library.assert_call(name, &call).expect("few inputs reach each wire");
            assert_eq!(leak, None, "{name}");
            for skip in [0, 3] {
                let Some(other) = broken(&netlist, skip) else { continue };
                let call = Call { text: other.write(), ..call.clone() };
                let (leak, _) = library.assert_call(name, &call).expect("few inputs reach each wire");
                assert!(leak.is_some() || least == 0, "{name}, broken");
                if bits <= 12 {
                    assert_eq!(check_wide(&call.text, &codes, &pairs, tables), old_answers(&call, tables));
                }
            }
            assert!(broken(&netlist, 0).is_some(), "{name} can be broken");
        }
    }
}

/// Circuits of which more than twelve inputs reach some wire.
#[test]
fn mixing_circuits() {
    let tables = &mut Tables::standard();
    for name in ["keccak_f200_r1", "present80_r5", "aes_column", "adder64", "sub64"] {
        let (text, codes) = masked(name, 1, tables);
        assert_eq!(check_wide(&text, &codes, &[], tables), Err(Refusal::Settings), "{name}");
    }
}

/// So many copies of a masked netlist beside each other, over one mask pair, the lines of all copies in turn.
fn copies(netlist: &Netlist, many: usize) -> Netlist {
    let bits = netlist.input_bits() - 2;
    let inner = netlist.gates.len();
    let inputs = bits * many + 2;
    let wire = |copy: usize, w: usize| match w {
        w if w < bits => copy * bits + w,
        w if w < bits + 2 => bits * many + w - bits,
        w => inputs + copy * inner + w - bits - 2,
    };
    let mut gates = Vec::new();
    for gate in &netlist.gates {
        for copy in 0..many {
            gates.push(match *gate {
                Gate::Xor(a, b, c) => Gate::Xor(wire(copy, a), wire(copy, b), wire(copy, c)),
                Gate::And(a, b, c) => Gate::And(wire(copy, a), wire(copy, b), wire(copy, c)),
                Gate::Inv(a, c) => Gate::Inv(wire(copy, a), wire(copy, c)),
                Gate::Eqw(a, c) => Gate::Eqw(wire(copy, a), wire(copy, c)),
                Gate::Eq(v, c) => Gate::Eq(v, wire(copy, c)),
            });
        }
    }
    Netlist { wires: inputs + inner * many, inputs: vec![bits * many, 2], outputs: vec![1], gates }
}

/// Copies of the masked AES S-box up to nearly the most wires, under either choice of limits; the last of them
/// broken leaks in the inputs of that copy alone.
#[test]
fn many_copies() {
    let (library, tables) = (&mut Library::new(), &mut Tables::standard());
    let (text, codes) = masked("aes_sbox", 1, tables);
    let one = read(&LARGE, &text).expect("a masked text is good");
    let other = broken(&one, 0).expect("it has an AND");
    let alone =
        check_wide(&other.write(), &codes, &[], tables).expect("it is small").leak.expect("it is broken");
    let inner = one.gates.len();
    for (sizes, many) in [(Sizes::Standard, 50), (Sizes::Whole, 2_200)] {
        let all = copies(&one, many);
        let list = codes.repeat(many);
        let call = Call::new(sizes, &all.write(), &list, &[]);
        library.assert_outcome("copies", &call, &Ok((None, None)));
        // Inputs and outputs of one copy, and of two copies.
        let inputs = 8 * many as u32 + 2;
        let output = |copy: usize| inputs + (copy * inner + inner - 1) as u32;
        let pairs = vec![0, output(0), 8 * many as u32 - 1, output(many - 1)];
        let own = library.answer(&Call { pairs, ..call.clone() });
        assert!(own == Ok(0) || own == Ok(2));
        let far = Call { pairs: vec![0, 1, output(0), output(1)], ..call.clone() };
        library.assert_outcome("two copies together", &far, &Err(12));

        let mut last = all.clone();
        let broken_all = copies(&other, many);
        for (gate, broken) in last.gates.iter_mut().zip(&broken_all.gates) {
            if gate.result() as u32 >= inputs + ((many - 1) * inner) as u32 {
                *gate = *broken;
            }
        }
        let wire = alone.wire - 10 + u64::from(inputs) + ((many - 1) * inner) as u64;
        let ones = alone.ones.iter().map(|bit| bit + 8 * (many as u64 - 1)).collect();
        let call = Call { text: last.write(), ..call };
        library.assert_outcome(
            "the last broken",
            &call,
            &Ok((Some((wire, ones, alone.base, alone.own)), None)),
        );
    }
}

/// Both sides of the limits, under either choice: wires, bytes and tables.
#[test]
fn limits() {
    let library = &mut Library::new();
    for sizes in [Sizes::Standard, Sizes::Whole] {
        let limits = sizes.large();
        let inputs = |wires: usize| {
            let netlist = Netlist {
                wires,
                inputs: vec![wires - 3, 2],
                outputs: vec![1],
                gates: vec![Gate::Xor(wires - 4, wires - 3, wires - 1)],
            };
            Call::new(sizes, &netlist.write(), &vec![1; wires - 3], &[])
        };
        // As many inputs as may be; the last of them is shown.
        let (wire, bit) = (limits.wires as u64 - 1, limits.wires as u64 - 4);
        let shown = (Some((wire, vec![bit], 0, 4)), None);
        library.assert_outcome("as many wires as may be", &inputs(limits.wires), &Ok(shown));
        library.assert_outcome("one wire more", &inputs(limits.wires + 1), &Err(5));
        for table in 0..11 {
            let mut short = inputs(20);
            short.tables[table] -= 1;
            library.assert_outcome("a table one short", &short, &Err(1));
        }
        let mut long = inputs(20);
        let answers = library.assert_call("seventeen bits", &long);
        long.text.resize(limits.text, b' ');
        library.assert_outcome("as many bytes as may be", &long, &answers);
        long.text.push(b' ');
        library.assert_outcome("one byte more", &long, &Err(2));
    }
}
