//! Mask with fewer changes: the library against a search that tries every choice, in order, down to every lent
//! byte, on random sources, codes and budgets, good and damaged, on circuits, and on cases worked out by hand.
//!
//! `FIDROVELJ_CALLS` sets how many random calls are made, a tenth of it here, `FIDROVELJ_SEED` the first
//! one's seed.

#[allow(dead_code)]
mod calls;
#[path = "library/margins.rs"]
mod margins;
#[allow(dead_code)]
mod reference;

use calls::random::Random;
use calls::{circuits, netlists, plan, Service};
use fidrovelj::{check, mask, mask_fewest, mask_fewest_lent, run64, to_words, Fewest, Refusal, Tables};
use margins::Lent;
use reference::fewest::{self, Found, Given};
use reference::netlist::{read, Gate, Netlist, Sizes, LARGE, SMALL};
use std::collections::BTreeMap;
use std::{env, fmt, fs};

/// All that a call is handed.
#[derive(Clone)]
struct Call {
    text: Vec<u8>,
    codes: Vec<u8>,
    wanted: Vec<u8>,
    budget: u64,
    /// The lengths of the buffers for the text, both lists of codes and the tally.
    rooms: [usize; 4],
    tables: [usize; 7],
    sizes: Sizes,
}

impl fmt::Debug for Call {
    fn fmt(&self, f: &mut fmt::Formatter<'_>) -> fmt::Result {
        let text = String::from_utf8_lossy(&self.text[..self.text.len().min(4_000)]);
        let list = |list: &[u8]| format!("({}) {:?}", list.len(), &list[..list.len().min(100)]);
        writeln!(
            f,
            "{:?}, budget {}, a text of {} bytes:\n{text}",
            self.sizes,
            self.budget,
            self.text.len()
        )?;
        writeln!(f, "codes {}, wanted {}", list(&self.codes), list(&self.wanted))?;
        write!(f, "rooms {:?}, tables {:?}", self.rooms, self.tables)
    }
}

impl Call {
    /// A call with tables of the least length and ample room.
    fn new(sizes: Sizes, text: &[u8], codes: &[u8], wanted: &[u8], budget: u64) -> Call {
        Call {
            text: text.to_vec(),
            codes: codes.to_vec(),
            wanted: wanted.to_vec(),
            budget,
            rooms: [16 * text.len() + 400, codes.len() + 4, wanted.len() + 4, 3],
            tables: [sizes.small().table; 7],
            sizes,
        }
    }

    fn outcome(&self) -> Result<Given, u8> {
        let Call { text, codes, wanted, budget, rooms, tables, sizes } = self;
        fewest::mask_fewest(tables, text, codes, wanted, *budget, *rooms, *sizes)
    }
}

/// All that calls of the library are lent.
struct Library {
    out: Lent<u8>,
    lists: [Lent<u8>; 2],
    tally: Lent<u64>,
    numbers: [Lent<u64>; 3],
    wires: Lent<u32>,
    bytes: [Lent<u8>; 3],
}

impl Library {
    fn new() -> Library {
        Library {
            out: Lent::new(),
            lists: [Lent::new(), Lent::new()],
            tally: Lent::new(),
            numbers: [Lent::new(), Lent::new(), Lent::new()],
            wires: Lent::new(),
            bytes: [Lent::new(), Lent::new(), Lent::new()],
        }
    }

    fn answer(&mut self, call: &Call) -> Result<usize, Refusal> {
        let random = &mut Random::new(call.text.len() as u64 ^ call.budget);
        let sizes = match call.sizes {
            Sizes::Standard => fidrovelj::Sizes::Standard,
            Sizes::Whole => fidrovelj::Sizes::Whole,
        };
        let [in_codes, out_codes] = &mut self.lists;
        let [operands, results, spans] = &mut self.numbers;
        let [marks, ways, best] = &mut self.bytes;
        let lengths = &call.tables;
        mask_fewest_lent(
            &call.text,
            &call.codes,
            &call.wanted,
            call.budget,
            self.out.fill(random.next(), call.rooms[0]),
            in_codes.fill(random.next(), call.rooms[1]),
            out_codes.fill(random.next(), call.rooms[2]),
            self.tally.fill(random.next(), call.rooms[3]),
            operands.fill(random.next(), lengths[0]),
            results.fill(random.next(), lengths[1]),
            self.wires.fill(random.next(), lengths[2]),
            marks.fill(random.next(), lengths[3]),
            ways.fill(random.next(), lengths[4]),
            best.fill(random.next(), lengths[5]),
            spans.fill(random.next(), lengths[6]),
            sizes,
        )
    }

    /// The library's outcome is the expected one, down to every byte that it was lent.
    fn assert_outcome(&mut self, name: &str, call: &Call, expected: &Result<Given, u8>) {
        let answer = self.answer(call);
        let told = expected.as_ref().map(|given| given.text.len()).map_err(|&question| Refusal::from_number(question).unwrap());
        assert_eq!(answer, told, "{name}\n{call:?}");
        let nothing = Given::default();
        let given = expected.as_ref().unwrap_or(&nothing);
        assert!(self.tally.holds(&given.tally), "{name}: the changes or the floor\n{call:?}");
        assert!(self.lists[0].holds(&given.input_codes), "{name}: the input codes\n{call:?}");
        assert!(self.lists[1].holds(&given.output_codes), "{name}: the output codes\n{call:?}");
        assert!(self.out.holds(&given.text), "{name}: the text\n{call:?}");
        for (place, table) in self.numbers.iter().enumerate() {
            assert!(table.is_zero(), "{name}: table {place} of operands, results and spans");
        }
        assert!(self.wires.is_zero(), "{name}: wires");
        for (place, table) in self.bytes.iter().enumerate() {
            assert!(table.is_zero(), "{name}: table {place} of marks, ways and best");
        }
    }

    /// The library gives what the reference gives.
    fn assert_call(&mut self, name: &str, call: &Call) -> Result<Given, u8> {
        let expected = call.outcome();
        self.assert_outcome(name, call, &expected);
        expected
    }
}

fn setting(name: &str, default: u64) -> u64 {
    env::var(name).map_or(default, |value| value.parse().expect("a setting is a number"))
}

/// The number of choices, up to a bound.
fn choices(source: &Netlist, codes: &[u8], bound: u64) -> u64 {
    fewest::ways(source, codes).iter().fold(1, |many, &ways| bound.min(many * u64::from(ways)))
}

/// A budget that a search through every choice can take: around the number of choices, or any.
fn random_budget(random: &mut Random, choices: u64) -> u64 {
    const MOST: u64 = 3_000;
    let any = 1 + random.below(MOST as usize) as u64;
    match random.below(12) {
        0 => 0,
        1 => 1,
        2 | 3 => 1 + random.below(16) as u64,
        4..=6 => any,
        _ if choices >= MOST => any,
        7 => choices,
        8 => choices - 1,
        9 => choices + 1,
        10 => u64::MAX,
        _ => random.next() | 1 << 32,
    }
}

/// Some of the codes free: none, few, or all.
fn free_some(random: &mut Random, codes: &mut [u8]) {
    let percent = random.pick(&[0, 20, 60, 100, 100]);
    for code in codes {
        if *code <= 3 && random.percent(percent) {
            *code = 4;
        }
    }
}

/// A small source with few choices, and its codes and wanted ones.
fn few_choices(random: &mut Random) -> (Netlist, Vec<u8>, Vec<u8>) {
    let (bits, gate_count) = (random.between(1, 5), random.below(9));
    let source = netlists::netlist(random, bits, gate_count);
    let mut codes = netlists::codes(random, bits);
    free_some(random, &mut codes);
    let most = random.pick(&[0, 0, 3]);
    let wanted = random.list(source.output_bits(), 0, most);
    (source, codes, wanted)
}

/// The buffers' lengths: as long as the results, an entry short, none, or longer.
fn room(random: &mut Random, length: usize) -> usize {
    match random.below(24) {
        0 => length.saturating_sub(1),
        1 => 0,
        2..=8 => length + random.pick(&[1, 2, 50]),
        _ => length,
    }
}

/// Calls of Mask, good and damaged, with free inputs and a budget.
#[test]
fn random_calls() {
    let (first, count) = (setting("FIDROVELJ_SEED", 1), setting("FIDROVELJ_CALLS", 200_000) / 10);
    let library = &mut Library::new();
    let (mut ended, mut fewer, mut all): (BTreeMap<u8, u64>, u64, u64) = (BTreeMap::new(), 0, 0);
    let mut made = 0;
    for seed in first.. {
        if made == count {
            break;
        }
        let plan = plan::call(seed);
        if plan.service != Service::Mask {
            continue;
        }
        made += 1;
        let random = &mut Random::new(seed ^ 0x6665_7765);
        let table = plan.sizes.small().table;
        let mut tables = [table; 7];
        tables[..4].copy_from_slice(&plan.tables);
        if random.percent(3) {
            tables[random.between(4, 6)] = random.pick(&[table - 1, table / 2, 0]);
        }
        let mut call = Call { tables, ..Call::new(plan.sizes, &plan.text, &plan.list, &plan.wanted, 1) };
        free_some(random, &mut call.codes);
        if random.percent(40) {
            let (source, codes, wanted) = few_choices(random);
            (call.text, call.codes, call.wanted) = (source.write(), codes, wanted);
        }
        if random.percent(1) && !call.codes.is_empty() {
            let place = random.below(call.codes.len());
            call.codes[place] = random.pick(&[5, 255]);
        }
        let many =
            read(plan.sizes.small(), &call.text).map_or(1, |source| choices(&source, &call.codes, 10_000));
        call.budget = random_budget(random, many);
        call.rooms = [calls::WHOLE_ROOM; 4];
        let given = call.outcome().unwrap_or_default();
        call.rooms = [
            room(random, given.text.len()),
            room(random, call.codes.len()),
            room(random, call.wanted.len()),
            room(random, 2),
        ];
        let end = match library.assert_call(&format!("seed {seed}"), &call) {
            Ok(given) => {
                all += u64::from(given.tally[0] == given.tally[1]);
                fewer += u64::from(
                    call.budget > 1 && {
                        let one = Call { budget: 1, ..call.clone() };
                        one.outcome().is_ok_and(|one| one.tally[0] > given.tally[0])
                    },
                );
                0
            }
            Err(question) => question,
        };
        *ended.entry(end).or_default() += 1;
    }
    println!("{count} calls with a budget, by question (0: accepted): {ended:?}");
    println!("{fewer} with fewer changes than the first choice, {all} at the floor");
    for end in [0, 1, 2, 3, 4, 5, 6, 7, 8, 9, 11, 13, 14, 22] {
        assert!(ended.contains_key(&end) || count < 2_000, "no call ended with {end}");
    }
}

/// Small sources and every budget from 0 to two more than there are choices.
#[test]
fn every_budget() {
    let library = &mut Library::new();
    let (mut made, mut sources) = (0, 0);
    for seed in 0..2_000 {
        let random = &mut Random::new(seed);
        let (source, codes, wanted) = few_choices(random);
        let many = choices(&source, &codes, 10_000);
        if many > 80 {
            continue;
        }
        sources += 1;
        let mut before: Option<Given> = None;
        for budget in 0..=many + 2 {
            let call = Call::new(Sizes::Standard, &source.write(), &codes, &wanted, budget);
            let given = library.assert_call(&format!("seed {seed}"), &call).ok();
            made += 1;
            if let (Some(before), Some(given)) = (&before, &given) {
                assert!(given.tally[0] <= before.tally[0] && given.tally[1] >= before.tally[1]);
            }
            before = given;
        }
        assert!(before.is_some_and(|given| given.tally[0] == given.tally[1]), "all were tried");
    }
    println!("{made} calls with every budget of {sources} small sources");
    assert!(sources > 500);
}

/// The changes by codes alone are those counted in the masked netlist.
#[test]
fn counts_changes_alike() {
    for seed in 0..20_000 {
        let random = &mut Random::new(seed);
        let source = netlists::small(random);
        let (codes, wanted) =
            (netlists::codes(random, source.input_bits()), random.list(source.output_bits(), 0, 3));
        let counted = fewest::changes(&source, &codes, &wanted);
        assert_eq!(fewest::changes_by_codes(&source, &codes, &wanted), counted, "seed {seed}");
        assert!(counted >= fewest::twices(&source), "seed {seed}");
    }
}

/// A source of gate lines over one value of so many bits, with one output bit.
fn source(bits: usize, gates: &[Gate]) -> Netlist {
    Netlist { wires: bits + gates.len(), inputs: vec![bits], outputs: vec![1], gates: gates.to_vec() }
}

/// Rows worked out by hand: a source, its codes and wanted ones, a budget; the input codes, the changes and the
/// floor.
#[test]
fn by_hand() {
    use Gate::{And, Eq, Inv, Xor};
    let library = &mut Library::new();
    let and = source(2, &[And(0, 1, 2)]);
    let square = source(1, &[And(0, 0, 1)]);
    let zero = source(1, &[Xor(0, 0, 1)]);
    let and_xor = source(3, &[And(0, 1, 3), Xor(3, 2, 4)]);
    let all = u64::MAX;
    // What it is, the source, codes, wanted codes and budget; then the input codes given, the changes and the floor.
    type Row<'a> = (&'a str, &'a Netlist, &'a [u8], &'a [u8], u64, &'a [u8], u64, u64);
    let rows: [Row; 27] = [
        // Neither a free input nor an AND: one choice, which is all.
        ("one wire", &source(1, &[]), &[2], &[0], 1, &[2], 0, 0),
        ("one wire, another code wanted", &source(1, &[]), &[2], &[1], 1, &[2], 1, 1),
        ("a constant", &source(1, &[Eq(1, 1)]), &[3], &[3], all, &[3], 1, 1),
        ("an XOR of one code", &source(2, &[Xor(0, 1, 2)]), &[1, 1], &[0], 1, &[1, 1], 1, 1),
        // One choice of two, then both: the changes are all there are, but a budget of 1 does not know.
        ("an AND of one code", &and, &[1, 1], &[0], 1, &[1, 1], 1, 0),
        ("an AND of one code, both orders", &and, &[1, 1], &[0], 2, &[1, 1], 1, 1),
        // Exactly all, one less, one more: a free input and an AND have six choices.
        ("five of six", &and, &[4, 1], &[0], 5, &[2, 1], 0, 0),
        ("six of six", &and, &[4, 1], &[0], 6, &[2, 1], 0, 0),
        ("six and one more", &and, &[4, 1], &[0], 7, &[2, 1], 0, 0),
        ("two of six", &and, &[4, 1], &[0], 2, &[1, 1], 1, 0),
        // The wanted code decides between two without an operand change, and costs a change otherwise.
        ("wanted 3", &and, &[4, 1], &[3], all, &[3, 1], 0, 0),
        ("wanted 3, five of six", &and, &[4, 1], &[3], 5, &[3, 1], 0, 0),
        ("wanted 3, four of six", &and, &[4, 1], &[3], 4, &[2, 1], 1, 0),
        ("wanted 2, fixed codes", &and, &[1, 3], &[2], all, &[1, 3], 1, 1),
        ("wanted the second's code", &and, &[1, 3], &[3], all, &[1, 3], 0, 0),
        // Ties go to the first tried.
        ("three codes alike", &source(1, &[Inv(0, 1)]), &[4], &[0], all, &[1], 0, 0),
        ("two inputs, two codes", &and, &[4, 4], &[0], all, &[1, 2], 0, 0),
        // A gate that names one wire twice always changes: the floor of a search that is not through.
        ("a square", &square, &[4], &[0], 1, &[1], 1, 1),
        ("a square, five of six", &square, &[4], &[0], 5, &[1], 1, 1),
        ("a square, all", &square, &[4], &[0], 6, &[1], 1, 1),
        ("a zero", &zero, &[4], &[0], 1, &[1], 1, 1),
        ("a zero and its code", &zero, &[4], &[3], 1, &[1], 2, 1),
        ("a zero and its code, all", &zero, &[4], &[3], all, &[2], 1, 1),
        // Gates for public bits are no changes.
        ("a public bit", &and, &[0, 4], &[0], all, &[0, 2], 0, 0),
        ("two public bits", &and, &[0, 0], &[0], all, &[0, 0], 1, 1),
        // Swapping an AND gives the second's code, and with it another gate's changes.
        ("a swap", &and_xor, &[1, 2, 1], &[0], all, &[1, 2, 1], 0, 0),
        ("no swap", &and_xor, &[1, 2, 2], &[0], all, &[1, 2, 2], 0, 0),
    ];
    for (name, source, codes, wanted, budget, input_codes, changes, floor) in rows {
        let call = Call::new(Sizes::Standard, &source.write(), codes, wanted, budget);
        let given = library.assert_call(name, &call).expect("it is accepted");
        assert_eq!(
            (given.input_codes.as_slice(), given.tally),
            (input_codes, vec![changes, floor]),
            "{name}"
        );
    }
}

/// Questions in order: 11 with codes 0 to 4, 13, 22, 14.
#[test]
fn questions_in_order() {
    let library = &mut Library::new();
    let text = b"1 3\n2 1 1\n1 1\n2 1 0 1 2 AND\n";
    let good = Call::new(Sizes::Standard, text, &[4, 0], &[3], 9);
    let given = library.assert_call("good", &good).expect("it is accepted");
    let refused = |library: &mut Library, name: &str, call: Call, question: u8| {
        assert_eq!(library.assert_call(name, &call), Err(question), "{name}");
    };
    refused(
        library,
        "a code of 5",
        Call { codes: vec![4, 5], wanted: vec![4], budget: 0, ..good.clone() },
        11,
    );
    refused(library, "a code too few", Call { codes: vec![4], ..good.clone() }, 11);
    refused(library, "a code too many", Call { codes: vec![4, 4, 4], ..good.clone() }, 11);
    refused(library, "wanted 4", Call { wanted: vec![4], budget: 0, ..good.clone() }, 13);
    refused(library, "wanted too few", Call { wanted: vec![], budget: 0, ..good.clone() }, 13);
    refused(library, "no budget, no room", Call { budget: 0, rooms: [0; 4], ..good.clone() }, 22);
    let lengths = [given.text.len(), 2, 1, 2];
    for room in 0..4 {
        let mut call = Call { rooms: lengths, ..good.clone() };
        library.assert_call("an exact fit", &call).expect("it is accepted");
        call.rooms[room] -= 1;
        refused(library, "a buffer one short", call, 14);
    }
    for table in 0..7 {
        let mut call = Call { budget: 0, ..good.clone() };
        call.tables[table] -= 1;
        refused(library, "a table one short", call, 1);
    }
    // Code 4 belongs to this call alone.
    assert_eq!(mask(text, &[4, 0], &[3], &mut Tables::standard()).err(), Some(Refusal::Inputs));
    assert_eq!(check(&given.text, &[4, 0], &mut Tables::standard()).err(), Some(Refusal::Inputs));
}

/// The search depth first, for budgets beyond what can be tried one by one: a branch ends where it has as many changes
/// as the best, and where an AND's operands have equal codes its other order, with the same codes behind it, is left
/// out; what is left out counts.
struct DepthFirst<'a> {
    source: &'a Netlist,
    codes: &'a [u8],
    wanted: &'a [u8],
    of: Vec<u8>,
    choice: Vec<u8>,
    best: Option<(Vec<u8>, u64)>,
    /// How many choices begin with the first so many places of one.
    leaves: Vec<u128>,
    left: u128,
    over: bool,
}

impl DepthFirst<'_> {
    fn found(source: &Netlist, codes: &[u8], wanted: &[u8], budget: u64) -> Found {
        let mut leaves = vec![1_u128];
        for &ways in fewest::ways(source, codes).iter().rev() {
            leaves.push(leaves[leaves.len() - 1].saturating_mul(ways.into()));
        }
        leaves.reverse();
        let mut search = DepthFirst {
            source,
            codes,
            wanted,
            of: vec![0; source.wires],
            choice: Vec::new(),
            best: None,
            leaves,
            left: budget.into(),
            over: false,
        };
        search.input(0);
        let (choice, changes) = search.best.expect("one choice was tried");
        Found { choice, changes, floor: if search.over { fewest::twices(source) } else { changes } }
    }

    /// Counts the choices of a branch, which begins with so many places.
    fn count(&mut self, places: usize) {
        let leaves = self.leaves[places];
        self.over |= leaves > self.left;
        self.left = self.left.saturating_sub(leaves);
    }

    /// Whether nothing is to be found behind so many changes.
    fn ends(&self, changes: u64) -> bool {
        self.over || self.left == 0 || self.best.as_ref().is_some_and(|&(_, fewest)| changes >= fewest)
    }

    fn input(&mut self, wire: usize) {
        if self.ends(0) {
            return self.count(self.choice.len());
        }
        match self.codes.get(wire) {
            None => self.gate(0, 0),
            Some(4) => {
                for way in 0..3 {
                    self.of[wire] = 1 + way;
                    self.choice.push(way);
                    self.input(wire + 1);
                    self.choice.pop();
                }
            }
            Some(&code) => {
                self.of[wire] = if code == 0 { 1 } else { code };
                self.input(wire + 1);
            }
        }
    }

    fn gate(&mut self, place: usize, changes: u64) {
        if self.ends(changes) {
            return self.count(self.choice.len());
        }
        let Some(&gate) = self.source.gates.get(place) else { return self.end(changes) };
        let c = gate.result();
        match gate {
            Gate::And(a, b, _) => {
                let (a, b) = (self.of[a], self.of[b]);
                for (way, code) in [(0, a), (1, b)] {
                    self.choice.push(way);
                    if way == 1 && a == b {
                        self.count(self.choice.len());
                    } else {
                        self.of[c] = code;
                        self.gate(place + 1, changes + u64::from(a == b));
                    }
                    self.choice.pop();
                }
            }
            Gate::Xor(a, b, _) => {
                let (a, b) = (self.of[a], self.of[b]);
                self.of[c] = if a == b { a % 3 + 1 } else { 6 - a - b };
                self.gate(place + 1, changes + u64::from(a == b));
            }
            Gate::Inv(a, _) | Gate::Eqw(a, _) => {
                self.of[c] = self.of[a];
                self.gate(place + 1, changes);
            }
            Gate::Eq(..) => {
                self.of[c] = 1;
                self.gate(place + 1, changes);
            }
        }
    }

    fn end(&mut self, changes: u64) {
        self.count(self.choice.len());
        let outputs = self.of[self.source.wires - self.source.output_bits()..].iter().zip(self.wanted);
        let changes =
            changes + outputs.filter(|&(&code, &wanted)| wanted != 0 && wanted != code).count() as u64;
        if self.best.as_ref().is_none_or(|&(_, fewest)| changes < fewest) {
            self.best = Some((self.choice.clone(), changes));
        }
    }
}

/// Random sources of some more choices, with all of them and with large budgets.
#[test]
fn many_choices() {
    let library = &mut Library::new();
    let (mut longest, mut cut_off) = (0, 0);
    for seed in 0..2_000 {
        let random = &mut Random::new(seed ^ 0xa11);
        let (bits, gate_count) = (random.between(1, 7), random.below(14));
        let source = netlists::netlist(random, bits, gate_count);
        let mut codes = netlists::codes(random, bits);
        free_some(random, &mut codes);
        let most = random.pick(&[0, 0, 3]);
        let wanted = random.list(source.output_bits(), 0, most);
        let many = choices(&source, &codes, 1 << 40);
        let any = 1 + random.next() % many;
        for budget in [any, many, many + 1, u64::MAX] {
            let found = DepthFirst::found(&source, &codes, &wanted, budget);
            if budget.min(many) < 500 {
                assert_eq!(fewest::search(&source, &codes, &wanted, budget), found, "seed {seed}");
            }
            cut_off += u64::from(found.changes > found.floor);
            let call = Call::new(Sizes::Standard, &source.write(), &codes, &wanted, budget);
            let given = fewest::given(&source, &codes, &wanted, &found);
            library.assert_outcome(&format!("seed {seed}, budget {budget}"), &call, &Ok(given));
        }
        longest = longest.max(many);
    }
    println!("2,000 sources of up to {longest} choices, {cut_off} searches that were not through");
}

/// The masked text is clean where it can be checked, and computes the source.
fn assert_masks(name: &str, text: &[u8], fewest: &Fewest, tables: &mut Tables) {
    let source = read(&SMALL, text).expect("it is a source");
    let masked = read(&LARGE, &fewest.text).expect("a masked text is good");
    let bits = source.input_bits();
    if bits <= 12 {
        assert_eq!(check(&fewest.text, &fewest.input_codes, tables), Ok(None), "{name}");
    }
    let ands = source.gates.iter().filter(|gate| matches!(gate, Gate::And(..))).count();
    let publics = fewest.input_codes.iter().filter(|&&code| code == 0).count();
    let outputs = masked.gates[masked.gates.len() - source.output_bits()..].iter();
    let output_changes = outputs.filter(|gate| matches!(gate, Gate::Xor(..))).count();
    let operand_changes =
        masked.gates.len() - 3 - publics - source.gates.len() - 6 * ands - source.output_bits();
    assert_eq!(fewest.changes, (operand_changes + output_changes) as u64, "{name}");
    let random = &mut Random::new(12);
    let settings: Vec<Vec<u8>> = (0..64).map(|_| random.list(bits, 0, 1)).collect();
    let open = run64(text, &to_words(&settings), tables).expect("it can be run");
    for [m0, m1] in [[0, 0], [1, 0], [0, 1], [1, 1]] {
        let mask = |code: u8| [0, m0, m1, m0 ^ m1][usize::from(code)];
        let put_on = |bits: &Vec<u8>| -> Vec<u8> {
            bits.iter()
                .zip(&fewest.input_codes)
                .map(|(bit, &code)| bit ^ mask(code))
                .chain([m0, m1])
                .collect()
        };
        let settings: Vec<Vec<u8>> = settings.iter().map(put_on).collect();
        let words = run64(&fewest.text, &to_words(&settings), tables).expect("it can be run");
        for ((word, &code), open) in words.iter().zip(&fewest.codes).zip(&open) {
            assert_eq!(word ^ (mask(code) as u64).wrapping_neg(), *open, "{name} under {m0}{m1}");
        }
    }
}

/// Each circuit with all inputs free: some budgets beside the search through every choice, and what is given is a
/// masked circuit.
#[test]
fn circuits_by_budget() {
    let library = &mut Library::new();
    let tables = &mut Tables::standard();
    for circuit in circuits::all() {
        let name = &circuit.name;
        let Ok(source) = read(&SMALL, &circuit.text) else { continue };
        let codes = vec![4; source.input_bits()];
        for (budget, wanted) in [(1, 0), (100, 0), (1_000, 2), (3_000, 0)] {
            let wanted = vec![wanted; source.output_bits()];
            let call = Call::new(Sizes::Standard, &circuit.text, &codes, &wanted, budget);
            library.assert_call(name, &call).expect("a small circuit can be masked");
            let given = mask_fewest(&circuit.text, &codes, &wanted, budget, tables).expect("it is accepted");
            assert_masks(name, &circuit.text, &given, tables);
        }
    }
}

/// Circuits with the largest budget: the fewest changes and the floor. Where there are more choices than that, of
/// 2^64 and more, the floor is that of a search that is not through.
#[test]
fn circuits_with_the_largest_budget() {
    let library = &mut Library::new();
    for (name, wanted, tally) in [
        ("present_sbox", 0, [1, 1]),
        ("present_sbox", 1, [3, 3]),
        ("gift_sbox", 0, [0, 0]),
        ("ascon_sbox", 0, [0, 0]),
        ("keccak_chi_row", 0, [0, 0]),
        ("c17", 0, [0, 0]),
        ("gf16_mul", 0, [0, 0]),
        ("less6", 0, [0, 0]),
        ("adder6", 0, [4, 4]),
        ("gf256_mul", 0, [85, 0]),
        ("mult6", 0, [70, 0]),
        ("adder64", 0, [127, 0]),
        ("sub64", 0, [126, 0]),
        ("sha256_round", 0, [613, 0]),
        ("zero_equal_683", 0, [682, 0]),
    ] {
        let text = circuits::circuit(name).text;
        let source = read(&SMALL, &text).expect("it is a source");
        let (codes, wanted) = (vec![4; source.input_bits()], vec![wanted; source.output_bits()]);
        let found = DepthFirst::found(&source, &codes, &wanted, u64::MAX);
        assert_eq!([found.changes, found.floor], tally, "{name}");
        let call = Call::new(Sizes::Standard, &text, &codes, &wanted, u64::MAX);
        library.assert_outcome(name, &call, &Ok(fewest::given(&source, &codes, &wanted, &found)));
    }
}

/// A free input whose first code costs a change, and so many ANDs behind it that cost none: its second code is first
/// tried after as many choices as the ANDs have orders, which may be more than any budget.
#[test]
fn beyond_the_largest_budget() {
    let library = &mut Library::new();
    for (ands, budget, tally) in [
        (3, 8, [1, 0]),
        (3, 9, [0, 0]),
        (62, 1 << 62, [1, 0]),
        (62, (1 << 62) + 1, [0, 0]),
        (63, 1 << 63, [1, 0]),
        (63, (1 << 63) + 1, [0, 0]),
        (63, u64::MAX, [0, 0]),
        (64, u64::MAX, [1, 0]),
        (65, u64::MAX, [1, 0]),
        (128, u64::MAX, [1, 0]),
        (300, 7, [1, 0]),
        (300, u64::MAX, [1, 0]),
    ] {
        let mut gates = vec![Gate::Xor(0, 1, 3)];
        gates.extend((0..ands).map(|and| Gate::And(1, 2, 4 + and)));
        let text = source(3, &gates).write();
        let codes = [4, 1, 2];
        let found = DepthFirst::found(&source(3, &gates), &codes, &[0], budget);
        assert_eq!([found.changes, found.floor], tally, "{ands} ANDs, budget {budget}");
        let given = fewest::given(&source(3, &gates), &codes, &[0], &found);
        assert_eq!(given.input_codes, [if tally[0] == 0 { 2 } else { 1 }, 1, 2]);
        let call = Call::new(Sizes::Standard, &text, &codes, &[0], budget);
        library.assert_outcome(&format!("{ands} ANDs, budget {budget}"), &call, &Ok(given));
    }
    // Free inputs alone: the last of so many costs a change unless its code is 2 or 3.
    for (frees, budget) in [(3, 26), (3, 27), (40, 1_000), (41, u64::MAX), (200, u64::MAX)] {
        let text = source(frees + 1, &[Gate::Xor(frees - 1, frees, frees + 1)]).write();
        let mut codes = vec![4; frees];
        codes.push(1);
        let call = Call::new(Sizes::Standard, &text, &codes, &[0], budget);
        let given =
            library.assert_call("free inputs", &Call { budget: 2, ..call.clone() }).expect("it is accepted");
        assert_eq!(given.tally, [0, 0]);
        library.assert_outcome("free inputs", &call, &Ok(given));
    }
}

/// The choice of a number, the last place varying fastest.
fn choice_of(ways: &[u8], mut number: u64) -> Vec<u8> {
    let mut choice = vec![0; ways.len()];
    for (way, &ways) in choice.iter_mut().zip(ways).rev() {
        *way = (number % u64::from(ways)) as u8;
        number /= u64::from(ways);
    }
    choice
}

/// The AES S-box, all inputs free: 3^8 2^32 choices.
#[test]
fn aes_sbox() {
    let library = &mut Library::new();
    let text = circuits::circuit("aes_sbox").text;
    let source = read(&SMALL, &text).expect("it is a source");
    let (codes, wanted) = ([4; 8], [0; 8]);
    let call = |budget| Call::new(Sizes::Standard, &text, &codes, &wanted, budget);
    for (budget, changes) in [(1_000, 38), (1_000_000, 34)] {
        let given = library.assert_call("the AES S-box", &call(budget)).expect("it is accepted");
        assert_eq!(given.tally, [changes, 0], "budget {budget}");
    }
    let ways = fewest::ways(&source, &codes);
    let all = 28_179_280_429_056;
    assert_eq!(choices(&source, &codes, u64::MAX), all);
    let choice = choice_of(&ways, 861_654_224_302);
    let found = Found { choice, changes: 10, floor: 10 };
    assert_eq!(DepthFirst::found(&source, &codes, &wanted, all), found);
    let given = fewest::given(&source, &codes, &wanted, &found);
    for budget in [all, all + 1, u64::MAX] {
        library.assert_outcome("the AES S-box, all choices", &call(budget), &Ok(given.clone()));
    }
    // The choice is the last of so many tries, and one try less does not reach it; neither knows the floor.
    let twices = Given { tally: vec![10, 0], ..given };
    library.assert_outcome("up to the fewest", &call(861_654_224_303), &Ok(twices.clone()));
    library.assert_outcome("all but one", &call(all - 1), &Ok(twices));
    for budget in [10_000_000, 12_345_678_901, 861_654_224_302] {
        let found = DepthFirst::found(&source, &codes, &wanted, budget);
        assert!(found.changes > 10 && found.floor == 0, "budget {budget}: {found:?}");
        let given = fewest::given(&source, &codes, &wanted, &found);
        library.assert_outcome("the AES S-box", &call(budget), &Ok(given));
    }
    let tables = &mut Tables::standard();
    let fewest = mask_fewest(&text, &codes, &wanted, u64::MAX, tables).expect("it is accepted");
    assert_masks("the AES S-box", &text, &fewest, tables);
}

/// Both sides of the limits, under either choice: wires, bytes and tables.
#[test]
fn limits() {
    let library = &mut Library::new();
    for sizes in [Sizes::Standard, Sizes::Whole] {
        let limits = sizes.small();
        let ladder = |wires: usize| {
            let gates = (1..wires).map(|c| Gate::And(c - 1, c - 1, c)).collect();
            Netlist { wires, inputs: vec![1], outputs: vec![1], gates }.write()
        };
        let most = ladder(limits.wires);
        for budget in [1, 10, u64::MAX] {
            let call = Call::new(sizes, &most, &[4], &[0], budget);
            // Each AND names one wire twice, and no choice changes fewer.
            let few = Call { budget: budget.min(10), ..call.clone() };
            let given = few.outcome().expect("it is accepted");
            assert_eq!(given.tally, [limits.wires as u64 - 1; 2]);
            library.assert_outcome("as many wires as may be", &call, &Ok(given));
        }
        let call = |text: &[u8]| Call::new(sizes, text, &[4], &[0], 2);
        let refused = |library: &mut Library, name: &str, call: Call, question: u8| {
            assert_eq!(library.assert_call(name, &call), Err(question), "{name}");
        };
        refused(library, "one wire more", call(&ladder(limits.wires + 1)), 5);
        for table in 0..7 {
            let mut short = call(&most);
            short.tables[table] -= 1;
            refused(library, "a table one short", short, 1);
        }
        let mut long = ladder(4);
        long.resize(limits.text, b' ');
        library.assert_call("as many bytes as may be", &call(&long)).expect("it is accepted");
        long.push(b' ');
        refused(library, "one byte more", call(&long), 2);
        // Every wire a free input, without a gate: 3^2048 choices, the first of which is at the floor.
        let inputs =
            Netlist { wires: limits.wires, inputs: vec![limits.wires], outputs: vec![1], gates: vec![] };
        let codes = vec![4; limits.wires];
        for budget in [1, 1_000, u64::MAX] {
            let call = Call::new(sizes, &inputs.write(), &codes, &[0], budget);
            let given = Call { budget: 1, ..call.clone() }.outcome().expect("it is accepted");
            library.assert_outcome("inputs alone", &call, &Ok(given));
        }
    }
}

/// AES-128 whole, all inputs free.
#[test]
fn whole_cipher() {
    let library = &mut Library::new();
    let path = concat!(env!("CARGO_MANIFEST_DIR"), "/../../circuits/aes_128.txt");
    let text = fs::read(path).expect("it can be read");
    let call = Call::new(Sizes::Whole, &text, &[4; 256], &[0; 128], 200);
    let given = library.assert_call("AES-128", &call).expect("it is accepted");
    assert_eq!(given.tally[1], 0);
}
