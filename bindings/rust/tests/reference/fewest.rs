//! Fewer mask changes: every choice tried, in order.

use super::ask;
use super::mask::mask;
use super::netlist::{read, Gate, Netlist, Sizes};

/// How many ways each choice has: three codes for each free input, in order, then two orders for each AND.
pub fn ways(source: &Netlist, codes: &[u8]) -> Vec<u8> {
    let frees = codes.iter().filter(|&&code| code == 4).map(|_| 3);
    let ands = source.gates.iter().filter(|gate| matches!(gate, Gate::And(..))).map(|_| 2);
    frees.chain(ands).collect()
}

/// The source and the codes under a choice, whose ways count from 0: code 1, or the operands as written.
pub fn chosen(source: &Netlist, codes: &[u8], choice: &[u8]) -> (Netlist, Vec<u8>) {
    let mut ways = choice.iter();
    let mut way = || *ways.next().expect("a choice has a way for each free input and each AND");
    let codes = codes.iter().map(|&code| if code == 4 { 1 + way() } else { code }).collect();
    let mut source = source.clone();
    for gate in &mut source.gates {
        if let Gate::And(a, b, c) = *gate {
            if way() == 1 {
                *gate = Gate::And(b, a, c);
            }
        }
    }
    (source, codes)
}

/// The mask changes of operands and outputs: the masked netlist's gates beyond those that are always there, and
/// its XORs among the gates of the output bits.
pub fn changes(source: &Netlist, codes: &[u8], wanted: &[u8]) -> u64 {
    let (masked, _) = mask(source, codes, wanted);
    let ands = source.gates.iter().filter(|gate| matches!(gate, Gate::And(..))).count();
    let publics = codes.iter().filter(|&&code| code == 0).count();
    let always = 3 + publics + source.gates.len() + 6 * ands + source.output_bits();
    let outputs = &masked.gates[masked.gates.len() - source.output_bits()..];
    let output_changes = outputs.iter().filter(|gate| matches!(gate, Gate::Xor(..))).count();
    (masked.gates.len() - always + output_changes) as u64
}

/// The same by the codes of the wires alone, for long searches.
pub fn changes_by_codes(source: &Netlist, codes: &[u8], wanted: &[u8]) -> u64 {
    let mut of = vec![0; source.wires];
    for (wire, &code) in codes.iter().enumerate() {
        of[wire] = if code == 0 { 1 } else { code };
    }
    let mut changes = 0;
    for gate in &source.gates {
        if let Gate::Xor(a, b, _) | Gate::And(a, b, _) = *gate {
            changes += u64::from(of[a] == of[b]);
        }
        of[gate.result()] = match *gate {
            // The second operand's mask becomes the third code's, and the sum has the code after.
            Gate::Xor(a, b, _) if of[a] == of[b] => of[a] % 3 + 1,
            Gate::Xor(a, b, _) => 6 - of[a] - of[b],
            Gate::And(a, _, _) | Gate::Inv(a, _) | Gate::Eqw(a, _) => of[a],
            Gate::Eq(..) => 1,
        };
    }
    let outputs = of[source.wires - source.output_bits()..].iter().zip(wanted);
    changes + outputs.filter(|&(&code, &wanted)| wanted != 0 && wanted != code).count() as u64
}

/// The choice after one: the last place that has a further way takes it, and those behind it their first.
pub fn step(ways: &[u8], choice: &mut [u8]) -> bool {
    let Some(place) = (0..ways.len()).rev().find(|&place| choice[place] + 1 < ways[place]) else {
        return false;
    };
    choice[place] += 1;
    choice[place + 1..].fill(0);
    true
}

/// What a search finds: the first choice with the fewest changes, these, and the floor.
#[derive(Clone, Debug, PartialEq, Eq)]
pub struct Found {
    pub choice: Vec<u8>,
    pub changes: u64,
    pub floor: u64,
}

/// The search through as many choices as a budget of 1 or more allows.
pub fn search(source: &Netlist, codes: &[u8], wanted: &[u8], budget: u64) -> Found {
    let ways = ways(source, codes);
    let mut choice = vec![0; ways.len()];
    let mut first: Option<(Vec<u8>, u64)> = None;
    let mut tried = 0;
    let all = loop {
        let (source, codes) = chosen(source, codes, &choice);
        let own = changes_by_codes(&source, &codes, wanted);
        if first.as_ref().is_none_or(|&(_, fewest)| own < fewest) {
            first = Some((choice.clone(), own));
        }
        tried += 1;
        if !step(&ways, &mut choice) {
            break true;
        }
        if tried == budget {
            break false;
        }
    };
    let (choice, changes) = first.expect("one choice was tried");
    Found { choice, changes, floor: if all { changes } else { twices(source) } }
}

/// The two-operand gates that name one wire twice.
pub fn twices(source: &Netlist) -> u64 {
    let twice = |gate: &&Gate| matches!(**gate, Gate::Xor(a, b, _) | Gate::And(a, b, _) if a == b);
    source.gates.iter().filter(twice).count() as u64
}

/// What Mask with fewer changes gives.
#[derive(Clone, Debug, Default, PartialEq, Eq)]
pub struct Given {
    pub text: Vec<u8>,
    pub input_codes: Vec<u8>,
    pub output_codes: Vec<u8>,
    pub tally: Vec<u64>,
}

/// The results of a choice.
pub fn given(source: &Netlist, codes: &[u8], wanted: &[u8], found: &Found) -> Given {
    let (swapped, input_codes) = chosen(source, codes, &found.choice);
    assert_eq!(changes(&swapped, &input_codes, wanted), found.changes);
    let (masked, output_codes) = mask(&swapped, &input_codes, wanted);
    Given { text: masked.write(), input_codes, output_codes, tally: vec![found.changes, found.floor] }
}

/// The outcome of a call: `rooms` are the lengths of the buffers for the text, both lists of codes and the tally.
pub fn mask_fewest(
    tables: &[usize],
    text: &[u8],
    codes: &[u8],
    wanted: &[u8],
    budget: u64,
    rooms: [usize; 4],
    sizes: Sizes,
) -> Result<Given, u8> {
    ask(1, tables.iter().all(|&length| length >= sizes.small().table))?;
    let source = read(sizes.small(), text)?;
    ask(11, codes.len() == source.input_bits() && codes.iter().all(|&code| code <= 4))?;
    ask(13, wanted.len() == source.output_bits() && wanted.iter().all(|&code| code <= 3))?;
    ask(22, budget > 0)?;
    let given = given(&source, codes, wanted, &search(&source, codes, wanted, budget));
    let lengths = [given.text.len(), given.input_codes.len(), given.output_codes.len(), given.tally.len()];
    ask(14, lengths.iter().zip(rooms).all(|(&length, room)| length <= room))?;
    Ok(given)
}
