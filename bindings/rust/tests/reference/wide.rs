//! Check of netlists with many inputs: the old check without question 12, over all settings of all inputs, and
//! question 12 by the inputs that reach each wire. Where there are too many settings, the same over those inputs
//! alone.

use super::ask;
use super::netlist::{read, Gate, Netlist, Sizes};
use std::collections::BTreeSet;

/// A leak: its wire, the input bits that are one in its setting, the count that it is compared with, its own.
pub type Leak = (u64, Vec<u64>, u64, u64);

/// The leak, and how many pairs stand before the first bad one.
pub type Answers = (Option<Leak>, Option<u64>);

/// The input bits besides the mask pair that reach each wire through gate lines.
pub fn reach(netlist: &Netlist) -> Vec<BTreeSet<usize>> {
    let mut sets = vec![BTreeSet::new(); netlist.wires];
    for (bit, set) in sets.iter_mut().enumerate().take(netlist.input_bits() - 2) {
        set.insert(bit);
    }
    for gate in &netlist.gates {
        sets[gate.result()] = match *gate {
            Gate::Xor(a, b, _) | Gate::And(a, b, _) => &sets[a] | &sets[b],
            Gate::Inv(a, _) | Gate::Eqw(a, _) => sets[a].clone(),
            Gate::Eq(..) => BTreeSet::new(),
        };
    }
    sets
}

/// The masks of codes 0 to 3 in the four mask settings, a bit each.
const MASKS: [u8; 4] = [0, 0b1010, 0b1100, 0b0110];

/// Each wire in the four mask settings, a bit each, under an input setting; other gates than those given are
/// passed over.
fn shown(netlist: &Netlist, gates: &[Gate], codes: &[u8], setting: &[bool]) -> Vec<u8> {
    let mut wires: Vec<u8> = setting
        .iter()
        .zip(codes)
        .map(|(&one, &code)| MASKS[usize::from(code)] ^ if one { 15 } else { 0 })
        .collect();
    wires.extend([MASKS[1], MASKS[2]]);
    wires.resize(netlist.wires, 0);
    for gate in gates {
        wires[gate.result()] = match *gate {
            Gate::Xor(a, b, _) => wires[a] ^ wires[b],
            Gate::And(a, b, _) => wires[a] & wires[b],
            Gate::Inv(a, _) => wires[a] ^ 15,
            Gate::Eqw(a, _) => wires[a],
            Gate::Eq(0, _) => 0,
            Gate::Eq(..) => 15,
        };
    }
    wires
}

/// All settings of some input bits, the others zero, in rising order, each with what the wires show under it and
/// under the setting with the same public bits and zero secrets; until one is told to be the last.
fn for_settings(
    netlist: &Netlist,
    gates: &[Gate],
    codes: &[u8],
    bits: &[usize],
    mut last: impl FnMut(&[bool], &[u8], &[u8]) -> bool,
) {
    let mut base: Option<(Vec<bool>, Vec<u8>)> = None;
    for number in 0..1_u64 << bits.len() {
        let mut setting = vec![false; codes.len()];
        for (place, &bit) in bits.iter().enumerate() {
            setting[bit] = number >> place & 1 == 1;
        }
        let public: Vec<bool> = setting.iter().zip(codes).map(|(&one, &code)| one && code == 0).collect();
        if base.as_ref().is_none_or(|(of, _)| *of != public) {
            let wires = shown(netlist, gates, codes, &public);
            base = Some((public, wires));
        }
        let own = shown(netlist, gates, codes, &setting);
        if last(&setting, &own, &base.as_ref().expect("there is a base").1) {
            return;
        }
    }
}

fn ones(setting: &[bool]) -> Vec<u64> {
    (0..setting.len()).filter(|&bit| setting[bit]).map(|bit| bit as u64).collect()
}

fn count(wire: u8) -> u64 {
    u64::from(wire.count_ones())
}

/// How many mask settings show each of the four values of two wires.
fn values(u: u8, v: u8) -> [u64; 4] {
    [count(!u & !v & 15), count(u & !v & 15), count(!u & v & 15), count(u & v)]
}

/// Both answers by all settings of all inputs.
pub fn by_all_settings(netlist: &Netlist, codes: &[u8], pairs: &[(usize, usize)]) -> Answers {
    let mut leaks: Vec<Option<Leak>> = vec![None; netlist.wires];
    let mut bad = vec![false; pairs.len()];
    let bits: Vec<usize> = (0..codes.len()).collect();
    for_settings(netlist, &netlist.gates, codes, &bits, |setting, own, base| {
        for wire in 0..netlist.wires {
            if leaks[wire].is_none() && count(own[wire]) != count(base[wire]) {
                leaks[wire] = Some((wire as u64, ones(setting), count(base[wire]), count(own[wire])));
            }
        }
        for (bad, &(u, v)) in bad.iter_mut().zip(pairs) {
            *bad |= values(own[u], own[v]) != values(base[u], base[v]);
        }
        false
    });
    (leaks.into_iter().flatten().next(), bad.iter().position(|&bad| bad).map(|place| place as u64))
}

/// The gate lines that some wires depend on.
fn cone(netlist: &Netlist, wires: &[usize]) -> Vec<Gate> {
    let mut needed = vec![false; netlist.wires];
    for &wire in wires {
        needed[wire] = true;
    }
    let mut gates = Vec::new();
    for gate in netlist.gates.iter().rev() {
        if !needed[gate.result()] {
            continue;
        }
        match *gate {
            Gate::Xor(a, b, _) | Gate::And(a, b, _) => (needed[a], needed[b]) = (true, true),
            Gate::Inv(a, _) | Gate::Eqw(a, _) => needed[a] = true,
            Gate::Eq(..) => (),
        }
        gates.push(*gate);
    }
    gates.reverse();
    gates
}

/// Both answers, each wire and each pair by the settings of the inputs that reach it.
pub fn by_cones(netlist: &Netlist, codes: &[u8], pairs: &[(usize, usize)]) -> Answers {
    let sets = reach(netlist);
    let leak = (0..netlist.wires).find_map(|wire| {
        let bits: Vec<usize> = sets[wire].iter().copied().collect();
        let mut leak = None;
        for_settings(netlist, &cone(netlist, &[wire]), codes, &bits, |setting, own, base| {
            if count(own[wire]) != count(base[wire]) {
                leak = Some((wire as u64, ones(setting), count(base[wire]), count(own[wire])));
            }
            leak.is_some()
        });
        leak
    });
    let bad = pairs.iter().position(|&(u, v)| {
        let bits: Vec<usize> = (&sets[u] | &sets[v]).into_iter().collect();
        let mut bad = false;
        for_settings(netlist, &cone(netlist, &[u, v]), codes, &bits, |_, own, base| {
            bad = values(own[u], own[v]) != values(base[u], base[v]);
            bad
        });
        bad
    });
    (leak, bad.map(|place| place as u64))
}

/// The most input bits whose settings are all tried.
pub const MOST_BITS: usize = 15;

/// The outcome of a call: `rooms` are the lengths of the lists for the leak, the ones and the bad pair.
pub fn check_wide(
    tables: &[usize],
    text: &[u8],
    codes: &[u8],
    pairs: &[u32],
    rooms: [usize; 3],
    sizes: Sizes,
) -> Result<Answers, u8> {
    ask(1, tables.iter().all(|&length| length >= sizes.large().table))?;
    let netlist = read(sizes.large(), text)?;
    ask(10, netlist.inputs.len() >= 2 && netlist.inputs.last() == Some(&2))?;
    let bits = netlist.input_bits() - 2;
    ask(11, codes.len() == bits && codes.iter().all(|&code| code <= 3))?;
    ask(21, pairs.len().is_multiple_of(2) && pairs.iter().all(|&wire| (wire as usize) < netlist.wires))?;
    let pairs: Vec<_> = pairs.chunks(2).map(|pair| (pair[0] as usize, pair[1] as usize)).collect();
    let sets = reach(&netlist);
    ask(12, sets.iter().all(|set| set.len() <= 12))?;
    ask(12, pairs.iter().all(|&(u, v)| (&sets[u] | &sets[v]).len() <= 12))?;
    let answers = if bits <= MOST_BITS {
        by_all_settings(&netlist, codes, &pairs)
    } else {
        by_cones(&netlist, codes, &pairs)
    };
    let (leak, bad) = &answers;
    ask(14, leak.as_ref().is_none_or(|(_, ones, ..)| rooms[0] >= 4 && rooms[1] >= ones.len()))?;
    ask(14, bad.is_none() || rooms[2] >= 1)?;
    Ok(answers)
}
