//! The bits on a netlist's wires, and the leak that they show.

use super::netlist::{Gate, Netlist};

/// The bit on each wire, for the bits of the input wires.
pub fn wires(netlist: &Netlist, inputs: &[bool]) -> Vec<bool> {
    let mut bits = inputs.to_vec();
    bits.resize(netlist.wires, false);
    for gate in &netlist.gates {
        bits[gate.result()] = match *gate {
            Gate::Xor(a, b, _) => bits[a] != bits[b],
            Gate::And(a, b, _) => bits[a] && bits[b],
            Gate::Inv(a, _) => !bits[a],
            Gate::Eqw(a, _) => bits[a],
            Gate::Eq(v, _) => v == 1,
        };
    }
    bits
}

/// The mask of a code under a setting of the two mask bits; a public bit, of code 0, has none.
pub fn mask_of(code: u8, m0: bool, m1: bool) -> bool {
    match code {
        1 => m0,
        2 => m1,
        3 => m0 != m1,
        0 => false,
        _ => panic!("{code} is no code"),
    }
}

/// The four mask settings.
pub const MASKS: [(bool, bool); 4] = [(false, false), (false, true), (true, false), (true, true)];

/// The bits of the input wires besides the mask pair under an input setting and a mask setting,
/// then the mask pair.
pub fn masked_inputs(setting: &[bool], codes: &[u8], (m0, m1): (bool, bool)) -> Vec<bool> {
    let bits = setting.iter().zip(codes).map(|(&bit, &code)| bit != mask_of(code, m0, m1));
    bits.chain([m0, m1]).collect()
}

/// The bits of a setting's number, input bit 0 being the lowest.
pub fn setting_bits(setting: u64, bits: usize) -> Vec<bool> {
    (0..bits).map(|bit| setting >> bit & 1 == 1).collect()
}

/// How many of the four mask settings make each wire one, for an input setting.
pub fn counts(netlist: &Netlist, codes: &[u8], setting: u64) -> Vec<u64> {
    let setting = setting_bits(setting, codes.len());
    let mut counts = vec![0; netlist.wires];
    for masks in MASKS {
        let bits = wires(netlist, &masked_inputs(&setting, codes, masks));
        for (count, bit) in counts.iter_mut().zip(bits) {
            *count += u64::from(bit);
        }
    }
    counts
}

/// The setting with the same public bits and zero secrets.
fn public_only(setting: u64, codes: &[u8]) -> u64 {
    (0..codes.len()).filter(|&bit| codes[bit] == 0).map(|bit| setting & 1 << bit).sum()
}

/// The lowest wire whose count is not the same for all settings that agree in their public bits, the
/// smallest setting whose count differs from that of the setting with the same public bits and zero
/// secrets, that one's count, and its own.
pub fn leak(netlist: &Netlist, codes: &[u8]) -> Option<[u64; 4]> {
    let (mut compared, mut base) = (0, counts(netlist, codes, 0));
    let mut first: Vec<Option<[u64; 3]>> = vec![None; netlist.wires];
    for setting in 1..1 << codes.len() {
        if public_only(setting, codes) != compared {
            compared = public_only(setting, codes);
            base = counts(netlist, codes, compared);
        }
        let own = counts(netlist, codes, setting);
        for wire in 0..netlist.wires {
            if first[wire].is_none() && own[wire] != base[wire] {
                first[wire] = Some([setting, base[wire], own[wire]]);
            }
        }
    }
    (0..netlist.wires).find_map(|wire| {
        let [setting, base, own] = first[wire]?;
        Some([wire as u64, setting, base, own])
    })
}
