//! The services once more, written apart from the library and as simply as the rules are
//! stated: its own reading of the text, a bit a wire, one setting at a time.
//!
//! Each function gives the whole outcome of a call, for all that the call is handed: the lengths of
//! the working tables, the text, the lists and the lengths of the result buffers. An error is the
//! number of the first question answered no.

pub mod evaluate;
#[allow(dead_code)]
pub mod fewest;
pub mod mask;
pub mod netlist;
pub mod text;
#[allow(dead_code)]
pub mod wide;

use netlist::{Limits, Netlist, Sizes};

/// The outcome of Rewrite: the written form.
pub fn rewrite(tables: &[usize], text: &[u8], room: usize, sizes: Sizes) -> Result<Vec<u8>, u8> {
    let netlist = read(sizes.large(), tables, text)?;
    let written = netlist.write();
    ask(14, written.len() <= room)?;
    Ok(written)
}

/// The outcome of Run: the output bits.
pub fn run(tables: &[usize], text: &[u8], list: &[u8], room: usize, sizes: Sizes) -> Result<Vec<u8>, u8> {
    let netlist = read(sizes.large(), tables, text)?;
    ask(11, list.len() == netlist.input_bits() && list.iter().all(|&bit| bit <= 1))?;
    ask(14, netlist.output_bits() <= room)?;
    let inputs: Vec<bool> = list.iter().map(|&bit| bit == 1).collect();
    let wires = evaluate::wires(&netlist, &inputs);
    let outputs = &wires[netlist.wires - netlist.output_bits()..];
    Ok(outputs.iter().map(|&bit| u8::from(bit)).collect())
}

/// The outcome of sixty-four runs: for each output bit a word whose bit j is that of setting j.
pub fn run64(tables: &[usize], text: &[u8], list: &[u64], room: usize, sizes: Sizes) -> Result<Vec<u64>, u8> {
    let netlist = read(sizes.large(), tables, text)?;
    ask(11, list.len() == netlist.input_bits())?;
    ask(14, netlist.output_bits() <= room)?;
    let mut words = vec![0; netlist.output_bits()];
    for setting in 0..64 {
        let inputs: Vec<bool> = list.iter().map(|word| word & 1 << setting != 0).collect();
        let wires = evaluate::wires(&netlist, &inputs);
        for (word, &bit) in words.iter_mut().zip(&wires[netlist.wires - netlist.output_bits()..]) {
            if bit {
                *word |= 1 << setting;
            }
        }
    }
    Ok(words)
}

/// What Mask gives.
#[derive(Clone, Debug, PartialEq, Eq)]
pub struct Masked {
    pub text: Vec<u8>,
    pub codes: Vec<u8>,
}

/// The outcome of Mask: the masked text and the code of each output bit.
pub fn mask(
    tables: &[usize],
    text: &[u8],
    codes: &[u8],
    wanted: &[u8],
    text_room: usize,
    code_room: usize,
    sizes: Sizes,
) -> Result<Masked, u8> {
    let source = read(sizes.small(), tables, text)?;
    ask(11, codes.len() == source.input_bits() && codes.iter().all(|&code| code <= 3))?;
    ask(13, wanted.len() == source.output_bits() && wanted.iter().all(|&code| code <= 3))?;
    let (masked, codes) = mask::mask(&source, codes, wanted);
    let text = masked.write();
    ask(14, text.len() <= text_room && codes.len() <= code_room)?;
    Ok(Masked { text, codes })
}

/// The outcome of Twins: the masked wire of each source wire, and its code.
#[allow(dead_code)]
pub fn twins(
    tables: &[usize],
    text: &[u8],
    codes: &[u8],
    wire_room: usize,
    code_room: usize,
    sizes: Sizes,
) -> Result<(Vec<u32>, Vec<u8>), u8> {
    let source = read(sizes.small(), tables, text)?;
    ask(11, codes.len() == source.input_bits() && codes.iter().all(|&code| code <= 3))?;
    ask(14, source.wires <= wire_room && source.wires <= code_room)?;
    let twins = mask::twins(&source, codes);
    Ok(twins.iter().map(|twin| (twin.wire as u32, twin.code)).unzip())
}

/// The outcome of Check: none where the netlist is clean, otherwise the leak's wire, its setting, the
/// count that this is compared with, and its own.
pub fn check(tables: &[usize], text: &[u8], codes: &[u8], sizes: Sizes) -> Result<Option<[u64; 4]>, u8> {
    let netlist = read(sizes.large(), tables, text)?;
    ask(10, netlist.inputs.len() >= 2 && netlist.inputs.last() == Some(&2))?;
    let bits = netlist.input_bits() - 2;
    ask(11, codes.len() == bits && codes.iter().all(|&code| code <= 3))?;
    ask(12, bits <= 12)?;
    Ok(evaluate::leak(&netlist, codes))
}

/// Questions 1 to 9.
fn read(limits: &Limits, tables: &[usize], text: &[u8]) -> Result<Netlist, u8> {
    ask(1, tables.iter().all(|&length| length >= limits.table))?;
    netlist::read(limits, text)
}

/// A question: its number, and whether the answer is yes.
pub fn ask(number: u8, yes: bool) -> Result<(), u8> {
    if yes {
        Ok(())
    } else {
        Err(number)
    }
}
