//! Mask with fewer mask changes.

#![allow(clippy::too_many_arguments)]

use std::fmt;

use crate::lent::answer;
use crate::tables::front;
use crate::{Refusal, Sizes, Tables};

extern "C" {
    fn fidrovelj_mask_fewest(
        text: *const u8,
        text_len: usize,
        codes: *const u8,
        codes_len: usize,
        wanted: *const u8,
        wanted_len: usize,
        budget: u64,
        out: *mut u8,
        out_len: usize,
        in_codes: *mut u8,
        in_codes_len: usize,
        out_codes: *mut u8,
        out_codes_len: usize,
        tally: *mut u64,
        tally_len: usize,
        operands: *mut u64,
        operands_len: usize,
        results: *mut u64,
        results_len: usize,
        wires: *mut u32,
        wires_len: usize,
        marks: *mut u8,
        marks_len: usize,
        ways: *mut u8,
        ways_len: usize,
        best: *mut u8,
        best_len: usize,
        spans: *mut u64,
        spans_len: usize,
        sizes: u8,
    ) -> i64;
}

/// Writes the masked text of the first choice with the fewest mask changes to `out`, the codes of its input bits
/// to `in_codes` and of its output bits to `out_codes`, and its changes and the floor to the two entries of
/// `tally`: the text's length. Question 1 asks [`Sizes::source_wires`] entries of each table.
///
/// ```
/// # use fidrovelj::{mask_fewest_lent, Refusal, Sizes};
/// # let sizes = Sizes::Standard;
/// let wide = || vec![0u64; sizes.source_wires()];
/// let bytes = || vec![0u8; sizes.source_wires()];
/// let (mut operands, mut results, mut spans, mut wires) = (wide(), wide(), wide(), vec![0; sizes.source_wires()]);
/// let (mut marks, mut ways, mut best, mut out) = (bytes(), bytes(), bytes(), vec![0; sizes.text()]);
/// let (mut in_codes, mut out_codes, mut tally) = ([0; 2], [0; 1], [0; 2]);
/// let and = b"1 3\n2 1 1\n1 1\n2 1 0 1 2 AND\n";
/// mask_fewest_lent(
///     and, &[4, 4], &[0], 18, &mut out, &mut in_codes, &mut out_codes, &mut tally, &mut operands, &mut results,
///     &mut wires, &mut marks, &mut ways, &mut best, &mut spans, sizes,
/// )?;
/// assert_eq!((in_codes, tally), ([1, 2], [0, 0]));
/// # Ok::<(), Refusal>(())
/// ```
pub fn mask_fewest_lent(
    text: &[u8],
    codes: &[u8],
    wanted: &[u8],
    budget: u64,
    out: &mut [u8],
    in_codes: &mut [u8],
    out_codes: &mut [u8],
    tally: &mut [u64],
    operands: &mut [u64],
    results: &mut [u64],
    wires: &mut [u32],
    marks: &mut [u8],
    ways: &mut [u8],
    best: &mut [u8],
    spans: &mut [u64],
    sizes: Sizes,
) -> Result<usize, Refusal> {
    // SAFETY: each pointer and length is that of a slice, and slices that are `&mut` overlap no other.
    answer(unsafe {
        fidrovelj_mask_fewest(
            text.as_ptr(),
            text.len(),
            codes.as_ptr(),
            codes.len(),
            wanted.as_ptr(),
            wanted.len(),
            budget,
            out.as_mut_ptr(),
            out.len(),
            in_codes.as_mut_ptr(),
            in_codes.len(),
            out_codes.as_mut_ptr(),
            out_codes.len(),
            tally.as_mut_ptr(),
            tally.len(),
            operands.as_mut_ptr(),
            operands.len(),
            results.as_mut_ptr(),
            results.len(),
            wires.as_mut_ptr(),
            wires.len(),
            marks.as_mut_ptr(),
            marks.len(),
            ways.as_mut_ptr(),
            ways.len(),
            best.as_mut_ptr(),
            best.len(),
            spans.as_mut_ptr(),
            spans.len(),
            sizes as u8,
        )
    })
}

/// What [`mask_fewest`] gives.
///
/// ```
/// # use fidrovelj::{codes, mask_fewest, Refusal, Tables};
/// let and = b"1 3\n2 1 1\n1 1\n2 1 0 1 2 AND\n";
/// let fewest = mask_fewest(and, &[codes::FREE; 2], &[codes::ANY], 18, &mut Tables::new())?;
/// assert_eq!((fewest.input_codes.as_slice(), fewest.changes), ([1, 2].as_slice(), 0));
/// # Ok::<(), Refusal>(())
/// ```
#[derive(Clone, PartialEq, Eq, Hash)]
pub struct Fewest {
    /// The masked netlist's text, in the written form.
    pub text: Vec<u8>,
    /// The mask code of each input bit: those handed in, and a code 1 to 3 for each free bit.
    pub input_codes: Vec<u8>,
    /// The mask code of each output bit, 1 to 3.
    pub codes: Vec<u8>,
    /// The mask changes of operands and outputs, each of which costs an XOR.
    pub changes: u64,
    /// No choice whatever has fewer changes: the fewest if the budget was enough for all choices, otherwise the
    /// number of two-operand gates that name one wire twice.
    pub floor: u64,
}

impl fmt::Debug for Fewest {
    fn fmt(&self, f: &mut fmt::Formatter<'_>) -> fmt::Result {
        let mut shown = f.debug_struct("Fewest");
        shown.field("text", &String::from_utf8_lossy(&self.text)).field("input_codes", &self.input_codes);
        shown.field("codes", &self.codes).field("changes", &self.changes).field("floor", &self.floor).finish()
    }
}

/// The masked netlist of a source with the fewest mask changes among as many choices as `budget` allows. An input
/// bit with code 4 is free: it may get code 1, 2 or 3. The choices are these codes for each free input, in order,
/// then for each AND, in order, its operands as written or swapped; they are tried in order, the last choice
/// varying fastest, and of several with the fewest changes the first is given. The other codes and `wanted` are
/// [`mask`](crate::mask)'s.
///
/// A budget of 0 is refused by 22. Runs of choices that cannot have fewer changes are counted without being
/// walked; even so a budget of `u64::MAX` can take very long on circuits of many choices.
///
/// ```
/// # use fidrovelj::{mask, mask_fewest, Refusal, Tables};
/// let tables = &mut Tables::new();
/// // Wire 3 is a AND b, wire 4 is wire 3 XOR c.
/// let source = b"2 5\n1 3\n1 1\n\n2 1 0 1 3 AND\n2 1 3 2 4 XOR\n";
///
/// // Six tries leave the first two bits under m0, and the AND must change a mask.
/// let few = mask_fewest(source, &[4, 4, 4], &[0], 6, tables)?;
/// assert_eq!((few.input_codes.as_slice(), few.changes, few.floor), ([1, 1, 2].as_slice(), 1, 0));
///
/// // Of all 54 choices the first without a change has codes 1, 2, 1 and the AND's operands swapped.
/// let fewest = mask_fewest(source, &[4, 4, 4], &[0], u64::MAX, tables)?;
/// assert_eq!((fewest.input_codes.as_slice(), fewest.changes, fewest.floor), ([1, 2, 1].as_slice(), 0, 0));
/// let swapped = b"2 5\n1 3\n1 1\n\n2 1 1 0 3 AND\n2 1 3 2 4 XOR\n";
/// assert_eq!(fewest.text, mask(swapped, &[1, 2, 1], &[0], tables)?.text);
///
/// assert_eq!(mask_fewest(source, &[4, 4, 4], &[0], 0, tables), Err(Refusal::Budget));
/// # Ok::<(), Refusal>(())
/// ```
pub fn mask_fewest(
    text: &[u8],
    codes: &[u8],
    wanted: &[u8],
    budget: u64,
    tables: &mut Tables,
) -> Result<Fewest, Refusal> {
    // Of an accepted call the lists have an entry for each bit, as many as there are codes of bits to give.
    let (mut input_codes, mut output_codes) = (vec![0; codes.len()], vec![0; wanted.len()]);
    let mut tally = [0; 2];
    let text = tables.lend(|t, sizes| {
        let table = sizes.source_wires();
        let length = mask_fewest_lent(
            text,
            codes,
            wanted,
            budget,
            front(&mut t.text, sizes.text()),
            &mut input_codes,
            &mut output_codes,
            &mut tally,
            front(&mut t.operands, table),
            front(&mut t.results, table),
            front(&mut t.wires, table),
            front(&mut t.marks, table),
            front(&mut t.ways, table),
            front(&mut t.best, table),
            front(&mut t.words, table),
            sizes,
        )?;
        Ok(t.text[..length].to_vec())
    })?;
    let [changes, floor] = tally;
    Ok(Fewest { text, input_codes, codes: output_codes, changes, floor })
}
