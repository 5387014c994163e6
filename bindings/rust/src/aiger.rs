//! AIGER files.

use crate::lent::answer;
use crate::tables::front;
use crate::{Refusal, Sizes, Tables};

extern "C" {
    fn fidrovelj_from_aiger(
        text: *const u8,
        text_len: usize,
        out: *mut u8,
        out_len: usize,
        operands: *mut u64,
        operands_len: usize,
        results: *mut u64,
        results_len: usize,
        variables: *mut u32,
        variables_len: usize,
        sizes: u8,
    ) -> i64;
}

/// Writes the netlist made of an AIGER file to `out`, in the written form: its length. Question 1 asks
/// [`Sizes::source_wires`] entries of each table.
///
/// ```
/// # use fidrovelj::{from_aiger_lent, Refusal, Sizes};
/// # let sizes = Sizes::Standard;
/// let (mut operands, mut results) = (vec![0; sizes.source_wires()], vec![0; sizes.source_wires()]);
/// let (mut variables, mut out) = (vec![0; sizes.source_wires()], vec![0; sizes.text()]);
/// let copy = b"aag 1 1 0 1 0\n2\n2\n";
/// let length = from_aiger_lent(copy, &mut out, &mut operands, &mut results, &mut variables, sizes)?;
/// assert_eq!(&out[..length], b"1 2\n1 1\n1 1\n\n1 1 0 1 EQW\n");
/// # Ok::<(), Refusal>(())
/// ```
pub fn from_aiger_lent(
    text: &[u8],
    out: &mut [u8],
    operands: &mut [u64],
    results: &mut [u64],
    variables: &mut [u32],
    sizes: Sizes,
) -> Result<usize, Refusal> {
    // SAFETY: each pointer and length is that of a slice, and slices that are `&mut` overlap no other.
    answer(unsafe {
        fidrovelj_from_aiger(
            text.as_ptr(),
            text.len(),
            out.as_mut_ptr(),
            out.len(),
            operands.as_mut_ptr(),
            operands.len(),
            results.as_mut_ptr(),
            results.len(),
            variables.as_mut_ptr(),
            variables.len(),
            sizes as u8,
        )
    })
}

/// The netlist made of an ASCII AIGER file, in its written form: one input value and one output value,
/// before each AND gate an EQ for each constant operand and an INV for each inverse one, and last an
/// EQW, INV or EQ for each output. Mask's limits hold.
///
/// A file outside the form is refused by 19, one with latches by 20.
///
/// ```
/// # use fidrovelj::{from_aiger, Refusal, Tables};
/// let tables = &mut Tables::new();
/// let text = from_aiger(b"aag 3 2 0 1 1\n2\n4\n7\n6 5 3\no0 or\n", tables)?;
/// assert_eq!(
///     text,
///     b"4 6\n1 2\n1 1\n\n1 1 1 2 INV\n1 1 0 3 INV\n2 1 2 3 4 AND\n1 1 4 5 INV\n"
/// );
///
/// assert_eq!(from_aiger(b"aag 1 0 1 1 0\n2 2\n2\n", tables), Err(Refusal::Aiger));
/// assert_eq!(from_aiger(b"aag 2 1 1 1 0\n2\n4 4\n4\n", tables), Err(Refusal::Latches));
/// # Ok::<(), Refusal>(())
/// ```
pub fn from_aiger(text: &[u8], tables: &mut Tables) -> Result<Vec<u8>, Refusal> {
    tables.lend(|t, sizes| {
        let table = sizes.source_wires();
        let length = from_aiger_lent(
            text,
            front(&mut t.text, sizes.text()),
            front(&mut t.operands, table),
            front(&mut t.results, table),
            front(&mut t.wires, table),
            sizes,
        )?;
        Ok(t.text[..length].to_vec())
    })
}
