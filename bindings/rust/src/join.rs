//! Joining masked blocks.

use crate::lent::answer;
use crate::tables::front;
use crate::{Refusal, Sizes, Tables};

extern "C" {
    fn fidrovelj_join(
        first: *const u8,
        first_len: usize,
        second: *const u8,
        second_len: usize,
        first_codes: *const u8,
        first_codes_len: usize,
        first_out_codes: *const u8,
        first_out_codes_len: usize,
        second_codes: *const u8,
        second_codes_len: usize,
        out: *mut u8,
        out_len: usize,
        operands: *mut u64,
        operands_len: usize,
        results: *mut u64,
        results_len: usize,
        marks: *mut u8,
        marks_len: usize,
        words: *mut u64,
        words_len: usize,
        base: *mut u64,
        base_len: usize,
        sizes: u8,
    ) -> i64;
}

/// Writes two masked blocks, joined, to `out`, in the written form: its length. Question 1 asks
/// [`Sizes::masked_wires`] entries of each table.
///
/// ```
/// # use fidrovelj::{join_lent, mask, Refusal, Sizes, Tables};
/// # let sizes = Sizes::Standard;
/// let table = || vec![0u64; sizes.masked_wires()];
/// let (mut operands, mut results, mut words, mut base) = (table(), table(), table(), table());
/// let (mut marks, mut out) = (vec![0; sizes.masked_wires()], vec![0; sizes.text()]);
/// let inverter = mask(b"1 2\n1 1\n1 1\n1 1 0 1 INV\n", &[1], &[1], &mut Tables::new())?;
/// let length = join_lent(
///     &inverter.text, &inverter.text, &[1], &[1], &[1], &mut out, &mut operands, &mut results, &mut marks, &mut words,
///     &mut base, sizes,
/// )?;
/// assert!(out[..length].starts_with(b"10 13\n2 1 2\n1 1\n"));
/// # Ok::<(), Refusal>(())
/// ```
#[allow(clippy::too_many_arguments)]
pub fn join_lent(
    first: &[u8],
    second: &[u8],
    first_codes: &[u8],
    first_out_codes: &[u8],
    second_codes: &[u8],
    out: &mut [u8],
    operands: &mut [u64],
    results: &mut [u64],
    marks: &mut [u8],
    words: &mut [u64],
    base: &mut [u64],
    sizes: Sizes,
) -> Result<usize, Refusal> {
    // SAFETY: each pointer and length is that of a slice, and slices that are `&mut` overlap no other.
    answer(unsafe {
        fidrovelj_join(
            first.as_ptr(),
            first.len(),
            second.as_ptr(),
            second.len(),
            first_codes.as_ptr(),
            first_codes.len(),
            first_out_codes.as_ptr(),
            first_out_codes.len(),
            second_codes.as_ptr(),
            second_codes.len(),
            out.as_mut_ptr(),
            out.len(),
            operands.as_mut_ptr(),
            operands.len(),
            results.as_mut_ptr(),
            results.len(),
            marks.as_mut_ptr(),
            marks.len(),
            words.as_mut_ptr(),
            words.len(),
            base.as_mut_ptr(),
            base.len(),
            sizes as u8,
        )
    })
}

/// Two masked blocks over the same two mask bits as one netlist, the outputs of the first going into
/// the inputs of the second: the first text with its input and output codes, and the second with its
/// input codes.
///
/// The first's wires keep their numbers; a wire w of the second past its n inputs, mask bits included,
/// becomes the first's W + w - n. The input values are the first's, the output values and the output
/// codes the second's.
///
/// Blocks that do not join are refused by 25: other codes than those that the first puts out, a public
/// bit among them, or a second with fewer gates than output bits.
///
/// ```
/// # use fidrovelj::{check, join, mask, Refusal, Tables};
/// let tables = &mut Tables::new();
/// // An AND gate of two bits, and an inverter for what it puts out.
/// let and = mask(b"1 3\n2 1 1\n1 1\n2 1 0 1 2 AND\n", &[1, 2], &[0], tables)?;
/// let inverter = mask(b"1 2\n1 1\n1 1\n1 1 0 1 INV\n", &and.codes, &[0], tables)?;
/// let nand = join(&and.text, &inverter.text, &[1, 2], &and.codes, &and.codes, tables)?;
/// assert!(nand.starts_with(b"16 20\n3 1 1 2\n1 1\n\n"));
/// assert_eq!(check(&nand, &[1, 2], tables)?, None);
///
/// // The inverter was masked for code 1.
/// assert_eq!(join(&and.text, &inverter.text, &[1, 2], &and.codes, &[2], tables), Err(Refusal::Seam));
/// # Ok::<(), Refusal>(())
/// ```
pub fn join(
    first: &[u8],
    second: &[u8],
    first_codes: &[u8],
    first_out_codes: &[u8],
    second_codes: &[u8],
    tables: &mut Tables,
) -> Result<Vec<u8>, Refusal> {
    tables.lend(|t, sizes| {
        let table = sizes.masked_wires();
        let length = join_lent(
            first,
            second,
            first_codes,
            first_out_codes,
            second_codes,
            front(&mut t.text, sizes.text()),
            front(&mut t.operands, table),
            front(&mut t.results, table),
            front(&mut t.marks, table),
            front(&mut t.words, table),
            front(&mut t.base, table),
            sizes,
        )?;
        Ok(t.text[..length].to_vec())
    })
}
