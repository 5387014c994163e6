//! The older Bristol dialect.

use crate::lent::answer;
use crate::tables::front;
use crate::{Refusal, Sizes, Tables};

extern "C" {
    fn fidrovelj_from_old(
        text: *const u8,
        text_len: usize,
        out: *mut u8,
        out_len: usize,
        operands: *mut u64,
        operands_len: usize,
        results: *mut u64,
        results_len: usize,
        marks: *mut u8,
        marks_len: usize,
        sizes: u8,
    ) -> i64;

    fn fidrovelj_to_old(
        text: *const u8,
        text_len: usize,
        out: *mut u8,
        out_len: usize,
        operands: *mut u64,
        operands_len: usize,
        results: *mut u64,
        results_len: usize,
        marks: *mut u8,
        marks_len: usize,
        sizes: u8,
    ) -> i64;
}

/// Writes the netlist of a text in the older dialect to `out`, in the written form: its length. Question 1
/// asks [`Sizes::masked_wires`] entries of each table.
///
/// ```
/// # use fidrovelj::{from_old_lent, Refusal, Sizes};
/// # let sizes = Sizes::Standard;
/// let (mut operands, mut results) = (vec![0; sizes.masked_wires()], vec![0; sizes.masked_wires()]);
/// let (mut marks, mut out) = (vec![0; sizes.masked_wires()], [0; 100]);
/// let text = b"1 2\n1 0 1\n1 1 0 1 INV\n";
/// let length = from_old_lent(text, &mut out, &mut operands, &mut results, &mut marks, sizes)?;
/// assert_eq!(&out[..length], b"1 2\n1 1\n1 1\n\n1 1 0 1 INV\n");
/// # Ok::<(), Refusal>(())
/// ```
pub fn from_old_lent(
    text: &[u8],
    out: &mut [u8],
    operands: &mut [u64],
    results: &mut [u64],
    marks: &mut [u8],
    sizes: Sizes,
) -> Result<usize, Refusal> {
    // SAFETY: each pointer and length is that of a slice, and slices that are `&mut` overlap no other.
    answer(unsafe {
        fidrovelj_from_old(
            text.as_ptr(),
            text.len(),
            out.as_mut_ptr(),
            out.len(),
            operands.as_mut_ptr(),
            operands.len(),
            results.as_mut_ptr(),
            results.len(),
            marks.as_mut_ptr(),
            marks.len(),
            sizes as u8,
        )
    })
}

/// Writes a netlist to `out` in the older dialect: its length. Question 1 asks [`Sizes::masked_wires`] entries of
/// each table.
///
/// ```
/// # use fidrovelj::{to_old_lent, Refusal, Sizes};
/// # let sizes = Sizes::Standard;
/// let (mut operands, mut results) = (vec![0; sizes.masked_wires()], vec![0; sizes.masked_wires()]);
/// let (mut marks, mut out) = (vec![0; sizes.masked_wires()], [0; 100]);
/// let text = b"1 2\n1 1\n1 1\n1 1 0 1 INV\n";
/// let length = to_old_lent(text, &mut out, &mut operands, &mut results, &mut marks, sizes)?;
/// assert_eq!(&out[..length], b"1 2\n1 0 1\n\n1 1 0 1 INV\n");
/// # Ok::<(), Refusal>(())
/// ```
pub fn to_old_lent(
    text: &[u8],
    out: &mut [u8],
    operands: &mut [u64],
    results: &mut [u64],
    marks: &mut [u8],
    sizes: Sizes,
) -> Result<usize, Refusal> {
    // SAFETY: as in `from_old_lent`.
    answer(unsafe {
        fidrovelj_to_old(
            text.as_ptr(),
            text.len(),
            out.as_mut_ptr(),
            out.len(),
            operands.as_mut_ptr(),
            operands.len(),
            results.as_mut_ptr(),
            results.len(),
            marks.as_mut_ptr(),
            marks.len(),
            sizes as u8,
        )
    })
}

/// The netlist of a text in the older dialect, in its written form, gates unchanged: input values of the two
/// parties' widths, party two left out when it is 0, and one output value.
///
/// A gate other than XOR, AND and INV is refused by 7.
///
/// ```
/// # use fidrovelj::{from_old, Refusal, Tables};
/// let tables = &mut Tables::new();
/// let text = from_old(b"1 3\n1 1 1\n2 1 0 1 2 AND\n", tables)?;
/// assert_eq!(text, b"1 3\n2 1 1\n1 1\n\n2 1 0 1 2 AND\n");
///
/// assert_eq!(from_old(b"1 3\n1 1 1\n1 1 0 2 EQW\n", tables), Err(Refusal::Line));
/// # Ok::<(), Refusal>(())
/// ```
pub fn from_old(text: &[u8], tables: &mut Tables) -> Result<Vec<u8>, Refusal> {
    tables.lend(|t, sizes| {
        let table = sizes.masked_wires();
        let length = from_old_lent(
            text,
            front(&mut t.text, sizes.text()),
            front(&mut t.operands, table),
            front(&mut t.results, table),
            front(&mut t.marks, table),
            sizes,
        )?;
        Ok(t.text[..length].to_vec())
    })
}

/// The same netlist in the older dialect; party two is 0 where there is one input value.
///
/// A netlist with EQ or EQW, more than two input values or more than one output value is refused by 15.
///
/// ```
/// # use fidrovelj::{from_old, to_old, Refusal, Tables};
/// let tables = &mut Tables::new();
/// let old = to_old(b"1 2\n1 1\n1 1\n1 1 0 1 INV\n", tables)?;
/// assert_eq!(old, b"1 2\n1 0 1\n\n1 1 0 1 INV\n");
/// assert_eq!(from_old(&old, tables)?, b"1 2\n1 1\n1 1\n\n1 1 0 1 INV\n");
///
/// assert_eq!(to_old(b"1 2\n1 1\n1 1\n1 1 0 1 EQW\n", tables), Err(Refusal::OldForm));
/// # Ok::<(), Refusal>(())
/// ```
pub fn to_old(text: &[u8], tables: &mut Tables) -> Result<Vec<u8>, Refusal> {
    tables.lend(|t, sizes| {
        let table = sizes.masked_wires();
        let length = to_old_lent(
            text,
            front(&mut t.text, sizes.text()),
            front(&mut t.operands, table),
            front(&mut t.results, table),
            front(&mut t.marks, table),
            sizes,
        )?;
        Ok(t.text[..length].to_vec())
    })
}
