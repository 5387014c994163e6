//! The library's calls with every working table and result buffer lent by the caller.
//!
//! Each call takes the standard limits or those for whole ciphers ([`Sizes`]). Question 1 asks at least
//! [`Sizes::source_wires`] entries of each working table of [`mask`] and [`Sizes::masked_wires`] of those of the
//! others; longer ones are fine, and take longer to clear. What a table holds does not matter; it is
//! zero along its whole length on return from every call, a refused one too.
//!
//! A refused call leaves each result buffer as it was. An accepted one writes its result to the
//! buffer's front and leaves what lies beyond it as it was.

#![allow(clippy::too_many_arguments)]

use crate::{Refusal, Sizes};

extern "C" {
    fn fidrovelj_rewrite(
        text: *const u8,
        text_len: usize,
        out: *mut u8,
        out_len: usize,
        operands: *mut u64,
        operands_len: usize,
        results: *mut u64,
        results_len: usize,
        marks: *mut u8,
        marks_len: usize,
        sizes: u8,
    ) -> i64;

    fn fidrovelj_run(
        text: *const u8,
        text_len: usize,
        list: *const u8,
        list_len: usize,
        out: *mut u8,
        out_len: usize,
        operands: *mut u64,
        operands_len: usize,
        results: *mut u64,
        results_len: usize,
        marks: *mut u8,
        marks_len: usize,
        words: *mut u64,
        words_len: usize,
        sizes: u8,
    ) -> i64;

    fn fidrovelj_run64(
        text: *const u8,
        text_len: usize,
        list: *const u64,
        list_len: usize,
        out: *mut u64,
        out_len: usize,
        operands: *mut u64,
        operands_len: usize,
        results: *mut u64,
        results_len: usize,
        marks: *mut u8,
        marks_len: usize,
        words: *mut u64,
        words_len: usize,
        sizes: u8,
    ) -> i64;

    fn fidrovelj_mask(
        text: *const u8,
        text_len: usize,
        codes: *const u8,
        codes_len: usize,
        wanted: *const u8,
        wanted_len: usize,
        out: *mut u8,
        out_len: usize,
        out_codes: *mut u8,
        out_codes_len: usize,
        operands: *mut u64,
        operands_len: usize,
        results: *mut u64,
        results_len: usize,
        wires: *mut u32,
        wires_len: usize,
        marks: *mut u8,
        marks_len: usize,
        sizes: u8,
    ) -> i64;

    fn fidrovelj_check(
        text: *const u8,
        text_len: usize,
        codes: *const u8,
        codes_len: usize,
        leak: *mut u64,
        leak_len: usize,
        operands: *mut u64,
        operands_len: usize,
        results: *mut u64,
        results_len: usize,
        marks: *mut u8,
        marks_len: usize,
        words: *mut u64,
        words_len: usize,
        base: *mut u64,
        base_len: usize,
        sizes: u8,
    ) -> i64;
}

/// An answer of the library: a result, or less than 0 by the refusing question's number.
pub(crate) fn answer(answer: i64) -> Result<usize, Refusal> {
    match usize::try_from(answer) {
        Ok(result) => Ok(result),
        Err(_) => {
            Err(u8::try_from(-answer).ok().and_then(Refusal::from_number).expect("a refusal has a number"))
        }
    }
}

/// Writes the written form of a netlist to `out`: its length.
///
/// ```
/// use fidrovelj::{lent, Refusal, Sizes};
///
/// let sizes = Sizes::Standard;
/// let (mut operands, mut results) = (vec![0; sizes.masked_wires()], vec![0; sizes.masked_wires()]);
/// let (mut marks, mut out) = (vec![0; sizes.masked_wires()], [0; 100]);
/// let length = lent::rewrite(b"0 1\n1 1\n1 1", &mut out, &mut operands, &mut results, &mut marks, sizes)?;
/// assert_eq!(&out[..length], b"0 1\n1 1\n1 1\n\n");
/// # Ok::<(), Refusal>(())
/// ```
pub fn rewrite(
    text: &[u8],
    out: &mut [u8],
    operands: &mut [u64],
    results: &mut [u64],
    marks: &mut [u8],
    sizes: Sizes,
) -> Result<usize, Refusal> {
    // SAFETY: each pointer and length is that of a slice, and slices that are `&mut` overlap no other.
    answer(unsafe {
        fidrovelj_rewrite(
            text.as_ptr(),
            text.len(),
            out.as_mut_ptr(),
            out.len(),
            operands.as_mut_ptr(),
            operands.len(),
            results.as_mut_ptr(),
            results.len(),
            marks.as_mut_ptr(),
            marks.len(),
            sizes as u8,
        )
    })
}

/// Writes the output bits of a netlist on the input bits `list` to `out`, one entry a bit: how many.
///
/// ```
/// # use fidrovelj::{lent, Refusal, Sizes};
/// # let sizes = Sizes::Standard;
/// let table = || vec![0; sizes.masked_wires()];
/// let (mut operands, mut results, mut words) = (table(), table(), table());
/// let (mut marks, mut out) = (vec![0; sizes.masked_wires()], [0; 1]);
/// let inverter = b"1 2\n1 1\n1 1\n1 1 0 1 INV\n";
/// lent::run(inverter, &[0], &mut out, &mut operands, &mut results, &mut marks, &mut words, sizes)?;
/// assert_eq!(out, [1]);
/// # Ok::<(), Refusal>(())
/// ```
pub fn run(
    text: &[u8],
    list: &[u8],
    out: &mut [u8],
    operands: &mut [u64],
    results: &mut [u64],
    marks: &mut [u8],
    words: &mut [u64],
    sizes: Sizes,
) -> Result<usize, Refusal> {
    // SAFETY: as in `rewrite`.
    answer(unsafe {
        fidrovelj_run(
            text.as_ptr(),
            text.len(),
            list.as_ptr(),
            list.len(),
            out.as_mut_ptr(),
            out.len(),
            operands.as_mut_ptr(),
            operands.len(),
            results.as_mut_ptr(),
            results.len(),
            marks.as_mut_ptr(),
            marks.len(),
            words.as_mut_ptr(),
            words.len(),
            sizes as u8,
        )
    })
}

/// Writes the output words of a netlist on the input words `list` to `out`, one entry a bit: how many.
/// Bit j of each word belongs to setting j.
///
/// ```
/// # use fidrovelj::{lent, Refusal, Sizes};
/// # let sizes = Sizes::Standard;
/// let table = || vec![0; sizes.masked_wires()];
/// let (mut operands, mut results, mut words) = (table(), table(), table());
/// let (mut marks, mut out) = (vec![0; sizes.masked_wires()], [0; 1]);
/// let inverter = b"1 2\n1 1\n1 1\n1 1 0 1 INV\n";
/// lent::run64(inverter, &[5], &mut out, &mut operands, &mut results, &mut marks, &mut words, sizes)?;
/// assert_eq!(out, [!5]);
/// # Ok::<(), Refusal>(())
/// ```
pub fn run64(
    text: &[u8],
    list: &[u64],
    out: &mut [u64],
    operands: &mut [u64],
    results: &mut [u64],
    marks: &mut [u8],
    words: &mut [u64],
    sizes: Sizes,
) -> Result<usize, Refusal> {
    // SAFETY: as in `rewrite`.
    answer(unsafe {
        fidrovelj_run64(
            text.as_ptr(),
            text.len(),
            list.as_ptr(),
            list.len(),
            out.as_mut_ptr(),
            out.len(),
            operands.as_mut_ptr(),
            operands.len(),
            results.as_mut_ptr(),
            results.len(),
            marks.as_mut_ptr(),
            marks.len(),
            words.as_mut_ptr(),
            words.len(),
            sizes as u8,
        )
    })
}

/// Writes the masked netlist's text to `out` and the code of each output bit to `out_codes`: the
/// text's length. There are as many codes as `wanted` has entries.
///
/// ```
/// # use fidrovelj::{lent, Refusal, Sizes};
/// # let sizes = Sizes::Standard;
/// let table = || vec![0; sizes.source_wires()];
/// let (mut operands, mut results, mut wires) = (table(), table(), vec![0; sizes.source_wires()]);
/// let (mut marks, mut out, mut codes) = (vec![0; sizes.source_wires()], vec![0; sizes.text()], [0; 1]);
/// let copy = b"1 2\n1 1\n1 1\n1 1 0 1 EQW\n";
/// lent::mask(
///     copy, &[3], &[0], &mut out, &mut codes, &mut operands, &mut results, &mut wires, &mut marks, sizes,
/// )?;
/// assert_eq!(codes, [3]);
/// # Ok::<(), Refusal>(())
/// ```
pub fn mask(
    text: &[u8],
    codes: &[u8],
    wanted: &[u8],
    out: &mut [u8],
    out_codes: &mut [u8],
    operands: &mut [u64],
    results: &mut [u64],
    wires: &mut [u32],
    marks: &mut [u8],
    sizes: Sizes,
) -> Result<usize, Refusal> {
    // SAFETY: as in `rewrite`.
    answer(unsafe {
        fidrovelj_mask(
            text.as_ptr(),
            text.len(),
            codes.as_ptr(),
            codes.len(),
            wanted.as_ptr(),
            wanted.len(),
            out.as_mut_ptr(),
            out.len(),
            out_codes.as_mut_ptr(),
            out_codes.len(),
            operands.as_mut_ptr(),
            operands.len(),
            results.as_mut_ptr(),
            results.len(),
            wires.as_mut_ptr(),
            wires.len(),
            marks.as_mut_ptr(),
            marks.len(),
            sizes as u8,
        )
    })
}

/// Whether a netlist leaks. If so, `leak` gets the wire, the setting, the count of the setting that
/// this is compared with, and its own; if not, it stays as it was.
///
/// ```
/// # use fidrovelj::{lent, Refusal, Sizes};
/// # let sizes = Sizes::Standard;
/// let table = || vec![0; sizes.masked_wires()];
/// let (mut operands, mut results, mut words, mut base) = (table(), table(), table(), table());
/// let (mut marks, mut leak) = (vec![0; sizes.masked_wires()], [0; 4]);
/// let open = b"1 4\n2 1 2\n1 1\n2 1 0 1 3 XOR\n";
/// let leaks = lent::check(
///     open, &[1], &mut leak, &mut operands, &mut results, &mut marks, &mut words, &mut base, sizes,
/// )?;
/// assert!(leaks && leak == [3, 1, 0, 4]);
/// # Ok::<(), Refusal>(())
/// ```
pub fn check(
    text: &[u8],
    codes: &[u8],
    leak: &mut [u64; 4],
    operands: &mut [u64],
    results: &mut [u64],
    marks: &mut [u8],
    words: &mut [u64],
    base: &mut [u64],
    sizes: Sizes,
) -> Result<bool, Refusal> {
    // SAFETY: as in `rewrite`.
    let leaks = answer(unsafe {
        fidrovelj_check(
            text.as_ptr(),
            text.len(),
            codes.as_ptr(),
            codes.len(),
            leak.as_mut_ptr(),
            leak.len(),
            operands.as_mut_ptr(),
            operands.len(),
            results.as_mut_ptr(),
            results.len(),
            marks.as_mut_ptr(),
            marks.len(),
            words.as_mut_ptr(),
            words.len(),
            base.as_mut_ptr(),
            base.len(),
            sizes as u8,
        )
    })?;
    Ok(leaks != 0)
}
