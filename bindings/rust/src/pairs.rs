//! Check with pairs: values that follow each other in a register.

#![allow(clippy::too_many_arguments)]

use crate::lent::answer;
use crate::tables::front;
use crate::{Leak, Refusal, Sizes, Tables};

extern "C" {
    fn fidrovelj_check_pairs(
        text: *const u8,
        text_len: usize,
        codes: *const u8,
        codes_len: usize,
        pairs: *const u32,
        pairs_len: usize,
        leak: *mut u64,
        leak_len: usize,
        bad: *mut u64,
        bad_len: usize,
        operands: *mut u64,
        operands_len: usize,
        results: *mut u64,
        results_len: usize,
        marks: *mut u8,
        marks_len: usize,
        words: *mut u64,
        words_len: usize,
        base: *mut u64,
        base_len: usize,
        bases: *mut u64,
        bases_len: usize,
        sizes: u8,
    ) -> i64;
}

/// Whether a netlist leaks, and whether a listed pair of its wires does: 1 for a leak, whose four
/// numbers go to `leak`, and 2 more for a bad pair; how many pairs stand before it goes to `bad`. A
/// list too short for its numbers is refused by 14. Question 1 asks [`Sizes::masked_wires`] entries of each
/// table.
///
/// ```
/// # use fidrovelj::{check_pairs_lent, Refusal, Sizes};
/// # let sizes = Sizes::Standard;
/// let table = || vec![0u64; sizes.masked_wires()];
/// let (mut operands, mut results, mut words, mut base, mut bases) = (table(), table(), table(), table(), table());
/// let (mut marks, mut leak, mut bad) = (vec![0; sizes.masked_wires()], [0; 4], [0; 1]);
/// let answer = check_pairs_lent(
///     b"0 3\n2 1 2\n1 1\n", &[1], &[0, 2, 0, 1], &mut leak, &mut bad, &mut operands, &mut results, &mut marks,
///     &mut words, &mut base, &mut bases, sizes,
/// )?;
/// assert_eq!((answer, bad), (2, [1]));
/// # Ok::<(), Refusal>(())
/// ```
pub fn check_pairs_lent(
    text: &[u8],
    codes: &[u8],
    pairs: &[u32],
    leak: &mut [u64],
    bad: &mut [u64],
    operands: &mut [u64],
    results: &mut [u64],
    marks: &mut [u8],
    words: &mut [u64],
    base: &mut [u64],
    bases: &mut [u64],
    sizes: Sizes,
) -> Result<usize, Refusal> {
    // SAFETY: each pointer and length is that of a slice, and slices that are `&mut` overlap no other.
    answer(unsafe {
        fidrovelj_check_pairs(
            text.as_ptr(),
            text.len(),
            codes.as_ptr(),
            codes.len(),
            pairs.as_ptr(),
            pairs.len(),
            leak.as_mut_ptr(),
            leak.len(),
            bad.as_mut_ptr(),
            bad.len(),
            operands.as_mut_ptr(),
            operands.len(),
            results.as_mut_ptr(),
            results.len(),
            marks.as_mut_ptr(),
            marks.len(),
            words.as_mut_ptr(),
            words.len(),
            base.as_mut_ptr(),
            base.len(),
            bases.as_mut_ptr(),
            bases.len(),
            sizes as u8,
        )
    })
}

/// Both answers of [`check_pairs`].
///
/// ```
/// # use fidrovelj::{check_pairs, Pairs, Refusal, Tables};
/// let found = check_pairs(b"0 3\n2 1 2\n1 1\n", &[1], &[0, 1], &mut Tables::new())?;
/// assert_eq!(found, Pairs { leak: None, bad: Some(0) });
/// # Ok::<(), Refusal>(())
/// ```
#[derive(Clone, Copy, Debug, PartialEq, Eq)]
pub struct Pairs {
    /// The leak on one wire, if there is one: what [`check`](crate::check) says.
    pub leak: Option<Leak>,
    /// How many pairs stand before the first bad one, if there is one.
    pub bad: Option<usize>,
}

/// What [`check`](crate::check) says of a netlist, and besides whether pairs of its wires leak
/// together, as a register shows them that holds one value after the other. Pair j is entries 2j and
/// 2j + 1 of `pairs`. It is clean where each of the four values that two wires can have is shown by
/// equally many mask settings for all input settings that agree in their public bits. Only the listed
/// pairs are judged.
///
/// A list of odd length, or with a number that is no wire, is refused by 21.
///
/// ```
/// # use fidrovelj::{check_pairs, Refusal, Tables};
/// let tables = &mut Tables::new();
/// // A bit under mask m0; wires 1 and 2 are the mask bits.
/// let text = b"0 3\n2 1 2\n1 1\n\n";
/// // No wire leaks, but the bit and then its mask in one register do.
/// let both = check_pairs(text, &[1], &[0, 2, 0, 1], tables)?;
/// assert_eq!((both.leak, both.bad), (None, Some(1)));
///
/// assert_eq!(check_pairs(text, &[1], &[0, 3], tables), Err(Refusal::Pairs));
/// # Ok::<(), Refusal>(())
/// ```
pub fn check_pairs(text: &[u8], codes: &[u8], pairs: &[u32], tables: &mut Tables) -> Result<Pairs, Refusal> {
    let (mut leak, mut bad) = ([0; 4], [0; 1]);
    let answer = tables.lend(|t, sizes| {
        let table = sizes.masked_wires();
        check_pairs_lent(
            text,
            codes,
            pairs,
            &mut leak,
            &mut bad,
            front(&mut t.operands, table),
            front(&mut t.results, table),
            front(&mut t.marks, table),
            front(&mut t.words, table),
            front(&mut t.base, table),
            front(&mut t.bases, table),
            sizes,
        )
    })?;
    let [wire, setting, base, own] = leak;
    Ok(Pairs {
        leak: (answer & 1 != 0).then_some(Leak { wire, setting, base, own }),
        bad: (answer & 2 != 0).then_some(bad[0] as usize),
    })
}
