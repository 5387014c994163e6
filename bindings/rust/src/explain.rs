//! What a leak is made of.

use crate::lent::answer;
use crate::tables::front;
use crate::{Leak, Refusal, Tables};

extern "C" {
    fn fidrovelj_explain_wires(
        text: *const u8,
        text_len: usize,
        codes: *const u8,
        codes_len: usize,
        out: *mut u8,
        out_len: usize,
        operands: *mut u64,
        operands_len: usize,
        results: *mut u64,
        results_len: usize,
        marks: *mut u8,
        marks_len: usize,
        words: *mut u64,
        words_len: usize,
        base: *mut u64,
        base_len: usize,
        sizes: u8,
    ) -> i64;

    fn fidrovelj_polynomial(
        text: *const u8,
        text_len: usize,
        codes: *const u8,
        codes_len: usize,
        wire: usize,
        out: *mut u8,
        out_len: usize,
        operands: *mut u64,
        operands_len: usize,
        results: *mut u64,
        results_len: usize,
        marks: *mut u8,
        marks_len: usize,
        words: *mut u64,
        words_len: usize,
        sizes: u8,
    ) -> i64;

    fn fidrovelj_counts(
        text: *const u8,
        text_len: usize,
        codes: *const u8,
        codes_len: usize,
        wire: usize,
        out: *mut u64,
        out_len: usize,
        operands: *mut u64,
        operands_len: usize,
        results: *mut u64,
        results_len: usize,
        bits: *mut u8,
        bits_len: usize,
        words: *mut u64,
        words_len: usize,
        bases: *mut u8,
        bases_len: usize,
        sizes: u8,
    ) -> i64;
}

/// What [`explain_wires`] says of a wire.
///
/// ```
/// # use fidrovelj::{explain_wires, Refusal, Tables, Verdict};
/// let open = b"1 4\n2 1 2\n1 1\n\n2 1 0 1 3 XOR\n";
/// assert_eq!(explain_wires(open, &[1], &mut Tables::new())?[3], Verdict::Cause);
/// # Ok::<(), Refusal>(())
/// ```
#[derive(Clone, Copy, Debug, PartialEq, Eq, Hash)]
pub enum Verdict {
    /// It has equal counts.
    Clean,
    /// It leaks, and so does an operand of its gate.
    Leaks,
    /// It leaks, and no operand of its gate does.
    Cause,
}

/// A verdict on each wire of a netlist, for codes as [`check`](crate::check) takes them.
///
/// ```
/// # use fidrovelj::{explain_wires, Refusal, Tables, Verdict};
/// let open = b"2 5\n2 1 2\n1 1\n\n2 1 0 1 3 XOR\n1 1 3 4 INV\n";
/// let verdicts = explain_wires(open, &[1], &mut Tables::new())?;
/// assert_eq!(verdicts[2..], [Verdict::Clean, Verdict::Cause, Verdict::Leaks]);
/// # Ok::<(), Refusal>(())
/// ```
pub fn explain_wires(text: &[u8], codes: &[u8], tables: &mut Tables) -> Result<Vec<Verdict>, Refusal> {
    tables.lend(|t, sizes| {
        let table = sizes.masked_wires();
        let out = front(&mut t.bits, table);
        let (operands, results) = (front(&mut t.operands, table), front(&mut t.results, table));
        let (marks, words, base) =
            (front(&mut t.marks, table), front(&mut t.words, table), front(&mut t.base, table));
        // SAFETY: each pointer and length is that of a slice, and slices that are `&mut` overlap no other.
        let count = answer(unsafe {
            fidrovelj_explain_wires(
                text.as_ptr(),
                text.len(),
                codes.as_ptr(),
                codes.len(),
                out.as_mut_ptr(),
                out.len(),
                operands.as_mut_ptr(),
                operands.len(),
                results.as_mut_ptr(),
                results.len(),
                marks.as_mut_ptr(),
                marks.len(),
                words.as_mut_ptr(),
                words.len(),
                base.as_mut_ptr(),
                base.len(),
                sizes as u8,
            )
        })?;
        let verdict = |&number: &u8| match number {
            0 => Verdict::Clean,
            1 => Verdict::Leaks,
            _ => Verdict::Cause,
        };
        Ok(t.bits[..count].iter().map(verdict).collect())
    })
}

/// A wire as a sum of products of the mask bits and the input bits, each of which comes in XOR its mask: the products,
/// as numbers. Bits 0 and 1 of a product stand for m0 and m1, bit i + 2 for input bit i; 0 is the constant 1.
///
/// A wire that is not there is refused by 21, after the questions of [`check`](crate::check).
///
/// ```
/// # use fidrovelj::{polynomial, Refusal, Tables};
/// // m0 AND the hidden bit x0 + m0: m0 x0 + m0.
/// let both = b"1 4\n2 1 2\n1 1\n\n2 1 0 1 3 AND\n";
/// assert_eq!(polynomial(both, &[1], 3, &mut Tables::new())?, [0b001, 0b101]);
/// # Ok::<(), Refusal>(())
/// ```
pub fn polynomial(
    text: &[u8],
    codes: &[u8],
    wire: usize,
    tables: &mut Tables,
) -> Result<Vec<usize>, Refusal> {
    tables.lend(|t, sizes| {
        let table = sizes.masked_wires();
        // At most twelve input bits and the two mask bits: the buffer for texts has room for all products.
        let out = front(&mut t.text, sizes.text());
        let (operands, results) = (front(&mut t.operands, table), front(&mut t.results, table));
        let (marks, words) = (front(&mut t.marks, table), front(&mut t.words, table));
        // SAFETY: as in `explain_wires`.
        let count = answer(unsafe {
            fidrovelj_polynomial(
                text.as_ptr(),
                text.len(),
                codes.as_ptr(),
                codes.len(),
                wire,
                out.as_mut_ptr(),
                out.len(),
                operands.as_mut_ptr(),
                operands.len(),
                results.as_mut_ptr(),
                results.len(),
                marks.as_mut_ptr(),
                marks.len(),
                words.as_mut_ptr(),
                words.len(),
                sizes as u8,
            )
        })?;
        Ok((0..count).filter(|&product| t.text[product] == 1).collect())
    })
}

/// What [`counts`] gives.
///
/// ```
/// # use fidrovelj::{counts, Counts, Refusal, Tables};
/// let kept = b"1 4\n2 1 2\n1 1\n\n2 1 0 2 3 XOR\n";
/// let found = counts(kept, &[1], 3, &mut Tables::new())?;
/// assert_eq!(found, Counts { settings: [0, 0, 2, 0, 0], witness: None });
/// # Ok::<(), Refusal>(())
/// ```
#[derive(Clone, Copy, Debug, PartialEq, Eq, Hash)]
pub struct Counts {
    /// How many settings make the wire one under 0, 1, 2, 3 and 4 of the four mask settings.
    pub settings: [u64; 5],
    /// Where the wire leaks: a setting that shows it, of those with the fewest ones the smallest.
    pub witness: Option<Leak>,
}

/// How many settings have each count on a wire, and where it leaks a setting with the fewest ones that shows it.
///
/// A wire that is not there is refused by 21, after the questions of [`check`](crate::check).
///
/// ```
/// # use fidrovelj::{counts, Leak, Refusal, Tables};
/// let open = b"1 4\n2 1 2\n1 1\n\n2 1 0 1 3 XOR\n";
/// let found = counts(open, &[1], 3, &mut Tables::new())?;
/// assert_eq!(found.settings, [1, 0, 0, 0, 1]);
/// assert_eq!(found.witness, Some(Leak { wire: 3, setting: 1, base: 0, own: 4 }));
///
/// assert_eq!(counts(open, &[1], 4, &mut Tables::new()), Err(Refusal::Pairs));
/// # Ok::<(), Refusal>(())
/// ```
pub fn counts(text: &[u8], codes: &[u8], wire: usize, tables: &mut Tables) -> Result<Counts, Refusal> {
    let mut out = [0; 8];
    let count = tables.lend(|t, sizes| {
        let table = sizes.masked_wires();
        let (operands, results) = (front(&mut t.operands, table), front(&mut t.results, table));
        let (bits, words, bases) =
            (front(&mut t.marks, table), front(&mut t.words, table), front(&mut t.bits, table));
        // SAFETY: as in `explain_wires`.
        answer(unsafe {
            fidrovelj_counts(
                text.as_ptr(),
                text.len(),
                codes.as_ptr(),
                codes.len(),
                wire,
                out.as_mut_ptr(),
                out.len(),
                operands.as_mut_ptr(),
                operands.len(),
                results.as_mut_ptr(),
                results.len(),
                bits.as_mut_ptr(),
                bits.len(),
                words.as_mut_ptr(),
                words.len(),
                bases.as_mut_ptr(),
                bases.len(),
                sizes as u8,
            )
        })
    })?;
    let [zero, one, two, three, four, setting, base, own] = out;
    let witness = (count == 8).then_some(Leak { wire: wire as u64, setting, base, own });
    Ok(Counts { settings: [zero, one, two, three, four], witness })
}
