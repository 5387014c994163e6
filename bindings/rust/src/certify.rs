//! Certifying netlists of any number of inputs.

use crate::lent::answer;
use crate::tables::front;
use crate::{Refusal, Sizes, Tables};

extern "C" {
    fn fidrovelj_certify(
        text: *const u8,
        text_len: usize,
        codes: *const u8,
        codes_len: usize,
        leak: *mut u64,
        leak_len: usize,
        ones: *mut u64,
        ones_len: usize,
        operands: *mut u64,
        operands_len: usize,
        results: *mut u64,
        results_len: usize,
        marks: *mut u8,
        marks_len: usize,
        words: *mut u64,
        words_len: usize,
        base: *mut u64,
        base_len: usize,
        records: *mut u64,
        records_len: usize,
        sizes: u8,
    ) -> i64;
}

/// Says of a netlist of any number of inputs whether it is clean: 0 where it is, 1 for a leak, and 2 where
/// neither could be shown. A leak's four numbers go to `leak`: its wire, how many input bits are one in its
/// setting, the base's count and its own; those input bits go to `ones`, rising. Of an answer 2 the lowest wire
/// that is not known to be clean goes to the first entry of `leak`. A list too short for its numbers is refused
/// by 14. Question 1 asks [`Sizes::records`] entries of `records` and [`Sizes::masked_wires`] of each other table.
///
/// ```
/// # use fidrovelj::{certify_lent, Refusal, Sizes};
/// # let sizes = Sizes::Standard;
/// let table = || vec![0; sizes.masked_wires()];
/// let (mut operands, mut results, mut words, mut base) = (table(), table(), table(), table());
/// let (mut marks, mut records) = (vec![0; sizes.masked_wires()], vec![0; sizes.records()]);
/// let (mut leak, mut ones) = ([0; 4], [0; 1]);
/// let open = b"1 4\n2 1 2\n1 1\n2 1 0 1 3 XOR\n";
/// let answer = certify_lent(
///     open, &[1], &mut leak, &mut ones, &mut operands, &mut results, &mut marks, &mut words, &mut base, &mut records,
///     sizes,
/// )?;
/// assert_eq!((answer, leak, ones), (1, [3, 1, 0, 4], [0]));
/// # Ok::<(), Refusal>(())
/// ```
#[allow(clippy::too_many_arguments)]
pub fn certify_lent(
    text: &[u8],
    codes: &[u8],
    leak: &mut [u64],
    ones: &mut [u64],
    operands: &mut [u64],
    results: &mut [u64],
    marks: &mut [u8],
    words: &mut [u64],
    base: &mut [u64],
    records: &mut [u64],
    sizes: Sizes,
) -> Result<usize, Refusal> {
    // SAFETY: each pointer and length is that of a slice, and slices that are `&mut` overlap no other.
    answer(unsafe {
        fidrovelj_certify(
            text.as_ptr(),
            text.len(),
            codes.as_ptr(),
            codes.len(),
            leak.as_mut_ptr(),
            leak.len(),
            ones.as_mut_ptr(),
            ones.len(),
            operands.as_mut_ptr(),
            operands.len(),
            results.as_mut_ptr(),
            results.len(),
            marks.as_mut_ptr(),
            marks.len(),
            words.as_mut_ptr(),
            words.len(),
            base.as_mut_ptr(),
            base.len(),
            records.as_mut_ptr(),
            records.len(),
            sizes as u8,
        )
    })
}

/// What [`certify`] says of a netlist.
///
/// ```
/// use fidrovelj::{certify, Certified, Tables};
///
/// let open = b"1 4\n2 1 2\n1 1\n2 1 0 1 3 XOR\n";
/// match certify(open, &[1], &mut Tables::new())? {
///     Certified::Leak { wire, .. } => assert_eq!(wire, 3),
///     other => panic!("{other:?}"),
/// }
/// # Ok::<(), fidrovelj::Refusal>(())
/// ```
#[derive(Clone, Debug, PartialEq, Eq, Hash)]
pub enum Certified {
    /// Each wire's count of ones over the four mask settings is the same for all input settings that agree
    /// in their public bits.
    Clean,
    /// A wire leaks. It need not be the lowest that does, nor the setting the smallest.
    Leak {
        /// The wire's number.
        wire: u64,
        /// The input bits that are one in the setting that shows it, rising.
        ones: Vec<u64>,
        /// The wire's count for the setting with the same public bits and zero secrets.
        base: u64,
        /// The wire's count for the setting itself.
        own: u64,
    },
    /// Neither was shown.
    Unknown {
        /// The lowest wire that is not known to be clean.
        wire: u64,
    },
}

/// Whether a netlist of any number of inputs is clean, for a mask code, 0 to 3, for each input bit besides the
/// two mask bits; 0 is a public bit. [`check`](crate::check) decides this for up to twelve bits, and names the
/// lowest wire and the smallest setting; here whole ciphers are certified, and a netlist may come out unknown. What
/// [`mask`](crate::mask) writes is certified clean.
///
/// ```
/// # use fidrovelj::{certify, mask, Certified, Refusal, Tables};
/// let tables = &mut Tables::new();
/// // The AND of sixty-four bits, masked: far beyond twelve bits.
/// let gates: Vec<String> = (0..63).map(|i| {
///     let first = if i == 0 { 0 } else { 63 + i };
///     format!("2 1 {first} {} {} AND\n", i + 1, 64 + i)
/// }).collect();
/// let source = format!("63 127\n1 64\n1 1\n\n{}", gates.concat());
/// let masked = mask(source.as_bytes(), &[1; 64], &[0], tables)?;
/// assert_eq!(certify(&masked.text, &[1; 64], tables)?, Certified::Clean);
///
/// // A wire that takes the mask off a bit leaks.
/// let open = b"1 4\n2 1 2\n1 1\n\n2 1 0 1 3 XOR\n";
/// let leak = Certified::Leak { wire: 3, ones: vec![0], base: 0, own: 4 };
/// assert_eq!(certify(open, &[1], tables)?, leak);
/// # Ok::<(), Refusal>(())
/// ```
pub fn certify(text: &[u8], codes: &[u8], tables: &mut Tables) -> Result<Certified, Refusal> {
    let mut leak = [0; 4];
    let mut ones = vec![0; codes.len()];
    let answer = tables.lend(|t, sizes| {
        let table = sizes.masked_wires();
        certify_lent(
            text,
            codes,
            &mut leak,
            &mut ones,
            front(&mut t.operands, table),
            front(&mut t.results, table),
            front(&mut t.marks, table),
            front(&mut t.words, table),
            front(&mut t.base, table),
            front(&mut t.records, sizes.records()),
            sizes,
        )
    })?;
    let [wire, count, base, own] = leak;
    Ok(match answer {
        0 => Certified::Clean,
        1 => {
            ones.truncate(count as usize);
            Certified::Leak { wire, ones, base, own }
        }
        _ => Certified::Unknown { wire },
    })
}
