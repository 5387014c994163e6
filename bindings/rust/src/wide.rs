//! Check of netlists with many inputs.

#![allow(clippy::too_many_arguments)]

use crate::lent::answer;
use crate::tables::front;
use crate::{Refusal, Sizes, Tables};

extern "C" {
    fn fidrovelj_check_wide(
        text: *const u8,
        text_len: usize,
        codes: *const u8,
        codes_len: usize,
        pairs: *const u32,
        pairs_len: usize,
        leak: *mut u64,
        leak_len: usize,
        ones: *mut u64,
        ones_len: usize,
        bad: *mut u64,
        bad_len: usize,
        operands: *mut u64,
        operands_len: usize,
        results: *mut u64,
        results_len: usize,
        marks: *mut u8,
        marks_len: usize,
        words: *mut u64,
        words_len: usize,
        base: *mut u64,
        base_len: usize,
        bases: *mut u64,
        bases_len: usize,
        set0: *mut u64,
        set0_len: usize,
        set1: *mut u64,
        set1_len: usize,
        set2: *mut u64,
        set2_len: usize,
        set3: *mut u64,
        set3_len: usize,
        paints: *mut u8,
        paints_len: usize,
        sizes: u8,
    ) -> i64;
}

/// Whether a netlist of any number of input bits leaks, and whether a listed pair of its wires does: 1 for a leak
/// and 2 more for a bad pair. A leak's wire, how many input bits are one in its setting, and both counts go to
/// `leak`, those input bits to `ones`, at most twelve; how many pairs stand before the first bad one goes to
/// `bad`. A list too short for what it is to be told is refused by 14. Question 1 asks [`Sizes::masked_wires`] entries
/// of each table.
///
/// ```
/// # use fidrovelj::{check_wide_lent, Refusal, Sizes};
/// # let sizes = Sizes::Standard;
/// let table = || vec![0u64; sizes.masked_wires()];
/// let (mut operands, mut results, mut words, mut base, mut bases) = (table(), table(), table(), table(), table());
/// let (mut set0, mut set1, mut set2, mut set3) = (table(), table(), table(), table());
/// let (mut marks, mut paints) = (vec![0; sizes.masked_wires()], vec![0; sizes.masked_wires()]);
/// let (mut leak, mut ones, mut bad) = ([0; 4], [0; 12], [0; 1]);
/// let answer = check_wide_lent(
///     b"0 3\n2 1 2\n1 1\n", &[1], &[], &mut leak, &mut ones, &mut bad, &mut operands, &mut results, &mut marks,
///     &mut words, &mut base, &mut bases, &mut set0, &mut set1, &mut set2, &mut set3, &mut paints, sizes,
/// )?;
/// assert_eq!(answer, 0);
/// # Ok::<(), Refusal>(())
/// ```
pub fn check_wide_lent(
    text: &[u8],
    codes: &[u8],
    pairs: &[u32],
    leak: &mut [u64],
    ones: &mut [u64],
    bad: &mut [u64],
    operands: &mut [u64],
    results: &mut [u64],
    marks: &mut [u8],
    words: &mut [u64],
    base: &mut [u64],
    bases: &mut [u64],
    set0: &mut [u64],
    set1: &mut [u64],
    set2: &mut [u64],
    set3: &mut [u64],
    paints: &mut [u8],
    sizes: Sizes,
) -> Result<usize, Refusal> {
    // SAFETY: each pointer and length is that of a slice, and slices that are `&mut` overlap no other.
    answer(unsafe {
        fidrovelj_check_wide(
            text.as_ptr(),
            text.len(),
            codes.as_ptr(),
            codes.len(),
            pairs.as_ptr(),
            pairs.len(),
            leak.as_mut_ptr(),
            leak.len(),
            ones.as_mut_ptr(),
            ones.len(),
            bad.as_mut_ptr(),
            bad.len(),
            operands.as_mut_ptr(),
            operands.len(),
            results.as_mut_ptr(),
            results.len(),
            marks.as_mut_ptr(),
            marks.len(),
            words.as_mut_ptr(),
            words.len(),
            base.as_mut_ptr(),
            base.len(),
            bases.as_mut_ptr(),
            bases.len(),
            set0.as_mut_ptr(),
            set0.len(),
            set1.as_mut_ptr(),
            set1.len(),
            set2.as_mut_ptr(),
            set2.len(),
            set3.as_mut_ptr(),
            set3.len(),
            paints.as_mut_ptr(),
            paints.len(),
            sizes as u8,
        )
    })
}

/// A leak in a netlist of any number of input bits: what [`Leak`](crate::Leak) says, with the setting told by the
/// input bits that are one in it.
///
/// ```
/// # use fidrovelj::{check_wide, Refusal, Tables};
/// let open = b"1 23\n2 20 2\n1 1\n2 1 17 20 22 XOR\n";
/// let leak = check_wide(open, &[1; 20], &[], &mut Tables::new())?.leak.expect("it takes a mask off");
/// assert_eq!((leak.wire, leak.ones), (22, vec![17]));
/// # Ok::<(), Refusal>(())
/// ```
#[derive(Clone, Debug, PartialEq, Eq)]
pub struct WideLeak {
    /// The lowest wire whose counts differ.
    pub wire: u64,
    /// The input bits that are one in the smallest setting whose count differs from that of the setting with the
    /// same public bits and zero secrets; rising, one to twelve of them, all of which reach the wire.
    pub ones: Vec<u64>,
    /// The wire's count for the setting that it is compared with: all zeros if no bit is public.
    pub base: u64,
    /// The wire's own count for the setting.
    pub own: u64,
}

/// Both answers of [`check_wide`].
///
/// ```
/// # use fidrovelj::{check_wide, Refusal, Tables, Wide};
/// let found = check_wide(b"0 22\n2 20 2\n1 1\n", &[1; 20], &[3, 21], &mut Tables::new())?;
/// assert_eq!(found, Wide { leak: None, bad: None });
/// # Ok::<(), Refusal>(())
/// ```
#[derive(Clone, Debug, PartialEq, Eq)]
pub struct Wide {
    /// The leak on one wire, if there is one.
    pub leak: Option<WideLeak>,
    /// How many pairs stand before the first bad one, if there is one.
    pub bad: Option<usize>,
}

/// What [`check_pairs`](crate::check_pairs) says of a netlist, of as many input bits as there may be: at most
/// twelve of them besides the mask pair, public ones included, may reach each wire and each listed pair through
/// gate lines. Otherwise the call is refused by 12, after 21. Without pairs it is what [`check`](crate::check)
/// says.
///
/// ```
/// # use fidrovelj::{check, check_wide, Refusal, Tables, WideLeak};
/// let tables = &mut Tables::new();
/// // Twenty bits under m0, then m0 and m1, which are wires 20 and 21. Wire 22 takes the mask off bit 17.
/// let text = b"2 24\n2 20 2\n1 1\n\n2 1 17 20 22 XOR\n2 1 3 21 23 XOR\n";
/// assert_eq!(check(text, &[1; 20], tables), Err(Refusal::Settings));
///
/// let found = check_wide(text, &[1; 20], &[], tables)?;
/// assert_eq!(found.leak, Some(WideLeak { wire: 22, ones: vec![17], base: 0, own: 4 }));
///
/// // Wires 3 and 23, one after the other in a register, are under m0 and under both masks; 3 and 20 show bit 3.
/// assert_eq!(check_wide(text, &[1; 20], &[3, 23, 3, 20], tables)?.bad, Some(1));
/// # Ok::<(), Refusal>(())
/// ```
pub fn check_wide(text: &[u8], codes: &[u8], pairs: &[u32], tables: &mut Tables) -> Result<Wide, Refusal> {
    let (mut leak, mut ones, mut bad) = ([0; 4], [0; 12], [0; 1]);
    let answer = tables.lend(|t, sizes| {
        let table = sizes.masked_wires();
        let [set0, set1, set2, set3] = &mut t.sets;
        check_wide_lent(
            text,
            codes,
            pairs,
            &mut leak,
            &mut ones,
            &mut bad,
            front(&mut t.operands, table),
            front(&mut t.results, table),
            front(&mut t.marks, table),
            front(&mut t.words, table),
            front(&mut t.base, table),
            front(&mut t.bases, table),
            front(set0, table),
            front(set1, table),
            front(set2, table),
            front(set3, table),
            front(&mut t.bits, table),
            sizes,
        )
    })?;
    let [wire, many, base, own] = leak;
    Ok(Wide {
        leak: (answer & 1 != 0).then(|| WideLeak { wire, ones: ones[..many as usize].to_vec(), base, own }),
        bad: (answer & 2 != 0).then_some(bad[0] as usize),
    })
}
