//! The twins of the source wires.

use crate::lent::answer;
use crate::tables::front;
use crate::{Refusal, Sizes, Tables};

extern "C" {
    fn fidrovelj_twins(
        text: *const u8,
        text_len: usize,
        codes: *const u8,
        codes_len: usize,
        out_wires: *mut u32,
        out_wires_len: usize,
        out_codes: *mut u8,
        out_codes_len: usize,
        operands: *mut u64,
        operands_len: usize,
        results: *mut u64,
        results_len: usize,
        marks: *mut u8,
        marks_len: usize,
        sizes: u8,
    ) -> i64;
}

/// Writes the masked wire of each source wire to `out_wires` and its code to `out_codes`: how many source
/// wires there are. Question 1 asks [`Sizes::source_wires`] entries of each table.
///
/// ```
/// # use fidrovelj::{twins_lent, Refusal, Sizes};
/// # let sizes = Sizes::Standard;
/// let (mut operands, mut results) = (vec![0; sizes.source_wires()], vec![0; sizes.source_wires()]);
/// let (mut marks, mut wires, mut codes) = (vec![0; sizes.source_wires()], [0; 2], [0; 2]);
/// let inverter = b"1 2\n1 1\n1 1\n1 1 0 1 INV\n";
/// twins_lent(inverter, &[3], &mut wires, &mut codes, &mut operands, &mut results, &mut marks, sizes)?;
/// assert_eq!((wires, codes), ([0, 6], [3, 3]));
/// # Ok::<(), Refusal>(())
/// ```
#[allow(clippy::too_many_arguments)]
pub fn twins_lent(
    text: &[u8],
    codes: &[u8],
    out_wires: &mut [u32],
    out_codes: &mut [u8],
    operands: &mut [u64],
    results: &mut [u64],
    marks: &mut [u8],
    sizes: Sizes,
) -> Result<usize, Refusal> {
    // SAFETY: each pointer and length is that of a slice, and slices that are `&mut` overlap no other.
    answer(unsafe {
        fidrovelj_twins(
            text.as_ptr(),
            text.len(),
            codes.as_ptr(),
            codes.len(),
            out_wires.as_mut_ptr(),
            out_wires.len(),
            out_codes.as_mut_ptr(),
            out_codes.len(),
            operands.as_mut_ptr(),
            operands.len(),
            results.as_mut_ptr(),
            results.len(),
            marks.as_mut_ptr(),
            marks.len(),
            sizes as u8,
        )
    })
}

/// Where a source wire stands in the masked netlist: for all inputs and all four mask settings `wire` is
/// the source wire's bit XOR the mask of `code`.
///
/// ```
/// use fidrovelj::Twin;
///
/// assert_eq!(format!("{:?}", Twin { wire: 7, code: 1 }), "Twin { wire: 7, code: 1 }");
/// ```
#[derive(Clone, Copy, Debug, PartialEq, Eq, Hash)]
pub struct Twin {
    /// The masked netlist's wire.
    pub wire: u32,
    /// The code of its mask, 1 to 3.
    pub code: u8,
}

/// The twin of each source wire in the netlist that [`mask`](crate::mask) gives for the same text and
/// codes, whatever codes are wanted. Mask's limits hold.
///
/// ```
/// # use fidrovelj::{mask, twins, Refusal, Tables, Twin};
/// let tables = &mut Tables::new();
/// // The NOT of an AND. The first input is public: its twin is the wire of its gate, with code 1.
/// let source = b"2 4\n2 1 1\n1 1\n\n2 1 0 1 2 AND\n1 1 2 3 INV\n";
/// let twin = |wire, code| Twin { wire, code };
/// assert_eq!(twins(source, &[0, 2], tables)?, [twin(7, 1), twin(1, 2), twin(14, 1), twin(15, 1)]);
///
/// assert_eq!(twins(source, &[0, 4], tables), Err(Refusal::Inputs));
/// # Ok::<(), Refusal>(())
/// ```
pub fn twins(text: &[u8], codes: &[u8], tables: &mut Tables) -> Result<Vec<Twin>, Refusal> {
    tables.lend(|t, sizes| {
        let table = sizes.source_wires();
        let count = twins_lent(
            text,
            codes,
            front(&mut t.wires, table),
            front(&mut t.bits, table),
            front(&mut t.operands, table),
            front(&mut t.results, table),
            front(&mut t.marks, table),
            sizes,
        )?;
        Ok(t.wires[..count].iter().zip(&t.bits).map(|(&wire, &code)| Twin { wire, code }).collect())
    })
}
