//! Equations in Verilog.

use crate::lent::answer;
use crate::tables::front;
use crate::{Refusal, Sizes, Tables};

extern "C" {
    fn fidrovelj_from_verilog(
        text: *const u8,
        text_len: usize,
        out: *mut u8,
        out_len: usize,
        operands: *mut u64,
        operands_len: usize,
        results: *mut u64,
        results_len: usize,
        heads: *mut u64,
        heads_len: usize,
        words: *mut u64,
        words_len: usize,
        links: *mut u64,
        links_len: usize,
        states: *mut u32,
        states_len: usize,
        wires: *mut u32,
        wires_len: usize,
        sizes: u8,
    ) -> i64;
}

/// Tables of names, which [`from_verilog_lent`] is lent: one entry of each has eight numbers, so each needs eight times
/// [`Sizes::source_wires`].
///
/// ```
/// # use fidrovelj::{NameTables, Sizes};
/// let entries = 8 * Sizes::Standard.source_wires();
/// let (mut heads, mut words, mut links) = (vec![0; entries], vec![0; entries], vec![0; entries]);
/// let (mut states, mut wires) = (vec![0; entries], vec![0; entries]);
/// let names = NameTables {
///     heads: &mut heads, words: &mut words, links: &mut links, states: &mut states, wires: &mut wires,
/// };
/// assert_eq!(names.heads.len(), 16_384);
/// ```
pub struct NameTables<'a> {
    /// The newest name of each chain.
    pub heads: &'a mut [u64],
    /// Where a name stands in the text.
    pub words: &'a mut [u64],
    /// The next older name of its chain.
    pub links: &'a mut [u64],
    /// What is known of a name.
    pub states: &'a mut [u32],
    /// The wire of a name.
    pub wires: &'a mut [u32],
}

/// Writes the netlist made of equations to `out`, in the written form: its length.
///
/// ```
/// # use fidrovelj::{from_verilog_lent, NameTables, Refusal, Sizes};
/// # let sizes = Sizes::Standard;
/// # let entries = 8 * sizes.source_wires();
/// # let (mut heads, mut words, mut links) = (vec![0; entries], vec![0; entries], vec![0; entries]);
/// # let (mut states, mut wires) = (vec![0; entries], vec![0; entries]);
/// # let names = NameTables {
/// #     heads: &mut heads, words: &mut words, links: &mut links, states: &mut states, wires: &mut wires,
/// # };
/// let (mut operands, mut results) = (vec![0; sizes.source_wires()], vec![0; sizes.source_wires()]);
/// let mut out = [0; 100];
/// let module = b"module m(y, a); input a; output y; assign y = a; endmodule";
/// let length = from_verilog_lent(module, &mut out, &mut operands, &mut results, names, sizes)?;
/// assert_eq!(&out[..length], b"1 2\n1 1\n1 1\n\n1 1 0 1 EQW\n");
/// # Ok::<(), Refusal>(())
/// ```
pub fn from_verilog_lent(
    text: &[u8],
    out: &mut [u8],
    operands: &mut [u64],
    results: &mut [u64],
    names: NameTables,
    sizes: Sizes,
) -> Result<usize, Refusal> {
    // SAFETY: each pointer and length is that of a slice, and slices that are `&mut` overlap no other.
    answer(unsafe {
        fidrovelj_from_verilog(
            text.as_ptr(),
            text.len(),
            out.as_mut_ptr(),
            out.len(),
            operands.as_mut_ptr(),
            operands.len(),
            results.as_mut_ptr(),
            results.len(),
            names.heads.as_mut_ptr(),
            names.heads.len(),
            names.words.as_mut_ptr(),
            names.words.len(),
            names.links.as_mut_ptr(),
            names.links.len(),
            names.states.as_mut_ptr(),
            names.states.len(),
            names.wires.as_mut_ptr(),
            names.wires.len(),
            sizes as u8,
        )
    })
}

/// The netlist made of a module of equations, in its written form: one input value and one output value in port order,
/// a gate for each operator, and last an EQW for each output. Mask's limits hold.
///
/// A text outside the subset is refused by 16, names not declared, assigned and read as they must be by 17, parentheses
/// deeper than 32 by 18.
///
/// ```
/// # use fidrovelj::{from_verilog, Refusal, Tables};
/// let tables = &mut Tables::new();
/// let text = from_verilog(b"module m(y, a, b); input a, b; output y; assign y = a ^ ~b; endmodule", tables)?;
/// assert_eq!(text, b"3 5\n1 2\n1 1\n\n1 1 1 2 INV\n2 1 0 2 3 XOR\n1 1 3 4 EQW\n");
///
/// let twice = b"module m(y, a); input a; output y; assign y = ~~a; endmodule";
/// assert_eq!(from_verilog(twice, tables), Err(Refusal::Grammar));
/// let itself = b"module m(y, a); input a; output y; assign y = y; endmodule";
/// assert_eq!(from_verilog(itself, tables), Err(Refusal::Names));
/// # Ok::<(), Refusal>(())
/// ```
pub fn from_verilog(text: &[u8], tables: &mut Tables) -> Result<Vec<u8>, Refusal> {
    tables.lend(|t, sizes| {
        let (table, names) = (sizes.source_wires(), 8 * sizes.source_wires());
        let names = NameTables {
            heads: front(&mut t.words, names),
            words: front(&mut t.base, names),
            links: front(&mut t.links, names),
            states: front(&mut t.states, names),
            wires: front(&mut t.name_wires, names),
        };
        let (operands, results) = (front(&mut t.operands, table), front(&mut t.results, table));
        let length =
            from_verilog_lent(text, front(&mut t.text, sizes.text()), operands, results, names, sizes)?;
        Ok(t.text[..length].to_vec())
    })
}
