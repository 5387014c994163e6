//! Masked netlists under two mask bits: safe functions over the proved static library.
//!
//! A netlist is a text in Bristol Fashion, whose lines end in LF or CR LF. [`Netlist::parse`] reads one once, and has
//! the services as methods; the functions below take a text at each call. All services:
//!
//! | function | what it gives |
//! |---|---|
//! | [`mask`], [`mask_fewest`] | the masked netlist, in which every bit travels under a mask; with the fewest changes |
//! | [`twins`] | where each source wire stands in the masked netlist |
//! | [`check`], [`check_pairs`], [`check_wide`] | clean, or a leak; that and listed pairs; the same of many inputs |
//! | [`certify`] | clean, a leak or not decided, for any number of inputs |
//! | [`explain_wires`], [`polynomial`], [`counts`] | which wires leak, and the causes; a wire as a sum; its counts |
//! | [`run`], [`run64`] | the output bits; those of sixty-four settings at once |
//! | [`rewrite`], [`from_old`], [`to_old`] | the written form; from the older Bristol dialect and to it |
//! | [`from_aiger`], [`from_verilog`] | the netlist of an ASCII AIGER file; of equations |
//! | [`Session`] | a source that grows gate by gate, and shrinks again, masked at every moment |
//! | [`join`] | one netlist of two masked blocks |
//!
//! Each call puts a list of questions in order, and the first no refuses it ([`Refusal`]); [`place`] tells where in a
//! text. The services lend the
//! library its working tables and result buffers from a [`Tables`], made once and used for any number of calls; the
//! functions of [`lent`], and those whose names end in `_lent`, take each table and buffer from the caller instead, and
//! allocate nothing.
//!
//! ```
//! use fidrovelj::{Netlist, Tables};
//!
//! let tables = &mut Tables::new();
//! let source = Netlist::parse(b"1 3\n2 1 1\n1 1\n\n2 1 0 1 2 AND\n", tables)?;
//! assert_eq!(source.run(&[1, 1], tables)?, [1]);
//!
//! // Two input bits under masks m0 and m1; the output's mask may be as it falls.
//! let masked = source.mask(&[1, 2], &[0], tables)?;
//! assert_eq!(masked.codes, [1]);
//! assert!(masked.text.starts_with(b"11 15\n3 1 1 2\n1 1\n\n2 1 2 3 4 XOR\n"));
//!
//! // No wire of it tells anything about the two bits.
//! let masked = Netlist::parse(&masked.text, tables)?;
//! assert_eq!(masked.check(&[1, 2], tables)?, None);
//! # Ok::<(), fidrovelj::Refusal>(())
//! ```

use std::fmt;

mod aiger;
mod certify;
mod explain;
mod fewest;
mod join;
pub mod lent;
mod netlist;
mod old;
mod pairs;
mod place;
mod refusal;
mod session;
mod tables;
mod twins;
mod verilog;
mod wide;
mod words;

pub use aiger::{from_aiger, from_aiger_lent};
pub use certify::{certify, certify_lent, Certified};
pub use explain::{counts, explain_wires, polynomial, Counts, Verdict};
pub use fewest::{mask_fewest, mask_fewest_lent, Fewest};
pub use join::{join, join_lent};
pub use netlist::{Gates, Netlist, NetlistGate};
pub use old::{from_old, from_old_lent, to_old, to_old_lent};
pub use pairs::{check_pairs, check_pairs_lent, Pairs};
pub use place::{place, Place};
pub use refusal::Refusal;
pub use session::{
    session_add_lent, session_gate_lent, session_masked_lent, session_open_lent, session_take_off_lent,
    session_text_lent, Gate, GateRecord, Session, SessionState, SourceGate,
};
pub use tables::{Sizes, Tables};
pub use twins::{twins, twins_lent, Twin};
pub use verilog::{from_verilog, from_verilog_lent, NameTables};
pub use wide::{check_wide, check_wide_lent, Wide, WideLeak};
pub use words::{from_words, to_words};

use tables::front;

/// The examples of README.md and docs/LIBRARY.md, as documentation tests.
#[cfg(doctest)]
#[doc = include_str!("../../../README.md")]
#[doc = include_str!("../../../docs/LIBRARY.md")]
struct Pages;

/// Mask codes by name (docs/RULES.md, Mask codes and public bits).
///
/// ```
/// use fidrovelj::{codes, mask, Tables};
///
/// let and = b"1 3\n2 1 1\n1 1\n\n2 1 0 1 2 AND\n";
/// let masked = mask(and, &[codes::M0, codes::M1], &[codes::ANY], &mut Tables::new())?;
/// assert_eq!(masked.codes, [codes::M0]);
/// # Ok::<(), fidrovelj::Refusal>(())
/// ```
pub mod codes {
    /// Of an input bit: it is public, and arrives unmasked.
    pub const PUBLIC: u8 = 0;
    /// Of a wanted code: any will do.
    pub const ANY: u8 = 0;
    /// The bit travels XOR m0.
    pub const M0: u8 = 1;
    /// The bit travels XOR m1.
    pub const M1: u8 = 2;
    /// The bit travels XOR m0 and m1.
    pub const BOTH: u8 = 3;
    /// Of an input bit of [`mask_fewest`](crate::mask_fewest): its code is to be chosen.
    pub const FREE: u8 = 4;
}

/// A masked netlist.
///
/// ```
/// # use fidrovelj::{mask, Tables};
/// let masked = mask(b"1 2\n1 1\n1 1\n1 1 0 1 EQW\n", &[1], &[0], &mut Tables::new())?;
/// let printed = "Masked { text: \"5 8\\n2 1 2\\n1 1\\n\\n";
/// assert!(format!("{masked:?}").starts_with(printed));
/// # Ok::<(), fidrovelj::Refusal>(())
/// ```
#[derive(Clone, PartialEq, Eq, Hash)]
pub struct Masked {
    /// Its text, in the written form.
    pub text: Vec<u8>,
    /// The mask code of each output bit, 1 to 3.
    pub codes: Vec<u8>,
}

impl fmt::Debug for Masked {
    fn fmt(&self, f: &mut fmt::Formatter<'_>) -> fmt::Result {
        let text = String::from_utf8_lossy(&self.text);
        f.debug_struct("Masked").field("text", &text).field("codes", &self.codes).finish()
    }
}

/// A leak: the lowest wire whose count of ones over the four mask settings is not the same for all
/// input settings that agree in their public bits.
///
/// ```
/// # use fidrovelj::{check, Tables};
/// let open = b"1 4\n2 1 2\n1 1\n\n2 1 0 1 3 XOR\n";
/// let leak = check(open, &[1], &mut Tables::new())?.expect("it takes a mask off");
/// let words = "leak: wire 3 is one for 4 of the four mask settings in setting 1, and for 0 in its base";
/// assert_eq!(leak.to_string(), words);
/// # Ok::<(), fidrovelj::Refusal>(())
/// ```
#[derive(Clone, Copy, Debug, PartialEq, Eq, Hash)]
pub struct Leak {
    /// The wire's number.
    pub wire: u64,
    /// The smallest input setting whose count differs from that of the setting with the same public
    /// bits and zero secrets; input bit 0 is its lowest bit.
    pub setting: u64,
    /// The wire's count for the setting that it is compared with: setting 0 if no bit is public.
    pub base: u64,
    /// The wire's count for `setting`.
    pub own: u64,
}

impl fmt::Display for Leak {
    fn fmt(&self, f: &mut fmt::Formatter<'_>) -> fmt::Result {
        let Leak { wire, setting, base, own } = self;
        write!(f, "leak: wire {wire} is one for {own} of the four mask settings in setting {setting}, ")?;
        write!(f, "and for {base} in its base")
    }
}

/// The same netlist in its written form.
///
/// ```
/// # use fidrovelj::{rewrite, Refusal, Tables};
/// let tables = &mut Tables::new();
/// let text = rewrite(b"1 3\n\n2  1 1\n1 1\n  2 1 0 1 2 XOR", tables)?;
/// assert_eq!(text, b"1 3\n2 1 1\n1 1\n\n2 1 0 1 2 XOR\n");
///
/// assert_eq!(rewrite(b"", tables), Err(Refusal::Header));
/// # Ok::<(), Refusal>(())
/// ```
pub fn rewrite(text: &[u8], tables: &mut Tables) -> Result<Vec<u8>, Refusal> {
    tables.lend(|t, sizes| {
        let table = sizes.masked_wires();
        let length = lent::rewrite(
            text,
            front(&mut t.text, sizes.text()),
            front(&mut t.operands, table),
            front(&mut t.results, table),
            front(&mut t.marks, table),
            sizes,
        )?;
        Ok(t.text[..length].to_vec())
    })
}

/// The output bits of a netlist, for one bit, 0 or 1, for each input bit.
///
/// ```
/// # use fidrovelj::{run, Refusal, Tables};
/// let tables = &mut Tables::new();
/// let and = b"1 3\n2 1 1\n1 1\n\n2 1 0 1 2 AND\n";
/// assert_eq!(run(and, &[1, 1], tables)?, [1]);
/// assert_eq!(run(and, &[1, 0], tables)?, [0]);
///
/// assert_eq!(run(and, &[1, 2], tables), Err(Refusal::Inputs));
/// # Ok::<(), Refusal>(())
/// ```
pub fn run(text: &[u8], list: &[u8], tables: &mut Tables) -> Result<Vec<u8>, Refusal> {
    tables.lend(|t, sizes| {
        let table = sizes.masked_wires();
        let length = lent::run(
            text,
            list,
            front(&mut t.bits, table),
            front(&mut t.operands, table),
            front(&mut t.results, table),
            front(&mut t.marks, table),
            front(&mut t.words, table),
            sizes,
        )?;
        Ok(t.bits[..length].to_vec())
    })
}

/// The output words of a netlist, for a word for each input bit. Bit j of each word, bit 0 the lowest,
/// belongs to setting j: bit j of the output words is what [`run`] gives on bit j of the input words.
/// [`to_words`] and [`from_words`] turn settings into words and back.
///
/// ```
/// # use fidrovelj::{run64, Refusal, Tables};
/// let tables = &mut Tables::new();
/// let and = b"1 3\n2 1 1\n1 1\n\n2 1 0 1 2 AND\n";
/// // The four settings of two bits in the four lowest bits of two words.
/// assert_eq!(run64(and, &[0b1010, 0b1100], tables)?, [0b1000]);
///
/// // Any word will do, but there must be one for each input bit.
/// assert_eq!(run64(and, &[u64::MAX], tables), Err(Refusal::Inputs));
/// # Ok::<(), Refusal>(())
/// ```
pub fn run64(text: &[u8], list: &[u64], tables: &mut Tables) -> Result<Vec<u64>, Refusal> {
    tables.lend(|t, sizes| {
        let table = sizes.masked_wires();
        // A working table of Check alone is the result buffer.
        let length = lent::run64(
            text,
            list,
            front(&mut t.base, table),
            front(&mut t.operands, table),
            front(&mut t.results, table),
            front(&mut t.marks, table),
            front(&mut t.words, table),
            sizes,
        )?;
        Ok(t.base[..length].to_vec())
    })
}

/// The masked netlist of a source, for a mask code, 0 to 3, for each input bit and a wanted code
/// for each output bit: 1 to 3, or 0 where any code will do ([`codes`] has their names).
///
/// A bit with code 1 travels XOR m0, with code 2 XOR m1, with code 3 XOR both; an input bit with code
/// 0 is public and arrives unmasked. The masked netlist has one more input value, the two bits m0 and
/// m1.
///
/// ```
/// # use fidrovelj::{mask, Refusal, Tables};
/// let tables = &mut Tables::new();
/// let xor = b"1 3\n2 1 1\n1 1\n\n2 1 0 1 2 XOR\n";
/// let masked = mask(xor, &[1, 1], &[3], tables)?;
/// assert_eq!(masked.codes, [3]);
/// assert!(masked.text.starts_with(b"6 10\n3 1 1 2\n1 1\n"));
///
/// assert_eq!(mask(xor, &[1, 1], &[4], tables), Err(Refusal::Wanted));
/// # Ok::<(), Refusal>(())
/// ```
pub fn mask(text: &[u8], codes: &[u8], wanted: &[u8], tables: &mut Tables) -> Result<Masked, Refusal> {
    tables.lend(|t, sizes| {
        let table = sizes.source_wires();
        let length = lent::mask(
            text,
            codes,
            wanted,
            front(&mut t.text, sizes.text()),
            front(&mut t.bits, sizes.masked_wires()),
            front(&mut t.operands, table),
            front(&mut t.results, table),
            front(&mut t.wires, table),
            front(&mut t.marks, table),
            sizes,
        )?;
        Ok(Masked { text: t.text[..length].to_vec(), codes: t.bits[..wanted.len()].to_vec() })
    })
}

/// Whether a netlist whose last input value is the two mask bits is clean (`None`) or has a leak,
/// for a mask code, 0 to 3, for each other input bit; 0 is a public bit.
///
/// ```
/// # use fidrovelj::{check, Leak, Refusal, Tables};
/// let tables = &mut Tables::new();
/// let open = b"1 4\n2 1 2\n1 1\n\n2 1 0 1 3 XOR\n";
/// // Wire 3 takes mask m0 off a bit that travels under m0.
/// assert_eq!(check(open, &[1], tables)?, Some(Leak { wire: 3, setting: 1, base: 0, own: 4 }));
/// // Under m1 the bit gets a second mask.
/// assert_eq!(check(open, &[2], tables)?, None);
/// # Ok::<(), Refusal>(())
/// ```
pub fn check(text: &[u8], codes: &[u8], tables: &mut Tables) -> Result<Option<Leak>, Refusal> {
    let mut leak = [0; 4];
    let leaks = tables.lend(|t, sizes| {
        let table = sizes.masked_wires();
        lent::check(
            text,
            codes,
            &mut leak,
            front(&mut t.operands, table),
            front(&mut t.results, table),
            front(&mut t.marks, table),
            front(&mut t.words, table),
            front(&mut t.base, table),
            sizes,
        )
    })?;
    let [wire, setting, base, own] = leak;
    Ok(leaks.then_some(Leak { wire, setting, base, own }))
}
