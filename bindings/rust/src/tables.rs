//! The limits of a call, and the working tables that calls are lent.

use crate::Refusal;

/// Which limits a call takes (docs/RULES.md, Sizes).
///
/// ```
/// use fidrovelj::Sizes;
///
/// assert_eq!(Sizes::default(), Sizes::Standard);
/// assert_eq!(Sizes::Whole.source_wires(), 100_000);
/// ```
#[derive(Clone, Copy, Debug, PartialEq, Eq, Hash, Default)]
pub enum Sizes {
    /// 2,048 wires and 60,000 bytes of text of a source, 18,431 and 500,000 of a masked netlist.
    #[default]
    Standard,
    /// 100,000 wires and 3,000,000 bytes of text of a source, 899,999 and 27,000,000 of a masked netlist: whole
    /// ciphers.
    Whole,
}

impl Sizes {
    /// The most wires of a source, for Mask, Fewest changes, Twins, sessions, AIGER and equations: as many entries
    /// question 1 asks of each of their tables.
    ///
    /// ```
    /// assert_eq!(fidrovelj::Sizes::Standard.source_wires(), 2_048);
    /// ```
    pub const fn source_wires(self) -> usize {
        match self {
            Sizes::Standard => 2_048,
            Sizes::Whole => 100_000,
        }
    }

    /// The most wires of a netlist that is checked, certified, run, converted or joined: as many entries question 1
    /// asks of each of the tables of these calls.
    ///
    /// ```
    /// assert_eq!(fidrovelj::Sizes::Standard.masked_wires(), 18_431);
    /// ```
    pub const fn masked_wires(self) -> usize {
        match self {
            Sizes::Standard => 18_431,
            Sizes::Whole => 899_999,
        }
    }

    /// The bytes of the longest text that a call takes or writes.
    ///
    /// ```
    /// assert_eq!(fidrovelj::Sizes::Standard.text(), 500_000);
    /// ```
    pub const fn text(self) -> usize {
        match self {
            Sizes::Standard => 500_000,
            Sizes::Whole => 27_000_000,
        }
    }

    /// The least entries of the table of records of [`certify`](crate::certify): fifteen for each wire.
    ///
    /// ```
    /// assert_eq!(fidrovelj::Sizes::Standard.records(), 15 * 18_431);
    /// ```
    pub const fn records(self) -> usize {
        15 * self.masked_wires()
    }
}

/// Working tables and result buffers, made once and lent to any number of calls. They grow by themselves to what a call
/// needs, and a call on a text that passes the standard limits takes those for whole ciphers.
///
/// ```
/// use fidrovelj::{rewrite, run, Tables};
///
/// let tables = &mut Tables::new();
/// let text = rewrite(b"0 1\n1 1\n1 1", tables)?;
/// assert_eq!(run(&text, &[1], tables)?, [1]);
///
/// let wide = b"0 100000\n1 100000\n1 1\n\n";
/// assert_eq!(rewrite(wide, tables)?, wide);
/// # Ok::<(), fidrovelj::Refusal>(())
/// ```
#[derive(Clone, Debug, Default)]
pub struct Tables {
    fixed: Option<Sizes>,
    pub(crate) operands: Vec<u64>,
    pub(crate) results: Vec<u64>,
    pub(crate) marks: Vec<u8>,
    pub(crate) words: Vec<u64>,
    pub(crate) base: Vec<u64>,
    pub(crate) bases: Vec<u64>,
    pub(crate) sets: [Vec<u64>; 4],
    pub(crate) wires: Vec<u32>,
    pub(crate) links: Vec<u64>,
    pub(crate) states: Vec<u32>,
    pub(crate) name_wires: Vec<u32>,
    pub(crate) ways: Vec<u8>,
    pub(crate) best: Vec<u8>,
    pub(crate) text: Vec<u8>,
    pub(crate) bits: Vec<u8>,
    pub(crate) records: Vec<u64>,
}

impl Tables {
    /// Tables without entries, which grow with the calls that they are lent to.
    ///
    /// ```
    /// use fidrovelj::{run, Tables};
    ///
    /// assert_eq!(run(b"0 1\n1 1\n1 1\n", &[1], &mut Tables::new())?, [1]);
    /// # Ok::<(), fidrovelj::Refusal>(())
    /// ```
    pub fn new() -> Tables {
        Tables::default()
    }

    /// Tables for the standard limits alone: a larger netlist is refused. All calls together take about 4.3 million
    /// bytes.
    ///
    /// ```
    /// use fidrovelj::{rewrite, Refusal, Tables};
    ///
    /// let wide = b"0 100000\n1 100000\n1 1\n\n";
    /// assert_eq!(rewrite(wide, &mut Tables::standard()), Err(Refusal::Limits));
    /// ```
    pub fn standard() -> Tables {
        Tables { fixed: Some(Sizes::Standard), ..Tables::default() }
    }

    /// Tables for whole ciphers, which every call takes at that length. All calls together take about 215 million
    /// bytes.
    ///
    /// ```
    /// use fidrovelj::{rewrite, Tables};
    ///
    /// let wide = b"0 100000\n1 100000\n1 1\n\n";
    /// assert_eq!(rewrite(wide, &mut Tables::whole()).as_deref(), Ok(&wide[..]));
    /// ```
    pub fn whole() -> Tables {
        Tables { fixed: Some(Sizes::Whole), ..Tables::default() }
    }

    /// What a call gives under the limits that the tables are for; of those that grow under the standard ones, and
    /// where these are passed under those for whole ciphers.
    pub(crate) fn lend<T>(
        &mut self,
        mut call: impl FnMut(&mut Tables, Sizes) -> Result<T, Refusal>,
    ) -> Result<T, Refusal> {
        match self.fixed {
            Some(sizes) => call(self, sizes),
            None => match call(self, Sizes::Standard) {
                Err(Refusal::Length | Refusal::Limits | Refusal::Aiger) => call(self, Sizes::Whole),
                answer => answer,
            },
        }
    }

    /// The sizes of a session's tables: the session's own, or the smaller ones that the tables are for.
    pub(crate) fn sizes_for(&self, session: Sizes) -> Sizes {
        match self.fixed {
            Some(Sizes::Standard) => Sizes::Standard,
            _ => session,
        }
    }
}

/// The first entries of a table, which grows to hold so many.
pub(crate) fn front<T: Copy + Default>(table: &mut Vec<T>, entries: usize) -> &mut [T] {
    if table.len() < entries {
        table.resize(entries, T::default());
    }
    &mut table[..entries]
}
