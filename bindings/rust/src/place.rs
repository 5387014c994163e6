//! The first refused place of a text.

use std::fmt;

use crate::tables::front;
use crate::{Refusal, Tables};

/// What the library answers.
#[repr(C)]
struct PlaceAnswer {
    offset: usize,
    line: usize,
    column: usize,
    entry: usize,
    word: usize,
    have: u64,
    most: u64,
    refused: u8,
}

extern "C" {
    fn fidrovelj_place(
        text: *const u8,
        text_len: usize,
        marks: *mut u8,
        marks_len: usize,
        masked: u8,
        sizes: u8,
    ) -> PlaceAnswer;
}

/// Where a text in Bristol Fashion is refused first, and why.
///
/// ```
/// # use fidrovelj::{place, Tables};
/// let text = b"1 3\n2 1 1\n1 1\n2 1 0 7 2 AND\n";
/// let place = place(text, &mut Tables::new()).expect("wire 7 is not there");
/// let words = "line 4, column 7: an operand is neither an input nor the result of an earlier line";
/// assert_eq!(place.to_string(), words);
/// ```
#[derive(Clone, Copy, Debug, PartialEq, Eq, Hash)]
pub struct Place {
    /// The question that refuses the text, of 2 to 9.
    pub refusal: Refusal,
    /// The line, counted from 1, blank lines too.
    pub line: usize,
    /// The byte of the line, counted from 1.
    pub column: usize,
    /// The byte of the text, counted from 0.
    pub offset: usize,
}

impl fmt::Display for Place {
    fn fmt(&self, f: &mut fmt::Formatter<'_>) -> fmt::Result {
        write!(f, "line {}, column {}: {}", self.line, self.column, self.refusal.words())
    }
}

/// The first refused place of a text that is read with the limits of a masked netlist, or nothing where
/// [`Netlist::parse`](crate::Netlist::parse) takes it.
///
/// ```
/// # use fidrovelj::{place, Refusal, Tables};
/// let tables = &mut Tables::new();
/// assert_eq!(place(b"0 1\n1 1\n1 1\n", tables), None);
///
/// let place = place(b"1 3\n\n2 1 1\n1 1\n2 1 0 1 2 NAND\n", tables).expect("there is no NAND");
/// assert_eq!((place.refusal, place.line), (Refusal::Line, 5));
/// ```
pub fn place(text: &[u8], tables: &mut Tables) -> Option<Place> {
    let mut found = None;
    // (an answer of Err has tables that grow try the limits for whole ciphers; what is found last stands)
    let _ = tables.lend(|t, sizes| {
        let marks = front(&mut t.marks, sizes.masked_wires());
        // SAFETY: each pointer and length is that of a slice, and slices that are `&mut` overlap no other.
        let place = unsafe {
            fidrovelj_place(text.as_ptr(), text.len(), marks.as_mut_ptr(), marks.len(), 1, sizes as u8)
        };
        let refusal = Refusal::from_number(place.refused);
        found = refusal.map(|refusal| Place {
            refusal,
            line: place.line,
            column: place.column,
            offset: place.offset,
        });
        refusal.map_or(Ok(()), Err)
    });
    found
}
