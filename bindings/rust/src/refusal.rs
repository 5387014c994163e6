//! Refusals: the first question of a call that is answered no.

use std::error::Error;
use std::fmt;

/// Why a call was refused: the first of its questions that was answered no (docs/RULES.md, Questions).
///
/// ```
/// use fidrovelj::{rewrite, Refusal, Tables};
///
/// let refusal = rewrite(b"1 3\n", &mut Tables::new()).unwrap_err();
/// assert_eq!(refusal, Refusal::Header);
/// assert_eq!(refusal.number(), 4);
/// assert_eq!(refusal.to_string(), "refused 4: the header lines have not the stated form");
/// ```
#[derive(Clone, Copy, Debug, PartialEq, Eq, Hash, PartialOrd, Ord)]
#[repr(u8)]
pub enum Refusal {
    /// 1: has every lent working table enough entries?
    Tables = 1,
    /// 2: is the text short enough?
    Length = 2,
    /// 3: may each byte stand in a text?
    Bytes = 3,
    /// 4: has the header its form?
    Header = 4,
    /// 5: are the wires and the values few enough, and the bits of the values no more than the wires?
    Limits = 5,
    /// 6: is the gate count the wires less the input bits, and are there as many gate lines?
    Count = 6,
    /// 7: has the line one of the five forms?
    Line = 7,
    /// 8: is each operand given, or the constant a bit?
    Operands = 8,
    /// 9: is the result wire no input and not yet given?
    Wire = 9,
    /// 10: are there two or more input values, the last of width 2?
    Masks = 10,
    /// 11: has the input list an entry for each input bit, each in its range?
    Inputs = 11,
    /// 12: are the input bits few enough to try each setting?
    Settings = 12,
    /// 13: has the wanted list an entry for each output bit, each in its range?
    Wanted = 13,
    /// 14: can each result buffer hold its whole result?
    Room = 14,
    /// 15: has the netlist a form in the older dialect?
    OldForm = 15,
    /// 16: is the text one of equations?
    Grammar = 16,
    /// 17: is each name declared and assigned once, and assigned before it is read?
    Names = 17,
    /// 18: are the expressions shallow enough?
    Depth = 18,
    /// 19: is the text an AIGER file?
    Aiger = 19,
    /// 20: is the AIGER file without latches?
    Latches = 20,
    /// 21: are the pairs of wires of the netlist?
    Pairs = 21,
    /// 22: is the budget 1 or more?
    Budget = 22,
    /// 23: is there a gate to take off?
    Gate = 23,
    /// 24: is there a place left for the gate?
    Place = 24,
    /// 25: do the blocks fit at the seam?
    Seam = 25,
    /// 26: is the state one of the search for fewer changes in this netlist?
    State = 26,
    /// 27: are wires given to judge, each of the netlist?
    Judged = 27,
}

/// All refusals, each at the place of its number less 1.
const ALL: [Refusal; 27] = [
    Refusal::Tables,
    Refusal::Length,
    Refusal::Bytes,
    Refusal::Header,
    Refusal::Limits,
    Refusal::Count,
    Refusal::Line,
    Refusal::Operands,
    Refusal::Wire,
    Refusal::Masks,
    Refusal::Inputs,
    Refusal::Settings,
    Refusal::Wanted,
    Refusal::Room,
    Refusal::OldForm,
    Refusal::Grammar,
    Refusal::Names,
    Refusal::Depth,
    Refusal::Aiger,
    Refusal::Latches,
    Refusal::Pairs,
    Refusal::Budget,
    Refusal::Gate,
    Refusal::Place,
    Refusal::Seam,
    Refusal::State,
    Refusal::Judged,
];

impl Refusal {
    /// Its number, 1 to 27.
    ///
    /// ```
    /// assert_eq!(fidrovelj::Refusal::Seam.number(), 25);
    /// ```
    pub const fn number(self) -> u8 {
        self as u8
    }

    /// The refusal of a number, if there is one.
    ///
    /// ```
    /// use fidrovelj::Refusal;
    ///
    /// assert_eq!(Refusal::from_number(9), Some(Refusal::Wire));
    /// assert_eq!(Refusal::from_number(0), None);
    /// assert_eq!(Refusal::from_number(28), None);
    /// ```
    pub fn from_number(number: u8) -> Option<Refusal> {
        ALL.get(usize::from(number).wrapping_sub(1)).copied()
    }

    /// What it says in words, without a full stop.
    ///
    /// ```
    /// assert_eq!(fidrovelj::Refusal::Budget.words(), "the budget is 0");
    /// ```
    pub const fn words(self) -> &'static str {
        match self {
            Refusal::Tables => "a working table is too short",
            Refusal::Length => "the text is too long",
            Refusal::Bytes => "a byte that no text has",
            Refusal::Header => "the header lines have not the stated form",
            Refusal::Limits => "too many wires or values, or more bits than wires",
            Refusal::Count => {
                "the gate count is not the wires less the input bits, or not the number of gate lines"
            }
            Refusal::Line => "the line is none of the five gates",
            Refusal::Operands => "an operand is neither an input nor the result of an earlier line",
            Refusal::Wire => "the result wire is an input, above the last wire or given twice",
            Refusal::Masks => "the last input value is not the two mask bits",
            Refusal::Inputs => "the input list has not one entry in range for each input bit",
            Refusal::Settings => "more than twelve input bits to try",
            Refusal::Wanted => "the wanted list has not one entry in range for each output bit",
            Refusal::Room => "a result buffer is too short",
            Refusal::OldForm => "the older dialect has no form for this netlist",
            Refusal::Grammar => "the text is not of the subset of Verilog that is read",
            Refusal::Names => "a name is undeclared, declared twice, or read or assigned where it may not be",
            Refusal::Depth => "parentheses are nested deeper than 32",
            Refusal::Aiger => "the text is not an ASCII AIGER file, or too large",
            Refusal::Latches => "the AIGER file has latches",
            Refusal::Pairs => "the list of pairs is of odd length or names a wire that is not there",
            Refusal::Budget => "the budget is 0",
            Refusal::Gate => "there is no gate to take off",
            Refusal::Place => "there is no place for another gate",
            Refusal::Seam => "the blocks do not fit at the seam",
            Refusal::State => "the state is none of this netlist's search for fewer changes",
            Refusal::Judged => "no wire is given to judge, or one that is not there",
        }
    }
}

impl fmt::Display for Refusal {
    fn fmt(&self, f: &mut fmt::Formatter<'_>) -> fmt::Result {
        write!(f, "refused {}: {}", self.number(), self.words())
    }
}

impl Error for Refusal {}
