//! Calls of the services, and their outcomes by the reference.

pub mod circuits;
pub mod damage;
pub mod known;
pub mod netlists;
pub mod plan;
pub mod random;
pub mod sizes;
pub mod slips;

use crate::reference;
use crate::reference::netlist::{Limits, Sizes};
use random::Random;
use std::fmt;

#[derive(Clone, Copy, Debug, PartialEq, Eq)]
pub enum Service {
    Rewrite,
    Run,
    Run64,
    Mask,
    Check,
}

use Service::{Check, Mask, Rewrite, Run, Run64};

impl Service {
    pub const ALL: [Service; 5] = [Rewrite, Run, Run64, Mask, Check];

    /// How many working tables a call lends.
    pub fn tables(self) -> usize {
        match self {
            Rewrite => 3,
            Run | Run64 | Mask => 4,
            Check => 5,
        }
    }

    /// The old limits.
    pub fn limits(self) -> &'static Limits {
        self.limits_of(Sizes::Standard)
    }

    pub fn limits_of(self, sizes: Sizes) -> &'static Limits {
        match self {
            Mask => sizes.small(),
            Rewrite | Run | Run64 | Check => sizes.large(),
        }
    }

    /// The questions that the service can refuse by.
    pub fn questions(self) -> &'static [u8] {
        match self {
            Rewrite => &[1, 2, 3, 4, 5, 6, 7, 8, 9, 14],
            Run | Run64 => &[1, 2, 3, 4, 5, 6, 7, 8, 9, 11, 14],
            Mask => &[1, 2, 3, 4, 5, 6, 7, 8, 9, 11, 13, 14],
            Check => &[1, 2, 3, 4, 5, 6, 7, 8, 9, 10, 11, 12],
        }
    }
}

/// All that a call is handed.
#[derive(Clone, PartialEq, Eq)]
pub struct Call {
    pub service: Service,
    pub text: Vec<u8>,
    /// Run's input bits, or the codes of Mask and Check. For Run64 an entry stands for a word (`words`).
    pub list: Vec<u8>,
    /// Mask's wanted codes.
    pub wanted: Vec<u8>,
    /// The length of the text buffer of Rewrite and Mask.
    pub text_room: usize,
    /// The length of Run's buffer of bits, Run64's of words or Mask's of codes.
    pub list_room: usize,
    /// The length of each working table.
    pub tables: Vec<usize>,
    pub sizes: Sizes,
}

/// Room for any result under the old limits.
pub const ROOM: usize = 600_000;

/// Room for any result under the limits for whole ciphers.
pub const WHOLE_ROOM: usize = 27_000_000;

impl Call {
    /// A call under the old limits, with tables of the least length and ample room for what its service
    /// gives.
    pub fn new(service: Service, text: &[u8], list: &[u8], wanted: &[u8]) -> Call {
        Call::of(Sizes::Standard, service, text, list, wanted)
    }

    /// The same under these limits.
    pub fn of(sizes: Sizes, service: Service, text: &[u8], list: &[u8], wanted: &[u8]) -> Call {
        let ample = if sizes == Sizes::Standard { ROOM } else { WHOLE_ROOM };
        let limits = service.limits_of(sizes);
        Call {
            service,
            text: text.to_vec(),
            list: list.to_vec(),
            wanted: wanted.to_vec(),
            text_room: if matches!(service, Rewrite | Mask) { ample } else { 0 },
            list_room: match service {
                Run | Mask => ample,
                Run64 => limits.wires,
                Rewrite | Check => 0,
            },
            tables: vec![limits.table; service.tables()],
            sizes,
        }
    }

    /// Run64's words: an entry 0 stands for zeros, 1 for ones, any other with its place for a random word.
    pub fn words(&self) -> Vec<u64> {
        let word = |(place, &entry): (usize, &u8)| match entry {
            0 => 0,
            1 => u64::MAX,
            _ => Random::new((place as u64) << 8 | u64::from(entry)).next(),
        };
        self.list.iter().enumerate().map(word).collect()
    }

    /// The outcome by the reference.
    pub fn outcome(&self) -> Result<Given, u8> {
        let Call { text, list, wanted, tables, sizes, .. } = self;
        let sizes = *sizes;
        match self.service {
            Rewrite => {
                let text = reference::rewrite(tables, text, self.text_room, sizes)?;
                Ok(Given { text, ..Given::default() })
            }
            Run => {
                let list = reference::run(tables, text, list, self.list_room, sizes)?;
                Ok(Given { list, ..Given::default() })
            }
            Run64 => {
                let words = reference::run64(tables, text, &self.words(), self.list_room, sizes)?;
                Ok(Given { words, ..Given::default() })
            }
            Mask => {
                let masked =
                    reference::mask(tables, text, list, wanted, self.text_room, self.list_room, sizes)?;
                Ok(Given { text: masked.text, list: masked.codes, ..Given::default() })
            }
            Check => {
                let leak = reference::check(tables, text, list, sizes)?;
                Ok(Given { leak, ..Given::default() })
            }
        }
    }
}

impl fmt::Debug for Call {
    fn fmt(&self, f: &mut fmt::Formatter<'_>) -> fmt::Result {
        let text = String::from_utf8_lossy(&self.text[..self.text.len().min(4_000)]);
        writeln!(f, "{:?}, {:?}, a text of {} bytes:\n{text}", self.service, self.sizes, self.text.len())?;
        writeln!(f, "list ({}): {:?}", self.list.len(), &self.list[..self.list.len().min(100)])?;
        writeln!(f, "wanted ({}): {:?}", self.wanted.len(), &self.wanted[..self.wanted.len().min(100)])?;
        write!(f, "rooms {} and {}, tables {:?}", self.text_room, self.list_room, self.tables)
    }
}

/// What an accepted call gives. A part that its service does not give is empty.
#[derive(Clone, Debug, Default, PartialEq, Eq)]
pub struct Given {
    pub text: Vec<u8>,
    pub list: Vec<u8>,
    pub words: Vec<u64>,
    pub leak: Option<[u64; 4]>,
}

/// How many calls ended how: for each service the accepted ones, then the refused ones by number.
pub struct Tally([[u64; 15]; 5]);

impl Tally {
    pub fn new() -> Tally {
        Tally([[0; 15]; 5])
    }

    pub fn add(&mut self, service: Service, outcome: &Result<Given, u8>) {
        let question = outcome.as_ref().err().map_or(0, |&question| usize::from(question));
        self.0[service as usize][question] += 1;
    }

    /// Each service was accepted, and refused by each of its questions, at least so often.
    pub fn assert_floor(&self, floor: u64) {
        for service in Service::ALL {
            let counts = &self.0[service as usize];
            assert!(counts[0] >= floor, "{service:?} was accepted {} times\n{self}", counts[0]);
            for &question in service.questions() {
                let count = counts[usize::from(question)];
                assert!(count >= floor, "{service:?} was refused by {question} {count} times\n{self}");
            }
        }
    }
}

impl fmt::Display for Tally {
    fn fmt(&self, f: &mut fmt::Formatter<'_>) -> fmt::Result {
        write!(f, "{:8} {:>8}", "", "accepted")?;
        for question in 1..=14 {
            write!(f, " {question:>6}")?;
        }
        for service in Service::ALL {
            let counts = &self.0[service as usize];
            write!(f, "\n{:8} {:>8}", format!("{service:?}"), counts[0])?;
            for count in &counts[1..] {
                write!(f, " {count:>6}")?;
            }
        }
        Ok(())
    }
}
