//! The library's calls, lent tables full of rubbish and buffers with a pattern, each with a margin in
//! front and behind.

mod margins;

use crate::calls::random::Random;
use crate::calls::{Call, Given, Service};
use crate::reference::netlist::Sizes;
use fidrovelj::{lent, Refusal};
use margins::Lent;

/// All that calls of the library are lent.
pub struct Library {
    operands: Lent<u64>,
    results: Lent<u64>,
    given: Lent<u8>,
    words: Lent<u64>,
    base: Lent<u64>,
    wires: Lent<u32>,
    text: Lent<u8>,
    list: Lent<u8>,
    out_words: Lent<u64>,
    leak: Lent<u64>,
}

impl Library {
    pub fn new() -> Library {
        Library {
            operands: Lent::new(),
            results: Lent::new(),
            given: Lent::new(),
            words: Lent::new(),
            base: Lent::new(),
            wires: Lent::new(),
            text: Lent::new(),
            list: Lent::new(),
            out_words: Lent::new(),
            leak: Lent::new(),
        }
    }

    /// The library's answer to a call; whether there is a leak counts as 0 or 1.
    fn answer(&mut self, call: &Call, seed: u64) -> Result<usize, Refusal> {
        let sizes = match call.sizes {
            Sizes::Standard => fidrovelj::Sizes::Standard,
            Sizes::Whole => fidrovelj::Sizes::Whole,
        };
        let random = &mut Random::new(seed);
        let text = self.text.fill(random.next(), call.text_room);
        let list = self.list.fill(random.next(), call.list_room);
        let operands = self.operands.fill(random.next(), call.tables[0]);
        let results = self.results.fill(random.next(), call.tables[1]);
        match call.service {
            Service::Rewrite => {
                let given = self.given.fill(random.next(), call.tables[2]);
                lent::rewrite(&call.text, text, operands, results, given, sizes)
            }
            Service::Run => {
                let given = self.given.fill(random.next(), call.tables[2]);
                let words = self.words.fill(random.next(), call.tables[3]);
                lent::run(&call.text, &call.list, list, operands, results, given, words, sizes)
            }
            Service::Run64 => {
                let out = self.out_words.fill(random.next(), call.list_room);
                let given = self.given.fill(random.next(), call.tables[2]);
                let words = self.words.fill(random.next(), call.tables[3]);
                lent::run64(&call.text, &call.words(), out, operands, results, given, words, sizes)
            }
            Service::Mask => {
                let wires = self.wires.fill(random.next(), call.tables[2]);
                let marks = self.given.fill(random.next(), call.tables[3]);
                let Call { text: source, list: codes, wanted, .. } = call;
                lent::mask(source, codes, wanted, text, list, operands, results, wires, marks, sizes)
            }
            Service::Check => {
                let given = self.given.fill(random.next(), call.tables[2]);
                let words = self.words.fill(random.next(), call.tables[3]);
                let base = self.base.fill(random.next(), call.tables[4]);
                let leak = self.leak.fill(random.next(), 4).try_into().expect("a leak has four numbers");
                lent::check(&call.text, &call.list, leak, operands, results, given, words, base, sizes)
                    .map(usize::from)
            }
        }
    }

    /// The tables of a service are zero.
    fn assert_tables(&self, service: Service, name: &str) {
        assert!(self.operands.is_zero(), "{name}: operands");
        assert!(self.results.is_zero(), "{name}: results");
        assert!(self.given.is_zero(), "{name}: given, or marks");
        match service {
            Service::Rewrite => (),
            Service::Run | Service::Run64 => assert!(self.words.is_zero(), "{name}: words"),
            Service::Mask => assert!(self.wires.is_zero(), "{name}: wires"),
            Service::Check => {
                assert!(self.words.is_zero(), "{name}: words");
                assert!(self.base.is_zero(), "{name}: base");
            }
        }
    }

    /// The library's outcome is the expected one, down to every byte that it was lent.
    pub fn assert_outcome(&mut self, name: &str, call: &Call, expected: &Result<Given, u8>) {
        let seed = call.text.len() as u64 ^ (call.text_room as u64) << 32;
        let answer = self.answer(call, seed);
        let wanted =
            expected.as_ref().map_err(|&question| Refusal::from_number(question).unwrap()).map(|given| match call.service {
                Service::Rewrite | Service::Mask => given.text.len(),
                Service::Run => given.list.len(),
                Service::Run64 => given.words.len(),
                Service::Check => usize::from(given.leak.is_some()),
            });
        assert_eq!(answer, wanted, "{name}\n{call:?}");
        self.assert_tables(call.service, name);
        let nothing = Given::default();
        let given = expected.as_ref().unwrap_or(&nothing);
        assert!(self.text.holds(&given.text), "{name}: the text buffer\n{call:?}");
        assert!(self.list.holds(&given.list), "{name}: the list buffer\n{call:?}");
        if call.service == Service::Run64 {
            assert!(self.out_words.holds(&given.words), "{name}: the buffer of words\n{call:?}");
        }
        if call.service == Service::Check {
            let leak = given.leak.as_ref().map_or([].as_slice(), |leak| leak.as_slice());
            assert!(self.leak.holds(leak), "{name}: the leak's numbers\n{call:?}");
        }
    }
}
