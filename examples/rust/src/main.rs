//! Builds an adder of four bits in a session, gate by gate; at every moment the masked gates are those of the gates
//! that are there. Then the masked netlist is checked, and adds under all four settings of the mask bits.

use std::error::Error;

use fidrovelj::{codes, Gate, Netlist, Session, Sizes, Tables};

const WIDTH: u32 = 4;

/// The wires of the sum of two values, the carry last.
fn add(session: &mut Session) -> Result<Vec<u32>, fidrovelj::Refusal> {
    let mut sums = Vec::new();
    let mut carry = None;
    for bit in 0..WIDTH {
        let (a, b) = (bit, WIDTH + bit);
        let either = session.add(Gate::Xor(a, b))?;
        let both = session.add(Gate::And(a, b))?;
        (sums, carry) = match carry {
            None => ([sums, vec![either]].concat(), Some(both)),
            Some(carry) => {
                let sum = session.add(Gate::Xor(either, carry))?;
                let passed = session.add(Gate::And(either, carry))?;
                ([sums, vec![sum]].concat(), Some(session.add(Gate::Xor(both, passed))?))
            }
        };
    }
    sums.extend(carry);
    Ok(sums)
}

/// The bits of a number, the lowest first.
fn bits(number: u8) -> impl Iterator<Item = u8> {
    (0..WIDTH).map(move |place| number >> place & 1)
}

fn main() -> Result<(), Box<dyn Error>> {
    let tables = &mut Tables::new();
    let input_codes = [[codes::M0; WIDTH as usize], [codes::M1; WIDTH as usize]].concat();
    let mut session = Session::open(&[WIDTH, WIDTH], &input_codes, Sizes::Standard)?;

    let sums = add(&mut session)?;
    println!("{} gates, {} masked gates", session.gates().len(), session.masked_gates().len());
    for &sum in &sums {
        // The output bits are the last wires: a copy of each.
        session.add(Gate::Eqw(sum))?;
    }
    let outputs = [WIDTH + 1];
    let source = Netlist::parse(&session.text(&outputs, tables)?, tables)?;
    let masked = session.masked(&outputs, &[codes::ANY; WIDTH as usize + 1], tables)?;
    let hidden = Netlist::parse(&masked.text, tables)?;
    println!("source: {} wires, masked: {} wires", source.wires(), hidden.wires());
    println!("check: {}", hidden.check(&input_codes, tables)?.map_or("clean".to_string(), |leak| leak.to_string()));

    let mut agreed = 0;
    for (a, b) in (0..16).flat_map(|a| (0..16).map(move |b| (a, b))) {
        for [m0, m1] in [[0, 0], [1, 0], [0, 1], [1, 1]] {
            let inputs: Vec<u8> =
                bits(a).map(|bit| bit ^ m0).chain(bits(b).map(|bit| bit ^ m1)).chain([m0, m1]).collect();
            let found = hidden.run(&inputs, tables)?.into_iter().zip(&masked.codes).enumerate();
            let mask = |code: u8| [0, m0, m1, m0 ^ m1][usize::from(code)];
            let sum: u8 = found.map(|(place, (bit, &code))| (bit ^ mask(code)) << place).sum();
            agreed += u32::from(sum == a + b);
        }
    }
    println!("sums: {agreed} of 1024 agree");
    Ok(())
}
