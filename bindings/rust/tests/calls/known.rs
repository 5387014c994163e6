//! The known results M1 to M12.

use super::{Call, Given, Service};
use crate::reference::netlist::{Gate, Netlist};

/// A call and its outcome.
pub struct Row {
    pub name: String,
    pub call: Call,
    pub outcome: Result<Given, u8>,
}

pub fn row(name: &str, call: Call, outcome: Result<Given, u8>) -> Row {
    Row { name: name.into(), call, outcome }
}

pub const AND: &str = "1 3\n2 1 1\n1 1\n2 1 0 1 2 AND\n";

pub const MASKED_AND: &str = "11 15
3 1 1 2
1 1

2 1 2 3 4 XOR
2 1 2 3 5 AND
2 1 4 5 6 XOR
2 1 0 1 7 AND
2 1 0 3 8 AND
2 1 8 3 9 XOR
2 1 7 9 10 XOR
2 1 2 1 11 AND
2 1 11 6 12 XOR
2 1 10 12 13 XOR
1 1 13 14 EQW
";

const MASKED_XOR: &str = "6 10
3 1 1 2
1 1

2 1 2 3 4 XOR
2 1 2 3 5 AND
2 1 4 5 6 XOR
2 1 1 3 7 XOR
2 1 0 7 8 XOR
2 1 8 2 9 XOR
";

const MASKED_WIRE: &str = "4 7
2 1 2
1 1

2 1 1 2 3 XOR
2 1 1 2 4 AND
2 1 3 4 5 XOR
1 1 0 6 EQW
";

pub fn masked(text: &str, codes: &[u8]) -> Result<Given, u8> {
    Ok(Given { text: text.into(), list: codes.to_vec(), ..Given::default() })
}

pub fn leak(leak: [u64; 4]) -> Result<Given, u8> {
    Ok(Given { leak: Some(leak), ..Given::default() })
}

pub fn clean() -> Result<Given, u8> {
    Ok(Given::default())
}

/// A netlist of one gate and so many wires.
fn one_gate(wires: usize) -> Netlist {
    let gates = vec![Gate::And(0, 1, wires - 1)];
    Netlist { wires, inputs: vec![wires - 1], outputs: vec![1], gates }
}

/// A netlist of so many bits, a mask pair and no gate.
fn bits_to_check(bits: usize) -> Call {
    let text = format!("0 {}\n2 {bits} 2\n1 1\n", bits + 2);
    Call::new(Service::Check, text.as_bytes(), &vec![1; bits], &[])
}

/// M1 to M12, but for M4, which is no call.
pub fn rows() -> Vec<Row> {
    let mask =
        |text: &str, codes: &[u8], wanted: &[u8]| Call::new(Service::Mask, text.as_bytes(), codes, wanted);
    let check = |text: &str, codes: &[u8]| Call::new(Service::Check, text.as_bytes(), codes, &[]);
    let short = |service, list: &[u8], room| Call {
        text_room: room,
        ..Call::new(service, AND.as_bytes(), list, if service == Service::Mask { &[0] } else { &[] })
    };
    let m5 = "1 4\n2 1 2\n1 1\n2 1 0 1 3 XOR\n";
    let m7 = "1 4\n2 1 2\n1 1\n2 1 0 1 3 AND\n";
    let mut rows = vec![
        row("M1", mask(AND, &[1, 2], &[0]), masked(MASKED_AND, &[1])),
        row("M2", mask(&AND.replace("AND", "XOR"), &[1, 1], &[3]), masked(MASKED_XOR, &[3])),
        row("M3", mask("0 1\n1 1\n1 1\n", &[2], &[0]), masked(MASKED_WIRE, &[2])),
        row("M5", check(m5, &[1]), leak([3, 1, 0, 4])),
        row("M6", check(m5, &[2]), clean()),
        row("M7", check(m7, &[1]), leak([3, 1, 2, 0])),
        row("M11, thirteen bits", bits_to_check(13), Err(12)),
        row("M11, twelve bits", bits_to_check(12), clean()),
        row("M12, Mask", short(Service::Mask, &[1, 2], MASKED_AND.len() - 1), Err(14)),
        row("M12, an exact fit", short(Service::Mask, &[1, 2], MASKED_AND.len()), masked(MASKED_AND, &[1])),
        row("M12, Rewrite", short(Service::Rewrite, &[], AND.len()), Err(14)),
    ];
    for service in Service::ALL {
        rows.push(row("M8", Call::new(service, b"", &[], &[]), Err(4)));
        let mand = AND.replace("AND", "MAND");
        rows.push(row("M9", Call::new(service, mand.as_bytes(), &[1, 1], &[0]), Err(7)));
        let (most, more) = (one_gate(service.limits().wires), one_gate(service.limits().wires + 1));
        let most = Call::new(service, &most.write(), &vec![1; most.input_bits()], &[0]);
        if service == Service::Check {
            rows.push(row("M10, as many wires as may be", most, Err(10)));
        } else {
            let outcome = most.outcome();
            assert!(outcome.is_ok(), "M10 is accepted");
            rows.push(row("M10, as many wires as may be", most, outcome));
        }
        let more = Call::new(service, &more.write(), &vec![1; more.input_bits()], &[0]);
        rows.push(row("M10, one more", more, Err(5)));
    }
    rows
}
