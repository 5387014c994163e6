//! Calls at the limits on bytes, wires, values and bits.

use super::netlists;
use super::random::Random;
use super::{Call, Service};
use crate::reference::netlist::{Gate, Netlist};

/// A call at one of the limits, one below or one above it.
pub fn call(random: &mut Random, service: Service) -> Call {
    match random.below(16) {
        0..=5 => long_text(random, service),
        6 | 7 => many_inputs(random, service),
        8 | 9 => many_values(random, service),
        10 | 11 => bits_and_wires(random, service),
        12 => wide_values(random, service),
        13 | 14 => many_bits(random),
        _ => many_gates(random, service),
    }
}

/// A netlist that the service admits, and lists that fit it.
pub fn fitted(random: &mut Random, service: Service, netlist: &Netlist) -> Call {
    let bits = netlist.input_bits();
    let list = match service {
        Service::Rewrite => Vec::new(),
        Service::Run => random.list(bits, 0, 1),
        Service::Run64 => random.list(bits, 0, 255),
        Service::Mask => netlists::codes(random, bits),
        Service::Check => netlists::codes(random, bits.saturating_sub(2)),
    };
    let wanted = if service == Service::Mask { random.list(netlist.output_bits(), 0, 3) } else { Vec::new() };
    Call::new(service, &netlist.write(), &list, &wanted)
}

fn small(random: &mut Random, service: Service) -> Netlist {
    match service {
        Service::Check => {
            let (bits, gate_count) = (random.between(1, 3), random.below(10));
            netlists::with_mask_pair(random, bits, gate_count)
        }
        _ => netlists::small(random),
    }
}

/// A text made as long as is admitted, or nearly so, by blanks at a line's end.
fn long_text(random: &mut Random, service: Service) -> Call {
    let netlist = small(random, service);
    let mut call = fitted(random, service, &netlist);
    let limit = service.limits().text;
    let length = random.pick(&[limit - 1, limit, limit + 1, limit + 1, limit + 1, limit + 777]);
    let ends: Vec<usize> = (0..call.text.len()).filter(|&at| call.text[at] == b'\n').collect();
    let at = random.pick(&ends);
    let blank: &[u8] = random.pick(&[b" ", b"\n", b"\r\n"]);
    let missing = length - call.text.len();
    let mut pad = blank.repeat(missing / blank.len());
    pad.resize(missing, b' ');
    call.text.splice(at..at, pad);
    if random.percent(20) {
        *call.text.last_mut().expect("a text has a last byte") = random.pick(b"\r#");
    }
    call
}

/// As many wires as are admitted, or one more, nearly all of them inputs.
fn many_inputs(random: &mut Random, service: Service) -> Call {
    let limit = service.limits().wires;
    let wires = random.pick(&[limit - 1, limit, limit, limit + 1]);
    let gate_count = random.below(4);
    let netlist = netlists::netlist(random, wires - gate_count, gate_count);
    fitted(random, service, &netlist)
}

/// As many values as are admitted, or a few more or less.
fn many_values(random: &mut Random, service: Service) -> Call {
    let (inputs, outputs) = (random.between(15, 18), random.between(15, 17));
    let bits = random.between(inputs + 2, 24);
    let gate_count = random.below(12);
    let mut netlist = netlists::netlist(random, bits, gate_count);
    if service == Service::Check {
        netlist.inputs = netlists::split(random, bits - 2, inputs - 1);
        netlist.inputs.push(2);
    } else {
        netlist.inputs = netlists::split(random, bits, inputs);
    }
    let output_bits = random.between(outputs, netlist.wires);
    netlist.outputs = netlists::split(random, output_bits, outputs);
    fitted(random, service, &netlist)
}

/// Input or output bits equal to the wire count, or one off.
fn bits_and_wires(random: &mut Random, service: Service) -> Call {
    let mut netlist = small(random, service);
    let wires = netlist.wires;
    if random.percent(40) {
        // No gate at all: every wire is an input.
        netlist.gates.clear();
        netlist.inputs = netlists::widths(random, wires, 16);
    } else if random.percent(40) {
        netlist.inputs = netlists::widths(random, wires + 1, 16);
    }
    let output_bits = random.pick(&[wires, wires, wires + 1]);
    netlist.outputs = netlists::widths(random, output_bits, 16);
    fitted(random, service, &netlist)
}

/// Widths whose sum exceeds 16 or 32 bits, or widths without number.
fn wide_values(random: &mut Random, service: Service) -> Call {
    let width = random.pick(&["65535", "65536", "999999", "32768", "1"]);
    let limit = service.limits().text;
    let count = random.pick(&[2, 16, 17, 1_000, (limit - 100) / (width.len() + 1)]).min(999_999);
    let mut text = format!("1 3\n{count}");
    for _ in 0..count {
        text += " ";
        text += width;
    }
    text +=
        random.pick(&["\n1 1\n\n2 1 0 1 2 AND\n", "\n1 0\n\n2 1 0 1 2 AND\n", " 2\n1 1\n2 1 0 1 2 AND\n"]);
    Call::new(service, text.as_bytes(), &[1, 1], &[0])
}

/// Twelve bits to check, or thirteen and more.
fn many_bits(random: &mut Random) -> Call {
    let bits = random.pick(&[11, 12, 13, 13, 13, 14, 30]);
    let gate_count = random.below(10);
    let netlist = netlists::with_mask_pair(random, bits, gate_count);
    let mut call = fitted(random, Service::Check, &netlist);
    if random.percent(20) {
        call.list.pop();
    }
    call
}

/// As many wires as are admitted, or one more, nearly all of them results.
fn many_gates(random: &mut Random, service: Service) -> Call {
    let limit = service.limits().wires;
    let wires = random.pick(&[limit, limit, limit + 1]);
    let bits = random.between(3, 5);
    let mut netlist = netlists::netlist(random, bits, wires - bits);
    if service == Service::Check {
        netlist.inputs = vec![bits - 2, 2];
    }
    fitted(random, service, &netlist)
}

/// A source of one bit, 2,047 ANDs of a wire with itself and 2,048 output bits: with the bit public no
/// masked netlist has more wires.
pub fn ladder() -> Netlist {
    let gates = (1..2_048).map(|c| Gate::And(c - 1, c - 1, c)).collect();
    Netlist { wires: 2_048, inputs: vec![1], outputs: vec![2_048], gates }
}
