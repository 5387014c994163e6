//! A random call: good, or damaged in its text, its lists, its tables or its buffers.

use super::damage::{damage_bytes, damage_list, Draft};
use super::netlists;
use super::random::Random;
use super::sizes;
use super::{Call, Service};
use crate::reference::netlist::{Netlist, Sizes};

/// The call of a seed.
pub fn call(seed: u64) -> Call {
    let random = &mut Random::new(seed);
    let service = random.pick(&Service::ALL);
    let mut call = if random.percent(3) { sizes::call(random, service) } else { small(random, service) };
    // Few, as they are lent long tables.
    if random.below(500) == 0 {
        call.sizes = Sizes::Whole;
        call.tables.fill(service.limits_of(Sizes::Whole).table);
    }
    choose_tables(random, &mut call);
    choose_rooms(random, &mut call);
    call
}

/// A call on a small netlist.
fn small(random: &mut Random, service: Service) -> Call {
    let (netlist, list) = material(random, service);
    let mut call = sizes::fitted(random, service, &netlist);
    if let Some(list) = list {
        call.list = list;
    }
    let mut draft = Draft::new(&netlist);
    let damages = random.pick(&[0, 0, 0, 1, 1, 1, 1, 1, 2, 3]);
    let mut bytes = 0;
    for _ in 0..damages {
        match random.below(20) {
            0..=11 => draft.damage(random),
            12..=14 => bytes += 1,
            15..=17 => damage_list(random, &mut call.list),
            _ => damage_list(random, &mut call.wanted),
        }
    }
    call.text = if random.percent(60) { draft.written() } else { draft.loose(random) };
    for _ in 0..bytes {
        damage_bytes(random, &mut call.text);
    }
    call
}

/// A netlist, and the list that belongs to it where it is not any that fits.
fn material(random: &mut Random, service: Service) -> (Netlist, Option<Vec<u8>>) {
    if service != Service::Check || random.percent(8) {
        return (netlists::small(random), None);
    }
    if random.percent(4) {
        let (bits, gate_count) = (random.between(13, 16), random.below(10));
        return (netlists::with_mask_pair(random, bits, gate_count), None);
    }
    let (netlist, codes) = netlists::checkable(random);
    (netlist, Some(codes))
}

/// Tables of the least length, longer ones, or one that is short.
fn choose_tables(random: &mut Random, call: &mut Call) {
    let least = call.service.limits_of(call.sizes).table;
    if random.percent(20) {
        for length in &mut call.tables {
            *length = least + random.pick(&[0, 1, 2, 100]);
        }
    }
    if random.percent(4) {
        let table = random.below(call.tables.len());
        call.tables[table] = random.pick(&[least - 1, least - 1, least / 2, 1, 0]);
    }
}

/// Buffers as long as the results, one entry shorter or longer, empty, or of any length.
fn choose_rooms(random: &mut Random, call: &mut Call) {
    if call.service == Service::Check {
        return;
    }
    let (text, list) =
        call.outcome().map_or((200, 20), |given| (given.text.len(), given.list.len() + given.words.len()));
    call.text_room = room(random, text);
    call.list_room = room(random, list);
}

fn room(random: &mut Random, length: usize) -> usize {
    match random.below(20) {
        0 => length.saturating_sub(1),
        1 => 0,
        2 => random.below(length + 1),
        3..=6 => length + 1,
        7 => length + random.below(1_000),
        _ => length,
    }
}
