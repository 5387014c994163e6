//! AES, PRESENT and GIFT.

use super::net::{
    constant, from_highest, join_from_highest, rotated_left, rotated_right, split, xor, Bit, Net, Word,
};
use super::part;
use crate::reference::netlist::Netlist;

/// A byte of the field times two.
fn twice(net: &mut Net, byte: &[Bit]) -> Word {
    let top = byte[7];
    let mut out = rotated_left(byte, 1);
    for place in [1, 3, 4] {
        out[place] = net.xor(out[place], top);
    }
    out
}

fn mix_column(net: &mut Net, a: &[Word]) -> Vec<Word> {
    let sums: Vec<Word> = (0..4).map(|i| xor(net, &[&a[i], &a[(i + 1) % 4]])).collect();
    (0..4)
        .map(|i| {
            let double = twice(net, &sums[i]);
            xor(net, &[&double, &a[(i + 1) % 4], &sums[(i + 2) % 4]])
        })
        .collect()
}

/// The key schedule of FIPS-197, 5.2: the bytes of each round key.
fn round_keys(net: &mut Net, sbox: &Netlist, key: &[Word], rounds: usize) -> Vec<Vec<Word>> {
    let mut words: Vec<Vec<Word>> = key.chunks(4).map(<[Word]>::to_vec).collect();
    let size = words.len();
    let mut round_constant: u64 = 1;
    for i in size..4 * (rounds + 1) {
        let mut word = words[i - 1].clone();
        if i % size == 0 {
            word.rotate_left(1);
        }
        if i % size == 0 || (size == 8 && i % 8 == 4) {
            word = word.iter().map(|byte| net.place(sbox, byte)).collect();
        }
        if i % size == 0 {
            word[0] = xor(net, &[&word[0], &constant(round_constant, 8)]);
            round_constant = round_constant << 1 ^ if round_constant & 0x80 == 0 { 0 } else { 0x11b };
        }
        words.push(words[i - size].iter().zip(&word).map(|(a, b)| xor(net, &[a, b])).collect());
    }
    words.chunks(4).map(<[Vec<Word>]>::concat).collect()
}

/// AES with a key of so many bits: key, then message.
pub fn aes(bits: usize) -> Netlist {
    let (mut whole, values) = Net::new(&[bits, 128]);
    let net = &mut whole;
    let sbox = part("aes_sbox");
    let rounds = bits / 32 + 6;
    let keys = round_keys(net, &sbox, &from_highest(&values[0], 8), rounds);
    let mut state = from_highest(&values[1], 8);
    let with_key = |net: &mut Net, state: &[Word], key: &[Word]| -> Vec<Word> {
        state.iter().zip(key).map(|(a, k)| xor(net, &[a, k])).collect()
    };
    state = with_key(net, &state, &keys[0]);
    for (round, key) in keys.iter().enumerate().skip(1) {
        // SubBytes and ShiftRows.
        state = (0..16).map(|i| net.place(&sbox, &state[5 * i % 16])).collect();
        if round < rounds {
            state = state.chunks(4).flat_map(|column| mix_column(net, column)).collect();
        }
        state = with_key(net, &state, key);
    }
    whole.finish(&[join_from_highest(&state)])
}

fn permuted(word: &[Bit], place: impl Fn(usize) -> usize) -> Word {
    let mut out = word.to_vec();
    for (from, &bit) in word.iter().enumerate() {
        out[place(from)] = bit;
    }
    out
}

fn substituted(net: &mut Net, sbox: &Netlist, state: &[Bit]) -> Word {
    state.chunks(4).flat_map(|nibble| net.place(sbox, nibble)).collect()
}

/// PRESENT with a key of 80 bits: key, then message.
pub fn present80() -> Netlist {
    let (mut net, values) = Net::new(&[80, 64]);
    let sbox = part("present_sbox");
    let (mut key, mut state) = (values[0].clone(), values[1].clone());
    for round in 1..=31 {
        let mixed = xor(&mut net, &[&state, &key[16..]]);
        state = permuted(&substituted(&mut net, &sbox, &mixed), |i| if i == 63 { 63 } else { 16 * i % 63 });
        key = rotated_left(&key, 61);
        let top = net.place(&sbox, &key[76..]);
        key.splice(76.., top);
        let counted = xor(&mut net, &[&key[15..20], &constant(round, 5)]);
        key.splice(15..20, counted);
    }
    let out = xor(&mut net, &[&state, &key[16..]]);
    net.finish(&[out])
}

/// GIFT-64: key, then message.
pub fn gift64() -> Netlist {
    let (mut net, values) = Net::new(&[128, 64]);
    let sbox = part("gift_sbox");
    let (mut keys, mut state) = (split(&values[0], 16), values[1].clone());
    let mut round: u64 = 0;
    for _ in 0..28 {
        round = (round << 1 & 63) | (1 ^ (round >> 5 & 1) ^ (round >> 4 & 1));
        let place = |i: usize| 4 * (i / 16) + 16 * ((3 * (i % 16 / 4) + i % 4) % 4) + i % 4;
        state = permuted(&substituted(&mut net, &sbox, &state), place);
        let mut mask = constant(1 << 63, 64);
        for i in 0..16 {
            (mask[4 * i], mask[4 * i + 1]) = (keys[0][i], keys[1][i]);
        }
        for (i, bit) in constant(round, 6).into_iter().enumerate() {
            mask[4 * i + 3] = bit;
        }
        state = xor(&mut net, &[&state, &mask]);
        let (low, high) = (rotated_right(&keys[0], 12), rotated_right(&keys[1], 2));
        keys.drain(..2);
        keys.extend([low, high]);
    }
    net.finish(&[state])
}
