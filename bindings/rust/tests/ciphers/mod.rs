//! Unrolled ciphers, hashes and arithmetic, built from their public definitions, with public vectors.

mod blocks;
mod net;
mod others;

use crate::calls::circuits;
use crate::calls::random::Random;
use crate::reference::netlist::{read, Netlist, SMALL};

pub use others::and_ladder;

/// A netlist with its vectors: input bits and output bits, in wire order.
pub struct Cipher {
    pub name: &'static str,
    pub netlist: Netlist,
    pub vectors: Vec<(Vec<u8>, Vec<u8>)>,
}

/// A small circuit of crates/vectors_circuits/data.
fn part(name: &str) -> Netlist {
    read(&SMALL, &circuits::circuit(name).text).expect("a circuit is good")
}

/// The bits of a number in hexadecimal digits, the lowest first.
pub fn number(digits: &str) -> Vec<u8> {
    let digits: Vec<u32> = digits.chars().filter_map(|digit| digit.to_digit(16)).collect();
    digits.iter().rev().flat_map(|digit| (0..4).map(move |place| (digit >> place & 1) as u8)).collect()
}

/// The bits of a byte string in hexadecimal digits, the first byte lowest.
fn bytes(digits: &str) -> Vec<u8> {
    let bits = number(digits);
    bits.chunks(8).rev().flatten().copied().collect()
}

fn bits_of(number: u64) -> Vec<u8> {
    (0..64).map(|place| (number >> place & 1) as u8).collect()
}

/// Numbers in hexadecimal digits: the values in, and the values out.
fn vector(inputs: &[&str], outputs: &[&str]) -> (Vec<u8>, Vec<u8>) {
    let bits = |values: &[&str]| values.iter().flat_map(|digits| number(digits)).collect();
    (bits(inputs), bits(outputs))
}

/// "abc", padded to a block of 512 bits.
fn padded_abc() -> String {
    format!("61626380{}18", "0".repeat(118))
}

fn hex(words: &[u64]) -> String {
    words.iter().map(|word| format!("{word:08x}")).collect()
}

/// Pairs of numbers with what a function of two numbers of 64 bits makes of them.
fn pairs(function: impl Fn(u64, u64) -> Vec<u8>) -> Vec<(Vec<u8>, Vec<u8>)> {
    let random = &mut Random::new(7);
    let chosen = [(u64::MAX, u64::MAX), (0, 1), (1_000_003, 997), (1 << 63, 3)];
    let drawn: Vec<(u64, u64)> = (0..8).map(|_| (random.next(), random.next() >> 17 | 1)).collect();
    let pair = |&(a, b): &(u64, u64)| ([bits_of(a), bits_of(b)].concat(), function(a, b));
    chosen.iter().chain(&drawn).map(pair).collect()
}

fn cipher(name: &'static str, netlist: Netlist, vectors: Vec<(Vec<u8>, Vec<u8>)>) -> Cipher {
    Cipher { name, netlist, vectors }
}

/// AES-128 with the vectors of FIPS-197, B and C.1.
pub fn aes_128() -> Cipher {
    let vectors = vec![
        vector(
            &["2b7e151628aed2a6abf7158809cf4f3c", "3243f6a8885a308d313198a2e0370734"],
            &["3925841d02dc09fbdc118597196a0b32"],
        ),
        vector(
            &["000102030405060708090a0b0c0d0e0f", "00112233445566778899aabbccddeeff"],
            &["69c4e0d86a7b0430d8cdb78070b4c55a"],
        ),
    ];
    cipher("aes_128", blocks::aes(128), vectors)
}

pub fn all() -> Vec<Cipher> {
    let (zeros, ones) = ("0".repeat(32), "f".repeat(32));
    let chacha = [
        bytes(&(0..32).map(|byte| format!("{byte:02x}")).collect::<String>()),
        number("00000001"),
        bytes("000000090000004a00000000"),
    ];
    let stream = "10f1e7e4d13b5915500fdd1fa32071c4c7d1f4c733c068030422aa9ac3d46c4e\
                  d2826446079faa0914c2d705d98b02a2b5129cd1de164eb9cbd083e8a2503c4e";
    let ascon_start = ["00400c0000000100", &zeros[..16], &zeros[..16], &zeros[..16], &zeros[..16]];
    let ascon_hash =
        ["ee9398aadb67f03d", "8bb21831c60f1002", "b48a92db98d5da62", "43189921b8f8e3e8", "348fa5c9d525e140"];
    vec![
        aes_128(),
        cipher(
            "aes_256",
            blocks::aes(256),
            vec![vector(
                &[
                    "000102030405060708090a0b0c0d0e0f101112131415161718191a1b1c1d1e1f",
                    "00112233445566778899aabbccddeeff",
                ],
                &["8ea2b7ca516745bfeafc49904b496089"],
            )],
        ),
        cipher(
            "sha256",
            others::sha256(),
            vec![vector(
                &[&padded_abc(), &hex(&others::sha256_start())],
                &["ba7816bf8f01cfea414140de5dae2223b00361a396177a9cb410ff61f20015ad"],
            )],
        ),
        cipher(
            "sha1",
            others::sha1(),
            vec![vector(
                &[&padded_abc(), "67452301efcdab8998badcfe10325476c3d2e1f0"],
                &["a9993e364706816aba3e25717850c26c9cd0d89d"],
            )],
        ),
        cipher("chacha20_block", others::chacha20_block(), vec![(chacha.concat(), bytes(stream))]),
        cipher("ascon_p12", others::ascon_p12(), vec![vector(&ascon_start, &ascon_hash)]),
        cipher(
            "present80",
            blocks::present80(),
            vec![
                vector(&[&zeros[..20], &zeros[..16]], &["5579c1387b228445"]),
                vector(&[&ones[..20], &zeros[..16]], &["e72c46c0f5945049"]),
                vector(&[&zeros[..20], &ones[..16]], &["a112ffc72f68417b"]),
                vector(&[&ones[..20], &ones[..16]], &["3333dcd3213210d2"]),
            ],
        ),
        cipher("gift64", blocks::gift64(), vec![vector(&[&zeros, &zeros[..16]], &["f62bc3ef34f775ac"])]),
        cipher("udivide64", others::udivide64(), pairs(|a, b| bits_of(a / b))),
        cipher(
            "mult2_64",
            others::mult2_64(),
            pairs(|a, b| {
                let product = u128::from(a) * u128::from(b);
                [bits_of(product as u64), bits_of((product >> 64) as u64)].concat()
            }),
        ),
        cipher(
            "and_ladder_100000",
            and_ladder(100_000),
            vec![(vec![0], vec![0; 100_000]), (vec![1], vec![1; 100_000])],
        ),
    ]
}
