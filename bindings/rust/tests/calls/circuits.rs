//! The circuits of crates/vectors_circuits/data and their vectors.

use std::fs;
use std::path::PathBuf;

/// A circuit with its vectors: input bits and output bits, in wire order.
pub struct Circuit {
    pub name: String,
    pub text: Vec<u8>,
    pub vectors: Vec<(Vec<u8>, Vec<u8>)>,
}

fn folder() -> PathBuf {
    PathBuf::from(env!("CARGO_MANIFEST_DIR")).join("../../crates/vectors_circuits/data")
}

/// All circuits, by name.
pub fn all() -> Vec<Circuit> {
    let files = fs::read_dir(folder()).expect("crates/vectors_circuits/data is a folder");
    let mut names: Vec<String> = files
        .filter_map(|file| file.expect("crates/vectors_circuits/data can be read").file_name().into_string().ok())
        .filter_map(|name| name.strip_suffix(".txt").map(String::from))
        .collect();
    names.sort();
    names.iter().map(|name| circuit(name)).collect()
}

pub fn circuit(name: &str) -> Circuit {
    let text = fs::read(folder().join(format!("{name}.txt"))).expect("a circuit can be read");
    let vectors =
        fs::read_to_string(folder().join(format!("vectors/{name}.txt"))).expect("a circuit has vectors");
    let vectors = vectors.lines().map(vector).collect();
    Circuit { name: name.into(), text, vectors }
}

fn vector(line: &str) -> (Vec<u8>, Vec<u8>) {
    let mut words = line.split(' ');
    let mut bits =
        || words.next().expect("a vector has two words").bytes().map(|digit| digit - b'0').collect();
    (bits(), bits())
}
