//! AIGER files: the library against a second reader, on circuits, on random files and on damaged ones.

#[allow(dead_code)]
mod reference;

use fidrovelj::{from_aiger_lent, Sizes};
use std::collections::HashMap;
use std::fs;
use std::path::Path;

/// The words of each line that is not blank, from a place on. Lines end in LF or CR LF; words are parted by spaces.
struct Lines<'a> {
    rest: Option<&'a [u8]>,
}

impl<'a> Lines<'a> {
    /// The next line, whole, without what ends it.
    fn line(&mut self) -> Option<&'a [u8]> {
        let rest = self.rest?;
        match rest.iter().position(|&b| b == b'\n') {
            None => {
                self.rest = None;
                Some(rest)
            }
            Some(end) => {
                self.rest = Some(&rest[end + 1..]);
                let line = &rest[..end];
                Some(line.strip_suffix(b"\r").unwrap_or(line))
            }
        }
    }

    /// The numbers of the next line that is not blank: 19 where there is none, or a word is no number.
    fn numbers(&mut self) -> Result<Vec<u32>, u8> {
        while let Some(line) = self.line() {
            if line.iter().any(|&b| b != b' ') {
                return numbers(line);
            }
        }
        Err(19)
    }
}

fn numbers(line: &[u8]) -> Result<Vec<u32>, u8> {
    line.split(|&b| b == b' ').filter(|word| !word.is_empty()).map(number).collect()
}

fn number(word: &[u8]) -> Result<u32, u8> {
    let good = word.len() <= 6 && word.iter().all(u8::is_ascii_digit) && (word.len() == 1 || word[0] != b'0');
    if !good {
        return Err(19);
    }
    Ok(word.iter().fold(0, |v, &b| v * 10 + u32::from(b - b'0')))
}

fn ask(question: u8, yes: bool) -> Result<(), u8> {
    if yes {
        Ok(())
    } else {
        Err(question)
    }
}

/// Gates as lines of text, with the next wire's number.
struct Gates {
    lines: Vec<String>,
    next: usize,
}

impl Gates {
    fn gate(&mut self, line: String) -> usize {
        self.lines.push(line);
        self.next += 1;
        self.next - 1
    }

    fn operand(&mut self, wires: &HashMap<u32, usize>, literal: u32) -> usize {
        let c = self.next;
        match (literal, literal % 2) {
            (0 | 1, _) => self.gate(format!("1 1 {literal} {c} EQ")),
            (_, 0) => wires[&(literal / 2)],
            _ => self.gate(format!("1 1 {} {c} INV", wires[&(literal / 2)])),
        }
    }
}

/// The outcome of a call.
fn second(
    text: &[u8],
    tables: usize,
    room: usize,
    wires_limit: usize,
    text_limit: usize,
) -> Result<Vec<u8>, u8> {
    ask(1, tables >= wires_limit)?;
    ask(2, text.len() <= text_limit)?;
    ask(19, text.starts_with(b"aag "))?;
    let mut lines = Lines { rest: Some(&text[4..]) };
    let head = numbers(lines.line().unwrap())?;
    ask(19, head.len() == 5)?;
    let (most, ins, latches, outs, ands) = (head[0], head[1], head[2], head[3], head[4]);
    ask(19, ins > 0 && outs > 0 && (most as usize) < wires_limit)?;
    ask(20, latches == 0)?;
    let mut wires = HashMap::new();
    let give = |wires: &mut HashMap<u32, usize>, literal: u32, wire: usize| {
        let good =
            literal > 1 && literal.is_multiple_of(2) && literal / 2 <= most && !wires.contains_key(&(literal / 2));
        wires.insert(literal / 2, wire);
        ask(19, good)
    };
    for i in 0..ins {
        let line = lines.numbers()?;
        ask(19, line.len() == 1)?;
        give(&mut wires, line[0], i as usize)?;
    }
    let mut outputs = Vec::new();
    for _ in 0..outs {
        let line = lines.numbers()?;
        ask(19, line.len() == 1)?;
        outputs.push(line[0]);
    }
    let mut gates = Gates { lines: Vec::new(), next: ins as usize };
    for _ in 0..ands {
        let line = lines.numbers()?;
        ask(19, line.len() == 3)?;
        ask(19, line[1..].iter().all(|&x| x < 2 || wires.contains_key(&(x / 2))))?;
        let a = gates.operand(&wires, line[1]);
        let b = gates.operand(&wires, line[2]);
        let c = gates.next;
        give(&mut wires, line[0], c)?;
        gates.gate(format!("2 1 {a} {b} {c} AND"));
    }
    for &x in &outputs {
        ask(19, x < 2 || wires.contains_key(&(x / 2)))?;
    }
    for &x in &outputs {
        let c = gates.next;
        gates.gate(match (x, x % 2) {
            (0 | 1, _) => format!("1 1 {x} {c} EQ"),
            (_, 0) => format!("1 1 {} {c} EQW", wires[&(x / 2)]),
            _ => format!("1 1 {} {c} INV", wires[&(x / 2)]),
        });
    }
    ask(5, gates.next <= wires_limit)?;
    let mut written = format!("{} {}\n1 {ins}\n1 {outs}\n\n", gates.lines.len(), gates.next);
    for line in &gates.lines {
        written.push_str(line);
        written.push('\n');
    }
    ask(14, written.len() <= room)?;
    Ok(written.into_bytes())
}

/// The library's outcome, and that it leaves tables zero and what lies beyond the result as it was.
fn library(text: &[u8], tables: usize, room: usize) -> Result<Vec<u8>, u8> {
    let (mut operands, mut results, mut variables) = (vec![7; tables], vec![7; tables], vec![7; tables]);
    let mut out = vec![0xaa; room];
    let answer = from_aiger_lent(text, &mut out, &mut operands, &mut results, &mut variables, Sizes::Standard);
    assert!(operands.iter().chain(&results).all(|&x| x == 0) && variables.iter().all(|&x| x == 0));
    let length = *answer.as_ref().unwrap_or(&0);
    assert!(out[length..].iter().all(|&b| b == 0xaa));
    answer.map(|n| out[..n].to_vec()).map_err(|refused| refused.number())
}

fn compare(text: &[u8], tables: usize, room: usize) -> Result<Vec<u8>, u8> {
    let a = library(text, tables, room);
    let b = second(text, tables, room, 2048, 60_000);
    assert_eq!(a, b, "{}", String::from_utf8_lossy(text));
    a
}

/// A generator of numbers.
struct Random(u64);

impl Random {
    fn below(&mut self, n: u32) -> u32 {
        self.0 ^= self.0 << 13;
        self.0 ^= self.0 >> 7;
        self.0 ^= self.0 << 17;
        ((self.0 >> 20) % u64::from(n)) as u32
    }
}

/// A good file, its variables in mixed order.
fn random_file(r: &mut Random) -> Vec<u8> {
    let (ins, outs, ands) = (1 + r.below(5), 1 + r.below(4), r.below(12));
    let most = ins + ands + r.below(3);
    let mut names: Vec<u32> = (1..=most).collect();
    for i in (1..names.len()).rev() {
        names.swap(i, r.below(i as u32 + 1) as usize);
    }
    let end = if r.below(4) == 0 { "\r\n" } else { "\n" };
    let literal = |r: &mut Random, given: usize| match r.below(8) {
        0 => r.below(2),
        _ => 2 * names[r.below(given as u32) as usize] + r.below(2),
    };
    let mut s = format!("aag {most} {ins} 0 {outs} {ands}{end}");
    for v in &names[..ins as usize] {
        s += &format!("{}{end}", 2 * v);
    }
    for _ in 0..outs {
        s += &format!("{}{end}", literal(r, (ins + ands) as usize));
    }
    for i in 0..ands as usize {
        let given = ins as usize + i;
        let (a, b) = (literal(r, given), literal(r, given));
        s += &format!("{} {a} {b}{end}", 2 * names[given]);
    }
    if r.below(2) == 0 {
        s += "i0 x\r y\nc\n\0any bytes\t";
    }
    s.into_bytes()
}

fn damage(r: &mut Random, text: &mut Vec<u8>) {
    let bytes = b"0123456789 \n\r\tac";
    if text.is_empty() {
        return;
    }
    let at = r.below(text.len() as u32) as usize;
    match r.below(4) {
        0 => text[at] = bytes[r.below(bytes.len() as u32) as usize],
        1 => text.insert(at, bytes[r.below(bytes.len() as u32) as usize]),
        2 => {
            text.remove(at);
        }
        _ => text.truncate(at),
    }
}

#[test]
fn random_files_and_damaged_ones() {
    let r = &mut Random(0x9e37_79b9_7f4a_7c15);
    let mut seen = [0; 21];
    for _ in 0..20_000 {
        let mut text = random_file(r);
        for _ in 0..r.below(3) {
            damage(r, &mut text);
        }
        let tables = if r.below(50) == 0 { 2047 } else { 2048 };
        let room = if r.below(10) == 0 { r.below(200) as usize } else { 60_000 };
        match compare(&text, tables, room) {
            Ok(_) => seen[0] += 1,
            Err(q) => seen[usize::from(q)] += 1,
        }
    }
    for question in [0, 1, 14, 19, 20] {
        assert!(seen[question] > 0, "{question}: {seen:?}");
    }
}

/// M at the limit, W at the limit and above, a text at the limit and above, and the order of 19, 20 and 19.
#[test]
fn limits() {
    let chain = |ands: u32| {
        let mut s = format!("aag {} 1 0 1 {ands}\n2\n{}\n", ands + 1, 2 * ands + 2);
        for i in 0..ands {
            s += &format!("{} {} {}\n", 2 * i + 4, 2 * i + 2, 2 * i + 2);
        }
        s.into_bytes()
    };
    assert!(compare(&chain(2046), 2048, 60_000).is_ok());
    assert_eq!(compare(&chain(2047), 2048, 60_000), Err(19));
    // one input, 1,023 ANDs with one INV each and one output: 2,048 wires; an output more: 2,049
    let inverse = |outs: u32| {
        let mut s = format!("aag 1024 1 0 {outs} 1023\n2\n");
        s += &"2\n".repeat(outs as usize);
        for i in 0..1023 {
            s += &format!("{} {} {}\n", 2 * i + 4, 2 * i + 3, 2 * i + 2);
        }
        s.into_bytes()
    };
    assert!(compare(&inverse(1), 2048, 60_000).is_ok());
    assert_eq!(compare(&inverse(2), 2048, 60_000), Err(5));
    let mut late = inverse(2000);
    late.truncate(late.iter().rposition(|&b| b == b' ').unwrap());
    assert_eq!(compare(&late, 2048, 60_000), Err(19));
    let mut long = chain(1);
    long.resize(60_000, b'\r');
    assert!(compare(&long, 2048, 60_000).is_ok());
    long.push(0);
    assert_eq!(compare(&long, 2048, 60_000), Err(2));
    assert_eq!(compare(b"aag 2048 1 1 1 0\n2\n", 2048, 60_000), Err(19));
    assert_eq!(compare(b"aag 2047 1 1 1 0\n", 2048, 60_000), Err(20));
    assert_eq!(compare(b"aag 1 1 0 1 0 0\n2\n2\n", 2048, 60_000), Err(19));
}

/// Outputs as many as the tables have entries, and more: 5, or 19 for one that is never given.
#[test]
fn many_outputs() {
    let file = |most: u32, outs: usize, last: u32| {
        let mut s = format!("aag {most} 1 0 {} 1\n2\n", outs + 1);
        s += &"2\n0\n3\n1\n".repeat(outs / 4 + 1)[..2 * outs];
        (s + &format!("{last}\n4 2 3\n")).into_bytes()
    };
    for outs in [0, 1, 2043, 2044, 2045, 2046, 2047, 2048, 2049, 4095, 20_000] {
        let fits = outs + 1 + 3 <= 2048;
        for last in [0, 1, 2, 3, 4, 5] {
            let answer = compare(&file(2, outs, last), 2048, 60_000);
            assert_eq!(answer.is_ok(), fits);
            assert!(fits || answer == Err(5));
        }
        for last in [6, 7, 4_094, 4_095, 4_096, 999_999] {
            for most in [2, 3, 2_047] {
                assert_eq!(compare(&file(most, outs, last), 2048, 60_000), Err(19));
            }
        }
        assert_eq!(compare(&file(2, outs, 1_000_000), 2048, 60_000), Err(19));
    }
}

/// Circuits as two tools write them compute what their netlists compute.
#[test]
fn circuits() {
    let root = Path::new(env!("CARGO_MANIFEST_DIR"));
    let r = &mut Random(0x1234_5678_9abc_def1);
    let mut count = 0;
    for folder in ["plain", "yosys"] {
        for entry in fs::read_dir(root.join("tests/aiger").join(folder)).unwrap() {
            let path = entry.unwrap().path();
            let name = path.file_stem().unwrap().to_str().unwrap();
            let made = compare(&fs::read(&path).unwrap(), 2048, 60_000).unwrap();
            let Ok(netlist) = fs::read(root.join(format!("../../crates/vectors_circuits/data/{name}.txt")))
            else {
                continue;
            };
            let width: usize =
                std::str::from_utf8(&made).unwrap().lines().nth(1).unwrap()[2..].parse().unwrap();
            for _ in 0..200 {
                let bits: Vec<u8> = (0..width).map(|_| r.below(2) as u8).collect();
                let run =
                    |text: &[u8]| reference::run(&[], text, &bits, 100_000, reference::netlist::Sizes::Standard);
                assert_eq!(run(&made), run(&netlist), "{folder}/{name}");
            }
            count += 1;
        }
    }
    assert!(count >= 20, "{count}");
}
