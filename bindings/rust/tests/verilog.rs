//! Equations in Verilog: the library against a second reader, on cases, on circuits, on random texts and on damaged ones.

#[allow(dead_code)]
mod reference;

use fidrovelj::{from_verilog_lent, NameTables, Sizes};
use std::collections::HashMap;
use std::fs;
use std::path::Path;

/// The words and signs of a text, each whole: 16 where a byte is none of the subset's.
fn parts(text: &[u8]) -> Result<Vec<&[u8]>, u8> {
    let mut all = Vec::new();
    let mut i = 0;
    while i < text.len() {
        let word = text[i..].iter().take_while(|b| b.is_ascii_alphanumeric()).count();
        if word > 0 {
            all.push(&text[i..i + word]);
            i += word;
        } else if b"();,=~&^".contains(&text[i]) {
            all.push(&text[i..i + 1]);
            i += 1;
        } else if text[i] == b' ' || text[i] == b'\n' || text[i..].starts_with(b"\r\n") {
            i += 1;
        } else {
            return Err(16);
        }
    }
    Ok(all)
}

fn ask(question: u8, yes: bool) -> Result<(), u8> {
    if yes {
        Ok(())
    } else {
        Err(question)
    }
}

fn is_name(part: &[u8]) -> bool {
    let reserved: [&[u8]; 6] = [b"module", b"input", b"output", b"wire", b"assign", b"endmodule"];
    part[0].is_ascii_alphabetic() && part.len() <= 16 && !reserved.contains(&part)
}

/// The parts of a text, taken one after another.
struct Reader<'a> {
    parts: Vec<&'a [u8]>,
    at: usize,
}

impl<'a> Reader<'a> {
    fn peek(&self) -> &'a [u8] {
        self.parts.get(self.at).copied().unwrap_or(b" ")
    }

    fn sign(&mut self, sign: &[u8]) -> Result<(), u8> {
        self.at += 1;
        ask(16, self.parts.get(self.at - 1) == Some(&sign))
    }

    fn name(&mut self) -> Result<&'a [u8], u8> {
        let part = self.peek();
        self.at += 1;
        ask(16, is_name(part))?;
        Ok(part)
    }

    fn names(&mut self) -> Result<Vec<&'a [u8]>, u8> {
        let mut all = vec![self.name()?];
        while self.peek() == b"," {
            self.at += 1;
            all.push(self.name()?);
        }
        Ok(all)
    }
}

/// One operator, or a name that is read.
enum Step<'a> {
    Read(&'a [u8]),
    Not,
    And,
    Xor,
}

/// An expression in postfix order, by a stack of operators: `(`, `~`, `&` and `^`. With it how deep parentheses stand.
fn expression<'a>(r: &mut Reader<'a>) -> Result<(Vec<Step<'a>>, usize), u8> {
    let mut out = Vec::new();
    let mut stack: Vec<u8> = Vec::new();
    let (mut depth, mut deepest) = (0, 0);
    let strength = |b: u8| b"(^&~".iter().position(|&x| x == b).unwrap();
    let pop = |out: &mut Vec<Step<'a>>, b: u8| {
        out.push(match b {
            b'~' => Step::Not,
            b'&' => Step::And,
            _ => Step::Xor,
        })
    };
    loop {
        // an operand
        let mut inverse = false;
        while [&b"~"[..], b"("].contains(&r.peek()) {
            let b = r.peek()[0];
            ask(16, b == b'(' || !inverse)?;
            inverse = b == b'~';
            if b == b'(' {
                depth += 1;
                deepest = deepest.max(depth);
            }
            stack.push(b);
            r.at += 1;
        }
        out.push(Step::Read(r.name()?));
        // what ends it
        loop {
            let part = r.peek();
            r.at += 1;
            match part {
                b"&" | b"^" => {
                    while stack.last().is_some_and(|&top| strength(top) >= strength(part[0])) {
                        pop(&mut out, stack.pop().unwrap());
                    }
                    stack.push(part[0]);
                    break;
                }
                b")" | b";" => {
                    while stack.last().is_some_and(|&top| top != b'(') {
                        pop(&mut out, stack.pop().unwrap());
                    }
                    if part == b";" {
                        ask(16, stack.is_empty())?;
                        return Ok((out, deepest));
                    }
                    ask(16, stack.pop() == Some(b'('))?;
                    depth -= 1;
                }
                _ => return Err(16),
            }
        }
    }
}

/// The outcome of a call, by a list of what is declared and one of the assignments.
fn second(text: &[u8], tables: usize, room: usize) -> Result<Vec<u8>, u8> {
    ask(1, tables >= 2048)?;
    ask(2, text.len() <= 60_000)?;
    let mut r = Reader { parts: parts(text)?, at: 0 };
    ask(16, r.parts.iter().all(|p| !p[0].is_ascii_alphanumeric() || p.len() <= 16))?;
    r.sign(b"module")?;
    r.name()?;
    r.sign(b"(")?;
    let ports = r.names()?;
    r.sign(b")")?;
    r.sign(b";")?;
    let mut declared: Vec<(&[u8], u8)> = Vec::new();
    while let Some(kind) = [&b"input"[..], b"output", b"wire"].iter().position(|&k| k == r.peek()) {
        r.at += 1;
        declared.extend(r.names()?.into_iter().map(|n| (n, kind as u8)));
        r.sign(b";")?;
    }
    let mut assigns = Vec::new();
    let mut deepest = 0;
    while r.peek() == b"assign" {
        r.at += 1;
        let target = r.name()?;
        r.sign(b"=")?;
        let (value, depth) = expression(&mut r)?;
        deepest = deepest.max(depth);
        assigns.push((target, value));
    }
    r.sign(b"endmodule")?;
    ask(16, r.at == r.parts.len())?;

    let kinds: HashMap<&[u8], u8> = declared.iter().copied().collect();
    ask(17, kinds.len() == declared.len())?;
    let mut seen = HashMap::new();
    for &port in &ports {
        ask(17, matches!(kinds.get(port), Some(0 | 1)) && seen.insert(port, ()).is_none())?;
    }
    ask(17, declared.iter().all(|(n, kind)| *kind == 2 || seen.contains_key(n)))?;
    let of = |kind: u8| ports.iter().copied().filter(|p| kinds[p] == kind).collect::<Vec<_>>();
    let (ins, outs) = (of(0), of(1));
    ask(17, !ins.is_empty() && !outs.is_empty())?;
    let mut wires: HashMap<&[u8], usize> = ins.iter().copied().enumerate().map(|(i, n)| (n, i)).collect();
    let mut lines: Vec<String> = Vec::new();
    let mut next = ins.len();
    for (target, value) in &assigns {
        let mut stack: Vec<usize> = Vec::new();
        for step in value {
            let line = match step {
                Step::Read(name) => {
                    stack.push(*wires.get(name).ok_or(17)?);
                    continue;
                }
                Step::Not => format!("1 1 {} {next} INV", stack.pop().unwrap()),
                Step::And | Step::Xor => {
                    let (b, a) = (stack.pop().unwrap(), stack.pop().unwrap());
                    format!("2 1 {a} {b} {next} {}", if matches!(step, Step::And) { "AND" } else { "XOR" })
                }
            };
            lines.push(line);
            stack.push(next);
            next += 1;
        }
        ask(17, matches!(kinds.get(target), Some(1 | 2)))?;
        ask(17, wires.insert(target, stack[0]).is_none())?;
    }
    ask(17, declared.iter().all(|(n, _)| wires.contains_key(n)))?;
    ask(18, deepest <= 32)?;
    for out in &outs {
        lines.push(format!("1 1 {} {next} EQW", wires[out]));
        next += 1;
    }
    ask(5, next <= 2048)?;
    let mut written = format!("{} {next}\n1 {}\n1 {}\n\n", lines.len(), ins.len(), outs.len());
    for line in &lines {
        written.push_str(line);
        written.push('\n');
    }
    ask(14, written.len() <= room)?;
    Ok(written.into_bytes())
}

/// The library's outcome, and that it leaves tables zero and what lies beyond the result as it was.
fn library(text: &[u8], tables: usize, room: usize, sizes: Sizes) -> Result<Vec<u8>, u8> {
    let (mut operands, mut results) = (vec![7; tables], vec![7; tables]);
    let (mut heads, mut words, mut links) = (vec![7; 8 * tables], vec![7; 8 * tables], vec![7; 8 * tables]);
    let (mut states, mut wires) = (vec![7; 8 * tables], vec![7; 8 * tables]);
    let mut out = vec![0xaa; room];
    let names = NameTables {
        heads: &mut heads,
        words: &mut words,
        links: &mut links,
        states: &mut states,
        wires: &mut wires,
    };
    let answer = from_verilog_lent(text, &mut out, &mut operands, &mut results, names, sizes);
    assert!([operands, results, heads, words, links].iter().flatten().all(|&x| x == 0));
    assert!([states, wires].iter().flatten().all(|&x| x == 0));
    let length = *answer.as_ref().unwrap_or(&0);
    assert!(out[length..].iter().all(|&b| b == 0xaa));
    answer.map(|n| out[..n].to_vec()).map_err(|refused| refused.number())
}

fn compare(text: &[u8], tables: usize, room: usize) -> Result<Vec<u8>, u8> {
    let a = library(text, tables, room, Sizes::Standard);
    let b = second(text, tables, room);
    assert_eq!(a, b, "{}", String::from_utf8_lossy(&text[..text.len().min(2000)]));
    a
}

fn outcome(text: &str) -> Result<String, u8> {
    compare(text.as_bytes(), 2048, 60_000).map(|t| String::from_utf8(t).unwrap())
}

/// A generator of numbers.
struct Random(u64);

impl Random {
    fn below(&mut self, n: u32) -> u32 {
        self.0 ^= self.0 << 13;
        self.0 ^= self.0 >> 7;
        self.0 ^= self.0 << 17;
        ((self.0 >> 20) % u64::from(n)) as u32
    }
}

fn module(body: &str) -> String {
    format!("module m(y,a,b);input a,b;output y;wire w;{body}endmodule")
}

#[test]
fn outside_the_subset() {
    let good = module("assign w=a;assign y=w;");
    assert!(outcome(&good).is_ok());
    for text in [
        "", "module", "module m", "module m(", "module m()", "module m();endmodule", "module m(a,);endmodule",
        "module m(,a);endmodule", "module m(a)endmodule", "module m(a a);endmodule", "module wire(a);endmodule",
        "module m(a);input a", "module m(a);input;endmodule", "module m(a);input a,;endmodule", "module m(a);input wire a;endmodule",
        "module m(a);input a;endmodule endmodule", "module m(a);input a;endmodule;", "module m(a);inputa;endmodule",
        "modulem(a);endmodule", "module 1m(a);endmodule", "module m(a1234567890123456);endmodule", "x",
        "module m(a);reg a;endmodule", "module m(a_b);endmodule", "module m(a);\tinput a;endmodule", "module m(a);\rinput a;endmodule",
    ] {
        assert_eq!(outcome(text), Err(16), "{text}");
    }
    for body in [
        "assign w=;", "assign w=a", "assign =a;", "assign w a;", "assigny=a;", "assign w=a b;", "assign w=~~a;", "assign w=~;",
        "assign w=a&;", "assign w=&a;", "assign w=a^^b;", "assign w=a|b;", "assign w=a&&b;", "assign w=(a;", "assign w=a);",
        "assign w=();", "assign w=(a)(b);", "assign w=a~b;", "assign w=a^~~b;", "assign w=a;wire v;", "assign w=1;", "assign w==a;",
        "assign w=((a)&b;", "assign input=a;", "assign w=a;;", ";", "assign w=a,y=b;",
    ] {
        assert_eq!(outcome(&module(body)), Err(16), "{body}");
    }
}

#[test]
fn names_as_they_must_be() {
    for body in [
        "", "assign y=a;", "assign w=a;", "assign y=w;assign w=a;", "assign w=w;assign y=a;", "assign w=a;assign y=y;",
        "assign w=a;assign y=v;", "assign w=a;assign y=a;assign v=a;", "assign w=a;assign w=b;assign y=a;", "assign w=a;assign y=m;",
        "assign w=a;assign y=a;assign y=b;", "assign a=b;assign w=a;assign y=a;", "assign w=a;assign y=Y;", "assign w=y;assign y=a;",
    ] {
        assert_eq!(outcome(&module(body)), Err(17), "{body}");
    }
    for text in [
        "module m(y,a);input a;output y,z;assign y=a;assign z=a;endmodule", "module m(y,a,z);input a;output y;assign y=a;endmodule",
        "module m(y,a,a);input a;output y;assign y=a;endmodule", "module m(y,a,w);input a;output y;wire w;assign w=a;assign y=a;endmodule",
        "module m(y,a);input a;output y;wire a;assign y=a;endmodule", "module m(y,a);input a,a;output y;assign y=a;endmodule",
        "module m(a);input a;endmodule", "module m(y);output y;wire w;assign w=w;assign y=w;endmodule", "module m(y,a);input a;output y;input y;assign y=a;endmodule",
        "module m(y,a);input a,b;output y;assign y=a;endmodule",
    ] {
        assert_eq!(outcome(text), Err(17), "{text}");
    }
}

#[test]
fn the_netlist_made() {
    let gates = |text: &str| outcome(text).unwrap().split("\n\n").nth(1).unwrap().to_string();
    let three = |e: &str| format!("module m(a,b,c,y);input a,b,c;output y;assign y={e};endmodule");
    assert_eq!(gates(&three("a^b&c")), "2 1 1 2 3 AND\n2 1 0 3 4 XOR\n1 1 4 5 EQW\n");
    assert_eq!(gates(&three("a&b&c")), "2 1 0 1 3 AND\n2 1 3 2 4 AND\n1 1 4 5 EQW\n");
    assert_eq!(gates(&three("a^b^c")), "2 1 0 1 3 XOR\n2 1 3 2 4 XOR\n1 1 4 5 EQW\n");
    assert_eq!(gates(&three("~(a^b)&~ c")), "2 1 0 1 3 XOR\n1 1 3 4 INV\n1 1 2 5 INV\n2 1 4 5 6 AND\n1 1 6 7 EQW\n");
    assert_eq!(gates(&three("~(~a)")), "1 1 0 3 INV\n1 1 3 4 INV\n1 1 4 5 EQW\n");
    // port order, not the order of declarations; a bare assignment makes no gate; CR LF; a word's prefix is a name
    let text = " module\r\nm(z,b,y,a);\r\ninput a;\ninput b;output y,z;wire inputa , assign1;assign inputa=a;assign assign1=inputa;assign y=assign1;\nassign z=y^b;endmodule\r\n";
    assert_eq!(outcome(text).unwrap(), "3 5\n1 2\n1 2\n\n2 1 1 0 2 XOR\n1 1 2 3 EQW\n1 1 1 4 EQW\n");
    let sixteen = "module m(a234567890123456,y);input a234567890123456;output y;assign y=a234567890123456;endmodule";
    assert!(outcome(sixteen).is_ok());
    assert_eq!(outcome(&sixteen.replace("a234567890123456", "a2345678901234567")), Err(16));
}

/// Question 18, behind 16 and 17 of the whole text, at any depth.
#[test]
fn depth() {
    let deep = |k: usize, rest: &str| format!("module m(y,a);input a;output y;assign y={}a{};{rest}endmodule", "(".repeat(k), ")".repeat(k));
    assert!(outcome(&deep(32, "")).is_ok());
    for k in [33, 34, 1000, 20_000] {
        assert_eq!(outcome(&deep(k, "")), Err(18));
        assert_eq!(outcome(&deep(k, "assign y=a;")), Err(17));
        assert_eq!(outcome(&deep(k, "assign v=a;")), Err(17));
        assert_eq!(outcome(&deep(k, "assign y=~~a;")), Err(16));
    }
    assert_eq!(outcome(&deep(20_000, "").replacen(')', " ", 1)), Err(16));
    let inverse = format!("module m(y,a);input a;output y;assign y={}a{};endmodule", "~(".repeat(32), ")".repeat(32));
    assert!(outcome(&inverse).is_ok());
}

/// Many names: of wires that make no gate, of inputs, of more than the tables have room for; and the limits on wires and text.
#[test]
fn limits() {
    let name = |mut i: usize| {
        let mut s = String::new();
        loop {
            s.push((b'a' + (i % 26) as u8) as char);
            i /= 26;
            if i == 0 {
                return s;
            }
        }
    };
    let same = |count: usize| {
        let ws: Vec<String> = (26..26 + count).map(name).collect();
        let mut s = format!("module m(a,y);input a;output y;wire {};", ws.join(","));
        for w in &ws {
            s += &format!("assign {w}=a;");
        }
        s + "assign y=a;endmodule"
    };
    let accepted = same(3200);
    assert!(accepted.len() <= 60_000);
    assert!(outcome(&accepted).is_ok());
    let ports = |count: usize| {
        let ins: Vec<String> = (26..26 + count).map(name).collect();
        format!("module m({},y);input {};output y;assign y={};endmodule", ins.join(","), ins.join(","), ins[0])
    };
    assert!(outcome(&ports(2047)).is_ok());
    assert_eq!(outcome(&ports(2048)), Err(5));
    let most = ports(6800);
    assert!(most.len() > 50_000 && most.len() <= 60_000);
    assert_eq!(outcome(&most), Err(5));
    let names: Vec<String> = (0..19_000).map(|_| "a".to_string()).collect();
    assert_eq!(outcome(&format!("module m(a);input {};endmodule", names.join(","))), Err(17));
    let many: Vec<String> = (26..26 + 14_000).map(name).collect();
    assert_eq!(outcome(&format!("module m(a);input {};endmodule", many.join(","))), Err(17));
    let chain = |ops: usize| format!("module m(a,y);input a;output y;assign y=a{};endmodule", "^a".repeat(ops));
    assert!(outcome(&chain(2046)).is_ok());
    assert_eq!(outcome(&chain(2047)), Err(5));
    let mut long = chain(1).into_bytes();
    long.resize(60_000, b' ');
    assert!(compare(&long, 2048, 60_000).is_ok());
    long.push(b' ');
    assert_eq!(compare(&long, 2048, 60_000), Err(2));
    assert_eq!(compare(&long, 2047, 60_000), Err(1));
    let text = chain(3);
    let size = outcome(&text).unwrap().len();
    assert!(compare(text.as_bytes(), 2048, size).is_ok());
    assert_eq!(compare(text.as_bytes(), 2048, size - 1), Err(14));
}

/// A text of the subset, with names that now and then break the rules.
fn random_text(r: &mut Random) -> Vec<u8> {
    let count = 2 + r.below(8) as usize;
    let names: Vec<String> = (0..count).map(|i| format!("{}{}", ["a", "wire", "x1", "Input"][r.below(4) as usize], i)).collect();
    let ins = 1 + r.below(count as u32 - 1) as usize;
    let outs = 1 + r.below((count - ins) as u32) as usize;
    let mut ports: Vec<&String> = names[..ins + outs].iter().collect();
    for i in (1..ports.len()).rev() {
        ports.swap(i, r.below(i as u32 + 1) as usize);
    }
    fn expression(r: &mut Random, known: &[String], depth: u32) -> String {
        let mut s = String::new();
        for i in 0..1 + r.below(3) {
            if i > 0 {
                s += ["&", "^", " & ", "\n^ "][r.below(4) as usize];
            }
            s += ["", "", "~", "~ "][r.below(4) as usize];
            if depth > 0 && r.below(3) == 0 {
                s += &format!("({})", expression(r, known, depth - 1));
            } else {
                s += &known[r.below(known.len() as u32) as usize];
            }
        }
        s
    }
    let end = ["", "\n", "\r\n", " "][r.below(4) as usize];
    let port_list: Vec<&str> = ports.iter().map(|p| p.as_str()).collect();
    let mut s = format!("module m({});{end}input {};{end}", port_list.join(", "), names[..ins].join(","));
    s += &format!("output {};{end}", names[ins..ins + outs].join(","));
    if ins + outs < count {
        s += &format!("wire {};{end}", names[ins + outs..].join(" , "));
    }
    let mut known: Vec<String> = names[..ins].to_vec();
    let mut targets: Vec<String> = names[ins..].to_vec();
    while !targets.is_empty() {
        let target = targets.remove(r.below(targets.len() as u32) as usize);
        let among = if r.below(60) == 0 { &names } else { &known };
        s += &format!("assign {target} = {};{end}", expression(r, among, 3));
        known.push(target);
    }
    s += "endmodule";
    s += end;
    s.into_bytes()
}

fn damage(r: &mut Random, text: &mut Vec<u8>) {
    let bytes = b"()~&^;,= \n\r\tabwx01_";
    if text.is_empty() {
        return;
    }
    let at = r.below(text.len() as u32) as usize;
    match r.below(4) {
        0 => text[at] = bytes[r.below(bytes.len() as u32) as usize],
        1 => text.insert(at, bytes[r.below(bytes.len() as u32) as usize]),
        2 => {
            text.remove(at);
        }
        _ => text.truncate(at),
    }
}

#[test]
fn random_texts_and_damaged_ones() {
    let r = &mut Random(0x9e37_79b9_7f4a_7c15);
    let mut seen = [0; 21];
    for _ in 0..10_000 {
        let mut text = random_text(r);
        for _ in 0..r.below(3) {
            damage(r, &mut text);
        }
        let tables = if r.below(50) == 0 { 2047 } else { 2048 };
        let room = if r.below(10) == 0 { r.below(200) as usize } else { 60_000 };
        match compare(&text, tables, room) {
            Ok(_) => seen[0] += 1,
            Err(q) => seen[usize::from(q)] += 1,
        }
    }
    for question in [0, 1, 14, 16, 17] {
        assert!(seen[question] > 0, "{question}: {seen:?}");
    }
}

/// Circuits as equations, flat and nested, compute what their netlists compute on every vector.
#[test]
fn circuits() {
    let root = Path::new(env!("CARGO_MANIFEST_DIR"));
    let mut count = 0;
    for entry in fs::read_dir(root.join("tests/verilog")).unwrap() {
        let path = entry.unwrap().path();
        let name = path.file_stem().unwrap().to_str().unwrap().trim_end_matches("_nested").to_string();
        let made = compare(&fs::read(&path).unwrap(), 2048, 60_000).unwrap();
        let Ok(vectors) = fs::read_to_string(root.join(format!("../../crates/vectors_circuits/data/vectors/{name}.txt"))) else {
            continue;
        };
        for line in vectors.lines().filter(|l| !l.starts_with('#') && !l.is_empty()) {
            let words: Vec<&str> = line.split(' ').collect();
            let bits: Vec<u8> = words[0].bytes().map(|b| b - b'0').collect();
            let want: Vec<u8> = words[1].bytes().map(|b| b - b'0').collect();
            let got = reference::run(&[], &made, &bits, 100_000, reference::netlist::Sizes::Standard);
            assert_eq!(got, Ok(want), "{name}: {line}");
        }
        count += 1;
    }
    assert!(count >= 20, "{count}");
}

/// A module of 100,000 assignments in the sizes for whole ciphers.
#[test]
fn whole_sizes() {
    let mut s = String::from("module m(a,y);input a;output y;wire ");
    let names: Vec<String> = (0..90_000).map(|i| format!("w{i:x}")).collect();
    s += &names.join(",");
    s += ";assign w0=~a;";
    for pair in names.windows(2) {
        s += &format!("assign {}={}^a;", pair[1], pair[0]);
    }
    s += &format!("assign y={};endmodule", names[names.len() - 1]);
    assert!(s.len() <= 3_000_000);
    let made = library(s.as_bytes(), 100_000, 3_000_000, Sizes::Whole).unwrap();
    assert!(made.starts_with(b"90001 90002\n1 1\n1 1\n\n1 1 0 1 INV\n2 1 1 0 2 XOR\n"));
}
