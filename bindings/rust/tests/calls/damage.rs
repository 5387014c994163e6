//! Texts in many layouts, and damage to texts and lists.

use super::random::Random;
use crate::reference::netlist::Netlist;

/// A text in the making: its lines, each as its words, and the numbers that damage aims at.
pub struct Draft {
    lines: Vec<Vec<String>>,
    bits: usize,
    wires: usize,
}

impl Draft {
    pub fn new(netlist: &Netlist) -> Draft {
        let text = String::from_utf8(netlist.write()).expect("a written netlist is ASCII");
        let words = |line: &str| line.split_whitespace().map(String::from).collect();
        let lines = text.lines().filter(|line| !line.is_empty()).map(words).collect();
        Draft { lines, bits: netlist.input_bits(), wires: netlist.wires }
    }

    /// The text in the written form.
    pub fn written(&self) -> Vec<u8> {
        let mut text = String::new();
        for (place, line) in self.lines.iter().enumerate() {
            text += &line.join(" ");
            text += if place == 2 { "\n\n" } else { "\n" };
        }
        text.into_bytes()
    }

    /// The text with spaces, blank lines and CR LFs at liberty, the last line's end perhaps missing.
    pub fn loose(&self, random: &mut Random) -> Vec<u8> {
        let mut text = Vec::new();
        let often = random.pick(&[2, 20, 60]);
        let crlf = random.pick(&[0, 0, 40, 100]);
        blank_lines(random, often, crlf, &mut text);
        for line in &self.lines {
            spaces(random, often, &mut text);
            for (place, word) in line.iter().enumerate() {
                if place > 0 {
                    text.push(b' ');
                    spaces(random, often, &mut text);
                }
                text.extend_from_slice(word.as_bytes());
            }
            spaces(random, often, &mut text);
            line_end(random, crlf, &mut text);
            blank_lines(random, often, crlf, &mut text);
        }
        spaces(random, often, &mut text);
        if random.percent(30) && text.last() == Some(&b'\n') {
            text.pop();
            // A CR that is left behind is no end.
            if random.percent(80) && text.last() == Some(&b'\r') {
                text.pop();
            }
        }
        text
    }

    /// One change to lines or words. Many make a text that is refused, some another good one.
    pub fn damage(&mut self, random: &mut Random) {
        if self.lines.is_empty() {
            return;
        }
        let place = self.any_line(random);
        match random.below(17) {
            0 => drop(self.lines.remove(place)),
            1 => self.lines.insert(place, self.lines[place].clone()),
            2 => {
                let other = self.any_line(random);
                self.lines.swap(place, other);
            }
            3 => drop_word(random, &mut self.lines[place]),
            4 => double_word(random, &mut self.lines[place]),
            5 => swap_words(random, &mut self.lines[place]),
            6..=9 => self.damage_number(random, place),
            10 => self.damage_name(random, place),
            11 => self.damage_header(random),
            12 => self.damage_opening(random, place),
            13 => self.other_wire(random, place),
            14 => self.lines.insert(place, rubbish(random)),
            15 => self.damage_line_end(random, place),
            _ => self.damage_values(random),
        }
    }

    /// A line's place, of the header in some cases.
    fn any_line(&self, random: &mut Random) -> usize {
        let count = self.lines.len();
        if count <= 3 || random.percent(15) {
            random.below(count.min(3))
        } else {
            random.between(3, count - 1)
        }
    }

    /// A number on a line becomes one at a boundary, or none at all.
    fn damage_number(&mut self, random: &mut Random, place: usize) {
        let (n, w) = (self.bits, self.wires);
        let line = &mut self.lines[place];
        // On a gate's line a wire, more often than not.
        let words = if line.len() >= 5 && random.percent(80) { 2..line.len() - 1 } else { 0..line.len() };
        let Some(word) = any_word(random, &mut line[words]) else { return };
        *word = match random.below(18) {
            0 => "0".into(),
            1 => "1".into(),
            2 => (n - 1).to_string(),
            3 => n.to_string(),
            4 => (w - 1).to_string(),
            5 => w.to_string(),
            6 => (w + 1).to_string(),
            7 => "2".into(),
            8 => random.pick(&["99999", "100000", "999999"]).into(),
            9 => "1000000".into(),
            10 => format!("0{word}"),
            11 => "00".into(),
            12 => format!("{word}0"),
            13 => random.pick(&["65536", "65537", "32768", "18430", "18431", "2048", "2049"]).into(),
            14 => (4_294_967_296 + random.below(w) as u64).to_string(),
            15 => (18_446_744_073_709_551_616 + random.below(w) as u128).to_string(),
            16 => random.pick(&["A", "Z", "1A", "A1", "X0R", "O"]).into(),
            _ => random.below(w).to_string(),
        };
    }

    /// A gate's name becomes another, or none.
    fn damage_name(&mut self, random: &mut Random, place: usize) {
        let names = ["XOR", "AND", "INV", "EQW", "EQ", "MAND", "NAND", "OR", "NOT"];
        let others =
            ["XO", "XORX", "EQX", "EQWW", "E", "2XOR", "AN", "ANDAND", "IN", "INVV", "xor", "And", "EQw"];
        if let Some(name) = self.lines[place].last_mut() {
            *name = if random.percent(60) { random.pick(&names) } else { random.pick(&others) }.into();
        }
    }

    /// A number of the header goes up or down by one.
    fn damage_header(&mut self, random: &mut Random) {
        let place = random.below(self.lines.len().min(3));
        let Some(word) = any_word(random, &mut self.lines[place]) else { return };
        if let Ok(number) = word.parse::<u64>() {
            *word = if random.percent(50) { number + 1 } else { number.saturating_sub(1) }.to_string();
        }
    }

    /// The counts of operands and results that open a gate's line change.
    fn damage_opening(&mut self, random: &mut Random, place: usize) {
        let place = if random.percent(80) { place.max(3).min(self.lines.len() - 1) } else { place };
        let line = &mut self.lines[place];
        let at = random.below(2);
        if at < line.len() {
            line[at] = random.pick(&["0", "1", "2", "3", "01", "02", "12", "11", "I"]).into();
        }
    }

    /// An operand or a result becomes a wire that another line names.
    fn other_wire(&mut self, random: &mut Random, place: usize) {
        let other = self.any_line(random);
        let Some(wire) = any_word(random, &mut self.lines[other]).cloned() else { return };
        let line = &mut self.lines[place];
        if line.len() >= 5 {
            let last = line.len() - 2;
            line[random.between(2, last)] = wire;
        }
    }

    /// A line is parted in two, or joined with the next.
    fn damage_line_end(&mut self, random: &mut Random, place: usize) {
        if random.percent(50) && place + 1 < self.lines.len() {
            let mut next = self.lines.remove(place + 1);
            self.lines[place].append(&mut next);
        } else if self.lines[place].len() >= 2 {
            let at = random.between(1, self.lines[place].len() - 1);
            let rest = self.lines[place].split_off(at);
            self.lines.insert(place + 1, rest);
        }
    }

    /// The values in or out become others, around the largest number of them.
    fn damage_values(&mut self, random: &mut Random) {
        let place = random.between(1, 2);
        if place >= self.lines.len() {
            return;
        }
        let count = random.pick(&[0, 1, 2, 15, 16, 17, 18, 19]);
        let stated = if random.percent(85) { count } else { random.below(20) };
        let mut line = vec![stated.to_string()];
        line.extend((0..count).map(|_| if random.percent(97) { 1 } else { 0 }.to_string()));
        self.lines[place] = line;
    }
}

fn any_word<'a>(random: &mut Random, line: &'a mut [String]) -> Option<&'a mut String> {
    let length = line.len();
    if length == 0 {
        return None;
    }
    line.get_mut(random.below(length))
}

fn drop_word(random: &mut Random, line: &mut Vec<String>) {
    if !line.is_empty() {
        line.remove(random.below(line.len()));
    }
}

fn double_word(random: &mut Random, line: &mut Vec<String>) {
    if !line.is_empty() {
        let at = random.below(line.len());
        line.insert(at, line[at].clone());
    }
}

fn swap_words(random: &mut Random, line: &mut [String]) {
    if !line.is_empty() {
        let (a, b) = (random.below(line.len()), random.below(line.len()));
        line.swap(a, b);
    }
}

/// A line of words that name no gate.
fn rubbish(random: &mut Random) -> Vec<String> {
    let words = ["0", "1", "2", "7", "XOR", "RUBBISH", "Z", "00", "123456", "1234567"];
    (0..random.between(1, 7)).map(|_| random.pick(&words).into()).collect()
}

fn spaces(random: &mut Random, often: usize, text: &mut Vec<u8>) {
    while random.percent(often) {
        text.push(b' ');
    }
}

/// CR LF in so many of a hundred cases, otherwise LF.
fn line_end(random: &mut Random, crlf: usize, text: &mut Vec<u8>) {
    if random.percent(crlf) {
        text.push(b'\r');
    }
    text.push(b'\n');
}

fn blank_lines(random: &mut Random, often: usize, crlf: usize, text: &mut Vec<u8>) {
    while random.percent(often) {
        spaces(random, often, text);
        line_end(random, crlf, text);
    }
}

/// One change to a text's bytes.
pub fn damage_bytes(random: &mut Random, text: &mut Vec<u8>) {
    if text.is_empty() {
        text.push(random.next() as u8);
        return;
    }
    let at = random.below(text.len());
    match random.below(16) {
        0 => text[at] = random.next() as u8,
        1 => text[at] ^= 1 << random.below(8),
        2 => text[at] = random.pick(b"/:@[`az\r\t\0\x0b\x7f\x80\xff-+.,#"),
        3 => text[at] = random.pick(b"0123456789AXZ \n"),
        4 => text.insert(at, random.pick(b"0123456789AXZ \n")),
        5 => text.insert(at, random.next() as u8),
        6 | 7 => drop(text.remove(at)),
        8 => text.truncate(at),
        9 => text.insert(at, b'\r'),
        10 => {
            if let Some(space) = text[at..].iter().position(|&byte| byte == b' ') {
                text[at + space] = b'\t';
            }
        }
        11 => text.make_ascii_lowercase(),
        12..=14 => change_ends(random, text, at),
        _ => text.push(random.pick(b"\r\t\0/:@[`a\x80\xff19AZ \n")),
    }
}

/// CRs in front of line ends, and where they do not belong. `at` is a place in the text.
fn change_ends(random: &mut Random, text: &mut Vec<u8>, at: usize) {
    let share = random.pick(&[50, 100]);
    let end = at + text[at..].iter().position(|&byte| byte == b'\n').unwrap_or(0);
    match random.below(8) {
        0..=2 => {
            let ends = std::mem::take(text);
            for byte in ends {
                if byte == b'\n' && random.percent(share) {
                    text.push(b'\r');
                }
                text.push(byte);
            }
        }
        3 => text.insert(end, b'\r'),
        4 => drop(text.splice(end..end, *b"\r\r")),
        5 => text[end] = b'\r',
        6 => text.insert(end + 1, b'\r'),
        _ => text.extend_from_slice(random.pick(&["\r", "\r\n", "\n\r", "\r\r\n"]).as_bytes()),
    }
}

/// One change to a list, its length or an entry.
pub fn damage_list(random: &mut Random, list: &mut Vec<u8>) {
    let at = random.below(list.len().max(1));
    match random.below(6) {
        0 => drop(list.pop()),
        1 => list.push(random.pick(&[0, 1, 2, 3])),
        2 => list.clear(),
        3 => list.extend_from_slice(&[1; 300]),
        _ => {
            if let Some(entry) = list.get_mut(at) {
                *entry =
                    if random.percent(50) { random.pick(&[0, 2, 3, 4, 9, 255]) } else { random.next() as u8 };
            }
        }
    }
}
