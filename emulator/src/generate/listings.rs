//! Words to be listed, and lines to be assembled, right and damaged.

use crate::instructions::{self, limits};
use crate::listing::line;
use crate::rng::Rng;

/// Words of every opcode and function with random fields, of every instruction with random operands, and
/// any others.
pub fn words(rng: &mut Rng, count: usize) -> Vec<u32> {
    (0..count).map(|number| word(rng, number as u32 / 4, number % 4)).collect()
}

fn word(rng: &mut Rng, number: u32, kind: usize) -> u32 {
    match kind {
        0 => number << 26 | rng.word() >> 6,
        1 => (rng.word() >> 6 & !63) | number % 64,
        2 => rng.word(),
        _ => listed(rng, number as usize % instructions::COUNT),
    }
}

/// An instruction by its place with random operands, often the least or the most.
fn listed(rng: &mut Rng, place: usize) -> u32 {
    instructions::filled(place, &mut |least, most| match rng.below(4) {
        0 => rng.pick(&[least, most, 0, 1]),
        1 => i64::from(rng.below(16)).min(most),
        _ => least + i64::from(rng.below((most - least + 1) as u32)),
    })
}

/// Every instruction with every choice of the least, the most, the numbers beside them and those around
/// 0 for its operands; and each with every single bit changed.
pub fn boundary_words() -> Vec<u32> {
    (0..instructions::COUNT).flat_map(boundaries_of).collect()
}

/// Numbers at an operand's ends, by the choice's digit.
const CHOICES: u32 = 9;

fn boundaries_of(place: usize) -> Vec<u32> {
    let with = |number: u32| {
        let mut digits = number;
        instructions::filled(place, &mut |least, most| {
            let choices = [least, least + 1, -1, 0, 1, most - 1, most, 11, 12];
            let chosen = choices[(digits % CHOICES) as usize];
            digits /= CHOICES;
            chosen.clamp(least, most)
        })
    };
    let words = (0..CHOICES.pow(3)).map(with);
    let changed = (0..32).map(|bit| with(0) ^ 1 << bit);
    let mut words: Vec<u32> = words.chain(changed).collect();
    words.sort_unstable();
    words.dedup();
    words
}

/// A line that was damaged, and by what.
#[derive(Clone, Debug)]
pub struct Damaged {
    /// The kind of the damage.
    pub by: &'static str,
    /// The line, without a newline.
    pub line: Vec<u8>,
}

/// Damaged lines, all kinds of damage in turn. Some are right all the same.
pub fn damaged(seed: u64, count: usize) -> Vec<Damaged> {
    let mut rng = Rng::new(seed ^ 0x11_57);
    let one = |number: usize| {
        let (by, damage) = DAMAGES[number % DAMAGES.len()];
        let place = rng.index(instructions::COUNT + 2);
        let word = if place < instructions::COUNT { listed(&mut rng, place) } else { rng.word() };
        Damaged { by, line: damage(&mut rng, Line::of(word)) }
    };
    (0..count).map(one).collect()
}

/// A text with a line among right ones, whose number is so not always 1.
pub fn around(rng: &mut Rng, line: &[u8]) -> Vec<u8> {
    let mut text = Vec::new();
    for _ in 0..rng.pick(&[0, 1, 2, 3, 8, 9, 10, 99]) {
        text.extend(right_line(rng));
    }
    text.extend(line);
    text.push(b'\n');
    for _ in 0..rng.below(3) {
        text.extend(if rng.chance(50) { right_line(rng) } else { b"wrong too\n".to_vec() });
    }
    if rng.chance(25) && !line.is_empty() {
        text.pop();
    }
    text
}

fn right_line(rng: &mut Rng) -> Vec<u8> {
    let place = rng.index(instructions::COUNT);
    let mut line = line(listed(rng, place)).into_bytes();
    line.push(b'\n');
    line
}

/// A right line: its word, and what stands between its spaces.
struct Line {
    word: u32,
    parts: Vec<String>,
}

impl Line {
    fn of(word: u32) -> Line {
        Line { word, parts: line(word).split(' ').map(str::to_string).collect() }
    }

    fn text(&self) -> Vec<u8> {
        self.parts.join(" ").into_bytes()
    }

    /// One of its operands; a line without any gets one.
    fn operand(&mut self, rng: &mut Rng) -> &mut String {
        if self.parts.len() == 1 {
            self.parts.push("0".into());
        }
        let at = 1 + rng.index(self.parts.len() - 1);
        &mut self.parts[at]
    }

    /// What stands before the digits of one of its operands, and its number there.
    fn number(&mut self, rng: &mut Rng) -> (&mut String, &'static str, i128) {
        let operand = self.operand(rng);
        let (before, digits) = match operand.strip_prefix('r') {
            Some(digits) => ("r", digits),
            None => ("", operand.as_str()),
        };
        let number = digits.parse().expect("an operand is a number");
        (operand, before, number)
    }
}

/// What spoils a line.
type Damage = fn(&mut Rng, Line) -> Vec<u8>;

/// The kinds of damage.
pub fn damages() -> impl Iterator<Item = &'static str> {
    DAMAGES.iter().map(|&(by, _)| by)
}

const DAMAGES: [(&str, Damage); 27] = [
    ("a byte changed", |rng, line| {
        let mut text = line.text();
        let at = rng.index(text.len());
        text[at] = any_byte(rng);
        text
    }),
    ("a byte missing", |rng, line| {
        let mut text = line.text();
        text.remove(rng.index(text.len()));
        text
    }),
    ("a byte more", |rng, line| {
        let mut text = line.text();
        text.insert(rng.index(text.len() + 1), any_byte(rng));
        text
    }),
    ("a space too many", |rng, line| {
        let mut text = line.text();
        let spaces = text.iter().enumerate().filter(|&(_, &byte)| byte == b' ');
        let places: Vec<usize> = spaces.map(|(at, _)| at).chain([0, text.len()]).collect();
        text.insert(rng.pick(&places), b' ');
        text
    }),
    ("a space missing", |_, line| line.parts.concat().into_bytes()),
    ("leading zeros", |rng, mut line| {
        let zeros = "0".repeat(rng.pick(&[1, 1, 2, 9]));
        let (operand, before, number) = line.number(rng);
        let sign = if number < 0 { "-" } else { "" };
        *operand = format!("{before}{sign}{zeros}{}", number.abs());
        line.text()
    }),
    ("a minus", |rng, mut line| {
        let (operand, before, number) = line.number(rng);
        let number = if rng.chance(50) { 0 } else { number };
        *operand = format!("{before}-{number}");
        line.text()
    }),
    ("a plus", |rng, mut line| {
        let (operand, before, number) = line.number(rng);
        *operand = format!("{before}+{number}");
        line.text()
    }),
    ("hexadecimal", |rng, mut line| {
        let (operand, before, number) = line.number(rng);
        let number = number.unsigned_abs();
        *operand = if rng.chance(50) {
            format!("{before}0x{number:x}")
        } else {
            format!("{before}{number:x}")
        };
        line.text()
    }),
    ("capitals", |rng, line| {
        let mut text = line.text();
        match rng.below(3) {
            0 => text.make_ascii_uppercase(),
            1 => text[0].make_ascii_uppercase(),
            _ => text.iter_mut().skip(1).for_each(|byte| byte.make_ascii_uppercase()),
        }
        text
    }),
    ("a carriage return", |rng, line| {
        let mut text = line.text();
        text.insert(if rng.chance(80) { text.len() } else { 0 }, b'\r');
        text
    }),
    ("a tab", |rng, line| {
        let text = line.parts.join(if rng.chance(50) { "\t" } else { " \t" });
        let before = if rng.chance(20) { "\t" } else { "" };
        let behind = if line.parts.len() == 1 || rng.chance(20) { "\t" } else { "" };
        format!("{before}{text}{behind}").into_bytes()
    }),
    ("a comment", |rng, line| {
        let comment = rng.pick(&[" # on", "# on", " ; on", ";", " // on", "#"]);
        [&line.text(), comment.as_bytes()].concat()
    }),
    ("an empty line", |rng, _| b"        "[..rng.pick(&[0, 0, 1, 2, 8])].to_vec()),
    ("a long line", |rng, mut line| {
        let length = rng.pick(&[79, 80, 81, 82, 128, 255, 256, 257, 4_096, 65_536, 65_537]);
        let missing = length - line.text().len();
        match rng.below(5) {
            0 => line.parts[0].insert_str(0, &" ".repeat(missing)),
            1 => line.operand(rng).push_str(&" ".repeat(missing)),
            2 => line.parts.push("x".repeat(missing.saturating_sub(1))),
            3 => line.operand(rng).push_str(&"0".repeat(missing)),
            _ => {
                let zeros = "0".repeat(missing);
                let (operand, before, number) = line.number(rng);
                *operand = format!("{before}{zeros}{number}");
            }
        }
        line.text()
    }),
    ("an operand too few", |rng, mut line| {
        line.operand(rng);
        let at = 1 + rng.index(line.parts.len() - 1);
        line.parts.remove(at);
        line.text()
    }),
    ("an operand too many", |rng, mut line| {
        let operand = line.operand(rng).clone();
        let at = 1 + rng.index(line.parts.len());
        line.parts.insert(at, operand);
        line.text()
    }),
    ("a register beyond", |rng, mut line| {
        let number =
            rng.pick(&["32", "33", "63", "64", "99", "100", "256", "4294967296", "-1", "", "00"]);
        *line.operand(rng) = format!("r{number}");
        line.text()
    }),
    ("a number at its limits", |rng, mut line| {
        let limits = limits(line.word);
        if limits.is_empty() {
            return b"rfe 0".to_vec();
        }
        let at = rng.index(limits.len());
        let (least, most) = limits[at];
        let number = rng.pick(&[least - 1, least, least + 1, most - 1, most, most + 1]);
        let before = if line.parts[at + 1].starts_with('r') { "r" } else { "" };
        line.parts[at + 1] = format!("{before}{number}");
        line.text()
    }),
    ("a number that wraps", |rng, mut line| {
        let bits = rng.pick(&[5, 8, 16, 26, 31, 32, 33, 63, 64, 65, 96]);
        let (operand, before, number) = line.number(rng);
        let wrapped = if rng.chance(70) { number + (1 << bits) } else { number - (1 << bits) };
        *operand = format!("{before}{wrapped}");
        line.text()
    }),
    ("a word by its number", |rng, line| {
        let word = if rng.chance(70) { line.word } else { rng.word() };
        format!("word {word}").into_bytes()
    }),
    ("operands exchanged", |rng, mut line| {
        let (one, other) = (line.operand(rng).clone(), rng.index(line.parts.len() - 1) + 1);
        *line.operand(rng) = std::mem::replace(&mut line.parts[other], one);
        line.text()
    }),
    ("a register for a number", |rng, mut line| {
        let (operand, before, number) = line.number(rng);
        *operand = if before.is_empty() { format!("r{number}") } else { number.to_string() };
        line.text()
    }),
    ("another name", |rng, mut line| {
        let place = rng.index(instructions::COUNT);
        let other = Line::of(listed(rng, place));
        line.parts[0] = other.parts[0].clone();
        line.text()
    }),
    ("a name that is none", |rng, mut line| {
        let letter = rng.pick(&["i", "u", "x", ":", "."]);
        line.parts[0] = match rng.below(4) {
            0 => {
                rng.pick(&["nop", "halt", "lui", "lhi", "sll", "addu", "WORD", "word:", ""]).into()
            }
            1 => format!("done: {}", line.parts[0]),
            2 => format!("{letter}{}", line.parts[0]),
            _ => format!("{}{letter}", line.parts[0]),
        };
        line.text()
    }),
    ("a name for a number", |rng, mut line| {
        *line.operand(rng) =
            rng.pick(&["eca", "tload", "done", "r", "-", "r-", "0x", "zero", "sp"]).into();
        line.text()
    }),
    ("other signs between", |rng, line| {
        let (first, second) = rng.pick(&[
            (" ", ","),
            (" ", ", "),
            (",", ","),
            (" ", "("),
            ("\0", " "),
            (" ", "\u{a0}"),
        ]);
        let operands = line.parts[1..].join(second);
        let operands = if second == "(" { operands + ")" } else { operands };
        format!("{}{first}{operands}", line.parts[0]).into_bytes()
    }),
];

/// Any byte but a newline, often one that a line may have.
fn any_byte(rng: &mut Rng) -> u8 {
    const LETTERS: &[u8] = b"0123456789rr -abdeijlnoqstuwxz";
    match if rng.chance(60) { rng.pick(LETTERS) } else { rng.word() as u8 } {
        b'\n' => b'\r',
        byte => byte,
    }
}
