//! Texts of decimals, a line for each word: right ones, and ones with a line that is wrong.

use super::words::value;
use super::File;
use crate::decimals::MOST;
use crate::rng::Rng;

/// Lines that are no decimal of a word.
const WRONG: [&str; 26] = [
    "",
    "-",
    "--1",
    "+1",
    " 1",
    "1 ",
    "\t1",
    "1\r",
    "1\0",
    "1-",
    "-1-",
    "1 2",
    "1,2",
    "0x10",
    "10h",
    "1e3",
    "1.0",
    "x",
    "word 1",
    "4294967296",
    "-2147483649",
    "-4294967295",
    "18446744073709551616",
    "-18446744073709551617",
    "340282366920938463463374607431768211456",
    "１",
];

/// Random texts: every other one has a wrong line.
pub fn texts(seed: u64, count: usize) -> Vec<File> {
    (0..count)
        .map(|number| {
            let mut rng = Rng::new(!seed ^ (number as u64) << 32 ^ 36);
            let mut lines = lines(&mut rng);
            let wrong = (number % 2 == 1).then(|| WRONG[number / 2 % WRONG.len()]);
            for _ in 0..if wrong.is_some() { rng.pick(&[1, 1, 2]) } else { 0 } {
                let at = rng.index(lines.len() + 1);
                lines.insert(at, wrong.unwrap_or_default().into());
            }
            let mut bytes = lines.join("\n").into_bytes();
            if wrong == Some("") || !bytes.is_empty() && rng.chance(70) {
                bytes.push(b'\n');
            }
            File { name: format!("text {number} of seed {seed}"), bytes }
        })
        .collect()
}

fn lines(rng: &mut Rng) -> Vec<String> {
    let many = rng.pick(&[0, 1, 1, 2, 9, 60, 1_500]);
    (0..many).map(|_| line(rng)).collect()
}

/// A line of some word.
fn line(rng: &mut Rng) -> String {
    let word = value(rng);
    let negative = word > 0x7FFF_FFFF && rng.chance(50);
    let (sign, number) = match word {
        0 if rng.chance(20) => ("-", 0),
        _ if negative => ("-", word.wrapping_neg()),
        _ => ("", word),
    };
    let zeros = if rng.chance(10) { rng.pick(&[1, 2, 10, 200]) } else { 0 };
    format!("{sign}{}{number}", "0".repeat(zeros))
}

/// Texts at the limits.
pub fn named() -> Vec<File> {
    let text = |name: &str, bytes: Vec<u8>| File { name: name.into(), bytes };
    let many = |count: usize| "7\n".repeat(count).into_bytes();
    let long = |line: &str| format!("1\n{line}\n2\n").into_bytes();
    vec![
        text("no line", Vec::new()),
        text("a newline alone", b"\n".to_vec()),
        text("words that spell a refusal", b"1969645938\n1684369267\n168438840\n".to_vec()),
        text("as many words as can be", many(MOST)),
        text("the same without the last newline", many(MOST)[..2 * MOST - 1].to_vec()),
        text("one word more", many(MOST + 1)),
        text("a wrong line before too many", [b"x\n".to_vec(), many(MOST + 1)].concat()),
        text("a wrong line behind too many", [many(MOST + 1), b"x\n".to_vec()].concat()),
        text("an empty line behind as many as can be", [many(MOST), b"\n".to_vec()].concat()),
        text("a long line of zeros", long(&"0".repeat(70_000))),
        text("a long line of zeros and a number", long(&format!("-{}9", "0".repeat(70_000)))),
        text("a long number", long(&"1".repeat(70_000))),
    ]
}
