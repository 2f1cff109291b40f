//! Listings: a line for each word, and the words of the lines.

use std::str;

use crate::housefile::word_bytes;
use crate::instructions;

/// The number of the first wrong line, from 1 on.
#[derive(Clone, Copy, Debug, PartialEq, Eq)]
pub struct WrongLine(pub usize);

/// The line of a word, without its newline.
pub fn line(word: u32) -> String {
    let mut text = String::new();
    if !instructions::put(word, &mut text) {
        text = format!("word {word}");
    }
    text
}

/// A line for each word.
pub fn list(words: &[u32]) -> String {
    words.iter().fold(String::new(), |mut text, &word| {
        text.push_str(&line(word));
        text.push('\n');
        text
    })
}

/// The word of a line, none where no word has this line.
pub fn word(text: &[u8]) -> Option<u32> {
    let text = str::from_utf8(text).ok()?;
    let (name, behind) = text.split_once(' ').unwrap_or((text, ""));
    let operands: Vec<&str> = behind.split(' ').filter(|operand| !operand.is_empty()).collect();
    let word = match (name, operands.as_slice()) {
        ("word", [number]) => number.parse().ok()?,
        _ => instructions::word(name, &operands).ok()?,
    };
    // The source's instructions are more than the listing's lines.
    (line(word) == text).then_some(word)
}

/// The words of lines; behind the last one the newline may be missing.
pub fn assemble(text: &[u8]) -> Result<Vec<u32>, WrongLine> {
    if text.is_empty() {
        return Ok(Vec::new());
    }
    let lines = text.strip_suffix(b"\n").unwrap_or(text).split(|&byte| byte == b'\n');
    lines.enumerate().map(|(at, line)| word(line).ok_or(WrongLine(at + 1))).collect()
}

/// What the program that assembles writes: the words' bytes, little-endian; or what it says where it
/// refuses. That goes to standard error, since words can be any bytes.
pub fn assembled(text: &[u8]) -> Result<Vec<u8>, String> {
    match assemble(text) {
        Ok(words) => Ok(word_bytes(&words)),
        Err(WrongLine(at)) => Err(format!("refused: 18 {at}")),
    }
}

/// The words of raw bytes, little-endian, if they are whole words.
pub fn words(bytes: &[u8]) -> Option<Vec<u32>> {
    let (words, rest) = bytes.as_chunks::<4>();
    rest.is_empty().then(|| words.iter().map(|&four| u32::from_le_bytes(four)).collect())
}
