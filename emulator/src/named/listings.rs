//! Texts of lines with a name: 02's cases, ends of texts, and pieces.

use super::File;
use crate::housefile::PIECE;

/// A line of every kind, with its word's own ends.
const LINES: &str = "lw r1 r2 -4\nset r1 r2 r3\nset r1 r2 -32768\nlhgi r1 65535\nbeqz r0 -4\njr r31\n\
                     trap 256\nj -33554432\njal 33554431\nrfe\nmovs2i r1 10\nmovi2s 7 r1\nword 4227858433\n\
                     clr r0 r0 r0\nclr r0 r0 0\nsub r31 r30 r29\nword 0\nword 4294967295\n";

/// Texts to be assembled.
pub fn texts() -> Vec<File> {
    let pages = LINES.repeat(1_000);
    let long = |length: usize| "x".repeat(length);
    let mut texts = vec![
        ("a line of every kind", LINES.into()),
        ("no line", String::new()),
        ("an empty line", "\n".into()),
        ("no newline behind the last line", "rfe\ntrap 7".into()),
        ("a newline too many", "rfe\n\n".into()),
        ("a newline before the first line", "\nrfe\n".into()),
        ("an empty line between", "rfe\n\nrfe\n".into()),
        ("lines that end by two bytes", "rfe\r\nrfe\r\n".into()),
        ("lines that end by the other byte", "rfe\rrfe\r".into()),
        ("a mark of the bytes' order", "\u{feff}rfe\n".into()),
        ("a byte 0 behind the lines", "rfe\n\0".into()),
        ("a space alone", " ".into()),
        ("a word that has a name", "rfe\nword 536936453\n".into()),
        ("the first of two wrong lines", "rfe\nrfe 0\nrfe\nrfe 1\n".into()),
        ("a wrong last line without a newline", "rfe\nrfe 0".into()),
        ("80 bytes", format!("rfe{}\n", " ".repeat(77))),
        ("81 bytes", format!("rfe{}\n", " ".repeat(78))),
        ("words that spell a refusal", words_of(b"refused 18 1000\n")),
        ("words that spell a refusal with more behind", words_of(b"refused 18 1\nabc")),
        ("a wrong line behind many", format!("{pages}rfe 0\n{pages}")),
        ("many lines", pages.clone()),
        ("a last line cut in its middle", pages[..pages.len() - 12].into()),
        ("one long line", long(PIECE + 1)),
        ("one line of two pieces", long(2 * PIECE)),
        ("a long line behind right ones", format!("{LINES}{}\nrfe\n", long(3 * PIECE))),
    ];
    // a wrong line that begins, or ends, where a piece does
    for at in [PIECE - 5, PIECE - 4, PIECE - 1, PIECE] {
        let before = format!("{}rfe\n", &filled(at - 4));
        texts.push(("a wrong line at a piece's end", before.clone() + "rfe 0\nrfe\n"));
        texts.push(("a right line at a piece's end", before + "trap -1\nrfe\n"));
    }
    texts
        .into_iter()
        .map(|(name, text): (&str, String)| File { name: name.into(), bytes: text.into_bytes() })
        .collect()
}

/// Right lines of so many bytes, at least 10.
fn filled(bytes: usize) -> String {
    // "rfe\n" has 4 bytes, "jr r1\n" 6, "trap 7\n" 7
    let rest = ["", "trap 7\njr r1\n", "jr r1\n", "trap 7\n"][bytes % 4];
    "rfe\n".repeat((bytes - rest.len()) / 4) + rest
}

/// Lines whose words have these bytes.
fn words_of(bytes: &[u8]) -> String {
    let words = crate::listing::words(bytes).expect("whole words");
    crate::listing::list(&words)
}
