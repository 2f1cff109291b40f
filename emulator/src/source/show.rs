//! What a house file holds, as a source that makes the same file again.

use std::fmt::Write;

use super::ON_PURPOSE;
use crate::house::numbers;
use crate::housefile::{check, read, Wrong, HEAD};
use crate::instructions::special_of;
use crate::listing;
use crate::memory::FRAME_WORDS;

/// Bytes of a line that has them as they are.
const BYTES_A_LINE: usize = 32;

/// The source of any file: its records, and what stands behind the last that is one as it is.
pub fn show(file: &[u8]) -> String {
    let mut text = String::new();
    let mut rest = file;
    let mut whole = false;
    while let Some((kind, body)) = record(rest) {
        if !put_record(&mut text, kind, body) {
            break;
        }
        whole = kind == 4;
        rest = &rest[HEAD + body.len()..];
    }
    let records = !text.is_empty();
    let (refused, wrong) = (refused(file), ON_PURPOSE.join(" "));
    if let Some(refused) = refused.as_ref().filter(|_| records) {
        text.insert_str(0, &format!("{wrong} # `{refused}`\n"));
    }
    if let (Some(refused), Err(_)) = (refused, read(file)) {
        text.insert_str(0, &format!("# a wrong house file: `{refused}`\n"));
    }
    for some in rest.chunks(BYTES_A_LINE) {
        let bytes: String = some.iter().map(|byte| format!(" {byte:02x}")).collect();
        line(&mut text, format_args!("bytes{bytes}"));
    }
    if rest.is_empty() && !whole {
        line(&mut text, format_args!("bytes # none: the file stops here, without an end"));
    }
    text
}

/// What the night says of a file that it does not run.
fn refused(file: &[u8]) -> Option<String> {
    let (number, detail) = match read(file) {
        Err(Wrong(at)) => (15, at),
        Ok(house) => numbers(Err(check(house.q, house.steps, &house.lists).err()?)),
    };
    Some(format!("refused {number} {detail}"))
}

fn line(text: &mut String, line: std::fmt::Arguments) {
    writeln!(text, "{line}").expect("writing to a string");
}

/// The kind and body of the record at the start, unless it is cut short.
fn record(bytes: &[u8]) -> Option<(u16, &[u8])> {
    let (head, behind) = bytes.split_at_checked(HEAD)?;
    let length = word(&head[..4]) as usize;
    Some((u16::from_le_bytes([head[4], head[5]]), behind.get(..length)?))
}

/// Writes a record, if a line of a source makes it.
fn put_record(text: &mut String, kind: u16, body: &[u8]) -> bool {
    let words: Vec<u32> = body.chunks_exact(4).map(word).collect();
    match (kind, words.as_slice()) {
        _ if !body.len().is_multiple_of(4) => return false,
        (1, [q, steps]) => line(text, format_args!("turns {q} run {steps}")),
        (2, frames) => {
            let frames: String = frames.iter().map(|frame| format!(" {frame}")).collect();
            line(text, format_args!("partition{frames}"));
        }
        (3, [of, words @ ..]) if words.len() == FRAME_WORDS => {
            line(text, format_args!("frame {of}"));
            put_words(text, words);
        }
        (4, []) => line(text, format_args!("end")),
        _ => return false,
    }
    true
}

/// The words of a frame that are not 0 as a listing has them, and each with its place, its value and the
/// name of its special register.
fn put_words(text: &mut String, words: &[u32]) {
    let mut next = 0;
    for (place, &word) in words.iter().enumerate().filter(|(_, &word)| word != 0) {
        if place != next {
            line(text, format_args!("  at {}", 4 * place));
        }
        next = place + 1;
        let shown = listing::line(word);
        let special = special_of(word).map(|name| format!(", {name}")).unwrap_or_default();
        line(text, format_args!("  {shown:<24}# {:>4}: {word:#010x}{special}", 4 * place));
    }
}

fn word(four: &[u8]) -> u32 {
    u32::from_le_bytes([four[0], four[1], four[2], four[3]])
}
