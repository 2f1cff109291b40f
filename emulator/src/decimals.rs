//! Words of lines that are decimals.

use crate::housefile::word_bytes;

/// As many words as the largest partition has.
pub const MOST: usize = 1 << 18;

/// The word of a line: digits, with or without a minus before them.
pub fn word(line: &[u8]) -> Option<u32> {
    let digits = line.strip_prefix(b"-");
    let negative = digits.is_some();
    let digits = digits.unwrap_or(line);
    if digits.is_empty() {
        return None;
    }
    let number = digits.iter().try_fold(0u64, |number, byte| {
        let more = 10 * number + u64::from(byte.is_ascii_digit().then(|| byte - b'0')?);
        (more <= u64::from(u32::MAX)).then_some(more)
    })?;
    if !negative {
        return Some(number as u32);
    }
    (number <= 1 << 31).then(|| (number as u32).wrapping_neg())
}

/// The words' bytes, the lowest first; or the line by which it is refused.
pub fn words(text: &[u8]) -> Result<Vec<u8>, String> {
    let lines = text.strip_suffix(b"\n").unwrap_or(text).split(|&byte| byte == b'\n');
    let lines = lines.filter(|_| !text.is_empty());
    let told = |(at, line)| word(line).ok_or(format!("refused: 18 {}", at + 1));
    let words: Vec<u32> = lines.enumerate().map(told).collect::<Result<_, String>>()?;
    if words.len() > MOST {
        return Err("refused: 13 0".into());
    }
    Ok(word_bytes(&words))
}

/// The decimal of a word read as a two's complement number.
pub fn signed(word: u32) -> String {
    (word as i32).to_string()
}

#[cfg(test)]
mod tests {
    use super::*;

    #[test]
    fn lines() {
        for (line, expected) in [
            ("0", Some(0)),
            ("-0", Some(0)),
            ("007", Some(7)),
            ("-1", Some(u32::MAX)),
            ("4294967295", Some(u32::MAX)),
            ("4294967296", None),
            ("-2147483648", Some(0x8000_0000)),
            ("-0002147483648", Some(0x8000_0000)),
            ("-2147483649", None),
            ("18446744073709551617", None),
            ("", None),
            ("-", None),
            ("--1", None),
            ("+1", None),
            (" 1", None),
            ("1\r", None),
            ("1-", None),
            ("0x1", None),
            ("１", None),
        ] {
            assert_eq!(word(line.as_bytes()), expected, "{line:?}");
        }
        assert_eq!(word(&[b"0".repeat(70_000), b"12".to_vec()].concat()), Some(12));
    }

    #[test]
    fn texts() {
        let refused = |text: &str| words(text.as_bytes()).unwrap_err();
        assert_eq!(words(b""), Ok(vec![]));
        assert_eq!(words(b"-2\n258"), Ok(vec![254, 255, 255, 255, 2, 1, 0, 0]));
        assert_eq!(words(b"-2\n258\n"), words(b"-2\n258"));
        assert_eq!(refused("\n"), "refused: 18 1");
        assert_eq!(refused("1\n\n"), "refused: 18 2");
        assert_eq!(refused("1\nx\ny\n"), "refused: 18 2");
        assert_eq!(words("1\n".repeat(MOST).as_bytes()).unwrap().len(), 4 * MOST);
        assert_eq!(refused(&"1\n".repeat(MOST + 1)), "refused: 13 0");
        assert_eq!(refused(&("1\n".repeat(MOST + 1) + "x")), "refused: 18 262146");
    }

    #[test]
    fn two_s_complement() {
        let told = [0, 1, 0x7FFF_FFFF, 0x8000_0000, u32::MAX].map(signed);
        assert_eq!(told, ["0", "1", "2147483647", "-2147483648", "-1"]);
        for word in [0, 1, 0x7FFF_FFFF, 0x8000_0000, u32::MAX] {
            assert_eq!(super::word(signed(word).as_bytes()), Some(word));
        }
    }
}
