//! Programs that take a house file or a saved file: of the first they boot and run the house, of the
//! second they run nothing.

use crate::counts::Counts;
use crate::decimals::signed;
use crate::house::{numbers, MOST_FRAMES};
use crate::housefile::{self, output, word_bytes, Ran, HEAD};
use crate::memory::{Engine, FRAME_WORDS};
use crate::saved::{restore, TURN};
use crate::{listing, look};

/// Whether a file is a saved one: the kind of its first record tells.
pub fn is_saved(bytes: &[u8]) -> bool {
    bytes.get(4..HEAD) == Some(&TURN.to_le_bytes())
}

/// The house and memory that a file comes to, or the refusal.
pub fn house(bytes: &[u8], counts: &mut Counts) -> Ran {
    if is_saved(bytes) {
        return saved_house(bytes, counts);
    }
    housefile::attempt(bytes, Engine::Shadowed, counts)
}

fn saved_house(bytes: &[u8], counts: &mut Counts) -> Ran {
    restore(bytes, counts).map_err(|refusal| numbers(Err(refusal)))
}

/// A look at the partitions.
pub fn look(bytes: &[u8], counts: &mut Counts) -> String {
    let ran = house(bytes, counts);
    output(ran.map(|(house, _)| look::text(&house)), counts)
}

/// The number of each partition, and how many of its shadow entries are stale.
pub fn audit(bytes: &[u8], counts: &mut Counts) -> String {
    let audited = house(bytes, counts).and_then(|(house, memory)| {
        let stale = house.stale_counts(&memory);
        stale.map_err(|refusal| numbers(Err(refusal)))
    });
    let lines = |stale: Vec<usize>| {
        let line = |(partition, count)| format!("{partition} {count}\n");
        stale.into_iter().enumerate().map(line).collect()
    };
    output(audited.map(lines), counts)
}

/// What a program says: standard output, and the first line of standard error where it refuses or fails
/// there.
#[derive(Clone, Debug, PartialEq, Eq)]
pub struct Said {
    /// Standard output.
    pub bytes: Vec<u8>,
    /// `refused: N D`; or `failed:`, without the rest of the line.
    pub line: Option<String>,
}

impl Said {
    /// Text on standard output.
    pub fn text(text: String) -> Said {
        Said { bytes: text.into_bytes(), line: None }
    }

    /// A wrong use: nothing is written.
    pub fn failed() -> Said {
        Said { bytes: Vec::new(), line: Some("failed:".into()) }
    }
}

/// Words of a partition's pages.
#[derive(Clone, Copy, Debug, PartialEq, Eq)]
pub struct Words {
    /// The partition.
    pub partition: u32,
    /// The untranslated guest byte address.
    pub address: u32,
    /// How many.
    pub count: u64,
    /// How they are written.
    pub form: Form,
}

/// How words are written.
#[derive(Clone, Copy, Debug, PartialEq, Eq)]
pub enum Form {
    /// Decimals, a line each.
    Decimals,
    /// Bytes.
    Raw,
    /// Decimals of two's complement numbers, a line each.
    Signed,
}

impl Form {
    /// Its name, for reports.
    pub fn name(self) -> &'static str {
        match self {
            Form::Decimals => "decimals",
            Form::Raw => "raw",
            Form::Signed => "signed",
        }
    }

    fn write(self, words: &[u32]) -> Vec<u8> {
        let lines = |line: fn(u32) -> String| -> String {
            words.iter().map(|&word| line(word) + "\n").collect()
        };
        match self {
            Form::Decimals => lines(|word| word.to_string()).into_bytes(),
            Form::Raw => word_bytes(words),
            Form::Signed => lines(signed).into_bytes(),
        }
    }
}

impl Words {
    /// What `PARTITION ADDRESS COUNT [raw|signed]` ask for; none if they cannot be used.
    pub fn read(words: &[String]) -> Option<Words> {
        let (numbers, form) = match words {
            [numbers @ .., last] if numbers.len() == 3 => match last.as_str() {
                "raw" => (numbers, Form::Raw),
                "signed" => (numbers, Form::Signed),
                _ => return None,
            },
            numbers => (numbers, Form::Decimals),
        };
        let [partition, address, count] = numbers else {
            return None;
        };
        let small = |word: &str| u32::try_from(decimal(word)?).ok();
        let (partition, address) = (small(partition)?, small(address)?);
        Some(Words { partition, address, count: decimal(count)?, form })
    }
}

/// A decimal below 2^64.
pub fn decimal(word: &str) -> Option<u64> {
    word.bytes().all(|byte| byte.is_ascii_digit()).then(|| word.parse().ok())?
}

/// Words of a partition after the run, or as they were saved.
pub fn readout(bytes: &[u8], words: &[String], counts: &mut Counts) -> Said {
    let Some(asked) = Words::read(words) else {
        return Said::failed();
    };
    let Words { partition, address, count, form } = asked;
    let read = house(bytes, counts).and_then(|(house, memory)| {
        // More than the memory has is refused by 12, so the output is never too short.
        let mut words = vec![0; count.min(memory.len() as u64) as usize];
        let read = house.read_out(&memory, partition, address, count, &mut words);
        read.map(|_| words).map_err(|refusal| numbers(Err(refusal)))
    });
    let line = |(number, detail): &(u32, u64)| format!("refused: {number} {detail}");
    let line = read.as_ref().err().filter(|_| form == Form::Raw).map(line);
    let refused = output(read.as_ref().map(|_| String::new()).map_err(|&refused| refused), counts);
    let bytes = match &read {
        Ok(words) => form.write(words),
        // Raw words are for another program: it gets words or nothing.
        Err(_) if form == Form::Raw => Vec::new(),
        Err(_) => refused.into_bytes(),
    };
    Said { bytes, line }
}

/// The lines of one frame of the memory that a file holds; nothing is booted.
pub fn list_frame(bytes: &[u8], frame: &str, counts: &mut Counts) -> Said {
    let Some(frame) = decimal(frame).filter(|&frame| frame < MOST_FRAMES as u64) else {
        return Said::failed();
    };
    let held = if is_saved(bytes) {
        saved_house(bytes, counts).map(|(_, memory)| memory)
    } else {
        housefile::held(bytes)
    };
    let words = match held {
        Ok(memory) => match memory.chunks_exact(FRAME_WORDS).nth(frame as usize) {
            None => return Said::failed(),
            Some(words) => Ok(listing::list(words)),
        },
        Err(refused) => Err(refused),
    };
    Said::text(output(words, counts))
}
