//! The house file and the report.

use std::fmt::Write;

use crate::counts::Counts;
use crate::dlx::special::MODE;
use crate::house::{numbers, House, Refusal, MOST_STEPS};
use crate::memory::{Engine, FRAME_WORDS};
use crate::saved;

/// Frames of the program's memory.
pub const FRAMES: usize = 16;
/// Bytes that a program may read at once: a longer file takes several reads.
pub const PIECE: usize = 1 << 16;
/// Bytes of a record's head: body length and kind.
pub const HEAD: usize = 6;
/// Bytes of a kind 1 body: q and run length.
const TURN_BODY: usize = 8;
/// The most bytes of a kind 2 body.
const MOST_LIST_BODY: usize = 1_024;
/// Bytes of a kind 3 body: frame number and the frame's bytes.
pub(crate) const FRAME_BODY: usize = 4 + 4 * FRAME_WORDS;
/// The most kind 2 records.
const MOST_LISTS: usize = 8;
/// The number of a wrong house file.
const WRONG_FILE: u32 = 15;

/// A house file that is well formed.
#[derive(Clone, Debug, PartialEq, Eq)]
pub struct HouseFile {
    /// Turn length.
    pub q: u32,
    /// Run length.
    pub steps: u32,
    /// The frame list of each partition.
    pub lists: Vec<Vec<u32>>,
    /// The program's memory after all kind 3 records.
    pub memory: Vec<u32>,
}

/// A house file is wrong: the byte offset of the first wrong record.
#[derive(Clone, Copy, Debug, PartialEq, Eq)]
pub struct Wrong(pub u64);

/// What has been read so far.
#[derive(Clone, Copy, PartialEq, Eq)]
enum Stage {
    Nothing,
    Turn,
    Lists,
    Frames,
    End,
}

/// Reads a house file.
pub fn read(bytes: &[u8]) -> Result<HouseFile, Wrong> {
    let memory = vec![0; FRAMES * FRAME_WORDS];
    let mut file = HouseFile { q: 0, steps: 0, lists: Vec::new(), memory };
    let mut stage = Stage::Nothing;
    let mut at = 0;
    while stage != Stage::End {
        let wrong = Wrong(at as u64);
        let (kind, body) = record(&bytes[at..]).ok_or(wrong)?;
        stage = file.take(stage, kind, body).ok_or(wrong)?;
        at += HEAD + body.len();
    }
    if at < bytes.len() {
        return Err(Wrong(at as u64));
    }
    Ok(file)
}

/// The kind and body of the record at the start, unless it is cut short.
fn record(bytes: &[u8]) -> Option<(u16, &[u8])> {
    let length = u32::from_le_bytes(bytes.get(0..4)?.try_into().ok()?) as usize;
    let kind = u16::from_le_bytes(bytes.get(4..HEAD)?.try_into().ok()?);
    let body = bytes.get(HEAD..)?.get(..length)?;
    Some((kind, body))
}

/// The words of bytes, little-endian.
pub(crate) fn words(bytes: &[u8]) -> Vec<u32> {
    let word = |four: &[u8]| u32::from_le_bytes([four[0], four[1], four[2], four[3]]);
    bytes.chunks_exact(4).map(word).collect()
}

impl HouseFile {
    /// Takes a record in its order; none if it is wrong.
    fn take(&mut self, stage: Stage, kind: u16, body: &[u8]) -> Option<Stage> {
        match (stage, kind) {
            (Stage::Nothing, 1) => self.take_turn(body),
            (Stage::Turn | Stage::Lists, 2) => self.take_list(body),
            (Stage::Lists | Stage::Frames, 3) => self.take_frame(body),
            (Stage::Lists | Stage::Frames, 4) => body.is_empty().then_some(Stage::End),
            _ => None,
        }
    }

    fn take_turn(&mut self, body: &[u8]) -> Option<Stage> {
        if body.len() != TURN_BODY {
            return None;
        }
        let numbers = words(body);
        (self.q, self.steps) = (numbers[0], numbers[1]);
        Some(Stage::Turn)
    }

    fn take_list(&mut self, body: &[u8]) -> Option<Stage> {
        let well_sized = body.len().is_multiple_of(4) && body.len() <= MOST_LIST_BODY;
        if !well_sized || self.lists.len() == MOST_LISTS {
            return None;
        }
        self.lists.push(words(body));
        Some(Stage::Lists)
    }

    fn take_frame(&mut self, body: &[u8]) -> Option<Stage> {
        if body.len() != FRAME_BODY {
            return None;
        }
        let numbers = words(body);
        let frame = numbers[0] as usize;
        if frame >= FRAMES {
            return None;
        }
        let start = frame * FRAME_WORDS;
        self.memory[start..start + FRAME_WORDS].copy_from_slice(&numbers[1..]);
        Some(Stage::Frames)
    }
}

/// The program: reads a house file, boots, runs; its whole output.
pub fn night(bytes: &[u8], counts: &mut Counts) -> String {
    night_saved(bytes, Engine::Shadowed, counts).text
}

/// The same by the engine without shadows.
pub fn night_unshadowed(bytes: &[u8], counts: &mut Counts) -> String {
    night_saved(bytes, Engine::Walking, counts).text
}

/// What a program that saves leaves behind.
#[derive(Clone, Debug, PartialEq, Eq)]
pub struct Left {
    /// Its output: the report, or the refusal.
    pub text: String,
    /// The saved file; none where it refuses.
    pub saved: Option<Vec<u8>>,
}

impl Left {
    /// The report of a house, and its file; or the refusal.
    pub(crate) fn of(ran: Ran, counts: &mut Counts) -> Left {
        let saved = ran.as_ref().ok().map(|(house, memory)| saved::file(house, memory));
        Left { text: output(ran.map(|(house, _)| report(&house)), counts), saved }
    }
}

/// The same by either engine, with the house saved at the end.
pub fn night_saved(bytes: &[u8], engine: Engine, counts: &mut Counts) -> Left {
    Left::of(attempt(bytes, engine, counts), counts)
}

/// What a program prints: its text, or the refusal.
pub(crate) fn output(text: Result<String, (u32, u64)>, counts: &mut Counts) -> String {
    let number = text.as_ref().map_or_else(|&(number, _)| number, |_| 0);
    counts.answers[number as usize] += 1;
    text.unwrap_or_else(|(number, detail)| format!("refused {number} {detail}\n"))
}

/// A house and its memory, or a refusal's number and detail.
pub type Ran = Result<(House, Vec<u32>), (u32, u64)>;

/// The file, or the refusal.
fn taken(bytes: &[u8]) -> Result<HouseFile, (u32, u64)> {
    read(bytes).map_err(|Wrong(at)| (WRONG_FILE, at))
}

/// What is refused of a house file's numbers before anything runs: by boot over the program's memory, then
/// by the run's length.
pub fn check(q: u32, steps: u32, lists: &[Vec<u32>]) -> Result<(), Refusal> {
    let pages: Vec<u32> = lists.iter().map(|list| list.len() as u32).collect();
    House::boot(&pages, q, &lists.concat(), FRAMES * FRAME_WORDS).1?;
    if steps > MOST_STEPS {
        return Err(Refusal::TooLong);
    }
    Ok(())
}

/// The memory that a file holds.
pub(crate) fn held(bytes: &[u8]) -> Result<Vec<u32>, (u32, u64)> {
    taken(bytes).map(|file| file.memory)
}

/// The house and its memory after the run.
pub(crate) fn attempt(bytes: &[u8], engine: Engine, counts: &mut Counts) -> Ran {
    let mut file = taken(bytes)?;
    let pages: Vec<u32> = file.lists.iter().map(|list| list.len() as u32).collect();
    let (mut house, answer) = House::boot(&pages, file.q, &file.lists.concat(), file.memory.len());
    answer.map_err(|refusal| numbers(Err(refusal)))?;
    let answer = house.run_by(engine, &mut file.memory, file.steps, counts);
    answer.map_err(|refusal| numbers(Err(refusal)))?;
    Ok((house, file.memory))
}

/// The header, then one line for each partition in order.
fn report(house: &House) -> String {
    let mut text = String::from("partition pages steps mode dpc pc fault\n");
    for (partition, guest) in house.guests[..house.count as usize].iter().enumerate() {
        let (pages, steps, mode) = (guest.space.pages, guest.counter, guest.specials[MODE]);
        let (dpc, pc, fault) = (guest.dpc, guest.pc, guest.fault);
        writeln!(text, "{partition} {pages} {steps} {mode} {dpc} {pc} {fault}")
            .expect("writing to a string");
    }
    text
}

/// The bytes of a record.
pub fn record_bytes(kind: u16, body: &[u8]) -> Vec<u8> {
    let mut bytes = (body.len() as u32).to_le_bytes().to_vec();
    bytes.extend(kind.to_le_bytes());
    bytes.extend(body);
    bytes
}

/// The bytes of words, little-endian.
pub fn word_bytes(words: &[u32]) -> Vec<u8> {
    words.iter().flat_map(|word| word.to_le_bytes()).collect()
}
