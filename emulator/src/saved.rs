//! The saved file: a house and its memory as records, and their reading piece by piece.
//!
//! Order: one kind 5, one kind 6 and then one kind 7 for each partition, one kind 3 for each frame, one
//! kind 4. FORMAT.md tells their bodies.

use crate::counts::Counts;
use crate::dlx::{special, Guest};
use crate::house::{numbers, House, Refusal, MOST_FRAMES, MOST_STEPS, PARTITIONS};
use crate::housefile::{record_bytes, word_bytes, words, Left, FRAME_BODY, HEAD};
use crate::memory::{Engine, FRAME_WORDS, LIST_PLACES};
use crate::tickets::{Queue, PLACES};

/// The most bytes that one save writes: a piece.
pub const PIECE: usize = 1 << 16;

/// Turn state.
pub const TURN: u16 = 5;
/// A partition.
pub const PARTITION: u16 = 6;
/// The tickets of a partition.
pub const TICKETS: u16 = 7;
/// A frame.
pub const FRAME: u16 = 3;
/// The end.
pub const END: u16 = 4;

/// Bytes of a kind 5 body.
const TURN_BODY: usize = 16;
/// Words of a kind 6 body before its frames: registers, DPC and PC, specials, latest fault, running
/// flag, counter.
pub const OWN_WORDS: usize = 32 + 2 + special::COUNT + 4;

/// The file of a house that is not damaged.
pub fn file(house: &House, memory: &[u32]) -> Vec<u8> {
    let used = house.count as usize;
    let turn = [house.q, house.words, house.current, house.left];
    let partitions = (0..used).map(|at| partition_words(&house.guests[at], house.running[at]));
    let tickets = house.queues[..used].iter();
    let frames = (0..).zip(memory.chunks_exact(FRAME_WORDS));
    let record = |kind, body: &[u32]| record_bytes(kind, &word_bytes(body));
    let mut bytes = record(TURN, &turn);
    bytes.extend(partitions.flat_map(|body| record(PARTITION, &body)));
    bytes
        .extend(tickets.flat_map(|queue| record(TICKETS, &queue.places[..queue.waiting as usize])));
    bytes.extend(frames.flat_map(|(number, frame)| record(FRAME, &[&[number], frame].concat())));
    bytes.extend(record(END, &[]));
    bytes
}

/// The words of a kind 6 body.
fn partition_words(guest: &Guest, running: bool) -> Vec<u32> {
    let (low, high) = (guest.counter as u32, (guest.counter >> 32) as u32);
    let mut body = guest.registers.to_vec();
    body.extend([guest.dpc, guest.pc]);
    body.extend(guest.specials);
    body.extend([guest.fault, u32::from(running), low, high]);
    body.extend(guest.space.list());
    body
}

/// The partition of a kind 6 body and its running flag; none if the flag is above 1. The shadow is
/// empty.
fn partition(body: &[u32]) -> Option<(Guest, bool)> {
    let (own, frames) = body.split_at(OWN_WORDS);
    let (registers, rest) = own.split_at(32);
    let (pair, rest) = rest.split_at(2);
    let (specials, last) = rest.split_at(special::COUNT);
    let mut guest = Guest { dpc: pair[0], pc: pair[1], fault: last[0], ..Guest::fresh(frames) };
    guest.registers.copy_from_slice(registers);
    guest.specials.copy_from_slice(specials);
    guest.counter = u64::from(last[3]) << 32 | u64::from(last[2]);
    let running = match last[1] {
        0 => false,
        1 => true,
        _ => return None,
    };
    Some((guest, running))
}

impl House {
    /// Writes the file of house and memory from an offset on, as far as the output and a piece go;
    /// tells how many bytes were written. Refuses 8, then 9.
    pub fn save(
        &self,
        memory: &[u32],
        offset: u64,
        output: &mut [u8],
        counts: &mut Counts,
    ) -> Result<usize, Refusal> {
        let sound = self.check_memory_and_damage(memory);
        counts.saves.asked(sound);
        sound?;
        let file = file(self, memory);
        let start = usize::try_from(offset).unwrap_or(usize::MAX).min(file.len());
        let rest = &file[start..];
        let written = rest.len().min(output.len()).min(PIECE);
        output[..written].copy_from_slice(&rest[..written]);
        counts.saves.saved(written, rest.len());
        Ok(written)
    }
}

/// Why a reading is refused. The first of them are wrong heads, by what should stand there.
#[derive(Clone, Copy, Debug, PartialEq, Eq)]
#[allow(missing_docs)]
pub enum Why {
    NotTurn,
    NotPartition,
    NotPartitionOrTickets,
    NotTickets,
    NotFrame,
    NotEnd,
    Flag,
    Number,
    CutInHead,
    CutInBody,
    Stops,
    Damaged,
    Extra,
    SizeAtTurn,
    SizeLater,
}

impl Why {
    /// How many there are.
    pub const COUNT: usize = 15;
    /// Their names, in order.
    pub const NAMES: [&'static str; Why::COUNT] = [
        "no right kind 5",
        "no right kind 6",
        "no right kind 6 or 7",
        "no right kind 7",
        "no right kind 3",
        "no right kind 4",
        "running flag",
        "frame number",
        "cut in a head",
        "cut in a body",
        "stops before kind 4",
        "damaged",
        "extra byte",
        "another size at kind 5",
        "another size at a later piece",
    ];
}

/// A reading so far.
#[derive(Clone, Debug)]
pub struct Reading {
    /// The house as the records give it.
    house: House,
    /// Whether kind 5 was read.
    turn: bool,
    /// Kind 7 records that were read.
    queues: usize,
    /// Kind 3 records that were read.
    frames: usize,
    /// Where kind 4 stood.
    end: Option<u64>,
    /// Where the record in hand begins.
    start: u64,
    /// Its bytes so far.
    record: Vec<u8>,
    refused: Option<Refusal>,
}

impl Default for Reading {
    fn default() -> Self {
        Reading::new()
    }
}

impl Reading {
    /// A reading of no bytes.
    pub fn new() -> Self {
        Reading {
            house: House::NONE,
            turn: false,
            queues: 0,
            frames: 0,
            end: None,
            start: 0,
            record: Vec::new(),
            refused: None,
        }
    }

    /// Reads on. Once it is refused it stays so, and nothing is written any more.
    pub fn piece(
        &mut self,
        memory: &mut [u32],
        bytes: &[u8],
        counts: &mut Counts,
    ) -> Result<(), Refusal> {
        if self.refused.is_none() && self.turn && memory.len() != self.house.words as usize {
            self.refuse(Refusal::Length, Why::SizeLater, counts);
        }
        for &byte in bytes {
            if self.refused.is_some() {
                break;
            }
            self.byte(byte, memory, counts);
        }
        counts.saves.read(self.refused, self.record.len(), bytes.len());
        self.refused.map_or(Ok(()), Err)
    }

    fn refuse(&mut self, refusal: Refusal, why: Why, counts: &mut Counts) {
        counts.saves.whys[why as usize] += 1;
        self.refused = Some(refusal);
    }

    /// The record in hand is wrong.
    fn wrong(&mut self, why: Why, counts: &mut Counts) {
        self.refuse(Refusal::Saved(self.start), why, counts);
    }

    fn byte(&mut self, byte: u8, memory: &mut [u32], counts: &mut Counts) {
        if self.end.is_some() {
            return self.wrong(Why::Extra, counts);
        }
        self.record.push(byte);
        let Some((kind, length)) = self.head() else {
            return;
        };
        if self.record.len() == HEAD {
            let (kinds, why) = self.expected();
            if !kinds.contains(&kind) || !well_sized(kind, length) {
                return self.wrong(why, counts);
            }
        }
        if self.record.len() == HEAD + length {
            let whole = std::mem::take(&mut self.record);
            self.take(kind, &words(&whole[HEAD..]), memory, counts);
            self.start += whole.len() as u64;
        }
    }

    /// Kind and body length of the record in hand, as soon as its head is there.
    fn head(&self) -> Option<(u16, usize)> {
        let length = u32::from_le_bytes(self.record.get(..4)?.try_into().ok()?);
        let kind = u16::from_le_bytes(self.record.get(4..HEAD)?.try_into().ok()?);
        Some((kind, length as usize))
    }

    /// The kinds that a right record can have here.
    fn expected(&self) -> (&'static [u16], Why) {
        let count = self.house.count as usize;
        let frames = self.house.words as usize / FRAME_WORDS;
        match () {
            _ if !self.turn => (&[TURN], Why::NotTurn),
            _ if count == 0 => (&[PARTITION], Why::NotPartition),
            _ if self.queues == 0 && count < PARTITIONS => {
                (&[PARTITION, TICKETS], Why::NotPartitionOrTickets)
            }
            _ if self.queues < count => (&[TICKETS], Why::NotTickets),
            _ if self.frames < frames => (&[FRAME], Why::NotFrame),
            _ => (&[END], Why::NotEnd),
        }
    }

    /// A whole record, whose head is right.
    fn take(&mut self, kind: u16, body: &[u32], memory: &mut [u32], counts: &mut Counts) {
        let house = &mut self.house;
        match kind {
            TURN => {
                (house.q, house.words) = (body[0], body[1]);
                (house.current, house.left) = (body[2], body[3]);
                self.turn = true;
                if memory.len() != house.words as usize {
                    self.refuse(Refusal::Length, Why::SizeAtTurn, counts);
                }
            }
            PARTITION => {
                let Some((guest, running)) = partition(body) else {
                    return self.wrong(Why::Flag, counts);
                };
                let at = house.count as usize;
                (house.guests[at], house.running[at]) = (guest, running);
                house.count += 1;
            }
            TICKETS => {
                let queue: &mut Queue = &mut house.queues[self.queues];
                queue.waiting = body.len() as u32;
                queue.places[..body.len()].copy_from_slice(body);
                self.queues += 1;
            }
            FRAME => {
                if body[0] as usize != self.frames {
                    return self.wrong(Why::Number, counts);
                }
                let first = self.frames * FRAME_WORDS;
                memory[first..first + FRAME_WORDS].copy_from_slice(&body[1..]);
                self.frames += 1;
            }
            _ => self.end = Some(self.start),
        }
    }

    /// The end of the input: the house, or the refusal.
    pub fn finish(mut self, counts: &mut Counts) -> Result<House, Refusal> {
        if self.refused.is_none() {
            match (self.end, self.record.len()) {
                (Some(start), _) if self.house.damaged() => {
                    self.refuse(Refusal::Saved(start), Why::Damaged, counts);
                }
                (Some(_), _) => {}
                (None, 0) => self.wrong(Why::Stops, counts),
                (None, some) if some < HEAD => self.wrong(Why::CutInHead, counts),
                (None, _) => self.wrong(Why::CutInBody, counts),
            }
        }
        counts.saves.finished(self.refused);
        self.refused.map_or(Ok(self.house), Err)
    }
}

/// Whether a body of this length is right for its kind.
fn well_sized(kind: u16, length: usize) -> bool {
    let whole = length.is_multiple_of(4);
    match kind {
        TURN => length == TURN_BODY,
        PARTITION => whole && (4 * OWN_WORDS..=4 * (OWN_WORDS + LIST_PLACES)).contains(&length),
        TICKETS => whole && length <= 4 * PLACES,
        FRAME => length == FRAME_BODY,
        _ => length == 0,
    }
}

/// How many words of memory the first record of a file names, if it is long enough.
pub fn named_words(bytes: &[u8]) -> Option<u32> {
    let place = HEAD + 4;
    Some(u32::from_le_bytes(bytes.get(place..place + 4)?.try_into().ok()?))
}

/// The program: reads a saved file into a memory of the size that it names, at most 1,024 frames, runs
/// so many host steps by either engine, and saves.
pub fn resume(bytes: &[u8], steps: u64, engine: Engine, counts: &mut Counts) -> Left {
    let ran = restore(bytes, counts).and_then(|(mut house, mut memory)| {
        let mut left = steps;
        while left > 0 {
            let some = left.min(u64::from(MOST_STEPS));
            house.run_by(engine, &mut memory, some as u32, counts)?;
            left -= some;
        }
        Ok((house, memory))
    });
    Left::of(ran.map_err(|refusal| numbers(Err(refusal))), counts)
}

/// The house of a saved file and its memory.
pub(crate) fn restore(bytes: &[u8], counts: &mut Counts) -> Result<(House, Vec<u32>), Refusal> {
    let most = MOST_FRAMES * FRAME_WORDS;
    let mut memory = vec![0; most.min(named_words(bytes).unwrap_or(0) as usize)];
    let mut reading = Reading::new();
    for piece in bytes.chunks(PIECE) {
        reading.piece(&mut memory, piece, counts)?;
    }
    Ok((reading.finish(counts)?, memory))
}
