//! Random house files, whole, damaged and cut.

use super::guest_frames;
use super::programs::{program, Program};
use crate::house::HOUSE_FRAME;
use crate::housefile::{record_bytes, word_bytes, FRAMES, HEAD, PIECE};
use crate::memory::FRAME_WORDS;
use crate::rng::Rng;

/// A record: kind and body.
#[derive(Clone)]
struct Record {
    kind: u16,
    body: Vec<u8>,
}

impl Record {
    fn of_words(kind: u16, words: &[u32]) -> Self {
        Record { kind, body: word_bytes(words) }
    }
}

/// A house file and the name of its kind.
pub fn compose(rng: &mut Rng, damaged: bool, long: bool) -> (&'static str, Vec<u8>) {
    let mut records = whole(rng);
    if long {
        lengthen(rng, &mut records);
    }
    if !damaged {
        return ("whole", bytes(&records));
    }
    match rng.below(20) {
        0..=3 => cut(rng, &records),
        4 | 5 => extended(rng, &records),
        6..=8 => changed_head(rng, &records),
        9..=11 => {
            wrong_record(rng, &mut records);
            ("wrong record", bytes(&records))
        }
        12..=14 => {
            wrong_order(rng, &mut records);
            ("wrong order", bytes(&records))
        }
        _ => {
            refused(rng, &mut records);
            ("refused", bytes(&records))
        }
    }
}

fn bytes(records: &[Record]) -> Vec<u8> {
    records.iter().flat_map(|record| record_bytes(record.kind, &record.body)).collect()
}

/// A file without fault: one to eight partitions with programs; now and then the house's own frame
/// is written, too.
fn whole(rng: &mut Rng) -> Vec<Record> {
    let partitions = rng.pick(&[1, 1, 2, 2, 3, 8]);
    let frames = guest_frames(rng, FRAMES as u32);
    let share = frames.len() / partitions;
    let lists: Vec<&[u32]> =
        frames.chunks(share).take(partitions).map(|own| &own[..rng.index(share) + 1]).collect();
    let q = rng.pick(&[1, 2, 7, 100, 10_000]);
    let mut records = vec![Record::of_words(1, &[q, run_length(rng)])];
    records.extend(lists.iter().map(|list| Record::of_words(2, list)));
    let pages: Vec<u32> = lists.iter().map(|list| list.len() as u32).collect();
    for (own, list) in lists.iter().enumerate().take(4) {
        let program = program(rng, &pages, own);
        records.extend(loads(rng, list, &program));
    }
    if rng.chance(10) {
        records.push(load(HOUSE_FRAME, &vec![rng.word(); FRAME_WORDS]));
    }
    records.push(Record { kind: 4, body: Vec::new() });
    records
}

fn run_length(rng: &mut Rng) -> u32 {
    match rng.below(5) {
        0 => rng.below(4),
        1 => rng.between(500, 3_000),
        _ => rng.between(10, 500),
    }
}

/// Kind 3 records with a program's pages; now and then a frame is written twice.
fn loads(rng: &mut Rng, list: &[u32], program: &Program) -> Vec<Record> {
    let mut pages = vec![vec![0; FRAME_WORDS]; list.len()];
    for &(place, value) in &program.words {
        pages[place as usize / FRAME_WORDS][place as usize % FRAME_WORDS] = value;
    }
    let mut records = Vec::new();
    for (page, &frame) in pages.iter().zip(list) {
        if page.iter().any(|&word| word != 0) {
            if rng.chance(5) {
                let other: Vec<u32> = page.iter().map(|_| rng.word()).collect();
                records.push(load(frame, &other));
            }
            records.push(load(frame, page));
        }
    }
    records
}

/// More kind 3 records in front of the others, until the file takes two to four pieces.
fn lengthen(rng: &mut Rng, records: &mut Vec<Record>) {
    let least = PIECE * rng.between(1, 3) as usize;
    let behind = 1 + lists(records);
    while bytes(records).len() <= least {
        let page: Vec<u32> = (0..FRAME_WORDS).map(|_| rng.word()).collect();
        records.insert(behind, load(rng.below(FRAMES as u32), &page));
    }
}

fn load(frame: u32, page: &[u32]) -> Record {
    Record::of_words(3, &[&[frame], page].concat())
}

/// Cut short: anywhere, inside a head, or after a whole record.
fn cut(rng: &mut Rng, records: &[Record]) -> (&'static str, Vec<u8>) {
    let mut all = bytes(records);
    let kept = &records[..rng.index(records.len())];
    let length = match rng.below(3) {
        0 => rng.index(all.len()),
        1 => bytes(kept).len() + rng.index(HEAD),
        _ => bytes(kept).len(),
    };
    all.truncate(length);
    ("cut", all)
}

/// Bytes after the end.
fn extended(rng: &mut Rng, records: &[Record]) -> (&'static str, Vec<u8>) {
    let mut all = bytes(records);
    match rng.below(3) {
        0 => all.push(0),
        1 => all.extend(record_bytes(4, &[])),
        _ => all.extend((0..rng.between(1, 20)).map(|at| at as u8)),
    }
    ("extended", all)
}

/// A byte of a head, or of a list, becomes another.
fn changed_head(rng: &mut Rng, records: &[Record]) -> (&'static str, Vec<u8>) {
    let mut all = bytes(records);
    let at = rng.index(records.len());
    let start = bytes(&records[..at]).len();
    let most = if records[at].kind == 2 { HEAD + records[at].body.len() } else { HEAD };
    let place = start + rng.index(most);
    all[place] = match rng.below(3) {
        0 => all[place] ^ 1 << rng.below(8),
        1 => 255,
        _ => rng.below(6) as u8,
    };
    ("changed head", all)
}

/// A record whose body has a wrong size or frame.
fn wrong_record(rng: &mut Rng, records: &mut Vec<Record>) {
    let at = rng.index(records.len());
    let page = vec![7; FRAME_WORDS];
    match rng.below(7) {
        0 => records[at].body.push(0),
        1 => drop(records[at].body.pop()),
        2 => records[at].body.extend([0; 4]),
        3 => {
            let frame = rng.pick(&[16, 17, 255, u32::MAX, 1 << 16]);
            insert_before_end(records, load(frame, &page));
        }
        4 => {
            let list: Vec<u32> = (0..rng.between(256, 258)).collect();
            records.insert(1, Record::of_words(2, &list));
        }
        5 => records[at].kind = rng.pick(&[0, 5, 256, 257, 0x0401, u16::MAX]),
        _ => records[at].body.clear(),
    }
}

fn insert_before_end(records: &mut Vec<Record>, record: Record) {
    records.insert(records.len() - 1, record);
}

/// Records of the right form in a wrong order or number.
fn wrong_order(rng: &mut Rng, records: &mut Vec<Record>) {
    let at = rng.index(records.len());
    let other = rng.index(records.len());
    match rng.below(7) {
        0 => records.swap(at, other),
        1 => drop(records.remove(at)),
        2 => records.insert(at, records[other].clone()),
        3 => insert_before_end(records, records[1].clone()),
        4 => records.insert(1, load(0, &vec![1; FRAME_WORDS])),
        5 => records.retain(|record| record.kind != 2),
        _ => {
            let list = Record::of_words(2, &[rng.below(20)]);
            let more = rng.between(7, 9) as usize;
            records.splice(1..1, vec![list; more]);
        }
    }
}

/// A well-formed file that boot or run refuses.
fn refused(rng: &mut Rng, records: &mut [Record]) {
    for _ in 0..rng.pick(&[1, 1, 1, 2, 3]) {
        let list = rng.index(lists(records)) + 1;
        match rng.below(9) {
            0 => records[list].body.clear(),
            1 => change_word(records, 0, 0, rng.pick(&[0, 10_001, u32::MAX])),
            2 | 3 => change_word(records, 0, 1, rng.pick(&[1_000_001, 1_000_002, u32::MAX])),
            4 => add_word(records, list, rng.pick(&[16, 17, 1_000, u32::MAX])),
            5 => add_word(records, list, HOUSE_FRAME),
            _ => {
                let again = first_frame(records);
                add_word(records, list, again);
            }
        }
    }
}

fn lists(records: &[Record]) -> usize {
    records.iter().filter(|record| record.kind == 2).count()
}

fn first_frame(records: &[Record]) -> u32 {
    records[1].body.first().map_or(0, |&low| u32::from(low))
}

fn change_word(records: &mut [Record], record: usize, word: usize, value: u32) {
    records[record].body[4 * word..4 * word + 4].copy_from_slice(&value.to_le_bytes());
}

fn add_word(records: &mut [Record], record: usize, value: u32) {
    records[record].body.extend(value.to_le_bytes());
}
