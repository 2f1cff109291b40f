//! Houses with tickets and timers that are saved in the middle of their runs, and read back in pieces
//! over a memory that others have used.

use super::{files, runs, tickets, timers, words, Draft};
use crate::counts::Counts;
use crate::housefile::{night_saved, record_bytes, HEAD};
use crate::memory::Engine;
use crate::rng::Rng;
use crate::saved::{self, END, FRAME, OWN_WORDS, PARTITION, TICKETS, TURN};
use crate::script::{Command, MOST_PIECE, MOST_SAVED};

/// The most frames that the partitions have together: the scripts carry the whole files.
const MOST_USED: usize = 5;

/// A script of this kind. After a reading that was done the house is the one that was saved, but for
/// the shadows; nothing else is edited by hand.
pub fn compose(draft: &mut Draft) {
    let mut pages = draft.page_counts(3);
    while pages.iter().sum::<u32>() as usize > MOST_USED {
        pages.pop();
    }
    if pages.is_empty() {
        pages.push(2);
    }
    let spare = draft.rng.below(2);
    draft.boot_with(&pages, spare);
    runs::load_programs(draft, &pages);
    for partition in 0..draft.partitions() {
        if draft.rng.chance(50) {
            tickets::set_queue(draft, partition);
        }
        if draft.rng.chance(50) {
            timers::poke(draft, partition);
        }
    }
    go_on(draft);
    for _ in 0..draft.rng.between(1, 2) {
        let bytes = save(draft);
        meanwhile(draft);
        for _ in 0..draft.rng.between(1, 4) {
            let wrong = damage(&mut draft.rng, &bytes);
            let refused = read(draft, &wrong, true);
            if !refused {
                go_on(draft);
            } else if draft.rng.chance(10) {
                draft.emit(Command::Save { offset: 0, output: 30 });
            }
        }
        scribble(draft, bytes.len());
        read(draft, &bytes, false);
        go_on(draft);
    }
}

/// Some runs, with other calls between them.
fn go_on(draft: &mut Draft) {
    if draft.player.house.damaged() {
        return;
    }
    for _ in 0..draft.rng.between(1, 3) {
        let partition = draft.partition();
        match draft.rng.below(8) {
            0 => drop(draft.emit(Command::Stop { partition })),
            1 => drop(draft.emit(Command::Start { partition })),
            2 => drop(draft.emit(Command::Empty { partition })),
            _ => {}
        }
        if draft.rng.chance(90) {
            draft.keep_running();
        }
        let steps = draft.rng.between(1, 400);
        draft.run(steps);
    }
}

/// Saves the house, in pieces of some room; now and then one is refused. Gives the file.
fn save(draft: &mut Draft) -> Vec<u8> {
    let bytes = saved::file(&draft.player.house, draft.player.lent());
    let length = bytes.len() as u32;
    let words = draft.player.lent().len() as u32;
    if draft.rng.chance(15) {
        let other = draft.rng.pick(&[0, words - 1, words + 1, words + 1_024]);
        draft.emit(Command::Length { words: other });
        draft.emit(Command::Save { offset: 0, output: 100 });
        draft.emit(Command::Length { words });
    }
    let any = draft.rng.between(length / 4, length);
    let room = draft.rng.pick(&[length, length + 1, any, any, MOST_SAVED as u32]);
    let room = room.min(MOST_SAVED as u32);
    let mut offset = 0;
    while offset < u64::from(length) {
        draft.emit(Command::Save { offset, output: room });
        offset += u64::from(room);
    }
    match draft.rng.below(4) {
        0 => {
            let offset = offset + draft.rng.bits() % 3;
            draft.emit(Command::Save { offset, output: 9 });
        }
        1 => {
            let (offset, output) = (draft.rng.below(length), draft.rng.below(900));
            draft.emit(Command::Save { offset: u64::from(offset), output });
        }
        2 => {
            let offset = draft.rng.bits();
            draft.emit(Command::Save { offset, output: 5 });
        }
        _ => {}
    }
    bytes
}

/// What comes between a save and the reading counts for nothing.
fn meanwhile(draft: &mut Draft) {
    match draft.rng.below(4) {
        0 => go_on(draft),
        1 => {
            draft.emit(Command::Boot { pages: vec![1], q: 3, frames: vec![1] });
            draft.emit(Command::Run { steps: 5 });
        }
        _ => {}
    }
}

/// The memory as it was, of zeros, or of anything.
fn scribble(draft: &mut Draft, salt: usize) {
    let count = draft.player.lent().len() as u32;
    match draft.rng.below(3) {
        0 => {}
        1 => drop(draft.emit(Command::Fill { index: 0, count, value: 0 })),
        _ => {
            let value = words::value(&mut draft.rng) ^ salt as u32;
            draft.emit(Command::Fill { index: 0, count, value });
        }
    }
}

/// Reads a file in pieces of any size, to its end; tells whether it was refused. Of one that is wrong
/// little is read behind the refusal, and the memory may have another size for a piece.
fn read(draft: &mut Draft, bytes: &[u8], wrong: bool) -> bool {
    let words = draft.player.lent().len() as u32;
    let most = if wrong { 4 } else { 9 };
    let cuts = cuts(&mut draft.rng, bytes, most);
    let other = (wrong && draft.rng.chance(25)).then(|| draft.rng.index(cuts.len()));
    let mut behind = 0;
    let mut from = 0;
    for (at, &to) in cuts.iter().enumerate() {
        if other == Some(at) {
            let size = draft.rng.pick(&[0, words - 1, words + 1, words + 1_024, words - 1_024]);
            draft.emit(Command::Length { words: size });
        }
        let bytes = bytes[from..to].to_vec();
        let answer = draft.emit(Command::Piece { bytes, new: at == 0 });
        if other == Some(at) {
            draft.emit(Command::Length { words });
        }
        from = to;
        behind += u32::from(answer.is_some_and(|answer| answer.is_err()));
        if behind == 2 {
            break;
        }
    }
    draft.emit(Command::Finish).is_some_and(|answer| answer.is_err())
}

/// At most so many places to cut a file at, and the end: anywhere, near the records' borders, and now and then
/// twice in the same place.
fn cuts(rng: &mut Rng, bytes: &[u8], most: u32) -> Vec<usize> {
    let borders = borders(bytes);
    let any = |rng: &mut Rng| match rng.below(3) {
        0 => rng.index(bytes.len() + 1),
        _ => {
            let border = rng.pick(&borders) + rng.index(2 * HEAD);
            border.saturating_sub(HEAD).min(bytes.len())
        }
    };
    let mut cuts: Vec<usize> = (0..rng.below(most)).map(|_| any(rng)).collect();
    if rng.chance(20) {
        cuts.extend(cuts.first().copied());
    }
    cuts.extend((1..=bytes.len() / MOST_PIECE).map(|many| many * MOST_PIECE));
    cuts.push(bytes.len());
    cuts.sort_unstable();
    cuts
}

/// Where records begin, as far as their heads go.
fn borders(bytes: &[u8]) -> Vec<usize> {
    let mut borders = vec![0];
    let mut at = 0;
    while let Some(&length) = bytes.get(at..).and_then(|rest| rest.first_chunk::<4>()) {
        at = at.saturating_add(HEAD).saturating_add(u32::from_le_bytes(length) as usize);
        if at > bytes.len() {
            break;
        }
        borders.push(at);
    }
    borders
}

/// The file with something wrong in it; now and then it is right all the same.
pub(super) fn damage(rng: &mut Rng, bytes: &[u8]) -> Vec<u8> {
    let mut wrong = bytes.to_vec();
    let borders = borders(bytes);
    let kind = rng.pick(&[TURN, PARTITION, TICKETS, FRAME, END]);
    let start = some_record(rng, bytes, &borders, kind);
    let at = borders.iter().position(|&border| border == start).unwrap_or_default();
    let end = borders[at + 1];
    match rng.below(18) {
        16 => wrong[start + rng.index(4)] ^= 1 << rng.below(8),
        17 => wrong.insert(end, 0),
        0 => wrong.truncate(rng.index(bytes.len())),
        1 => wrong.truncate(start + rng.index(HEAD)),
        2 => wrong.truncate(start),
        3 => wrong.extend((0..rng.between(1, 9)).map(|byte| byte as u8)),
        4 | 5 => wrong[start + rng.index(HEAD)] ^= 1 << rng.below(8),
        6 => drop(wrong.drain(start..end)),
        7 => {
            let again = bytes[start..end].to_vec();
            let other = rng.pick(&borders);
            wrong.splice(other..other, again);
        }
        8 | 9 => change_partition(rng, &mut wrong, &borders),
        10 => {
            let (word, value) = (rng.below(4), rng.pick(&[0, 1, 8, 10_000, 10_001, u32::MAX]));
            put(&mut wrong, HEAD + 4 * word as usize, value);
        }
        11 => {
            let place = rng.index(bytes.len());
            wrong[place] = rng.word() as u8;
        }
        12 => {
            let kind = rng.pick(&[0, 1, 2, 3, 4, 5, 6, 7]);
            let body = vec![0; rng.pick(&[0, 0, 4, 16, 128, 200, 204])];
            wrong.splice(start..start, record_bytes(kind, &body));
        }
        13 | 14 => change_frame(rng, &mut wrong, &borders),
        _ => {
            let most = (borders.len() - 1 - at).min(3) as u32;
            let last = borders[at + rng.between(1, most) as usize];
            wrong.drain(start..last);
        }
    }
    wrong
}

/// Puts a word at a place.
fn put(bytes: &mut [u8], place: usize, value: u32) {
    bytes[place..place + 4].copy_from_slice(&value.to_le_bytes());
}

/// The first record of a kind, or a later one.
fn some_record(rng: &mut Rng, bytes: &[u8], borders: &[usize], kind: u16) -> usize {
    let of_kind =
        |&&start: &&usize| bytes.get(start + 4..HEAD + start) == Some(&kind.to_le_bytes());
    let found: Vec<usize> = borders.iter().filter(of_kind).copied().collect();
    rng.pick(&found)
}

/// A number of a partition that makes its record wrong or the house damaged, or does not.
fn change_partition(rng: &mut Rng, bytes: &mut [u8], borders: &[usize]) {
    let body = HEAD + some_record(rng, bytes, borders, PARTITION);
    let place = rng.pick(&[0, 40, 43, 46, 47, 47, 47, OWN_WORDS]);
    let value = rng.pick(&[0, 1, 2, 7, 8, 1 << 16, u32::MAX]);
    put(bytes, body + 4 * place, value);
}

/// Another number of a frame.
fn change_frame(rng: &mut Rng, bytes: &mut [u8], borders: &[usize]) {
    let start = some_record(rng, bytes, borders, FRAME);
    let other = rng.pick(&[0, 1, 2, 3, 256, u32::MAX]);
    put(bytes, start + HEAD, other);
}

/// The file of a house that has run, whole or damaged, and the name of its kind.
pub fn saved_file(rng: &mut Rng) -> (&'static str, Vec<u8>) {
    loop {
        let (_, bytes) = files::compose(rng, false, false);
        if let Some(whole) = night_saved(&bytes, Engine::Shadowed, &mut Counts::default()).saved {
            return match rng.below(3) {
                0 => ("whole", whole),
                _ => ("damaged", damage(rng, &whole)),
            };
        }
    }
}
