//! Files for the programs that tell what a house came to: house files whose guests set every number and
//! then meet one interrupt, saved files of houses in which every number is another, and wrong ones.

use std::collections::HashSet;

use super::listings::words;
use super::{files, guest_frames, saves, Read};
use crate::assemble::{function, jr, lw, nop, opcode, r_type, sw, trap, Code};
use crate::counts::Counts;
use crate::dlx::special::{COUNT, ECA, EMODE, MODE, PTL, PTO, SR, TCOUNT};
use crate::dlx::{Cause, Guest};
use crate::house::{House, MOST_FRAMES, MOST_TURN, PARTITIONS};
use crate::housefile::{record_bytes, word_bytes, FRAMES, HEAD};
use crate::memory::{FRAME_WORDS, PROTECTED, VALID};
use crate::reads::house;
use crate::rng::Rng;
use crate::saved;
use crate::tickets::PLACES;

/// A file of the kind whose turn it is, and its name.
pub fn file(rng: &mut Rng, number: usize) -> (&'static str, Vec<u8>) {
    match number % 10 {
        0..=2 => ("saved state", state(rng)),
        3..=5 => ("house of one interrupt each", interrupts(rng)),
        6 => files::compose(rng, false, false),
        7 => files::compose(rng, true, false),
        8 if rng.chance(20) => ("saved state of another size", resized(rng)),
        _ => {
            let whole = state(rng);
            ("damaged saved state", saves::damage(rng, &whole))
        }
    }
}

/// Numbers of every length, no two of them the same.
#[derive(Default)]
struct Numbers(HashSet<u32>);

impl Numbers {
    fn next(&mut self, rng: &mut Rng) -> u32 {
        loop {
            let number = rng.word() >> rng.pick(&[0, 0, 0, 4, 8, 13, 19]);
            if self.0.insert(number) {
                return number;
            }
        }
    }
}

/// The causes' bits, and those of none: a value for ECA.
fn causes(rng: &mut Rng) -> u32 {
    let bit = match rng.below(10) {
        0 => return 0,
        1 | 2 => rng.pick(&[0, 7, 9, 12, 14, 20, 31]),
        _ => rng.pick(&Cause::ALL) as u32,
    };
    (rng.word() | 1) << bit
}

/// The saved file of a house in which every number is another.
fn state(rng: &mut Rng) -> Vec<u8> {
    let partitions = rng.pick(&[1, 1, 2, 2, 3, 5, PARTITIONS]);
    let pages: Vec<u32> = (0..partitions).map(|_| rng.between(1, 3)).collect();
    let used: u32 = pages.iter().sum();
    let frames = 1 + used + rng.below(3);
    let mut list = guest_frames(rng, frames);
    list.truncate(used as usize);
    let size = frames as usize * FRAME_WORDS;
    let mut house = House::boot(&pages, rng.between(1, MOST_TURN), &list, size).0;
    let mut numbers = Numbers::default();
    for at in 0..partitions {
        fill(rng, &mut numbers, &mut house.guests[at]);
        house.running[at] = rng.chance(60);
        let queue = &mut house.queues[at];
        queue.waiting = rng.pick(&[0, 0, 1, 5, PLACES as u32]);
        let waiting = queue.places.iter_mut().take(queue.waiting as usize);
        waiting.for_each(|ticket| *ticket = numbers.next(rng));
    }
    let running: Vec<u32> =
        (0..partitions as u32).filter(|&at| house.running[at as usize]).collect();
    (house.current, house.left) = match running.is_empty() {
        true => (0, 0),
        false => (rng.pick(&running), rng.between(1, house.q)),
    };
    saved::file(&house, &words(rng, size))
}

/// A saved file that names another size of its memory: none that a program lends, or another one.
fn resized(rng: &mut Rng) -> Vec<u8> {
    let mut bytes = state(rng);
    let most = (MOST_FRAMES * FRAME_WORDS) as u32;
    let size = rng.pick(&[most + 1, most + 1_024, u32::MAX, 1 << 31, most, 1_000, 0]);
    bytes[HEAD + 4..HEAD + 8].copy_from_slice(&size.to_le_bytes());
    bytes
}

fn fill(rng: &mut Rng, numbers: &mut Numbers, guest: &mut Guest) {
    guest.registers[1..].iter_mut().for_each(|register| *register = numbers.next(rng));
    guest.specials = std::array::from_fn(|_| numbers.next(rng));
    (guest.specials[MODE], guest.specials[EMODE]) = (rng.below(2), rng.below(2));
    guest.specials[ECA] = causes(rng);
    (guest.dpc, guest.pc) = (numbers.next(rng), numbers.next(rng));
    guest.fault = rng.below(8);
    guest.counter = rng.bits() >> rng.pick(&[0, 0, 8, 31, 32, 33, 50]);
}

/// A house file whose guests set their numbers, and then each meets an interrupt of its own, or none.
fn interrupts(rng: &mut Rng) -> Vec<u8> {
    let partitions = rng.pick(&[1, 2, 3, 5]);
    let frames = guest_frames(rng, FRAMES as u32);
    let lists: Vec<&[u32]> =
        frames.chunks(3).take(partitions).map(|own| &own[..rng.between(2, 3) as usize]).collect();
    let each = rng.pick(&[40, 130, 160, 200, 300]);
    let steps = partitions as u32 * each + rng.below(90);
    let record = |kind, words: &[u32]| record_bytes(kind, &word_bytes(words));
    let mut bytes = record(1, &[rng.pick(&[1, 3, 20, 500, 9_999]), steps]);
    bytes.extend(lists.iter().flat_map(|list| record(2, list)));
    for list in lists {
        let pages = guest_pages(rng, list.len());
        for (&frame, page) in list.iter().zip(pages) {
            bytes.extend(record(3, &[&[frame], &page[..]].concat()));
        }
    }
    bytes.extend(record(4, &[]));
    bytes
}

/// How a guest ends: by a loop in either mode, by an interrupt of its own, or by a fault.
#[derive(Clone, Copy)]
enum End {
    Loop,
    UserLoop,
    Word(Cause),
    Odd,
    Timer,
    Fault(u32),
    Fetch(u32),
}

const ENDS: [End; 20] = [
    End::Loop,
    End::UserLoop,
    End::UserLoop,
    End::UserLoop,
    End::Word(Cause::Ill),
    End::Word(Cause::Mal),
    End::Word(Cause::Trap),
    End::Word(Cause::Ovf),
    End::Odd,
    End::Timer,
    End::Fault(1),
    End::Fault(2),
    End::Fetch(3),
    End::Fault(4),
    End::Fault(5),
    End::Fault(6),
    End::Fault(7),
    End::Fetch(1),
    End::Fetch(4),
    End::Fetch(7),
];

/// The register that tells the handler, which stands where the program begins, that all is set; one with
/// the address that fails, and one that overflows.
const SET: u32 = 30;
const ADDRESS: u32 = 29;
const LARGE: u32 = 28;

/// The pages of a guest: the program in page 0, its table in another.
fn guest_pages(rng: &mut Rng, pages: usize) -> Vec<Vec<u32>> {
    let mut numbers = Numbers::default();
    let end = rng.pick(&ENDS);
    let table = rng.between(1, pages as u32 - 1);
    let length = if matches!(end, End::Fault(2)) { 1_500 } else { 4 } + rng.below(900);
    let page = match end {
        End::Fault(1) | End::Fetch(1) => length + rng.below(20),
        End::Fault(2) => 1_024 + rng.below(400),
        End::Fault(4) | End::Fetch(4) => 1,
        End::Fault(5) => 2,
        End::Fault(6) => 3,
        _ => pages as u32 + rng.below(1_000),
    };
    let odd = matches!(end, End::Odd | End::Word(Cause::Mal)) as u32;
    let address = 4_096 * page + 4 * rng.below(1_024) + odd;
    let mut specials: [u32; COUNT] = std::array::from_fn(|_| numbers.next(rng));
    specials[SR] = specials[SR] & !(1 << Cause::Timer as u32) | 1 << Cause::Ovf as u32;
    specials[ECA] = causes(rng);
    specials[TCOUNT] |= 1 << 24;
    specials[PTL] = length;
    specials[PTO] = match end {
        End::Fetch(3) => pages as u32 + rng.below(1 << 20),
        _ => table,
    };
    let mut code = Code::default();
    let handler = code.branch(opcode::BNEZ, SET, nop());
    for (special, value) in specials.into_iter().enumerate().filter(|&(at, _)| at != MODE) {
        code.special(special, 1, value);
    }
    for register in 1..32 {
        code.long_constant(register, numbers.next(rng));
    }
    code.long_constant(ADDRESS, address);
    code.long_constant(LARGE, 0x7FFF_0000 | rng.below(1 << 16));
    let user = matches!(end, End::UserLoop | End::Fault(1..=6) | End::Fetch(1..=6));
    if matches!(end, End::Timer) {
        code.special(TCOUNT, 1, rng.between(4, 40));
        code.special(SR, 1, 1 << Cause::Timer as u32 | rng.below(64));
    }
    if user || !matches!(end, End::Timer | End::Loop) && rng.chance(20) {
        code.special(MODE, 1, 1);
    }
    code.long_constant(1, numbers.next(rng));
    match end {
        End::Loop | End::UserLoop | End::Timer => {}
        End::Word(Cause::Ill) => code.push(&[rng.pick(&[0, 0xFFFF, 1 << 26])]),
        End::Word(Cause::Trap) => code.push(&[trap(rng.word())]),
        End::Word(Cause::Ovf) => code.push(&[r_type(function::ADD, 5, LARGE, LARGE)]),
        End::Fault(6) => code.push(&[sw(5, ADDRESS, 0)]),
        End::Odd | End::Fetch(_) => code.push(&[jr(ADDRESS), nop()]),
        End::Word(_) | End::Fault(_) => code.push(&[lw(5, ADDRESS, 0)]),
    }
    code.land(handler);
    let here = code.here();
    code.jump_back(here, nop());
    let mut all = vec![words(rng, FRAME_WORDS); pages];
    all[0][..code.words.len()].copy_from_slice(&code.words);
    let none = rng.word() & !VALID;
    let beyond = (pages as u32 + rng.below(9)) << 12 | VALID;
    all[table as usize][..4].copy_from_slice(&[VALID, none, beyond, VALID | PROTECTED]);
    all
}

/// What is asked of a file: words of a partition, and one of its frames.
pub fn read(rng: &mut Rng, file: super::File) -> Read {
    let ran = house(&file.bytes, &mut Counts::default());
    let (pages, frames): (Vec<u32>, u32) = match &ran {
        Ok((house, memory)) => {
            let used = &house.guests[..house.count as usize];
            let pages = used.iter().map(|guest| guest.space.pages).collect();
            (pages, (memory.len() / FRAME_WORDS) as u32)
        }
        Err(_) => (vec![1], FRAMES as u32),
    };
    let partition = rng.below(pages.len() as u32);
    let size = FRAME_WORDS as u32 * pages[partition as usize];
    let words = asked(rng, partition, pages.len() as u32, size);
    let frame = match rng.below(12) {
        0 => frames.to_string(),
        1 => rng.pick(&["1023", "1024", "x", "4294967296", "-1"]).to_string(),
        2 => format!("00{}", rng.below(frames)),
        _ => rng.below(frames).to_string(),
    };
    Read { file, words, frame }
}

/// The words behind `readout FILE`, for a partition of so many words.
fn asked(rng: &mut Rng, partition: u32, partitions: u32, size: u32) -> Vec<String> {
    let first = rng.below(size);
    let rest = u64::from(size - first);
    let few = u64::from(rng.below(60)).min(rest);
    let near = rest.min(1);
    let (mut partition, mut address, mut count) = (partition, 4 * first, few);
    match rng.below(17) {
        0 | 1 => count = rest,
        2 => (address, count) = (4 * size - 4, 1),
        3 => count = rest + near,
        4 => address += rng.between(1, 3),
        5 | 16 => partition = rng.pick(&[partitions, partitions + 1, 8, u32::MAX]),
        6 => count = rng.pick(&[u64::MAX, 1 << 62, 1 << 30, (1 << 62) - 1]),
        7 => (address, count) = (4 * size, 0),
        8 => (address, count) = (rng.pick(&[4 * size + 4, u32::MAX - 3, u32::MAX]), 0),
        9 => (address, count) = (0, u64::from(size)),
        _ => {}
    }
    let mut words = vec![partition.to_string(), address.to_string(), count.to_string()];
    match rng.below(10) {
        0..=3 => words.push("raw".into()),
        4..=6 => words.push("signed".into()),
        _ => {}
    }
    match rng.below(20) {
        0 => words[0].insert_str(0, "0"),
        1 => words[2].insert_str(0, "000"),
        2 => spoil(rng, &mut words),
        _ => {}
    }
    words
}

/// A wrong use.
fn spoil(rng: &mut Rng, words: &mut Vec<String>) {
    let at = rng.index(3);
    let wrong = ["x", "", "-1", "18446744073709551616", "1 ", "0x1"];
    match rng.below(4) {
        0 => words[rng.index(2)] = "4294967296".into(),
        1 => {
            words.truncate(3);
            words.push(rng.pick(&["RAW", "", "0", "sign", "Signed", "raw "]).into());
        }
        _ => words[at] = rng.pick(&wrong).into(),
    }
}
