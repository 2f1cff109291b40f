//! Calls with right and wrong arguments, on sound and damaged houses.

use super::{guest_frames, tickets, Draft};
use crate::assemble::{nop, Code};
use crate::dlx::special::{EMODE, MODE, TCOUNT, TLOAD};
use crate::fields::{self, COUNT, CURRENT, LEFT, Q, RUNNING, WAITING, WORDS};
use crate::house::{House, HOUSE_FRAME};
use crate::memory::{ENTRIES, PROTECTED, VALID};
use crate::rng::Rng;
use crate::script::{Command, MOST_OUTPUT};

/// A change of the house: index and value.
type Change = (u32, u32);

/// A script of this kind.
pub fn compose(draft: &mut Draft) {
    for _ in 0..draft.rng.between(2, 4) {
        for _ in 0..draft.rng.below(8) {
            wrong_boot(draft);
        }
        let pages = draft.page_counts(4);
        draft.boot(&pages);
        load_tickets(draft);
        for _ in 0..draft.rng.between(5, 15) {
            something(draft);
        }
    }
}

/// A loop of ticket traffic for each partition.
fn load_tickets(draft: &mut Draft) {
    for own in 0..draft.partitions() {
        let seat = draft.seat(own);
        let mut code = Code::default();
        for _ in 0..3 {
            tickets::piece(&mut draft.rng, seat, &mut code);
        }
        code.jump_back(0, nop());
        for (place, value) in (0..).zip(code.words) {
            draft.poke_guest(own, place, value);
        }
    }
}

fn something(draft: &mut Draft) {
    match draft.rng.below(10) {
        0 | 1 => damage_and_repair(draft),
        2 => wrong_length(draft),
        3 => refused_run(draft),
        4 => nothing_running(draft),
        5 => read_out(draft),
        6 => set_queue(draft),
        7 => run_tickets(draft),
        _ => any_call(draft),
    }
}

/// A boot with one or more wrong arguments.
fn wrong_boot(draft: &mut Draft) {
    let mut pages: Vec<u32> = draft.page_counts(6);
    let used: u32 = pages.iter().sum();
    let mut frames = guest_frames(&mut draft.rng, 1 + used);
    let enough = 1_024 * (1 + used);
    let (mut q, mut words) = (draft.turn_length(), enough);
    for _ in 0..draft.rng.pick(&[1, 1, 1, 2, 3]) {
        let rng = &mut draft.rng;
        match rng.below(12) {
            0 => pages.resize(rng.pick(&[0, 9, 9, 10, 16]), 1),
            1 => wrong_page_count(rng, &mut pages, &mut frames),
            2 => q = rng.pick(&[0, 10_001, u32::MAX]),
            3 => words = rng.pick(&[0, 1, 1_023, enough + 1, enough - 1, 65_535]),
            4 => wrong_list_length(rng, &mut frames),
            5 => wrong_frames(rng, &mut frames, words / 1_024),
            6..=8 => name_house_frame(rng, &mut frames, words / 1_024),
            _ => repeat_frames(rng, &mut frames),
        }
    }
    draft.emit(Command::Length { words });
    draft.emit(Command::Boot { pages, q, frames });
}

fn wrong_page_count(rng: &mut Rng, pages: &mut [u32], frames: &mut Vec<u32>) {
    for _ in 0..rng.between(1, 2) {
        if !pages.is_empty() {
            let at = rng.index(pages.len());
            pages[at] = rng.pick(&[0, 257, u32::MAX, 256]);
        }
    }
    let sum: u64 = pages.iter().map(|&count| u64::from(count)).sum();
    if sum <= 2_048 && rng.chance(70) {
        *frames = guest_frames(rng, 1 + sum as u32);
    }
}

fn wrong_list_length(rng: &mut Rng, frames: &mut Vec<u32>) {
    match rng.below(3) {
        0 => frames.clear(),
        1 => drop(frames.pop()),
        _ => frames.push(rng.below(64)),
    }
}

fn wrong_frames(rng: &mut Rng, frames: &mut [u32], limit: u32) {
    for _ in 0..rng.between(1, 3) {
        if !frames.is_empty() {
            let at = rng.index(frames.len());
            frames[at] = rng.pick(&[limit, limit + 1, u32::MAX, 1 << 20]);
        }
    }
}

/// The house's own frame at one or more positions, now and then with frames that stand twice, or
/// with one that is not there.
fn name_house_frame(rng: &mut Rng, frames: &mut [u32], limit: u32) {
    match rng.below(4) {
        0 | 1 => repeat_frames(rng, frames),
        2 => wrong_frames(rng, frames, limit),
        _ => {}
    }
    if !frames.is_empty() {
        let from = rng.index(frames.len());
        for _ in 0..rng.between(1, 3) {
            let at = from + rng.index(frames.len() - from);
            frames[at] = HOUSE_FRAME;
        }
    }
}

fn repeat_frames(rng: &mut Rng, frames: &mut [u32]) {
    for _ in 0..rng.between(1, 3) {
        if !frames.is_empty() {
            let (from, to) = (rng.index(frames.len()), rng.index(frames.len()));
            frames[to] = frames[from];
        }
    }
}

/// Any call, with a partition that may not exist.
fn any_call(draft: &mut Draft) {
    let partitions = draft.partitions();
    let rng = &mut draft.rng;
    let partition = match rng.below(6) {
        0 => partitions,
        1 => rng.pick(&[7, 8, 9, u32::MAX]),
        _ => rng.below(partitions.max(1)),
    };
    let command = match rng.below(8) {
        6 => Command::Audit,
        7 => Command::Mend,
        0 => {
            let steps = rng.below(12);
            return draft.run(steps);
        }
        1 => Command::Start { partition },
        2 | 3 => Command::Stop { partition },
        4 => Command::Empty { partition },
        _ => return read_from(draft, partition),
    };
    draft.emit(command);
}

/// A read-out from any partition.
pub fn read_out(draft: &mut Draft) {
    let partition = draft.partition();
    read_from(draft, partition);
}

fn read_from(draft: &mut Draft, partition: u32) {
    let pages = draft.player.house.guests.get(partition as usize).map_or(1, |g| g.space.pages);
    let end = pages.min(256) * 4_096;
    let rng = &mut draft.rng;
    let mut address = 4 * rng.below(end / 4 + 1);
    let most = u64::from((end - address) / 4);
    let small = u64::from(rng.below(10));
    let count = match rng.below(12) {
        0 => most,
        1 => most + 1,
        2 => rng.pick(&[u64::MAX, 1 << 62, 1 << 30, 1 << 32, u64::MAX / 4]),
        3 => 0,
        4 => most.min(u64::from(rng.below(3_000))),
        _ => most.min(small),
    };
    if rng.chance(8) {
        address = match rng.below(3) {
            0 => address + rng.between(1, 3),
            1 => rng.word() & !3,
            _ => end,
        };
    }
    let fits = count.min(MOST_OUTPUT as u64) as u32;
    let output = match rng.below(6) {
        0 => fits.saturating_sub(1),
        1 => rng.below(20),
        2 => fits,
        _ => (fits + rng.below(5)).min(MOST_OUTPUT as u32),
    };
    draft.emit(Command::Read { partition, address, count, output });
}

/// A run that is too long.
pub fn refused_run(draft: &mut Draft) {
    let steps = draft.rng.pick(&[1_000_001, 1_000_002, u32::MAX, 1 << 31]);
    draft.run(steps);
}

/// Stops all, runs, and starts one again.
fn nothing_running(draft: &mut Draft) {
    for partition in draft.rng.permutation(8) {
        if partition < draft.partitions() {
            draft.emit(Command::Stop { partition });
        }
    }
    for _ in 0..draft.rng.between(1, 2) {
        let steps = draft.rng.pick(&[0, 1, 5, 1_000_000, 1_000_001]);
        draft.run(steps);
    }
    if draft.rng.chance(80) {
        draft.keep_running();
    }
}

fn set_queue(draft: &mut Draft) {
    let partition = draft.partition();
    tickets::set_queue(draft, partition);
}

/// A run that is long enough to send and take.
fn run_tickets(draft: &mut Draft) {
    let steps = draft.rng.between(12, 600);
    draft.run(steps);
}

/// Calls while the memory's length is another than at boot.
pub fn wrong_length(draft: &mut Draft) {
    let words = draft.player.lent().len() as u32;
    let other = draft.rng.pick(&[0, words + 1, words - 1, words + 1_024, words - 1_024, 65_536]);
    draft.emit(Command::Length { words: other });
    for _ in 0..draft.rng.between(1, 3) {
        match draft.rng.below(4) {
            0 => draft.run(3),
            1 => refused_run(draft),
            2 => read_out(draft),
            _ => any_call(draft),
        }
    }
    draft.emit(Command::Length { words });
}

/// Changes the house by hand, calls, and puts it right again if it was damaged.
pub fn damage_and_repair(draft: &mut Draft) {
    if draft.player.house.damaged() {
        return;
    }
    let changes = damage(&mut draft.rng, &draft.player.house);
    let old: Vec<Change> = changes
        .iter()
        .filter_map(|&(index, _)| Some((index, fields::get(&draft.player.house, index)?)))
        .collect();
    for &(index, value) in &changes {
        draft.field(index, value);
    }
    let damaged = draft.player.house.damaged();
    for _ in 0..draft.rng.between(1, 3) {
        match draft.rng.below(5) {
            0 => wrong_length(draft),
            _ => any_call(draft),
        }
    }
    if damaged {
        for (index, value) in old {
            draft.field(index, value);
        }
        any_call(draft);
    }
}

/// One of the ways in which a house can be damaged; some values lie just inside the limits.
fn damage(rng: &mut Rng, house: &House) -> Vec<Change> {
    let partition = rng.below(house.count);
    match rng.below(23) {
        0 => vec![(COUNT, rng.pick(&[0, 9, u32::MAX, house.count - 1, house.count + 1]))],
        1 => vec![(Q, rng.pick(&[0, 10_000, 10_001, u32::MAX, house.left]))],
        2 => vec![(WORDS, wrong_words(rng, house.words))],
        3 => vec![wrong_current(rng, house)],
        4 => vec![(LEFT, rng.pick(&[0, house.q, house.q + 1, u32::MAX]))],
        5 => vec![flip(rng.below(8), house)],
        6 => all_stopped(rng),
        7 => vec![wrong_pages(rng, partition, house)],
        8 => vec![(fields::register(partition, 0), rng.word() | 1)],
        9 | 10 => vec![wrong_mode(rng, partition)],
        11 | 12 => vec![wrong_frame(rng, partition, house)],
        13 => vec![unused_frame(rng, partition, house)],
        14 | 15 => vec![wrong_shadow(rng, partition, house)],
        16 | 17 => vec![wrong_queue(rng, partition, house)],
        18 | 19 => vec![wrong_fault(rng, partition)],
        20 => vec![timer(rng, partition)],
        _ => vec![unused_partition(rng, house)],
    }
}

fn wrong_words(rng: &mut Rng, words: u32) -> u32 {
    rng.pick(&[0, 1, words + 1, words - 1, 1_024, 1_024 * 1_024, 1_024 * 1_025, u32::MAX])
}

fn wrong_current(rng: &mut Rng, house: &House) -> Change {
    let any = rng.below(9);
    (CURRENT, rng.pick(&[any, house.count, u32::MAX]))
}

fn flip(partition: u32, house: &House) -> Change {
    (RUNNING + partition, u32::from(!house.running[partition as usize]))
}

/// All flags off; the turn as it was, or none, or none with an index left over.
fn all_stopped(rng: &mut Rng) -> Vec<Change> {
    let mut changes: Vec<Change> = (0..8).map(|partition| (RUNNING + partition, 0)).collect();
    if rng.chance(70) {
        changes.push((LEFT, 0));
        changes.push((CURRENT, rng.below(3)));
    }
    changes
}

fn wrong_pages(rng: &mut Rng, partition: u32, house: &House) -> Change {
    let pages = house.guests[partition as usize].space.pages;
    let value = rng.pick(&[0, 257, 256, u32::MAX, pages - 1, pages + 1]);
    (fields::scalar(partition, fields::PAGES), value)
}

fn wrong_mode(rng: &mut Rng, partition: u32) -> Change {
    let special = rng.pick(&[MODE, EMODE]);
    (fields::special(partition, special), rng.pick(&[1, 2, 3, u32::MAX]))
}

/// A latest fault; from 8 on there is none.
fn wrong_fault(rng: &mut Rng, partition: u32) -> Change {
    let value = rng.pick(&[8, 8, 9, 256, 1 << 31, u32::MAX, 7, 0]);
    (fields::scalar(partition, fields::LATEST_FAULT), value)
}

/// A timer, which is never damage in a partition that there is.
fn timer(rng: &mut Rng, partition: u32) -> Change {
    let special = rng.pick(&[TCOUNT, TLOAD]);
    (fields::special(partition, special), rng.pick(&[1, 2, 1 << 31, u32::MAX]))
}

/// A frame number beyond the memory, the house's own, or one that stands elsewhere too.
fn wrong_frame(rng: &mut Rng, partition: u32, house: &House) -> Change {
    let pages = house.guests[partition as usize].space.pages;
    let value = match rng.below(5) {
        0 => rng.pick(&[house.words / 1_024, u32::MAX, 1 << 20]),
        1 => any_frame(rng, house),
        2 | 3 => HOUSE_FRAME,
        _ => rng.below(house.words / 1_024),
    };
    (fields::frame(partition, rng.below(pages)), value)
}

/// A frame of any partition.
fn any_frame(rng: &mut Rng, house: &House) -> u32 {
    let space = &house.guests[rng.index(house.count as usize)].space;
    space.frames[rng.index(space.pages as usize)]
}

/// Something in a place behind the list; the house's own frame is what stands there.
fn unused_frame(rng: &mut Rng, partition: u32, house: &House) -> Change {
    let pages = house.guests[partition as usize].space.pages;
    let any = rng.between(pages, 255);
    let place = rng.pick(&[pages, 255, any]);
    (fields::frame(partition, place), rng.pick(&[HOUSE_FRAME, HOUSE_FRAME, 1, 2, 3]))
}

/// A valid entry with a frame of any partition or none, or something in an empty entry or in the
/// unused bits.
fn wrong_shadow(rng: &mut Rng, partition: u32, house: &House) -> Change {
    let own = house.guests[partition as usize].space.frames[0];
    let bit = 1 << rng.below(10);
    let value = match rng.below(7) {
        0 => any_frame(rng, house) << 12 | VALID | rng.below(2) << 10,
        1 => rng.below(70) << 12 | VALID,
        2 => own << 12 | VALID | bit,
        3 => own << 12 | PROTECTED,
        4 => PROTECTED,
        5 => bit,
        _ => 0xF_FFFF << 12 | VALID,
    };
    (fields::shadow(partition, any_entry(rng)), value)
}

/// A shadow entry, often one at an edge.
fn any_entry(rng: &mut Rng) -> u32 {
    let any = rng.below(ENTRIES as u32);
    rng.pick(&[any, any, any, 0, 255, 256, 1_023])
}

/// A number of waiting tickets or a ticket; some are no damage.
fn wrong_queue(rng: &mut Rng, partition: u32, house: &House) -> Change {
    let waiting = house.queues[partition as usize].waiting;
    let last = waiting.saturating_sub(1);
    if rng.chance(50) {
        let value = rng.pick(&[33, 33, u32::MAX, 1 << 31, 32, 0, last, waiting + 1]);
        return (WAITING + partition, value);
    }
    let place = rng.pick(&[waiting, waiting, waiting + 1, last, 31]).min(31);
    (fields::ticket(partition, place), rng.pick(&[1, 1 << 31, u32::MAX]))
}

/// Anything in the place of a partition that the house does not have.
fn unused_partition(rng: &mut Rng, house: &House) -> Change {
    if house.count == 8 {
        return (fields::register(7, 0), 1);
    }
    let partition = rng.between(house.count, 7);
    let index = match rng.below(11) {
        10 => fields::special(partition, rng.pick(&[TCOUNT, TLOAD])),
        0 | 1 => fields::scalar(partition, rng.below(fields::SCALARS)),
        9 => fields::scalar(partition, fields::LATEST_FAULT),
        2 => fields::register(partition, rng.below(32)),
        3 => fields::frame(partition, rng.below(256)),
        4 | 5 => fields::ticket(partition, rng.below(32)),
        6 | 7 => WAITING + partition,
        _ => fields::shadow(partition, any_entry(rng)),
    };
    (index, rng.pick(&[1, 4, VALID, u32::MAX]))
}
