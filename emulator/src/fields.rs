//! The house's numbers by flat index, so that a script can put any value in any place.

use crate::dlx::special;
use crate::dlx::Guest;
use crate::house::{House, PARTITIONS};
use crate::memory::{ENTRIES, LIST_PLACES};
use crate::tickets::PLACES;

/// Scalars of a partition: pages, DPC, PC, the specials up to EMODE, counter low and high, latest
/// fault, TCOUNT and TLOAD.
pub const SCALARS: u32 = 18;
/// First index of the running flags.
pub const RUNNING: u32 = 5;
/// First index of the partitions' scalars.
pub const PARTS: u32 = RUNNING + PARTITIONS as u32;
/// First index of the registers, 32 for each partition.
pub const REGISTERS: u32 = PARTS + SCALARS * PARTITIONS as u32;
/// First index of the frame lists, 256 places for each partition.
pub const FRAMES: u32 = REGISTERS + 32 * PARTITIONS as u32;
/// First index of the shadows, 1,024 entries for each partition.
pub const SHADOWS: u32 = FRAMES + (LIST_PLACES * PARTITIONS) as u32;
/// First index of the ticket queues, 32 places for each partition.
pub const QUEUES: u32 = SHADOWS + (ENTRIES * PARTITIONS) as u32;
/// First index of the numbers of waiting tickets, one for each partition.
pub const WAITING: u32 = QUEUES + (PLACES * PARTITIONS) as u32;
/// One more than the last index.
pub const END: u32 = WAITING + PARTITIONS as u32;

/// Index of the partition count.
pub const COUNT: u32 = 0;
/// Index of the turn length.
pub const Q: u32 = 1;
/// Index of the memory length.
pub const WORDS: u32 = 2;
/// Index of the current partition.
pub const CURRENT: u32 = 3;
/// Index of the steps left.
pub const LEFT: u32 = 4;

/// Place of PAGES among a partition's scalars.
pub const PAGES: u32 = 0;
/// Place of DPC among a partition's scalars.
pub const DPC: u32 = 1;
/// Place of PC among a partition's scalars.
pub const PC: u32 = 2;
/// Place of special 0 among a partition's scalars; the others up to EMODE follow by number.
pub const SPECIALS: u32 = 3;
/// Place of the counter's low word among a partition's scalars.
pub const COUNTER_LOW: u32 = SPECIALS + special::TCOUNT as u32;
/// Place of the counter's high word among a partition's scalars.
pub const COUNTER_HIGH: u32 = COUNTER_LOW + 1;
/// Place of the latest fault among a partition's scalars.
pub const LATEST_FAULT: u32 = COUNTER_HIGH + 1;
/// Place of TCOUNT among a partition's scalars; TLOAD follows.
pub const TIMER: u32 = LATEST_FAULT + 1;

/// Index of a scalar of a partition.
pub fn scalar(partition: u32, place: u32) -> u32 {
    PARTS + SCALARS * partition + place
}

/// Index of a special register of a partition.
pub fn special(partition: u32, number: usize) -> u32 {
    let place = match number {
        special::TCOUNT.. => TIMER + (number - special::TCOUNT) as u32,
        _ => SPECIALS + number as u32,
    };
    scalar(partition, place)
}

/// The special register at a place among a partition's scalars.
fn special_at(place: u32) -> usize {
    match place {
        TIMER.. => special::TCOUNT + (place - TIMER) as usize,
        _ => (place - SPECIALS) as usize,
    }
}

/// Index of a register of a partition.
pub fn register(partition: u32, number: u32) -> u32 {
    REGISTERS + 32 * partition + number
}

/// Index of a place of a partition's frame list.
pub fn frame(partition: u32, place: u32) -> u32 {
    FRAMES + LIST_PLACES as u32 * partition + place
}

/// Index of a shadow entry of a partition.
pub fn shadow(partition: u32, px: u32) -> u32 {
    SHADOWS + ENTRIES as u32 * partition + px
}

/// Index of a place of a partition's ticket queue.
pub fn ticket(partition: u32, place: u32) -> u32 {
    QUEUES + PLACES as u32 * partition + place
}

/// The number at an index, or none beyond the last.
pub fn get(house: &House, index: u32) -> Option<u32> {
    let (part, place) = split(index);
    Some(match index {
        COUNT => house.count,
        Q => house.q,
        WORDS => house.words,
        CURRENT => house.current,
        LEFT => house.left,
        RUNNING..PARTS => u32::from(house.running[place]),
        PARTS..REGISTERS => get_scalar(&house.guests[part], place as u32),
        REGISTERS..FRAMES => house.guests[part].registers[place],
        FRAMES..SHADOWS => house.guests[part].space.frames[place],
        SHADOWS..QUEUES => house.guests[part].space.shadow[place],
        QUEUES..WAITING => house.queues[part].places[place],
        WAITING..END => house.queues[place].waiting,
        _ => return None,
    })
}

/// Puts a number at an index; beyond the last nothing happens. A flag becomes true for any number
/// but 0.
pub fn set(house: &mut House, index: u32, value: u32) {
    let (part, place) = split(index);
    match index {
        COUNT => house.count = value,
        Q => house.q = value,
        WORDS => house.words = value,
        CURRENT => house.current = value,
        LEFT => house.left = value,
        RUNNING..PARTS => house.running[place] = value != 0,
        PARTS..REGISTERS => set_scalar(&mut house.guests[part], place as u32, value),
        REGISTERS..FRAMES => house.guests[part].registers[place] = value,
        FRAMES..SHADOWS => house.guests[part].space.frames[place] = value,
        SHADOWS..QUEUES => house.guests[part].space.shadow[place] = value,
        QUEUES..WAITING => house.queues[part].places[place] = value,
        WAITING..END => house.queues[place].waiting = value,
        _ => {}
    }
}

/// The partition of an index and the place in its part of the array.
fn split(index: u32) -> (usize, usize) {
    let (start, size) = match index {
        RUNNING..PARTS => (RUNNING, PARTITIONS as u32),
        PARTS..REGISTERS => (PARTS, SCALARS),
        REGISTERS..FRAMES => (REGISTERS, 32),
        FRAMES..SHADOWS => (FRAMES, LIST_PLACES as u32),
        SHADOWS..QUEUES => (SHADOWS, ENTRIES as u32),
        QUEUES..WAITING => (QUEUES, PLACES as u32),
        WAITING..END => (WAITING, PARTITIONS as u32),
        _ => return (0, 0),
    };
    (((index - start) / size) as usize, ((index - start) % size) as usize)
}

/// A name for the place of an index, for people.
pub fn name(index: u32) -> String {
    let (part, place) = split(index);
    match index {
        COUNT => "count".into(),
        Q => "q".into(),
        WORDS => "words".into(),
        CURRENT => "current".into(),
        LEFT => "left".into(),
        RUNNING..PARTS => format!("running[{place}]"),
        PARTS..REGISTERS => format!("partition {part} {}", scalar_name(place as u32)),
        REGISTERS..FRAMES => format!("partition {part} register {place}"),
        FRAMES..SHADOWS => format!("partition {part} frame {place}"),
        SHADOWS..QUEUES => format!("partition {part} shadow {place}"),
        QUEUES..WAITING => format!("partition {part} ticket {place}"),
        WAITING..END => format!("waiting[{place}]"),
        _ => format!("nowhere ({index})"),
    }
}

fn scalar_name(place: u32) -> &'static str {
    match place {
        PAGES => "pages",
        DPC => "dpc",
        PC => "pc",
        COUNTER_LOW => "counter low",
        COUNTER_HIGH => "counter high",
        LATEST_FAULT => "latest fault",
        _ => special::NAMES[special_at(place)],
    }
}

fn get_scalar(guest: &Guest, place: u32) -> u32 {
    match place {
        PAGES => guest.space.pages,
        DPC => guest.dpc,
        PC => guest.pc,
        COUNTER_LOW => guest.counter as u32,
        COUNTER_HIGH => (guest.counter >> 32) as u32,
        LATEST_FAULT => guest.fault,
        _ => guest.specials[special_at(place)],
    }
}

fn set_scalar(guest: &mut Guest, place: u32, value: u32) {
    match place {
        PAGES => guest.space.pages = value,
        DPC => guest.dpc = value,
        PC => guest.pc = value,
        COUNTER_LOW => guest.counter = guest.counter >> 32 << 32 | u64::from(value),
        COUNTER_HIGH => guest.counter = guest.counter & 0xFFFF_FFFF | u64::from(value) << 32,
        LATEST_FAULT => guest.fault = value,
        _ => guest.specials[special_at(place)] = value,
    }
}

#[cfg(test)]
mod tests {
    use super::*;

    #[test]
    fn every_index_is_its_own_place() {
        let mut house = House::NONE;
        for index in 0..END {
            assert_eq!(get(&house, index), Some(0), "index {index}");
            set(&mut house, index, 1);
            assert_eq!(get(&house, index), Some(1), "index {index}");
        }
        assert_eq!((scalar(1, LATEST_FAULT), REGISTERS), (46, 157));
        assert_eq!((FRAMES, SHADOWS), (413, 2_461));
        assert_eq!((QUEUES, WAITING, END), (10_653, 10_909, 10_917));
        assert_eq!(get(&house, END), None);
    }

    #[test]
    fn every_special_has_its_place_and_name() {
        let places = (0..special::COUNT).map(|number| special(1, number) - scalar(1, 0));
        assert_eq!(places.collect::<Vec<_>>(), [3, 4, 5, 6, 7, 8, 9, 10, 11, 12, 16, 17]);
        for number in 0..special::COUNT {
            let mut house = House::NONE;
            set(&mut house, special(1, number), 7);
            assert_eq!(house.guests[1].specials[number], 7);
            let name = format!("partition 1 {}", special::NAMES[number]);
            assert_eq!(super::name(special(1, number)), name);
        }
        assert_eq!(super::name(scalar(0, LATEST_FAULT)), "partition 0 latest fault");
    }

    #[test]
    fn a_poke_beyond_the_last_index_changes_nothing() {
        let mut house = House::NONE;
        set(&mut house, END, 1);
        set(&mut house, u32::MAX, 1);
        assert_eq!(house, House::NONE);
    }
}
