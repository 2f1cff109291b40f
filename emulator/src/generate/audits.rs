//! Shadow audits: right shadows, wrong ones of every kind, and tables that are edited behind them.

use super::{states, Draft};
use crate::dlx::special::{MODE, PTL, PTO};
use crate::fields;
use crate::memory::{Space, ENTRIES, FRAME_WORDS, PROTECTED, VALID};
use crate::script::Command;

/// A script of this kind.
pub fn compose(draft: &mut Draft) {
    let pages = draft.page_counts(5);
    draft.boot(&pages);
    let tables: Vec<u32> = pages.iter().map(|&count| draft.rng.below(count)).collect();
    for (partition, &count) in (0..).zip(&pages) {
        states::write_table(draft, partition, count, tables[partition as usize]);
    }
    for _ in 0..draft.rng.between(25, 45) {
        set_tables(draft, &tables);
        for _ in 0..draft.rng.between(1, 4) {
            fill_right(draft);
        }
        for _ in 0..draft.rng.pick(&[0, 1, 1, 1, 2, 3]) {
            edit(draft);
        }
        stop_or_start(draft);
        look(draft);
        if draft.rng.chance(25) {
            draft.keep_running();
            let steps = draft.rng.between(1, 9);
            draft.emit(Command::Run { steps });
        }
    }
}

/// An audit, often with a mend and another behind it, or a mend alone.
pub fn look(draft: &mut Draft) {
    let commands: &[Command] = match draft.rng.below(5) {
        0 => &[Command::Mend],
        1 => &[Command::Audit, Command::Mend, Command::Audit],
        2 => &[Command::Mend, Command::Mend],
        _ => &[Command::Audit],
    };
    for command in commands {
        draft.emit(command.clone());
    }
}

/// Mostly every table is where it was written, and long enough for something.
fn set_tables(draft: &mut Draft, tables: &[u32]) {
    for (partition, &table) in (0..).zip(tables) {
        let guest = &draft.player.house.guests[partition as usize];
        let (pto, ptl) = (guest.specials[PTO], guest.specials[PTL]);
        if pto != table && draft.rng.chance(80) {
            draft.field(fields::special(partition, PTO), table);
        }
        if ptl < 12 && draft.rng.chance(80) {
            let ptl = draft.rng.pick(&[3, 12, 257, 601, 1_023, 1_024, 1_025, u32::MAX]);
            draft.field(fields::special(partition, PTL), ptl);
        }
    }
}

/// A partition stops or starts, or is in the other mode.
fn stop_or_start(draft: &mut Draft) {
    let partition = draft.partition();
    match draft.rng.below(5) {
        0 | 1 => drop(draft.emit(Command::Stop { partition })),
        2 => drop(draft.emit(Command::Start { partition })),
        _ => {
            let mode = draft.rng.below(2);
            draft.field(fields::special(partition, MODE), mode);
        }
    }
}

/// Puts the right entry into a partition's shadow, where the table gives one.
fn fill_right(draft: &mut Draft) {
    let partition = draft.partition();
    let guest = &draft.player.house.guests[partition as usize];
    let filling =
        |&px: &u32| Some((px, guest.space.filling(draft.player.lent(), guest.table(), px).ok()?));
    let right: Vec<(u32, u32)> = states::mapped().iter().filter_map(filling).collect();
    if !right.is_empty() {
        let (px, entry) = draft.rng.pick(&right);
        draft.field(fields::shadow(partition, px), entry);
    }
}

/// A valid shadow entry of any partition.
fn any_valid(draft: &mut Draft) -> Option<(u32, u32)> {
    let guests = (0..).zip(&draft.player.house.guests[..draft.partitions() as usize]);
    let valid: Vec<(u32, u32)> = guests
        .flat_map(|(partition, guest)| {
            let entries = (0..).zip(&guest.space.shadow).filter(|(_, &entry)| entry != 0);
            entries.map(move |(px, _)| (partition, px)).collect::<Vec<_>>()
        })
        .collect();
    (!valid.is_empty()).then(|| draft.rng.pick(&valid))
}

/// Edits what stands behind a valid shadow entry, or the entry; now and then it stays right.
pub fn edit(draft: &mut Draft) {
    let Some((partition, px)) = any_valid(draft) else {
        return not_there(draft);
    };
    match draft.rng.below(12) {
        0..=3 => edit_entry(draft, partition, px),
        4 => edit_registers(draft, partition, px),
        5..=9 => edit_table(draft, partition, px),
        10 => swap_frames(draft, partition),
        _ => not_there(draft),
    }
}

fn space(draft: &Draft, partition: u32) -> &Space {
    &draft.player.house.guests[partition as usize].space
}

/// Another frame, another protection, or both.
fn edit_entry(draft: &mut Draft, partition: u32, px: u32) {
    let (list, old) = (space(draft, partition).list(), space(draft, partition).shadow[px as usize]);
    let others: Vec<u32> = list.iter().copied().filter(|&frame| frame != old >> 12).collect();
    let frame = if others.is_empty() { old >> 12 } else { draft.rng.pick(&others) };
    let entry = match draft.rng.below(3) {
        0 => frame << 12 | old & 0xFFF,
        1 => old ^ PROTECTED,
        _ => frame << 12 | (old ^ PROTECTED) & 0xFFF,
    };
    draft.field(fields::shadow(partition, px), entry);
}

/// PTL right behind the entry's page or before it; PTO somewhere else.
fn edit_registers(draft: &mut Draft, partition: u32, px: u32) {
    let pages = space(draft, partition).pages;
    let pto = draft.player.house.guests[partition as usize].specials[PTO];
    let rng = &mut draft.rng;
    let (special, value) = if rng.chance(60) {
        (PTL, rng.pick(&[px, px, px + 1, px.saturating_sub(1), 0]))
    } else {
        let other = rng.below(pages);
        (PTO, rng.pick(&[pages, pages + 1, u32::MAX, 1 << 20 | pto, other]))
    };
    draft.field(fields::special(partition, special), value);
}

/// The table's word, by hand: not valid, for another page, for one that is not there, with another
/// protection, or with other bits that do not count.
fn edit_table(draft: &mut Draft, partition: u32, px: u32) {
    let guest = &draft.player.house.guests[partition as usize];
    let (pto, pages) = (guest.specials[PTO], guest.space.pages);
    if pto >= pages {
        return;
    }
    let frame = guest.space.frames[pto as usize];
    let index = frame * FRAME_WORDS as u32 + px;
    let old = draft.player.lent()[index as usize];
    let rng = &mut draft.rng;
    let value = match rng.below(12) {
        0 | 1 => old & !VALID,
        2 | 3 => rng.below(pages) << 12 | old & 0xFFF,
        4..=6 => (pages + rng.below(3)) << 12 | old & 0xFFF,
        7 | 8 => old ^ PROTECTED,
        9 => old ^ (1 + rng.below(1_023)),
        10 => rng.word(),
        _ => {
            let (index, count) = (frame * FRAME_WORDS as u32, rng.between(1, 1_024));
            draft.emit(Command::Fill { index, count, value: old });
            return;
        }
    };
    draft.emit(Command::Poke { index, value });
}

/// Two frames of the list change their places.
fn swap_frames(draft: &mut Draft, partition: u32) {
    let list = space(draft, partition).list().to_vec();
    let (one, two) = (draft.rng.index(list.len()), draft.rng.index(list.len()));
    draft.field(fields::frame(partition, one as u32), list[two]);
    draft.field(fields::frame(partition, two as u32), list[one]);
}

/// A valid entry for any page, which the table mostly does not have.
fn not_there(draft: &mut Draft) {
    let partition = draft.partition();
    let list = space(draft, partition).list().to_vec();
    let px = draft.rng.below(ENTRIES as u32);
    let entry = draft.rng.pick(&list) << 12 | VALID | draft.rng.pick(&[0, PROTECTED]);
    draft.field(fields::shadow(partition, px), entry);
}
