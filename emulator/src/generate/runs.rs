//! Scripts in which several partitions run programs, with other calls between the runs.

use super::programs::{program, Program};
use super::{audits, calls, tickets, timers, Draft};
use crate::fields;
use crate::memory::shadow_entry;
use crate::script::Command;

/// A script of this kind.
pub fn compose(draft: &mut Draft) {
    let mut pages = draft.page_counts(8);
    if draft.rng.chance(80) {
        pages.iter_mut().for_each(|count| *count = (*count).max(2));
    }
    draft.boot(&pages);
    let programs = load_programs(draft, &pages);
    for _ in 0..draft.rng.between(8, 16) {
        if draft.rng.chance(45) {
            between(draft, &programs);
        }
        draft.keep_running();
        let steps = run_length(draft);
        draft.run(steps);
        if draft.rng.chance(15) {
            audits::look(draft);
        }
    }
}

/// Gives every partition a program.
pub fn load_programs(draft: &mut Draft, pages: &[u32]) -> Vec<Program> {
    let programs: Vec<Program> =
        (0..pages.len()).map(|own| program(&mut draft.rng, pages, own)).collect();
    for (partition, program) in programs.iter().enumerate() {
        for &(place, value) in &program.words {
            draft.poke_guest(partition as u32, place, value);
        }
    }
    programs
}

fn run_length(draft: &mut Draft) -> u32 {
    match draft.rng.below(10) {
        0 | 1 => draft.rng.between(1, 8),
        2 | 3 => draft.rng.between(9, 100),
        4..=8 => draft.rng.between(100, 500),
        _ => draft.rng.between(500, 1_500),
    }
}

/// Something between two runs.
fn between(draft: &mut Draft, programs: &[Program]) {
    let partition = draft.partition();
    match draft.rng.below(14) {
        0 => drop(draft.emit(Command::Stop { partition })),
        1 => drop(draft.emit(Command::Start { partition })),
        2 => drop(draft.emit(Command::Empty { partition })),
        3 => calls::read_out(draft),
        4 => calls::damage_and_repair(draft),
        5 => calls::wrong_length(draft),
        6 => calls::refused_run(draft),
        7 | 8 => tickets::set_queue(draft, partition),
        9 => timers::poke(draft, partition),
        10 => audits::edit(draft),
        _ => wrong_shadows(draft, partition, &programs[partition as usize].pages),
    }
}

/// Valid shadow entries with any of the partition's own frames and any protection, also for pages
/// that the table does not have.
fn wrong_shadows(draft: &mut Draft, partition: u32, pages: &[u32]) {
    for _ in 0..draft.rng.between(1, 4) {
        let px = draft.rng.pick(pages);
        let list = draft.player.house.guests[partition as usize].space.list().to_vec();
        let frame = draft.rng.pick(&list);
        let entry = shadow_entry(frame, draft.rng.word());
        draft.field(fields::shadow(partition, px), entry);
    }
}
