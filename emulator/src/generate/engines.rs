//! Runs by both engines from the same state, with right shadows and wrong ones.

use super::{calls, runs, states, timers, Draft};
use crate::fields;
use crate::memory::{shadow_entry, ENTRIES};
use crate::script::Command;

/// A script of this kind: one of the others, in which every run is made by both engines.
pub fn compose(draft: &mut Draft, number: u64) {
    draft.both = true;
    match number % 6 {
        0..=2 => runs::compose(draft),
        3 => states::compose(draft),
        4 => calls::compose(draft),
        _ => timers::compose(draft),
    }
}

/// A run by each engine, in either order. Between them all that has changed is put back by hand.
pub fn run(draft: &mut Draft, steps: u32) {
    if draft.rng.chance(35) {
        wrong_entry(draft);
    }
    let mut both = [Command::Run { steps }, Command::Unshadowed { steps }];
    if draft.rng.chance(50) {
        both.reverse();
    }
    let [first, second] = both;
    let before = draft.player.clone();
    draft.emit(first);
    for command in draft.player.changes(&before) {
        draft.emit(command);
    }
    draft.emit(second);
}

/// A shadow entry of the current partition, mostly wrong, for the page of the next instruction or one
/// that the shadow has.
fn wrong_entry(draft: &mut Draft) {
    let house = &draft.player.house;
    if house.damaged() {
        return;
    }
    let (partition, guest) = (house.current, &house.guests[house.current as usize]);
    let (next, list) = (guest.dpc >> 12, guest.space.list().to_vec());
    let used = (0..).zip(&guest.space.shadow).filter(|(_, &entry)| entry != 0).map(|(px, _)| px);
    let pages: Vec<u32> = used.chain([next]).filter(|&px| px < ENTRIES as u32).collect();
    if !pages.is_empty() {
        let px = draft.rng.pick(&pages);
        let entry = shadow_entry(draft.rng.pick(&list), draft.rng.word());
        draft.field(fields::shadow(partition, px), entry);
    }
}
