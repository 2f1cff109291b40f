//! The engine without shadows (request 11 of 02): what the named scripts about it must give.

mod common;

use common::{answers, last, play, After};
use emulator::counts::Counts;
use emulator::dlx::special::{ECA, MODE};
use emulator::script::Player;

/// What both engines left from the same state: the second's state, then the first's.
fn both(name: &str) -> (After, After) {
    let mut states: Vec<After> = play(name);
    let first = states.pop().unwrap();
    let second = states.into_iter().rfind(|after| after.text.starts_with("call unshadowed"));
    (second.unwrap(), first)
}

fn empty(after: &After) -> bool {
    after.house == after.house.emptied()
}

/// Whether both agree but for the shadows.
fn agree(name: &str) -> bool {
    let (second, first) = both(name);
    assert!(empty(&second), "{name}");
    second.answer == first.answer
        && second.house == first.house.emptied()
        && second.memory == first.memory
}

#[test]
fn no_shadow_is_filled() {
    let states = play("unshadowed: nothing is filled");
    assert!(empty(&states[1]) && !empty(&states[2]) && empty(&states[3]));
    assert_eq!(states[1].answer, (0, 1));
}

#[test]
fn a_run_of_0_steps_empties() {
    let states = play("unshadowed: a run of 0 steps empties");
    assert!(states[0].answer == (0, 0) && empty(&states[1]) && states[1].answer == (0, 0));
    assert!(empty(&last("unshadowed: a run of 0 steps while nothing runs empties")));
    let states = play("unshadowed: all partitions' shadows are emptied");
    assert!(!empty(&states[2]) && empty(&states[3]) && states[3].answer == (0, 1));
}

#[test]
fn refused_runs_keep_the_shadows() {
    let given = answers("unshadowed: refusals");
    let refused = [(9, 0), (9, 0), (14, 0), (14, 0), (0, 0), (14, 0), (11, 0), (8, 0), (8, 0)];
    assert_eq!(given[1..10], refused);
    assert_eq!(given[10], (0, 0));
    let states = play("unshadowed: refusals");
    assert!(states[1..10].iter().all(|after| after.shadow(1) != 0) && empty(&states[10]));
    assert_eq!(answers("unshadowed: no house"), [(8, 0), (8, 0)]);
}

#[test]
fn with_right_entries_both_agree() {
    for name in
        ["unshadowed: right entries", "unshadowed: a protected page", "by both: mended first"]
    {
        assert!(agree(name), "{name}");
    }
    // A wrong entry that no access meets.
    assert!(
        agree("by both: an entry that is not used") && agree("by both: an entry of system mode")
    );
    let (second, first) = both("unshadowed: right entries");
    assert_eq!((second.register(3), first.shadow(2) >> 12), (78, 3));
}

/// What a load or store through page 2 gives: register 3, and the latest fault.
#[test]
fn with_a_stale_entry_the_table_decides() {
    let load = |name: &str| {
        let (second, first) = both(name);
        let of = |after: &After| (after.register(3), after.fault());
        (of(&second), of(&first))
    };
    assert_eq!(load("by both: another frame, load"), ((78, 0), (88, 0)));
    assert_eq!(load("by both: beyond PTL"), ((0, 1), (78, 0)));
    // PTO is wrong for the instruction's own page, too.
    assert_eq!(load("by both: table outside"), ((0, 3), (78, 0)));
    assert_eq!(load("by both: entry not valid"), ((0, 4), (78, 0)));
    assert_eq!(load("by both: page number too large"), ((0, 5), (78, 0)));
    assert_eq!(load("by both: entry 1,023"), ((78, 0), (88, 0)));
    let (second, first) = both("by both: another frame, store");
    assert_eq!((second.memory[2_049], second.memory[3_073]), (5, 88));
    assert_eq!((first.memory[2_049], first.memory[3_073]), (78, 5));
    let (second, first) = both("by both: a protection that is gone");
    assert_eq!((second.memory[2_049], second.fault(), first.fault()), (5, 0, 6));
    let (second, first) = both("by both: a protection that is new");
    assert_eq!((second.fault(), first.memory[2_049], first.fault()), (6, 5, 0));
    let (second, first) = both("by both: another frame, fetch");
    assert_eq!((second.register(3), first.special(ECA)), (78, 2));
    let (second, first) = both("by both: a store into the table by the first engine alone");
    assert!(second.memory[2_049] != 78 && first.memory[2_049] == 78);
}

#[test]
fn turns_follow_the_engine() {
    let (second, first) = both("by both: the turn passes in the second alone");
    assert_eq!((second.turn(), first.turn()), ((1, 10), (0, 8)));
    assert_eq!((second.special(MODE), first.special(MODE)), (0, 1));
}

#[test]
fn a_table_that_changes_is_seen_at_once() {
    let states = play("unshadowed: the table changes behind an access");
    let last = &states[2];
    assert_eq!((last.register(3), last.register(6)), (87, 78), "{}", last.text);
    assert!(empty(last));
}

#[test]
fn engines_may_be_mixed() {
    let ends =
        ["engines: the first alone", "engines: the second alone", "engines: in turns"].map(last);
    assert_eq!(ends[0].house.emptied(), ends[1].house);
    assert_eq!(ends[2].house, ends[1].house);
    assert!(ends.iter().all(|end| end.memory == ends[0].memory));
    assert!(ends.iter().all(|end| end.text.ends_with("\nstale none\n")));
}

/// Over all named scripts: both agree wherever nothing is stale, and where something is they differ in
/// registers, memory and turns.
#[test]
fn named_scripts_have_both_engines() {
    let mut counts = Counts::default();
    for one in common::scripts() {
        let mut player = Player::new();
        for command in &one.commands {
            player.play(command, &mut String::new(), &mut counts);
        }
        assert_eq!(counts.engines.differ_right, 0, "{}", one.name);
    }
    let engines = counts.engines;
    assert!(engines.right >= 20 && engines.stale_agree >= 20, "{engines:?}");
    assert!(engines.stale_differ >= 20 && engines.memory_differs >= 5, "{engines:?}");
    assert!(
        engines.turns_differ >= 1 && engines.answers.iter().all(|&met| met >= 2),
        "{engines:?}"
    );
}
