//! Frame 0 is kept for the house (request 8 of 02): what the named scripts about it must give.

mod common;

use common::{answers, last, play};
use emulator::generate::Script;
use emulator::house::House;
use emulator::script::Command;

#[test]
fn a_list_that_names_it_is_refused() {
    assert_eq!(answers("frame 0 in a list"), [(16, 0), (16, 0), (16, 2), (16, 1)]);
    assert_eq!(answers("frame 0 in a later list"), [(16, 4), (16, 2), (16, 7)]);
}

#[test]
fn the_detail_is_the_first_position() {
    assert_eq!(answers("the first of several zeros"), [(16, 1), (16, 0), (16, 2)]);
}

#[test]
fn it_comes_after_6_and_before_7() {
    assert_eq!(answers("frame 0 and a frame twice"), [(16, 0), (16, 1), (16, 2), (16, 4)]);
    assert_eq!(answers("frame 0 and a frame too large"), [(6, 1), (6, 0), (6, 4)]);
    let before = answers("frame 0 and the refusals before it");
    assert_eq!(before, [(1, 0), (2, 1), (3, 0), (4, 0), (5, 0)]);
}

#[test]
fn a_refused_boot_leaves_no_house() {
    let states = play("a boot that names frame 0 leaves no house");
    let given: Vec<(u32, u64)> = states.iter().map(|after| after.answer).collect();
    assert_eq!(given, [(0, 0), (16, 1), (8, 0), (0, 0), (0, 1)]);
    assert_eq!(states[1].house, House::NONE);
}

#[test]
fn a_memory_of_one_frame_is_a_memory() {
    assert_eq!(answers("a memory of one frame"), [(16, 0), (6, 0), (6, 1), (0, 0)]);
}

#[test]
fn a_house_that_holds_it_is_damaged() {
    assert_eq!(answers("frame 0 in a used place"), [(0, 0), (8, 0), (8, 0), (8, 0)]);
    assert_eq!(answers("frame 0 by one page more"), [(0, 0), (8, 0), (8, 0)]);
    let all = answers("frame 0 in a house of all partitions");
    assert_eq!(all, [(0, 0), (8, 0), (8, 0), (8, 0)]);
}

#[test]
fn an_unused_place_holds_0() {
    let given = answers("frame 0 in an unused place");
    assert_eq!(given, [(0, 0), (0, 1), (0, 1), (0, 1), (0, 1), (0, 1)]);
}

#[test]
fn its_words_stay() {
    let states = play("frame 0 keeps its words");
    assert!(states.iter().all(|after| after.frame_0[..4] == [0x2000_0000, 7, 8, 9]));
    let after = last("frame 0 keeps its words");
    assert!(after.text.ends_with(" 5\n"), "{}", after.text);
    assert_eq!((after.memory[0], after.memory[1_024]), (5, 5));
}

/// No other script writes into it but by reading a file, and no guest of any script does.
#[test]
fn no_named_script_changes_it() {
    let piece = |command: &Command| matches!(command, Command::Piece { .. } | Command::Finish);
    let by_calls = |script: &Script| !script.commands.iter().any(piece);
    for script in common::scripts().iter().filter(|script| by_calls(script)) {
        let own = script.name.starts_with("frame 0 keeps its words");
        for after in play(&script.name) {
            let words = if own { &after.frame_0[4..] } else { &after.frame_0[..] };
            assert!(words.iter().all(|&word| word == 0), "{}", script.name);
        }
    }
}
