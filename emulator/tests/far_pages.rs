//! Virtual pages above 255 (request 7 of 02): what the named scripts about them must leave behind.

mod common;

use common::{last, play, After};
use emulator::dlx::special::{ECA, EDATA};
use emulator::memory::{PROTECTED, VALID};

/// The pages that the scripts fill, and those at the edges.
const FAR: [usize; 9] = [255, 256, 257, 511, 512, 768, 1_000, 1_022, 1_023];
const EDGES: [usize; 6] = [254, 255, 256, 257, 1_022, 1_023];

/// The shadow entry of a guest page; partition 0 has frames 1, 2, 3 and so on.
fn page(number: u32) -> u32 {
    (number + 1) << 12 | VALID
}

/// The valid shadow entries.
fn valid(after: &After) -> Vec<usize> {
    (0..1_024).filter(|&px| after.shadow(px) != 0).collect()
}

/// For each step at byte 8 behind the boot: true if it went on to the next instruction.
fn passed(name: &str) -> Vec<bool> {
    play(name)[1..].iter().map(|after| after.pair() == (12, 16)).collect()
}

#[test]
fn every_far_page_fills_its_own_entry() {
    for (name, own) in [("far pages, load", 1), ("far pages, store", 1), ("far pages, fetch", 0)] {
        let states = play(name);
        for (at, after) in states[1..].iter().enumerate() {
            let code = (own == 1).then_some(0);
            let filled: Vec<usize> = code.into_iter().chain(FAR[..=at].iter().copied()).collect();
            assert_eq!((valid(after), after.special(ECA)), (filled, 0), "{name}");
            assert_eq!(after.shadow(FAR[at]), page(2), "{name}");
        }
    }
    assert_eq!(last("far pages, load").register(3), 77);
    assert_eq!(last("far pages, store").memory[2 * 1_024 + 16], 9);
    assert_eq!(last("far pages, fetch").register(1), 9);
}

#[test]
fn no_two_pages_are_one() {
    let after = last("pages 256 apart are different ones");
    let stored: Vec<u32> = (2..6).map(|page| after.memory[page * 1_024 + 3]).collect();
    assert_eq!((stored, valid(&after)), (vec![1, 2, 3, 4], vec![0, 2, 258, 514, 770]));
    let alike = "pages that look like page 0";
    assert_eq!(passed(alike), [true, false, false, false, false, false, false]);
    assert_eq!(valid(&last(alike)), [0, 256]);
}

#[test]
fn code_runs_over_the_edges() {
    let after = last("code runs from page 255 to 256");
    assert_eq!((after.register(1), after.register(2), valid(&after)), (7, 9, vec![255, 256]));
    let after = last("code runs out of page 1,023");
    assert_eq!((after.special(ECA), after.special(EDATA)), (8, 1_024 << 12));
    assert_eq!(valid(&after), [1_023]);
}

#[test]
fn a_far_page_may_be_protected() {
    let states = play("a far page that is protected");
    assert_eq!((states[1].special(ECA), states[1].shadow(1_023)), (0, page(2) | PROTECTED));
    assert_eq!(valid(&states[2]), Vec::<usize>::new());
    let store = &states[3];
    assert_eq!((store.special(ECA), store.special(EDATA)), (16, 1_023 << 12));
    assert_eq!((store.shadow(1_023), store.memory[2 * 1_024]), (page(2) | PROTECTED, 0));
}

#[test]
fn a_far_hit_decides_alone() {
    assert_eq!(passed("a far hit beyond PTL"), [true, true, false]);
    assert_eq!(last("a far hit beyond PTL").memory[2 * 1_024 + 1], 1);
}

#[test]
fn ptl_is_a_count_and_1024_is_the_limit() {
    let cases: [(&str, &[bool]); 7] = [
        ("PTL 255", &[true, false, false]),
        ("PTL 256", &[true, true, false, false]),
        ("PTL 257", &[true, true, false, false]),
        ("PTL 1,023", &[true, false, false]),
        ("PTL 1,024", &[true, true, false]),
        ("PTL 1,025", &[true, true, false, false]),
        ("PTL 2^32 - 1", &[true, true, false, false, false]),
    ];
    for (name, expected) in cases {
        assert_eq!(passed(name), expected, "{name}");
    }
}

#[test]
fn a_table_may_stand_in_the_last_page() {
    assert_eq!(passed("a table in the last page"), [true, true, true]);
    assert_eq!(valid(&last("a table in the last page")), [0, 255, 256, 1_023]);
    assert_eq!(last("a table in the last page").memory[1_024 + 2], 3);
    let longer = "a longer table in the last page";
    assert_eq!(passed(longer), [true, true, true, false, false]);
    assert_eq!(passed("a table behind the last page"), [false, false, false]);
    let after = last("a store into the last word of the last page");
    assert_eq!((after.special(ECA), valid(&after)), (0, vec![1_022]));
    let after = last("a table of one page: its only page");
    assert_eq!((after.register(3), valid(&after)), (0x0000_0800, vec![0, 255, 256, 1_023]));
}

/// The shadows that are valid before a store of [`stores_empty_their_own_entry`], without one.
fn without(px: usize) -> Vec<usize> {
    [0, 1].iter().chain(&EDGES).copied().filter(|&other| other != px).collect()
}

#[test]
fn stores_empty_their_own_entry() {
    let none = 2_000;
    let cases = [
        ("a store into entry 255", 255),
        ("a store into entry 256", 256),
        ("a store into entry 1,023", 1_023),
        ("a store into entry 255 in system mode", 255),
        ("a store into entry 256 in system mode", 256),
        ("a store into entry 1,023 in system mode", 1_023),
        ("a store into entry 256 of 256", none),
        ("a store into entry 256 of 257", 256),
        ("a store into entry 1,023 of 1,023", none),
        ("a store right behind the table", none),
        ("a store right before the table", none),
    ];
    for (name, px) in cases {
        let after = last(name);
        assert_eq!((after.special(ECA), valid(&after)), (0, without(px)), "{name}");
    }
    assert_eq!(valid(&last("entry 1,023 is the window")), [0]);
    let states = play("an entry changes between two far loads");
    let loaded = (states[1].register(3), states[3].register(3));
    assert_eq!(loaded, (77, states[3].memory[0]));
    assert_ne!(loaded.1, 77);
    assert_eq!(states[3].shadow(1_023), page(0));
}

#[test]
fn all_of_them_are_emptied_at_once() {
    for name in
        ["PTO empties far shadows", "PTL empties far shadows", "the call empties far shadows"]
    {
        let states = play(name);
        assert_eq!(valid(&states[1]), Vec::<usize>::new(), "{name}");
        assert_eq!(states[1].special(ECA), 0, "{name}");
    }
}
