//! Bytes and half words (request 1 of 02): what the named scripts about them must leave behind.

mod common;

use common::{last, play, After};
use emulator::dlx::special::{ECA, EDATA, EDPC, EPC};
use emulator::memory::{PROTECTED, VALID};

/// The word that the scripts store into, which also stands on both sides of it.
const STORED: u32 = 0x1122_3344;

/// Register 3 after each call behind the boot.
fn loaded(name: &str) -> Vec<u32> {
    play(name)[1..].iter().map(|after| after.register(3)).collect()
}

/// The shadow entry of a guest page; partition 0 has frames 1, 2, 3 and so on.
fn page(number: u32) -> u32 {
    (number + 1) << 12 | VALID
}

/// ECA, EDATA, EDPC and EPC.
fn interrupt(after: &After) -> (u32, u32, u32, u32) {
    (after.special(ECA), after.special(EDATA), after.special(EDPC), after.special(EPC))
}

#[test]
fn signs_are_extended_for_lb_and_lh_and_zeros_for_lbu_and_lhu() {
    assert_eq!(loaded("lb of each byte"), [1, 0x7F, 0xFFFF_FFFF, 0xFFFF_FF80]);
    assert_eq!(loaded("lbu of each byte"), [1, 0x7F, 0xFF, 0x80]);
    assert_eq!(loaded("lh of each half word"), [0x7F01, 0xFFFF_80FF]);
    assert_eq!(loaded("lhu of each half word"), [0x7F01, 0x80FF]);
    let halves = loaded("lh and lhu of a positive half word");
    assert_eq!(halves, [0xFFFF_8000, 0x7FFF, 0x8000, 0x7FFF]);
}

#[test]
fn a_load_leaves_the_memory_alone_and_goes_on() {
    for name in ["lb of each byte", "lhu of each half word"] {
        for after in &play(name)[1..] {
            assert_eq!(after.memory[15..18], [STORED, 0x80FF_7F01, STORED], "{name}");
            assert_eq!((after.pair(), after.special(ECA)), ((12, 16), 0), "{name}");
        }
    }
}

#[test]
fn registers_of_a_load() {
    for after in &play("a load of a part into register 0")[1..] {
        assert_eq!((after.register(0), after.pair()), (0, (12, 16)));
    }
    let states = play("a load of a part into its own address register");
    assert_eq!((states[1].register(1), states[2].register(1)), (0xFFFF_FF80, 0x80FF));
    assert_eq!(loaded("immediates of a byte's load are sign-extended"), [0x11, 0xFFFF_FFFF]);
    let states = play("the address of a byte wraps");
    assert_eq!((states[1].register(3), states[2].memory[16]), (0x22, 0x80FF_CCDD));
}

#[test]
fn a_store_changes_its_own_bytes_only() {
    let cases = [
        ("sb into byte 0", 0x1122_33DD),
        ("sb into byte 1", 0x1122_DD44),
        ("sb into byte 2", 0x11DD_3344),
        ("sb into byte 3", 0xDD22_3344),
        ("sh into the low half", 0x1122_CCDD),
        ("sh into the high half", 0xCCDD_3344),
        ("sb and sh of register 0", 0x0000_0044),
        ("four bytes make a word", 0x5352_5150),
    ];
    for (name, word) in cases {
        let after = last(name);
        assert_eq!(after.memory[15..18], [STORED, word, STORED], "{name}");
        assert_eq!((after.pair(), after.special(ECA)), ((12, 16), 0), "{name}");
    }
    let left = loaded("what a byte's store leaves is loaded");
    assert_eq!(left, [0, 0x8022_3344, 0xFFFF_8022, 0x80]);
    assert_eq!(last("a byte's store changes the next instruction").register(3), 0xFFFF_FFF7);
}

#[test]
fn a_page_ends_with_its_last_byte() {
    let states = play("the last byte and the last half word of a page");
    let words: Vec<&[u32]> = states[1..].iter().map(|after| &after.memory[1_023..1_025]).collect();
    assert_eq!(words[0], [0xDD22_3344, STORED]);
    assert_eq!(words[1], [0xDD22_3344, 0x1122_33DD]);
    assert_eq!(words[2], [0x5566_3344, 0x1122_33DD]);
    assert_eq!(states[4].register(3), 0x5566);
}

#[test]
fn a_half_word_at_an_odd_address_is_mal() {
    for name in ["lh at odd addresses", "lhu at odd addresses", "sh at odd addresses"] {
        let states = play(name);
        assert_eq!(states.len(), 3);
        for after in &states[1..] {
            assert_eq!(interrupt(after), (4, 77, 8, 12), "{name}");
            assert_eq!(after.memory[15..18], [STORED; 3], "{name}");
            assert_eq!((after.register(3), after.pair()), (0, (0, 4)), "{name}");
        }
    }
    let words = play("lw and sw where a half word may be");
    assert!(words[1..].iter().all(|after| interrupt(after) == (4, 77, 8, 12)));
    assert_eq!(words.len(), 7);
    let far = play("an odd half word that is not there");
    assert!(far[1..].iter().all(|after| interrupt(after) == (4, 77, 8, 12)));
    assert_eq!(interrupt(&last("an odd half word in the slot of j")), (4, 77, 4, 36));
}

#[test]
fn an_odd_half_word_fills_nothing() {
    for after in &play("an odd half word does not fill")[1..] {
        assert_eq!((after.special(ECA), after.shadow(0), after.shadow(2)), (4, page(0), 0));
    }
}

#[test]
fn edata_is_the_byte_address() {
    let inside = play("parts at the end of memory");
    let values: Vec<u32> = inside[1..4].iter().map(|after| after.register(3)).collect();
    assert_eq!(values, [0xFFFF_FF80, 0xFFFF_80FF, 1]);
    assert_eq!((inside[4].memory[2_047], inside[4].special(ECA)), (0xDDFF_7F01, 0));
    for after in &play("parts behind the end of memory")[1..] {
        assert_eq!(interrupt(after), (16, 8_192, 8, 12));
    }
    let states = play("bytes at odd addresses behind the end");
    let addresses: Vec<u32> = states[1..].iter().map(|after| after.special(EDATA)).collect();
    let expected: Vec<u32> =
        [8_193, 8_195, u32::MAX, 65_535].into_iter().flat_map(|address| [address; 3]).collect();
    assert_eq!(addresses, expected);
    assert!(states[1..].iter().all(|after| after.special(ECA) == 16));
    let states = play("a load of a part into register 0 can fault");
    let faults: Vec<(u32, u32, u32, u32)> = states[1..].iter().map(interrupt).collect();
    assert_eq!(faults, [(16, 4_097, 8, 12), (16, 4_098, 8, 12)]);
}

#[test]
fn parts_are_translated_as_words_are() {
    let states = play("parts through the table");
    assert_eq!((states[1].register(3), states[2].register(3)), (0xFFFF_FF80, 0x80FF));
    assert_eq!(states[3].memory[2 * 1_024 + 1], 0x1122_DD44);
    assert_eq!(states[4].memory[2 * 1_024 + 1], 0xCCDD_DD44);
    assert_eq!((states[1].shadow(2), states[4].special(ECA)), (page(2), 0));
    assert_eq!(loaded("a byte's page is that of its address"), [0xFFFF_FF80, 0, 1]);
    assert_eq!(last("a byte's page is that of its address").shadow(1), page(1));
    let wrong = last("a byte through a wrong shadow");
    assert_eq!((wrong.memory[64], wrong.memory[2 * 1_024 + 64]), (0xDD00, 0));
}

#[test]
fn parts_fault_as_words_do() {
    let states = play("a byte of a protected page");
    assert_eq!((states[1].register(3), states[1].shadow(2)), (0x7F, page(2) | PROTECTED));
    for (after, address) in states[3..].iter().zip([8_193, 8_194]) {
        assert_eq!(interrupt(after), (16, address, 8, 12));
        assert_eq!(after.shadow(2), page(2) | PROTECTED);
        assert_eq!(after.memory[2 * 1_024], 0x80FF_7F01);
    }
    let states = play("a byte of a page that is not there");
    let faults: Vec<(u32, u32, u32, u32)> = states[1..].iter().map(interrupt).collect();
    assert_eq!(faults, [(16, 12_289, 8, 12), (16, 12_291, 8, 12)]);
}

#[test]
fn a_part_of_an_entry_empties_that_entry() {
    let all = [0, 1, 2, 3, 1_023];
    let none = 2_000;
    let cases = [
        ("sb into byte 0 of an entry", 2),
        ("sb into byte 1 of an entry", 2),
        ("sb into byte 2 of an entry", 2),
        ("sb into byte 3 of an entry", 2),
        ("sh into the low half of an entry", 2),
        ("sh into the high half of an entry", 2),
        ("sb into the last byte of entry 1,023", 1_023),
        ("sb right before the table", none),
        ("sb right behind the table", none),
        ("sb into an entry beyond PTL", none),
        ("sb into an entry by its user", 2),
        ("sh into an entry by its user", 2),
        ("sb of an equal value empties", 2),
        ("an odd sh into an entry empties nothing", none),
        ("a sb that faults empties nothing", none),
    ];
    for (name, emptied) in cases {
        let after = last(name);
        let valid: Vec<usize> = (0..1_024).filter(|&px| after.shadow(px) != 0).collect();
        let expected: Vec<usize> = all.iter().copied().filter(|&px| px != emptied).collect();
        assert_eq!(valid, expected, "{name}");
    }
    assert_eq!(last("an odd sh into an entry empties nothing").special(ECA), 4);
    assert_eq!(last("a sb that faults empties nothing").special(ECA), 16);
}

#[test]
fn a_changed_byte_of_an_entry_counts_at_once() {
    let states = play("a byte of an entry changes between two loads");
    assert_eq!((states[1].register(3), states[1].shadow(2)), (77, page(2)));
    assert_eq!((states[3].register(3), states[3].shadow(2)), (states[3].memory[16], page(0)));
    let states = play("a byte of an entry makes it valid");
    assert_eq!(
        (states[1].special(ECA), states[2].pair(), states[3].pair()),
        (16, (12, 16), (12, 16))
    );
    assert_eq!(states[3].shadow(2), page(2));
}
