//! The night-shift examples of 01, those marked P and the others.

mod common;

use common::{answers, last, play};
use emulator::counts::Counts;
use emulator::dlx::level;
use emulator::dlx::special::{ECA, EDATA, EDPC, EMODE, EPC, ESR, MODE, SR};
use emulator::house::{numbers, House};
use emulator::housefile::night;
use emulator::memory::{compose, FAULT};
use emulator::named;

/// The output of the program for a named file.
fn report(name: &str) -> String {
    let files = named::files();
    let file = files.iter().find(|file| file.name == name).expect("a named file");
    night(&file.bytes, &mut Counts::default())
}

#[test]
fn addi_gives_5() {
    assert_eq!(last("addi").register(1), 5);
}

#[test]
fn sw_after_it_stores_5_at_byte_address_8() {
    assert_eq!(last("sw after addi").memory[2], 5);
}

/// Request 4 of 02 gives it this pair.
#[test]
fn the_third_step_is_ill() {
    let after = last("third step ill");
    assert_eq!(after.answer, (0, 3));
    assert_eq!((after.special(ECA), after.special(EDPC), after.special(EPC)), (2, 8, 12));
    assert_eq!(after.house.left, 1);
    assert_eq!(after.pair(), (0, 4));
}

#[test]
fn the_report_of_the_first_example() {
    assert_eq!(report("first example"), "partition pages steps mode dpc pc fault\n0 1 3 0 0 4 0\n");
}

#[test]
fn a_trap_in_system_mode_passes_the_turn() {
    let after = last("trap in system mode");
    assert_eq!((after.special(ECA), after.special(EDATA)), (32, 7));
    assert_eq!(after.turn(), (1, 5));
}

#[test]
fn a_trap_in_user_mode_does_not() {
    let after = last("trap in user mode");
    assert_eq!((after.special(ECA), after.special(EDATA)), (32, 7));
    assert_eq!((after.special(MODE), after.special(EMODE)), (0, 1));
    assert_eq!(after.turn(), (0, 4));
}

#[test]
fn the_immediate_of_a_trap_is_sign_extended() {
    assert_eq!(last("trap of all ones").special(EDATA), 0xFFFF_FFFF);
}

#[test]
fn add_overflows() {
    let masked = last("add masked");
    assert_eq!((masked.register(3), masked.special(ECA)), (0x8000_0000, 0));
    let unmasked = last("add unmasked");
    assert_eq!((unmasked.register(3), unmasked.special(ECA)), (0, 64));
    assert_eq!((unmasked.special(ESR), unmasked.special(SR)), (64, 0));
}

#[test]
fn beqz_goes_back_from_pc() {
    assert_eq!(last("branch back").pair(), (12, 8));
}

#[test]
fn the_level_is_the_lowest_bit() {
    assert_eq!(level(72), 3);
    assert_eq!(level(0), 32);
    assert_eq!(level(64), 6);
}

#[test]
fn rfe_in_user_mode_is_ill() {
    assert_eq!(last("rfe in user mode").special(ECA), 2);
}

#[test]
fn sls_compares_twos_complement_numbers() {
    assert_eq!(last("sls").register(3), 1);
}

#[test]
fn entry_3800_is_page_3() {
    assert_eq!(compose(0x3800, 4, 0), 3);
    assert_eq!(compose(0x3800, 4, 1), 3);
    assert_eq!(compose(0x3800, 3, 0), FAULT);
    assert_eq!(last("entry 0x00003800, 4 pages, load").register(1), 77);
    assert_eq!(last("entry 0x00003800, 4 pages, store").memory[3 * 1_024 + 2], 88);
    assert_eq!(last("entry 0x00003800, 3 pages, load").special(ECA), 16);
}

#[test]
fn entry_3c00_loads_and_does_not_store() {
    assert_eq!(compose(0x3C00, 4, 0), 3);
    assert_eq!(compose(0x3C00, 4, 1), FAULT);
    assert_eq!(compose(0x3C00, 4, 7), FAULT);
    assert_eq!(compose(0x3C00, 3, 0), FAULT);
    assert_eq!(last("entry 0x00003C00, 4 pages, load").register(1), 77);
    let store = last("entry 0x00003C00, 4 pages, store");
    assert_eq!((store.special(ECA), store.special(EDATA)), (16, 8));
    assert_eq!((store.special(EDPC), store.special(EPC)), (4_096, 4_100));
    assert_eq!(store.memory[3 * 1_024 + 2], 77);
}

#[test]
fn entry_3c00_with_3_pages_faults_both_ways() {
    assert_eq!(last("entry 0x00003C00, 3 pages, load").special(ECA), 16);
    assert_eq!(last("entry 0x00003C00, 3 pages, store").special(ECA), 16);
}

#[test]
fn px_1023_passes() {
    assert_eq!(last("px 1,023, load").special(ECA), 0);
    assert_eq!(last("px 1,023, store").memory[2 * 1_024 + 1], 1_023 * 4_096);
    assert_eq!(last("px 1,023, fetch").register(1), 7);
}

#[test]
fn px_1024_never_passes() {
    let load = last("px 1,024, load");
    assert_eq!((load.special(ECA), load.special(EDATA)), (16, 1_024 * 4_096));
    assert_eq!(last("px 1,024, store").special(ECA), 16);
    let fetch = last("px 1,024, fetch");
    assert_eq!((fetch.special(ECA), fetch.special(EDATA)), (8, 1_024 * 4_096 + 4));
}

#[test]
fn eight_partitions_pass_and_nine_do_not() {
    let eight = last("8 partitions");
    assert_eq!((eight.answer, eight.house.count), ((0, 16), 8));
    assert!(eight.house.guests.iter().all(|guest| guest.counter == 2));
    assert_eq!(answers("9 partitions"), [(1, 0)]);
    assert_eq!(answers("no partitions"), [(1, 0), (8, 0), (8, 0)]);
}

#[test]
fn page_counts_256_pass_and_257_do_not() {
    assert_eq!(answers("256 pages"), [(0, 0), (0, 3)]);
    assert_eq!(answers("257 pages"), [(2, 1)]);
    assert_eq!(answers("0 pages"), [(2, 2)]);
    let frames: Vec<u32> = (1..257).collect();
    let (house, answer) = House::boot(&[256], 1, &frames, 257 * 1_024);
    assert_eq!(numbers(answer), (0, 0));
    assert!(!house.damaged());
}

#[test]
fn a_booted_house_is_fresh() {
    let house = &play("addi")[0].house;
    assert_eq!(
        (house.count, house.q, house.words, house.current, house.left),
        (1, 2, 16_384, 0, 2)
    );
    assert_eq!(house.running, [true, false, false, false, false, false, false, false]);
    let guest = &house.guests[0];
    assert_eq!((guest.dpc, guest.pc, guest.counter), (0, 4, 0));
    assert!(guest.registers.iter().chain(&guest.specials).all(|&value| value == 0));
    assert!(guest.space.shadow.iter().all(|&entry| entry == 0));
}

#[test]
fn house_files() {
    let first_list = 14;
    let second = first_list + 10;
    let cases = [
        ("empty file", "refused 15 0\n".to_string()),
        ("no kind 2", format!("refused 15 {first_list}\n")),
        ("stops after kind 1", format!("refused 15 {first_list}\n")),
        ("stops after kind 2", format!("refused 15 {second}\n")),
        ("cut in a head", format!("refused 15 {first_list}\n")),
        ("cut in a body", format!("refused 15 {second}\n")),
        ("kind 3 before kind 2", format!("refused 15 {first_list}\n")),
        ("kind 2 after kind 3", "refused 15 4130\n".into()),
        ("nine of kind 2", format!("refused 15 {}\n", first_list + 80)),
        ("extra byte", "refused 15 4136\n".into()),
        ("kind 4 with a body", format!("refused 15 {second}\n")),
        ("empty kind 2", "refused 2 1\n".into()),
        ("256 frames", "refused 6 15\n".into()),
        ("257 frames", format!("refused 15 {first_list}\n")),
        ("kind 2 of 6 bytes", format!("refused 15 {first_list}\n")),
        ("kind 2 frame 16", "refused 6 1\n".into()),
        ("kind 3 frame 16", format!("refused 15 {second}\n")),
        (
            "a later kind 3 replaces",
            "partition pages steps mode dpc pc fault\n0 1 3 0 12 16 0\n".into(),
        ),
        ("frame twice", "refused 7 2\n".into()),
        ("frame 0", "refused 16 2\n".into()),
        ("frame 0 twice", "refused 16 1\n".into()),
        ("frame 0 and a frame twice", "refused 16 2\n".into()),
        ("frame 0 and a frame too large", "refused 6 1\n".into()),
        ("frame 0 and q 0", "refused 3 0\n".into()),
        ("frame 0 and too long a run", "refused 16 0\n".into()),
        ("frame 0 and an extra byte", "refused 15 30\n".into()),
        (
            "a kind 3 fills frame 0",
            "partition pages steps mode dpc pc fault\n0 1 3 0 0 4 0\n".into(),
        ),
        ("q 0", "refused 3 0\n".into()),
        ("q 10,001 and an extra byte", "refused 15 4136\n".into()),
        ("run of 0 steps", "partition pages steps mode dpc pc fault\n0 1 0 0 0 4 0\n".into()),
        ("run of 1,000,001 steps", "refused 14 0\n".into()),
        ("wrong q and too long a run", "refused 3 0\n".into()),
        (
            "bytes make an address",
            "partition pages steps mode dpc pc fault\n0 1 7 0 4664 4668 0\n".into(),
        ),
        (
            "tickets until one is refused",
            "partition pages steps mode dpc pc fault\n0 1 101 0 20 16 0\n1 1 101 0 20 16 0\n"
                .into(),
        ),
    ];
    for (name, expected) in cases {
        assert_eq!(report(name), expected, "{name}");
    }
    assert_eq!(report("eight of kind 2").lines().count(), 9);
    assert!(report("run of 1,000,000 steps").contains("\n0 1 1000000 0 "));
}
