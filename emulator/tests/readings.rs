//! What follows from the rules and is easy to miss.

mod common;

use common::{answers, last, play};
use emulator::dlx::special::{ECA, EDATA, EDPC, EMODE, EPC, ESR, MODE, SR};
use emulator::memory::{PROTECTED, VALID};
use emulator::named;

/// The shadow entry of a guest page; partition 0 has frames 1, 2, 3 and so on.
fn page(number: u32) -> u32 {
    (number + 1) << 12 | VALID
}

#[test]
fn every_named_script_has_a_call() {
    for script in named::scripts() {
        assert!(!play(&script.name).is_empty(), "{}", script.name);
    }
}

#[test]
fn words_not_in_the_table_are_ill() {
    for after in &play("ill words")[1..] {
        assert_eq!((after.special(ECA), after.special(EDPC), after.special(EPC)), (2, 8, 12));
        assert_eq!(after.special(EDATA), 0);
    }
}

#[test]
fn logical_immediates_are_sign_extended() {
    let values: Vec<u32> =
        play("immediates extend from bit 15")[1..].iter().map(|after| after.register(3)).collect();
    assert_eq!(values, [0xFFFF_0000, 0xFFFF_8001, 0x0000_8001, 0x8000_0000, 0]);
}

#[test]
fn bnez_is_taken_on_any_nonzero_value() {
    assert_eq!(last("bnez of 2").pair(), (12, 28));
}

#[test]
fn jumps_extend_from_bit_25() {
    let states = play("long immediates extend from bit 25");
    assert_eq!(states[1].pair(), (12, 12 + 0x8000));
    assert_eq!((states[2].pair(), states[2].register(31)), ((12, 4), 16));
}

#[test]
fn movi2s_reads_rs1() {
    assert_eq!(last("movi2s reads RS1").special(ESR), 11);
}

#[test]
fn jalr_reads_rs1_first() {
    let after = last("jalr through register 31");
    assert_eq!((after.pair(), after.register(31)), ((12, 64), 16));
}

#[test]
fn a_misaligned_target_shows_when_it_reaches_dpc() {
    let states = play("misaligned jump shows at DPC");
    assert_eq!(states[1].pair(), (4, 6));
    assert_eq!(states[2].pair(), (6, 10));
    let mal = &states[3];
    assert_eq!((mal.special(ECA), mal.special(EDPC), mal.special(EPC)), (4, 6, 10));
}

#[test]
fn unused_fields_are_ignored() {
    let states = play("unused fields are ignored");
    assert_eq!(states[1].register(3), 9);
    assert_eq!(states[2].pair(), (12, 20));
    assert_eq!(states[3].pair(), (0, 0));
}

#[test]
fn emode_takes_a_value_modulo_2() {
    let states = play("specials take their values");
    let read: Vec<u32> = states[1..].chunks(2).map(|pair| pair[1].register(2)).collect();
    assert_eq!(read[..8], [0xFFFF_FFF7; 8]);
    assert_eq!(read[8], 1);
}

#[test]
fn a_misaligned_dpc_is_mal_even_where_the_word_is_ill() {
    let after = last("misaligned DPC before ill");
    assert_eq!((after.special(ECA), after.special(EDPC), after.special(EPC)), (4, 2, 6));
}

#[test]
fn a_masked_overflow_leaves_eca_alone() {
    let after = last("masked overflow leaves ECA alone");
    assert_eq!((after.special(ECA), after.register(3)), (2, 0x8000_0000));
}

#[test]
fn addi_to_register_0_can_overflow() {
    assert_eq!(last("overflow into register 0").special(ECA), 64);
}

#[test]
fn pc_and_epc_wrap() {
    let trap = last("EPC wraps");
    assert_eq!((trap.special(EDPC), trap.special(EPC)), (0xFFFF_FFFC, 0));
    assert_eq!(last("PC wraps").pair(), (0xFFFF_FFFC, 0));
}

#[test]
fn rfe_restores_without_a_delay_slot() {
    let after = last("rfe has no delay slot");
    assert_eq!(after.pair(), (200, 104));
    assert_eq!((after.special(SR), after.special(MODE), after.special(EMODE)), (64, 1, 1));
}

#[test]
fn the_fetch_after_movi2s_to_mode_is_translated() {
    let states = play("movi2s to MODE: the next fetch is translated");
    assert_eq!((states[1].special(MODE), states[1].pair()), (1, (12, 16)));
    assert_eq!((states[2].register(1), states[2].shadow(0)), (9, page(2)));
}

#[test]
fn an_address_must_be_below_the_end() {
    let states = play("address at the end");
    assert_eq!(states[1].special(ECA), 0);
    assert_eq!((states[2].special(ECA), states[2].special(EDATA)), (16, 8_192));
    assert_eq!((states[3].special(ECA), states[3].special(EDATA)), (4, 8_192));
    let fetch = last("fetch at the end");
    assert_eq!((fetch.special(ECA), fetch.special(EDATA)), (8, 8_192));
    assert_eq!((fetch.special(EDPC), fetch.special(EPC)), (8_192, 8_196));
}

#[test]
fn translation_faults() {
    assert_eq!(last("px at PTL").special(ECA), 16);
    assert_eq!(last("the table's address does not wrap").special(ECA), 8);
    assert_eq!(last("table outside the pages").special(ECA), 8);
    assert_eq!(last("movs2i in user mode").special(ECA), 2);
}

#[test]
fn fills_survive_interrupts_but_misaligned_data_never_fills() {
    let after = last("misaligned data does not fill");
    assert_eq!((after.special(ECA), after.shadow(0), after.shadow(2)), (4, page(0), 0));
    let after = last("the fetch's fill survives ill");
    assert_eq!((after.special(ECA), after.shadow(0)), (2, page(0)));
}

#[test]
fn a_store_to_a_protected_page_faults_and_fills() {
    let after = last("a store to a protected page faults and fills");
    assert_eq!((after.special(ECA), after.shadow(2)), (16, page(2) | PROTECTED));
}

#[test]
fn a_load_into_register_0_is_an_access() {
    let states = play("a load into register 0 faults and fills");
    assert_eq!((states[1].special(ECA), states[1].shadow(2)), (0, page(2)));
    assert_eq!(states[2].special(ECA), 16);
}

#[test]
fn a_valid_shadow_entry_decides_alone() {
    let after = last("a hit beyond PTL");
    assert_eq!((after.special(ECA), after.memory[2 * 1_024]), (0, 5));
    let after = last("a hit on another frame");
    assert_eq!((after.memory[32], after.memory[2 * 1_024 + 32]), (5, 0));
    assert_eq!(last("a hit with another protection").special(ECA), 16);
}

#[test]
fn a_wrong_shadow_writes_the_page_of_its_page() {
    let after = last("a store into the table through a wrong shadow");
    assert_eq!((after.shadow(1), after.shadow(2)), (0, page(1)));
}

#[test]
fn stores_into_the_table_empty_one_entry() {
    assert_eq!(last("a store of an equal value empties").shadow(2), 0);
    assert_eq!(last("a store in system mode empties").shadow(2), 0);
    assert_eq!(last("a store beyond PTL empties nothing").shadow(2), page(2));
    let beyond = last("a store beyond entry 1,023 empties nothing");
    assert_eq!((beyond.shadow(0), beyond.shadow(1_023)), (page(0), page(2)));
    assert_eq!(beyond.special(ECA), 0);
    let faulted = last("a store that faults empties nothing");
    assert_eq!((faulted.special(ECA), faulted.shadow(2)), (16, page(2)));
}

#[test]
fn emptying_comes_after_filling() {
    let after = last("fill and emptying in one step");
    assert_eq!((after.shadow(0), after.shadow(1)), (page(0), 0));
    let after = last("a store empties the fetch's own page");
    assert_eq!((after.shadow(0), after.shadow(1)), (0, page(1)));
}

#[test]
fn pto_ptl_and_the_call_empty_all() {
    for name in ["PTO of the same value empties all", "PTL of the same value empties all"] {
        let after = last(name);
        assert_eq!(after.special(ECA), 0);
        assert!(after.guest().space.shadow.iter().all(|&entry| entry == 0), "{name}");
    }
    let states = play("the call empties all");
    assert_ne!(states[1].shadow(2), 0);
    assert_eq!((states[2].answer, states[2].shadow(0), states[2].shadow(2)), ((0, 0), 0, 0));
    assert_eq!(states[3].answer, (10, 0));
}

#[test]
fn turns_rfe_and_interrupts_empty_nothing() {
    let after = last("turns, rfe and interrupts empty nothing");
    // The trap, then rfe back to user mode, with partition 1 between them.
    assert_eq!((after.special(MODE), after.shadow(0), after.pair()), (1, page(0), (12, 16)));
}

#[test]
fn turns_pass_in_cyclic_order() {
    let turns: Vec<(u32, u32)> =
        play("turns of 3 steps")[1..].iter().map(|after| after.turn()).collect();
    assert_eq!(turns, [(0, 2), (1, 3), (2, 3), (0, 3), (2, 2)]);
    let turns: Vec<(u32, u32)> =
        play("a turn skips a stopped partition")[2..].iter().map(|after| after.turn()).collect();
    assert_eq!(turns, [(2, 2), (0, 2)]);
}

#[test]
fn traps_and_turns() {
    assert_eq!(last("a trap alone").turn(), (0, 5));
    assert_eq!(last("a trap at the last step passes the turn once").turn(), (1, 2));
}

#[test]
fn stopping() {
    let states = play("stop the current");
    let turns: Vec<(u32, u32)> = states[1..6].iter().map(|after| after.turn()).collect();
    assert_eq!(turns, [(0, 3), (1, 5), (1, 4), (2, 5), (0, 0)]);
    assert_eq!((states[6].answer, states[7].answer), ((0, 0), (11, 0)));
    let turns: Vec<(u32, u32)> =
        play("stop another")[1..].iter().map(|after| after.turn()).collect();
    assert_eq!(turns, [(0, 3), (0, 3), (0, 3), (0, 2)]);
}

#[test]
fn starting() {
    let states = play("start");
    let turns: Vec<(u32, u32)> = states[5..].iter().map(|after| after.turn()).collect();
    assert_eq!(turns, [(1, 5), (1, 5), (1, 5), (0, 4)]);
    assert_eq!(states[8].house.guests[0].counter, 3);
}

#[test]
fn the_counter_is_modulo_2_to_the_64() {
    assert_eq!(last("the counter wraps").guest().counter, 0);
}

#[test]
fn run_lengths() {
    assert_eq!(last("run of 1,000,000 steps").answer, (0, 1_000_000));
    assert_eq!(last("run of 1,000,001 steps").answer, (14, 0));
    let after = answers("long run with nothing running");
    assert_eq!(after[4..], [(14, 0), (11, 0), (0, 0)]);
}

#[test]
fn boots_refusals() {
    assert_eq!(answers("turn lengths"), [(3, 0), (0, 0), (0, 0), (3, 0)]);
    let (wrong, right) = ((4, 0), (0, 0));
    assert_eq!(answers("memory lengths"), [wrong, wrong, wrong, wrong, right, wrong, wrong, right]);
    assert_eq!(answers("list lengths"), [(5, 0), (5, 0)]);
    assert_eq!(answers("frame twice"), [(7, 2)]);
    assert_eq!(answers("frame too large after a frame twice"), [(6, 3)]);
    assert_eq!(
        answers("order of boot's refusals"),
        [(1, 0), (2, 1), (3, 0), (4, 0), (5, 0), (6, 0), (16, 0), (7, 1)]
    );
}

#[test]
fn start_stop_and_empty_do_not_look_at_the_memory() {
    let given = answers("another memory length");
    assert_eq!(given[1..], [(9, 0), (9, 0), (9, 0), (0, 0), (0, 0), (0, 0), (0, 1)]);
    assert_eq!(answers("no such partition")[1..], [(10, 0); 4]);
    assert_eq!(answers("damage comes first")[1..], [(8, 0); 5]);
}

#[test]
fn read_outs() {
    let states = play("read-out");
    let given: Vec<(u32, u64)> = states[1..].iter().map(|after| after.answer).collect();
    assert_eq!(
        given,
        [
            (0, 4),
            (0, 2_048),
            (0, 0),
            (0, 0),
            (12, 0),
            (12, 0),
            (12, 0),
            (13, 0),
            (13, 0),
            (12, 0),
            (12, 0),
            (12, 0),
            (12, 0),
            (0, 1),
        ]
    );
    assert!(states[1].text.ends_with(" 10 11 12 13\n"), "{}", states[1].text);
}

#[test]
fn every_damage_is_found_and_nothing_else() {
    let given = answers("damage");
    let (sound, damaged) = (given.len() - 2, &given[2..given.len() - 2]);
    assert_eq!(damaged.len(), 54);
    assert!(damaged.iter().all(|&answer| answer == (8, 0)), "{damaged:?}");
    assert_eq!(given[sound..], [(0, 0), (0, 0)]);
}
