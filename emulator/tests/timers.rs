//! A timer for each partition (request 5 of 02).

mod common;

use std::fs;

use common::{last, play, After};
use emulator::counts::Counts;
use emulator::dlx::special::{
    ECA, EDATA, EDPC, EMODE, EPC, ESR, MODE, PTL, PTO, SR, TCOUNT, TLOAD,
};
use emulator::house::House;
use emulator::housefile::night;
use emulator::memory::{shadow_entry, PROTECTED};
use emulator::{named, source};

/// Cause 13's bit, in SR and in ECA.
const BIT: u32 = 8_192;

/// The states after each call behind the boot.
fn after(name: &str) -> Vec<After> {
    let mut states = play(name);
    states.remove(0);
    states
}

/// TCOUNT and ECA after each call behind the boot.
fn counted(name: &str) -> Vec<(u32, u32)> {
    after(name).iter().map(|after| (after.special(TCOUNT), after.special(ECA))).collect()
}

/// The timer was the level: all that the entry saves, with ESR, EMODE, EDPC and EPC as given.
fn entered(after: &After, esr: u32, emode: u32, pair: (u32, u32)) {
    let saved = [ESR, ECA, EDPC, EPC, EMODE].map(|special| after.special(special));
    assert_eq!(saved, [esr, BIT, pair.0, pair.1, emode]);
    assert_eq!((after.special(SR), after.special(MODE), after.pair()), (0, 0, (0, 4)));
}

/// The same after the instruction at byte 8, which went on to byte 12 in system mode.
fn entered_in_line(name: &str) -> After {
    let after = last(name);
    entered(&after, BIT, 0, (12, 16));
    after
}

/// No interrupt: the instruction at byte 8 went on to byte 12.
fn went_on(name: &str) -> After {
    let after = last(name);
    assert_eq!((after.pair(), after.special(ECA)), ((12, 16), 0), "{name}");
    after
}

#[test]
fn it_falls_by_one_at_each_own_step() {
    assert_eq!(counted("a timer of 0 stands still"), [(0, 0); 3]);
    assert_eq!(counted("a timer falls at each step"), [(8, 0), (7, 0), (6, 0)]);
    assert_eq!(counted("a timer in one run"), [(1, 0)]);
    assert_eq!(counted("the largest timer"), [(u32::MAX - 1, 0), (u32::MAX - 2, 0)]);
    assert_eq!(counted("a timer falls where it is masked"), [(8, 0), (7, 0), (6, 0)]);
    assert_eq!(counted("a timer falls in user mode"), [(8, 0), (7, 0), (6, 0)]);
    let causes = [2, 4, 4, 8, 16, 32, 64];
    let expected: Vec<(u32, u32)> = (43..50).rev().zip(causes).collect();
    assert_eq!(counted("faulted steps count"), expected);
    let counts: Vec<u32> =
        counted("rfe, jumps and tickets count").iter().map(|one| one.0).collect();
    assert_eq!(counts, [49, 48, 47, 46, 45, 44]);
}

#[test]
fn reaching_zero_raises_13_and_reloads() {
    let name = "a timer fires once from 1 with TLOAD 0";
    assert_eq!(counted(name), [(0, BIT); 4]);
    entered(&after(name)[0], BIT, 0, (12, 16));
    assert_eq!(after(name)[3].pair(), (12, 16));
    let every = after("TLOAD 1 fires at every step");
    for (round, after) in every.iter().enumerate() {
        entered(after, BIT, 0, (12, 16));
        assert_eq!((after.special(TCOUNT), after.register(3)), (1, round as u32 + 1));
    }
    let pairs: Vec<(u32, u32)> =
        after("TLOAD 1 fires once between two rfe").iter().map(After::pair).collect();
    assert_eq!(pairs, [(0, 4), (12, 16), (0, 4), (16, 20), (0, 4), (20, 24)]);
    let third = [(2, 0), (1, 0), (3, BIT), (2, 0), (1, 0), (3, BIT), (2, 0)];
    assert_eq!(counted("TLOAD 3 fires at every third step"), third);
    assert_eq!(counted("the largest TLOAD"), [(u32::MAX, BIT), (u32::MAX - 1, 0)]);
}

#[test]
fn the_handler_comes_and_goes() {
    let states = after("the handler is entered and left");
    // The third step, and from then on every sixth: none is in the handler.
    let calls: Vec<u32> = states[..14].iter().map(|after| after.register(9)).collect();
    assert_eq!(calls, [0, 0, 0, 1, 1, 1, 1, 1, 1, 2, 2, 2, 2, 2]);
    assert_eq!((states[14].register(9), states[14].register(3)), (17, 23));
    let states = after("a program with a handler for its timer");
    let (register_9, word) = (states[13].register(9), states[13].memory[64]);
    assert_eq!((register_9, word, states[13].special(TLOAD)), (26, 26, 10));
}

#[test]
fn a_masked_one_is_dropped_and_reloads() {
    let name = "a masked timer is dropped";
    assert_eq!(counted(name), [(5, 0), (4, 0), (3, 0)]);
    let after = went_on("other bits of SR do not let it through");
    assert_eq!((after.special(TCOUNT), after.special(SR), after.register(3)), (5, !BIT, 1));
    entered(&last("all bits of SR let it through"), u32::MAX, 0, (12, 16));
    assert_eq!(went_on("bit 13 alone is not bit 6").register(3), 0x8000_0000);
}

#[test]
fn the_mask_is_sr_before_the_step() {
    let opened = went_on("movi2s opens SR in the firing step");
    assert_eq!((opened.special(SR), opened.special(TCOUNT)), (BIT, 5));
    entered(&last("movi2s closes SR in the firing step"), 64, 0, (12, 16));
    entered(&last("movi2s opens SR a step before"), BIT, 0, (16, 20));
    let closed = last("movi2s closes SR a step before");
    assert_eq!((closed.pair(), closed.special(ECA), closed.special(TCOUNT)), ((16, 20), 0, 5));
    let opened = last("rfe opens SR in the firing step");
    assert_eq!((opened.pair(), opened.special(ECA), opened.special(SR)), ((64, 96), 0, BIT));
    entered(&last("rfe closes SR in the firing step"), 64, 0, (64, 96));
}

#[test]
fn movs2i_reads_before_the_fall() {
    let read = |name: &str| {
        let after = last(name);
        (after.register(3), after.special(TCOUNT), after.special(ECA))
    };
    assert_eq!(read("movs2i reads TCOUNT before the fall"), (7, 6, 0));
    assert_eq!(read("movs2i of TCOUNT in the firing step"), (1, 5, BIT));
    assert_eq!(read("movs2i of a TCOUNT of 0"), (0, 0, 0));
    assert_eq!(read("movs2i reads TLOAD"), (5, 6, 0));
}

#[test]
fn movi2s_sets_after_fall_and_reload() {
    let timer = |name: &str| {
        let after = last(name);
        (after.special(TCOUNT), after.special(TLOAD), after.special(ECA))
    };
    assert_eq!(timer("movi2s sets TCOUNT after the fall"), (9, 5, 0));
    assert_eq!(timer("movi2s sets a TCOUNT of 0"), (9, 5, 0));
    assert_eq!(counted("movi2s of 0 to TCOUNT raises nothing"), [(0, 0); 3]);
    assert_eq!(counted("movi2s of 1 to TCOUNT fires at the next step"), [(1, 0), (5, BIT)]);
    assert_eq!(timer("movi2s to TCOUNT in the firing step"), (9, 5, BIT));
    assert_eq!(timer("movi2s of 0 to TCOUNT in the firing step"), (0, 5, BIT));
    assert_eq!(timer("movi2s of all ones to TCOUNT"), (u32::MAX, 5, 0));
    assert_eq!(timer("movi2s to TCOUNT in a masked firing step"), (9, 5, 0));
    assert_eq!(timer("movi2s to TLOAD in the firing step"), (5, 9, BIT));
    assert_eq!(timer("movi2s to TLOAD in a masked firing step"), (5, 9, 0));
    assert_eq!(timer("movi2s to TLOAD leaves TCOUNT to fall"), (6, 9, 0));
    assert_eq!(timer("movi2s to TLOAD starts nothing"), (0, 9, 0));
    assert_eq!(timer("movi2s to TLOAD a step before"), (9, 9, BIT));
    for name in ["movi2s to TCOUNT in the firing step", "movi2s to TLOAD in the firing step"] {
        entered_in_line(name);
    }
    // In user mode all of them are ill, and change neither register.
    for name in [
        "movi2s to TCOUNT in user mode",
        "movi2s to TLOAD in user mode",
        "movs2i of TCOUNT in user mode",
    ] {
        assert_eq!(timer(name), (5, 5, BIT | 2), "{name}");
        assert_eq!(last(name).register(3), 0);
    }
}

#[test]
fn special_numbers_above_11_are_ill() {
    let states = after("special numbers above 11");
    assert_eq!(states.len(), 40);
    assert!(states.iter().all(|after| after.special(ECA) == 2 && after.register(3) == 0));
}

#[test]
fn the_instruction_takes_full_effect() {
    let register_3 = |name: &str| entered_in_line(name).register(3);
    assert_eq!(register_3("a timer after addi"), 12);
    assert_eq!(register_3("a timer after add"), 15);
    assert_eq!(register_3("a timer after lhgi"), 9 << 16);
    assert_eq!(register_3("a timer after lw"), 99);
    assert_eq!(register_3("a timer after lbu"), 0x88);
    assert_eq!(entered_in_line("a timer after a write to register 0").register(0), 0);
    assert_eq!(entered_in_line("a timer after sw").memory[16], 99);
    assert_eq!(entered_in_line("a timer after sb").memory[16], 0x7799);
    assert_eq!(last("a timer after a store to the next word").register(4), 4);
    assert_eq!(entered_in_line("a timer after addi").special(EDATA), 77);
    assert_eq!(entered_in_line("a timer after addi").special(TCOUNT), 5);
}

#[test]
fn the_pair_is_the_one_that_the_instruction_left() {
    for (name, pair) in [
        ("a timer after a taken branch", (12, 76)),
        ("a timer after a branch not taken", (12, 16)),
        ("a timer after a branch back", (12, 4)),
        ("a timer in the slot of a taken branch", (76, 80)),
        ("a timer at a branch in a slot", (76, 108)),
        ("a timer after j", (12, 76)),
        ("a timer after jal", (12, 76)),
        ("a timer after jr", (12, 64)),
        ("a timer after jalr", (12, 64)),
        ("a timer after a jump to nowhere", (12, 4_098)),
        ("a timer where PC wraps", (0xFFFF_FFFC, 0)),
        ("a timer with a pair out of line", (200, 204)),
    ] {
        entered(&last(name), BIT, 0, pair);
    }
    assert_eq!(last("a timer in the slot of a taken branch").register(3), 1);
    assert_eq!(last("a timer after jal").register(31), 16);
    assert_eq!(last("a timer after jalr").register(31), 16);
    entered(&last("a timer after rfe"), 64, 0, (64, 96));
    entered(&last("a timer after rfe to user mode"), 64, 1, (64, 96));
    let back = last("a timer and back by rfe");
    assert_eq!((back.register(3), back.register(4), back.pair()), (3, 4, (16, 20)));
}

#[test]
fn what_the_entry_does_not_save_over_stays() {
    let to = |name: &str| last(&format!("a timer after movi2s to {name}"));
    entered(&to("SR"), 9, 0, (12, 16));
    for name in ["ESR", "ECA", "EPC", "EDPC", "EMODE"] {
        entered(&to(name), BIT, 0, (12, 16));
        assert_eq!(to(name).special(EDATA), 77);
    }
    entered(&to("MODE"), BIT, 1, (12, 16));
    assert_eq!(to("EDATA").special(EDATA), 9);
    let shadow = |after: &After| [after.shadow(0), after.shadow(1_023)];
    let full = [shadow_entry(1, 0), shadow_entry(2, 0)];
    for (name, special) in [("PTO", PTO), ("PTL", PTL)] {
        assert_eq!((to(name).special(special), shadow(&to(name))), (9, [0, 0]));
        entered(&to(name), BIT, 0, (12, 16));
    }
    assert_eq!(shadow(&to("EDATA")), full);
}

#[test]
fn fills_and_emptying_remain() {
    // Entries 0 to 2 of the shadow, after a step in user mode.
    let shadows = |name: &str, pair| {
        let after = last(name);
        entered(&after, BIT, 1, pair);
        [after.shadow(0), after.shadow(1), after.shadow(2)]
    };
    let [code, table, data] = [1, 2, 3].map(|frame| shadow_entry(frame, 0));
    let line = (12, 16);
    assert_eq!(shadows("a timer in user mode", line), [code, 0, 0]);
    assert_eq!(shadows("a timer after a load that fills", line), [code, 0, data]);
    assert_eq!(shadows("a timer after a store that fills", line), [code, 0, data]);
    assert_eq!(last("a timer after a store that fills").memory[2_048], 99);
    let own = "a timer after a store that empties its own entry";
    assert_eq!(shadows(own, line), [code, 0, 0]);
    let of_code = "a timer after a store that empties the code's entry";
    assert_eq!(shadows(of_code, line), [0, table, 0]);
    let other = "a timer after a store that empties another entry";
    assert_eq!(shadows(other, line), [code, table, 0]);
}

/// ECA, EDPC, EPC, EDATA and TCOUNT after each run.
fn beside(name: &str) -> Vec<[u32; 5]> {
    let specials = [ECA, EDPC, EPC, EDATA, TCOUNT];
    after(name).iter().map(|after| specials.map(|special| after.special(special))).collect()
}

#[test]
fn a_lower_cause_is_the_level() {
    let far = 4_096 * 9;
    // ill, DPC misaligned, data misaligned, pff, pfls, trap, ovf; PC is 200.
    let expected = |bit| {
        [
            [2 | bit, 8, 200, 77, 5],
            [4 | bit, 10, 200, 77, 5],
            [4 | bit, 8, 200, 77, 5],
            [8 | bit, far, 200, far, 5],
            [16 | bit, 8, 200, far, 5],
            [32 | bit, 200, 204, 7, 5],
            [64 | bit, 200, 204, 77, 5],
        ]
    };
    assert_eq!(beside("a timer beside each cause"), expected(BIT));
    assert_eq!(beside("a masked timer beside each cause"), expected(0));
    assert_eq!(beside("a timer beside each cause in user mode"), expected(BIT));
    let states = after("a timer beside each cause");
    assert!(states.iter().all(|after| after.register(3) == 0 && after.special(ESR) == BIT | 64));
    assert_eq!(counted("no timer beside a cause one step before"), [(1, 2), (5, 2)]);
}

#[test]
fn ovf_and_the_timer() {
    let ovf = |name: &str| {
        let after = last(name);
        let [eca, edpc, epc] = [ECA, EDPC, EPC].map(|special| after.special(special));
        (after.register(3), eca, edpc, epc)
    };
    assert_eq!(ovf("a timer with a masked ovf"), (0x8000_0000, BIT, 12, 16));
    assert_eq!(ovf("a masked timer with ovf"), (0, 64, 12, 16));
    assert_eq!(ovf("a timer with ovf"), (0, BIT | 64, 12, 16));
    assert_eq!(went_on("a masked timer with a masked ovf").register(3), 0x8000_0000);
}

#[test]
fn a_trap_beside_the_timer_passes_the_turn_in_system_mode() {
    let trap = |name: &str| {
        let after = last(name);
        (after.special(ECA), after.special(EDATA), after.turn())
    };
    assert_eq!(trap("a timer beside a trap in system mode"), (8_224, 7, (1, 100)));
    assert_eq!(trap("a masked timer beside a trap in system mode"), (32, 7, (1, 100)));
    assert_eq!(trap("a timer beside a trap in user mode"), (8_224, 7, (0, 99)));
}

#[test]
fn faults_of_user_mode_beside_the_timer() {
    let fault = |name: &str| {
        let after = last(name);
        (after.special(ECA), after.fault(), after.special(TCOUNT), after.special(EDATA))
    };
    let protected = "a timer and a protected store";
    assert_eq!(fault(protected), (BIT | 16, 6, 5, 8_192));
    assert_eq!(last(protected).shadow(2), shadow_entry(3, PROTECTED));
    assert_eq!(last(protected).memory[2_048], 0);
    assert_eq!(fault("a timer and a page that is not there"), (BIT | 16, 1, 5, 12_288));
    assert_eq!(fault("a timer and a fetch that faults"), (BIT | 8, 1, 5, 12_288));
    assert_eq!(fault("a masked timer and a fetch that faults"), (8, 1, 5, 12_288));
}

#[test]
fn a_ticket_is_a_plain_instruction_to_it() {
    for (name, registers, own, other) in [
        ("a timer after a send", [7, 1, 0], &[][..], &[7][..]),
        ("a timer after a refused send", [7, 2, 2], &[], &[]),
        ("a timer after a send to a full queue", [7, 1, 1], &[], &[4; 32]),
        ("a timer after a take", [8, 1, 0], &[9], &[]),
        ("a timer after a refused take", [7, 1, 3], &[], &[]),
    ] {
        let after = entered_in_line(name);
        assert_eq!([1, 2, 3].map(|number| after.register(number)), registers, "{name}");
        assert_eq!((after.waiting(0), after.waiting(1)), (own, other), "{name}");
        assert_eq!((after.turn(), after.special(EDATA)), ((0, 99), 77), "{name}");
    }
    let states = after("a timer after a send at a turn's last step");
    entered(&states[0], BIT, 0, (12, 16));
    assert_eq!((states[0].turn(), states[0].waiting(1)), ((1, 1), &[7][..]));
    assert_eq!(states[1].house.guests[1].registers[1], 7);
    assert_eq!(went_on("a masked timer and a send").waiting(1), [7]);
    for (name, data) in [
        ("a timer beside trap 256 in user mode", 256),
        ("a timer beside trap 257 in user mode", 257),
    ] {
        let after = last(name);
        assert_eq!((after.special(ECA), after.special(EDATA)), (8_224, data), "{name}");
        assert_eq!((after.register(1), after.waiting(0), after.turn()), (7, &[8][..], (0, 99)));
    }
}

/// TCOUNT of three partitions after each call behind the boot.
fn three(name: &str) -> Vec<[u32; 3]> {
    let of = |after: &After, partition: usize| after.house.guests[partition].specials[TCOUNT];
    after(name).iter().map(|after| [0, 1, 2].map(|partition| of(after, partition))).collect()
}

#[test]
fn only_own_steps_move_it() {
    assert_eq!(
        three("other partitions' turns leave a timer alone"),
        [
            [2, 5, 6],
            [2, 3, 6],
            [2, 3, 4],
            [10, 3, 4],
            [10, 1, 4],
            [10, 1, 2],
            [8, 1, 2],
            [8, 19, 2]
        ]
    );
    let states = after("a timer's interrupt keeps the turn");
    entered(&states[3], BIT, 0, (16, 20));
    assert_eq!([3, 4].map(|at: usize| states[at].turn()), [(0, 5), (0, 4)]);
    let states = after("a timer at a turn's last step");
    entered(&states[3], BIT, 0, (16, 20));
    assert_eq!([3, 4].map(|at: usize| states[at].turn()), [(1, 4), (1, 3)]);
    let stopped = three("a stopped partition's timer stands still");
    assert_eq!(stopped, [[4, 5, 6], [10, 5, 2], [10, 5, 2], [8, 5, 2], [8, 3, 2]]);
    let alone = [(3, 0), (2, 0), (1, 0), (2, BIT), (1, BIT), (2, BIT), (1, BIT), (2, BIT)];
    assert_eq!(counted("a lone partition's timer"), alone);
}

/// Both registers of partitions 0 and 1.
fn both(after: &After) -> [u32; 4] {
    let [one, two] = [0, 1].map(|partition: usize| after.house.guests[partition].specials);
    [one[TCOUNT], one[TLOAD], two[TCOUNT], two[TLOAD]]
}

#[test]
fn only_boot_and_steps_change_it() {
    let states = after("other calls leave the timers alone");
    let answers: Vec<u32> = states.iter().map(|after| after.answer.0).collect();
    assert_eq!(answers, [0, 0, 0, 0, 0, 0, 0, 0, 14, 10, 12, 9]);
    assert!(states.iter().all(|after| both(after) == [6, 7, 8, 9]));
    assert!(after("boot stops the timers").iter().all(|after| both(after) == [0; 4]));
    assert_eq!(last("a refused boot has no timers").house, House::NONE);
}

#[test]
fn only_an_unused_timer_is_damage() {
    let answers = |name| after(name).iter().map(|after| after.answer.0).collect::<Vec<_>>();
    assert_eq!(answers("any timer of a used partition is sound"), [0; 8]);
    assert_eq!(answers("a timer of an unused partition is damage"), [8, 0].repeat(16));
}

#[test]
fn the_report_tells_where_a_timer_led() {
    let files = named::files();
    let report = |name: &str| {
        let file = files.iter().find(|file| file.name == name).unwrap();
        let text = night(&file.bytes, &mut Counts::default());
        text.lines().nth(1).unwrap().to_string()
    };
    assert_eq!(report("report of a timer's handler"), "0 1 505 0 48 44 0");
    assert_eq!(report("report of a timer that fires"), "0 1 40 0 1024 1028 0");
    assert_eq!(report("report of a timer that does not fire yet"), "0 1 40 0 184 188 0");
    assert_eq!(report("report of a timer that is masked"), "0 1 40 0 184 188 0");
}

#[test]
fn the_example_keeps_its_log() {
    let read = |name: &str| {
        let root = env!("CARGO_MANIFEST_DIR");
        fs::read_to_string(format!("{root}/../examples/{name}")).expect("an example")
    };
    let (text, expected) = (read("timer.source"), read("timer.expected"));
    let told = |text: &str| night(&source::bytes(text).unwrap(), &mut Counts::default());
    assert_eq!(told(&text), expected);
    assert!(expected.contains("\n0 2 1200 0 72 68 0\n"));
    // The ten readings, each by the program itself: from the first word of the log on.
    for reading in 0..10 {
        let (word, turns) = (4_096 + 4 * reading, 25 + 23 * reading);
        let other = text.replace("lw r5 r0 4132 ", &format!("lw r5 r0 {word} "));
        let other = other.replace("subi r5 r5 232 ", &format!("subi r5 r5 {turns} "));
        assert_eq!(told(&other), expected, "reading {reading}");
    }
    let wrong = told(&text.replace("subi r5 r5 232 ", "subi r5 r5 231 "));
    assert!(wrong.contains("\n0 2 1200 0 80 76 0\n"), "{wrong}");
}
