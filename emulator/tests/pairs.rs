//! The pair that an interrupt saves: 01, and request 4 of 02 for causes 1 and 2.

mod common;

use common::{last, play, After};
use emulator::dlx::special::{ECA, EDATA, EDPC, EMODE, EPC, ESR, MODE, SR};

/// The cause words in the order of the scripts: ill, DPC misaligned, data misaligned, pff, pfls,
/// trap, ovf.
const CAUSES: [u32; 7] = [2, 4, 4, 8, 16, 32, 64];

/// EDPC and EPC.
fn saved(after: &After) -> (u32, u32) {
    (after.special(EDPC), after.special(EPC))
}

/// The saved pairs of a script with a run for each cause.
fn pairs(name: &str) -> Vec<(u32, u32)> {
    let states = &play(name)[1..];
    let causes: Vec<u32> = states.iter().map(|after| after.special(ECA)).collect();
    assert_eq!(causes, CAUSES, "{name}");
    for after in states {
        let user = u32::from(name.ends_with("in user mode"));
        assert_eq!((after.pair(), after.special(MODE)), ((0, 4), 0), "{name}");
        assert_eq!(after.special(EMODE), user, "{name}");
        assert_eq!((after.special(ESR), after.special(SR)), (64, 0), "{name}");
        assert_eq!(after.register(3), 0, "{name}");
    }
    states.iter().map(saved).collect()
}

#[test]
fn causes_1_to_4_save_the_old_pair_and_5_and_6_go_on() {
    let in_line = [(8, 12), (10, 14), (8, 12), (4_096, 4_100), (8, 12), (12, 16), (12, 16)];
    assert_eq!(pairs("the pair in line"), in_line);
    assert_eq!(pairs("the pair in line in user mode"), in_line);
}

#[test]
fn the_old_pc_is_saved_where_it_is_not_dpc_and_4() {
    let slot = [(8, 200), (10, 200), (8, 200), (4_096, 200), (8, 200), (200, 204), (200, 204)];
    assert_eq!(pairs("the pair in a delay slot"), slot);
    assert_eq!(pairs("the pair in a delay slot in user mode"), slot);
    let same = [(8, 8), (10, 10), (8, 8), (4_096, 4_096), (8, 8), (8, 12), (8, 12)];
    assert_eq!(pairs("the pair where PC is DPC"), same);
}

#[test]
fn only_the_pair_of_trap_and_ovf_wraps() {
    let last = 0xFFFF_FFFC;
    let wrapped =
        [(8, last), (10, last), (8, last), (4_096, last), (8, last), (last, 0), (last, 0)];
    assert_eq!(pairs("the pair where PC + 4 wraps"), wrapped);
    assert_eq!(pairs("the pair where PC + 4 wraps in user mode"), wrapped);
    let odd = u32::MAX;
    let wrapped = [(8, odd), (10, odd), (8, odd), (4_096, odd), (8, odd), (odd, 3), (odd, 3)];
    assert_eq!(pairs("the pair where PC is misaligned and PC + 4 wraps"), wrapped);
}

#[test]
fn what_is_ill_in_user_mode_only_saves_the_old_pair_too() {
    let states = play("the pair of instructions that are ill in user mode");
    for after in &states[1..] {
        assert_eq!((after.special(ECA), saved(after)), (2, (8, 200)));
    }
    assert_eq!(states.len(), 4);
}

#[test]
fn ill_and_mal_keep_edata() {
    let states = play("ill and mal keep EDATA");
    let kept: Vec<(u32, u32)> =
        states[1..].iter().map(|after| (after.special(ECA), after.special(EDATA))).collect();
    assert_eq!(kept, [(2, 77), (4, 77), (4, 77)]);
}

#[test]
fn the_pair_behind_a_jump() {
    let cases = [
        ("ill in the slot of j", 2, (4, 36)),
        ("misaligned data in the slot of j", 4, (4, 36)),
        ("pfls in the slot of j", 16, (4, 36)),
        ("trap in the slot of j", 32, (36, 40)),
        ("ovf in the slot of j", 64, (36, 40)),
        ("DPC misaligned behind two jumps", 4, (6, 36)),
        ("pff behind two jumps", 8, (4_096, 36)),
        ("pff in the slot of a jump at the end", 8, (4_096, 36)),
        ("ill in the slot of jal", 2, (4, 36)),
        ("ill in the slot of jr", 2, (4, 36)),
        ("misaligned data in the slot of jalr", 4, (4, 36)),
        ("ill in the slot of beqz", 2, (4, 36)),
        ("misaligned data in the slot of bnez", 4, (4, 36)),
        ("ill behind a branch that is not taken", 2, (4, 8)),
        ("ovf in the slot of bnez", 64, (36, 40)),
    ];
    for (name, cause, pair) in cases {
        let states = play(name);
        let (before, after) = (&states[states.len() - 2], &states[states.len() - 1]);
        assert_eq!((after.special(ECA), saved(after)), (cause, pair), "{name}");
        let old = if cause < 32 { pair } else { (4, pair.0) };
        assert_eq!((before.special(ECA), before.pair()), (0, old), "{name}");
    }
}

#[test]
fn rfe_comes_back_to_what_was_aborted() {
    for (name, cause) in [("rfe meets ill again", 2), ("rfe meets misaligned data again", 4)] {
        let states = play(name);
        assert_eq!(saved(&states[1]), (104, 144), "{name}");
        assert_eq!(states[2].pair(), (104, 144), "{name}");
        let again = &states[3];
        assert_eq!((again.special(ECA), saved(again)), (cause, (104, 144)), "{name}");
        assert_eq!((again.pair(), again.guest().counter), ((0, 4), 4), "{name}");
    }
    let ill = last("an ill word is repaired in its slot");
    assert_eq!((ill.register(4), ill.pair(), ill.special(ECA)), (9, (144, 148), 2));
    let mal = last("an address is repaired in its slot");
    assert_eq!((mal.register(4), mal.pair()), (mal.memory[25], (144, 148)));
    let dpc = play("a misaligned DPC is repaired");
    assert_eq!((dpc[1].special(ECA), saved(&dpc[1])), (4, (10, 200)));
    assert_eq!((dpc[2].pair(), dpc[3].pair()), ((12, 200), (200, 204)));
}

#[test]
fn rfe_goes_on_behind_trap_and_ovf() {
    for (name, cause) in [("rfe goes on behind a trap", 32), ("rfe goes on behind ovf", 64)] {
        let states = play(name);
        assert_eq!((states[1].special(ECA), saved(&states[1])), (cause, (144, 148)), "{name}");
        assert_eq!((states[2].pair(), states[2].register(4)), ((144, 148), 0), "{name}");
    }
}
