//! The pair that an interrupt saves, by its cause.
//!
//! Causes 1 to 4 save the old DPC and PC, 5 and 6 the old PC and PC + 4 (01, and request 4 of 02).
//! Each script about a place has one run for each case: ill, DPC misaligned, data misaligned, pff,
//! pfls, trap, ovf.

use super::{Group, Story, PAGE_0, TABLE};
use crate::assemble::{
    addi, function, i_type, j_type, jr, lw, movi2s, movs2i, nop, opcode, r_type, rfe, sw, trap,
};
use crate::dlx::special::{EDATA, EDPC, SR};

/// A step that is interrupted: DPC, the word at byte 8, and register 1.
struct Case(u32, u32, u32);

/// Every cause, mal in both ways; page 1 is not there, or not in the table.
fn cases() -> [Case; 7] {
    [
        Case(8, 0, 0),
        Case(10, nop(), 0),
        Case(8, lw(3, 1, 0), 6),
        Case(4_096, nop(), 0),
        Case(8, sw(3, 1, 0), 4_096),
        Case(8, trap(7), 0),
        Case(8, addi(3, 1, 1), 0x7FFF_FFFF),
    ]
}

/// One run for each case, in system mode; PC comes from DPC.
fn each(pc: impl Fn(u32) -> u32) -> Story {
    let story = Story::house(&[1], 100);
    cases().into_iter().fold(story, |story, Case(dpc, word, one)| {
        story.special(SR, 64).words(2, &[word]).register(1, one).pair(dpc, pc(dpc)).run(1)
    })
}

/// The same in user mode, with one page.
fn each_in_user_mode(pc: impl Fn(u32) -> u32) -> Story {
    let story = Story::house(&[2], 100).words(TABLE, &[PAGE_0]);
    cases().into_iter().fold(story, |story, Case(dpc, word, one)| {
        let story = story.special(SR, 64).user_mode(1, 1);
        story.words(2, &[word]).register(1, one).pair(dpc, pc(dpc)).run(1)
    })
}

/// All scripts about the pair.
pub fn group() -> Group {
    [places(), behind_jumps(), returns()].into_iter().flatten().collect()
}

/// The pair is set by hand.
fn places() -> Group {
    let in_line = |dpc| dpc + 4;
    vec![
        ("the pair in line", each(in_line)),
        ("the pair in line in user mode", each_in_user_mode(in_line)),
        ("the pair in a delay slot", each(|_| 200)),
        ("the pair in a delay slot in user mode", each_in_user_mode(|_| 200)),
        ("the pair where PC is DPC", each(|dpc| dpc)),
        ("the pair where PC + 4 wraps", each(|_| 0xFFFF_FFFC)),
        ("the pair where PC + 4 wraps in user mode", each_in_user_mode(|_| 0xFFFF_FFFC)),
        ("the pair where PC is misaligned and PC + 4 wraps", each(|_| 0xFFFF_FFFF)),
        ("the pair of instructions that are ill in user mode", {
            let story = Story::house(&[2], 100).words(TABLE, &[PAGE_0]);
            [rfe(), movs2i(3, SR), movi2s(SR, 1)].into_iter().fold(story, |story, word| {
                story.words(2, &[word]).user_mode(1, 1).pair(8, 200).run(1)
            })
        }),
        ("ill and mal keep EDATA", {
            let keep = |story: Story, Case(dpc, word, one): Case| {
                story.special(EDATA, 77).words(2, &[word]).register(1, one).pair(dpc, 200).run(1)
            };
            cases().into_iter().take(3).fold(Story::house(&[1], 100), keep)
        }),
    ]
}

/// A jump or branch comes right before what is interrupted.
fn behind_jumps() -> Group {
    // The jump stands at byte 0 and goes to byte 36; the slot is at byte 4.
    let behind = |jump, slot, one| {
        let story = Story::house(&[1], 100).special(SR, 64).register(1, one).register(2, 36);
        story.words(0, &[jump, slot]).run(1).run(1)
    };
    let j = j_type(opcode::J, 32);
    // The first jump goes to an address that is misaligned or not there; the second, in its delay
    // slot, to byte 36.
    let twice = |one| behind(jr(1), jr(2), one).run(1);
    vec![
        ("ill in the slot of j", behind(j, 0, 0)),
        ("misaligned data in the slot of j", behind(j, lw(3, 1, 0), 6)),
        ("pfls in the slot of j", behind(j, lw(3, 1, 0), 4_096)),
        ("trap in the slot of j", behind(j, trap(7), 0)),
        ("ovf in the slot of j", behind(j, addi(3, 1, 1), 0x7FFF_FFFF)),
        ("DPC misaligned behind two jumps", twice(6)),
        ("pff behind two jumps", twice(4_096)),
        (
            "pff in the slot of a jump at the end",
            Story::house(&[1], 100)
                .words(1_023, &[j_type(opcode::J, -4_060i32 as u32)])
                .at(4_092)
                .run(1)
                .run(1),
        ),
        ("ill in the slot of jal", behind(j_type(opcode::JAL, 32), 0, 0)),
        ("ill in the slot of jr", behind(jr(2), 0, 0)),
        ("misaligned data in the slot of jalr", {
            behind(i_type(opcode::JALR, 0, 2, 0), sw(3, 1, 0), 7)
        }),
        ("ill in the slot of beqz", behind(i_type(opcode::BEQZ, 0, 0, 32), 0, 0)),
        ("misaligned data in the slot of bnez", {
            behind(i_type(opcode::BNEZ, 0, 2, 32), lw(3, 1, 0), 5)
        }),
        ("ill behind a branch that is not taken", behind(i_type(opcode::BNEZ, 0, 0, 32), 0, 0)),
        ("ovf in the slot of bnez", {
            behind(i_type(opcode::BNEZ, 0, 2, 32), r_type(function::SUB, 3, 1, 2), 0x8000_0000)
        }),
    ]
}

/// A handler at 0 returns to a delay slot at byte 104 whose jump goes to byte 144.
fn returns() -> Group {
    let back = |handler: &[u32], slot, one| {
        let story = Story::house(&[1], 100).special(SR, 64).register(1, one);
        let story = story.words(0, handler).words(25, &[j_type(opcode::J, 40), slot]);
        let story = story.register(5, addi(4, 0, 9)).at(100).run(2);
        (0..handler.len() + 1).fold(story, |story, _| story.run(1))
    };
    vec![
        ("rfe meets ill again", back(&[rfe()], 0, 0)),
        ("rfe meets misaligned data again", back(&[rfe()], lw(4, 1, 0), 6)),
        ("an ill word is repaired in its slot", back(&[sw(5, 0, 104), rfe()], 0, 0)),
        ("an address is repaired in its slot", back(&[addi(1, 1, 2), rfe()], lw(4, 1, 0), 98)),
        ("a misaligned DPC is repaired", {
            let handler = [addi(1, 0, 12), movi2s(EDPC, 1), rfe(), nop()];
            Story::house(&[1], 100).words(0, &handler).pair(10, 200).run(1).run(3).run(1)
        }),
        ("rfe goes on behind a trap", back(&[rfe()], trap(7), 0)),
        ("rfe goes on behind ovf", back(&[rfe()], addi(4, 1, 1), 0x7FFF_FFFF)),
    ]
}
