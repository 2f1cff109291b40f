//! A timer for each partition (request 5 of 02).
//!
//! The firing step is the one in which TCOUNT falls from 1. Unless a script says otherwise its timer
//! is let through, TCOUNT is 1 and TLOAD 5.

use super::{end, list, load, turn, Group, Story, PAGE_0, PAGE_1, PAGE_2, TABLE};
use crate::assemble::{
    addi, andi, function, i_type, j_type, jr, lbu, lw, movi2s, movs2i, nop, opcode, r_type, rfe,
    sb, send, sw, take, trap,
};
use crate::dlx::special::{ECA, EDATA, EDPC, EMODE, EPC, ESR, MODE, PTL, PTO, SR, TCOUNT, TLOAD};
use crate::dlx::Cause;
use crate::fields;
use crate::memory::PROTECTED;

/// SR's bit that lets the timer through.
const OPEN: u32 = 1 << Cause::Timer as u32;
/// SR's bit that lets ovf through.
const OVF: u32 = 1 << Cause::Ovf as u32;

/// A partition whose next step is the firing one.
fn firing() -> Story {
    Story::house(&[2], 100).special(SR, OPEN).timer(1, 5).special(EDATA, 77)
}

/// The same in user mode; page 0 is the code, page 1 the table, page 2 data.
fn firing_user() -> Story {
    let map = [(0, PAGE_0), (1, PAGE_1), (2, PAGE_2)];
    Story::user(3, 3, &map).special(SR, OPEN).timer(1, 5).special(EDATA, 77)
}

/// All scripts about timers.
pub fn group() -> Group {
    let groups = [
        falling(),
        reloading(),
        masked(),
        moved(),
        followed(),
        followed_specials(),
        translated(),
        lower(),
        tickets(),
        turns(),
        calls(),
    ];
    groups.into_iter().flatten().collect()
}

/// Several runs of one step each.
fn steps(story: Story, count: u32) -> Story {
    (0..count).fold(story, |story, _| story.run(1))
}

/// One step for each cause: ill, DPC misaligned, data misaligned, pff, pfls, trap, ovf.
fn each_cause(story: Story, before: impl Fn(Story) -> Story) -> Story {
    let cases = [
        (8, 0, 0),
        (10, nop(), 0),
        (8, lw(3, 1, 0), 6),
        (4_096 * 9, nop(), 0),
        (8, sw(3, 1, 0), 4_096 * 9),
        (8, trap(7), 0),
        (8, addi(3, 1, 1), 0x7FFF_FFFF),
    ];
    cases.into_iter().fold(story, |story, (dpc, word, one)| {
        before(story).words(2, &[word]).register(1, one).pair(dpc, 200).run(1)
    })
}

fn falling() -> Group {
    let nops = || Story::house(&[2], 100).words(0, &[nop(); 12]);
    vec![
        ("a timer of 0 stands still", steps(nops().special(SR, OPEN).timer(0, 5), 3)),
        ("a timer falls at each step", steps(nops().special(SR, OPEN).timer(9, 5), 3)),
        ("a timer in one run", nops().special(SR, OPEN).timer(9, 5).run(8)),
        ("the largest timer", steps(nops().special(SR, OPEN).timer(u32::MAX, 0), 2)),
        ("a timer falls where it is masked", steps(nops().timer(9, 5), 3)),
        ("a timer falls in user mode", {
            let story = Story::user(3, 1, &[(0, PAGE_0)]).words(0, &[nop(); 4]);
            steps(story.timer(9, 5), 3)
        }),
        ("faulted steps count", {
            each_cause(Story::house(&[2], 100).timer(50, 5), |story| story.special(SR, OVF))
        }),
        ("rfe, jumps and tickets count", {
            let story = Story::house(&[2], 100).timer(50, 5).special(EDPC, 8).special(EPC, 12);
            let words = [rfe(), jr(1), j_type(opcode::J, 8), send(), take(), take()];
            words.into_iter().fold(story, |story, word| story.step(word, 8, 0))
        }),
    ]
}

fn reloading() -> Group {
    vec![
        ("a timer fires once from 1 with TLOAD 0", {
            steps(firing().timer(1, 0).words(0, &[nop(); 6]).at(8).run(1).special(SR, OPEN), 3)
        }),
        ("TLOAD 1 fires at every step", {
            let story = firing().timer(1, 1);
            (0..3).fold(story, |story, _| {
                story.special(SR, OPEN).special(ECA, 0).step(addi(3, 3, 1), 0, 0)
            })
        }),
        ("TLOAD 1 fires once between two rfe", {
            // The handler is one rfe; SR is 0 there, so that what comes in it is dropped.
            steps(firing().timer(1, 1).words(0, &[rfe(), nop(), nop(), nop(), nop()]).at(8), 6)
        }),
        ("TLOAD 3 fires at every third step", {
            let story = firing().timer(3, 3).words(0, &[nop(); 20]);
            (0..7).fold(story, |story, _| story.special(SR, OPEN).special(ECA, 0).run(1))
        }),
        ("the largest TLOAD", {
            let story = firing().timer(1, u32::MAX).words(0, &[nop()]).step(nop(), 0, 0);
            story.special(SR, OPEN).special(ECA, 0).run(1)
        }),
        ("the handler is entered and left", {
            // The handler counts in register 9; the loop counts in register 3.
            let story = firing().timer(3, 6).words(0, &[addi(9, 9, 1), rfe()]);
            let story = story.words(8, &[addi(3, 3, 1), j_type(opcode::J, -8i32 as u32), nop()]);
            steps(story.at(32), 14).run(86)
        }),
    ]
}

fn masked() -> Group {
    let closed = |sr| firing().special(SR, sr);
    vec![
        ("a masked timer is dropped", {
            let story = closed(0).words(2, &[nop(); 4]).at(8).run(1);
            steps(story.special(SR, OPEN), 2)
        }),
        ("other bits of SR do not let it through", { closed(!OPEN).step(addi(3, 3, 1), 0, 0) }),
        ("all bits of SR let it through", closed(u32::MAX).step(addi(3, 3, 1), 0, 0)),
        ("bit 13 alone is not bit 6", {
            closed(OPEN).timer(9, 5).step(addi(3, 1, 1), 0x7FFF_FFFF, 0)
        }),
        ("movi2s opens SR in the firing step", closed(0).step(movi2s(SR, 1), OPEN, 0)),
        ("movi2s closes SR in the firing step", closed(OPEN).step(movi2s(SR, 1), OVF, 0)),
        ("movi2s opens SR a step before", {
            closed(0).timer(2, 5).words(3, &[nop()]).step(movi2s(SR, 1), OPEN, 0).run(1)
        }),
        ("movi2s closes SR a step before", {
            closed(OPEN).timer(2, 5).words(3, &[nop()]).step(movi2s(SR, 1), OVF, 0).run(1)
        }),
        ("rfe opens SR in the firing step", {
            closed(0).special(ESR, OPEN).special(EDPC, 64).special(EPC, 96).step(rfe(), 0, 0)
        }),
        ("rfe closes SR in the firing step", {
            closed(OPEN).special(ESR, OVF).special(EDPC, 64).special(EPC, 96).step(rfe(), 0, 0)
        }),
    ]
}

/// movs2i and movi2s of the two registers.
fn moved() -> Group {
    let plain = |count| firing().timer(count, 5);
    let user = |word| firing_user().register(1, 9).step(word, 9, 0);
    vec![
        ("movs2i reads TCOUNT before the fall", plain(7).step(movs2i(3, TCOUNT), 0, 0)),
        ("movs2i of TCOUNT in the firing step", plain(1).step(movs2i(3, TCOUNT), 0, 0)),
        ("movs2i of a TCOUNT of 0", plain(0).register(3, 9).step(movs2i(3, TCOUNT), 0, 0)),
        ("movs2i reads TLOAD", plain(7).step(movs2i(3, TLOAD), 0, 0)),
        ("movi2s sets TCOUNT after the fall", plain(7).step(movi2s(TCOUNT, 1), 9, 0)),
        ("movi2s sets a TCOUNT of 0", plain(0).step(movi2s(TCOUNT, 1), 9, 0)),
        ("movi2s of 0 to TCOUNT raises nothing", {
            steps(plain(7).words(3, &[nop(); 3]).step(movi2s(TCOUNT, 1), 0, 0), 2)
        }),
        ("movi2s of 1 to TCOUNT fires at the next step", {
            steps(plain(7).words(3, &[addi(3, 0, 1)]).step(movi2s(TCOUNT, 1), 1, 0), 1)
        }),
        ("movi2s to TCOUNT in the firing step", plain(1).step(movi2s(TCOUNT, 1), 9, 0)),
        ("movi2s of 0 to TCOUNT in the firing step", plain(1).step(movi2s(TCOUNT, 1), 0, 0)),
        ("movi2s of all ones to TCOUNT", plain(7).step(movi2s(TCOUNT, 1), u32::MAX, 0)),
        ("movi2s to TCOUNT in a masked firing step", {
            plain(1).special(SR, 0).step(movi2s(TCOUNT, 1), 9, 0)
        }),
        ("movi2s to TLOAD in the firing step", plain(1).step(movi2s(TLOAD, 1), 9, 0)),
        ("movi2s to TLOAD in a masked firing step", {
            plain(1).special(SR, 0).step(movi2s(TLOAD, 1), 9, 0)
        }),
        ("movi2s to TLOAD leaves TCOUNT to fall", plain(7).step(movi2s(TLOAD, 1), 9, 0)),
        ("movi2s to TLOAD starts nothing", plain(0).step(movi2s(TLOAD, 1), 9, 0)),
        ("movi2s to TLOAD a step before", {
            plain(2).words(3, &[nop()]).step(movi2s(TLOAD, 1), 9, 0).run(1)
        }),
        ("movi2s to TCOUNT in user mode", user(movi2s(TCOUNT, 1))),
        ("movi2s to TLOAD in user mode", user(movi2s(TLOAD, 1))),
        ("movs2i of TCOUNT in user mode", user(movs2i(3, TCOUNT))),
        ("special numbers above 11", {
            let story = Story::house(&[1], 100).timer(50, 5);
            let words = (12..32).flat_map(|number| [movs2i(3, number), movi2s(number, 1)]);
            words.fold(story, |story, word| story.step(word, 9, 0))
        }),
    ]
}

/// The instruction takes full effect; then the state that it left is saved.
fn followed() -> Group {
    let pair = || firing().special(EDPC, 64).special(EPC, 96).special(ESR, OVF);
    let branch = |op, imm| i_type(op, 0, 1, imm);
    vec![
        ("a timer after addi", firing().step(addi(3, 1, 5), 7, 0)),
        ("a timer after add", firing().step(r_type(function::ADD, 3, 1, 2), 7, 8)),
        ("a timer after lhgi", firing().step(i_type(opcode::LHGI, 3, 0, 9), 0, 0)),
        ("a timer after a write to register 0", firing().step(addi(0, 1, 5), 7, 0)),
        ("a timer after lw", firing().words(16, &[99]).step(lw(3, 1, 0), 64, 0)),
        ("a timer after lbu", firing().words(16, &[0x8899]).step(lbu(3, 1, 0), 65, 0)),
        ("a timer after sw", firing().step(sw(2, 1, 0), 64, 99)),
        ("a timer after sb", firing().words(16, &[0x8899]).step(sb(2, 1, 0), 65, 0x77)),
        ("a timer after a store to the next word", {
            firing().step(sw(2, 1, 0), 12, addi(4, 0, 4)).special(SR, 0).at(12).run(1)
        }),
        ("a timer after a taken branch", firing().step(branch(opcode::BEQZ, 64), 0, 0)),
        ("a timer after a branch not taken", firing().step(branch(opcode::BEQZ, 64), 1, 0)),
        ("a timer after a branch back", firing().step(branch(opcode::BNEZ, -8i32 as u32), 1, 0)),
        ("a timer in the slot of a taken branch", {
            let story = firing().timer(2, 5).words(3, &[addi(3, 0, 1)]);
            steps(story.step(branch(opcode::BEQZ, 64), 0, 0), 1)
        }),
        ("a timer at a branch in a slot", {
            let story = firing().timer(2, 5).words(3, &[branch(opcode::BEQZ, 32)]);
            steps(story.step(branch(opcode::BEQZ, 64), 0, 0), 1)
        }),
        ("a timer after j", firing().step(j_type(opcode::J, 64), 0, 0)),
        ("a timer after jal", firing().step(j_type(opcode::JAL, 64), 0, 0)),
        ("a timer after jr", firing().step(jr(1), 64, 0)),
        ("a timer after jalr", firing().step(i_type(opcode::JALR, 0, 1, 0), 64, 0)),
        ("a timer after a jump to nowhere", firing().step(jr(1), 4_098, 0)),
        ("a timer after rfe", pair().step(rfe(), 0, 0)),
        ("a timer after rfe to user mode", {
            pair().special(EMODE, 1).special(ECA, 9).step(rfe(), 0, 0)
        }),
        ("a timer where PC wraps", firing().words(2, &[nop()]).pair(8, 0xFFFF_FFFC).run(1)),
        ("a timer with a pair out of line", firing().words(2, &[nop()]).pair(8, 200).run(1)),
        ("a timer with a masked ovf", firing().step(addi(3, 1, 1), 0x7FFF_FFFF, 0)),
        ("a masked timer with a masked ovf", {
            firing().special(SR, 0).step(addi(3, 1, 1), 0x7FFF_FFFF, 0)
        }),
        ("a timer and back by rfe", {
            let story = firing().words(0, &[rfe()]).words(3, &[addi(4, 0, 4)]);
            steps(story.step(addi(3, 0, 3), 0, 0), 2)
        }),
    ]
}

/// movi2s in the firing step: what the entry does not save over stays.
fn followed_specials() -> Group {
    let shadowed = || firing().shadow(0, PAGE_0).shadow(1_023, PAGE_1).special(PTL, 3);
    let to = |special| shadowed().step(movi2s(special, 1), 9, 0);
    vec![
        ("a timer after movi2s to SR", to(SR)),
        ("a timer after movi2s to ESR", to(ESR)),
        ("a timer after movi2s to ECA", to(ECA)),
        ("a timer after movi2s to EPC", to(EPC)),
        ("a timer after movi2s to EDPC", to(EDPC)),
        ("a timer after movi2s to EDATA", to(EDATA)),
        ("a timer after movi2s to MODE", to(MODE)),
        ("a timer after movi2s to PTO", to(PTO)),
        ("a timer after movi2s to PTL", to(PTL)),
        ("a timer after movi2s to EMODE", to(EMODE)),
    ]
}

/// In user mode, with fills and emptying.
fn translated() -> Group {
    let user = firing_user;
    vec![
        ("a timer in user mode", user().step(addi(3, 1, 5), 7, 0)),
        ("a timer after a load that fills", user().step(lw(3, 1, 0), 8_192, 0)),
        ("a timer after a store that fills", user().step(sw(2, 1, 0), 8_192, 99)),
        ("a timer after a store that empties its own entry", {
            user().step(sw(2, 1, 4), 4_096, PAGE_1)
        }),
        ("a timer after a store that empties the code's entry", {
            user().step(sw(2, 1, 0), 4_096, PAGE_2)
        }),
        ("a timer after a store that empties another entry", {
            user().shadow(2, PAGE_2).step(sw(2, 1, 8), 4_096, PAGE_0)
        }),
        ("a timer and a protected store", {
            user().words(TABLE + 2, &[PAGE_2 | PROTECTED]).step(sw(2, 1, 0), 8_192, 99)
        }),
        ("a timer and a page that is not there", user().step(lw(3, 1, 0), 12_288, 0)),
        ("a timer and a fetch that faults", user().at(12_288).run(1)),
        ("a masked timer and a fetch that faults", user().special(SR, 0).at(12_288).run(1)),
    ]
}

/// A lower cause is the level; the timer's bit stands beside it if it is let through.
fn lower() -> Group {
    let armed = |story: Story, sr| story.special(SR, sr).timer(1, 5).special(EDATA, 77);
    let two = |word| Story::house(&[2, 1], 100).special(SR, OPEN).timer(1, 5).step(word, 0, 0);
    let two_user = |word| {
        let story = Story::house(&[2, 1], 100).words(TABLE, &[PAGE_0]).user_mode(1, 1);
        story.special(SR, OPEN).timer(1, 5).step(word, 0, 0)
    };
    vec![
        ("a timer beside each cause", {
            each_cause(Story::house(&[2], 100), |story| armed(story, OPEN | OVF))
        }),
        ("a masked timer beside each cause", {
            each_cause(Story::house(&[2], 100), |story| armed(story, OVF))
        }),
        ("a timer beside each cause in user mode", {
            let story = Story::house(&[2], 100).words(TABLE, &[PAGE_0]);
            each_cause(story, |story| armed(story, OPEN | OVF).user_mode(1, 1))
        }),
        ("a timer beside a trap in system mode", two(trap(7))),
        ("a masked timer beside a trap in system mode", {
            Story::house(&[2, 1], 100).timer(1, 5).step(trap(7), 0, 0)
        }),
        ("a timer beside a trap in user mode", two_user(trap(7))),
        ("a masked timer with ovf", {
            firing().special(SR, OVF).step(addi(3, 1, 1), 0x7FFF_FFFF, 0)
        }),
        ("a timer with ovf", {
            firing().special(SR, OPEN | OVF).step(addi(3, 1, 1), 0x7FFF_FFFF, 0)
        }),
        ("no timer beside a cause one step before", {
            let story = firing().timer(2, 5).words(0, &[addi(3, 3, 1)]);
            steps(story.step(0, 0, 0), 1)
        }),
    ]
}

/// A ticket's trap in system mode is a plain instruction to the timer.
fn tickets() -> Group {
    let two = |q| Story::house(&[1, 1], q).special(SR, OPEN).timer(1, 5).special(EDATA, 77);
    let user = |word| {
        let story = Story::house(&[2, 1], 100).words(TABLE, &[PAGE_0]).user_mode(1, 1);
        story.special(SR, OPEN).timer(1, 5).queue(0, &[8]).step(word, 7, 1)
    };
    vec![
        ("a timer after a send", two(100).register(3, 9).step(send(), 7, 1)),
        ("a timer after a refused send", two(100).step(send(), 7, 2)),
        ("a timer after a send to a full queue", {
            two(100).queue(1, &[4; 32]).step(send(), 7, 1)
        }),
        ("a timer after a take", two(100).queue(0, &[8, 9]).step(take(), 7, 1)),
        ("a timer after a refused take", two(100).step(take(), 7, 1)),
        ("a timer after a send at a turn's last step", {
            two(1).words(TABLE, &[take()]).step(send(), 7, 1).run(1)
        }),
        ("a masked timer and a send", two(100).special(SR, 0).step(send(), 7, 1)),
        ("a timer beside trap 256 in user mode", user(send())),
        ("a timer beside trap 257 in user mode", user(take())),
    ]
}

/// Every partition has its own timer, and only its own steps move it.
fn turns() -> Group {
    let three = |q| {
        let story = Story::house(&[1, 1, 1], q);
        let story = (0..3).fold(story, |story, page| story.words(TABLE * page, &[nop(); 20]));
        (0..3).fold(story, |story, partition| {
            story
                .field(fields::special(partition, SR), OPEN)
                .field(fields::special(partition, TCOUNT), 4 + partition)
                .field(fields::special(partition, TLOAD), 10 * (1 + partition))
        })
    };
    vec![
        ("other partitions' turns leave a timer alone", {
            (0..8).fold(three(2), |story, _| story.run(2))
        }),
        ("a timer's interrupt keeps the turn", steps(three(9), 5)),
        ("a timer at a turn's last step", steps(three(4), 6)),
        ("a stopped partition's timer stands still", {
            three(2).stop(1).run(8).start(1).run(2).run(2)
        }),
        ("a lone partition's timer", {
            let story = Story::house(&[1], 3).words(0, &[nop(); 20]).special(SR, OPEN);
            steps(story.timer(4, 2), 8)
        }),
    ]
}

fn calls() -> Group {
    let set = || {
        let story = Story::house(&[2, 1], 100).timer(6, 7);
        let story = story.field(fields::special(1, TCOUNT), 8);
        story.field(fields::special(1, TLOAD), 9)
    };
    let values = [1, 2, 1 << 31, u32::MAX];
    vec![
        ("other calls leave the timers alone", {
            let story = set().stop(0).stop(1).start(1).start(0).empty(0).empty(1).read(0, 0, 2, 2);
            let story = story.run(0).run(1_000_001).start(2).read(1, 2, 1, 1);
            story.length(1_024).run(1)
        }),
        ("boot stops the timers", set().boot(&[2, 1], 100, &[1, 2, 3]).run(1)),
        ("a refused boot has no timers", set().boot(&[2, 1], 0, &[1, 2, 3])),
        ("any timer of a used partition is sound", {
            values.into_iter().fold(set(), |story, value| {
                story.timer(value, value).run(0).field(fields::special(1, TLOAD), value).run(0)
            })
        }),
        ("a timer of an unused partition is damage", {
            let places = [(2, TCOUNT), (2, TLOAD), (7, TCOUNT), (7, TLOAD)];
            let each = places.into_iter().flat_map(|place| values.map(|value| (place, value)));
            each.fold(set(), |story, ((partition, special), value)| {
                let index = fields::special(partition, special);
                story.field(index, value).run(0).field(index, 0).run(0)
            })
        }),
        ("a program with a handler for its timer", {
            let story = Story::house(&[1], 100).words(0, &counting());
            steps(story, 12).run(60).run(200)
        }),
    ]
}

/// A program that does its work in the handler of its timer: register 9 counts the handler's calls,
/// register 3 the rounds of the loop. The loop is at bytes 44 and 48.
fn counting() -> Vec<u32> {
    let handler = [addi(9, 9, 1), sw(9, 0, 256), rfe()];
    let begin = [movs2i(1, ECA), i_type(opcode::BEQZ, 0, 1, 16), andi(1, 1, OPEN)];
    let start = [
        addi(1, 0, 10),
        movi2s(TLOAD, 1),
        movi2s(TCOUNT, 1),
        addi(1, 0, OPEN),
        movi2s(SR, 1),
        j_type(opcode::J, -4i32 as u32),
        addi(3, 3, 1),
    ];
    [&begin[..], &handler, &start].concat()
}

/// House files whose report depends on the timer.
pub fn files() -> Vec<(&'static str, Vec<u8>)> {
    let one = |steps, words: &[u32]| [turn(100, steps), list(&[1]), load(1, words), end()].concat();
    // The handler at 0 goes where register 9 says, to a loop at byte 1,024; the start is at byte 32.
    let away = |start: &[u32]| {
        let mut words = vec![i_type(opcode::BEQZ, 0, 9, 28), nop(), jr(9), nop()];
        words.resize(8, nop());
        words.extend(start);
        words.resize(256, nop());
        words.extend([j_type(opcode::J, -4i32 as u32), nop()]);
        one(40, &words)
    };
    let armed = |count| {
        let open = [addi(9, 0, 1_024), addi(1, 0, OPEN), movi2s(SR, 1), addi(1, 0, count)];
        [&open[..], &[movi2s(TCOUNT, 1)]].concat()
    };
    vec![
        ("report of a timer's handler", one(505, &counting())),
        ("report of a timer that fires", away(&armed(3))),
        ("report of a timer that does not fire yet", away(&armed(60))),
        ("report of a timer that is masked", away(&armed(3)[3..])),
    ]
}
