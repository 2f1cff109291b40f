//! The engine without shadows: where it agrees with the first, and where it must not.

use super::{Group, Story, MEMORY, PAGE_0, PAGE_1, PAGE_2, TABLE};
use crate::assemble::{addi, j_type, lw, movi2s, nop, opcode, rfe, sb, send, sw, take, trap};
use crate::dlx::special::{MODE, PTL, PTO};
use crate::fields::{self, LEFT};
use crate::generate::Script;
use crate::memory::PROTECTED;
use crate::script::Command;

/// Runs that are longer are left to the first engine.
const LONGEST: u32 = 10_000;

/// Every script with its runs made by the engine without shadows.
pub fn unshadowed(scripts: &[Script]) -> Vec<Script> {
    let other = |command: &Command| match *command {
        Command::Run { steps } => Command::Unshadowed { steps },
        ref same => same.clone(),
    };
    let long = |command: &Command| matches!(*command, Command::Run { steps } if (LONGEST..=1_000_000).contains(&steps));
    let runs = |script: &&Script| {
        let run = |command: &Command| matches!(command, Command::Run { .. });
        script.commands.iter().any(run) && !script.commands.iter().any(long)
    };
    let script = |script: &Script| Script {
        name: format!("{}, without shadows", script.name),
        commands: script.commands.iter().map(other).collect(),
    };
    scripts.iter().filter(runs).map(script).collect()
}

/// Page 0 is the code, page 1 reaches the table, page 2 is data; the words of page 2 are 77 and 78.
fn mapped(ptl: u32) -> Story {
    let map = [(0, PAGE_0), (1, PAGE_1), (2, PAGE_2)];
    Story::user(4, ptl, &map).words(2 * TABLE, &[77, 78]).words(3 * TABLE, &[87, 88])
}

/// Several shadow entries, all right.
fn right() -> Story {
    mapped(3).shadow(0, PAGE_0).shadow(1, PAGE_1).shadow(2, PAGE_2)
}

/// The word from the same state by the second engine, and then by the first.
fn both(story: impl Fn() -> Story, word: u32, one: u32, two: u32) -> Story {
    let at = |story: Story| story.words(2, &[word]).register(1, one).register(2, two).at(8);
    let mut all = at(story()).unshadowed(1);
    all.0.push(Command::Clear);
    all.0.extend(at(story()).run(1).0);
    all
}

/// All scripts about the two engines, as far as they name one of them.
pub fn group() -> Group {
    [shadows(), stale(), refusals(), mixed()].into_iter().flatten().collect()
}

fn shadows() -> Group {
    let queued = || right().queue(0, &[5]).stop(0).start(0);
    vec![
        ("unshadowed: nothing is filled", {
            mapped(3).words(0, &[nop(); 5]).unshadowed(1).run(1).unshadowed(1)
        }),
        ("unshadowed: a run of 0 steps empties", right().unshadowed(0).run(0)),
        ("unshadowed: a run of 0 steps while nothing runs empties", right().stop(0).unshadowed(0)),
        ("unshadowed: right entries", both(right, lw(3, 1, 4), 8_192, 0)),
        ("unshadowed: all partitions' shadows are emptied", {
            let entry = |story: Story, at: u32| {
                story.field(fields::shadow(at, 1_023), (at + 1) << 12 | 1 << 11)
            };
            let story = (0..8).fold(Story::house(&[1; 8], 3), entry);
            story.stop(2).run(1).unshadowed(1).run(2)
        }),
        ("unshadowed: a store into the table", {
            both(right, sw(2, 1, 8), 4_096, PAGE_0).run(1).unshadowed(1)
        }),
        ("unshadowed: the table changes behind an access", {
            // The data's entry is written, and read through at once.
            mapped(3)
                .words(2, &[sw(2, 1, 8), lw(3, 4, 0), sb(5, 1, 9), lw(6, 4, 4)])
                .register(1, 4_096)
                .register(2, 3 << 12 | 1 << 11)
                .register(4, 8_192)
                .register(5, 0x28)
                .at(8)
                .unshadowed(2)
                .unshadowed(2)
        }),
        ("unshadowed: PTO and PTL", {
            let story = right().special(MODE, 0).words(2, &[movi2s(PTL, 1), movi2s(PTO, 2)]);
            story.register(1, 1).register(2, 1).at(8).unshadowed(2).run(1)
        }),
        ("unshadowed: a protected page", {
            let protected =
                || right().words(TABLE + 2, &[PAGE_2 | PROTECTED]).shadow(2, PAGE_2 | PROTECTED);
            let mut all = both(protected, sw(2, 1, 0), 8_192, 5);
            all.0.push(Command::Clear);
            all.0.extend(both(protected, lw(2, 1, 0), 8_192, 5).0);
            all
        }),
        ("unshadowed: tickets, traps and a timer", {
            let words = [send(), take(), addi(1, 1, 1), trap(7), rfe()];
            queued()
                .special(MODE, 0)
                .timer(3, 2)
                .words(0, &words)
                .register(1, 9)
                .unshadowed(1)
                .unshadowed(1)
                .unshadowed(7)
                .run(7)
        }),
    ]
}

/// Wrong entries of every kind: the first engine goes by them, the second by the table.
fn stale() -> Group {
    let load = lw(3, 1, 4);
    let store = sw(2, 1, 4);
    let page_3 = 3 << 12 | 1 << 11;
    vec![
        ("by both: another frame, load", both(|| right().shadow(2, page_3), load, 8_192, 5)),
        ("by both: another frame, store", both(|| right().shadow(2, page_3), store, 8_192, 5)),
        ("by both: another frame, fetch", both(|| right().shadow(0, page_3), load, 8_192, 5)),
        ("by both: a protection that is gone", {
            both(|| right().shadow(2, PAGE_2 | PROTECTED), store, 8_192, 5)
        }),
        ("by both: a protection that is new", {
            both(|| right().words(TABLE + 2, &[PAGE_2 | PROTECTED]), store, 8_192, 5)
        }),
        ("by both: beyond PTL", both(|| mapped(2).shadow(2, PAGE_2), load, 8_192, 5)),
        ("by both: table outside", both(|| right().special(PTO, 4), load, 8_192, 5)),
        ("by both: entry not valid", {
            both(|| right().words(TABLE + 2, &[PAGE_2 & !(1 << 11)]), load, 8_192, 5)
        }),
        ("by both: page number too large", {
            both(|| right().words(TABLE + 2, &[4 << 12 | 1 << 11]), load, 8_192, 5)
        }),
        ("by both: a store into the table by the first engine alone", {
            both(|| right().shadow(2, PAGE_1), store, 8_192, PAGE_0)
        }),
        ("by both: an entry that is not used", both(|| right().shadow(9, page_3), load, 8_192, 5)),
        ("by both: an entry of system mode", {
            both(|| right().shadow(2, page_3).special(MODE, 0), load, 8_192, 5)
        }),
        ("by both: the turn passes in the second alone", {
            // The entry is not valid any more: the handler traps, and the other partition is next.
            let story = || {
                let words = [trap(1), nop(), nop(), nop(), nop()];
                let story = Story::house(&[4, 1], 10).user_mode(1, 3).words(0, &words);
                story.words(TABLE, &[PAGE_0 & !(1 << 11)]).shadow(0, PAGE_0).at(8)
            };
            let mut all = story().unshadowed(2);
            all.0.push(Command::Clear);
            all.0.extend(story().run(2).0);
            all
        }),
        ("by both: mended first", both(|| right().shadow(2, page_3).mend(), load, 8_192, 5)),
        ("by both: entry 1,023", {
            let far = || mapped(1_024).words(TABLE + 1_023, &[PAGE_2]).shadow(1_023, page_3);
            both(far, load, 1_023 << 12, 5)
        }),
    ]
}

/// Refusals are a run's, in its order, and keep the shadows.
fn refusals() -> Group {
    vec![
        (
            "unshadowed: refusals",
            right()
                .length(MEMORY - 1_024)
                .unshadowed(0)
                .unshadowed(1_000_001)
                .length(MEMORY)
                .unshadowed(1_000_001)
                .unshadowed(u32::MAX)
                .stop(0)
                .unshadowed(1_000_001)
                .unshadowed(1)
                .field(LEFT, 1)
                .unshadowed(0)
                .length(0)
                .unshadowed(1_000_001)
                .length(MEMORY)
                .field(LEFT, 0)
                .unshadowed(0),
        ),
        ("unshadowed: no house", Story::new().unshadowed(0).length(0).unshadowed(1)),
    ]
}

/// Both engines in one history.
fn mixed() -> Group {
    let back = j_type(opcode::J, -16i32 as u32);
    let busy = || {
        Story::house(&[3, 1], 4)
            .words(TABLE, &[PAGE_0, PAGE_1, PAGE_2])
            .words(0, &[lw(4, 0, 1_024), addi(4, 4, 1), sw(4, 1, 0), back, addi(5, 5, 3)])
            .register(1, 8_200)
            .user_mode(1, 3)
            .words(3 * TABLE, &[send(), addi(1, 1, 7), take(), back, nop()])
            .field(fields::register(1, 2), 1)
    };
    vec![
        ("engines: the first alone", busy().run(9).run(30).run(1).run(60).audit()),
        ("engines: the second alone", {
            busy().unshadowed(9).unshadowed(30).unshadowed(1).unshadowed(60).audit()
        }),
        ("engines: in turns", busy().run(9).unshadowed(30).run(1).unshadowed(60).audit()),
        ("engines: a long run", busy().unshadowed(200_000).run(100_000)),
    ]
}
