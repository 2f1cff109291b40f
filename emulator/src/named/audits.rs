//! Shadow audits (request 9 of 02).

use super::{Group, Story, MEMORY, PAGE_0, PAGE_1, PAGE_2, TABLE};
use crate::assemble::{lw, movi2s, nop, sb, sw};
use crate::dlx::special::{ECA, MODE, PTL, PTO, SR};
use crate::fields::{self, Q};
use crate::memory::{shadow_entry, ENTRIES, FRAME_WORDS, PROTECTED, VALID};
use crate::script::Command;

/// One partition in user mode with three pages; page 0 is the code, page 1 the table, page 2 data.
fn mapped(ptl: u32) -> Story {
    Story::user(3, ptl, &[(0, PAGE_0), (1, PAGE_1), (2, PAGE_2)])
}

/// The same with right entries for all three.
fn filled(ptl: u32) -> Story {
    mapped(ptl).shadow(0, PAGE_0).shadow(1, PAGE_1).shadow(2, PAGE_2)
}

/// An audit, a mend, and an audit of what it left.
fn looked(story: Story) -> Story {
    story.audit().mend().audit()
}

/// All scripts about audits.
pub fn group() -> Group {
    [right(), wrong(), edited(), order(), mended(), refused()].into_iter().flatten().collect()
}

/// Nothing is stale.
fn right() -> Group {
    vec![
        ("an audit of a fresh house", looked(Story::house(&[1, 1], 5))),
        ("an audit of right entries", looked(filled(3))),
        ("an audit of entries that steps filled", {
            looked(mapped(3).step(lw(3, 1, 0), 8_192, 0).step(sw(3, 1, 0), 4_096 + 2_048, 0))
        }),
        ("an audit of a protected entry", {
            looked(filled(3).words(TABLE + 2, &[PAGE_2 | PROTECTED]).shadow(2, PAGE_2 | PROTECTED))
        }),
        ("an audit where other bits of an entry are set", {
            looked(filled(3).words(TABLE + 2, &[PAGE_2 | 0x3FF]))
        }),
        ("an audit right below PTL", looked(mapped(2).shadow(1, PAGE_1))),
        ("an audit of entry 1,023", {
            looked(mapped(1_024).words(TABLE + 1_023, &[PAGE_2]).shadow(1_023, PAGE_2))
        }),
        ("an audit with the largest PTL", looked(filled(u32::MAX))),
        ("an audit after the guest's own stores", {
            let story = filled(3).step(sw(2, 1, 8), 4_096, PAGE_0);
            looked(story.step(sb(2, 1, 5), 4_096, 0).step(nop(), 0, 0))
        }),
        ("an audit after movi2s to PTL", {
            looked(filled(3).special(MODE, 0).step(movi2s(PTL, 1), 1, 0))
        }),
        ("an audit after movi2s to PTO", {
            looked(filled(3).special(MODE, 0).step(movi2s(PTO, 1), 2, 0))
        }),
        ("an audit after the call that empties", looked(mapped(3).shadow(2, PAGE_0).empty(0))),
        ("an audit of a table in the only page", {
            let story = Story::house(&[1], 5).words(0, &[PAGE_0]).user_mode(0, 1);
            looked(story.shadow(0, PAGE_0))
        }),
    ]
}

/// One entry is stale, in one way.
fn wrong() -> Group {
    let entry = |entry| filled(3).words(TABLE + 2, &[entry]);
    vec![
        ("stale: another frame", looked(filled(3).shadow(2, PAGE_0))),
        ("stale: protected, and the table is not", looked(filled(3).shadow(2, PAGE_2 | PROTECTED))),
        ("stale: not protected, and the table is", looked(entry(PAGE_2 | PROTECTED))),
        ("stale: another frame and protection", looked(filled(3).shadow(2, PAGE_1 | PROTECTED))),
        ("stale: at PTL", looked(filled(2))),
        ("stale: no table", looked(filled(0))),
        ("stale: entry 1,023 at PTL", {
            looked(filled(1_023).words(TABLE + 1_023, &[PAGE_2]).shadow(1_023, PAGE_2))
        }),
        ("stale: entry 1,023", {
            looked(filled(1_024).words(TABLE + 1_023, &[PAGE_2]).shadow(1_023, PAGE_1))
        }),
        ("stale: an entry that is not valid", looked(entry(PAGE_2 & !VALID))),
        ("stale: an entry of 0", looked(entry(0))),
        ("stale: a page that is not there", looked(entry(3 << 12 | VALID))),
        ("stale: the last page number", looked(entry(u32::MAX))),
        ("stale: the table is outside", looked(filled(3).special(PTO, 3))),
        ("stale: the table's address does not wrap", looked(filled(3).special(PTO, 0x10_0001))),
        ("stale: in system mode", looked(filled(3).shadow(2, PAGE_0).special(MODE, 0))),
        ("stale: in a stopped partition", looked(filled(3).shadow(2, PAGE_0).stop(0))),
    ]
}

/// Memory and lists that are edited by hand.
fn edited() -> Group {
    let steps = || mapped(3).step(lw(3, 1, 0), 8_192, 0);
    vec![
        ("a table edited behind a filled entry", {
            let story = steps().words(TABLE + 2, &[PAGE_0]).words(0, &[77]);
            looked(story).step(lw(3, 1, 0), 8_192, 0).audit()
        }),
        ("a table edited and edited back", {
            looked(steps().words(TABLE + 2, &[PAGE_0]).words(TABLE + 2, &[PAGE_2]))
        }),
        ("a table edited where no entry is filled", looked(steps().words(TABLE + 1, &[0]))),
        ("data edited by hand", looked(steps().words(2 * TABLE, &[1, 2, 3]))),
        ("a table wiped by hand", {
            let (index, count) = (2 * FRAME_WORDS as u32, FRAME_WORDS as u32);
            looked(filled(3).then(Command::Fill { index, count, value: 0 }))
        }),
        ("frames that change their places", {
            looked(filled(3).field(fields::frame(0, 0), 3).field(fields::frame(0, 2), 1))
        }),
        ("PTL poked", looked(filled(3).special(PTL, 1))),
        ("a wrong entry in use, and mended", {
            let story = filled(3).shadow(2, PAGE_0).words(0, &[77]).words(2 * TABLE, &[88]);
            let story = story.step(lw(3, 1, 0), 8_192, 0).mend();
            story.step(lw(3, 1, 0), 8_192, 0).audit()
        }),
    ]
}

/// By partition, then page.
fn order() -> Group {
    // Entries of partitions that have no table at all.
    let stale = |partitions: usize, entries: &[(u32, u32)]| {
        let story = Story::house(&vec![1; partitions], 5);
        looked(entries.iter().fold(story, |story, &(partition, px)| {
            story.field(fields::shadow(partition, px), shadow_entry(partition + 1, 0))
        }))
    };
    vec![
        ("stale: the first page", stale(2, &[(0, 5), (0, 3), (0, 1_023)])),
        ("stale: the first partition", stale(2, &[(1, 0), (0, 1_023)])),
        ("stale: a later partition", stale(3, &[(2, 7), (1, 9)])),
        ("stale: the eighth partition", stale(8, &[(7, 1_023)])),
        ("stale: every partition", stale(8, &(0..8).map(|part| (part, part)).collect::<Vec<_>>())),
        (
            "stale: right entries come before",
            looked(filled(3).field(fields::shadow(0, 9), shadow_entry(1, 0))),
        ),
    ]
}

/// What a mend empties, and what it leaves.
fn mended() -> Group {
    // Every entry is for page 0, and the table is as long as it can be.
    let full = || {
        let (index, count) = (2 * FRAME_WORDS as u32, FRAME_WORDS as u32);
        let story = Story::house(&[2], 10).user_mode(1, ENTRIES as u32);
        let story = story.then(Command::Fill { index, count, value: PAGE_0 });
        (0..ENTRIES as u32).fold(story, |story, px| story.shadow(px, PAGE_0))
    };
    vec![
        ("a mend of a full shadow", looked(full())),
        ("a mend of the end of a full shadow", looked(full().special(PTL, 1_000))),
        ("a mend of a whole shadow", looked(full().special(PTL, 0))),
        ("a mend of every second entry", {
            let story = full();
            looked((0..512).fold(story, |story, at| story.words(TABLE + 2 * at, &[PAGE_1])))
        }),
        ("a mend leaves all else", {
            let story = Story::house(&[3, 1], 7).words(TABLE, &[PAGE_0, PAGE_1, PAGE_2]);
            let story = story.user_mode(1, 3).special(SR, 9).special(ECA, 8).register(5, 6);
            let story = story.timer(11, 12).queue(1, &[3, 0, 4]).pair(40, 80);
            let story = story.field(fields::scalar(0, fields::LATEST_FAULT), 5);
            let story = story.shadow(0, PAGE_0).shadow(2, PAGE_1).run(0).audit().run(0);
            story.mend().run(0).mend().run(0)
        }),
        ("a mend while none runs", looked(filled(3).shadow(2, PAGE_0).stop(0)).run(0)),
        ("mends of several partitions", {
            let story = Story::house(&[3, 2], 10).words(TABLE, &[PAGE_0]).user_mode(1, 1);
            let story = story.shadow(0, PAGE_0).shadow(1, PAGE_1).shadow(2, PAGE_2);
            let other = |px| (fields::shadow(1, px), shadow_entry(4, 0));
            let places = [other(0), other(700), other(1_023)];
            looked(places.into_iter().fold(story, |story, (at, entry)| story.field(at, entry)))
        }),
    ]
}

fn refused() -> Group {
    let both = |story: Story| story.audit().mend();
    vec![
        ("an audit of no house", both(Story::new())),
        ("an audit after a refused boot", both(filled(3).boot(&[1], 0, &[1]))),
        ("an audit of a damaged house", both(filled(3).field(Q, 0))),
        ("an audit of a damaged entry", {
            both(filled(3).field(fields::shadow(0, 2), shadow_entry(9, 0)))
        }),
        ("an audit of an entry of a partition that is not there", {
            both(filled(3).field(fields::shadow(1, 2), shadow_entry(3, 0)))
        }),
        ("an audit with another memory", both(filled(3).length(MEMORY - 1_024))),
        ("an audit with a longer memory", both(filled(3).shadow(2, PAGE_0).length(MEMORY + 1))),
        ("an audit of a damaged house with another memory", both(filled(3).field(Q, 0).length(5))),
    ]
}
