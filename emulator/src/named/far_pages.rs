//! Virtual pages above 255, up to 1,023 (request 7 of 02).

use super::{Group, Story, PAGE_0, PAGE_1, PAGE_2, TABLE};
use crate::assemble::{addi, lw, movi2s, nop, sw};
use crate::dlx::special::{MODE, PTL, PTO};
use crate::memory::{PROTECTED, VALID};

/// The page through which these scripts reach the table.
const WINDOW: u32 = 1;
/// Pages at the edges of the old and the new limit.
const EDGES: [u32; 6] = [254, 255, 256, 257, 1_022, 1_023];
/// Far pages of all sorts.
const FAR: [u32; 9] = [255, 256, 257, 511, 512, 768, 1_000, 1_022, 1_023];

/// Three guest pages: page 0 has the code, page 1 the table, page 2 data. The given pages are mapped
/// to the data, page 0 to the code, and the window to the table.
fn mapped(ptl: u32, data: &[u32]) -> Story {
    let data = data.iter().map(|&px| (px, PAGE_2));
    let own = [(0, PAGE_0), (WINDOW, PAGE_1)];
    Story::user(3, ptl, &data.chain(own).collect::<Vec<_>>())
}

/// The same with the pages at the edges.
fn edges(ptl: u32) -> Story {
    mapped(ptl, &EDGES)
}

/// A step for each page, from user mode, with its address in register 1; register 2 counts up.
fn each(story: Story, pages: &[u32], word: u32) -> Story {
    (1..)
        .zip(pages)
        .fold(story, |story, (number, &px)| story.special(MODE, 1).step(word, px << 12, number))
}

/// All scripts about far pages.
pub fn group() -> Group {
    [reached(), lengths(), last_page(), emptied()].into_iter().flatten().collect()
}

/// Loads, stores and fetches.
fn reached() -> Group {
    // Pages that are one if only 8 bits of the page count, or 10.
    let alike = [256, 512, 768, 1_024, 1_280, 2_048, 0xF_FC00];
    let fours = || {
        // Pages 2, 258 and so on are four pages of the guest.
        let entry = |at: u32| (2 + 256 * at, (2 + at) << 12 | VALID);
        let story = Story::user(6, 1_024, &[(0, PAGE_0), entry(0), entry(1), entry(2), entry(3)]);
        each(story, &[2, 258, 514, 770], sw(2, 1, 12))
    };
    vec![
        ("far pages, load", {
            each(mapped(1_024, &FAR).words(2 * TABLE, &[77]), &FAR, lw(3, 1, 0))
        }),
        ("far pages, store", each(mapped(1_024, &FAR), &FAR, sw(2, 1, 64))),
        ("far pages, fetch", {
            let story = mapped(1_024, &FAR).words(2 * TABLE + 4, &[addi(1, 1, 1)]);
            FAR.iter().fold(story, |story, &px| story.at((px << 12) + 16).run(1))
        }),
        ("pages 256 apart are different ones", fours()),
        ("pages that look like page 0", each(edges(u32::MAX), &alike, lw(3, 1, 8))),
        ("code runs from page 255 to 256", {
            let story = edges(1_024).words(2 * TABLE, &[addi(2, 0, 9)]);
            story.words(2 * TABLE + 1_023, &[addi(1, 0, 7)]).at((255 << 12) + 4_092).run(2)
        }),
        ("code runs out of page 1,023", {
            edges(u32::MAX).words(2 * TABLE + 1_023, &[nop()]).at((1_023 << 12) + 4_092).run(2)
        }),
        (
            "a far page that is protected",
            edges(1_024)
                .words(TABLE + 1_023, &[PAGE_2 | PROTECTED])
                .step(lw(3, 1, 0), 1_023 << 12, 0)
                .empty(0)
                .step(sw(2, 1, 0), 1_023 << 12, 5),
        ),
        ("a far hit beyond PTL", {
            let story = edges(1).shadow(700, PAGE_2).shadow(1_023, PAGE_2 | PROTECTED);
            let story = each(story, &[700], sw(2, 1, 4));
            each(each(story, &[1_023], lw(3, 1, 4)), &[1_023], sw(2, 1, 4))
        }),
    ]
}

/// Tables whose length is at an edge.
fn lengths() -> Group {
    let at = |ptl, pages: &[u32]| each(edges(ptl), pages, lw(3, 1, 0));
    vec![
        ("PTL 255", at(255, &[254, 255, 256])),
        ("PTL 256", at(256, &[254, 255, 256, 257])),
        ("PTL 257", at(257, &[255, 256, 257, 1_023])),
        ("PTL 1,023", at(1_023, &[1_022, 1_023, 1_024])),
        ("PTL 1,024", at(1_024, &[1_022, 1_023, 1_024])),
        ("PTL 1,025", at(1_025, &[1_022, 1_023, 1_024, 1_025])),
        ("PTL 2^32 - 1", at(u32::MAX, &[1_022, 1_023, 1_024, 1_025, 0xF_FFFF])),
    ]
}

/// A table in the guest's last page: entry 1,023 is the last word of its memory.
fn last_page() -> Group {
    let last = |ptl, pto| {
        let story = Story::house(&[3], 20).user_mode(pto, ptl);
        let story = story.words(2 * TABLE, &[PAGE_0]);
        story.words(2 * TABLE + 255, &[PAGE_1; 2]).words(2 * TABLE + 1_023, &[PAGE_1])
    };
    vec![
        ("a table in the last page", each(last(1_024, 2), &[255, 256, 1_023], sw(2, 1, 8))),
        ("a longer table in the last page", {
            each(last(u32::MAX, 2), &[255, 256, 1_023, 1_024, 1_025], sw(2, 1, 8))
        }),
        ("a table behind the last page", {
            let story = last(1_024, 3).shadow(0, PAGE_0);
            each(story, &[255, 256, 1_023], lw(3, 1, 0))
        }),
        (
            "a store into the last word of the last page",
            last(1_024, 2).special(MODE, 0).shadow(1_023, PAGE_1).shadow(1_022, PAGE_1).step(
                sw(2, 1, 0),
                12_284,
                PAGE_1,
            ),
        ),
        ("a table of one page: its only page", {
            let story = Story::house(&[1], 20).words(255, &[PAGE_0; 2]).words(1_023, &[PAGE_0]);
            let story = story.words(0, &[PAGE_0]).user_mode(0, 1_024);
            each(story, &[255, 256, 1_023], lw(3, 1, 0))
        }),
    ]
}

/// Shadows of far pages are emptied one by one, or all.
fn emptied() -> Group {
    // Every shadow at an edge is valid.
    let full = |ptl| {
        let story = edges(ptl).shadow(0, PAGE_0).shadow(WINDOW, PAGE_1);
        EDGES.iter().fold(story, |story, &px| story.shadow(px, PAGE_2))
    };
    let store = |ptl, px: u32| full(ptl).step(sw(2, 1, 0), 4_096 * WINDOW + 4 * px, PAGE_2);
    let system =
        |ptl, px: u32| full(ptl).special(MODE, 0).step(sw(2, 1, 0), 4 * (TABLE + px), PAGE_2);
    vec![
        ("a store into entry 255", store(1_024, 255)),
        ("a store into entry 256", store(1_024, 256)),
        ("a store into entry 1,023", store(1_024, 1_023)),
        ("a store into entry 255 in system mode", system(1_024, 255)),
        ("a store into entry 256 in system mode", system(1_024, 256)),
        ("a store into entry 1,023 in system mode", system(u32::MAX, 1_023)),
        ("a store into entry 256 of 256", store(256, 256)),
        ("a store into entry 256 of 257", store(257, 256)),
        ("a store into entry 1,023 of 1,023", store(1_023, 1_023)),
        ("a store right behind the table", system(u32::MAX, 1_024)),
        (
            "a store right before the table",
            full(u32::MAX).special(MODE, 0).step(sw(2, 1, 0), 4_092, 0),
        ),
        ("entry 1,023 is the window", {
            let story = edges(1_024).words(TABLE + 1_023, &[PAGE_1]);
            story.step(sw(2, 1, 4_092), 1_023 << 12, PAGE_1).run(0)
        }),
        ("an entry changes between two far loads", {
            let story = edges(1_024).words(2 * TABLE, &[77]).words(0, &[nop(), nop(), nop()]);
            let load = |story: Story| story.step(lw(3, 1, 0), 1_023 << 12, 0);
            load(load(story).step(sw(2, 1, 0), 4_096 + 4 * 1_023, PAGE_0))
        }),
        ("PTO empties far shadows", full(1_024).special(MODE, 0).step(movi2s(PTO, 1), 1, 0)),
        ("PTL empties far shadows", full(1_024).special(MODE, 0).step(movi2s(PTL, 1), 1_024, 0)),
        ("the call empties far shadows", full(1_024).empty(0)),
    ]
}
