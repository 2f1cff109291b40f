//! Frame 0, which is kept for the house (request 8 of 02).

use super::{Group, Story, MEMORY};
use crate::assemble::{addi, nop, sw};
use crate::fields;
use crate::memory::FRAME_WORDS;

/// Boots of one partition for each of the lists, in one script.
fn boots(lists: &[&[u32]]) -> Story {
    lists.iter().fold(Story::new(), |story, list| story.boot(&[list.len() as u32], 1, list))
}

/// Values in places of the frame lists, each looked at and put right again. Partition 0 has frames
/// 1 and 2, partition 1 frame 3.
fn places(changes: &[(u32, u32, u32)]) -> Story {
    changes.iter().fold(Story::house(&[2, 1], 5), |story, &(index, value, old)| {
        story.field(index, value).run(1).field(index, old)
    })
}

/// All scripts about frame 0.
pub fn group() -> Group {
    [refused(), damage(), memory()].into_iter().flatten().collect()
}

fn refused() -> Group {
    vec![
        ("frame 0 in a list", boots(&[&[0], &[0, 1], &[3, 5, 0], &[3, 0, 5, 4]])),
        (
            "frame 0 in a later list",
            Story::new()
                .boot(&[2, 1, 2], 1, &[3, 5, 4, 7, 0])
                .boot(&[2, 1, 2], 1, &[3, 5, 0, 7, 4])
                .boot(&[1; 8], 1, &[1, 2, 3, 4, 5, 6, 7, 0]),
        ),
        ("the first of several zeros", boots(&[&[3, 0, 0, 5], &[0, 0], &[5, 4, 0, 3, 0]])),
        (
            "frame 0 and a frame twice",
            boots(&[&[0, 4, 4], &[4, 0, 4], &[4, 4, 0], &[4, 4, 5, 5, 0, 0]]),
        ),
        ("frame 0 and a frame too large", boots(&[&[0, 16], &[16, 0], &[0, 0, 4, 4, 16]])),
        (
            "frame 0 and the refusals before it",
            Story::new()
                .boot(&[1; 9], 1, &[0; 9])
                .boot(&[1, 0], 1, &[0])
                .boot(&[1], 10_001, &[0])
                .length(MEMORY - 1)
                .boot(&[1], 1, &[0])
                .length(MEMORY)
                .boot(&[1], 1, &[0, 0]),
        ),
        ("a boot that names frame 0 leaves no house", {
            Story::house(&[1], 5).boot(&[1, 1], 5, &[1, 0]).run(0).boot(&[1, 1], 5, &[1, 2]).run(1)
        }),
        // Frame 0 is not there for partitions, and no other frame is: still it is a memory.
        ("a memory of one frame", {
            let story = Story::new().length(FRAME_WORDS as u32);
            story.boot(&[1], 1, &[0]).boot(&[1], 1, &[1]).boot(&[2], 1, &[0, 1]).length(2_048).boot(
                &[1],
                1,
                &[1],
            )
        }),
    ]
}

fn damage() -> Group {
    let (zero, place) = (0, fields::frame);
    vec![
        ("frame 0 in a used place", {
            places(&[(place(0, 0), zero, 1), (place(0, 1), zero, 2), (place(1, 0), zero, 3)])
        }),
        ("frame 0 in an unused place", {
            places(&[
                (place(0, 2), zero, 0),
                (place(0, 255), zero, 0),
                (place(1, 1), zero, 0),
                (place(2, 0), zero, 0),
                (place(7, 255), zero, 0),
            ])
        }),
        // The place behind the list becomes a used one by the page count alone.
        ("frame 0 by one page more", {
            let pages = fields::scalar(1, fields::PAGES);
            places(&[(pages, 2, 1), (pages, 256, 1)])
        }),
        (
            "frame 0 in a house of all partitions",
            Story::house(&[1; 8], 5)
                .field(fields::frame(7, 0), zero)
                .run(0)
                .empty(7)
                .read(7, 0, 1, 1),
        ),
    ]
}

/// What stands in frame 0 makes no difference to a guest, and no guest changes it.
fn memory() -> Group {
    vec![(
        "frame 0 keeps its words",
        Story::new()
            .length(3 * FRAME_WORDS as u32)
            .frame_words(0, 0, &[nop(), 7, 8, 9])
            .boot(&[2], 5, &[2, 1])
            .frame_words(2, 0, &[addi(1, 0, 5), sw(1, 0, 0), sw(1, 0, 4_096), sw(1, 0, 8_192)])
            .read(0, 0, 4, 4)
            .run(4)
            .read(0, 4_096, 1, 1),
    )]
}
