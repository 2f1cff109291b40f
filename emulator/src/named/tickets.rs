//! Tickets between partitions.

use super::{Group, Story, PAGE_0, TABLE};
use crate::assemble::{addi, function, j_type, nop, opcode, r_type, send, take, trap};
use crate::dlx::special::{ECA, EDATA, EDPC, EMODE, EPC, ESR, PTL, PTO, SR};
use crate::fields::{self, WAITING};

/// Two partitions with turns of 100 steps.
fn two() -> Story {
    Story::house(&[1, 1], 100)
}

/// So many tickets, all different.
fn tickets(count: u32) -> Vec<u32> {
    (101..101 + count).collect()
}

/// A loop of three steps: the word at byte 0, and another in the jump's delay slot.
fn repeated(word: u32, slot: u32) -> [u32; 3] {
    [word, j_type(opcode::J, -8i32 as u32), slot]
}

/// All scripts about tickets.
pub fn group() -> Group {
    [sending(), taking(), going_on(), ordinary_traps(), calls()].into_iter().flatten().collect()
}

fn sending() -> Group {
    let sent_to = |story: Story, receivers: &[u32]| {
        receivers.iter().fold(story, |story, &to| story.register(3, 9).step(send(), 7, to))
    };
    vec![
        ("a ticket", two().step(send(), 7, 1).step(send(), 8, 1)),
        ("a ticket to oneself", two().step(send(), 7, 0).step(take(), 1, 2)),
        (
            "a ticket to a stopped partition",
            two().words(TABLE, &[take()]).stop(1).step(send(), 7, 1).start(1).stop(0).run(1),
        ),
        (
            "a ticket to no partition",
            sent_to(two(), &[2, 7, 8, 9, 256, 0x1_0001, 0x8000_0000, u32::MAX]),
        ),
        (
            "a ticket to the eighth partition, and to no ninth",
            sent_to(Story::house(&[1; 8], 100), &[7, 8, 15, u32::MAX]),
        ),
        (
            "the 32nd and the 33rd ticket",
            two().queue(1, &tickets(31)).step(send(), 7, 1).step(send(), 8, 1),
        ),
        (
            "a queue filled one by one",
            two()
                .words(0, &repeated(send(), addi(1, 1, 1)))
                .register(1, 101)
                .register(2, 1)
                .run(3 * 32)
                .run(1),
        ),
        ("a full queue of one's own", two().queue(0, &tickets(32)).step(send(), 7, 0)),
        (
            "tickets of value 0",
            two().step(send(), 0, 1).step(send(), 0, 1).step(send(), 5, 1).step(send(), 0, 1),
        ),
    ]
}

fn taking() -> Group {
    let taken = |story: Story, times| (0..times).fold(story, |story, _| story.step(take(), 1, 2));
    vec![
        ("none waiting", two().queue(1, &[7]).register(3, 9).step(take(), 5, 1)),
        ("the oldest first", taken(two().queue(0, &[7, 8, 9]), 4)),
        ("a ticket of value 0 is taken", taken(two().queue(0, &[0, 0, 4]), 4)),
        ("freed places are used again", {
            let story = taken(two().queue(0, &tickets(32)), 3);
            let story = (0..4).fold(story, |story, ticket| story.step(send(), ticket, 0));
            taken(story, 33)
        }),
        (
            "a queue taken one by one",
            two()
                .queue(0, &tickets(32))
                .words(0, &repeated(take(), r_type(function::ADD, 4, 4, 1)))
                .run(3 * 31)
                .run(3)
                .run(1),
        ),
        (
            "tickets across turns",
            Story::house(&[1, 1], 3)
                .words(0, &repeated(send(), addi(1, 1, 1)))
                .words(TABLE, &repeated(take(), r_type(function::ADD, 4, 4, 1)))
                .register(1, 10)
                .register(2, 1)
                .run(3)
                .run(3)
                .run(4)
                .run(3)
                .run(50),
        ),
        (
            "tickets in a ring",
            (0..3)
                .fold(Story::house(&[1, 1, 1], 4), |story, partition| {
                    story
                        .words(TABLE * partition, &[take(), addi(1, 1, 1), send(), nop()])
                        .words(TABLE * partition + 4, &repeated(nop(), nop()))
                        .field(fields::register(partition, 2), (partition + 1) % 3)
                })
                .run(4)
                .run(4)
                .run(4),
        ),
    ]
}

/// Both traps go on to the next instruction and leave the turn alone.
fn going_on() -> Group {
    let last = |q, words: &[u32]| {
        let story = Story::house(&[1, 1], q).words(0, words).words(TABLE, &[take()]);
        story.register(1, 7).register(2, 1).run(q).run(1)
    };
    let specials = || {
        let numbers = [SR, ESR, ECA, EPC, EDPC, EDATA, PTO, PTL];
        let story = numbers.into_iter().fold(two(), |story, number| story.special(number, 77));
        story.special(EMODE, 1).special(SR, u32::MAX).shadow(3, PAGE_0)
    };
    vec![
        ("a send at the first step", two().words(0, &[send()]).run(1)),
        ("a take at the first step", two().words(0, &[take()]).run(1)),
        ("a send as a turn of 1", last(1, &[send()])),
        ("a send at a turn's last step", last(2, &[nop(), send()])),
        ("a refused send at a turn's last step", last(2, &[addi(2, 0, 2), send()])),
        ("a take at a turn's last step", last(2, &[nop(), take()])),
        (
            "a send in a delay slot",
            two().words(0, &[j_type(opcode::J, 32), send()]).register(1, 7).run(2),
        ),
        ("PC wraps behind a send", two().words(2, &[send()]).pair(8, 0xFFFF_FFFC).run(1)),
        ("PC wraps behind a take", two().words(2, &[take()]).pair(8, 0xFFFF_FFFC).run(1)),
        (
            "tickets leave the special registers alone",
            specials().step(send(), 7, 0).step(take(), 1, 2),
        ),
        (
            "refused tickets leave the special registers alone",
            specials().step(take(), 1, 2).step(send(), 7, 2).queue(1, &tickets(32)).step(
                send(),
                7,
                1,
            ),
        ),
    ]
}

fn ordinary_traps() -> Group {
    let user = |word| {
        let story = Story::house(&[2, 1], 100).words(TABLE, &[PAGE_0]).user_mode(1, 1);
        story.queue(0, &[5, 6]).step(word, 7, 2)
    };
    // 256 and 257 with another bit, up to bit 25, and their neighbours.
    let others = [
        255, 258, 0, 0x10100, 0x10101, 0x1100, 0x100_0101, 0x200_0100, 0x200_0101, 0x3FF_FF00,
        0x3FF_FEFF,
    ];
    vec![
        ("trap 256 in user mode", user(send())),
        ("trap 257 in user mode", user(take())),
        (
            "other traps send and take nothing",
            others.iter().fold(Story::house(&[1], 100).queue(0, &[5]), |story, &imm| {
                story.step(trap(imm), 7, 0)
            }),
        ),
        ("trap 258 passes the turn", two().step(trap(258), 7, 1)),
    ]
}

fn calls() -> Group {
    let waiting = || two().queue(0, &[1, 2]).queue(1, &[0, 3]);
    vec![
        (
            "other calls leave the queues alone",
            waiting()
                .stop(0)
                .stop(1)
                .start(1)
                .start(0)
                .empty(0)
                .empty(1)
                .read(0, 0, 2, 2)
                .run(0)
                .start(2)
                .read(1, 2, 1, 1)
                .run(1_000_001),
        ),
        ("boot empties the queues", waiting().boot(&[1, 1], 100, &[1, 2]).run(1)),
        ("a refused boot empties the queues", waiting().boot(&[1, 1], 0, &[1, 2])),
        ("damage of a queue in use", {
            let third = fields::ticket(0, 2);
            two()
                .queue(0, &[1, 2])
                .field(WAITING, 1)
                .run(1)
                .field(WAITING, 2)
                .field(third, 3)
                .run(1)
                .field(WAITING, 3)
                .run(1)
                .queue(0, &tickets(32))
                .run(1)
                .field(WAITING, 31)
                .run(1)
                .field(WAITING, 33)
                .run(1)
                .field(WAITING, 32)
                .run(1)
        }),
    ]
}
