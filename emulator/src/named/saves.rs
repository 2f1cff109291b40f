//! Saving the house, and reading it back.

use super::{Story, MEMORY, PAGE_0, PAGE_1, PAGE_2, TABLE};
use crate::assemble::{addi, j_type, lw, opcode, send, sw, take};
use crate::counts::Counts;
use crate::dlx::special::{TCOUNT, TLOAD};
use crate::fields::{self, LEFT, Q};
use crate::generate::{File, Saved, Script};
use crate::housefile::{record_bytes, word_bytes, HEAD};
use crate::memory::FRAME_WORDS;
use crate::saved::{file, END, FRAME, OWN_WORDS, PARTITION, PIECE, TICKETS, TURN};
use crate::script::{Command, Player, MOST_PIECE, MOST_SAVED};

/// Words of a kind 6 body: DPC, the specials, latest fault, running flag, counter, frames.
const DPC: usize = 32;
const SPECIALS: usize = 34;
const FAULT: usize = 46;
const FLAG: usize = 47;
const COUNTER: usize = 48;
const FRAMES: usize = OWN_WORDS;

/// The records of a file.
type Records = Vec<Vec<u8>>;

fn record(kind: u16, words: &[u32]) -> Vec<u8> {
    record_bytes(kind, &word_bytes(words))
}

fn turn(q: u32, words: u32, current: u32, left: u32) -> Vec<u8> {
    record(TURN, &[q, words, current, left])
}

/// A partition in which every number is another; MODE and EMODE are 1.
fn partition(number: u32, frames: &[u32], changes: &[(usize, u32)]) -> Vec<u8> {
    let own = (0..OWN_WORDS as u32).map(|at| 1_000 * (number + 1) + at);
    let mut words: Vec<u32> = own.chain(frames.iter().copied()).collect();
    let plain = [(0, 0), (SPECIALS + 6, 1), (SPECIALS + 9, 1), (FAULT, number + 3), (FLAG, 1)];
    for &(at, value) in plain.iter().chain(changes) {
        words[at] = value;
    }
    record(PARTITION, &words)
}

fn tickets(tickets: &[u32]) -> Vec<u8> {
    record(TICKETS, tickets)
}

/// A frame whose words are all different, and other than those of any other frame.
fn frame(number: u32) -> Vec<u8> {
    let words = (0..FRAME_WORDS as u32).map(|at| (number + 1).wrapping_mul(0x0101_0000) + at);
    record(FRAME, &[number].into_iter().chain(words).collect::<Vec<_>>())
}

fn end() -> Vec<u8> {
    record(END, &[])
}

/// One partition of frame 1, two tickets, two frames: 8,464 bytes.
fn small() -> Records {
    let own = partition(0, &[1], &[]);
    vec![turn(9, 2_048, 0, 7), own, tickets(&[71, 72]), frame(0), frame(1), end()]
}

/// Words of the memory of [`small`].
const SMALL: u32 = 2_048;

/// Two partitions, the second current, the first stopped and without tickets, three frames.
fn two() -> Records {
    let first = partition(0, &[2], &[(FLAG, 0)]);
    let second = partition(1, &[1], &[]);
    let queues = [tickets(&[]), tickets(&[5, 0, 6])];
    let frames = [frame(0), frame(1), frame(2)];
    let head = vec![turn(10_000, 3_072, 1, 10_000), first, second];
    [head, queues.to_vec(), frames.to_vec(), vec![end()]].concat()
}

/// Words of the memory of [`two`].
const TWO: u32 = 3_072;

/// A file without frames; its house is damaged, since there is no memory. 252 bytes.
fn bare() -> Records {
    vec![turn(9, 0, 0, 7), partition(0, &[1], &[]), tickets(&[71, 72]), end()]
}

/// A file of one frame, which is the house's; its house is damaged, too.
fn one_frame() -> Records {
    vec![turn(9, 1_024, 0, 7), partition(0, &[1], &[]), tickets(&[71]), frame(0), end()]
}

/// A memory of so many words, each the same, so that what a reading writes is seen.
fn lent(words: u32, value: u32) -> Story {
    Story(Vec::new()).dirty(words, value)
}

impl Story {
    fn dirty(self, words: u32, value: u32) -> Self {
        self.length(words).fill(0, words, value)
    }

    fn fill(self, index: u32, count: u32, value: u32) -> Self {
        self.then(Command::Fill { index, count, value })
    }

    /// A new reading of some bytes, in as few pieces as there can be, and its end.
    fn reading(self, bytes: &[u8]) -> Self {
        self.pieces(bytes, &[]).finish()
    }

    /// A new reading, cut at these places.
    fn pieces(self, bytes: &[u8], cuts: &[usize]) -> Self {
        let mut story = self;
        let mut from = 0;
        for &to in cuts.iter().chain([&bytes.len()]) {
            loop {
                let end = to.min(from + MOST_PIECE);
                story = story.piece(from == 0, &bytes[from..end]);
                from = end;
                if from == to {
                    break;
                }
            }
        }
        story
    }

    /// The file of the house that the story has led to.
    fn file(&self) -> Vec<u8> {
        let mut player = Player::new();
        for command in &self.0 {
            player.play(command, &mut String::new(), &mut Counts::default());
        }
        file(&player.house, player.lent())
    }
}

/// All scripts about saved files.
pub fn scripts() -> Vec<Script> {
    let named = [saving(), coming_back(), sizes(), refused(), going_on()];
    let stories = named.into_iter().flatten().map(|(name, story)| (name.to_string(), story));
    let many = [cut_in_two(), single_bytes(), changed_bytes(), wrong_records(), damaged()];
    let script = |(name, story): (String, Story)| Script { name, commands: story.0 };
    stories.chain(many.into_iter().flatten()).map(script).collect()
}

type Named = Vec<(String, Story)>;

/// Two partitions with traffic of tickets, a table and shadows; the third has stopped.
fn busy() -> Story {
    let back = j_type(opcode::J, -16i32 as u32);
    Story::house(&[3, 1, 1], 4)
        .words(TABLE, &[PAGE_0, PAGE_1, PAGE_2])
        .words(0, &[lw(4, 0, 1_024), addi(4, 4, 1), sw(4, 1, 0), back, addi(5, 5, 3)])
        .register(1, 8_200)
        .user_mode(1, 3)
        .words(3 * TABLE, &[send(), addi(1, 1, 7), take(), back, addi(6, 6, 1)])
        .field(fields::register(1, 2), 1)
        .field(fields::special(1, TCOUNT), 9)
        .field(fields::special(1, TLOAD), 5)
        .queue(2, &[31, 0, 33])
        .stop(2)
        .run(29)
}

fn saving() -> Vec<(&'static str, Story)> {
    let whole = busy().file().len() as u64;
    vec![
        ("a save", busy().save(0, PIECE as u32).save(PIECE as u64, PIECE as u32)),
        (
            "a save in pieces",
            (0..4)
                .fold(busy(), |story, at| story.save(20_000 * at, 20_000))
                .save(whole - 7, 7)
                .save(whole - 7, 8)
                .save(whole - 7, 6)
                .save(whole - 1, 1),
        ),
        ("the first bytes of a save", {
            let rooms = (0..31).chain([227, 228, 229, 65_535]);
            rooms.fold(Story::house(&[1], 2), |story, room| story.save(0, room))
        }),
        ("saves from every place of a head", {
            let places = (0..40).chain(225..245);
            places.fold(Story::house(&[1], 2).length(SMALL).boot(&[1], 2, &[1]), |story, at| {
                story.save(at, 3)
            })
        }),
        (
            "saves of nothing",
            busy()
                .save(0, 0)
                .save(whole, 9)
                .save(whole + 1, 9)
                .save(1 << 32, 9)
                .save(u64::MAX, 9)
                .save(u64::MAX, 0),
        ),
        (
            "a save is a piece of 64 KiB",
            busy()
                .save(0, PIECE as u32 - 1)
                .save(0, PIECE as u32)
                .save(0, PIECE as u32 + 1)
                .save(0, MOST_SAVED as u32)
                .save(1, MOST_SAVED as u32)
                .save(PIECE as u64, MOST_SAVED as u32),
        ),
        ("a save of no house", Story::new().save(0, 9).length(0).save(0, 0)),
        (
            "saves refused",
            busy()
                .length(MEMORY - 1)
                .save(0, 9)
                .length(MEMORY + 1_024)
                .save(0, 9)
                .field(Q, 0)
                .save(0, 9)
                .length(MEMORY)
                .save(u64::MAX, 0)
                .field(Q, 4)
                .save(0, 9),
        ),
        (
            "a save leaves the reading alone",
            lent(SMALL, 7)
                .boot(&[1], 2, &[1])
                .pieces(&small().concat()[..300], &[])
                .save(0, 400)
                .piece(false, &small().concat()[300..])
                .run(3)
                .finish()
                .save(0, 400),
        ),
    ]
}

fn coming_back() -> Vec<(&'static str, Story)> {
    let bytes = busy().file();
    let restored = |story: Story, cuts: &[usize]| story.pieces(&bytes, cuts).finish();
    let full = || {
        let story = Story::house(&[2, 3, 1, 1, 1, 1, 1, 1], 10_000);
        let story = (0..8).fold(story, |story, at| {
            story
                .field(fields::scalar(at, fields::COUNTER_LOW), 0x8000_0001 + at)
                .field(fields::scalar(at, fields::COUNTER_HIGH), 0x4000_0000 + at)
                .field(fields::scalar(at, fields::LATEST_FAULT), at)
                .field(fields::register(at, 31), 400 + at)
                .queue(at, &(0..5 * at.min(6) + at / 7 * 2).collect::<Vec<_>>())
        });
        story.run(1)
    };
    let stopped = || Story::house(&[1, 1], 5).stop(0).stop(1);
    let again = |story: fn() -> Story| {
        let bytes = story().file();
        let saved = story().dirty(MEMORY, 5).reading(&bytes).save(0, PIECE as u32);
        saved.save(PIECE as u64, 2_000).run(7)
    };
    let pages =
        |story: Story| story.length(257 * 1_024).boot(&[256], 7, &(1..257).collect::<Vec<_>>());
    vec![
        ("a house comes back", restored(busy().dirty(MEMORY, 0), &[]).run(3).run(40)),
        ("a house that goes on", busy().run(3).run(40)),
        ("a house comes back over another", {
            restored(busy().run(100).boot(&[1], 3, &[9]).run(2), &[30_000, 30_001]).run(43)
        }),
        ("a house comes back twice", restored(restored(busy(), &[]).run(9), &[5]).run(43)),
        ("what was read is saved again", again(busy)),
        ("eight partitions come back", again(full)),
        ("a house in which nothing runs comes back", again(stopped)),
        ("256 pages", pages(Story::new()).run(1).save(0, 2_000).save(1_246, 20)),
        (
            "256 frames in a list, and 257",
            lent(0, 0)
                .reading(
                    &[turn(9, 0, 0, 7), partition(0, &[1; 256], &[]), tickets(&[]), end()].concat(),
                )
                .reading(
                    &[turn(9, 0, 0, 7), partition(0, &[1; 257], &[]), tickets(&[]), end()].concat(),
                ),
        ),
        (
            "32 tickets, and 33",
            lent(SMALL, 0)
                .reading(&changed(small(), 2, tickets(&(1..33).collect::<Vec<_>>())))
                .reading(&changed(small(), 2, tickets(&(1..34).collect::<Vec<_>>()))),
        ),
        (
            "two partitions, one stopped",
            lent(TWO, 9).reading(&two().concat()).run(2).start(0).run(2),
        ),
    ]
}

/// Memories of another size, lent for one piece only or for more.
fn sizes() -> Vec<(&'static str, Story)> {
    let bytes = small().concat();
    let at_turn =
        |words: u32| lent(words, 3).pieces(&bytes[..300], &[]).piece(false, &bytes[300..]).finish();
    // Another size for the piece between two places.
    let between = |from: usize, to: usize, words: u32| {
        lent(SMALL, 3)
            .pieces(&bytes[..from], &[])
            .length(words)
            .piece(false, &bytes[from..to])
            .length(SMALL)
            .piece(false, &bytes[to..])
            .finish()
    };
    vec![
        ("another size at kind 5", {
            let sizes = [0, 1, 1_024, 2_047, 2_049, 3_072];
            sizes.into_iter().fold(Story::new(), |mut story, words| {
                story.0.extend(at_turn(words).0);
                story
            })
        }),
        (
            "9 as soon as kind 5 is read",
            lent(1_024, 3)
                .pieces(&bytes[..21], &[5, 6, 20])
                .piece(false, &bytes[21..22])
                .piece(false, &bytes[22..])
                .finish(),
        ),
        ("another size before kind 5 is whole", between(7, 21, 1_024)),
        ("another size when kind 5 is whole", between(7, 22, 1_024)),
        ("another size when kind 5 was whole", between(22, 23, 1_024)),
        ("another size for a piece of no bytes", between(22, 22, 2_049)),
        ("another size in a frame", between(2_000, 5_000, 4_096)),
        ("another size for a frame's last byte", between(4_351, 4_352, 0)),
        ("another size between two frames", between(4_352, 4_352, 1_024)),
        ("another size at kind 4", between(8_458, 8_464, 2_047)),
        ("another size behind kind 4", between(8_464, 8_464, 2_047)),
        ("another size at the end of the input", {
            lent(SMALL, 3).pieces(&bytes, &[]).length(5).finish().length(SMALL).run(1)
        }),
        ("another size with a wrong record", {
            let wrong = [&bytes[..22], &end()].concat();
            lent(SMALL, 3).pieces(&wrong[..24], &[]).length(9).piece(false, &wrong[24..]).finish()
        }),
        ("another size with an extra byte", {
            lent(SMALL, 3).pieces(&bytes, &[]).length(9).piece(false, &[0]).finish()
        }),
        ("a wrong record before another size", {
            let wrong = [&bytes[..22], &end(), &[0; 9]].concat();
            lent(SMALL, 3).pieces(&wrong[..28], &[]).length(9).piece(false, &wrong[28..]).finish()
        }),
        ("another size than any memory has", {
            let file = changed(small(), 0, turn(9, u32::MAX, 0, 7));
            lent(SMALL, 3).reading(&file).length(0).reading(&file)
        }),
    ]
}

/// What stays as it is in a refused reading.
fn refused() -> Vec<(&'static str, Story)> {
    let bytes = small().concat();
    let second = changed(small(), 4, frame(0));
    vec![
        ("a reading of nothing", lent(SMALL, 3).finish().finish().run(0)),
        ("a reading of no bytes", lent(SMALL, 3).piece(true, &[]).piece(false, &[]).finish()),
        ("a reading goes on from nothing", lent(SMALL, 3).piece(false, &bytes).finish().finish()),
        ("clear begins a new reading", {
            let story = lent(SMALL, 3).piece(true, &bytes[..50]);
            story.then(Command::Clear).length(SMALL).piece(false, &bytes).finish()
        }),
        ("a new reading forgets the old one", {
            lent(SMALL, 3).piece(true, &bytes[..5_000]).piece(true, &[9; 6]).reading(&bytes)
        }),
        ("a refused reading goes on", {
            lent(SMALL, 3)
                .pieces(&bytes[..60], &[])
                .piece(false, &[0; 300])
                .piece(false, &bytes)
                .piece(false, &[])
                .finish()
                .piece(false, &bytes)
                .finish()
        }),
        ("a wrong record behind right frames", {
            lent(SMALL, 3).boot(&[1], 2, &[1]).run(1).pieces(&second, &[]).run(1).finish().run(0)
        }),
        ("a frame that is cut short", {
            let story = lent(SMALL, 3).pieces(&bytes[..8_457], &[4_351]).finish();
            story.dirty(SMALL, 4).reading(&bytes[..4_351]).reading(&bytes[..4_352])
        }),
        ("pokes between the pieces", {
            lent(SMALL, 3)
                .pieces(&bytes[..5_000], &[])
                .fill(0, 5, 77)
                .fill(1_024, 1_024, 78)
                .piece(false, &bytes[5_000..])
                .fill(2_047, 1, 79)
                .finish()
        }),
        ("a piece leaves the house alone", {
            busy().pieces(&bytes[..8], &[]).run(9).piece(false, &bytes[8..]).run(9).finish()
        }),
        ("extra bytes", {
            let with = |extra: &[u8]| [&bytes, extra].concat();
            let end = end();
            [&[0][..], &end, &end[..3], &bytes[..40]].into_iter().fold(
                lent(SMALL, 3),
                |story, extra| {
                    story.reading(&with(extra)).pieces(&bytes, &[]).piece(false, extra).finish()
                },
            )
        }),
        ("extra bytes behind a damaged house", {
            let damaged = changed(small(), 0, turn(0, SMALL, 0, 7));
            let story = lent(SMALL, 3).reading(&damaged).pieces(&damaged, &[]).piece(false, &[]);
            story.piece(false, &[5]).piece(false, &[6]).finish()
        }),
        ("a file of nothing but heads", {
            let heads = (0..9u16).map(|kind| record(kind, &[]));
            heads.fold(lent(SMALL, 3), |story, head| story.reading(&head))
        }),
    ]
}

/// A house that was read goes on in every call.
fn going_on() -> Vec<(&'static str, Story)> {
    let bytes = busy().file();
    let story = || busy().boot(&[1], 5, &[3]).reading(&bytes);
    vec![
        ("calls after a reading", {
            story().stop(0).start(2).empty(0).audit().mend().read(0, 4_096, 3, 3).run(17).start(0)
        }),
        ("a save after a reading and a run", story().run(17).save(0, 60_000).audit()),
        ("another length after a reading", story().length(MEMORY + 1).run(1).save(0, 9)),
        ("a damaged house after a reading", story().field(LEFT, 9).run(1).save(0, 9)),
    ]
}

/// A file with another record in a place.
fn changed(mut records: Records, at: usize, record: Vec<u8>) -> Vec<u8> {
    records[at] = record;
    records.concat()
}

/// Where the records begin, and the end.
fn starts(records: &Records) -> Vec<usize> {
    (0..=records.len()).map(|many| records[..many].concat().len()).collect()
}

/// Readings in two pieces: cut at every byte before the frames and around every border, and at some
/// in the frames.
fn cut_in_two() -> Named {
    let records = small();
    let (bytes, starts) = (records.concat(), starts(&records));
    let near = |at: &usize| {
        *at < starts[3] + 14 || starts.iter().any(|&start| at.abs_diff(start) < 9) || at % 359 < 2
    };
    let all: Vec<usize> = (0..=bytes.len()).filter(near).collect();
    let group = |cuts: &[usize]| {
        let story = cuts.iter().fold(lent(SMALL, 0), |story, &at| {
            let story = story.dirty(SMALL, at as u32 + 1).piece(true, &bytes[..at]);
            story.piece(false, &bytes[at..]).finish()
        });
        (format!("cut in two from byte {}", cuts[0]), story)
    };
    all.chunks(80).map(group).collect()
}

/// Whole files byte by byte.
fn single_bytes() -> Named {
    let read = |records: Records, words, alone: &dyn Fn(usize) -> bool| {
        let bytes = records.concat();
        let cuts: Vec<usize> = (1..bytes.len()).filter(|&at| alone(at)).collect();
        lent(words, 3).pieces(&bytes, &cuts).finish()
    };
    let two_starts = starts(&two());
    let around = |at: usize| {
        at < two_starts[5] + 11 || two_starts.iter().any(|&start| at.abs_diff(start) < 11)
    };
    vec![
        ("every byte alone, no frames".into(), read(bare(), 0, &|_| true)),
        ("every byte alone, one frame".into(), read(one_frame(), 1_024, &|_| true)),
        ("every byte alone but in the frames".into(), read(two(), TWO, &around).run(1)),
    ]
}

/// Each byte changed once: all before the first frame's words, those of every head and number, and
/// some in the frames.
fn changed_bytes() -> Named {
    let records = small();
    let (bytes, starts) = (records.concat(), starts(&records));
    let near = |at: &usize| {
        *at < starts[3] + HEAD + 6
            || starts.iter().any(|&start| (start..start + HEAD + 5).contains(at))
            || at.is_multiple_of(509)
    };
    let all: Vec<usize> = (0..bytes.len()).filter(near).collect();
    let group = |places: &[usize]| {
        let story = places.iter().fold(lent(SMALL, 0), |story, &at| {
            let mut other = bytes.clone();
            other[at] ^= [1, 0x80, 0xFF, 0x10, 3][at % 5];
            story.dirty(SMALL, at as u32 + 1).reading(&other)
        });
        (format!("a byte changed from {} on", places[0]), story)
    };
    all.chunks(100).map(group).collect()
}

/// Every kind of wrong record, with right ones before it and behind it.
fn wrong_records() -> Named {
    let without = |mut records: Records, at: usize| {
        records.remove(at);
        records
    };
    let with = |mut records: Records, at: usize, record: Vec<u8>| {
        records.insert(at, record);
        records
    };
    let put = |mut records: Records, at: usize, record: Vec<u8>| {
        records[at] = record;
        records
    };
    let bytes = |kind, length: usize| record_bytes(kind, &vec![0; length]);
    let parts = |count: usize, queues: usize| {
        let own = (0..count).map(|at| partition(at as u32, &[at as u32 + 1], &[]));
        let mut records = vec![turn(9, 0, 0, 7)];
        records.extend(own);
        records.extend((0..queues).map(|at| tickets(&[at as u32])));
        records.push(end());
        records
    };
    let flag = |value| partition(0, &[1], &[(FLAG, value)]);
    let numbered = |number: u32| {
        let mut other = frame(0);
        other[HEAD..HEAD + 4].copy_from_slice(&number.to_le_bytes());
        other
    };
    let headed = |mut record: Vec<u8>, at: usize, value: u8| {
        record[at] = value;
        record
    };
    let mut story = lent(SMALL, 0);
    let mut many = Vec::new();
    let mut case = |words: u32, records: Records| many.push((words, records.concat()));
    // Kind 5.
    case(SMALL, vec![]);
    for length in [0, 12, 15, 17, 20] {
        case(SMALL, put(small(), 0, bytes(TURN, length)));
    }
    for kind in [0, 1, 2, 3, 4, 6, 7, 8, 0x0105, 0x0500] {
        case(SMALL, put(small(), 0, bytes(kind, 16)));
    }
    case(SMALL, without(small(), 0));
    case(SMALL, with(small(), 1, turn(9, SMALL, 0, 7)));
    case(SMALL, with(small(), 2, turn(9, SMALL, 0, 7)));
    case(SMALL, with(small(), 5, turn(9, SMALL, 0, 7)));
    // Kind 6.
    for length in [0, 4, 196, 198, 199, 201, 202, 203, 205, 1_225, 1_228, 1_230] {
        case(SMALL, put(small(), 1, bytes(PARTITION, length)));
        case(SMALL, with(small(), 2, bytes(PARTITION, length)));
    }
    case(SMALL, put(small(), 1, bytes(PARTITION, 200)));
    case(SMALL, put(small(), 1, bytes(PARTITION, 1_224)));
    for value in [2, 3, 256, 1 << 31, u32::MAX] {
        case(SMALL, put(small(), 1, flag(value)));
        case(TWO, put(two(), 2, flag(value)));
    }
    for at in [0, 1, 2, 3, 4, 5] {
        case(SMALL, with(without(small(), 1), at, partition(0, &[1], &[])));
    }
    case(SMALL, with(small(), 3, partition(0, &[1], &[])));
    case(SMALL, with(small(), 5, partition(0, &[1], &[])));
    case(0, parts(8, 8));
    case(0, parts(9, 8));
    case(0, parts(9, 9));
    // Kind 7.
    case(0, parts(2, 0));
    case(0, parts(2, 1));
    case(0, parts(2, 3));
    case(0, parts(8, 7));
    case(0, parts(8, 9));
    for length in [1, 2, 3, 5, 127, 129, 132, 1_024] {
        case(SMALL, put(small(), 2, bytes(TICKETS, length)));
    }
    case(SMALL, put(small(), 2, bytes(TICKETS, 128)));
    case(SMALL, with(small(), 4, tickets(&[])));
    case(SMALL, with(small(), 5, tickets(&[])));
    case(SMALL, with(small(), 1, tickets(&[])));
    // Kind 3.
    case(SMALL, without(small(), 3));
    case(SMALL, without(small(), 4));
    case(SMALL, with(small(), 5, frame(2)));
    case(SMALL, with(small(), 5, frame(1)));
    case(SMALL, with(small(), 1, frame(0)));
    case(SMALL, with(small(), 2, frame(0)));
    for number in [1, 2, 256, 1 << 16, 1 << 24, u32::MAX] {
        case(SMALL, put(small(), 3, numbered(number)));
    }
    for number in [0, 2, 257, u32::MAX] {
        case(SMALL, put(small(), 4, numbered(number)));
    }
    for length in [0, 4, 4_096, 4_099, 4_101, 4_104] {
        case(SMALL, put(small(), 4, bytes(FRAME, length)));
    }
    case(0, vec![turn(9, 0, 0, 7), partition(0, &[1], &[]), tickets(&[]), frame(0), end()]);
    case(1_023, vec![turn(9, 1_023, 0, 7), partition(0, &[1], &[]), tickets(&[]), frame(0), end()]);
    // Kind 4.
    for at in [0, 1, 2, 3, 4] {
        case(SMALL, with(small(), at, end()));
    }
    case(SMALL, without(small(), 5));
    for length in [1, 2, 4, 16] {
        case(SMALL, put(small(), 5, bytes(END, length)));
    }
    for kind in [0, 3, 5, 6, 7, 0x0104, 0x0400] {
        case(SMALL, put(small(), 5, bytes(kind, 0)));
    }
    // Lengths and kinds in which one byte alone is wrong.
    for at in 0..small().len() {
        for byte in 0..HEAD {
            let right = small()[at][byte];
            case(SMALL, put(small(), at, headed(small()[at].clone(), byte, right ^ 0x40)));
        }
    }
    let mut groups = Vec::new();
    for (at, (words, bytes)) in many.iter().enumerate() {
        story = story.dirty(*words, at as u32 + 1).reading(bytes);
        if at % 60 == 59 || at + 1 == many.len() {
            groups.push((format!("wrong records up to number {at}"), story));
            story = lent(SMALL, 0);
        }
    }
    groups
}

/// Files whose records are all right and whose house is damaged, and some just inside the limits.
fn damaged() -> Named {
    let own = |changes: &[(usize, u32)]| changed(small(), 1, partition(0, &[1], changes));
    let of_list = |frames: &[u32]| changed(small(), 1, partition(0, frames, &[]));
    let turn_of = |q, current, left| changed(small(), 0, turn(q, SMALL, current, left));
    let of_two = |at: usize, record: Vec<u8>| changed(two(), at, record);
    let small_files = [
        own(&[]),
        own(&[(0, 1)]),
        own(&[(0, 1 << 31)]),
        own(&[(SPECIALS + 6, 2)]),
        own(&[(SPECIALS + 6, 0)]),
        own(&[(SPECIALS + 9, 2)]),
        own(&[(SPECIALS + 9, u32::MAX)]),
        own(&[(FAULT, 7)]),
        own(&[(FAULT, 8)]),
        own(&[(FAULT, u32::MAX)]),
        own(&[(FLAG, 0)]),
        own(&[(COUNTER, u32::MAX), (COUNTER + 1, u32::MAX)]),
        own(&[(FRAMES, 0)]),
        own(&[(FRAMES, 2)]),
        own(&[(FRAMES, u32::MAX)]),
        own(&[(DPC, 3), (DPC + 1, u32::MAX)]),
        of_list(&[]),
        of_list(&[1, 1]),
        of_list(&[1, 0]),
        turn_of(0, 0, 7),
        turn_of(10_001, 0, 7),
        turn_of(10_000, 0, 7),
        turn_of(7, 0, 7),
        turn_of(6, 0, 7),
        turn_of(9, 0, 0),
        turn_of(9, 1, 7),
        turn_of(9, 1, 0),
        turn_of(9, u32::MAX, 7),
    ];
    let two_files = [
        of_two(1, partition(0, &[1], &[(FLAG, 0)])),
        of_two(2, partition(1, &[1], &[(FLAG, 0)])),
        of_two(2, partition(1, &[1], &[(0, 5)])),
        of_two(2, partition(1, &[0], &[])),
        of_two(0, turn(10_000, TWO, 0, 9)),
        of_two(0, turn(10_000, TWO, 2, 9)),
        of_two(1, partition(0, &[2], &[])),
        of_two(1, partition(0, &[2], &[(FAULT, 9)])),
        {
            let mut records = two();
            records[0] = turn(10_000, TWO, 0, 0);
            records[2] = partition(1, &[1], &[(FLAG, 0)]);
            records.concat()
        },
    ];
    let sized = |words: u32| {
        let mut records = small();
        records[0] = turn(9, words, 0, 7);
        if words / 1_024 == 3 {
            records.insert(5, frame(2));
        }
        (words, records.concat())
    };
    let sizes = [2_049, 3_071, 3_072, 3_073].map(sized);
    let files = small_files.map(|file| (SMALL, file)).into_iter();
    let files = files.chain(two_files.map(|file| (TWO, file))).chain(sizes);
    let bare = [(0, bare().concat()), (1_024, one_frame().concat())];
    let story = (1..)
        .zip(files.chain(bare))
        .fold(lent(SMALL, 0), |story, (at, (words, file))| story.dirty(words, at).reading(&file));
    vec![("damage that a file can carry".into(), story)]
}

/// All named saved files, and the steps that they go on.
pub fn files() -> Vec<Saved> {
    let (small, two, busy) = (small().concat(), two().concat(), busy().file());
    let stopped = Story::house(&[1, 1], 5).stop(0).stop(1).file();
    let words = |frames: u32| turn(9, frames * FRAME_WORDS as u32, 0, 7);
    let large = |frames: u32| {
        let head = [words(frames), partition(0, &[frames - 1, 1], &[]), tickets(&[9])];
        [head.concat(), (0..frames).flat_map(frame).collect(), end()].concat()
    };
    let house_file = super::files().swap_remove(0).bytes;
    let files = [
        ("one partition", small.clone(), 0),
        ("one partition", small.clone(), 1),
        ("two partitions", two.clone(), 20_001),
        ("a busy house", busy.clone(), 999),
        ("a busy house, for more than two runs", busy.clone(), 2_500_003),
        ("a busy house, for one run", busy.clone(), 1_000_000),
        ("a busy house, for one step more", busy, 1_000_001),
        ("nothing runs", stopped.clone(), 0),
        ("nothing runs", stopped.clone(), 1),
        ("nothing runs", stopped, 1_000_001),
        ("1,024 frames", large(1_024), 5),
        ("1,025 frames", large(1_025), 5),
        ("a size that no memory has", changed(self::small(), 0, words(4_194_303)), 0),
        ("another size than there are frames", changed(self::small(), 0, words(3)), 0),
        ("no bytes", Vec::new(), 0),
        ("cut in the first head", small[..5].to_vec(), 0),
        ("cut in the first record", small[..21].to_vec(), 0),
        ("cut behind the first record", small[..22].to_vec(), 0),
        ("an extra byte", [&small[..], &[0]].concat(), 0),
        ("frame 0", changed(self::small(), 1, partition(0, &[0], &[])), 3),
        ("a running flag of 2", changed(self::small(), 1, partition(0, &[1], &[(FLAG, 2)])), 3),
        ("a house file", house_file, 3),
        ("a first kind of 261", [&small[..5], &[1], &small[6..]].concat(), 1),
    ];
    let saved = |(name, bytes, steps): (&str, Vec<u8>, u64)| Saved {
        file: File { name: name.into(), bytes },
        steps,
    };
    files.into_iter().map(saved).collect()
}
