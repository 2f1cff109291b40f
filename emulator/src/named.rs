//! Scripts and house files with a name: the examples of 01, and what follows from the rules and is
//! easy to miss.

mod audits;
mod bytes;
mod engines;
mod far_pages;
mod faults;
mod house_frame;
mod listings;
mod pairs;
mod saves;
mod tickets;
mod timers;

pub use listings::texts;
pub use saves::files as saved_files;

use crate::assemble::{
    addi, function, i_type, j_type, jr, lhu, lw, movi2s, movs2i, nop, opcode, r_type, rfe, sb,
    send, sw, take, trap,
};
use crate::dlx::special::{self, EDPC, EMODE, EPC, ESR, MODE, PTL, PTO, SR, TCOUNT, TLOAD};
use crate::fields::{self, CURRENT, LEFT, Q, RUNNING, WAITING, WORDS};
use crate::generate::{File, Script};
use crate::housefile::{record_bytes, word_bytes, PIECE};
use crate::memory::{shadow_entry, FRAME_WORDS, PROTECTED, VALID};
use crate::script::{Command, MOST_WORDS};

/// Words of the lent memory in these scripts: 16 frames.
const MEMORY: u32 = 16 * FRAME_WORDS as u32;
/// Place of guest page 1 of partition 0, where these scripts have the table.
const TABLE: u32 = FRAME_WORDS as u32;
/// A valid entry for guest page 0.
const PAGE_0: u32 = VALID;
/// A valid entry for guest page 1.
const PAGE_1: u32 = 1 << 12 | VALID;
/// A valid entry for guest page 2.
const PAGE_2: u32 = 2 << 12 | VALID;

/// A script as it grows. Partition 0 has frames 1, 2, 3 and so on, so that its guest memory stands
/// right behind frame 0, which is the house's; the other partitions' frames follow.
struct Story(Vec<Command>);

impl Story {
    fn new() -> Self {
        Story(vec![Command::Length { words: MEMORY }])
    }

    /// A booted house with the given page counts.
    fn house(pages: &[u32], q: u32) -> Self {
        let used: u32 = pages.iter().sum();
        Story::new().boot(pages, q, &(1..=used).collect::<Vec<u32>>())
    }

    /// A house of one partition in user mode, with these entries in its table.
    fn user(pages: u32, ptl: u32, entries: &[(u32, u32)]) -> Self {
        let story = Story::house(&[pages], 10).user_mode(1, ptl);
        entries.iter().fold(story, |story, &(px, entry)| story.words(TABLE + px, &[entry]))
    }

    fn then(mut self, command: Command) -> Self {
        self.0.push(command);
        self
    }

    fn boot(self, pages: &[u32], q: u32, frames: &[u32]) -> Self {
        self.then(Command::Boot { pages: pages.to_vec(), q, frames: frames.to_vec() })
    }

    fn length(self, words: u32) -> Self {
        self.then(Command::Length { words })
    }

    /// Words of partition 0's guest memory, and of the other partitions' behind it.
    fn words(self, place: u32, words: &[u32]) -> Self {
        self.frame_words(1, place, words)
    }

    /// Words from a place of a frame on.
    fn frame_words(self, frame: u32, place: u32, words: &[u32]) -> Self {
        let first = frame * FRAME_WORDS as u32 + place;
        let pokes = (first..).zip(words);
        pokes.fold(self, |story, (index, &value)| story.then(Command::Poke { index, value }))
    }

    fn field(self, index: u32, value: u32) -> Self {
        self.then(Command::Field { index, value })
    }

    fn special(self, number: usize, value: u32) -> Self {
        self.field(fields::special(0, number), value)
    }

    fn register(self, number: u32, value: u32) -> Self {
        self.field(fields::register(0, number), value)
    }

    /// Shadow `px` as an entry of partition 0's table would fill it.
    fn shadow(self, px: u32, entry: u32) -> Self {
        let frame = 1 + (entry >> 12);
        self.field(fields::shadow(0, px), shadow_entry(frame, entry))
    }

    /// Tickets wait for a partition.
    fn queue(self, partition: u32, tickets: &[u32]) -> Self {
        let story = self.field(WAITING + partition, tickets.len() as u32);
        (0..).zip(tickets).fold(story, |story, (place, &ticket)| {
            story.field(fields::ticket(partition, place), ticket)
        })
    }

    /// Partition 0's timer.
    fn timer(self, count: u32, load: u32) -> Self {
        self.special(TCOUNT, count).special(TLOAD, load)
    }

    fn pair(self, dpc: u32, pc: u32) -> Self {
        self.field(fields::scalar(0, fields::DPC), dpc).field(fields::scalar(0, fields::PC), pc)
    }

    /// Begins at an address.
    fn at(self, address: u32) -> Self {
        self.pair(address, address + 4)
    }

    fn user_mode(self, pto: u32, ptl: u32) -> Self {
        self.special(MODE, 1).special(PTO, pto).special(PTL, ptl)
    }

    fn run(self, steps: u32) -> Self {
        self.then(Command::Run { steps })
    }

    /// A run by the engine without shadows.
    fn unshadowed(self, steps: u32) -> Self {
        self.then(Command::Unshadowed { steps })
    }

    fn start(self, partition: u32) -> Self {
        self.then(Command::Start { partition })
    }

    fn stop(self, partition: u32) -> Self {
        self.then(Command::Stop { partition })
    }

    fn empty(self, partition: u32) -> Self {
        self.then(Command::Empty { partition })
    }

    fn audit(self) -> Self {
        self.then(Command::Audit)
    }

    fn mend(self) -> Self {
        self.then(Command::Mend)
    }

    fn save(self, offset: u64, output: u32) -> Self {
        self.then(Command::Save { offset, output })
    }

    /// A piece of a saved file; the first one begins a new reading.
    fn piece(self, new: bool, bytes: &[u8]) -> Self {
        self.then(Command::Piece { bytes: bytes.to_vec(), new })
    }

    fn finish(self) -> Self {
        self.then(Command::Finish)
    }

    fn read(self, partition: u32, address: u32, count: u64, output: u32) -> Self {
        self.then(Command::Read { partition, address, count, output })
    }

    /// One step of the word at address 8, with register 1 and 2 given.
    fn step(self, word: u32, one: u32, two: u32) -> Self {
        self.words(2, &[word]).register(1, one).register(2, two).at(8).run(1)
    }
}

/// All named scripts.
pub fn scripts() -> Vec<Script> {
    let groups = [
        instructions(),
        bytes::group(),
        interrupts(),
        pairs::group(),
        translation(),
        shadows(),
        far_pages::group(),
        faults::group(),
        turns(),
        tickets::group(),
        timers::group(),
        calls(),
        house_frame::group(),
        audits::group(),
        engines::group(),
    ];
    let named = |(name, story): (&str, Story)| Script { name: name.into(), commands: story.0 };
    let scripts: Vec<Script> = groups.into_iter().flatten().map(named).collect();
    let unshadowed = engines::unshadowed(&scripts);
    [scripts, unshadowed, saves::scripts()].concat()
}

type Group = Vec<(&'static str, Story)>;

fn instructions() -> Group {
    let first = || Story::house(&[1], 2).words(0, &[0x2001_0005, 0xAC01_0008]);
    let add = |sr| {
        let story = Story::house(&[1], 5).words(0, &[0x0022_1820]).special(SR, sr);
        story.register(1, 0x7FFF_FFFF).register(2, 1).run(1)
    };
    vec![
        ("addi", first().run(1)),
        ("sw after addi", first().run(1).run(1)),
        ("third step ill", first().run(3)),
        ("add masked", add(0)),
        ("add unmasked", add(64)),
        ("branch back", Story::house(&[1], 5).words(2, &[0x1000_FFFC]).at(8).run(1)),
        ("sls", Story::house(&[1], 5).step(r_type(function::SLS, 3, 1, 2), 0x8000_0000, 1)),
        ("ill words", ill_words()),
        ("immediates extend from bit 15", extended_immediates()),
        ("bnez of 2", Story::house(&[1], 5).step(i_type(opcode::BNEZ, 0, 1, 16), 2, 0)),
        (
            "long immediates extend from bit 25",
            Story::house(&[15], 5).step(j_type(opcode::J, 0x8000), 0, 0).step(
                j_type(opcode::JAL, -8i32 as u32),
                0,
                0,
            ),
        ),
        (
            "movi2s reads RS1",
            Story::house(&[1], 5).step(movi2s(ESR, 1) | 2 << 11 | 2 << 16, 11, 22),
        ),
        (
            "jalr through register 31",
            Story::house(&[1], 5).register(31, 64).step(i_type(opcode::JALR, 0, 31, 0), 0, 0),
        ),
        (
            "misaligned jump shows at DPC",
            Story::house(&[1], 5)
                .words(0, &[jr(1), nop(), nop()])
                .register(1, 6)
                .run(1)
                .run(1)
                .run(1),
        ),
        (
            "unused fields are ignored",
            Story::house(&[1], 5)
                .step(r_type(function::ADD, 3, 1, 2) | 31 << 6, 4, 5)
                .step(i_type(opcode::BEQZ, 31, 0, 8), 0, 0)
                .step(rfe() | 0x03FF_FFFF, 0, 0),
        ),
        ("specials take their values", written_specials()),
    ]
}

fn ill_words() -> Story {
    let words = [
        0,
        i_type(9, 1, 1, 1),
        i_type(11, 1, 1, 1),
        i_type(1, 0, 0, 0),
        i_type(34, 1, 1, 4),
        i_type(38, 1, 1, 4),
        i_type(39, 1, 1, 4),
        i_type(42, 1, 1, 4),
        i_type(44, 1, 1, 4),
        i_type(45, 1, 1, 4),
        r_type(33, 1, 1, 1),
        r_type(35, 1, 1, 1),
        r_type(39, 1, 1, 1),
        movs2i(1, special::COUNT),
        movi2s(special::COUNT, 1),
        movs2i(1, 31),
        movi2s(31, 1),
    ];
    words.iter().fold(Story::house(&[1], 5), |story, &word| story.step(word, 3, 4))
}

fn extended_immediates() -> Story {
    let with = |op| i_type(op, 3, 1, 0x8000);
    [opcode::ANDI, opcode::ORI, opcode::XORI, opcode::LHGI, opcode::SGR]
        .into_iter()
        .fold(Story::house(&[1], 5), |story, op| story.step(with(op), 0xFFFF_0001, 0))
}

/// Each special register but MODE written and read back.
fn written_specials() -> Story {
    let numbers = (0..special::COUNT).filter(|&number| number != MODE);
    numbers.fold(Story::house(&[1], 5), |story, number| {
        story.step(movi2s(number, 1), 0xFFFF_FFF7, 0).step(movs2i(2, number), 0, 0)
    })
}

fn interrupts() -> Group {
    let two = |word| Story::house(&[1, 1], 5).words(0, &[word]).run(1);
    let user = |word| Story::user(2, 1, &[(0, PAGE_0)]).words(0, &[word]).run(1);
    vec![
        ("trap in system mode", two(trap(7))),
        ("trap in user mode", trap_in_user_mode()),
        ("trap of all ones", two(0xFBFF_FFFF)),
        ("rfe in user mode", user(rfe())),
        ("movs2i in user mode", user(movs2i(1, SR))),
        ("misaligned DPC before ill", Story::house(&[1], 5).words(0, &[0]).pair(2, 6).run(1)),
        (
            "masked overflow leaves ECA alone",
            Story::house(&[1], 5).step(0, 0, 0).step(addi(3, 1, 1), 0x7FFF_FFFF, 0),
        ),
        (
            "overflow into register 0",
            Story::house(&[1], 5).special(SR, 64).step(addi(0, 1, 1), 0x7FFF_FFFF, 0),
        ),
        ("EPC wraps", Story::house(&[1], 5).words(2, &[trap(1)]).pair(8, 0xFFFF_FFFC).run(1)),
        ("PC wraps", Story::house(&[1], 5).words(2, &[nop()]).pair(8, 0xFFFF_FFFC).run(1)),
        (
            "rfe has no delay slot",
            Story::house(&[2], 5)
                .special(EPC, 104)
                .special(EDPC, 200)
                .special(ESR, 64)
                .special(EMODE, 1)
                .step(rfe(), 0, 0),
        ),
        (
            "movi2s to MODE: the next fetch is translated",
            Story::house(&[3], 10)
                .words(TABLE, &[PAGE_2])
                .words(2 * TABLE + 3, &[addi(1, 0, 9)])
                .special(PTO, 1)
                .special(PTL, 1)
                .step(movi2s(MODE, 1), 3, 0)
                .run(1),
        ),
        (
            "address at the end",
            Story::house(&[2], 5).step(lw(1, 1, 0), 8_188, 0).step(lw(1, 1, 0), 8_192, 0).step(
                sw(1, 1, 1),
                8_192,
                0,
            ),
        ),
        (
            "fetch at the end",
            Story::house(&[2], 5).words(2_047, &[nop()]).pair(8_188, 8_192).run(2),
        ),
    ]
}

/// A trap in user mode does not pass the turn.
fn trap_in_user_mode() -> Story {
    Story::house(&[2, 1], 5).words(TABLE, &[PAGE_0]).words(0, &[trap(7)]).user_mode(1, 1).run(1)
}

/// A load and a store through page 0, whose entry is given; the code stands in page 1.
fn through_entry(pages: u32, entry: u32, word: u32) -> Story {
    Story::user(pages, 2, &[(0, entry), (1, PAGE_0)])
        .words(3 * TABLE + 2, &[77])
        .words(0, &[word])
        .register(2, 88)
        .at(4_096)
        .run(1)
}

fn translation() -> Group {
    let (load, store) = (lw(1, 0, 8), sw(2, 0, 8));
    // What would be entry 1,024 stands behind the table, in the first word of page 2.
    let far = |px: u32, word| {
        Story::user(3, 2_000, &[(0, PAGE_0), (1_023, PAGE_2), (1_024, PAGE_2)])
            .words(0, &[word])
            .register(1, 4_096 * px)
            .run(1)
    };
    let far_fetch = |px: u32| {
        Story::user(3, 2_000, &[(1_023, PAGE_2), (1_024, PAGE_2)])
            .words(2 * TABLE + 1, &[addi(1, 0, 7)])
            .at(4_096 * px + 4)
            .run(1)
    };
    vec![
        ("entry 0x00003800, 4 pages, load", through_entry(4, 0x3800, load)),
        ("entry 0x00003800, 4 pages, store", through_entry(4, 0x3800, store)),
        ("entry 0x00003C00, 4 pages, load", through_entry(4, 0x3C00, load)),
        ("entry 0x00003C00, 4 pages, store", through_entry(4, 0x3C00, store)),
        ("entry 0x00003800, 3 pages, load", through_entry(3, 0x3800, load)),
        ("entry 0x00003C00, 3 pages, load", through_entry(3, 0x3C00, load)),
        ("entry 0x00003C00, 3 pages, store", through_entry(3, 0x3C00, store)),
        ("px 1,023, load", far(1_023, lw(2, 1, 0))),
        ("px 1,023, store", far(1_023, sw(1, 1, 4))),
        ("px 1,024, load", far(1_024, lw(2, 1, 0))),
        ("px 1,024, store", far(1_024, sw(1, 1, 4))),
        ("px 1,023, fetch", far_fetch(1_023)),
        ("px 1,024, fetch", far_fetch(1_024)),
        ("px at PTL", Story::user(3, 1, &[(0, PAGE_0), (1, PAGE_2)]).step(lw(1, 1, 0), 4_096, 0)),
        (
            "the table's address does not wrap",
            Story::house(&[3], 5).words(0, &[PAGE_0]).user_mode(0x10_0000, 1).run(1),
        ),
        (
            "table outside the pages",
            Story::house(&[3], 5).words(3 * TABLE, &[PAGE_0]).user_mode(3, 1).run(1),
        ),
    ]
}

fn shadows() -> Group {
    // Page 0 is the code, page 1 reaches the table, page 2 is data.
    let map = [(0, PAGE_0), (1, PAGE_1), (2, PAGE_2)];
    let mapped = |ptl| Story::user(3, ptl, &map);
    vec![
        ("misaligned data does not fill", mapped(3).step(lw(1, 1, 2), 8_192, 0)),
        ("the fetch's fill survives ill", mapped(3).step(0, 0, 0)),
        (
            "a store to a protected page faults and fills",
            mapped(3).words(TABLE + 2, &[PAGE_2 | PROTECTED]).step(sw(1, 1, 0), 8_192, 0),
        ),
        (
            "a load into register 0 faults and fills",
            mapped(3).step(lw(0, 1, 0), 8_192, 0).user_mode(1, 3).step(lw(0, 1, 0), 12_288, 0),
        ),
        ("a hit beyond PTL", mapped(1).shadow(2, PAGE_2).step(sw(2, 1, 0), 8_192, 5)),
        ("a hit on another frame", mapped(3).shadow(2, PAGE_0).step(sw(2, 1, 128), 8_192, 5)),
        (
            "a hit with another protection",
            mapped(3).shadow(2, PAGE_2 | PROTECTED).step(sw(2, 1, 0), 8_192, 5),
        ),
        (
            "a store into the table through a wrong shadow",
            mapped(3).shadow(2, PAGE_1).shadow(1, PAGE_2).step(sw(2, 1, 4), 8_192, PAGE_1),
        ),
        (
            "a store of an equal value empties",
            mapped(3).shadow(2, PAGE_2).step(sw(2, 1, 8), 4_096, PAGE_2),
        ),
        (
            "a store in system mode empties",
            mapped(3).special(MODE, 0).shadow(2, PAGE_2).step(sw(2, 1, 8), 4_096, PAGE_2),
        ),
        (
            "a store beyond PTL empties nothing",
            mapped(2).shadow(2, PAGE_2).step(sw(2, 1, 8), 4_096, PAGE_2),
        ),
        (
            "a store beyond entry 1,023 empties nothing",
            mapped(2_000).shadow(1_023, PAGE_2).shadow(0, PAGE_0).step(sw(2, 1, 0), 8_192, 0),
        ),
        (
            "a store that faults empties nothing",
            mapped(3).words(TABLE + 1, &[PAGE_1 | PROTECTED]).shadow(2, PAGE_2).step(
                sw(2, 1, 8),
                4_096,
                PAGE_2,
            ),
        ),
        ("fill and emptying in one step", mapped(3).step(sw(2, 1, 4), 4_096, PAGE_1)),
        ("a store empties the fetch's own page", mapped(3).step(sw(2, 1, 0), 4_096, PAGE_0)),
        (
            "PTO of the same value empties all",
            mapped(3).special(MODE, 0).shadow(0, PAGE_0).shadow(1_023, PAGE_2).step(
                movi2s(PTO, 1),
                1,
                0,
            ),
        ),
        (
            "PTL of the same value empties all",
            mapped(3).special(MODE, 0).shadow(0, PAGE_0).shadow(1_023, PAGE_2).step(
                movi2s(PTL, 1),
                3,
                0,
            ),
        ),
        (
            "turns, rfe and interrupts empty nothing",
            Story::house(&[3, 1], 1)
                .words(TABLE, &[PAGE_0])
                .user_mode(1, 1)
                .words(0, &[rfe(), nop(), trap(1)])
                .at(8)
                .run(4),
        ),
        ("the call empties all", mapped(3).step(lw(1, 1, 0), 8_192, 0).empty(0).empty(1)),
    ]
}

fn turns() -> Group {
    let three = |q| {
        let story = Story::house(&[1, 1, 1], q);
        (0..3).fold(story, |story, page| story.words(TABLE * page, &[nop(); 20]))
    };
    vec![
        ("turns of 3 steps", three(3).run(1).run(2).run(3).run(3).run(7)),
        ("a turn skips a stopped partition", three(2).stop(1).run(2).run(2)),
        ("a trap alone", Story::house(&[1], 5).words(0, &[nop(), trap(1)]).run(2)),
        ("a trap at the last step passes the turn once", three(2).words(1, &[trap(1)]).run(2)),
        ("stop the current", three(5).run(2).stop(0).run(1).stop(1).stop(2).run(0).run(1)),
        ("stop another", three(5).run(2).stop(1).stop(1).run(1)),
        ("start", three(5).run(2).stop(0).stop(1).stop(2).start(1).start(1).start(0).run(6)),
        (
            "the counter wraps",
            three(5)
                .field(fields::scalar(0, fields::COUNTER_LOW), u32::MAX)
                .field(fields::scalar(0, fields::COUNTER_HIGH), u32::MAX)
                .run(1),
        ),
        (
            "run of 1,000,000 steps",
            Story::house(&[1], 10_000)
                .words(0, &[addi(1, 1, 1), j_type(opcode::J, -8i32 as u32), sw(1, 0, 256)])
                .run(1_000_000),
        ),
        ("run of 1,000,001 steps", three(5).run(1_000_001)),
        (
            "long run with nothing running",
            three(5).stop(0).stop(1).stop(2).run(1_000_001).run(1_000_000).run(0),
        ),
    ]
}

fn calls() -> Group {
    let ones = |count: usize| vec![1; count];
    let frames = |count: u32| (1..=count).collect::<Vec<u32>>();
    vec![
        ("8 partitions", Story::new().boot(&ones(8), 1, &frames(8)).run(16)),
        ("9 partitions", Story::new().boot(&ones(9), 1, &frames(9))),
        ("no partitions", Story::new().boot(&[], 1, &[]).run(0).start(0)),
        ("256 pages", Story::new().length(MOST_WORDS as u32).boot(&[256], 1, &frames(256)).run(3)),
        ("257 pages", Story::new().length(MOST_WORDS as u32).boot(&[1, 257, 0], 1, &frames(258))),
        ("0 pages", Story::new().boot(&[1, 1, 0], 1, &frames(2))),
        ("turn lengths", {
            let boot = |story: Story, q| story.boot(&[1], q, &[1]);
            [0, 1, 10_000, 10_001].into_iter().fold(Story::new(), boot)
        }),
        ("memory lengths", {
            let boot = |story: Story, words| story.length(words).boot(&[1], 1, &[1]);
            [0, 1_023, 1_025, 2_047, 2_048, 2_049, 65_535, 65_536]
                .into_iter()
                .fold(Story::new(), boot)
        }),
        ("list lengths", Story::new().boot(&[2, 1], 1, &frames(2)).boot(&[2, 1], 1, &frames(4))),
        ("frame twice", Story::new().boot(&[2, 2], 1, &[3, 5, 5, 3])),
        ("frame too large after a frame twice", Story::new().boot(&[2, 2], 1, &[3, 3, 5, 16])),
        (
            "order of boot's refusals",
            Story::new()
                .length(5)
                .boot(&[0; 9], 0, &[99])
                .boot(&[1, 0, 257], 0, &[99])
                .boot(&[1], 0, &[99])
                .boot(&[1], 1, &[99])
                .length(MEMORY)
                .boot(&[1], 1, &[99, 99])
                .boot(&[2], 1, &[99, 99])
                .boot(&[2], 1, &[0, 0])
                .boot(&[2], 1, &[9, 9]),
        ),
        (
            "another memory length",
            Story::house(&[1, 1], 5)
                .length(MEMORY - 1_024)
                .run(1)
                .run(1_000_001)
                .read(5, 2, 1, 0)
                .start(0)
                .stop(0)
                .empty(0)
                .length(MEMORY)
                .run(1),
        ),
        (
            "no such partition",
            Story::house(&[1, 1], 5).start(2).stop(2).empty(u32::MAX).read(2, 2, 1, 0),
        ),
        ("read-out", read_outs()),
        ("damage", damages()),
        (
            "damage comes first",
            Story::house(&[1, 1], 5)
                .field(Q, 0)
                .length(0)
                .run(1_000_001)
                .start(9)
                .stop(9)
                .empty(9)
                .read(9, 1, 9, 0),
        ),
    ]
}

fn read_outs() -> Story {
    Story::new()
        .boot(&[2, 3], 5, &[4, 2, 7, 3, 1])
        .frame_words(4, 1_022, &[10, 11])
        .frame_words(2, 0, &[12, 13])
        .read(0, 4_088, 4, 5)
        .read(0, 0, 2_048, 4_096)
        .read(0, 8_192, 0, 0)
        .read(0, 8_192, 0, 3)
        .read(0, 8_194, 0, 3)
        .read(0, 2, 0, 3)
        .read(0, 8_188, 2, 3)
        .read(0, 8_188, 1, 0)
        .read(0, 0, 4, 3)
        .read(0, 8_196, 0, 3)
        .read(0, 4, u64::MAX, 3)
        .read(0, 0, 1 << 62, 3)
        .read(0, 4, u64::MAX / 4 + 1, 3)
        .read(1, 12_284, 1, 1)
}

/// One damage after another, each put right again; the last ones are none. Partition 0 has frames 1
/// and 2, partition 1 frame 3.
fn damages() -> Story {
    let damaged = [
        (fields::COUNT, 0, 2),
        (fields::COUNT, 9, 2),
        (fields::COUNT, 3, 2),
        (Q, 10_001, 5),
        (WORDS, 0, MEMORY),
        (WORDS, MEMORY + 1, MEMORY),
        (WORDS, 1_025 * 1_024, MEMORY),
        (CURRENT, 1, 0),
        (CURRENT, 2, 0),
        (LEFT, 0, 5),
        (LEFT, 6, 5),
        (RUNNING, 0, 1),
        (RUNNING + 2, 1, 0),
        (fields::scalar(0, fields::PAGES), 1, 2),
        (fields::scalar(0, fields::PAGES), 0, 2),
        (fields::scalar(0, fields::PAGES), 257, 2),
        (fields::register(1, 0), 1, 0),
        (fields::special(0, MODE), 2, 0),
        (fields::special(1, EMODE), 2, 0),
        (fields::frame(0, 1), 16, 2),
        (fields::frame(0, 1), 3, 2),
        (fields::frame(0, 2), 5, 0),
        (fields::shadow(0, 9), shadow_entry(3, 0), 0),
        (fields::shadow(0, 9), shadow_entry(0, 0), 0),
        (fields::shadow(0, 9), shadow_entry(2, 0) & !VALID, 0),
        (fields::shadow(0, 9), PROTECTED, 0),
        (fields::shadow(0, 9), shadow_entry(2, 0) | 1, 0),
        (fields::register(7, 5), 1, 0),
        (fields::scalar(2, fields::COUNTER_HIGH), 1, 0),
        (fields::frame(7, 255), 1, 0),
        (fields::shadow(0, 255), shadow_entry(3, 0), 0),
        (fields::shadow(0, 256), shadow_entry(3, 0), 0),
        (fields::shadow(0, 1_023), shadow_entry(3, 0), 0),
        (fields::shadow(1, 0), shadow_entry(2, 0), 0),
        (fields::shadow(1, 1_023), PROTECTED, 0),
        (fields::shadow(2, 0), shadow_entry(1, 0), 0),
        (fields::shadow(7, 255), shadow_entry(1, 0), 0),
        (fields::shadow(7, 1_023), shadow_entry(1, 0), 0),
        (fields::scalar(0, fields::LATEST_FAULT), 8, 0),
        (fields::scalar(1, fields::LATEST_FAULT), u32::MAX, 0),
        (fields::scalar(2, fields::LATEST_FAULT), 1, 0),
        (fields::scalar(7, fields::LATEST_FAULT), 7, 0),
        (fields::special(2, TCOUNT), 1, 0),
        (fields::special(2, TLOAD), 1, 0),
        (fields::special(7, TCOUNT), u32::MAX, 0),
        (fields::special(7, TLOAD), 1 << 31, 0),
        (WAITING, 33, 0),
        (WAITING + 1, u32::MAX, 0),
        (fields::ticket(0, 0), 1, 0),
        (fields::ticket(1, 31), 1, 0),
        (WAITING + 2, 1, 0),
        (WAITING + 7, 33, 0),
        (fields::ticket(2, 0), 1, 0),
        (fields::ticket(7, 31), 1, 0),
    ];
    let story = damaged.into_iter().fold(two_with_one_stopped(), |story, (index, value, old)| {
        story.field(index, value).run(0).field(index, old)
    });
    story
        .run(0)
        .field(fields::shadow(0, 9), shadow_entry(2, PROTECTED))
        .field(fields::shadow(0, 1_023), shadow_entry(1, 0))
        .field(fields::scalar(1, fields::LATEST_FAULT), 7)
        .field(fields::special(0, TCOUNT), u32::MAX)
        .field(fields::special(1, TLOAD), u32::MAX)
        .field(fields::special(0, PTO), u32::MAX)
        .field(fields::special(0, MODE), 1)
        .field(Q, 10_000)
        .field(WAITING + 1, 32)
        .field(fields::ticket(1, 31), 1)
        .run(0)
}

fn two_with_one_stopped() -> Story {
    Story::house(&[2, 1], 5).stop(1)
}

/// A kind 1 record.
fn turn(q: u32, steps: u32) -> Vec<u8> {
    record_bytes(1, &word_bytes(&[q, steps]))
}

/// A kind 2 record.
fn list(frames: &[u32]) -> Vec<u8> {
    record_bytes(2, &word_bytes(frames))
}

/// A kind 3 record: a frame with these words, and zeros behind them.
fn load(frame: u32, words: &[u32]) -> Vec<u8> {
    let mut page = vec![frame];
    page.extend(words);
    page.resize(1 + FRAME_WORDS, 0);
    record_bytes(3, &word_bytes(&page))
}

/// A kind 4 record.
fn end() -> Vec<u8> {
    record_bytes(4, &[])
}

/// All named house files.
pub fn files() -> Vec<File> {
    let first = [0x2001_0005, 0xAC01_0008];
    let one = |q, steps| [turn(q, steps), list(&[1]), load(1, &first), end()].concat();
    let second_list = |records: usize| {
        let mut bytes = turn(2, 3);
        (0..records).for_each(|before| bytes.extend(list(&[before as u32 + 1])));
        bytes.extend(end());
        bytes
    };
    // Each frame again and again, and the first example behind them all.
    let long = |loads: u32| {
        let again = (0..loads).flat_map(|at| load(at % 16, &[at + 1; 3]));
        [turn(2, 3), list(&[1]), again.collect(), load(1, &first), end()].concat()
    };
    let files = vec![
        ("first example", one(2, 3)),
        ("empty file", Vec::new()),
        ("no kind 2", [turn(2, 3), end()].concat()),
        ("stops after kind 1", turn(2, 3)),
        ("stops after kind 2", [turn(2, 3), list(&[1])].concat()),
        ("cut in a head", [turn(2, 3), list(&[1])[..5].to_vec()].concat()),
        ("cut in a body", one(2, 3)[..500].to_vec()),
        ("kind 3 before kind 2", [turn(2, 3), load(1, &first), list(&[1]), end()].concat()),
        ("kind 2 after kind 3", [one(2, 3)[..4_130].to_vec(), list(&[2]), end()].concat()),
        ("eight of kind 2", second_list(8)),
        ("nine of kind 2", second_list(9)),
        ("extra byte", [one(2, 3), vec![0]].concat()),
        ("kind 4 with a body", [turn(2, 3), list(&[1]), record_bytes(4, &[0])].concat()),
        ("empty kind 2", [turn(2, 3), list(&[1]), list(&[]), end()].concat()),
        ("256 frames", [turn(2, 3), list(&(1..257).collect::<Vec<_>>()), end()].concat()),
        ("257 frames", [turn(2, 3), list(&(1..258).collect::<Vec<_>>()), end()].concat()),
        ("kind 2 of 6 bytes", [turn(2, 3), record_bytes(2, &[0; 6]), end()].concat()),
        ("kind 2 frame 16", [turn(2, 3), list(&[3, 16]), end()].concat()),
        ("kind 3 frame 16", [turn(2, 3), list(&[1]), load(16, &first), end()].concat()),
        ("a later kind 3 replaces", {
            [turn(2, 3), list(&[5]), load(5, &first), load(5, &[nop(); 5]), end()].concat()
        }),
        ("frame twice", [turn(2, 3), list(&[3, 5]), list(&[5, 3]), end()].concat()),
        ("frame 0", [turn(2, 3), list(&[3]), list(&[5, 0]), end()].concat()),
        ("frame 0 twice", [turn(2, 3), list(&[3, 0]), list(&[0, 5]), end()].concat()),
        ("frame 0 and a frame twice", [turn(2, 3), list(&[3, 3, 0]), end()].concat()),
        ("frame 0 and a frame too large", [turn(2, 3), list(&[0, 16]), end()].concat()),
        ("frame 0 and q 0", [turn(0, 3), list(&[0]), end()].concat()),
        ("frame 0 and too long a run", [turn(2, 1_000_001), list(&[0]), end()].concat()),
        ("frame 0 and an extra byte", [turn(2, 3), list(&[0]), end(), vec![0]].concat()),
        ("a kind 3 fills frame 0", {
            [turn(2, 3), list(&[1]), load(1, &first), load(0, &[nop(); 5]), end()].concat()
        }),
        ("q 0", one(0, 3)),
        ("q 10,001 and an extra byte", [one(10_001, 3), vec![0]].concat()),
        ("run of 0 steps", one(2, 0)),
        ("run of 1,000,000 steps", one(2, 1_000_000)),
        ("run of 1,000,001 steps", one(2, 1_000_001)),
        ("wrong q and too long a run", one(0, 1_000_001)),
        ("tickets until one is refused", {
            // The loop ends when register 3 is not 0; then the guest stands at byte 16.
            let until = |word| {
                let back = i_type(opcode::BEQZ, 0, 3, -8i32 as u32);
                [addi(2, 0, 1), word, back, nop(), j_type(opcode::J, -4i32 as u32), nop()]
            };
            let (sender, taker) = (load(1, &until(send())), load(2, &until(take())));
            [turn(101, 202), list(&[1]), list(&[2]), sender, taker, end()].concat()
        }),
        ("bytes make an address", {
            // 0x38 and 0x12 are stored as bytes and loaded as the half word 0x1238.
            let bytes = [addi(1, 0, 0x38), sb(1, 0, 64), addi(1, 0, 0x12), sb(1, 0, 65)];
            let words = [&bytes[..], &[lhu(2, 0, 64), jr(2), nop()]].concat();
            [turn(9, 7), list(&[1]), load(1, &words), end()].concat()
        }),
        ("above 64 KiB", long(16)),
        ("above 128 KiB", long(32)),
        ("cut above 128 KiB", long(32)[..2 * PIECE + 9].to_vec()),
        ("extra byte above 128 KiB", [long(32), vec![0]].concat()),
    ];
    let named = |(name, bytes): (&str, Vec<u8>)| File { name: name.into(), bytes };
    files.into_iter().chain(faults::files()).chain(timers::files()).map(named).collect()
}
