//! Scripts of calls: their bytes, and the text that playing them gives (FORMAT.md).

use std::fmt::{self, Write};

use crate::audit::Stale;
use crate::counts::{Counts, Edited};
use crate::dlx::special::TCOUNT;
use crate::dlx::{decode, Guest};
use crate::engines::Before;
use crate::fields;
use crate::house::{numbers, Answer, House};
use crate::saved::Reading;
use crate::tickets::Queue;

/// The most words of lent memory: 257 frames, so that frame 0 and 256 pages have room.
pub const MOST_WORDS: usize = 263_168;
/// The most partitions that a boot command can name.
pub const MOST_PARTITIONS: usize = 16;
/// The longest frame list that a boot command can name.
pub const MOST_LIST: usize = 4_096;
/// The longest output of a read-out.
pub const MOST_OUTPUT: usize = 4_096;
/// The longest output of a save, in bytes.
pub const MOST_SAVED: usize = 70_000;
/// The longest piece of a saved file, in bytes.
pub const MOST_PIECE: usize = 16_384;
/// Byte i of a save's output is i modulo this number before the call.
pub const SAVED_PATTERN: u32 = 251;
/// Word i of a read-out's output is this number plus i before the call.
pub const PATTERN: u32 = 3_405_691_582;
/// The most words that the text shows of a read-out.
const SHOWN: u64 = 8;
/// The most bytes that are shown of a piece, for people.
const SHOWN_BYTES: usize = 64;

/// The mark of a piece that begins a new reading; with any other the reading goes on.
const NEW: u32 = 1;

/// Words of a command before its payload.
const HEAD: usize = 4;

mod op {
    pub const BOOT: u32 = 1;
    pub const RUN: u32 = 2;
    pub const START: u32 = 3;
    pub const STOP: u32 = 4;
    pub const EMPTY: u32 = 5;
    pub const READ: u32 = 6;
    pub const POKE: u32 = 7;
    pub const LENGTH: u32 = 8;
    pub const FIELD: u32 = 9;
    pub const FILL: u32 = 10;
    pub const CLEAR: u32 = 11;
    pub const AUDIT: u32 = 12;
    pub const MEND: u32 = 13;
    pub const SAVE: u32 = 14;
    pub const PIECE: u32 = 15;
    pub const FINISH: u32 = 16;
    pub const UNSHADOWED: u32 = 17;
}

/// A command of a script; those with a [`Command::call_name`] are calls.
#[derive(Clone, Debug, PartialEq, Eq)]
#[allow(missing_docs)]
pub enum Command {
    Boot { pages: Vec<u32>, q: u32, frames: Vec<u32> },
    Run { steps: u32 },
    Start { partition: u32 },
    Stop { partition: u32 },
    Empty { partition: u32 },
    Read { partition: u32, address: u32, count: u64, output: u32 },
    Poke { index: u32, value: u32 },
    Length { words: u32 },
    Field { index: u32, value: u32 },
    Fill { index: u32, count: u32, value: u32 },
    Clear,
    Audit,
    Mend,
    Save { offset: u64, output: u32 },
    Piece { bytes: Vec<u8>, new: bool },
    Finish,
    Unshadowed { steps: u32 },
}

impl Command {
    /// The name of a call, none for other commands.
    pub fn call_name(&self) -> Option<&'static str> {
        match self {
            Command::Boot { .. } => Some("boot"),
            Command::Run { .. } => Some("run"),
            Command::Start { .. } => Some("start"),
            Command::Stop { .. } => Some("stop"),
            Command::Empty { .. } => Some("empty"),
            Command::Read { .. } => Some("read"),
            Command::Audit => Some("audit"),
            Command::Mend => Some("mend"),
            Command::Save { .. } => Some("save"),
            Command::Piece { .. } => Some("piece"),
            Command::Finish => Some("finish"),
            Command::Unshadowed { .. } => Some("unshadowed"),
            _ => None,
        }
    }

    /// The command's words.
    fn words(&self) -> Vec<u32> {
        match self {
            Command::Boot { pages, q, frames } => {
                let head = vec![op::BOOT, pages.len() as u32, *q, frames.len() as u32];
                [head.as_slice(), pages, frames].concat()
            }
            Command::Run { steps } => vec![op::RUN, *steps, 0, 0],
            Command::Start { partition } => vec![op::START, *partition, 0, 0],
            Command::Stop { partition } => vec![op::STOP, *partition, 0, 0],
            Command::Empty { partition } => vec![op::EMPTY, *partition, 0, 0],
            Command::Read { partition, address, count, output } => {
                let (low, high) = (*count as u32, (*count >> 32) as u32);
                vec![op::READ, *partition, *address, *output, low, high]
            }
            Command::Poke { index, value } => vec![op::POKE, *index, *value, 0],
            Command::Length { words } => vec![op::LENGTH, *words, 0, 0],
            Command::Field { index, value } => vec![op::FIELD, *index, *value, 0],
            Command::Fill { index, count, value } => vec![op::FILL, *index, *count, *value],
            Command::Clear => vec![op::CLEAR, 0, 0, 0],
            Command::Audit => vec![op::AUDIT, 0, 0, 0],
            Command::Mend => vec![op::MEND, 0, 0, 0],
            Command::Save { offset, output } => {
                vec![op::SAVE, *offset as u32, (*offset >> 32) as u32, *output]
            }
            Command::Piece { bytes, new } => {
                let mark = if *new { NEW } else { 2 * bytes.len() as u32 };
                let head = [op::PIECE, bytes.len() as u32, mark, 0];
                let four = |some: &[u8]| {
                    let mut word = [0; 4];
                    word[..some.len()].copy_from_slice(some);
                    u32::from_le_bytes(word)
                };
                head.into_iter().chain(bytes.chunks(4).map(four)).collect()
            }
            Command::Finish => vec![op::FINISH, 0, 0, 0],
            Command::Unshadowed { steps } => vec![op::UNSHADOWED, *steps, 0, 0],
        }
    }

    /// The command at the start of some words and how many words it takes; none if it is wrong.
    fn parse(words: &[u32]) -> Option<(Command, usize)> {
        let &[op, a, b, c] = words.first_chunk::<HEAD>()?;
        let rest = &words[HEAD..];
        let plain = |command| Some((command, HEAD));
        match op {
            op::BOOT => parse_boot(rest, a as usize, b, c as usize),
            op::RUN => plain(Command::Run { steps: a }),
            op::START => plain(Command::Start { partition: a }),
            op::STOP => plain(Command::Stop { partition: a }),
            op::EMPTY => plain(Command::Empty { partition: a }),
            op::READ => parse_read(rest, a, b, c),
            op::POKE => plain(Command::Poke { index: a, value: b }),
            op::LENGTH => plain(Command::Length { words: a }),
            op::FIELD => plain(Command::Field { index: a, value: b }),
            op::FILL => plain(Command::Fill { index: a, count: b, value: c }),
            op::CLEAR => plain(Command::Clear),
            op::AUDIT => plain(Command::Audit),
            op::MEND => plain(Command::Mend),
            op::SAVE if c as usize <= MOST_SAVED => {
                plain(Command::Save { offset: u64::from(b) << 32 | u64::from(a), output: c })
            }
            op::PIECE => parse_piece(rest, a as usize, b == NEW),
            op::FINISH => plain(Command::Finish),
            op::UNSHADOWED => plain(Command::Unshadowed { steps: a }),
            _ => None,
        }
    }
}

fn parse_boot(rest: &[u32], partitions: usize, q: u32, list: usize) -> Option<(Command, usize)> {
    if partitions > MOST_PARTITIONS || list > MOST_LIST {
        return None;
    }
    let pages = rest.get(..partitions)?.to_vec();
    let frames = rest.get(partitions..partitions + list)?.to_vec();
    Some((Command::Boot { pages, q, frames }, HEAD + partitions + list))
}

fn parse_read(rest: &[u32], partition: u32, address: u32, output: u32) -> Option<(Command, usize)> {
    let &[low, high] = rest.first_chunk::<2>()?;
    if output as usize > MOST_OUTPUT {
        return None;
    }
    let count = u64::from(high) << 32 | u64::from(low);
    Some((Command::Read { partition, address, count, output }, HEAD + 2))
}

fn parse_piece(rest: &[u32], length: usize, new: bool) -> Option<(Command, usize)> {
    if length > MOST_PIECE {
        return None;
    }
    let words = rest.get(..length.div_ceil(4))?;
    let mut bytes: Vec<u8> = words.iter().flat_map(|word| word.to_le_bytes()).collect();
    bytes.truncate(length);
    Some((Command::Piece { bytes, new }, HEAD + words.len()))
}

/// The bytes of a script.
pub fn write(commands: &[Command]) -> Vec<u8> {
    let words = commands.iter().flat_map(Command::words);
    words.flat_map(u32::to_le_bytes).collect()
}

/// The commands of a script, and the byte offset of the first wrong command, if any.
pub fn read(bytes: &[u8]) -> (Vec<Command>, Option<usize>) {
    let word = |four: &[u8]| u32::from_le_bytes([four[0], four[1], four[2], four[3]]);
    let words: Vec<u32> = bytes.chunks_exact(4).map(word).collect();
    let mut commands = Vec::new();
    let mut at = 0;
    while 4 * at < bytes.len() {
        match Command::parse(&words[at..]) {
            Some((command, taken)) => {
                commands.push(command);
                at += taken;
            }
            None => return (commands, Some(4 * at)),
        }
    }
    (commands, None)
}

/// The text of a whole script.
pub fn play(bytes: &[u8], counts: &mut Counts) -> String {
    let (commands, wrong) = read(bytes);
    let mut player = Player::new();
    let mut text = String::new();
    for command in &commands {
        player.play(command, &mut text, counts);
    }
    if let Some(at) = wrong {
        line(&mut text, format_args!("wrong command at {at}"));
    }
    text
}

/// Adds a line to the text.
fn line(text: &mut String, arguments: fmt::Arguments<'_>) {
    text.write_fmt(arguments).expect("writing to a string");
    text.push('\n');
}

/// The digest of words: d = d * 6364136223846793005 + word + 1 modulo 2^64, from 0.
pub fn digest(words: &[u32]) -> u64 {
    words.iter().fold(0, |digest: u64, &word| {
        digest.wrapping_mul(6_364_136_223_846_793_005).wrapping_add(u64::from(word)).wrapping_add(1)
    })
}

/// A house and its lent memory, as a script changes them.
#[derive(Clone, Debug)]
pub struct Player {
    /// The house.
    pub house: House,
    /// The whole store; the house is lent the first `length` words of it.
    memory: Vec<u32>,
    length: usize,
    /// The reading of a saved file.
    reading: Reading,
    /// What was edited since the boot. It makes no difference but to the counts.
    edited: Edited,
    /// Whether the house was read from a file. It makes no difference but to the counts.
    restored: bool,
}

/// What a call tells besides its answer.
#[derive(Default)]
struct Told {
    /// The output of a read-out, or of a save, each byte a word.
    output: Vec<u32>,
    /// How many bytes a save wrote.
    written: usize,
    /// The first stale entry.
    stale: Option<Stale>,
}

impl Default for Player {
    fn default() -> Self {
        Player::new()
    }
}

impl Player {
    /// The house of no partitions, memory zero and of no words.
    pub fn new() -> Self {
        Player {
            house: House::NONE,
            memory: vec![0; MOST_WORDS],
            length: 0,
            reading: Reading::new(),
            edited: Edited::default(),
            restored: false,
        }
    }

    /// The lent memory.
    pub fn lent(&self) -> &[u32] {
        &self.memory[..self.length]
    }

    fn lent_mut(&mut self) -> &mut [u32] {
        &mut self.memory[..self.length]
    }

    /// Commands that make a new player like this one.
    pub fn commands(&self) -> Vec<Command> {
        let pokes = (0..).zip(self.lent()).filter(|(_, &value)| value != 0);
        let fields =
            (0..fields::END).filter_map(|index| Some((index, fields::get(&self.house, index)?)));
        let fields = fields.filter(|&(_, value)| value != 0);
        std::iter::once(Command::Length { words: self.length as u32 })
            .chain(pokes.map(|(index, &value)| Command::Poke { index, value }))
            .chain(fields.map(|(index, value)| Command::Field { index, value }))
            .collect()
    }

    /// Commands that make this player like another with the same length, but for words that are not
    /// lent and for the reading.
    pub fn changes(&self, to: &Player) -> Vec<Command> {
        let words = (0..).zip(self.lent().iter().zip(to.lent()));
        let pokes = words.filter(|(_, (from, to))| from != to);
        let numbers = (0..fields::END).filter_map(|index| {
            let value = fields::get(&to.house, index)?;
            (fields::get(&self.house, index)? != value).then_some(Command::Field { index, value })
        });
        pokes.map(|(index, (_, &value))| Command::Poke { index, value }).chain(numbers).collect()
    }

    /// Plays one command; a call adds to the text and gives its answer.
    pub fn play(
        &mut self,
        command: &Command,
        text: &mut String,
        counts: &mut Counts,
    ) -> Option<Answer> {
        let Some(name) = command.call_name() else {
            self.change(command);
            return None;
        };
        counts.audits.edited = self.edited;
        let mut told = Told::default();
        let answer = self.call(command, &mut told, counts);
        let (number, detail) = numbers(answer);
        counts.answers[number as usize] += 1;
        line(text, format_args!("call {name} -> {number} {detail}"));
        self.describe(text);
        match command {
            Command::Read { .. } => describe_output(text, &told.output, answer),
            Command::Audit if answer.is_ok() => describe_stale(text, told.stale),
            Command::Save { .. } => {
                line(text, format_args!("written {} {}", told.written, digest(&told.output)));
            }
            _ => {}
        }
        Some(answer)
    }

    /// A command that is not a call.
    fn change(&mut self, command: &Command) {
        self.edited.note(command, &self.house, &self.memory[..self.length]);
        match *command {
            Command::Poke { index, value } => self.fill(index, 1, value),
            Command::Length { words } => self.length = MOST_WORDS.min(words as usize),
            Command::Field { index, value } => fields::set(&mut self.house, index, value),
            Command::Fill { index, count, value } => self.fill(index, count, value),
            _ => *self = Player::new(),
        }
    }

    /// Fills lent words; words outside the lent memory are ignored.
    fn fill(&mut self, index: u32, count: u32, value: u32) {
        let lent = self.lent_mut();
        let start = lent.len().min(index as usize);
        let end = lent.len().min(start + count as usize);
        lent[start..end].fill(value);
    }

    fn call(&mut self, command: &Command, told: &mut Told, counts: &mut Counts) -> Answer {
        match *command {
            Command::Audit => {
                told.stale = self.house.audit(self.lent(), counts)?;
                Ok(0)
            }
            Command::Boot { ref pages, q, ref frames } => {
                let (house, answer) = House::boot(pages, q, frames, self.length);
                self.house = house;
                (self.edited, self.restored) = (Edited::default(), false);
                answer
            }
            Command::Mend => {
                let answer = self.house.mend(&self.memory[..self.length], counts);
                if answer.is_ok() {
                    self.edited = Edited::default();
                }
                answer
            }
            Command::Start { partition } => self.house.start(partition),
            Command::Stop { partition } => self.house.stop(partition),
            Command::Empty { partition } => self.house.empty(partition, counts),
            Command::Read { partition, address, count, output: length } => {
                told.output = (0..length).map(|at| PATTERN + at).collect();
                self.house.read_out(self.lent(), partition, address, count, &mut told.output)
            }
            Command::Run { steps } => {
                let lent = &mut self.memory[..self.length];
                let answer = self.house.run(lent, steps, counts);
                counts.saves.went_on += u64::from(self.restored && steps > 0 && answer.is_ok());
                answer
            }
            Command::Unshadowed { steps } => {
                let lent = &mut self.memory[..self.length];
                let before = Before::new(&self.house, lent);
                let answer = self.house.run_unshadowed(lent, steps, counts);
                counts.engines.ran(before, steps, answer, &self.house, lent);
                counts.saves.went_on += u64::from(self.restored && steps > 0 && answer.is_ok());
                if answer.is_ok() {
                    self.edited = Edited::default();
                }
                answer
            }
            Command::Save { offset, output } => {
                let mut bytes: Vec<u8> = (0..output).map(|at| (at % SAVED_PATTERN) as u8).collect();
                let answer = self.house.save(self.lent(), offset, &mut bytes, counts);
                told.output = bytes.into_iter().map(u32::from).collect();
                told.written = answer?;
                Ok(0)
            }
            Command::Piece { ref bytes, new } => {
                if new {
                    self.reading = Reading::new();
                }
                self.edited.write(&self.house);
                self.reading.piece(&mut self.memory[..self.length], bytes, counts).map(|()| 0)
            }
            Command::Finish => {
                let read = std::mem::take(&mut self.reading).finish(counts);
                (self.edited, self.restored) = (Edited::default(), read.is_ok());
                let answer = read.as_ref().map_or_else(|&refusal| Err(refusal), |_| Ok(0));
                self.house = read.unwrap_or(House::NONE);
                answer
            }
            _ => unreachable!("not a call"),
        }
    }

    /// The house, and the lent memory's digest.
    fn describe(&self, text: &mut String) {
        let house = &self.house;
        let scalars = [house.count, house.q, house.words, house.current, house.left];
        let flags = house.running.map(u32::from);
        line(text, format_args!("house{}{}", Numbers(&scalars), Numbers(&flags)));
        for (partition, guest) in house.guests.iter().enumerate() {
            if *guest != Guest::ZERO {
                describe_guest(text, partition, guest);
            }
        }
        for (partition, queue) in house.queues.iter().enumerate() {
            if *queue != Queue::EMPTY {
                let places = Numbers(without_last_zeros(&queue.places));
                line(text, format_args!("queue {partition} {}{places}", queue.waiting));
            }
        }
        let lent = self.lent();
        line(text, format_args!("memory {} {}", lent.len(), digest(lent)));
    }
}

fn describe_guest(text: &mut String, partition: usize, guest: &Guest) {
    let space = &guest.space;
    let (specials, timer) = guest.specials.split_at(TCOUNT);
    line(
        text,
        format_args!(
            "partition {partition} {} {} {} {}{} {}{}",
            space.pages,
            guest.counter,
            guest.dpc,
            guest.pc,
            Numbers(specials),
            guest.fault,
            Numbers(timer)
        ),
    );
    line(text, format_args!("registers{}", Numbers(&guest.registers)));
    line(text, format_args!("frames{}", Numbers(without_last_zeros(&space.frames))));
    text.push_str("shadow");
    for (px, entry) in space.shadow.iter().enumerate().filter(|(_, &entry)| entry != 0) {
        write!(text, " {px}:{entry}").expect("writing to a string");
    }
    text.push('\n');
}

/// The first stale entry.
fn describe_stale(text: &mut String, first: Option<Stale>) {
    match first {
        None => line(text, format_args!("stale none")),
        Some(stale) => line(text, format_args!("stale {} {}", stale.partition, stale.px)),
    }
}

fn describe_output(text: &mut String, output: &[u32], answer: Answer) {
    let shown = match answer {
        Ok(count) if count <= SHOWN => &output[..count as usize],
        _ => &[],
    };
    line(text, format_args!("output {}{}", digest(output), Numbers(shown)));
}

/// The places up to the last one that is not 0.
fn without_last_zeros(places: &[u32]) -> &[u32] {
    let used = places.iter().rposition(|&place| place != 0).map_or(0, |last| last + 1);
    &places[..used]
}

/// Numbers in decimals, a space before each.
struct Numbers<'a>(&'a [u32]);

impl fmt::Display for Numbers<'_> {
    fn fmt(&self, f: &mut fmt::Formatter<'_>) -> fmt::Result {
        self.0.iter().try_for_each(|number| write!(f, " {number}"))
    }
}

impl fmt::Display for Command {
    fn fmt(&self, f: &mut fmt::Formatter<'_>) -> fmt::Result {
        match self {
            Command::Boot { pages, q, frames } => {
                write!(f, "boot pages {pages:?} q {q} frames {frames:?}")
            }
            Command::Run { steps } => write!(f, "run {steps}"),
            Command::Start { partition } => write!(f, "start {partition}"),
            Command::Stop { partition } => write!(f, "stop {partition}"),
            Command::Empty { partition } => write!(f, "empty {partition}"),
            Command::Read { partition, address, count, output } => {
                write!(
                    f,
                    "read partition {partition} address {address} count {count} output {output}"
                )
            }
            Command::Poke { index, value } => {
                write!(f, "poke word {index} = {value:#010x}")?;
                decode(*value).map_or(Ok(()), |instruction| write!(f, "  {instruction:?}"))
            }
            Command::Length { words } => write!(f, "length {words} words"),
            Command::Field { index, value } => {
                write!(f, "house {} = {value:#x}", fields::name(*index))
            }
            Command::Fill { index, count, value } => {
                write!(f, "fill word {index} count {count} = {value:#010x}")
            }
            Command::Clear => write!(f, "clear"),
            Command::Audit => write!(f, "audit"),
            Command::Mend => write!(f, "mend"),
            Command::Save { offset, output } => write!(f, "save from {offset} output {output}"),
            Command::Piece { bytes, new } => {
                let new = if *new { " of a new reading" } else { "" };
                write!(f, "piece{new}, {} bytes:", bytes.len())?;
                bytes.iter().take(SHOWN_BYTES).try_for_each(|byte| write!(f, " {byte}"))?;
                write!(f, "{}", if bytes.len() > SHOWN_BYTES { " .." } else { "" })
            }
            Command::Finish => write!(f, "finish"),
            Command::Unshadowed { steps } => write!(f, "unshadowed {steps}"),
        }
    }
}
