//! Random scripts and house files. The same seed gives the same ones.

mod audits;
mod calls;
pub mod decimals;
mod engines;
mod files;
pub mod listings;
pub mod noons;
mod programs;
mod reads;
mod runs;
mod saves;
mod states;
mod tickets;
mod timers;
mod words;

use crate::counts::Counts;
use crate::house::{Answer, HOUSE_FRAME};
use crate::memory::FRAME_WORDS;
use crate::rng::Rng;
use crate::script::{Command, Player};
use tickets::Seat;

/// The most frames of a random house, the house's own included: each call's text has a digest of
/// them all.
const MOST_FRAMES: u32 = 65;

/// A script and its name.
#[derive(Clone, Debug)]
pub struct Script {
    /// The name, for messages.
    pub name: String,
    /// The commands; they begin with a cleared house.
    pub commands: Vec<Command>,
}

/// A house file and its name.
#[derive(Clone, Debug)]
pub struct File {
    /// The name, for messages.
    pub name: String,
    /// The bytes.
    pub bytes: Vec<u8>,
}

/// How often each house number must be answered in a million steps.
pub const ANSWERS_EACH: u64 = 50;
/// How often each load and store of a byte or half word must be done in a million steps.
pub const PARTS_EACH: u64 = 5_000;
/// How often each fault must come in a million steps.
pub const FAULTS_EACH: u64 = 200;
/// How often an interrupt by the timer must follow each kind of instruction in a million steps.
pub const TIMERS_EACH: u64 = 200;
/// How often cause 13, masked and unmasked, must come beside each lower cause in a million steps.
pub const BESIDE_EACH: u64 = 50;
/// How often stale entries and audits of each kind must be met in a million steps.
pub const AUDITS_EACH: u64 = 100;
/// How often each kind of save and reading must be met in a million steps.
pub const SAVES_EACH: u64 = 5;
/// How many scripts save and read houses in a million steps.
pub const SAVES: u64 = 60;
/// How often each kind of run by the engine without shadows must be met in a million steps.
pub const ENGINES_EACH: u64 = 10;
/// How many scripts run by both engines in a million steps.
pub const ENGINES: u64 = 60;
/// How many random files the programs get that take a house file or a saved one.
pub const READS: usize = 400;
/// The numbers that scripts give: all but 15, which is the house file's, and 17, which is the saved
/// file's.
pub const SCRIPT_NUMBERS: [usize; 16] = [0, 1, 2, 3, 4, 5, 6, 7, 8, 9, 10, 11, 12, 13, 14, 16];

/// Random scripts, until their guests have done `steps` steps, a quarter as many of them in user mode,
/// every house number of theirs was answered often enough, bytes and half words were loaded and stored often enough, and every fault
/// and every kind of timer's interrupt and of stale shadow entry came often enough.
pub fn scripts(seed: u64, steps: u64) -> Vec<Script> {
    let mut scripts = Vec::new();
    let mut total = Counts::default();
    while total.all_steps() < steps || too_few(&total, steps) {
        let number = scripts.len() as u64;
        let mut draft = Draft::new(Rng::new(seed ^ number << 32));
        let kind = compose(&mut draft, number);
        total += &draft.counts;
        let name = format!("{kind} {number} of seed {seed}");
        scripts.push(Script { name, commands: draft.commands });
    }
    scripts.extend(saves(seed, share(steps, SAVES)));
    scripts.extend(engines(seed, share(steps, ENGINES)));
    scripts
}

/// How many of something that comes so often in a million steps; at least one.
fn share(steps: u64, each: u64) -> u64 {
    (steps * each).div_ceil(1_000_000)
}

/// Random scripts in which houses are saved and read back.
fn saves(seed: u64, count: u64) -> impl Iterator<Item = Script> {
    (0..count).map(move |number| {
        let mut draft = Draft::new(Rng::new(!seed ^ number << 32 ^ 6));
        saves::compose(&mut draft);
        Script { name: format!("saves {number} of seed {seed}"), commands: draft.commands }
    })
}

fn too_few(counts: &Counts, steps: u64) -> bool {
    let answers = steps * ANSWERS_EACH / 1_000_000;
    let parts = steps * PARTS_EACH / 1_000_000;
    let faults = steps * FAULTS_EACH / 1_000_000;
    let timers = steps * TIMERS_EACH / 1_000_000;
    let beside = steps * BESIDE_EACH / 1_000_000;
    let audits = steps * AUDITS_EACH / 1_000_000;
    let lower = [&counts.timers.beside[1..], &counts.timers.masked_beside[1..]];
    counts.steps[1] < steps / 4
        || SCRIPT_NUMBERS.iter().any(|&number| counts.answers[number] < answers)
        || counts.parts().iter().any(|&(_, done)| done < parts)
        || counts.faults()[1..].iter().any(|&came| came < faults)
        || counts.timers.levels.iter().any(|&came| came < timers)
        || lower.iter().any(|causes| causes.iter().any(|&came| came < beside))
        || counts.audits.kinds().iter().any(|&(_, met)| met < audits)
}

/// Writes one script of the kind whose turn it is; tells the kind.
fn compose(draft: &mut Draft, number: u64) -> &'static str {
    match number % 11 {
        0..=4 => {
            runs::compose(draft);
            "programs"
        }
        5 | 6 => {
            states::compose(draft);
            "states"
        }
        7 => {
            calls::compose(draft);
            "calls"
        }
        8 | 9 => {
            timers::compose(draft);
            "timers"
        }
        _ => {
            audits::compose(draft);
            "audits"
        }
    }
}

/// Random scripts in which every run is made by both engines from the same state.
fn engines(seed: u64, count: u64) -> impl Iterator<Item = Script> {
    (0..count).map(move |number| {
        let mut draft = Draft::new(Rng::new(!seed ^ number << 32 ^ 11));
        engines::compose(&mut draft, number);
        Script { name: format!("engines {number} of seed {seed}"), commands: draft.commands }
    })
}

/// Random house files: `count` that are damaged or cut, and a tenth as many that are whole. Every
/// fiftieth is longer than a piece.
pub fn files(seed: u64, count: usize) -> Vec<File> {
    (0..count + count.div_ceil(10))
        .map(|number| {
            let mut rng = Rng::new(!seed ^ (number as u64) << 32);
            let (kind, bytes) = files::compose(&mut rng, number < count, number.is_multiple_of(50));
            File { name: format!("{kind} file {number} of seed {seed}"), bytes }
        })
        .collect()
}

/// Random house files that are whole.
pub fn whole_files(seed: u64, count: usize) -> Vec<File> {
    (0..count)
        .map(|number| {
            let mut rng = Rng::new(!seed ^ (number as u64) << 32 ^ 8);
            let (kind, bytes) = files::compose(&mut rng, false, number.is_multiple_of(10));
            File { name: format!("{kind} file {number} of seed {seed}, to be saved"), bytes }
        })
        .collect()
}

/// A saved file, and the steps that its house is to go on.
#[derive(Clone, Debug)]
pub struct Saved {
    /// The file.
    pub file: File,
    /// The steps.
    pub steps: u64,
}

/// Random saved files, some of them damaged.
pub fn saved_files(seed: u64, count: usize) -> Vec<Saved> {
    let file = |number: u64| {
        let mut rng = Rng::new(!seed ^ number << 32 ^ 7);
        let (kind, bytes) = saves::saved_file(&mut rng);
        let steps = rng.pick(&[0, 1, 2, 100, 1_000, 20_000]);
        let file = File { name: format!("{kind} saved file {number} of seed {seed}"), bytes };
        Saved { file, steps }
    };
    (0..count as u64).map(file).collect()
}

/// A house file or a saved file, and what programs are asked of it.
#[derive(Clone, Debug)]
pub struct Read {
    /// The file.
    pub file: File,
    /// The words behind `readout FILE`.
    pub words: Vec<String>,
    /// The word behind `list FILE`.
    pub frame: String,
}

/// Random house files and saved files for the programs that take either, some of them wrong.
pub fn reads(seed: u64, count: usize) -> Vec<Read> {
    (0..count)
        .map(|number| {
            let mut rng = Rng::new(!seed ^ (number as u64) << 32 ^ 9);
            let (kind, bytes) = reads::file(&mut rng, number);
            let name = format!("{kind} {number} of seed {seed}, to be read");
            reads::read(&mut rng, File { name, bytes })
        })
        .collect()
}

/// The same of named files: the first words of partition 0, and frame 1.
pub fn named_reads(files: Vec<File>) -> Vec<Read> {
    let read =
        |file| Read { file, words: ["0", "0", "9"].map(String::from).to_vec(), frame: "1".into() };
    files.into_iter().map(read).collect()
}

/// The frames below `count` that a partition may have, in random order.
fn guest_frames(rng: &mut Rng, count: u32) -> Vec<u32> {
    let mut frames = rng.permutation(count);
    frames.retain(|&frame| frame != HOUSE_FRAME);
    frames
}

/// A script that grows: each command is played at once, so that the next can build on what it did.
struct Draft {
    rng: Rng,
    player: Player,
    commands: Vec<Command>,
    counts: Counts,
    /// Whether every run is made by both engines, from the same state.
    both: bool,
}

impl Draft {
    fn new(rng: Rng) -> Self {
        let (player, counts) = (Player::new(), Counts::default());
        Draft { rng, player, commands: Vec::new(), counts, both: false }
    }

    /// A run, or one by each engine from the same state.
    fn run(&mut self, steps: u32) {
        if !self.both {
            self.emit(Command::Run { steps });
            return;
        }
        engines::run(self, steps);
    }

    fn emit(&mut self, command: Command) -> Option<Answer> {
        let answer = self.player.play(&command, &mut String::new(), &mut self.counts);
        self.commands.push(command);
        answer
    }

    /// The partitions of the house.
    fn partitions(&self) -> u32 {
        self.player.house.count.min(8)
    }

    /// A partition that exists.
    fn partition(&mut self) -> u32 {
        let partitions = self.partitions();
        self.rng.below(partitions.max(1))
    }

    /// A partition among those of the house.
    fn seat(&self, own: u32) -> Seat {
        Seat { own, partitions: self.partitions() }
    }

    fn field(&mut self, index: u32, value: u32) {
        self.emit(Command::Field { index, value });
    }

    /// Boots partitions with the given page counts on shuffled frames, with some frames to spare.
    fn boot(&mut self, pages: &[u32]) {
        let spare = self.rng.below(4);
        self.boot_with(pages, spare);
    }

    /// The same with so many frames to spare.
    fn boot_with(&mut self, pages: &[u32], spare: u32) {
        let used: u32 = pages.iter().sum();
        let frames = (1 + used + spare).min(MOST_FRAMES);
        let mut list = guest_frames(&mut self.rng, frames);
        list.truncate(used as usize);
        let q = self.turn_length();
        self.emit(Command::Length { words: frames * FRAME_WORDS as u32 });
        self.emit(Command::Boot { pages: pages.to_vec(), q, frames: list });
    }

    fn turn_length(&mut self) -> u32 {
        match self.rng.below(3) {
            0 => self.rng.between(1, 8),
            1 => self.rng.pick(&[1, 13, 50, 100, 1_000, 10_000]),
            _ => self.rng.between(1, 10_000),
        }
    }

    /// Page counts for one to eight partitions, mostly few.
    fn page_counts(&mut self, most: u32) -> Vec<u32> {
        let partitions = match self.rng.below(4) {
            0 => 1,
            1 => self.rng.between(4, 8),
            _ => self.rng.between(2, 3),
        };
        (0..partitions).map(|_| self.rng.between(1, most)).collect()
    }

    /// Writes a word of a partition's guest memory.
    fn poke_guest(&mut self, partition: u32, place: u32, value: u32) {
        let list = self.player.house.guests[partition as usize].space.list();
        let frame = list[place as usize / FRAME_WORDS];
        let index = frame * FRAME_WORDS as u32 + place % FRAME_WORDS as u32;
        if self.player.lent()[index as usize] != value {
            self.emit(Command::Poke { index, value });
        }
    }

    /// Starts a partition if none runs, so that the next run does something.
    fn keep_running(&mut self) {
        if !self.player.house.running.contains(&true) {
            let partition = self.partition();
            self.emit(Command::Start { partition });
        }
    }
}
