//! The house: its calls with their numbers, details and order, its turns, and what damages it.

use crate::counts::Counts;
use crate::dlx::special::{EMODE, MODE};
use crate::dlx::{Cause, Guest};
use crate::memory::{Engine, Fault, Place, Space, FRAME_WORDS, PAGE_BYTES, PROTECTED, VALID};
use crate::tickets::{Queue, Tickets};

/// The most partitions of a house.
pub const PARTITIONS: usize = 8;
/// The most pages of a partition.
pub const MOST_PAGES: u32 = 256;
/// The longest turn.
pub const MOST_TURN: u32 = 10_000;
/// The most frames of the lent memory.
pub const MOST_FRAMES: usize = 1_024;
/// The frame that is kept for the house.
pub const HOUSE_FRAME: u32 = 0;
/// The longest run.
pub const MOST_STEPS: u32 = 1_000_000;

/// Why a call is refused; boot's reasons first, in the order of their tests.
#[derive(Clone, Copy, Debug, PartialEq, Eq)]
pub enum Refusal {
    /// Partitions not 1..8.
    Partitions,
    /// A page count not 1..256: the first such partition.
    PageCount(usize),
    /// Turn length not 1..10,000.
    Turn,
    /// Memory not 1..1,024 whole frames.
    Memory,
    /// Frame list length is not the sum of the page counts.
    ListLength,
    /// A frame number is not below the memory's frames: the first such position.
    Frame(usize),
    /// A list names the frame that is kept for the house: the first such position.
    HouseFrame(usize),
    /// A frame stands twice: the smallest position whose frame stood earlier.
    Twice(usize),
    /// The house is damaged.
    Damaged,
    /// Memory length differs from that at boot.
    Length,
    /// No such partition.
    NoPartition,
    /// Run of 1 or more steps, nothing running.
    NothingRunning,
    /// Read-out address not a multiple of 4, or its end above the pages.
    Address,
    /// Output shorter than the count.
    Output,
    /// Run longer than 1,000,000 steps.
    TooLong,
    /// A saved file is wrong, or its house damaged: the byte offset of the record.
    Saved(u64),
}

impl Refusal {
    /// The house number.
    pub fn number(self) -> u32 {
        match self {
            Refusal::Partitions => 1,
            Refusal::PageCount(_) => 2,
            Refusal::Turn => 3,
            Refusal::Memory => 4,
            Refusal::ListLength => 5,
            Refusal::Frame(_) => 6,
            Refusal::Twice(_) => 7,
            Refusal::Damaged => 8,
            Refusal::Length => 9,
            Refusal::NoPartition => 10,
            Refusal::NothingRunning => 11,
            Refusal::Address => 12,
            Refusal::Output => 13,
            Refusal::TooLong => 14,
            Refusal::HouseFrame(_) => 16,
            Refusal::Saved(_) => 17,
        }
    }

    /// The detail number.
    pub fn detail(self) -> u64 {
        match self {
            Refusal::PageCount(at)
            | Refusal::Frame(at)
            | Refusal::HouseFrame(at)
            | Refusal::Twice(at) => at as u64,
            Refusal::Saved(at) => at,
            _ => 0,
        }
    }
}

/// A call's answer: the detail number of a call that is done, or its refusal.
pub type Answer = Result<u64, Refusal>;

/// The house number and detail number of an answer.
pub fn numbers(answer: Answer) -> (u32, u64) {
    match answer {
        Ok(detail) => (0, detail),
        Err(refusal) => (refusal.number(), refusal.detail()),
    }
}

/// One state for up to 8 partitions.
#[derive(Clone, Debug, PartialEq, Eq)]
pub struct House {
    /// Partitions.
    pub count: u32,
    /// Turn length.
    pub q: u32,
    /// Memory length at boot.
    pub words: u32,
    /// The current partition; 0 while none is.
    pub current: u32,
    /// Steps left of the turn; 0 while none is current.
    pub left: u32,
    /// Which partitions run.
    pub running: [bool; PARTITIONS],
    /// The partitions.
    pub guests: [Guest; PARTITIONS],
    /// The tickets that wait for each partition.
    pub queues: [Queue; PARTITIONS],
}

impl House {
    /// The house of no partitions, every number in it 0.
    pub const NONE: House = House {
        count: 0,
        q: 0,
        words: 0,
        current: 0,
        left: 0,
        running: [false; PARTITIONS],
        guests: [Guest::ZERO; PARTITIONS],
        queues: [Queue::EMPTY; PARTITIONS],
    };

    /// Boots; a refused boot returns the house of no partitions.
    pub fn boot(pages: &[u32], q: u32, frames: &[u32], memory_words: usize) -> (House, Answer) {
        match check_boot(pages, q, frames, memory_words) {
            Err(refusal) => (House::NONE, Err(refusal)),
            Ok(()) => (House::fresh(pages, q, frames, memory_words), Ok(0)),
        }
    }

    fn fresh(pages: &[u32], q: u32, frames: &[u32], memory_words: usize) -> House {
        let mut house = House {
            count: pages.len() as u32,
            q,
            words: memory_words as u32,
            left: q,
            ..House::NONE
        };
        let mut rest = frames;
        for (partition, &own) in pages.iter().enumerate() {
            let (list, after) = rest.split_at(own as usize);
            house.guests[partition] = Guest::fresh(list);
            house.running[partition] = true;
            rest = after;
        }
        house
    }

    /// Runs for a number of host steps.
    pub fn run(&mut self, memory: &mut [u32], steps: u32, counts: &mut Counts) -> Answer {
        self.check_run(memory, steps)?;
        for _ in 0..steps {
            self.host_step(memory, Engine::Shadowed, counts);
        }
        Ok(u64::from(steps))
    }

    /// A run's refusals: 8, 9, 14, 11.
    pub(crate) fn check_run(&self, memory: &[u32], steps: u32) -> Result<(), Refusal> {
        self.check_damage()?;
        self.check_length(memory)?;
        if steps > MOST_STEPS {
            return Err(Refusal::TooLong);
        }
        if steps > 0 && !self.running.contains(&true) {
            return Err(Refusal::NothingRunning);
        }
        Ok(())
    }

    /// One guest step for the current partition.
    pub(crate) fn host_step(&mut self, memory: &mut [u32], engine: Engine, counts: &mut Counts) {
        let own = self.current as usize;
        let queues = &mut self.queues[..self.count as usize];
        let mut tickets = Tickets { queues, own, running: &self.running };
        let guest = &mut self.guests[own];
        let system = !guest.user();
        let cause = guest.step(memory, &mut tickets, engine, counts);
        guest.counter = guest.counter.wrapping_add(1);
        self.left -= 1;
        if self.left == 0 || system && cause == Some(Cause::Trap) {
            self.pass_turn();
        }
    }

    /// The turn passes to the next running partition in cyclic order, itself if alone; with none
    /// running, none is current with 0 left.
    fn pass_turn(&mut self) {
        let after = (1..=self.count).map(|step| (self.current + step) % self.count);
        match after.into_iter().find(|&next| self.running[next as usize]) {
            Some(next) => (self.current, self.left) = (next, self.q),
            None => (self.current, self.left) = (0, 0),
        }
    }

    /// Starts a partition.
    pub fn start(&mut self, partition: u32) -> Answer {
        let at = self.check_partition(partition)?;
        self.running[at] = true;
        if self.left == 0 {
            (self.current, self.left) = (partition, self.q);
        }
        Ok(0)
    }

    /// Stops a partition.
    pub fn stop(&mut self, partition: u32) -> Answer {
        let at = self.check_partition(partition)?;
        let had_turn = self.left > 0 && self.current == partition;
        self.running[at] = false;
        if had_turn {
            self.pass_turn();
        }
        Ok(0)
    }

    /// Empties the shadow of a partition.
    pub fn empty(&mut self, partition: u32, counts: &mut Counts) -> Answer {
        let at = self.check_partition(partition)?;
        counts.emptied_by_call += self.guests[at].space.empty();
        Ok(0)
    }

    /// Reads words out of a partition's pages, from an untranslated guest byte address.
    pub fn read_out(
        &self,
        memory: &[u32],
        partition: u32,
        address: u32,
        count: u64,
        output: &mut [u32],
    ) -> Answer {
        self.check_damage()?;
        self.check_length(memory)?;
        let space = &self.guests[self.index(partition)?].space;
        let end = u128::from(address) + 4 * u128::from(count);
        if !address.is_multiple_of(4) || end > u128::from(PAGE_BYTES * u64::from(space.pages)) {
            return Err(Refusal::Address);
        }
        if (output.len() as u64) < count {
            return Err(Refusal::Output);
        }
        for (at, word) in output[..count as usize].iter_mut().enumerate() {
            *word = space.word(memory, Place::of(address + 4 * at as u32));
        }
        Ok(count)
    }

    /// 8, then 9.
    pub(crate) fn check_memory_and_damage(&self, memory: &[u32]) -> Result<(), Refusal> {
        self.check_damage()?;
        self.check_length(memory)
    }

    fn check_damage(&self) -> Result<(), Refusal> {
        if self.damaged() {
            return Err(Refusal::Damaged);
        }
        Ok(())
    }

    fn check_length(&self, memory: &[u32]) -> Result<(), Refusal> {
        if memory.len() != self.words as usize {
            return Err(Refusal::Length);
        }
        Ok(())
    }

    fn check_partition(&self, partition: u32) -> Result<usize, Refusal> {
        self.check_damage()?;
        self.index(partition)
    }

    fn index(&self, partition: u32) -> Result<usize, Refusal> {
        if partition >= self.count {
            return Err(Refusal::NoPartition);
        }
        Ok(partition as usize)
    }

    /// Whether the house is damaged.
    pub fn damaged(&self) -> bool {
        self.limits_damaged()
            || self.unused_damaged()
            || self.lists_damaged()
            || self.turn_damaged()
            || self.used().iter().any(guest_damaged)
            || self.queues[..self.count as usize].iter().any(Queue::damaged)
    }

    /// The partitions that the house has; for an undamaged count only.
    fn used(&self) -> &[Guest] {
        &self.guests[..self.count as usize]
    }

    /// A count outside boot's limits.
    fn limits_damaged(&self) -> bool {
        check_partitions(self.count as usize).is_err()
            || self.used().iter().any(|guest| page_count_wrong(guest.space.pages))
            || check_turn(self.q).is_err()
            || check_memory(self.words as usize).is_err()
    }

    /// Anything but 0 in the place of a partition that the house does not have.
    fn unused_damaged(&self) -> bool {
        let count = self.count as usize;
        self.guests[count..].iter().any(|guest| *guest != Guest::ZERO)
            || self.queues[count..].iter().any(|queue| *queue != Queue::EMPTY)
            || self.running[count..].contains(&true)
    }

    /// A frame outside boot's limits, the house's own, or twice.
    fn lists_damaged(&self) -> bool {
        let lists: Vec<u32> =
            self.used().iter().flat_map(|guest| guest.space.list()).copied().collect();
        check_frames(&lists, self.words as usize).is_err()
    }

    /// A current partition that isn't running, none current while one runs, steps left not 1..q
    /// while one is current. None is current exactly when 0 steps are left; the index is then 0.
    fn turn_damaged(&self) -> bool {
        if self.left == 0 {
            return self.current != 0 || self.running.contains(&true);
        }
        self.left > self.q || self.current >= self.count || !self.running[self.current as usize]
    }
}

/// Register 0, MODE, EMODE, the latest fault, the frame list's unused places and the shadow of a
/// partition.
fn guest_damaged(guest: &Guest) -> bool {
    let space = &guest.space;
    guest.registers[0] != 0
        || guest.specials[MODE] > 1
        || guest.specials[EMODE] > 1
        || guest.fault > Fault::LAST
        || space.frames[space.pages as usize..].iter().any(|&frame| frame != 0)
        || space.shadow.iter().any(|&entry| !shadow_sound(space, entry))
}

/// An entry is all 0, or valid with a frame of its partition and nothing in its unused bits.
fn shadow_sound(space: &Space, entry: u32) -> bool {
    let unused = entry & 0xFFF & !(VALID | PROTECTED);
    entry == 0 || entry & VALID != 0 && unused == 0 && space.list().contains(&(entry >> 12))
}

/// Boot's refusals: 1 to 6, 16, 7.
fn check_boot(pages: &[u32], q: u32, frames: &[u32], memory_words: usize) -> Result<(), Refusal> {
    check_partitions(pages.len())?;
    if let Some(first) = pages.iter().position(|&count| page_count_wrong(count)) {
        return Err(Refusal::PageCount(first));
    }
    check_turn(q)?;
    check_memory(memory_words)?;
    if frames.len() as u32 != pages.iter().sum::<u32>() {
        return Err(Refusal::ListLength);
    }
    check_frames(frames, memory_words)
}

fn check_partitions(count: usize) -> Result<(), Refusal> {
    if !(1..=PARTITIONS).contains(&count) {
        return Err(Refusal::Partitions);
    }
    Ok(())
}

fn page_count_wrong(count: u32) -> bool {
    !(1..=MOST_PAGES).contains(&count)
}

fn check_turn(q: u32) -> Result<(), Refusal> {
    if !(1..=MOST_TURN).contains(&q) {
        return Err(Refusal::Turn);
    }
    Ok(())
}

fn check_memory(words: usize) -> Result<(), Refusal> {
    let whole = words.is_multiple_of(FRAME_WORDS);
    if !whole || !(1..=MOST_FRAMES).contains(&(words / FRAME_WORDS)) {
        return Err(Refusal::Memory);
    }
    Ok(())
}

/// Every frame below the memory's frames; then no frame the house's own; then no frame twice: each
/// over the whole list.
fn check_frames(frames: &[u32], memory_words: usize) -> Result<(), Refusal> {
    let most = memory_words / FRAME_WORDS;
    if let Some(first) = frames.iter().position(|&frame| frame as usize >= most) {
        return Err(Refusal::Frame(first));
    }
    if let Some(first) = frames.iter().position(|&frame| frame == HOUSE_FRAME) {
        return Err(Refusal::HouseFrame(first));
    }
    let mut stood = vec![false; most];
    for (at, &frame) in frames.iter().enumerate() {
        if std::mem::replace(&mut stood[frame as usize], true) {
            return Err(Refusal::Twice(at));
        }
    }
    Ok(())
}
