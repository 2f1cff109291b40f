//! What a comparison has met, for the report at its end.

use std::fmt;
use std::ops::AddAssign;

use crate::audit::{Stale, Why};
use crate::dlx::special::{PTL, PTO};
use crate::dlx::Cause;
use crate::engines::Engines;
use crate::fields::{self, FRAMES, QUEUES, SHADOWS};
use crate::house::{House, Refusal};
use crate::housefile::HEAD;
use crate::memory::{Width, ENTRIES};
use crate::saved;
use crate::script::Command;
use crate::timer::Kind;

/// Shadow entries: how many in all, and how many above entry 255.
#[derive(Clone, Copy, Debug, Default, PartialEq, Eq)]
pub struct Entries {
    /// All of them.
    pub all: u64,
    /// Those above entry 255.
    pub above: u64,
}

impl Entries {
    /// One entry more.
    pub fn add(&mut self, px: usize) {
        *self += Entries { all: 1, above: u64::from(px > 255) };
    }
}

impl AddAssign for Entries {
    fn add_assign(&mut self, other: Entries) {
        self.all += other.all;
        self.above += other.above;
    }
}

/// Loads and stores that were done, by width.
#[derive(Clone, Copy, Debug, Default, PartialEq, Eq)]
pub struct Widths {
    /// Bytes.
    pub bytes: u64,
    /// Half words.
    pub halves: u64,
    /// Words.
    pub words: u64,
}

impl Widths {
    fn add(&mut self, width: Width) {
        match width {
            Width::Byte => self.bytes += 1,
            Width::Half => self.halves += 1,
            Width::Word => self.words += 1,
        }
    }
}

impl AddAssign for Widths {
    fn add_assign(&mut self, other: Widths) {
        self.bytes += other.bytes;
        self.halves += other.halves;
        self.words += other.words;
    }
}

/// Steps in which a timer reached zero.
#[derive(Clone, Debug, Default, PartialEq, Eq)]
pub struct Timers {
    /// Interrupts of level 13, by the kind of instruction that they followed.
    pub levels: [u64; Kind::COUNT],
    /// Those of them in user mode.
    pub user: u64,
    /// Those of them whose step filled a shadow entry.
    pub filled: u64,
    /// Those of them whose step emptied a valid shadow entry.
    pub emptied: u64,
    /// Cause 13 beside a lower cause, by that cause.
    pub beside: [u64; 7],
    /// Masked and dropped in a step without another cause.
    pub masked: u64,
    /// Masked and dropped in a step with a lower cause, by that cause.
    pub masked_beside: [u64; 7],
}

impl AddAssign<&Timers> for Timers {
    fn add_assign(&mut self, other: &Timers) {
        add_all(&mut self.levels, &other.levels);
        add_all(&mut self.beside, &other.beside);
        add_all(&mut self.masked_beside, &other.masked_beside);
        self.user += other.user;
        self.filled += other.filled;
        self.emptied += other.emptied;
        self.masked += other.masked;
    }
}

/// What was edited by hand, and could have made a shadow entry stale.
#[derive(Clone, Copy, Debug, Default, PartialEq, Eq)]
pub struct Edited {
    /// Words of the memory, while some shadow entry was valid.
    pub memory: bool,
    /// PTO, PTL, page counts or frame lists, while some shadow entry was valid; or a shadow entry was
    /// put there that was not right.
    pub house: bool,
}

impl Edited {
    /// Notes that the memory is written, other than by a guest.
    pub fn write(&mut self, house: &House) {
        self.memory = self.memory || some_valid(house);
    }

    /// Notes a command before it is played.
    pub fn note(&mut self, command: &Command, house: &House, memory: &[u32]) {
        match *command {
            Command::Poke { .. } | Command::Fill { .. } => self.write(house),
            Command::Field { index, value } if !self.house => {
                self.house = match index {
                    SHADOWS..QUEUES => value != 0 && !right(house, memory, index - SHADOWS, value),
                    _ => part_of_translation(index) && some_valid(house),
                }
            }
            _ => {}
        }
    }
}

/// Whether an entry, by its place among all, would be right with this value.
fn right(house: &House, memory: &[u32], place: u32, value: u32) -> bool {
    let (partition, px) = (place / ENTRIES as u32, place % ENTRIES as u32);
    let guest = &house.guests[partition as usize];
    memory.len() == house.words as usize
        && !house.damaged()
        && guest.space.filling(memory, guest.table(), px) == Ok(value)
}

/// A field of the house, other than a shadow entry, on which translation depends.
fn part_of_translation(index: u32) -> bool {
    let scalars = |part| {
        let pages = fields::scalar(part, fields::PAGES);
        [pages, fields::special(part, PTO), fields::special(part, PTL)]
    };
    (FRAMES..SHADOWS).contains(&index) || (0..8).any(|part| scalars(part).contains(&index))
}

/// The shadow entries of all partitions that a house has.
fn entries(house: &House) -> impl Iterator<Item = u32> + '_ {
    let used = &house.guests[..house.guests.len().min(house.count as usize)];
    used.iter().flat_map(|guest| guest.space.shadow)
}

/// Whether some shadow entry of a house is not empty.
fn some_valid(house: &House) -> bool {
    entries(house).any(|entry| entry != 0)
}

/// How many shadow entries of a house are not empty.
pub(crate) fn valid_entries(house: &House) -> usize {
    entries(house).filter(|&entry| entry != 0).count()
}

/// Audits and mends that were done.
#[derive(Clone, Debug, Default, PartialEq, Eq)]
pub struct Audits {
    /// What was edited before the next call.
    pub edited: Edited,
    /// Audits of houses with valid entries, none of them stale: after no edit, and after some.
    pub right: [u64; 2],
    /// Audits that found an entry: after no edit, of the memory alone, of the house alone, of both.
    pub found: [u64; 4],
    /// Those of them that found the first in another partition than the first.
    pub later: u64,
    /// Those of them whose house had right entries, too.
    pub mixed: u64,
    /// Stale entries in them, by the reason.
    pub stale: [u64; Why::COUNT],
    /// Stale entries in them of partitions that were stopped.
    pub stopped: u64,
    /// Stale entries in them of partitions in system mode.
    pub system: u64,
    /// Stale entries in them above entry 255.
    pub above: u64,
    /// Mends that emptied nothing, and mends that did and left others.
    pub mends: [u64; 2],
    /// Entries that they emptied.
    pub emptied: u64,
}

impl Audits {
    /// An audit of an undamaged house.
    pub fn audited(&mut self, house: &House, stale: &[Stale]) {
        let valid = valid_entries(house);
        let Edited { memory, house: by_house } = self.edited;
        let Some(first) = stale.first() else {
            self.right[usize::from(memory || by_house)] += u64::from(valid > 0);
            return;
        };
        self.found[usize::from(memory) + 2 * usize::from(by_house)] += 1;
        self.later += u64::from(first.partition > 0);
        self.mixed += u64::from(valid > stale.len());
        for entry in stale {
            self.stale[entry.why as usize] += 1;
            self.stopped += u64::from(!house.running[entry.partition]);
            self.system += u64::from(!house.guests[entry.partition].user());
            self.above += u64::from(entry.px > 255);
        }
    }

    /// A mend of an undamaged house, which is given as the mend left it.
    pub fn mended(&mut self, house: &House, emptied: usize) {
        self.mends[0] += u64::from(emptied == 0);
        self.mends[1] += u64::from(emptied > 0 && valid_entries(house) > 0);
        self.emptied += emptied as u64;
    }

    /// What must be met often, by name.
    pub fn kinds(&self) -> Vec<(&'static str, u64)> {
        let [_, memory, house, both] = self.found;
        let reasons = Why::NAMES.into_iter().zip(self.stale);
        let others = [
            ("of a stopped partition", self.stopped),
            ("of system mode", self.system),
            ("above 255", self.above),
            ("audits after edits of the memory", memory),
            ("audits after edits of the house", house),
            ("audits after edits of both", both),
            ("audits with the first in a later partition", self.later),
            ("audits with right entries, too", self.mixed),
            ("right audits without edits", self.right[0]),
            ("right audits after edits", self.right[1]),
            ("mends of nothing", self.mends[0]),
            ("mends that left right entries", self.mends[1]),
        ];
        reasons.chain(others).collect()
    }
}

impl AddAssign<&Audits> for Audits {
    fn add_assign(&mut self, other: &Audits) {
        add_all(&mut self.right, &other.right);
        add_all(&mut self.found, &other.found);
        add_all(&mut self.stale, &other.stale);
        add_all(&mut self.mends, &other.mends);
        self.later += other.later;
        self.mixed += other.mixed;
        self.stopped += other.stopped;
        self.system += other.system;
        self.above += other.above;
        self.emptied += other.emptied;
    }
}

/// Saves, and readings of saved files.
#[derive(Clone, Debug, Default, PartialEq, Eq)]
pub struct Saves {
    /// Saves that wrote up to the file's end, that stopped before it, that began behind it, and that
    /// were refused by 8 and by 9.
    pub saves: [u64; 5],
    /// Bytes that they wrote.
    pub written: u64,
    /// Pieces by the reading's answer so far: none, 9, 17.
    pub pieces: [u64; 3],
    /// Those of them that had no bytes.
    pub empty: u64,
    /// Those of them that ended between records, in a head and in a body.
    pub cuts: [u64; 3],
    /// Readings that were finished, by answer: done, 9, 17.
    pub finished: [u64; 3],
    /// Refused readings by the reason.
    pub whys: [u64; saved::Why::COUNT],
    /// Runs of a house that was read from a file.
    pub went_on: u64,
}

/// The place of a reading's answer: done, 9, 17.
fn reading_answer(refused: Option<Refusal>) -> usize {
    match refused {
        None => 0,
        Some(Refusal::Length) => 1,
        Some(_) => 2,
    }
}

impl Saves {
    /// A save was asked for.
    pub fn asked(&mut self, sound: Result<(), Refusal>) {
        match sound {
            Ok(()) => {}
            Err(Refusal::Damaged) => self.saves[3] += 1,
            Err(_) => self.saves[4] += 1,
        }
    }

    /// A save wrote so many of the bytes that were left.
    pub fn saved(&mut self, written: usize, left: usize) {
        let place = match left {
            0 => 2,
            _ if written < left => 1,
            _ => 0,
        };
        self.saves[place] += 1;
        self.written += written as u64;
    }

    /// A piece was read, and left so many bytes of a record in hand.
    pub fn read(&mut self, refused: Option<Refusal>, in_hand: usize, bytes: usize) {
        self.pieces[reading_answer(refused)] += 1;
        self.empty += u64::from(bytes == 0);
        if refused.is_none() {
            let place = match in_hand {
                0 => 0,
                1..HEAD => 1,
                _ => 2,
            };
            self.cuts[place] += 1;
        }
    }

    /// A reading was finished.
    pub fn finished(&mut self, refused: Option<Refusal>) {
        self.finished[reading_answer(refused)] += 1;
    }

    /// What must be met often, by name.
    pub fn kinds(&self) -> Vec<(&'static str, u64)> {
        let saves =
            ["saves to the end", "saves of a part", "saves of nothing", "saves refused by 8"];
        let pieces = ["pieces", "pieces after 9", "pieces after 17"];
        let cuts = ["pieces up to a record's end", "cuts in a head", "cuts in a body"];
        let finished = ["readings done", "readings refused by 9", "readings refused by 17"];
        let others = [
            ("saves refused by 9", self.saves[4]),
            ("pieces of no bytes", self.empty),
            ("runs after a reading", self.went_on),
        ];
        let whys = saved::Why::NAMES.into_iter().zip(self.whys);
        saves
            .into_iter()
            .zip(self.saves)
            .chain(pieces.into_iter().zip(self.pieces))
            .chain(cuts.into_iter().zip(self.cuts))
            .chain(finished.into_iter().zip(self.finished))
            .chain(others)
            .chain(whys)
            .collect()
    }
}

impl AddAssign<&Saves> for Saves {
    fn add_assign(&mut self, other: &Saves) {
        add_all(&mut self.saves, &other.saves);
        add_all(&mut self.pieces, &other.pieces);
        add_all(&mut self.cuts, &other.cuts);
        add_all(&mut self.finished, &other.finished);
        add_all(&mut self.whys, &other.whys);
        self.written += other.written;
        self.empty += other.empty;
        self.went_on += other.went_on;
    }
}

/// Counts of steps, interrupts, loads and stores, shadow changes, tickets and answers.
#[derive(Clone, Debug, Default, PartialEq, Eq)]
pub struct Counts {
    /// Guest steps, by MODE before the step.
    pub steps: [u64; 2],
    /// Interrupts, by level (1 ill to 6 ovf, 13 timer).
    pub interrupts: [u64; 14],
    /// Interrupts where PC is not DPC + 4, as in a delay slot, by level.
    pub slots: [u64; 14],
    /// Faults of fetches, by number (1 to 7).
    pub fetch_faults: [u64; 8],
    /// Faults of data accesses, by number (1 to 7).
    pub data_faults: [u64; 8],
    /// Interrupts raised by the first word of the handler: a guest in an interrupt loop.
    pub loops: u64,
    /// Loads that were done and extend the sign, and lw.
    pub signed_loads: Widths,
    /// Loads that were done and extend with zeros.
    pub unsigned_loads: Widths,
    /// Stores that were done.
    pub stores: Widths,
    /// Half words at odd addresses: mal.
    pub odd_halves: u64,
    /// Data faults at odd addresses: pfls.
    pub odd_faults: u64,
    /// Shadow entries filled.
    pub fills: Entries,
    /// Valid shadow entries emptied by a store into the table.
    pub emptied_by_store: Entries,
    /// Those of them that a store of a byte or half word emptied.
    pub emptied_by_part: u64,
    /// Valid shadow entries emptied by movi2s to PTO or PTL.
    pub emptied_by_special: Entries,
    /// Valid shadow entries emptied by the call.
    pub emptied_by_call: Entries,
    /// Sends in system mode, by their answer (0 done, 1 full, 2 no such partition).
    pub sends: [u64; 4],
    /// Sends done to the sender itself.
    pub sends_to_oneself: u64,
    /// Sends done to a stopped partition.
    pub sends_to_stopped: u64,
    /// Takes in system mode, by their answer (0 done, 3 none waiting).
    pub takes: [u64; 4],
    /// Traps 256 and 257 in user mode.
    pub user_tickets: u64,
    /// Timers that reached zero.
    pub timers: Timers,
    /// Shadow audits.
    pub audits: Audits,
    /// Saves and readings.
    pub saves: Saves,
    /// Runs by the engine without shadows.
    pub engines: Engines,
    /// Answers, by house number.
    pub answers: [u64; 18],
}

impl Counts {
    /// All guest steps.
    pub fn all_steps(&self) -> u64 {
        self.steps.iter().sum()
    }

    /// Faults of both kinds, by number.
    pub fn faults(&self) -> [u64; 8] {
        std::array::from_fn(|number| self.fetch_faults[number] + self.data_faults[number])
    }

    /// Shadow entries filled, and those emptied by a step.
    pub fn shadows(&self) -> [u64; 2] {
        [self.fills.all, self.emptied_by_store.all + self.emptied_by_special.all]
    }

    /// A timer reached zero, in a step that did its instruction or had a lower cause, masked or not;
    /// the shadow entries were counted before the step.
    pub fn timer(
        &mut self,
        done: Result<Kind, Cause>,
        unmasked: bool,
        user: bool,
        shadows: [u64; 2],
    ) {
        let [filled, emptied] = self.shadows();
        let timers = &mut self.timers;
        match (done, unmasked) {
            (Ok(kind), true) => {
                timers.levels[kind as usize] += 1;
                timers.user += u64::from(user);
                timers.filled += u64::from(filled > shadows[0]);
                timers.emptied += u64::from(emptied > shadows[1]);
            }
            (Ok(_), false) => timers.masked += 1,
            (Err(cause), true) => timers.beside[cause as usize] += 1,
            (Err(cause), false) => timers.masked_beside[cause as usize] += 1,
        }
    }

    /// A load was done.
    pub fn load(&mut self, width: Width, signed: bool) {
        let loads = if signed { &mut self.signed_loads } else { &mut self.unsigned_loads };
        loads.add(width);
    }

    /// A store was done.
    pub fn store(&mut self, width: Width) {
        self.stores.add(width);
    }

    /// Loads and stores of bytes and half words that were done, by name.
    pub fn parts(&self) -> [(&'static str, u64); 6] {
        [
            ("lb", self.signed_loads.bytes),
            ("lh", self.signed_loads.halves),
            ("lbu", self.unsigned_loads.bytes),
            ("lhu", self.unsigned_loads.halves),
            ("sb", self.stores.bytes),
            ("sh", self.stores.halves),
        ]
    }

    /// All answers.
    pub fn all_answers(&self) -> u64 {
        self.answers.iter().sum()
    }

    /// All interrupts.
    pub fn all_interrupts(&self) -> u64 {
        self.interrupts.iter().sum()
    }

    /// The answers as `number:count` pairs, without those that were not given.
    pub fn answers_text(&self) -> String {
        let given = self.answers.iter().enumerate().filter(|(_, &count)| count > 0);
        let pairs: Vec<String> = given.map(|(number, count)| format!("{number}:{count}")).collect();
        pairs.join(" ")
    }
}

/// Interrupts as `cause:count` pairs, for the causes that there is a count for.
fn causes_text(counts: &[u64]) -> String {
    let counted = Cause::ALL.iter().filter(|&&cause| counts.len() > cause as usize);
    let pair = |cause: &Cause| format!("{}:{}", cause.name(), counts[*cause as usize]);
    counted.map(pair).collect::<Vec<_>>().join(" ")
}

/// The lines on timers.
fn timers_text(f: &mut fmt::Formatter<'_>, timers: &Timers) -> fmt::Result {
    let pairs =
        Kind::NAMES.iter().zip(timers.levels).map(|(name, count)| format!("{name}:{count}"));
    let kinds = pairs.collect::<Vec<_>>().join("; ");
    writeln!(f, "timer interrupts by the instruction before them: {kinds}")?;
    writeln!(
        f,
        "timer interrupts in user mode:{} after a fill:{} after an emptying:{}",
        timers.user, timers.filled, timers.emptied
    )?;
    writeln!(f, "cause 13 beside a lower cause: {}", causes_text(&timers.beside))?;
    writeln!(
        f,
        "cause 13 masked: alone:{} beside {}",
        timers.masked,
        causes_text(&timers.masked_beside)
    )
}

/// A line on shadow entries that were filled and emptied.
fn entries_text(f: &mut fmt::Formatter<'_>, of: &str, counts: [u64; 4]) -> fmt::Result {
    let [filled, store, special, call] = counts;
    writeln!(
        f,
        "{of}: filled:{filled} emptied by a store:{store} by PTO or PTL:{special} by the call:{call}"
    )
}

/// Faults as `number:count` pairs.
fn faults_text(counts: &[u64; 8]) -> String {
    let pair = |number: usize| format!("{number}:{}", counts[number]);
    (1..counts.len()).map(pair).collect::<Vec<_>>().join(" ")
}

impl fmt::Display for Counts {
    fn fmt(&self, f: &mut fmt::Formatter<'_>) -> fmt::Result {
        writeln!(f, "steps by mode: system:{} user:{}", self.steps[0], self.steps[1])?;
        writeln!(f, "interrupts by level: {}", causes_text(&self.interrupts))?;
        writeln!(f, "interrupts with PC not DPC + 4, by level: {}", causes_text(&self.slots))?;
        writeln!(f, "interrupts from the handler's first word: {}", self.loops)?;
        writeln!(f, "faults of fetches by number: {}", faults_text(&self.fetch_faults))?;
        writeln!(f, "faults of loads and stores by number: {}", faults_text(&self.data_faults))?;
        let parts = self.parts().map(|(name, count)| format!("{name}:{count}")).join(" ");
        let (lw, sw) = (self.signed_loads.words, self.stores.words);
        writeln!(f, "loads and stores done: {parts} lw:{lw} sw:{sw}")?;
        writeln!(
            f,
            "half words at odd addresses:{} pfls at odd addresses:{} entries emptied by sb or sh:{}",
            self.odd_halves, self.odd_faults, self.emptied_by_part
        )?;
        let entries =
            [self.fills, self.emptied_by_store, self.emptied_by_special, self.emptied_by_call];
        entries_text(f, "shadow entries", entries.map(|entries| entries.all))?;
        entries_text(f, "shadow entries above 255", entries.map(|entries| entries.above))?;
        let [sent, full, no_partition, _] = self.sends;
        writeln!(f, "sends by answer: done:{sent} full:{full} no such partition:{no_partition}")?;
        writeln!(
            f,
            "sends done to oneself:{} to a stopped partition:{}",
            self.sends_to_oneself, self.sends_to_stopped
        )?;
        let [taken, .., none] = self.takes;
        writeln!(f, "takes by answer: done:{taken} none waiting:{none}")?;
        writeln!(f, "ticket traps in user mode: {}", self.user_tickets)?;
        timers_text(f, &self.timers)?;
        let kinds: Vec<String> =
            self.audits.kinds().iter().map(|(name, count)| format!("{name}:{count}")).collect();
        writeln!(f, "stale entries and audits: {}", kinds.join("; "))?;
        let (found, emptied) = (self.audits.found[0], self.audits.emptied);
        writeln!(f, "stale without edits:{found} entries emptied by mends:{emptied}")?;
        let kinds: Vec<String> =
            self.saves.kinds().iter().map(|(name, count)| format!("{name}:{count}")).collect();
        writeln!(
            f,
            "saves and readings: {}; bytes saved:{}",
            kinds.join("; "),
            self.saves.written
        )?;
        let kinds: Vec<String> =
            self.engines.kinds().iter().map(|(name, count)| format!("{name}:{count}")).collect();
        writeln!(f, "runs without shadows: {}", kinds.join("; "))?;
        writeln!(
            f,
            "engines that differ in their turns:{} with nothing stale:{}",
            self.engines.turns_differ, self.engines.differ_right
        )
    }
}

impl AddAssign<&Counts> for Counts {
    fn add_assign(&mut self, other: &Counts) {
        add_all(&mut self.steps, &other.steps);
        add_all(&mut self.interrupts, &other.interrupts);
        add_all(&mut self.slots, &other.slots);
        add_all(&mut self.fetch_faults, &other.fetch_faults);
        add_all(&mut self.data_faults, &other.data_faults);
        add_all(&mut self.sends, &other.sends);
        add_all(&mut self.takes, &other.takes);
        add_all(&mut self.answers, &other.answers);
        self.loops += other.loops;
        self.signed_loads += other.signed_loads;
        self.unsigned_loads += other.unsigned_loads;
        self.stores += other.stores;
        self.odd_halves += other.odd_halves;
        self.odd_faults += other.odd_faults;
        self.emptied_by_part += other.emptied_by_part;
        self.fills += other.fills;
        self.emptied_by_store += other.emptied_by_store;
        self.emptied_by_special += other.emptied_by_special;
        self.emptied_by_call += other.emptied_by_call;
        self.sends_to_oneself += other.sends_to_oneself;
        self.sends_to_stopped += other.sends_to_stopped;
        self.user_tickets += other.user_tickets;
        self.timers += &other.timers;
        self.audits += &other.audits;
        self.saves += &other.saves;
        self.engines += &other.engines;
    }
}

pub(crate) fn add_all(into: &mut [u64], from: &[u64]) {
    for (total, more) in into.iter_mut().zip(from) {
        *total += more;
    }
}
