//! What kinds of files the programs that take a house file or a saved file were given, and what they were
//! asked for: counted, so that none is met too seldom.

use std::collections::{BTreeMap, HashSet};
use std::fmt;

use crate::counts::Counts;
use crate::dlx::special::{ECA, EMODE, MODE};
use crate::dlx::{Cause, Guest};
use crate::generate::Read;
use crate::look::cause;
use crate::reads::{house, is_saved, list_frame, readout, Words};

/// The programs.
#[derive(Clone, Copy, Debug, PartialEq, Eq)]
#[allow(missing_docs)]
pub enum Of {
    Look,
    Audit,
    Readout,
    List,
}

impl Of {
    /// All of them.
    pub const ALL: [Of; 4] = [Of::Look, Of::Audit, Of::Readout, Of::List];

    /// The name, for reports.
    pub fn name(self) -> &'static str {
        match self {
            Of::Look => "look",
            Of::Audit => "audit of either",
            Of::Readout => "readout",
            Of::List => "list with a frame",
        }
    }

    /// Every kind that must be met.
    pub fn kinds(self) -> Vec<String> {
        let plain = |kinds: &[&str]| kinds.iter().map(|kind| kind.to_string()).collect();
        match self {
            Of::Look => {
                let mut kinds: Vec<String> = plain(&["refused 9", "refused 15", "refused 17"]);
                kinds.push("saved, stopped".into());
                kinds.push("saved, none current".into());
                for file in ["house", "saved"] {
                    let kind = |kind: &str| format!("{file}, {kind}");
                    kinds.extend(["system", "user", "running", "every number another"].map(kind));
                    kinds.extend((0..8).map(|number| kind(&format!("fault {number}"))));
                    kinds.extend(["none", "no cause"].map(kind));
                    kinds.extend(Cause::ALL.map(|cause| kind(cause.name())));
                }
                kinds
            }
            Of::Audit => {
                plain(&["house, done", "saved, done", "refused 9", "refused 15", "refused 17"])
            }
            Of::Readout => {
                let mut kinds: Vec<String> =
                    plain(&["failed", "to the end", "of no words", "over pages"]);
                kinds.push("signed, below 0".into());
                for form in ["decimals", "raw", "signed"] {
                    let kind = |kind: &str| format!("{form}, {kind}");
                    kinds.extend(["house, done", "saved, done"].map(kind));
                    kinds.extend([10, 12, 17].map(|number| kind(&format!("refused {number}"))));
                }
                kinds
            }
            Of::List => {
                plain(&["house, done", "saved, done", "refused 15", "refused 17", "failed"])
            }
        }
    }
}

/// How often each kind must be met among so many files.
pub fn least(files: usize) -> u64 {
    files as u64 / 100
}

/// How often each kind was met.
#[derive(Clone, Debug, Default)]
pub struct Tally(BTreeMap<String, u64>);

impl Tally {
    fn add(&mut self, kind: String) {
        *self.0.entry(kind).or_default() += 1;
    }

    /// Counts what a program is given.
    pub fn read(&mut self, of: Of, read: &Read) {
        let bytes = &read.file.bytes;
        let counts = &mut Counts::default();
        let shape = if is_saved(bytes) { "saved" } else { "house" };
        match of {
            Of::Look => self.look(shape, bytes),
            Of::Audit => {
                let answer = house(bytes, counts).map(|_| ());
                self.add(answer.map_or_else(refused, |()| format!("{shape}, done")));
            }
            Of::Readout => self.readout(shape, read),
            Of::List => {
                let failed = list_frame(bytes, &read.frame, counts).line.is_some();
                let number = counts.answers.iter().position(|&given| given > 0).unwrap_or(0);
                self.add(match number {
                    _ if failed => "failed".into(),
                    0 => format!("{shape}, done"),
                    number => format!("refused {number}"),
                });
            }
        }
    }

    fn look(&mut self, shape: &str, bytes: &[u8]) {
        let house = match house(bytes, &mut Counts::default()) {
            Err(answer) => return self.add(refused(answer)),
            Ok((house, _)) => house,
        };
        let mut add = |kind: &str| self.add(format!("{shape}, {kind}"));
        if house.left == 0 {
            add("none current");
        }
        let guests = house.guests.iter().zip(house.running).take(house.count as usize);
        for (guest, running) in guests {
            let eca = guest.specials[ECA];
            add(if running { "running" } else { "stopped" });
            add(if guest.specials[MODE] == 0 { "system" } else { "user" });
            add(&format!("fault {}", guest.fault));
            add(match cause(eca) {
                _ if eca == 0 => "none",
                None => "no cause",
                Some(cause) => cause.name(),
            });
            if every_number_another(guest) {
                add("every number another");
            }
        }
    }

    fn readout(&mut self, shape: &str, read: &Read) {
        let bytes = &read.file.bytes;
        let Some(Words { partition, address, count, form }) = Words::read(&read.words) else {
            return self.add("failed".into());
        };
        let form = form.name();
        let counts = &mut Counts::default();
        let said = readout(bytes, &read.words, counts);
        let number = counts.answers.iter().position(|&given| given > 0).unwrap_or(0);
        if number > 0 {
            return self.add(format!("{form}, refused {number}"));
        }
        self.add(format!("{form}, {shape}, done"));
        if form == "signed" && said.bytes.contains(&b'-') {
            self.add("signed, below 0".into());
        }
        let (first, end) = (u64::from(address), u64::from(address) + 4 * count);
        let pages = house(bytes, counts)
            .map_or(0, |(house, _)| u64::from(house.guests[partition as usize].space.pages));
        if count == 0 {
            return self.add("of no words".into());
        }
        if end == 4_096 * pages {
            self.add("to the end".into());
        }
        if first / 4_096 != (end - 1) / 4_096 {
            self.add("over pages".into());
        }
    }

    /// The kinds that must be met and were not often enough.
    pub fn seldom(&self, of: Of, files: usize) -> Vec<(String, u64)> {
        let met = |kind: String| {
            let met = self.0.get(&kind).copied().unwrap_or(0);
            (kind, met)
        };
        of.kinds().into_iter().map(met).filter(|&(_, met)| met < least(files)).collect()
    }
}

fn refused((number, _): (u32, u64)) -> String {
    format!("refused {number}")
}

/// Whether no two of the registers, program counters and special registers are the same, but for register
/// 0, MODE, EMODE and those that are 0.
fn every_number_another(guest: &Guest) -> bool {
    let specials = guest.specials.iter().enumerate().filter(|&(at, _)| at != MODE && at != EMODE);
    let numbers = guest.registers.iter().chain(specials.map(|(_, number)| number));
    let numbers = numbers.chain([&guest.dpc, &guest.pc]).filter(|&&number| number != 0);
    let mut seen = HashSet::new();
    let mut many = 0;
    let another = numbers.into_iter().all(|number| {
        many += 1;
        seen.insert(number)
    });
    another && many >= 40
}

impl fmt::Display for Tally {
    fn fmt(&self, f: &mut fmt::Formatter<'_>) -> fmt::Result {
        let kinds: Vec<String> = self.0.iter().map(|(kind, met)| format!("{kind}:{met}")).collect();
        write!(f, "{}", kinds.join("; "))
    }
}
