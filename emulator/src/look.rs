//! A look at the partitions: what each came to, in words and numbers.

use std::fmt::Write;

use crate::dlx::special::{ECA, EDATA, MODE, NAMES};
use crate::dlx::{level, Cause, Guest};
use crate::house::House;

/// What a cause means, behind its name; a trap's number says it.
fn meaning(cause: Cause) -> &'static str {
    match cause {
        Cause::Ill => ", an illegal instruction",
        Cause::Mal => ", a misaligned address",
        Cause::Pff => ", a page fault in fetching",
        Cause::Pfls => ", a page fault of a load or store",
        Cause::Trap => "",
        Cause::Ovf => ", an overflow",
        Cause::Timer => ", TCOUNT reached 0",
    }
}

/// The faults of a translation, from 1 on.
const FAULTS: [&str; 7] = [
    "a page not below PTL",
    "a page above 1023",
    "a table entry outside the pages",
    "a table entry that is not valid",
    "a page that the guest does not have",
    "a store to a protected page",
    "an address beyond the pages in system mode",
];

/// The cause that ECA tells; none where its lowest bit is no cause's.
pub fn cause(eca: u32) -> Option<Cause> {
    Cause::ALL.into_iter().find(|&cause| cause as u32 == level(eca))
}

/// The latest interrupt, by ECA and EDATA.
fn interrupt(guest: &Guest) -> String {
    let [eca, edata] = [ECA, EDATA].map(|special| guest.specials[special]);
    match cause(eca) {
        _ if eca == 0 => "none".to_string(),
        None => format!("no cause, since ECA was written, EDATA {edata}"),
        Some(cause) => format!("{}{}, EDATA {edata}", cause.name(), meaning(cause)),
    }
}

/// The latest fault of a house that is not damaged.
fn fault(number: u32) -> String {
    match number.checked_sub(1) {
        None => "none".to_string(),
        Some(at) => format!("{number}, {}", FAULTS[at as usize]),
    }
}

/// The special registers from one number up to another, by name.
fn specials(guest: &Guest, from: usize, to: usize) -> String {
    let one = |at: usize| format!("{} {}", NAMES[at].to_uppercase(), guest.specials[at]);
    (from..to).map(one).collect::<Vec<_>>().join(", ")
}

/// The lines of a house that is not damaged.
pub fn text(house: &House) -> String {
    let House { count, q, current, left, .. } = house;
    let mut text = format!(
        "house: partitions {count}, turn length {q}, current {current}, steps left {left}\n"
    );
    let guests = house.guests.iter().zip(house.running).take(*count as usize);
    for (number, (guest, running)) in guests.enumerate() {
        // Writing to a string cannot fail.
        let _ = partition(&mut text, number, guest, running);
    }
    text
}

fn partition(
    text: &mut String,
    number: usize,
    guest: &Guest,
    running: bool,
) -> Result<(), std::fmt::Error> {
    let runs = if running { "running" } else { "stopped" };
    let mode = if guest.specials[MODE] == 0 { "system" } else { "user" };
    let (pages, steps) = (guest.space.pages, guest.counter);
    writeln!(text, "partition {number}: {runs}, {mode} mode, pages {pages}, steps {steps}")?;
    writeln!(text, "  latest interrupt: {}", interrupt(guest))?;
    writeln!(text, "  latest translation fault: {}", fault(guest.fault))?;
    writeln!(text, "  DPC {}, PC {}, {}", guest.dpc, guest.pc, specials(guest, 0, EDATA))?;
    writeln!(text, "  {}", specials(guest, EDATA, NAMES.len()))?;
    for (row, registers) in guest.registers.chunks(8).enumerate() {
        let numbers: Vec<String> = registers.iter().map(u32::to_string).collect();
        writeln!(text, "  r{}: {}", 8 * row, numbers.join(" "))?;
    }
    Ok(())
}
