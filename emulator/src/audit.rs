//! The shadow audit: which valid shadow entries are not what the guest's table and the host's list
//! give now.

use crate::counts::Counts;
use crate::dlx::Guest;
use crate::house::{Answer, House, Refusal};
use crate::memory::{Fault, PROTECTED};

/// Why a valid shadow entry is stale.
#[derive(Clone, Copy, Debug, PartialEq, Eq)]
#[allow(missing_docs)]
pub enum Why {
    Frame,
    Protection,
    FrameAndProtection,
    BeyondPtl,
    TableOutside,
    Invalid,
    BeyondPages,
}

impl Why {
    /// How many there are.
    pub const COUNT: usize = 7;
    /// Their names, in order.
    pub const NAMES: [&'static str; Why::COUNT] = [
        "another frame",
        "another protection",
        "another frame and protection",
        "beyond PTL",
        "table outside",
        "entry not valid",
        "page number too large",
    ];

    fn of_fault(fault: Fault) -> Why {
        match fault {
            Fault::Length => Why::BeyondPtl,
            Fault::Outside => Why::TableOutside,
            Fault::Invalid => Why::Invalid,
            Fault::Page => Why::BeyondPages,
            Fault::Limit | Fault::Protected | Fault::System => {
                unreachable!("not the fault of a walk for an entry that the shadow has")
            }
        }
    }
}

/// A stale entry.
#[derive(Clone, Copy, Debug, PartialEq, Eq)]
pub struct Stale {
    /// The partition.
    pub partition: usize,
    /// The page.
    pub px: usize,
    /// The reason.
    pub why: Why,
}

/// Why an entry of an undamaged house is stale; none where it is right, or empty. The mode makes no
/// difference, nor does it whether the partition runs.
fn stale(guest: &Guest, memory: &[u32], px: usize) -> Option<Why> {
    let entry = guest.space.shadow[px];
    if entry == 0 {
        return None;
    }
    let now = match guest.space.filling(memory, guest.table(), px as u32) {
        Ok(now) => now,
        Err(fault) => return Some(Why::of_fault(fault)),
    };
    match (entry >> 12 == now >> 12, entry & PROTECTED == now & PROTECTED) {
        (true, true) => None,
        (false, true) => Some(Why::Frame),
        (true, false) => Some(Why::Protection),
        (false, false) => Some(Why::FrameAndProtection),
    }
}

impl House {
    /// All stale entries, by partition then page.
    fn stale_entries(&self, memory: &[u32]) -> Vec<Stale> {
        let guests = self.guests[..self.count as usize].iter().enumerate();
        let of_guest = |(partition, guest): (usize, &Guest)| {
            let pages = 0..guest.space.shadow.len();
            let stale = |px| Some(Stale { partition, px, why: stale(guest, memory, px)? });
            pages.filter_map(stale).collect::<Vec<_>>()
        };
        guests.flat_map(of_guest).collect()
    }

    /// The first stale entry, by partition then page, or none.
    pub fn audit(&self, memory: &[u32], counts: &mut Counts) -> Result<Option<Stale>, Refusal> {
        self.check_memory_and_damage(memory)?;
        let stale = self.stale_entries(memory);
        counts.audits.audited(self, &stale);
        Ok(stale.first().copied())
    }

    /// Empties the stale entries and no others; tells how many there were.
    pub fn mend(&mut self, memory: &[u32], counts: &mut Counts) -> Answer {
        self.check_memory_and_damage(memory)?;
        let stale = self.stale_entries(memory);
        for entry in &stale {
            self.guests[entry.partition].space.shadow[entry.px] = 0;
        }
        counts.audits.mended(self, stale.len());
        Ok(stale.len() as u64)
    }

    /// How many entries of each partition are stale.
    pub fn stale_counts(&self, memory: &[u32]) -> Result<Vec<usize>, Refusal> {
        self.check_memory_and_damage(memory)?;
        let stale = self.stale_entries(memory);
        let of = |partition| stale.iter().filter(|entry| entry.partition == partition).count();
        Ok((0..self.count as usize).map(of).collect())
    }
}
