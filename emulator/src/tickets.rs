//! Tickets between partitions: a queue for each, and what the two traps do with it.

use crate::counts::Counts;

/// Immediate of the trap that sends a ticket.
pub const SEND: u32 = 256;
/// Immediate of the trap that takes one.
pub const TAKE: u32 = 257;
/// Tickets that a queue holds.
pub const PLACES: usize = 32;

/// Why no ticket was sent or taken, by the number for register 3; 0 there is done.
#[derive(Clone, Copy, Debug, PartialEq, Eq)]
pub enum Refused {
    /// The receiver's queue is full.
    Full = 1,
    /// No such partition.
    NoPartition = 2,
    /// No ticket waits.
    NoneWaiting = 3,
}

/// A partition's queue: the oldest ticket in the first place, unused places 0.
#[derive(Clone, Debug, PartialEq, Eq)]
pub struct Queue {
    /// How many tickets wait.
    pub waiting: u32,
    /// The tickets, the oldest first.
    pub places: [u32; PLACES],
}

impl Queue {
    /// No ticket waits.
    pub const EMPTY: Queue = Queue { waiting: 0, places: [0; PLACES] };

    /// Puts a ticket behind the others.
    fn put(&mut self, ticket: u32) -> Result<(), Refused> {
        let place = self.places.get_mut(self.waiting as usize).ok_or(Refused::Full)?;
        *place = ticket;
        self.waiting += 1;
        Ok(())
    }

    /// Takes the oldest ticket; the others move up.
    fn take(&mut self) -> Result<u32, Refused> {
        if self.waiting == 0 {
            return Err(Refused::NoneWaiting);
        }
        let oldest = std::mem::take(&mut self.places[0]);
        self.places.rotate_left(1);
        self.waiting -= 1;
        Ok(oldest)
    }

    /// More waiting than a queue holds, or anything but 0 in an unused place.
    pub fn damaged(&self) -> bool {
        let waiting = self.waiting as usize;
        waiting > PLACES || self.places[waiting..].iter().any(|&ticket| ticket != 0)
    }
}

/// The queues, as one partition reaches them.
#[derive(Debug)]
pub struct Tickets<'a> {
    /// The queues of the partitions that the house has.
    pub queues: &'a mut [Queue],
    /// The partition's own number.
    pub own: usize,
    /// Which partitions run. It makes no difference but to the counts.
    pub running: &'a [bool],
}

impl Tickets<'_> {
    /// Sends a ticket to a partition, which may be the sender and may be stopped.
    pub fn send(&mut self, ticket: u32, to: u32, counts: &mut Counts) -> Result<(), Refused> {
        let to = to as usize;
        let answer = match self.queues.get_mut(to) {
            Some(queue) => queue.put(ticket),
            None => Err(Refused::NoPartition),
        };
        counts.sends[number(answer) as usize] += 1;
        if answer.is_ok() {
            counts.sends_to_oneself += u64::from(to == self.own);
            counts.sends_to_stopped += u64::from(!self.running[to]);
        }
        answer
    }

    /// Takes the oldest ticket of the partition's own queue.
    pub fn take(&mut self, counts: &mut Counts) -> Result<u32, Refused> {
        let answer = self.queues[self.own].take();
        counts.takes[number(answer) as usize] += 1;
        answer
    }
}

/// An answer's number for register 3.
pub fn number<T>(answer: Result<T, Refused>) -> u32 {
    answer.map_or_else(|refused| refused as u32, |_| 0)
}
