//! Makes a script or file that shows a difference as small as it goes.

use std::time::{Duration, Instant};

use crate::script::Command;

/// No new attempt begins after this time.
const LIMIT: Duration = Duration::from_secs(300);
/// Attempts that are tried together.
const TOGETHER: usize = 32;

/// A part of what shrinks.
pub trait Piece: Clone {
    /// Simpler forms of this part, the simplest first.
    fn simpler(&self) -> Vec<Self>;
}

/// Tells the first of several attempts that still shows the difference.
pub type Differs<'a, P> = dyn FnMut(&[Vec<P>]) -> Option<usize> + 'a;

/// Removes and simplifies parts as long as the difference stays.
pub fn shrink<P: Piece>(pieces: Vec<P>, differs: &mut Differs<'_, P>) -> Vec<P> {
    let mut work = Work { pieces, differs, start: Instant::now() };
    while work.remove_parts() | work.simplify_parts() {}
    work.pieces
}

struct Work<'a, 'b, P> {
    pieces: Vec<P>,
    differs: &'a mut Differs<'b, P>,
    start: Instant,
}

impl<P: Piece> Work<'_, '_, P> {
    fn time_left(&self) -> bool {
        self.start.elapsed() < LIMIT
    }

    /// Removes stretches of parts, long ones first; tells whether any went.
    fn remove_parts(&mut self) -> bool {
        let before = self.pieces.len();
        let mut size = before.div_ceil(2);
        while size > 0 {
            self.remove_stretches(size);
            size = if size == 1 { 0 } else { size.div_ceil(2) };
        }
        self.pieces.len() < before
    }

    /// Removes stretches of one size, from the end to the start.
    fn remove_stretches(&mut self, size: usize) {
        let mut end = self.pieces.len();
        while end > 0 && self.time_left() {
            let ends: Vec<usize> = (1..=end).rev().step_by(size).take(TOGETHER).collect();
            let attempts: Vec<Vec<P>> =
                ends.iter().map(|&end| self.without(end.saturating_sub(size), end)).collect();
            match (self.differs)(&attempts) {
                Some(found) => {
                    self.pieces = attempts[found].clone();
                    end = ends[found].saturating_sub(size);
                }
                None => end = ends[ends.len() - 1].saturating_sub(size),
            }
        }
    }

    fn without(&self, start: usize, end: usize) -> Vec<P> {
        [&self.pieces[..start], &self.pieces[end..]].concat()
    }

    /// Puts simpler parts in; tells whether any part changed.
    fn simplify_parts(&mut self) -> bool {
        let mut changed = false;
        for at in 0..self.pieces.len() {
            while self.time_left() && self.simplify(at) {
                changed = true;
            }
        }
        changed
    }

    fn simplify(&mut self, at: usize) -> bool {
        let with = |piece: P| {
            let mut attempt = self.pieces.clone();
            attempt[at] = piece;
            attempt
        };
        let attempts: Vec<Vec<P>> = self.pieces[at].simpler().into_iter().map(with).collect();
        if attempts.is_empty() {
            return false;
        }
        match (self.differs)(&attempts) {
            Some(found) => self.pieces = attempts[found].clone(),
            None => return false,
        }
        true
    }
}

impl Piece for Command {
    fn simpler(&self) -> Vec<Self> {
        match self {
            Command::Run { steps } => {
                smaller(*steps).into_iter().map(|steps| Command::Run { steps }).collect()
            }
            Command::Unshadowed { steps } => {
                smaller(*steps).into_iter().map(|steps| Command::Unshadowed { steps }).collect()
            }
            Command::Boot { pages, q, frames } => simpler_boots(pages, *q, frames),
            Command::Fill { index, count, value } => smaller(*count)
                .into_iter()
                .map(|count| Command::Fill { index: *index, count, value: *value })
                .collect(),
            Command::Save { offset, output } => smaller(*output)
                .into_iter()
                .map(|output| Command::Save { offset: *offset, output })
                .collect(),
            Command::Piece { bytes, new } => simpler_pieces(bytes, *new),
            _ => Vec::new(),
        }
    }
}

/// Smaller numbers, the smallest first.
fn smaller(number: u32) -> Vec<u32> {
    let mut numbers = vec![1, number / 2, number.saturating_sub(1)];
    numbers.retain(|&candidate| candidate != 0 && candidate < number);
    numbers.dedup();
    numbers
}

/// Boots without the last partition, or with a shorter turn.
fn simpler_boots(pages: &[u32], q: u32, frames: &[u32]) -> Vec<Command> {
    let boot = |pages: &[u32], q, frames: &[u32]| Command::Boot {
        pages: pages.to_vec(),
        q,
        frames: frames.to_vec(),
    };
    let mut boots = Vec::new();
    if let Some((&last, others)) = pages.split_last() {
        let kept = frames.len().saturating_sub(last as usize);
        boots.push(boot(others, q, &frames[..kept]));
    }
    boots.extend(smaller(q).into_iter().map(|q| boot(pages, q, frames)));
    boots
}

/// Pieces with fewer bytes, the last or the first ones away, or with a part of them zero.
fn simpler_pieces(bytes: &[u8], new: bool) -> Vec<Command> {
    let shorter = smaller(bytes.len() as u32);
    let first = shorter.iter().map(|&length| bytes[..length as usize].to_vec());
    let last = shorter.iter().map(|&length| bytes[bytes.len() - length as usize..].to_vec());
    let zeroed = Stretch(bytes.to_vec()).zeroed_parts(0).into_iter().map(|stretch| stretch.0);
    let simpler: Vec<Vec<u8>> = first.chain(last).chain(zeroed).collect();
    simpler.into_iter().map(|bytes| Command::Piece { bytes, new }).collect()
}

/// A stretch of a house file: a record, or what is left of one.
#[derive(Clone, Debug, PartialEq, Eq)]
pub struct Stretch(pub Vec<u8>);

impl Stretch {
    /// Splits a file into its records, as far as they go.
    pub fn split(bytes: &[u8]) -> Vec<Stretch> {
        let mut stretches = Vec::new();
        let mut rest = bytes;
        while !rest.is_empty() {
            let length = match rest.first_chunk::<4>() {
                Some(&length) => u32::from_le_bytes(length) as usize,
                None => 0,
            };
            let (record, after) = rest.split_at(rest.len().min(6usize.saturating_add(length)));
            stretches.push(Stretch(record.to_vec()));
            rest = after;
        }
        stretches
    }

    /// The bytes of a file.
    pub fn join(stretches: &[Stretch]) -> Vec<u8> {
        stretches.iter().flat_map(|stretch| stretch.0.iter().copied()).collect()
    }
}

impl Piece for Stretch {
    /// The same record with a part of its body zero.
    fn simpler(&self) -> Vec<Self> {
        self.zeroed_parts(10)
    }
}

impl Stretch {
    /// The same bytes with a part of them zero, from a place on.
    fn zeroed_parts(&self, from: usize) -> Vec<Self> {
        let body = from.min(self.0.len())..self.0.len();
        let size = body.len();
        let parts = [size, size / 2, size / 4, size / 16, size / 64, 4];
        let starts = |part: usize| body.clone().step_by(part.max(1)).map(move |at| (at, part));
        parts
            .into_iter()
            .filter(|&part| part > 3)
            .flat_map(starts)
            .filter_map(|(start, part)| self.zeroed(start, part))
            .take(2 * TOGETHER)
            .collect()
    }

    /// The record with some bytes zero, none if they were.
    fn zeroed(&self, start: usize, part: usize) -> Option<Stretch> {
        let mut bytes = self.0.clone();
        let end = bytes.len().min(start + part);
        let changes = bytes[start..end].iter().any(|&byte| byte != 0);
        bytes[start..end].fill(0);
        changes.then_some(Stretch(bytes))
    }
}

#[cfg(test)]
mod tests {
    use super::*;

    #[test]
    fn keeps_only_what_is_needed() {
        let commands: Vec<Command> =
            (0..100).map(|index| Command::Poke { index, value: 1 }).collect();
        let needed = |attempt: &Vec<Command>| {
            [7, 60].iter().all(|&index| attempt.contains(&Command::Poke { index, value: 1 }))
        };
        let small = shrink(commands, &mut |attempts| attempts.iter().position(needed));
        assert_eq!(small.len(), 2);
    }

    #[test]
    fn makes_numbers_small() {
        let long = |attempt: &Vec<Command>| {
            attempt.iter().any(|command| matches!(command, Command::Run { steps } if *steps >= 37))
        };
        let commands = vec![Command::Run { steps: 900 }, Command::Clear];
        let small = shrink(commands, &mut |attempts| attempts.iter().position(long));
        assert_eq!(small, [Command::Run { steps: 37 }]);
    }

    #[test]
    fn makes_pieces_small() {
        let piece = |bytes: Vec<u8>| Command::Piece { bytes, new: true };
        let needed = |attempt: &Vec<Command>| {
            attempt
                .iter()
                .any(|one| matches!(one, Command::Piece { bytes, .. } if bytes.contains(&7)))
        };
        let mut bytes = vec![1; 1_000];
        bytes[300] = 7;
        let commands = vec![Command::Finish, piece(bytes), Command::Finish];
        let small = shrink(commands, &mut |attempts| attempts.iter().position(needed));
        assert_eq!(small, [piece(vec![7])]);
    }

    #[test]
    fn a_file_is_its_records() {
        let bytes = [1, 0, 0, 0, 9, 9, 7, 0, 0, 0, 0, 4, 0, 1];
        let stretches = Stretch::split(&bytes);
        assert_eq!(stretches.len(), 3);
        assert_eq!(Stretch::join(&stretches), bytes);
    }
}
