//! Ticket traffic: receivers, pieces of code that send and take, and queues set by hand.

use super::{words, Draft};
use crate::assemble::{addi, function, i_type, opcode, r_type, send, take, Code};
use crate::fields::{self, WAITING};
use crate::rng::Rng;
use crate::tickets::PLACES;

/// Register that counts the rounds of a loop.
const ROUNDS: u32 = 19;

/// A partition's number, and how many partitions there are.
#[derive(Clone, Copy, Debug)]
pub struct Seat {
    /// The partition's own number.
    pub own: u32,
    /// The partitions.
    pub partitions: u32,
}

/// A receiver: mostly a partition that there is, often oneself.
pub fn receiver(rng: &mut Rng, seat: Seat) -> u32 {
    match rng.below(14) {
        0 | 1 => rng.pick(&[seat.partitions, 8, u32::MAX]),
        2 => seat.own + rng.pick(&[8, 256, 1 << 16, 1 << 31]),
        3 | 4 => seat.own,
        _ => rng.below(seat.partitions),
    }
}

/// A ticket and its receiver, in registers 1 and 2.
pub fn address(rng: &mut Rng, seat: Seat, code: &mut Code) {
    code.constant(1, words::value(rng));
    code.constant(2, receiver(rng, seat));
}

/// A piece of code for system mode that sends or takes.
pub fn piece(rng: &mut Rng, seat: Seat, code: &mut Code) {
    match rng.below(9) {
        0 | 1 => send_some(rng, seat, code),
        2 | 3 => send_many(rng, seat, code),
        4 | 5 => take_some(rng, code),
        6 | 7 => take_all(rng, code),
        _ => pass_on(rng, seat, code),
    }
}

fn send_some(rng: &mut Rng, seat: Seat, code: &mut Code) {
    address(rng, seat, code);
    for _ in 0..rng.between(1, 3) {
        code.push(&[send(), addi(1, 1, rng.below(9))]);
    }
}

/// A loop of sends, now and then more than a queue holds.
fn send_many(rng: &mut Rng, seat: Seat, code: &mut Code) {
    address(rng, seat, code);
    code.constant(ROUNDS, rng.between(2, 20));
    let top = code.here();
    code.push(&[send(), addi(1, 1, 1), send(), i_type(opcode::SUBI, ROUNDS, ROUNDS, 1)]);
    code.branch_back(opcode::BNEZ, ROUNDS, top, addi(1, 1, 1));
}

fn take_some(rng: &mut Rng, code: &mut Code) {
    for _ in 0..rng.between(1, 4) {
        code.push(&[take(), r_type(function::XOR, rng.between(4, 12), 4, 1)]);
    }
}

/// Takes until none is waiting.
fn take_all(rng: &mut Rng, code: &mut Code) {
    let (sum, top) = (rng.between(4, 12), code.here());
    code.push(&[take()]);
    code.branch_back(opcode::BEQZ, 3, top, r_type(function::XOR, sum, sum, 1));
}

/// Sends on what was taken; if none was, what register 1 had.
fn pass_on(rng: &mut Rng, seat: Seat, code: &mut Code) {
    code.constant(2, receiver(rng, seat));
    for _ in 0..rng.between(1, 3) {
        code.push(&[take(), send()]);
    }
}

/// Puts some tickets into a partition's queue, in a way that is no damage; often the queue is then
/// full, empty, or one ticket away from it.
pub fn set_queue(draft: &mut Draft, partition: u32) {
    let any = draft.rng.below(PLACES as u32 + 1);
    let waiting = draft.rng.pick(&[0, 1, 2, 31, 32, 32, any]);
    let places = draft.player.house.queues[partition as usize].places;
    for (place, ticket) in (0..).zip(places) {
        if place >= waiting && ticket != 0 {
            draft.field(fields::ticket(partition, place), 0);
        }
    }
    if waiting > 0 {
        for place in [0, draft.rng.below(waiting), waiting - 1] {
            let ticket = words::value(&mut draft.rng);
            draft.field(fields::ticket(partition, place), ticket);
        }
    }
    draft.field(WAITING + partition, waiting);
}
