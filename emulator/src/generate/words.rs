//! Random instruction words and values.

use crate::assemble::{function, i_type, j_type, movi2s, movs2i, opcode, r_type, rfe, trap};
use crate::dlx::special;
use crate::rng::Rng;
use crate::tickets::{SEND, TAKE};

/// Opcodes that work out RD from RS1 and the immediate.
pub const IMMEDIATE: [u32; 14] = [8, 10, 12, 13, 14, 15, 24, 25, 26, 27, 28, 29, 30, 31];
/// Functions that work out RD from RS1 and RS2.
pub const REGISTER: [u32; 13] = [32, 34, 36, 37, 38, 40, 41, 42, 43, 44, 45, 46, 47];
/// Opcodes of loads and stores.
pub const ACCESS: [u32; 8] = [
    opcode::LB,
    opcode::LH,
    opcode::LW,
    opcode::LBU,
    opcode::LHU,
    opcode::SB,
    opcode::SH,
    opcode::SW,
];
/// Values at which arithmetic, comparisons and extended signs change their answer.
const EDGES: [u32; 12] = [
    0,
    1,
    2,
    4,
    u32::MAX,
    0x7FFF_FFFF,
    0x8000_0000,
    0x8000_0001,
    0x7FFF,
    0xFFFF_8000,
    0x8080,
    0x7F80_7F7F,
];

/// A value for a register: an edge, a small number, or any word.
pub fn value(rng: &mut Rng) -> u32 {
    match rng.below(4) {
        0 | 1 => rng.pick(&EDGES),
        2 => rng.below(5_000),
        _ => rng.word(),
    }
}

/// An immediate: small multiples of 4, edges, or any 16 bits.
pub fn immediate(rng: &mut Rng) -> u32 {
    match rng.below(4) {
        0 => 4 * rng.below(32),
        1 => rng.pick(&EDGES),
        2 => rng.below(16).wrapping_sub(8),
        _ => rng.word(),
    }
}

/// A register number, mostly one of the first few.
pub fn register(rng: &mut Rng) -> u32 {
    match rng.below(20) {
        0 => rng.below(32),
        1 => 31,
        _ => rng.below(13),
    }
}

/// How many bytes a load or store has, by its opcode.
pub fn width(opcode: u32) -> u32 {
    match opcode {
        opcode::LB | opcode::LBU | opcode::SB => 1,
        opcode::LH | opcode::LHU | opcode::SH => 2,
        _ => 4,
    }
}

/// A byte of a word for a load or store of this opcode; rarely one at which it is misaligned.
pub fn byte(rng: &mut Rng, opcode: u32) -> u32 {
    let width = width(opcode);
    if rng.chance(4) {
        rng.below(4)
    } else {
        width * rng.below(4 / width)
    }
}

/// An instruction that works on registers only.
pub fn compute(rng: &mut Rng) -> u32 {
    let (rd, rs1, rs2) = (register(rng) % 13, register(rng), register(rng));
    if rng.chance(50) {
        i_type(rng.pick(&IMMEDIATE), rd, rs1, immediate(rng))
    } else {
        // SA is not used and ignored.
        r_type(rng.pick(&REGISTER), rd, rs1, rs2) | rng.below(32) << 6
    }
}

/// An addition or subtraction that overflows, and the values that registers 1 and 2 have for it.
pub fn overflow(rng: &mut Rng) -> (u32, u32, u32) {
    let edge = rng.pick(&[0x7FFF_FFFF, 0x8000_0000]);
    let away: u32 = if edge == 0x8000_0000 { u32::MAX } else { 1 };
    let rd = rng.below(13);
    match rng.below(4) {
        0 => (i_type(opcode::ADDI, rd, 1, away), edge, 0),
        1 => (i_type(opcode::SUBI, rd, 1, away.wrapping_neg()), edge, 0),
        2 => (r_type(function::ADD, rd, 1, 2), edge, edge),
        _ => (r_type(function::SUB, rd, 1, 2), edge, !edge),
    }
}

/// A word that is not in the table, or a special number above 11.
pub fn ill(rng: &mut Rng) -> u32 {
    let above = rng.between(12, 31) as usize;
    match rng.below(6) {
        0 => 0,
        1 => r_type(rng.pick(&[33, 35, 39, 0, 1, 15, 18, 31, 48, 63]), 1, 2, 3),
        2 => i_type(rng.pick(&[1, 6, 7, 9, 11, 16, 21, 34, 38, 39, 42, 44, 61]), 1, 2, 4),
        3 => movs2i(register(rng), above),
        4 => movi2s(above, register(rng)),
        _ => rng.word() & 0x03FF_FFC0 | 50,
    }
}

/// A trap's number: a ticket's, one that is a bit away from it, or any.
pub fn trap_number(rng: &mut Rng) -> u32 {
    match rng.below(5) {
        0..=2 => rng.pick(&[SEND, TAKE]),
        3 => rng.pick(&[SEND, TAKE]) ^ 1 << rng.below(26),
        _ => rng.word(),
    }
}

/// Any instruction, now and then a word that is none.
pub fn instruction(rng: &mut Rng) -> u32 {
    let short = (4 * rng.below(24)).wrapping_sub(32);
    let (a, b) = (register(rng), register(rng));
    match rng.below(100) {
        0..=39 => compute(rng),
        40..=59 => i_type(rng.pick(&ACCESS), a, b, immediate(rng)),
        60..=69 => i_type(rng.pick(&[opcode::BEQZ, opcode::BNEZ]), a, b, short),
        70..=74 => j_type(rng.pick(&[opcode::J, opcode::JAL]), short),
        75 => j_type(rng.pick(&[opcode::J, opcode::JAL]), rng.word()),
        76..=79 => i_type(rng.pick(&[opcode::JR, opcode::JALR]), a, b, immediate(rng)),
        80..=82 => trap(trap_number(rng)),
        83..=85 => rfe() | rng.word() & 0x03FF_FFFF,
        86..=89 => movs2i(a, rng.index(special::COUNT)) | rng.word() & 0x03FF_0000,
        90..=94 => movi2s(rng.index(special::COUNT), a) | rng.word() & 0x001F_F800,
        95..=96 => ill(rng),
        97 => r_type(function::ADD, a, b, a),
        _ => rng.word(),
    }
}
