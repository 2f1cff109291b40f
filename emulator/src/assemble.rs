//! Instruction words for generated programs and for the examples.

use crate::tickets::{SEND, TAKE};

/// Opcodes of I-type and J-type instructions.
pub mod opcode {
    #![allow(missing_docs)]
    pub const J: u32 = 2;
    pub const JAL: u32 = 3;
    pub const BEQZ: u32 = 4;
    pub const BNEZ: u32 = 5;
    pub const ADDI: u32 = 8;
    pub const SUBI: u32 = 10;
    pub const ANDI: u32 = 12;
    pub const ORI: u32 = 13;
    pub const XORI: u32 = 14;
    pub const LHGI: u32 = 15;
    pub const JR: u32 = 22;
    pub const JALR: u32 = 23;
    pub const CLR: u32 = 24;
    pub const SGR: u32 = 25;
    pub const SLS: u32 = 28;
    pub const SET: u32 = 31;
    pub const LB: u32 = 32;
    pub const LH: u32 = 33;
    pub const LW: u32 = 35;
    pub const LBU: u32 = 36;
    pub const LHU: u32 = 37;
    pub const SB: u32 = 40;
    pub const SH: u32 = 41;
    pub const SW: u32 = 43;
    pub const TRAP: u32 = 62;
    pub const RFE: u32 = 63;
}

/// Functions of R-type instructions.
pub mod function {
    #![allow(missing_docs)]
    pub const MOVS2I: u32 = 16;
    pub const MOVI2S: u32 = 17;
    pub const ADD: u32 = 32;
    pub const SUB: u32 = 34;
    pub const AND: u32 = 36;
    pub const OR: u32 = 37;
    pub const XOR: u32 = 38;
    pub const CLR: u32 = 40;
    pub const SLS: u32 = 44;
    pub const SET: u32 = 47;
}

/// An I-type word; the immediate's low 16 bits count.
pub fn i_type(opcode: u32, rd: u32, rs1: u32, imm: u32) -> u32 {
    opcode << 26 | rs1 << 21 | rd << 16 | imm & 0xFFFF
}

/// An R-type word.
pub fn r_type(function: u32, rd: u32, rs1: u32, rs2: u32) -> u32 {
    rs1 << 21 | rs2 << 16 | rd << 11 | function
}

/// A J-type word; the immediate's low 26 bits count.
pub fn j_type(opcode: u32, imm: u32) -> u32 {
    opcode << 26 | imm & 0x03FF_FFFF
}

/// addi RD, RS1, imm.
pub fn addi(rd: u32, rs1: u32, imm: u32) -> u32 {
    i_type(opcode::ADDI, rd, rs1, imm)
}

/// andi RD, RS1, imm.
pub fn andi(rd: u32, rs1: u32, imm: u32) -> u32 {
    i_type(opcode::ANDI, rd, rs1, imm)
}

/// lw RD, imm(RS1).
pub fn lw(rd: u32, rs1: u32, imm: u32) -> u32 {
    i_type(opcode::LW, rd, rs1, imm)
}

/// sw RD, imm(RS1).
pub fn sw(rd: u32, rs1: u32, imm: u32) -> u32 {
    i_type(opcode::SW, rd, rs1, imm)
}

/// lb RD, imm(RS1).
pub fn lb(rd: u32, rs1: u32, imm: u32) -> u32 {
    i_type(opcode::LB, rd, rs1, imm)
}

/// lbu RD, imm(RS1).
pub fn lbu(rd: u32, rs1: u32, imm: u32) -> u32 {
    i_type(opcode::LBU, rd, rs1, imm)
}

/// lh RD, imm(RS1).
pub fn lh(rd: u32, rs1: u32, imm: u32) -> u32 {
    i_type(opcode::LH, rd, rs1, imm)
}

/// lhu RD, imm(RS1).
pub fn lhu(rd: u32, rs1: u32, imm: u32) -> u32 {
    i_type(opcode::LHU, rd, rs1, imm)
}

/// sb RD, imm(RS1).
pub fn sb(rd: u32, rs1: u32, imm: u32) -> u32 {
    i_type(opcode::SB, rd, rs1, imm)
}

/// sh RD, imm(RS1).
pub fn sh(rd: u32, rs1: u32, imm: u32) -> u32 {
    i_type(opcode::SH, rd, rs1, imm)
}

/// jr RS1.
pub fn jr(rs1: u32) -> u32 {
    i_type(opcode::JR, 0, rs1, 0)
}

/// movs2i RD, special.
pub fn movs2i(rd: u32, special: usize) -> u32 {
    rd << 11 | (special as u32) << 6 | function::MOVS2I
}

/// movi2s special, RS1.
pub fn movi2s(special: usize, rs1: u32) -> u32 {
    rs1 << 21 | (special as u32) << 6 | function::MOVI2S
}

/// trap imm.
pub fn trap(imm: u32) -> u32 {
    j_type(opcode::TRAP, imm)
}

/// The trap that sends register 1 to the partition of register 2.
pub fn send() -> u32 {
    trap(SEND)
}

/// The trap that takes a ticket into register 1.
pub fn take() -> u32 {
    trap(TAKE)
}

/// rfe.
pub fn rfe() -> u32 {
    j_type(opcode::RFE, 0)
}

/// An instruction without effect, for delay slots.
pub fn nop() -> u32 {
    addi(0, 0, 0)
}

/// A branch or jump whose target is not known yet.
#[derive(Debug)]
#[must_use]
pub struct Forward(usize);

/// Code as it grows; branches are relative, so it may stand anywhere.
#[derive(Clone, Debug, Default)]
pub struct Code {
    /// The words so far.
    pub words: Vec<u32>,
}

impl Code {
    /// Adds words.
    pub fn push(&mut self, words: &[u32]) {
        self.words.extend_from_slice(words);
    }

    /// The place of the next word.
    pub fn here(&self) -> usize {
        self.words.len()
    }

    /// A constant into a register.
    pub fn constant(&mut self, rd: u32, value: u32) {
        if value.wrapping_add(0x8000) < 0x1_0000 {
            return self.push(&[addi(rd, 0, value)]);
        }
        self.long_constant(rd, value);
    }

    /// A constant into a register, always in two words. xori extends from bit 15, and the high
    /// half allows for it.
    pub fn long_constant(&mut self, rd: u32, value: u32) {
        let high = value >> 16;
        let high = if value & 0x8000 == 0 { high } else { !high };
        self.push(&[i_type(opcode::LHGI, rd, 0, high), i_type(opcode::XORI, rd, rd, value)]);
    }

    /// A constant into a special register, by way of a register.
    pub fn special(&mut self, special: usize, through: u32, value: u32) {
        self.constant(through, value);
        self.push(&[movi2s(special, through)]);
    }

    /// A branch to a place before it, with its delay slot.
    pub fn branch_back(&mut self, opcode: u32, rs1: u32, to: usize, slot: u32) {
        let imm = distance(self.here(), to);
        self.push(&[i_type(opcode, 0, rs1, imm), slot]);
    }

    /// A jump to a place before it, with its delay slot.
    pub fn jump_back(&mut self, to: usize, slot: u32) {
        let imm = distance(self.here(), to);
        self.push(&[j_type(opcode::J, imm), slot]);
    }

    /// A branch to a place after it, with its delay slot.
    pub fn branch(&mut self, opcode: u32, rs1: u32, slot: u32) -> Forward {
        self.push(&[i_type(opcode, 0, rs1, 0), slot]);
        Forward(self.here() - 2)
    }

    /// A j or jal to a place after it, with its delay slot.
    pub fn jump(&mut self, opcode: u32, slot: u32) -> Forward {
        self.push(&[j_type(opcode, 0), slot]);
        Forward(self.here() - 2)
    }

    /// The target of a branch or jump is here.
    pub fn land(&mut self, forward: Forward) {
        let imm = distance(forward.0, self.here());
        self.words[forward.0] |= imm & 0xFFFF;
    }
}

/// The immediate of a branch at one place to another: PC is one word after the branch.
fn distance(from: usize, to: usize) -> u32 {
    (4 * (to as i64 - from as i64 - 1)) as u32
}

#[cfg(test)]
mod tests {
    use super::*;

    #[test]
    fn words_of_the_examples() {
        assert_eq!(addi(1, 0, 5), 0x2001_0005);
        assert_eq!(sw(1, 0, 8), 0xAC01_0008);
        assert_eq!((lb(1, 2, 3), lh(1, 2, 3)), (0x8041_0003, 0x8441_0003));
        assert_eq!((lbu(1, 2, 3), lhu(1, 2, 3)), (0x9041_0003, 0x9441_0003));
        assert_eq!((sb(1, 2, 3), sh(1, 2, 3)), (0xA041_0003, 0xA441_0003));
        assert_eq!(trap(7), 0xF800_0007);
        assert_eq!((send(), take()), (0xF800_0100, 0xF800_0101));
        assert_eq!(r_type(function::ADD, 3, 1, 2), 0x0022_1820);
        assert_eq!(i_type(opcode::BEQZ, 0, 0, 0xFFFC), 0x1000_FFFC);
    }
}
