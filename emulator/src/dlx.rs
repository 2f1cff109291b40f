//! The guest machine: registers, decoding, one step, interrupts.

use crate::counts::Counts;
use crate::memory::{Access, Engine, Fault, Place, Space, Table, Width};
use crate::tickets::{number, Tickets, SEND, TAKE};
use crate::timer::{fall, Kind};

/// Numbers of the special registers.
pub mod special {
    /// Status register; bit 6 lets ovf through, bit 13 the timer.
    pub const SR: usize = 0;
    /// SR before the interrupt.
    pub const ESR: usize = 1;
    /// Masked causes of the interrupt.
    pub const ECA: usize = 2;
    /// PC to return to.
    pub const EPC: usize = 3;
    /// DPC to return to.
    pub const EDPC: usize = 4;
    /// Data of the interrupt.
    pub const EDATA: usize = 5;
    /// 0 is system, 1 user.
    pub const MODE: usize = 6;
    /// Page table origin.
    pub const PTO: usize = 7;
    /// Page table length.
    pub const PTL: usize = 8;
    /// MODE before the interrupt.
    pub const EMODE: usize = 9;
    /// The timer: how many of the partition's own steps are left.
    pub const TCOUNT: usize = 10;
    /// What the timer starts from again.
    pub const TLOAD: usize = 11;
    /// How many there are.
    pub const COUNT: usize = 12;
    /// Their names, in order.
    pub const NAMES: [&str; COUNT] = [
        "sr", "esr", "eca", "epc", "edpc", "edata", "mode", "pto", "ptl", "emode", "tcount",
        "tload",
    ];
}

use special::{ECA, EDATA, EDPC, EMODE, EPC, ESR, MODE, PTL, PTO, SR, TCOUNT, TLOAD};

/// The register that jal and jalr write.
const LINK: usize = 31;

/// The causes of an interrupt, by their numbers.
#[derive(Clone, Copy, Debug, PartialEq, Eq)]
pub enum Cause {
    /// Illegal instruction.
    Ill = 1,
    /// Misaligned address.
    Mal = 2,
    /// Page fault on fetch.
    Pff = 3,
    /// Page fault on load or store.
    Pfls = 4,
    /// Trap instruction.
    Trap = 5,
    /// Overflow, maskable.
    Ovf = 6,
    /// The timer reached zero, maskable.
    Timer = 13,
}

impl Cause {
    /// All causes in order.
    pub const ALL: [Cause; 7] =
        [Cause::Ill, Cause::Mal, Cause::Pff, Cause::Pfls, Cause::Trap, Cause::Ovf, Cause::Timer];

    /// The cause's bit in the cause word.
    pub fn bit(self) -> u32 {
        1 << self as u32
    }

    /// 01's name.
    pub fn name(self) -> &'static str {
        match self {
            Cause::Ill => "ill",
            Cause::Mal => "mal",
            Cause::Pff => "pff",
            Cause::Pfls => "pfls",
            Cause::Trap => "trap",
            Cause::Ovf => "ovf",
            Cause::Timer => "timer",
        }
    }

    /// True where the pair is saved as it stands. For 1 to 4 that is the old one (for 3 and 4 by
    /// 01, for 1 and 2 by request 4 of 02), so that rfe comes back to the interrupted instruction;
    /// for the timer the one that the instruction left. After the others rfe goes on behind it.
    fn saves_pair(self) -> bool {
        matches!(self, Cause::Ill | Cause::Mal | Cause::Pff | Cause::Pfls | Cause::Timer)
    }
}

/// The level of a masked cause word: its lowest set bit, 32 for cause word 0.
pub fn level(causes: u32) -> u32 {
    causes.trailing_zeros()
}

/// An interrupt: its cause, and EDATA where the cause sets it.
#[derive(Clone, Copy, Debug, PartialEq, Eq)]
struct Interrupt {
    cause: Cause,
    edata: Option<u32>,
}

impl Interrupt {
    fn plain(cause: Cause) -> Self {
        Interrupt { cause, edata: None }
    }

    fn with_data(cause: Cause, edata: u32) -> Self {
        Interrupt { cause, edata: Some(edata) }
    }
}

/// What a register instruction works out.
#[derive(Clone, Copy, Debug, PartialEq, Eq)]
pub enum Operation {
    /// Sum, with overflow.
    Add,
    /// Difference, with overflow.
    Sub,
    /// Bitwise and.
    And,
    /// Bitwise or.
    Or,
    /// Bitwise exclusive or.
    Xor,
    /// 0.
    Clr,
    /// Greater.
    Sgr,
    /// Equal.
    Seq,
    /// Greater or equal.
    Sge,
    /// Less.
    Sls,
    /// Unequal.
    Sne,
    /// Less or equal.
    Sle,
    /// 1.
    Set,
}

impl Operation {
    /// The comparison of opcodes 24..31 and functions 40..47.
    fn comparison(number: u32) -> Self {
        match number & 7 {
            0 => Operation::Clr,
            1 => Operation::Sgr,
            2 => Operation::Seq,
            3 => Operation::Sge,
            4 => Operation::Sls,
            5 => Operation::Sne,
            6 => Operation::Sle,
            _ => Operation::Set,
        }
    }

    /// The wrapped result, and whether the signed result lies outside 32 bits.
    fn result(self, left: u32, right: u32) -> (u32, bool) {
        let (a, b) = (left as i32, right as i32);
        let (value, overflow) = match self {
            Operation::Add => a.overflowing_add(b),
            Operation::Sub => a.overflowing_sub(b),
            Operation::And => (a & b, false),
            Operation::Or => (a | b, false),
            Operation::Xor => (a ^ b, false),
            Operation::Clr => (0, false),
            Operation::Sgr => (i32::from(a > b), false),
            Operation::Seq => (i32::from(a == b), false),
            Operation::Sge => (i32::from(a >= b), false),
            Operation::Sls => (i32::from(a < b), false),
            Operation::Sne => (i32::from(a != b), false),
            Operation::Sle => (i32::from(a <= b), false),
            Operation::Set => (1, false),
        };
        (value as u32, overflow)
    }
}

/// The second operand of a register instruction.
#[derive(Clone, Copy, Debug, PartialEq, Eq)]
pub enum Operand {
    /// Register RS2.
    Register(usize),
    /// The sign-extended immediate.
    Immediate(u32),
}

/// Where a jump goes.
#[derive(Clone, Copy, Debug, PartialEq, Eq)]
pub enum Target {
    /// PC + imm.
    Relative(u32),
    /// RS1.
    Register(usize),
}

/// A decoded instruction; immediates are sign-extended.
#[derive(Clone, Copy, Debug, PartialEq, Eq)]
#[allow(missing_docs)]
pub enum Instruction {
    Load { width: Width, signed: bool, rd: usize, rs1: usize, imm: u32 },
    Store { width: Width, rd: usize, rs1: usize, imm: u32 },
    Compute { operation: Operation, rd: usize, rs1: usize, right: Operand },
    Lhgi { rd: usize, value: u32 },
    Branch { on_zero: bool, rs1: usize, imm: u32 },
    Jump { target: Target, link: bool },
    Trap { imm: u32 },
    Rfe,
    Movs2i { rd: usize, special: usize },
    Movi2s { special: usize, rs1: usize },
}

impl Instruction {
    /// movs2i, movi2s and rfe are ill in user mode.
    fn system_only(self) -> bool {
        matches!(self, Instruction::Movs2i { .. } | Instruction::Movi2s { .. } | Instruction::Rfe)
    }
}

/// A five-bit field whose lowest bit is `low`.
fn field(word: u32, low: u32) -> usize {
    (word >> low & 31) as usize
}

/// The lowest `bits` bits, sign-extended.
fn sign_extended(word: u32, bits: u32) -> u32 {
    let above = 32 - bits;
    (((word << above) as i32) >> above) as u32
}

/// The instruction of a word, or none where it is not in the table.
pub fn decode(word: u32) -> Option<Instruction> {
    let (rs1, rd) = (field(word, 21), field(word, 16));
    let imm = sign_extended(word, 16);
    let long_imm = sign_extended(word, 26);
    let immediate = |operation| {
        let right = Operand::Immediate(imm);
        Some(Instruction::Compute { operation, rd, rs1, right })
    };
    let load = |width, signed| Some(Instruction::Load { width, signed, rd, rs1, imm });
    let store = |width| Some(Instruction::Store { width, rd, rs1, imm });
    match word >> 26 {
        0 => decode_r_type(word),
        2 => Some(Instruction::Jump { target: Target::Relative(long_imm), link: false }),
        3 => Some(Instruction::Jump { target: Target::Relative(long_imm), link: true }),
        4 => Some(Instruction::Branch { on_zero: true, rs1, imm }),
        5 => Some(Instruction::Branch { on_zero: false, rs1, imm }),
        8 => immediate(Operation::Add),
        10 => immediate(Operation::Sub),
        12 => immediate(Operation::And),
        13 => immediate(Operation::Or),
        14 => immediate(Operation::Xor),
        15 => Some(Instruction::Lhgi { rd, value: imm << 16 }),
        22 => Some(Instruction::Jump { target: Target::Register(rs1), link: false }),
        23 => Some(Instruction::Jump { target: Target::Register(rs1), link: true }),
        opcode @ 24..=31 => immediate(Operation::comparison(opcode)),
        32 => load(Width::Byte, true),
        33 => load(Width::Half, true),
        35 => load(Width::Word, true),
        36 => load(Width::Byte, false),
        37 => load(Width::Half, false),
        40 => store(Width::Byte),
        41 => store(Width::Half),
        43 => store(Width::Word),
        62 => Some(Instruction::Trap { imm: long_imm }),
        63 => Some(Instruction::Rfe),
        _ => None,
    }
}

/// The R-type instruction of a word; a special number above 11 is ill.
fn decode_r_type(word: u32) -> Option<Instruction> {
    let (rs1, rs2, rd, sa) = (field(word, 21), field(word, 16), field(word, 11), field(word, 6));
    let registers = |operation| {
        let right = Operand::Register(rs2);
        Some(Instruction::Compute { operation, rd, rs1, right })
    };
    match word & 63 {
        16 if sa < special::COUNT => Some(Instruction::Movs2i { rd, special: sa }),
        17 if sa < special::COUNT => Some(Instruction::Movi2s { special: sa, rs1 }),
        32 => registers(Operation::Add),
        34 => registers(Operation::Sub),
        36 => registers(Operation::And),
        37 => registers(Operation::Or),
        38 => registers(Operation::Xor),
        function @ 40..=47 => registers(Operation::comparison(function)),
        _ => None,
    }
}

/// A partition: the guest's registers, its step counter and latest fault, its pages and shadow.
#[derive(Clone, Debug, PartialEq, Eq)]
pub struct Guest {
    /// Delayed PC: the address of the instruction.
    pub dpc: u32,
    /// The next DPC.
    pub pc: u32,
    /// The special registers.
    pub specials: [u32; special::COUNT],
    /// The registers; register 0 reads 0.
    pub registers: [u32; 32],
    /// Guest steps done, modulo 2^64.
    pub counter: u64,
    /// The number of the latest fault, 0 while there was none. The guest cannot see it.
    pub fault: u32,
    /// Pages and shadow.
    pub space: Space,
}

impl Guest {
    /// A place for a partition that is not used.
    pub const ZERO: Guest = Guest {
        dpc: 0,
        pc: 0,
        specials: [0; special::COUNT],
        registers: [0; 32],
        counter: 0,
        fault: 0,
        space: Space::ZERO,
    };

    /// A fresh partition: all registers zero but PC = 4, the shadow empty.
    pub fn fresh(list: &[u32]) -> Guest {
        let mut guest = Guest { pc: 4, ..Guest::ZERO };
        guest.space.pages = list.len() as u32;
        guest.space.frames[..list.len()].copy_from_slice(list);
        guest
    }

    /// True in user mode.
    pub fn user(&self) -> bool {
        self.specials[MODE] != 0
    }

    /// The guest's page table.
    pub fn table(&self) -> Table {
        Table { pto: self.specials[PTO], ptl: self.specials[PTL] }
    }

    /// One guest step; tells the interrupt's level, if there is one. The counter is the host's
    /// matter.
    pub fn step(
        &mut self,
        memory: &mut [u32],
        tickets: &mut Tickets<'_>,
        engine: Engine,
        counts: &mut Counts,
    ) -> Option<Cause> {
        let (user, handler) = (self.user(), self.dpc == 0 && !self.user());
        counts.steps[usize::from(user)] += 1;
        let (mask, shadows) = (self.specials[SR], counts.shadows());
        let (count, zero) = fall(self.specials[TCOUNT], self.specials[TLOAD]);
        let done = self.instruction(memory, tickets, engine, counts);
        if done != Ok(Kind::WroteTcount) {
            self.specials[TCOUNT] = count;
        }
        let timer = if zero { Cause::Timer.bit() & mask } else { 0 };
        if zero {
            counts.timer(done.map_err(|interrupt| interrupt.cause), timer != 0, user, shadows);
        }
        let interrupt = match done {
            Err(interrupt) => interrupt,
            Ok(_) if timer != 0 => Interrupt::plain(Cause::Timer),
            Ok(_) => return None,
        };
        counts.interrupts[interrupt.cause as usize] += 1;
        let in_line = self.pc == self.dpc.wrapping_add(4);
        counts.slots[interrupt.cause as usize] += u64::from(!in_line);
        counts.loops += u64::from(handler);
        self.enter(interrupt, interrupt.cause.bit() | timer);
        Some(interrupt.cause)
    }

    /// Fetches, decodes and executes; tells what was done. After an interrupt nothing remains but
    /// shadow fills.
    fn instruction(
        &mut self,
        memory: &mut [u32],
        tickets: &mut Tickets<'_>,
        engine: Engine,
        counts: &mut Counts,
    ) -> Result<Kind, Interrupt> {
        let word = self.fetch(memory, engine, counts)?;
        let instruction = decode(word)
            .filter(|instruction| !(self.user() && instruction.system_only()))
            .ok_or(Interrupt::plain(Cause::Ill))?;
        self.execute(instruction, memory, tickets, engine, counts)
    }

    fn fetch(
        &mut self,
        memory: &[u32],
        engine: Engine,
        counts: &mut Counts,
    ) -> Result<u32, Interrupt> {
        if !self.dpc.is_multiple_of(4) {
            return Err(Interrupt::plain(Cause::Mal));
        }
        let place =
            self.locate(memory, self.dpc, Access::Load, engine, counts).map_err(|fault| {
                counts.fetch_faults[fault as usize] += 1;
                Interrupt::with_data(Cause::Pff, self.dpc)
            })?;
        Ok(self.space.word(memory, place))
    }

    /// The place of a data access: an address that is no multiple of the width is mal, a fault pfls.
    fn data(
        &mut self,
        memory: &[u32],
        address: u32,
        width: Width,
        access: Access,
        engine: Engine,
        counts: &mut Counts,
    ) -> Result<Place, Interrupt> {
        if !address.is_multiple_of(width.bytes()) {
            counts.odd_halves += u64::from(width == Width::Half);
            return Err(Interrupt::plain(Cause::Mal));
        }
        self.locate(memory, address, access, engine, counts).map_err(|fault| {
            counts.data_faults[fault as usize] += 1;
            counts.odd_faults += u64::from(address % 2 == 1);
            Interrupt::with_data(Cause::Pfls, address)
        })
    }

    /// The place of an access; a fault becomes the latest.
    fn locate(
        &mut self,
        memory: &[u32],
        address: u32,
        access: Access,
        engine: Engine,
        counts: &mut Counts,
    ) -> Result<Place, Fault> {
        let table = self.user().then(|| self.table());
        self.space
            .locate(memory, table, address, access, engine, counts)
            .inspect_err(|&fault| self.fault = fault as u32)
    }

    fn execute(
        &mut self,
        instruction: Instruction,
        memory: &mut [u32],
        tickets: &mut Tickets<'_>,
        engine: Engine,
        counts: &mut Counts,
    ) -> Result<Kind, Interrupt> {
        let mut next = self.pc.wrapping_add(4);
        let kind = match instruction {
            Instruction::Load { width, signed, rd, rs1, imm } => {
                let address = self.registers[rs1].wrapping_add(imm);
                let place = self.data(memory, address, width, Access::Load, engine, counts)?;
                let value = self.space.load(memory, place, width);
                let bits = 8 * width.bytes();
                self.write(rd, if signed { sign_extended(value, bits) } else { value });
                counts.load(width, signed);
                Kind::Load
            }
            Instruction::Store { width, rd, rs1, imm } => {
                let address = self.registers[rs1].wrapping_add(imm);
                let place = self.data(memory, address, width, Access::Store, engine, counts)?;
                let value = self.registers[rd];
                self.space.store(memory, self.table(), place, width, value, counts);
                counts.store(width);
                Kind::Store
            }
            Instruction::Compute { operation, rd, rs1, right } => {
                let (value, overflow) = self.compute(operation, rs1, right)?;
                self.write(rd, value);
                if overflow {
                    Kind::MaskedOvf
                } else {
                    Kind::Compute
                }
            }
            Instruction::Lhgi { rd, value } => {
                self.write(rd, value);
                Kind::Compute
            }
            Instruction::Branch { on_zero, rs1, imm } => {
                let taken = (self.registers[rs1] == 0) == on_zero;
                if taken {
                    next = self.pc.wrapping_add(imm);
                    Kind::Taken
                } else {
                    Kind::NotTaken
                }
            }
            Instruction::Jump { target, link } => {
                next = self.jump_target(target);
                if link {
                    self.write(LINK, self.pc.wrapping_add(4));
                    Kind::Link
                } else {
                    Kind::Jump
                }
            }
            Instruction::Trap { imm } => self.trap(imm, tickets, counts)?,
            Instruction::Rfe => {
                self.return_from_exception();
                return Ok(Kind::Rfe);
            }
            Instruction::Movs2i { rd, special } => {
                self.write(rd, self.specials[special]);
                Kind::read(special)
            }
            Instruction::Movi2s { special, rs1 } => {
                self.write_special(special, rs1, counts);
                Kind::wrote(special)
            }
        };
        self.dpc = self.pc;
        self.pc = next;
        Ok(kind)
    }

    /// The result of a register instruction, and whether it overflows; ovf is masked by SR bit 6.
    fn compute(
        &self,
        operation: Operation,
        rs1: usize,
        right: Operand,
    ) -> Result<(u32, bool), Interrupt> {
        let right = match right {
            Operand::Register(rs2) => self.registers[rs2],
            Operand::Immediate(imm) => imm,
        };
        let (value, overflow) = operation.result(self.registers[rs1], right);
        if overflow && self.specials[SR] & Cause::Ovf.bit() != 0 {
            return Err(Interrupt::plain(Cause::Ovf));
        }
        Ok((value, overflow))
    }

    /// In system mode 256 sends register 1 to the partition of register 2, and 257 takes the
    /// oldest ticket into register 1; register 3 tells the answer. Any other trap interrupts.
    fn trap(
        &mut self,
        imm: u32,
        tickets: &mut Tickets<'_>,
        counts: &mut Counts,
    ) -> Result<Kind, Interrupt> {
        let answer = match imm {
            SEND if !self.user() => tickets.send(self.registers[1], self.registers[2], counts),
            TAKE if !self.user() => tickets.take(counts).map(|ticket| self.registers[1] = ticket),
            _ => {
                counts.user_tickets += u64::from(imm == SEND || imm == TAKE);
                return Err(Interrupt::with_data(Cause::Trap, imm));
            }
        };
        self.registers[3] = number(answer);
        Ok(match (imm, answer.is_ok()) {
            (SEND, true) => Kind::Sent,
            (SEND, false) => Kind::SendRefused,
            (_, true) => Kind::Took,
            (_, false) => Kind::TakeRefused,
        })
    }

    fn jump_target(&self, target: Target) -> u32 {
        match target {
            Target::Relative(imm) => self.pc.wrapping_add(imm),
            Target::Register(rs1) => self.registers[rs1],
        }
    }

    /// Writes to register 0 vanish.
    fn write(&mut self, rd: usize, value: u32) {
        if rd != 0 {
            self.registers[rd] = value;
        }
    }

    /// movi2s: MODE and EMODE take a value modulo 2; PTO and PTL empty the shadow.
    fn write_special(&mut self, special: usize, rs1: usize, counts: &mut Counts) {
        let value = self.registers[rs1];
        self.specials[special] = match special {
            MODE | EMODE => value % 2,
            _ => value,
        };
        if special == PTO || special == PTL {
            counts.emptied_by_special += self.space.empty();
        }
    }

    fn return_from_exception(&mut self) {
        self.pc = self.specials[EPC];
        self.dpc = self.specials[EDPC];
        self.specials[SR] = self.specials[ESR];
        self.specials[MODE] = self.specials[EMODE];
    }

    /// Saves the state as it stands and goes to the handler at 0 in system mode. The timer's bit may
    /// stand beside the level's.
    fn enter(&mut self, interrupt: Interrupt, causes: u32) {
        let (edpc, epc) = if interrupt.cause.saves_pair() {
            (self.dpc, self.pc)
        } else {
            (self.pc, self.pc.wrapping_add(4))
        };
        let specials = &mut self.specials;
        specials[ESR] = specials[SR];
        specials[SR] = 0;
        specials[ECA] = causes;
        specials[EMODE] = specials[MODE];
        specials[MODE] = 0;
        specials[EDPC] = edpc;
        specials[EPC] = epc;
        if let Some(edata) = interrupt.edata {
            specials[EDATA] = edata;
        }
        self.dpc = 0;
        self.pc = 4;
    }
}
