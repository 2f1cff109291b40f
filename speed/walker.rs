//! An ordinary emulator of the guest machine, for comparison: it keeps no shadow and walks the guest's page table at every
//! fetch, load and store. Memory is a `Vec` of host words; the guest's page k lies in the k-th frame of its list. It has no
//! tickets, which no guest here uses.
//!
//! Standard input has one line, `STEPS TURN GUEST`, as for the house; there are no turns here, and TURN is not used. Standard
//! output is the number of steps done and a digest of the registers, the special registers and the whole memory.
//!
//! `main` is C's: the Rust runtime's own start reads /proc/self/maps, which not every emulator of x86-64 bears.
#![no_main]

use std::io::Read;

/// What ends an instruction with an interrupt; with the word for EDATA where it brings one.
enum Cause {
    Illegal,
    Misaligned,
    FetchFault(u32),
    DataFault(u32),
    Trap(u32),
    Overflow,
    Timer,
}

struct Guest {
    regs: [u32; 32],
    dpc: u32,
    pc: u32,
    sr: u32,
    esr: u32,
    eca: u32,
    epc: u32,
    edpc: u32,
    edata: u32,
    mode: u32,
    pto: u32,
    ptl: u32,
    emode: u32,
    tcount: u32,
    tload: u32,
    /// TCOUNT before it fell in this step: what movs2i reads.
    unfallen: u32,
    /// Guest page k is host frame `frames[k]`.
    frames: Vec<u32>,
    words: Vec<u32>,
}

/// The low `bits` bits of a word, sign-extended.
fn sign_extend(w: u32, bits: u32) -> u32 {
    ((w << (32 - bits)) as i32 >> (32 - bits)) as u32
}

/// Test number k of two words: clr, sgr, seq, sge, sls, sne, sle, set.
fn test(k: u32, x: u32, y: u32) -> u32 {
    let (x, y) = (x as i32, y as i32);
    let holds = match k {
        0 => false,
        1 => x > y,
        2 => x == y,
        3 => x >= y,
        4 => x < y,
        5 => x != y,
        6 => x <= y,
        _ => true,
    };
    holds as u32
}

impl Guest {
    fn new(frames: Vec<u32>, words: Vec<u32>) -> Guest {
        Guest {
            regs: [0; 32],
            dpc: 0,
            pc: 4,
            sr: 0,
            esr: 0,
            eca: 0,
            epc: 0,
            edpc: 0,
            edata: 0,
            mode: 0,
            pto: 0,
            ptl: 0,
            emode: 0,
            tcount: 0,
            tload: 0,
            unfallen: 0,
            frames,
            words,
        }
    }

    /// The place in the host memory of a word of a guest page, if the guest has that page.
    fn place(&self, page: u32, offset: u32) -> Option<usize> {
        let frame = *self.frames.get(page as usize)?;
        Some(frame as usize * 1024 + offset as usize)
    }

    /// The place in the host memory of guest address a, or nothing where the access faults.
    fn translate(&self, a: u32, store: bool) -> Option<usize> {
        let offset = a / 4 % 1024;
        let px = a / 4096;
        if self.mode == 0 {
            return self.place(px, offset);
        }
        if px >= self.ptl.min(1024) {
            return None;
        }
        let entry = self.words[self.place(self.pto, px)?];
        if entry & 0x800 == 0 || store && entry & 0x400 != 0 {
            return None;
        }
        self.place(entry / 4096, offset)
    }

    fn load(&self, a: u32) -> Option<u32> {
        self.translate(a, false).map(|i| self.words[i])
    }

    fn store(&mut self, a: u32, v: u32) -> Option<()> {
        let i = self.translate(a, true)?;
        self.words[i] = v;
        Some(())
    }

    /// The field of a word at address a, at its lowest bits, what is above it not yet cut off.
    fn load_field(&self, a: u32) -> Result<u32, Cause> {
        Ok(self.load(a).ok_or(Cause::DataFault(a))? >> (a % 4 * 8))
    }

    /// A store of the bits of the mask at address a.
    fn store_field(&mut self, a: u32, v: u32, mask: u32) -> Result<(), Cause> {
        let i = self.translate(a, true).ok_or(Cause::DataFault(a))?;
        let k = a % 4 * 8;
        self.words[i] = self.words[i] & !(mask << k) | (v & mask) << k;
        Ok(())
    }

    fn set(&mut self, rd: usize, v: u32) {
        if rd != 0 {
            self.regs[rd] = v;
        }
    }

    fn set_sum(&mut self, rd: usize, x: u32, y: u32) -> Result<(), Cause> {
        let (v, overflows) = (x as i32).overflowing_add(y as i32);
        if overflows && self.sr & 64 != 0 {
            return Err(Cause::Overflow);
        }
        self.set(rd, v as u32);
        Ok(())
    }

    fn set_difference(&mut self, rd: usize, x: u32, y: u32) -> Result<(), Cause> {
        let (v, overflows) = (x as i32).overflowing_sub(y as i32);
        if overflows && self.sr & 64 != 0 {
            return Err(Cause::Overflow);
        }
        self.set(rd, v as u32);
        Ok(())
    }

    fn special(&mut self, n: u32) -> Option<&mut u32> {
        match n {
            0 => Some(&mut self.sr),
            1 => Some(&mut self.esr),
            2 => Some(&mut self.eca),
            3 => Some(&mut self.epc),
            4 => Some(&mut self.edpc),
            5 => Some(&mut self.edata),
            6 => Some(&mut self.mode),
            7 => Some(&mut self.pto),
            8 => Some(&mut self.ptl),
            9 => Some(&mut self.emode),
            10 => Some(&mut self.tcount),
            11 => Some(&mut self.tload),
            _ => None,
        }
    }

    fn address(&self, rs1: usize, imm: u32, bytes: u32) -> Result<u32, Cause> {
        let a = self.regs[rs1].wrapping_add(imm);
        if a % bytes != 0 {
            return Err(Cause::Misaligned);
        }
        Ok(a)
    }

    /// Does the instruction at DPC and gives the PC that follows it.
    fn instruction(&mut self) -> Result<u32, Cause> {
        if self.dpc % 4 != 0 {
            return Err(Cause::Misaligned);
        }
        let w = self.load(self.dpc).ok_or(Cause::FetchFault(self.dpc))?;
        let opcode = w >> 26;
        let rs1 = (w >> 21 & 31) as usize;
        let rd = (w >> 16 & 31) as usize;
        let imm = sign_extend(w, 16);
        let next = self.pc.wrapping_add(4);
        match opcode {
            0 => self.register_type(w)?,
            2 => return Ok(self.pc.wrapping_add(sign_extend(w, 26))),
            3 => {
                self.set(31, next);
                return Ok(self.pc.wrapping_add(sign_extend(w, 26)));
            }
            4 if self.regs[rs1] == 0 => return Ok(self.pc.wrapping_add(imm)),
            5 if self.regs[rs1] != 0 => return Ok(self.pc.wrapping_add(imm)),
            4 | 5 => {}
            8 => self.set_sum(rd, self.regs[rs1], imm)?,
            10 => self.set_difference(rd, self.regs[rs1], imm)?,
            12 => self.set(rd, self.regs[rs1] & imm),
            13 => self.set(rd, self.regs[rs1] | imm),
            14 => self.set(rd, self.regs[rs1] ^ imm),
            15 => self.set(rd, imm << 16),
            22 => return Ok(self.regs[rs1]),
            23 => {
                let target = self.regs[rs1];
                self.set(31, next);
                return Ok(target);
            }
            24..=31 => self.set(rd, test(opcode - 24, self.regs[rs1], imm)),
            32 => self.set(rd, sign_extend(self.load_field(self.address(rs1, imm, 1)?)?, 8)),
            33 => self.set(rd, sign_extend(self.load_field(self.address(rs1, imm, 2)?)?, 16)),
            36 => self.set(rd, self.load_field(self.address(rs1, imm, 1)?)? & 0xFF),
            37 => self.set(rd, self.load_field(self.address(rs1, imm, 2)?)? & 0xFFFF),
            40 => self.store_field(self.address(rs1, imm, 1)?, self.regs[rd], 0xFF)?,
            41 => self.store_field(self.address(rs1, imm, 2)?, self.regs[rd], 0xFFFF)?,
            35 => {
                let a = self.address(rs1, imm, 4)?;
                let v = self.load(a).ok_or(Cause::DataFault(a))?;
                self.set(rd, v);
            }
            43 => {
                let a = self.address(rs1, imm, 4)?;
                self.store(a, self.regs[rd]).ok_or(Cause::DataFault(a))?;
            }
            62 => return Err(Cause::Trap(sign_extend(w, 26))),
            63 if self.mode == 0 => {
                self.pc = self.edpc;
                self.sr = self.esr;
                self.mode = self.emode;
                return Ok(self.epc);
            }
            _ => return Err(Cause::Illegal),
        }
        Ok(next)
    }

    fn register_type(&mut self, w: u32) -> Result<(), Cause> {
        let x = self.regs[(w >> 21 & 31) as usize];
        let y = self.regs[(w >> 16 & 31) as usize];
        let rd = (w >> 11 & 31) as usize;
        let sa = w >> 6 & 31;
        let function = w & 63;
        match function {
            32 => self.set_sum(rd, x, y)?,
            34 => self.set_difference(rd, x, y)?,
            36 => self.set(rd, x & y),
            37 => self.set(rd, x | y),
            38 => self.set(rd, x ^ y),
            40..=47 => self.set(rd, test(function - 40, x, y)),
            16 if self.mode == 0 => {
                let v = if sa == 10 { self.unfallen } else { *self.special(sa).ok_or(Cause::Illegal)? };
                self.set(rd, v);
            }
            17 if self.mode == 0 => {
                let v = if sa == 6 || sa == 9 { x % 2 } else { x };
                *self.special(sa).ok_or(Cause::Illegal)? = v;
            }
            _ => return Err(Cause::Illegal),
        }
        Ok(())
    }

    /// Interrupt entry. Answers whether the guest calls the hypervisor: a trap taken in system mode.
    fn interrupt(&mut self, cause: Cause) -> bool {
        let calls = matches!(cause, Cause::Trap(_)) && self.mode == 0;
        (self.edpc, self.epc) = match cause {
            Cause::Trap(_) | Cause::Overflow => (self.pc, self.pc.wrapping_add(4)),
            _ => (self.dpc, self.pc),
        };
        if let Cause::FetchFault(d) | Cause::DataFault(d) | Cause::Trap(d) = cause {
            self.edata = d;
        }
        self.eca = match cause {
            Cause::Illegal => 2,
            Cause::Misaligned => 4,
            Cause::FetchFault(_) => 8,
            Cause::DataFault(_) => 16,
            Cause::Trap(_) => 32,
            Cause::Overflow => 64,
            Cause::Timer => 1 << 13,
        };
        self.esr = self.sr;
        self.sr = 0;
        self.emode = self.mode;
        self.mode = 0;
        self.dpc = 0;
        self.pc = 4;
        calls
    }

    /// TCOUNT falls, and is loaded again at 0. Answers whether the timer interrupts in this step.
    fn tick(&mut self) -> bool {
        self.unfallen = self.tcount;
        if self.tcount == 0 {
            return false;
        }
        self.tcount -= 1;
        if self.tcount > 0 {
            return false;
        }
        self.tcount = self.tload;
        self.sr & 1 << 13 != 0
    }

    /// One step. Answers whether the guest calls the hypervisor.
    fn step(&mut self) -> bool {
        let fires = self.tick();
        match self.instruction() {
            Ok(target) => {
                self.dpc = self.pc;
                self.pc = target;
                fires && self.interrupt(Cause::Timer)
            }
            Err(cause) => {
                let calls = self.interrupt(cause);
                if fires {
                    self.eca |= 1 << 13;
                }
                calls
            }
        }
    }

    /// Up to k steps, ending early after one that calls the hypervisor. Answers how many were made.
    fn run(&mut self, k: u32) -> u32 {
        let mut made = 0;
        while made < k {
            made += 1;
            if self.step() {
                break;
            }
        }
        made
    }

    fn digest(&self) -> u64 {
        let specials = [
            self.dpc, self.pc, self.sr, self.esr, self.eca, self.epc, self.edpc, self.edata, self.mode, self.pto,
            self.ptl, self.emode, self.tcount, self.tload,
        ];
        let all = self.regs.iter().chain(&specials).chain(&self.words);
        all.fold(0, |h, &w| (h * 31 + w as u64) % 4_294_967_291)
    }
}

const PAGES: u32 = 67;

/// It sets the table and goes to user mode.
const START: &[u32] = &[
    0x2001_0001, // addi r1, r0, 1
    0x0020_01D1, // movi2s PTO, r1
    0x0020_0251, // movi2s EMODE, r1
    0x2001_0041, // addi r1, r0, 65
    0x0020_0211, // movi2s PTL, r1
    0x2001_0004, // addi r1, r0, 4
    0x0020_00D1, // movi2s EPC, r1
    0xFC00_0000, // rfe
];

/// The same behind a test for the handler: an interrupt enters at word 0, with a cause in ECA.
const START_HANDLED: &[u32] = &[
    0x0000_A090, // movs2i r20, ECA
    0x1680_0058, // bnez r20, 88: to the handler
    0x2001_0001, // addi r1, r0, 1: the delay slot, and the start
    0x0020_01D1, // movi2s PTO, r1
    0x0020_0251, // movi2s EMODE, r1
    0x2001_0041, // addi r1, r0, 65
    0x0020_0211, // movi2s PTL, r1
    0x2001_0004, // addi r1, r0, 4
    0x0020_00D1, // movi2s EPC, r1
    0xFC00_0000, // rfe
];

/// And with the timer, which fires every 30 steps.
const START_TIMED: &[u32] = &[
    0x0000_A090, // movs2i r20, ECA
    0x1680_0058, // bnez r20, 88: to the handler
    0x2001_0001, // addi r1, r0, 1: the delay slot, and the start
    0x0020_01D1, // movi2s PTO, r1
    0x0020_0251, // movi2s EMODE, r1
    0x2001_0041, // addi r1, r0, 65
    0x0020_0211, // movi2s PTL, r1
    0x2001_0004, // addi r1, r0, 4
    0x0020_00D1, // movi2s EPC, r1
    0x2001_2000, // addi r1, r0, 8192
    0x0020_0051, // movi2s ESR, r1
    0x2001_001E, // addi r1, r0, 30
    0x0020_02D1, // movi2s TLOAD, r1
    0x0020_0291, // movi2s TCOUNT, r1
    0xFC00_0000, // rfe
];

/// It counts in a register and in a word of the page, and goes back.
const HANDLER: &[u32] = &[
    0x0000_A910, // movs2i r21, EDPC
    0x22D6_0001, // addi r22, r22, 1
    0x02F5_B826, // xor r23, r23, r21
    0x8C18_0800, // lw r24, 2048(r0)
    0x2318_0001, // addi r24, r24, 1
    0xAC18_0800, // sw r24, 2048(r0)
    0xFC00_0000, // rfe
];

/// Words of 64 pages.
const WORDS: &[u32] = &[
    0x20A5_0001, // addi r5, r5, 1
    0x30A1_03FF, // andi r1, r5, 1023
    0x0021_0820, // add r1, r1, r1
    0x0021_0820, // add r1, r1, r1
    0x2021_1000, // addi r1, r1, 4096: the first data page
    0x2002_0040, // addi r2, r0, 64
    0x8C23_0000, // lw r3, 0(r1): the inner loop's first
    0x2063_0001, // addi r3, r3, 1
    0xAC23_0000, // sw r3, 0(r1)
    0x2021_1000, // addi r1, r1, 4096
    0x2042_FFFF, // addi r2, r2, -1
    0x1440_FFE8, // bnez r2, -24
    0x2084_0001, // addi r4, r4, 1: its delay slot
    0x0BFF_FFC8, // j -56
    0x00E3_3826, // xor r7, r7, r3: its delay slot
];

/// Bytes and half words of 64 pages.
const BYTES: &[u32] = &[
    0x20A5_0002, // addi r5, r5, 2
    0x30A1_0FFE, // andi r1, r5, 4094
    0x2021_1000, // addi r1, r1, 4096: the first data page
    0x2002_0040, // addi r2, r0, 64
    0x9023_0000, // lbu r3, 0(r1): the inner loop's first
    0x2063_0001, // addi r3, r3, 1
    0xA023_0000, // sb r3, 0(r1)
    0x8426_0000, // lh r6, 0(r1)
    0x2021_1000, // addi r1, r1, 4096
    0x2042_FFFF, // addi r2, r2, -1
    0x1440_FFE4, // bnez r2, -28
    0x2084_0001, // addi r4, r4, 1: its delay slot
    0x0BFF_FFCC, // j -52
    0x00E6_3826, // xor r7, r7, r6: its delay slot
];

/// Register work, with branches and calls.
const REGISTERS: &[u32] = &[
    0x20A5_0001, // addi r5, r5, 1
    0x00C5_3026, // xor r6, r6, r5
    0x00E6_3820, // add r7, r7, r6
    0x30E8_00FF, // andi r8, r7, 255
    0x7109_0080, // slsi r9, r8, 128
    0x1520_000C, // bnez r9, 12: over the next two
    0x214A_0003, // addi r10, r10, 3: its delay slot
    0x00EA_5822, // sub r11, r7, r10
    0x0165_6025, // or r12, r11, r5
    0x018B_6829, // sgr r13, r12, r11
    0x11A0_0008, // beqz r13, 8: over the next one
    0x39CE_0055, // xori r14, r14, 85: its delay slot
    0x01CC_7824, // and r15, r14, r12
    0x3C10_1234, // lhgi r16, 4660
    0x0C00_0010, // jal 16: calls the last three
    0x3611_0011, // ori r17, r16, 17: its delay slot
    0x2A52_0001, // subi r18, r18, 1
    0x0BFF_FFB8, // j -72
    0x0092_2020, // add r4, r4, r18: its delay slot
    0x0225_9820, // add r19, r17, r5: called
    0x5BE0_0000, // jr r31
    0x0073_1826, // xor r3, r3, r19: its delay slot
];

/// Every tenth of its steps is a trap.
const TRAPS: &[u32] = &[
    0x20A5_0004, // addi r5, r5, 4
    0x30A1_0FFC, // andi r1, r5, 4092
    0x2021_1000, // addi r1, r1, 4096: the first data page
    0x8C23_0000, // lw r3, 0(r1)
    0x2063_0001, // addi r3, r3, 1
    0xAC23_0000, // sw r3, 0(r1)
    0x00E3_3826, // xor r7, r7, r3
    0xF800_0005, // trap 5
    0x0BFF_FFDC, // j -36
    0x2084_0001, // addi r4, r4, 1: its delay slot
];

/// The timer interrupts it.
const TIMER: &[u32] = &[
    0x20A5_0004, // addi r5, r5, 4
    0x30A1_0FFC, // andi r1, r5, 4092
    0x2021_1000, // addi r1, r1, 4096: the first data page
    0x8C23_0000, // lw r3, 0(r1)
    0x2063_0001, // addi r3, r3, 1
    0xAC23_0000, // sw r3, 0(r1)
    0x00E3_3826, // xor r7, r7, r3
    0x0107_4020, // add r8, r8, r7
    0x0BFF_FFDC, // j -36
    0x2084_0001, // addi r4, r4, 1: its delay slot
];

/// Guest page 0 has the start and, from word 24, the handler; page 1 the page table, page 2 the loop, pages 3 to 66 the
/// data. The user's page 0 is the loop, its pages 1 to 64 the data. The frames are a permutation of the frames 1 to 67.
fn guest(kind: u32) -> Guest {
    let frames: Vec<u32> = (0..PAGES).map(|k| (k * 13 + 5) % PAGES + 1).collect();
    let mut words = vec![0; (PAGES as usize + 1) * 1024];
    let mut fill = |page: u32, first: usize, list: &[u32]| {
        let at = frames[page as usize] as usize * 1024 + first;
        words[at..at + list.len()].copy_from_slice(list);
    };
    let table: Vec<u32> = (2..PAGES).map(|page| page * 4096 + 0x800).collect();
    fill(1, 0, &table);
    let (start, user_loop) = match kind {
        1 => (START, BYTES),
        2 => (START, REGISTERS),
        3 => (START_HANDLED, TRAPS),
        4 => (START_TIMED, TIMER),
        _ => (START, WORDS),
    };
    fill(0, 0, start);
    fill(2, 0, user_loop);
    if kind == 3 || kind == 4 {
        fill(0, 24, HANDLER);
    }
    Guest::new(frames, words)
}

#[unsafe(no_mangle)]
pub extern "C" fn main() -> i32 {
    let mut line = String::new();
    std::io::stdin().read_to_string(&mut line).unwrap();
    let mut numbers = line.split_whitespace();
    let steps: u32 = numbers.next().unwrap().parse().unwrap();
    let kind: u32 = numbers.nth(1).map_or(0, |n| n.parse().unwrap());
    let mut guest = guest(kind);
    let mut done = 0;
    while done < steps {
        done += guest.run(steps - done);
    }
    println!("{} {}", done, guest.digest());
    0
}
