//! Breaks one rule at a time in a copy of this program and looks whether `emulator compare` finds
//! it. Slow, since each copy is built: `cargo test --test mutants -- --ignored --nocapture`.

use std::path::{Path, PathBuf};
use std::process::{Command, Output};
use std::{env, fs};

/// A broken rule: its name, the file, the text that stands there once, and what replaces it.
struct Mutant(&'static str, &'static str, &'static str, &'static str);

#[rustfmt::skip]
const MUTANTS: &[Mutant] = &[
    // The guest machine.
    Mutant("jumps extend from bit 15", "dlx.rs", "sign_extended(word, 26)", "sign_extended(word, 16)"),
    Mutant("bnez wants 1", "dlx.rs", "(self.registers[rs1] == 0) == on_zero", "if on_zero { self.registers[rs1] == 0 } else { self.registers[rs1] == 1 }"),
    Mutant("branch from DPC", "dlx.rs", "next = self.pc.wrapping_add(imm);", "next = self.dpc.wrapping_add(imm);"),
    Mutant("andi does not extend", "dlx.rs", "12 => immediate(Operation::And)", "12 => Some(Instruction::Compute { operation: Operation::And, rd, rs1, right: Operand::Immediate(word & 0xFFFF) })"),
    Mutant("function 33 adds", "dlx.rs", "32 => registers", "32 | 33 => registers"),
    Mutant("opcode 9 adds", "dlx.rs", "8 => immediate", "8 | 9 => immediate"),
    Mutant("function 39 is xor", "dlx.rs", "38 => registers", "38 | 39 => registers"),
    Mutant("unused SA counts", "dlx.rs", "36 => registers", "36 if sa == 0 => registers"),
    Mutant("special 12 is special 0", "dlx.rs", "16 if sa < special::COUNT => Some(Instruction::Movs2i { rd, special: sa })", "16 if sa < special::COUNT + 1 => Some(Instruction::Movs2i { rd, special: sa % 12 })"),
    Mutant("movi2s reads RD", "dlx.rs", "Some(Instruction::Movi2s { special: sa, rs1 })", "Some(Instruction::Movi2s { special: sa, rs1: rd })"),
    Mutant("unsigned sle", "dlx.rs", "i32::from(a <= b)", "i32::from(left <= right)"),
    Mutant("link is PC + 8", "dlx.rs", "self.write(LINK, self.pc.wrapping_add(4))", "self.write(LINK, self.pc.wrapping_add(8))"),
    Mutant("jalr links first", "dlx.rs", "next = self.jump_target(target);\n                if link {\n                    self.write(LINK, self.pc.wrapping_add(4));", "if link {\n                    self.write(LINK, self.pc.wrapping_add(4));\n                }\n                next = self.jump_target(target);\n                if link {"),
    Mutant("register 0 is written", "dlx.rs", "if rd != 0 {", "if rd < 32 {"),
    Mutant("rfe is allowed in user mode", "dlx.rs", " | Instruction::Rfe)", ")"),
    Mutant("rfe keeps MODE", "dlx.rs", "self.specials[MODE] = self.specials[EMODE];", ""),
    Mutant("rfe keeps SR", "dlx.rs", "self.specials[SR] = self.specials[ESR];", ""),
    Mutant("interrupts keep MODE", "dlx.rs", "specials[MODE] = 0;", ""),
    Mutant("interrupts keep SR", "dlx.rs", "specials[SR] = 0;", ""),
    Mutant("pff keeps EDATA", "dlx.rs", "Interrupt::with_data(Cause::Pff, self.dpc)", "Interrupt::plain(Cause::Pff)"),
    Mutant("ill clears EDATA", "dlx.rs", "Interrupt::plain(Cause::Ill)", "Interrupt::with_data(Cause::Ill, 0)"),
    Mutant("misaligned data is pfls", "dlx.rs", "u64::from(width == Width::Half);\n            return Err(Interrupt::plain(Cause::Mal));", "u64::from(width == Width::Half);\n            return Err(Interrupt::with_data(Cause::Pfls, address));"),
    Mutant("ovf by SR bit 5", "dlx.rs", "self.specials[SR] & Cause::Ovf.bit()", "self.specials[SR] & Cause::Trap.bit()"),
    Mutant("EMODE takes all bits", "dlx.rs", "MODE | EMODE => value % 2", "MODE => value % 2"),
    Mutant("PTL empties nothing", "dlx.rs", "special == PTO || special == PTL", "special == PTO"),
    Mutant("PTO empties only when changed", "dlx.rs", "let value = self.registers[rs1];\n        self.specials[special] = match", "let value = self.registers[rs1];\n        if self.specials[special] == value {\n            return;\n        }\n        self.specials[special] = match"),
    Mutant("interrupts empty the shadow", "dlx.rs", "self.dpc = 0;\n        self.pc = 4;", "self.dpc = 0;\n        self.pc = 4;\n        self.space.empty();"),
    Mutant("DPC's low bits are dropped", "dlx.rs", "if !self.dpc.is_multiple_of(4) {", "if self.dpc % 4 == 1 {"),
    Mutant("a load into register 0 is no access", "dlx.rs", "Instruction::Load { width, signed, rd, rs1, imm } => {", "Instruction::Load { rd: 0, .. } => Kind::Load,\n            Instruction::Load { width, signed, rd, rs1, imm } => {"),
    Mutant("interrupts undo fills", "dlx.rs", "let done = self.instruction(memory, tickets, engine, counts);", "let shadow = self.space.shadow;\n        let done = self.instruction(memory, tickets, engine, counts);\n        if done.is_err() {\n            self.space.shadow = shadow;\n        }"),
    Mutant("stores in system mode empty nothing", "dlx.rs", "self.space.store(memory, self.table(), place", "let table = if self.user() { self.table() } else { Table { pto: 0, ptl: 0 } };\n                self.space.store(memory, table, place"),
    // Bytes and half words.
    Mutant("parts: lb extends with zeros", "dlx.rs", "32 => load(Width::Byte, true)", "32 => load(Width::Byte, false)"),
    Mutant("parts: lh extends with zeros", "dlx.rs", "33 => load(Width::Half, true)", "33 => load(Width::Half, false)"),
    Mutant("parts: lbu extends the sign", "dlx.rs", "36 => load(Width::Byte, false)", "36 => load(Width::Byte, true)"),
    Mutant("parts: lhu extends the sign", "dlx.rs", "37 => load(Width::Half, false)", "37 => load(Width::Half, true)"),
    Mutant("parts: lh extends from bit 7", "dlx.rs", "let bits = 8 * width.bytes();", "let bits = if width == Width::Half { 8 } else { 8 * width.bytes() };"),
    Mutant("parts: opcode 34 is lw", "dlx.rs", "35 => load(Width::Word, true)", "34 | 35 => load(Width::Word, true)"),
    Mutant("parts: opcodes 38 and 39 are lhu", "dlx.rs", "37 => load(Width::Half, false)", "37..=39 => load(Width::Half, false)"),
    Mutant("parts: opcode 42 is sw", "dlx.rs", "43 => store(Width::Word)", "42 | 43 => store(Width::Word)"),
    Mutant("parts: bytes stand big-endian", "memory.rs", "fn bytes(self, width: Width) -> Range<usize> {", "fn bytes(mut self, width: Width) -> Range<usize> {\n        if width == Width::Byte {\n            self.byte = 3 - self.byte;\n        }"),
    Mutant("parts: half words stand big-endian", "memory.rs", "fn bytes(self, width: Width) -> Range<usize> {", "fn bytes(mut self, width: Width) -> Range<usize> {\n        if width == Width::Half {\n            self.byte = 2 - self.byte;\n        }"),
    Mutant("parts: a half word may be in the middle", "dlx.rs", "if !address.is_multiple_of(width.bytes()) {", "if !address.is_multiple_of(width.bytes()) && !(width == Width::Half && address % 4 == 1) {"),
    Mutant("parts: an odd half word is the even one", "dlx.rs", "if !address.is_multiple_of(width.bytes()) {", "let address = if width == Width::Half { address & !1 } else { address };\n        if !address.is_multiple_of(width.bytes()) {"),
    Mutant("parts: half words at multiples of 4 only", "dlx.rs", "if !address.is_multiple_of(width.bytes()) {", "if !address.is_multiple_of(if width == Width::Half { 4 } else { width.bytes() }) {"),
    Mutant("parts: bytes at even addresses only", "dlx.rs", "if !address.is_multiple_of(width.bytes()) {", "if !address.is_multiple_of(width.bytes().max(2)) {"),
    Mutant("parts: pfls before mal", "dlx.rs", "if !address.is_multiple_of(width.bytes()) {", "if !address.is_multiple_of(width.bytes()) && self.locate(memory, address, access, engine, counts).is_ok() {"),
    Mutant("parts: an odd half word sets EDATA", "dlx.rs", "u64::from(width == Width::Half);\n            return Err(Interrupt::plain(Cause::Mal));", "u64::from(width == Width::Half);\n            if width == Width::Half {\n                return Err(Interrupt::with_data(Cause::Mal, address));\n            }\n            return Err(Interrupt::plain(Cause::Mal));"),
    Mutant("parts: EDATA is the word's address", "dlx.rs", "Interrupt::with_data(Cause::Pfls, address)", "Interrupt::with_data(Cause::Pfls, address & !3)"),
    Mutant("parts: sb is no store for protection", "dlx.rs", "self.data(memory, address, width, Access::Store, engine, counts)?", "self.data(memory, address, width, if width == Width::Byte { Access::Load } else { Access::Store }, engine, counts)?"),
    Mutant("parts: a store writes the word", "memory.rs", "word[place.bytes(width)].copy_from_slice(lowest);", "if !lowest.is_empty() {\n            word = value.to_le_bytes();\n        }"),
    Mutant("parts: a store clears the other bytes", "memory.rs", "let mut word = host.to_le_bytes();", "let mut word = if width == Width::Word { host.to_le_bytes() } else { [0; 4] };"),
    Mutant("parts: a store takes the highest bits", "memory.rs", "&value.to_le_bytes()[..width.bytes() as usize]", "&value.to_le_bytes()[4 - width.bytes() as usize..]"),
    Mutant("parts: sb and sh empty nothing", "memory.rs", "if let Some(px) = entry_at(table, place) {", "if let Some(px) = entry_at(table, place).filter(|_| width == Width::Word) {"),
    Mutant("parts: byte 0 alone empties", "memory.rs", "if let Some(px) = entry_at(table, place) {", "if let Some(px) = entry_at(table, place).filter(|_| place.byte == 0) {"),
    Mutant("parts: byte 3 empties the next entry", "memory.rs", "let offset = place.word_address()", "let offset = (place.word_address() + u64::from(place.byte / 3 * 4))"),
    // The pair that an interrupt saves.
    Mutant("pair: ill goes on", "dlx.rs", "Cause::Ill | Cause::Mal | Cause::Pff | Cause::Pfls", "Cause::Mal | Cause::Pff | Cause::Pfls"),
    Mutant("pair: mal goes on", "dlx.rs", "Cause::Ill | Cause::Mal | Cause::Pff | Cause::Pfls", "Cause::Ill | Cause::Pff | Cause::Pfls"),
    Mutant("pair: pff goes on", "dlx.rs", "Cause::Ill | Cause::Mal | Cause::Pff | Cause::Pfls", "Cause::Ill | Cause::Mal | Cause::Pfls"),
    Mutant("pair: pfls goes on", "dlx.rs", "Cause::Ill | Cause::Mal | Cause::Pff | Cause::Pfls", "Cause::Ill | Cause::Mal | Cause::Pff"),
    Mutant("pair: trap saves the old pair", "dlx.rs", "Cause::Ill | Cause::Mal | Cause::Pff | Cause::Pfls", "Cause::Ill | Cause::Mal | Cause::Pff | Cause::Pfls | Cause::Trap"),
    Mutant("pair: ovf saves the old pair", "dlx.rs", "Cause::Ill | Cause::Mal | Cause::Pff | Cause::Pfls", "Cause::Ill | Cause::Mal | Cause::Pff | Cause::Pfls | Cause::Ovf"),
    Mutant("pair: what is ill in user mode goes on", "dlx.rs", "if interrupt.cause.saves_pair() {", "if interrupt.cause.saves_pair() && !(interrupt.cause == Cause::Ill && self.user()) {"),
    Mutant("pair: a misaligned DPC goes on", "dlx.rs", "if interrupt.cause.saves_pair() {", "if interrupt.cause.saves_pair() && self.dpc % 4 == 0 {"),
    Mutant("pair: misaligned data goes on", "dlx.rs", "if interrupt.cause.saves_pair() {", "if interrupt.cause.saves_pair() && (interrupt.cause != Cause::Mal || self.dpc % 4 != 0) {"),
    Mutant("pair: the old PC is taken for DPC + 4", "dlx.rs", "(self.dpc, self.pc)", "(self.dpc, self.dpc.wrapping_add(4))"),
    Mutant("pair: it goes on behind DPC", "dlx.rs", "(self.pc, self.pc.wrapping_add(4))", "(self.dpc.wrapping_add(4), self.dpc.wrapping_add(8))"),
    Mutant("pair: EPC does not wrap", "dlx.rs", "(self.pc, self.pc.wrapping_add(4))", "(self.pc, self.pc.saturating_add(4))"),
    // Addresses and shadows.
    Mutant("far: px 1,023 faults", "memory.rs", "if px as usize >= ENTRIES {", "if px as usize >= ENTRIES - 1 {"),
    Mutant("far: px 256 faults", "memory.rs", "if px as usize >= ENTRIES {", "if px as usize >= 256 {"),
    Mutant("far: px 1,024 is px 0", "memory.rs", "let (page, protection) = match", "let px = if px == 1_024 { 0 } else { px };\n        let (page, protection) = match"),
    Mutant("far: a hit looks at 8 bits of px", "memory.rs", "match self.shadow.get(px as usize) {", "match self.shadow.get(px as usize).map(|_| &self.shadow[px as usize % 256]) {"),
    Mutant("far: a fill looks at 8 bits of px", "memory.rs", "self.shadow[px as usize] = shadow_entry(self.frames[page as usize], entry);", "self.shadow[px as usize % 256] = shadow_entry(self.frames[page as usize], entry);"),
    Mutant("far: PTL counts up to 256", "memory.rs", "px >= table.ptl", "px >= table.ptl.min(256)"),
    Mutant("far: PTL has 10 bits", "memory.rs", "px >= table.ptl", "px >= table.ptl % 1_024"),
    Mutant("far: entries from 256 on are not emptied", "memory.rs", "px < ENTRIES as u64", "px < 256"),
    Mutant("far: entry 1,023 is not emptied", "memory.rs", "px < ENTRIES as u64", "px < 1_023"),
    Mutant("far: a store empties by 8 bits of px", "memory.rs", "inside.then_some(px as usize)", "inside.then_some(px as usize % 256)"),
    Mutant("far: a store behind the table empties", "memory.rs", "let inside = px < u64::from(table.ptl) && px < ENTRIES as u64;", "let inside = px < u64::from(table.ptl) && px < 2_048;\n    let px = px % 1_024;"),
    Mutant("far: all are the first 256", "memory.rs", "self.shadow = [0; ENTRIES];", "self.shadow[..256].fill(0);"),
    Mutant("far: the last page holds 256 entries", "memory.rs", "let inside = address < PAGE_BYTES * u64::from(self.pages);", "let inside = address + 3_072 < PAGE_BYTES * u64::from(self.pages) || px < 256 && address < PAGE_BYTES * u64::from(self.pages);"),
    Mutant("the page number is not tested", "memory.rs", "if page >= pages {", "if page > pages {"),
    Mutant("entry 1 is never emptied", "memory.rs", "if let Some(px) = entry_at(table, place) {", "if let Some(px) = entry_at(table, place).filter(|&px| px != 1) {"),
    Mutant("protection is not filled", "memory.rs", "frame << 12 | VALID | guest_entry & PROTECTED", "frame << 12 | VALID | (guest_entry & 0)"),
    Mutant("all entry bits are filled", "memory.rs", "frame << 12 | VALID | guest_entry & PROTECTED", "frame << 12 | VALID | guest_entry & 0x7FF"),
    Mutant("PTL is the last entry", "memory.rs", "px >= table.ptl", "px > table.ptl"),
    Mutant("the table's address wraps", "memory.rs", "let address = PAGE_BYTES * u64::from(table.pto) + 4 * u64::from(px);", "let address = u64::from(table.pto.wrapping_mul(4_096)) + 4 * u64::from(px);"),
    Mutant("a protected store does not fill", "memory.rs", "_ => self.fill(memory, table, px, counts)?,", "_ => {\n                let (page, entry) = self.fill(memory, table, px, counts)?;\n                if access == Access::Store && entry & PROTECTED != 0 {\n                    self.shadow[px as usize] = 0;\n                }\n                (page, entry)\n            }"),
    Mutant("a hit looks at PTL", "memory.rs", "Some(&shadow) if shadow & VALID != 0 =>", "Some(&shadow) if shadow & VALID != 0 && px < table.ptl =>"),
    Mutant("a hit ignores protection", "memory.rs", "(self.page_of(shadow >> 12), shadow)", "(self.page_of(shadow >> 12), 0)"),
    Mutant("a store never empties", "memory.rs", "self.shadow[px] = 0;", ""),
    Mutant("an equal store does not empty", "memory.rs", "*host = u32::from_le_bytes(word);", "let old = std::mem::replace(host, u32::from_le_bytes(word));\n        if old == *host {\n            return;\n        }"),
    Mutant("a store empties all", "memory.rs", "self.shadow[px] = 0;", "self.empty();"),
    Mutant("a store at PTL empties", "memory.rs", "px < u64::from(table.ptl) && px", "px <= u64::from(table.ptl) && px"),
    Mutant("an address may be the end", "memory.rs", "let inside = u64::from(address) < PAGE_BYTES", "let inside = u64::from(address) < 4 + PAGE_BYTES"),
    Mutant("bit 10 allows stores", "memory.rs", "access == Access::Store && entry & PROTECTED != 0", "access == Access::Store && entry & PROTECTED == 0"),
    Mutant("valid bit not tested", "memory.rs", "if entry & VALID == 0 {", "if false {"),
    // Which fault applied.
    Mutant("fault: 2 before 1", "memory.rs", "if px >= table.ptl {", "if px as usize >= ENTRIES {\n            return Err(Fault::Limit);\n        }\n        if px >= table.ptl {"),
    Mutant("fault: 3 before 1", "memory.rs", "if px >= table.ptl {", "if table.pto >= self.pages {\n            return Err(Fault::Outside);\n        }\n        if px >= table.ptl {"),
    Mutant("fault: 3 before 2", "memory.rs", "if px as usize >= ENTRIES {", "if table.pto >= self.pages {\n            return Err(Fault::Outside);\n        }\n        if px as usize >= ENTRIES {"),
    Mutant("fault: 5 before 4", "memory.rs", "if entry & VALID == 0 {", "if entry >> 12 >= pages {\n        return Err(Fault::Page);\n    }\n    if entry & VALID == 0 {"),
    Mutant("fault: 6 before 4 and 5", "memory.rs", "_ => self.fill(memory, table, px, counts)?,", "_ => {\n                let entry = self.entry(memory, table, px)?;\n                let filled = self.fill(memory, table, px, counts);\n                check_protection(entry, access)?;\n                filled?\n            }"),
    Mutant("fault: 2 is 1", "memory.rs", "Err(Fault::Limit)", "Err(Fault::Length)"),
    Mutant("fault: 3 is 4", "memory.rs", ".ok_or(Fault::Outside)", ".ok_or(Fault::Invalid)"),
    Mutant("fault: 5 is 4", "memory.rs", "Err(Fault::Page)", "Err(Fault::Invalid)"),
    Mutant("fault: 6 is 4", "memory.rs", "Err(Fault::Protected)", "Err(Fault::Invalid)"),
    Mutant("fault: 7 is 1", "memory.rs", ".ok_or(Fault::System)", ".ok_or(Fault::Length)"),
    Mutant("fault: a hit beyond PTL is 1", "memory.rs", "check_protection(protection, access)?;\n        Ok(page)", "check_protection(protection, access).map_err(|fault| if px >= table.ptl { Fault::Length } else { fault })?;\n        Ok(page)"),
    Mutant("fault: a fetch has none", "dlx.rs", "counts.fetch_faults[fault as usize] += 1;", "counts.fetch_faults[fault as usize] += 1;\n            self.fault = 0;"),
    Mutant("fault: a misaligned access has one", "dlx.rs", "counts.odd_halves += u64::from(width == Width::Half);", "counts.odd_halves += u64::from(width == Width::Half);\n            self.fault = 7;"),
    Mutant("fault: the first stays", "dlx.rs", ".inspect_err(|&fault| self.fault = fault as u32)", ".inspect_err(|&fault| {\n                if self.fault == 0 {\n                    self.fault = fault as u32;\n                }\n            })"),
    Mutant("fault: an access that passes forgets it", "dlx.rs", ".inspect_err(|&fault| self.fault = fault as u32)", ".inspect(|_| self.fault = 0)\n            .inspect_err(|&fault| self.fault = fault as u32)"),
    Mutant("fault: other interrupts forget it", "dlx.rs", "self.dpc = 0;\n        self.pc = 4;", "self.dpc = 0;\n        self.pc = 4;\n        if !matches!(interrupt.cause, Cause::Pff | Cause::Pfls) {\n            self.fault = 0;\n        }"),
    Mutant("fault: rfe forgets it", "dlx.rs", "self.pc = self.specials[EPC];", "self.pc = self.specials[EPC];\n        self.fault = 0;"),
    Mutant("fault: PTO and PTL forget it", "dlx.rs", "counts.emptied_by_special += self.space.empty();", "counts.emptied_by_special += self.space.empty();\n            self.fault = 0;"),
    Mutant("fault: the call empty forgets it", "house.rs", "counts.emptied_by_call += self.guests[at].space.empty();", "counts.emptied_by_call += self.guests[at].space.empty();\n        self.guests[at].fault = 0;"),
    Mutant("fault: stopping forgets it", "house.rs", "self.running[at] = false;", "self.running[at] = false;\n        self.guests[at].fault = 0;"),
    Mutant("fault: starting forgets it", "house.rs", "self.running[at] = true;", "self.running[at] = true;\n        self.guests[at].fault = 0;"),
    Mutant("fault: a run forgets it", "house.rs", "for _ in 0..steps {", "self.guests.iter_mut().for_each(|guest| guest.fault = 0);\n        for _ in 0..steps {"),
    Mutant("fault: the report has none", "housefile.rs", "(guest.dpc, guest.pc, guest.fault)", "(guest.dpc, guest.pc, 0)"),
    Mutant("fault: the report has partition 0's", "housefile.rs", "(guest.dpc, guest.pc, guest.fault)", "(guest.dpc, guest.pc, house.guests[0].fault)"),
    // Turns and calls.
    Mutant("a user trap passes the turn", "house.rs", "system && cause == Some(Cause::Trap)", "cause == Some(Cause::Trap) && (system || !system)"),
    Mutant("a trap keeps the turn", "house.rs", "self.left == 0 || system && cause == Some(Cause::Trap)", "self.left == 0 && (system || cause != None || true)"),
    Mutant("the counter stops at its end", "house.rs", "guest.counter.wrapping_add(1)", "guest.counter.saturating_add(1)"),
    Mutant("interrupted steps are not counted", "house.rs", "guest.counter = guest.counter.wrapping_add(1);", "guest.counter = guest.counter.wrapping_add(u64::from(cause.is_none()));"),
    Mutant("stopping keeps the turn's rest", "house.rs", "Some(next) => (self.current, self.left) = (next, self.q)", "Some(next) => (self.current, self.left) = (next, if self.left > 0 { self.left } else { self.q })"),
    Mutant("starting takes the turn", "house.rs", "if self.left == 0 {\n            (self", "if self.left < 2 {\n            (self"),
    Mutant("11 before 14", "house.rs", "if steps > MOST_STEPS {", "if steps > MOST_STEPS && self.left > 0 {"),
    Mutant("run 0 with nothing running is 11", "house.rs", "if steps > 0 && !self.running", "if !self.running"),
    Mutant("9 before 8", "house.rs", "self.check_damage()?;\n        self.check_length(memory)?;\n        if steps", "self.check_length(memory)?;\n        self.check_damage()?;\n        if steps"),
    Mutant("13 before 12", "house.rs", "if !address.is_multiple_of(4) || end", "if (output.len() as u64) < count {\n            return Err(Refusal::Output);\n        }\n        if !address.is_multiple_of(4) || end"),
    Mutant("the read-out's sum wraps", "house.rs", "u128::from(address) + 4 * u128::from(count)", "u128::from(u64::from(address).wrapping_add(count.wrapping_mul(4)))"),
    Mutant("the read-out stays in a frame", "house.rs", "Place::of(address + 4 * at as u32)", "Place { page: address >> 12, word: (address / 4 + at as u32) % 1_024, byte: 0 }"),
    Mutant("256 pages are too many", "house.rs", "!(1..=MOST_PAGES).contains(&count)", "!(1..MOST_PAGES).contains(&count)"),
    Mutant("8 partitions are too many", "house.rs", "!(1..=PARTITIONS).contains(&count)", "!(1..PARTITIONS).contains(&count)"),
    Mutant("q 10,000 is too long", "house.rs", "!(1..=MOST_TURN).contains(&q)", "!(1..MOST_TURN).contains(&q)"),
    Mutant("frames need not be whole", "house.rs", "!whole ||", "!whole && words < 1_024 ||"),
    Mutant("twice tells the earlier place", "house.rs", "Err(Refusal::Twice(at))", "Err(Refusal::Twice(frames.iter().position(|&other| other == frame).unwrap_or(at)))"),
    Mutant("list length before memory", "house.rs", "check_memory(memory_words)?;\n    if frames", "if frames.is_empty() {\n        return Err(Refusal::ListLength);\n    }\n    check_memory(memory_words)?;\n    if frames"),
    // Frame 0.
    Mutant("frame 0: a list may name it", "house.rs", "frames.iter().position(|&frame| frame == HOUSE_FRAME)", "frames.iter().position(|&frame| frame == HOUSE_FRAME && frame > 0)"),
    Mutant("frame 0: the last position", "house.rs", "frames.iter().position(|&frame| frame == HOUSE_FRAME)", "frames.iter().rposition(|&frame| frame == HOUSE_FRAME)"),
    Mutant("frame 0: the detail is 0", "house.rs", "            | Refusal::HouseFrame(at)\n", ""),
    Mutant("frame 0: before 6", "house.rs", "let most = memory_words / FRAME_WORDS;", "let most = memory_words / FRAME_WORDS;\n    if let Some(first) = frames.iter().position(|&frame| frame == 0) {\n        return Err(Refusal::HouseFrame(first));\n    }"),
    Mutant("frame 0: after 7", "house.rs", "position(|&frame| frame == HOUSE_FRAME) {", "position(|&frame| frame == HOUSE_FRAME).filter(|_| (1..frames.len()).all(|at| !frames[..at].contains(&frames[at]))) {"),
    Mutant("frame 0: after a 7 that stands before it", "house.rs", "position(|&frame| frame == HOUSE_FRAME) {", "position(|&frame| frame == HOUSE_FRAME).filter(|&first| (1..first).all(|at| !frames[..at].contains(&frames[at]))) {"),
    Mutant("frame 0: a memory of it alone is none", "house.rs", "!(1..=MOST_FRAMES).contains(&(words / FRAME_WORDS))", "!(2..=MOST_FRAMES).contains(&(words / FRAME_WORDS))"),
    Mutant("frame 0: a file may not fill it", "housefile.rs", "if frame >= FRAMES {", "if frame == 0 || frame >= FRAMES {"),
    // Tickets.
    Mutant("tickets: user mode sends", "dlx.rs", "SEND if !self.user() =>", "SEND =>"),
    Mutant("tickets: user mode takes", "dlx.rs", "TAKE if !self.user() =>", "TAKE =>"),
    Mutant("tickets: bits 25..16 of the trap do not count", "dlx.rs", "let answer = match imm {", "let answer = match imm & 0xFFFF {"),
    Mutant("tickets: none waiting clears register 1", "dlx.rs", "tickets.take(counts).map(|ticket| self.registers[1] = ticket)", "tickets.take(counts).map(|ticket| self.registers[1] = ticket).inspect_err(|_| self.registers[1] = 0)"),
    Mutant("tickets: a refused send clears register 1", "dlx.rs", "tickets.send(self.registers[1], self.registers[2], counts)", "tickets.send(self.registers[1], self.registers[2], counts).inspect_err(|_| self.registers[1] = 0)"),
    Mutant("tickets: register 3 tells refusals only", "dlx.rs", "self.registers[3] = number(answer);", "if answer.is_err() {\n            self.registers[3] = number(answer);\n        }"),
    Mutant("tickets: a send sets EDATA", "dlx.rs", "self.registers[3] = number(answer);", "self.registers[3] = number(answer);\n        if imm == SEND {\n            self.specials[EDATA] = imm;\n        }"),
    Mutant("tickets: last in, first out", "tickets.rs", "let oldest = std::mem::take(&mut self.places[0]);\n        self.places.rotate_left(1);", "let oldest = std::mem::take(&mut self.places[self.waiting as usize - 1]);"),
    Mutant("tickets: a full queue drops the oldest", "tickets.rs", "let place = self.places.get_mut", "if self.waiting as usize == PLACES {\n            self.take()?;\n        }\n        let place = self.places.get_mut"),
    Mutant("tickets: 31 fill a queue", "tickets.rs", "let place = self.places.get_mut", "let place = self.places[..31].get_mut"),
    Mutant("tickets: a freed place keeps its ticket", "tickets.rs", "std::mem::take(&mut self.places[0])", "self.places[0]"),
    Mutant("tickets: a 0 is none waiting", "tickets.rs", "if self.waiting == 0 {", "if self.waiting == 0 || self.places[0] == 0 {"),
    Mutant("tickets: the receiver is modulo 8", "tickets.rs", "let to = to as usize;", "let to = to as usize % 8;"),
    Mutant("tickets: the receiver has 16 bits", "tickets.rs", "let to = to as usize;", "let to = to as usize & 0xFFFF;"),
    Mutant("tickets: not to oneself", "tickets.rs", "Some(queue) => queue.put(ticket),\n            None =>", "Some(queue) if to != self.own => queue.put(ticket),\n            _ =>"),
    Mutant("tickets: a stopped partition gets none", "tickets.rs", "Some(queue) => queue.put(ticket),\n            None =>", "Some(queue) if self.running[to] => queue.put(ticket),\n            _ =>"),
    Mutant("tickets: all take from partition 0", "tickets.rs", "self.queues[self.own].take()", "self.queues[0].take()"),
    Mutant("tickets: unused partitions receive", "house.rs", "let queues = &mut self.queues[..self.count as usize];", "let queues = &mut self.queues[..];"),
    Mutant("tickets: a send ends the turn", "house.rs", "let cause = guest.step(memory, &mut tickets, engine, counts);", "let sends = counts.sends;\n        let cause = guest.step(memory, &mut tickets, engine, counts);\n        let cause = cause.or((counts.sends != sends).then_some(Cause::Trap));"),
    Mutant("tickets: a take ends the turn", "house.rs", "let cause = guest.step(memory, &mut tickets, engine, counts);", "let takes = counts.takes;\n        let cause = guest.step(memory, &mut tickets, engine, counts);\n        let cause = cause.or((counts.takes != takes).then_some(Cause::Trap));"),
    Mutant("tickets: stopping drops them", "house.rs", "self.running[at] = false;", "self.running[at] = false;\n        self.queues[at] = Queue::EMPTY;"),
    Mutant("tickets: starting drops them", "house.rs", "self.running[at] = true;", "self.running[at] = true;\n        self.queues[at] = Queue::EMPTY;"),
    Mutant("tickets: emptying a shadow drops them", "house.rs", "counts.emptied_by_call += self.guests[at].space.empty();", "counts.emptied_by_call += self.guests[at].space.empty();\n        self.queues[at] = Queue::EMPTY;"),
    // The timer.
    Mutant("timer: it stands still in user mode", "dlx.rs", "fall(self.specials[TCOUNT], self.specials[TLOAD])", "if user { (self.specials[TCOUNT], false) } else { fall(self.specials[TCOUNT], self.specials[TLOAD]) }"),
    Mutant("timer: faulted steps do not count", "dlx.rs", "if done != Ok(Kind::WroteTcount) {", "if done != Ok(Kind::WroteTcount) && done.is_ok() {"),
    Mutant("timer: it does not reload", "timer.rs", "1 => (load, true)", "1 => (0, true)"),
    Mutant("timer: the firing step counts for the next", "timer.rs", "1 => (load, true)", "1 => (load.saturating_sub(1), true)"),
    Mutant("timer: it stays at 1", "timer.rs", "1 => (load, true)", "1 => (1, true)"),
    Mutant("timer: it reloads one more than TLOAD", "timer.rs", "1 => (load, true)", "1 => (load.saturating_add(u32::from(load != 0)), true)"),
    Mutant("timer: TLOAD starts a timer of 0", "timer.rs", "0 => (0, false)", "0 => (load, false)"),
    Mutant("timer: a timer of 0 fires", "timer.rs", "0 => (0, false)", "0 => (load, load != 0)"),
    Mutant("timer: the reload is TLOAD after the step", "dlx.rs", "self.specials[TCOUNT] = count;", "self.specials[TCOUNT] = if zero { self.specials[TLOAD] } else { count };"),
    Mutant("timer: the mask is SR after the step", "dlx.rs", "Cause::Timer.bit() & mask", "Cause::Timer.bit() & self.specials[SR]"),
    Mutant("timer: no bit masks it", "dlx.rs", "Cause::Timer.bit() & mask", "Cause::Timer.bit()"),
    Mutant("timer: bit 12 lets it through", "dlx.rs", "Cause::Timer.bit() & mask", "Cause::Timer.bit() & mask << 1"),
    Mutant("timer: bit 6 lets it through", "dlx.rs", "Cause::Timer.bit() & mask", "Cause::Timer.bit() & mask << 7"),
    Mutant("timer: a masked one does not reload", "dlx.rs", "self.specials[TCOUNT] = count;", "self.specials[TCOUNT] = if zero && mask & 8_192 == 0 { 0 } else { count };"),
    Mutant("timer: a masked one is kept for later", "dlx.rs", "self.specials[TCOUNT] = count;", "self.specials[TCOUNT] = if zero && mask & 8_192 == 0 { 1 } else { count };"),
    Mutant("timer: movs2i reads after the fall", "dlx.rs", "self.write(rd, self.specials[special]);", "self.write(rd, if special == TCOUNT { fall(self.specials[TCOUNT], self.specials[TLOAD]).0 } else { self.specials[special] });"),
    Mutant("timer: what movi2s set falls, too", "dlx.rs", "if done != Ok(Kind::WroteTcount) {", "if done == Ok(Kind::WroteTcount) {\n            self.specials[TCOUNT] = self.specials[TCOUNT].saturating_sub(1);\n        } else {"),
    Mutant("timer: movi2s of 0 to TCOUNT fires", "dlx.rs", "let timer = if zero {", "let timer = if zero || done == Ok(Kind::WroteTcount) && self.specials[TCOUNT] == 0 {"),
    Mutant("timer: movi2s to TCOUNT in the firing step stops it", "dlx.rs", "let timer = if zero {", "let timer = if zero && done != Ok(Kind::WroteTcount) {"),
    Mutant("timer: the reload comes after movi2s to TCOUNT", "dlx.rs", "if done != Ok(Kind::WroteTcount) {", "if done != Ok(Kind::WroteTcount) || zero {"),
    Mutant("timer: movi2s to TLOAD starts it", "dlx.rs", "self.specials[TCOUNT] = count;", "self.specials[TCOUNT] = if done == Ok(Kind::WroteTload) { self.specials[TLOAD] } else { count };"),
    Mutant("timer: TCOUNT has 16 bits", "dlx.rs", "MODE | EMODE => value % 2,", "MODE | EMODE => value % 2,\n            TCOUNT => value & 0xFFFF,"),
    Mutant("timer: it goes on behind the next word", "dlx.rs", "Cause::Pff | Cause::Pfls | Cause::Timer", "Cause::Pff | Cause::Pfls"),
    Mutant("timer: the old pair is saved", "dlx.rs", "let done = self.instruction(memory, tickets, engine, counts);", "let old = (self.dpc, self.pc);\n        let done = self.instruction(memory, tickets, engine, counts);\n        if done.is_ok() && zero && mask & 8_192 != 0 {\n            (self.dpc, self.pc) = old;\n        }"),
    Mutant("timer: ESR is SR before the step", "dlx.rs", "let done = self.instruction(memory, tickets, engine, counts);", "let done = self.instruction(memory, tickets, engine, counts);\n        if done.is_ok() && zero && mask & 8_192 != 0 {\n            self.specials[SR] = mask;\n        }"),
    Mutant("timer: EMODE is MODE before the step", "dlx.rs", "let done = self.instruction(memory, tickets, engine, counts);", "let mode = self.specials[MODE];\n        let done = self.instruction(memory, tickets, engine, counts);\n        if done.is_ok() && zero && mask & 8_192 != 0 {\n            self.specials[MODE] = mode;\n        }"),
    Mutant("timer: the registers are as before", "dlx.rs", "let done = self.instruction(memory, tickets, engine, counts);", "let registers = self.registers;\n        let done = self.instruction(memory, tickets, engine, counts);\n        if done.is_ok() && zero && mask & 8_192 != 0 {\n            self.registers = registers;\n        }"),
    Mutant("timer: fills and emptying are undone", "dlx.rs", "let done = self.instruction(memory, tickets, engine, counts);", "let shadow = self.space.shadow;\n        let done = self.instruction(memory, tickets, engine, counts);\n        if done.is_ok() && zero && mask & 8_192 != 0 {\n            self.space.shadow = shadow;\n        }"),
    Mutant("timer: EDATA becomes 0", "dlx.rs", "Interrupt::plain(Cause::Timer)", "Interrupt::with_data(Cause::Timer, 0)"),
    Mutant("timer: EDATA is as before", "dlx.rs", "let done = self.instruction(memory, tickets, engine, counts);", "let edata = self.specials[EDATA];\n        let done = self.instruction(memory, tickets, engine, counts);\n        if done.is_ok() && zero && mask & 8_192 != 0 {\n            self.specials[EDATA] = edata;\n        }"),
    Mutant("timer: it comes before lower causes", "dlx.rs", "Err(interrupt) => interrupt,", "Err(_) if timer != 0 => Interrupt::plain(Cause::Timer),\n            Err(interrupt) => interrupt,"),
    Mutant("timer: its bit does not stand beside a lower cause", "dlx.rs", "interrupt.cause.bit() | timer", "interrupt.cause.bit()"),
    Mutant("timer: a masked one stands beside a lower cause", "dlx.rs", "interrupt.cause.bit() | timer", "interrupt.cause.bit() | u32::from(zero) << 13"),
    Mutant("timer: a masked ovf stands beside it", "dlx.rs", "interrupt.cause.bit() | timer", "interrupt.cause.bit() | timer | u32::from(done == Ok(Kind::MaskedOvf)) << 6"),
    Mutant("timer: not after tickets", "dlx.rs", "Ok(_) if timer != 0 =>", "Ok(kind) if timer != 0 && !matches!(kind, Kind::Sent | Kind::SendRefused | Kind::Took | Kind::TakeRefused) =>"),
    Mutant("timer: not after rfe", "dlx.rs", "Ok(_) if timer != 0 =>", "Ok(kind) if timer != 0 && kind != Kind::Rfe =>"),
    Mutant("timer: not in a delay slot", "dlx.rs", "let (count, zero) =", "let in_line = self.pc == self.dpc.wrapping_add(4);\n        let mask = if in_line { mask } else { 0 };\n        let (count, zero) ="),
    Mutant("timer: entry stops it", "dlx.rs", "specials[ECA] = causes;", "specials[ECA] = causes;\n        specials[TCOUNT] = 0;"),
    Mutant("timer: it is cause 12", "dlx.rs", "Timer = 13,", "Timer = 12,"),
    Mutant("timer: special 11 is ill", "dlx.rs", "17 if sa < special::COUNT", "17 if sa < TLOAD"),
    Mutant("timer: a trap beside it keeps the turn", "house.rs", "system && cause == Some(Cause::Trap)", "system && cause == Some(Cause::Trap) && self.guests[own].specials[2] == 32"),
    Mutant("timer: it passes the turn", "house.rs", "system && cause == Some(Cause::Trap)", "cause == Some(Cause::Timer) || system && cause == Some(Cause::Trap)"),
    Mutant("timer: every host step moves it", "house.rs", "self.left -= 1;", "self.left -= 1;\n        let others = self.guests.iter_mut().enumerate().filter(|(at, _)| *at != own);\n        others.for_each(|(_, guest)| guest.specials[10] = guest.specials[10].saturating_sub(1));"),
    Mutant("timer: stopping stops it", "house.rs", "self.running[at] = false;", "self.running[at] = false;\n        self.guests[at].specials[10] = 0;"),
    Mutant("timer: starting reloads it", "house.rs", "self.running[at] = true;", "self.running[at] = true;\n        self.guests[at].specials[10] = self.guests[at].specials[11];"),
    Mutant("timer: emptying a shadow stops it", "house.rs", "counts.emptied_by_call += self.guests[at].space.empty();", "counts.emptied_by_call += self.guests[at].space.empty();\n        self.guests[at].specials[10] = 0;"),
    // The audit.
    Mutant("audit: the protection does not count", "audit.rs", "entry & PROTECTED == now & PROTECTED)", "entry & PROTECTED == now & PROTECTED || true)"),
    Mutant("audit: the frame does not count", "audit.rs", "(entry >> 12 == now >> 12,", "(entry >> 12 == now >> 12 || true,"),
    Mutant("audit: what the table does not have is right", "audit.rs", "Err(fault) => return Some(Why::of_fault(fault)),", "Err(_) => return None,"),
    Mutant("audit: an entry is right, beyond PTL", "audit.rs", "Err(fault) => return Some(Why::of_fault(fault)),", "Err(Fault::Length) => return None,\n        Err(fault) => return Some(Why::of_fault(fault)),"),
    Mutant("audit: an entry is right, outside", "audit.rs", "Err(fault) => return Some(Why::of_fault(fault)),", "Err(Fault::Outside) => return None,\n        Err(fault) => return Some(Why::of_fault(fault)),"),
    Mutant("audit: an entry is right, not valid", "audit.rs", "Err(fault) => return Some(Why::of_fault(fault)),", "Err(Fault::Invalid) => return None,\n        Err(fault) => return Some(Why::of_fault(fault)),"),
    Mutant("audit: an entry is right, too large a page", "audit.rs", "Err(fault) => return Some(Why::of_fault(fault)),", "Err(Fault::Page) => return None,\n        Err(fault) => return Some(Why::of_fault(fault)),"),
    Mutant("audit: system mode is left out", "audit.rs", "if entry == 0 {", "if entry == 0 || !guest.user() {"),
    Mutant("audit: user mode is left out", "audit.rs", "if entry == 0 {", "if entry == 0 || guest.user() {"),
    Mutant("audit: stopped partitions are left out", "audit.rs", "self.guests[..self.count as usize].iter().enumerate()", "self.guests[..self.count as usize].iter().enumerate().filter(|(at, _)| self.running[*at])"),
    Mutant("audit: the current partition alone", "audit.rs", "self.guests[..self.count as usize].iter().enumerate()", "self.guests[..self.count as usize].iter().enumerate().filter(|(at, _)| *at == self.current as usize)"),
    Mutant("audit: far entries are left out", "audit.rs", "0..guest.space.shadow.len()", "0..256"),
    Mutant("audit: entry 1,023 is left out", "audit.rs", "0..guest.space.shadow.len()", "0..1_023"),
    Mutant("audit: the last is told", "audit.rs", "Ok(stale.first().copied())", "Ok(stale.last().copied())"),
    Mutant("audit: by page, then partition", "audit.rs", "Ok(stale.first().copied())", "Ok(stale.iter().min_by_key(|entry| entry.px).copied())"),
    Mutant("audit: other bits of an entry count", "memory.rs", "Ok(shadow_entry(self.frames[page as usize], entry))", "Ok(shadow_entry(self.frames[page as usize] + (entry >> 9 & 1), entry))"),
    Mutant("audit: the frame is the page", "memory.rs", "Ok(shadow_entry(self.frames[page as usize], entry))", "Ok(shadow_entry(page + 1, entry))"),
    Mutant("audit: a mend empties all", "audit.rs", "self.guests[entry.partition].space.shadow[entry.px] = 0;", "self.guests[entry.partition].space.shadow = [0; 1_024];"),
    Mutant("audit: a mend empties the first", "audit.rs", "for entry in &stale {", "for entry in stale.iter().take(1) {"),
    Mutant("audit: a mend empties one partition", "audit.rs", "for entry in &stale {", "for entry in stale.iter().filter(|entry| entry.partition == stale[0].partition) {"),
    Mutant("audit: a mend fills anew", "audit.rs", "self.guests[entry.partition].space.shadow[entry.px] = 0;", "let guest = &mut self.guests[entry.partition];\n            guest.space.shadow[entry.px] = guest.space.filling(memory, guest.table(), entry.px as u32).unwrap_or(0);"),
    Mutant("audit: a mend forgets the fault", "audit.rs", "self.guests[entry.partition].space.shadow[entry.px] = 0;", "self.guests[entry.partition].space.shadow[entry.px] = 0;\n            self.guests[entry.partition].fault = 0;"),
    Mutant("audit: a mend tells 0", "audit.rs", "Ok(stale.len() as u64)", "Ok(0)"),
    Mutant("audit: a mend tells its partitions", "audit.rs", "Ok(stale.len() as u64)", "Ok((0..8).filter(|&at| stale.iter().any(|entry| entry.partition == at)).count() as u64)"),
    Mutant("audit: 9 before 8", "house.rs", "self.check_damage()?;\n        self.check_length(memory)\n    }", "self.check_length(memory)?;\n        self.check_damage()\n    }"),
    Mutant("audit: no 9", "house.rs", "self.check_damage()?;\n        self.check_length(memory)\n    }", "self.check_damage()?;\n        if memory.len() < self.words as usize {\n            return Err(Refusal::Length);\n        }\n        Ok(())\n    }"),
    Mutant("audit: the detail is the page", "script.rs", "told.stale = self.house.audit(self.lent(), counts)?;\n                Ok(0)", "told.stale = self.house.audit(self.lent(), counts)?;\n                Ok(told.stale.map_or(0, |entry| entry.px as u64))"),
    Mutant("audit: a refused one tells none", "script.rs", "Command::Audit if answer.is_ok() =>", "Command::Audit =>"),
    Mutant("audit: the program tells one partition", "reads.rs", "stale.into_iter().enumerate().map(line)", "stale.into_iter().enumerate().take(1).map(line)"),
    Mutant("audit: the program tells pages", "reads.rs", "let stale = house.stale_counts(&memory);", "let stale = house.stale_counts(&memory).map(|_| house.guests[..house.count as usize].iter().map(|guest| guest.space.pages as usize).collect());"),
    // Saving.
    Mutant("save: the counter's high word first", "saved.rs", "u32::from(running), low, high]", "u32::from(running), high, low]"),
    Mutant("save: no latest fault", "saved.rs", "body.extend([guest.fault,", "body.extend([0,"),
    Mutant("save: all run", "saved.rs", "u32::from(running), low", "1 | u32::from(running), low"),
    Mutant("save: no timer", "saved.rs", "body.extend(guest.specials);", "body.extend(&guest.specials[..10]);\n    body.extend([0, 0]);"),
    Mutant("save: PC before DPC", "saved.rs", "body.extend([guest.dpc, guest.pc]);", "body.extend([guest.pc, guest.dpc]);"),
    Mutant("save: a turn begins anew", "saved.rs", "house.current, house.left];", "house.current, if house.left > 0 { house.q } else { 0 }];"),
    Mutant("save: free places of a queue", "saved.rs", "&queue.places[..queue.waiting as usize]", "&queue.places[..]"),
    Mutant("save: no frame 0", "saved.rs", "(0..).zip(memory.chunks_exact(FRAME_WORDS))", "(0..).zip(memory.chunks_exact(FRAME_WORDS)).skip(1)"),
    Mutant("save: 9 before 8", "saved.rs", "let sound = self.check_memory_and_damage(memory);", "let sound = if memory.len() == self.words as usize { self.check_memory_and_damage(memory) } else { Err(Refusal::Length) };"),
    Mutant("save: a refused one clears the output", "saved.rs", "counts.saves.asked(sound);", "counts.saves.asked(sound);\n        output.fill(0);"),
    Mutant("save: more than 64 KiB", "saved.rs", ".min(output.len()).min(PIECE)", ".min(output.len())"),
    Mutant("save: an offset has 32 bits", "saved.rs", "usize::try_from(offset)", "usize::try_from(offset as u32)"),
    Mutant("save: from the end on it is refused", "saved.rs", "let rest = &file[start..];", "let rest = &file[start..];\n        if rest.is_empty() {\n            return Err(Refusal::Output);\n        }"),
    Mutant("reading: any flag is true", "saved.rs", "1 => true,", "1.. => true,"),
    Mutant("reading: 255 frames at most", "saved.rs", "OWN_WORDS + LIST_PLACES)", "OWN_WORDS + LIST_PLACES - 1)"),
    Mutant("reading: no frames are wrong", "saved.rs", "whole && (4 * OWN_WORDS..", "whole && (4 * OWN_WORDS + 4.."),
    Mutant("reading: 31 tickets at most", "saved.rs", "length <= 4 * PLACES", "length <= 4 * PLACES - 4"),
    Mutant("reading: part of a ticket", "saved.rs", "TICKETS => whole && length", "TICKETS => length"),
    Mutant("reading: seven partitions at most", "saved.rs", "self.queues == 0 && count < PARTITIONS", "self.queues == 0 && count < PARTITIONS - 1"),
    Mutant("reading: tickets may be missing", "saved.rs", "(&[TICKETS], Why::NotTickets)", "(&[TICKETS, FRAME], Why::NotTickets)"),
    Mutant("reading: frames may be missing", "saved.rs", "(&[FRAME], Why::NotFrame)", "(&[FRAME, END], Why::NotFrame)"),
    Mutant("reading: a frame again", "saved.rs", "if body[0] as usize != self.frames {", "if body[0] as usize > self.frames {"),
    Mutant("reading: a kind has one byte", "saved.rs", "let kind = u16::from_le_bytes(self.record.get(4..HEAD)?.try_into().ok()?);", "let kind = u16::from(*self.record.get(4..HEAD)?.first()?);"),
    Mutant("reading: a head waits for its body", "saved.rs", "if self.record.len() == HEAD {", "if self.record.len() == HEAD + length {"),
    Mutant("reading: extra bytes pass", "saved.rs", "return self.wrong(Why::Extra, counts);", "return;"),
    Mutant("reading: extra bytes are kind 4's", "saved.rs", "return self.wrong(Why::Extra, counts);", "return self.refuse(Refusal::Saved(self.start - 6), Why::Extra, counts);"),
    Mutant("reading: damage before extra bytes", "saved.rs", "_ => self.end = Some(self.start),", "_ if self.house.damaged() => self.wrong(Why::Damaged, counts),\n            _ => self.end = Some(self.start),"),
    Mutant("reading: damage passes", "saved.rs", "if self.house.damaged() => {", "if self.house.damaged() && self.house.count > 1 => {"),
    Mutant("reading: damage is told at the end", "saved.rs", "self.refuse(Refusal::Saved(start), Why::Damaged, counts);", "self.refuse(Refusal::Saved(start + 6), Why::Damaged, counts);"),
    Mutant("reading: a cut record is told at the end", "saved.rs", "(None, _) => self.wrong(Why::CutInBody, counts),", "(None, some) => self.refuse(Refusal::Saved(self.start + some as u64), Why::CutInBody, counts),"),
    Mutant("reading: 9 waits for the next piece", "saved.rs", "self.turn = true;\n                if memory.len() != house.words as usize {", "self.turn = true;\n                if memory.len() < house.words as usize {"),
    Mutant("reading: a later piece may be larger", "saved.rs", "self.turn && memory.len() != self.house.words as usize", "self.turn && memory.len() < self.house.words as usize"),
    Mutant("reading: a piece of no bytes has no 9", "saved.rs", "self.refused.is_none() && self.turn &&", "self.refused.is_none() && !bytes.is_empty() && self.turn &&"),
    Mutant("reading: no 9 behind kind 4", "saved.rs", "self.refused.is_none() && self.turn &&", "self.refused.is_none() && self.end.is_none() && self.turn &&"),
    Mutant("reading: 9 after 17", "saved.rs", "self.refused.is_none() && self.turn &&", "self.turn &&"),
    Mutant("reading: a refused one goes on", "saved.rs", "if self.refused.is_none() && self.turn", "self.refused = None;\n        if self.refused.is_none() && self.turn"),
    Mutant("reading: a frame is written as it comes", "saved.rs", "counts.saves.read(self.refused, ", "if self.refused.is_none() && self.record.len() > 10 && self.record[4] == 3 {\n            let (some, first) = (words(&self.record[10..]), self.frames * FRAME_WORDS);\n            memory[first..first + some.len()].copy_from_slice(&some);\n        }\n        counts.saves.read(self.refused, "),
    Mutant("reading: a head may not be cut", "saved.rs", "counts.saves.read(self.refused, ", "if self.refused.is_none() && (1..HEAD).contains(&self.record.len()) {\n            self.wrong(Why::CutInHead, counts);\n        }\n        counts.saves.read(self.refused, "),
    Mutant("reading: frame 0 is not written", "saved.rs", "memory[first..first + FRAME_WORDS].copy_from_slice(&body[1..]);", "if first > 0 {\n                    memory[first..first + FRAME_WORDS].copy_from_slice(&body[1..]);\n                }"),
    Mutant("reading: tickets come back the newest first", "saved.rs", "queue.places[..body.len()].copy_from_slice(body);", "queue.places[..body.len()].copy_from_slice(body);\n                queue.places[..body.len()].reverse();"),
    Mutant("reading: the old shadows come back", "script.rs", "self.house = read.unwrap_or(House::NONE);", "let mut house = read.unwrap_or(House::NONE);\n                for at in 0..house.count as usize {\n                    house.guests[at].space.shadow = self.house.guests[at].space.shadow;\n                }\n                self.house = house;"),
    Mutant("reading: a refused one keeps the house", "script.rs", "self.house = read.unwrap_or(House::NONE);", "if let Ok(house) = read {\n                    self.house = house;\n                }"),
    Mutant("reading: finish begins no new one", "script.rs", "std::mem::take(&mut self.reading).finish(counts)", "self.reading.clone().finish(counts)"),
    Mutant("reading: any mark begins a new one", "script.rs", "b == NEW)", "b != 0)"),
    Mutant("reading: a run begins a new one", "script.rs", "let answer = self.house.run(lent, steps, counts);", "self.reading = Reading::new();\n                let answer = self.house.run(lent, steps, counts);"),
    Mutant("resume: one run", "saved.rs", "while left > 0 {", "if left > 0 {"),
    Mutant("resume: 16 frames", "saved.rs", "let most = MOST_FRAMES * FRAME_WORDS;", "let most = 16 * FRAME_WORDS;"),
    // What programs tell of either file.
    Mutant("look: PC before DPC", "look.rs", "guest.dpc, guest.pc, specials(guest, 0, EDATA)", "guest.pc, guest.dpc, specials(guest, 0, EDATA)"),
    Mutant("look: the highest cause", "look.rs", "cause as u32 == level(eca)", "cause as u32 == 31u32.wrapping_sub(eca.leading_zeros())"),
    Mutant("look: EMODE for MODE", "look.rs", "if guest.specials[MODE] == 0", "if guest.specials[9] == 0"),
    Mutant("look: a counter of 32 bits", "look.rs", "(guest.space.pages, guest.counter)", "(guest.space.pages, guest.counter as u32)"),
    Mutant("look: the current one alone runs", "look.rs", "partition(&mut text, number, guest, running)", "partition(&mut text, number, guest, running && number == *current as usize)"),
    Mutant("reads: a saved house is run", "reads.rs", "return saved_house(bytes, counts);", "return saved_house(bytes, counts).map(|(mut house, mut memory)| {\n            let _ = house.run(&mut memory, 1, counts);\n            (house, memory)\n        });"),
    Mutant("reads: a kind has one byte", "reads.rs", "bytes.get(4..HEAD) == Some(&TURN.to_le_bytes())", "bytes.get(4) == Some(&5)"),
    Mutant("reads: raw refusals on one output", "reads.rs", "read.as_ref().err().filter(|_| form == Form::Raw)", "read.as_ref().err().filter(|_| false)"),
    Mutant("reads: a raw refusal among the words", "reads.rs", "Err(_) if form == Form::Raw => Vec::new(),", ""),
    Mutant("reads: a count of 32 bits", "reads.rs", "count: decimal(count)?, form }", "count: decimal(count)? & 0xFFFF_FFFF, form }"),
    Mutant("reads: a frame is listed behind the run", "reads.rs", "housefile::held(bytes)", "housefile::attempt(bytes, Engine::Shadowed, counts).map(|(_, memory)| memory)"),
    // The engine without shadows.
    Mutant("unshadowed: it keeps the shadows", "engines.rs", "for guest in &mut self.guests {\n            guest.space.empty();\n        }\n        for _ in 0..steps", "for _ in 0..steps"),
    Mutant("unshadowed: 0 steps keep the shadows", "engines.rs", "for guest in &mut self.guests {\n            guest.space.empty();\n        }\n        for _ in 0..steps", "if steps > 0 {\n            self.guests.iter_mut().for_each(|guest| drop(guest.space.empty()));\n        }\n        for _ in 0..steps"),
    Mutant("unshadowed: a refused run empties", "engines.rs", "self.check_run(memory, steps)?;\n        for guest in &mut self.guests {\n            guest.space.empty();\n        }", "for guest in &mut self.guests {\n            guest.space.empty();\n        }\n        self.check_run(memory, steps)?;"),
    Mutant("unshadowed: the running partitions' shadows alone", "engines.rs", "for guest in &mut self.guests {\n            guest.space.empty();\n        }\n        for _ in 0..steps", "for at in 0..8 {\n            if self.running[at] {\n                self.guests[at].space.empty();\n            }\n        }\n        for _ in 0..steps"),
    Mutant("unshadowed: it is the first engine", "engines.rs", "self.host_step(memory, Engine::Walking, counts);", "self.host_step(memory, Engine::Shadowed, counts);"),
    Mutant("unshadowed: it fills", "memory.rs", "Engine::Walking => self.walked(memory, table, px, access)?,", "Engine::Walking => {\n                let page = self.walked(memory, table, px, access)?;\n                let entry = self.filling(memory, table, px)?;\n                self.shadow[px as usize] = entry;\n                page\n            }"),
    Mutant("unshadowed: it goes by a shadow first", "engines.rs", "for guest in &mut self.guests {\n            guest.space.empty();\n        }\n        for _ in 0..steps {\n            self.host_step(memory, Engine::Walking, counts);\n        }", "for _ in 0..steps {\n            self.host_step(memory, Engine::Shadowed, counts);\n        }\n        for guest in &mut self.guests {\n            guest.space.empty();\n        }"),
    Mutant("unshadowed: no protection", "memory.rs", "let (page, entry) = self.walk(memory, table, px)?;\n        check_protection(entry, access)?;\n        Ok(page)", "let (page, _) = self.walk(memory, table, px)?;\n        Ok(page)"),
    Mutant("unshadowed: no 14", "engines.rs", "self.check_run(memory, steps)?;", "let steps = if steps > 1_000_000 { 1 } else { steps };\n        self.check_run(memory, steps)?;"),
    Mutant("unshadowed: no 11", "engines.rs", "self.check_run(memory, steps)?;", "self.check_run(memory, if steps > 1_000_000 { steps } else { 0 })?;\n        let steps = if self.running.contains(&true) { steps } else { 0 };"),
    Mutant("unshadowed: the detail is 0", "engines.rs", "self.host_step(memory, Engine::Walking, counts);\n        }\n        Ok(u64::from(steps))", "self.host_step(memory, Engine::Walking, counts);\n        }\n        Ok(0)"),
    // Damage.
    Mutant("damage: EMODE", "house.rs", "|| guest.specials[EMODE] > 1", ""),
    Mutant("damage: MODE", "house.rs", "|| guest.specials[MODE] > 1", ""),
    Mutant("damage: a latest fault of 8", "house.rs", "|| guest.fault > Fault::LAST", "|| guest.fault > 8"),
    Mutant("damage: no latest fault of 7", "house.rs", "|| guest.fault > Fault::LAST", "|| guest.fault >= Fault::LAST"),
    Mutant("damage: a latest fault has 8 bits", "house.rs", "|| guest.fault > Fault::LAST", "|| guest.fault % 256 > Fault::LAST"),
    Mutant("damage: a latest fault of an unused partition", "house.rs", "*guest != Guest::ZERO)\n            ||", "Guest { fault: 0, ..guest.clone() } != Guest::ZERO)\n            ||"),
    Mutant("damage: a timer of an unused partition", "house.rs", "*guest != Guest::ZERO)\n            ||", "{\n            let mut guest = guest.clone();\n            guest.specials[10..].fill(0);\n            guest != Guest::ZERO\n        })\n            ||"),
    Mutant("damage: a timer that is too large", "house.rs", "|| guest.fault > Fault::LAST", "|| guest.specials[10] > 1 << 31 || guest.fault > Fault::LAST"),
    Mutant("damage: a TLOAD that is too large", "house.rs", "|| guest.fault > Fault::LAST", "|| guest.specials[11] > 1 << 31 || guest.fault > Fault::LAST"),
    Mutant("damage: register 0", "house.rs", "guest.registers[0] != 0\n        ||", ""),
    Mutant("damage: unused frames", "house.rs", "|| space.frames[space.pages as usize..].iter().any(|&frame| frame != 0)", ""),
    Mutant("damage: unused bits of an entry", "house.rs", "&& unused == 0 &&", "&& (unused == 0 || true) &&"),
    Mutant("damage: foreign frame in a shadow", "house.rs", "&& space.list().contains(&(entry >> 12))", "&& space.list().len() < 257"),
    Mutant("damage: far shadows", "house.rs", "|| space.shadow.iter().any(|&entry| !shadow_sound(space, entry))", "|| space.shadow[..256].iter().any(|&entry| !shadow_sound(space, entry))"),
    Mutant("damage: empty entry", "house.rs", "entry == 0 || entry & VALID != 0", "entry & VALID == 0 || entry & VALID != 0"),
    Mutant("damage: flag of an unused place", "house.rs", "|| self.running[count..].contains(&true)", ""),
    Mutant("damage: partition of an unused place", "house.rs", "self.guests[count..].iter().any(|guest| *guest != Guest::ZERO)\n            ||", ""),
    Mutant("damage: index while none is current", "house.rs", "self.current != 0 || self.running", "self.running"),
    Mutant("damage: one runs while none is current", "house.rs", "self.current != 0 || self.running.contains(&true)", "self.current != 0"),
    Mutant("damage: too many steps left", "house.rs", "self.left > self.q || self.current", "self.current"),
    Mutant("damage: current does not run", "house.rs", "|| !self.running[self.current as usize]", ""),
    Mutant("damage: frames twice", "house.rs", "check_frames(&lists, self.words as usize).is_err()", "lists.iter().any(|&frame| frame == 0 || frame as usize >= self.words as usize / 1_024)"),
    Mutant("damage: frame 0", "house.rs", "check_frames(&lists, self.words as usize).is_err()", "check_frames(&lists, self.words as usize).is_err_and(|refusal| refusal.number() != 16)"),
    Mutant("damage: frame 0 as a first page alone", "house.rs", "self.used().iter().flat_map(|guest| guest.space.list()).copied().collect();", "self.used().iter().flat_map(|guest| guest.space.list()[..1].iter().chain(guest.space.list()[1..].iter().filter(|&&frame| frame != 0))).copied().collect();"),
    Mutant("damage: the memory's size", "house.rs", "|| check_memory(self.words as usize).is_err()", ""),
    Mutant("damage: q", "house.rs", "|| check_turn(self.q).is_err()", ""),
    Mutant("damage: tickets, more than 32", "tickets.rs", "waiting > PLACES || self.places[waiting..]", "self.places[waiting.min(PLACES)..]"),
    Mutant("damage: tickets, 32 are too many", "tickets.rs", "waiting > PLACES ||", "waiting >= PLACES ||"),
    Mutant("damage: tickets in unused places", "tickets.rs", " || self.places[waiting..].iter().any(|&ticket| ticket != 0)", ""),
    Mutant("damage: tickets of an unused partition", "house.rs", "|| self.queues[count..].iter().any(|queue| *queue != Queue::EMPTY)", ""),
    // The house file.
    Mutant("257 frames in a list", "housefile.rs", "MOST_LIST_BODY: usize = 1_024", "MOST_LIST_BODY: usize = 1_028"),
    Mutant("nine lists", "housefile.rs", "MOST_LISTS: usize = 8", "MOST_LISTS: usize = 9"),
    Mutant("extra bytes", "housefile.rs", "if at < bytes.len() {", "if at > bytes.len() {"),
    Mutant("kind 2 after kind 3", "housefile.rs", "(Stage::Turn | Stage::Lists, 2)", "(Stage::Turn | Stage::Lists | Stage::Frames, 2)"),
    Mutant("kind 3 frame 16", "housefile.rs", "if frame >= FRAMES {\n            return None;", "if frame >= FRAMES {\n            return Some(Stage::Frames);"),
    Mutant("the first kind 3 stays", "housefile.rs", "let start = frame * FRAME_WORDS;", "let start = frame * FRAME_WORDS;\n        if self.memory[start..start + FRAME_WORDS].iter().any(|&word| word != 0) {\n            return Some(Stage::Frames);\n        }"),
    Mutant("kind 4 with a body", "housefile.rs", "body.is_empty().then_some(Stage::End)", "Some(Stage::End)"),
    Mutant("an empty list is 15", "housefile.rs", "if !well_sized ||", "if !well_sized || body.is_empty() ||"),
    Mutant("a kind has one byte", "housefile.rs", "let kind = u16::from_le_bytes(bytes.get(4..HEAD)?.try_into().ok()?);", "let kind = u16::from(*bytes.get(4)?);\n    bytes.get(5)?;"),
    Mutant("the detail is the file's end", "housefile.rs", "let (kind, body) = record(&bytes[at..]).ok_or(wrong)?;", "let (kind, body) = record(&bytes[at..]).ok_or(Wrong(bytes.len() as u64))?;"),
    // House files from images.
    Mutant("noon: high byte first", "noon.rs", "let words = listing::words(&images(name)?);", "let words = listing::words(&images(name)?).map(|words| words.into_iter().map(u32::swap_bytes).collect::<Vec<u32>>());"),
    Mutant("noon: an image is laid one frame late", "noon.rs", "&mut memory[frame as usize * FRAME_WORDS", "&mut memory[(frame as usize + 1) % FRAMES * FRAME_WORDS"),
    Mutant("noon: an image is laid one page late", "noon.rs", "partition.frames[place / FRAME_WORDS]", "partition.frames[(place / FRAME_WORDS + 1) % pages]"),
    Mutant("noon: an image goes on in the next frame", "noon.rs", "partition.frames[place / FRAME_WORDS]", "(partition.frames[0] + (place / FRAME_WORDS) as u32) % 16"),
    Mutant("noon: an address counts words", "noon.rs", "(*address as usize / 4, partition.frames.len())", "(*address as usize, partition.frames.len())"),
    Mutant("noon: a frame's record is too short", "noon.rs", "file.extend(record_bytes(3, &word_bytes(&[&[frame], words].concat())));", "let mut record = record_bytes(3, &word_bytes(&[&[frame], words].concat()));\n        record[0] = 0;\n        file.extend(record);"),
    Mutant("noon: kind 4 has a body", "noon.rs", "file.extend(record_bytes(4, &[]));", "file.extend(record_bytes(4, &[0]));"),
    Mutant("noon: frames without words have no record", "noon.rs", "for (frame, words) in (0..).zip(memory.chunks_exact(FRAME_WORDS)) {", "for (frame, words) in (0..).zip(memory.chunks_exact(FRAME_WORDS)).filter(|(_, words)| words.iter().any(|&word| word != 0)) {"),
    Mutant("noon: no record of frame 0", "noon.rs", "for (frame, words) in (0..).zip(memory.chunks_exact(FRAME_WORDS)) {", "for (frame, words) in (0..).zip(memory.chunks_exact(FRAME_WORDS)).skip(1) {"),
    Mutant("noon: the sum is without the last word", "noon.rs", "words.iter().fold(", "words.iter().rev().skip(1).fold("),
    Mutant("noon: the sum does not wrap", "noon.rs", "sum.wrapping_add(word)", "sum.saturating_add(word)"),
    Mutant("noon: the number of bytes is told", "noon.rs", "let many = words.len();", "let many = 4 * words.len();"),
    Mutant("noon: part of a word is dropped", "noon.rs", "let words = listing::words(&images(name)?);", "let words = listing::words(&images(name)?.chunks_exact(4).flatten().copied().collect::<Vec<u8>>());"),
    Mutant("noon: words beyond the pages are dropped", "noon.rs", "if first + words.len() > pages * FRAME_WORDS {", "let room = (pages * FRAME_WORDS).saturating_sub(first).min(words.len());\n            let words = words[..room].to_vec();\n            if words.len() > pages * FRAME_WORDS {"),
    Mutant("noon: an image may not end with the pages", "noon.rs", "if first + words.len() > pages * FRAME_WORDS {", "if first + words.len() >= pages * FRAME_WORDS {"),
    Mutant("noon: an image of no words may be anywhere", "noon.rs", "if first + words.len() > pages * FRAME_WORDS {", "if !words.is_empty() && first + words.len() > pages * FRAME_WORDS {"),
    Mutant("noon: an image may lie over another", "noon.rs", "if host.replace(word).is_some() {", "if host.replace(word).is_some() && name.is_empty() {"),
    Mutant("noon: a zero may be lain over", "noon.rs", "if host.replace(word).is_some() {", "if host.replace(word).is_some_and(|before| before != 0) {"),
    Mutant("noon: the first @ counts", "noon.rs", "word.rsplit_once('@')", "word.split_once('@')"),
    Mutant("noon: an address is rounded", "noon.rs", "if !address.is_multiple_of(4) {", "if address % 4 == 4 {"),
    Mutant("noon: leading zeros are wrong", "noon.rs", "let number = decimal(word)", "let number = decimal(word).filter(|_| word == \"0\" || !word.starts_with('0'))"),
    Mutant("noon: a number wraps", "noon.rs", "and_then(|number| u32::try_from(number).ok())", "map(|number| number as u32)"),
    Mutant("noon: an empty word is no list", "noon.rs", "if word.is_empty() {\n        return Ok(Vec::new());", "if word.is_empty() {\n        return Err(\"expected frames\".into());"),
    Mutant("noon: a list may end in a comma", "noon.rs", "word.split(',').map(number)", "word.split_terminator(',').map(number)"),
    Mutant("noon: a partition may have no image", "noon.rs", "if many == 0 {", "if many > 64 {"),
    Mutant("noon: any word begins the first partition", "noon.rs", "if word != PARTITION {", "if word != PARTITION && !asked.partitions.is_empty() {"),
    Mutant("noon: 63 images at most", "noon.rs", "MOST_IMAGES: usize = 64", "MOST_IMAGES: usize = 63"),
    Mutant("noon: 65 images", "noon.rs", "MOST_IMAGES: usize = 64", "MOST_IMAGES: usize = 65"),
    Mutant("noon: images are opened before the night refuses", "noon.rs", "if let Err(refusal) = check(", "let mut all = asked.partitions.iter().flat_map(|partition| &partition.images);\n    if let Some(missing) = all.find(|image| images(&image.name).is_err()) {\n        return Answer::Failed(missing.name.clone());\n    }\n    if let Err(refusal) = check("),
    Mutant("noon: 14 before boot's refusals", "housefile.rs", "House::boot(&pages, q, &lists.concat(), FRAMES * FRAME_WORDS).1?;\n    if steps > MOST_STEPS {\n        return Err(Refusal::TooLong);\n    }", "if steps > MOST_STEPS {\n        return Err(Refusal::TooLong);\n    }\n    House::boot(&pages, q, &lists.concat(), FRAMES * FRAME_WORDS).1?;"),
    Mutant("noon: 1,000,001 steps", "housefile.rs", "if steps > MOST_STEPS {", "if steps > MOST_STEPS + 1 {"),
    Mutant("noon: 1,024 frames", "housefile.rs", "House::boot(&pages, q, &lists.concat(), FRAMES * FRAME_WORDS).1?;", "House::boot(&pages, q, &lists.concat(), 1_024 * FRAME_WORDS).1.map_err(|refusal| if refusal.number() == 6 { Refusal::Frame(0) } else { refusal })?;"),
    Mutant("noon: what is refused empties OUT", "main.rs", "Answer::Refused(number, detail) => {", "Answer::Refused(number, detail) => {\n            let _ = fs::write(&words[0], []);"),
    Mutant("noon: a file stays beside it", "beside.rs", "fs::rename(&beside, out)", "fs::copy(&beside, out).map(drop)"),
    Mutant("noon: it prints before it writes", "main.rs", "Answer::Made(text, file) => match beside::write(&words[0], &file) {\n            Ok(()) => print(&text),", "Answer::Made(text, file) => match print(&text).and_then(|_| beside::write(&words[0], &file)) {\n            Ok(()) => Ok(ExitCode::SUCCESS),"),
    // Words of decimals, and read-outs of two's complement numbers.
    Mutant("words: high byte first", "decimals.rs", "Ok(word_bytes(&words))", "Ok(word_bytes(&words.into_iter().map(u32::swap_bytes).collect::<Vec<u32>>()))"),
    Mutant("words: 4294967296 is 0", "decimals.rs", "(more <= u64::from(u32::MAX)).then_some(more)", "(more <= u64::from(u32::MAX) + 1).then_some(more)"),
    Mutant("words: large numbers wrap", "decimals.rs", "(more <= u64::from(u32::MAX)).then_some(more)", "Some(more % (1 << 32))"),
    Mutant("words: 4294967295 is too large", "decimals.rs", "(more <= u64::from(u32::MAX)).then_some(more)", "(more < u64::from(u32::MAX)).then_some(more)"),
    Mutant("words: -2147483649 wraps", "decimals.rs", "(number <= 1 << 31).then(", "(number <= (1 << 31) + 1).then("),
    Mutant("words: -2147483648 is too small", "decimals.rs", "(number <= 1 << 31).then(", "(number < 1 << 31).then("),
    Mutant("words: a minus is a mask", "decimals.rs", "(number as u32).wrapping_neg()", "!(number as u32)"),
    Mutant("words: 0 has no minus", "decimals.rs", "(number <= 1 << 31).then(", "(number > 0 && number <= 1 << 31).then("),
    Mutant("words: leading zeros are wrong", "decimals.rs", "if digits.is_empty() {", "if digits.is_empty() || digits.len() > 1 && digits[0] == b'0' {"),
    Mutant("words: no digits are 0", "decimals.rs", "if digits.is_empty() {", "if line.is_empty() {"),
    Mutant("words: a plus is taken", "decimals.rs", "let digits = line.strip_prefix(b\"-\");", "let line = line.strip_prefix(b\"+\").unwrap_or(line);\n    let digits = line.strip_prefix(b\"-\");"),
    Mutant("words: a carriage return is taken", "decimals.rs", "let digits = line.strip_prefix(b\"-\");", "let line = line.strip_suffix(b\"\\r\").unwrap_or(line);\n    let digits = line.strip_prefix(b\"-\");"),
    Mutant("words: lines are counted from 0", "decimals.rs", "format!(\"refused: 18 {}\", at + 1)", "format!(\"refused: 18 {}\", at)"),
    Mutant("words: empty lines are passed over", "decimals.rs", "lines.filter(|_| !text.is_empty())", "lines.filter(|line| !line.is_empty())"),
    Mutant("words: an empty text has a line", "decimals.rs", "lines.filter(|_| !text.is_empty())", "lines.filter(|_| true)"),
    Mutant("words: one more", "decimals.rs", "if words.len() > MOST {", "if words.len() > MOST + 1 {"),
    Mutant("words: one fewer", "decimals.rs", "if words.len() > MOST {", "if words.len() >= MOST {"),
    Mutant("words: 13 before 18", "decimals.rs", "let told = |(at, line)|", "if lines.clone().count() > MOST {\n        return Err(\"refused: 13 0\".into());\n    }\n    let told = |(at, line)|"),
    Mutant("signed: as they are", "decimals.rs", "(word as i32).to_string()", "word.to_string()"),
    Mutant("signed: the sign and the rest", "decimals.rs", "(word as i32).to_string()", "if word < 1 << 31 { word.to_string() } else { format!(\"-{}\", word & 0x7FFF_FFFF) }"),
    Mutant("signed: half words", "decimals.rs", "(word as i32).to_string()", "(word as i16).to_string()"),
    Mutant("signed: a refusal on standard error, too", "reads.rs", ".filter(|_| form == Form::Raw)", ".filter(|_| form != Form::Decimals)"),
    Mutant("signed: any fifth word is", "reads.rs", "_ => return None,\n            },", "_ => (numbers, Form::Signed),\n            },"),
];

impl Mutant {
    /// The changed text of the file.
    fn text(&self) -> String {
        let path = Path::new(env!("CARGO_MANIFEST_DIR")).join("src").join(self.1);
        let text = fs::read_to_string(path).expect("a source file");
        assert_eq!(text.matches(self.2).count(), 1, "{}: the text must stand there once", self.0);
        text.replace(self.2, self.3)
    }
}

/// A copy of this program in which a rule is broken.
fn copy(directory: &Path, mutant: &Mutant) {
    let root = Path::new(env!("CARGO_MANIFEST_DIR"));
    copy_all(&root.join("src"), &directory.join("src"));
    fs::copy(root.join("Cargo.toml"), directory.join("Cargo.toml")).expect("a copy");
    fs::write(directory.join("src").join(mutant.1), mutant.text()).expect("a changed file");
}

fn copy_all(from: &Path, to: &Path) {
    fs::create_dir_all(to).expect("a directory");
    for entry in fs::read_dir(from).expect("a directory") {
        let path = entry.expect("an entry").path();
        let target = to.join(path.file_name().expect("a name"));
        if path.is_dir() {
            copy_all(&path, &target);
        } else {
            fs::copy(&path, &target).expect("a copy");
        }
    }
}

/// Builds the copy; the path of its program.
fn build(directory: &Path) -> PathBuf {
    let status = Command::new(env!("CARGO"))
        .args(["build", "--quiet", "-j1"])
        .current_dir(directory)
        .env("CARGO_TARGET_DIR", directory.join("target"))
        .env("RUSTFLAGS", "-Awarnings")
        .status();
    assert!(status.expect("cargo starts").success(), "the copy must build");
    directory.join("target/debug/emulator")
}

/// Compares the program by all that it does; one that breaks a rule of programs that share nothing with the
/// rest, by these alone.
fn compare(program: &Path, mutant: &Mutant) -> Output {
    let command = |name: &str| format!("'{}' {name}", program.display());
    let (noon, words) = (command("noon"), command("words -"));
    let own = [("noon: ", "--noon", &noon), ("words: ", "--into-words", &words)];
    let mut compare = Command::new(env!("CARGO_BIN_EXE_emulator"));
    compare.args(["compare", "--limit", "60"]);
    if let Some((_, option, program)) = own.iter().find(|(of, ..)| mutant.0.starts_with(of)) {
        return compare.args([option, &program[..]]).output().expect("the comparison starts");
    }
    compare
        .args(["--noon", &noon, "--into-words", &words])
        .args(["--drill", &command("play"), "--night", &command("night")])
        .args(["--audit", &command("audit")])
        .args(["--save", &command("night"), "--resume", &command("resume")])
        .args(["--unshadowed", &command("night")])
        .args(["--look", &command("look -"), "--readout", &command("readout -")])
        .args(["--list", &command("list -"), "--words", "0"])
        .args(["--files", "400"])
        .output()
        .expect("the comparison starts")
}

/// What to tell of a comparison that found the broken rule.
fn summary(output: &Output) -> Option<String> {
    let text = String::from_utf8_lossy(&output.stdout);
    let last = text.lines().last()?;
    let smallest = text.lines().find(|line| line.starts_with("smallest"))?;
    let first = text.lines().find(|line| line.contains("differs"))?;
    let found = output.status.code() == Some(1) && !last.ends_with(" 0 differ");
    found.then(|| format!("{first} {smallest} {last}"))
}

#[test]
fn every_broken_rule_fits_the_source() {
    MUTANTS.iter().for_each(|mutant| drop(mutant.text()));
}

#[test]
#[ignore = "builds a copy for each broken rule"]
fn every_broken_rule_is_found() {
    let only = env::var("MUTANT").unwrap_or_default();
    let directory = Path::new(env!("CARGO_TARGET_TMPDIR")).join("mutant");
    let mut missed = Vec::new();
    for mutant in MUTANTS.iter().filter(|mutant| mutant.0.contains(&only)) {
        copy(&directory, mutant);
        let output = compare(&build(&directory), mutant);
        match summary(&output) {
            Some(told) => println!("{}: {told}", mutant.0),
            None => missed.push(mutant.0),
        }
    }
    assert!(missed.is_empty(), "not found: {missed:?}");
}
