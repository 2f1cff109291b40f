//! Random guest programs: a start-up in system mode that sets up the page table, a handler at 0
//! that counts, repairs and returns, and loops in user mode over mapped, protected and missing
//! pages that also change their own table. Most of them send and take tickets, and most have a timer.

use super::tickets::{self, Seat};
use super::{timers, words};
use crate::assemble::{
    addi, andi, function, i_type, jr, lw, movi2s, movs2i, nop, opcode, r_type, rfe, sw, trap, Code,
};
use crate::dlx::special::{
    self, ECA, EDATA, EDPC, EMODE, EPC, ESR, MODE, PTL, PTO, SR, TCOUNT, TLOAD,
};
use crate::memory::{ENTRIES, PROTECTED, VALID};
use crate::rng::Rng;
use crate::tickets::{SEND, TAKE};

/// Code ends before this word of a page; from here on pages hold data.
const DATA_WORD: u32 = 768;
/// Accesses begin no later, so that short loops stay in the page.
const LAST_DATA_WORD: u32 = 950;
/// Where the handler counts interrupts, in page 0.
const COUNTER: u32 = 4 * 760;
/// First word of the code for user mode. If the table is in the same page, no page of user addresses
/// that the program has lies between it and the data: code and entries leave each other alone.
const USER_WORD: u32 = 260;
/// ill and mal in ECA: a handler that only returns would meet the same instruction again.
const ABORTED: u32 = 2 | 4;
/// No snippet begins after so many words of a piece of code.
const MOST_CODE: usize = 150;

/// A guest's memory before its first step.
#[derive(Clone, Debug)]
pub struct Program {
    /// Words by their place in guest memory.
    pub words: Vec<(u32, u32)>,
    /// Pages of user addresses that the program touches.
    pub pages: Vec<u32>,
}

/// A random program for one of the partitions with these page counts.
pub fn program(rng: &mut Rng, page_counts: &[u32], own: usize) -> Program {
    let pages = page_counts[own];
    if rng.chance(4) {
        return random_words(rng, pages);
    }
    let seat = Seat { own: own as u32, partitions: page_counts.len() as u32 };
    let plan = Plan::new(rng, pages, seat);
    let system = system_code(rng, &plan);
    let mut words = placed(0, &system);
    if plan.user {
        words.extend(placed(plan.user_word(), &user_code(rng, &plan)));
        let poked = plan.entries.iter().filter(|_| rng.chance(50));
        words.extend(poked.map(|&(px, entry)| (1_024 * plan.table + px, entry)));
    }
    Program { words, pages: plan.touched() }
}

/// Instructions without any plan; only the handler's first word does not interrupt again.
fn random_words(rng: &mut Rng, pages: u32) -> Program {
    let count = rng.between(20, 300).min(1_024 * pages);
    let mut words = vec![(0, words::compute(rng))];
    words.extend((1..count).map(|at| (at, words::instruction(rng))));
    Program { words, pages: vec![0, 1, 255, 256, 1_023] }
}

fn placed(start: u32, words: &[u32]) -> Vec<(u32, u32)> {
    (start..).zip(words.iter().copied()).collect()
}

/// Where a program has its table, code and data, and how user addresses are mapped.
struct Plan {
    pages: u32,
    seat: Seat,
    /// Without user mode all runs in system mode.
    user: bool,
    /// Only random instructions between start-up and handler.
    soup: bool,
    /// Guest page of the table.
    table: u32,
    ptl: u32,
    /// Guest page of the code for user mode, and its page in user addresses.
    code: u32,
    code_px: u32,
    /// The page through which user mode reaches the table.
    window: u32,
    /// Pages that load and store.
    data: Vec<u32>,
    /// Pages that fault in one way or another.
    odd: Vec<u32>,
    /// The table's entries.
    entries: Vec<(u32, u32)>,
}

impl Plan {
    fn new(rng: &mut Rng, pages: u32, seat: Seat) -> Plan {
        let user = pages > 1 && rng.chance(94);
        let page = |rng: &mut Rng| if pages > 1 { rng.between(1, pages - 1) } else { 0 };
        let (table, code) = (page(rng), page(rng));
        let data = data_pages(rng, table == code);
        let others = other_pages(rng, &data, table == code);
        let mut plan = Plan {
            pages,
            seat,
            user,
            soup: rng.chance(20),
            table,
            ptl: 0,
            code,
            code_px: others[0],
            window: others[1],
            data,
            odd: others[2..].to_vec(),
            entries: Vec::new(),
        };
        plan.entries = plan.choose_entries(rng);
        plan.ptl = plan.choose_ptl(rng);
        plan.odd.extend([1_024, 1_025, 0xF_FFFF]);
        plan
    }

    fn choose_entries(&self, rng: &mut Rng) -> Vec<(u32, u32)> {
        let mut entries = vec![
            (self.code_px, entry(self.code, rng.chance(20))),
            (self.window, entry(self.table, false)),
        ];
        for &px in &self.data {
            entries.push((px, entry(rng.below(self.pages), false) | rng.below(1 << 10)));
        }
        for (at, &px) in self.odd.iter().enumerate() {
            let good = entry(rng.below(self.pages), false);
            let beyond = entry(self.pages + rng.below(3), rng.chance(50));
            let odd = match at {
                0 => rng.pick(&[good, good, beyond]) & !VALID,
                1 => good | PROTECTED,
                _ => beyond,
            };
            entries.push((px, odd));
        }
        entries
    }

    /// Long enough for all entries, or for some only.
    fn choose_ptl(&self, rng: &mut Rng) -> u32 {
        let last = self.entries.iter().map(|&(px, _)| px).max().unwrap_or(0);
        match rng.below(8) {
            0 => self.code_px + 1,
            1..=4 => rng.pick(&[257, 1_023, 1_024, 1_025, 1_025, u32::MAX, u32::MAX]),
            5 => self.code_px.max(self.window) + 1,
            _ => last + 1,
        }
    }

    fn touched(&self) -> Vec<u32> {
        let below = self.odd.iter().filter(|&&px| px < ENTRIES as u32);
        self.data.iter().chain(below).chain([&self.code_px, &self.window]).copied().collect()
    }

    /// First word of the code for user mode in guest memory.
    fn user_word(&self) -> u32 {
        1_024 * self.code + USER_WORD
    }

    /// First address of the code for user mode.
    fn user_entry(&self) -> u32 {
        4_096 * self.code_px + 4 * USER_WORD
    }

    fn entry_address(&self, px: u32) -> u32 {
        4_096 * self.table + 4 * px
    }

    /// A word of the table, and now and then one right behind it; not of the code in its page.
    fn table_word(&self, rng: &mut Rng) -> u32 {
        match rng.below(8) {
            0 => rng.pick(&[255, 256, 257, 1_022, 1_023]),
            1 => ENTRIES as u32 + rng.below(14),
            2..=4 => rng.pick(&self.entries).0,
            5 if self.table != self.code => rng.below(ENTRIES as u32),
            _ => rng.below(USER_WORD),
        }
    }
}

/// A table entry for a guest page.
fn entry(page: u32, protected: bool) -> u32 {
    page << 12 | VALID | if protected { PROTECTED } else { 0 }
}

/// Pages of user addresses for data: some in a row, low, around 255 and 256, at the end or anywhere.
fn data_pages(rng: &mut Rng, shared: bool) -> Vec<u32> {
    let count = rng.between(3, 5);
    let first = match rng.below(8) {
        0 | 1 => ENTRIES as u32 - count,
        2 => rng.between(253, 255),
        3 if !shared => rng.below(ENTRIES as u32 - count),
        _ => rng.below(9),
    };
    (first..first + count).collect()
}

/// Six other pages: mostly low, some around 255 and 256, at the end or anywhere.
fn other_pages(rng: &mut Rng, data: &[u32], shared: bool) -> Vec<u32> {
    let mut chosen = Vec::new();
    while chosen.len() < 6 {
        let px = match rng.below(10) {
            0 | 1 => rng.between(1_016, 1_023),
            2 => rng.between(252, 259),
            3 if !shared => rng.below(ENTRIES as u32),
            _ => rng.below(14),
        };
        if !chosen.contains(&px) && !data.contains(&px) {
            chosen.push(px);
        }
    }
    chosen
}

/// Page 0: start-up, a loop in system mode or the way to user mode, and the handler.
fn system_code(rng: &mut Rng, plan: &Plan) -> Vec<u32> {
    let mut code = Code::default();
    code.push(&[movs2i(30, ECA)]);
    let to_handler = code.branch(opcode::BNEZ, 30, nop());
    start_up(rng, plan, &mut code);
    let mut writer = Writer { rng, plan, user: false, base: 0 };
    writer.tickets(&mut code);
    let again = code.here();
    let snippets = if plan.user { writer.rng.below(3) } else { writer.rng.between(4, 12) };
    writer.snippets(&mut code, snippets);
    if plan.user {
        go_to_user(rng, plan, &mut code);
    } else {
        code.jump_back(again, nop());
    }
    code.land(to_handler);
    handler(rng, plan, &mut code, again);
    code.words
}

fn start_up(rng: &mut Rng, plan: &Plan, code: &mut Code) {
    if plan.user {
        for &(px, entry) in &plan.entries {
            store_constant(code, plan.entry_address(px), entry);
        }
        set_table(plan, code);
    }
    if rng.chance(80) {
        timers::start(rng, code);
    }
    code.special(SR, 1, timers::status(rng));
}

/// Writes a constant to an address, in system mode.
fn store_constant(code: &mut Code, address: u32, value: u32) {
    code.constant(26, address);
    code.constant(25, value);
    code.push(&[sw(25, 26, 0)]);
}

fn set_table(plan: &Plan, code: &mut Code) {
    code.special(PTO, 25, plan.table);
    code.special(PTL, 25, plan.ptl);
}

/// To user mode by rfe, now and then by movi2s to MODE and a jump. No timer comes between what rfe
/// needs and rfe.
fn go_to_user(rng: &mut Rng, plan: &Plan, code: &mut Code) {
    if rng.chance(15) {
        code.constant(13, plan.user_entry());
        code.constant(12, rng.word() | 1);
        code.push(&[jr(13), movi2s(MODE, 12), nop()]);
    }
    code.push(&[movi2s(SR, 0)]);
    code.special(EDPC, 1, plan.user_entry());
    code.special(EPC, 1, plan.user_entry() + 4);
    code.special(ESR, 1, timers::status(rng));
    code.special(EMODE, 1, 1);
    code.push(&[rfe()]);
}

/// The handler. Registers 20 to 23 keep the state of user mode, so that its own interrupts, which
/// come back by the short way, do not lose it.
fn handler(rng: &mut Rng, plan: &Plan, code: &mut Code, again: usize) {
    code.push(&[lw(29, 0, COUNTER), addi(29, 29, 1), sw(29, 0, COUNTER), movs2i(27, EMODE)]);
    let from_user = code.branch(opcode::BNEZ, 27, nop());
    from_system(code, again);
    code.land(from_user);
    code.push(&[movs2i(20, EPC), movs2i(21, EDPC), movs2i(22, ESR), movs2i(23, EMODE)]);
    code.push(&[andi(28, 30, 24)]);
    let fault = code.branch(opcode::BNEZ, 28, nop());
    code.push(&[andi(28, 21, 3)]);
    let misaligned = code.branch(opcode::BNEZ, 28, nop());
    code.push(&[andi(28, 30, ABORTED)]);
    let aborted = code.branch(opcode::BNEZ, 28, nop());
    code.push(&[andi(28, 30, 32)]);
    let no_trap = code.branch(opcode::BEQZ, 28, nop());
    service(rng, plan, code);
    code.land(no_trap);
    leave(code);
    code.land(aborted);
    skip_and_leave(code);
    code.land(fault);
    user_fault(plan, code);
    code.land(misaligned);
    restart(plan, code);
}

/// An interrupt in system mode: skip what was aborted, go on after the rest, or begin again.
fn from_system(code: &mut Code, again: usize) {
    code.push(&[andi(28, 30, 8), movs2i(26, EDPC), andi(26, 26, 3)]);
    code.push(&[r_type(function::OR, 28, 28, 26)]);
    let lost = code.branch(opcode::BNEZ, 28, nop());
    code.push(&[andi(28, 30, ABORTED | 16)]);
    let done = code.branch(opcode::BEQZ, 28, nop());
    code.push(&[movs2i(28, EPC), movi2s(EDPC, 28), addi(28, 28, 4), movi2s(EPC, 28)]);
    code.land(done);
    code.push(&[rfe()]);
    code.land(lost);
    code.special(EDPC, 28, 4 * again as u32);
    code.special(EPC, 28, 4 * again as u32 + 4);
    code.push(&[rfe()]);
}

/// What a trap in user mode asks for: some work in system mode, often with the timer let through. Now
/// and then it puts the table outside the pages, and the next fetch in user mode faults.
fn service(rng: &mut Rng, plan: &Plan, code: &mut Code) {
    let snippets = rng.below(3);
    if rng.chance(60) {
        code.special(SR, 12, timers::status(rng));
    }
    if rng.chance(20) {
        let outside = [plan.pages, plan.pages + 1, 1 << 20 | plan.table, u32::MAX];
        code.special(PTO, 12, rng.pick(&outside));
    }
    let mut writer = Writer { rng, plan, user: false, base: 0 };
    if writer.rng.chance(40) {
        writer.tickets(code);
    }
    writer.snippets(code, snippets);
}

/// Back to user mode; no timer comes in between, whatever the service before it did with SR.
fn leave(code: &mut Code) {
    code.push(&[movi2s(SR, 0)]);
    code.push(&[movi2s(EPC, 20), movi2s(EDPC, 21), movi2s(ESR, 22), movi2s(EMODE, 23), rfe()]);
}

/// Leaves for the instruction after the aborted one: behind a delay slot, where the jump goes.
fn skip_and_leave(code: &mut Code) {
    code.push(&[r_type(function::OR, 21, 20, 0), addi(20, 20, 4)]);
    leave(code);
}

/// A fault in user mode: begin again, set up the table, map the page, or skip the instruction.
fn user_fault(plan: &Plan, code: &mut Code) {
    code.push(&[andi(28, 29, 31)]);
    let begin = code.branch(opcode::BEQZ, 28, nop());
    code.push(&[andi(28, 30, 8)]);
    let fetch = code.branch(opcode::BNEZ, 28, nop());
    code.push(&[andi(28, 29, 1)]);
    let skip = code.branch(opcode::BEQZ, 28, nop());
    map_page(plan, code);
    code.land(skip);
    skip_and_leave(code);
    code.land(fetch);
    repair(plan, code);
    leave(code);
    code.land(begin);
    restart(plan, code);
}

/// Finds the entry of the page in EDATA by counting, and makes it valid; leaves a far page alone.
fn map_page(plan: &Plan, code: &mut Code) {
    code.push(&[movs2i(27, EDATA), andi(27, 27, 0xF000), i_type(opcode::SLS, 28, 27, 0)]);
    let negative = code.branch(opcode::BNEZ, 28, nop());
    code.constant(26, 4_096 * 7);
    code.push(&[r_type(function::SLS, 28, 26, 27)]);
    let far = code.branch(opcode::BNEZ, 28, nop());
    code.constant(26, plan.entry_address(0));
    code.constant(25, 4_096);
    let next = code.here();
    let found = code.branch(opcode::BEQZ, 27, nop());
    code.push(&[r_type(function::SUB, 27, 27, 25)]);
    code.jump_back(next, addi(26, 26, 4));
    code.land(found);
    code.constant(25, entry(plan.pages - 1, false));
    code.push(&[sw(25, 26, 0)]);
    leave(code);
    code.land(negative);
    code.land(far);
}

/// Makes the code's own page and the table right again.
fn repair(plan: &Plan, code: &mut Code) {
    store_constant(code, plan.entry_address(plan.code_px), entry(plan.code, false));
    set_table(plan, code);
}

fn restart(plan: &Plan, code: &mut Code) {
    repair(plan, code);
    code.constant(21, plan.user_entry());
    code.push(&[addi(20, 21, 4)]);
    leave(code);
}

/// The loop in user mode.
fn user_code(rng: &mut Rng, plan: &Plan) -> Vec<u32> {
    let mut code = Code::default();
    let count = rng.between(8, 20);
    let mut writer = Writer { rng, plan, user: true, base: plan.user_entry() };
    writer.snippets(&mut code, count);
    if writer.rng.chance(30) {
        writer.tickets(&mut code);
    }
    code.jump_back(0, nop());
    code.words
}

/// Writes snippets: short pieces of code, each after one rule.
struct Writer<'a> {
    rng: &'a mut Rng,
    plan: &'a Plan,
    user: bool,
    /// Address of the code's first word.
    base: u32,
}

impl Writer<'_> {
    fn snippets(&mut self, code: &mut Code, count: u32) {
        let start = code.here();
        for _ in 0..count {
            if code.here() - start < MOST_CODE {
                self.snippet(code);
            }
        }
    }

    fn snippet(&mut self, code: &mut Code) {
        if self.plan.soup {
            let count = self.rng.between(2, 12);
            return (0..count).for_each(|_| code.push(&[words::instruction(self.rng)]));
        }
        match self.rng.below(100) {
            0..=9 => self.compute(code),
            10..=14 => self.interrupted_slot(code),
            15..=17 => self.tickets(code),
            18..=23 => self.overflow(code),
            24..=39 => self.access(code),
            40..=45 => self.change_in_a_loop(code),
            46..=62 => self.sweep(code),
            63..=68 => self.counted(code),
            69..=73 => self.forward(code),
            74..=78 => self.subroutine(code),
            79..=81 => code.push(&[trap(self.rng.word())]),
            82..=83 => code.push(&[words::ill(self.rng)]),
            84..=91 => self.change_table(code),
            92..=94 => self.set_table_again(code),
            95 => self.special(code),
            96 => self.timer(code),
            97 => self.far_jump(code),
            98 => self.change_code(code),
            _ => code.push(&[words::instruction(self.rng)]),
        }
    }

    /// Registers for a loop's count, pointer and stride.
    fn loop_registers(&self) -> (u32, u32, u32) {
        if self.user {
            (16, 17, 18)
        } else {
            (19, 24, 15)
        }
    }

    /// Sends or takes, and keeps ticket and answer; user mode asks the handler.
    fn tickets(&mut self, code: &mut Code) {
        let seat = self.plan.seat;
        if self.user {
            tickets::address(self.rng, seat, code);
            return code.push(&[trap(self.rng.pick(&[SEND, TAKE]))]);
        }
        tickets::piece(self.rng, seat, code);
        code.push(&[sw(1, 0, self.data_offset()), sw(3, 0, self.data_offset())]);
    }

    fn compute(&mut self, code: &mut Code) {
        for _ in 0..self.rng.between(1, 5) {
            code.push(&[words::compute(self.rng)]);
        }
    }

    fn overflow(&mut self, code: &mut Code) {
        let (a, b) = (self.rng.between(1, 12), self.rng.between(1, 12));
        code.constant(a, self.rng.pick(&[0x7FFF_FFFF, 0x8000_0000, 0x7FFF_FFF0, 0x8000_0010]));
        code.constant(b, words::value(self.rng));
        for _ in 0..self.rng.between(1, 4) {
            let rd = self.rng.below(13);
            let word = if self.rng.chance(50) {
                i_type(self.rng.pick(&[opcode::ADDI, opcode::SUBI]), rd, a, words::value(self.rng))
            } else {
                r_type(self.rng.pick(&[function::ADD, function::SUB]), rd, a, b)
            };
            code.push(&[word]);
        }
    }

    /// A load or store at a chosen address.
    fn access(&mut self, code: &mut Code) {
        let pointer = self.loop_registers().1;
        let imm = (4 * self.rng.below(16)).wrapping_sub(32);
        code.constant(pointer, self.address().wrapping_sub(imm));
        for _ in 0..self.rng.between(1, 3) {
            let op = self.rng.pick(&words::ACCESS);
            let byte = words::byte(self.rng, op);
            code.push(&[i_type(op, self.rng.below(13), pointer, imm.wrapping_add(byte))]);
        }
    }

    fn address(&mut self) -> u32 {
        if self.user {
            self.user_address()
        } else {
            self.system_address()
        }
    }

    /// The offset of a data word in its page.
    fn data_offset(&mut self) -> u32 {
        4 * self.rng.between(DATA_WORD, LAST_DATA_WORD)
    }

    fn user_address(&mut self) -> u32 {
        let offset = self.data_offset();
        match self.rng.below(100) {
            0..=76 => 4_096 * self.rng.pick(&self.plan.data) + offset,
            77..=83 => 4_096 * self.rng.pick(&self.plan.odd) + offset,
            84..=87 => 4_096 * self.plan.window + 4 * self.plan.table_word(self.rng),
            88..=90 => 4_096 * self.rng.pick(&[255, 256, 1_023, 1_024]) + offset,
            91..=94 => 4_096 * self.plan.code_px + offset,
            95..=97 => 4_096 * self.rng.pick(&self.plan.data) + offset + self.rng.between(1, 3),
            _ => self.rng.word() & !3,
        }
    }

    fn system_address(&mut self) -> u32 {
        let offset = self.data_offset();
        let end = 4_096 * self.plan.pages;
        match self.rng.below(100) {
            0..=84 => 4_096 * self.rng.below(self.plan.pages) + offset,
            85..=90 if self.plan.user => self.plan.entry_address(self.plan.table_word(self.rng)),
            91..=94 => self.rng.pick(&[end - 4, end, end + 4]),
            95..=97 => offset + self.rng.between(1, 3),
            98 => self.rng.word() & !3,
            _ => offset,
        }
    }

    /// A loop that loads, changes and stores a word, half word or byte on each of several pages, or
    /// several of them in a row.
    fn sweep(&mut self, code: &mut Code) {
        let (count, pointer, stride) = self.loop_registers();
        let (load, store) = self.rng.pick(&[
            (opcode::LW, opcode::SW),
            (opcode::LB, opcode::SB),
            (opcode::LBU, opcode::SB),
            (opcode::LH, opcode::SH),
            (opcode::LHU, opcode::SH),
        ]);
        let width = words::width(load);
        code.constant(pointer, self.sweep_start() + width * self.rng.below(4 / width));
        let row = if width == 4 { 40 } else { 120 };
        // In system mode at most one page behind the last.
        let pages = if self.user { 5 } else { (self.plan.pages + 1).min(5) };
        let steps = [(4_096, pages), (4_096, pages), (width, row), (3 * width, row / 4)];
        let (step, most) = self.rng.pick(&steps);
        code.constant(stride, step);
        code.constant(count, self.rng.between(2, most));
        let (value, top) = (self.rng.between(1, 12), code.here());
        code.push(&[i_type(load, value, pointer, 0), addi(value, value, self.rng.below(99))]);
        self.maybe_compute(code);
        code.push(&[i_type(store, value, pointer, 0), i_type(opcode::SUBI, count, count, 1)]);
        let slot = r_type(function::ADD, pointer, pointer, stride);
        code.branch_back(opcode::BNEZ, count, top, slot);
    }

    fn sweep_start(&mut self) -> u32 {
        let offset = self.data_offset();
        match (self.user, self.rng.below(16)) {
            (false, _) => offset,
            (true, 0..=3) => 4_096 * self.rng.below(6) + offset,
            (true, 4) => 4_096 * self.rng.between(1_021, 1_024) + offset,
            (true, _) => 4_096 * self.plan.data[0] + offset,
        }
    }

    fn maybe_compute(&mut self, code: &mut Code) {
        if self.rng.chance(50) {
            code.push(&[words::compute(self.rng)]);
        }
    }

    fn counted(&mut self, code: &mut Code) {
        let count = self.loop_registers().0;
        code.constant(count, self.rng.between(2, 30));
        let top = code.here();
        self.compute(code);
        code.push(&[i_type(opcode::SUBI, count, count, 1)]);
        code.branch_back(opcode::BNEZ, count, top, words::compute(self.rng));
    }

    fn forward(&mut self, code: &mut Code) {
        let op = self.rng.pick(&[opcode::BEQZ, opcode::BNEZ]);
        let ahead = code.branch(op, self.rng.below(13), words::compute(self.rng));
        self.compute(code);
        code.land(ahead);
    }

    /// A jump or branch over one word, with an instruction in its delay slot that is mostly
    /// interrupted.
    fn interrupted_slot(&mut self, code: &mut Code) {
        let slot = self.interrupted(code);
        let ahead = match self.rng.below(3) {
            0 => Some(code.jump(self.rng.pick(&[opcode::J, opcode::JAL]), slot)),
            1 => {
                code.constant(13, self.rng.below(2));
                Some(code.branch(self.rng.pick(&[opcode::BEQZ, opcode::BNEZ]), 13, slot))
            }
            _ => {
                code.long_constant(13, self.base + 4 * (code.here() as u32 + 5));
                let op = self.rng.pick(&[opcode::JR, opcode::JALR]);
                code.push(&[i_type(op, 0, 13, 0), slot]);
                None
            }
        };
        code.push(&[words::compute(self.rng)]);
        if let Some(ahead) = ahead {
            code.land(ahead);
        }
    }

    /// An instruction that is mostly interrupted, by any cause that an aligned word which is found
    /// can have; its registers are set before it.
    fn interrupted(&mut self, code: &mut Code) -> u32 {
        let pointer = self.loop_registers().1;
        match self.rng.below(10) {
            0 if self.user => self.rng.pick(&[rfe(), movs2i(9, ECA), movi2s(EPC, 9)]),
            0 | 1 => words::ill(self.rng),
            2 | 3 => {
                let op =
                    self.rng.pick(&[opcode::LW, opcode::SW, opcode::LH, opcode::LHU, opcode::SH]);
                let odd = if words::width(op) == 2 { [1, 3, 1] } else { [1, 2, 3] };
                code.constant(pointer, self.address() & !3 | self.rng.pick(&odd));
                i_type(op, 9, pointer, 0)
            }
            4 | 5 => {
                let op = self.rng.pick(&words::ACCESS);
                code.constant(pointer, self.faulting_address() + words::byte(self.rng, op));
                i_type(op, 9, pointer, 0)
            }
            6 | 7 => trap(self.rng.word()),
            _ => {
                let (word, one, two) = words::overflow(self.rng);
                code.constant(1, one);
                code.constant(2, two);
                word
            }
        }
    }

    /// An address that is mostly not there; behind some pages of user mode it is only protected.
    fn faulting_address(&mut self) -> u32 {
        let page = if self.user { self.rng.pick(&self.plan.odd) } else { self.plan.pages };
        4_096 * page + self.data_offset()
    }

    /// A call by jal or jalr, and the subroutine right behind it.
    fn subroutine(&mut self, code: &mut Code) {
        let call = if self.rng.chance(50) {
            Some(code.jump(opcode::JAL, nop()))
        } else {
            let register = self.rng.pick(&[13, 31]);
            let target = self.base + 4 * (code.here() as u32 + 6);
            code.long_constant(register, target);
            code.push(&[i_type(opcode::JALR, self.rng.below(32), register, 0), nop()]);
            None
        };
        let over = code.branch(opcode::BEQZ, 0, nop());
        if let Some(call) = call {
            code.land(call);
        }
        self.compute(code);
        code.push(&[jr(31), words::compute(self.rng)]);
        code.land(over);
    }

    /// A store into the table: in system mode at its address, in user mode through the window.
    /// Often it is the entry of the code's own page, and often a part of an entry only.
    fn change_table(&mut self, code: &mut Code) {
        let (px, entry) = self.rng.pick(&self.plan.entries);
        let own = self.rng.chance(30);
        let px = if own { self.plan.code_px } else { px };
        let address =
            if self.user { 4_096 * self.plan.window + 4 * px } else { self.plan.entry_address(px) };
        let entry = if own { self.code_entry() } else { self.changed(entry) };
        let (op, byte) = self.entry_part();
        code.constant(11, address + byte);
        code.constant(12, entry >> (8 * byte));
        code.push(&[i_type(op, 12, 11, 0)]);
    }

    /// A store's opcode and the first byte of a table entry that it writes; often the byte that has
    /// the bits for valid and protected.
    fn entry_part(&mut self) -> (u32, u32) {
        match self.rng.below(6) {
            0 => (opcode::SB, self.rng.below(4)),
            1 => (opcode::SB, 1),
            2 => (opcode::SH, self.rng.pick(&[0, 0, 2])),
            _ => (opcode::SW, 0),
        }
    }

    /// A loop that changes an entry of the table and uses the page at once.
    fn change_in_a_loop(&mut self, code: &mut Code) {
        let (count, pointer, value) = self.loop_registers();
        let px = self.rng.pick(&self.plan.data);
        let (table, data) = if self.user {
            (4_096 * self.plan.window, 4_096 * px)
        } else {
            (self.plan.entry_address(0), 4_096 * self.plan.table)
        };
        let (op, byte) = self.entry_part();
        code.constant(11, table + 4 * px + byte);
        code.constant(pointer, data + self.data_offset());
        code.constant(value, entry(self.rng.below(self.plan.pages), false) >> (8 * byte));
        code.constant(count, self.rng.between(3, 12));
        let flip = self.rng.pick(&[0, PROTECTED, VALID, 0x1000]) >> (8 * byte);
        let top = code.here();
        code.push(&[i_type(op, value, 11, 0)]);
        code.push(&[lw(9, pointer, 0), addi(9, 9, 1), sw(9, pointer, 0)]);
        code.push(&[i_type(opcode::SUBI, count, count, 1)]);
        code.branch_back(opcode::BNEZ, count, top, i_type(opcode::XORI, value, value, flip));
    }

    fn code_entry(&mut self) -> u32 {
        entry(self.plan.code, self.rng.chance(30))
    }

    /// An entry like the given one: the same, protected, not valid, or for another page.
    fn changed(&mut self, old: u32) -> u32 {
        match self.rng.below(4) {
            0 => old ^ PROTECTED,
            1 => old ^ VALID,
            2 => entry(self.rng.below(self.plan.pages + 1), self.rng.chance(20)),
            _ => old,
        }
    }

    /// Writes PTO or PTL as it was, or PTL shorter or longer; in user mode asks the handler.
    fn set_table_again(&mut self, code: &mut Code) {
        if self.user || !self.plan.user {
            return code.push(&[trap(self.rng.below(8))]);
        }
        let (pto, ptl) = (self.plan.table, self.plan.ptl);
        match self.rng.below(3) {
            0 => code.special(PTO, 12, pto),
            1 => code.special(PTL, 12, ptl),
            _ => {
                let own = self.plan.code_px + 1;
                let ptl = self.rng.pick(&[own, own, 257, 1_023, 1_024, 1_025, u32::MAX]);
                code.special(PTL, 12, ptl);
            }
        }
    }

    /// Reads or writes a special register; ill in user mode.
    fn special(&mut self, code: &mut Code) {
        let number = self.rng.index(special::COUNT);
        if self.rng.chance(40) {
            return code.push(&[movs2i(self.rng.below(13), number)]);
        }
        let value = match number {
            PTO => self.rng.pick(&[self.plan.table, self.plan.table, 0, u32::MAX]),
            PTL => self.rng.pick(&[self.plan.ptl, self.plan.ptl, self.plan.code_px, 0, 1_024]),
            MODE => self.rng.word() & !1,
            TCOUNT | TLOAD => self.rng.below(100),
            _ => words::value(self.rng),
        };
        code.special(number, 12, value);
    }

    /// Sets, reads or stops the timer; in user mode asks the handler.
    fn timer(&mut self, code: &mut Code) {
        if self.user {
            return code.push(&[trap(self.rng.below(8))]);
        }
        timers::piece(self.rng, code);
    }

    /// A jump to an address that is misaligned or not mapped; often its delay slot has another
    /// jump, so that PC is then not DPC + 4.
    fn far_jump(&mut self, code: &mut Code) {
        let target = match self.rng.below(3) {
            0 => self.base + self.rng.between(1, 3),
            1 => self.rng.word() & !3,
            _ => 4_096 * self.rng.pick(&self.plan.odd),
        };
        code.constant(13, target);
        let op = self.rng.pick(&[opcode::JR, opcode::JALR]);
        let slot = match self.rng.below(4) {
            0 => jr(13),
            1 => i_type(opcode::BEQZ, 0, 0, 4 * self.rng.between(1, 32)),
            _ => words::compute(self.rng),
        };
        code.push(&[i_type(op, 0, 13, 0), slot]);
    }

    /// Stores an instruction into the code a few words ahead.
    fn change_code(&mut self, code: &mut Code) {
        let target = self.base + 4 * (code.here() as u32 + 6);
        code.long_constant(11, target);
        code.long_constant(12, words::compute(self.rng));
        code.push(&[sw(12, 11, 0), nop(), nop(), nop()]);
    }
}

#[cfg(test)]
mod tests {
    use super::*;

    #[test]
    fn code_leaves_the_data_alone() {
        let mut rng = Rng::new(5);
        for round in 0..500 {
            let pages = 1 + round % 8;
            for (place, _) in program(&mut rng, &[pages, 1], 0).words {
                assert!(place < 1_024 * pages, "inside the pages");
                assert!(!(COUNTER / 4..1_024).contains(&place), "before the data");
            }
            if pages > 1 {
                let plan = Plan::new(&mut rng, pages, Seat { own: 0, partitions: 2 });
                let end = USER_WORD + user_code(&mut rng, &plan).len() as u32;
                assert!(end < DATA_WORD, "before the data");
                let inside = |&(px, _): &(u32, u32)| (USER_WORD..DATA_WORD).contains(&px);
                let apart = plan.table != plan.code || !plan.entries.iter().any(inside);
                assert!(apart, "beside the table");
            }
        }
    }
}
