//! Timers: values for them, code that sets them, and scripts in which they reach zero at an
//! instruction of every kind.

use super::tickets::{self, Seat};
use super::{words, Draft};
use crate::assemble::{
    addi, andi, function, i_type, lw, movi2s, movs2i, nop, opcode, r_type, rfe, send, sw, take,
    trap, Code,
};
use crate::dlx::special::{ECA, EDATA, EDPC, EMODE, EPC, ESR, MODE, PTL, PTO, SR, TCOUNT, TLOAD};
use crate::dlx::Cause;
use crate::fields;
use crate::memory::{PROTECTED, VALID};
use crate::rng::Rng;

/// SR's bit that lets the timer through.
pub const OPEN: u32 = 1 << Cause::Timer as u32;
/// SR's bit that lets ovf through.
const OVF: u32 = 1 << Cause::Ovf as u32;
/// ill, mal and pfls in ECA: rfe would come back to the same instruction.
const ABORTED: u32 = 2 | 4 | 16;
/// The register through which a timer is set; the code behind it may use the others.
const THROUGH: u32 = 14;
/// No snippet begins after so many words.
const MOST_CODE: usize = 640;
/// Where loads and stores of these scripts go, in their page.
const DATA: u32 = 4 * 900;

/// A value for SR or ESR: mostly the timer is let through, and mostly ovf.
pub fn status(rng: &mut Rng) -> u32 {
    rng.pick(&[OPEN, OPEN | OVF, OPEN | OVF, OPEN | OVF, u32::MAX, !OVF, !OPEN, OVF, 0])
}

/// A value for TLOAD: mostly one that leaves a guest time for its own work.
fn load(rng: &mut Rng) -> u32 {
    match rng.below(20) {
        0 => rng.between(1, 12),
        1 | 2 => 0,
        3 => rng.pick(&[u32::MAX, 1 << 31]),
        4..=6 => rng.between(200, 1_000),
        _ => rng.between(40, 200),
    }
}

/// A value for TCOUNT: mostly one that reaches zero soon.
fn count(rng: &mut Rng) -> u32 {
    match rng.below(12) {
        0 => 0,
        1 => rng.pick(&[u32::MAX, 1 << 31]),
        2..=4 => rng.between(1, 4),
        _ => rng.between(5, 150),
    }
}

/// Code that sets both registers, in either order.
pub fn start(rng: &mut Rng, code: &mut Code) {
    let mut both = [(TCOUNT, count(rng)), (TLOAD, load(rng))];
    if rng.chance(50) {
        both.reverse();
    }
    for (special, value) in both {
        code.special(special, THROUGH, value);
    }
}

/// A piece of code for system mode that sets, reads or stops the timer.
pub fn piece(rng: &mut Rng, code: &mut Code) {
    let value = rng.pick(&[0, 1, 1, 2, 3, 5, 30]);
    match rng.below(5) {
        0 => start(rng, code),
        1 => code.push(&[movs2i(rng.below(13), TCOUNT), movs2i(rng.below(13), TLOAD)]),
        2 => code.special(TLOAD, THROUGH, load(rng)),
        _ => code.special(TCOUNT, THROUGH, value),
    }
}

/// Sets a partition's timer by hand: often so that the next step is the last.
pub fn poke(draft: &mut Draft, partition: u32) {
    let rng = &mut draft.rng;
    let count = if rng.chance(60) { 1 } else { count(rng) };
    let load = if rng.chance(40) { rng.pick(&[0, 1, 2, 3, 9]) } else { load(rng) };
    draft.field(fields::special(partition, TCOUNT), count);
    draft.field(fields::special(partition, TLOAD), load);
}

/// A script of this kind: each partition runs a loop in which its timer reaches zero again and again,
/// at an instruction that was chosen.
pub fn compose(draft: &mut Draft) {
    let partitions = draft.rng.pick(&[1, 1, 2, 3]);
    draft.boot(&vec![PAGES; partitions]);
    for own in 0..draft.partitions() {
        let seat = draft.seat(own);
        for (place, value) in Aimed::program(&mut draft.rng, seat) {
            draft.poke_guest(own, place, value);
        }
    }
    for _ in 0..draft.rng.between(4, 8) {
        let partition = draft.partition();
        match draft.rng.below(8) {
            0..=3 => tickets::set_queue(draft, partition),
            4 => poke(draft, partition),
            _ => {}
        }
        let steps = draft.rng.between(300, 900);
        draft.run(steps);
    }
}

/// Page 0 has the handler and the loop, page 1 the table, page 2 the code for user mode.
const PAGES: u32 = 3;
/// The table: the code, the table itself, a page, the same protected, and none.
const TABLE: [u32; 5] =
    [2 << 12 | VALID, 1 << 12 | VALID, 2 << 12 | VALID, 2 << 12 | VALID | PROTECTED, 2 << 12];
/// Where system mode goes on after user mode.
const BEHIND: u32 = 21;

/// The instruction at which a timer reaches zero in system mode.
enum Target {
    Word(u32),
    /// Opcode and RS1.
    Branch(u32, u32),
    Jump(u32),
    /// An rfe that goes on behind the next word.
    Return,
    /// A movi2s that makes MODE 1.
    User,
}

/// A program as it grows.
struct Aimed<'a> {
    rng: &'a mut Rng,
    seat: Seat,
    code: Code,
    user: Code,
}

impl Aimed<'_> {
    /// Words by their place: a handler at 0 that goes on, the loop, the table, and the code for user
    /// mode.
    fn program(rng: &mut Rng, seat: Seat) -> Vec<(u32, u32)> {
        let mut aimed = Aimed { rng, seat, code: Code::default(), user: Code::default() };
        aimed.code.push(&[movs2i(30, ECA)]);
        let interrupted = aimed.code.branch(opcode::BNEZ, 30, nop());
        let again = aimed.code.here();
        aimed.code.special(PTO, THROUGH, 1);
        aimed.code.special(PTL, THROUGH, TABLE.len() as u32);
        aimed.code.special(TLOAD, THROUGH, aimed.rng.pick(&[0, 0, 0, 7, 61, 500]));
        while aimed.code.here() < MOST_CODE {
            if aimed.rng.chance(25) {
                aimed.in_user_mode();
            } else {
                aimed.in_system_mode();
            }
        }
        aimed.code.jump_back(again, nop());
        aimed.code.land(interrupted);
        aimed.handler(again);
        let parts = [(0, &aimed.code.words[..]), (1, &TABLE), (2, &aimed.user.words)];
        let placed =
            |(page, words): (u32, &[u32])| (1_024 * page..).zip(words.to_vec()).collect::<Vec<_>>();
        parts.into_iter().flat_map(placed).collect()
    }

    /// Keeps a sum of what was saved, skips what was aborted, and begins again where a fetch faulted;
    /// goes on after user mode. Now and then the timer is let through at the rfe itself.
    fn handler(&mut self, again: usize) {
        let code = &mut self.code;
        if self.rng.chance(40) {
            for special in [ESR, EPC, EDPC, EDATA, TCOUNT] {
                code.push(&[movs2i(27, special), r_type(function::ADD, 25, 25, 27)]);
            }
            code.push(&[r_type(function::ADD, 25, 25, 30)]);
        }
        code.push(&[movs2i(27, EMODE)]);
        let from_user = code.branch(opcode::BNEZ, 27, movi2s(EMODE, 0));
        code.push(&[andi(28, 30, 8)]);
        let lost = code.branch(opcode::BNEZ, 28, andi(28, 30, ABORTED));
        let done = code.branch(opcode::BEQZ, 28, nop());
        code.push(&[movs2i(28, EPC), movi2s(EDPC, 28), addi(28, 28, 4), movi2s(EPC, 28)]);
        code.land(done);
        if self.rng.chance(50) {
            // Every second time: 4 at the rfe, 3 before it, while it is masked, 5 right behind it.
            code.push(&[i_type(opcode::XORI, 26, 26, 1)]);
            let not_now = code.branch(opcode::BEQZ, 26, nop());
            code.special(TCOUNT, 28, self.rng.pick(&[3, 4, 4, 4, 5]));
            code.long_constant(28, status(self.rng));
            code.push(&[movi2s(SR, 28), rfe()]);
            code.land(not_now);
        }
        code.push(&[rfe()]);
        code.land(from_user);
        code.push(&[movi2s(EDPC, BEHIND), addi(28, BEHIND, 4), movi2s(EPC, 28), rfe()]);
        code.land(lost);
        code.special(EDPC, 28, 4 * again as u32);
        code.special(EPC, 28, 4 * again as u32 + 4);
        code.push(&[rfe()]);
    }

    /// Stops the timer while the next one is prepared, and sets SR and now and then TLOAD.
    fn prepare(&mut self) {
        self.code.push(&[movi2s(TCOUNT, 0)]);
        let open = if self.rng.chance(85) { OPEN } else { 0 };
        self.code.special(SR, THROUGH, status(self.rng) | open);
        if self.rng.chance(30) {
            let load = self.rng.pick(&[0, 0, 0, 0, 0, 0, 1, 2, 20, 61]);
            self.code.special(TLOAD, THROUGH, load);
        }
    }

    /// The timer reaches zero at a chosen instruction, mostly let through.
    fn in_system_mode(&mut self) {
        self.prepare();
        let target = self.target();
        let before = self.rng.pick(&[0, 0, 1, 2, 5]);
        match target {
            // The words from here on: these, those that set the timer, and those up to the target.
            Target::Return => {
                let behind = self.code.here() as u32 + 8 + 2 + before + 2;
                self.set_return(behind, 0);
            }
            Target::User => {
                let behind = self.code.here() as u32 + 3 + 2 + before + 1;
                self.code.long_constant(BEHIND, 4 * behind);
                self.code.push(&[addi(6, 0, 1)]);
            }
            _ => {}
        }
        let slot = matches!(target, Target::Branch(..) | Target::Jump(_)) && self.rng.chance(50);
        let code = &mut self.code;
        code.special(TCOUNT, THROUGH, before + 1 + u32::from(slot));
        let fillers = [nop(), addi(9, 9, 3), lw(8, 0, DATA + 8)];
        (0..before).for_each(|_| code.push(&[self.rng.pick(&fillers)]));
        match target {
            Target::Word(word) => code.push(&[word]),
            // It goes over a word; the timer reaches zero at it, or in its delay slot.
            Target::Branch(op, rs1) => {
                let ahead = code.branch(op, rs1, addi(10, 10, 1));
                code.push(&[addi(11, 11, 1)]);
                code.land(ahead);
            }
            Target::Jump(op) => {
                let ahead = code.jump(op, addi(10, 10, 1));
                code.push(&[addi(11, 11, 1)]);
                code.land(ahead);
            }
            Target::Return => code.push(&[rfe(), addi(11, 11, 1)]),
            Target::User => code.push(&[movi2s(MODE, 6)]),
        }
        if self.rng.chance(50) {
            self.code.push(&[movs2i(13, TCOUNT), r_type(function::ADD, 12, 12, 13)]);
        }
    }

    /// EDPC, EPC, ESR and EMODE for an rfe, in eight words.
    fn set_return(&mut self, place: u32, mode: u32) {
        let code = &mut self.code;
        code.push(&[addi(7, 0, 4 * place), movi2s(EDPC, 7), addi(7, 7, 4), movi2s(EPC, 7)]);
        code.long_constant(7, status(self.rng) | if mode == 1 { OPEN } else { 0 });
        code.push(&[movi2s(ESR, 7)]);
        code.push(&[if mode == 1 { nop() } else { movi2s(EMODE, 0) }]);
    }

    /// The timer reaches zero in user mode, or at the rfe that goes there. A trap comes back if it
    /// does not.
    fn in_user_mode(&mut self) {
        self.prepare();
        let start = self.user.here() as u32;
        let before = self.rng.pick(&[0, 0, 1, 2]);
        self.user.push(&vec![nop(); before as usize]);
        self.user_target();
        self.user.push(&[trap(3)]);
        if self.rng.chance(60) {
            // This empties the shadow, so that the next access fills it.
            self.code.special(PTL, THROUGH, TABLE.len() as u32);
        }
        self.code.push(&[addi(7, 0, 1), movi2s(EMODE, 7)]);
        self.set_return(start, 1);
        let behind = self.code.here() + 2 + 2 + 1;
        self.code.long_constant(BEHIND, 4 * behind as u32);
        let count = if self.rng.chance(15) { 1 } else { before + 2 };
        self.code.special(TCOUNT, THROUGH, count);
        self.code.push(&[rfe()]);
    }

    /// An instruction for user mode, and the registers that it needs.
    fn user_target(&mut self) {
        let (rng, code) = (&mut *self.rng, &mut self.code);
        let page = |px: u32| 4_096 * px + DATA;
        let entry = rng.below(3);
        let word = match rng.below(16) {
            0..=2 => {
                code.constant(6, page(2));
                i_type(rng.pick(&[opcode::LB, opcode::LH, opcode::LW]), 5, 6, 0)
            }
            3..=5 => {
                code.constant(6, page(2));
                i_type(rng.pick(&[opcode::SB, opcode::SH, opcode::SW]), 5, 6, 4)
            }
            6..=9 => {
                // An entry as it was: of the code, of this page itself, or of another.
                code.constant(6, 4_096 + 4 * entry);
                code.constant(5, TABLE[entry as usize]);
                sw(5, 6, 0)
            }
            10 => {
                let ahead = self.user.branch(opcode::BEQZ, 0, nop());
                self.user.push(&[addi(11, 11, 1)]);
                return self.user.land(ahead);
            }
            11 => words::compute(rng),
            12 => {
                code.constant(6, page(rng.pick(&[3, 4, 5, 1_024])));
                rng.pick(&[sw(5, 6, 0), lw(5, 6, 0)])
            }
            13 => rng.pick(&[movi2s(TCOUNT, 5), movs2i(5, TCOUNT), movi2s(TLOAD, 5), rfe()]),
            14 => rng.pick(&[send(), take(), trap(7)]),
            _ => lw(5, 0, DATA + rng.between(1, 3)),
        };
        self.user.push(&[word]);
    }

    /// An instruction of any kind, and the registers and specials that it needs.
    fn target(&mut self) -> Target {
        let (rng, code) = (&mut *self.rng, &mut self.code);
        let value = words::value(rng);
        let word = match rng.below(30) {
            0 => movi2s(EDATA, 9),
            1 => i_type(rng.pick(&[opcode::LB, opcode::LHU, opcode::LW]), 5, 0, DATA),
            2 => i_type(rng.pick(&[opcode::SB, opcode::SH, opcode::SW]), 5, 0, DATA),
            3 => movs2i(rng.between(1, 12), TCOUNT),
            4 => movs2i(rng.between(1, 12), rng.pick(&[SR, EPC, EDATA, TLOAD])),
            5 | 6 => {
                tickets::address(rng, self.seat, code);
                if rng.chance(30) {
                    code.constant(2, self.seat.partitions);
                }
                send()
            }
            7 | 8 => take(),
            9 | 10 => {
                let (word, one, two) = words::overflow(rng);
                code.constant(1, one);
                code.constant(2, two);
                // Now and then let through: then ovf is the level.
                code.special(SR, THROUGH, rng.pick(&[OPEN, OPEN, OPEN, OPEN | OVF, OVF]));
                word
            }
            11 => {
                code.constant(6, rng.pick(&[0, OPEN, OPEN | OVF, OVF, value]));
                movi2s(SR, 6)
            }
            12 => {
                code.constant(6, value);
                movi2s(rng.pick(&[ESR, ECA, EPC, EDPC, EMODE]), 6)
            }
            13 => {
                code.constant(6, value);
                movi2s(EDATA, 6)
            }
            14 => {
                if rng.chance(50) {
                    // The handler comes back from user mode.
                    code.special(SR, THROUGH, OPEN);
                    return Target::User;
                }
                movi2s(MODE, 0)
            }
            15 => {
                let same = [(PTO, 1), (PTL, TABLE.len() as u32)];
                let (special, value) = rng.pick(&same);
                code.constant(6, value);
                movi2s(special, 6)
            }
            16 => {
                code.constant(6, rng.pick(&[0, 0, 1, 2, 5, value]));
                movi2s(TCOUNT, 6)
            }
            17 => {
                code.constant(6, rng.pick(&[0, 1, 7, 61, 61]));
                movi2s(TLOAD, 6)
            }
            18 | 19 => return Target::Branch(opcode::BEQZ, 0),
            20 | 21 => return Target::Branch(opcode::BNEZ, 0),
            22 | 23 => return Target::Jump(opcode::J),
            24 | 25 => return Target::Jump(opcode::JAL),
            26 | 27 => return Target::Return,
            _ => self.lower(),
        };
        Target::Word(word)
    }

    /// An instruction with a cause of its own, which is then the level.
    fn lower(&mut self) -> u32 {
        let (rng, code) = (&mut *self.rng, &mut self.code);
        if rng.chance(30) {
            code.push(&[movi2s(SR, 0)]);
        }
        match rng.below(4) {
            0 => words::ill(rng),
            1 => lw(5, 0, DATA + rng.between(1, 3)),
            2 => {
                code.constant(6, rng.pick(&[4_096 * PAGES, 4_096 * 9, u32::MAX - 3]));
                rng.pick(&[lw(5, 6, 0), sw(5, 6, 0)])
            }
            _ => trap(rng.below(200)),
        }
    }
}
