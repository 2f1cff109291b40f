//! Scripts that set a guest's state by hand and do one or a few steps from it.

use super::{audits, tickets, timers, words, Draft};
use crate::assemble::trap;
use crate::counts::Counts;
use crate::dlx::special::{EDPC, EMODE, EPC, ESR, MODE, PTL, PTO, SR};
use crate::dlx::{decode, Instruction};
use crate::fields;
use crate::memory::{shadow_entry, Access, Engine, Fault, ENTRIES, PROTECTED, VALID};
use crate::script::Command;

/// Low pages of user addresses that the tables have.
const MAPPED: u32 = 12;
/// Far pages of user addresses that the tables have.
const FAR: [u32; 6] = [255, 256, 257, 600, 1_022, 1_023];

/// A script of this kind.
pub fn compose(draft: &mut Draft) {
    let pages: Vec<u32> = draft.page_counts(5).into_iter().take(3).collect();
    draft.boot(&pages);
    for (partition, &count) in pages.iter().enumerate() {
        let table = draft.rng.below(count);
        write_table(draft, partition as u32, count, table);
    }
    for _ in 0..draft.rng.between(28, 48) {
        one_case(draft);
    }
}

/// All pages of user addresses that the tables have.
pub fn mapped() -> Vec<u32> {
    (0..MAPPED).chain(FAR).collect()
}

/// A table with entries of all sorts; one of them maps the table itself.
pub fn write_table(draft: &mut Draft, partition: u32, pages: u32, table: u32) {
    draft.field(fields::special(partition, PTO), table);
    for px in mapped() {
        let page = if px == 1 { table } else { draft.rng.below(pages) };
        let protection = draft.rng.pick(&[0, PROTECTED]);
        let beyond = (pages + draft.rng.below(2)) << 12 | protection;
        let entry = match draft.rng.below(12) {
            0 => page << 12,
            10 => beyond,
            1 | 11 => beyond | VALID,
            2 => page << 12 | VALID | PROTECTED,
            _ => page << 12 | VALID | draft.rng.below(1 << 10),
        };
        draft.poke_guest(partition, 1_024 * table + px, entry);
    }
}

/// A state, an instruction, and a run.
fn one_case(draft: &mut Draft) {
    let partition = draft.player.house.current;
    set_specials(draft, partition);
    set_pair(draft, partition);
    if draft.rng.chance(35) {
        set_shadow(draft, partition);
    }
    let instruction = match draft.rng.below(20) {
        0 => overflow(draft, partition),
        _ => any_instruction(draft, partition),
    };
    place_instruction(draft, partition, instruction);
    let steps = if draft.rng.chance(75) { 1 } else { draft.rng.between(2, 6) };
    draft.run(steps);
    if draft.rng.chance(5) {
        draft.emit(Command::Empty { partition });
    }
    if draft.rng.chance(10) {
        audits::look(draft);
    }
}

/// Any instruction, often a trap, and its registers.
fn any_instruction(draft: &mut Draft, partition: u32) -> u32 {
    let instruction = if draft.rng.chance(25) {
        trap(words::trap_number(&mut draft.rng))
    } else {
        words::instruction(&mut draft.rng)
    };
    set_registers(draft, partition, instruction);
    instruction
}

/// An instruction that overflows, and its registers; SR mostly lets it through.
fn overflow(draft: &mut Draft, partition: u32) -> u32 {
    let (instruction, one, two) = words::overflow(&mut draft.rng);
    set_register(draft, partition, 1, one);
    set_register(draft, partition, 2, two);
    if draft.rng.chance(80) {
        let open = draft.rng.pick(&[0, timers::OPEN]);
        draft.field(fields::special(partition, SR), 64 | open);
    }
    instruction
}

fn set_specials(draft: &mut Draft, partition: u32) {
    let rng = &mut draft.rng;
    let mut changes = vec![(MODE, u32::from(rng.chance(60)))];
    if rng.chance(55) {
        changes.push((SR, timers::status(rng)));
    }
    if rng.chance(40) {
        let edges = [3, MAPPED, 256, 257, 1_023, 1_024, 1_025, u32::MAX, u32::MAX, 0];
        changes.push((PTL, rng.pick(&edges)));
    }
    if rng.chance(10) {
        changes.push((PTO, rng.pick(&[0, 1, 2, 5, 6, 0x10_0000, u32::MAX])));
    }
    if rng.chance(20) {
        changes.extend([(EMODE, rng.below(2)), (ESR, rng.word())]);
        changes.extend([(EPC, 4 * rng.below(3_000)), (EDPC, 4 * rng.below(3_000))]);
    }
    for (special, value) in changes {
        draft.field(fields::special(partition, special), value);
    }
    if draft.rng.chance(55) {
        timers::poke(draft, partition);
    }
    if draft.rng.chance(20) {
        let fault = draft.rng.below(Fault::LAST + 1);
        draft.field(fields::scalar(partition, fields::LATEST_FAULT), fault);
    }
    if draft.rng.chance(5) {
        draft.field(fields::scalar(partition, fields::COUNTER_LOW), u32::MAX);
        draft.field(fields::scalar(partition, fields::COUNTER_HIGH), u32::MAX);
    }
}

/// DPC and PC. In system mode the page is mostly one of the guest's own. PC is often not DPC + 4,
/// as it is in a delay slot.
fn set_pair(draft: &mut Draft, partition: u32) {
    let guest = &draft.player.house.guests[partition as usize];
    let (user, pages) = (guest.user(), guest.space.pages);
    let any = any_page(draft);
    let rng = &mut draft.rng;
    let page = if user || rng.chance(20) { any } else { rng.below(pages) };
    let mut dpc = 4_096 * page + 4 * rng.between(300, 1_000);
    if rng.chance(4) {
        dpc += rng.between(1, 3);
    }
    let pc = match rng.below(10) {
        0 => rng.word(),
        1 => rng.pick(&[u32::MAX, 0xFFFF_FFFC, 0xFFFF_FFF8, 0]),
        2 => (dpc & !0xFFF) + 4 * rng.below(1_024),
        _ => dpc.wrapping_add(4),
    };
    draft.field(fields::scalar(partition, fields::DPC), dpc);
    draft.field(fields::scalar(partition, fields::PC), pc);
}

/// A page of addresses: mostly one that there is.
fn any_page(draft: &mut Draft) -> u32 {
    let rng = &mut draft.rng;
    match rng.below(20) {
        0..=3 => rng.pick(&FAR),
        4 | 5 => rng.pick(&[1_024, 1_025, 0xF_FFFF]),
        6 => rng.below(ENTRIES as u32),
        _ => rng.below(MAPPED - 4),
    }
}

/// A shadow entry, often that of the instruction's own page.
fn set_shadow(draft: &mut Draft, partition: u32) {
    let guest = &draft.player.house.guests[partition as usize];
    let (own, list) = (guest.dpc >> 12, guest.space.list().to_vec());
    let px = if draft.rng.chance(70) { own } else { any_page(draft) }.min(1_023);
    let entry = match draft.rng.below(4) {
        0 => 0,
        _ => shadow_entry(draft.rng.pick(&list), draft.rng.word()),
    };
    draft.field(fields::shadow(partition, px), entry);
}

/// Registers that the instruction reads; RS1 gives an address where one is needed, and a trap may
/// send or take a ticket.
fn set_registers(draft: &mut Draft, partition: u32, word: u32) {
    if let Some(Instruction::Trap { .. }) = decode(word) {
        return set_tickets(draft, partition);
    }
    let (rs1, rs2) = (word >> 21 & 31, word >> 16 & 31);
    let value = words::value(&mut draft.rng);
    set_register(draft, partition, rs2, value);
    let value = match decode(word) {
        Some(Instruction::Load { imm, .. } | Instruction::Store { imm, .. }) => {
            let byte = words::byte(&mut draft.rng, word >> 26);
            data_address(draft, partition).wrapping_add(byte).wrapping_sub(imm)
        }
        Some(Instruction::Jump { .. }) => 4 * draft.rng.below(8_000) + u32::from(value == 1),
        _ => words::value(&mut draft.rng),
    };
    set_register(draft, partition, rs1, value);
}

/// A ticket, its receiver, and now and then the receiver's queue or one's own.
fn set_tickets(draft: &mut Draft, own: u32) {
    let seat = draft.seat(own);
    let ticket = words::value(&mut draft.rng);
    let to = tickets::receiver(&mut draft.rng, seat);
    set_register(draft, own, 1, ticket);
    set_register(draft, own, 2, to);
    for partition in [to, own] {
        if partition < seat.partitions && draft.rng.chance(40) {
            tickets::set_queue(draft, partition);
        }
    }
}

fn set_register(draft: &mut Draft, partition: u32, number: u32, value: u32) {
    let value = if number == 0 { 0 } else { value };
    draft.field(fields::register(partition, number), value);
}

/// A data address; often that of a table entry, in system mode or through the page that maps it.
fn data_address(draft: &mut Draft, partition: u32) -> u32 {
    let guest = &draft.player.house.guests[partition as usize];
    let (dpc, pto, user) = (guest.dpc, guest.specials[PTO], guest.user());
    let page = any_page(draft);
    let rng = &mut draft.rng;
    let px = match rng.below(4) {
        0 | 1 => dpc >> 12 & 1_023,
        2 => rng.pick(&FAR),
        _ => rng.below(MAPPED + 2),
    };
    match rng.below(10) {
        0..=2 if user => 4_096 + 4 * px,
        0..=2 => pto.wrapping_mul(4_096).wrapping_add(4 * px),
        3 => 4_096 * page + rng.below(4_096),
        _ => 4_096 * page + 4 * rng.below(1_024),
    }
}

/// Puts the instruction where the fetch will find it, if it finds anything.
fn place_instruction(draft: &mut Draft, partition: u32, instruction: u32) {
    let guest = &draft.player.house.guests[partition as usize];
    let table = guest.user().then(|| guest.table());
    let (mut space, lent) = (guest.space.clone(), draft.player.lent());
    let place = space.locate(
        lent,
        table,
        guest.dpc,
        Access::Load,
        Engine::Shadowed,
        &mut Counts::default(),
    );
    if let Ok(place) = place {
        draft.poke_guest(partition, 1_024 * place.page + place.word, instruction);
    }
}
