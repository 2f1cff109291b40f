//! Tickets between partitions: what the named scripts about them must leave behind.

mod common;

use common::{last, play, After};
use emulator::counts::Counts;
use emulator::dlx::special::{ECA, EDATA, EDPC, EPC, MODE};
use emulator::house::House;
use emulator::housefile::read;
use emulator::source;

/// So many tickets, as the scripts have them.
fn tickets(count: u32) -> Vec<u32> {
    (101..101 + count).collect()
}

/// Registers 1 to 3 of partition 0: ticket, receiver, answer.
fn registers(after: &After) -> (u32, u32, u32) {
    (after.register(1), after.register(2), after.register(3))
}

#[test]
fn a_send_goes_behind_the_others() {
    let states = play("a ticket");
    assert_eq!((registers(&states[1]), states[1].waiting(1)), ((7, 1, 0), &[7][..]));
    assert_eq!(states[2].waiting(1), [7, 8]);
    assert_eq!((states[2].pair(), states[2].turn()), ((12, 16), (0, 98)));
    assert!(states[2].text.contains("\nqueue 1 2 7 8\nmemory "), "{}", states[2].text);
}

#[test]
fn sending_to_oneself_is_allowed() {
    let states = play("a ticket to oneself");
    assert_eq!((registers(&states[1]), states[1].waiting(0)), ((7, 0, 0), &[7][..]));
    assert_eq!((registers(&states[2]), states[2].waiting(0)), ((7, 2, 0), &[][..]));
}

#[test]
fn a_stopped_partition_receives() {
    let states = play("a ticket to a stopped partition");
    assert_eq!((registers(&states[2]), states[2].waiting(1)), ((7, 1, 0), &[7][..]));
    let taker = &states[5].house.guests[1];
    assert_eq!((taker.registers[1], taker.registers[3]), (7, 0));
}

#[test]
fn a_partition_from_the_count_on_is_none() {
    let refused = &play("a ticket to no partition")[1..];
    assert_eq!(refused.len(), 8);
    let refused_of_eight = &play("a ticket to the eighth partition, and to no ninth")[2..];
    for after in refused.iter().chain(refused_of_eight) {
        assert_eq!((after.register(1), after.register(3)), (7, 2));
        assert_eq!((after.pair(), after.turn().0), ((12, 16), 0));
    }
    assert!(refused.iter().all(|after| !after.text.contains("queue")));
    assert_eq!(refused_of_eight[2].waiting(7), [7]);
}

#[test]
fn a_queue_holds_32() {
    let states = play("the 32nd and the 33rd ticket");
    let full = [&tickets(31)[..], &[7]].concat();
    assert_eq!((registers(&states[1]), states[1].waiting(1)), ((7, 1, 0), &full[..]));
    assert_eq!((registers(&states[2]), states[2].waiting(1)), ((8, 1, 1), &full[..]));
    assert_eq!(states[2].pair(), (12, 16));
    let states = play("a queue filled one by one");
    assert_eq!((registers(&states[1]), states[1].waiting(1)), ((133, 1, 0), &tickets(32)[..]));
    assert_eq!((registers(&states[2]), states[2].waiting(1)), ((133, 1, 1), &tickets(32)[..]));
    assert_eq!(states[2].pair(), (4, 8));
    let own = last("a full queue of one's own");
    assert_eq!((registers(&own), own.waiting(0)), ((7, 0, 1), &tickets(32)[..]));
}

#[test]
fn tickets_of_value_0_count() {
    let states = play("tickets of value 0");
    let shown = ["queue 1 1\n", "queue 1 2\n", "queue 1 3 0 0 5\n", "queue 1 4 0 0 5\n"];
    for (after, line) in states[1..].iter().zip(shown) {
        assert!(after.text.contains(line), "{}", after.text);
    }
    let states = play("a ticket of value 0 is taken");
    let taken: Vec<(u32, u32)> =
        states[1..].iter().map(|after| (after.register(1), after.register(3))).collect();
    assert_eq!(taken, [(0, 0), (0, 0), (4, 0), (1, 3)]);
}

#[test]
fn a_take_from_an_empty_queue_changes_register_3_alone() {
    let after = last("none waiting");
    assert_eq!((registers(&after), after.pair()), ((5, 1, 3), (12, 16)));
    assert_eq!((after.waiting(1), after.turn()), (&[7][..], (0, 99)));
}

#[test]
fn the_oldest_is_taken_first() {
    let states = play("the oldest first");
    let taken: Vec<u32> = states[1..].iter().map(|after| after.register(1)).collect();
    assert_eq!(taken, [7, 8, 9, 1]);
    assert_eq!(states[1].house.queues[0].places[..3], [8, 9, 0]);
    assert_eq!((states[3].waiting(0), states[4].register(3)), (&[][..], 3));
    assert!(!states[3].text.contains("queue"), "{}", states[3].text);
}

#[test]
fn freed_places_are_used_again() {
    let states = play("freed places are used again");
    let refilled = [&tickets(32)[3..], &[0, 1, 2]].concat();
    let answers: Vec<u32> = states[4..8].iter().map(|after| after.register(3)).collect();
    assert_eq!(answers, [0, 0, 0, 1]);
    assert_eq!(states[7].waiting(0), refilled);
    let taken: Vec<u32> = states[8..].iter().map(|after| after.register(1)).collect();
    assert_eq!(taken, [&refilled[..], &[1]].concat());
    let states = play("a queue taken one by one");
    let sum = |count| tickets(count).iter().sum::<u32>();
    assert_eq!((states[1].register(4), states[1].waiting(0)), (sum(31), &[132][..]));
    assert_eq!((states[2].register(4), states[2].waiting(0)), (sum(32), &[][..]));
    assert_eq!((states[3].register(1), states[3].register(3)), (132, 3));
}

#[test]
fn tickets_cross_turns() {
    let states = play("tickets across turns");
    let sums: Vec<(u32, usize)> = states[1..]
        .iter()
        .map(|after| (after.house.guests[1].registers[4], after.waiting(1).len()))
        .collect();
    // 10 is sent; taken and added; 11 sent and taken; added, and 12 sent; eight rounds more.
    assert_eq!(sums, [(0, 1), (10, 0), (10, 0), (21, 1), (145, 1)]);
    let ring = play("tickets in a ring");
    // Each takes one more than it was sent, if it was sent any, and sends that on.
    let sent: Vec<u32> = ring[1..]
        .iter()
        .map(|after| after.house.queues[after.turn().0 as usize].places[0])
        .collect();
    assert_eq!(sent, [1, 2, 3]);
}

#[test]
fn sends_and_takes_are_plain_steps() {
    for (name, answer) in [("a send at the first step", 0), ("a take at the first step", 3)] {
        let after = last(name);
        assert_eq!((after.pair(), after.turn(), after.guest().counter), ((4, 8), (0, 99), 1));
        assert_eq!((registers(&after), after.special(ECA)), ((0, 0, answer), 0));
    }
    let slot = last("a send in a delay slot");
    assert_eq!((slot.pair(), slot.waiting(0)), ((36, 40), &[7][..]));
    for name in ["PC wraps behind a send", "PC wraps behind a take"] {
        assert_eq!(last(name).pair(), (0xFFFF_FFFC, 0));
    }
}

#[test]
fn the_turn_ends_by_its_length_only() {
    for (name, q, taken) in [
        ("a send as a turn of 1", 1, (7, 0)),
        ("a send at a turn's last step", 2, (7, 0)),
        ("a refused send at a turn's last step", 2, (0, 3)),
        ("a take at a turn's last step", 2, (0, 3)),
    ] {
        let states = play(name);
        assert_eq!(states[1].turn(), (1, q), "{name}");
        let taker = &states[2].house.guests[1];
        assert_eq!((taker.registers[1], taker.registers[3]), taken, "{name}");
    }
}

#[test]
fn the_special_registers_stay() {
    for name in [
        "tickets leave the special registers alone",
        "refused tickets leave the special registers alone",
    ] {
        for after in &play(name)[1..] {
            let specials = [u32::MAX, 77, 77, 77, 77, 77, 0, 77, 77, 1, 0, 0];
            assert_eq!(after.guest().specials, specials, "{name}");
            assert_ne!(after.shadow(3), 0, "{name}");
        }
    }
    let answers: Vec<u32> = play("refused tickets leave the special registers alone")[1..]
        .iter()
        .map(|after| after.register(3))
        .collect();
    assert_eq!(answers, [3, 2, 1]);
}

#[test]
fn in_user_mode_they_are_ordinary_traps() {
    for (name, number) in [("trap 256 in user mode", 256), ("trap 257 in user mode", 257)] {
        let after = last(name);
        assert_eq!((after.special(ECA), after.special(EDATA)), (32, number));
        assert_eq!((after.special(EDPC), after.special(EPC)), (12, 16));
        assert_eq!((after.special(MODE), after.pair(), after.turn()), (0, (0, 4), (0, 99)));
        assert_eq!((registers(&after), after.waiting(0)), ((7, 2, 0), &[5, 6][..]));
    }
}

#[test]
fn other_traps_are_ordinary() {
    let states = play("other traps send and take nothing");
    let data: Vec<u32> = states[1..].iter().map(|after| after.special(EDATA)).collect();
    let low = [255, 258, 0, 0x10100, 0x10101, 0x1100, 0x100_0101];
    let extended = [0xFE00_0100, 0xFE00_0101, 0xFFFF_FF00, 0xFFFF_FEFF];
    assert_eq!(data, [&low[..], &extended].concat());
    for after in &states[1..] {
        assert_eq!((after.special(ECA), after.turn()), (32, (0, 100)));
        assert_eq!((registers(after), after.waiting(0)), ((7, 0, 0), &[5][..]));
    }
    assert_eq!(last("trap 258 passes the turn").turn(), (1, 100));
}

#[test]
fn other_calls_leave_the_queues_alone() {
    let states = play("other calls leave the queues alone");
    let answers: Vec<u32> = states[1..].iter().map(|after| after.answer.0).collect();
    assert_eq!(answers, [0, 0, 0, 0, 0, 0, 0, 0, 10, 12, 14]);
    for after in &states[1..] {
        assert_eq!((after.waiting(0), after.waiting(1)), (&[1, 2][..], &[0, 3][..]));
    }
}

#[test]
fn boot_empties_the_queues() {
    for name in ["boot empties the queues", "a refused boot empties the queues"] {
        assert!(play(name)[1..].iter().all(|after| !after.text.contains("queue")), "{name}");
    }
}

#[test]
fn a_queue_in_use_can_be_damaged() {
    let answers: Vec<u32> =
        play("damage of a queue in use")[1..].iter().map(|after| after.answer.0).collect();
    assert_eq!(answers, [8, 8, 0, 0, 8, 8, 0]);
}

/// The example of the weighbridge has the figures that are told of it.
#[test]
fn the_bridge_and_the_settlement() {
    let source = include_str!("../../examples/bridge-tickets.source");
    let mut file = read(&source::bytes(source).unwrap()).unwrap();
    let pages: Vec<u32> = file.lists.iter().map(|list| list.len() as u32).collect();
    let (mut house, _) = House::boot(&pages, file.q, &file.lists.concat(), file.memory.len());
    let mut counts = Counts::default();
    house.run(&mut file.memory, file.steps, &mut counts).unwrap();
    let (bridge, settlement) = (&file.memory[2 * 1_024..], &file.memory[4 * 1_024..]);
    assert_eq!(settlement[0], 11_800);
    assert_eq!((bridge[0], settlement[1]), (35, 16));
    assert_eq!((counts.sends, counts.takes), ([41, 35, 0, 0], [41, 0, 0, 16]));
    assert_eq!(counts.all_interrupts(), 0);
}
