//! What the random scripts and files reach, and what must hold for each of them.

use std::collections::{BTreeMap, BTreeSet};
use std::sync::OnceLock;

use emulator::counts::Counts;
use emulator::dlx::special::{SR, TCOUNT, TLOAD};
use emulator::dlx::{decode, Cause, Guest, Instruction};
use emulator::fields;
use emulator::generate::{
    files, scripts, Script, ANSWERS_EACH, AUDITS_EACH, BESIDE_EACH, ENGINES_EACH, FAULTS_EACH,
    PARTS_EACH, SAVES_EACH, SCRIPT_NUMBERS, TIMERS_EACH,
};

use emulator::house::{numbers, House, HOUSE_FRAME};
use emulator::housefile::night;
use emulator::memory::{Access, Engine};
use emulator::script::{self, Command, Player};
use emulator::tickets::{Queue, PLACES, SEND, TAKE};
use emulator::timer::Kind;

/// The default run of `emulator compare`.
const SEED: u64 = 1;
const STEPS: u64 = 1_000_000;
const FILES: usize = 2_000;

/// The random scripts of the default run, composed once for all tests.
fn default_scripts() -> &'static [Script] {
    static SCRIPTS: OnceLock<Vec<Script>> = OnceLock::new();
    SCRIPTS.get_or_init(|| scripts(SEED, STEPS))
}

/// What they meet.
fn default_counts() -> &'static Counts {
    static COUNTS: OnceLock<Counts> = OnceLock::new();
    COUNTS.get_or_init(|| counts_of(default_scripts()))
}

fn counts_of(scripts: &[Script]) -> Counts {
    let mut counts = Counts::default();
    for one in scripts {
        script::play(&script::write(&one.commands), &mut counts);
    }
    counts
}

/// What those of one kind meet.
fn counts_of_kind(kind: &str) -> Counts {
    let of_kind = default_scripts().iter().filter(|one| one.name.starts_with(kind)).cloned();
    counts_of(&of_kind.collect::<Vec<_>>())
}

#[test]
fn the_default_run_reaches_every_rule() {
    let counts = default_counts();
    let steps = counts.all_steps();
    assert!(steps >= STEPS);
    assert!(counts.steps[1] >= STEPS / 4, "user mode: {:?}", counts.steps);
    assert!(counts.all_interrupts() <= steps / 10, "{:?}", counts.interrupts);
    assert!(counts.loops <= steps / 50, "interrupt loops: {}", counts.loops);
    let of_cause = |cause: &Cause| counts.interrupts[*cause as usize];
    assert!(Cause::ALL.iter().all(|cause| of_cause(cause) >= 500), "{:?}", counts.interrupts);
    for number in SCRIPT_NUMBERS {
        assert!(counts.answers[number] >= ANSWERS_EACH, "number {number}: {:?}", counts.answers);
    }
    assert!(counts.fills.all >= 3_000 && counts.fills.above >= 1_000, "{:?}", counts.fills);
    let emptied = [counts.emptied_by_store, counts.emptied_by_special, counts.emptied_by_call];
    assert!(emptied.iter().all(|count| count.all >= 300 && count.above >= 100), "{emptied:?}");
}

#[test]
fn the_default_run_has_bytes_and_half_words() {
    let counts = default_counts();
    assert_eq!(PARTS_EACH, 5_000);
    assert!(counts.parts().iter().all(|&(_, done)| done >= PARTS_EACH), "{:?}", counts.parts());
    assert!(counts.odd_halves >= 300, "{}", counts.odd_halves);
    assert!(counts.odd_faults >= 300, "{}", counts.odd_faults);
    assert!(counts.emptied_by_part >= 1_000, "{}", counts.emptied_by_part);
}

#[test]
fn the_default_run_has_every_fault() {
    assert_eq!(FAULTS_EACH, 200);
    let programs = counts_of_kind("programs").faults();
    assert!(programs[1..].iter().all(|&came| came >= FAULTS_EACH), "{programs:?}");
    // Only a store can be protected.
    let counts = default_counts();
    let (fetches, data) = (counts.fetch_faults, counts.data_faults);
    let fetched = [1, 2, 3, 4, 5, 7].iter().all(|&number: &usize| fetches[number] >= 50);
    assert!(fetched && fetches[6] == 0, "{fetches:?}");
    assert!(data[1..].iter().all(|&came| came >= 10), "{data:?}");
}

/// PC is not DPC + 4: in programs behind a jump or branch, and where rfe comes back to that; in
/// states also where the pair was set by hand.
#[test]
fn every_cause_comes_in_delay_slots() {
    for (kind, least) in [("programs", 80), ("states", 30)] {
        let slots = counts_of_kind(kind).slots;
        let enough = |cause: &Cause| slots[*cause as usize] >= least;
        assert!(Cause::ALL.iter().all(enough), "{kind}: {slots:?}");
    }
}

#[test]
fn the_default_run_has_ticket_traffic() {
    let counts = default_counts();
    let ([sent, full, no_partition, _], [taken, .., none]) = (counts.sends, counts.takes);
    let answers = [sent, full, no_partition, taken, none];
    assert!(answers.iter().sum::<u64>() >= 20_000, "{answers:?}");
    assert!(answers.iter().all(|&count| count >= 2_000), "{answers:?}");
    assert!(counts.sends_to_oneself >= 2_000, "{}", counts.sends_to_oneself);
    assert!(counts.sends_to_stopped >= 300, "{}", counts.sends_to_stopped);
    assert!(counts.user_tickets >= 500, "{}", counts.user_tickets);
    let programs: Vec<&Script> =
        default_scripts().iter().filter(|one| one.name.starts_with("programs")).collect();
    let with_tickets = |one: &&&Script| {
        let counts = counts_of(std::slice::from_ref(**one));
        counts.sends.iter().chain(&counts.takes).sum::<u64>() > 0
    };
    let count = programs.iter().filter(with_tickets).count();
    assert!(count >= programs.len() * 9 / 10, "{count} of {}", programs.len());
}

#[test]
fn the_default_run_has_timers() {
    let timers = &default_counts().timers;
    assert_eq!((TIMERS_EACH, BESIDE_EACH), (200, 50));
    for (name, came) in Kind::NAMES.iter().zip(timers.levels) {
        assert!(came >= TIMERS_EACH, "{name}: {timers:?}");
    }
    let lower = timers.beside[1..].iter().chain(&timers.masked_beside[1..]);
    assert!(lower.clone().all(|&came| came >= BESIDE_EACH), "{timers:?}");
    assert!(timers.masked >= 10_000, "{timers:?}");
    assert!(timers.user >= 2_000 && timers.filled >= 500 && timers.emptied >= 200, "{timers:?}");
    // Also in the programs, where nothing is aimed at.
    let programs = counts_of_kind("programs").timers;
    assert!(programs.levels.iter().sum::<u64>() >= 1_000, "{programs:?}");
    assert!(programs.user >= 500 && programs.masked >= 1_000, "{programs:?}");
}

#[test]
fn the_default_run_has_audits() {
    let audits = &default_counts().audits;
    assert_eq!(AUDITS_EACH, 100);
    for (name, met) in audits.kinds() {
        assert!(met >= AUDITS_EACH, "{name}: {audits:?}");
    }
    // What only calls and guests have made is never stale.
    assert_eq!(audits.found[0], 0, "{audits:?}");
    let programs = counts_of_kind("programs").audits;
    assert!(
        programs.right[0] >= 100 && programs.found[1..].iter().sum::<u64>() >= 50,
        "{programs:?}"
    );
}

#[test]
fn the_default_run_saves_and_reads() {
    let saves = &default_counts().saves;
    for (name, met) in saves.kinds() {
        assert!(met >= SAVES_EACH, "{name}: {saves:?}");
    }
    assert!(saves.finished[0] >= 60 && saves.went_on >= 100, "{saves:?}");
    assert!(saves.saves[..3].iter().all(|&met| met >= 30), "{saves:?}");
    assert!(saves.cuts.iter().all(|&met| met >= 100), "{saves:?}");
}

#[test]
fn the_default_run_has_both_engines() {
    let engines = &default_counts().engines;
    for (name, met) in engines.kinds() {
        assert!(met >= ENGINES_EACH, "{name}: {engines:?}");
    }
    assert_eq!(engines.differ_right, 0, "{engines:?}");
    assert!(engines.right >= 50 && engines.stale_differ >= 100, "{engines:?}");
    assert!(engines.stale_agree >= 100 && engines.answers[0] >= 500, "{engines:?}");
}

/// An audit agrees with a mend behind it, and neither is refused alone.
#[test]
fn audits_and_mends_agree() {
    for one in default_scripts().iter().filter(|one| one.name.starts_with("audits")).take(20) {
        let mut player = Player::new();
        for command in &one.commands {
            if command.call_name().is_some() {
                let (mut first, mut second) = (player.clone(), player.clone());
                let mut text = String::new();
                let audit = first.play(&Command::Audit, &mut text, &mut Counts::default());
                let mend = second.play(&Command::Mend, &mut String::new(), &mut Counts::default());
                let none = text.ends_with("\nstale none\n");
                assert_eq!(audit.unwrap().is_ok(), mend.unwrap().is_ok());
                assert_eq!(none, mend == Some(Ok(0)), "{text}");
                assert_eq!((&first.house, first.lent()), (&player.house, player.lent()));
                assert_eq!(second.lent(), player.lent());
            }
            player.play(command, &mut String::new(), &mut Counts::default());
        }
    }
}

/// Most guests of the programs set their timer themselves; timers are also set by hand.
#[test]
fn most_guests_have_a_timer() {
    let (mut guests, mut with_timer, mut open) = (0, 0, 0);
    for one in default_scripts().iter().filter(|one| one.name.starts_with("programs")) {
        let mut player = Player::new();
        let own = |command: &&Command| !by_hand(command);
        for command in one.commands.iter().filter(own) {
            player.play(command, &mut String::new(), &mut Counts::default());
        }
        for guest in player.house.guests.iter().filter(|guest| guest.counter >= 200) {
            guests += 1;
            let set = guest.specials[TCOUNT] != 0 || guest.specials[TLOAD] != 0;
            with_timer += u64::from(set);
            open += u64::from(set && (guest.specials[SR] & Cause::Timer.bit() != 0));
        }
    }
    assert!(
        guests >= 300 && with_timer >= guests / 2 && open >= 50,
        "{guests} {with_timer} {open}"
    );
    let commands = default_scripts().iter().flat_map(|one| &one.commands);
    let hand = commands.filter(|command| by_hand(command)).count();
    assert!(hand >= 2_000, "{hand}");
}

/// A command that sets a timer.
fn by_hand(command: &Command) -> bool {
    let timers = |part: u32| [fields::special(part, TCOUNT), fields::special(part, TLOAD)];
    matches!(command, Command::Field { index, .. } if (0..8).any(|part| timers(part).contains(index)))
}

#[test]
fn the_default_files_reach_every_number() {
    let files = files(SEED, FILES);
    assert!(files.len() > FILES);
    let mut counts = Counts::default();
    for file in &files {
        night(&file.bytes, &mut counts);
    }
    for number in [0, 2, 3, 6, 7, 14, 15, 16] {
        assert!(counts.answers[number] >= ANSWERS_EACH, "number {number}: {:?}", counts.answers);
    }
}

#[test]
fn the_same_seed_gives_the_same_scripts() {
    let (one, two) = (scripts(3, 10_000), scripts(3, 10_000));
    assert_eq!(one.len(), two.len());
    assert!(one.iter().zip(&two).all(|(a, b)| a.commands == b.commands));
    assert_ne!(one[0].commands, scripts(4, 10_000)[0].commands);
}

#[test]
fn a_script_is_read_as_it_was_written() {
    for one in scripts(2, 10_000) {
        let (commands, wrong) = script::read(&script::write(&one.commands));
        assert_eq!((commands, wrong), (one.commands, None));
    }
}

#[test]
fn refusals_change_nothing_and_done_calls_leave_no_damage() {
    for one in scripts(2, 300_000) {
        let mut player = Player::new();
        for command in &one.commands {
            let (house, memory) = (player.house.clone(), player.lent().to_vec());
            let answer = player.play(command, &mut String::new(), &mut Counts::default());
            match answer {
                None => continue,
                // A piece writes right frames, and finish gives up the house.
                Some(_) if matches!(command, Command::Piece { .. }) => {
                    assert_eq!(player.house, house);
                }
                Some(Ok(_)) => assert!(!player.house.damaged(), "{}: {command}", one.name),
                Some(Err(_)) if matches!(command, Command::Boot { .. } | Command::Finish) => {
                    assert_eq!(player.house, House::NONE);
                    assert_eq!(player.lent(), memory);
                }
                Some(Err(_)) => {
                    assert_eq!(player.house, house);
                    assert_eq!(player.lent(), memory);
                }
            }
        }
    }
}

/// The smallest position whose frame stood earlier, frame 0 left out.
fn first_twice(frames: &[u32]) -> Option<usize> {
    (0..frames.len()).find(|&at| frames[at] != HOUSE_FRAME && frames[..at].contains(&frames[at]))
}

/// How a boot that names frame 0 is refused.
fn naming(frames: &[u32], answer: (u32, u64)) -> Option<String> {
    let zeros = frames.iter().filter(|&&frame| frame == HOUSE_FRAME).count();
    let zeros = match (zeros, answer) {
        (1, (16, _)) => "one zero",
        (2.., (16, _)) => "several zeros",
        (1.., (6, _)) => return Some("too large a frame, too".into()),
        _ => return None,
    };
    let twice = match first_twice(frames) {
        None => "no frame twice",
        Some(at) if (at as u64) < answer.1 => "a frame twice before it",
        _ => "a frame twice behind it",
    };
    Some(format!("{zeros}, {twice}"))
}

/// A place of a frame list that a poke of frame 0 meets in a house that is not damaged.
fn poked(house: &House, index: u32) -> Option<String> {
    let from = index.checked_sub(fields::frame(0, 0))?;
    let (part, place) = (from / 256, from % 256);
    if part >= house.count || house.damaged() {
        return None;
    }
    let used = place < house.guests[part as usize].space.pages;
    Some(if used { "a used place" } else { "an unused place" }.into())
}

#[test]
fn frame_0_is_named_in_every_way() {
    let mut met = BTreeMap::new();
    before_each_command(|player, command| {
        let way = match command {
            Command::Boot { pages, q, frames } => {
                naming(frames, numbers(House::boot(pages, *q, frames, player.lent().len()).1))
            }
            Command::Field { index, value: HOUSE_FRAME } => poked(&player.house, *index),
            _ => None,
        };
        if let Some(way) = way {
            *met.entry(way).or_insert(0) += 1;
        }
    });
    assert_eq!(met.len(), 9, "{met:?}");
    assert!(met.values().all(|&times| times >= 5), "{met:?}");
}

/// A name for each row of the instruction table.
fn row(instruction: Instruction) -> String {
    match instruction {
        Instruction::Compute { operation, right, .. } => {
            let kind = format!("{right:?}");
            format!("{operation:?} {}", kind.split('(').next().unwrap_or_default())
        }
        Instruction::Jump { target, link } => {
            let kind = format!("{target:?}");
            format!("jump {} {link}", kind.split('(').next().unwrap_or_default())
        }
        Instruction::Branch { on_zero, .. } => format!("branch {on_zero}"),
        Instruction::Load { width, signed, .. } => format!("load {width:?} {signed}"),
        Instruction::Store { width, .. } => format!("store {width:?}"),
        Instruction::Trap { imm: SEND } => "send".into(),
        Instruction::Trap { imm: TAKE } => "take".into(),
        other => format!("{other:?}").split(' ').next().unwrap_or_default().to_string(),
    }
}

/// Plays the default run, and looks at the player before each command.
fn before_each_command(mut look: impl FnMut(&Player, &Command)) {
    for one in default_scripts() {
        let mut player = Player::new();
        for command in &one.commands {
            look(&player, command);
            player.play(command, &mut String::new(), &mut Counts::default());
        }
    }
}

/// The same before each run.
fn before_each_run(mut look: impl FnMut(&Player)) {
    before_each_command(|player, command| {
        if matches!(command, Command::Run { .. }) {
            look(player);
        }
    });
}

#[test]
fn every_instruction_is_met_in_both_modes() {
    let mut met = BTreeSet::new();
    before_each_run(|player| {
        let next = next_instruction(player);
        met.extend(next.map(|instruction| (current(player).user(), row(instruction))));
    });
    // 13 operations in two forms, lhgi, 5 loads, 3 stores, 2 branches, 4 jumps, trap, send, take,
    // rfe, 2 moves.
    assert_eq!(met.len(), 2 * (26 + 1 + 5 + 3 + 2 + 4 + 4 + 2), "{met:?}");
}

#[test]
fn tables_have_every_length_and_stand_in_the_last_page() {
    let mut met = BTreeMap::new();
    before_each_run(|player| {
        if player.house.damaged() || !current(player).user() {
            return;
        }
        let (table, pages) = (current(player).table(), current(player).space.pages);
        let length = match table.ptl {
            0..=255 => "short",
            256..=1_022 => "longer",
            1_023 => "1,023",
            1_024 => "1,024",
            1_025 => "1,025",
            u32::MAX => "2^32 - 1",
            _ => "other",
        };
        let page = if table.pto == pages - 1 { "the last page" } else { "another page" };
        *met.entry((length, page)).or_insert(0) += 1;
    });
    for length in ["short", "longer", "1,023", "1,024", "1,025", "2^32 - 1"] {
        for page in ["the last page", "another page"] {
            assert!(met.get(&(length, page)).is_some_and(|&times| times >= 10), "{met:?}");
        }
    }
}

#[test]
fn tickets_go_to_every_kind_of_receiver() {
    let mut met = BTreeMap::new();
    before_each_run(|player| {
        let send = Some(Instruction::Trap { imm: SEND });
        if next_instruction(player) == send && !current(player).user() {
            let house = &player.house;
            let kind = match current(player).registers[2] {
                to if to == house.current => "oneself",
                to if to < house.count && !house.running[to as usize] => "a stopped one",
                to if to < house.count => "another",
                to if to == house.count => "the count",
                8 => "8",
                u32::MAX => "the largest",
                _ => "no other",
            };
            *met.entry(kind).or_insert(0) += 1;
        }
    });
    assert_eq!(met.len(), 7, "{met:?}");
    assert!(met.values().all(|&times| times >= 3), "{met:?}");
}

#[test]
fn queues_are_damaged_in_every_way() {
    let mut met = BTreeMap::new();
    before_each_run(|player| {
        let house = &player.house;
        let whole = House { queues: [Queue::EMPTY; 8], ..house.clone() };
        if house.damaged() && !whole.damaged() {
            let (used, unused) = house.queues.split_at(house.count as usize);
            let too_many = |queue: &Queue| queue.waiting as usize > PLACES;
            let ways = [
                ("too many", used.iter().any(too_many)),
                ("one too many", used.iter().any(|queue| queue.waiting as usize == PLACES + 1)),
                ("stray", used.iter().any(|queue| !too_many(queue) && queue.damaged())),
                ("unused waiting", unused.iter().any(|queue| queue.waiting > 0)),
                ("unused place", unused.iter().any(|queue| queue.places != [0; PLACES])),
            ];
            for (way, _) in ways.iter().filter(|(_, damaged)| *damaged) {
                *met.entry(*way).or_insert(0) += 1;
            }
        }
    });
    assert_eq!(met.len(), 5, "{met:?}");
}

#[test]
fn the_latest_fault_is_damaged_in_every_way() {
    let mut met = BTreeMap::new();
    before_each_command(|player, command| {
        if command.call_name().is_none_or(|name| name == "boot") {
            return;
        }
        let mut whole = player.house.clone();
        whole.guests.iter_mut().for_each(|guest| guest.fault = 0);
        if whole.damaged() {
            return;
        }
        for (partition, guest) in player.house.guests.iter().enumerate() {
            let used = partition < player.house.count as usize;
            let way = match guest.fault {
                0 => continue,
                1..=7 if used => "sound",
                8 if used => "8",
                _ if used => "above 8",
                _ => "of an unused partition",
            };
            *met.entry(way).or_insert(0) += 1;
        }
    });
    assert_eq!(met.len(), 4, "{met:?}");
    assert!(met.values().all(|&times| times >= 5), "{met:?}");
}

/// The current partition.
fn current(player: &Player) -> &Guest {
    &player.house.guests[player.house.current as usize]
}

/// The instruction that the current partition of an undamaged house does next.
fn next_instruction(player: &Player) -> Option<Instruction> {
    if player.house.damaged() {
        return None;
    }
    let guest = current(player);
    let table = guest.user().then(|| guest.table());
    let mut space = guest.space.clone();
    if !guest.dpc.is_multiple_of(4) || player.lent().len() != player.house.words as usize {
        return None;
    }
    let counts = &mut Counts::default();
    let place = space
        .locate(player.lent(), table, guest.dpc, Access::Load, Engine::Shadowed, counts)
        .ok()?;
    decode(space.word(player.lent(), place))
}
