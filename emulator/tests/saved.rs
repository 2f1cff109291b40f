//! Saving the house and reading it back: what the file holds, and what readings in pieces give.

mod common;

use common::{answers, play};
use emulator::counts::Counts;
use emulator::dlx::special::TCOUNT;
use emulator::generate::{self, saved_files, scripts, Script};
use emulator::house::{numbers, House};
use emulator::memory::Engine;
use emulator::named;
use emulator::saved::{file, named_words, resume, Reading};
use emulator::script::{Command, Player, MOST_WORDS};

/// A reading of whole bytes into a memory of so many words, cut where it is told.
fn read(bytes: &[u8], words: usize, cuts: &[usize]) -> (Result<House, (u32, u64)>, Vec<u32>) {
    let counts = &mut Counts::default();
    let mut memory: Vec<u32> = (0..words as u32).map(|at| at ^ 0x5555_0000).collect();
    let mut reading = Reading::new();
    let mut from = 0;
    for &to in cuts.iter().chain([&bytes.len()]) {
        // The answer so far is the end's, if it is a refusal.
        let _ = reading.piece(&mut memory, &bytes[from..to], counts);
        from = to;
    }
    (reading.finish(counts).map_err(|refusal| numbers(Err(refusal))), memory)
}

fn emptied(house: &House) -> House {
    house.emptied()
}

fn words(bytes: &[u8]) -> Vec<u32> {
    bytes.chunks_exact(4).map(|four| u32::from_le_bytes(four.try_into().unwrap())).collect()
}

#[test]
fn the_file_byte_by_byte() {
    let (mut house, answer) = House::boot(&[2, 1], 9, &[3, 1, 2], 4_096);
    answer.unwrap();
    let memory: Vec<u32> = (0..4_096).map(|at| at * 3 + 1).collect();
    house.stop(0).unwrap();
    house.left = 5;
    let guest = &mut house.guests[1];
    guest.registers = std::array::from_fn(|at| 100 * at as u32);
    guest.specials = std::array::from_fn(|at| 7_000 + at as u32);
    (guest.specials[6], guest.specials[9]) = (1, 0);
    (guest.dpc, guest.pc, guest.fault, guest.counter) = (44, 55, 6, 0x1_2345_6789_ABCD);
    guest.space.shadow[5] = 2 << 12 | 1 << 11;
    house.queues[1].places[..3].copy_from_slice(&[8, 0, 9]);
    house.queues[1].waiting = 3;
    assert!(!house.damaged());
    let bytes = file(&house, &memory);
    assert_eq!(bytes.len(), 22 + 214 + 210 + 6 + 18 + 4 * 4_106 + 6);
    assert_eq!(bytes[..6], [16, 0, 0, 0, 5, 0]);
    assert_eq!(words(&bytes[6..22]), [9, 4_096, 1, 5]);
    assert_eq!(bytes[22..28], [208, 0, 0, 0, 6, 0]);
    let first = words(&bytes[28..236]);
    assert_eq!((first[33], first[47], &first[50..]), (4, 0, &[3, 1][..]));
    assert_eq!(first.iter().sum::<u32>(), 4 + 3 + 1);
    assert_eq!(bytes[236..242], [204, 0, 0, 0, 6, 0]);
    let second = words(&bytes[242..446]);
    assert_eq!(second[..32], std::array::from_fn::<u32, 32, _>(|at| 100 * at as u32));
    assert_eq!(second[32..34], [44, 55]);
    let specials = [7_000, 7_001, 7_002, 7_003, 7_004, 7_005, 1, 7_007, 7_008, 0, 7_010, 7_011];
    assert_eq!(second[34..46], specials);
    assert_eq!(second[46..], [6, 1, 0x6789_ABCD, 0x1_2345, 2]);
    assert_eq!(bytes[446..452], [0, 0, 0, 0, 7, 0]);
    assert_eq!(bytes[452..458], [12, 0, 0, 0, 7, 0]);
    assert_eq!(words(&bytes[458..470]), [8, 0, 9]);
    for number in 0..4 {
        let frame = &bytes[470 + 4_106 * number..][..4_106];
        assert_eq!(frame[..6], [4, 16, 0, 0, 3, 0]);
        let body = words(&frame[6..]);
        assert_eq!(body[0] as usize, number);
        assert_eq!(body[1..], memory[1_024 * number..][..1_024]);
    }
    assert_eq!(bytes[bytes.len() - 6..], [0, 0, 0, 0, 4, 0]);
    // A counter's two halves, and the shadow does not come back.
    let (restored, back) = read(&bytes, 4_096, &[]);
    assert_eq!((restored.unwrap(), back), (emptied(&house), memory));
}

#[test]
fn every_house_comes_back_and_has_one_file() {
    let mut houses = 0;
    for one in scripts(4, 60_000) {
        let mut player = Player::new();
        for command in &one.commands {
            player.play(command, &mut String::new(), &mut Counts::default());
        }
        if player.house.damaged() || player.lent().len() != player.house.words as usize {
            continue;
        }
        let bytes = file(&player.house, player.lent());
        let (house, memory) = read(&bytes, player.lent().len(), &[1, 22, 99, bytes.len() / 2]);
        let house = house.unwrap();
        assert_eq!((&house, &memory[..]), (&emptied(&player.house), player.lent()));
        assert_eq!(file(&house, &memory), bytes, "{}", one.name);
        houses += 1;
    }
    assert!(houses >= 30, "{houses}");
}

#[test]
fn cutting_anywhere_gives_the_same() {
    let mut answers = [0; 18];
    for (at, saved) in saved_files(3, 150).into_iter().enumerate() {
        let bytes = &saved.file.bytes;
        let words = (named_words(bytes).unwrap_or(0) as usize).min(MOST_WORDS) + at % 9 / 8;
        let whole = read(bytes, words, &[]);
        answers[whole.0.as_ref().map_or_else(|&(number, _)| number, |_| 0) as usize] += 1;
        let pieces = |size: usize| (1..bytes.len()).step_by(size).collect::<Vec<_>>();
        for size in [1, 2, 7, 1_021] {
            assert_eq!(read(bytes, words, &pieces(size)), whole, "{} by {size}", saved.file.name);
        }
    }
    assert!([0, 9, 17].iter().all(|&number: &usize| answers[number] >= 10), "{answers:?}");
}

/// The first wrong record of a whole file, by its records alone: none if all are right.
fn first_wrong(bytes: &[u8]) -> Option<usize> {
    let mut kinds = Vec::new();
    let mut at = 0;
    loop {
        let rest = &bytes[at..];
        let words_of = |body: &[u8]| words(body);
        let (Some(length), Some(kind)) = (rest.get(..4), rest.get(4..6)) else {
            return Some(at);
        };
        let length = u32::from_le_bytes(length.try_into().unwrap()) as usize;
        let kind = u16::from_le_bytes(kind.try_into().unwrap());
        let Some(body) = rest.get(6..6 + length) else {
            return Some(at);
        };
        let count = |kind: u16| kinds.iter().filter(|&&other| other == kind).count();
        let frames = words(&bytes[6..]).get(1).copied().unwrap_or(0) as usize / 1_024;
        let fours = length.is_multiple_of(4);
        let right = match kind {
            5 => kinds.is_empty() && length == 16,
            6 => {
                let place = matches!(kinds.last(), Some(5 | 6)) && count(6) < 8;
                place && fours && (200..=1_224).contains(&length) && words_of(body)[47] <= 1
            }
            7 => {
                matches!(kinds.last(), Some(6 | 7)) && count(7) < count(6) && fours && length <= 128
            }
            3 => {
                let place = matches!(kinds.last(), Some(7 | 3)) && count(7) == count(6);
                place
                    && length == 4_100
                    && count(3) < frames
                    && words_of(body)[0] as usize == count(3)
            }
            4 => {
                let place = matches!(kinds.last(), Some(7 | 3)) && count(7) == count(6);
                place && length == 0 && count(3) == frames
            }
            _ => false,
        };
        if !right {
            return Some(at);
        }
        at += 6 + length;
        kinds.push(kind);
        if kind == 4 {
            return (at < bytes.len()).then_some(at);
        }
    }
}

/// 17 names the first wrong record; where all are right only damage is left, at kind 4.
#[test]
fn readings_name_the_first_wrong_record() {
    let random = saved_files(5, 400).into_iter().map(|saved| saved.file);
    let named = named::saved_files().into_iter().map(|saved| saved.file);
    let (mut wrong, mut damaged) = (0, 0);
    for one in named.chain(random) {
        let words = named_words(&one.bytes).unwrap_or(0) as usize;
        if words > MOST_WORDS {
            continue;
        }
        let answer = read(&one.bytes, words, &[]).0.map(|_| ());
        match first_wrong(&one.bytes) {
            Some(at) => {
                assert_eq!(answer, Err((17, at as u64)), "{}", one.name);
                wrong += 1;
            }
            None if answer.is_err() => {
                assert_eq!(answer, Err((17, one.bytes.len() as u64 - 6)), "{}", one.name);
                damaged += 1;
            }
            None => {}
        }
    }
    assert!(wrong >= 150 && damaged >= 10, "{wrong} {damaged}");
}

/// The same over all pieces of the named scripts: `wrong records` and `a byte changed` too.
#[test]
fn named_readings_name_the_first_wrong_record() {
    let mut met = [0; 3];
    for one in common::scripts() {
        let several = ["wrong records", "a byte changed", "damage that", "cut in two"];
        if !several.iter().any(|name| one.name.starts_with(name)) {
            continue;
        }
        let mut player = Player::new();
        let mut given = Vec::new();
        for command in &one.commands {
            let answer = player.play(command, &mut String::new(), &mut Counts::default());
            match command {
                Command::Piece { bytes, new } => {
                    if *new {
                        given.clear();
                    }
                    given.extend(bytes);
                }
                Command::Finish => {
                    let answer = numbers(answer.unwrap());
                    let expected = match first_wrong(&given) {
                        Some(at) => (17, at as u64),
                        None if answer.0 == 17 => (17, given.len() as u64 - 6),
                        None => (0, 0),
                    };
                    met[usize::from(expected.0 == 17) + usize::from(answer.0 == 9)] += 1;
                    // Another size comes as soon as kind 5 is there, and so before what is wrong behind it.
                    let size = named_words(&given) != Some(player.lent().len() as u32);
                    let early = first_wrong(&given).is_some_and(|at| at == 0);
                    let expected = if size && !early { (9, 0) } else { expected };
                    assert_eq!(answer, expected, "{}", one.name);
                }
                _ => {}
            }
        }
    }
    assert!(met[0] >= 500 && met[1] >= 200, "{met:?}");
}

#[test]
fn a_save_is_the_file_from_an_offset_on() {
    let states = play("a save in pieces");
    let whole = common::scripts().iter().find(|one| one.name == "a save").unwrap();
    let mut player = Player::new();
    for command in &whole.commands {
        player.play(command, &mut String::new(), &mut Counts::default());
    }
    let bytes = file(&player.house, player.lent());
    let written: Vec<&str> = states
        .iter()
        .filter_map(|after| after.text.lines().find(|line| line.starts_with("written ")))
        .map(|line| line.split(' ').nth(1).unwrap())
        .collect();
    let rest = (bytes.len() - 60_000).to_string();
    assert_eq!(written, ["20000", "20000", "20000", &rest, "7", "7", "6", "1"]);
    // The output's first bytes, and what was there before behind them.
    let mut output: Vec<u8> = (0..300u32).map(|at| (at % 251) as u8).collect();
    let offset = bytes.len() as u64 - 9;
    let count = player.house.save(player.lent(), offset, &mut output, &mut Counts::default());
    assert_eq!(count, Ok(9));
    assert_eq!(output[..9], bytes[bytes.len() - 9..]);
    assert!((9..300).all(|at| output[at] == (at % 251) as u8));
}

#[test]
fn a_save_writes_at_most_64_kib() {
    let texts: Vec<String> =
        play("a save is a piece of 64 KiB").into_iter().map(|after| after.text).collect();
    let written = |text: &String| {
        let line = text.lines().last().filter(|line| line.starts_with("written "))?;
        line.split(' ').nth(1)?.parse().ok()
    };
    let written: Vec<usize> = texts.iter().filter_map(written).collect();
    assert_eq!(written[..5], [65_535, 65_536, 65_536, 65_536, 65_536]);
    assert!(written[5] > 0 && written[5] < 1_000, "{written:?}");
}

#[test]
fn saves_are_refused_by_8_then_9() {
    assert_eq!(answers("a save of no house"), [(8, 0), (8, 0)]);
    let last = answers("saves refused");
    assert_eq!(last[last.len() - 5..], [(9, 0), (9, 0), (8, 0), (8, 0), (0, 0)]);
}

#[test]
fn readings_of_nothing_end_at_0() {
    assert_eq!(answers("a reading of nothing"), [(17, 0), (17, 0), (8, 0)]);
    assert_eq!(answers("a reading of no bytes"), [(0, 0), (0, 0), (17, 0)]);
    assert_eq!(answers("a reading goes on from nothing"), [(0, 0), (0, 0), (17, 0)]);
    assert_eq!(answers("clear begins a new reading"), [(0, 0), (0, 0), (0, 0)]);
}

#[test]
fn nine_comes_as_soon_as_kind_5_is_read() {
    let (fine, size) = ((0, 0), (9, 0));
    let at = |name: &str| answers(name);
    assert_eq!(at("9 as soon as kind 5 is read"), [fine, fine, fine, fine, size, size, size]);
    assert_eq!(at("another size before kind 5 is whole"), [fine, fine, fine, fine]);
    assert_eq!(at("another size when kind 5 is whole"), [fine, size, size, size]);
    assert_eq!(at("another size when kind 5 was whole"), [fine, size, size, size]);
    for name in [
        "another size for a piece of no bytes",
        "another size in a frame",
        "another size for a frame's last byte",
        "another size between two frames",
        "another size at kind 4",
        "another size behind kind 4",
    ] {
        assert_eq!(at(name), [fine, size, size, size], "{name}");
    }
    assert_eq!(at("another size at the end of the input"), [fine, fine, (0, 1)]);
    assert_eq!(at("another size with a wrong record"), [fine, size, size]);
    assert_eq!(at("another size with an extra byte"), [fine, size, size]);
    assert_eq!(at("a wrong record before another size"), [(17, 22); 3]);
}

/// A refused piece leaves the memory as it was lent; what was right before stays.
#[test]
fn refused_readings_keep_the_right_frames() {
    let states = play("another size in a frame");
    assert!(states[0].memory.iter().chain(&states[0].frame_0).all(|&word| word == 3));
    assert_eq!(states[1].memory.len(), 3_072);
    assert!(states[3].memory.iter().chain(&states[3].frame_0).all(|&word| word == 3));
    assert_eq!(states[3].house, House::NONE);
    let states = play("a wrong record behind right frames");
    let end = states.last().unwrap();
    assert!((0..1_024).all(|at| end.frame_0[at as usize] == 0x0101_0000 + at));
    assert!(states[4].answer == (17, 4_352) && end.house == House::NONE);
    let states = play("a frame that is cut short");
    let finished: Vec<_> = states.iter().map(|after| after.answer).collect();
    let answers = [(0, 0), (0, 0), (17, 4_352), (0, 0), (17, 246), (0, 0), (17, 4_352)];
    assert_eq!(finished, answers);
    assert!(states[0].frame_0.iter().all(|&word| word == 3));
    assert!(states[1].frame_0[7] == 0x0101_0007 && states[1].memory.iter().all(|&word| word == 3));
}

#[test]
fn a_refusal_stays() {
    let refused = answers("a refused reading goes on");
    assert_eq!(refused, [(0, 0), (17, 232), (17, 232), (17, 232), (17, 232), (0, 0), (0, 0)]);
    let extra = answers("extra bytes behind a damaged house");
    let expected = [(0, 0), (17, 8_458), (0, 0), (0, 0), (17, 8_464), (17, 8_464), (17, 8_464)];
    assert_eq!(extra, expected);
}

#[test]
fn damage_is_told_at_kind_4() {
    let all = answers("damage that a file can carry");
    let finished: Vec<(u32, u64)> = all.chunks(2).map(|both| both[1]).collect();
    // Those just inside the limits.
    let sound = [0, 4, 7, 11, 15, 21, 22, 34, 36, 39];
    let pieces = all.chunks(2).all(|both| both[0] == (0, 0));
    for (at, answer) in finished.iter().enumerate() {
        assert_eq!(answer.0 == 0, sound.contains(&at), "{at}: {answer:?}");
    }
    assert!(pieces && finished.len() == 43, "{}", finished.len());
    assert_eq!(finished[1], (17, 8_458));
}

#[test]
fn a_house_goes_on_as_if_it_had_not_stopped() {
    let (back, never) = (play("a house comes back"), play("a house that goes on"));
    for (one, other) in back.iter().rev().zip(never.iter().rev()).take(2) {
        assert_eq!(emptied(&one.house), emptied(&other.house));
        assert_eq!((one.answer, &one.memory), (other.answer, &other.memory));
    }
    let guest = &never.last().unwrap().house.guests[1];
    assert!(guest.specials[TCOUNT] > 0 && guest.counter > 0);
}

/// A script of this kind from each save on, beside a house that never stops.
#[test]
fn random_houses_go_on_as_if_they_had_not_stopped() {
    let (mut restored, mut runs) = (0, 0);
    for one in scripts(1, 1_000_000).iter().filter(|one| one.name.starts_with("saves ")) {
        let found = beside(one);
        restored += found.0;
        runs += found.1;
    }
    assert!(restored >= 60 && runs >= 100, "{restored} {runs}");
}

/// Plays a script; after a reading that gives the house that was saved last, another player goes on
/// from that save, with its shadows. Tells the readings and the runs that were equal.
fn beside(script: &Script) -> (u64, u64) {
    let mut player = Player::new();
    let (mut saved, mut never): (Option<Player>, Option<Player>) = (None, None);
    let (mut restored, mut runs) = (0, 0);
    for command in &script.commands {
        let answer = player.play(command, &mut String::new(), &mut Counts::default());
        match command {
            Command::Save { offset: 0, .. } if answer == Some(Ok(0)) => {
                saved = Some(player.clone());
                continue;
            }
            Command::Save { .. } => continue,
            Command::Piece { .. } | Command::Fill { .. } | Command::Length { .. } => {
                never = None;
                continue;
            }
            Command::Finish => {
                let same = |saved: &&Player| {
                    emptied(&saved.house) == player.house && saved.lent() == player.lent()
                };
                never = saved.as_ref().filter(same).filter(|_| answer == Some(Ok(0))).cloned();
                restored += u64::from(never.is_some());
                continue;
            }
            _ => {}
        }
        let Some(never) = &mut never else {
            continue;
        };
        let other = never.play(command, &mut String::new(), &mut Counts::default());
        assert_eq!(answer, other, "{}: {command}", script.name);
        assert_eq!(emptied(&player.house), emptied(&never.house), "{}: {command}", script.name);
        assert_eq!(player.lent(), never.lent(), "{}: {command}", script.name);
        runs +=
            u64::from(matches!(command, Command::Run { .. }) && answer.is_some_and(|a| a.is_ok()));
    }
    (restored, runs)
}

#[test]
fn resuming_is_running_on() {
    let files = generate::whole_files(2, 20);
    let mut done = 0;
    for one in &files {
        let night =
            emulator::housefile::night_saved(&one.bytes, Engine::Shadowed, &mut Counts::default());
        let Some(bytes) = night.saved else {
            continue;
        };
        let twice = |steps: [u64; 2]| {
            let first =
                resume(&bytes, steps[0], Engine::Shadowed, &mut Counts::default()).saved.unwrap();
            resume(&first, steps[1], Engine::Walking, &mut Counts::default())
        };
        assert_eq!(twice([0, 0]).saved, Some(bytes.clone()));
        assert_eq!(twice([0, 0]).text, night.text);
        assert_eq!(twice([300, 33]), twice([1, 332]));
        assert_ne!(twice([300, 33]).text, night.text);
        done += 1;
    }
    assert!(done >= 10, "{done}");
}

#[test]
fn a_saved_file_may_have_1024_frames() {
    let text = |name: &str| {
        let files = named::saved_files();
        let one = files.into_iter().find(|one| one.file.name == name).unwrap();
        resume(&one.file.bytes, one.steps, Engine::Shadowed, &mut Counts::default()).text
    };
    assert!(text("1,024 frames").starts_with("partition pages steps"));
    assert_eq!(text("1,025 frames"), "refused 9 0\n");
    assert_eq!(text("a size that no memory has"), "refused 9 0\n");
    assert_eq!(text("no bytes"), "refused 17 0\n");
    assert_eq!(text("a house file"), "refused 17 0\n");
    assert_eq!(text("cut behind the first record"), "refused 17 22\n");
}
