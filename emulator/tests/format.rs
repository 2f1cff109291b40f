//! The script format and the text, as FORMAT.md gives them.

use emulator::counts::Counts;
use emulator::generate;
use emulator::script::{digest, play, read, write, Command, Player, MOST_WORDS, PATTERN};

fn text(bytes: &[u8]) -> String {
    play(bytes, &mut Counts::default())
}

/// The bytes of words.
fn words(words: &[u32]) -> Vec<u8> {
    words.iter().flat_map(|word| word.to_le_bytes()).collect()
}

#[test]
fn the_example_of_the_format() {
    let script = words(&[
        8,
        2048,
        0,
        0, // length: two frames
        7,
        1024,
        0x2001_0005,
        0, // poke word 1024
        7,
        1025,
        0xAC01_0008,
        0, // poke word 1025
        1,
        1,
        2,
        1,
        1,
        1, // boot: one partition, q 2, one frame; page count 1; frame 1
        2,
        3,
        0,
        0, // run 3
        6,
        0,
        8,
        2,
        1,
        0, // read one word at byte address 8 of partition 0
    ]);
    let zeros = " 0".repeat(30);
    let memory = |words: &[u32]| {
        let mut memory = vec![0; 1024];
        memory.extend(words);
        memory.resize(2048, 0);
        format!("memory 2048 {}", digest(&memory))
    };
    let before = memory(&[0x2001_0005, 0xAC01_0008]);
    let after = memory(&[0x2001_0005, 0xAC01_0008, 5]);
    let house = "house 1 2 2048 0 1 1 0 0 0 0 0 0 0\n\
                 partition 0 1 3 0 4 0 0 2 12 8 0 0 0 0 0 0 0 0\n";
    let rest = format!("registers 0 5{zeros}\nframes 1\nshadow\n{after}\n");
    let expected = format!(
        "call boot -> 0 0\n\
         house 1 2 2048 0 2 1 0 0 0 0 0 0 0\n\
         partition 0 1 0 0 4 0 0 0 0 0 0 0 0 0 0 0 0 0\n\
         registers 0 0{zeros}\nframes 1\nshadow\n{before}\n\
         call run -> 0 3\n{house}{rest}\
         call read -> 0 1\n{house}{rest}output {} 5\n",
        digest(&[5, PATTERN + 1])
    );
    assert_eq!(text(&script), expected);
}

#[test]
fn the_digest_counts_every_word() {
    assert_eq!(digest(&[]), 0);
    assert_eq!(digest(&[0]), 1);
    assert_eq!(digest(&[0, 0]), 6_364_136_223_846_793_006);
    assert_eq!(digest(&[7, 9]), 8u64.wrapping_mul(6_364_136_223_846_793_005).wrapping_add(10));
}

#[test]
fn wrong_commands_end_the_script() {
    let run = [2, 0, 0, 0];
    let cases: [&[u32]; 9] = [
        &[0, 0, 0, 0],
        &[18, 0, 0, 0],
        &[14, 0, 0, 70_001],
        &[15, 16_385, 0, 0],
        &[15, 5, 0, 0, 0],
        &[1, 17, 1, 0],
        &[1, 1, 1, 4_097],
        &[6, 0, 0, 4_097, 0, 0],
        &[1, 1, 1, 1, 1],
    ];
    for case in cases {
        let bytes = words(&[&run[..], case].concat());
        assert!(text(&bytes).ends_with("\nwrong command at 16\n"), "{case:?}");
    }
    let cut = &words(&[2, 0, 0, 0, 2, 0, 0, 0])[..29];
    assert!(text(cut).ends_with("\nwrong command at 16\n"));
    assert_eq!(read(cut).1, Some(16));
}

#[test]
fn pokes_outside_the_lent_memory_are_ignored() {
    let script = |pokes: &[Command]| {
        let mut commands = vec![Command::Length { words: 2_000 }];
        commands.extend_from_slice(pokes);
        commands.extend([Command::Length { words: 65_536 }, Command::Run { steps: 0 }]);
        text(&write(&commands))
    };
    let outside = [
        Command::Poke { index: 2_000, value: 1 },
        Command::Poke { index: u32::MAX, value: 1 },
        Command::Fill { index: 2_000, count: u32::MAX, value: 1 },
        Command::Fill { index: u32::MAX, count: u32::MAX, value: 1 },
        Command::Fill { index: 5, count: 0, value: 1 },
        Command::Field { index: 10_917, value: 1 },
    ];
    assert_eq!(script(&outside), script(&[]));
    let inside = [Command::Fill { index: 1_999, count: u32::MAX, value: 1 }];
    assert_eq!(script(&inside), script(&[Command::Poke { index: 1_999, value: 1 }]));
    assert_ne!(script(&inside), script(&[]));
}

#[test]
fn queues_stand_before_the_memory() {
    let look = Command::Run { steps: 0 };
    let text = |pokes: &[(u32, u32)]| {
        let pokes = pokes.iter().map(|&(index, value)| Command::Field { index, value });
        text(&write(&pokes.chain([look.clone()]).collect::<Vec<_>>()))
    };
    let lines = |pokes: &[(u32, u32)]| {
        let text = text(pokes);
        let all = text.strip_prefix("call run -> 8 0\nhouse 0 0 0 0 0 0 0 0 0 0 0 0 0\n").unwrap();
        all.strip_suffix("memory 0 0\n").unwrap().to_string()
    };
    assert_eq!(lines(&[]), "");
    assert_eq!(lines(&[(10_685, 7), (10_687, 9), (10_910, 3)]), "queue 1 3 7 0 9\n");
    assert_eq!(lines(&[(10_910, 2)]), "queue 1 2\n");
    assert_eq!(lines(&[(10_653, 5), (10_916, 33)]), "queue 0 0 5\nqueue 7 33\n");
    let last = format!("queue 7 0{} 4294967295\n", " 0".repeat(31));
    assert_eq!(lines(&[(10_908, u32::MAX)]), last);
    // A queue is not a number of its partition: the four lines come by themselves, before it.
    let partition = lines(&[(158, 1), (10_909, 1)]);
    assert!(partition.starts_with("partition 0 0 "), "{partition}");
    assert!(partition.ends_with("frames\nshadow\nqueue 0 1\n"), "{partition}");
}

#[test]
fn the_latest_fault_and_the_timer_are_the_last_scalars() {
    let look = Command::Run { steps: 0 };
    let line = |index, value| {
        let text = text(&write(&[Command::Field { index, value }, look.clone()]));
        text.lines().nth(2).unwrap().to_string()
    };
    let zeros = |count| " 0".repeat(count);
    assert_eq!(line(13 + 15, 7), format!("partition 0{} 7 0 0", zeros(14)));
    assert_eq!(line(13 + 16, 7), format!("partition 0{} 7 0", zeros(15)));
    assert_eq!(line(13 + 17, 7), format!("partition 0{} 7", zeros(16)));
    assert_eq!(line(13 + 18 * 7 + 17, u32::MAX), format!("partition 7{} 4294967295", zeros(16)));
    assert_eq!(line(13 + 18, 5), format!("partition 1 5{}", zeros(16)));
    assert_eq!(line(13 + 12, 1), format!("partition 0{} 1 0 0 0", zeros(13)));
}

#[test]
fn audits_and_mends_are_calls() {
    let look = |op: u32| text(&words(&[8, 2_048, 0, 0, 1, 1, 2, 1, 1, 1, op, 7, 8, 9]));
    let after = |op: u32| look(op).split_once("\ncall ").unwrap().1.to_string();
    let house = look(2).split_once('\n').unwrap().1.split_once("call ").unwrap().0.to_string();
    assert_eq!(after(12), format!("audit -> 0 0\n{house}stale none\n"));
    assert_eq!(after(13), format!("mend -> 0 0\n{house}"));
    // Shadow entry 3 is valid, and the guest has no table.
    let entry = [9, 2_464, 6_144, 0, 12, 0, 0, 0, 13, 0, 0, 0];
    let stale = text(&words(&[&[8, 2_048, 0, 0, 1, 1, 2, 1, 1, 1][..], &entry].concat()));
    assert!(stale.contains("\nshadow 3:6144\nmemory 2048 "), "{stale}");
    assert!(stale.contains("\nstale 0 3\ncall mend -> 0 1\n"), "{stale}");
    assert!(!text(&words(&[12, 0, 0, 0])).contains("stale"));
}

#[test]
fn saves_and_readings_are_calls() {
    let boot = [8, 2_048, 0, 0, 1, 1, 2, 1, 1, 1];
    let of = |commands: &[u32]| text(&words(&[&boot[..], commands].concat()));
    let after = |commands: &[u32]| of(commands).rsplit_once("\ncall ").unwrap().1.to_string();
    let house = of(&[]).split_once('\n').unwrap().1.to_string();
    // The first record: q 2, 2,048 words, partition 0, 2 left.
    let turn = [16, 0, 0, 0, 5, 0, 2, 0, 0, 0, 0, 8, 0, 0, 0, 0, 0, 0, 2, 0, 0, 0];
    let written = digest(&turn);
    assert_eq!(after(&[14, 0, 0, 22]), format!("save -> 0 0\n{house}written 22 {written}\n"));
    let length = 22 + 210 + 6 + 2 * 4_106 + 6;
    let end = [0, 0, 0, 0, 4, 0].into_iter().chain((6..253).map(|at| at % 251));
    let end = digest(&end.collect::<Vec<u32>>());
    let end = format!("save -> 0 0\n{house}written 6 {end}\n");
    assert_eq!(after(&[14, length - 6, 0, 253]), end);
    let nothing = digest(&[0, 1]);
    let behind = format!("save -> 0 0\n{house}written 0 {nothing}\n");
    assert_eq!(after(&[14, 0, 1, 2]), behind);
    assert!(text(&words(&[14, 0, 0, 2])).ends_with(&format!("\nwritten 0 {nothing}\n")));
    // The same record as pieces; the words behind them count for nothing, and only 1 is a new reading.
    let first = [15, 21, 1, 9, 16, 0x0002_0005, 0x0800_0000, 0, 0x0002_0000, 0xFFFF_FF00];
    assert_eq!(after(&first), format!("piece -> 0 0\n{house}"));
    let rest = |mark| [&first[..], &[15, 1, mark, 0, 0, 16, 0, 0, 0]].concat();
    let none = "house 0 0 0 0 0 0 0 0 0 0 0 0 0\n";
    assert!(
        after(&rest(2)).starts_with(&format!("finish -> 17 22\n{none}")),
        "{}",
        after(&rest(2))
    );
    assert!(after(&rest(0)).starts_with("finish -> 17 22\n"));
    assert!(after(&rest(u32::MAX)).starts_with("finish -> 17 22\n"));
    assert!(after(&rest(1)).starts_with("finish -> 17 0\n"));
    // Another size; and a wrong head, as soon as it is there.
    let longer = [&first[..], &[8, 2_049, 0, 0, 15, 1, 0, 0, 0]].concat();
    assert!(after(&longer).starts_with("piece -> 9 0\nhouse 1 "), "{}", after(&longer));
    assert!(after(&[15, 5, 1, 0, 16, 6]).starts_with("piece -> 0 0\n"));
    assert!(after(&[15, 6, 1, 0, 16, 6]).starts_with("piece -> 17 0\n"));
}

#[test]
fn a_run_without_shadows_is_a_call() {
    let boot = [8, 2_048, 0, 0, 1, 1, 2, 1, 1, 1, 9, 2_464, 6_144, 0];
    let after = |commands: &[u32]| text(&words(&[&boot[..], commands].concat()));
    let run = after(&[17, 1, 7, 8]);
    assert!(run.contains("\ncall unshadowed -> 0 1\nhouse 1 2 2048 0 1 "), "{run}");
    assert!(run.ends_with(&after(&[13, 0, 0, 0, 2, 1, 0, 0]).rsplit_once("\nhouse ").unwrap().1));
    let none = after(&[17, 0, 0, 0]);
    assert!(none.contains("\ncall unshadowed -> 0 0\n") && !none.contains("3:6144"), "{none}");
    let refused = after(&[17, 1_000_001, 0, 0]);
    assert!(
        refused.contains("\ncall unshadowed -> 14 0\n") && refused.contains("\nshadow 3:6144\n")
    );
}

#[test]
fn shadows_have_1024_entries() {
    let look = Command::Run { steps: 0 };
    let shadow = |index| {
        let text = text(&write(&[Command::Field { index, value: 9 }, look.clone()]));
        let lines: Vec<String> = text.lines().map(String::from).collect();
        (lines[2].clone(), lines[5].clone())
    };
    let empty = |partition| format!("partition {partition}{}", " 0".repeat(17));
    assert_eq!(shadow(2_461), (empty(0), "shadow 0:9".into()));
    assert_eq!(shadow(2_461 + 1_023), (empty(0), "shadow 1023:9".into()));
    assert_eq!(shadow(2_461 + 1_024), (empty(1), "shadow 0:9".into()));
    assert_eq!(shadow(10_652), (empty(7), "shadow 1023:9".into()));
}

#[test]
fn the_memory_keeps_its_contents_and_clear_forgets_them() {
    let long = Command::Length { words: u32::MAX };
    let look = Command::Run { steps: 0 };
    let poke = Command::Poke { index: 3, value: 9 };
    let kept =
        [long.clone(), poke.clone(), Command::Length { words: 0 }, long.clone(), look.clone()];
    let plain = [long.clone(), poke.clone(), look.clone()];
    assert_eq!(text(&write(&kept)), text(&write(&plain)));
    let cleared = [long.clone(), poke, Command::Clear, look.clone()];
    assert_eq!(text(&write(&cleared)), text(&write(&[look])));
    assert!(text(&write(&plain)).contains(&format!("memory {MOST_WORDS} ")));
}

#[test]
fn a_player_can_be_made_again() {
    for one in generate::scripts(5, 1) {
        let mut player = Player::new();
        for command in &one.commands {
            player.play(command, &mut String::new(), &mut Counts::default());
        }
        let look = Command::Read { partition: 0, address: 0, count: 3, output: 5 };
        let mut text = String::new();
        player.play(&look, &mut text, &mut Counts::default());
        let mut commands = player.commands();
        commands.push(look);
        assert_eq!(play(&write(&commands), &mut Counts::default()), text, "{}", one.name);
    }
}
