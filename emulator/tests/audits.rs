//! Shadow audits (request 9 of 02).

mod common;

use common::{last, play, After};
use emulator::counts::Counts;
use emulator::housefile::night;
use emulator::memory::shadow_entry;
use emulator::named;
use emulator::reads::audit;

/// The call's answer and the stale entry that an audit told, if any.
fn told(after: &After) -> ((u32, u64), Option<&str>) {
    (after.answer, after.text.lines().last().and_then(|line| line.strip_prefix("stale ")))
}

/// Audit, mend and audit at a script's end: the first stale entry and how many there were.
fn looked(name: &str) -> (String, u64) {
    let states = play(name);
    let [first, mend, second] = &states[states.len() - 3..] else { panic!("three calls") };
    let (answer, entry) = told(first);
    assert_eq!(answer, (0, 0), "{name}");
    assert_eq!((mend.answer.0, told(mend).1), (0, None), "{name}");
    assert_eq!(told(second), ((0, 0), Some("none")), "{name}");
    (entry.expect("an audit tells").to_string(), mend.answer.1)
}

/// The valid entries of partition 0.
fn valid(after: &After) -> Vec<usize> {
    (0..1_024).filter(|&px| after.shadow(px) != 0).collect()
}

#[test]
fn a_right_entry_is_never_stale() {
    for name in [
        "an audit of a fresh house",
        "an audit of right entries",
        "an audit of entries that steps filled",
        "an audit of a protected entry",
        "an audit where other bits of an entry are set",
        "an audit right below PTL",
        "an audit of entry 1,023",
        "an audit with the largest PTL",
        "an audit after the guest's own stores",
        "an audit after movi2s to PTL",
        "an audit after movi2s to PTO",
        "an audit after the call that empties",
        "an audit of a table in the only page",
        "a table edited and edited back",
        "a table edited where no entry is filled",
        "data edited by hand",
        "a mend of a full shadow",
    ] {
        assert_eq!(looked(name), ("none".into(), 0), "{name}");
    }
    assert_eq!(valid(&last("an audit of right entries")), [0, 1, 2]);
    assert_eq!(valid(&last("an audit of entries that steps filled")), [0, 1, 2]);
    assert_eq!(valid(&last("an audit of entry 1,023")), [1_023]);
    assert_eq!(valid(&last("a mend of a full shadow")).len(), 1_024);
}

#[test]
fn every_wrong_entry_is_stale() {
    for name in [
        "stale: another frame",
        "stale: protected, and the table is not",
        "stale: not protected, and the table is",
        "stale: another frame and protection",
        "stale: at PTL",
        "stale: an entry that is not valid",
        "stale: an entry of 0",
        "stale: a page that is not there",
        "stale: the last page number",
        "stale: in system mode",
        "stale: in a stopped partition",
    ] {
        assert_eq!(looked(name), ("0 2".into(), 1), "{name}");
        assert_eq!(valid(&last(name)), [0, 1], "{name}");
    }
    for name in ["stale: entry 1,023 at PTL", "stale: entry 1,023"] {
        assert_eq!(looked(name), ("0 1023".into(), 1), "{name}");
        assert_eq!(valid(&last(name)), [0, 1, 2], "{name}");
    }
    for name in [
        "stale: no table",
        "stale: the table is outside",
        "stale: the table's address does not wrap",
        "a table wiped by hand",
    ] {
        assert_eq!(looked(name), ("0 0".into(), 3), "{name}");
        assert!(valid(&last(name)).is_empty(), "{name}");
    }
}

#[test]
fn it_tells_what_is_right_now() {
    let name = "a table edited behind a filled entry";
    let states = play(name);
    assert_eq!(told(&states[2]), ((0, 0), Some("0 2")));
    assert_eq!(told(&states[3]), ((0, 1), None));
    assert_eq!(told(&states[6]), ((0, 0), Some("none")));
    // The load goes by the table again.
    assert_eq!((states[5].register(3), states[5].shadow(2)), (77, shadow_entry(1, 0)));
    assert_eq!(looked("frames that change their places"), ("0 0".into(), 2));
    assert_eq!(valid(&last("frames that change their places")), [1]);
    assert_eq!(looked("PTL poked"), ("0 1".into(), 2));
    let states = play("a wrong entry in use, and mended");
    assert_eq!([1, 3].map(|at: usize| states[at].register(3)), [77, 88]);
    assert_eq!((states[2].answer, told(&states[4]).1), ((0, 1), Some("none")));
}

#[test]
fn the_first_is_by_partition_then_page() {
    assert_eq!(looked("stale: the first page"), ("0 3".into(), 3));
    assert_eq!(looked("stale: the first partition"), ("0 1023".into(), 2));
    assert_eq!(looked("stale: a later partition"), ("1 9".into(), 2));
    assert_eq!(looked("stale: the eighth partition"), ("7 1023".into(), 1));
    assert_eq!(looked("stale: every partition"), ("0 0".into(), 8));
    assert_eq!(looked("stale: right entries come before"), ("0 9".into(), 1));
    assert_eq!(looked("mends of several partitions"), ("0 1".into(), 5));
}

#[test]
fn a_mend_empties_exactly_the_stale_ones() {
    assert_eq!(looked("a mend of the end of a full shadow"), ("0 1000".into(), 24));
    let left = valid(&last("a mend of the end of a full shadow"));
    assert_eq!(left, (0..1_000).collect::<Vec<_>>());
    assert_eq!(looked("a mend of a whole shadow"), ("0 0".into(), 1_024));
    assert_eq!(looked("a mend of every second entry"), ("0 0".into(), 512));
    let left = valid(&last("a mend of every second entry"));
    assert_eq!(left, (0..512).map(|at| 2 * at + 1).collect::<Vec<_>>());
}

#[test]
fn neither_changes_anything_else() {
    let states = play("a mend leaves all else");
    // After the boot: run 0, audit, run 0, mend, run 0, mend, run 0.
    let body = |at: usize| {
        let (_, rest) = states[at].text.split_once('\n').expect("lines");
        rest.replace("stale 0 2\n", "").to_string()
    };
    assert_eq!(told(&states[2]), ((0, 0), Some("0 2")));
    assert_eq!((states[4].answer, states[6].answer), ((0, 1), (0, 0)));
    assert_eq!((body(1), body(1)), (body(2), body(3)));
    assert!(body(1).contains("\nshadow 0:6144 2:10240\n"), "{}", body(1));
    let mended = body(1).replace("\nshadow 0:6144 2:10240\n", "\nshadow 0:6144\n");
    assert!([4, 5, 6, 7].iter().all(|&at| body(at) == mended));
    assert_eq!(last("a mend while none runs").answer, (0, 0));
}

#[test]
fn both_refuse_8_then_9() {
    for (name, number) in [
        ("an audit of no house", 8),
        ("an audit after a refused boot", 8),
        ("an audit of a damaged house", 8),
        ("an audit of a damaged entry", 8),
        ("an audit of an entry of a partition that is not there", 8),
        ("an audit with another memory", 9),
        ("an audit with a longer memory", 9),
        ("an audit of a damaged house with another memory", 8),
    ] {
        let states = play(name);
        for after in &states[states.len() - 2..] {
            assert_eq!(told(after), ((number, 0), None), "{name}");
            assert!(after.text.contains("\nmemory "), "{name}");
        }
    }
}

/// A house that only calls have changed has no stale entry, so the program tells 0 for each partition.
#[test]
fn the_program_tells_each_partition() {
    let mut done = 0;
    for file in named::files() {
        let report = night(&file.bytes, &mut Counts::default());
        let text = audit(&file.bytes, &mut Counts::default());
        if report.starts_with("refused ") {
            assert_eq!(text, report, "{}", file.name);
            continue;
        }
        done += 1;
        let partitions = report.lines().count() - 1;
        let lines = (0..partitions).map(|partition| format!("{partition} 0\n"));
        assert_eq!(text, lines.collect::<String>(), "{}", file.name);
    }
    assert!(done >= 20, "{done}");
}

#[test]
fn stale_entries_are_counted_for_each_partition() {
    let states = play("mends of several partitions");
    let before = &states[states.len() - 3];
    let memory = [&before.frame_0[..], &before.memory].concat();
    assert_eq!(before.house.stale_counts(&memory), Ok(vec![2, 3]));
    assert_eq!(before.house.stale_counts(&memory[1..]).map_err(|no| no.number()), Err(9));
    let after = &states[states.len() - 1];
    assert_eq!(after.house.stale_counts(&memory), Ok(vec![0, 0]));
}
