//! Which fault applied, and what the latest is (request 2 of 02).

mod common;

use std::fs;

use common::{last, play};
use emulator::counts::Counts;
use emulator::dlx::special::ECA;
use emulator::house::House;
use emulator::housefile::night;
use emulator::memory::VALID;
use emulator::{named, source};

/// The latest fault after each call behind the boot.
fn faults(name: &str) -> Vec<u32> {
    play(name)[1..].iter().map(|after| after.fault()).collect()
}

/// ECA after each call behind the boot.
fn causes(name: &str) -> Vec<u32> {
    play(name)[1..].iter().map(|after| after.special(ECA)).collect()
}

#[test]
fn each_fault_has_its_number() {
    assert_eq!(faults("no fault"), [0, 0, 0]);
    for (number, names) in [
        (1, &["fault 1", "fault 1 with no table at all"][..]),
        (2, &["fault 2", "fault 2 at the last page"]),
        (3, &["fault 3", "fault 3, unwrapped"]),
        (4, &["fault 4", "fault 4 of an entry of 0"]),
        (5, &["fault 5", "fault 5 of the last page number"]),
        (7, &["fault 7", "fault 7 at the last word", "fault 7 without a table"]),
    ] {
        for name in names {
            assert_eq!((faults(name), causes(name)), (vec![number; 3], vec![16, 16, 8]), "{name}");
        }
    }
    // The load passes; so does the fetch, of a word that is ill.
    assert_eq!((faults("fault 6"), causes("fault 6")), (vec![0, 6, 6], vec![0, 16, 2]));
}

#[test]
fn the_first_that_applies_counts() {
    for (name, number) in [
        ("1 before 2", 1),
        ("1 before 3", 1),
        ("1 before 4", 1),
        ("1 before 5", 1),
        ("1 before 6", 1),
        ("2 before 3", 2),
        ("2 before 4", 2),
        ("2 before 5", 2),
        ("4 before 5", 4),
        ("4 before 6", 4),
        ("5 before 6", 5),
    ] {
        assert_eq!((faults(name), causes(name)), (vec![number; 3], vec![16, 16, 8]), "{name}");
    }
}

#[test]
fn a_hit_can_only_be_protected() {
    for name in [
        "a hit where 1 would apply",
        "a hit where 3 would apply",
        "a hit where 4 would apply",
        "a hit where 5 would apply",
    ] {
        assert_eq!((faults(name), causes(name)), (vec![0, 6, 6], vec![0, 16, 2]), "{name}");
    }
    assert_eq!(faults("a hit without protection"), [0, 0, 0]);
    let states = play("a fill and a hit both fault by 6");
    assert_eq!((states[1].fault(), states[1].shadow(2) & VALID), (6, VALID));
    assert_eq!(states[2].fault(), 6);
}

#[test]
fn bytes_half_words_and_register_0_fault_like_words() {
    assert_eq!(faults("parts fault by number, too"), [6, 1, 6, 7, 7]);
    assert_eq!(faults("a load into register 0 has its fault"), [4, 7]);
}

#[test]
fn what_is_no_fault_keeps_the_latest() {
    for (name, expected) in [
        ("plain steps keep the latest fault", &[0, 0, 0, 0, 0, 0][..]),
        ("translated steps keep the latest fault", &[0, 0, 0]),
        ("other causes keep the latest fault", &[2, 32, 64, 4, 4, 4, 4]),
        ("other causes of user mode keep the latest fault", &[2, 32, 4, 4]),
        ("special registers keep the latest fault", &[0; 8]),
    ] {
        assert_eq!(causes(name), expected, "{name}");
        assert!(faults(name).iter().all(|&fault| fault == 4), "{name}: {:?}", faults(name));
    }
}

#[test]
fn a_later_fault_takes_its_place() {
    assert_eq!(faults("the latest fault is the last one"), [6, 7, 5, 1, 6]);
    assert_eq!(faults("a fault in the handler of a fault"), [4, 7]);
    assert_eq!(faults("a fetch's fault and a load's"), [1, 4]);
}

#[test]
fn each_partition_has_its_own() {
    let all: Vec<[u32; 3]> = play("each partition has its own")[1..]
        .iter()
        .map(|after| std::array::from_fn(|partition| after.house.guests[partition].fault))
        .collect();
    assert_eq!(all, [[7, 0, 0], [7, 1, 0], [7, 1, 0]]);
}

#[test]
fn boot_alone_forgets_it() {
    let states = play("calls keep the latest fault");
    for after in &states[2..] {
        assert_eq!((after.fault(), after.house.guests[1].fault), (7, 5));
    }
    let answers: Vec<u32> = states[2..].iter().map(|after| after.answer.0).collect();
    assert_eq!(answers, [0, 0, 0, 0, 0, 0, 0, 0, 14, 10, 12, 9]);
    let states = play("boot forgets the latest fault");
    assert_eq!(states[1].fault(), 7);
    assert!(states[2..].iter().all(|after| after.fault() + after.house.guests[1].fault == 0));
    assert_eq!(last("a refused boot has no fault").house, House::NONE);
}

#[test]
fn above_7_and_in_an_unused_partition_it_is_damage() {
    let states = play("the numbers of a latest fault");
    let answers: Vec<u32> = states[1..].iter().map(|after| after.answer.0).collect();
    assert_eq!(answers, [0, 0, 0, 0, 0, 0, 0, 0, 8, 8, 8, 8, 8, 8]);
    let states = play("the latest fault of an unused partition");
    let answers: Vec<u32> = states[2..].iter().map(|after| after.answer.0).collect();
    assert_eq!(answers, [8, 0, 8, 0, 8, 0, 8, 0]);
}

/// The last column of the report, a number for each partition.
fn column(bytes: &[u8]) -> Vec<u32> {
    let text = night(bytes, &mut Counts::default());
    let (head, lines) = text.split_once('\n').expect("a report");
    assert_eq!(head, "partition pages steps mode dpc pc fault");
    lines.lines().map(|line| line.rsplit(' ').next().unwrap().parse().unwrap()).collect()
}

#[test]
fn the_examples_end_with_each_fault() {
    for number in 1..=7 {
        let root = env!("CARGO_MANIFEST_DIR");
        let path = format!("{root}/../examples/fault-{number}.source");
        let source = fs::read_to_string(path).expect("an example");
        assert_eq!(column(&source::bytes(&source).expect("a right source")), [number]);
    }
}

#[test]
fn the_report_has_it_in_its_last_column() {
    let files = named::files();
    let of = |name: &str| column(&files.iter().find(|file| file.name == name).unwrap().bytes);
    for number in 1..=6 {
        assert_eq!(of(&format!("report of fault {number}")), [number]);
    }
    assert_eq!(of("report of no fault"), [0]);
    assert_eq!(of("report of fault 7 and of none"), [7, 0]);
}
