//! Programs that take a house file or a saved one: look, audit, readout, and list with a frame.

use std::collections::HashSet;

use emulator::counts::Counts;
use emulator::dlx::special::{ECA, EDATA, MODE, TLOAD};
use emulator::generate::{reads, saved_files, whole_files, READS};
use emulator::house::House;
use emulator::housefile::night_saved;
use emulator::listing::line;
use emulator::memory::Engine;
use emulator::named;
use emulator::reads::{
    audit, decimal, house, is_saved, list_frame, look, readout, Form, Said, Words,
};
use emulator::saved::file;
use emulator::tally::{Of, Tally};

fn counts() -> Counts {
    Counts::default()
}

fn words(text: &str) -> Vec<String> {
    text.split(' ').map(String::from).collect()
}

fn read(bytes: &[u8], asked: &str) -> String {
    let said = readout(bytes, &words(asked), &mut counts());
    String::from_utf8(said.bytes).unwrap() + &said.line.unwrap_or_default()
}

fn listed(bytes: &[u8], frame: &str) -> Said {
    list_frame(bytes, frame, &mut counts())
}

fn first_example() -> Vec<u8> {
    named::files().swap_remove(0).bytes
}

/// The file that `night FILE save OUT` writes.
fn saved(bytes: &[u8]) -> Option<Vec<u8>> {
    night_saved(bytes, Engine::Shadowed, &mut counts()).saved
}

#[test]
fn a_look_at_the_first_example() {
    let text = "\
house: partitions 1, turn length 2, current 0, steps left 1
partition 0: running, system mode, pages 1, steps 3
  latest interrupt: ill, an illegal instruction, EDATA 0
  latest translation fault: none
  DPC 0, PC 4, SR 0, ESR 0, ECA 2, EPC 12, EDPC 8
  EDATA 0, MODE 0, PTO 0, PTL 0, EMODE 0, TCOUNT 0, TLOAD 0
  r0: 0 5 0 0 0 0 0 0
  r8: 0 0 0 0 0 0 0 0
  r16: 0 0 0 0 0 0 0 0
  r24: 0 0 0 0 0 0 0 0
";
    let bytes = first_example();
    assert_eq!(look(&bytes, &mut counts()), text);
    assert_eq!(look(&saved(&bytes).unwrap(), &mut counts()), text);
    assert_eq!(audit(&bytes, &mut counts()), "0 0\n");
}

#[test]
fn a_look_in_which_every_number_is_another() {
    let (mut house, answer) = House::boot(&[1, 2], 77, &[3, 1, 2], 4_096);
    answer.unwrap();
    house.stop(0).unwrap();
    let guest = &mut house.guests[1];
    guest.registers = std::array::from_fn(|at| 11 * at as u32);
    guest.specials = std::array::from_fn(|at| 5_000 + at as u32);
    guest.specials[MODE] = 1;
    guest.specials[9] = 0;
    guest.specials[TLOAD] = u32::MAX;
    (guest.dpc, guest.pc, guest.counter, guest.fault) = (17, 18, u64::MAX, 6);
    guest.specials[ECA] = 0xFFFF_2000;
    house.guests[0].specials[ECA] = 64 | 128;
    house.guests[0].specials[EDATA] = 4_000_000_000;
    let text = look(&file(&house, &[0; 4_096]), &mut counts());
    let lines: Vec<&str> = text.lines().collect();
    assert_eq!(lines.len(), 1 + 2 * 9);
    assert_eq!(lines[0], "house: partitions 2, turn length 77, current 1, steps left 77");
    assert_eq!(lines[1], "partition 0: stopped, system mode, pages 1, steps 0");
    assert_eq!(lines[2], "  latest interrupt: ovf, an overflow, EDATA 4000000000");
    let head = "partition 1: running, user mode, pages 2, steps 18446744073709551615";
    assert_eq!(lines[10], head);
    assert_eq!(lines[11], "  latest interrupt: timer, TCOUNT reached 0, EDATA 5005");
    assert_eq!(lines[12], "  latest translation fault: 6, a store to a protected page");
    assert_eq!(
        lines[13],
        "  DPC 17, PC 18, SR 5000, ESR 5001, ECA 4294909952, EPC 5003, EDPC 5004"
    );
    let second = "MODE 1, PTO 5007, PTL 5008, EMODE 0, TCOUNT 5010, TLOAD 4294967295";
    assert_eq!(lines[14], format!("  EDATA 5005, {second}"));
    assert_eq!(lines[18], "  r24: 264 275 286 297 308 319 330 341");
    // Nothing runs, and ECA was written.
    house.stop(1).unwrap();
    house.guests[1].specials[ECA] = 1 << 12;
    let text = look(&file(&house, &[0; 4_096]), &mut counts());
    assert!(text.starts_with("house: partitions 2, turn length 77, current 0, steps left 0\n"));
    assert!(text.contains("  latest interrupt: no cause, since ECA was written, EDATA 5005\n"));
}

#[test]
fn each_cause_and_fault_has_words_of_its_own() {
    let (mut house, answer) = House::boot(&[1; 8], 9, &[1, 2, 3, 4, 5, 6, 7, 8], 9_216);
    answer.unwrap();
    for (at, bit) in [1, 2, 3, 4, 5, 6, 13, 31].into_iter().enumerate() {
        house.guests[at].specials[ECA] = 1 << bit;
        house.guests[at].fault = at as u32;
    }
    let text = look(&file(&house, &[0; 9_216]), &mut counts());
    let kinds = |of: &str| {
        let lines: HashSet<&str> = text.lines().filter(|line| line.contains(of)).collect();
        lines.len()
    };
    assert_eq!((kinds("latest interrupt: "), kinds("latest translation fault: ")), (8, 8));
    assert!(text.contains("trap, EDATA 0\n") && text.contains(": 7, an address beyond "));
}

#[test]
fn words_of_a_partition() {
    let bytes = first_example();
    for bytes in [saved(&bytes).unwrap(), bytes] {
        assert_eq!(read(&bytes, "0 0 3"), "536936453\n2885746696\n5\n");
        assert_eq!(read(&bytes, "00 8 01"), "5\n");
        assert_eq!(
            readout(&bytes, &words("0 4 2 raw"), &mut counts()).bytes,
            [8, 0, 1, 172, 5, 0, 0, 0]
        );
        assert_eq!(read(&bytes, "0 0 1024").lines().count(), 1_024);
        assert_eq!(read(&bytes, "0 0 3 signed"), "536936453\n-1409220600\n5\n");
        assert_eq!(read(&bytes, "0 4096 0 signed"), "");
        assert_eq!(read(&bytes, "0 0 1025 signed"), "refused 12 0\n");
        assert_eq!(read(&bytes, "1 0 1 signed"), "refused 10 0\n");
        assert_eq!(read(&bytes, "0 4096 0"), "");
        for beyond in ["0 0 1025", "0 2 0", "0 4100 0", "0 0 18446744073709551615"] {
            assert_eq!(read(&bytes, beyond), "refused 12 0\n");
        }
        assert_eq!(read(&bytes, "1 2 9"), "refused 10 0\n");
        assert_eq!(read(&bytes, "4294967295 0 1 raw"), "refused: 10 0");
        for wrong in [
            "0 0",
            "0 0 x",
            "4294967296 0 1",
            "0 0 1 RAW",
            "0 0 1 Signed",
            "0 0 1 raw raw",
            "0 0 1 raw signed",
            "-1 0 1",
        ] {
            assert_eq!(readout(&bytes, &words(wrong), &mut counts()), Said::failed(), "{wrong}");
        }
    }
    assert_eq!((decimal("0018"), decimal(""), decimal("+1")), (Some(18), None, None));
    let largest = Words::read(&words("4294967295 4294967295 18446744073709551615 raw")).unwrap();
    assert_eq!((largest.count, largest.form), (u64::MAX, Form::Raw));
}

#[test]
fn the_first_record_tells_which_file_it_is() {
    let house = first_example();
    let kept = saved(&house).unwrap();
    assert!(!is_saved(&house) && is_saved(&kept) && !is_saved(&kept[..5]));
    let mut longer = kept.clone();
    longer[0] += 4;
    let mut many = kept.clone();
    many[10..14].copy_from_slice(&(1_025 * 1_024u32).to_le_bytes());
    let mut odd = kept.clone();
    odd[10..14].copy_from_slice(&1_000u32.to_le_bytes());
    let cases = [
        (&kept[..5], "refused 15 0\n"),
        (&kept[..6], "refused 17 0\n"),
        (&longer, "refused 17 0\n"),
        (&kept[..22], "refused 17 22\n"),
        (&many, "refused 9 0\n"),
        // No whole frame: the first kind 3 is one too many.
        (&odd, "refused 17 238\n"),
    ];
    for (bytes, text) in cases {
        assert_eq!(look(bytes, &mut counts()), text);
        assert_eq!(audit(bytes, &mut counts()), text);
        assert_eq!(read(bytes, "0 0 1"), text);
        assert_eq!(String::from_utf8(listed(bytes, "1").bytes).unwrap(), text);
    }
}

#[test]
fn a_saved_file_tells_what_its_house_file_came_to() {
    let mut done = 0;
    for one in whole_files(5, 25) {
        let Some(kept) = saved(&one.bytes) else {
            continue;
        };
        assert_eq!(look(&kept, &mut counts()), look(&one.bytes, &mut counts()), "{}", one.name);
        assert_eq!(audit(&kept, &mut counts()), audit(&one.bytes, &mut counts()));
        assert_eq!(read(&kept, "0 0 1024"), read(&one.bytes, "0 0 1024"));
        // The engine without shadows leaves the same file.
        let walked = night_saved(&one.bytes, Engine::Walking, &mut counts());
        assert_eq!(walked.saved, Some(kept));
        done += 1;
    }
    assert!(done >= 15, "{done}");
}

#[test]
fn a_frame_of_the_memory_that_a_file_holds() {
    let bytes = first_example();
    let text = |bytes: &[u8], frame| String::from_utf8(listed(bytes, frame).bytes).unwrap();
    let before = text(&bytes, "1");
    assert!(before.starts_with("addi r1 r0 5\nsw r1 r0 8\nword 0\n"));
    assert_eq!(before.lines().count(), 1_024);
    assert_eq!(text(&bytes, "15"), "word 0\n".repeat(1_024));
    // What was saved is what the run left.
    assert!(text(&saved(&bytes).unwrap(), "01").starts_with("addi r1 r0 5\nsw r1 r0 8\nword 5\n"));
    for frame in ["16", "1023", "1024", "x", ""] {
        assert_eq!(listed(&bytes, frame), Said::failed(), "{frame}");
    }
    // Nothing is booted: a turn of no steps is listed all the same.
    let mut turns = bytes.clone();
    turns[6..10].fill(0);
    assert_eq!((look(&turns, &mut counts()), text(&turns, "1")), ("refused 3 0\n".into(), before));
    // A saved file's house must be right.
    for one in saved_files(6, 60) {
        let bytes = &one.file.bytes;
        let Err((number, detail)) = house(bytes, &mut counts()) else {
            continue;
        };
        assert_eq!(text(bytes, "0"), format!("refused {number} {detail}\n"));
    }
    let mut largest = vec![0; 17 * 1_024];
    largest[16 * 1_024] = 0x2001_0005;
    let (house, answer) = House::boot(&[1], 3, &[16], largest.len());
    answer.unwrap();
    assert_eq!(text(&file(&house, &largest), "16").lines().next(), Some(&line(0x2001_0005)[..]));
}

/// The files of the default run.
#[test]
fn the_default_run_reads_every_kind() {
    let files = reads(1, READS);
    for of in Of::ALL {
        let mut tally = Tally::default();
        files.iter().for_each(|read| tally.read(of, read));
        assert_eq!(tally.seldom(of, READS), [], "{}: {tally}", of.name());
        assert!(!Tally::default().seldom(of, READS).is_empty());
    }
}
