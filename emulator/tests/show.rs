//! `show` writes a source that makes the same house file again, whatever the file.

use std::fs;
use std::path::Path;

use emulator::counts::Counts;
use emulator::dlx::decode;
use emulator::housefile::{night, read, record_bytes, word_bytes, FRAMES};
use emulator::memory::FRAME_WORDS;
use emulator::rng::Rng;
use emulator::{generate, named, source};

fn holds(name: &str, file: &[u8]) -> String {
    let text = source::show(file);
    let made = source::bytes(&text).unwrap_or_else(|wrong| panic!("{name}: {wrong}\n{text}"));
    assert!(made == file, "{name}: another file is made from\n{text}");
    text
}

/// A well-formed file: up to 8 lists, and frames of which some come again.
fn well_formed(rng: &mut Rng) -> Vec<u8> {
    let mut file = record_bytes(1, &word_bytes(&[rng.word(), rng.word()]));
    for _ in 0..rng.between(1, 8) {
        let list: Vec<u32> = (0..rng.below(20)).map(|_| rng.below(20)).collect();
        file.extend(record_bytes(2, &word_bytes(&list)));
    }
    for _ in 0..rng.below(20) {
        let mut body = vec![rng.below(FRAMES as u32)];
        let filled = rng.below(101);
        body.extend((0..FRAME_WORDS).map(|_| if rng.chance(filled) { rng.word() } else { 0 }));
        file.extend(record_bytes(3, &word_bytes(&body)));
    }
    file.extend(record_bytes(4, &[]));
    file
}

#[test]
fn well_formed_files() {
    let mut rng = Rng::new(11);
    let mut instructions = 0;
    for number in 0..50 {
        let file = well_formed(&mut rng);
        assert!(read(&file).is_ok(), "file {number} is well formed");
        let text = holds(&format!("file {number}"), &file);
        assert!(!text.contains("bytes"), "file {number} is shown by its records");
        instructions += text.lines().filter(|line| line.starts_with("  addi ")).count();
    }
    assert!(instructions > 1_000, "{instructions}");
}

#[test]
fn damaged_cut_and_named_files() {
    let files = named::files().into_iter().chain(generate::files(7, 500));
    let mut wrong = 0;
    let mut refused = 0;
    for file in files {
        let text = holds(&file.name, &file.bytes);
        assert_eq!(text.starts_with("# a wrong house file"), read(&file.bytes).is_err());
        wrong += usize::from(read(&file.bytes).is_err());
        // What is right needs no word, and what the night refuses says by what.
        let told = night(&file.bytes, &mut Counts::default());
        let said = text.lines().find(|line| line.starts_with("wrong on purpose # "));
        match told.strip_prefix("refused ") {
            None => assert_eq!(said, None),
            Some(_) if text.lines().all(|line| line.starts_with(['#', 'b'])) => {}
            Some(_) => {
                assert_eq!(said, Some(&format!("wrong on purpose # `{}`", told.trim_end())[..]));
                refused += 1;
            }
        }
    }
    assert!(wrong > 300, "{wrong}");
    assert!(refused > 300, "{refused}");
    assert_eq!(holds("the empty file", b"").lines().count(), 2);
}

#[test]
fn the_examples() {
    let folder = Path::new(env!("CARGO_MANIFEST_DIR")).join("../examples");
    let mut seen = 0;
    for entry in fs::read_dir(&folder).expect("the examples") {
        let path = entry.expect("an example").path();
        let name = path.display().to_string();
        let file = if name.ends_with(".house") {
            fs::read(&path).expect("a house file")
        } else if name.ends_with(".source") {
            let text = fs::read_to_string(&path).expect("a source");
            let mut image = |image: &str| fs::read(folder.join(image)).map_err(|e| e.to_string());
            let made = source::bytes_with(&text, &mut image);
            made.unwrap_or_else(|wrong| panic!("{name}: {wrong}"))
        } else {
            continue;
        };
        holds(&name, &file);
        seen += 1;
    }
    assert!(seen > 40, "{seen}");
}

/// What is shown by a name is an instruction; what is not is shown by its number.
#[test]
fn words_by_name_and_by_number() {
    let words = [0x2001_0005, 0xAC01_0008, 5, 0, 0xFC00_0000, 0x0000_07D0, 0xFFFF_FFFF];
    let body = [&[1], &words[..], &[0; FRAME_WORDS - 7]].concat();
    let text = source::show(&record_bytes(3, &word_bytes(&body)));
    let lines: Vec<String> = text
        .lines()
        .map(|line| line.split('#').next().unwrap_or_default().trim().to_string())
        .collect();
    let expected = [
        "frame 1",
        "addi r1 r0 5",
        "sw r1 r0 8",
        "word 5",
        "at 16",
        "rfe",
        "word 2000",
        "word 4294967295",
        "bytes",
    ];
    assert_eq!(lines[1], "wrong on purpose");
    assert_eq!(lines[2..], expected);
    assert!(decode(2_000).is_none() && decode(0xFFFF_FFFF).is_some(), "rfe with another immediate");
}
