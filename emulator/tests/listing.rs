//! Listings: the lister against a plain one written from the decoded instruction, and lines both ways.

use emulator::dlx::{decode, Instruction, Operand, Operation, Target};
use emulator::generate::listings::{around, boundary_words, damaged, damages, words};
use emulator::listing::{assemble, assembled, line, list, word, WrongLine};
use emulator::memory::Width;
use emulator::named;
use emulator::rng::Rng;
use emulator::source;

/// A bit is ignored if the instruction is the same without it.
fn plain(word: u32) -> String {
    let ignored = |bit: u32| word & bit != 0 && decode(word ^ bit) == decode(word);
    match decode(word) {
        Some(instruction) if !(0..32).any(|bit| ignored(1 << bit)) => named_line(instruction),
        _ => format!("word {word}"),
    }
}

fn named_line(instruction: Instruction) -> String {
    match instruction {
        Instruction::Load { width, signed, rd, rs1, imm } => {
            let name = match (width, signed) {
                (Width::Byte, true) => "lb",
                (Width::Byte, false) => "lbu",
                (Width::Half, true) => "lh",
                (Width::Half, false) => "lhu",
                (Width::Word, _) => "lw",
            };
            format!("{name} r{rd} r{rs1} {}", imm as i32)
        }
        Instruction::Store { width, rd, rs1, imm } => {
            let name = match width {
                Width::Byte => "sb",
                Width::Half => "sh",
                Width::Word => "sw",
            };
            format!("{name} r{rd} r{rs1} {}", imm as i32)
        }
        Instruction::Compute { operation, rd, rs1, right } => {
            let (name, has_i) = match operation {
                Operation::Add => ("add", true),
                Operation::Sub => ("sub", true),
                Operation::And => ("and", true),
                Operation::Or => ("or", true),
                Operation::Xor => ("xor", true),
                Operation::Clr => ("clr", false),
                Operation::Sgr => ("sgr", false),
                Operation::Seq => ("seq", false),
                Operation::Sge => ("sge", false),
                Operation::Sls => ("sls", false),
                Operation::Sne => ("sne", false),
                Operation::Sle => ("sle", false),
                Operation::Set => ("set", false),
            };
            match right {
                Operand::Register(rs2) => format!("{name} r{rd} r{rs1} r{rs2}"),
                Operand::Immediate(imm) if has_i => {
                    format!("{name}i r{rd} r{rs1} {}", imm as i32)
                }
                Operand::Immediate(imm) => format!("{name} r{rd} r{rs1} {}", imm as i32),
            }
        }
        Instruction::Lhgi { rd, value } => format!("lhgi r{rd} {}", value >> 16),
        Instruction::Branch { on_zero: true, rs1, imm } => format!("beqz r{rs1} {}", imm as i32),
        Instruction::Branch { on_zero: false, rs1, imm } => format!("bnez r{rs1} {}", imm as i32),
        Instruction::Jump { target, link } => {
            let link = if link { "al" } else { "" };
            match target {
                Target::Relative(imm) => format!("j{link} {}", imm as i32),
                Target::Register(rs1) => format!("j{link}r r{rs1}"),
            }
        }
        Instruction::Trap { imm } => format!("trap {}", imm as i32),
        Instruction::Rfe => "rfe".into(),
        Instruction::Movs2i { rd, special } => format!("movs2i r{rd} {special}"),
        Instruction::Movi2s { special, rs1 } => format!("movi2s {special} r{rs1}"),
    }
}

#[test]
fn a_word_has_the_plain_line() {
    let sample = words(&mut Rng::new(5), 1 << 18);
    let mut named = 0;
    for word in sample.into_iter().chain(boundary_words()) {
        let line = line(word);
        assert_eq!(line, plain(word), "{word:#010x}");
        assert!(line.len() <= 80);
        assert_eq!(emulator::listing::word(line.as_bytes()), Some(word), "{line}");
        named += u32::from(!line.starts_with("word "));
    }
    assert!(named > 100_000, "{named}");
}

#[test]
fn lines_of_the_request() {
    for (text, word) in [
        ("lw r1 r2 -4", 0x8C41_FFFC),
        ("set r1 r2 r3", 0x0043_082F),
        ("lhgi r1 65535", 0x3C01_FFFF),
        ("beqz r0 -4", 0x1000_FFFC),
        ("trap 256", 0xF800_0100),
        ("movs2i r1 10", 0x0000_0A90),
        ("movi2s 7 r1", 0x0020_01D1),
        ("rfe", 0xFC00_0000),
        ("word 4227858433", 0xFC00_0001),
    ] {
        assert_eq!(
            (line(word).as_str(), word),
            (text, emulator::listing::word(text.as_bytes()).unwrap())
        );
    }
    assert_eq!(word(b"word 536936453"), None, "addi r1 r0 5 is its line");
    assert_eq!(line(536_936_453), "addi r1 r0 5");
}

#[test]
fn the_first_wrong_line_is_told() {
    for (text, expected) in [
        ("", Ok(vec![])),
        ("\n", Err(1)),
        ("rfe", Ok(vec![0xFC00_0000])),
        ("rfe\n", Ok(vec![0xFC00_0000])),
        ("rfe\n\n", Err(2)),
        ("rfe\nrfe 0\nrfe 0\n", Err(2)),
        ("rfe\r\nrfe\r\n", Err(1)),
        ("word 1\nword 01", Err(2)),
    ] {
        assert_eq!(assemble(text.as_bytes()), expected.map_err(WrongLine), "{text:?}");
    }
    assert_eq!(assembled(b"rfe\nhalt"), Err("refused: 18 2".into()));
    assert_eq!(assembled(b"trap 7\n"), Ok(vec![7, 0, 0, 0xF8]));
}

/// Every kind of damage makes wrong lines, and some are right; a wrong one is told with its number.
#[test]
fn damaged_lines() {
    let lines = damaged(3, 27_000);
    for by in damages() {
        let wrong = lines.iter().filter(|one| one.by == by && word(&one.line).is_none()).count();
        assert!(wrong > 200, "{by}: {wrong}");
    }
    let (mut right, mut rng) = (0, Rng::new(4));
    for one in &lines {
        assert!(!one.line.contains(&b'\n'));
        let text = around(&mut rng, &one.line);
        match word(&one.line) {
            Some(word) => {
                right += 1;
                assert_eq!(line(word).as_bytes(), one.line);
            }
            None => {
                let at = assemble(&text).unwrap_err().0;
                let found = text.split(|&byte| byte == b'\n').nth(at - 1);
                assert_eq!(found, Some(&one.line[..]));
            }
        }
    }
    assert!(right > 1_000, "{right}");
}

/// A listing's lines are a source's, and make the words that they were.
#[test]
fn every_line_is_a_line_of_a_source() {
    for words in boundary_words().chunks(1_024) {
        let source = format!("wrong on purpose\nframe 1\n{}end\n", list(words));
        let file = source::bytes(&source).unwrap();
        let made = emulator::listing::words(&file[10..10 + 4 * words.len()]).unwrap();
        assert!(made == words);
    }
}

#[test]
fn the_named_texts_end_where_their_names_say() {
    let texts = named::texts();
    let told = |name: &str| {
        let text = texts.iter().find(|text| text.name == name).expect(name);
        assemble(&text.bytes).map_err(|WrongLine(at)| at).map(|words| words.len())
    };
    assert_eq!(told("a line of every kind"), Ok(18));
    assert_eq!(told("many lines"), Ok(18_000));
    assert_eq!(told("a wrong line behind many"), Err(18_001));
    assert_eq!(told("a last line cut in its middle"), Err(18_000));
    assert_eq!(told("words that spell a refusal"), Ok(4));
    assert_eq!(told("a long line behind right ones"), Err(19));
    assert_eq!(told("one long line"), Err(1));
}
