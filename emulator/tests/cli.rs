//! The command line, with this program itself as the other one, whole and spoilt.

use std::io::Write;
use std::process::{Command, Output, Stdio};

const EMULATOR: &str = env!("CARGO_BIN_EXE_emulator");

fn emulator(arguments: &[&str], input: &[u8]) -> Output {
    let mut child = Command::new(EMULATOR)
        .args(arguments)
        .stdin(Stdio::piped())
        .stdout(Stdio::piped())
        .stderr(Stdio::piped())
        .spawn()
        .expect("the program starts");
    child.stdin.take().expect("piped").write_all(input).expect("the program reads its input");
    child.wait_with_output().expect("the program ends")
}

fn text(output: &Output) -> String {
    String::from_utf8_lossy(&output.stdout).into_owned()
}

/// A short comparison with the given programs.
fn compare(drill: &str, night: &str) -> Output {
    let sizes = ["--steps", "20000", "--files", "20"];
    emulator(&[&["compare", "--drill", drill, "--night", night], &sizes[..]].concat(), b"")
}

/// This program with its text spoilt by sed.
fn spoilt(command: &str, edit: &str) -> String {
    format!("sh -c \"'{EMULATOR}' {command} | sed '{edit}'\"")
}

#[test]
fn it_agrees_with_itself() {
    let output = compare(&format!("'{EMULATOR}' play"), &format!("'{EMULATOR}' night"));
    let text = text(&output);
    assert_eq!(output.status.code(), Some(0), "{text}");
    let last = text.lines().last().expect("a last line");
    assert!(last.starts_with("emulator: ") && last.ends_with(" compared, 0 differ"), "{last}");
    for total in ["steps ", "calls ", "files "] {
        assert!(text.lines().any(|line| line.starts_with(total)), "{total}");
    }
}

#[test]
fn it_finds_a_wrong_answer_and_shrinks_the_script() {
    let drill = spoilt("play", "s/^call run -> 11 0/call run -> 14 0/");
    let output = compare(&drill, &format!("'{EMULATOR}' night"));
    let text = text(&output);
    assert_eq!(output.status.code(), Some(1));
    assert!(
        text.contains("  expected: call run -> 11 0\n  given:    call run -> 14 0\n"),
        "{text}"
    );
    // Length, boot, stop, run.
    assert!(text.contains("smallest script, 4 commands:\n"), "{text}");
    assert!(!text.ends_with(" 0 differ\n"));
}

#[test]
fn it_finds_a_missing_line() {
    let output = compare(&spoilt("play", "/^shadow 0:/d"), &format!("'{EMULATOR}' night"));
    assert_eq!(output.status.code(), Some(1));
    assert!(text(&output).contains("smallest script"));
}

#[test]
fn it_finds_a_wrong_report() {
    let night = spoilt("night", "s/^refused 15 14$/refused 15 15/");
    let output = compare(&format!("'{EMULATOR}' play"), &night);
    let text = text(&output);
    assert_eq!(output.status.code(), Some(1));
    assert!(text.contains("  expected: refused 15 14\n  given:    refused 15 15\n"), "{text}");
    assert!(text.contains("smallest file, 1 records:\n  kind 1, 14 bytes"), "{text}");
}

#[test]
fn it_compares_audits_where_it_is_asked_to() {
    let program = |name: &str| format!("'{EMULATOR}' {name}");
    let sizes = ["--files", "20", "--steps", "1"];
    let run = |audit: &str| {
        let alone = ["compare", "--audit", audit];
        emulator(&[&alone[..], &sizes].concat(), b"")
    };
    let output = run(&program("audit"));
    let told = text(&output);
    assert_eq!(output.status.code(), Some(0), "{told}");
    assert!(told.contains("files of audit by number: ") && !told.contains("files of night"));
    let output = run(&spoilt("audit", "s/^0 0$/0 1/"));
    let told = text(&output);
    assert_eq!(output.status.code(), Some(1), "{told}");
    assert!(told.contains(" differs in audit:\n  expected: 0 0\n  given:    0 1\n"), "{told}");
}

#[test]
fn it_compares_saved_files_where_it_is_asked_to() {
    let run =
        |option: &str, program: &str| emulator(&["compare", option, program, "--saved", "12"], b"");
    for (option, program) in [("--save", "night"), ("--resume", "resume")] {
        let output = run(option, &format!("'{EMULATOR}' {program}"));
        let told = text(&output);
        assert_eq!(output.status.code(), Some(0), "{told}");
        assert!(told.contains(", of them saved ") && told.ends_with(" 0 differ\n"), "{told}");
    }
    // An offset that is wrong, and a file with a byte too many.
    let shell = |line: &str| format!("sh -c \"{line}\" sh");
    let wrong = shell(&format!("'{EMULATOR}' resume $@ | sed 's/^refused 17 22$/refused 17 23/'"));
    let told = text(&run("--resume", &wrong));
    assert!(told.contains("  expected: refused 17 22\n  given:    refused 17 23\n"), "{told}");
    assert!(told.contains("smallest file, 1 records:\n  kind 5, 22 bytes"), "{told}");
    let told = text(&run("--save", &shell(&format!("'{EMULATOR}' night $@; printf x >> $3"))));
    assert!(told.contains("  expected: a saved file of 65"), "{told}");
}

#[test]
fn it_compares_runs_without_shadows_where_it_is_asked_to() {
    let shell = |line: &str| format!("sh -c \"{line}\" sh");
    let run = |program: &str| emulator(&["compare", "--unshadowed", program, "--saved", "12"], b"");
    let output =
        run(&shell(&format!("[ $# != 3 ] && [ $2 = unshadowed ] && '{EMULATOR}' night $@")));
    let told = text(&output);
    assert_eq!(output.status.code(), Some(0), "{told}");
    assert!(told.contains("files of unshadowed by number: 0:"), "{told}");
    assert!(told.contains(", of them saved ") && !told.contains(", of them saved 0\n"), "{told}");
    let output = run(&shell(&format!("'{EMULATOR}' night $@; [ $# = 2 ] || printf x >> $4")));
    let told = text(&output);
    assert!(told.contains("  given:    a saved file of 1 bytes\n"), "{told}");
    let output =
        run(&shell(&format!("'{EMULATOR}' night $@ | sed 's/^refused 3 0$/refused 2 0/'")));
    let told = text(&output);
    assert_eq!(output.status.code(), Some(1), "{told}");
    assert!(told.contains("differs in unshadowed:\n  expected: refused 3 0\n"), "{told}");
}

#[test]
fn it_compares_what_programs_tell_of_either_file() {
    let run = |options: &[&str]| {
        let output = emulator(&[&["compare", "--reads", "60"], options].concat(), b"");
        (output.status.code(), text(&output))
    };
    let program = |name: &str| format!("'{EMULATOR}' {name}");
    let (look, readout, audit) = (program("look -"), program("readout -"), program("audit -"));
    let all = ["--look", &look, "--readout", &readout, "--audit", &audit, "--files", "1"];
    let (code, told) = run(&all);
    assert_eq!(code, Some(0), "{told}");
    for kinds in ["kinds of look: ", "kinds of readout: ", "kinds of audit of either: "] {
        assert!(told.contains(kinds), "{told}");
    }
    let list = program("list -");
    let (code, told) = run(&["--list", &list, "--words", "1"]);
    assert_eq!(code, Some(0), "{told}");
    assert!(told.contains("kinds of list with a frame: "), "{told}");
    // PC for DPC, one word of many, and what standard error tells.
    let (code, told) = run(&["--look", &spoilt("look -", "s/ESR \\([0-9]*\\)7,/ESR \\18,/")]);
    assert_eq!(code, Some(1), "{told}");
    assert!(told.contains(" differs in look:\n") && told.contains("smallest file, "), "{told}");
    let shell = |line: &str| format!("sh -c \"{line}\" sh");
    let wrong = shell(&format!("'{EMULATOR}' readout - $@ | sed 's/^refused 12/refused 13/'"));
    let (code, told) = run(&["--readout", &wrong]);
    assert_eq!(code, Some(1), "{told}");
    assert!(told.contains("  readout FILE ") && told.contains("differs in readout:"), "{told}");
    let quiet = shell(&format!("'{EMULATOR}' readout - $@ 2>&-"));
    assert_eq!(run(&["--readout", &quiet]).0, Some(1));
}

#[test]
fn it_resumes_what_it_saved() {
    let folder = std::path::Path::new(env!("CARGO_TARGET_TMPDIR"));
    let path = |name: &str| folder.join(name).to_string_lossy().into_owned();
    let (house, one, two) = (path("resume.house"), path("resume.one"), path("resume.two"));
    let bytes = emulator::named::files().swap_remove(0).bytes;
    std::fs::write(&house, bytes).expect("a file");
    let head = "partition pages steps mode dpc pc fault\n";
    let output = emulator(&["night", &house, "save", &one], b"");
    assert_eq!(text(&output), format!("{head}0 1 3 0 0 4 0\n"));
    let output = emulator(&["resume", &one, "1_000", "save", &two], b"");
    assert!(text(&output).starts_with(&format!("{head}0 1 1003 0 ")), "{}", text(&output));
    let output = emulator(&["resume", &house, "5", "save", &one], b"");
    assert_eq!(text(&output), "refused 17 0\n");
    // What was refused has written nothing.
    assert_eq!(text(&emulator(&["resume", &one, "0"], b"")), format!("{head}0 1 3 0 0 4 0\n"));
    assert_ne!(std::fs::read(&one).expect("a file"), std::fs::read(&two).expect("a file"));
}

#[test]
fn it_compares_listings_where_it_is_asked_to() {
    let sizes = ["--words", "70000", "--lines", "2700", "--alone", "60", "--reads", "0"];
    let run = |list: &str, assemble: &str| {
        let alone = ["compare", "--list", list, "--assemble", assemble];
        emulator(&[&alone[..], &sizes].concat(), b"")
    };
    let (list, assemble) = (format!("'{EMULATOR}' list"), format!("'{EMULATOR}' assemble"));
    let output = run(&list, &assemble);
    let told = text(&output);
    assert_eq!(output.status.code(), Some(0), "{told}");
    assert!(
        told.contains("damaged lines: 2700, right ") && told.ends_with(" 0 differ\n"),
        "{told}"
    );
    // The words of one instruction alone are listed in another way.
    let output = run(&spoilt("list", "s/^jalr r31$/jalr r30/"), &assemble);
    let told = text(&output);
    assert_eq!(output.status.code(), Some(1), "{told}");
    let lines = "list differs:\n  expected: jalr r31\n  given:    jalr r30\n";
    assert!(
        told.contains(lines) && told.contains("smallest input, 4 bytes:\n  jalr r31"),
        "{told}"
    );
    // Lines with a carriage return are taken.
    let kind = format!("sh -c \"tr -d '\\r' | '{EMULATOR}' assemble\"");
    let output = run(&list, &kind);
    let told = text(&output);
    assert_eq!(output.status.code(), Some(1), "{told}");
    assert!(told.contains("assemble differs:\n") && told.contains("\\r"), "{told}");
}

#[test]
fn lists_and_assembles() {
    let words = [0x05, 0, 0x01, 0x20, 1, 0, 0, 0xFC];
    let output = emulator(&["list", "-"], &words);
    assert_eq!(text(&output), "addi r1 r0 5\nword 4227858433\n");
    assert_eq!(emulator(&["assemble"], &output.stdout).stdout, words);
    let output = emulator(&["assemble"], b"rfe\nrfe 0\n");
    assert_eq!((output.status.code(), output.stdout.len()), (Some(1), 0));
    assert_eq!(String::from_utf8_lossy(&output.stderr), "refused: 18 2\n");
    let output = emulator(&["list"], &words[..7]);
    assert_eq!((output.status.code(), output.stdout.len()), (Some(2), 0));
}

#[test]
fn wrong_use_is_told() {
    let cases: [&[&str]; 16] = [
        &["words", "one", "two"],
        &["compare", "--noons", "5"],
        &["resume", "/dev/null", "1", "unshadowed"],
        &["readout"],
        &["night", "/dev/null", "save", "out", "unshadowed"],
        &["resume", "one"],
        &["resume", "one", "x"],
        &["resume", "/dev/null", "1", "save"],
        &["night", "/dev/null", "save"],
        &[],
        &["frob"],
        &["compare"],
        &["compare", "--seed"],
        &["compare", "--drill", "true", "--seed", "x"],
        &["play", "--frob"],
        &["play", "one", "two"],
    ];
    for case in cases {
        let output = emulator(case, b"");
        assert_eq!(output.status.code(), Some(2), "{case:?}");
        let told = String::from_utf8_lossy(&output.stderr);
        assert!(told.starts_with("emulator: expected "), "{case:?}: {told}");
    }
}

#[test]
fn help_names_every_command() {
    let help = text(&emulator(&["help"], b""));
    for command in [
        "compare", "play", "night", "resume", "audit", "look", "readout", "list", "assemble",
        "noon", "words", "show", "shrink", "generate", "make", "form",
    ] {
        assert!(help.contains(&format!("emulator {command}")), "{command}");
    }
}

#[test]
fn show_prints_the_commands() {
    let script: Vec<u8> = [2u32, 3, 0, 0].iter().flat_map(|word| word.to_le_bytes()).collect();
    assert_eq!(text(&emulator(&["show"], &script)), "run 3\n");
    assert_eq!(text(&emulator(&["show", "-"], &script[..9])), "wrong command at 0\n");
}
