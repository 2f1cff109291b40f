//! `make` and `show` from the command line: what they write, what they refuse, and with which status.

use std::path::{Path, PathBuf};
use std::process::{Command, Output};
use std::{env, fs, process};

const EMULATOR: &str = env!("CARGO_BIN_EXE_emulator");

/// A folder of its own for a test.
struct Folder(PathBuf);

impl Folder {
    fn new(name: &str) -> Folder {
        let path = env::temp_dir().join(format!("emulator-{name}-{}", process::id()));
        fs::create_dir_all(&path).expect("a folder is made");
        Folder(path)
    }

    fn put(&self, name: &str, bytes: impl AsRef<[u8]>) {
        fs::write(self.0.join(name), bytes).expect("a file is written");
    }

    fn get(&self, name: &str) -> Vec<u8> {
        fs::read(self.0.join(name)).expect("a file is read")
    }

    /// Runs the emulator in this folder.
    fn run(&self, words: &[&str]) -> Output {
        run(&self.0, words)
    }
}

impl Drop for Folder {
    fn drop(&mut self) {
        let _ = fs::remove_dir_all(&self.0);
    }
}

fn run(folder: &Path, words: &[&str]) -> Output {
    Command::new(EMULATOR).args(words).current_dir(folder).output().expect("the program runs")
}

/// It is refused, and this is said.
fn refused(output: &Output, said: &str) {
    assert_eq!(output.status.code(), Some(2));
    assert_eq!(String::from_utf8_lossy(&output.stderr), format!("emulator: {said}\n"));
    assert!(output.stdout.is_empty());
}

fn done(output: &Output) {
    assert_eq!(output.status.code(), Some(0), "{}", String::from_utf8_lossy(&output.stderr));
}

const SOURCE: &str = "turns 2 run 3\npartition 1\nframe 1\n addi r1 r0 5\n sw r1 r0 8\nend\n";

#[test]
fn a_house_file_and_back() {
    let folder = Folder::new("back");
    folder.put("mine.source", SOURCE);
    done(&folder.run(&["make", "mine.source", "--out", "mine.house"]));
    let shown = folder.run(&["show", "mine.house"]);
    done(&shown);
    folder.put("again.source", &shown.stdout);
    done(&folder.run(&["make", "again.source", "--out", "again.house"]));
    assert!(folder.get("again.house") == folder.get("mine.house"));
    // Of a name that does not tell, the first bytes do.
    folder.put("mine", folder.get("mine.house"));
    assert_eq!(folder.run(&["show", "mine"]).stdout, shown.stdout);
    folder.put("mine.script", folder.get("mine.house"));
    assert_ne!(folder.run(&["show", "mine.script"]).stdout, shown.stdout);
}

#[test]
fn images_stand_beside_the_source() {
    let folder = Folder::new("images");
    fs::create_dir_all(folder.0.join("noon")).expect("a folder is made");
    folder.put("noon/mine.source", "turns 2 run 3\npartition 1\nimage bridge.bin\nend\n");
    folder.put("noon/bridge.bin", [5, 0, 1, 0x20]);
    done(&folder.run(&["make", "noon/mine.source", "--out", "mine.house"]));
    assert_eq!(folder.get("mine.house")[34..42], [5, 0, 1, 0x20, 0, 0, 0, 0]);
    fs::remove_file(folder.0.join("noon/bridge.bin")).expect("the image is gone");
    refused(
        &folder.run(&["make", "noon/mine.source", "--out", "mine.house"]),
        "noon/mine.source: line 3: noon/bridge.bin: No such file or directory (os error 2)",
    );
}

#[test]
fn nothing_is_written_over_what_it_is_made_from() {
    let folder = Folder::new("over");
    folder.put("mine.source", SOURCE);
    let own = "expected --out another file than mine.source, which it is made from";
    refused(&folder.run(&["make", "mine.source", "--out", "mine.source"]), own);
    refused(&folder.run(&["make", "mine.source", "--out", "./mine.source"]), own);
    std::os::unix::fs::symlink("mine.source", folder.0.join("link")).expect("a link is made");
    refused(&folder.run(&["make", "mine.source", "--out", "link"]), own);
    assert_eq!(folder.get("mine.source"), SOURCE.as_bytes());
    folder.put("image.source", "turns 2 run 3\npartition 1\nimage a.bin\nend\n");
    folder.put("a.bin", [1]);
    refused(
        &folder.run(&["make", "image.source", "--out", "a.bin"]),
        "image.source: line 3: expected --out another file than a.bin, which it is made from",
    );
    assert_eq!(folder.get("a.bin"), [1]);
}

#[test]
fn wrong_sources_are_told_with_their_line() {
    let folder = Folder::new("wrong");
    for (source, said) in [
        ("turns 2 run 3\npartition 1\nframe 1\n rfe\n", "line 4: expected `end` as the last record"),
        ("frame 1\n lw r1 8(r2)\nend\n", "line 2: expected `lw RD RS1 IMM`, was given `lw r1 8(r2)`"),
        (
            "frame 1\nloop: addi r1 r0 32768\nend\n",
            "line 2: expected `addi RD RS1 IMM`, was given `addi r1 r0 32768`: IMM is -32768 to 32767",
        ),
    ] {
        folder.put("a.source", source);
        let output = folder.run(&["make", "a.source", "--out", "a.house"]);
        refused(&output, &format!("a.source: {said}"));
        assert!(!folder.0.join("a.house").exists());
    }
    folder.put("a.source", [0xFF]);
    let output = folder.run(&["make", "a.source", "--out", "a.house"]);
    refused(&output, "a.source: expected a source, which is text, in UTF-8");
    let output = folder.run(&["make", "a.source"]);
    refused(&output, "expected --out FILE, was given none");
}

#[test]
fn form_lists_every_instruction_and_help_works_everywhere() {
    let folder = Folder::new("form");
    let form = folder.run(&["form"]);
    let text = String::from_utf8_lossy(&form.stdout).into_owned();
    for shape in [
        "lw RD RS1 IMM",
        "sls RD RS1 RS2",
        "sls RD RS1 IMM",
        "beqz RS1 IMM",
        "jr RS1",
        "trap IMM",
        "movi2s SPECIAL RS1",
    ] {
        assert!(text.lines().any(|line| line.trim_start().starts_with(shape)), "{shape}");
    }
    let help = folder.run(&["help"]).stdout;
    for words in [["make", "--help"], ["show", "-h"], ["--help", "make"]] {
        let output = folder.run(&words);
        done(&output);
        assert_eq!(output.stdout, help);
    }
}

/// Sources that the night would refuse, what is told of each, and what the night prints of the file that is
/// made of it on purpose.
const REFUSED: &[(&str, &str, &str)] = &[
    // Frames that stand twice, in one list and in two; frame 0; a frame that is not there.
    (
        "turns 10 run 5\npartition 1 2 1\nend\n",
        "line 2: refused 7 2: frame 1 stands in line 2 already",
        "refused 7 2",
    ),
    (
        "turns 10 run 5\n# bridge\npartition 3 5\n# settlement\npartition 4 5 3\nend\n",
        "line 5: refused 7 3: frame 5 stands in line 3 already",
        "refused 7 3",
    ),
    (
        "turns 10 run 5\npartition 3 1\npartition 2 0\nend\n",
        "line 3: refused 16 3: frame 0 is kept for the house",
        "refused 16 3",
    ),
    (
        "turns 10 run 5\npartition 1\npartition 2 16\nend\n",
        "line 3: refused 6 2: the memory has 16 frames, and no frame 16",
        "refused 6 2",
    ),
    // Each before the next, wherever they stand.
    (
        "turns 10 run 1000001\npartition 4 4 0\npartition 17\nend\n",
        "line 3: refused 6 3: the memory has 16 frames, and no frame 17",
        "refused 6 3",
    ),
    // The run and the turn.
    (
        "turns 10 run 1000001\npartition 1\nend\n",
        "line 1: refused 14 0: a run has at most 1000000 steps, and not 1000001",
        "refused 14 0",
    ),
    (
        "\nturns 0 run 5\npartition 1\nend\n",
        "line 2: refused 3 0: a turn has 1 to 10000 steps, and not 0",
        "refused 3 0",
    ),
    (
        "turns 10001 run 5\npartition 1\nend\n",
        "line 1: refused 3 0: a turn has 1 to 10000 steps, and not 10001",
        "refused 3 0",
    ),
    // Partitions and their pages. The night has no house file of nine.
    (
        "turns 10 run 5\npartition 1\npartition 2\npartition 3\npartition 4\npartition 5\npartition 6\npartition 7\npartition 8\npartition 9\nend\n",
        "line 10: refused 1 0: a house has 1 to 8 partitions, and this one has 9",
        "refused 15 94",
    ),
    (
        "turns 10 run 5\nend\n",
        "line 2: refused 1 0: a house has 1 to 8 partitions, and this one has 0",
        "refused 15 14",
    ),
    (
        "turns 10 run 5\npartition 1\npartition\nend\n",
        "line 3: refused 2 1: a partition has 1 to 256 pages, and this one has 0",
        "refused 2 1",
    ),
    // Files that are no house files.
    (
        "turns 10 run 5\npartition 1\nframe 16\nend\n",
        "line 3: refused 15 24: the memory has 16 frames, and no frame 16",
        "refused 15 24",
    ),
    (
        "partition 1\nend\n",
        "line 1: refused 15 0: expected partitions behind `turns` and before all frames",
        "refused 15 0",
    ),
    (
        "turns 10 run 5\npartition 1\nframe 1\n rfe\npartition 2\nend\n",
        "line 5: refused 15 4130: expected partitions behind `turns` and before all frames",
        "refused 15 4130",
    ),
    (
        "turns 10 run 5\npartition 1\nturns 10 run 5\nend\n",
        "line 3: refused 15 24: expected `turns` first, and once",
        "refused 15 24",
    ),
    (
        "turns 10 run 5\nbytes 04 00 00 00 02 00\nbytes 07\n",
        "line 2: refused 15 14: here a record is cut short",
        "refused 15 14",
    ),
    (
        "turns 10 run 5\npartition 1\nend\nbytes 00\n",
        "line 4: refused 15 30: here the night expects another record",
        "refused 15 30",
    ),
];

#[test]
fn what_the_night_refuses_is_not_made() {
    let folder = Folder::new("refused");
    for (source, said, night) in REFUSED {
        folder.put("a.source", source);
        folder.put("a.house", "old");
        let output = folder.run(&["make", "a.source", "--out", "a.house"]);
        refused(&output, &format!("a.source: {said}"));
        assert_eq!(folder.get("a.house"), b"old", "{said}");
        assert!(!folder.0.join("a.house.new").exists());
        // On purpose it is made, and the night refuses it; a source of it says so.
        folder.put("a.source", format!("wrong on purpose\n{source}"));
        done(&folder.run(&["make", "a.source", "--out", "a.house"]));
        let printed = folder.run(&["night", "a.house"]).stdout;
        assert_eq!(String::from_utf8_lossy(&printed), format!("{night}\n"), "{source}");
        folder.put("b.source", folder.run(&["show", "a.house"]).stdout);
        done(&folder.run(&["make", "b.source", "--out", "b.house"]));
        assert_eq!(folder.get("b.house"), folder.get("a.house"));
    }
}

/// At their limits they are made, and the night takes them.
#[test]
fn what_the_night_takes_is_made() {
    let folder = Folder::new("limits");
    let all: String = (1..16).map(|frame| format!(" {frame}")).collect();
    let eight: String = (8..16).map(|frame| format!("partition {frame}\n")).collect();
    for source in [
        format!("turns 10000 run 1000000\npartition{all}\nend\n"),
        format!("turns 1 run 0\n{eight}end\n"),
        // As bytes, a partition is one as well.
        "turns 1 run 0\nbytes 04 00 00 00 02 00 07 00 00 00\nend\n".into(),
        // A frame may be the house's, or come again; only an image is not lost so.
        "turns 1 run 1\npartition 1\nframe 0\n rfe\nframe 1\n rfe\nframe 1\nend\n".into(),
    ] {
        folder.put("a.source", &source);
        done(&folder.run(&["make", "a.source", "--out", "a.house"]));
        let printed = folder.run(&["night", "a.house"]).stdout;
        assert!(printed.starts_with(b"partition pages steps"), "{source}");
    }
}

#[test]
fn images_that_spoil_each_other() {
    let folder = Folder::new("spoil");
    folder.put("a.image", [7; 48]);
    folder.put("b.image", [8; 4_100]);
    folder.put("part.image", [7; 46]);
    let head = "turns 10 run 5\npartition 1 2\npartition 3 4\n";
    for (lines, said) in [
        (
            "image part.image",
            "line 4: part.image has 46 bytes, which is no whole number of words of 4",
        ),
        ("image a.image 1\nimage a.image 1", "line 5: frame 1 is filled by line 4 already"),
        ("image b.image\nimage a.image 2", "line 5: frame 2 is filled by line 4 already"),
        ("image b.image 3 3", "line 4: frame 3 is filled by line 4 already"),
        ("image a.image\nframe 1\n rfe", "line 5: frame 1 is filled by line 4 already"),
        ("frame 3\n rfe\nframe 1\nimage a.image 3", "line 7: frame 3 is filled by line 4 already"),
    ] {
        folder.put("a.source", format!("{head}{lines}\nend\n"));
        let output = folder.run(&["make", "a.source", "--out", "a.house"]);
        refused(&output, &format!("a.source: {said}"));
        assert!(!folder.0.join("a.house").exists());
        folder.put("a.source", format!("wrong on purpose\n{head}{lines}\nend\n"));
        done(&folder.run(&["make", "a.source", "--out", "b.house"]));
    }
    folder.put("a.source", format!("{head}image b.image\nimage a.image\nend\n"));
    done(&folder.run(&["make", "a.source", "--out", "a.house"]));
}

/// Where the file cannot be written, the old one stays, and nothing is left beside it.
#[test]
fn a_full_disk_leaves_the_old_file() {
    let folder = Folder::new("full");
    folder.put("a.source", SOURCE);
    folder.put("a.house", "old");
    // No file may have more than 2,048 bytes, as on a disk that is full by then; the program is told so.
    let line = format!("ulimit -f 4; trap '' XFSZ; exec '{EMULATOR}' make a.source --out a.house");
    let output = Command::new("sh").args(["-c", &line]).current_dir(&folder.0).output();
    let output = output.expect("the program runs");
    assert_eq!(output.status.code(), Some(2), "{}", String::from_utf8_lossy(&output.stderr));
    assert!(String::from_utf8_lossy(&output.stderr).starts_with("emulator: a.house: "));
    assert_eq!(folder.get("a.house"), b"old");
    assert!(!folder.0.join("a.house.new").exists());
    // What an ended program left beside it is replaced.
    folder.put("a.house.new", vec![9; 100_000]);
    done(&folder.run(&["make", "a.source", "--out", "a.house"]));
    assert_eq!(folder.get("a.house").len(), 4_136);
    assert!(!folder.0.join("a.house.new").exists());
}

#[test]
fn a_folder_that_cannot_be_written_leaves_the_old_file() {
    let folder = Folder::new("folder");
    folder.put("a.source", SOURCE);
    folder.put("a.house", "old");
    // What stands beside it cannot be replaced.
    fs::create_dir_all(folder.0.join("a.house.new")).expect("a folder is made");
    let output = folder.run(&["make", "a.source", "--out", "a.house"]);
    refused(&output, "a.house: Is a directory (os error 21)");
    assert_eq!(folder.get("a.house"), b"old");
    for out in ["none/a.house", "a.house/b.house", "/proc/a.house", "a.house.new"] {
        let output = folder.run(&["make", "a.source", "--out", out]);
        assert_eq!(output.status.code(), Some(2), "{out}");
        let said = String::from_utf8_lossy(&output.stderr).into_owned();
        assert!(said.starts_with(&format!("emulator: {out}: ")), "{said}");
    }
    assert_eq!(folder.get("a.house"), b"old");
    // A device is written to, and stays one.
    let printed = folder.run(&["make", "a.source", "--out", "/dev/stdout"]);
    done(&printed);
    done(&folder.run(&["make", "a.source", "--out", "b.house"]));
    assert!(printed.stdout == folder.get("b.house"));
    // The image of the name beside it is not written over.
    folder.put("c.house.new", [1, 0, 0, 0]);
    folder.put("c.source", "turns 2 run 3\npartition 1\nimage c.house.new\nend\n");
    refused(
        &folder.run(&["make", "c.source", "--out", "c.house"]),
        "c.source: line 3: expected --out another file than c.house.new, which it is made from",
    );
    assert_eq!(folder.get("c.house.new"), [1, 0, 0, 0]);
}
