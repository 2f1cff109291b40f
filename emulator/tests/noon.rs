//! House files from images, words from decimals, and that the comparison sees where another program makes
//! others.

use std::path::PathBuf;
use std::process::{Command, Output};
use std::{env, fs, process};

use emulator::generate::noons::{kinds, noons, Word, NOONS, RIGHT};
use emulator::housefile::read;
use emulator::noon::{noon, Answer, Asked, Image, Partition};

const EMULATOR: &str = env!("CARGO_BIN_EXE_emulator");

/// A folder of its own for a test, with two images in it: words 1, 2, 3, and words 2^32 - 1 and 5.
struct Folder(PathBuf);

impl Folder {
    fn new(name: &str) -> Folder {
        let path = env::temp_dir().join(format!("emulator-noon-{name}-{}", process::id()));
        fs::create_dir_all(&path).expect("a folder is made");
        let folder = Folder(path);
        folder.put("a", [1, 0, 0, 0, 2, 0, 0, 0, 3, 0, 0, 0]);
        folder.put("b c", [255, 255, 255, 255, 5, 0, 0, 0]);
        folder.put("part", [7; 46]);
        folder.put("none", []);
        folder.put("page", [9; 4_096]);
        folder
    }

    fn put(&self, name: &str, bytes: impl AsRef<[u8]>) {
        fs::write(self.0.join(name), bytes).expect("a file is written");
    }

    /// Runs `noon` on words that have | between them.
    fn noon(&self, words: &str) -> Output {
        let words = words.split('|').filter(|_| !words.is_empty());
        let program = Command::new(EMULATOR).arg("noon").args(words).current_dir(&self.0).output();
        program.expect("the program runs")
    }
}

impl Drop for Folder {
    fn drop(&mut self) {
        let _ = fs::remove_dir_all(&self.0);
    }
}

#[test]
fn images_at_their_addresses() {
    let folder = Folder::new("made");
    folder.put("out", "old");
    let words =
        "out|0400|2000|partition|5,2|a@4092|b c|none@8192|none@4096|partition|9|b c@08|a@4084";
    let output = folder.noon(words);
    let printed = "\
partition 0, address 4092: 3 words, sum 6: a
partition 0, address 0: 2 words, sum 4: b c
partition 0, address 8192: 0 words, sum 0: none
partition 0, address 4096: 0 words, sum 0: none
partition 1, address 8: 2 words, sum 4: b c
partition 1, address 4084: 3 words, sum 6: a
";
    assert_eq!(String::from_utf8_lossy(&output.stdout), printed);
    assert_eq!((output.status.code(), output.stderr.len()), (Some(0), 0));
    let bytes = fs::read(folder.0.join("out")).expect("a file");
    assert_eq!(bytes.len(), 14 + 14 + 10 + 16 * 4_106 + 6);
    let file = read(&bytes).expect("a house file");
    assert_eq!((file.q, file.steps, &file.lists[..]), (400, 2_000, &[vec![5, 2], vec![9]][..]));
    let mut memory = vec![0; 16 * 1_024];
    memory[5 * 1_024..][..2].copy_from_slice(&[u32::MAX, 5]);
    memory[5 * 1_024 + 1_023] = 1;
    memory[2 * 1_024..][..2].copy_from_slice(&[2, 3]);
    memory[9 * 1_024 + 2..][..2].copy_from_slice(&[u32::MAX, 5]);
    memory[9 * 1_024 + 1_021..][..3].copy_from_slice(&[1, 2, 3]);
    assert!(file.memory == memory);
    // A record for each of the 16 frames, in order, whether anything is in it or not.
    for frame in 0..16 {
        let at = 38 + 4_106 * frame;
        assert_eq!(bytes[at..at + 10], [4, 16, 0, 0, 3, 0, frame as u8, 0, 0, 0]);
    }
    assert!(!folder.0.join("out.new").exists());
}

/// The night of the example that is made from a source, from the same images by a command line.
#[test]
fn the_example_s_night() {
    let folder = Folder::new("night");
    let examples = concat!(env!("CARGO_MANIFEST_DIR"), "/../examples");
    let (bridge, settlement) =
        (format!("{examples}/bridge.image"), format!("{examples}/settlement.image"));
    let words = format!("out|400|2000|partition|1,2|{bridge}|partition|3,4|{settlement}");
    assert_eq!(folder.noon(&words).status.code(), Some(0));
    let night = Command::new(EMULATOR).args(["night", "out"]).current_dir(&folder.0).output();
    let expected = fs::read_to_string(format!("{examples}/noon.expected")).expect("a report");
    let night = night.expect("the program runs").stdout;
    assert_eq!(String::from_utf8_lossy(&night), expected);
}

/// The words come first, then what the night would refuse, then the images; nothing is written.
#[test]
fn what_is_wrong_is_told_in_order() {
    let folder = Folder::new("wrong");
    let nine: String = (1..10).map(|frame| format!("|partition|{frame}|a")).collect();
    let empty = "|none".repeat(64);
    let long = format!("{}1", "1,".repeat(256));
    let mut failed = 0;
    for (words, said) in [
        ("", "failed: expected OUT"),
        ("out|1|1", "failed: expected OUT"),
        ("out|x|1|partition|1|a", "failed: expected a number below 2^32, was given x"),
        ("out|0|-1|partition|1|a", "failed: expected a number below 2^32, was given -1"),
        ("out|0|1|partition|1,,2|a", "failed: expected a number"),
        ("out|0|1|partition|1|a@", "failed: expected a number"),
        ("out|0|1|partition|1|a@4@x", "failed: expected a number"),
        ("out|0|1|partition|1|a@4294967296", "failed: expected a number"),
        ("out|0|1|partition|1|a@6", "failed: expected a multiple of 4"),
        ("out|0|1|part|1|a", "failed: expected partition, was given part"),
        ("out|0|1|partition", "failed: expected FRAMES"),
        ("out|0|1|partition|1", "failed: expected an image"),
        ("out|0|1|partition|1|partition|2|a", "failed: expected an image"),
        (&format!("out|0|1|partition|1|a{empty}"), "failed: expected 64 images at most"),
        (&format!("out|0|1000001{nine}"), "refused 1 0"),
        ("out|0|1000001|partition|1,1|part|partition||part", "refused 2 1"),
        (&format!("out|0|1000001|partition|{long}|part"), "refused 2 0"),
        ("out|0|1000001|partition|1,1|part", "refused 3 0"),
        ("out|10001|1|partition|1|a", "refused 3 0"),
        ("out|1|1000001|partition|1,1,0|part|partition|16|a", "refused 6 3"),
        ("out|1|1000001|partition|1,1,0|part|partition|0|a", "refused 16 2"),
        ("out|1|1000001|partition|2,1|part|partition|3,1|a", "refused 7 3"),
        ("out|1|1000001|partition|2,1|part", "refused 14 0"),
        ("out|1|1|partition|1|away", "failed: away: "),
        ("out|1|1|partition|1|.", "failed: .: "),
        ("out|1|1|partition|1|part", "failed: part: expected whole words"),
        ("out|1|1|partition|1|a@4088", "failed: a: expected words within partition 0's pages"),
        ("out|1|1|partition|1|a@4294967292", "failed: a: expected words within"),
        ("out|1|1|partition|1|none@4100", "failed: none: expected words within"),
        ("out|1|1|partition|1|/dev/zero", "failed: /dev/zero: expected words within"),
        ("out|1|1|partition|1|a|partition|2|b c|a@4", "failed: a: a word where another image"),
        ("out|1|1|partition|1|page|b c@4088", "failed: b c: a word where another"),
        ("away/out|1|1|partition|1|a", "failed: away/out: "),
    ] {
        folder.put("out", "old");
        let output = folder.noon(words);
        let errors = String::from_utf8_lossy(&output.stderr).into_owned();
        let printed = String::from_utf8_lossy(&output.stdout).into_owned();
        if said.starts_with("failed: ") {
            assert!(errors.starts_with(said) && printed.is_empty(), "{words}: {errors}{printed}");
            assert_eq!(output.status.code(), Some(2), "{words}");
            failed += 1;
        } else {
            assert_eq!((printed, errors), (format!("{said}\n"), String::new()), "{words}");
            assert_eq!(output.status.code(), Some(1), "{words}");
        }
        assert_eq!(fs::read(folder.0.join("out")).expect("a file"), b"old", "{words}");
        assert!(!folder.0.join("out.new").exists(), "{words}");
    }
    assert_eq!(failed, 24);
    // 64 images are not too many.
    let output = folder.noon(&format!("out|1|1|partition|1{empty}"));
    let line = "partition 0, address 0: 0 words, sum 0: none\n";
    assert_eq!(String::from_utf8_lossy(&output.stdout), line.repeat(64));
}

#[test]
fn words_of_a_command_line() {
    let words = |text: &str| text.split('|').map(String::from).collect::<Vec<_>>();
    let image = |name: &str, address| Image { name: name.into(), address };
    let asked = Asked::read(&words("out|1|2|partition||a@b@012|@|partition|07,8|partition"));
    assert!(asked.is_err(), "an address that is no number");
    let asked = Asked::read(&words("out|1|2|partition||a@b@012|@4|partition|07,8|c"));
    let frames = vec![Vec::new(), vec![7, 8]];
    let images = [vec![image("a@b", 12), image("", 4)], vec![image("c", 0)]];
    let partitions: Vec<Partition> = frames
        .into_iter()
        .zip(images)
        .map(|(frames, images)| Partition { frames, images })
        .collect();
    assert_eq!(asked, Ok(Asked { out: "out".into(), q: 1, steps: 2, partitions }));
}

/// The default run has every kind of command line; those without a mistake are made, and every mistake is
/// one.
#[test]
fn the_default_run_has_every_kind() {
    let all = noons(1, NOONS);
    for kind in kinds() {
        let of_kind: Vec<_> = all.iter().filter(|noon| noon.kind == kind).collect();
        assert!(of_kind.len() >= 3, "{kind}: {}", of_kind.len());
        for one in of_kind {
            let spelled = |word: &Word| match word {
                Word::Plain(text) | Word::Path(text) => text.clone(),
            };
            let words: Vec<String> = one.words.iter().map(spelled).collect();
            let answer = noon(&words, &|name| {
                let held = one.images.iter().find(|held| held.name == name);
                held.and_then(|held| held.bytes.clone()).ok_or(String::new())
            });
            let made = [RIGHT, "64 images", "OUT in no folder", "OUT is a folder"].contains(&kind);
            assert_eq!(matches!(answer, Answer::Made(..)), made, "{}: {words:?}", one.name);
        }
    }
    let numbers = all.iter().filter(|one| one.kind == RIGHT).map(|one| one.images.len());
    assert!(numbers.max() >= Some(8));
}

fn compare(option: &str, program: &str, noons: &str) -> (Option<i32>, String) {
    let output = Command::new(EMULATOR)
        .args(["compare", option, program, "--noons", noons, "--texts", "52"])
        .output()
        .expect("the program runs");
    (output.status.code(), String::from_utf8_lossy(&output.stdout).into_owned())
}

fn shell(line: &str) -> String {
    format!("sh -c '{line}' sh")
}

#[test]
fn it_compares_command_lines_where_it_is_asked_to() {
    let (code, told) = compare("--noon", &format!("'{EMULATOR}' noon"), "200");
    assert_eq!(code, Some(0), "{told}");
    assert!(told.contains("kinds of noon: ") && told.contains("\nanswers of noon: "), "{told}");
    assert!(told.ends_with("emulator: 200 compared, 0 differ\n"), "{told}");
    // A byte of the file, what is printed, what is refused, a file that is left, one that is gone.
    let byte = "printf x | dd of=$1 bs=1 seek=30 conv=notrunc status=none";
    let noon = format!("\"{EMULATOR}\" noon \"$@\"");
    let lines = [
        (format!("{noon}; [ -s $1 ] && {byte}; :"), "  the first byte that differs: "),
        (format!("{noon} | sed \"s/sum 0:/sum 1:/\""), "smallest command line:\n"),
        (format!("{noon} | sed \"s/refused 7/refused 6/\""), "  expected: refused 7 "),
        (format!("{noon} && : >$1.new"), ", and one beside it\n"),
        (format!("rm -f $1; {noon}"), "  expected: a file of 3 bytes\n"),
        (format!("{noon} 2>&-"), "  expected: failed:\n"),
    ];
    for (line, said) in lines {
        let (code, told) = compare("--noon", &shell(&line), "74");
        assert_eq!(code, Some(1), "{line}: {told}");
        assert!(told.contains(" differs in noon:\n") && told.contains(said), "{line}: {told}");
    }
}

#[test]
fn it_compares_texts_of_decimals_where_it_is_asked_to() {
    let (code, told) = compare("--into-words", &format!("'{EMULATOR}' words"), "0");
    assert_eq!(code, Some(0), "{told}");
    assert!(told.contains("texts of words by number: 13:1 18:"), "{told}");
    assert!(told.ends_with("emulator: 64 compared, 0 differ\n"), "{told}");
    let wrong = shell(&format!("tr -d \"\\r\" | \"{EMULATOR}\" words"));
    let (code, told) = compare("--into-words", &wrong, "0");
    assert_eq!(code, Some(1), "{told}");
    assert!(told.contains("words differs:\n") && told.contains("smallest input, "), "{told}");
    let quiet = shell(&format!("\"{EMULATOR}\" words 2>/dev/null || :"));
    assert_eq!(compare("--into-words", &quiet, "0").0, Some(1));
}
