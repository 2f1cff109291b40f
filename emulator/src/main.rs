//! The command line.

use std::io::{self, Read, Write};
use std::os::unix::fs::MetadataExt;
use std::path::Path;
use std::process::ExitCode;
use std::time::Duration;
use std::{env, fs};

use emulator::compare::{compare, shrink_script, Options};
use emulator::counts::Counts;
use emulator::housefile::Left;
use emulator::memory::Engine;
use emulator::noon::{self, Answer};
use emulator::process::Program;
use emulator::reads::Said;
use emulator::{
    beside, decimals, generate, housefile, listing, named, reads, saved, script, source,
};

const HELP: &str = "\
emulator: a second emulator of the house of partitions, to be compared with the proved one

emulator compare --drill CMD --night CMD --audit CMD --list CMD --assemble CMD --save CMD --resume CMD
                 --unshadowed CMD --look CMD --readout CMD --noon CMD --into-words CMD [--seed N] [--steps N]
                 [--files N] [--saved N] [--reads N] [--words N] [--lines N] [--alone N] [--noons N]
                 [--texts N] [--jobs N] [--limit N]
    Plays named and random scripts with CMD of --drill, gives named and random house files to CMD
    of --night and to CMD of --audit, words to CMD of --list, and right and damaged lines to CMD of
    --assemble, all on standard input; runs `CMD FILE save OUT` of --save on house files and
    `CMD SAVED STEPS save OUT` of --resume on saved files, right and damaged, and
    `CMD FILE unshadowed [save OUT]` of --unshadowed on house files; gives house files and saved files,
    right and damaged, to CMD of --look, to CMD of --audit, to `CMD PARTITION ADDRESS COUNT [raw|signed]` of
    --readout and to `CMD FRAME` of --list, on standard input; runs `CMD OUT Q STEPS partition ..` of --noon
    on images, with and without a mistake, and gives texts of decimals to CMD of --into-words; and compares
    every answer and every OUT with its own. Some of the CMD may be left out. Shows the smallest script, file,
    text or command line that differs. Status 0 and a last line `emulator: N compared, 0 differ` only when all agree.
    --seed   start of the random numbers (1)
    --steps  guest steps of the random scripts, at least (1000000)
    --files  random house files that are damaged or cut (2000)
    --saved  random saved files; half as many house files are saved (120)
    --reads  random house files and saved ones for the programs that take either; 0: nothing of these (400)
    --words  random words that are listed and assembled again (4194304)
    --lines  damaged lines (100000)
    --alone  those of them that are wrong and are assembled in a text of their own, at most (4000)
    --noons  random command lines that make a house file from images, or are wrong (200)
    --texts  random texts of decimals, right and wrong (80)
    --jobs   programs that run at the same time (2)
    --limit  seconds that a program may take (600)
emulator play [SCRIPT]
    Plays a script (FORMAT.md) and prints what it sees after each call.
emulator night [FILE [unshadowed] [save OUT]]
    Reads a house file, boots, runs, with the word by the engine without shadows, and prints the
    report; OUT is then the house and its memory. A refusal writes no OUT.
emulator resume SAVED STEPS [save OUT]
    Reads a saved file, runs so many host steps, and prints the report; OUT as for night.
emulator audit [FILE]
    Reads a house file, boots and runs, or reads a saved file, and prints the number of each partition
    and how many of its shadow entries are stale.
emulator look [FILE]
    The same, but tells what each partition came to.
emulator readout FILE PARTITION ADDRESS COUNT [raw|signed]
    The same, but prints words of one partition's pages, in decimals, as bytes, or in decimals of two's
    complement numbers.
emulator list [FILE [FRAME]]
    Writes a line for each word of the file, little-endian; or of one frame of the memory that a house
    file or a saved one holds.
emulator assemble [FILE]
    Writes the words of a listing's lines; or nothing, and `refused: 18 LINE` on standard error with
    the number of the first wrong line, and ends with status 1.
emulator noon OUT Q STEPS partition FRAMES IMAGE[@ADDRESS].. [partition ..]..
    Makes a house file from images, each at an address of its partition, and prints a line for each.
    FRAMES has commas between its numbers. Prints `refused N D`, with status 1, for what the night would
    refuse, and says `failed: ..` on standard error, with status 2, for a wrong use or image.
emulator words [FILE]
    Writes the words of lines that are decimals, from -2147483648 to 4294967295; or nothing, and
    `refused: 18 LINE` or `refused: 13 0` on standard error, and ends with status 1.
emulator show [FILE]
    Tells what a house file holds, as a source that makes the same file again; or prints the
    commands of a script. FILE.house is a house file and FILE.script a script; of another name, or on
    standard input, what begins with the head of a kind 1 record is a house file.
emulator shrink --drill CMD [SCRIPT]
    Makes a script on which CMD differs as small as it goes.
emulator generate --out DIR [--seed N] [--steps N] [--files N] [--saved N]
    Writes the named and random scripts, house files and saved files into DIR.
emulator make [SOURCE] --out FILE
    Makes a house file from a readable source, beside its name, which it takes when it is whole. What the
    night would refuse is not made, unless the source begins with the line `wrong on purpose`.
emulator form
    Tells what stands in a source, and lists every instruction.

Without a file, or for -, standard input is read.
";

fn main() -> ExitCode {
    let arguments: Vec<String> = env::args().skip(1).collect();
    match command(&arguments) {
        Ok(status) => status,
        Err(message) => {
            eprintln!("emulator: {message}");
            ExitCode::from(2)
        }
    }
}

fn command(arguments: &[String]) -> Result<ExitCode, String> {
    let Some((name, rest)) = arguments.split_first() else {
        return Err("expected a command, was given none; `emulator help` lists them".into());
    };
    if rest.iter().any(|word| matches!(word.as_str(), "--help" | "-h")) {
        return print(HELP);
    }
    match name.as_str() {
        "compare" => run_compare(&Arguments::parse(rest)?),
        "play" => print(&script::play(&input(&Arguments::parse(rest)?)?, &mut Counts::default())),
        "night" => {
            let (file, rest) = rest.split_first().map_or(("-", rest), |(file, rest)| (&file[..], rest));
            let (engine, rest) = match rest {
                [word, rest @ ..] if word == "unshadowed" => (Engine::Walking, rest),
                _ => (Engine::Shadowed, rest),
            };
            let bytes = input_of(file)?;
            leave(rest, |counts| housefile::night_saved(&bytes, engine, counts))
        }
        "resume" => {
            let [file, steps, rest @ ..] = rest else {
                return Err("expected SAVED STEPS [save OUT]".into());
            };
            let steps = number("for STEPS", steps)?;
            let bytes = input_of(file)?;
            leave(rest, |counts| saved::resume(&bytes, steps, Engine::Shadowed, counts))
        }
        "audit" => {
            print(&reads::audit(&input(&Arguments::parse(rest)?)?, &mut Counts::default()))
        }
        "look" => print(&reads::look(&input(&Arguments::parse(rest)?)?, &mut Counts::default())),
        "readout" => {
            let (file, words) = rest.split_first().ok_or("expected FILE PARTITION ADDRESS COUNT")?;
            say(reads::readout(&input_of(file)?, words, &mut Counts::default()))
        }
        "list" => match rest {
            [file, frame] => {
                say(reads::list_frame(&input_of(file)?, frame, &mut Counts::default()))
            }
            _ => {
                let words = listing::words(&input(&Arguments::parse(rest)?)?);
                print(&listing::list(&words.ok_or("expected words of 4 bytes")?))
            }
        },
        "assemble" => match listing::assembled(&input(&Arguments::parse(rest)?)?) {
            Ok(bytes) => write(&bytes),
            Err(refused) => {
                eprintln!("{refused}");
                Ok(ExitCode::FAILURE)
            }
        },
        "noon" => run_noon(rest),
        "words" => match decimals::words(&input(&Arguments::parse(rest)?)?) {
            Ok(bytes) => write(&bytes),
            Err(refused) => {
                eprintln!("{refused}");
                Ok(ExitCode::FAILURE)
            }
        },
        "show" => show(&Arguments::parse(rest)?),
        "shrink" => run_shrink(&Arguments::parse(rest)?),
        "generate" => run_generate(&Arguments::parse(rest)?),
        "make" => make(&Arguments::parse(rest)?),
        "form" => print(&source::form()),
        "help" | "--help" | "-h" => print(HELP),
        other => Err(format!(
            "expected compare, play, night, resume, audit, look, readout, list, assemble, noon, words, show, shrink, generate, make, form or help, was given {other}"
        )),
    }
}

/// Options by name, and at most one file.
#[derive(Default)]
struct Arguments {
    options: Vec<(String, String)>,
    file: Option<String>,
}

impl Arguments {
    fn parse(arguments: &[String]) -> Result<Arguments, String> {
        const NAMES: [&str; 25] = [
            "--drill",
            "--night",
            "--audit",
            "--list",
            "--assemble",
            "--save",
            "--resume",
            "--unshadowed",
            "--look",
            "--readout",
            "--noon",
            "--into-words",
            "--seed",
            "--steps",
            "--files",
            "--saved",
            "--reads",
            "--words",
            "--lines",
            "--alone",
            "--noons",
            "--texts",
            "--jobs",
            "--limit",
            "--out",
        ];
        let mut parsed = Arguments::default();
        let mut rest = arguments.iter();
        while let Some(argument) = rest.next() {
            if NAMES.contains(&argument.as_str()) {
                let value = rest.next().ok_or(format!("expected a value after {argument}"))?;
                parsed.options.push((argument.clone(), value.clone()));
            } else if argument.starts_with("--") {
                return Err(format!("expected one of {}, was given {argument}", NAMES.join(" ")));
            } else if parsed.file.replace(argument.clone()).is_some() {
                return Err(format!("expected one file, was given {argument} too"));
            }
        }
        Ok(parsed)
    }

    fn text(&self, name: &str) -> Option<&str> {
        let given = self.options.iter().rev().find(|(option, _)| option == name);
        given.map(|(_, value)| value.as_str())
    }

    fn number(&self, name: &str, otherwise: u64) -> Result<u64, String> {
        match self.text(name) {
            None => Ok(otherwise),
            Some(text) => number(&format!("after {name}"), text),
        }
    }

    fn program(&self, name: &str) -> Result<Option<Program>, String> {
        let limit = Duration::from_secs(self.number("--limit", 600)?);
        self.text(name).map(|line| Program::new(line, limit)).transpose()
    }

    fn seed(&self) -> Result<u64, String> {
        self.number("--seed", 1)
    }

    fn steps(&self) -> Result<u64, String> {
        self.number("--steps", 1_000_000)
    }

    fn saved(&self) -> Result<usize, String> {
        Ok(self.number("--saved", 120)? as usize)
    }

    fn files(&self) -> Result<usize, String> {
        Ok(self.number("--files", 2_000)? as usize)
    }
}

/// A number, with underscores or without.
fn number(place: &str, text: &str) -> Result<u64, String> {
    let plain: String = text.chars().filter(|&letter| letter != '_').collect();
    plain.parse().map_err(|_| format!("expected a number {place}, was given {text}"))
}

/// Prints what a program that saves leaves, and writes OUT where the words ask for it.
fn leave(words: &[String], run: impl FnOnce(&mut Counts) -> Left) -> Result<ExitCode, String> {
    let out = match words {
        [] => None,
        [save, out] if save == "save" => Some(out),
        _ => return Err(format!("expected [save OUT], was given {}", words.join(" "))),
    };
    let left = run(&mut Counts::default());
    if let (Some(out), Some(bytes)) = (out, &left.saved) {
        fs::write(out, bytes).map_err(|error| format!("{out}: {error}"))?;
    }
    print(&left.text)
}

/// Writes what a program says, on both outputs.
fn say(said: Said) -> Result<ExitCode, String> {
    write(&said.bytes)?;
    let Some(line) = said.line else {
        return Ok(ExitCode::SUCCESS);
    };
    eprintln!("{line}");
    Ok(ExitCode::FAILURE)
}

fn run_compare(arguments: &Arguments) -> Result<ExitCode, String> {
    let options = Options {
        drill: arguments.program("--drill")?,
        night: arguments.program("--night")?,
        audit: arguments.program("--audit")?,
        list: arguments.program("--list")?,
        assemble: arguments.program("--assemble")?,
        save: arguments.program("--save")?,
        resume: arguments.program("--resume")?,
        unshadowed: arguments.program("--unshadowed")?,
        look: arguments.program("--look")?,
        readout: arguments.program("--readout")?,
        noon: arguments.program("--noon")?,
        into_words: arguments.program("--into-words")?,
        seed: arguments.seed()?,
        steps: arguments.steps()?,
        files: arguments.files()?,
        saved: arguments.saved()?,
        reads: arguments.number("--reads", generate::READS as u64)? as usize,
        words: arguments.number("--words", 1 << 22)? as usize,
        lines: arguments.number("--lines", 100_000)? as usize,
        alone: arguments.number("--alone", 4_000)? as usize,
        noons: arguments.number("--noons", generate::noons::NOONS as u64)? as usize,
        texts: arguments.number("--texts", 80)? as usize,
        jobs: arguments.number("--jobs", 2)? as usize,
    };
    let programs = [
        &options.drill,
        &options.night,
        &options.audit,
        &options.list,
        &options.assemble,
        &options.save,
        &options.resume,
        &options.unshadowed,
        &options.look,
        &options.readout,
        &options.noon,
        &options.into_words,
    ];
    if programs.iter().all(|program| program.is_none()) {
        return Err("expected CMD of --drill, --night, --audit, --list, --assemble, --save, --resume, --unshadowed, --look, --readout, --noon or --into-words, was given none".into());
    }
    let outcome = compare(&options)?;
    let end = format!("emulator: {} compared, {} differ\n", outcome.compared, outcome.differ);
    print(&(outcome.report + &end))?;
    Ok(if outcome.differ == 0 { ExitCode::SUCCESS } else { ExitCode::FAILURE })
}

fn run_shrink(arguments: &Arguments) -> Result<ExitCode, String> {
    let drill = arguments.program("--drill")?.ok_or("expected --drill CMD, was given none")?;
    let (commands, wrong) = script::read(&input(arguments)?);
    if let Some(at) = wrong {
        return Err(format!("the script has a wrong command at byte {at}"));
    }
    match shrink_script(&drill, &commands) {
        Some(small) => print(&small),
        None => print("the script agrees\n"),
    }
}

/// The head of a kind 1 record.
const FIRST_HEAD: [u8; housefile::HEAD] = [8, 0, 0, 0, 1, 0];

fn show(arguments: &Arguments) -> Result<ExitCode, String> {
    let bytes = input(arguments)?;
    let name = arguments.file.as_deref().unwrap_or("-");
    let house = match name.rsplit_once('.') {
        Some((_, "house")) => true,
        Some((_, "script")) => false,
        _ => bytes.starts_with(&FIRST_HEAD),
    };
    if house {
        return print(&source::show(&bytes));
    }
    let (commands, wrong) = script::read(&bytes);
    let mut text: String = commands.iter().map(|command| format!("{command}\n")).collect();
    if let Some(at) = wrong {
        text.push_str(&format!("wrong command at {at}\n"));
    }
    print(&text)
}

/// Writes every script and file under its name, with dashes for what is not a letter or digit.
fn run_generate(arguments: &Arguments) -> Result<ExitCode, String> {
    let directory = arguments.text("--out").ok_or("expected --out DIR, was given none")?;
    fs::create_dir_all(directory).map_err(|error| format!("{directory}: {error}"))?;
    let (seed, steps) = (arguments.seed()?, arguments.steps()?);
    let scripts = named::scripts().into_iter().chain(generate::scripts(seed, steps));
    for one in scripts {
        save(directory, &one.name, "script", &script::write(&one.commands))?;
    }
    for file in named::files().into_iter().chain(generate::files(seed, arguments.files()?)) {
        save(directory, &file.name, "house", &file.bytes)?;
    }
    let saved = generate::saved_files(seed, arguments.saved()?);
    for one in named::saved_files().into_iter().chain(saved) {
        save(directory, &one.file.name, "saved", &one.file.bytes)?;
    }
    Ok(ExitCode::SUCCESS)
}

fn save(directory: &str, name: &str, kind: &str, bytes: &[u8]) -> Result<(), String> {
    let plain = |letter: char| if letter.is_ascii_alphanumeric() { letter } else { '-' };
    let name: String = name.chars().map(plain).collect();
    let path = Path::new(directory).join(format!("{name}.{kind}"));
    fs::write(&path, bytes).map_err(|error| format!("{}: {error}", path.display()))
}

/// Makes a house file from images.
fn run_noon(words: &[String]) -> Result<ExitCode, String> {
    let failed = |message: String| {
        eprintln!("failed: {message}");
        Ok(ExitCode::from(2))
    };
    match noon::noon(words, &noon::image) {
        Answer::Failed(message) => failed(message),
        Answer::Refused(number, detail) => {
            print(&format!("refused {number} {detail}\n"))?;
            Ok(ExitCode::FAILURE)
        }
        Answer::Made(text, file) => match beside::write(&words[0], &file) {
            Ok(()) => print(&text),
            Err(message) => failed(message),
        },
    }
}

/// Makes a house file. No file that it is made from is written over.
fn make(arguments: &Arguments) -> Result<ExitCode, String> {
    let out = arguments.text("--out").ok_or("expected --out FILE, was given none")?;
    let path = arguments.file.as_deref().filter(|&path| path != "-").unwrap_or("/dev/stdin");
    let text = String::from_utf8(input(arguments)?);
    let text = text.map_err(|_| format!("{path}: expected a source, which is text, in UTF-8"))?;
    spare(path, out)?;
    let folder = Path::new(path).parent().filter(|_| path != "/dev/stdin").unwrap_or(Path::new(""));
    let bytes = source::bytes_with(&text, &mut |name| {
        let image = folder.join(name);
        spare(&image.to_string_lossy(), out)?;
        fs::read(&image).map_err(|error| format!("{}: {error}", image.display()))
    });
    let bytes = bytes.map_err(|message| format!("{path}: {message}"))?;
    beside::write(out, &bytes)?;
    Ok(ExitCode::SUCCESS)
}

/// An error where the file, or the one beside it, is the input, a regular file.
fn spare(input: &str, out: &str) -> Result<(), String> {
    let file = |path: &str| {
        let found = fs::metadata(path).ok().filter(fs::Metadata::is_file);
        found.map(|of| (of.dev(), of.ino()))
    };
    let written = [file(out), file(&beside::name(out))];
    match file(input) {
        Some(input_file) if written.contains(&Some(input_file)) => {
            Err(format!("expected --out another file than {input}, which it is made from"))
        }
        _ => Ok(()),
    }
}

/// The bytes of the file, or of standard input.
fn input(arguments: &Arguments) -> Result<Vec<u8>, String> {
    input_of(arguments.file.as_deref().unwrap_or("-"))
}

fn input_of(name: &str) -> Result<Vec<u8>, String> {
    match name {
        "-" => {
            let mut bytes = Vec::new();
            io::stdin().read_to_end(&mut bytes).map_err(|error| error.to_string())?;
            Ok(bytes)
        }
        path => fs::read(path).map_err(|error| format!("{path}: {error}")),
    }
}

fn print(text: &str) -> Result<ExitCode, String> {
    write(text.as_bytes())
}

fn write(bytes: &[u8]) -> Result<ExitCode, String> {
    io::stdout().write_all(bytes).map_err(|error| error.to_string())?;
    Ok(ExitCode::SUCCESS)
}
