//! Programs that get their files by name: house files that are run and saved, or run without shadows,
//! and saved files that go on.

use std::path::{Path, PathBuf};
use std::sync::atomic::{AtomicU64, Ordering};
use std::{env, fs, process};

use super::{
    add, describe_stretch, file_text, first_lines, in_parallel, Options, Outcome, NOT_TWICE,
};
use crate::counts::Counts;
use crate::generate::{self, File, Saved};
use crate::housefile::{night_saved, Left};
use crate::memory::Engine;
use crate::named;
use crate::process::Program;
use crate::saved::resume;
use crate::shrink::{shrink, Stretch};

/// Compares all that the options ask for of saved files.
pub fn compare_saves(options: &Options, outcome: &mut Outcome) -> Result<(), String> {
    if let Some(program) = &options.save {
        let mut files = named::files();
        files.extend(generate::whole_files(options.seed, options.saved / 2));
        // No house file: refused.
        files.extend(named::saved_files().into_iter().take(1).map(|saved| saved.file));
        let case = |file| Case { file, steps: None, engine: Engine::Shadowed, save: Save::Out };
        compare_cases("save", program, files.into_iter().map(case).collect(), options, outcome)?;
    }
    if let Some(program) = &options.resume {
        let mut files = named::saved_files();
        files.extend(generate::saved_files(options.seed, options.saved));
        let case = |(at, Saved { file, steps }): (usize, Saved)| {
            let save = if at.is_multiple_of(4) { Save::Over } else { Save::Out };
            Case { file, steps: Some(steps), engine: Engine::Shadowed, save }
        };
        let cases = files.into_iter().enumerate().map(case).collect();
        compare_cases("resume", program, cases, options, outcome)?;
    }
    if let Some(program) = &options.unshadowed {
        let mut files = named::files();
        files.extend(generate::files(options.seed, options.saved));
        files.extend(generate::whole_files(options.seed, options.saved / 2));
        let case = |(at, file): (usize, File)| {
            let save = if at.is_multiple_of(3) { Save::Nowhere } else { Save::Out };
            Case { file, steps: None, engine: Engine::Walking, save }
        };
        let cases = files.into_iter().enumerate().map(case).collect();
        compare_cases("unshadowed", program, cases, options, outcome)?;
    }
    Ok(())
}

/// A house file, or a saved file that goes on for some steps.
#[derive(Clone)]
struct Case {
    file: File,
    steps: Option<u64>,
    engine: Engine,
    save: Save,
}

/// Where the house is saved at the end: nowhere, as another file, or over the one that was read.
#[derive(Clone, Copy, PartialEq, Eq)]
enum Save {
    Nowhere,
    Out,
    Over,
}

impl Case {
    /// What this emulator leaves. The file that is saved without shadows is the one that is saved with
    /// them.
    fn ours(&self, counts: &mut Counts) -> Left {
        let bytes = &self.file.bytes;
        let left = match self.steps {
            None => night_saved(bytes, self.engine, counts),
            Some(steps) => resume(bytes, steps, self.engine, counts),
        };
        let saved = match self.engine {
            _ if self.save == Save::Nowhere => None,
            Engine::Shadowed => left.saved,
            Engine::Walking => night_saved(bytes, Engine::Shadowed, &mut Counts::default()).saved,
        };
        // Where anything is refused the file that was read stays.
        let kept = || (self.save == Save::Over).then(|| bytes.clone());
        Left { saved: saved.or_else(kept), ..left }
    }

    /// What the program leaves.
    fn theirs(&self, program: &Program, folder: &Folder) -> Result<Left, String> {
        let from = folder.path("from");
        let out = if self.save == Save::Over { from.clone() } else { folder.path("out") };
        fs::write(&from, &self.file.bytes)
            .map_err(|error| format!("{}: {error}", from.display()))?;
        let steps = self.steps.map(|steps| steps.to_string());
        let (from_name, out_name) = (name(&from), name(&out));
        let mut words = vec![&from_name[..]];
        words.extend(steps.as_deref());
        if self.engine == Engine::Walking {
            words.push("unshadowed");
        }
        if self.save != Save::Nowhere {
            words.extend(["save", &out_name]);
        }
        let text = file_text(program.with(&words).run(b"")?);
        let saved = fs::read(&out).ok();
        for path in [&from, &out] {
            // A file that is not there need not be removed.
            let _ = fs::remove_file(path);
        }
        Ok(Left { text, saved })
    }

    fn with(&self, stretches: &[Stretch]) -> Case {
        let file = File { name: String::new(), bytes: Stretch::join(stretches) };
        Case { file, ..self.clone() }
    }
}

pub(super) fn name(path: &Path) -> String {
    path.to_string_lossy().into_owned()
}

/// A folder for the files that the programs read and write; it goes with its owner.
pub(super) struct Folder {
    path: PathBuf,
    next: AtomicU64,
}

impl Folder {
    pub(super) fn new(name: &str) -> Result<Folder, String> {
        let path = env::temp_dir().join(format!("emulator-{}-{name}", process::id()));
        fs::create_dir_all(&path).map_err(|error| format!("{}: {error}", path.display()))?;
        Ok(Folder { path, next: AtomicU64::new(0) })
    }

    /// A name that no other file has.
    pub(super) fn path(&self, kind: &str) -> PathBuf {
        let number = self.next.fetch_add(1, Ordering::Relaxed);
        self.path.join(format!("{kind}-{number}"))
    }
}

impl Drop for Folder {
    fn drop(&mut self) {
        // What cannot be removed is left in the folder for such files.
        let _ = fs::remove_dir_all(&self.path);
    }
}

fn compare_cases(
    name: &str,
    program: &Program,
    cases: Vec<Case>,
    options: &Options,
    outcome: &mut Outcome,
) -> Result<(), String> {
    let folder = Folder::new(name)?;
    let results = in_parallel(cases.len(), options.jobs, |at| {
        let mut counts = Counts::default();
        let ours = cases[at].ours(&mut counts);
        cases[at].theirs(program, &folder).map(|theirs| (counts, ours, theirs))
    });
    let (mut total, mut saved, mut differ) = (Counts::default(), 0, 0);
    for (case, result) in cases.iter().zip(results) {
        let (counts, ours, theirs) = result?;
        total += &counts;
        saved += u64::from(ours.saved.is_some() && !ours.text.starts_with("refused "));
        if ours != theirs {
            if differ == 0 {
                outcome.report.push_str(&explain(name, program, &folder, case, (&ours, &theirs)));
            }
            differ += 1;
        }
    }
    outcome.compared += cases.len() as u64;
    outcome.differ += differ;
    let report = &mut outcome.report;
    add(report, &format!("files of {name} by number: {}", total.answers_text()));
    add(report, &format!("files of {name} {}, of them saved {saved}", cases.len()));
    Ok(())
}

/// Tells where both differ, and the smallest file on which they do.
fn explain(
    name: &str,
    program: &Program,
    folder: &Folder,
    case: &Case,
    both: (&Left, &Left),
) -> String {
    let steps = case.steps.map_or(String::new(), |steps| format!(" for {steps} steps"));
    let mut text = format!("file \"{}\" differs in {name}{steps}:\n", case.file.name);
    text.push_str(&difference(both.0, both.1));
    let differs = |stretches: &Vec<Stretch>| {
        let case = case.with(stretches);
        let ours = case.ours(&mut Counts::default());
        case.theirs(program, folder).is_ok_and(|theirs| theirs != ours)
    };
    let parts = Stretch::split(&case.file.bytes);
    if !differs(&parts) {
        return text + NOT_TWICE;
    }
    let small = shrink(parts, &mut |attempts| attempts.iter().position(differs));
    add(&mut text, &format!("smallest file, {} records:", small.len()));
    small.iter().for_each(|stretch| text.push_str(&describe_stretch(stretch)));
    text
}

/// The first line that differs, or the first byte of the saved files that does.
fn difference(ours: &Left, theirs: &Left) -> String {
    if ours.text != theirs.text {
        return first_lines(&ours.text, &theirs.text);
    }
    let told = |saved: &Option<Vec<u8>>| match saved {
        None => "no saved file".to_string(),
        Some(bytes) => format!("a saved file of {} bytes", bytes.len()),
    };
    let place = match (&ours.saved, &theirs.saved) {
        (Some(ours), Some(theirs)) => {
            let same = ours.iter().zip(theirs).take_while(|(one, other)| one == other).count();
            format!("  the first byte that differs: {same}\n")
        }
        _ => String::new(),
    };
    format!("  expected: {}\n  given:    {}\n{place}", told(&ours.saved), told(&theirs.saved))
}
