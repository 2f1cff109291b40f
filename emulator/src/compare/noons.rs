//! Command lines that make house files from images.

use std::collections::{BTreeMap, HashMap};
use std::fs;
use std::path::Path;

use super::reads::{lines, said};
use super::saves::{name, Folder};
use super::{add, first_lines, in_parallel, Options, Outcome, NOT_TWICE};
use crate::beside;
use crate::generate::noons::{kinds, noons, Held, Noon, Word};
use crate::housefile::{read, HouseFile};
use crate::noon::{noon, Answer};
use crate::process::Program;
use crate::reads::Said;
use crate::shrink::{shrink, Piece};
use crate::source;
use crate::tally;

/// What a file of the name OUT has before.
const OLD: &[u8] = b"old";
/// A folder of this name is in the folder of the images.
const FOLDER: &str = "folder";

/// Compares all that the options ask for of such command lines.
pub fn compare_noons(options: &Options, outcome: &mut Outcome) -> Result<(), String> {
    let Some(program) = &options.noon else {
        return Ok(());
    };
    let folder = Folder::new("noon")?;
    let noons = noons(options.seed, options.noons);
    let results = in_parallel(noons.len(), options.jobs, |at| {
        let case = Case { noon: &noons[at], program, folder: &folder };
        case.compare(&noons[at].words, &noons[at].images)
    });
    let mut tally: BTreeMap<&str, u64> = kinds().map(|kind| (kind, 0)).collect();
    let (mut answers, mut again) = (BTreeMap::new(), 0);
    let mut differ = 0;
    for (noon, result) in noons.iter().zip(results) {
        let (ours, theirs) = result?;
        *tally.entry(noon.kind).or_default() += 1;
        *answers.entry(ours.answer()).or_insert(0u64) += 1;
        let case = Case { noon, program, folder: &folder };
        let wrong = if ours == theirs { case.contents(&theirs) } else { None };
        again += u64::from(ours.made && noon.plan.is_some());
        if ours == theirs && wrong.is_none() {
            continue;
        }
        if differ == 0 {
            outcome.report.push_str(&case.explain(&ours, &theirs, wrong));
        }
        differ += 1;
    }
    outcome.compared += noons.len() as u64;
    outcome.differ += differ;
    let report = &mut outcome.report;
    let told = |of: Vec<String>| of.join("; ");
    let kinds = tally.iter().map(|(kind, met)| format!("{kind}:{met}")).collect();
    add(report, &format!("kinds of noon: {}", told(kinds)));
    let answers = answers.iter().map(|(answer, met)| format!("{answer}:{met}")).collect();
    add(report, &format!("answers of noon: {}", told(answers)));
    let least = tally::least(options.noons);
    for (kind, met) in tally.iter().filter(|(_, &met)| met < least) {
        add(report, &format!("too seldom in noon: {kind}: {met}"));
        outcome.differ += 1;
    }
    add(
        report,
        &format!(
            "command lines of noon {}, of each kind at least {least}; files read and made again from a source {again}",
            noons.len()
        ),
    );
    Ok(())
}

/// What is left behind.
#[derive(Clone, Debug, PartialEq, Eq)]
struct Left {
    said: Said,
    /// The bytes under the name OUT.
    out: Option<Vec<u8>>,
    /// Whether a file is left beside it.
    beside: bool,
    /// Whether a house file was made.
    made: bool,
}

impl Left {
    /// The answer, for counting.
    fn answer(&self) -> String {
        let text = String::from_utf8_lossy(&self.said.bytes).into_owned();
        match &self.said.line {
            Some(line) => line.trim_end_matches(':').to_string(),
            None if self.made => "made".into(),
            None => text.split(' ').take(2).collect::<Vec<_>>().join(" "),
        }
    }
}

/// A command line for the other program, in a folder.
struct Case<'a> {
    noon: &'a Noon,
    program: &'a Program,
    folder: &'a Folder,
}

impl Case<'_> {
    /// What this emulator leaves, and what the other program does.
    fn compare(&self, words: &[Word], images: &[Held]) -> Result<(Left, Left), String> {
        let place = self.folder.path("images");
        let told = |error: std::io::Error| format!("{}: {error}", place.display());
        fs::create_dir_all(place.join(FOLDER)).map_err(told)?;
        for held in images {
            let path = place.join(&held.name);
            match &held.bytes {
                Some(bytes) => fs::write(path, bytes).map_err(told)?,
                None => fs::create_dir_all(path).map_err(told)?,
            }
        }
        let text: Vec<String> = words.iter().map(|word| spelled(word, &place)).collect();
        let out = text.first().cloned().unwrap_or_default();
        let old = self.noon.old && words.first() == Some(&Word::Path("out".into()));
        if old {
            fs::write(&out, OLD).map_err(told)?;
        }
        let ours = self.ours(&text, images, &place, old);
        let words: Vec<&str> = text.iter().map(String::as_str).collect();
        let said = said(self.program.with(&words).run(b"")?);
        let made = said.line.is_none() && !said.bytes.starts_with(b"refused ");
        let beside = fs::symlink_metadata(beside::name(&out)).is_ok();
        let theirs = Left { said, out: fs::read(&out).ok(), beside, made };
        fs::remove_dir_all(&place).map_err(told)?;
        Ok((ours, theirs))
    }

    fn ours(&self, words: &[String], images: &[Held], place: &Path, old: bool) -> Left {
        let held: HashMap<String, &Held> =
            images.iter().map(|held| (name(&place.join(&held.name)), held)).collect();
        let answer = noon(words, &|name| {
            let bytes = held.get(name).and_then(|held| held.bytes.clone());
            bytes.ok_or(format!("{name}: there is none"))
        });
        let before = old.then(|| OLD.to_vec());
        let (said, out, made) = match answer {
            Answer::Failed(_) => (Said::failed(), before, false),
            Answer::Refused(number, detail) => {
                (Said::text(format!("refused {number} {detail}\n")), before, false)
            }
            // There is no folder for it, or one in its place.
            Answer::Made(..) if words[0] != name(&place.join("out")) => {
                (Said::failed(), before, false)
            }
            Answer::Made(text, file) => (Said::text(text), Some(file), true),
        };
        Left { said, out, beside: false, made }
    }

    /// What is wrong with the contents of a file that was made, by what was asked for.
    fn contents(&self, left: &Left) -> Option<String> {
        let plan = self.noon.plan.as_ref().filter(|_| left.made)?;
        let bytes = left.out.as_deref().unwrap_or_default();
        let lists: Vec<Vec<u32>> = plan.partitions.iter().map(|part| part.frames.clone()).collect();
        let asked = HouseFile { q: plan.q, steps: plan.steps, lists, memory: plan.memory() };
        if read(bytes) != Ok(asked) {
            return Some("the file has something else than was asked for".into());
        }
        match source::bytes(&plan.source()) {
            Ok(made) if made == bytes => None,
            Ok(_) => Some("a source with the same contents makes another file".into()),
            Err(message) => Some(format!("a source with the same contents is wrong: {message}")),
        }
    }

    /// Tells where both differ, and the smallest command line that still does.
    fn explain(&self, ours: &Left, theirs: &Left, wrong: Option<String>) -> String {
        let mut text = format!("command line \"{}\" differs in noon:\n", self.noon.name);
        if let Some(wrong) = wrong {
            add(&mut text, &format!("  {wrong}"));
            add(&mut text, "smallest command line:");
            return text + &described(&parts(self.noon));
        }
        text.push_str(&difference(ours, theirs));
        let mut last = None;
        let mut again = |parts: &Vec<Part>| {
            let (words, images) = divided(parts);
            let found = self.compare(&words, &images).ok().filter(|(ours, theirs)| ours != theirs);
            let differs = found.is_some();
            last = found.or(last.take());
            differs
        };
        let all = parts(self.noon);
        if !again(&all) {
            return text + NOT_TWICE;
        }
        let small = shrink(all, &mut |attempts| attempts.iter().position(&mut again));
        add(&mut text, "smallest command line:");
        text.push_str(&described(&small));
        if let Some((ours, theirs)) = last {
            text.push_str(&difference(&ours, &theirs));
        }
        text
    }
}

fn spelled(word: &Word, place: &Path) -> String {
    match word {
        Word::Plain(text) => text.clone(),
        Word::Path(text) => format!("{}/{text}", place.display()),
    }
}

/// A word of the command line, or an image.
#[derive(Clone)]
enum Part {
    Word(Word),
    Image(Held),
}

impl Piece for Part {
    fn simpler(&self) -> Vec<Self> {
        let Part::Image(Held { name, bytes: Some(bytes) }) = self else {
            return Vec::new();
        };
        // What is no whole number of words stays so, too.
        let (size, part) = (bytes.len(), bytes.len() % 4);
        let half = size / 8 * 4;
        let shorter = [part, 4, 4 + part, half, half + part, size.saturating_sub(4)];
        let shorter = shorter.into_iter().filter(|&length| length < size);
        let held = |bytes: &[u8]| Held { name: name.clone(), bytes: Some(bytes.to_vec()) };
        shorter.map(|length| Part::Image(held(&bytes[..length]))).collect()
    }
}

fn parts(noon: &Noon) -> Vec<Part> {
    let words = noon.words.iter().cloned().map(Part::Word);
    words.chain(noon.images.iter().cloned().map(Part::Image)).collect()
}

fn divided(parts: &[Part]) -> (Vec<Word>, Vec<Held>) {
    let (mut words, mut images) = (Vec::new(), Vec::new());
    for part in parts {
        match part {
            Part::Word(word) => words.push(word.clone()),
            Part::Image(held) => images.push(held.clone()),
        }
    }
    (words, images)
}

/// The words, then the images, each with its bytes in hex if they are few.
fn described(parts: &[Part]) -> String {
    let (words, images) = divided(parts);
    let words: Vec<String> = words
        .iter()
        .map(|word| match word {
            Word::Plain(text) => format!("'{text}'"),
            Word::Path(text) => format!("'FOLDER/{text}'"),
        })
        .collect();
    let mut text = format!("  noon {}\n", words.join(" "));
    for Held { name, bytes } in &images {
        let held = match bytes {
            None => "a folder".to_string(),
            Some(bytes) if bytes.len() <= 32 => super::hex(bytes),
            Some(bytes) => format!("{} bytes, {} ..", bytes.len(), super::hex(&bytes[..32])),
        };
        add(&mut text, &format!("  {name}: {held}"));
    }
    text
}

/// The first line that differs, or the first byte of the files that does.
fn difference(ours: &Left, theirs: &Left) -> String {
    if ours.said != theirs.said {
        return first_lines(&lines(&ours.said), &lines(&theirs.said));
    }
    let told = |left: &Left| {
        let out = match &left.out {
            None => "no file".to_string(),
            Some(bytes) => format!("a file of {} bytes", bytes.len()),
        };
        format!("{out}{}", if left.beside { ", and one beside it" } else { "" })
    };
    let place = match (&ours.out, &theirs.out) {
        (Some(ours), Some(theirs)) => {
            let same = ours.iter().zip(theirs).take_while(|(one, other)| one == other).count();
            format!("  the first byte that differs: {same}\n")
        }
        _ => String::new(),
    };
    format!("  expected: {}\n  given:    {}\n{place}", told(ours), told(theirs))
}
