//! Listings by other programs: words listed, and lines assembled.

use std::collections::BTreeMap;

use super::{add, first_lines, in_parallel, Options, Outcome, NOT_TWICE};
use crate::decimals;
use crate::generate::listings::{around, boundary_words, damaged, damages, words, Damaged};
use crate::generate::{self, File};
use crate::housefile::{word_bytes, PIECE};
use crate::listing::{list, word};
use crate::named;
use crate::process::{Program, Reply};
use crate::rng::Rng;
use crate::shrink::{shrink, Piece};

/// Words that one start of a program gets.
const BATCH: usize = 1 << 16;
/// Lines of which none can be left out, as far as one can wait for it: more are told as they are.
const MANY: usize = 1 << 17;
/// Bytes of a line that is made shorter to be shown.
const LONG: usize = 40;

/// Compares all that the options ask for of listings.
pub fn compare_listings(options: &Options, outcome: &mut Outcome) -> Result<(), String> {
    if let Some(program) = &options.list {
        compare_words(&Side { name: "list", program, ours: listed }, options, outcome)?;
    }
    if let Some(program) = &options.assemble {
        let side = Side { name: "assemble", program, ours: assembled };
        compare_words(&side, options, outcome)?;
        compare_lines(&side, options, outcome)?;
    }
    if let Some(program) = &options.into_words {
        let side = Side { name: "words", program, ours: worded };
        compare_decimals(&side, options, outcome)?;
    }
    Ok(())
}

/// A program, and what this emulator says of the same bytes.
struct Side<'a> {
    name: &'static str,
    program: &'a Program,
    ours: fn(&[u8]) -> Said,
}

/// What a program writes, and the line by which it refuses or tells that it failed.
#[derive(Clone, Debug, PartialEq, Eq)]
struct Said {
    bytes: Vec<u8>,
    refused: Option<String>,
}

impl Said {
    fn done(bytes: Vec<u8>) -> Said {
        Said { bytes, refused: None }
    }

    fn of(reply: Reply) -> Said {
        let first = reply.errors.lines().next().filter(|line| line.starts_with("refused: "));
        let refused = first.map(str::to_string).or(reply.trouble);
        Said { bytes: reply.bytes, refused }
    }
}

/// Only whole words are given to be listed.
fn listed(bytes: &[u8]) -> Said {
    let words = crate::listing::words(bytes).unwrap_or_default();
    Said::done(list(&words).into_bytes())
}

fn assembled(text: &[u8]) -> Said {
    match crate::listing::assembled(text) {
        Ok(bytes) => Said::done(bytes),
        Err(refused) => Said { bytes: Vec::new(), refused: Some(refused) },
    }
}

fn worded(text: &[u8]) -> Said {
    match decimals::words(text) {
        Ok(bytes) => Said::done(bytes),
        Err(refused) => Said { bytes: Vec::new(), refused: Some(refused) },
    }
}

impl Side<'_> {
    /// What the other program says, if it is something else. What takes more than a piece is also given
    /// slowly where that is asked for.
    fn differs(&self, input: &[u8], slowly: bool) -> Result<Option<Said>, String> {
        let ours = (self.ours)(input);
        let mut replies = vec![self.program.run(input)?];
        if slowly && input.len() > PIECE {
            replies.push(self.program.run_slowly(input)?);
        }
        Ok(replies.into_iter().map(Said::of).find(|theirs| *theirs != ours))
    }

    /// Compares what each number below `count` gives; tells of the first difference, and how many there
    /// are.
    fn compare(
        &self,
        count: usize,
        jobs: usize,
        input: &(dyn Fn(usize) -> Vec<u8> + Sync),
        slowly: bool,
    ) -> Result<(u64, String), String> {
        let results = in_parallel(count, jobs, |at| self.differs(&input(at), slowly));
        let (mut differ, mut text) = (0, String::new());
        for (at, result) in results.into_iter().enumerate() {
            if let Some(theirs) = result? {
                if differ == 0 {
                    text = self.explain(&input(at), &theirs);
                }
                differ += 1;
            }
        }
        Ok((differ, text))
    }

    fn explain(&self, input: &[u8], theirs: &Said) -> String {
        let mut text = format!("{} differs:\n", self.name);
        text.push_str(&self.both(input, theirs));
        let of_words = self.name == "list";
        let again = |parts: &Vec<Part>| {
            self.differs(&Part::join(parts), true).is_ok_and(|theirs| theirs.is_some())
        };
        let parts = Part::split(input, of_words);
        if !again(&parts) {
            return text + NOT_TWICE;
        }
        if parts.len() > MANY {
            let many = parts.len();
            add(&mut text, &format!("smallest input: none is looked for among {many} lines"));
            return text;
        }
        let small = Part::join(&shrink(parts, &mut |attempts| attempts.iter().position(again)));
        add(&mut text, &format!("smallest input, {} bytes:", small.len()));
        let shown = if of_words { listed(&small).bytes } else { small.clone() };
        for line in shown.split_inclusive(|&byte| byte == b'\n') {
            add(&mut text, &format!("  {}", line.escape_ascii()));
        }
        if let Ok(Some(theirs)) = self.differs(&small, true) {
            text.push_str(&self.both(&small, &theirs));
        }
        text
    }

    /// The first line in which both outputs differ; words are listed for that.
    fn both(&self, input: &[u8], theirs: &Said) -> String {
        let lines = |said: &Said| {
            let refused = said.refused.clone().unwrap_or_default();
            let text = match crate::listing::words(&said.bytes) {
                Some(words) if self.name == "assemble" => list(&words),
                Some(words) if self.name == "words" => {
                    words.iter().map(|word| format!("{word}\n")).collect()
                }
                _ => String::from_utf8_lossy(&said.bytes).into_owned(),
            };
            text + &refused
        };
        first_lines(&lines(&(self.ours)(input)), &lines(theirs))
    }
}

/// A word of four bytes, or a line with its newline.
#[derive(Clone)]
struct Part(Vec<u8>);

impl Part {
    fn split(bytes: &[u8], of_words: bool) -> Vec<Part> {
        let part = |bytes: &[u8]| Part(bytes.to_vec());
        if of_words {
            return bytes.chunks(4).map(part).collect();
        }
        bytes.split_inclusive(|&byte| byte == b'\n').map(part).collect()
    }

    fn join(parts: &[Part]) -> Vec<u8> {
        parts.iter().flat_map(|part| part.0.iter().copied()).collect()
    }
}

impl Piece for Part {
    /// A long line without a part of it, at its start or behind that.
    fn simpler(&self) -> Vec<Self> {
        let bytes = &self.0;
        let parts = [bytes.len() / 2, bytes.len() / 8, 1];
        let cut =
            |part: usize| [[&bytes[..1], &bytes[1 + part..]].concat(), bytes[part..].to_vec()];
        let long = parts.into_iter().filter(|_| bytes.len() > LONG);
        long.flat_map(cut).map(Part).collect()
    }
}

/// The random words of a batch.
fn batch(seed: u64, at: usize) -> Vec<u32> {
    words(&mut Rng::new(seed ^ (at as u64) << 40), BATCH)
}

/// Many words, to be listed or from their lines: those at the ends of all operands, and random ones.
fn compare_words(side: &Side, options: &Options, outcome: &mut Outcome) -> Result<(), String> {
    let input = |words: &[u32]| match side.name {
        "list" => word_bytes(words),
        _ => list(words).into_bytes(),
    };
    let ends = boundary_words();
    let first = side.compare(1, 1, &|_| input(&ends), true)?;
    let batches = options.words.div_ceil(BATCH);
    let rest = side.compare(batches, options.jobs, &|at| input(&batch(options.seed, at)), false)?;
    note(outcome, [first, rest], (1 + batches) as u64);
    let line = format!("words of {}: {}, random: {}", side.name, ends.len(), batches * BATCH);
    add(&mut outcome.report, &line);
    Ok(())
}

fn note(outcome: &mut Outcome, found: [(u64, String); 2], compared: u64) {
    outcome.compared += compared;
    for (differ, text) in found {
        outcome.differ += differ;
        outcome.report.push_str(&text);
    }
}

/// Named texts, then damaged lines: all that are right in few texts, each wrong one in a text of its own,
/// since only the first wrong line of a text is told.
fn compare_lines(side: &Side, options: &Options, outcome: &mut Outcome) -> Result<(), String> {
    let texts: Vec<File> = named::texts();
    let named = side.compare(texts.len(), options.jobs, &|at| texts[at].bytes.clone(), true)?;
    let lines = damaged(options.seed, options.lines);
    let (right, wrong): (Vec<&Damaged>, Vec<&Damaged>) =
        lines.iter().partition(|damaged| word(&damaged.line).is_some());
    let alone = spread(&wrong, options.alone);
    let mut together: Vec<Vec<u8>> = right.chunks(BATCH).map(joined).collect();
    for (at, damaged) in alone.iter().enumerate() {
        together.push(around(&mut Rng::new(!options.seed ^ at as u64), &damaged.line));
    }
    let random = side.compare(together.len(), options.jobs, &|at| together[at].clone(), false)?;
    note(outcome, [named, random], (texts.len() + together.len()) as u64);
    let report = &mut outcome.report;
    add(report, &format!("named texts: {}, random: {}", texts.len(), together.len()));
    for by in damages() {
        let count = |of: &[&Damaged]| of.iter().filter(|damaged| damaged.by == by).count();
        let line = format!(
            "  {by}: right {}, wrong {}, of which told {}",
            count(&right),
            count(&wrong),
            count(&alone)
        );
        add(report, &line);
    }
    let (all, right, told) = (lines.len(), right.len(), alone.len());
    add(report, &format!("damaged lines: {all}, right {right}, wrong and told {told}"));
    Ok(())
}

/// Texts of decimals at the limits, and random ones.
fn compare_decimals(side: &Side, options: &Options, outcome: &mut Outcome) -> Result<(), String> {
    let named = generate::decimals::named();
    let random = generate::decimals::texts(options.seed, options.texts);
    let bytes = |texts: &[File], at: usize| texts[at].bytes.clone();
    let first = side.compare(named.len(), options.jobs, &|at| bytes(&named, at), true)?;
    let rest = side.compare(random.len(), options.jobs, &|at| bytes(&random, at), false)?;
    note(outcome, [first, rest], (named.len() + random.len()) as u64);
    let mut told: BTreeMap<String, usize> = BTreeMap::new();
    for text in named.iter().chain(&random) {
        let said = worded(&text.bytes);
        let number = said.refused.as_deref().and_then(|line| line.get(9..11));
        *told.entry(number.unwrap_or("right").to_string()).or_default() += 1;
    }
    let told: Vec<String> = told.iter().map(|(number, many)| format!("{number}:{many}")).collect();
    let told = told.join(" ");
    let (named, random) = (named.len(), random.len());
    let line = format!("texts of words by number: {told}; named: {named}, random: {random}");
    add(&mut outcome.report, &line);
    Ok(())
}

fn joined(lines: &[&Damaged]) -> Vec<u8> {
    lines.iter().flat_map(|damaged| [&damaged.line[..], b"\n"].concat()).collect()
}

/// At most so many of them, at even distances.
fn spread<'a>(all: &[&'a Damaged], most: usize) -> Vec<&'a Damaged> {
    let many = all.len().min(most);
    (0..many).map(|at| all[at * all.len() / many]).collect()
}
