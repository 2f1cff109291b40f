//! Programs that take a house file or a saved file and tell of it: look, audit, readout, and list with a
//! frame.

use super::{add, describe_stretch, first_lines, in_parallel, Options, Outcome, NOT_TWICE};
use crate::counts::Counts;
use crate::generate::{self, File, Read};
use crate::housefile::PIECE;
use crate::named;
use crate::process::{Program, Reply};
use crate::reads::{audit, list_frame, look, readout, Said};
use crate::shrink::{shrink, Stretch};
use crate::tally::{self, Of, Tally};

/// Every so many files that take more than a piece, and not more than some, are also given slowly.
const SLOWLY: usize = 8;
const MOST_SLOW: usize = 4 * PIECE;

/// Compares all that the options ask for of such programs.
pub fn compare_reads(options: &Options, outcome: &mut Outcome) -> Result<(), String> {
    let program = |of: Of| match of {
        Of::Look => &options.look,
        Of::Audit => &options.audit,
        Of::Readout => &options.readout,
        Of::List => &options.list,
    };
    if options.reads == 0 || Of::ALL.iter().all(|&of| program(of).is_none()) {
        return Ok(());
    }
    let mut files = named::files();
    files.extend(named::saved_files().into_iter().map(|saved| saved.file));
    let mut reads = generate::named_reads(files);
    let named = reads.len();
    reads.extend(generate::reads(options.seed, options.reads));
    let line = format!("named files to be read: {named}, random: {}", options.reads);
    add(&mut outcome.report, &line);
    for of in Of::ALL {
        if let Some(program) = program(of) {
            compare_side(&Side { of, program }, &reads, named, options, outcome)?;
        }
    }
    Ok(())
}

/// A program, by what it tells.
struct Side<'a> {
    of: Of,
    program: &'a Program,
}

impl Side<'_> {
    fn ours(&self, read: &Read, counts: &mut Counts) -> Said {
        let bytes = &read.file.bytes;
        match self.of {
            Of::Look => Said::text(look(bytes, counts)),
            Of::Audit => Said::text(audit(bytes, counts)),
            Of::Readout => readout(bytes, &read.words, counts),
            Of::List => list_frame(bytes, &read.frame, counts),
        }
    }

    fn theirs(&self, read: &Read, slowly: bool) -> Result<Said, String> {
        let words: Vec<&str> = match self.of {
            Of::Look | Of::Audit => Vec::new(),
            Of::Readout => read.words.iter().map(String::as_str).collect(),
            Of::List => vec![&read.frame],
        };
        let program = self.program.with(&words);
        let bytes = &read.file.bytes;
        Ok(said(if slowly { program.run_slowly(bytes)? } else { program.run(bytes)? }))
    }

    /// What the program says, if it is something else.
    fn differs(&self, read: &Read, slowly: bool) -> Result<Option<Said>, String> {
        let ours = self.ours(read, &mut Counts::default());
        let slow = if slowly { Some(self.theirs(read, true)?) } else { None };
        let both = [Some(self.theirs(read, false)?), slow];
        Ok(both.into_iter().flatten().find(|theirs| *theirs != ours))
    }

    /// Tells where both differ, and the smallest file on which they do.
    fn explain(&self, read: &Read, theirs: &Said) -> String {
        let (name, words) = (self.of.name(), read.words.join(" "));
        let mut text = format!("file \"{}\" differs in {name}:\n", read.file.name);
        match self.of {
            Of::Look | Of::Audit => {}
            Of::Readout => add(&mut text, &format!("  readout FILE {words}")),
            Of::List => add(&mut text, &format!("  list FILE {}", read.frame)),
        }
        let both = (lines(&self.ours(read, &mut Counts::default())), lines(theirs));
        text.push_str(&first_lines(&both.0, &both.1));
        let again = |stretches: &Vec<Stretch>| {
            let file = File { name: String::new(), bytes: Stretch::join(stretches) };
            let read = Read { file, ..read.clone() };
            self.differs(&read, false).is_ok_and(|theirs| theirs.is_some())
        };
        let parts = Stretch::split(&read.file.bytes);
        if !again(&parts) {
            return text + NOT_TWICE;
        }
        let small = shrink(parts, &mut |attempts| attempts.iter().position(again));
        add(&mut text, &format!("smallest file, {} records:", small.len()));
        small.iter().for_each(|stretch| text.push_str(&describe_stretch(stretch)));
        text
    }
}

/// The text of both outputs; what is no text is escaped.
pub(super) fn lines(said: &Said) -> String {
    let line = said.line.clone().unwrap_or_default();
    match std::str::from_utf8(&said.bytes) {
        Ok(text) => format!("{text}{line}"),
        Err(_) => format!("{}\n{line}", said.bytes.escape_ascii()),
    }
}

/// What a program said. How it ended counts only where it told no refusal.
pub(super) fn said(reply: Reply) -> Said {
    let first = reply.errors.lines().next().unwrap_or_default();
    let line = match first {
        _ if first.starts_with("failed:") => Some("failed:".to_string()),
        _ if first.starts_with("refused: ") => Some(first.to_string()),
        _ => reply.trouble.filter(|_| !reply.bytes.starts_with(b"refused ")),
    };
    Said { bytes: reply.bytes, line }
}

fn compare_side(
    side: &Side<'_>,
    reads: &[Read],
    named: usize,
    options: &Options,
    outcome: &mut Outcome,
) -> Result<(), String> {
    let results = in_parallel(reads.len(), options.jobs, |at| {
        let size = reads[at].file.bytes.len();
        let slowly = at.is_multiple_of(SLOWLY) && (PIECE + 1..MOST_SLOW).contains(&size);
        side.differs(&reads[at], slowly)
    });
    let mut differ = 0;
    for (read, result) in reads.iter().zip(results) {
        if let Some(theirs) = result? {
            if differ == 0 {
                outcome.report.push_str(&side.explain(read, &theirs));
            }
            differ += 1;
        }
    }
    let mut tally = Tally::default();
    reads[named..].iter().for_each(|read| tally.read(side.of, read));
    outcome.compared += reads.len() as u64;
    outcome.differ += differ;
    let name = side.of.name();
    let report = &mut outcome.report;
    add(report, &format!("kinds of {name}: {tally}"));
    for (kind, met) in tally.seldom(side.of, options.reads) {
        add(report, &format!("too seldom in {name}: {kind}: {met}"));
        outcome.differ += 1;
    }
    let least = tally::least(options.reads);
    add(report, &format!("files of {name} {}, of each kind at least {least}", reads.len()));
    Ok(())
}
