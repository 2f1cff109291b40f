//! Compares another program with this emulator, on scripts, on house files, on saved files, on listings
//! and on command lines that make house files.

mod listings;
mod noons;
mod reads;
mod saves;

use std::fmt::Write;
use std::sync::atomic::{AtomicUsize, Ordering};
use std::sync::Mutex;
use std::thread;

use crate::counts::Counts;
use crate::generate::{self, File, Script};
use crate::housefile::{self, PIECE};
use crate::named;
use crate::process::{Program, Reply};
use crate::reads::audit;
use crate::script::{self, Command, Player};
use crate::shrink::{shrink, Stretch};

/// About how many bytes of scripts one start of the program gets.
const BATCH_BYTES: usize = 1 << 20;

/// What to tell of a difference that does not come back.
const NOT_TWICE: &str = "a second time it agrees: the program does not answer the same twice\n";

/// What to compare.
#[derive(Clone, Debug)]
pub struct Options {
    /// Plays a script on standard input.
    pub drill: Option<Program>,
    /// Reads a house file on standard input and prints the report.
    pub night: Option<Program>,
    /// Reads a house file or a saved one on standard input and prints the stale entries.
    pub audit: Option<Program>,
    /// Lists the words on standard input; with the number of a frame, those of a file there.
    pub list: Option<Program>,
    /// Assembles the lines on standard input.
    pub assemble: Option<Program>,
    /// Runs the house file named by its first word and saves, for `save OUT`.
    pub save: Option<Program>,
    /// Goes on with the saved file named by its first word, for so many steps, and saves.
    pub resume: Option<Program>,
    /// Runs the house file named by its first word, for `unshadowed`, by the engine without shadows.
    pub unshadowed: Option<Program>,
    /// Reads a house file or a saved one on standard input and tells what each partition came to.
    pub look: Option<Program>,
    /// Reads such a file, too, and prints the words that `PARTITION ADDRESS COUNT [raw|signed]` ask for.
    pub readout: Option<Program>,
    /// Makes the house file that the words `OUT Q STEPS partition ..` ask for.
    pub noon: Option<Program>,
    /// Makes words of the decimals on standard input.
    pub into_words: Option<Program>,
    /// Start of the random numbers.
    pub seed: u64,
    /// Guest steps of the random scripts, at least.
    pub steps: u64,
    /// Random house files that are damaged or cut.
    pub files: usize,
    /// Random saved files; half as many house files are saved.
    pub saved: usize,
    /// Random house files and saved ones for the programs that take either.
    pub reads: usize,
    /// Random words that are listed, and assembled from their lines.
    pub words: usize,
    /// Damaged lines.
    pub lines: usize,
    /// Damaged lines that are wrong, and given to be assembled in a text of their own; at most.
    pub alone: usize,
    /// Random command lines of house files.
    pub noons: usize,
    /// Random texts of decimals.
    pub texts: usize,
    /// Programs that run at the same time.
    pub jobs: usize,
}

/// What a comparison found.
#[derive(Clone, Debug, Default)]
pub struct Outcome {
    /// Calls, files and texts compared.
    pub compared: u64,
    /// Those that differ, and programs that ended badly.
    pub differ: u64,
    /// The report for people.
    pub report: String,
}

/// Compares all that the options ask for.
pub fn compare(options: &Options) -> Result<Outcome, String> {
    let mut outcome = Outcome::default();
    if let Some(drill) = &options.drill {
        compare_drill(drill, options, &mut outcome)?;
    }
    listings::compare_listings(options, &mut outcome)?;
    saves::compare_saves(options, &mut outcome)?;
    reads::compare_reads(options, &mut outcome)?;
    noons::compare_noons(options, &mut outcome)?;
    if options.night.is_none() && options.audit.is_none() {
        return Ok(outcome);
    }
    let mut files = named::files();
    let named = files.len();
    files.extend(generate::files(options.seed, options.files));
    let random = files.len() - named;
    add(&mut outcome.report, &format!("named files: {named}, random files: {random}"));
    if let Some(program) = &options.night {
        let night = Reader { name: "night", program, ours: housefile::night };
        compare_reader(&night, &files, options.jobs, &mut outcome)?;
    }
    if let Some(program) = &options.audit {
        let audit = Reader { name: "audit", program, ours: audit };
        compare_reader(&audit, &files, options.jobs, &mut outcome)?;
    }
    Ok(outcome)
}

/// A program that reads house files, and what this emulator says of them.
struct Reader<'a> {
    name: &'static str,
    program: &'a Program,
    ours: fn(&[u8], &mut Counts) -> String,
}

fn compare_drill(drill: &Program, options: &Options, outcome: &mut Outcome) -> Result<(), String> {
    let named = compare_scripts(drill, &named::scripts(), options.jobs)?;
    let random = generate::scripts(options.seed, options.steps);
    let random = compare_scripts(drill, &random, options.jobs)?;
    for part in [&named, &random] {
        outcome.compared += part.counts.all_answers();
        outcome.differ += part.differ;
        outcome.report.push_str(&part.text);
    }
    let report = &mut outcome.report;
    add(
        report,
        &format!("named scripts: {} with {} steps", named.scripts, named.counts.all_steps()),
    );
    add(report, &format!("random scripts: {} of seed {}", random.scripts, options.seed));
    report.push_str(&random.counts.to_string());
    add(report, &format!("calls by number: {}", random.counts.answers_text()));
    add(report, &format!("steps {}", random.counts.all_steps()));
    add(report, &format!("calls {}", random.counts.all_answers()));
    Ok(())
}

fn compare_reader(
    reader: &Reader<'_>,
    files: &[File],
    jobs: usize,
    outcome: &mut Outcome,
) -> Result<(), String> {
    let (counts, differences) = compare_files(reader, files, jobs)?;
    outcome.compared += counts.all_answers();
    outcome.differ += differences.len() as u64;
    let (report, name) = (&mut outcome.report, reader.name);
    if let Some(first) = differences.first() {
        report.push_str(&explain_file(reader, &files[first.0], first));
    }
    add(report, &format!("files of {name} by number: {}", counts.answers_text()));
    add(report, &format!("files' steps {}", counts.all_steps()));
    add(report, &format!("files {}", counts.all_answers()));
    Ok(())
}

/// Adds a line.
fn add(text: &mut String, line: &str) {
    text.push_str(line);
    text.push('\n');
}

/// What comparing scripts found.
struct ScriptsOutcome {
    scripts: usize,
    counts: Counts,
    differ: u64,
    text: String,
}

/// A script that differs: its place, its first call that does, and both texts of that call.
struct Difference {
    script: usize,
    call: usize,
    ours: String,
    theirs: String,
}

fn compare_scripts(
    drill: &Program,
    scripts: &[Script],
    jobs: usize,
) -> Result<ScriptsOutcome, String> {
    let batches = batches(scripts);
    let results = in_parallel(batches.len(), jobs, |at| {
        let commands: Vec<&[Command]> =
            scripts[batches[at].clone()].iter().map(|script| &script.commands[..]).collect();
        compare_batch(drill, &commands)
    });
    let mut outcome = ScriptsOutcome {
        scripts: scripts.len(),
        counts: Counts::default(),
        differ: 0,
        text: String::new(),
    };
    let mut explained = false;
    for (batch, result) in batches.into_iter().zip(results) {
        let result = result?;
        outcome.counts += &result.counts;
        outcome.differ += result.differ;
        if let Some(trouble) = &result.trouble {
            add(&mut outcome.text, &format!("drill ended badly: {trouble}"));
        }
        if let Some(first) = result.first.filter(|_| !explained) {
            outcome.text.push_str(&explain_script(drill, &scripts[batch], &first));
            explained = true;
        }
    }
    Ok(outcome)
}

/// Ranges of scripts, each of about [`BATCH_BYTES`].
fn batches(scripts: &[Script]) -> Vec<std::ops::Range<usize>> {
    let mut batches = Vec::new();
    let (mut start, mut size) = (0, 0);
    for (at, script) in scripts.iter().enumerate() {
        size += script::write(&script.commands).len();
        if size >= BATCH_BYTES {
            batches.push(start..at + 1);
            (start, size) = (at + 1, 0);
        }
    }
    if start < scripts.len() {
        batches.push(start..scripts.len());
    }
    batches
}

/// Works on the numbers below `count`, several at a time; the results are in order.
fn in_parallel<R: Send>(count: usize, jobs: usize, work: impl Fn(usize) -> R + Sync) -> Vec<R> {
    let next = AtomicUsize::new(0);
    let results = Mutex::new(Vec::new());
    thread::scope(|scope| {
        for _ in 0..jobs.max(1) {
            scope.spawn(|| loop {
                let at = next.fetch_add(1, Ordering::Relaxed);
                if at >= count {
                    return;
                }
                let result = work(at);
                results.lock().expect("no worker fails").push((at, result));
            });
        }
    });
    let mut results = results.into_inner().expect("no worker fails");
    results.sort_by_key(|&(at, _)| at);
    results.into_iter().map(|(_, result)| result).collect()
}

/// What comparing a batch found.
struct BatchOutcome {
    counts: Counts,
    differ: u64,
    first: Option<Difference>,
    trouble: Option<String>,
}

/// Plays several scripts in one start of the program, each after a clear command.
fn compare_batch(drill: &Program, scripts: &[&[Command]]) -> Result<BatchOutcome, String> {
    let mut counts = Counts::default();
    let mut input = Vec::new();
    let mut texts = Vec::new();
    for commands in scripts {
        let bytes = script::write(&[&[Command::Clear], *commands].concat());
        texts.push(script::play(&bytes, &mut counts));
        input.extend(bytes);
    }
    let reply = drill.run(&input)?;
    let (differ, first) = differences(&texts, &reply.text());
    let differ = differ.max(u64::from(reply.trouble.is_some()));
    Ok(BatchOutcome { counts, differ, first, trouble: reply.trouble })
}

/// How many calls differ, and the first of them.
fn differences(texts: &[String], theirs: &str) -> (u64, Option<Difference>) {
    let mut theirs = calls(theirs).into_iter();
    let mut differ = 0;
    let mut first = None;
    for (script, text) in texts.iter().enumerate() {
        for (call, ours) in calls(text).into_iter().enumerate() {
            let theirs = theirs.next().unwrap_or("");
            if ours != theirs {
                differ += 1;
                let (ours, theirs) = (ours.to_string(), theirs.to_string());
                first.get_or_insert(Difference { script, call, ours, theirs });
            }
        }
    }
    if let Some(more) = theirs.next() {
        let script = texts.len().saturating_sub(1);
        let call = texts.last().map_or(0, |text| calls(text).len());
        differ += 1;
        let theirs = more.to_string();
        first.get_or_insert(Difference { script, call, ours: String::new(), theirs });
    }
    (differ, first)
}

/// The text of each call.
fn calls(text: &str) -> Vec<&str> {
    let later = text.match_indices("\ncall ").map(|(at, _)| at + 1);
    let starts: Vec<usize> = std::iter::once(0).chain(later).collect();
    let ends = starts[1..].iter().copied().chain([text.len()]);
    let blocks = starts.iter().zip(ends).map(|(&start, end)| &text[start..end]);
    blocks.filter(|block| !block.is_empty()).collect()
}

/// Tells where a script differs, and the smallest script that still does.
fn explain_script(drill: &Program, batch: &[Script], first: &Difference) -> String {
    let script = &batch[first.script];
    let mut text = format!("script \"{}\" differs in call {}:\n", script.name, first.call + 1);
    text.push_str(&first_lines(&first.ours, &first.theirs));
    let alone = up_to_call(&script.commands, first.call);
    if let Some(small) = shrink_script(drill, &alone) {
        return text + &small;
    }
    add(&mut text, "alone it agrees; with the scripts before it in one input it differs:");
    let joined = [joined(&batch[..first.script]), vec![Command::Clear], alone].concat();
    match shrink_joined(drill, &joined) {
        Some(small) => text + &small,
        None => text + NOT_TWICE,
    }
}

/// Scripts as one, each after a clear command.
fn joined(scripts: &[Script]) -> Vec<Command> {
    let one = |script: &Script| [&[Command::Clear], &script.commands[..]].concat();
    scripts.iter().flat_map(one).collect()
}

/// The commands up to a call.
fn up_to_call(commands: &[Command], call: usize) -> Vec<Command> {
    let mut ends = (0..commands.len()).filter(|&at| commands[at].call_name().is_some());
    let end = ends.nth(call).map_or(commands.len(), |at| at + 1);
    commands[..end].to_vec()
}

/// The smallest script that still differs, for people and in hex; none if the script agrees.
pub fn shrink_script(drill: &Program, commands: &[Command]) -> Option<String> {
    if !differs(drill, commands) {
        return None;
    }
    let mut first = |attempts: &[Vec<Command>]| first_together(drill, attempts);
    let mut small = shrink(commands.to_vec(), &mut first);
    if let Some(step) = last_step(&small).filter(|step| differs(drill, step)) {
        let step = shrink(step, &mut first);
        if step.len() < small.len() {
            small = step;
        }
    }
    Some(describe_script(drill, &small))
}

/// The same for several scripts that differ only in one input; each attempt is an input of its own.
fn shrink_joined(drill: &Program, commands: &[Command]) -> Option<String> {
    if !differs(drill, commands) {
        return None;
    }
    let mut first =
        |attempts: &[Vec<Command>]| attempts.iter().position(|attempt| differs(drill, attempt));
    let small = shrink(commands.to_vec(), &mut first);
    Some(describe_script(drill, &small))
}

fn differs(drill: &Program, commands: &[Command]) -> bool {
    compare_batch(drill, &[commands]).is_ok_and(|result| result.differ > 0)
}

/// The first of several attempts in one input that differs, also alone.
fn first_together(drill: &Program, attempts: &[Vec<Command>]) -> Option<usize> {
    let all: Vec<&[Command]> = attempts.iter().map(Vec::as_slice).collect();
    let result = compare_batch(drill, &all).ok()?;
    // Where all texts agree but the end was bad, it is the last one's as far as can be told.
    let bad_end = result.trouble.map(|_| attempts.len() - 1);
    let found = result.first.map(|first| first.script).or(bad_end)?;
    differs(drill, &attempts[found]).then_some(found)
}

/// The last step of a script that ends with a run, by either engine, from a house made by hand.
fn last_step(commands: &[Command]) -> Option<Vec<Command>> {
    let (last, before) = commands.split_last()?;
    let (steps, run): (u32, fn(u32) -> Command) = match *last {
        Command::Run { steps } => (steps, |steps| Command::Run { steps }),
        Command::Unshadowed { steps } => (steps, |steps| Command::Unshadowed { steps }),
        _ => return None,
    };
    let mut player = Player::new();
    let earlier = run(steps.checked_sub(1)?);
    for command in before.iter().chain([&earlier]) {
        player.play(command, &mut String::new(), &mut Counts::default());
    }
    let mut commands = player.commands();
    commands.push(run(1));
    Some(commands)
}

fn describe_script(drill: &Program, commands: &[Command]) -> String {
    let mut text = format!("smallest script, {} commands:\n", commands.len());
    for command in commands {
        add(&mut text, &format!("  {command}"));
    }
    if let Ok(BatchOutcome { first: Some(first), .. }) = compare_batch(drill, &[commands]) {
        text.push_str(&first_lines(&first.ours, &first.theirs));
    }
    add(&mut text, "the same in hex:");
    for command in commands {
        add(&mut text, &format!("  {}", hex(&script::write(std::slice::from_ref(command)))));
    }
    text
}

/// The first line in which two texts differ.
fn first_lines(ours: &str, theirs: &str) -> String {
    let (mut mine, mut other) = (ours.lines(), theirs.lines());
    loop {
        match (mine.next(), other.next()) {
            (a, b) if a == b && a.is_some() => {}
            (a, b) => {
                let none = "(nothing)";
                let (a, b) = (a.unwrap_or(none), b.unwrap_or(none));
                return format!("  expected: {a}\n  given:    {b}\n");
            }
        }
    }
}

fn hex(bytes: &[u8]) -> String {
    bytes.iter().fold(String::new(), |mut text, byte| {
        write!(text, "{byte:02x}").expect("writing to a string");
        text
    })
}

/// A file that differs: its place and both texts.
struct FileDifference(usize, String, String);

fn compare_files(
    reader: &Reader<'_>,
    files: &[File],
    jobs: usize,
) -> Result<(Counts, Vec<FileDifference>), String> {
    let results = in_parallel(files.len(), jobs, |at| {
        let mut counts = Counts::default();
        let ours = (reader.ours)(&files[at].bytes, &mut counts);
        told(reader.program, &files[at].bytes).map(|theirs| (counts, ours, theirs))
    });
    let mut total = Counts::default();
    let mut differences = Vec::new();
    for (at, result) in results.into_iter().enumerate() {
        let (counts, ours, theirs) = result?;
        total += &counts;
        if ours != theirs {
            differences.push(FileDifference(at, ours, theirs));
        }
    }
    Ok((total, differences))
}

/// What the program says of a file. One that takes more than a piece is also given slowly, and what
/// is then said counts too where it is something else.
fn told(program: &Program, bytes: &[u8]) -> Result<String, String> {
    let text = file_text(program.run(bytes)?);
    if bytes.len() <= PIECE {
        return Ok(text);
    }
    let slowly = file_text(program.run_slowly(bytes)?);
    Ok(if slowly == text { text } else { format!("{text}slowly: {slowly}") })
}

/// The program's text; how it ended is told only where it said nothing.
fn file_text(reply: Reply) -> String {
    match reply.trouble {
        Some(trouble) if reply.bytes.is_empty() => trouble,
        _ => reply.text(),
    }
}

fn file_differs(reader: &Reader<'_>, bytes: &[u8]) -> bool {
    let ours = (reader.ours)(bytes, &mut Counts::default());
    told(reader.program, bytes).is_ok_and(|theirs| theirs != ours)
}

fn explain_file(reader: &Reader<'_>, file: &File, first: &FileDifference) -> String {
    let mut text = format!("file \"{}\" differs in {}:\n", file.name, reader.name);
    text.push_str(&first_lines(&first.1, &first.2));
    if !file_differs(reader, &file.bytes) {
        return text + NOT_TWICE;
    }
    let small = shrink(Stretch::split(&file.bytes), &mut |attempts| {
        attempts.iter().position(|attempt| file_differs(reader, &Stretch::join(attempt)))
    });
    add(&mut text, &format!("smallest file, {} records:", small.len()));
    for stretch in &small {
        text.push_str(&describe_stretch(stretch));
    }
    text
}

/// A record: its kind, and in hex, 16 bytes in a line, without lines that are all zero.
fn describe_stretch(stretch: &Stretch) -> String {
    let bytes = &stretch.0;
    let mut text = match bytes.get(4..6) {
        Some(kind) => format!("  kind {}, ", u16::from_le_bytes([kind[0], kind[1]])),
        None => "  cut in its head, ".to_string(),
    };
    add(&mut text, &format!("{} bytes with the head; lines not shown are zero", bytes.len()));
    for (at, line) in bytes.chunks(16).enumerate() {
        if line.iter().any(|&byte| byte != 0) {
            add(&mut text, &format!("  +{:<4} {}", 16 * at, hex(line)));
        }
    }
    text
}

#[cfg(test)]
mod tests {
    use super::*;

    #[test]
    fn calls_are_split_at_their_first_lines() {
        let text = "call run -> 0 1\nhouse 1\ncall boot -> 1 0\nhouse 0\n";
        assert_eq!(calls(text), ["call run -> 0 1\nhouse 1\n", "call boot -> 1 0\nhouse 0\n"]);
        assert!(calls("").is_empty());
    }

    #[test]
    fn every_difference_is_counted() {
        let texts = ["call a\nx\ncall b\ny\n".to_string(), "call c\nz\n".to_string()];
        assert_eq!(differences(&texts, &texts.concat()).0, 0);
        assert_eq!(differences(&texts, "call a\nx\ncall b\nw\ncall c\nz\n").0, 1);
        assert_eq!(differences(&texts, "call a\nx\n").0, 2);
        assert_eq!(differences(&texts, &(texts.concat() + "more\n")).0, 1);
        let (_, first) = differences(&texts, "call a\nx\ncall b\ny\ncall c\n");
        let first = first.unwrap();
        assert_eq!((first.script, first.call), (1, 0));
        assert_eq!(
            first_lines(&first.ours, &first.theirs),
            "  expected: z\n  given:    (nothing)\n"
        );
    }

    #[test]
    fn work_in_parallel_keeps_its_order() {
        assert_eq!(in_parallel(5, 2, |at| at * at), [0, 1, 4, 9, 16]);
    }
}
