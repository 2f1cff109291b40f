//! Runs a program with given bytes on its standard input.

use std::io::{Read, Write};
use std::os::unix::process::CommandExt;
use std::process::{Child, Command, Stdio};
use std::sync::mpsc::{self, RecvTimeoutError};
use std::thread;
use std::time::Duration;

/// A program with its arguments, and how long it may take.
#[derive(Clone, Debug)]
pub struct Program {
    parts: Vec<String>,
    limit: Duration,
}

/// What a program said and how it ended.
#[derive(Clone, Debug)]
pub struct Reply {
    /// Standard output.
    pub bytes: Vec<u8>,
    /// Standard error.
    pub errors: String,
    /// What to tell if it did not end with status 0: its end and standard error.
    pub trouble: Option<String>,
}

impl Reply {
    /// Standard output as text.
    pub fn text(&self) -> String {
        String::from_utf8_lossy(&self.bytes).into_owned()
    }
}

impl Program {
    /// A program from a command line; words may stand in single or double quotes.
    pub fn new(line: &str, limit: Duration) -> Result<Program, String> {
        let parts = split(line)?;
        if parts.is_empty() {
            return Err("expected a command, was given none".into());
        }
        Ok(Program { parts, limit })
    }

    /// The same program with more words.
    pub fn with(&self, words: &[&str]) -> Program {
        let more = words.iter().map(|word| word.to_string());
        Program { parts: self.parts.iter().cloned().chain(more).collect(), limit: self.limit }
    }

    /// Runs the program to its end. An error tells that it could not be started.
    pub fn run(&self, input: &[u8]) -> Result<Reply, String> {
        self.run_on(input, input.len().max(1), Duration::ZERO)
    }

    /// The same, with an input that comes few bytes at a time.
    pub fn run_slowly(&self, input: &[u8]) -> Result<Reply, String> {
        self.run_on(input, 997, Duration::from_millis(1))
    }

    fn run_on(&self, input: &[u8], piece: usize, pause: Duration) -> Result<Reply, String> {
        let mut child = Command::new(&self.parts[0])
            .args(&self.parts[1..])
            .stdin(Stdio::piped())
            .stdout(Stdio::piped())
            .stderr(Stdio::piped())
            .process_group(0)
            .spawn()
            .map_err(|error| format!("cannot start {}: {error}", self.parts[0]))?;
        Ok(self.converse(&mut child, input, piece, pause))
    }

    /// Writes the input piece by piece, reads both outputs, and ends the program if it takes too
    /// long.
    fn converse(&self, child: &mut Child, input: &[u8], piece: usize, pause: Duration) -> Reply {
        let group = child.id();
        let mut stdin = child.stdin.take().expect("piped");
        let mut stdout = child.stdout.take().expect("piped");
        let mut stderr = child.stderr.take().expect("piped");
        let (mut bytes, mut errors) = (Vec::new(), Vec::new());
        let (ended, end) = mpsc::channel::<()>();
        let late = thread::scope(|scope| {
            // A program that ends early closes its input: its text tells what is missing.
            scope.spawn(move || {
                input.chunks(piece).try_for_each(|some| {
                    thread::sleep(pause);
                    stdin.write_all(some)
                })
            });
            scope.spawn(|| stderr.read_to_end(&mut errors));
            let watch = scope.spawn(move || {
                let late = end.recv_timeout(self.limit) == Err(RecvTimeoutError::Timeout);
                if late {
                    end_group(group);
                }
                late
            });
            let read = stdout.read_to_end(&mut bytes);
            drop(ended);
            watch.join().unwrap_or(true) || read.is_err()
        });
        let status = child.wait();
        let errors = String::from_utf8_lossy(&errors).into_owned();
        let well = !late && status.as_ref().is_ok_and(|status| status.success());
        let trouble = (!well).then(|| {
            let end = match status {
                _ if late => format!("no end after {} seconds", self.limit.as_secs()),
                Ok(status) => status.to_string(),
                Err(error) => error.to_string(),
            };
            format!("{end}; it said: {}", first_lines(&errors))
        });
        Reply { bytes, errors, trouble }
    }
}

/// Ends the process group that this program started.
fn end_group(group: u32) {
    // If it has just ended by itself there is nothing to do.
    let _ = Command::new("kill").args(["-KILL", "--", &format!("-{group}")]).status();
}

fn first_lines(text: &str) -> String {
    let lines: Vec<&str> = text.lines().take(3).collect();
    if lines.is_empty() {
        return "nothing".into();
    }
    lines.join(" / ")
}

/// Splits a command line at spaces outside quotes.
fn split(line: &str) -> Result<Vec<String>, String> {
    let mut parts = Vec::new();
    let mut part: Option<String> = None;
    let mut quote = None;
    for letter in line.chars() {
        match quote {
            Some(open) if letter == open => quote = None,
            Some(_) => part.get_or_insert_default().push(letter),
            None if letter == '\'' || letter == '"' => {
                quote = Some(letter);
                part.get_or_insert_default();
            }
            None if letter.is_whitespace() => parts.extend(part.take()),
            None => part.get_or_insert_default().push(letter),
        }
    }
    if quote.is_some() {
        return Err(format!("expected a closing quote in: {line}"));
    }
    parts.extend(part);
    Ok(parts)
}

#[cfg(test)]
mod tests {
    use super::*;

    #[test]
    fn splits_like_a_shell() {
        let parts = split("run  'a b' \"c\"d ''").unwrap();
        assert_eq!(parts, ["run", "a b", "cd", ""]);
        assert!(split("run 'a").is_err());
    }

    #[test]
    fn takes_more_words() {
        let program = Program::new("echo a", Duration::from_secs(5)).unwrap().with(&["b c", "d"]);
        assert_eq!(program.run(b"").unwrap().text(), "a b c d\n");
    }

    #[test]
    fn gives_back_the_text() {
        let program = Program::new("cat", Duration::from_secs(5)).unwrap();
        let reply = program.run(b"some text").unwrap();
        assert_eq!(reply.text(), "some text");
        assert!(reply.trouble.is_none());
        let long = "some text, ".repeat(500);
        assert_eq!(program.run_slowly(long.as_bytes()).unwrap().text(), long);
    }

    #[test]
    fn ends_a_program_that_does_not_end() {
        let program = Program::new("sleep 60", Duration::from_millis(50)).unwrap();
        assert!(program.run(b"").unwrap().trouble.unwrap().starts_with("no end"));
    }

    #[test]
    fn tells_a_bad_end() {
        let program = Program::new("sh -c 'echo no >&2; exit 3'", Duration::from_secs(5)).unwrap();
        let trouble = program.run(b"").unwrap().trouble.unwrap();
        assert!(trouble.contains('3') && trouble.contains("no"), "{trouble}");
    }
}
