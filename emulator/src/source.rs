//! House files from readable sources, one record or instruction a line; and back.

use std::collections::HashMap;

use crate::housefile::{record_bytes, word_bytes};
use crate::instructions;
use crate::memory::FRAME_WORDS;

mod check;
mod show;

pub use show::show;

const FRAME_BYTES: usize = 4 * FRAME_WORDS;

/// What stands in a source, for the help text.
pub fn form() -> String {
    let (specials, instructions) = (instructions::specials(), instructions::list());
    format!(
        "\
A source has one line for each record or instruction; # starts a comment. Numbers are decimal, or
hexadecimal after 0x.
  turns Q run N      kind 1: turns of Q steps, a run of N
  partition F F ..   kind 2: a partition's frames
  frame F            kind 3: frame F; the lines behind it are its words, from its first on:
    word N             a word
    at N               the next word stands at byte N of the frame
    name:              a label, alone or before an instruction; a branch or jump may name it for IMM
    addi r1 r0 5       an instruction, as listed below
  image FILE F F ..  kind 3: the file's bytes as words, little-endian, in frame after frame, the last
                     one filled up with 0. Without frames: into those of partition 0 for the first
                     such line, of partition 1 for the next, and so on. FILE is looked for where the
                     source is
  end                kind 4: the last line
  bytes XX XX ..     bytes as they are, in hexadecimal; where they are the last, no end is needed
  words N N ..       words as they are, little-endian; likewise

What the night would refuse is not made: the line is told, and the number of the refusal. Nor is a frame
filled by an image and again by another line, nor an image taken that is no whole number of words.
A first line
  wrong on purpose   makes any file that the lines say, for whoever wants to see it refused
and a source of bytes and words alone, such as that of a script, makes what these say.

Instructions; every line of a listing (`emulator list`) is one. RD, RS1 and RS2 are registers, r0 to r31, of which r0 is always 0. IMM is a number from
-32768 to 32767 (j, jal and trap: -33554432 to 33554431, lhgi: 0 to 65535); in a branch or jump it
counts in bytes from the instruction behind it. SPECIAL is a special register, by number or name:
{specials}.
{instructions}"
    )
}

/// Gives the bytes of an image by its name.
pub type Images<'a> = &'a mut dyn FnMut(&str) -> Result<Vec<u8>, String>;

/// The bytes of a source, or the number of its first wrong line and what is wrong there.
pub fn bytes_with(source: &str, images: Images) -> Result<Vec<u8>, String> {
    let mut maker = Maker::default();
    for (number, line) in source.lines().enumerate() {
        let line = line.split('#').next().unwrap_or_default();
        maker.line(line, number + 1, images)?;
    }
    maker.close()?;
    let last = source.lines().count();
    if !maker.whole {
        return Err(told(last, "expected `end` as the last record".into()));
    }
    if maker.checked() {
        maker.check(last)?;
    }
    Ok(maker.file)
}

/// The bytes of a source whose images stand in the current folder.
pub fn bytes(source: &str) -> Result<Vec<u8>, String> {
    bytes_with(source, &mut |name| std::fs::read(name).map_err(|error| format!("{name}: {error}")))
}

fn told(line: usize, message: String) -> String {
    format!("line {line}: {message}")
}

/// The first line of a source whose file may be wrong.
const ON_PURPOSE: [&str; 3] = ["wrong", "on", "purpose"];

/// The file as its lines come.
#[derive(Default)]
struct Maker {
    file: Vec<u8>,
    /// Where in the file what each line wrote begins, and the line.
    starts: Vec<(usize, usize)>,
    /// The frame whose lines are read.
    frame: Option<Frame>,
    /// The turn length and the run's, and the line.
    turns: Option<(u32, u32, usize)>,
    /// The frames of the partitions so far, and the line of each.
    partitions: Vec<(Vec<u32>, usize)>,
    /// The line that filled a frame last, and whether that was by an image.
    filled: HashMap<u32, (usize, bool)>,
    /// Images without frames so far.
    images: usize,
    /// The last record ends the file, or it is written as it is.
    whole: bool,
    /// A line that is no comment has been read.
    begun: bool,
    /// The file may be wrong.
    on_purpose: bool,
    /// It has a record of a house file.
    records: bool,
    /// It has bytes or words as they are.
    as_they_are: bool,
}

impl Maker {
    fn line(&mut self, line: &str, number: usize, images: Images) -> Result<(), String> {
        let told = |message| told(number, message);
        let items: Vec<&str> = line.split_whitespace().collect();
        let Some((&name, rest)) = items.split_first() else { return Ok(()) };
        let first = !std::mem::replace(&mut self.begun, true);
        match name {
            _ if items == ON_PURPOSE => {
                self.on_purpose = true;
                let early = first.then_some(());
                early.ok_or(told("expected `wrong on purpose` before all other lines".into()))
            }
            "turns" | "partition" | "frame" | "image" | "end" | "bytes" | "words" => {
                self.close()?;
                self.whole = matches!(name, "end" | "bytes" | "words");
                self.as_they_are |= matches!(name, "bytes" | "words");
                self.records |= !matches!(name, "bytes" | "words");
                self.record(name, rest, number, images).map_err(told)
            }
            _ => match self.frame.as_mut() {
                Some(frame) => frame.line(line, number).map_err(told),
                None => Err(told(format!(
                    "expected a record (turns, partition, frame, image, end, bytes or words), was given {name}"
                ))),
            },
        }
    }

    /// Ends the frame whose lines were read.
    fn close(&mut self) -> Result<(), String> {
        if let Some(frame) = self.frame.take() {
            let line = frame.line;
            let (of, words) = frame.finished()?;
            self.put_frame(of, &word_bytes(&words), line);
        }
        Ok(())
    }

    /// Writes what a line says.
    fn put(&mut self, bytes: &[u8], line: usize) {
        self.starts.push((self.file.len(), line));
        self.file.extend(bytes);
    }

    fn put_frame(&mut self, of: u32, bytes: &[u8], line: usize) {
        let mut body = of.to_le_bytes().to_vec();
        body.extend(bytes);
        body.resize(4 + FRAME_BYTES, 0);
        self.put(&record_bytes(3, &body), line);
    }

    fn record(
        &mut self,
        name: &str,
        rest: &[&str],
        line: usize,
        images: Images,
    ) -> Result<(), String> {
        let bytes = match (name, rest) {
            ("turns", [q, "run", steps]) => {
                let (q, steps) = (number(q)?, number(steps)?);
                self.turns = Some((q, steps, line));
                record_bytes(1, &word_bytes(&[q, steps]))
            }
            ("turns", _) => return Err("expected `turns Q run N`".into()),
            ("partition", _) => {
                self.partitions.push((numbers(rest)?, line));
                record_bytes(2, &word_bytes(&numbers(rest)?))
            }
            ("frame", [of]) => {
                let of = number(of)?;
                self.fill(of, line, false)?;
                self.frame = Some(Frame::new(of, line));
                return Ok(());
            }
            ("frame", _) => return Err("expected `frame F`".into()),
            ("image", [file, frames @ ..]) => {
                return self.image(&images(file)?, file, frames, line);
            }
            ("image", _) => return Err("expected `image FILE F F ..`".into()),
            ("end", []) => record_bytes(4, &[]),
            ("end", _) => return Err("expected `end`, and nothing behind it".into()),
            ("bytes", _) => rest.iter().map(|item| hexadecimal(item)).collect::<Result<_, _>>()?,
            _ => word_bytes(&numbers(rest)?),
        };
        self.put(&bytes, line);
        Ok(())
    }

    /// A frame gets its words, which replace those that it had. Those of an image are not lost so.
    fn fill(&mut self, of: u32, line: usize, image: bool) -> Result<(), String> {
        let before = self.filled.insert(of, (line, image));
        match before.filter(|&(_, earlier)| (image || earlier) && !self.on_purpose) {
            None => Ok(()),
            Some((other, _)) => Err(format!("frame {of} is filled by line {other} already")),
        }
    }

    /// An image in frame after frame, as many as it fills.
    fn image(
        &mut self,
        bytes: &[u8],
        file: &str,
        frames: &[&str],
        line: usize,
    ) -> Result<(), String> {
        let mut frames = numbers(frames)?;
        if frames.is_empty() {
            let of = self.images;
            let list = self.partitions.get(of);
            let list = list.ok_or(format!("there is no partition {of} for the image {file}"))?;
            frames = list.0.clone();
            self.images += 1;
        }
        if !bytes.len().is_multiple_of(4) && !self.on_purpose {
            return Err(format!(
                "{file} has {} bytes, which is no whole number of words of 4",
                bytes.len()
            ));
        }
        let many = bytes.len().div_ceil(FRAME_BYTES);
        if many == 0 || many > frames.len() {
            return Err(format!(
                "{file} has {} bytes, which fill {many} frames of {FRAME_BYTES}; was given {} for it",
                bytes.len(),
                frames.len()
            ));
        }
        for (&of, piece) in frames.iter().zip(bytes.chunks(FRAME_BYTES)) {
            self.fill(of, line, true)?;
            self.put_frame(of, piece, line);
        }
        Ok(())
    }
}

/// A frame as its lines come.
struct Frame {
    of: u32,
    /// The line that begins it.
    line: usize,
    words: Vec<u32>,
    next: usize,
    labels: HashMap<String, usize>,
    branches: Vec<Branch>,
}

/// A branch or jump to a label: its place, the bits of its immediate, and its line.
struct Branch {
    at: usize,
    mask: u32,
    label: String,
    line: usize,
}

impl Frame {
    fn new(of: u32, line: usize) -> Frame {
        let words = vec![0; FRAME_WORDS];
        Frame { of, line, words, next: 0, labels: HashMap::new(), branches: Vec::new() }
    }

    fn line(&mut self, line: &str, number: usize) -> Result<(), String> {
        let line = match line.split_once(':') {
            Some((label, behind)) => {
                self.label(label.trim())?;
                behind
            }
            None => line,
        };
        let items: Vec<&str> = line.split_whitespace().collect();
        match items.split_first() {
            Some((name, rest)) => self.word_line(name, rest, number),
            None => Ok(()),
        }
    }

    fn label(&mut self, label: &str) -> Result<(), String> {
        if !is_label(label) {
            return Err(format!(
                "expected a label of letters, digits and _, a letter first, was given {label}:"
            ));
        }
        match self.labels.insert(label.into(), self.next) {
            Some(_) => Err(format!("the label {label} stands twice in its frame")),
            None => Ok(()),
        }
    }

    fn word_line(&mut self, name: &str, rest: &[&str], line: usize) -> Result<(), String> {
        match (name, rest) {
            ("at", [place]) => {
                let place = number(place)? as usize;
                if !place.is_multiple_of(4) || place >= FRAME_BYTES {
                    return Err(format!("expected a multiple of 4 below 4096, was given {place}"));
                }
                self.next = place / 4;
                return Ok(());
            }
            ("at", _) => return Err("expected `at N`".into()),
            ("word", [value]) => return self.push(number(value)?),
            ("word", _) => return Err("expected `word N`".into()),
            _ => {}
        }
        if let (Some(bits), Some((label, before))) =
            (instructions::target_bits(name), rest.split_last())
        {
            if is_label(label) {
                let word = instructions::word(name, &[before, &["0"]].concat())?;
                let (at, mask) = (self.next, (1 << bits) - 1);
                self.branches.push(Branch { at, mask, label: (*label).into(), line });
                return self.push(word);
            }
        }
        self.push(instructions::word(name, rest)?)
    }

    fn push(&mut self, word: u32) -> Result<(), String> {
        let place = self.words.get_mut(self.next).ok_or("the frame is full")?;
        *place = word;
        self.next += 1;
        Ok(())
    }

    /// Its number and its words, with the labels' places in them. A frame is so short that every
    /// one fits.
    fn finished(mut self) -> Result<(u32, Vec<u32>), String> {
        for Branch { at, mask, label, line } in &self.branches {
            let to = self.labels.get(label);
            let to = to.ok_or(told(*line, format!("there is no label {label} in this frame")))?;
            self.words[*at] |= (4 * (*to as i64 - *at as i64 - 1)) as u32 & mask;
        }
        Ok((self.of, self.words))
    }
}

fn is_label(text: &str) -> bool {
    text.starts_with(|letter: char| letter.is_ascii_alphabetic())
        && text.chars().all(|letter| letter.is_ascii_alphanumeric() || letter == '_')
}

/// A number as it stands in a source.
pub fn number(text: &str) -> Result<u32, String> {
    let plain = text.replace('_', "");
    let parsed = match plain.strip_prefix("0x") {
        Some(digits) => u32::from_str_radix(digits, 16),
        None => plain.parse(),
    };
    parsed.map_err(|_| format!("expected a number below 2^32, was given {text}"))
}

fn numbers(items: &[&str]) -> Result<Vec<u32>, String> {
    items.iter().map(|item| number(item)).collect()
}

fn hexadecimal(text: &str) -> Result<u8, String> {
    u8::from_str_radix(text, 16)
        .map_err(|_| format!("expected two hexadecimal digits, was given {text}"))
}

#[cfg(test)]
mod tests {
    use super::*;
    use crate::housefile::read;

    fn no_image(name: &str) -> Result<Vec<u8>, String> {
        Err(format!("{name}: there is none"))
    }

    #[test]
    fn a_whole_file() {
        let source =
            "turns 2 run 3\npartition 1 3\nframe 1\n addi r1 r0 5 # five\n sw r1 r0 8\nend\n";
        let file = read(&bytes(source).unwrap()).unwrap();
        assert_eq!((file.q, file.steps, file.lists), (2, 3, vec![vec![1, 3]]));
        assert_eq!(file.memory[1_024..1_027], [0x2001_0005, 0xAC01_0008, 0]);
    }

    #[test]
    fn labels() {
        let source = "wrong on purpose\nframe 1\n at 8\nback:\n j back\n beqz r0 on\n addi r0 r0 0\non: rfe\nnext:word 7\n jal next\nend";
        let record = bytes(source).unwrap();
        let word = |at: usize| u32::from_le_bytes(record[10 + at..14 + at].try_into().unwrap());
        assert_eq!(word(8), 2 << 26 | 0x03FF_FFFC);
        assert_eq!(word(12), 4 << 26 | 4);
        assert_eq!(word(20), 0xFC00_0000);
        assert_eq!(word(24), 7);
        assert_eq!(word(28), 3 << 26 | 0x03FF_FFF8);
    }

    #[test]
    fn images() {
        let source =
            "turns 1 run 0\npartition 2 3\npartition 4 5\nimage a\nimage b\nimage c 7 6\nend";
        let mut asked = |name: &str| {
            Ok(match name {
                "a" => vec![1, 0, 0, 0, 2, 0, 0, 0],
                "b" => [vec![3; 4_096], vec![4; 4_096]].concat(),
                _ => [vec![5; 4_096], vec![6, 0, 0, 0]].concat(),
            })
        };
        let memory = read(&bytes_with(source, &mut asked).unwrap()).unwrap().memory;
        let frame = |of: usize| &memory[1_024 * of..1_024 * (of + 1)];
        assert_eq!(frame(2)[..3], [1, 2, 0]);
        assert!(frame(3).iter().all(|&word| word == 0));
        assert!(frame(4).iter().all(|&word| word == 0x0303_0303));
        assert!(frame(5).iter().all(|&word| word == 0x0404_0404));
        assert!(frame(7).iter().all(|&word| word == 0x0505_0505));
        assert_eq!(frame(6)[..2], [6, 0]);
    }

    #[test]
    fn images_that_do_not_fit() {
        let told =
            |source: &str, size: usize| bytes_with(source, &mut |_| Ok(vec![0; size])).unwrap_err();
        let two = "line 2: a has 4100 bytes, which fill 2 frames of 4096; was given 1 for it";
        assert_eq!(told("partition 1\nimage a\nend", 4_100), two);
        assert_eq!(told("partition 1 2\nimage a 1\nend", 4_100), two);
        let part = "line 2: a has 4097 bytes, which is no whole number of words of 4";
        assert_eq!(told("partition 1 2\nimage a\nend", 4_097), part);
        let none = "line 1: a has 0 bytes, which fill 0 frames of 4096; was given 1 for it";
        assert_eq!(told("image a 1\nend", 0), none);
        let second = "line 3: there is no partition 1 for the image b";
        assert_eq!(told("partition 1\nimage a\nimage b\nend", 4), second);
    }

    #[test]
    fn wrong_lines_are_told() {
        for (source, told) in [
            ("addi r1 r0 5", "line 1: expected a record (turns, "),
            ("frame 1\n\n j away\nend", "line 3: there is no label away"),
            ("frame 1\n j away", "line 2: there is no label away"),
            ("turns 2", "line 1: expected `turns Q run N`"),
            ("frame 1\n at 4096", "line 2: expected a multiple of 4"),
            ("frame 1\na:\na:", "line 3: the label a stands twice"),
            ("frame 1\n1: rfe", "line 2: expected a label"),
            ("frame 1\n rfe\n addi r1 r0 40000\nend", "line 3: expected `addi RD RS1 IMM`"),
            ("frame 1\n lw r1 r0\nend", "line 2: expected `lw RD RS1 IMM`, was given `lw r1 r0`"),
            ("frame 1\n at 4092\n rfe\n rfe\nend", "line 4: the frame is full"),
            ("turns 1 run 1\npartition 1\nimage x 1", "line 3: x: there is none"),
            ("image", "line 1: expected `image FILE F F ..`"),
            ("", "line 0: expected `end` as the last record"),
            ("turns 1 run 1\npartition 1\nframe 1\n rfe\n", "line 4: expected `end` as the last"),
            ("turns 1 run 1\npartition 1\nend\nframe 1", "line 4: expected `end` as the last"),
            ("end now", "line 1: expected `end`, and nothing behind it"),
        ] {
            let message = bytes_with(source, &mut no_image).unwrap_err();
            assert!(message.starts_with(told), "{message}");
        }
    }

    /// What is wrong on purpose is made as it was said, part of a word and a frame filled twice.
    #[test]
    fn wrong_on_purpose() {
        let source = "# ours\n\nwrong on purpose # it is\nturns 0 run 1\npartition 1 1\nimage a\nframe 1\n rfe\nend";
        let mut asked = |_: &str| Ok(vec![1, 2, 3, 4, 5]);
        let file = bytes_with(source, &mut asked).unwrap();
        assert_eq!(file[28..42], [4, 16, 0, 0, 3, 0, 1, 0, 0, 0, 1, 2, 3, 4]);
        assert_eq!(file[42..46], [5, 0, 0, 0]);
        assert_eq!(read(&file).unwrap().memory[1_024], 0xFC00_0000);
        let late = "turns 1 run 1\nwrong on purpose\npartition 1\nend";
        let told = "line 2: expected `wrong on purpose` before all other lines";
        assert_eq!(bytes(late), Err(told.into()));
        assert!(bytes("wrong on\nend").unwrap_err().starts_with("line 1: expected a record"));
    }

    #[test]
    fn what_is_written_as_it_is_needs_no_end() {
        assert_eq!(bytes("bytes 01 ff\n"), Ok(vec![1, 255]));
        assert_eq!(
            bytes("wrong on purpose\nturns 1 run 2\nwords 1"),
            Ok([&bytes("turns 1 run 2\npartition 1\nend").unwrap()[..14], &[1, 0, 0, 0]].concat())
        );
    }

    #[test]
    fn the_form_names_every_record() {
        for name in
            ["turns", "partition", "frame", "image", "end", "bytes", "words", "at", "word", "wrong"]
        {
            assert!(
                form().lines().any(|line| line.split_whitespace().next() == Some(name)),
                "{name}"
            );
        }
    }
}
