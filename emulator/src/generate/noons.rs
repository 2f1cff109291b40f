//! Command lines of `noon` and the images that they name: right ones, and ones with a mistake of each kind.

use std::collections::HashSet;

use super::{guest_frames, words};
use crate::house::{MOST_STEPS, MOST_TURN, PARTITIONS};
use crate::housefile::{word_bytes, FRAMES};
use crate::memory::FRAME_WORDS;
use crate::noon::MOST_IMAGES;
use crate::rng::Rng;

/// A command line and its images, which stand in a folder of their own.
#[derive(Clone, Debug)]
pub struct Noon {
    /// The name, for messages.
    pub name: String,
    /// Right, or the mistake.
    pub kind: &'static str,
    /// The words.
    pub words: Vec<Word>,
    /// The images.
    pub images: Vec<Held>,
    /// Whether there is a file of the name OUT before.
    pub old: bool,
    /// What is asked for, where there is no mistake in the words.
    pub plan: Option<Plan>,
}

/// A word of a command line.
#[derive(Clone, Debug, PartialEq, Eq)]
pub enum Word {
    /// As it is.
    Plain(String),
    /// A name in the folder, and what stands behind it.
    Path(String),
}

/// A file in the folder.
#[derive(Clone, Debug)]
pub struct Held {
    /// Its name.
    pub name: String,
    /// Its bytes; none if it is a folder.
    pub bytes: Option<Vec<u8>>,
}

/// What a command line asks for, before it is put in words.
#[derive(Clone, Debug)]
pub struct Plan {
    /// The turn length.
    pub q: u32,
    /// The run's length.
    pub steps: u32,
    /// The partitions.
    pub partitions: Vec<Part>,
}

/// A partition: its frames and its images.
#[derive(Clone, Debug)]
pub struct Part {
    /// Page 0 is the first.
    pub frames: Vec<u32>,
    /// The images.
    pub images: Vec<Laid>,
}

/// An image and its place.
#[derive(Clone, Debug)]
pub struct Laid {
    /// The file's name in the folder.
    pub name: String,
    /// Its first word's guest byte address.
    pub address: u32,
    /// Its bytes; none if it is a folder.
    pub bytes: Option<Vec<u8>>,
    /// Whether there is such a file.
    pub there: bool,
}

impl Plan {
    /// The words of all frames, each image in its place.
    pub fn memory(&self) -> Vec<u32> {
        let mut memory = vec![0; FRAMES * FRAME_WORDS];
        for part in &self.partitions {
            for laid in &part.images {
                let bytes = laid.bytes.iter().flatten();
                for (&byte, at) in bytes.zip(laid.address as usize..) {
                    let frame = part.frames[at / 4_096] as usize;
                    memory[FRAME_WORDS * frame + at % 4_096 / 4] |=
                        u32::from(byte) << (8 * (at % 4));
                }
            }
        }
        memory
    }

    /// A source that makes the same file, with all frames.
    pub fn source(&self) -> String {
        let mut source = format!("turns {} run {}\n", self.q, self.steps);
        for part in &self.partitions {
            let frames: String = part.frames.iter().map(|frame| format!(" {frame}")).collect();
            source.push_str(&format!("partition{frames}\n"));
        }
        for (frame, words) in self.memory().chunks_exact(FRAME_WORDS).enumerate() {
            source.push_str(&format!("frame {frame}\n"));
            for (place, word) in words.iter().enumerate().filter(|(_, &word)| word != 0) {
                source.push_str(&format!(" at {}\n word {word}\n", 4 * place));
            }
        }
        source + "end\n"
    }

    /// The command line.
    fn words(&self, rng: &mut Rng) -> Vec<Word> {
        let mut words =
            vec![Word::Path("out".into()), decimal(rng, self.q), decimal(rng, self.steps)];
        for part in &self.partitions {
            words.push(plain("partition"));
            let frames: Vec<String> = part.frames.iter().map(|&frame| zeros(rng, frame)).collect();
            words.push(plain(&frames.join(",")));
            for Laid { name, address, .. } in &part.images {
                let bare = *address == 0 && !name.contains('@') && rng.chance(60);
                let behind =
                    if bare { String::new() } else { format!("@{}", zeros(rng, *address)) };
                words.push(Word::Path(format!("{name}{behind}")));
            }
        }
        words
    }

    fn held(&self) -> Vec<Held> {
        let all = self.partitions.iter().flat_map(|part| &part.images);
        let mut seen = HashSet::new();
        let there = all.filter(|laid| laid.there && seen.insert(laid.name.clone()));
        there.map(|laid| Held { name: laid.name.clone(), bytes: laid.bytes.clone() }).collect()
    }

    /// A partition, and one of its images.
    fn any(&mut self, rng: &mut Rng) -> (&mut Part, usize) {
        let at = rng.index(self.partitions.len());
        let part = &mut self.partitions[at];
        let image = rng.index(part.images.len());
        (part, image)
    }

    fn frames(&self) -> Vec<u32> {
        self.partitions.iter().flat_map(|part| part.frames.clone()).collect()
    }
}

fn plain(text: &str) -> Word {
    Word::Plain(text.into())
}

fn decimal(rng: &mut Rng, number: u32) -> Word {
    Word::Plain(zeros(rng, number))
}

/// A decimal, now and then with zeros before it.
fn zeros(rng: &mut Rng, number: u32) -> String {
    let zeros = if rng.chance(8) { rng.pick(&[1, 2, 9, 30]) } else { 0 };
    format!("{}{number}", "0".repeat(zeros))
}

/// Random command lines: two of five are right, every other one has a mistake of the kind whose turn it is.
pub fn noons(seed: u64, count: usize) -> Vec<Noon> {
    let mut mistakes = (0..).flat_map(|turn| MISTAKES.iter().map(move |mistake| (turn, mistake)));
    (0..count)
        .map(|number| {
            let mut rng = Rng::new(!seed ^ (number as u64) << 32 ^ 35);
            let mistake = if number % 5 < 2 { None } else { mistakes.next() };
            let mut noon = compose(&mut rng, mistake);
            noon.name = format!("{} {number} of seed {seed}", noon.kind);
            noon
        })
        .collect()
}

/// How many of them.
pub const NOONS: usize = 200;

/// The kinds of command lines.
pub fn kinds() -> impl Iterator<Item = &'static str> {
    [RIGHT].into_iter().chain(MISTAKES.iter().map(|mistake| mistake.0))
}

/// The kind of a command line without a mistake.
pub const RIGHT: &str = "right";

fn compose(rng: &mut Rng, mistake: Option<(usize, &Mistake)>) -> Noon {
    let mut plan = plan(rng);
    let kind = mistake.map_or(RIGHT, |(_, mistake)| mistake.0);
    let in_words = match mistake {
        None => None,
        Some((turn, Mistake(_, Spoil::Plan(spoil)))) => {
            spoil(rng, turn, &mut plan);
            None
        }
        Some((turn, Mistake(_, Spoil::Words(spoil)))) => Some((turn, spoil)),
    };
    let mut words = plan.words(rng);
    if let Some((turn, spoil)) = in_words {
        spoil(rng, turn, &mut words);
    }
    let images = plan.held();
    let plan = in_words.is_none().then_some(plan);
    Noon { name: String::new(), kind, words, images, old: rng.chance(50), plan }
}

/// A house that is right.
fn plan(rng: &mut Rng) -> Plan {
    let mut frames = guest_frames(rng, FRAMES as u32);
    let partitions = rng.pick(&[1, 1, 2, 2, 2, 3, 4, PARTITIONS]);
    let most = (frames.len() / partitions).min(rng.pick(&[1, 2, 2, 3, 5, 15]));
    let mut number = 0;
    let partitions: Vec<Part> = (0..partitions)
        .map(|_| {
            let pages = rng.between(1, most as u32) as usize;
            let own: Vec<u32> = frames.drain(..pages).collect();
            let images = images(rng, pages, &mut number);
            Part { frames: own, images }
        })
        .collect();
    let q = match rng.below(4) {
        0 => rng.pick(&[1, 2, MOST_TURN - 1, MOST_TURN]),
        _ => rng.between(1, MOST_TURN),
    };
    let steps = match rng.below(3) {
        0 => rng.pick(&[0, 1, MOST_STEPS - 1, MOST_STEPS]),
        _ => rng.below(MOST_STEPS),
    };
    Plan { q, steps, partitions }
}

/// Images for so many pages, none of them over another; in any order.
fn images(rng: &mut Rng, pages: usize, number: &mut usize) -> Vec<Laid> {
    let size = pages * FRAME_WORDS;
    let many = rng.pick(&[1, 1, 1, 2, 2, 3, 6]);
    let mut ends: Vec<usize> = (0..2 * many).map(|_| place(rng, size)).collect();
    ends.sort_unstable();
    let mut images: Vec<Laid> = ends
        .chunks_exact(2)
        .map(|ends| {
            *number += 1;
            laid(rng, *number, ends[0], ends[1] - ends[0])
        })
        .collect();
    if rng.chance(30) {
        // One without words may lie within another.
        *number += 1;
        let first = rng.index(size + 1);
        images.push(laid(rng, *number, first, 0));
    }
    for last in (1..images.len()).rev() {
        images.swap(last, rng.index(last + 1));
    }
    images
}

/// A place among so many words: often the start of a page, or an end.
fn place(rng: &mut Rng, size: usize) -> usize {
    let near = match rng.below(6) {
        0 => 0,
        1 => size,
        2 => FRAME_WORDS * rng.index(size / FRAME_WORDS + 1),
        3 => FRAME_WORDS * rng.index(size / FRAME_WORDS + 1) + 1,
        _ => rng.index(size),
    };
    near.min(size)
}

fn laid(rng: &mut Rng, number: usize, first: usize, many: usize) -> Laid {
    let name =
        rng.pick(&["a.image", "weights.words", "b c", "ä", "m@home", "@8", "-", "partition"]);
    let words: Vec<u32> = (0..many).map(|_| words::value(rng)).collect();
    Laid {
        name: format!("{number}{name}"),
        address: 4 * first as u32,
        bytes: Some(word_bytes(&words)),
        there: true,
    }
}

/// A mistake by its name.
struct Mistake(&'static str, Spoil);

/// A change of what is asked for, by how often it has come before.
type Change = fn(&mut Rng, usize, &mut Plan);

/// A mistake in what is asked for, or in its words, by how often it has come before.
enum Spoil {
    Plan(Change),
    Words(fn(&mut Rng, usize, &mut Vec<Word>)),
}

/// Words that are no number below 2^32.
const NO_NUMBERS: [&str; 14] = [
    "4294967296",
    "",
    "-1",
    "+1",
    "18446744073709551617",
    "1 ",
    "0x10",
    " 1",
    "x",
    "1_000",
    "1.0",
    "１",
    "340282366920938463463374607431768211457",
    "1\n",
];

/// One of them, another each time, for the first, second or third place of a number.
fn no_number(turn: usize, place: usize) -> &'static str {
    NO_NUMBERS[(3 * turn + place) % NO_NUMBERS.len()]
}

/// The places of the words that are an image's.
fn image_places(words: &[Word]) -> Vec<usize> {
    let image = |at: &usize| *at > 0 && matches!(words[*at], Word::Path(_));
    (0..words.len()).filter(image).collect()
}

fn partition_places(words: &[Word]) -> Vec<usize> {
    (0..words.len()).filter(|&at| words[at] == plain("partition")).collect()
}

/// The name of an image's word with another address behind it.
fn readdress(words: &mut [Word], at: usize, address: &str) {
    if let Word::Path(text) = &mut words[at] {
        let name = text.rsplit_once('@').map_or(text.as_str(), |(name, _)| name);
        *text = format!("{name}@{address}");
    }
}

/// What the night would refuse, in the order of its tests: 1, 2, 3, 6, 16, 7, 14.
const REFUSED: [Change; 7] = [
    |rng, _, plan| nine(rng, plan),
    |rng, turn, plan| pages(rng, turn, plan),
    |_, turn, plan| plan.q = [0, MOST_TURN + 1, u32::MAX, 1 << 31][turn % 4],
    |rng, turn, plan| name_frame(rng, plan, [FRAMES as u32, u32::MAX, 17, 255, 1_024][turn % 5]),
    |rng, _, plan| name_frame(rng, plan, 0),
    |rng, _, plan| {
        let all = plan.frames();
        let frame = rng.pick(&all);
        name_frame(rng, plan, frame);
    },
    |_, turn, plan| plan.steps = [MOST_STEPS + 1, u32::MAX, 1 << 31][turn % 3],
];

/// Puts a frame into some lists.
fn name_frame(rng: &mut Rng, plan: &mut Plan, frame: u32) {
    for _ in 0..rng.between(1, 2) {
        let at = rng.index(plan.partitions.len());
        let frames = &mut plan.partitions[at].frames;
        frames.insert(rng.index(frames.len() + 1), frame);
    }
}

/// A refusal and the next one: the first is told.
fn before(rng: &mut Rng, turn: usize, plan: &mut Plan, first: usize) {
    REFUSED[first](rng, turn, plan);
    REFUSED[first + 1](rng, turn, plan);
}

/// More than eight partitions.
fn nine(rng: &mut Rng, plan: &mut Plan) {
    let frames = guest_frames(rng, FRAMES as u32);
    let many = rng.pick(&[9, 9, 10, 15]);
    plan.partitions.clear();
    for (at, &frame) in frames.iter().take(many).enumerate() {
        let images = vec![laid(rng, at, 0, 3)];
        plan.partitions.push(Part { frames: vec![frame], images });
    }
}

/// A partition without pages, or with more than 256.
fn pages(rng: &mut Rng, turn: usize, plan: &mut Plan) {
    for _ in 0..rng.between(1, 2) {
        let at = rng.index(plan.partitions.len());
        plan.partitions[at].frames = vec![1; [0, 257, 0, 300][turn % 4]];
    }
}

/// A mistake in the images; the first three whatever the frames are.
const IMAGES: [Change; 5] = [
    |rng, _, plan| {
        let (part, at) = plan.any(rng);
        part.images[at].there = false;
    },
    |rng, _, plan| {
        let (part, at) = plan.any(rng);
        part.images[at].bytes = None;
    },
    |rng, _, plan| {
        let (part, at) = plan.any(rng);
        let mut bytes = part.images[at].bytes.take().unwrap_or_default();
        bytes.truncate(bytes.len().saturating_sub(rng.pick(&[4, 8, 0])));
        bytes.extend(vec![7; rng.between(1, 3) as usize]);
        part.images[at].bytes = Some(bytes);
    },
    |rng, turn, plan| beyond(rng, turn, plan),
    |rng, turn, plan| over(rng, turn, plan),
];

/// An image that does not end within the pages: by one word, without any, or by far.
fn beyond(rng: &mut Rng, turn: usize, plan: &mut Plan) {
    let (part, at) = plan.any(rng);
    let end = 4_096 * part.frames.len() as u32;
    let laid = &mut part.images[at];
    let size = laid.bytes.as_ref().map_or(0, Vec::len) as u32;
    match turn % 5 {
        0 => laid.bytes = Some(vec![9; (end - laid.address) as usize + 4]),
        1 => (laid.address, laid.bytes) = (end + 4, Some(Vec::new())),
        2 if size > 0 => laid.address = end - size + 4,
        3 => (laid.address, laid.bytes) = (0, Some(vec![1; 17 * 4_096])),
        _ => {
            laid.address = rng.pick(&[u32::MAX - 3, 1 << 31, 1 << 16, end]);
            laid.bytes = Some(vec![1; 4]);
        }
    }
}

/// One more image, which has a word where another has one.
fn over(rng: &mut Rng, turn: usize, plan: &mut Plan) {
    let (part, at) = plan.any(rng);
    let other = &mut part.images[at];
    if other.bytes.as_ref().is_some_and(Vec::is_empty) {
        other.bytes = Some(vec![3; 4]);
        other.address = other.address.min(4_092);
    }
    let size = other.bytes.as_ref().map_or(0, Vec::len) as u32;
    if turn.is_multiple_of(2) && size > 0 {
        // A word is there, though it is 0.
        other.bytes = Some(vec![0; size as usize]);
    }
    let (first, last) = (other.address, other.address + size.saturating_sub(4));
    let (address, words) = match turn % 4 {
        0 => (first, 1),
        1 => (last, 1),
        2 => (first.saturating_sub(8), 3.min(1 + first / 4)),
        _ => (first, size / 4),
    };
    let mut more = match rng.below(3) {
        0 => Laid { address: first, ..other.clone() },
        _ => laid(rng, 99, address as usize / 4, words as usize),
    };
    more.there = true;
    let place = rng.index(part.images.len() + 1);
    part.images.insert(place, more);
}

/// So many images, most of them empty.
fn many_images(rng: &mut Rng, plan: &mut Plan, many: usize) {
    let mut number = 100;
    loop {
        let images: usize = plan.partitions.iter().map(|part| part.images.len()).sum();
        if images == many {
            return;
        }
        number += 1;
        let at = rng.index(plan.partitions.len());
        plan.partitions[at].images.push(laid(rng, number, 0, 0));
    }
}

const MISTAKES: [Mistake; 37] = [
    Mistake("Q is no number", Spoil::Words(|_, turn, words| words[1] = plain(no_number(turn, 0)))),
    Mistake(
        "STEPS is no number",
        Spoil::Words(|_, turn, words| words[2] = plain(no_number(turn, 1))),
    ),
    Mistake(
        "an address is no number",
        Spoil::Words(|rng, turn, words| {
            let at = rng.pick(&image_places(words));
            readdress(words, at, no_number(turn, 2));
        }),
    ),
    Mistake(
        "a frame is no number",
        Spoil::Words(|rng, turn, words| {
            let at = rng.pick(&partition_places(words)) + 1;
            let wrong = ["1,4294967296", "x", "1, 2", "1;2", "-1", "1 2", "1@2", "4294967297"];
            words[at] = plain(wrong[turn % wrong.len()]);
        }),
    ),
    Mistake(
        "a comma too many",
        Spoil::Words(|rng, turn, words| {
            let at = rng.pick(&partition_places(words)) + 1;
            if let Word::Plain(list) = &mut words[at] {
                let wrong =
                    [format!("{list},"), format!(",{list}"), format!("{list},,{list}"), ",".into()];
                *list = wrong[turn % wrong.len()].clone();
            }
        }),
    ),
    Mistake(
        "an address is no multiple of 4",
        Spoil::Words(|rng, turn, words| {
            let at = rng.pick(&image_places(words));
            let wrong = [2, u32::MAX, 4_097, 1, 3];
            readdress(words, at, &wrong[turn % wrong.len()].to_string());
        }),
    ),
    Mistake(
        "another word than partition",
        Spoil::Words(|_, turn, words| {
            let wrong = ["Partition", "", "partitions", "part", "partition ", "frame"];
            words[3] = plain(wrong[turn % wrong.len()]);
        }),
    ),
    Mistake(
        "a partition's word is taken for an image",
        Spoil::Words(|rng, _, words| {
            let at = rng.pick(&partition_places(words));
            words[at] = plain("Partition");
        }),
    ),
    Mistake(
        "a partition without images",
        Spoil::Words(|rng, _, words| {
            let at = rng.pick(&partition_places(words));
            let images =
                words[at + 2..].iter().take_while(|word| **word != plain("partition")).count();
            words.drain(at + 2..at + 2 + images);
        }),
    ),
    Mistake(
        "a word missing",
        Spoil::Words(|rng, _, words| {
            let at = rng.index(5);
            words.remove(at);
        }),
    ),
    Mistake(
        "words missing at the end",
        Spoil::Words(|_, turn, words| words.truncate([3, 4, 5, 2, 1, 0][turn % 6])),
    ),
    Mistake("65 images", Spoil::Plan(|rng, _, plan| many_images(rng, plan, MOST_IMAGES + 1))),
    Mistake("64 images", Spoil::Plan(|rng, _, plan| many_images(rng, plan, MOST_IMAGES))),
    Mistake("nine partitions", Spoil::Plan(REFUSED[0])),
    Mistake("no pages, or too many", Spoil::Plan(REFUSED[1])),
    Mistake("Q outside", Spoil::Plan(REFUSED[2])),
    Mistake("a frame that is not there", Spoil::Plan(REFUSED[3])),
    Mistake("frame 0", Spoil::Plan(REFUSED[4])),
    Mistake("a frame twice", Spoil::Plan(REFUSED[5])),
    Mistake("too many steps", Spoil::Plan(REFUSED[6])),
    Mistake("1 before 2", Spoil::Plan(|rng, turn, plan| before(rng, turn, plan, 0))),
    Mistake("2 before 3", Spoil::Plan(|rng, turn, plan| before(rng, turn, plan, 1))),
    Mistake("3 before 6", Spoil::Plan(|rng, turn, plan| before(rng, turn, plan, 2))),
    Mistake("6 before 16", Spoil::Plan(|rng, turn, plan| before(rng, turn, plan, 3))),
    Mistake("16 before 7", Spoil::Plan(|rng, turn, plan| before(rng, turn, plan, 4))),
    Mistake("7 before 14", Spoil::Plan(|rng, turn, plan| before(rng, turn, plan, 5))),
    Mistake("an image that is not there", Spoil::Plan(IMAGES[0])),
    Mistake("a folder for an image", Spoil::Plan(IMAGES[1])),
    Mistake("part of a word", Spoil::Plan(IMAGES[2])),
    Mistake("beyond the pages", Spoil::Plan(IMAGES[3])),
    Mistake("one image over another", Spoil::Plan(IMAGES[4])),
    Mistake(
        "an image and a refusal",
        Spoil::Plan(|rng, turn, plan| {
            rng.pick(&REFUSED)(rng, turn, plan);
            IMAGES[turn % 3](rng, turn, plan);
        }),
    ),
    Mistake(
        "two images",
        Spoil::Plan(|rng, turn, plan| {
            IMAGES[turn % 3](rng, turn, plan);
            IMAGES[3 + turn % 2](rng, turn, plan);
        }),
    ),
    Mistake(
        "a wrong word and a refusal",
        Spoil::Words(|rng, turn, words| {
            words[1] = plain("0");
            let at = rng.pick(&image_places(words));
            readdress(words, at, ["x", "", "2"][turn % 3]);
        }),
    ),
    Mistake(
        "a refusal and no number behind it",
        Spoil::Words(|_, turn, words| {
            words[1] = plain("10001");
            let last = words.len() - 1;
            readdress(words, last, ["6", "-4", "4294967296"][turn % 3]);
        }),
    ),
    Mistake(
        "OUT in no folder",
        Spoil::Words(|_, _, words| words[0] = Word::Path("none/out".into())),
    ),
    Mistake("OUT is a folder", Spoil::Words(|_, _, words| words[0] = Word::Path("folder".into()))),
];
