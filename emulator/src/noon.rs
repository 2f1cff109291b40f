//! A house file from images, by the words of a command line.

use std::fs::File;
use std::io::Read;

use crate::house::numbers;
use crate::housefile::{check, record_bytes, word_bytes, FRAMES};
use crate::listing;
use crate::memory::FRAME_WORDS;
use crate::reads::decimal;

/// The most images of a house.
pub const MOST_IMAGES: usize = 64;
/// No image can have more bytes: as many as the memory.
const MOST_BYTES: usize = 4 * FRAMES * FRAME_WORDS;
/// The word that begins a partition.
const PARTITION: &str = "partition";

/// What the words ask for.
#[derive(Clone, Debug, PartialEq, Eq)]
pub struct Asked {
    /// The file that is made.
    pub out: String,
    /// The turn length.
    pub q: u32,
    /// The run's length.
    pub steps: u32,
    /// The partitions.
    pub partitions: Vec<Partition>,
}

/// A partition: its frames, and its images.
#[derive(Clone, Debug, PartialEq, Eq)]
pub struct Partition {
    /// Page 0 is the first.
    pub frames: Vec<u32>,
    /// At least one.
    pub images: Vec<Image>,
}

/// An image, and where it goes.
#[derive(Clone, Debug, PartialEq, Eq)]
pub struct Image {
    /// The file's name.
    pub name: String,
    /// The untranslated guest byte address of its first word.
    pub address: u32,
}

/// What comes of it.
#[derive(Clone, Debug, PartialEq, Eq)]
pub enum Answer {
    /// A wrong use, or an image that does not do: what to say.
    Failed(String),
    /// What the night would refuse, by number and detail.
    Refused(u32, u64),
    /// The lines to print, and the house file.
    Made(String, Vec<u8>),
}

/// A decimal below 2^32.
fn number(word: &str) -> Result<u32, String> {
    let number = decimal(word).and_then(|number| u32::try_from(number).ok());
    number.ok_or(format!("expected a number below 2^32, was given {word}"))
}

impl Asked {
    /// What the words ask for, or what is wrong with the first wrong one.
    pub fn read(words: &[String]) -> Result<Asked, String> {
        const SHAPE: &str = "expected OUT Q STEPS partition FRAMES IMAGE[@ADDRESS]..";
        let [out, q, steps, rest @ ..] = words else {
            return Err(SHAPE.into());
        };
        let mut asked =
            Asked { out: out.clone(), q: number(q)?, steps: number(steps)?, partitions: vec![] };
        if rest.is_empty() {
            return Err(SHAPE.into());
        }
        let mut left = MOST_IMAGES;
        let mut rest = rest;
        while let [word, behind @ ..] = rest {
            if word != PARTITION {
                return Err(format!("expected {PARTITION}, was given {word}"));
            }
            let (frames, behind) = behind.split_first().ok_or("expected FRAMES")?;
            let frames = frame_list(frames)?;
            let many = behind.iter().take_while(|word| *word != PARTITION).count();
            if many == 0 {
                return Err("expected an image".into());
            }
            left =
                left.checked_sub(many).ok_or(format!("expected {MOST_IMAGES} images at most"))?;
            let (images, behind) = behind.split_at(many);
            let images = images.iter().map(|word| Image::read(word)).collect::<Result<_, _>>()?;
            asked.partitions.push(Partition { frames, images });
            rest = behind;
        }
        Ok(asked)
    }

    /// The frame lists.
    pub fn lists(&self) -> Vec<Vec<u32>> {
        self.partitions.iter().map(|partition| partition.frames.clone()).collect()
    }
}

fn frame_list(word: &str) -> Result<Vec<u32>, String> {
    if word.is_empty() {
        return Ok(Vec::new());
    }
    word.split(',').map(number).collect()
}

impl Image {
    fn read(word: &str) -> Result<Image, String> {
        let (name, address) = match word.rsplit_once('@') {
            None => (word, 0),
            Some((name, address)) => (name, number(address)?),
        };
        if !address.is_multiple_of(4) {
            return Err(format!("expected a multiple of 4 for an address, was given {address}"));
        }
        Ok(Image { name: name.into(), address })
    }
}

/// Gives the bytes of an image by its name.
pub type Images<'a> = &'a dyn Fn(&str) -> Result<Vec<u8>, String>;

/// An image's bytes, as many as can be of use.
pub fn image(name: &str) -> Result<Vec<u8>, String> {
    let told = |error: std::io::Error| format!("{name}: {error}");
    let mut bytes = Vec::new();
    let file = File::open(name).map_err(told)?;
    file.take(MOST_BYTES as u64 + 4).read_to_end(&mut bytes).map_err(told)?;
    Ok(bytes)
}

/// What comes of the words.
pub fn noon(words: &[String], images: Images) -> Answer {
    let asked = match Asked::read(words) {
        Ok(asked) => asked,
        Err(message) => return Answer::Failed(message),
    };
    if let Err(refusal) = check(asked.q, asked.steps, &asked.lists()) {
        let (number, detail) = numbers(Err(refusal));
        return Answer::Refused(number, detail);
    }
    match laid(&asked, images) {
        Ok((text, memory)) => Answer::Made(text, file(&asked, &memory)),
        Err(message) => Answer::Failed(message),
    }
}

/// The lines, and the memory with every image in its place.
fn laid(asked: &Asked, images: Images) -> Result<(String, Vec<u32>), String> {
    let mut text = String::new();
    let mut memory: Vec<Option<u32>> = vec![None; FRAMES * FRAME_WORDS];
    for (at, partition) in asked.partitions.iter().enumerate() {
        for Image { name, address } in &partition.images {
            let words = listing::words(&images(name)?);
            let words = words.ok_or(format!("{name}: expected whole words of 4 bytes"))?;
            let (first, pages) = (*address as usize / 4, partition.frames.len());
            if first + words.len() > pages * FRAME_WORDS {
                return Err(format!("{name}: expected words within partition {at}'s pages"));
            }
            for (place, &word) in (first..).zip(&words) {
                let frame = partition.frames[place / FRAME_WORDS];
                let host = &mut memory[frame as usize * FRAME_WORDS + place % FRAME_WORDS];
                if host.replace(word).is_some() {
                    return Err(format!("{name}: a word where another image has one"));
                }
            }
            let sum = words.iter().fold(0u32, |sum, &word| sum.wrapping_add(word));
            let many = words.len();
            text.push_str(&format!(
                "partition {at}, address {address}: {many} words, sum {sum}: {name}\n"
            ));
        }
    }
    Ok((text, memory.into_iter().map(Option::unwrap_or_default).collect()))
}

/// The house file: every frame has a record, with something in it or not.
fn file(asked: &Asked, memory: &[u32]) -> Vec<u8> {
    let mut file = record_bytes(1, &word_bytes(&[asked.q, asked.steps]));
    for list in asked.lists() {
        file.extend(record_bytes(2, &word_bytes(&list)));
    }
    for (frame, words) in (0..).zip(memory.chunks_exact(FRAME_WORDS)) {
        file.extend(record_bytes(3, &word_bytes(&[&[frame], words].concat())));
    }
    file.extend(record_bytes(4, &[]));
    file
}
