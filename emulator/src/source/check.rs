//! What the night would refuse of a source's file, by the line that says it.

use super::{told, Maker};
use crate::house::{Refusal, MOST_PAGES, MOST_STEPS, MOST_TURN, PARTITIONS};
use crate::housefile::{check, read, Wrong, FRAMES, HEAD};

/// A house's numbers, and the lines that say them.
struct Said {
    q: u32,
    steps: u32,
    turns_line: usize,
    lists: Vec<Vec<u32>>,
    lines: Vec<usize>,
}

impl Maker {
    /// Whether it says a house file that has to be right.
    pub(super) fn checked(&self) -> bool {
        self.records && !self.on_purpose
    }

    /// The refusal of the file, with the line that brings it about.
    pub(super) fn check(&self, last: usize) -> Result<(), String> {
        match read(&self.file) {
            Ok(file) => {
                let starts = list_starts(&file.lists);
                let lines = starts.iter().map(|&at| self.line_at(at)).collect();
                let (q, steps, lists) = (file.q, file.steps, file.lists);
                Said { q, steps, turns_line: self.line_at(0), lists, lines }.check(last)
            }
            Err(Wrong(at)) => {
                // Nine partitions make no house file. They are refused by the house's own number.
                if let Some((q, steps, turns_line)) = self.turns.filter(|_| !self.as_they_are) {
                    let (lists, lines) = self.partitions.iter().cloned().unzip();
                    Said { q, steps, turns_line, lists, lines }.check(last)?;
                }
                let line = self.line_at(at as usize);
                Err(told(line, format!("refused 15 {at}: {}", self.why(at as usize))))
            }
        }
    }

    /// The line that wrote the byte, or the last one that wrote any.
    fn line_at(&self, at: usize) -> usize {
        let before = self.starts.iter().take_while(|&&(start, _)| start <= at);
        before.last().map_or(0, |&(_, line)| line)
    }

    /// What is wrong with the record there.
    fn why(&self, at: usize) -> String {
        let rest = &self.file[at..];
        let number = |four: &[u8]| u32::from_le_bytes([four[0], four[1], four[2], four[3]]);
        let whole = |length: u32| (rest.len() - HEAD) as u64 >= u64::from(length);
        match (rest.get(4..HEAD), rest.get(HEAD..HEAD + 4)) {
            (Some(_), _) if !whole(number(rest)) => "here a record is cut short".into(),
            (Some([1, 0]), _) => "expected `turns` first, and once".into(),
            (Some([2, 0]), _) => "expected partitions behind `turns` and before all frames".into(),
            (Some([3, 0]), Some(four)) if number(four) as usize >= FRAMES => {
                format!("the memory has {FRAMES} frames, and no frame {}", number(four))
            }
            (Some([3, 0]), _) => "expected frames behind the partitions".into(),
            (Some([4, 0]), _) => "expected `end` behind the partitions".into(),
            _ => "here the night expects another record".into(),
        }
    }
}

/// Where the kind 2 records of a house file begin.
fn list_starts(lists: &[Vec<u32>]) -> Vec<usize> {
    let size = |list: &Vec<u32>| HEAD + 4 * list.len();
    let before = |at: usize| lists[..at].iter().map(size).sum::<usize>();
    (0..lists.len()).map(|at| HEAD + 8 + before(at)).collect()
}

impl Said {
    fn check(&self, last: usize) -> Result<(), String> {
        let Err(refusal) = check(self.q, self.steps, &self.lists) else {
            return Ok(());
        };
        let (line, why) = match refusal {
            Refusal::Partitions => self.partitions(last),
            Refusal::PageCount(of) => {
                let pages = self.lists[of].len();
                let why =
                    format!("a partition has 1 to {MOST_PAGES} pages, and this one has {pages}");
                (self.lines[of], why)
            }
            Refusal::Turn => {
                let why = format!("a turn has 1 to {MOST_TURN} steps, and not {}", self.q);
                (self.turns_line, why)
            }
            Refusal::Frame(at) => {
                let (frame, line) = self.place(at);
                (line, format!("the memory has {FRAMES} frames, and no frame {frame}"))
            }
            Refusal::HouseFrame(at) => {
                let (frame, line) = self.place(at);
                (line, format!("frame {frame} is kept for the house"))
            }
            Refusal::Twice(at) => {
                let (frame, line) = self.place(at);
                let mut earlier = (0..at).map(|at| self.place(at));
                let before = earlier.find(|&(other, _)| other == frame);
                let before = before.map_or(line, |(_, line)| line);
                (line, format!("frame {frame} stands in line {before} already"))
            }
            _ => {
                let why = format!("a run has at most {MOST_STEPS} steps, and not {}", self.steps);
                (self.turns_line, why)
            }
        };
        let (number, detail) = (refusal.number(), refusal.detail());
        Err(told(line, format!("refused {number} {detail}: {why}")))
    }

    fn partitions(&self, last: usize) -> (usize, String) {
        let line = self.lines.get(PARTITIONS).copied().unwrap_or(last);
        let many = self.lists.len();
        (line, format!("a house has 1 to {PARTITIONS} partitions, and this one has {many}"))
    }

    /// The frame at a position of all lists as one, and its line.
    fn place(&self, at: usize) -> (u32, usize) {
        let lists = self.lists.iter().zip(&self.lines);
        let mut places = lists.flat_map(|(list, &line)| list.iter().map(move |&f| (f, line)));
        places.nth(at).expect("a refusal tells a position of the list")
    }
}
