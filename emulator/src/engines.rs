//! The engine without shadows, and how it stands to the first one.

use std::ops::AddAssign;

use crate::counts::{add_all, valid_entries, Counts};
use crate::house::{Answer, House, Refusal};
use crate::memory::Engine;

impl House {
    /// Runs for a number of host steps by the engine that walks the guest's table at every access. A
    /// done run, one of 0 steps too, leaves every shadow empty; a refused one leaves all as it was.
    pub fn run_unshadowed(
        &mut self,
        memory: &mut [u32],
        steps: u32,
        counts: &mut Counts,
    ) -> Answer {
        self.check_run(memory, steps)?;
        for guest in &mut self.guests {
            guest.space.empty();
        }
        for _ in 0..steps {
            self.host_step(memory, Engine::Walking, counts);
        }
        Ok(u64::from(steps))
    }

    /// A run by either engine.
    pub fn run_by(
        &mut self,
        engine: Engine,
        memory: &mut [u32],
        steps: u32,
        counts: &mut Counts,
    ) -> Answer {
        match engine {
            Engine::Shadowed => self.run(memory, steps, counts),
            Engine::Walking => self.run_unshadowed(memory, steps, counts),
        }
    }

    /// The same house with every shadow empty.
    pub fn emptied(&self) -> House {
        let mut house = self.clone();
        for guest in &mut house.guests {
            guest.space.empty();
        }
        house
    }
}

/// House and memory before a run by the second engine, for the first one.
#[derive(Debug)]
pub struct Before {
    house: House,
    memory: Vec<u32>,
}

impl Before {
    /// The state before a run.
    pub fn new(house: &House, memory: &[u32]) -> Before {
        Before { house: house.clone(), memory: memory.to_vec() }
    }
}

/// Runs by the engine without shadows, and what the first engine does from the same state.
#[derive(Clone, Debug, Default, PartialEq, Eq)]
pub struct Engines {
    /// Runs by answer: done, done of 0 steps, 8, 9, 14, 11.
    pub answers: [u64; 6],
    /// Refused ones whose house had shadow entries.
    pub kept: u64,
    /// Done ones whose house had shadow entries, none of them stale; both engines then agree.
    pub right: u64,
    /// Those of them in which the engines differ, which must be none.
    pub differ_right: u64,
    /// Done ones whose house had a stale entry, and both engines agree all the same.
    pub stale_agree: u64,
    /// Done ones whose house had a stale entry, and the engines differ.
    pub stale_differ: u64,
    /// Those of them in which the memory differs.
    pub memory_differs: u64,
    /// Those of them in which the turns or counters differ.
    pub turns_differ: u64,
}

/// Current partition, steps left, and counters.
fn turns(house: &House) -> (u32, u32, [u64; 8]) {
    (house.current, house.left, std::array::from_fn(|at| house.guests[at].counter))
}

impl Engines {
    /// A run by the second engine, and the state that it left.
    pub fn ran(
        &mut self,
        before: Before,
        steps: u32,
        answer: Answer,
        house: &House,
        memory: &[u32],
    ) {
        let place = match answer {
            Ok(_) if steps > 0 => 0,
            Ok(_) => 1,
            Err(Refusal::Damaged) => 2,
            Err(Refusal::Length) => 3,
            Err(Refusal::TooLong) => 4,
            Err(_) => 5,
        };
        self.answers[place] += 1;
        let valid = valid_entries(&before.house) > 0;
        if answer.is_err() {
            self.kept += u64::from(valid);
            return;
        }
        let Before { house: mut other, memory: mut words } = before;
        let stale = other.stale_counts(&words).map_or(0, |counts| counts.iter().sum());
        let shadowed = other.run(&mut words, steps, &mut Counts::default());
        let agree = shadowed == answer && other.emptied() == *house && words == memory;
        match (stale > 0, agree) {
            (false, _) => {
                self.right += u64::from(valid && agree);
                self.differ_right += u64::from(!agree);
            }
            (true, true) => self.stale_agree += 1,
            (true, false) => {
                self.stale_differ += 1;
                self.memory_differs += u64::from(words != memory);
                self.turns_differ += u64::from(turns(&other) != turns(house));
            }
        }
    }

    /// What must be met often, by name.
    pub fn kinds(&self) -> Vec<(&'static str, u64)> {
        let answers = ["done", "done of 0 steps", "refused by 8", "by 9", "by 14", "by 11"];
        let others = [
            ("refused with shadow entries", self.kept),
            ("with right entries alone, the engines agree", self.right),
            ("with a stale entry, the engines agree", self.stale_agree),
            ("with a stale entry, the engines differ", self.stale_differ),
            ("and the memory differs", self.memory_differs),
        ];
        answers.into_iter().zip(self.answers).chain(others).collect()
    }
}

impl AddAssign<&Engines> for Engines {
    fn add_assign(&mut self, other: &Engines) {
        add_all(&mut self.answers, &other.answers);
        self.kept += other.kept;
        self.right += other.right;
        self.differ_right += other.differ_right;
        self.stale_agree += other.stale_agree;
        self.stale_differ += other.stale_differ;
        self.memory_differs += other.memory_differs;
        self.turns_differ += other.turns_differ;
    }
}
