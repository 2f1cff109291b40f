//! Plays named scripts and keeps what each call left behind.
#![allow(dead_code)] // not every test file uses all of it

use std::sync::OnceLock;

use emulator::counts::Counts;
use emulator::dlx::Guest;
use emulator::generate::Script;
use emulator::house::{numbers, House};
use emulator::memory::FRAME_WORDS;
use emulator::named;
use emulator::script::Player;

/// The state after one call of a named script.
pub struct After {
    /// House number and detail.
    pub answer: (u32, u64),
    pub house: House,
    /// The lent words behind frame 0: partition 0's pages, and then the others'.
    pub memory: Vec<u32>,
    /// The words of frame 0, as many as are lent.
    pub frame_0: Vec<u32>,
    /// The text of the call.
    pub text: String,
}

impl After {
    /// Partition 0.
    pub fn guest(&self) -> &Guest {
        &self.house.guests[0]
    }

    pub fn register(&self, number: usize) -> u32 {
        self.guest().registers[number]
    }

    pub fn special(&self, number: usize) -> u32 {
        self.guest().specials[number]
    }

    /// The number of the latest fault.
    pub fn fault(&self) -> u32 {
        self.guest().fault
    }

    pub fn shadow(&self, px: usize) -> u32 {
        self.guest().space.shadow[px]
    }

    /// The tickets that wait for a partition, the oldest first.
    pub fn waiting(&self, partition: usize) -> &[u32] {
        let queue = &self.house.queues[partition];
        &queue.places[..queue.waiting as usize]
    }

    /// DPC and PC.
    pub fn pair(&self) -> (u32, u32) {
        (self.guest().dpc, self.guest().pc)
    }

    /// Current partition and steps left.
    pub fn turn(&self) -> (u32, u32) {
        (self.house.current, self.house.left)
    }
}

/// The named scripts.
pub fn scripts() -> &'static [Script] {
    static SCRIPTS: OnceLock<Vec<Script>> = OnceLock::new();
    SCRIPTS.get_or_init(named::scripts)
}

/// What every call of a named script left behind, boot included.
pub fn play(name: &str) -> Vec<After> {
    let script = scripts().iter().find(|script| script.name == name);
    let script = script.unwrap_or_else(|| panic!("no script {name}"));
    let mut player = Player::new();
    let mut states = Vec::new();
    for command in &script.commands {
        let mut text = String::new();
        let answer = player.play(command, &mut text, &mut Counts::default());
        if let Some(answer) = answer {
            let house = player.house.clone();
            let (frame_0, memory) = player.lent().split_at(player.lent().len().min(FRAME_WORDS));
            let (memory, frame_0) = (memory.to_vec(), frame_0.to_vec());
            states.push(After { answer: numbers(answer), house, memory, frame_0, text });
        }
    }
    states
}

/// The state after the last call.
pub fn last(name: &str) -> After {
    play(name).pop().expect("a script has calls")
}

/// The answers of all calls.
pub fn answers(name: &str) -> Vec<(u32, u64)> {
    play(name).iter().map(|after| after.answer).collect()
}
