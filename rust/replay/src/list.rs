//! Calls that run as one list.
use crate::calls::Call;
use c51::{AnswerRow, CallRow, Device, ANSWER_WORDS, MAX_TRACE};

/// A list is full with so many calls, or with so many entries of its traces; those of the last trace may go past that.
const CALLS: usize = 4096;
const ENTRIES: usize = MAX_TRACE;

/// Calls that wait to be run, and the answers to those that ran.
#[derive(Default)]
pub struct List {
    calls: Vec<CallRow>,
    entries: Vec<u32>,
    answers: Vec<AnswerRow>,
}

impl List {
    pub fn push(&mut self, call: &Call) {
        let row = call.row(&mut self.entries);
        self.calls.push(row);
    }

    /// Whether no more should wait.
    pub fn is_full(&self) -> bool {
        self.calls.len() >= CALLS || self.entries.len() >= ENTRIES
    }

    /// Runs the calls on a device, and gives the number and the answer of each; then none waits.
    pub fn run(&mut self, device: &mut Device) -> impl Iterator<Item = (u64, &AnswerRow)> {
        self.answers.clear();
        self.answers.resize(self.calls.len(), [0; ANSWER_WORDS]);
        device.replay(&self.calls, &self.entries, &mut self.answers);
        self.entries.clear();
        self.calls.drain(..).map(|row| row[0]).zip(&self.answers)
    }
}
