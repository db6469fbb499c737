//! The 82C53 of a station that has one: counter 0 flashes the tunnel's lamp while a fish is in it, counter 1 times a tag.
use crate::chips::{Chips, CYCLES_A_SECOND};
use c51::{control, gate, out, port};

/// Pulses from one flash to the next, 200 of them a second: the output of counter 0, in mode 2, is low in the last.
pub const FLASH: u16 = (CYCLES_A_SECOND / 200) as u16;
/// Pulses that a tag may take from its first byte to its carriage return, 20 ms: the output of counter 1, in mode 0, is high from the
/// last on.
pub const LIMIT: u16 = (CYCLES_A_SECOND / 50) as u16;

/// The byte that ends a tag.
pub const CARRIAGE_RETURN: u8 = b'\r';

/// What the 82C53 says of a tag.
#[derive(Clone, Copy, PartialEq, Eq, Debug)]
pub enum Time {
    /// The cycles from its first byte to its carriage return.
    Took(u64),
    /// The carriage return did not come within the limit.
    NoEnd,
}

/// What the program keeps of its 82C53.
#[derive(Clone, Copy, PartialEq, Debug, Default)]
pub struct Timing {
    /// Whether a fish is in the tunnel, which is gate 0.
    pub fish: bool,
    /// Whether a tag has begun and not ended.
    pub begun: bool,
    /// The time of a tag that has ended, until it is asked for.
    pub took: Option<u64>,
}

/// Writes both bytes of a count.
fn write_count(chips: &mut impl Chips, address: u8, count: u16) {
    count.to_le_bytes().into_iter().for_each(|byte| chips.write_interval(address, byte));
}

impl Timing {
    /// Sets both counters up; counter 1 has no count before a tag begins.
    pub fn new(chips: &mut impl Chips) -> Timing {
        chips.write_interval(port::CONTROL, control::SELECT0 | control::BOTH | control::MODE2);
        write_count(chips, port::COUNTER0, FLASH);
        chips.write_interval(port::CONTROL, control::SELECT1 | control::BOTH | control::MODE0);
        Timing::default()
    }

    /// A fish comes into the tunnel or leaves it: either ends a tag that has begun.
    pub fn fish(&mut self, inside: bool) {
        (self.fish, self.begun) = (inside, false);
    }

    /// The gates: counter 1 always counts.
    pub fn gates(&self) -> u8 {
        if self.fish {
            gate::GATE0 | gate::GATE1
        } else {
            gate::GATE1
        }
    }

    /// A byte is received: the first after a fish came in, or after the limit, starts the limit; a carriage return reads
    /// what is left of it. The pulse that loads the limit does not count.
    pub fn byte(&mut self, chips: &mut impl Chips, byte: u8) {
        let in_time = self.begun && chips.outputs() & out::OUT1 == 0;
        self.begun = byte != CARRIAGE_RETURN;
        if in_time && byte == CARRIAGE_RETURN {
            chips.write_interval(port::CONTROL, control::SELECT1 | control::LATCH);
            let left = u16::from_le_bytes([chips.read_interval(port::COUNTER1), chips.read_interval(port::COUNTER1)]);
            self.took = Some(u64::from(LIMIT - left) + 1);
        } else if !in_time && self.begun {
            write_count(chips, port::COUNTER1, LIMIT);
        }
    }

    /// The time of the tag that was sent last.
    pub fn take_time(&mut self) -> Time {
        self.took.take().map_or(Time::NoEnd, Time::Took)
    }
}
