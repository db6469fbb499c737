//! Calls that ran by themselves, run once more as lists: `c51_replay` has to answer and to leave what they did.
use c51::{AnswerRow, CallRow, Device, ANSWER_WORDS, NONE};
use replay::calls::{Call, Request};
use std::fmt::Write;
use std::slice::from_ref;

/// An answer in a list: a code, and numbers or none.
pub fn row(code: u8, numbers: Option<&[u64]>) -> AnswerRow {
    let mut row = [0; ANSWER_WORDS];
    row[0] = code.into();
    row[1] = numbers.map_or(NONE, |numbers| numbers.len() as u64);
    row[2..].iter_mut().zip(numbers.unwrap_or_default()).for_each(|(word, number)| *word = *number);
    row
}

/// What stands in the answers before a list writes them.
const UNWRITTEN: AnswerRow = [0x5555; ANSWER_WORDS];

/// Nothing where these calls as one list from this record give these answers and leave that record.
fn same_as_list(start: &Device, calls: &[Call], answers: &[AnswerRow], left: &Device) -> Result<(), String> {
    let mut entries = Vec::new();
    let rows: Vec<CallRow> = calls.iter().map(|call| call.row(&mut entries)).collect();
    let mut given = vec![UNWRITTEN; rows.len()];
    let mut device = *start;
    device.replay(&rows, &entries, &mut given);
    let what = match given.iter().zip(answers).position(|(given, answer)| given != answer) {
        Some(at) => format!("call {}: {:?} in the list, {:?} by itself", at + 1, given[at], answers[at]),
        None if device != *left => format!("the list leaves {device:?}\nthe calls leave {left:?}"),
        None => return Ok(()),
    };
    let mut script = format!("{}\n", Request::Put(Box::new(*start)));
    calls.iter().for_each(|call| writeln!(script, "{call}").expect("a string grows"));
    Err(format!("the calls of this script differ as a list:\n{script}D\n{what}"))
}

/// Calls that ran one after the other: the record before the first, each call with its answer, and the record after the
/// last.
pub struct Ran {
    start: Device,
    calls: Vec<Call>,
    answers: Vec<AnswerRow>,
    left: Device,
}

impl Ran {
    pub fn from(start: Device) -> Ran {
        Ran { start, calls: Vec::new(), answers: Vec::new(), left: start }
    }

    /// Takes the next call, its answer and the record that it left, and compares it with a list of itself.
    pub fn push(&mut self, call: Call, answer: AnswerRow, left: Device) -> Result<(), String> {
        same_as_list(&self.left, from_ref(&call), from_ref(&answer), &left)?;
        self.calls.push(call);
        self.answers.push(answer);
        self.left = left;
        Ok(())
    }

    /// Compares all calls with one list of them; one alone is compared already.
    pub fn compare(&self) -> Result<(), String> {
        match self.calls.len() {
            0 | 1 => Ok(()),
            _ => same_as_list(&self.start, &self.calls, &self.answers, &self.left),
        }
    }
}

#[cfg(test)]
mod tests {
    use super::*;
    use c51::{address, PINS_HIGH};

    const SCRIPT: &str = "\nT 1 2130706437\nT 2 2113929218 2130706433\nL 127 9\nJ 127 6\nD\n";
    const CALLS: usize = 4;

    /// Two traces, a look ahead that finds none and a jump, as they ran. Timer 0 overflows in every second cycle.
    fn ran() -> Ran {
        let mut device = Device::reset(52).expect("a kind");
        for (address, value) in [(address::TMOD, 0x02), (address::TH0, 0xFE), (address::TL0, 0xFE), (address::TCON, 0x30)] {
            device.write(address, value).expect("a register");
        }
        let mut ran = Ran::from(device);
        for (entries, overflows) in [(vec![0x7F00_0005], 2), (vec![0x7E00_0002, 0x7F00_0001], 2)] {
            device.trace(&entries).expect("a trace");
            ran.push(Call::Trace(entries), row(0, Some(&[overflows, 0, 0])), device).expect("the same");
        }
        ran.push(Call::Look(PINS_HIGH, 9), row(0, None), device).expect("the same");
        device.jump(PINS_HIGH, 6).expect("a jump");
        ran.push(Call::Jump(PINS_HIGH, 6), row(0, Some(&[3, 0, 0, 6])), device).expect("the same");
        ran
    }

    #[test]
    fn the_same_as_a_list() {
        assert_eq!(ran().compare(), Ok(()));
    }

    #[test]
    fn a_difference_in_any_word_is_found() {
        for call in 0..CALLS {
            for word in 0..ANSWER_WORDS {
                let mut ran = ran();
                ran.answers[call][word] ^= 1;
                let text = ran.compare().unwrap_err();
                assert!(text.contains(&format!("{SCRIPT}call {}: ", call + 1)), "{text}");
            }
        }
    }

    #[test]
    fn a_difference_in_the_record_is_found() {
        let mut ran = ran();
        ran.left.interrupts.polled ^= 1;
        let text = ran.compare().unwrap_err();
        assert!(text.contains(&format!("{SCRIPT}the list leaves ")), "{text}");
    }

    #[test]
    fn a_difference_of_one_call_is_found() {
        let mut ran = ran();
        let left = ran.left;
        assert!(ran.push(Call::Offer, row(0, Some(&[])), left).is_err());
        assert!(ran.push(Call::Cycle(PINS_HIGH), row(0, Some(&[1])), left).is_err());
        assert_eq!(ran.push(Call::Offer, row(0, None), left), Ok(()));
    }
}
