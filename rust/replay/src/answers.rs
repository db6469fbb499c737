//! What is answered, as text: a line for each.
use c51::{call, AnswerRow, NONE};
use std::io::{Result, Write};

/// The answer to a call of a list: its code, and the numbers that it gives or none.
#[derive(PartialEq, Debug)]
pub struct Answer<'a> {
    pub code: u64,
    pub numbers: Option<&'a [u64]>,
}

impl Answer<'_> {
    /// The answer of a row.
    pub fn of(row: &AnswerRow) -> Answer<'_> {
        let [code, count, numbers @ ..] = row;
        let numbers = (*count != NONE).then(|| &numbers[..*count as usize]);
        Answer { code: *code, numbers }
    }
}

/// The calls that give no value of their own: a 0 stands in its place.
const WITHOUT_VALUE: [u64; 5] = [call::RESET, call::WRITE, call::JUMP, call::TRACE, call::RETURN];

/// Writes the answer to the call of this number: the code, and the numbers or `none`.
pub fn write_answer(out: &mut impl Write, call: u64, row: &AnswerRow) -> Result<()> {
    let answer = Answer::of(row);
    write!(out, "{}", answer.code)?;
    if WITHOUT_VALUE.contains(&call) {
        write!(out, " 0")?;
    }
    match answer.numbers {
        Some(numbers) => numbers.iter().try_for_each(|n| write!(out, " {n}"))?,
        None => write!(out, " none")?,
    }
    writeln!(out)
}

#[cfg(test)]
mod tests {
    use super::*;

    /// The answer of these words, and zeros after them.
    fn text(call: u64, words: &[u64]) -> String {
        let mut row = AnswerRow::default();
        row[..words.len()].copy_from_slice(words);
        let mut out = Vec::new();
        write_answer(&mut out, call, &row).expect("a vector grows");
        String::from_utf8(out).expect("text")
    }

    #[test]
    fn passed() {
        for call in [call::RESET, call::WRITE, call::RETURN] {
            assert_eq!(text(call, &[0, 0]), "0 0\n");
        }
        assert_eq!(text(call::JUMP, &[0, 4, 2, 34, u64::MAX, 69]), "0 0 2 34 18446744073709551615 69\n");
        assert_eq!(text(call::TRACE, &[0, 3, 2, 34, u64::MAX]), "0 0 2 34 18446744073709551615\n");
        for call in [call::READ, call::CYCLE, call::LOOK, call::OFFER, call::TAKE, call::WAKE] {
            assert_eq!(text(call, &[0, 1, 43]), "0 43\n");
        }
        assert_eq!(text(call::LOOK, &[0, 1, u64::MAX]), "0 18446744073709551615\n");
        assert_eq!(text(call::WAKE, &[0, 1, 0]), "0 0\n");
        for call in [call::LOOK, call::OFFER, call::WAKE] {
            assert_eq!(text(call, &[0, NONE]), "0 none\n");
        }
    }

    #[test]
    fn refused() {
        for call in [call::RESET, call::WRITE, call::RETURN] {
            assert_eq!(text(call, &[8, 0]), "8 0\n");
        }
        assert_eq!(text(call::JUMP, &[5, 4]), "5 0 0 0 0 0\n");
        assert_eq!(text(call::TRACE, &[8, 3]), "8 0 0 0 0\n");
        for call in [call::READ, call::CYCLE, call::LOOK, call::OFFER, call::TAKE, call::WAKE] {
            assert_eq!(text(call, &[255, 1]), "255 0\n");
        }
    }
}
