//! The calls of the 82C53 and of the board that has both chips: as a line's letter and numbers, as text, and as they are made and
//! answered.
use crate::calls::byte;
use c51::raw::{c51_board_cycle, c51_board_jump, c53_jump, c53_pulse, c53_read, c53_write};
use c51::{Board, Interval, Totals};
use std::fmt;
use std::io::{Result, Write};

/// A call with its arguments other than the board: of the 82C53 alone, but for `Cycle` and `Jump`, which are of both chips.
#[derive(Clone, Copy, PartialEq, Debug)]
pub enum BoardCall {
    Reset,
    Write(u8, u8),
    Read(u8),
    Pulse(u8),
    Pulses(u8, u64),
    Cycle(u8, u8),
    Jump(u8, u8, u64),
}

impl BoardCall {
    /// The call of a line `V` and this letter with these numbers, or none where it is a fault.
    pub fn of(letter: u8, numbers: &[u64]) -> Option<BoardCall> {
        Some(match (letter, numbers) {
            (b'R', []) => BoardCall::Reset,
            (b'W', &[address, value]) => BoardCall::Write(byte(address)?, byte(value)?),
            (b'r', &[address]) => BoardCall::Read(byte(address)?),
            (b'C', &[gates]) => BoardCall::Pulse(byte(gates)?),
            (b'J', &[gates, n]) => BoardCall::Pulses(byte(gates)?, n),
            (b'B', &[pins, gates]) => BoardCall::Cycle(byte(pins)?, byte(gates)?),
            (b'X', &[pins, gates, n]) => BoardCall::Jump(byte(pins)?, byte(gates)?, n),
            _ => return None,
        })
    }

    /// Makes the call, and writes its code and numbers. A jump's are those of the chip alone, with a 0 in the place of a
    /// value, and then the outputs.
    pub fn answer(&self, board: &mut Board, out: &mut impl Write) -> Result<()> {
        let interval = &mut board.interval;
        match *self {
            BoardCall::Reset => {
                *interval = Interval::reset();
                writeln!(out, "0 0")
            }
            BoardCall::Write(address, value) => writeln!(out, "{} 0", c53_write(interval, address, value)),
            BoardCall::Read(address) => {
                let a = c53_read(interval, address);
                writeln!(out, "{} {}", a.code, a.value)
            }
            BoardCall::Pulse(gates) => {
                let a = c53_pulse(interval, gates);
                writeln!(out, "{} {}", a.code, a.outputs)
            }
            BoardCall::Pulses(gates, n) => {
                let a = c53_jump(interval, gates, n);
                writeln!(out, "{} {}", a.code, a.outputs)
            }
            BoardCall::Cycle(pins, gates) => {
                let a = c51_board_cycle(board, pins, gates);
                writeln!(out, "{} {} {}", a.code, a.line, a.outputs)
            }
            BoardCall::Jump(pins, gates, n) => {
                let a = c51_board_jump(board, pins, gates, n);
                let Totals { timer0, timer1, timer2 } = a.totals;
                writeln!(out, "{} 0 {timer0} {timer1} {timer2} {} {}", a.code, a.rounds, a.outputs)
            }
        }
    }
}

impl fmt::Display for BoardCall {
    fn fmt(&self, f: &mut fmt::Formatter) -> fmt::Result {
        match self {
            BoardCall::Reset => f.write_str("VR"),
            BoardCall::Write(address, value) => write!(f, "VW {address} {value}"),
            BoardCall::Read(address) => write!(f, "Vr {address}"),
            BoardCall::Pulse(gates) => write!(f, "VC {gates}"),
            BoardCall::Pulses(gates, n) => write!(f, "VJ {gates} {n}"),
            BoardCall::Cycle(pins, gates) => write!(f, "VB {pins} {gates}"),
            BoardCall::Jump(pins, gates, n) => write!(f, "VX {pins} {gates} {n}"),
        }
    }
}
