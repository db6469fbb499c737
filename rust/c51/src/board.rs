//! The calls of a board that has both chips.
use crate::{answer, raw, Board, Device, Interval, Refusal, Totals};

/// What a jump of the board gives.
#[derive(Clone, Copy, PartialEq, Eq, Debug)]
pub struct BoardJump {
    /// How often each timer of the chip overflowed.
    pub totals: Totals,
    /// The rounds of the chip, as [`Jump`](crate::Jump) has them: pulses make no cycle busy.
    pub rounds: u64,
    /// The outputs of the 82C53 as the jump leaves them.
    pub outputs: u8,
}

impl Board {
    /// Both chips after reset, the device of kind 51 or 52.
    pub fn reset(kind: u8) -> Result<Board, Refusal> {
        Ok(Board { device: Device::reset(kind)?, interval: Interval::reset() })
    }

    /// One machine cycle and one pulse; gives the output line and the outputs as they leave them. Power-down stops the chip alone:
    ///
    /// ```
    /// use c51::{address, control, pcon, port, Board, GATES_HIGH, PINS_HIGH};
    ///
    /// let mut board = Board::reset(52)?;
    /// board.interval.write(port::CONTROL, control::SELECT0 | control::LOW | control::MODE2)?;
    /// board.interval.write(port::COUNTER0, 2)?; // output 0 falls in every second pulse
    /// assert_eq!(board.cycle(PINS_HIGH, GATES_HIGH)?, (1, 1));
    /// assert_eq!(board.cycle(PINS_HIGH, GATES_HIGH)?, (1, 0));
    /// board.device.write(address::PCON, pcon::PD)?;
    /// assert_eq!(board.cycle(PINS_HIGH, GATES_HIGH)?, (1, 1));
    /// assert_eq!(board.cycle(PINS_HIGH, GATES_HIGH)?, (1, 0));
    /// assert_eq!(board.device.cycle, 2);
    /// # Ok::<(), c51::Refusal>(())
    /// ```
    #[inline]
    pub fn cycle(&mut self, pins: u8, gates: u8) -> Result<(u8, u8), Refusal> {
        let a = raw::c51_board_cycle(self, pins, gates);
        answer(a.code, (a.line, a.outputs))
    }

    /// n cycles and n pulses with one pin byte and one gate byte.
    ///
    /// ```
    /// use c51::{address, control, out, port, Board, GATES_HIGH, PINS_HIGH};
    ///
    /// let mut board = Board::reset(51)?;
    /// board.device.write(address::TMOD, 0x01)?; // Timer 0 in mode 1, which overflows in cycle 65,536
    /// board.device.write(address::TCON, 0x10)?; // run
    /// board.interval.write(port::CONTROL, control::SELECT1 | control::BOTH | control::MODE0)?;
    /// board.interval.write(port::COUNTER1, 0)?;
    /// board.interval.write(port::COUNTER1, 0)?; // 65,536
    /// let jumped = board.jump(PINS_HIGH, GATES_HIGH, 65_536)?;
    /// assert_eq!((jumped.totals.timer0, jumped.outputs), (1, 0)); // one of the pulses loads
    /// assert_eq!(jumped.rounds, 2); // the cycles before the overflow, and that of it
    /// let jumped = board.jump(PINS_HIGH, GATES_HIGH, 1)?;
    /// assert_eq!((jumped.totals.timer0, jumped.outputs), (0, out::OUT1));
    /// assert_eq!(board.device.cycle, 65_537);
    /// # Ok::<(), c51::Refusal>(())
    /// ```
    #[inline]
    pub fn jump(&mut self, pins: u8, gates: u8, n: u64) -> Result<BoardJump, Refusal> {
        let a = raw::c51_board_jump(self, pins, gates, n);
        answer(a.code, BoardJump { totals: a.totals, rounds: a.rounds, outputs: a.outputs })
    }
}
