//! What a station asks of its chips: the 80C52, and the 82C53 where it has one. No call that a station makes is refused.
use c51::{Board, BoardJump, Device, Flag, Jump};

/// Machine cycles a second: 11.0592 MHz by 12.
pub const CYCLES_A_SECOND: u64 = 921_600;

pub trait Chips {
    /// Both chips after reset.
    fn reset() -> Self;
    fn read(&self, address: u8) -> u8;
    fn write(&mut self, address: u8, value: u8);
    /// One cycle of the 80C52 alone; gives the output line.
    fn cycle(&mut self, pins: u8) -> u8;
    /// n cycles of the 80C52 alone; gives the overflows of its timers, and the rounds.
    fn jump(&mut self, pins: u8, n: u64) -> Jump;
    fn wake_look(&self, pins: u8, n: u64) -> Option<u64>;
    fn take(&mut self) -> u8;
    fn return_from_interrupt(&mut self);
    /// The cycle number after the cycle in which a flag last rose.
    fn last_rise(&self, flag: Flag) -> Option<u64>;
    /// The 80C52's record.
    fn record(&self) -> Device;

    /// One cycle and one pulse of the 82C53; gives the output line.
    fn board_cycle(&mut self, pins: u8, gates: u8) -> u8;
    /// n of them; gives the overflows of the timers, and the rounds.
    fn board_jump(&mut self, pins: u8, gates: u8, n: u64) -> Jump;
    /// A byte of the 82C53.
    fn read_interval(&mut self, address: u8) -> u8;
    fn write_interval(&mut self, address: u8, byte: u8);
    /// The outputs of the 82C53.
    fn outputs(&self) -> u8;
}

/// What is said where one is refused all the same.
pub const PASSES: &str = "a station's calls pass";

impl Chips for Board {
    fn reset() -> Board {
        Board::reset(52).expect(PASSES)
    }

    fn read(&self, address: u8) -> u8 {
        self.device.read(address).expect(PASSES)
    }

    fn write(&mut self, address: u8, value: u8) {
        self.device.write(address, value).expect(PASSES)
    }

    fn cycle(&mut self, pins: u8) -> u8 {
        self.device.cycle(pins).expect(PASSES)
    }

    fn jump(&mut self, pins: u8, n: u64) -> Jump {
        self.device.jump(pins, n).expect(PASSES)
    }

    fn wake_look(&self, pins: u8, n: u64) -> Option<u64> {
        self.device.wake_look(pins, n).expect(PASSES)
    }

    fn take(&mut self) -> u8 {
        self.device.take().expect(PASSES)
    }

    fn return_from_interrupt(&mut self) {
        self.device.return_from_interrupt().expect(PASSES)
    }

    fn last_rise(&self, flag: Flag) -> Option<u64> {
        self.device.last_rise(flag)
    }

    fn record(&self) -> Device {
        self.device
    }

    fn board_cycle(&mut self, pins: u8, gates: u8) -> u8 {
        self.cycle(pins, gates).expect(PASSES).0
    }

    fn board_jump(&mut self, pins: u8, gates: u8, n: u64) -> Jump {
        let BoardJump { totals, rounds, .. } = self.jump(pins, gates, n).expect(PASSES);
        Jump { totals, rounds }
    }

    fn read_interval(&mut self, address: u8) -> u8 {
        self.interval.read(address).expect(PASSES)
    }

    fn write_interval(&mut self, address: u8, byte: u8) {
        self.interval.write(address, byte).expect(PASSES)
    }

    fn outputs(&self) -> u8 {
        self.interval.outputs()
    }
}
