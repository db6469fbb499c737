//! The model by other hands as a station's chips. It steps cycle by cycle; what a wake look has stepped, the jump after it takes over, so
//! that every cycle is stepped once.
use c51::{Device, Flag, Jump, Totals};
use c51model::interval::Interval;
use c51model::model;
use compare::pair::totals_of;
use compare::record::of_model;
use compare::rounds::Rounds;
use compare::STAGE;
use station::chips::{Chips, PASSES};
use std::cell::Cell;

pub struct Plain {
    device: model::Device,
    timer: Interval,
    /// Where the last wake look came to: pins, cycles, the device there, and the overflows and rounds on the way.
    ahead: Cell<Option<(u8, u64, model::Device, Jump)>>,
}

/// A vector, whose high byte is 0.
fn byte(vector: u16) -> u8 {
    u8::try_from(vector).expect("a vector of the chip")
}

/// Whether an interrupt is offered; where none that is enabled is polled, none is, and the offer's own check is spared.
fn is_offered(device: &model::Device) -> bool {
    device.polled & device.ie != 0 && device.offer().expect(PASSES).is_some()
}

impl Chips for Plain {
    fn reset() -> Plain {
        model::set_stage(STAGE);
        Plain { device: model::Device::reset(52).0, timer: Interval::reset(), ahead: Cell::new(None) }
    }

    fn read(&self, address: u8) -> u8 {
        self.device.read(address).expect(PASSES)
    }

    fn write(&mut self, address: u8, value: u8) {
        self.ahead.set(None);
        self.device.write(address, value).expect(PASSES)
    }

    fn cycle(&mut self, pins: u8) -> u8 {
        self.ahead.set(None);
        self.device.cycle(pins).expect(PASSES)
    }

    fn jump(&mut self, pins: u8, n: u64) -> Jump {
        match self.ahead.take() {
            Some((held, stepped, device, jump)) if (held, stepped) == (pins, n) => {
                self.device = device;
                jump
            }
            _ => {
                let tally = self.device.jump(pins, n).expect(PASSES);
                Jump { totals: totals_of(&tally), rounds: tally.rounds() }
            }
        }
    }

    fn wake_look(&self, pins: u8, n: u64) -> Option<u64> {
        let mut device = self.device;
        let (mut totals, mut rounds) = (Totals::default(), Rounds::default());
        let mut k = 0;
        while !is_offered(&device) && k < n {
            let tally = device.jump(pins, 1).expect(PASSES);
            totals += totals_of(&tally);
            rounds.add(tally.busy == 1);
            k += 1;
        }
        self.ahead.set(Some((pins, k, device, Jump { totals, rounds: rounds.count() })));
        is_offered(&device).then_some(k)
    }

    fn take(&mut self) -> u8 {
        self.ahead.set(None);
        byte(self.device.take().expect(PASSES))
    }

    fn return_from_interrupt(&mut self) {
        self.ahead.set(None);
        self.device.return_from_interrupt().expect(PASSES)
    }

    fn last_rise(&self, flag: Flag) -> Option<u64> {
        let time = self.device.flag_times[flag as usize];
        (time.ever == 1).then_some(time.number)
    }

    fn record(&self) -> Device {
        of_model(&self.device)
    }

    fn board_cycle(&mut self, pins: u8, gates: u8) -> u8 {
        self.timer.pulse(gates).expect(PASSES);
        self.cycle(pins)
    }

    fn board_jump(&mut self, pins: u8, gates: u8, n: u64) -> Jump {
        self.timer.pulses(gates, n).expect(PASSES);
        self.jump(pins, n)
    }

    fn read_interval(&mut self, address: u8) -> u8 {
        self.timer.read(address).expect(PASSES)
    }

    fn write_interval(&mut self, address: u8, byte: u8) {
        self.timer.write(address, byte).expect(PASSES)
    }

    fn outputs(&self) -> u8 {
        self.timer.outputs()
    }
}
