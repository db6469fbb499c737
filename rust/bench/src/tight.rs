//! The tightest loop by hand over the rounds of the idle station, and over nothing else: Timer 1 in mode 2, serial mode 1 with SMOD 0,
//! RXD high.
use c51::Device;
use station::frame::TICKS;

/// The count of TL1 that overflows next.
const LAST_COUNT: u8 = 0xFF;

/// What moves in an idle station once TF1 is up.
pub struct Idle {
    tl1: u8,
    th1: u8,
    half: u8,
    send_counter: u8,
    cycle: u64,
}

impl Idle {
    pub fn of(device: &Device) -> Idle {
        Idle {
            tl1: device.timers.tl1,
            th1: device.timers.th1,
            half: device.serial.half,
            send_counter: device.serial.send.counter,
            cycle: device.cycle,
        }
    }

    /// n cycles: in turn a stride over the cycles without an overflow, and the cycle with one. Gives the rounds.
    pub fn jump(&mut self, n: u64) -> u64 {
        let mut left = n;
        let mut rounds = 0;
        while left > 0 {
            let room = u64::from(LAST_COUNT - self.tl1);
            if room > 0 {
                let stride = room.min(left);
                self.tl1 += stride as u8;
                left -= stride;
            } else {
                self.tl1 = self.th1;
                self.send_counter = (self.send_counter + self.half) % TICKS as u8;
                self.half ^= 1;
                left -= 1;
            }
            rounds += 1;
        }
        self.cycle = self.cycle.wrapping_add(n);
        rounds
    }

    /// The device as the loop leaves it, where it left `before`.
    pub fn device(&self, before: &Device) -> Device {
        let mut device = *before;
        device.timers.tl1 = self.tl1;
        device.serial.half = self.half;
        device.serial.send.counter = self.send_counter;
        device.cycle = self.cycle;
        device
    }
}
