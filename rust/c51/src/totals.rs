//! Totals of runs one after the other add up to those of one run over all of their cycles.
use crate::Totals;
use std::iter::Sum;
use std::ops::{Add, AddAssign};

/// ```
/// use c51::{address, Device, Totals, PINS_HIGH};
///
/// let mut device = Device::reset(51)?;
/// device.write(address::TMOD, 0x02)?; // Timer 0 in mode 2, which overflows in every 256th cycle
/// device.write(address::TCON, 0x10)?; // run
/// let jumps = [100, 156, 1_000].map(|n| device.jump(PINS_HIGH, n));
/// let laps: Totals = jumps.into_iter().map(|jump| Ok(jump?.totals)).sum::<Result<Totals, c51::Refusal>>()?;
/// assert_eq!(laps.timer0, 1_256 / 256);
/// # Ok::<(), c51::Refusal>(())
/// ```
impl Add for Totals {
    type Output = Totals;

    fn add(self, other: Totals) -> Totals {
        Totals { timer0: self.timer0 + other.timer0, timer1: self.timer1 + other.timer1, timer2: self.timer2 + other.timer2 }
    }
}

impl AddAssign for Totals {
    fn add_assign(&mut self, other: Totals) {
        *self = *self + other;
    }
}

impl Sum for Totals {
    fn sum<I: Iterator<Item = Totals>>(totals: I) -> Totals {
        totals.fold(Totals::default(), Add::add)
    }
}
