//! What a jump of the chip gives.
use crate::Totals;

/// The overflows in the cycles of a jump, and its rounds, by which it costs.
///
/// Each busy cycle is a round, and each longest run of other cycles is one, whatever its length; so there are at most two for a
/// busy cycle, and one more. A cycle is busy where a timer overflows in it, where the send or the receive position is not 0 before
/// or after it, also of a frame that waits on a stopped clock, and where a flag, a saved level, a due mark, seen or polled changes
/// in it; in power-down none is. An empty jump has no round, and a refused one answers none.
///
/// A run of other cycles ends with the jump, so that the rounds of jumps one after the other may be more than those of one jump
/// over all of their cycles. The idle station: Timer 1 laps every third cycle, in two rounds.
///
/// ```
/// use c51::{address, Device, Jump, Totals, PINS_HIGH};
///
/// let mut device = Device::reset(52)?;
/// for (address, value) in [
///     (address::TMOD, 0x20), // Timer 1 in mode 2
///     (address::TH1, 0xFD),
///     (address::TL1, 0xFD),
///     (address::SCON, 0x50), // serial mode 1, receiving
///     (address::TCON, 0xC0), // run; TF1 is up
/// ] {
///     device.write(address, value)?;
/// }
/// assert_eq!(device.jump(PINS_HIGH, 3)?.rounds, 3); // TF1 is seen, then polled, then Timer 1 overflows
/// let totals = Totals { timer1: 33, ..Totals::default() };
/// assert_eq!(device.jump(PINS_HIGH, 99)?, Jump { totals, rounds: 66 });
/// assert_eq!((device.jump(PINS_HIGH, 1)?.rounds, device.jump(PINS_HIGH, 2)?.rounds), (1, 2)); // one lap, in three rounds
/// assert_eq!(device.jump(PINS_HIGH, 0)?.rounds, 0);
/// # Ok::<(), c51::Refusal>(())
/// ```
#[derive(Clone, Copy, PartialEq, Eq, Debug, Default)]
pub struct Jump {
    /// How often each timer overflowed.
    pub totals: Totals,
    /// How many rounds the jump took.
    pub rounds: u64,
}
