//! From a wanted speed to a reload. It meets no device.
use crate::{answer, raw, Refusal};

/// The greatest crystal in Hz; the least is 1.
///
/// ```
/// assert!(c51::speed(c51::MAX_CRYSTAL, 9_600, 0).is_ok());
/// assert_eq!(c51::speed(c51::MAX_CRYSTAL + 1, 9_600, 0), Err(c51::Refusal::BadSpeed));
/// assert_eq!(c51::speed(0, 9_600, 0), Err(c51::Refusal::BadSpeed));
/// ```
pub const MAX_CRYSTAL: u64 = 40_000_000;

/// The greatest rate in bits a second that may be wanted; the least is 1.
///
/// ```
/// assert!(c51::speed(11_059_200, c51::MAX_RATE, 0).is_ok());
/// assert_eq!(c51::speed(11_059_200, c51::MAX_RATE + 1, 0), Err(c51::Refusal::BadSpeed));
/// assert_eq!(c51::speed(11_059_200, 0, 0), Err(c51::Refusal::BadSpeed));
/// ```
pub const MAX_RATE: u64 = 1_000_000;

/// The greatest tolerance in hundredths of a percent of the wanted rate: all of it. The least is 0, for the rate itself.
///
/// ```
/// assert!(c51::speed(11_059_200, 9_600, c51::MAX_TOLERANCE).is_ok());
/// assert_eq!(c51::speed(11_059_200, 9_600, c51::MAX_TOLERANCE + 1), Err(c51::Refusal::BadSpeed));
/// ```
pub const MAX_TOLERANCE: u64 = 10_000;

/// A pair of SMOD and TH1, and its rate. With Timer 1 in mode 2 as the clock of serial mode 1 or 3 it has
/// 2^SMOD x crystal / (384 x (256 - TH1)) bits a second. A chip with this pair:
///
/// ```
/// use c51::{address, pcon, Device, Speed};
///
/// let Speed { smod, th1, achieved } = c51::speed(12_000_000, 4_800, 50)?.expect("a pair within half a percent");
/// assert_eq!((smod, th1, achieved), (1, 0xF3, 4_807));
/// let mut device = Device::reset(52)?;
/// device.write(address::PCON, smod * pcon::SMOD)?;
/// device.write(address::TMOD, 0x20)?; // Timer 1 in mode 2
/// device.write(address::TH1, th1)?; // reload
/// device.write(address::TL1, th1)?;
/// device.write(address::SCON, 0x50)?; // serial mode 1, REN
/// device.write(address::TCON, 0x40)?; // run
/// # Ok::<(), c51::Refusal>(())
/// ```
#[derive(Clone, Copy, PartialEq, Eq, Debug)]
pub struct Speed {
    /// Bit 7 of PCON.
    pub smod: u8,
    /// The reload of Timer 1.
    pub th1: u8,
    /// The rate in whole bits a second, cut downward.
    pub achieved: u64,
}

/// The pair of SMOD and TH1 whose rate comes nearest to the wanted one, by their difference, where that is at most rate x
/// tolerance / 10,000, without rounding; of pairs that are as near, one with SMOD 0, and of these the one with the larger TH1. None where no
/// pair is so near.
///
/// ```
/// use c51::{speed, Refusal, Speed};
///
/// assert_eq!(speed(11_059_200, 9_600, 0)?, Some(Speed { smod: 0, th1: 0xFD, achieved: 9_600 })); // exactly
/// assert_eq!(speed(12_000_000, 9_600, 50)?, None); // the nearest pair is 6.994 % too slow
/// assert_eq!(speed(12_000_000, 9_600, 700)?, Some(Speed { smod: 1, th1: 0xF9, achieved: 8_928 }));
/// assert_eq!(speed(4_608, 7, 10_000)?, Some(Speed { smod: 0, th1: 0xFE, achieved: 6 })); // SMOD 1 with FD has 8, as near
/// assert_eq!(speed(12_000_000, 9_600, 10_001), Err(Refusal::BadSpeed));
/// # Ok::<(), Refusal>(())
/// ```
#[inline]
pub fn speed(crystal: u64, rate: u64, tolerance: u64) -> Result<Option<Speed>, Refusal> {
    let a = raw::c51_speed(crystal, rate, tolerance);
    answer(a.code, (a.found == 1).then_some(Speed { smod: a.smod, th1: a.th1, achieved: a.achieved }))
}
