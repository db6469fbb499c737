//! Many devices on one computer: slice after slice, each is advanced by its share.
use crate::{shares, SharesRefusal, MAX_TUNNELS};
use std::num::{NonZeroU64, NonZeroUsize};
use std::sync::Mutex;
use std::thread;

/// What a scheduler advances: a device with its pins and the program that runs on it.
pub trait Tunnel {
    /// The cycles that it asks for, up to [`MAX_CYCLES`](crate::MAX_CYCLES); 0 where it has nothing to do.
    fn wish(&self) -> u64;
    /// Goes on by just so many cycles, which are no more than its wish.
    fn advance(&mut self, cycles: u64);
}

/// Runs up to [`MAX_TUNNELS`] tunnels: out of each slice every one gets its share of cycles ([`shares`](crate::shares())).
///
/// A jump over cycles ends as single cycles do, so where a tunnel is cut into shares does not alter its device; it alters how many
/// rounds its jumps take. Nor do threads alter anything: a tunnel is advanced by one thread at a time, and a slice ends when all are.
///
/// Two devices whose Timer 0 laps at different speeds, up to a cycle each:
///
/// ```
/// use c51::{address, Device, Refusal, Scheduler, Tunnel, PINS_HIGH};
/// use std::num::{NonZeroU64, NonZeroUsize};
///
/// struct Lamp {
///     device: Device,
///     laps: u64,
///     until: u64,
/// }
///
/// impl Tunnel for Lamp {
///     fn wish(&self) -> u64 {
///         self.until - self.device.cycle
///     }
///     fn advance(&mut self, cycles: u64) {
///         self.laps += self.device.jump(PINS_HIGH, cycles).expect("an accepted device").totals.timer0;
///     }
/// }
///
/// let lamp = |reload: u8, until: u64| -> Result<Lamp, Refusal> {
///     let mut device = Device::reset(52)?;
///     device.write(address::TMOD, 0x02)?; // Timer 0 in mode 2
///     device.write(address::TH0, reload)?;
///     device.write(address::TL0, reload)?;
///     device.write(address::TCON, 0x10)?; // run
///     Ok(Lamp { device, laps: 0, until })
/// };
/// let mut lamps = [lamp(0x00, 1_000_000)?, lamp(0xF0, 250_000)?];
/// let scheduler = Scheduler { slice: NonZeroU64::new(10_000).unwrap(), threads: NonZeroUsize::new(2).unwrap() };
/// let slices = scheduler.run(&mut lamps, |_| ())?;
/// assert_eq!((lamps[0].laps, lamps[1].laps), (1_000_000 / 256, 250_000 / 16));
/// assert_eq!(slices, 125); // both for 50 slices, and the first alone for 75
/// # Ok::<(), Box<dyn std::error::Error>>(())
/// ```
#[derive(Clone, Copy, PartialEq, Eq, Debug)]
pub struct Scheduler {
    /// The cycles of a slice, up to [`MAX_CYCLES`](crate::MAX_CYCLES).
    pub slice: NonZeroU64,
    /// The threads that advance tunnels in a slice, the caller's among them.
    pub threads: NonZeroUsize,
}

impl Scheduler {
    /// One slice: gives how many cycles the tunnels were advanced by in all, 0 where none wishes for any. Refused as
    /// [`shares`](crate::shares()) is, before any tunnel is advanced.
    pub fn slice<T: Tunnel + Send>(&self, tunnels: &mut [T]) -> Result<u64, SharesRefusal> {
        if tunnels.len() > MAX_TUNNELS {
            return Err(SharesRefusal::BadTunnels);
        }
        let (mut wishes, mut given) = ([0; MAX_TUNNELS], [0; MAX_TUNNELS]);
        let (wishes, given) = (&mut wishes[..tunnels.len()], &mut given[..tunnels.len()]);
        wishes.iter_mut().zip(&*tunnels).for_each(|(wish, tunnel)| *wish = tunnel.wish());
        shares(self.slice.get(), wishes, given)?;
        let at_work = given.iter().filter(|share| **share > 0).count();
        let work = tunnels.iter_mut().zip(&*given).filter(|(_, share)| **share > 0);
        match self.threads.get().min(at_work) {
            0 | 1 => work.for_each(|(tunnel, share)| tunnel.advance(*share)),
            threads => {
                let work = Mutex::new(work);
                let next = || work.lock().expect("no thread fails while it takes a tunnel").next();
                let advance = || std::iter::from_fn(next).for_each(|(tunnel, share)| tunnel.advance(*share));
                thread::scope(|scope| {
                    (1..threads).for_each(|_| drop(scope.spawn(advance)));
                    advance();
                });
            }
        }
        Ok(given.iter().sum())
    }

    /// Slice after slice until no tunnel wishes for a cycle; `after` is called after each with the tunnels as they stand. Gives how many
    /// slices there were. Where a slice is refused, it and all after it are not run.
    pub fn run<T: Tunnel + Send>(&self, tunnels: &mut [T], mut after: impl FnMut(&[T])) -> Result<u64, SharesRefusal> {
        let mut slices = 0;
        while self.slice(tunnels)? > 0 {
            slices += 1;
            after(tunnels);
        }
        Ok(slices)
    }
}
