//! The rounds of a jump by the words of request Nine, from its cycles one by one: neither the jump nor the model tells which are busy.
use c51::raw::{c51_cycle, c51_jump};
use c51::{flag, pcon, Device, Totals};

/// The bits of TCON, SCON and T2CON that are flags.
const FLAGS: [u8; 3] = [flag::TF1 | flag::TF0 | flag::IE1 | flag::IE0, flag::TI | flag::RI, flag::TF2 | flag::EXF2];

/// The flags, the saved levels, the due marks, seen and polled.
fn watched(d: &Device) -> ([u8; 3], [u8; 7], [u8; 3], [u8; 2]) {
    let registers = [d.timers.tcon, d.serial.scon, d.timer2.t2con];
    let flags = std::array::from_fn(|i| registers[i] & FLAGS[i]);
    (flags, d.levels, [d.timers.due0, d.timers.due1, d.timer2.due2], [d.interrupts.seen, d.interrupts.polled])
}

/// Whether a serial position is nonzero.
fn is_working(d: &Device) -> bool {
    d.serial.send.position != 0 || d.serial.receive.position != 0
}

/// Whether a cycle is busy, of the records before and after it and of its overflows.
pub fn is_busy(before: &Device, after: &Device, overflows: Totals) -> bool {
    before.pcon & pcon::PD == 0
        && (overflows != Totals::default() || is_working(before) || is_working(after) || watched(before) != watched(after))
}

/// The rounds of cycles so far: the busy ones, and the longest runs of others.
#[derive(Clone, Copy, PartialEq, Eq, Default, Debug)]
pub struct Rounds {
    pub busy: u64,
    pub runs: u64,
    /// Whether the last cycle was one of the others.
    in_a_run: bool,
}

impl Rounds {
    /// One cycle more.
    pub fn add(&mut self, busy: bool) {
        self.busy += u64::from(busy);
        self.runs += u64::from(!busy && !self.in_a_run);
        self.in_a_run = !busy;
    }

    /// How many there are.
    pub fn count(&self) -> u64 {
        self.busy + self.runs
    }

    /// The most that so many busy cycles can come to.
    pub fn most(busy: u64) -> u64 {
        2 * busy + 1
    }
}

/// The rounds of n cycles of a device that is accepted, by single cycles; the overflows of each are those of a jump of 1.
pub fn by_single_cycles(mut device: Device, pins: u8, n: u64) -> Rounds {
    let mut rounds = Rounds::default();
    for _ in 0..n {
        let (before, mut jumped) = (device, device);
        c51_cycle(&mut device, pins);
        rounds.add(is_busy(&before, &device, c51_jump(&mut jumped, pins, 1).totals));
    }
    rounds
}

#[cfg(test)]
mod tests {
    use super::*;
    use c51::PINS_HIGH;

    #[test]
    fn runs_of_others() {
        for (cycles, busy, runs) in [
            ("", 0, 0),
            (".", 0, 1),
            ("....", 0, 1),
            ("#", 1, 0),
            ("###", 3, 0),
            (".#.", 1, 2),
            ("..#..##...#", 4, 3),
            ("#..#..", 2, 2),
            (".#.#.#.", 3, 4),
        ] {
            let mut rounds = Rounds::default();
            cycles.bytes().for_each(|cycle| rounds.add(cycle == b'#'));
            assert_eq!((rounds.busy, rounds.runs, rounds.count()), (busy, runs, busy + runs), "{cycles}");
            assert!(rounds.count() <= Rounds::most(busy), "{cycles}");
        }
    }

    /// Each thing by itself makes a cycle busy, but not in power-down; nothing else of the record does.
    #[test]
    fn what_makes_a_cycle_busy() {
        let none = Totals::default();
        let changes: [fn(&mut Device); 25] = [
            |d| d.timers.tcon ^= flag::TF0,
            |d| d.timers.tcon ^= flag::TF1,
            |d| d.timers.tcon ^= flag::IE0,
            |d| d.timers.tcon ^= flag::IE1,
            |d| d.serial.scon ^= flag::RI,
            |d| d.serial.scon ^= flag::TI,
            |d| d.timer2.t2con ^= flag::TF2,
            |d| d.timer2.t2con ^= flag::EXF2,
            |d| d.levels[0] ^= 1,
            |d| d.levels[1] ^= 1,
            |d| d.levels[2] ^= 1,
            |d| d.levels[3] ^= 1,
            |d| d.levels[4] ^= 1,
            |d| d.levels[5] ^= 1,
            |d| d.levels[6] ^= 1,
            |d| d.timers.due0 ^= 1,
            |d| d.timers.due1 ^= 1,
            |d| d.timer2.due2 ^= 1,
            |d| d.interrupts.seen ^= 1,
            |d| d.interrupts.seen ^= 32,
            |d| d.interrupts.polled ^= 1,
            |d| d.interrupts.polled ^= 32,
            |d| d.serial.send.position = 10,
            |d| d.serial.receive.position = 1,
            |d| d.serial.receive.position = 11,
        ];
        let rest = Device::reset(52).unwrap();
        let down = Device { pcon: pcon::PD, ..rest };
        for change in changes {
            let mut changed = rest;
            change(&mut changed);
            assert!(is_busy(&rest, &changed, none) && is_busy(&changed, &rest, none), "{changed:?}");
            assert!(!is_busy(&down, &changed, none), "{changed:?}");
        }
        let mut working = rest;
        working.serial.send.position = 1;
        assert!(is_busy(&working, &working, none), "it stays nonzero");
        for totals in [Totals { timer0: 1, ..none }, Totals { timer1: 1, ..none }, Totals { timer2: 6, ..none }] {
            assert!(is_busy(&rest, &rest, totals) && !is_busy(&down, &rest, totals), "{totals:?}");
        }
        let mut other = rest;
        (other.timers.tl0, other.timers.th1, other.timer2.tl2, other.timers.tcon, other.serial.half) = (1, 2, 3, 0x55, 1);
        (other.serial.send.counter, other.serial.send.value, other.serial.scon, other.timer2.t2con) = (5, 6, 0xFC, 0x3F);
        (other.serial.receive.counter, other.serial.receive.votes, other.serial.receive.sample) = (7, 2, 0);
        (other.serial.received, other.pcon, other.cycle, other.interrupts.low) = (9, pcon::IDL, 10, 1);
        other.times.ever = [1; 8];
        assert!(!is_busy(&rest, &other, none), "{other:?}");
    }

    #[test]
    fn a_device_at_rest_and_a_byte_that_waits() {
        let mut device = Device::reset(52).unwrap();
        let rounds = by_single_cycles(device, PINS_HIGH, 20);
        assert_eq!((rounds.busy, rounds.runs), (0, 1));
        device.serial.scon = 0x40;
        device.serial.send.position = 1;
        let rounds = by_single_cycles(device, PINS_HIGH, 20);
        assert_eq!((rounds.busy, rounds.runs), (20, 0));
    }
}
