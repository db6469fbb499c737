//! What an operator plans with: the rounds and the time of a tunnel's idle hour and of its tags, and how many tunnels one core carries
//! in real time. A tunnel is a station without an 82C53.
use crate::timing::{race, Contender};
use c51::{address, Board, Device, PINS_HIGH};
use station::chips::{CYCLES_A_SECOND, PASSES};
use station::frame::{BIT, LAP};
use station::reader::Reader;
use station::run::{Plan, Station};
use std::hint::black_box;

/// Cycles of an hour.
pub const HOUR: u64 = 3_600 * CYCLES_A_SECOND;

/// A station without an 82C53.
pub const STATION: usize = 3;

/// Cycles, their rounds, and the seconds that they took.
#[derive(Clone, Copy, Debug)]
pub struct Work {
    pub cycles: f64,
    pub rounds: f64,
    pub seconds: f64,
}

impl Work {
    /// So much of it, or of so many pieces that are alike one over their number.
    pub fn times(self, factor: f64) -> Work {
        Work { cycles: factor * self.cycles, rounds: factor * self.rounds, seconds: factor * self.seconds }
    }

    /// The time of a round in seconds.
    pub fn a_round(&self) -> f64 {
        self.seconds / self.rounds
    }
}

/// The best time of some work, which gives its cycles and rounds.
fn measured(runs: u32, work: impl Fn() -> (u64, u64)) -> Work {
    let mut given = (0, 0);
    let times = race(runs, &mut [Contender::new("work", || given = work())]);
    Work { cycles: given.0 as f64, rounds: given.1 as f64, seconds: times[0] }
}

/// The idle station: 80C52, serial mode 1, Timer 1 in mode 2, TH1 FD, SMOD 0, asleep; TF1 is up and polled, and a lap begins.
pub fn idle_station() -> Device {
    let mut device = Reader::<Board>::new().chips.device;
    device.jump(PINS_HIGH, 33 * LAP).expect(PASSES);
    device
}

/// The idle station in one jump.
pub fn idle(runs: u32, cycles: u64) -> Work {
    let device = idle_station();
    measured(runs, || {
        let mut device = black_box(device);
        let rounds = device.jump(PINS_HIGH, cycles).expect(PASSES).rounds;
        black_box(device);
        (cycles, rounds)
    })
}

/// Tags one after the other, as a station reads them: 15 digits and the carriage return, with the pauses before them, each byte served
/// by the interrupt routine. The rounds are those of its jumps; the time is that of every call.
pub fn tags(runs: u32, tags: u64) -> Work {
    let plan = Plan { stations: STATION, tags, gap: 0, seed: 1, noise: 1, chosen: Vec::new() };
    measured(runs, || {
        let mut station: Station<Board> = Station::new(STATION, plan.seed);
        for _ in 0..tags {
            assert!(station.read_tag(&plan, None).right(), "a tag as sent");
        }
        (station.reader.chips.device.cycle, station.reader.rounds)
    })
}

/// Cycles of a jump within a frame.
const IN_A_FRAME: u64 = 8 * BIT;

/// Jumps within a frame that is sent, each of the same part of it: every cycle is a round.
pub fn in_a_frame(runs: u32, jumps: u64) -> Work {
    let mut device = idle_station();
    device.write(address::SBUF, b'5').expect("a register");
    device.jump(PINS_HIGH, BIT).expect(PASSES);
    measured(runs, || {
        let rounds = (0..jumps).map(|_| black_box(device).jump(PINS_HIGH, IN_A_FRAME).expect(PASSES).rounds).sum();
        (jumps * IN_A_FRAME, rounds)
    })
}

/// How many tunnels one core carries in real time where each reads so many tags an hour and is idle between them: as many as the work of
/// their hour fits into an hour.
pub fn tunnels(tags_an_hour: u64, hour: &Work, tag: &Work) -> u64 {
    let tags = tag.times(tags_an_hour as f64);
    let idle = hour.times(1.0 - tags.cycles / hour.cycles);
    (3_600.0 / (idle.seconds + tags.seconds)) as u64
}
