//! A run of stations side by side: what each is sent, and what it reads.
use crate::chips::Chips;
use crate::frame::{cut, frame, Noise, Stretch, BIT, BITS, SAMPLES};
use crate::reader::{Reader, Received};
use crate::timing::{Time, Timing, CARRIAGE_RETURN};
use crate::vcd::Waveform;
use random::Rng;

/// Digits of a tag.
pub const DIGITS: usize = 15;
/// The stations that have an 82C53.
pub const WITH_INTERVAL: [usize; 2] = [1, 2];

/// What is sent to the stations.
#[derive(Clone, PartialEq, Debug)]
pub struct Plan {
    pub stations: usize,
    /// Tags in all, in turn over the stations.
    pub tags: u64,
    /// Idle cycles before each tag.
    pub gap: u64,
    pub seed: u64,
    /// Samples flipped in a noisy bit.
    pub noise: u64,
    /// Tags to send in turn; empty for random ones.
    pub chosen: Vec<String>,
}

/// A tag as a station read it.
#[derive(Clone, PartialEq, Debug)]
pub struct Row {
    /// From 1.
    pub station: usize,
    /// The cycle in which RI rose for the last byte, which is the carriage return of a tag that has one.
    pub cycle: u64,
    pub tag: String,
    pub sent: String,
    pub noisy_samples: u64,
    /// How often an interrupt woke the station.
    pub woken: usize,
    /// What the 82C53 says of it, where the station has one.
    pub time: Option<Time>,
    /// The cycle in which RI rose for the last digit, where the tag has one.
    pub last_digit: Option<u64>,
    /// The overflows of Timer 1 from the station's reset to the last byte.
    pub timer1_laps: u64,
}

impl Row {
    pub fn right(&self) -> bool {
        self.tag == self.sent
    }
}

/// The digit of a tag in whose frame a run can be saved, from 0, and the cycles of the frame up to there: they end in the middle of a
/// data bit, between two of its samples. Every run cuts its line there, saved or not, so that the jumps and their rounds are the same.
const MIDDLE_DIGIT: usize = DIGITS / 2;
const MIDDLE: u64 = BITS / 2 * BIT + BIT / 2;

/// A tag that has been sent as far as the middle of a frame.
#[derive(Clone, PartialEq, Debug)]
pub struct UnderWay {
    pub sent: String,
    /// With those of the frame.
    pub noisy_samples: u64,
    /// The noise of the frame.
    pub noise: Option<Noise>,
}

/// One station and the random numbers of its line.
pub struct Station<C> {
    pub number: usize,
    pub reader: Reader<C>,
    pub rng: Rng,
}

impl<C: Chips> Station<C> {
    pub fn new(number: usize, seed: u64) -> Station<C> {
        let reader = if WITH_INTERVAL.contains(&number) { Reader::with_interval() } else { Reader::new() };
        Station { number, reader, rng: Rng::part(seed, number as u64) }
    }

    fn random_tag(&mut self) -> String {
        (0..DIGITS).map(|_| char::from(b'0' + self.rng.below(10) as u8)).collect()
    }

    /// In one frame of four, noise in one bit.
    fn noise(&mut self, samples: u64) -> Option<Noise> {
        (samples > 0 && self.rng.one_in(4)).then(|| Noise {
            bit: self.rng.below(BITS),
            sample: self.rng.between(0, SAMPLES - samples),
            samples,
        })
    }

    /// The idle gap, and then, with a fish in the tunnel, the tag and its carriage return.
    pub fn read_tag(&mut self, plan: &Plan, chosen: Option<&String>) -> Row {
        let tag = self.begin_tag(plan, chosen);
        self.end_tag(plan, tag)
    }

    /// The gap and the first half of the tag. Before each frame there is a pause of less than two bits, so that every phase comes up.
    pub fn begin_tag(&mut self, plan: &Plan, chosen: Option<&String>) -> UnderWay {
        let sent = chosen.cloned().unwrap_or_else(|| self.random_tag());
        let mut tag = UnderWay { sent, noisy_samples: 0, noise: None };
        let lead = plan.gap.min(BIT);
        self.reader.watch(false);
        self.reader.hold(Stretch { rxd: 1, cycles: plan.gap - lead });
        self.reader.watch(true);
        self.reader.hold(Stretch { rxd: 1, cycles: lead });
        self.reader.fish(true);
        for byte in tag.sent.clone().bytes().take(MIDDLE_DIGIT) {
            self.pause(plan, &mut tag);
            self.send(frame(byte, tag.noise));
        }
        self.pause(plan, &mut tag);
        self.send(tag.middle_frame().0);
        tag
    }

    /// The other half of the tag, from the middle of the frame on; gives what the station read.
    pub fn end_tag(&mut self, plan: &Plan, mut tag: UnderWay) -> Row {
        self.reader.watch(true);
        self.send(tag.middle_frame().1);
        for byte in tag.sent.clone().bytes().skip(MIDDLE_DIGIT + 1).chain([CARRIAGE_RETURN]) {
            self.pause(plan, &mut tag);
            self.send(frame(byte, tag.noise));
        }
        self.reader.hold(Stretch { rxd: 1, cycles: BIT });
        self.reader.fish(false);
        let received = self.reader.take_received();
        let (cycle, timer1_laps) = received.last().map_or((0, 0), |last| (last.cycle, last.timer1_laps));
        let woken = received.iter().filter(|r| r.woke).count();
        let bytes: Vec<u8> = received.iter().map(|r| r.byte).collect();
        let time = self.reader.timing.as_mut().map(Timing::take_time);
        let last_digit = last_digit(&received);
        let UnderWay { sent, noisy_samples, .. } = tag;
        Row { station: self.number, cycle, tag: shown(&bytes), sent, noisy_samples, woken, time, last_digit, timer1_laps }
    }

    /// The pause before a frame, and the frame's noise.
    fn pause(&mut self, plan: &Plan, tag: &mut UnderWay) {
        self.reader.hold(Stretch { rxd: 1, cycles: self.rng.below(2 * BIT) });
        tag.noise = self.noise(plan.noise);
        tag.noisy_samples += tag.noise.map_or(0, |noise| noise.samples);
    }

    fn send(&mut self, line: Vec<Stretch>) {
        line.into_iter().for_each(|stretch| self.reader.hold(stretch));
    }
}

impl UnderWay {
    /// The frame of the middle digit, up to its middle and from there on.
    fn middle_frame(&self) -> (Vec<Stretch>, Vec<Stretch>) {
        cut(frame(self.sent.as_bytes()[MIDDLE_DIGIT], self.noise), MIDDLE)
    }
}

/// The cycle in which RI rose for the last digit of a tag: the byte before its carriage return, where that is a digit.
fn last_digit(received: &[Received]) -> Option<u64> {
    match received {
        [.., digit, end] if digit.byte.is_ascii_digit() && end.byte == CARRIAGE_RETURN => Some(digit.cycle),
        _ => None,
    }
}

/// The digits of the bytes received, `?` for any other; dots where the carriage return is missing.
fn shown(bytes: &[u8]) -> String {
    let (bytes, end) = match bytes {
        [bytes @ .., CARRIAGE_RETURN] => (bytes, ""),
        _ => (bytes, "..."),
    };
    let digit = |&byte: &u8| if byte.is_ascii_digit() { char::from(byte) } else { '?' };
    bytes.iter().map(digit).collect::<String>() + end
}

/// How often Timer 1 of a station overflowed in a run, in how many cycles, and how many rounds its jumps over them took.
#[derive(Clone, Copy, PartialEq, Eq, Debug)]
pub struct Laps {
    /// From 1.
    pub station: usize,
    pub timer1: u64,
    pub cycles: u64,
    pub rounds: u64,
}

/// What a run gives.
pub struct Ran {
    /// In the order of their cycles.
    pub rows: Vec<Row>,
    /// Of each station that was sent a tag.
    pub laps: Vec<Laps>,
    pub waveform: Option<Waveform>,
}

/// A run under way: a tag at a time over all stations.
pub struct Run<C> {
    pub plan: Plan,
    pub stations: Vec<Station<C>>,
    /// The tags that were read, in the order in which they were sent.
    pub rows: Vec<Row>,
    /// The next tag, where the run stands in the middle of it.
    pub under_way: Option<UnderWay>,
}

impl<C: Chips> Run<C> {
    pub fn new(plan: Plan) -> Run<C> {
        let stations = (1..=plan.stations).map(|number| Station::new(number, plan.seed)).collect();
        Run { plan, stations, rows: Vec::new(), under_way: None }
    }

    /// Draws a waveform of a station from here on.
    pub fn draw(&mut self, number: usize) {
        let reader = &mut self.stations[number - 1].reader;
        reader.waveform = Some(Waveform::new(number, reader.timing.is_some()));
    }

    /// The place of the station whose turn it is.
    fn turn(&self) -> usize {
        self.rows.len() % self.plan.stations
    }

    /// Goes on to the middle of the next tag.
    fn begin_tag(&mut self) -> UnderWay {
        let (plan, number, turn) = (&self.plan, self.rows.len(), self.turn());
        let chosen = (!plan.chosen.is_empty()).then(|| &plan.chosen[number % plan.chosen.len()]);
        self.under_way.take().unwrap_or_else(|| self.stations[turn].begin_tag(plan, chosen))
    }

    /// Reads tags until there are so many.
    pub fn read(&mut self, tags: u64, mut progress: impl FnMut(u64)) {
        while (self.rows.len() as u64) < tags {
            let tag = self.begin_tag();
            let turn = self.turn();
            self.rows.push(self.stations[turn].end_tag(&self.plan, tag));
            progress(self.rows.len() as u64);
        }
    }

    /// Goes on to the middle of the next tag, and stands there. Gives the station that is reading it.
    pub fn stop_in_a_frame(&mut self) -> &Station<C> {
        self.under_way = Some(self.begin_tag());
        &self.stations[self.turn()]
    }

    /// What the run has given so far.
    pub fn end(mut self) -> Ran {
        self.rows.sort_by_key(|row| (row.cycle, row.station));
        let laps = |Station { number, reader, .. }: &Station<C>| Laps {
            station: *number,
            timer1: reader.totals.timer1,
            cycles: reader.chips.record().cycle,
            rounds: reader.rounds,
        };
        Ran {
            rows: self.rows,
            laps: self.stations.iter().map(laps).filter(|laps| laps.cycles > 0).collect(),
            waveform: self.stations.into_iter().find_map(|station| station.reader.waveform),
        }
    }
}

/// Runs the plan to its end. One station may draw a waveform.
pub fn run<C: Chips>(plan: &Plan, drawn: Option<usize>, progress: impl FnMut(u64)) -> Ran {
    let mut run: Run<C> = Run::new(plan.clone());
    if let Some(number) = drawn {
        run.draw(number);
    }
    run.read(plan.tags, progress);
    run.end()
}

#[cfg(test)]
mod tests {
    use super::*;
    use crate::frame::{LAP, TICK};
    use c51::{pin, Board, Device, PINS_HIGH};

    /// The cycle of a stretch in which a flag first rises: single cycles, and before each a look ahead over it.
    fn rise(mut device: Device, stretch: Stretch) -> Option<u64> {
        let pins = if stretch.rxd == 1 { PINS_HIGH } else { PINS_HIGH & !pin::RXD };
        for _ in 0..stretch.cycles {
            let look = device.look_ahead(pins, 1).unwrap();
            device.cycle(pins).unwrap();
            if look.is_some() {
                return Some(device.cycle);
            }
        }
        None
    }

    /// At every phase the cycle of each byte, and with it that of the last digit, is the one that single cycles find; the station
    /// itself jumps, and serves the interrupt in between.
    #[test]
    fn the_last_digit_by_single_cycles() {
        for pause in 0..TICK {
            for mut reader in [Reader::<Board>::new(), Reader::with_interval()] {
                // TF1 rises once, before the first byte
                reader.hold(Stretch { rxd: 1, cycles: 1_000 });
                let mut rises = Vec::new();
                for byte in b"271828182845904\r" {
                    for stretch in [vec![Stretch { rxd: 1, cycles: BIT + pause }], frame(*byte, None)].concat() {
                        rises.extend(rise(reader.chips.device, stretch));
                        reader.hold(stretch);
                    }
                }
                let received = reader.take_received();
                assert_eq!(received.iter().map(|r| r.cycle).collect::<Vec<u64>>(), rises, "a pause of {pause}");
                assert_eq!((rises.len(), last_digit(&received)), (DIGITS + 1, Some(rises[DIGITS - 1])), "a pause of {pause}");
            }
        }
    }

    /// A tag that does not end with a digit and its carriage return has no last digit.
    #[test]
    fn a_tag_without_a_last_digit() {
        let received = |bytes: &[u8]| -> Vec<Received> {
            bytes.iter().zip(7..).map(|(&byte, cycle)| Received { byte, cycle, woke: true, timer1_laps: cycle / LAP }).collect()
        };
        for (bytes, expected) in [
            (&b"12345\r"[..], Some(11)),
            (b"12x45\r", Some(11)),
            (b"1\r", Some(7)),
            (b"12\r345\r", Some(12)),
            (b"", None),
            (b"\r", None),
            (b"1", None),
            (b"12345", None),
            (b"1234x\r", None),
            (b"12345x", None),
            (b"12345\r\r", None),
        ] {
            assert_eq!(last_digit(&received(bytes)), expected, "{}", bytes.escape_ascii());
        }
    }
}
