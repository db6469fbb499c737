//! One station: its chips, and its program, which sleeps in idle until the serial interrupt wakes it.
use crate::chips::{Chips, PASSES};
use crate::frame::Stretch;
use crate::timing::Timing;
use crate::vcd::{Levels, Waveform};
use c51::{address, flag, pcon, pin, Flag, Jump, Totals, PINS_HIGH};

/// The vector of the serial port.
const SERIAL_VECTOR: u8 = 0x23;

/// Timer 1 in mode 2 with reload FD, serial mode 1 with REN, the serial interrupt enabled.
pub const SETUP: [(u8, u8); 6] = [
    (address::TMOD, 0x20),
    (address::TH1, 0xFD),
    (address::TL1, 0xFD),
    (address::SCON, 0x50),
    (address::IE, 0x90),
    (address::TCON, 0x40),
];

/// A byte received.
#[derive(Clone, Copy, PartialEq, Eq, Debug)]
pub struct Received {
    pub byte: u8,
    /// The cycle in which its RI rose, as the chip keeps it.
    pub cycle: u64,
    /// Whether its interrupt ended idle.
    pub woke: bool,
    /// The overflows of Timer 1 from reset to its interrupt.
    pub timer1_laps: u64,
}

pub struct Reader<C> {
    pub chips: C,
    /// What the program does with the 82C53, where the station has one.
    pub timing: Option<Timing>,
    /// The overflows of its timers since reset.
    pub totals: Totals,
    /// The rounds of its jumps since reset.
    pub rounds: u64,
    /// The bytes received since they were last taken.
    pub received: Vec<Received>,
    /// Takes every cycle between `watch(true)` and `watch(false)`.
    pub waveform: Option<Waveform>,
    watching: bool,
}

impl<C: Chips> Reader<C> {
    /// A station without an 82C53.
    pub fn new() -> Reader<C> {
        let mut chips = C::reset();
        for (address, value) in SETUP {
            chips.write(address, value);
        }
        let mut reader = Reader::of(chips, None, Jump::default(), Vec::new());
        reader.sleep();
        reader
    }

    /// A station that goes on from here, with what its jumps since reset have given.
    pub fn of(chips: C, timing: Option<Timing>, Jump { totals, rounds }: Jump, received: Vec<Received>) -> Reader<C> {
        Reader { chips, timing, totals, rounds, received, waveform: None, watching: false }
    }

    /// One with an 82C53.
    pub fn with_interval() -> Reader<C> {
        let mut reader = Reader::new();
        reader.timing = Some(Timing::new(&mut reader.chips));
        reader
    }

    /// Starts or stops the waveform, where the station has one.
    pub fn watch(&mut self, watching: bool) {
        self.watching = watching;
    }

    /// A fish comes into the tunnel or leaves it.
    pub fn fish(&mut self, inside: bool) {
        if let Some(timing) = &mut self.timing {
            timing.fish(inside);
        }
    }

    /// The bytes received since the last time.
    pub fn take_received(&mut self) -> Vec<Received> {
        std::mem::take(&mut self.received)
    }

    /// Holds RXD for a stretch: the chip sleeps to its end, or to an interrupt, which is served before it sleeps again.
    pub fn hold(&mut self, stretch: Stretch) {
        let pins = if stretch.rxd == 1 { PINS_HIGH } else { PINS_HIGH & !pin::RXD };
        let mut left = stretch.cycles;
        while left > 0 {
            let wake = self.chips.wake_look(pins, left);
            let n = wake.unwrap_or(left);
            self.advance(pins, n);
            left -= n;
            if wake.is_some() {
                self.serve();
                self.sleep();
            }
        }
    }

    /// A jump of n cycles, and of n pulses of the 82C53 where there is one. For a waveform the chips go by single cycles, which give the
    /// line, and the jump over them is made of a copy: overflows and rounds are the same.
    fn advance(&mut self, pins: u8, n: u64) {
        let (chips, gates) = (&mut self.chips, self.timing.as_ref().map(Timing::gates));
        let Jump { totals, rounds } = match &mut self.waveform {
            Some(waveform) if self.watching => {
                let jump = chips.record().jump(pins, n).expect(PASSES);
                for _ in 0..n {
                    let line = match gates {
                        Some(gates) => chips.board_cycle(pins, gates),
                        None => chips.cycle(pins),
                    };
                    waveform.cycle(&chips.record(), Levels { pins, line, gates: gates.unwrap_or(0), outputs: chips.outputs() });
                }
                jump
            }
            _ => match gates {
                Some(gates) => chips.board_jump(pins, gates, n),
                None => chips.jump(pins, n),
            },
        };
        self.totals += totals;
        self.rounds += rounds;
    }

    fn is_idle(&self) -> bool {
        self.chips.read(address::PCON) & pcon::IDL != 0
    }

    /// Sets IDL, and keeps the other bits of PCON.
    fn sleep(&mut self) {
        let others = self.chips.read(address::PCON);
        self.chips.write(address::PCON, others | pcon::IDL);
    }

    /// The interrupt routine: the take wakes the chip; then it reads SBUF, sees to the 82C53, clears RI and returns.
    fn serve(&mut self) {
        let was_idle = self.is_idle();
        let vector = self.chips.take();
        assert_eq!(vector, SERIAL_VECTOR, "no other interrupt is enabled");
        let woke = was_idle && !self.is_idle();
        let byte = self.chips.read(address::SBUF);
        let cycle = self.chips.last_rise(Flag::Ri).expect("RI rose: its interrupt is taken");
        self.received.push(Received { byte, cycle, woke, timer1_laps: self.totals.timer1 });
        if let Some(timing) = &mut self.timing {
            timing.byte(&mut self.chips, byte);
        }
        let scon = self.chips.read(address::SCON);
        self.chips.write(address::SCON, scon & !flag::RI);
        self.chips.return_from_interrupt();
    }
}

impl<C: Chips> Default for Reader<C> {
    fn default() -> Reader<C> {
        Reader::new()
    }
}

#[cfg(test)]
mod tests {
    use super::*;
    use crate::frame::{frame, Noise, BIT, BITS, LAP, SAMPLES, TICK};
    use crate::timing::{Time, CARRIAGE_RETURN, FLASH, LIMIT};
    use c51::{out, Board};

    /// Sends one byte after `idle` cycles; gives what is received.
    fn sent(byte: u8, idle: u64, noise: Option<Noise>) -> Vec<Received> {
        let mut reader: Reader<Board> = Reader::new();
        reader.hold(Stretch { rxd: 1, cycles: idle });
        for stretch in frame(byte, noise) {
            reader.hold(stretch);
        }
        reader.hold(Stretch { rxd: 1, cycles: BIT });
        reader.take_received()
    }

    /// Asleep from the start and after every byte, awake in between; the cycle of a byte is that of RI's rise.
    #[test]
    fn the_station_sleeps_and_every_byte_wakes_it() {
        let mut reader: Reader<Board> = Reader::new();
        // GF1 stays as it is
        reader.chips.write(address::PCON, 0x08 | pcon::IDL);
        for byte in [0x00, 0x39, 0xFF] {
            reader.hold(Stretch { rxd: 1, cycles: 1_000 });
            assert_eq!(reader.chips.device.pcon, 0x08 | pcon::IDL);
            let line = frame(byte, None);
            let (stop, bits) = line.split_last().unwrap();
            bits.iter().for_each(|&bit| reader.hold(bit));
            assert_eq!(reader.take_received(), [], "asleep until the stop bit");
            let chip = reader.chips.device;
            let rise = chip.look_ahead(PINS_HIGH, BIT).unwrap().expect("RI rises");
            reader.hold(*stop);
            let cycle = chip.cycle + rise;
            assert_eq!(reader.take_received(), [Received { byte, cycle, woke: true, timer1_laps: cycle / LAP }]);
            let chip = reader.chips.device;
            assert_eq!((chip.pcon, chip.interrupts.low, chip.serial.scon & flag::RI), (0x08 | pcon::IDL, 0, 0));
        }
    }

    /// The cycle after that of RI's rise polls it, and there the interrupt is taken: the cycle that the chip keeps is one before.
    #[test]
    fn the_take_comes_a_cycle_after_the_rise() {
        const POLL: u64 = 1;
        for phase in 0..TICK {
            let mut reader: Reader<Board> = Reader::new();
            reader.hold(Stretch { rxd: 1, cycles: 100 + phase });
            frame(0x39, None)[..9].iter().for_each(|&bit| reader.hold(bit));
            let wake = reader.chips.wake_look(PINS_HIGH, BIT).expect("an interrupt");
            reader.hold(Stretch { rxd: 1, cycles: wake });
            let taken = reader.chips.device.cycle;
            let received = Received { byte: 0x39, cycle: taken - POLL, woke: true, timer1_laps: taken / LAP };
            assert_eq!(reader.take_received(), [received]);
        }
    }

    /// Those with an 82C53 and without, each with a waveform being drawn and not.
    fn readers() -> impl Iterator<Item = Reader<Board>> {
        [false, true].into_iter().flat_map(|watching| {
            [Reader::new(), Reader::with_interval()].map(|mut reader| {
                reader.waveform = Some(Waveform::new(1, reader.timing.is_some()));
                reader.watch(watching);
                reader
            })
        })
    }

    /// The overflows of Timer 1 are those that single cycles show, TL1 being reloaded from FF, and one in three cycles: with
    /// an 82C53 and without, by jumps and, for a waveform, by single cycles, bytes being served on the way.
    #[test]
    fn the_laps_of_timer_1() {
        for mut reader in readers() {
            let mut laps = 0;
            for (pause, &byte) in b"271828\r".iter().enumerate() {
                for stretch in [vec![Stretch { rxd: 1, cycles: BIT + pause as u64 }], frame(byte, None)].concat() {
                    let mut chip = reader.chips.device;
                    for _ in 0..stretch.cycles {
                        laps += u64::from(chip.timers.tl1 == 0xFF);
                        chip.cycle(if stretch.rxd == 1 { PINS_HIGH } else { PINS_HIGH & !pin::RXD }).unwrap();
                    }
                    reader.hold(stretch);
                    assert_eq!(reader.totals, Totals { timer1: laps, ..Totals::default() });
                }
            }
            assert_eq!((reader.take_received().len(), laps), (7, reader.chips.device.cycle / LAP));
        }
    }

    /// Two rounds for each lap in which the line rests, and one for each cycle of a frame up to its last sample: with an 82C53 and
    /// without, with a waveform and not.
    #[test]
    fn the_rounds_of_its_jumps() {
        for mut reader in readers() {
            let mut held = |stretch: Stretch| {
                let before = reader.rounds;
                reader.hold(stretch);
                reader.rounds - before
            };
            assert_eq!(held(Stretch { rxd: 1, cycles: LAP }), 2, "the first lap is quiet up to the overflow");
            assert_eq!(held(Stretch { rxd: 1, cycles: LAP }), 3, "TF1 rose, and is polled");
            for laps in [1, 3, 1_000, 100_000] {
                assert_eq!(held(Stretch { rxd: 1, cycles: laps * LAP }), 2 * laps);
            }
            assert_eq!(held(Stretch { rxd: 1, cycles: 0 }), 0);
            let bits: Vec<u64> = frame(0x55, None).into_iter().map(held).collect();
            let (stop, bits) = bits.split_last().unwrap();
            assert_eq!(
                bits,
                [[BIT - 1].as_slice(), &[BIT; 8]].concat(),
                "a run of two cycles before the tick that finds the start"
            );
            assert_eq!(*stop, 61 + 2 * 12, "each cycle up to the poll of RI, and then twelve laps");
            assert_eq!(reader.take_received().len(), 1);
        }
    }

    /// The interrupt is served in a stretch that ends with the cycle that polls RI, and not in one that ends before it.
    #[test]
    fn an_interrupt_at_the_end_of_a_stretch() {
        let mut before: Reader<Board> = Reader::new();
        before.hold(Stretch { rxd: 1, cycles: 100 });
        frame(0x39, None)[..9].iter().for_each(|&bit| before.hold(bit));
        let wake = before.chips.wake_look(PINS_HIGH, BIT).expect("an interrupt");
        for (first, received) in [(wake - 1, 0), (wake, 1), (wake + 1, 1)] {
            let mut reader = Reader { chips: before.chips, ..Reader::new() };
            reader.hold(Stretch { rxd: 1, cycles: first });
            assert_eq!(reader.take_received().len(), received, "{first} of {wake} cycles");
            reader.hold(Stretch { rxd: 1, cycles: BIT - first });
            assert_eq!(reader.take_received().len(), 1 - received, "{first} of {wake} cycles");
        }
    }

    /// Bytes one after the other, with a pause before each.
    fn send(reader: &mut Reader<Board>, bytes: &[u8], pause: u64) {
        for &byte in bytes {
            reader.hold(Stretch { rxd: 1, cycles: pause });
            frame(byte, None).into_iter().for_each(|stretch| reader.hold(stretch));
        }
    }

    /// The 82C53 times a tag from the RI of its first byte to that of its carriage return, with any pause between the bytes, and reading
    /// is as without it.
    #[test]
    fn a_tag_is_timed() {
        for pause in 0..BIT {
            let mut reader: Reader<Board> = Reader::with_interval();
            let mut without: Reader<Board> = Reader::new();
            for _ in 0..2 {
                send(&mut reader, b"12345\r", pause);
                send(&mut without, b"12345\r", pause);
                let received = reader.take_received();
                assert_eq!(received, without.take_received());
                let took = received[5].cycle - received[0].cycle;
                let timing = reader.timing.as_mut().unwrap();
                assert_eq!((timing.take_time(), timing.take_time()), (Time::Took(took), Time::NoEnd), "a pause of {pause}");
            }
            assert_eq!(reader.chips.device, without.chips.device);
        }
    }

    /// Where the carriage return does not come within the limit there is no time; the next byte begins a tag.
    #[test]
    fn a_tag_without_an_end() {
        let mut reader: Reader<Board> = Reader::with_interval();
        let time = |reader: &mut Reader<Board>| reader.timing.as_mut().unwrap().take_time();
        send(&mut reader, b"12", 0);
        assert_eq!((reader.chips.outputs() & out::OUT1, time(&mut reader)), (0, Time::NoEnd));
        reader.hold(Stretch { rxd: 1, cycles: LIMIT.into() });
        assert_eq!(reader.chips.outputs() & out::OUT1, out::OUT1, "the limit is over");
        send(&mut reader, &[CARRIAGE_RETURN], 0);
        assert_eq!(time(&mut reader), Time::NoEnd, "it came too late");
        reader.take_received();
        send(&mut reader, b"34\r", 7);
        let received = reader.take_received();
        assert_eq!(time(&mut reader), Time::Took(received[2].cycle - received[0].cycle));
        send(&mut reader, &[CARRIAGE_RETURN], 0);
        assert_eq!(time(&mut reader), Time::NoEnd, "the end of no tag");
        reader.hold(Stretch { rxd: 1, cycles: 1_000_000 });
        assert_eq!(reader.chips.outputs() & out::OUT1, out::OUT1, "it stays over, lap by lap");
    }

    /// The lamp flashes while a fish is in the tunnel, a whole period after it came, and not without one.
    #[test]
    fn the_lamp() {
        let mut reader: Reader<Board> = Reader::with_interval();
        let flashes = |reader: &mut Reader<Board>, cycles: u64| -> Vec<u64> {
            let flash = |_: &u64| {
                reader.hold(Stretch { rxd: 1, cycles: 1 });
                reader.chips.outputs() & out::OUT0 == 0
            };
            (1..=cycles).filter(flash).collect()
        };
        let period = u64::from(FLASH);
        assert_eq!(flashes(&mut reader, 3 * period), []);
        for _ in 0..2 {
            reader.fish(true);
            assert_eq!(flashes(&mut reader, 3 * period + 100), [period, 2 * period, 3 * period]);
            reader.fish(false);
            assert_eq!(flashes(&mut reader, period), []);
        }
    }

    #[test]
    fn every_byte_and_phase() {
        for byte in 0..=255 {
            let idle = 100 + u64::from(byte) % TICK;
            let received = sent(byte, idle, None);
            assert_eq!(received.iter().map(|r| r.byte).collect::<Vec<u8>>(), [byte]);
            let in_stop_bit = received[0].cycle - idle - (BITS - 1) * BIT;
            assert!((54..=60).contains(&in_stop_bit), "RI {in_stop_bit} cycles into the stop bit");
        }
    }

    #[test]
    fn one_flipped_sample_in_any_bit_is_outvoted() {
        for bit in 0..BITS {
            for sample in 0..SAMPLES {
                for phase in 0..TICK {
                    let received = sent(0x39, 100 + phase, Some(Noise { bit, sample, samples: 1 }));
                    assert_eq!(received.iter().map(|r| r.byte).collect::<Vec<u8>>(), [0x39]);
                }
            }
        }
    }

    #[test]
    fn two_flipped_samples_decide() {
        for bit in 1..BITS - 1 {
            let received = sent(0x39, 100, Some(Noise { bit, sample: 0, samples: 2 }));
            assert_eq!(received.iter().map(|r| r.byte).collect::<Vec<u8>>(), [0x39 ^ 1 << (bit - 1)]);
        }
        assert_ne!(sent(0x39, 100, Some(Noise { bit: 0, sample: 1, samples: 2 })), sent(0x39, 100, None));
    }
}
