//! A frame on RXD: start bit 0, eight data bits from the lowest, stop bit 1, and noise in it.

/// Cycles of a lap of Timer 1: TH1 is FD, so that it overflows every third cycle.
pub const LAP: u64 = 3;
/// Cycles of a tick: with SMOD 0 every second overflow of Timer 1 is one.
pub const TICK: u64 = 2 * LAP;
/// Ticks of a bit, which the serial counters count.
pub const TICKS: u64 = 16;
/// Cycles of a bit: 9600 baud.
pub const BIT: u64 = TICKS * TICK;
/// Bits of a frame.
pub const BITS: u64 = 10;
/// The first of the three ticks of a bit at which the receiver samples the line.
pub const FIRST_SAMPLE: u64 = 7;
pub const SAMPLES: u64 = 3;

/// RXD held at a level for some cycles.
#[derive(Clone, Copy, PartialEq, Eq, Debug)]
pub struct Stretch {
    pub rxd: u8,
    pub cycles: u64,
}

/// Samples of one bit that find the line at the other level.
#[derive(Clone, Copy, PartialEq, Eq, Debug)]
pub struct Noise {
    /// 0 is the start bit, 9 the stop bit.
    pub bit: u64,
    /// The first sample that is flipped, 0 to 2, and how many are.
    pub sample: u64,
    pub samples: u64,
}

/// The line while a byte is sent.
///
/// The receiver samples bit b in ticks 16 b + 7, 8 and 9 after the tick that found the start bit, which comes 0 to 5 cycles into it.
/// A flip that begins 7, 8 or 9 ticks into the bit and lasts one tick therefore meets exactly one sample, whatever the phase.
pub fn frame(byte: u8, noise: Option<Noise>) -> Vec<Stretch> {
    let mut line = Vec::new();
    for bit in 0..BITS {
        let rxd = match bit {
            0 => 0,
            9 => 1,
            _ => byte >> (bit - 1) & 1,
        };
        match noise {
            Some(noise) if noise.bit == bit => {
                let before = (FIRST_SAMPLE + noise.sample) * TICK;
                let flipped = noise.samples * TICK;
                line.push(Stretch { rxd, cycles: before });
                line.push(Stretch { rxd: 1 - rxd, cycles: flipped });
                line.push(Stretch { rxd, cycles: BIT - before - flipped });
            }
            _ => line.push(Stretch { rxd, cycles: BIT }),
        }
    }
    line
}

/// The line up to so many cycles and from there on.
pub fn cut(line: Vec<Stretch>, cycles: u64) -> (Vec<Stretch>, Vec<Stretch>) {
    let (mut first, mut second) = (Vec::new(), Vec::new());
    let mut left = cycles;
    for Stretch { rxd, cycles } in line {
        let before = cycles.min(left);
        left -= before;
        for (part, cycles) in [(&mut first, before), (&mut second, cycles - before)] {
            if cycles > 0 {
                part.push(Stretch { rxd, cycles });
            }
        }
    }
    (first, second)
}

#[cfg(test)]
mod tests {
    use super::*;

    fn levels(line: &[Stretch]) -> Vec<u8> {
        line.iter().flat_map(|s| std::iter::repeat_n(s.rxd, s.cycles as usize)).collect()
    }

    #[test]
    fn a_frame_without_noise() {
        let bits: Vec<u8> = frame(0x35, None).iter().map(|stretch| stretch.rxd).collect();
        assert_eq!(bits, [0, 1, 0, 1, 0, 1, 1, 0, 0, 1]);
        assert_eq!(levels(&frame(0x35, None)).len() as u64, BIT * BITS);
    }

    /// Cut anywhere, also within noise, the line is the same.
    #[test]
    fn a_line_that_is_cut() {
        for noise in [None, Some(Noise { bit: 5, sample: 0, samples: 2 }), Some(Noise { bit: 0, sample: 2, samples: 1 })] {
            let line = frame(0x35, noise);
            for cycles in 0..=BIT * BITS + 1 {
                let (first, second) = cut(line.clone(), cycles);
                assert_eq!(levels(&first).len() as u64, cycles.min(BIT * BITS));
                assert_eq!([levels(&first), levels(&second)].concat(), levels(&line), "cut at {cycles}");
                assert!(first.iter().chain(&second).all(|stretch| stretch.cycles > 0));
            }
        }
    }

    #[test]
    fn noise_flips_one_sample_at_every_phase() {
        for bit in 0..BITS {
            for sample in 0..SAMPLES {
                let clean = levels(&frame(0xA5, None));
                let noisy = levels(&frame(0xA5, Some(Noise { bit, sample, samples: 1 })));
                assert_eq!(noisy.len(), clean.len());
                for phase in 0..TICK {
                    let sampled = (0..BITS * TICKS).filter(|tick| (FIRST_SAMPLE..FIRST_SAMPLE + SAMPLES).contains(&(tick % TICKS)));
                    let flipped: Vec<u64> = sampled
                        .filter(|tick| {
                            let cycle = (phase + tick * TICK) as usize;
                            noisy[cycle] != clean[cycle]
                        })
                        .collect();
                    assert_eq!(flipped, [bit * TICKS + FIRST_SAMPLE + sample]);
                }
            }
        }
    }
}
