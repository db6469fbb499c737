//! From a wanted speed to a reload: the usual crystals and rates, and numbers that are rich in ties, against a search in
//! exact fractions; ties, the ends of a tolerance and of the limits; and what a pair means on the chip.
use c51::raw::{self, SpeedAnswer};
use c51::{address, pcon, speed, Device, Refusal, Speed, MAX_CRYSTAL, MAX_RATE, MAX_TOLERANCE, PINS_HIGH};
use std::cmp::{Ordering, Reverse};

/// A fraction that is not negative, in order by its value.
#[derive(Clone, Copy)]
struct Fraction {
    above: u128,
    below: u128,
}

impl Ord for Fraction {
    fn cmp(&self, other: &Fraction) -> Ordering {
        (self.above * other.below).cmp(&(other.above * self.below))
    }
}

impl PartialOrd for Fraction {
    fn partial_cmp(&self, other: &Fraction) -> Option<Ordering> {
        Some(self.cmp(other))
    }
}

impl PartialEq for Fraction {
    fn eq(&self, other: &Fraction) -> bool {
        self.cmp(other).is_eq()
    }
}

impl Eq for Fraction {}

/// A pair with its rate, 2^SMOD x crystal / (384 x (256 - TH1)), and how far that is from the wanted one.
#[derive(Clone, Copy)]
struct Pair {
    smod: u8,
    th1: u8,
    rate: Fraction,
    distance: Fraction,
}

impl Pair {
    fn of(crystal: u64, wanted: u64, smod: u8, th1: u8) -> Pair {
        let above = u128::from(crystal) * [1, 2][usize::from(smod)];
        let below = 384 * (256 - u128::from(th1));
        let distance = Fraction { above: above.abs_diff(u128::from(wanted) * below), below };
        Pair { smod, th1, rate: Fraction { above, below }, distance }
    }

    fn is_within(&self, wanted: u64, tolerance: u64) -> bool {
        self.distance <= Fraction { above: u128::from(wanted) * u128::from(tolerance), below: 10_000 }
    }

    /// The least tolerance that takes it: the distance in hundredths of a percent of the wanted rate, cut upward.
    fn least_tolerance(&self, wanted: u64) -> u64 {
        (self.distance.above * 10_000).div_ceil(u128::from(wanted) * self.distance.below).try_into().expect("64 bits")
    }

    fn speed(&self) -> Speed {
        Speed { smod: self.smod, th1: self.th1, achieved: (self.rate.above / self.rate.below) as u64 }
    }
}

/// All 512 pairs in the order of preference: the nearest first, and of pairs that are as near SMOD 0 and then the larger TH1.
fn by_preference(crystal: u64, wanted: u64) -> Vec<Pair> {
    let mut pairs: Vec<Pair> = (0..512).map(|n| Pair::of(crystal, wanted, (n / 256) as u8, (n % 256) as u8)).collect();
    pairs.sort_by_key(|pair| (pair.distance, pair.smod, Reverse(pair.th1)));
    pairs
}

/// How many speeds were found, and of how many there is none; and of those found how many lie exactly at the end of the
/// tolerance, and how many have a rate on the other side that is as near.
#[derive(Default, Debug)]
struct Count {
    found: u64,
    none: u64,
    at_the_end: u64,
    either_side: u64,
}

impl Count {
    /// Compares the answer with the first of the pairs by preference, where it is within the tolerance.
    fn check(&mut self, crystal: u64, wanted: u64, tolerance: u64, pairs: &[Pair]) {
        let first = &pairs[0];
        let expected = first.is_within(wanted, tolerance).then(|| first.speed());
        assert_eq!(speed(crystal, wanted, tolerance), Ok(expected), "{crystal} Hz, {wanted}, tolerance {tolerance}");
        match expected {
            Some(_) => self.found += 1,
            None => {
                assert!(!pairs.iter().any(|pair| pair.is_within(wanted, tolerance)));
                self.none += 1;
            }
        }
        let end = Fraction { above: u128::from(wanted) * u128::from(tolerance), below: 10_000 };
        self.at_the_end += u64::from(first.distance == end && end.above > 0);
        let mut as_near = pairs.iter().take_while(|pair| pair.distance == first.distance);
        self.either_side += u64::from(expected.is_some() && as_near.any(|pair| pair.rate != first.rate));
    }

    /// The same with these tolerances, with the least that suffices and with one less, where these lie in the limits.
    fn check_all(&mut self, crystal: u64, wanted: u64, tolerances: &[u64]) {
        let pairs = by_preference(crystal, wanted);
        let least = pairs[0].least_tolerance(wanted);
        let ends = [Some(least), least.checked_sub(1)].into_iter().flatten().filter(|&end| end <= MAX_TOLERANCE);
        tolerances.iter().copied().chain(ends).for_each(|tolerance| self.check(crystal, wanted, tolerance, &pairs));
    }
}

const CRYSTALS: [u64; 40] = [
    1_000_000, 1_843_200, 2_000_000, 2_097_152, 2_457_600, 3_000_000, 3_276_800, 3_579_545, 3_686_400, 4_000_000, 4_194_304,
    4_433_619, 4_915_200, 5_000_000, 5_529_600, 6_000_000, 6_144_000, 7_372_800, 8_000_000, 9_216_000, 10_000_000, 11_059_200,
    12_000_000, 14_318_180, 14_745_600, 16_000_000, 18_432_000, 20_000_000, 22_118_400, 24_000_000, 24_576_000, 25_000_000,
    27_000_000, 29_491_200, 30_000_000, 32_000_000, 33_000_000, 33_177_600, 36_864_000, 40_000_000,
];
const RATES: [u64; 36] = [
    45, 50, 75, 110, 134, 150, 200, 300, 600, 1_000, 1_200, 1_800, 2_000, 2_400, 3_600, 4_800, 7_200, 9_600, 10_000, 12_000,
    14_400, 19_200, 28_800, 31_250, 38_400, 56_000, 57_600, 62_500, 76_800, 115_200, 125_000, 187_500, 230_400, 250_000, 460_800,
    921_600,
];
const TOLERANCES: [u64; 10] = [0, 1, 50, 100, 200, 250, 500, 1_000, 5_000, MAX_TOLERANCE];

/// Every pair of the usual crystals and rates.
#[test]
fn the_usual_crystals_and_rates() {
    let mut count = Count::default();
    for crystal in CRYSTALS {
        for rate in RATES {
            count.check_all(crystal, rate, &TOLERANCES);
        }
    }
    let all = (CRYSTALS.len() * RATES.len() * TOLERANCES.len()) as u64;
    assert!(count.found + count.none > all && count.found > all / 4 && count.none > all / 4, "{count:?}");
}

/// Small numbers, in which many rates lie as near on either side and many distances are whole hundredths of a percent.
#[test]
fn small_numbers() {
    let mut count = Count::default();
    for rate in 1..=12 {
        for crystal in (1..=96).chain((96..=384 * 24).step_by(96)) {
            count.check_all(crystal, rate, &[0, 100, 2_500, 5_000, MAX_TOLERANCE]);
        }
    }
    assert!(count.found > 1_000 && count.none > 1_000 && count.at_the_end > 300 && count.either_side > 20, "{count:?}");
}

/// The answer by the library, which is also the one of the search.
fn found(crystal: u64, rate: u64, tolerance: u64) -> Option<(u8, u8, u64)> {
    Count::default().check(crystal, rate, tolerance, &by_preference(crystal, rate));
    speed(crystal, rate, tolerance).expect("within the limits").map(|Speed { smod, th1, achieved }| (smod, th1, achieved))
}

/// As the library answers where there is none; of a refused call the code is another.
const NONE: SpeedAnswer = SpeedAnswer { code: 0, found: 0, smod: 0, th1: 0, achieved: 0 };

#[test]
fn exactly_none_and_a_tolerance_that_suffices() {
    assert_eq!(found(11_059_200, 9_600, 0), Some((0, 0xFD, 9_600)));
    assert_eq!(found(11_059_200, 19_200, 0), Some((1, 0xFD, 19_200)));
    for tolerance in [0, 50, 699] {
        assert_eq!(found(12_000_000, 9_600, tolerance), None, "62,500 / 7 is 6.994 % too slow");
    }
    for tolerance in [700, MAX_TOLERANCE] {
        assert_eq!(found(12_000_000, 9_600, tolerance), Some((1, 0xF9, 8_928)), "8,928 4/7, cut downward");
    }
    assert_eq!(raw::c51_speed(12_000_000, 9_600, 50), NONE);
}

/// A distance of rate x tolerance / 10,000 is within, on either side.
#[test]
fn the_tolerance_is_closed() {
    assert_eq!(found(3_859_200, 10_000, 50), Some((0, 0xFF, 10_050)));
    assert_eq!(found(3_859_200, 10_000, 49), None);
    assert_eq!(found(3_820_800, 10_000, 50), Some((0, 0xFF, 9_950)));
    assert_eq!(found(3_820_800, 10_000, 49), None);
    assert_eq!(found(3_840_000, 10_000, 0), Some((0, 0xFF, 10_000)));
    for crystal in [3_840_001, 3_839_999] {
        assert_eq!(found(crystal, 10_000, 0), None, "{crystal} Hz: off by 1 part in 3,840,000");
        assert_eq!(found(crystal, 10_000, 1).map(|pair| pair.1), Some(0xFF));
    }
}

/// Of 400 and 600 the one is nearer to 490, by 90 and 110. As a part of itself the other would be, by 0.225 and 0.183, and so
/// would it by its ratio, 1.225 and 1.2245.
#[test]
fn nearness_is_the_difference_of_the_rates() {
    assert_eq!(found(384 * 600, 490, MAX_TOLERANCE), Some((1, 0xFD, 400)));
    assert_eq!(found(384 * 600, 501, MAX_TOLERANCE), Some((0, 0xFF, 600)));
}

/// Neighbours, as SMOD and the lesser number of steps of Timer 1, 256 - TH1: no other pair has a rate between those of n and
/// of n + 1 steps with SMOD 1, or from 128 steps on with SMOD 0.
fn neighbours() -> impl Iterator<Item = (u8, u64)> {
    (1..=255).map(|n| (1, n)).chain((128..=255).map(|n| (0, n)))
}

/// The factors by which a rate lies in the middle between those of two neighbours: where crystal x first = rate x second.
fn middle(smod: u8, n: u64) -> (u64, u64) {
    let common = if n % 3 == 1 { 3 } else { 1 };
    ((2 * n + 1) / common, [768, 384][usize::from(smod)] * n * (n + 1) / common)
}

/// The pair of so many steps: with SMOD 1 an even number is half of it with SMOD 0, which goes first.
fn of_steps(smod: u8, steps: u64) -> (u8, u64) {
    match (smod, steps % 2) {
        (1, 0) => (0, steps / 2),
        _ => (smod, steps),
    }
}

/// This pair is found.
fn check_found(crystal: u64, rate: u64, (smod, steps): (u8, u64)) {
    let th1 = (256 - steps) as u8;
    let Speed { achieved, .. } = Pair::of(crystal, rate, smod, th1).speed();
    assert_eq!(found(crystal, rate, MAX_TOLERANCE), Some((smod, th1, achieved)), "{crystal} Hz, {rate}");
}

/// As near on either side, by whole rates and by thirds: SMOD 0, and then the larger TH1.
#[test]
fn ties() {
    assert_eq!(found(4_608, 7, MAX_TOLERANCE), Some((0, 0xFE, 6)), "SMOD 1 with FD has 8");
    assert_eq!(found(768, 3, MAX_TOLERANCE), Some((0, 0xFF, 2)), "SMOD 1 with FF has 4");
    assert_eq!(found(12_681_216, 257, MAX_TOLERANCE), Some((0, 0x80, 258)), "TH1 7F has 256");
    assert_eq!(found(4_359_680, 87, MAX_TOLERANCE), Some((0, 0x7E, 87)), "87 1/3, and TH1 7D has 86 2/3");
    let mut count = [0; 2];
    for (smod, n) in neighbours() {
        let (first, second) = middle(smod, n);
        let even = n + n % 2;
        for times in [1, 2, 3, MAX_CRYSTAL / second] {
            if (1..=MAX_CRYSTAL / second).contains(&times) {
                check_found(second * times, first * times, of_steps(smod, if smod == 1 { even } else { n }));
                count[usize::from(smod)] += 1;
            }
        }
    }
    assert!(count[0] > 200 && count[1] > 800, "{count:?}");
}

/// The nearest to a tie that whole numbers come: the one on the nearer side.
#[test]
fn almost_ties() {
    let mut count = [0; 2];
    for (smod, n) in neighbours() {
        let (first, second) = middle(smod, n);
        for rate in 1..=first {
            // the middle is above the rate, and below it
            for (product, steps) in [(rate * second + 1, n + 1), (rate * second - 1, n)] {
                if product % first == 0 && product / first <= MAX_CRYSTAL {
                    check_found(product / first, rate, of_steps(smod, steps));
                    count[usize::from(smod)] += 1;
                }
            }
        }
    }
    assert!(count[0] > 200 && count[1] > 400, "{count:?}");
}

#[test]
fn the_ends_of_the_limits() {
    assert_eq!(found(1, 1, MAX_TOLERANCE), Some((1, 0xFF, 0)));
    assert_eq!(found(1, 1, MAX_TOLERANCE - 1), Some((1, 0xFF, 0)), "1 / 192 is 99.48 % off");
    assert_eq!(found(1, 1, 0), None);
    assert_eq!(found(1, MAX_RATE, MAX_TOLERANCE), Some((1, 0xFF, 0)));
    assert_eq!(found(1, MAX_RATE, MAX_TOLERANCE - 1), None);
    assert_eq!(found(MAX_CRYSTAL, 1, MAX_TOLERANCE), None, "the slowest has 406");
    assert_eq!(found(MAX_CRYSTAL, MAX_RATE, MAX_TOLERANCE), Some((1, 0xFF, 208_333)));
    assert_eq!(found(MAX_CRYSTAL, MAX_RATE, 0), None);
    assert_eq!(found(MAX_CRYSTAL, 203, MAX_TOLERANCE), None, "406.9 is more than twice 203");
    assert_eq!(found(MAX_CRYSTAL, 204, MAX_TOLERANCE), Some((0, 0x00, 406)));
    assert_eq!(found(98_304, 1, 0), Some((0, 0x00, 1)), "the slowest of SMOD 0");
    assert_eq!(found(48_960, 1, 0), Some((1, 0x01, 1)), "the slowest of SMOD 1 that SMOD 0 has not got");
}

/// 0 and what is past a limit, also where its low 32 bits alone would be within, in each place and in several.
#[test]
fn past_the_limits() {
    let past = |most: u64, good: u64| [most + 1, 1 << 32 | good, 1 << 63, u64::MAX - 1, u64::MAX];
    let crystals = past(MAX_CRYSTAL, 11_059_200).into_iter().chain([0]);
    let rates = past(MAX_RATE, 9_600).into_iter().chain([0]);
    let tolerances = past(MAX_TOLERANCE, 0);
    let in_one = crystals
        .map(|crystal| (crystal, 9_600, 0))
        .chain(rates.map(|rate| (11_059_200, rate, 0)))
        .chain(tolerances.map(|tolerance| (11_059_200, 9_600, tolerance)));
    let in_several = [(0, 0, 0), (0, 0, MAX_TOLERANCE + 1), (0, 9_600, u64::MAX), (11_059_200, 0, u64::MAX), (u64::MAX, 0, 0)];
    for (crystal, rate, tolerance) in in_one.chain(in_several) {
        let what = format!("{crystal} Hz, {rate}, tolerance {tolerance}");
        assert_eq!(speed(crystal, rate, tolerance), Err(Refusal::BadSpeed), "{what}");
        assert_eq!(raw::c51_speed(crystal, rate, tolerance), SpeedAnswer { code: 14, ..NONE }, "{what}");
    }
}

/// The cycles between the ends of a frame's bits on the output line: a byte of 1 0 1 0 1 0 1 0 after the start bit, then a 1.
fn cycles_of_bits(kind: u8, scon: u8, smod: u8, th1: u8) -> Vec<u64> {
    let mut device = Device::reset(kind).unwrap();
    let clock = [(address::PCON, smod * pcon::SMOD), (address::TMOD, 0x20), (address::TH1, th1), (address::TL1, th1)];
    let port = [(address::SCON, scon), (address::TCON, 0x40), (address::SBUF, 0x55)];
    for (address, value) in clock.into_iter().chain(port) {
        device.write(address, value).unwrap();
    }
    let mut line = 1;
    let mut changes = Vec::new();
    while changes.len() < 10 {
        let level = device.cycle(PINS_HIGH).unwrap();
        if level != line {
            line = level;
            changes.push(device.cycle);
        }
        assert!(device.cycle < 12 * 32 * 256, "the frame ends");
    }
    changes.windows(2).map(|ends| ends[1] - ends[0]).collect()
}

/// SCON for serial mode 1, and for mode 3 with TB8.
const MODE_1: u8 = 0x40;
const MODE_3: u8 = 0xC8;

/// Each pair on the chip: a bit has 32 x (256 - TH1) / 2^SMOD cycles, so that crystal / 12 by them is the rate of the fraction.
#[test]
fn a_bit_on_the_line_has_the_cycles_of_its_pair() {
    for th1 in 0..=255_u8 {
        for smod in [0, 1] {
            let cycles = [32, 16][usize::from(smod)] * (256 - u64::from(th1));
            let Fraction { above, below } = Pair::of(1, 1, smod, th1).rate;
            assert_eq!(u128::from(12 * cycles) * above, below);
            for kind in [51, 52] {
                assert_eq!(cycles_of_bits(kind, MODE_1, smod, th1), [cycles; 9], "kind {kind}, SMOD {smod}, TH1 {th1:02X}");
            }
        }
    }
    for (smod, th1, cycles) in [(0, 0xFD, 96), (1, 0xFD, 48), (1, 0xF9, 112), (0, 0xFF, 32), (1, 0xFF, 16), (0, 0x80, 4_096)] {
        for kind in [51, 52] {
            assert_eq!(cycles_of_bits(kind, MODE_3, smod, th1), [cycles; 9], "kind {kind}, SMOD {smod}, TH1 {th1:02X}");
        }
    }
}

/// The pair that is found for a crystal and a rate has its rate on the chip.
#[test]
fn what_is_found_is_on_the_line() {
    let mut measured = 0;
    for crystal in [3_579_545, 11_059_200, 12_000_000, 24_576_000] {
        for wanted in RATES {
            let Some(Speed { smod, th1, achieved }) = speed(crystal, wanted, 250).unwrap() else { continue };
            let [bit, ..] = cycles_of_bits(52, MODE_1, smod, th1)[..] else { panic!("no bit") };
            assert_eq!(crystal / (12 * bit), achieved, "{crystal} Hz, {wanted}");
            let (off, most) = (crystal.abs_diff(12 * bit * wanted) * 10_000, 12 * bit * wanted * 250);
            assert!(off <= most, "{crystal} Hz, {wanted}: {bit} cycles a bit");
            measured += 1;
        }
    }
    assert!(measured > 40, "{measured} speeds");
}
