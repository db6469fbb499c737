//! From a wanted speed to SMOD and TH1, for those who install a station: what `--speed` asks and prints.
use crate::options::whole;
use c51::{pcon, Speed, MAX_CRYSTAL, MAX_RATE, MAX_TOLERANCE};

/// Crystal in Hz, wanted rate in bits a second, and tolerance in hundredths of a percent of it, each within its limits.
#[derive(Clone, Copy, PartialEq, Debug)]
pub struct Wanted {
    pub crystal: u64,
    pub rate: u64,
    pub tolerance: u64,
}

/// A number with a comma before every three digits.
fn grouped(n: u128) -> String {
    match n {
        0..1_000 => n.to_string(),
        _ => format!("{},{:03}", grouped(n / 1_000), n % 1_000),
    }
}

/// A number of so many decimals, given without its point.
fn with_point(n: u128, decimals: u32) -> String {
    let one = 10_u128.pow(decimals);
    format!("{}.{:0width$}", grouped(n / one), n % one, width = decimals as usize)
}

fn number(name: &str, unit: &str, word: &str, least: u64, most: u64) -> Result<u64, String> {
    let limits = || format!("{name} of --speed is a whole number of {unit} from {least} to {}, not '{word}'", grouped(most.into()));
    whole(word, least, most).ok_or_else(limits)
}

impl Wanted {
    /// What the words after `--speed` ask for.
    pub fn parse(words: &[String]) -> Result<Wanted, String> {
        if let Some(option) = words.iter().find(|word| word.starts_with("--")) {
            return Err(format!("--speed is used alone, not with '{option}'"));
        }
        let [crystal, rate, tolerance] = words else {
            return Err(format!("--speed wants three whole numbers, CRYSTAL RATE TOLERANCE, not {}", words.len()));
        };
        Ok(Wanted {
            crystal: number("CRYSTAL", "Hz", crystal, 1, MAX_CRYSTAL)?,
            rate: number("RATE", "bits a second", rate, 1, MAX_RATE)?,
            tolerance: number("TOLERANCE", "hundredths of a percent", tolerance, 0, MAX_TOLERANCE)?,
        })
    }

    /// The pair that is within the tolerance and nearest.
    pub fn found(&self) -> Option<Speed> {
        self.within(self.tolerance)
    }

    fn within(&self, tolerance: u64) -> Option<Speed> {
        c51::speed(self.crystal, self.rate, tolerance).expect("numbers within the limits")
    }

    /// The nearest pair, at any distance. One that is off by more than the wanted rate itself is too fast, and so is every
    /// other: it is the slowest.
    fn nearest(&self) -> Speed {
        let slowest = Speed { smod: 0, th1: 0, achieved: self.crystal / (384 * 256) };
        self.within(MAX_TOLERANCE).unwrap_or(slowest)
    }

    /// How far the rate of a pair is from the wanted one.
    fn error(&self, pair: &Speed) -> Error {
        let above = u128::from(self.crystal) << pair.smod;
        let below = 384 * (256 - u128::from(pair.th1));
        let wanted = u128::from(self.rate) * below;
        Error { off: above.abs_diff(wanted), wanted, is_fast: above > wanted, is_whole: above == u128::from(pair.achieved) * below }
    }
}

/// The error of a rate: it is off by the fraction off / wanted of the wanted one.
struct Error {
    off: u128,
    wanted: u128,
    /// Too fast, and not too slow.
    is_fast: bool,
    /// The rate is a whole number of bits a second.
    is_whole: bool,
}

/// Decimals of an error in percent.
const DECIMALS: u32 = 4;
/// Those of a tolerance.
const OF_TOLERANCE: u32 = 2;

impl Error {
    /// The percents to the nearest of so many decimals, without the point.
    fn percent(&self, decimals: u32) -> u128 {
        let parts = self.off * 100 * 10_u128.pow(decimals);
        (2 * parts + self.wanted) / (2 * self.wanted)
    }

    /// Whether these are whole hundredths of a percent, as tolerances are.
    fn are_hundredths(percent: u128, decimals: u32) -> bool {
        let hundredth = 10_u128.pow(decimals - OF_TOLERANCE);
        percent / hundredth * hundredth == percent
    }

    /// The decimals that are printed: two where the error is whole hundredths of a percent. Otherwise four, or as many more
    /// as tell it from these, and so from 0.
    fn decimals(&self) -> u32 {
        if self.percent(OF_TOLERANCE) * self.wanted == self.off * 10_000 {
            return OF_TOLERANCE;
        }
        (DECIMALS..).find(|&decimals| !Error::are_hundredths(self.percent(decimals), decimals)).expect("a digit that is not 0")
    }

    fn text(&self) -> String {
        let (sign, side) = match (self.off, self.is_fast) {
            (0, _) => return "exact".to_string(),
            (_, true) => ('+', "fast"),
            (_, false) => ('-', "slow"),
        };
        let decimals = self.decimals();
        format!("{sign}{} %, too {side}", with_point(self.percent(decimals), decimals))
    }

    /// The least tolerance that takes it, where there is one.
    fn least_tolerance(&self) -> Option<u64> {
        let hundredths = (self.off * 10_000).div_ceil(self.wanted);
        u64::try_from(hundredths).ok().filter(|&tolerance| tolerance <= MAX_TOLERANCE)
    }
}

/// The crystal in MHz, as it is written on it.
fn megahertz(crystal: u64) -> String {
    with_point(crystal.into(), 6).trim_end_matches('0').trim_end_matches('.').to_string()
}

fn bits_a_second(rate: u64) -> String {
    let bits = if rate == 1 { "bit" } else { "bits" };
    format!("{} {bits} a second", grouped(rate.into()))
}

/// A line: what it is about, and the text.
fn line(name: &str, text: String) -> String {
    format!("{name:<10} {text}\n")
}

/// The lines of what was asked.
fn asked(wanted: &Wanted) -> String {
    let within = match wanted.tolerance {
        0 => "exactly".to_string(),
        tolerance => format!("within {} %", with_point(tolerance.into(), OF_TOLERANCE)),
    };
    line("crystal", format!("{} Hz ({} MHz)", grouped(wanted.crystal.into()), megahertz(wanted.crystal)))
        + &line("wanted", format!("{}, {within}", bits_a_second(wanted.rate)))
}

/// The lines of a pair.
fn pair(pair: &Speed, error: &Error) -> String {
    let Speed { smod, th1, achieved } = *pair;
    let bit = match smod {
        0 => format!("0: AND {:02X} hex", !pcon::SMOD),
        _ => format!("1: OR {:02X} hex", pcon::SMOD),
    };
    let rest = if error.is_whole { "" } else { " and a fraction" };
    line("SMOD", format!("{smod} (bit 7 of PCON is {bit})"))
        + &line("TH1", format!("{th1:02X} hex, {th1} decimal"))
        + &line("achieved", format!("{}{rest}", bits_a_second(achieved)))
        + &line("error", error.text())
}

/// What is printed: what was asked, and the pair; or that there is none, the nearest pair, and the tolerance that would take it.
pub fn report(wanted: &Wanted) -> String {
    if let Some(found) = wanted.found() {
        return asked(wanted) + &pair(&found, &wanted.error(&found));
    }
    let nearest = wanted.nearest();
    let error = wanted.error(&nearest);
    let least = match error.least_tolerance() {
        Some(least) => format!("{least} ({} %) would take it", with_point(least.into(), OF_TOLERANCE)),
        None => format!("none up to {} would take it", grouped(MAX_TOLERANCE.into())),
    };
    let none = line("NONE", "no pair of SMOD and TH1 comes so near; the nearest:".to_string());
    asked(wanted) + &none + &pair(&nearest, &error) + &line("tolerance", least)
}

#[cfg(test)]
mod tests {
    use super::*;
    use crate::chips::CYCLES_A_SECOND;
    use crate::frame::{BIT, TICK, TICKS};
    use crate::reader::{Reader, SETUP};
    use c51::{address, Board, Refusal};

    fn parse(line: &str) -> Result<Wanted, String> {
        Wanted::parse(&line.split_whitespace().map(String::from).collect::<Vec<String>>())
    }

    fn reported(line: &str) -> String {
        report(&parse(line).expect("numbers within the limits"))
    }

    #[test]
    fn a_pair_that_is_found() {
        assert_eq!(
            reported("11059200 9600 50"),
            "crystal    11,059,200 Hz (11.0592 MHz)\n\
             wanted     9,600 bits a second, within 0.50 %\n\
             SMOD       0 (bit 7 of PCON is 0: AND 7F hex)\n\
             TH1        FD hex, 253 decimal\n\
             achieved   9,600 bits a second\n\
             error      exact\n"
        );
        assert_eq!(
            reported("12000000 4800 17"),
            "crystal    12,000,000 Hz (12 MHz)\n\
             wanted     4,800 bits a second, within 0.17 %\n\
             SMOD       1 (bit 7 of PCON is 1: OR 80 hex)\n\
             TH1        F3 hex, 243 decimal\n\
             achieved   4,807 bits a second and a fraction\n\
             error      +0.1603 %, too fast\n"
        );
        assert_eq!(
            reported("1 1 10000"),
            "crystal    1 Hz (0.000001 MHz)\n\
             wanted     1 bit a second, within 100.00 %\n\
             SMOD       1 (bit 7 of PCON is 1: OR 80 hex)\n\
             TH1        FF hex, 255 decimal\n\
             achieved   0 bits a second and a fraction\n\
             error      -99.4792 %, too slow\n"
        );
    }

    #[test]
    fn none_with_the_nearest() {
        assert_eq!(
            reported("12000000 9600 50"),
            "crystal    12,000,000 Hz (12 MHz)\n\
             wanted     9,600 bits a second, within 0.50 %\n\
             NONE       no pair of SMOD and TH1 comes so near; the nearest:\n\
             SMOD       1 (bit 7 of PCON is 1: OR 80 hex)\n\
             TH1        F9 hex, 249 decimal\n\
             achieved   8,928 bits a second and a fraction\n\
             error      -6.9940 %, too slow\n\
             tolerance  700 (7.00 %) would take it\n"
        );
        assert_eq!(
            reported("40000000 1 10000"),
            "crystal    40,000,000 Hz (40 MHz)\n\
             wanted     1 bit a second, within 100.00 %\n\
             NONE       no pair of SMOD and TH1 comes so near; the nearest:\n\
             SMOD       0 (bit 7 of PCON is 0: AND 7F hex)\n\
             TH1        00 hex, 0 decimal\n\
             achieved   406 bits a second and a fraction\n\
             error      +40,590.1042 %, too fast\n\
             tolerance  none up to 10,000 would take it\n"
        );
        assert!(reported("3840001 10000 0").contains("wanted     10,000 bits a second, exactly\nNONE "));
    }

    /// The error as it is printed for a line.
    fn error(line: &str) -> String {
        let wanted = parse(line).expect("numbers within the limits");
        wanted.error(&wanted.nearest()).text()
    }

    /// Hundredths of a percent stand by themselves where they are exact; every other error is told from them, and from 0.
    #[test]
    fn errors() {
        for (line, text) in [
            ("3840000 10000 0", "exact"),
            ("3859200 10000 0", "+0.50 %, too fast"),
            ("3820800 10000 0", "-0.50 %, too slow"),
            ("3840384 10000 0", "+0.01 %, too fast"),
            ("3840001 10000 0", "+0.00003 %, too fast"),
            ("3839999 10000 0", "-0.00003 %, too slow"),
            ("3859201 10000 0", "+0.50003 %, too fast"),
            ("3859199 10000 0", "+0.49997 %, too fast"),
            ("3820799 10000 0", "-0.50003 %, too slow"),
            ("3840192 10000 0", "+0.0050 %, too fast"),
            ("38399999 100000 0", "-0.000003 %, too slow"),
            ("192 1 0", "exact"),
            ("98304 1 0", "exact"),
            ("196608 1 0", "+100.00 %, too fast"),
            ("39999999 1000000 0", "-79.1667 %, too slow"),
        ] {
            assert_eq!(error(line), text, "{line}");
        }
    }

    /// The pairs with their errors, in exact fractions of the wanted rate.
    fn errors_of_all(wanted: &Wanted) -> Vec<(Speed, Error)> {
        let pairs = (0..=1).flat_map(|smod| (0..=255).map(move |th1| Speed { smod, th1, achieved: 0 }));
        pairs.map(|pair| (pair, wanted.error(&pair))).collect()
    }

    /// No pair is nearer than the one that is named, at any distance, and the tolerance that is named is the least that finds it.
    #[test]
    fn the_nearest_and_the_least_tolerance() {
        let mut past = 0;
        for crystal in [1, 2, 383, 100_000, 1_843_200, 3_579_545, 11_059_200, 12_000_000, 39_999_999, MAX_CRYSTAL] {
            for rate in [1, 2, 50, 101, 102, 203, 204, 300, 1_200, 9_600, 19_200, 115_200, 999_999, MAX_RATE] {
                let wanted = Wanted { crystal, rate, tolerance: 0 };
                let nearest = wanted.nearest();
                let least = wanted.error(&nearest);
                let nearer = |(_, e): &(Speed, Error)| e.off * least.wanted < least.off * e.wanted;
                assert!(!errors_of_all(&wanted).iter().any(nearer), "{wanted:?}");
                let achieved = (u128::from(crystal) << nearest.smod) / (384 * (256 - u128::from(nearest.th1)));
                assert_eq!(u128::from(nearest.achieved), achieved, "{wanted:?}");
                match least.least_tolerance() {
                    Some(tolerance) => {
                        assert_eq!(Wanted { tolerance, ..wanted }.found(), Some(nearest), "{wanted:?}");
                        assert!(tolerance == 0 || Wanted { tolerance: tolerance - 1, ..wanted }.found().is_none(), "{wanted:?}");
                    }
                    None => {
                        assert_eq!(Wanted { tolerance: MAX_TOLERANCE, ..wanted }.found(), None, "{wanted:?}");
                        past += 1;
                    }
                }
            }
        }
        assert!(past > 5, "{past} past every tolerance");
    }

    /// The limits of the words are those of the library.
    #[test]
    fn limits() {
        for (crystal, rate, tolerance) in [(1, 1, 0), (MAX_CRYSTAL, MAX_RATE, MAX_TOLERANCE)] {
            assert_eq!(parse(&format!("{crystal} {rate} {tolerance}")), Ok(Wanted { crystal, rate, tolerance }));
            assert!(c51::speed(crystal, rate, tolerance).is_ok());
        }
        for (crystal, rate, tolerance, name) in [
            (0, 9_600, 50, "CRYSTAL of --speed is a whole number of Hz from 1 to 40,000,000, not '0'"),
            (MAX_CRYSTAL + 1, 9_600, 50, "CRYSTAL of --speed is a whole number of Hz from 1 to 40,000,000, not '40000001'"),
            (1, 0, 50, "RATE of --speed is a whole number of bits a second from 1 to 1,000,000, not '0'"),
            (1, MAX_RATE + 1, 50, "RATE of --speed is a whole number of bits a second from 1 to 1,000,000, not '1000001'"),
            (1, 1, MAX_TOLERANCE + 1, "TOLERANCE of --speed is a whole number of hundredths of a percent from 0 to 10,000"),
        ] {
            let why = parse(&format!("{crystal} {rate} {tolerance}")).unwrap_err();
            assert!(why.starts_with(name), "{why}");
            assert_eq!(c51::speed(crystal, rate, tolerance), Err(Refusal::BadSpeed));
        }
    }

    #[test]
    fn words_that_are_no_numbers() {
        for (line, message) in [
            ("", "--speed wants three whole numbers, CRYSTAL RATE TOLERANCE, not 0"),
            ("11059200", "three whole numbers, CRYSTAL RATE TOLERANCE, not 1"),
            ("11059200 9600", "three whole numbers, CRYSTAL RATE TOLERANCE, not 2"),
            ("11059200 9600 50 7", "three whole numbers, CRYSTAL RATE TOLERANCE, not 4"),
            ("11.0592 9600 50", "CRYSTAL of --speed is a whole number of Hz from 1 to 40,000,000, not '11.0592'"),
            ("11,059,200 9600 50", "not '11,059,200'"),
            ("+11059200 9600 50", "not '+11059200'"),
            ("11059200 -9600 50", "RATE of --speed is a whole number of bits a second from 1 to 1,000,000, not '-9600'"),
            ("11059200 9k6 50", "not '9k6'"),
            ("11059200 9600 0.5", "TOLERANCE of --speed is a whole number of hundredths of a percent from 0 to 10,000, not '0.5'"),
            ("11059200 9600 5%", "not '5%'"),
            ("99999999999999999999 9600 50", "CRYSTAL of --speed"),
            ("11059200 99999999999999999999 50", "RATE of --speed"),
            ("11059200 9600 99999999999999999999", "TOLERANCE of --speed"),
            ("11059200 9600 --tags", "--speed is used alone, not with '--tags'"),
            ("--help", "--speed is used alone, not with '--help'"),
        ] {
            let why = parse(line).unwrap_err();
            assert!(why.contains(message), "{line}: {why}");
        }
        let empty = ["11059200", "", "50"].map(String::from);
        assert!(Wanted::parse(&empty).unwrap_err().contains("RATE of --speed"));
        assert_eq!(parse("0011059200 09600 00"), Ok(Wanted { crystal: 11_059_200, rate: 9_600, tolerance: 0 }));
    }

    /// What the station's own program sets up is what is found for its crystal and rate, and a bit has the cycles of the pair.
    #[test]
    fn the_station_itself() {
        let Speed { smod, th1, achieved } = parse(&format!("{} 9600 0", 12 * CYCLES_A_SECOND)).unwrap().found().expect("exactly");
        assert_eq!((smod, th1, achieved), (0, 0xFD, 9_600));
        assert!(SETUP.contains(&(address::TH1, th1)) && SETUP.contains(&(address::TL1, th1)));
        let chip = Reader::<Board>::new().chips.device;
        assert_eq!((chip.timers.th1, chip.pcon & pcon::SMOD), (th1, smod * pcon::SMOD));
        assert_eq!(TICK, 2 * (256 - u64::from(th1)), "with SMOD 0 every second overflow is a tick");
        assert_eq!((BIT, TICKS * TICK), (CYCLES_A_SECOND / achieved, 32 * (256 - u64::from(th1))));
    }
}
