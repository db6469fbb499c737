//! The command line of the station program.
use crate::chips::CYCLES_A_SECOND;
use crate::frame::SAMPLES;
use crate::run::{Plan, DIGITS};
use crate::speed::Wanted;

pub const USAGE: &str = "usage: station [OPTIONS]
       station --speed CRYSTAL RATE TOLERANCE
  --tags N        tags to send in all, in turn over the stations (33)
  --gap SECONDS   idle time before each tag, 0.0001 to 1000000 (1)
  --stations N    stations side by side, 1 to 1000 (11)
  --seed S        seed of the tags, pauses and noise (1)
  --noise N       samples flipped in a noisy bit, 0 to 3 (1); from 2 on the noise wins
  --tag DIGITS..  tags of 15 digits to send in turn, in place of random ones
  --csv FILE      write the table as CSV too
  --vcd FILE      write a waveform of a station around each tag, for GTKWave
  --vcd-station N its number (1); stations 1 and 2 have an 82C53
  --save FILE --after N
                  read N tags, save the run in the middle of a frame of the next, and end
  --load FILE     go on from a saved run; it has its tags, gap, stations, seed and noise
  --speed CRYSTAL RATE TOLERANCE
                  alone: find SMOD and TH1 for a crystal in Hz, 1 to 40000000, a rate in bits a second, 1 to 1000000, and
                  a tolerance in hundredths of a percent, 0 to 10000; exit status 1 where there is none
  --help          print this";

pub const MOST_STATIONS: u64 = 1000;
pub const LONGEST_GAP: f64 = 1_000_000.0;
const SHORTEST_GAP: f64 = 0.0001;

/// Where a run is saved, and after how many tags.
#[derive(Clone, PartialEq, Debug)]
pub struct Save {
    pub file: String,
    pub after: u64,
}

#[derive(Clone, PartialEq, Debug)]
pub struct Options {
    /// What is sent; of a saved run its file has it.
    pub plan: Plan,
    pub csv: Option<String>,
    pub vcd: Option<String>,
    /// The station of the waveform.
    pub vcd_station: usize,
    pub save: Option<Save>,
    /// The saved run to go on from.
    pub load: Option<String>,
    /// The speed that is asked for, in place of a run.
    pub speed: Option<Wanted>,
    pub help: bool,
}

/// A word of digits alone as a number within limits.
pub fn whole(word: &str, least: u64, most: u64) -> Option<u64> {
    let digits = !word.is_empty() && word.bytes().all(|b| b.is_ascii_digit());
    word.parse().ok().filter(|n| digits && (least..=most).contains(n))
}

fn number(name: &str, value: &str, least: u64, most: u64) -> Result<u64, String> {
    whole(value, least, most).ok_or_else(|| match most {
        u64::MAX => format!("{name} wants a whole number from {least} on, not '{value}'"),
        _ => format!("{name} wants a whole number from {least} to {most}, not '{value}'"),
    })
}

/// The gap in cycles.
fn gap(value: &str) -> Result<u64, String> {
    let plain = value.bytes().all(|b| b.is_ascii_digit() || b == b'.');
    match value.parse::<f64>() {
        Ok(seconds) if plain && (SHORTEST_GAP..=LONGEST_GAP).contains(&seconds) => {
            Ok((seconds * CYCLES_A_SECOND as f64).round() as u64)
        }
        _ => Err(format!("--gap wants seconds, {SHORTEST_GAP} to {LONGEST_GAP}, not '{value}'")),
    }
}

pub fn tag(value: String) -> Result<String, String> {
    if value.len() == DIGITS && value.bytes().all(|b| b.is_ascii_digit()) {
        Ok(value)
    } else {
        Err(format!("a tag has {DIGITS} digits, not '{value}'"))
    }
}

impl Options {
    pub fn parse(words: impl Iterator<Item = String>) -> Result<Options, String> {
        let plan = Plan { stations: 11, tags: 0, gap: CYCLES_A_SECOND, seed: 1, noise: 1, chosen: Vec::new() };
        let mut options = Options { plan, csv: None, vcd: None, vcd_station: 1, save: None, load: None, speed: None, help: false };
        let words: Vec<String> = words.collect();
        if let Some((before, after)) = words.iter().position(|word| word == "--speed").map(|at| (&words[..at], &words[at + 1..])) {
            if let Some(other) = before.first() {
                return Err(format!("--speed is used alone, not with '{other}'"));
            }
            options.speed = Some(Wanted::parse(after)?);
            return Ok(options);
        }
        let (mut tags, mut save, mut after) = (None, None, None);
        let mut of_the_plan = None;
        let mut words = words.into_iter().peekable();
        while let Some(name) = words.next() {
            if name == "--help" {
                options.help = true;
                continue;
            }
            let plan = ["--tags", "--gap", "--stations", "--seed", "--noise", "--tag"];
            let others = ["--csv", "--vcd", "--vcd-station", "--save", "--after", "--load"];
            if plan.contains(&name.as_str()) {
                of_the_plan = Some(name.clone());
            } else if !others.contains(&name.as_str()) {
                return Err(format!("unknown option '{name}'"));
            }
            let value = words.next_if(|word| !word.starts_with("--")).ok_or(format!("{name} wants a value"))?;
            let plan = &mut options.plan;
            match name.as_str() {
                "--tags" => tags = Some(number(&name, &value, 1, u64::MAX)?),
                "--gap" => plan.gap = gap(&value)?,
                "--stations" => plan.stations = number(&name, &value, 1, MOST_STATIONS)? as usize,
                "--seed" => plan.seed = number(&name, &value, 0, u64::MAX)?,
                "--noise" => plan.noise = number(&name, &value, 0, SAMPLES)?,
                "--csv" => options.csv = Some(value),
                "--vcd" => options.vcd = Some(value),
                "--vcd-station" => options.vcd_station = number(&name, &value, 1, MOST_STATIONS)? as usize,
                "--save" => save = Some(value),
                "--after" => after = Some(number(&name, &value, 0, u64::MAX)?),
                "--load" => options.load = Some(value),
                _ => {
                    plan.chosen.push(tag(value)?);
                    while let Some(value) = words.next_if(|word| !word.starts_with("--")) {
                        plan.chosen.push(tag(value)?);
                    }
                }
            }
        }
        let of_chosen = if options.plan.chosen.is_empty() { 33 } else { options.plan.chosen.len() as u64 };
        options.plan.tags = tags.unwrap_or(of_chosen);
        options.save = match (save, after) {
            (Some(file), Some(after)) => Some(Save { file, after }),
            (None, None) => None,
            (Some(_), None) => return Err("--save wants --after too: how many tags are read before".to_string()),
            (None, Some(_)) => return Err("--after is used with --save".to_string()),
        };
        match (&options.load, of_the_plan) {
            (Some(_), Some(name)) => return Err(format!("--load has what is sent from its file, and is not used with '{name}'")),
            (Some(_), None) => {}
            (None, _) => options.fit(&options.plan, 0)?,
        }
        Ok(options)
    }

    /// Whether the options are for such a plan of which so many tags are read.
    pub fn fit(&self, plan: &Plan, read: u64) -> Result<(), String> {
        if self.vcd_station > plan.stations {
            return Err(format!("--vcd-station {} is not one of the {} stations", self.vcd_station, plan.stations));
        }
        match &self.save {
            Some(Save { after, .. }) if *after < read => {
                Err(format!("--after {after} is past: {read} of {} tags are read", plan.tags))
            }
            Some(Save { after, .. }) if *after >= plan.tags => {
                Err(format!("--after {after} leaves none of {} tags to be saved in", plan.tags))
            }
            _ => Ok(()),
        }
    }
}

#[cfg(test)]
mod tests {
    use super::*;

    fn parse(line: &str) -> Result<Options, String> {
        Options::parse(line.split_whitespace().map(String::from))
    }

    #[test]
    fn good_lines() {
        let options = parse("").unwrap();
        assert_eq!((options.plan.stations, options.plan.tags, options.plan.gap), (11, 33, 921_600));
        let options = parse("--tags 5 --gap 0.5 --stations 2 --seed 9 --noise 0 --csv a.csv --vcd b.vcd").unwrap();
        assert_eq!(options.plan, Plan { stations: 2, tags: 5, gap: 460_800, seed: 9, noise: 0, chosen: vec![] });
        assert_eq!((options.csv.as_deref(), options.vcd.as_deref(), options.vcd_station), (Some("a.csv"), Some("b.vcd"), 1));
        assert_eq!(parse("--vcd b.vcd --vcd-station 11").unwrap().vcd_station, 11);
        assert_eq!(parse("--vcd-station 3 --stations 3").unwrap().vcd_station, 3);
        let options = parse("--tag 123456789012345 000000000000000 --seed 2 --tag 999999999999999").unwrap();
        assert_eq!(options.plan.tags, 3);
        assert_eq!(options.plan.chosen, ["123456789012345", "000000000000000", "999999999999999"]);
        assert_eq!(parse("--tag 123456789012345 --tags 7").unwrap().plan.tags, 7);
        let options = parse("--save moved --after 32").unwrap();
        assert_eq!((options.save, options.load), (Some(Save { file: "moved".to_string(), after: 32 }), None));
        assert_eq!(parse("--after 0 --tags 1 --save a").unwrap().save, Some(Save { file: "a".to_string(), after: 0 }));
        let options = parse("--load a --csv b --vcd c --vcd-station 900 --save d --after 999").unwrap();
        assert_eq!((options.load.as_deref(), options.save.map(|save| save.after)), (Some("a"), Some(999)));
        assert!(parse("--help").unwrap().help);
        assert_eq!(parse("").unwrap().speed, None);
        let speed = parse("--speed 11059200 9600 50").unwrap().speed;
        assert_eq!(speed, Some(Wanted { crystal: 11_059_200, rate: 9_600, tolerance: 50 }));
    }

    #[test]
    fn bad_lines_are_named() {
        let lines = [
            ("--tag 12345678901234", "a tag has 15 digits, not '12345678901234'"),
            ("--tag 1234567890123456", "a tag has 15 digits"),
            ("--tag 12345678901234x", "a tag has 15 digits"),
            ("--tag 123456789012345 12", "a tag has 15 digits, not '12'"),
            ("--gap 0", "--gap wants seconds"),
            ("--gap 0.0", "--gap wants seconds"),
            ("--gap -1", "--gap wants seconds"),
            ("--gap 1e3", "--gap wants seconds"),
            ("--gap nan", "--gap wants seconds"),
            ("--gap 1000001", "--gap wants seconds"),
            ("--gap .", "--gap wants seconds"),
            ("--tags 0", "--tags wants a whole number"),
            ("--tags +5", "--tags wants a whole number"),
            ("--tags 99999999999999999999", "--tags wants a whole number"),
            ("--stations 0", "--stations wants a whole number from 1 to 1000"),
            ("--stations 1001", "--stations wants a whole number"),
            ("--noise 4", "--noise wants a whole number from 0 to 3"),
            ("--seed x", "--seed wants a whole number"),
            ("--tags", "--tags wants a value"),
            ("--csv --vcd x", "--csv wants a value"),
            ("--vcd-station 0", "--vcd-station wants a whole number from 1 to 1000"),
            ("--vcd-station 12", "--vcd-station 12 is not one of the 11 stations"),
            ("--vcd-station 2 --stations 1", "--vcd-station 2 is not one of the 1 stations"),
            ("--tag", "--tag wants a value"),
            ("--save moved", "--save wants --after too"),
            ("--after 3", "--after is used with --save"),
            ("--load moved --after 3", "--after is used with --save"),
            ("--save --after 3", "--save wants a value"),
            ("--save moved --after x", "--after wants a whole number from 0 on, not 'x'"),
            ("--save moved --after 33", "--after 33 leaves none of 33 tags to be saved in"),
            ("--save moved --after 2 --tags 2", "--after 2 leaves none of 2 tags to be saved in"),
            ("--load moved --tags 5", "--load has what is sent from its file, and is not used with '--tags'"),
            ("--seed 5 --load moved", "--load has what is sent from its file, and is not used with '--seed'"),
            ("--load moved --tag 123456789012345", "is not used with '--tag'"),
            ("--load", "--load wants a value"),
            ("--frequency 12", "unknown option '--frequency'"),
            ("5", "unknown option '5'"),
            ("--speed", "--speed wants three whole numbers, CRYSTAL RATE TOLERANCE, not 0"),
            ("--speed 11059200 9600", "--speed wants three whole numbers, CRYSTAL RATE TOLERANCE, not 2"),
            ("--speed 11059200 9600 10001", "TOLERANCE of --speed is a whole number"),
            ("--speed 11059200 9600 50 --tags 5", "--speed is used alone, not with '--tags'"),
            ("--tags 5 --speed 11059200 9600 50", "--speed is used alone, not with '--tags'"),
            ("--help --speed 11059200 9600 50", "--speed is used alone, not with '--help'"),
            ("--speed 11059200 9600 50 --speed 11059200 9600 50", "--speed is used alone, not with '--speed'"),
            ("--csv --speed 11059200 9600 50", "--speed is used alone, not with '--csv'"),
        ];
        for (line, message) in lines {
            let why = parse(line).unwrap_err();
            assert!(why.contains(message), "{line}: {why}");
        }
    }
}
