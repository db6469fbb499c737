//! The soak: random lists and raw records, of both chips, with checkpoints among them, and speeds, through the library and the model for
//! as long as wanted.
use compare::files::Loads;
use compare::lists::{run_list, run_record, script, styles};
use compare::pair::{Pair, Tally};
use compare::speeds::{compare_speed, speed_call, Outcomes};
use compare::STAGE;
use random::Rng;
use std::path::PathBuf;
use std::process::exit;
use std::time::{Duration, Instant, SystemTime, UNIX_EPOCH};

const USAGE: &str = "usage: soak [--cycles N] [--records N] [--speeds N] [--seed S]
  --cycles N   cycles of mixed lists to compare (1000000000)
  --records N  boards of raw records to compare, every call on each (10000000)
  --speeds N   calls for a speed to compare (1000000)
  --seed S     the seed (taken from the clock)
  --help       print this";

const LINES: u64 = 2_000;
const LISTS_A_SCRIPT: u64 = 200;
const LIST_LENGTH: u64 = 50;
/// Records and speeds at a time.
const AT_A_TIME: u64 = 1_000;
const PROGRESS: Duration = Duration::from_secs(5);

struct Options {
    cycles: u64,
    records: u64,
    speeds: u64,
    seed: u64,
}

/// The options, or none where help is asked for.
fn options(mut words: impl Iterator<Item = String>) -> Result<Option<Options>, String> {
    let clock = SystemTime::now().duration_since(UNIX_EPOCH).map_or(0, |time| time.as_secs());
    let mut options = Options { cycles: 1_000_000_000, records: 10_000_000, speeds: 1_000_000, seed: clock };
    while let Some(word) = words.next() {
        let place = match word.as_str() {
            "--cycles" => &mut options.cycles,
            "--records" => &mut options.records,
            "--speeds" => &mut options.speeds,
            "--seed" => &mut options.seed,
            "--help" => return Ok(None),
            _ => return Err(format!("unknown option {word}")),
        };
        let value = words.next().ok_or(format!("{word} wants a number"))?;
        *place = value.parse().map_err(|_| format!("{word} wants a number, not '{value}'"))?;
    }
    Ok(Some(options))
}

/// What was compared so far, and the progress on stderr.
struct Soak {
    options: Options,
    lists: Tally,
    records: u64,
    on_records: Tally,
    speeds: Outcomes,
    start: Instant,
    shown: Instant,
}

impl Soak {
    fn show(&mut self) {
        if self.shown.elapsed() >= PROGRESS {
            self.shown = Instant::now();
            let (lists, options) = (self.lists, &self.options);
            eprintln!(
                "{:6} s: {} of {} cycles in {} calls, {} of {} records, {} of {} speeds",
                self.start.elapsed().as_secs(),
                lists.cycles,
                options.cycles,
                lists.calls,
                self.records,
                options.records,
                self.speeds.calls(),
                options.speeds
            );
        }
    }

    /// Scripts of each style in turn, and fresh lists after each.
    fn run_lists(&mut self) -> Result<(), String> {
        let generator = generator();
        let styles = styles()?;
        let mut number = 0;
        while self.lists.cycles < self.options.cycles {
            let style = &styles[(number % styles.len() as u64) as usize];
            let script_seed = Rng::part(self.options.seed, number).number() >> 1;
            let text = script(&generator, script_seed, LINES, style)?;
            let ran = Pair::default().run_script(&text);
            self.lists += ran.map_err(|what| format!("gen {script_seed} {LINES} {style} {STAGE}: {what}"))?;
            let mut rng = Rng::part(script_seed, 0);
            for _ in 0..LISTS_A_SCRIPT {
                self.lists += run_list(&mut rng, LIST_LENGTH)?;
            }
            number += 1;
            self.show();
        }
        Ok(())
    }

    fn run_records(&mut self) -> Result<(), String> {
        while self.records < self.options.records {
            let mut rng = Rng::part(!self.options.seed, self.records);
            for _ in 0..AT_A_TIME.min(self.options.records - self.records) {
                self.on_records += run_record(&mut rng)?;
                self.records += 1;
            }
            self.show();
        }
        Ok(())
    }

    fn run_speeds(&mut self) -> Result<(), String> {
        let mut rng = Rng::part(self.options.seed, u64::MAX);
        while self.speeds.calls() < self.options.speeds {
            for _ in 0..AT_A_TIME.min(self.options.speeds - self.speeds.calls()) {
                self.speeds.add(&compare_speed(&speed_call(&mut rng))?);
            }
            self.show();
        }
        Ok(())
    }
}

/// The model's generator, which cargo builds beside this program.
fn generator() -> PathBuf {
    std::env::current_exe().expect("the path of this program").with_file_name("gen")
}

fn main() {
    let options = options(std::env::args().skip(1)).unwrap_or_else(|why| {
        eprintln!("soak: {why}\n{USAGE}");
        exit(2);
    });
    let Some(options) = options else { return println!("{USAGE}") };
    println!("seed {}", options.seed);
    let now = Instant::now();
    let mut soak = Soak {
        options,
        lists: Tally::default(),
        records: 0,
        on_records: Tally::default(),
        speeds: Outcomes::default(),
        start: now,
        shown: now,
    };
    if let Err(what) = soak.run_speeds().and_then(|()| soak.run_records()).and_then(|()| soak.run_lists()) {
        println!("{what}");
        exit(1);
    }
    let Outcomes { found, none, refused } = soak.speeds;
    let mut total = soak.on_records;
    total += soak.lists;
    let [timer0, timer1, timer2] = total.overflowed;
    let Loads { passed, bad_length, bad_layout, bad_value } = total.loads;
    println!(
        "{} raw records in {} calls, {} cycles of lists in {} calls, runs with overflows of Timers 0, 1, 2: {timer0}, {timer1}, \
         {timer2}; jumps of one round and of more: {}, {}; {} saves, loads passed and refused by 15, 16, 17: {passed}, {bad_length}, \
         {bad_layout}, {bad_value}; {} speeds ({found} found, {none} none, {refused} refused), {} s: no difference",
        soak.records,
        soak.on_records.calls,
        soak.lists.cycles,
        soak.lists.calls,
        total.of_one_round,
        total.of_more_rounds,
        total.saved,
        soak.speeds.calls(),
        soak.start.elapsed().as_secs()
    );
}
