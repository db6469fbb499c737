//! A run as a file, in the middle of a frame, to go on from on another computer. docs/CHECKPOINT.md lists its lines.
use crate::chips::CYCLES_A_SECOND;
use crate::frame::{Noise, BITS, SAMPLES};
use crate::options::{tag, whole, LONGEST_GAP, MOST_STATIONS};
use crate::reader::{Reader, Received};
use crate::run::{Plan, Row, Run, Station, UnderWay, WITH_INTERVAL};
use crate::timing::{Time, Timing};
use c51::{flag, Board, Counter, Device, Flag, Interval, Jump, Totals};
use random::Rng;
use std::fmt::Write;
use std::io::{self, Read};

/// The first line.
const NAME: &str = "c51-station-run";
const VERSION: &str = "2";
/// The name of the last line.
const SUM: &str = "sum";
/// What stands in the place of a number that there is none of.
const NONE: &str = "-";
const NO_END: &str = "no-end";

/// The 64-bit FNV-1a hash of some bytes, by which a damaged file is told.
fn sum(bytes: &[u8]) -> u64 {
    bytes.iter().fold(0xCBF2_9CE4_8422_2325, |sum, byte| (sum ^ u64::from(*byte)).wrapping_mul(0x0000_0100_0000_01B3))
}

/// The fields of a counter in the order of its record.
fn numbers(k: &Counter) -> [u64; 15] {
    let bytes = [k.mode, k.bcd, k.format, k.output, k.gate, k.loaded, k.waits, k.first, k.low, k.high, k.latched];
    let counts = [k.count, k.reload, k.waiting, k.latch];
    let mut numbers = bytes.into_iter().map(u64::from).chain(counts.into_iter().map(u64::from));
    std::array::from_fn(|_| numbers.next().expect("15 fields"))
}

/// The counter of such numbers; none where one does not fit its field.
fn counter(numbers: &[u64]) -> Option<Counter> {
    let [bytes @ .., count, reload, waiting, latch] = numbers else { return None };
    let bytes: Vec<u8> = bytes.iter().map(|&n| n.try_into().ok()).collect::<Option<Vec<u8>>>()?;
    let [mode, bcd, format, output, gate, loaded, waits, first, low, high, latched] = bytes[..] else { return None };
    let [count, reload, waiting, latch] = [count, reload, waiting, latch].map(|&n| n.try_into().ok());
    let (count, reload, waiting, latch) = (count?, reload?, waiting?, latch?);
    Some(Counter { mode, bcd, format, output, gate, loaded, waits, first, low, high, latched, count, reload, waiting, latch })
}

fn hex(bytes: &[u8]) -> String {
    bytes.iter().map(|byte| format!("{byte:02x}")).collect()
}

/// The bytes of pairs of hexadecimal digits.
fn of_hex(text: &str) -> Option<Vec<u8>> {
    let digit = |b: u8| char::from(b).to_digit(16).map(|digit| digit as u8);
    let pair = |pair: &[u8]| match *pair {
        [high, low] => Some(digit(high)? << 4 | digit(low)?),
        _ => None,
    };
    text.as_bytes().chunks(2).map(pair).collect()
}

/// A number, or what stands for none.
fn or_none(number: Option<u64>) -> String {
    number.map_or(NONE.to_string(), |n| n.to_string())
}

/// The bytes of a saved run; of another file no more than tells it apart.
pub fn read(mut file: impl Read) -> io::Result<Vec<u8>> {
    let mut bytes = Vec::new();
    file.by_ref().take(NAME.len() as u64).read_to_end(&mut bytes)?;
    if bytes == NAME.as_bytes() {
        file.read_to_end(&mut bytes)?;
    }
    Ok(bytes)
}

impl Run<Board> {
    /// The file of a run that stands in the middle of a tag.
    pub fn save(&self) -> String {
        let mut text = format!("{NAME} {VERSION}\n");
        let Plan { stations, tags, gap, seed, noise, chosen } = &self.plan;
        text += &format!("plan {stations} {tags} {gap} {seed} {noise}\n");
        text += &["chosen"].into_iter().chain(chosen.iter().map(String::as_str)).collect::<Vec<&str>>().join(" ");
        text += &format!("\nread {}\n", self.rows.len());
        self.rows.iter().for_each(|row| save_row(&mut text, row));
        self.stations.iter().for_each(|station| save_station(&mut text, station));
        let UnderWay { sent, noisy_samples, noise } = self.under_way.as_ref().expect("a run that stands in the middle of a tag");
        let noise = noise.map_or(NONE.to_string(), |Noise { bit, sample, samples }| format!("{bit} {sample} {samples}"));
        text += &format!("under-way {sent} {noisy_samples} {noise}\n");
        let sum = sum(text.as_bytes());
        text + &format!("{SUM} {sum:016x}\n")
    }

    /// The run of a file, or what is wrong with it.
    pub fn load(file: &[u8]) -> Result<Run<Board>, String> {
        let first = format!("{NAME} {VERSION}\n");
        if !file.starts_with(NAME.as_bytes()) {
            return Err("it is no saved run of stations".to_string());
        } else if !file.starts_with(first.as_bytes()) {
            return Err(format!("it is a saved run of another version than {VERSION}, or damaged"));
        }
        let text = std::str::from_utf8(file).ok().and_then(checked);
        let mut lines = Lines { rest: text.ok_or("it is damaged or cut short")?, number: 0 };
        let run = load_run(&mut lines).map_err(|what| format!("line {}: {what}", lines.number))?;
        match lines.rest {
            "" => Ok(run),
            _ => Err(format!("line {}: nothing is due any more", lines.number + 1)),
        }
    }
}

/// The text before the last line, where that has its sum.
fn checked(text: &str) -> Option<&str> {
    let at = text.strip_suffix('\n')?.rfind('\n')? + 1;
    let (before, last) = text.split_at(at);
    (last == format!("{SUM} {:016x}\n", sum(before.as_bytes()))).then_some(before)
}

fn save_row(text: &mut String, row: &Row) {
    let Row { station, cycle, tag, sent, noisy_samples, woken, time, last_digit, timer1_laps } = row;
    let time = match time {
        Some(Time::Took(cycles)) => cycles.to_string(),
        Some(Time::NoEnd) => NO_END.to_string(),
        None => NONE.to_string(),
    };
    let last_digit = or_none(*last_digit);
    writeln!(text, "row {station} {cycle} {tag} {sent} {noisy_samples} {woken} {time} {last_digit} {timer1_laps}")
        .expect("a string grows");
}

fn save_station(text: &mut String, station: &Station<Board>) {
    let Station { number, reader, rng } = station;
    let Totals { timer0, timer1, timer2 } = reader.totals;
    let chip = reader.chips.device.save().expect("a station's chip is accepted");
    *text += &format!("station {number} {} {timer0} {timer1} {timer2} {}\nchip {}\n", rng.seed(), reader.rounds, hex(&chip));
    if let Some(Timing { fish, begun, took }) = reader.timing {
        let Interval { counter0, counter1, counter2 } = &reader.chips.interval;
        let numbers: Vec<String> = [counter0, counter1, counter2].iter().flat_map(|k| numbers(k)).map(|n| n.to_string()).collect();
        *text += &format!("interval {}\n", numbers.join(" "));
        *text += &format!("timing {} {} {}\n", u8::from(fish), u8::from(begun), or_none(took));
    }
    *text += &format!("received {}\n", reader.received.len());
    for Received { byte, cycle, woke, timer1_laps } in &reader.received {
        *text += &format!("byte {byte} {cycle} {} {timer1_laps}\n", u8::from(*woke));
    }
}

/// The lines that are still to be read, and the number of the last one that was.
struct Lines<'a> {
    rest: &'a str,
    number: usize,
}

impl<'a> Lines<'a> {
    /// The words of the next line, which has this name.
    fn words(&mut self, name: &str) -> Result<Vec<&'a str>, String> {
        self.number += 1;
        let (line, rest) = self.rest.split_once('\n').unwrap_or((self.rest, ""));
        self.rest = rest;
        match line.split(' ').collect::<Vec<&str>>()[..] {
            [first, ref words @ ..] if first == name => Ok(words.to_vec()),
            _ => Err(format!("'{name}' is due")),
        }
    }

    /// Those of a line that has so many.
    fn some_words<const N: usize>(&mut self, name: &str) -> Result<[&'a str; N], String> {
        self.words(name)?.try_into().map_err(|words: Vec<&str>| format!("'{name}' has {N} words, not {}", words.len()))
    }

    /// The numbers of a line that has so many.
    fn numbers<const N: usize>(&mut self, name: &str) -> Result<[u64; N], String> {
        let mut numbers = [0; N];
        for (number, word) in numbers.iter_mut().zip(self.some_words::<N>(name)?) {
            *number = number_of(word)?;
        }
        Ok(numbers)
    }
}

fn number_of(word: &str) -> Result<u64, String> {
    within(word, 0, u64::MAX)
}

/// A number within limits.
fn within(word: &str, least: u64, most: u64) -> Result<u64, String> {
    whole(word, least, most).ok_or_else(|| format!("a whole number from {least} to {most} is due, not '{word}'"))
}

fn mark_of(word: &str) -> Result<bool, String> {
    Ok(within(word, 0, 1)? == 1)
}

fn some_of(word: &str) -> Result<Option<u64>, String> {
    (word != NONE).then(|| number_of(word)).transpose()
}

fn load_run(lines: &mut Lines) -> Result<Run<Board>, String> {
    let [_] = lines.some_words(NAME)?;
    let [stations, tags, gap, seed, noise] = lines.some_words("plan")?;
    let longest = LONGEST_GAP as u64 * CYCLES_A_SECOND;
    let mut plan = Plan {
        stations: within(stations, 1, MOST_STATIONS)? as usize,
        tags: within(tags, 1, u64::MAX)?,
        gap: within(gap, 1, longest)?,
        seed: number_of(seed)?,
        noise: within(noise, 0, SAMPLES)?,
        chosen: Vec::new(),
    };
    plan.chosen = lines.words("chosen")?.into_iter().map(|word| tag(word.to_string())).collect::<Result<Vec<String>, String>>()?;
    let [read] = lines.some_words("read")?;
    let rows = (0..within(read, 0, plan.tags - 1)?).map(|number| load_row(lines, number as usize % plan.stations + 1));
    let rows = rows.collect::<Result<Vec<Row>, String>>()?;
    let stations = (1..=plan.stations).map(|number| load_station(lines, number));
    let stations = stations.collect::<Result<Vec<Station<Board>>, String>>()?;
    let under_way = load_under_way(lines)?;
    Ok(Run { plan, stations, rows, under_way: Some(under_way) })
}

/// A row, which is of this station.
fn load_row(lines: &mut Lines, number: usize) -> Result<Row, String> {
    let [station, cycle, tag, sent, noisy_samples, woken, time, last_digit, timer1_laps] = lines.some_words("row")?;
    let time = match time {
        NONE => None,
        NO_END => Some(Time::NoEnd),
        cycles => Some(Time::Took(number_of(cycles)?)),
    };
    Ok(Row {
        station: within(station, number as u64, number as u64)? as usize,
        cycle: number_of(cycle)?,
        tag: tag.to_string(),
        sent: sent.to_string(),
        noisy_samples: number_of(noisy_samples)?,
        woken: number_of(woken)? as usize,
        time,
        last_digit: some_of(last_digit)?,
        timer1_laps: number_of(timer1_laps)?,
    })
}

fn load_station(lines: &mut Lines, number: usize) -> Result<Station<Board>, String> {
    let [station, seed, timer0, timer1, timer2, rounds] = lines.numbers("station")?;
    if station != number as u64 {
        return Err(format!("station {number} is due, not {station}"));
    }
    let device = load_chip(lines)?;
    let (interval, timing) = match WITH_INTERVAL.contains(&number) {
        true => (load_interval(lines)?, Some(load_timing(lines)?)),
        false => (Interval::reset(), None),
    };
    let [count] = lines.numbers("received")?;
    let received = (0..count).map(|_| load_received(lines)).collect::<Result<Vec<Received>, String>>()?;
    let since_reset = Jump { totals: Totals { timer0, timer1, timer2 }, rounds };
    let reader = Reader::of(Board { device, interval }, timing, since_reset, received);
    Ok(Station { number, reader, rng: Rng::new(seed) })
}

/// The place of the ninth bit that was received in SCON, and that of the serial port in seen and polled.
const RB8: u8 = 0x04;
const SERIAL: u8 = 0x10;

/// Whether a chip is that of a station which sleeps: as its program sets it up, but for what cycles and the line move. Where the serial
/// port asks, RI has risen.
fn is_a_stations(device: &Device) -> bool {
    let mut setup = Reader::<Board>::new().chips.device;
    setup.timers.tcon |= device.timers.tcon & flag::TF1;
    setup.timers.tl1 = device.timers.tl1;
    setup.serial.scon |= device.serial.scon & (RB8 | flag::RI);
    setup.serial.send.counter = device.serial.send.counter;
    setup.serial.receive = device.serial.receive;
    setup.serial.half = device.serial.half;
    setup.serial.received = device.serial.received;
    setup.interrupts.seen = device.interrupts.seen;
    setup.interrupts.polled = device.interrupts.polled;
    setup.levels = device.levels;
    setup.cycle = device.cycle;
    setup.times = device.times;
    let asks = (device.interrupts.seen | device.interrupts.polled) & SERIAL != 0 || device.serial.scon & flag::RI != 0;
    *device == setup && (!asks || device.last_rise(Flag::Ri).is_some())
}

/// A chip: its checkpoint has to pass, and to be that of a station.
fn load_chip(lines: &mut Lines) -> Result<Device, String> {
    let [digits] = lines.some_words("chip")?;
    let file = of_hex(digits).ok_or("pairs of hexadecimal digits are due")?;
    let device = Device::load(&file).map_err(|why| format!("the chip is refused by {}, {why}", why.code()))?;
    match is_a_stations(&device) {
        true => Ok(device),
        false => Err("the chip is not that of a station".to_string()),
    }
}

fn load_interval(lines: &mut Lines) -> Result<Interval, String> {
    let numbers: [u64; 45] = lines.numbers("interval")?;
    let [counter0, counter1, counter2] = [0, 15, 30].map(|at| counter(&numbers[at..at + 15]));
    let (Some(counter0), Some(counter1), Some(counter2)) = (counter0, counter1, counter2) else {
        return Err("a number does not fit its field".to_string());
    };
    let interval = Interval { counter0, counter1, counter2 };
    let setup = Reader::<Board>::with_interval().chips.interval;
    let modes = |c: &Interval| [c.counter0, c.counter1, c.counter2].map(|k| (k.mode, k.bcd, k.format));
    match interval.accepts() && modes(&interval) == modes(&setup) {
        true => Ok(interval),
        false => Err("the 82C53 is not that of a station".to_string()),
    }
}

fn load_timing(lines: &mut Lines) -> Result<Timing, String> {
    let [fish, begun, took] = lines.some_words("timing")?;
    Ok(Timing { fish: mark_of(fish)?, begun: mark_of(begun)?, took: some_of(took)? })
}

fn load_received(lines: &mut Lines) -> Result<Received, String> {
    let [byte, cycle, woke, timer1_laps] = lines.some_words("byte")?;
    let byte = within(byte, 0, u8::MAX.into())? as u8;
    Ok(Received { byte, cycle: number_of(cycle)?, woke: mark_of(woke)?, timer1_laps: number_of(timer1_laps)? })
}

fn load_under_way(lines: &mut Lines) -> Result<UnderWay, String> {
    let (sent, noisy_samples, noise) = match lines.words("under-way")?[..] {
        [sent, noisy_samples, NONE] => (sent, noisy_samples, None),
        [sent, noisy_samples, bit, sample, samples] => {
            let samples = within(samples, 1, SAMPLES)?;
            let noise = Noise { bit: within(bit, 0, BITS - 1)?, sample: within(sample, 0, SAMPLES - samples)?, samples };
            (sent, noisy_samples, Some(noise))
        }
        ref words => return Err(format!("'under-way' has 3 or 5 words, not {}", words.len())),
    };
    Ok(UnderWay { sent: tag(sent.to_string())?, noisy_samples: number_of(noisy_samples)?, noise })
}

#[cfg(test)]
mod tests {
    use super::*;
    use c51::{address, pcon, CHECKPOINT_52};

    /// A run of four stations that stands in the middle of a frame, after so many tags.
    fn after(tags: u64) -> Run<Board> {
        let chosen = vec!["314159265358979".to_string(), "000000000000000".to_string()];
        let mut run = Run::new(Plan { stations: 4, tags: 9, gap: 5_000, seed: 3, noise: 1, chosen });
        run.read(tags, |_| ());
        assert_eq!(run.stop_in_a_frame().number as u64, tags % 4 + 1);
        run
    }

    /// One that stands there with station 3, which has no 82C53.
    fn under_way() -> Run<Board> {
        after(6)
    }

    /// A file with other lines and its sum.
    fn forged(text: &str, change: impl Fn(&str) -> String) -> String {
        let lines = text.lines().filter(|line| !line.starts_with("sum ")).map(|line| change(line) + "\n");
        let text: String = lines.collect();
        let sum = sum(text.as_bytes());
        text + &format!("sum {sum:016x}\n")
    }

    fn fault(file: &str) -> String {
        Run::load(file.as_bytes()).err().expect("a fault")
    }

    /// With each station in the middle of a frame, those that have an 82C53 too.
    #[test]
    fn there_and_back() {
        for tags in 0..9 {
            let run = after(tags);
            let text = run.save();
            let loaded = Run::load(text.as_bytes()).expect("a saved run");
            assert_eq!((&loaded.plan, &loaded.rows, &loaded.under_way), (&run.plan, &run.rows, &run.under_way));
            for (a, b) in loaded.stations.iter().zip(&run.stations) {
                assert_eq!((a.number, a.rng.seed()), (b.number, b.rng.seed()));
                let [a, b] = [&a.reader, &b.reader];
                assert_eq!((a.chips, a.timing, &a.received), (b.chips, b.timing, &b.received));
                assert_eq!((a.totals, a.rounds), (b.totals, b.rounds));
            }
            assert_eq!(loaded.save(), text);
            assert_eq!(forged(&text, str::to_string), text);
            let reader = &run.stations[tags as usize % 4].reader;
            assert!(reader.chips.device.serial.receive.position > 0 && reader.received.len() == 7, "after {tags} tags");
            assert!(reader.timing.is_none_or(|timing| timing.fish && timing.begun), "after {tags} tags");
        }
    }

    /// Rows of every form: no time, none within the limit, no last digit, and an empty tag.
    #[test]
    fn rows() {
        let row = Row {
            station: 1,
            cycle: u64::MAX,
            tag: "1?3...".to_string(),
            sent: "271828182845904".to_string(),
            noisy_samples: 3,
            woken: 16,
            time: None,
            last_digit: None,
            timer1_laps: 9,
        };
        let forms = [
            row.clone(),
            Row { time: Some(Time::NoEnd), ..row.clone() },
            Row { time: Some(Time::Took(0)), last_digit: Some(0), ..row.clone() },
            Row { tag: String::new(), last_digit: Some(u64::MAX), ..row },
        ];
        for row in forms {
            let mut text = String::new();
            save_row(&mut text, &row);
            let mut lines = Lines { rest: &text, number: 0 };
            assert_eq!((load_row(&mut lines, 1), lines.rest), (Ok(row), ""));
        }
    }

    /// Every cut, every other byte, and what is another file.
    #[test]
    fn a_damaged_or_foreign_file_is_refused() {
        let text = under_way().save();
        for length in 0..text.len() {
            let why = fault(&text[..length]);
            assert!(why.starts_with("it is "), "{length} bytes: {why}");
        }
        let mut bytes = text.clone().into_bytes();
        for at in 0..bytes.len() {
            for byte in [bytes[at] ^ 1, b'0', b' ', b'\n', 0xFF] {
                let kept = std::mem::replace(&mut bytes[at], byte);
                assert!(byte == kept || Run::load(&bytes).is_err(), "{byte} at {at}");
                bytes[at] = kept;
            }
        }
        for more in ["\n", " ", "sum 0000000000000000\n", &text] {
            assert_eq!(fault(&(text.clone() + more)), "it is damaged or cut short");
        }
        let chip = under_way().stations[2].reader.chips.device.save().unwrap();
        for foreign in [&b""[..], b"\n", b"station,cycle,seconds\n", &chip, &[0xFF; 1000]] {
            assert_eq!(Run::load(foreign).err().as_deref(), Some("it is no saved run of stations"));
        }
        assert!(fault(&text.replacen("run 2\n", "run 1\n", 1)).starts_with("it is a saved run of another version than 2"));
    }

    /// With a sum that is right: the line and what is due there. The chip of a line is a checkpoint, and is refused as one.
    #[test]
    fn a_line_that_is_wrong_is_named() {
        let text = under_way().save();
        let swapped = |old: &'static str, new: &'static str| forged(&text, |line| line.replacen(old, new, 1));
        for (old, new, why) in [
            ("plan 4 ", "plan 0 ", "line 2: a whole number from 1 to 1000 is due, not '0'"),
            ("plan 4 ", "plan 1001 ", "line 2: a whole number from 1 to 1000 is due, not '1001'"),
            ("plan 4 9 ", "plan 4 +9 ", "line 2: a whole number from 1 to 18446744073709551615 is due, not '+9'"),
            ("plan 4 9 5000 ", "plan 4 9 0 ", "line 2: a whole number from 1 to 921600000000 is due, not '0'"),
            ("plan 4 9 5000 3 1", "plan 4 9 5000 3 4", "line 2: a whole number from 0 to 3 is due, not '4'"),
            ("plan 4 9 5000 3 1", "plan 4 9 5000 3", "line 2: 'plan' has 5 words, not 4"),
            ("plan ", "plans ", "line 2: 'plan' is due"),
            ("chosen 3", "chosen x", "line 3: a tag has 15 digits, not 'x14159265358979'"),
            ("read 6", "read 9", "line 4: a whole number from 0 to 8 is due, not '9'"),
            ("read 6", "read 5", "line 10: 'station' is due"),
            ("row 2 ", "row 3 ", "line 6: a whole number from 2 to 2 is due, not '3'"),
            ("station 4 ", "station 5 ", "station 4 is due, not 5"),
            ("chip 10", "chip 1", "pairs of hexadecimal digits are due"),
            ("chip 10", "chip 1g", "pairs of hexadecimal digits are due"),
            ("chip 10", "chip 0b", "the chip is refused by 16, a checkpoint with another count or another address"),
            ("chip 1087", "chip 1086", "the chip is refused by 16, "),
            ("chip 108701", "chip 1087f1", "the chip is refused by 17, "),
            ("chip 1087", "chip ", "the chip is refused by 16, "),
            ("chip 108701", "chip 108702", "the chip is not that of a station"),
            ("interval 2 ", "interval 0 ", "the 82C53 is not that of a station"),
            ("interval 2 ", "interval 1 ", "the 82C53 is not that of a station"),
            ("interval 2 ", "interval 256 ", "a number does not fit its field"),
            ("interval 2 ", "interval ", "'interval' has 45 words, not 44"),
            ("timing 0", "timing 2", "a whole number from 0 to 1 is due, not '2'"),
            ("byte 5", "byte 50", "a whole number from 0 to 255 is due"),
            ("received 7", "received 6", "'station' is due"),
            ("received 7", "received 18446744073709551615", "'byte' is due"),
            ("under-way 3", "under-way 33", "a tag has 15 digits"),
            ("under-way 314159265358979", "under-way", "'under-way' has 3 or 5 words, not 4"),
        ] {
            let said = fault(&swapped(old, new));
            assert!(said.contains(why) && said.starts_with("line "), "{new}: {said}");
        }
        let longer = forged(&text, |line| line.to_string() + if line.starts_with("under-way") { "\nstation 5" } else { "" });
        assert!(fault(&longer).ends_with(": nothing is due any more"), "{}", fault(&longer));
    }

    /// Chips that are accepted and are none of a station: awake, in power-down, set up otherwise, of kind 51.
    #[test]
    fn the_chip_of_a_station() {
        let asleep = under_way().stations[2].reader.chips.device;
        assert!(is_a_stations(&asleep) && is_a_stations(&Reader::<Board>::new().chips.device));
        for (address, value) in [
            (address::PCON, 0),
            (address::PCON, pcon::PD),
            (address::TH1, 0xFA),
            (address::IE, 0),
            (address::SCON, 0x40),
            (address::SBUF, 1),
        ] {
            let mut device = asleep;
            device.write(address, value).unwrap();
            assert!(!is_a_stations(&device), "{address:02X}: {value:02X}");
        }
        assert!(!is_a_stations(&Device::reset(51).unwrap()));
        // RI by software, which no station has
        let mut device = Reader::<Board>::new().chips.device;
        device.serial.scon |= flag::RI;
        assert!(device.accepts() && !is_a_stations(&device));
    }

    #[test]
    fn no_more_is_read_of_another_file() {
        let text = under_way().save();
        assert_eq!(read(text.as_bytes()).unwrap(), text.as_bytes());
        assert_eq!(read(io::repeat(0)).unwrap().len(), NAME.len());
        assert!(text.len() > 4 * 2 * CHECKPOINT_52);
    }
}
