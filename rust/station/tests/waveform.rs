//! The waveform, read back: the start bit, the samples in the middle of each bit, and RI of every frame; the lamp and the limit of a tag
//! by the 82C53.
use std::collections::HashMap;
use std::path::Path;
use std::process::Command;

const BIT: i64 = 96;
const TICK: i64 = 6;

/// A VCD file: each signal's changes as time in cycles and value.
struct Vcd {
    widths: HashMap<String, usize>,
    changes: HashMap<String, Vec<(i64, u64)>>,
}

impl Vcd {
    /// Reads a file, and refuses one that breaks the format's rules.
    fn read(text: &str) -> Vcd {
        let (header, body) = text.split_once("$enddefinitions $end\n").expect("a header");
        assert!(header.contains("$timescale 1 ns $end"));
        assert_eq!(header.matches("$scope module ").count(), header.matches("$upscope $end").count());
        let mut names = HashMap::new();
        let mut vcd = Vcd { widths: HashMap::new(), changes: HashMap::new() };
        for line in header.lines().filter(|line| line.starts_with("$var ")) {
            let ["$var", "wire", width, code, name, "$end"] = line.split(' ').collect::<Vec<&str>>()[..] else { panic!("{line}") };
            assert_eq!(names.insert(code, name), None, "{line}");
            vcd.widths.insert(name.to_string(), width.parse().unwrap());
            vcd.changes.insert(name.to_string(), Vec::new());
        }
        let mut time = None;
        for line in body.lines().filter(|line| !line.starts_with('$')) {
            if let Some(nanoseconds) = line.strip_prefix('#') {
                let nanoseconds: i64 = nanoseconds.parse().unwrap();
                // 12 periods of 11.0592 MHz a cycle
                let cycle = (nanoseconds as f64 * 11.0592e6 / 12e9).round() as i64;
                assert!(time.is_none_or(|before| before < cycle), "time goes on");
                time = Some(cycle);
                continue;
            }
            let (code, value) = match line.strip_prefix('b') {
                Some(vector) => {
                    let (value, code) = vector.split_once(' ').unwrap();
                    (code, u64::from_str_radix(value, 2).unwrap())
                }
                None => (&line[1..], line[..1].parse().unwrap()),
            };
            let name = names[code];
            assert!(value < 1 << vcd.widths[name], "{line} fits");
            vcd.changes.get_mut(name).unwrap().push((time.expect("a time before a value"), value));
        }
        assert!(vcd.changes.values().all(|changes| !changes.is_empty()), "every signal has a first value");
        vcd
    }

    /// The value of a signal in a cycle.
    fn at(&self, name: &str, cycle: i64) -> u64 {
        let changes = &self.changes[name];
        changes[changes.partition_point(|change| change.0 <= cycle) - 1].1
    }

    /// The first cycle from `from` on in which a signal becomes `value`.
    fn becomes(&self, name: &str, value: u64, from: i64) -> Option<i64> {
        self.changes[name].iter().find(|change| change.0 >= from && change.1 == value).map(|change| change.0)
    }
}

fn waveform(file: &str, line: &str) -> Vcd {
    let path = Path::new(env!("CARGO_TARGET_TMPDIR")).join(file);
    let mut station = Command::new(env!("CARGO_BIN_EXE_station"));
    let ran = station.args(line.split_whitespace()).arg("--vcd").arg(&path).output().expect("the program runs");
    assert!(ran.status.success(), "{}", String::from_utf8_lossy(&ran.stderr));
    Vcd::read(&std::fs::read_to_string(&path).expect("a waveform"))
}

/// Also in the table: a row has the cycles of its last two frames, that of the last digit as the flag times of the chip
/// have it, and the laps of Timer 1 up to there, one in three cycles.
#[test]
fn every_frame_is_found() {
    let tags = ["271828182845904", "314159265358979"];
    let csv = Path::new(env!("CARGO_TARGET_TMPDIR")).join("frames.csv");
    let line = format!("--gap 0.3 --stations 1 --tag {} {} --seed 3 --csv {}", tags[0], tags[1], csv.display());
    let vcd = waveform("frames.vcd", &line);
    let bytes = tags.iter().flat_map(|tag| tag.bytes().chain([b'\r']));
    let mut now = 0;
    let mut outvoted = 0;
    let mut starts = Vec::new();
    for byte in bytes {
        let start = vcd.becomes("RXD", 0, now).expect("a start bit");
        assert_eq!(vcd.at("RXD", start - 1), 1);
        assert_eq!(vcd.at("receive_position", start - 1), 0, "the receiver rests before the start bit");
        let found = vcd.becomes("receive_position", 1, start).expect("the start is found");
        assert!((0..TICK).contains(&(found - start)), "by the first tick in it");
        let mut bits = Vec::new();
        for bit in 0..10 {
            assert_eq!(vcd.at("receive_position", found + bit * BIT), bit as u64 + 1);
            let samples: Vec<u64> = [7, 8, 9]
                .iter()
                .map(|&count| {
                    let cycle = vcd.becomes("receive_counter", count, found + bit * BIT).expect("a sample");
                    assert_eq!(cycle, found + bit * BIT + count as i64 * TICK);
                    let into_bit = cycle - start - bit * BIT;
                    assert!((BIT / 2 - TICK..BIT / 2 + 2 * TICK).contains(&into_bit), "in the middle of the bit");
                    vcd.at("RXD", cycle)
                })
                .collect();
            let ones = samples.iter().sum::<u64>();
            outvoted += u64::from(ones == 1 || ones == 2);
            bits.push(u64::from(ones >= 2));
        }
        assert_eq!((bits[0], bits[9]), (0, 1), "start and stop bit");
        let value: u64 = (0..8).map(|bit| bits[bit + 1] << bit).sum();
        assert_eq!(value, u64::from(byte));

        let last_sample = found + 9 * BIT + 9 * TICK;
        assert_eq!(vcd.becomes("RI", 1, start), Some(last_sample), "RI rises with the last sample of the stop bit");
        assert_eq!(vcd.at("SBUF", last_sample), value);
        assert_eq!(vcd.at("receive_position", last_sample), 0);
        assert_eq!(vcd.becomes("RI", 0, last_sample), Some(last_sample + 2), "cleared once the interrupt is taken");
        starts.push(start);
        now = last_sample + 1;
    }
    assert!(outvoted > 0, "some sample is outvoted");
    let rises: Vec<i64> = vcd.changes["RI"].iter().filter(|change| change.1 == 1).map(|change| change.0).collect();
    assert_eq!(rises.len(), 32);
    let csv = std::fs::read_to_string(&csv).expect("a table");
    let rows: Vec<Vec<&str>> = csv.lines().skip(1).map(|row| row.split(',').collect()).collect();
    assert_eq!(rows.len(), 2);
    for (row, rises) in rows.iter().zip(rises.chunks(16)) {
        assert_eq!([row[6], row[1], row[7]].map(str::to_string), [rises[14], rises[15], rises[15] / 3].map(|n| n.to_string()));
    }
    assert!(starts[16] - starts[15] > 276_480, "the gap lies between the tags");
}

#[test]
fn the_rest_of_the_chip() {
    let vcd = waveform("rest.vcd", "--gap 0.01 --stations 3 --tags 3 --noise 0");
    assert_eq!(vcd.changes.len(), 28);
    let of_the_chip = ["INT0", "INT1", "T0", "T1", "T2", "T2EX", "line", "TI", "TF0", "IE0", "IE1", "TF2", "EXF2", "send_position"];
    for still in of_the_chip.into_iter().chain(["GATE1", "GATE2", "OUT2"]) {
        assert_eq!(vcd.changes[still].len(), 1, "{still} never changes");
    }
    assert_eq!(vcd.at("line", 1 << 30), 1);
    assert_eq!(vcd.at("TF1", 1 << 30), 1);
    assert!(vcd.changes["send_counter"].len() > 100, "the send counter runs at rest too");
    assert_eq!(vcd.changes["RI"].iter().filter(|change| change.1 == 1).count(), 16, "station 1 alone");
}

/// Counter 0 flashes the lamp every 4,608 cycles while a fish is in the tunnel, each time for one; the output of counter 1 is high once the
/// limit of a tag is over, and falls with the first byte of the next.
#[test]
fn the_82c53() {
    const FLASH: i64 = 4_608;
    let vcd = waveform("interval.vcd", "--gap 0.03 --stations 2 --tags 6 --seed 4 --vcd-station 2");
    let [rises, falls] = [1, 0].map(|level| {
        let changes = vcd.changes["GATE0"].iter().filter(|change| change.1 == level);
        changes.map(|change| change.0).collect::<Vec<i64>>()
    });
    assert_eq!((rises.len(), falls.len()), (3, 3), "low in the lead of each tag, high from its first frame on");
    let starts: Vec<i64> = vcd.changes["RXD"].iter().filter(|change| change.1 == 0).map(|change| change.0).collect();
    let mut flashes = 0;
    for (tag, &rise) in rises.iter().enumerate() {
        let end = falls.get(tag + 1).copied().unwrap_or(i64::MAX);
        assert!(starts.iter().any(|start| (rise..rise + 2 * BIT).contains(start)), "a start bit within two bits");
        assert_eq!(vcd.at("OUT0", rise - 1), 1);
        let low: Vec<i64> = vcd.changes["OUT0"].iter().filter(|c| c.1 == 0 && (rise..end).contains(&c.0)).map(|c| c.0).collect();
        assert_eq!(low, [1, 2, 3].map(|flash| rise + flash * FLASH - 1));
        assert!(low.iter().all(|&cycle| vcd.at("OUT0", cycle + 1) == 1));
        flashes += low.len();

        let first = vcd.becomes("RI", 1, rise).expect("the first byte");
        assert_eq!(vcd.at("OUT1", first), u64::from(tag > 0), "the limit of the tag before is over");
        assert_eq!(vcd.at("OUT1", first + 2), 0, "it starts once the interrupt is taken");
    }
    assert_eq!(vcd.changes["OUT0"].iter().filter(|change| change.1 == 0).count(), flashes, "no flash without a fish");
}

/// A station without an 82C53.
#[test]
fn another_station() {
    let vcd = waveform("another.vcd", "--gap 0.01 --stations 3 --tags 6 --noise 0 --vcd-station 3");
    assert_eq!(vcd.changes.len(), 22);
    assert_eq!(vcd.changes["RI"].iter().filter(|change| change.1 == 1).count(), 32, "station 3 alone");
}
