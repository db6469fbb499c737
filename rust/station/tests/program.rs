//! The program: its table, CSV, progress, exit statuses and messages.
use std::path::{Path, PathBuf};
use std::process::{Command, Output};

fn station(line: &str) -> Output {
    Command::new(env!("CARGO_BIN_EXE_station")).args(line.split_whitespace()).output().expect("the program runs")
}

fn text(bytes: &[u8]) -> String {
    String::from_utf8(bytes.to_vec()).expect("text")
}

fn scratch(name: &str) -> PathBuf {
    Path::new(env!("CARGO_TARGET_TMPDIR")).join(name)
}

#[test]
fn eleven_stations_read_what_was_sent() {
    let ran = station("--tags 22 --gap 0.01");
    let out = text(&ran.stdout);
    assert!(ran.status.success(), "{out}");
    let rows: Vec<Vec<&str>> = out.lines().skip(1).take(22).map(|line| line.split_whitespace().collect()).collect();
    for number in 1..=11 {
        assert_eq!(rows.iter().filter(|row| row[0] == number.to_string()).count(), 2, "station {number}");
    }
    let cycles: Vec<u64> = rows.iter().map(|row| row[1].parse().unwrap()).collect();
    assert!(cycles.is_sorted() && cycles[0] > 9_216 + 16 * 960 - 96);
    assert!(rows.iter().all(|row| row[3].len() == 15 && row[7..] == ["as", "sent"]));
    for (row, cycle) in rows.iter().zip(cycles) {
        // a pause of less than two bits and the frame of the carriage return, each RI found by a tick
        let before = cycle - row[6].parse::<u64>().expect("the cycle of the last digit");
        assert!((960 - 6..960 + 2 * 96 + 6).contains(&before), "{row:?}");
    }
    let noisy: u64 = rows.iter().map(|row| row[4].parse::<u64>().unwrap()).sum();
    assert!(noisy > 20);
    let summary = format!("22 tags, 330 digits, all as sent; {noisy} noisy samples; woken from idle 352 times");
    assert_eq!(out.lines().last(), Some(summary.as_str()));
    assert_eq!(out.lines().count(), 1 + 22 + 1 + 11 + 2);
    let progress = text(&ran.stderr);
    assert!(progress.starts_with("3 of 22 tags,") && progress.contains("\n22 of 22 tags,"), "{progress}");
}

#[test]
fn the_csv_is_the_table() {
    let file = scratch("tags.csv");
    let ran = station(&format!("--tags 5 --gap 0.02 --stations 2 --csv {}", file.display()));
    assert!(ran.status.success());
    let table = text(&ran.stdout);
    let csv = std::fs::read_to_string(&file).unwrap();
    let header = "station,cycle,seconds,tag,noisy_samples,ms_by_82c53,last_digit_cycle,timer1_laps,verdict";
    assert_eq!(csv.lines().next(), Some(header));
    assert_eq!(csv.lines().count(), 6);
    for (row, line) in table.lines().skip(1).zip(csv.lines().skip(1)) {
        let mut fields: Vec<&str> = line.split([',', ' ']).collect();
        fields.remove(7); // the laps of Timer 1 up to the tag
        assert_eq!(row.split_whitespace().collect::<Vec<&str>>(), fields);
    }
}

/// Timer 1 laps every third cycle from reset on: up to a tag in a third of its cycles, in the run in a third of the
/// station's. It does so with an 82C53 and without, and a waveform, for which a station goes by single cycles, alters
/// nothing. The jumps take two rounds for each lap in which the line rests, and three in a tag. Only stations that were sent a
/// tag are listed.
#[test]
fn the_laps_of_timer_1_and_the_rounds() {
    for (line, stations) in [("--tags 7 --gap 0.05 --stations 3", 3), ("--tags 3 --gap 2 --stations 1000", 3)] {
        let [csv, vcd] = ["laps.csv", "laps.vcd"].map(scratch);
        let table = text(&station(&format!("{line} --csv {}", csv.display())).stdout);
        let rows = std::fs::read_to_string(&csv).unwrap();
        let rows: Vec<Vec<&str>> = rows.lines().skip(1).map(|row| row.split(',').collect()).collect();
        let number = |word: &str| word.parse::<u64>().expect("a number");
        let laps: Vec<Vec<&str>> =
            table.lines().skip(rows.len() + 2).take(stations).map(|line| line.split_whitespace().collect()).collect();
        let header = "station     Timer 1 laps     in seconds      jump rounds         a second";
        assert_eq!(table.lines().nth(rows.len() + 1), Some(header));
        assert_eq!(laps.iter().map(|line| number(line[0])).collect::<Vec<u64>>(), (1..=stations as u64).collect::<Vec<u64>>());
        assert_eq!(table.lines().count(), 1 + rows.len() + 1 + stations + 2);
        for row in &rows {
            assert_eq!(number(row[7]), number(row[1]) / 3, "{row:?}");
        }
        for line in &laps {
            let cycles = (line[2].parse::<f64>().expect("seconds") * 921_600.0).round() as u64;
            assert_eq!(number(line[1]), cycles / 3, "{line:?}");
            let last = rows.iter().filter(|row| row[0] == line[0]).map(|row| number(row[1])).max().expect("a tag");
            assert!((last..last + 2 * 96).contains(&cycles), "{line:?} to the end of the stop bit and a bit more");
            let tags = rows.iter().filter(|row| row[0] == line[0]).count() as u64;
            let in_tags = number(line[3]) - 2 * number(line[1]);
            // a third of 16 frames, each of 960 cycles less the rest of its stop bit, and a round here and there where a pin changes
            assert!((16 * 880 / 3..16 * 980 / 3).contains(&(in_tags / tags)), "{line:?}: {in_tags} rounds more in {tags} tags");
            let a_second = number(line[3]) as f64 / (cycles as f64 / 921_600.0);
            assert_eq!(line[4], format!("{a_second:.0}"), "{line:?}");
        }
        for drawn in 1..=stations {
            let ran = station(&format!("{line} --vcd {} --vcd-station {drawn}", vcd.display()));
            assert_eq!(text(&ran.stdout), table, "a waveform of station {drawn}");
        }
    }
}

#[test]
fn a_seed_repeats() {
    let first = station("--tags 4 --gap 0.01 --seed 5");
    assert_eq!(first.stdout, station("--tags 4 --gap 0.01 --seed 5").stdout);
    assert_ne!(first.stdout, station("--tags 4 --gap 0.01 --seed 6").stdout);
}

#[test]
fn chosen_tags() {
    let ran = station("--gap 0.01 --stations 1 --tag 123456789012345 000000000000000 --noise 0");
    let out = text(&ran.stdout);
    let tags: Vec<&str> = out.lines().skip(1).take(2).map(|line| line.split_whitespace().nth(3).unwrap()).collect();
    assert_eq!(tags, ["123456789012345", "000000000000000"]);
    assert!(out.ends_with("2 tags, 30 digits, all as sent; 0 noisy samples; woken from idle 32 times\n"));
}

/// The rows of a table as words: from its first line to the laps of the stations.
fn rows(table: &str) -> Vec<Vec<&str>> {
    table.lines().skip(1).take_while(|line| !line.starts_with("station")).map(|line| line.split_whitespace().collect()).collect()
}

fn milliseconds(time: &str) -> f64 {
    time.parse().expect("milliseconds")
}

/// Two stations have an 82C53, whatever the number of stations: 15 frames and pauses of less than two bits are 15.625 to 18.75 ms.
#[test]
fn tags_are_timed_where_there_is_an_82c53() {
    for (line, stations) in [
        ("--tags 33 --gap 0.01", "stations 1 and 2"),
        ("--tags 5 --gap 2 --stations 1", "station 1"),
        ("--stations 40", "stations 1 and 2"),
    ] {
        let out = text(&station(line).stdout);
        let mut times = Vec::new();
        for row in rows(&out) {
            match row[0] {
                "1" | "2" => times.push(row[5]),
                _ => assert_eq!(row[5], "-", "{row:?}"),
            }
        }
        times.sort_by(|a, b| milliseconds(a).total_cmp(&milliseconds(b)));
        assert!(times.iter().all(|time| (15.6..18.8).contains(&milliseconds(time))), "{times:?}");
        let [least, .., most] = times[..] else { panic!("{out}") };
        let said = format!("by the 82C53 of {stations} a tag took {least} to {most} ms, of 20.000 ms allowed");
        assert_eq!(out.lines().rev().nth(1), Some(said.as_str()));
    }
}

/// Where noise spoils the carriage return there is no time, and the table says so. The next tag is timed from its own first
/// byte, also where it begins within the limit, and where a byte is received between the two.
#[test]
fn a_tag_that_has_no_end() {
    for line in ["--stations 2 --gap 0.03", "--stations 1 --gap 0.0001", "--stations 1 --gap 0.003"] {
        let out = text(&station(&format!("{line} --tags 300 --noise 3 --seed 2")).stdout);
        let rows = rows(&out);
        let (open, timed): (Vec<&Vec<&str>>, Vec<&Vec<&str>>) = rows.iter().partition(|row| row[5] == "no-end");
        assert_eq!((open.len() + timed.len(), open.is_empty()), (300, false), "{out}");
        assert!(open.iter().all(|row| row[3].ends_with("...")), "{out}");
        assert!(timed.iter().any(|row| row[7..] == ["as", "sent"]), "{out}");
        assert!(timed.iter().all(|row| (15.6..18.8).contains(&milliseconds(row[5]))), "{out}");
        // a last digit where the tag that is shown ends with one
        assert!(rows.iter().all(|row| row[3].ends_with(|c: char| c.is_ascii_digit()) == (row[6] != "-")), "{out}");
        assert!(timed.iter().any(|row| row[6] == "-"), "{out}");
    }
}

#[test]
fn a_wrong_digit_is_found() {
    let ran = station("--tags 11 --gap 0.01 --noise 2");
    assert_eq!(ran.status.code(), Some(1));
    assert!(text(&ran.stdout).contains("WRONG: sent "));
    assert!(text(&ran.stderr).ends_with("station: a tag is not the one sent\n"));
}

#[test]
fn bad_command_lines() {
    let lines = [
        ("--tag 1234", "a tag has 15 digits, not '1234'"),
        ("--tag 12345678901234x", "a tag has 15 digits, not '12345678901234x'"),
        ("--gap 0", "--gap wants seconds"),
        ("--frequency 12", "unknown option '--frequency'"),
        ("--tags", "--tags wants a value"),
        ("--stations 0", "--stations wants a whole number"),
        ("--vcd x.vcd --vcd-station 12", "--vcd-station 12 is not one of the 11 stations"),
    ];
    for (line, message) in lines {
        let ran = station(line);
        assert_eq!(ran.status.code(), Some(2), "{line}");
        let said = text(&ran.stderr);
        assert!(said.contains(message) && said.contains("usage: station"), "{line}: {said}");
        assert!(ran.stdout.is_empty());
    }
    let ran = station(&format!("--csv {}", scratch("no-such-folder/tags.csv").display()));
    assert_eq!(ran.status.code(), Some(2));
    assert!(text(&ran.stderr).contains("cannot write"));
}

/// Found, none, and numbers outside their limits: what is printed, and the exit status.
#[test]
fn a_speed() {
    let ran = station("--speed 11059200 9600 50");
    assert_eq!((ran.status.code(), text(&ran.stderr).as_str()), (Some(0), ""));
    let out = text(&ran.stdout);
    assert!(out.contains("\nSMOD       0 (") && out.contains("\nTH1        FD hex, 253 decimal\n"), "{out}");
    assert!(out.starts_with("crystal    11,059,200 Hz (11.0592 MHz)\n") && out.ends_with("\nerror      exact\n"), "{out}");

    let ran = station("--speed 12000000 9600 699");
    assert_eq!((ran.status.code(), text(&ran.stderr).as_str()), (Some(1), ""));
    let out = text(&ran.stdout);
    assert!(out.contains("\nNONE       ") && out.contains("\nerror      -6.9940 %, too slow\n"), "{out}");
    assert!(out.ends_with("\ntolerance  700 (7.00 %) would take it\n"), "{out}");
    let ran = station("--speed 12000000 9600 700");
    assert_eq!(ran.status.code(), Some(0));
    assert!(!text(&ran.stdout).contains("NONE"));

    for (line, message) in [
        ("--speed 40000001 9600 50", "CRYSTAL of --speed is a whole number of Hz from 1 to 40,000,000, not '40000001'"),
        ("--speed 11059200 0 50", "RATE of --speed is a whole number of bits a second from 1 to 1,000,000, not '0'"),
        ("--speed 11059200 9600 10001", "TOLERANCE of --speed is a whole number of hundredths of a percent from 0 to 10,000"),
        ("--speed 11059200 9600", "--speed wants three whole numbers, CRYSTAL RATE TOLERANCE, not 2"),
        ("--speed 11059200 9600 50 --tags 3", "--speed is used alone, not with '--tags'"),
    ] {
        let ran = station(line);
        let said = text(&ran.stderr);
        assert_eq!((ran.status.code(), ran.stdout.as_slice()), (Some(2), &b""[..]), "{line}");
        assert!(said.contains(message) && said.contains("usage: station"), "{line}: {said}");
    }
}

#[test]
fn help() {
    let ran = station("--help");
    assert!(ran.status.success());
    assert!(text(&ran.stdout).starts_with("usage: station"));
}
