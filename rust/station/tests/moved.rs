//! Runs that are saved in the middle of a frame and gone on from: the same tags, cycle numbers, laps, rounds and CSV as without the move;
//! what is in the file; files that are refused; and that a save which fails leaves the old file.
use c51::{Board, Device, CHECKPOINT_52};
use station::run::Run;
use std::fs;
use std::path::{Path, PathBuf};
use std::process::{Command, Output};

fn station(line: &str) -> Output {
    Command::new(env!("CARGO_BIN_EXE_station")).args(line.split_whitespace()).output().expect("the program runs")
}

fn text(bytes: &[u8]) -> String {
    String::from_utf8(bytes.to_vec()).expect("text")
}

/// An empty folder for one test.
fn folder(name: &str) -> PathBuf {
    let folder = Path::new(env!("CARGO_TARGET_TMPDIR")).join(name);
    let _ = fs::remove_dir_all(&folder);
    fs::create_dir_all(&folder).expect("a folder");
    folder
}

fn names(folder: &Path) -> Vec<String> {
    let mut names: Vec<String> =
        fs::read_dir(folder).unwrap().map(|entry| entry.unwrap().file_name().into_string().unwrap()).collect();
    names.sort();
    names
}

/// What a run prints and its CSV; it ends with this status.
fn printed(line: &str, csv: &Path, status: i32) -> (String, String) {
    let ran = station(&format!("{line} --csv {}", csv.display()));
    assert_eq!(ran.status.code(), Some(status), "{line}: {}", text(&ran.stderr));
    (text(&ran.stdout), fs::read_to_string(csv).expect("a table"))
}

/// Runs, with their exit status: with an 82C53 and without, one station and many, chosen tags, no noise, noise that wins, and gaps shorter
/// than a bit.
const RUNS: [(&str, u64, i32); 6] = [
    ("--stations 3 --tags 7 --gap 0.01", 7, 0),
    ("--stations 1 --tags 3 --gap 0.3 --seed 5 --noise 0", 3, 0),
    ("--tags 14 --gap 0.002 --seed 9", 14, 0),
    ("--stations 1000 --tags 3 --gap 2", 3, 0),
    ("--gap 0.01 --stations 2 --tag 123456789012345 000000000000000 999999999999999", 3, 0),
    ("--stations 2 --tags 12 --gap 0.0001 --noise 3 --seed 2", 12, 1),
];

/// After each number of tags.
#[test]
fn a_moved_run_gives_what_it_would_have_given() {
    let folder = folder("moved");
    let [file, csv] = ["run", "tags.csv"].map(|name| folder.join(name));
    for (line, tags, status) in RUNS {
        let whole = printed(line, &csv, status);
        for after in 0..tags {
            let saved = station(&format!("{line} --save {} --after {after}", file.display()));
            assert!(saved.status.code().is_some_and(|code| code <= status), "{line}: {}", text(&saved.stderr));
            let said = format!("{after} of {tags} tags, saved to {} in the middle of a frame of station ", file.display());
            assert!(text(&saved.stderr).contains(&said), "{}", text(&saved.stderr));
            assert!(text(&saved.stdout).contains(&format!("\n{after} tags, ")), "{}", text(&saved.stdout));
            assert_eq!(printed(&format!("--load {}", file.display()), &csv, status), whole, "{line} after {after}");
        }
    }
    assert_eq!(names(&folder), ["run", "tags.csv"]);
}

/// From one computer to the next, time and again; a run that is loaded and saved at once gives the same file.
#[test]
fn a_run_that_moves_often() {
    let folder = folder("often");
    let [file, again, csv] = ["run", "again", "tags.csv"].map(|name| folder.join(name));
    let line = "--stations 3 --tags 8 --gap 0.02 --seed 11";
    let whole = printed(line, &csv, 0);
    let mut from = line.to_string();
    for after in [0, 1, 4, 5, 7] {
        assert!(station(&format!("{from} --save {} --after {after}", file.display())).status.success());
        from = format!("--load {}", file.display());
        assert!(station(&format!("{from} --save {} --after {after}", again.display())).status.success());
        assert_eq!(fs::read(&file).unwrap(), fs::read(&again).unwrap(), "after {after}");
    }
    assert_eq!(printed(&from, &csv, 0), whole);
}

/// The checkpoints of a saved run, one for each station.
fn chips(file: &Path) -> Vec<Device> {
    let text = fs::read_to_string(file).expect("a saved run");
    let chips = text.lines().filter_map(|line| line.strip_prefix("chip "));
    let bytes = |digits: &str| -> Vec<u8> {
        (0..digits.len()).step_by(2).map(|at| u8::from_str_radix(&digits[at..at + 2], 16).expect("hexadecimal")).collect()
    };
    chips
        .map(|digits| {
            let file = bytes(digits);
            assert_eq!(file.len(), CHECKPOINT_52);
            let device = Device::load(&file).expect("a checkpoint");
            assert_eq!(device.save().as_deref(), Ok(&file[..]));
            device
        })
        .collect()
}

/// The station whose tag is under way is receiving: a frame that began before the move and ends after it, its votes taken in part. The
/// others rest. The file's own program reads the same chips.
#[test]
fn a_run_is_saved_in_the_middle_of_a_frame() {
    let folder = folder("frame");
    let file = folder.join("run");
    let mut with_votes = 0;
    for after in 0..12 {
        let ran = station(&format!("--stations 5 --tags 12 --gap 0.01 --seed 4 --save {} --after {after}", file.display()));
        assert!(ran.status.success());
        let chips = chips(&file);
        assert_eq!(chips.len(), 5);
        for (place, chip) in chips.iter().enumerate() {
            let receive = chip.serial.receive;
            match place == after % 5 {
                true => assert!((5..=7).contains(&receive.position), "after {after}: {receive:?}"),
                false => assert_eq!(receive.position, 0, "after {after}, station {}", place + 1),
            }
            with_votes += u32::from(receive.position > 0 && (7..9).contains(&receive.counter));
        }
        let run: Run<Board> = Run::load(&fs::read(&file).unwrap()).expect("a saved run");
        assert_eq!(run.stations.iter().map(|station| station.reader.chips.device).collect::<Vec<Device>>(), chips);
        assert_eq!((run.rows.len(), run.under_way.is_some()), (after, true));
    }
    assert!(with_votes > 6, "{with_votes} of 12 between the samples of a bit");
}

/// A waveform goes up to the move and from there on, and alters nothing.
#[test]
fn waveforms_of_a_moved_run() {
    let folder = folder("waveforms");
    let [file, vcd, csv] = ["run", "station.vcd", "tags.csv"].map(|name| folder.join(name));
    let line = "--stations 2 --tags 4 --gap 0.01";
    let whole = printed(line, &csv, 0);
    let times = |vcd: &Path| -> Vec<u128> {
        let text = fs::read_to_string(vcd).expect("a waveform");
        text.lines().filter_map(|line| line.strip_prefix('#')).map(|time| time.parse().expect("a time")).collect()
    };
    for drawn in [1, 2] {
        let draw = format!("--vcd {} --vcd-station {drawn}", vcd.display());
        assert!(station(&format!("{line} {draw} --save {} --after 2", file.display())).status.success());
        let before = times(&vcd);
        assert_eq!(printed(&format!("--load {} {draw}", file.display()), &csv, 0), whole, "station {drawn}");
        let after = times(&vcd);
        assert!(before.is_sorted() && after.is_sorted() && before.last() < after.first(), "station {drawn}");
        // station 1 is in the middle of its second tag, station 2 is past its first
        assert_eq!(before.len() > after.len(), drawn == 1, "{} and {} changes", before.len(), after.len());
    }
}

/// What is no saved run: the exit status is 2, nothing is printed, and neither the CSV nor the file that would be written is touched.
#[test]
fn a_file_that_is_refused() {
    let folder = folder("refused");
    let [file, good, csv] = ["run", "good", "tags.csv"].map(|name| folder.join(name));
    fs::write(&csv, "the old table").unwrap();
    assert!(station(&format!("--tags 3 --gap 0.01 --save {} --after 1", good.display())).status.success());
    let saved = fs::read(&good).unwrap();
    let mut damaged = saved.clone();
    damaged[200] ^= 1;
    for (bytes, why) in [
        (&b""[..], "it is no saved run of stations"),
        (b"tags\n", "it is no saved run of stations"),
        (b"c51-station-run 1\n", "it is a saved run of another version than 2, or damaged"),
        (&saved[..saved.len() - 1], "it is damaged or cut short"),
        (&saved[..saved.len() / 2], "it is damaged or cut short"),
        (&damaged, "it is damaged or cut short"),
    ] {
        fs::write(&file, bytes).unwrap();
        let ran = station(&format!("--load {0} --save {1} --after 2 --csv {2}", file.display(), good.display(), csv.display()));
        assert_eq!((ran.status.code(), text(&ran.stdout).as_str()), (Some(2), ""));
        assert_eq!(text(&ran.stderr), format!("station: cannot go on from {}: {why}\n", file.display()));
        assert_eq!((fs::read(&file).unwrap(), fs::read(&good).unwrap()), (bytes.to_vec(), saved.clone()));
        assert_eq!(fs::read_to_string(&csv).unwrap(), "the old table");
    }
    for (name, why) in [("no-such-file", "cannot read"), (".", "cannot read")] {
        let ran = station(&format!("--load {}", folder.join(name).display()));
        assert_eq!(ran.status.code(), Some(2));
        assert!(text(&ran.stderr).starts_with(&format!("station: {why} ")), "{}", text(&ran.stderr));
    }
    for (line, why) in [
        ("--save x --after 0", "--after 0 is past: 1 of 3 tags are read"),
        ("--save x --after 3", "--after 3 leaves none of 3 tags to be saved in"),
        ("--vcd-station 12", "--vcd-station 12 is not one of the 11 stations"),
    ] {
        let ran = station(&format!("--load {} {line} --csv {}", good.display(), csv.display()));
        assert_eq!((ran.status.code(), text(&ran.stdout).as_str()), (Some(2), ""), "{line}");
        assert!(text(&ran.stderr).contains(why), "{line}: {}", text(&ran.stderr));
    }
    assert_eq!((fs::read_to_string(&csv).unwrap().as_str(), names(&folder).len()), ("the old table", 3));
}

/// The program under a limit of the size of a file, in blocks of 512 bytes: past it the system ends the program, or, where that signal
/// is held off, refuses the write.
fn limited(held_off: bool, line: &str) -> Output {
    let hold_off = if held_off { "trap '' XFSZ; " } else { "" };
    let command = format!("{hold_off}ulimit -f 2; exec \"$0\" {line}");
    Command::new("sh").args(["-c", &command, env!("CARGO_BIN_EXE_station")]).output().expect("a shell")
}

/// In the middle of the write the program is ended, or the write is refused: the old file is as it was. Where it is refused, the tags so
/// far are printed all the same, and nothing is left beside the old file.
#[test]
fn a_save_that_fails_leaves_the_old_file() {
    let folder = folder("full");
    let file = folder.join("run");
    let line = |seed: u64| format!("--tags 5 --gap 0.01 --seed {seed} --save {} --after 3", file.display());
    assert!(station(&line(1)).status.success());
    let old = fs::read(&file).unwrap();
    assert!(old.len() > 2 * 512, "more than the limit");

    let ran = limited(true, &line(2));
    assert_eq!(ran.status.code(), Some(2), "{}", text(&ran.stderr));
    assert!(text(&ran.stderr).contains(&format!("station: cannot write {}: ", file.display())), "{}", text(&ran.stderr));
    assert!(text(&ran.stdout).contains("\n3 tags, 45 digits, all as sent"), "{}", text(&ran.stdout));
    assert_eq!((fs::read(&file).unwrap(), names(&folder)), (old.clone(), vec!["run".to_string()]));

    let ran = limited(false, &line(2));
    assert_eq!(ran.status.code(), None, "ended by the system");
    assert_eq!(fs::read(&file).unwrap(), old);
    let parts: Vec<String> = names(&folder).into_iter().filter(|name| name != "run").collect();
    assert!(parts.iter().all(|name| name.starts_with("run.") && name.ends_with(".part")), "{parts:?}");

    assert!(station(&line(2)).status.success());
    assert_ne!(fs::read(&file).unwrap(), old);
}

/// A file that cannot be written is told before the run.
#[test]
fn a_save_that_cannot_be_written() {
    let folder = folder("unwritable");
    fs::create_dir(folder.join("inside")).unwrap();
    for file in [folder.join("inside"), folder.join("no-such-folder/run"), PathBuf::from("/dev/null")] {
        let ran = station(&format!("--tags 3 --gap 1000 --save {} --after 2", file.display()));
        assert_eq!((ran.status.code(), text(&ran.stdout).as_str()), (Some(2), ""));
        assert!(text(&ran.stderr).starts_with(&format!("station: cannot write {}: ", file.display())), "{}", text(&ran.stderr));
    }
    assert_eq!(names(&folder), ["inside"]);
}
