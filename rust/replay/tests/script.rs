//! Whole scripts through the library: lines of any bytes, any cut of the reading, long lists, devices that move, and what fails.
use random::Rng;
use replay::script::{replay, Failure};
use std::cell::RefCell;
use std::io::{Error, ErrorKind, Read, Result, Write};

fn answers(script: &[u8]) -> String {
    let mut out = Vec::new();
    replay(script, &mut out).expect("a script that can be read");
    String::from_utf8(out).expect("text")
}

/// The device after reset, as a dump has it.
const RESET: &str =
    "52 0 0 0 0 0 0 0 0 0 0 0 0 0 0 0 0 0 0 0 0 0 0 0 1 0 0 0 0 0 0 0 0 0 1 1 1 1 1 1 1 0 0 0 0 0 0 0 0 0 0 0 0 0 0 0 0";
const RESET_51: &str =
    "51 0 0 0 0 0 0 0 0 0 0 0 0 0 0 0 0 0 0 0 0 0 0 0 1 0 0 0 0 0 0 0 0 0 1 1 1 1 1 1 1 0 0 0 0 0 0 0 0 0 0 0 0 0 0 0 0";
const ZEROS: &str =
    "0 0 0 0 0 0 0 0 0 0 0 0 0 0 0 0 0 0 0 0 0 0 0 0 0 0 0 0 0 0 0 0 0 0 0 0 0 0 0 0 0 0 0 0 0 0 0 0 0 0 0 0 0 0 0 0 0";

/// The checkpoint of kind 51 after reset, in hexadecimal: registers, hidden fields and levels, flag times.
macro_rules! reset_file {
    () => {
        concat!(
            "0b8700880089008a008b008c008d0098009900a800b800",
            "1900000000000000000000000000000000000000000000000000000000000000000000000000000000",
            "00000000000000000000000000000000010000000000000000000000000000000000000000000000",
            "00000000000000000000000000000000000000000000000000000000000000000000000000000000",
            "00000000000000000000000000000000000000000000000001000000000000000100000000000000",
            "01000000000000000100000000000000010000000000000001000000000000000100000000000000",
            "08000000000000000000000000000000000000000000000000000000000000000000000000",
            "000000000000000000000000000000000000000000000000000000000000000000000000"
        )
    };
}

/// Every form of a line, with its answer: Timer 0 overflows in idle, its interrupt is taken, and power-down follows, in which counter 0
/// of the 82C53 goes on, in mode 2 with a count of 257. A speed is asked for on the way, and before all else; checkpoints are saved
/// and loaded before the first reset and after the last one.
const LINES: [(&str, &str); 95] = [
    ("B 11059200 9600 0", "0 0 253 9600"),
    ("D", ZEROS),
    ("O", "1 0"),
    ("P", "1 0"),
    ("Q", "15 0"),
    ("Q 0b87", "15 0"),
    ("Q 0c", "16 0"),
    ("Q 0B8710", "17 0"),
    ("Q 0b8", "?"),
    ("Q 0b 87", "?"),
    ("P 0", "?"),
    ("R 52", "0 0"),
    ("D", RESET),
    ("W 137 1", "0 0"),
    ("W 140 255", "0 0"),
    ("W 0138 254", "0 0"),
    ("W 168 130", "0 0"),
    ("W 136 16", "0 0"),
    ("W 135 1", "0 0"),
    ("r 138", "0 254"),
    ("r 0", "3 0"),
    ("L 127 1", "0 none"),
    ("L 127 1099511627776", "0 2"),
    ("Z 127 2", "0 none"),
    ("Z 127 1099511627776", "0 3"),
    ("Z 127 1099511627777", "5 0"),
    ("Z 127", "?"),
    ("C 127", "0 1"),
    ("C 128", "4 0"),
    ("J 127 1", "0 0 1 0 0 1"),
    ("B 12000000 9600 50", "0 none"),
    ("B 12000000 9600 700", "0 1 249 8928"),
    ("B 12000000 9600 10001", "14 0 0 0"),
    ("B 1 1 010000", "0 1 255 0"),
    ("B 12000000 9600", "?"),
    ("J  127 1", "?"),
    ("O", "0 none"),
    ("T 2 2130706433 2130706432", "8 0 0 0 0"),
    ("T 1 2130706433", "0 0 0 0 0"),
    ("O", "0 11"),
    ("Z 127 0", "0 0"),
    ("K", "0 11"),
    ("K", "6 0"),
    ("I", "0 0"),
    ("D", "52 0 16 1 1 0 0 0 0 0 130 0 0 0 0 0 0 0 0 0 0 0 0 0 1 0 0 0 0 0 0 0 0 3 1 1 1 1 1 1 1 1 2 0 0 0 0 0 0 0 0 0 0 0 0 0 0"),
    ("W 135 2", "0 0"),
    ("W 135 0", "10 0"),
    ("Z 127 1", "0 none"),
    ("J 127 1", "0 0 0 0 0 1"),
    ("D", "52 2 16 1 1 0 0 0 0 0 130 0 0 0 0 0 0 0 0 0 0 0 0 0 1 0 0 0 0 0 0 0 0 3 1 1 1 1 1 1 1 1 2 0 0 0 0 0 0 0 0 0 0 0 0 0 0"),
    ("VC 7", "0 0"),
    ("VW 3 52", "0 0"),
    ("VW 0 1", "0 0"),
    ("VW 0 0", "13 0"),
    ("VW 0 1", "0 0"),
    ("VW 3 50", "11 0"),
    ("VW 3 194", "12 0"),
    ("VW 4 0", "12 0"),
    ("VC 1", "0 1"),
    ("Vr 0", "0 1"),
    ("Vr 00", "0 1"),
    ("Vr 3", "12 0"),
    ("VJ 1 255", "0 1"),
    ("VC 1", "0 0"),
    ("VC 8", "4 0"),
    ("VJ 8 0", "4 0"),
    ("VJ 7 1099511627777", "5 0"),
    ("VJ 7", "?"),
    ("VB 127 1", "0 1 1"),
    ("VB 128 1", "4 0 0"),
    ("VX 127 1 256", "0 0 0 0 0 1 0"),
    ("VX 127 8 1", "4 0 0 0 0 0 0"),
    ("VX 127 7 1099511627777", "5 0 0 0 0 0 0"),
    ("VX 127 1 257000000000", "0 0 0 0 0 1 0"),
    ("V R", "?"),
    ("B 18446744073709551615 0 18446744073709551615", "14 0 0 0"),
    ("J 127 1", "0 0 0 0 0 1"),
    ("D", "52 2 16 1 1 0 0 0 0 0 130 0 0 0 0 0 0 0 0 0 0 0 0 0 1 0 0 0 0 0 0 0 0 3 1 1 1 1 1 1 1 1 2 0 0 0 0 0 0 0 0 0 0 0 0 0 0"),
    ("R 53", "2 0"),
    ("VB 127 7", "1 0 0"),
    ("VX 127 7 1", "1 0 0 0 0 0 0"),
    ("J 127 1", "1 0 0 0 0 0"),
    ("B 4608 7 10000", "0 0 254 6"),
    ("VR", "0 0"),
    ("VC 1", "0 0"),
    ("R 51", "0 0"),
    ("P", concat!("0 ", reset_file!())),
    ("C 126", "0 1"),
    (concat!("Q ", reset_file!()), "0 0"),
    ("D", RESET_51),
    ("C 126", "0 1"),
    (concat!("Q ", reset_file!(), "00"), "15 0"),
    ("D", ZEROS),
    ("C 126", "1 0"),
    ("Vr 0", "0 0"),
];

fn script() -> Vec<u8> {
    LINES.map(|(line, _)| format!("{line}\n")).concat().into_bytes()
}

/// The answers to the first lines.
fn expected(lines: usize) -> String {
    let answer = |(number, (_, answer)): (usize, &(&str, &str))| match *answer {
        "?" => format!("? {}\n", number + 1),
        answer => format!("{answer}\n"),
    };
    LINES.iter().enumerate().take(lines).map(answer).collect()
}

#[test]
fn every_form_of_a_line() {
    assert_eq!(answers(&script()), expected(LINES.len()));
}

#[test]
fn a_refused_reset_leaves_the_record_of_zeros() {
    assert_eq!(answers(b"R 52\nR 53\nD\nR 51\nR 256\nr 136\n"), format!("0 0\n2 0\n{ZEROS}\n0 0\n? 5\n0 0\n"));
}

/// A load takes the place of the device, also of one that no call accepts, and leaves the 82C53; refused, it leaves the record of zeros,
/// which a reset or another load ends. Digits are read in either case, and a fault leaves the device.
#[test]
fn loads() {
    let file = reset_file!();
    let capitals = file.to_uppercase();
    let text = format!("VW 3 16\nVW 0 9\nVC 1\nQ {file}\nD\nR 53\nQ {capitals}\nD\nP\nVr 0\n");
    let dumps = format!("0 0\n{RESET_51}\n2 0\n0 0\n{RESET_51}\n0 {file}\n0 9\n");
    assert_eq!(answers(text.as_bytes()), format!("0 0\n0 0\n0 0\n{dumps}"));
    let shorter = &file[..file.len() - 2];
    let another = file.replacen("99", "9a", 1);
    let lacking = file.replacen("b800", "b820", 1);
    for (file, code) in [(shorter, 15), (&another, 16), (&lacking, 17), ("", 15)] {
        let text = format!("R 52\nQ {file}\nD\nP\nC 127\nR 52\nD\n");
        assert_eq!(answers(text.as_bytes()), format!("0 0\n{code} 0\n{ZEROS}\n1 0\n1 0\n0 0\n{RESET}\n"), "{file}");
    }
    for fault in [format!("Q {file}0"), format!("Q {file} "), format!("Q {file} 00"), format!("Q {shorter}0x"), "P 1".to_string()] {
        assert_eq!(answers(format!("R 52\n{fault}\nD\n").as_bytes()), format!("0 0\n? 2\n{RESET}\n"), "{fault}");
    }
}

/// A script that is cut anywhere, the device being saved there and loaded by another script, is answered as the whole one: Timer 1
/// clocks a byte that is sent and one that is received. Its calls are not of the 82C53, which a checkpoint does not have.
#[test]
fn a_device_that_moves() {
    let setup = ["R 52", "W 137 32", "W 141 253", "W 139 253", "W 152 80", "W 168 144", "W 136 64", "W 153 165"];
    let frame = ["J 126 96", "J 127 200", "C 126", "J 126 95", "T 2 2130706528 2113929312", "J 126 384", "J 127 100", "Z 127 96"];
    let served = ["J 127 60", "O", "K", "r 153", "W 152 80", "I", "L 127 5000", "J 127 900", "D"];
    let lines = [&setup[..], &frame, &served].concat();
    let whole = answers((lines.join("\n") + "\n").as_bytes());
    assert!(whole.contains("\n0 35\n"), "{whole}");
    for at in 1..lines.len() {
        let (first, second) = lines.split_at(at);
        let before = answers((first.join("\n") + "\nP\n").as_bytes());
        let (before, file) = before.trim_end().rsplit_once("\n0 ").expect("a checkpoint");
        let after = answers(format!("Q {file}\n{}\n", second.join("\n")).as_bytes());
        let after = after.strip_prefix("0 0\n").expect("a device");
        assert_eq!(format!("{before}\n{after}"), whole, "moved after {at} lines");
    }
}

/// Calls of the chip before and after a save and a load run on the same device, in their order.
#[test]
fn checkpoints_among_lists() {
    let text = "R 51\nC 126\nC 127\nP\nC 127\nr 138\nD\n";
    let saved = answers(text.as_bytes());
    let file = saved.lines().nth(3).and_then(|line| line.strip_prefix("0 ")).expect("a checkpoint");
    let moved = format!("R 52\nJ 127 99\nQ {file}\nC 127\nr 138\nD\nP\n");
    let answered = answers(moved.as_bytes());
    let after: Vec<&str> = saved.lines().skip(4).collect();
    assert_eq!(answered.lines().skip(3).take(3).collect::<Vec<&str>>(), after);
    assert!(after[2].contains(" 3 1 1 1 1 1 1 1 "), "cycle 3: {}", after[2]);
    assert_ne!(answered.lines().last().and_then(|line| line.strip_prefix("0 ")), Some(file), "a cycle on");
}

#[test]
fn a_record_that_is_put_is_not_judged() {
    let any = (1..=57).map(|n| n.to_string()).collect::<Vec<String>>().join(" ");
    let wide = |n: &str| any.replace(n, "256");
    let text = format!("S {any}\nD\nC 127\nD\nS {RESET}\nC 127\nS {any} 1\nS {}\nS {}\nr 137\n", wide("41"), wide("56"));
    assert_eq!(answers(text.as_bytes()), format!("0 0\n{any}\n1 0\n{any}\n0 0\n0 1\n? 7\n? 8\n? 9\n0 0\n"));
    // never with a number, and an ever of 2: refused by the calls; any number goes with ever
    for (last, code) in [("0 1", 1), ("2 0", 1), ("0 18446744073709551615", 1), ("1 18446744073709551615", 0), ("1 0", 0)] {
        let record = RESET.strip_suffix("0 0").expect("the pair of EXF2").to_string() + last;
        assert_eq!(answers(format!("S {record}\nW 137 0\nD\n").as_bytes()), format!("0 0\n{code} 0\n{record}\n"));
    }
}

/// After each line that passes time the dump has when a flag last rose: here INT0 falls, and IE0 rises with it.
#[test]
fn when_a_flag_last_rose() {
    for (lines, passed, number, cycle) in [
        ("C 127\nC 125\n", "0 1\n0 1\n", 2, 2),
        ("J 127 9\nJ 125 7\n", "0 0 0 0 0 1\n0 0 0 0 0 3\n", 10, 16),
        ("T 3 2097152003 2130706435 2097152002\n", "0 0 0 0 0\n", 7, 8),
        ("VB 127 0\nVB 125 0\n", "0 1 0\n0 1 0\n", 2, 2),
        ("VX 125 0 4\nVX 127 0 5\nVX 125 0 3\n", "0 0 0 0 0 3 0\n0 0 0 0 0 3 0\n0 0 0 0 0 3 0\n", 10, 12),
    ] {
        let text = format!("R 52\n{lines}J 127 100\nD\n");
        let dump = RESET.replace(" 0 1 1 1 1 1 1 1 0 0 0 0 0 0 ", &format!(" {} 1 1 1 1 1 1 1 0 0 0 0 1 {number} ", cycle + 100));
        assert_eq!(answers(text.as_bytes()), format!("0 0\n{passed}0 0 0 0 0 3\n{dump}\n"), "{lines}");
    }
}

/// The totals of Timers 0, 1 and 2 follow the 0 of a jump and a trace run, and before the outputs that of a jump of the
/// board; after those of a jump its rounds. Timer 0 is in mode 3, TL0 and TH0 at FF; Timer 1 overflows without a flag in
/// every third cycle, and Timer 2 six times a cycle, so that each is a round.
#[test]
fn how_often_each_timer_overflowed() {
    let timers = "R 52\nW 137 35\nW 138 255\nW 140 255\nW 139 253\nW 141 253\nW 136 80\n";
    let timer_2 = "W 202 255\nW 203 255\nW 204 255\nW 205 255\nW 200 52\nVW 3 20\nVW 0 2\n";
    for (lines, passed) in [
        ("J 127 1\nJ 127 255\nJ 127 0\n", "0 0 2 0 6 1\n0 0 0 85 1530 255\n0 0 0 0 0 0\n"),
        ("T 2 2130706433 2130706687\nT 0\n", "0 0 2 85 1536\n0 0 0 0 0\n"),
        ("VX 127 7 1\nVX 127 7 255\nVX 127 7 0\n", "0 0 2 0 6 1 1\n0 0 0 85 1530 255 0\n0 0 0 0 0 0 0\n"),
        ("C 127\nVB 127 7\nVJ 7 1\n", "0 1\n0 1 1\n0 0\n"),
    ] {
        let refused = "J 128 9\nT 1 0\nVX 127 8 9\nW 135 2\nJ 127 9\nT 1 9\nVX 127 0 9\n";
        let zeros = "4 0 0 0 0 0\n8 0 0 0 0\n4 0 0 0 0 0 0\n0 0\n0 0 0 0 0 1\n0 0 0 0 0\n0 0 0 0 0 1 1\n";
        let text = format!("{timers}{timer_2}{lines}{refused}");
        assert_eq!(answers(text.as_bytes()), format!("{}{passed}{zeros}", "0 0\n".repeat(14)), "{lines}");
    }
}

/// The rounds are the last number of a jump, and stand before the outputs in that of a jump of the board; a trace run has none.
/// At rest, with a pin that falls, the idle station, a byte that waits on a stopped clock, and power-down.
#[test]
fn how_many_rounds() {
    let station = "R 52\nW 137 32\nW 141 253\nW 139 253\nW 152 80\nW 136 192\n";
    let waiting = "R 51\nW 152 64\nW 153 53\n";
    for (lines, passed) in [
        ("R 52\nJ 127 0\nJ 127 1000\nJ 127 1099511627776\n", "0 0\n0 0 0 0 0 0\n0 0 0 0 0 1\n0 0 0 0 0 1\n"),
        ("R 52\nJ 126 1000\nVX 127 0 1000\n", "0 0\n0 0 0 0 0 2\n0 0 0 0 0 2 0\n"),
        (
            &format!("{station}J 127 3\nJ 127 99\nVX 127 0 99\nT 1 2130706531\n"),
            concat!("0 0\n0 0\n0 0\n0 0\n0 0\n0 0\n", "0 0 0 1 0 3\n0 0 0 33 0 66\n0 0 0 33 0 66 0\n0 0 0 33 0\n"),
        ),
        (
            &format!("{waiting}J 127 1\nVX 127 0 1000\nW 135 2\nJ 127 1000\n"),
            concat!("0 0\n0 0\n0 0\n", "0 0 0 0 0 1\n0 0 0 0 0 1000 0\n0 0\n0 0 0 0 0 1\n"),
        ),
    ] {
        assert_eq!(answers(lines.as_bytes()), passed, "{lines}");
    }
}

/// The 82C53 stands as its reset leaves it before any `VR`, which resets it alone, as `R` and `S` do the chip.
#[test]
fn each_chip_has_its_own_reset() {
    let count = "VW 3 16\nVW 0 9\nVC 1\n";
    assert_eq!(answers(b"VW 3 0\nVr 0\nVr 2\nVJ 7 1099511627776\n"), "0 0\n0 0\n0 0\n0 0\n");
    let text = format!("{count}R 52\nC 127\nVr 0\nS {RESET}\nVr 0\nVB 127 1\nR 53\nVr 0\n");
    assert_eq!(answers(text.as_bytes()), "0 0\n0 0\n0 0\n0 0\n0 1\n0 9\n0 0\n0 9\n0 1 0\n2 0\n0 8\n");
    let text = format!("R 52\n{count}C 127\nVR\nVC 1\nVr 0\nD\n");
    let cycled = RESET.replace(" 0 1 1 1 1 1 1 1", " 1 1 1 1 1 1 1 1");
    assert_eq!(answers(text.as_bytes()), format!("0 0\n0 0\n0 0\n0 0\n0 1\n0 0\n0 0\n0 0\n{cycled}\n"));
}

/// Calls of the chip before and after one of the board run on the same device, in their order.
#[test]
fn the_board_among_lists() {
    let text = "R 52\nW 137 2\nW 136 16\nC 127\nVB 127 0\nr 138\nJ 127 3\nVX 126 0 4\nr 138\nC 127\nr 138\n";
    assert_eq!(answers(text.as_bytes()), "0 0\n0 0\n0 0\n0 1\n0 1 0\n0 2\n0 0 0 0 0 1\n0 0 0 0 0 2 0\n0 9\n0 1\n0 10\n");
}

/// A call for a speed leaves both chips, also among calls that would run as one list.
#[test]
fn a_speed_among_lists() {
    let before = "R 52\nW 137 2\nW 136 16\nC 127\nVW 3 16\nVW 0 9\nVC 1\n";
    let after = "r 138\nC 127\nr 138\nVr 0\nD\n";
    let plain = answers(format!("{before}{after}").as_bytes());
    let (first, last) = plain.split_at("0 0\n0 0\n0 0\n0 1\n0 0\n0 0\n0 0\n".len());
    let speeds = "B 12681216 257 10000\nB 12000000 9600 699\nB 0 0 0\n";
    let asked = answers(format!("{before}{speeds}{after}").as_bytes());
    assert_eq!(asked, format!("{first}0 0 128 258\n0 none\n14 0 0 0\n{last}"));
    assert_eq!(answers(format!("D\n{speeds}D\n").as_bytes()), format!("{ZEROS}\n0 0 128 258\n0 none\n14 0 0 0\n{ZEROS}\n"));
}

#[test]
fn the_end_of_a_script() {
    assert_eq!(answers(b""), "");
    assert_eq!(answers(b"\n"), "? 1\n");
    assert_eq!(answers(b"\n\n"), "? 1\n? 2\n");
    assert_eq!(answers(b"R 52"), "0 0\n");
    assert_eq!(answers(b"R 52\nO"), "0 0\n0 none\n");
    assert_eq!(answers(b"R 52\nO\n"), "0 0\n0 none\n");
    assert_eq!(answers(b"R 52\nO "), "0 0\n? 2\n");
    assert_eq!(answers(b"R 52\n "), "0 0\n? 2\n");
    assert_eq!(answers(b"R 52\r\nO\r"), "? 1\n? 2\n");
    assert_eq!(answers(b"R 52\n\0"), "0 0\n? 2\n");
}

/// Lines of random bytes are faults and leave the device, and each is answered by its own number.
#[test]
fn any_bytes() {
    let mut rng = Rng::new(1);
    let mut script = b"R 52\n".to_vec();
    let mut expected = String::from("0 0\n");
    for number in 2..2000 {
        let length = rng.below(40);
        let mut line: Vec<u8> = (0..length).map(|_| rng.byte()).filter(|&byte| byte != b'\n').collect();
        if matches!(line[..], [b'D' | b'I' | b'K' | b'O' | b'P' | b'Q'] | [b'V', b'R'] | [b'Q', b' ', ..]) {
            line.clear();
        }
        script.extend(line);
        script.push(b'\n');
        expected += &format!("? {number}\n");
    }
    script.extend(b"D");
    assert_eq!(answers(&script), expected + RESET + "\n");
}

/// Gives a script in parts, each by one read, and looks at what is answered before each read.
struct Parts<'a> {
    parts: Vec<&'a [u8]>,
    before: &'a dyn Fn(usize),
    read: usize,
}

impl Read for Parts<'_> {
    fn read(&mut self, buffer: &mut [u8]) -> Result<usize> {
        (self.before)(self.read);
        let Some(part) = self.parts.get(self.read) else { return Ok(0) };
        self.read += 1;
        buffer[..part.len()].copy_from_slice(part);
        Ok(part.len())
    }
}

/// What was written, for one who looks while the script runs.
struct Shared<'a>(&'a RefCell<Vec<u8>>);

impl Write for Shared<'_> {
    fn write(&mut self, bytes: &[u8]) -> Result<usize> {
        self.0.borrow_mut().write(bytes)
    }

    fn flush(&mut self) -> Result<()> {
        Ok(())
    }
}

/// The script in these parts: before each read every line that has ended is answered.
fn check_parts(parts: Vec<&[u8]>) {
    let out = RefCell::new(Vec::new());
    let before = |read: usize| {
        let lines = parts[..read].concat().iter().filter(|&&byte| byte == b'\n').count();
        assert_eq!(String::from_utf8_lossy(&out.borrow()), expected(lines), "before read {read}");
    };
    replay(Parts { parts: parts.clone(), before: &before, read: 0 }, Shared(&out)).expect("a script");
    assert_eq!(String::from_utf8_lossy(&out.borrow()), expected(LINES.len()));
}

#[test]
fn a_cut_at_every_byte() {
    let script = script();
    for at in 1..script.len() {
        let (first, second) = script.split_at(at);
        check_parts(vec![first, second]);
    }
    check_parts(script.chunks(1).collect());
}

/// More calls and more entries than one list takes, with a fault and a dump among them.
#[test]
fn long_lists() {
    let trace = format!("T 3000{}\n", " 2130706433".repeat(3000));
    let mut script = String::from("R 51\n");
    let mut expected = String::from("0 0\n");
    for number in 1..=100_u64 {
        script += &trace;
        script += &"C 127\n".repeat(200);
        script += "x\nD\n";
        expected += "0 0 0 0 0\n";
        expected += &"0 1\n".repeat(200);
        let cycle = number * 3200;
        expected += &format!("? {}\n", 203 * number);
        expected += &RESET.replacen("52", "51", 1).replace(" 0 1 1 1 1 1 1 1", &format!(" {cycle} 1 1 1 1 1 1 1"));
        expected += "\n";
    }
    assert_eq!(answers(script.as_bytes()), expected);
    let cycles = "R 51\n".to_string() + &"C 127\n".repeat(30_000);
    assert_eq!(answers(cycles.as_bytes()), "0 0\n".to_string() + &"0 1\n".repeat(30_000));
}

/// Fails after a script, by each error in turn.
struct Fails<'a> {
    script: &'a [u8],
    errors: Vec<ErrorKind>,
}

impl Read for Fails<'_> {
    fn read(&mut self, buffer: &mut [u8]) -> Result<usize> {
        if !self.script.is_empty() {
            return self.script.read(buffer);
        }
        self.errors.pop().map_or(Ok(0), |kind| Err(Error::from(kind)))
    }
}

#[test]
fn a_read_that_fails() {
    let mut out = Vec::new();
    let failed = replay(Fails { script: b"R 52\nO\nr 1", errors: vec![ErrorKind::ConnectionReset] }, &mut out);
    assert!(matches!(failed, Err(Failure::Read(why)) if why.kind() == ErrorKind::ConnectionReset));
    assert_eq!(out, b"0 0\n0 none\n", "what had ended before is answered, and a part of a line is not");
}

#[test]
fn a_read_that_is_interrupted_is_tried_again() {
    let mut out = Vec::new();
    let errors = vec![ErrorKind::Interrupted; 3];
    replay(Fails { script: b"R 52\nO", errors }, &mut out).expect("a script");
    assert_eq!(out, b"0 0\n0 none\n");
}

/// Takes so many bytes and then fails.
struct Room(usize);

impl Write for Room {
    fn write(&mut self, bytes: &[u8]) -> Result<usize> {
        let taken = bytes.len().min(self.0);
        self.0 -= taken;
        if taken > 0 || bytes.is_empty() {
            Ok(taken)
        } else {
            Err(ErrorKind::StorageFull.into())
        }
    }

    fn flush(&mut self) -> Result<()> {
        Ok(())
    }
}

#[test]
fn a_write_that_fails() {
    let script = script();
    let whole = expected(LINES.len()).len();
    for room in 0..whole {
        let failed = replay(&script[..], Room(room));
        assert!(matches!(failed, Err(Failure::Write(why)) if why.kind() == ErrorKind::StorageFull), "{room}");
    }
    assert!(replay(&script[..], Room(whole)).is_ok());
    assert!(replay(&b"D\n".repeat(100_000)[..], Room(1_000_000)).is_err());
}
