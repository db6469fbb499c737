//! The reach of the comparison: what is shortened and what is not, and the program over a script.
use c51::{pin, PINS_HIGH};
use compare::entry;
use compare::reach::{script_in_reach, PULSES, REACH};
use replay::calls::Call;
use std::io::Write;
use std::process::{Command, Output, Stdio};

/// The line of a trace of these pin bytes and cycles.
fn trace(entries: &[(u8, u64)]) -> String {
    Call::Trace(entries.iter().map(|&(pins, cycles)| entry(pins, cycles)).collect()).to_string()
}

/// Each call stays as it is after these lines.
fn stays(before: &str, calls: &[&str]) {
    for call in calls {
        let text = format!("{before}{call}\nD\n");
        assert_eq!(script_in_reach(&text), text, "{call}");
    }
}

/// Each call is shortened after these lines, to fewer cycles that are not 0, and nothing else is.
fn is_shortened(before: &str, calls: &[(&str, &str)]) {
    for (call, shorter) in calls {
        assert_eq!(script_in_reach(&format!("{before}{call}\nD\n")), format!("{before}{shorter}\nD\n"), "{call}");
    }
}

const LONGEST: [&str; 4] = ["J 127 1099511627776", "L 127 1099511627776", "Z 127 1099511627776", "T 2 2147483647 2147483646"];
const SHORTER: [&str; 4] = ["J 127 2777", "L 127 2777", "Z 127 2777", "T 2 2130708648 2130708647"];

fn longest_are_shortened(before: &str) {
    is_shortened(before, &[0, 1, 2, 3].map(|i| (LONGEST[i], SHORTER[i])));
}

#[test]
fn a_chip_at_rest_is_in_reach() {
    stays("R 52\n", &LONGEST);
    // a frame that ends soon, in serial mode 0
    stays("R 51\nW 153 85\n", &LONGEST);
    // a counter whose pin has just fallen
    stays("R 51\nW 137 5\nW 136 16\nC 119\n", &LONGEST);
    // in idle
    stays("R 51\nW 135 1\n", &LONGEST);
}

/// In power-down nothing moves: not a timer that would count, nor a frame that waits on a stopped clock or is under way.
#[test]
fn power_down_is_in_reach() {
    for before in ["R 52\n", "R 51\nW 137 32\nW 136 192\n", "R 51\nW 152 64\nW 153 85\n", "R 52\nW 152 128\nW 153 85\nJ 127 9\n"] {
        stays(&format!("{before}W 135 2\n"), &LONGEST);
        stays(&format!("{before}W 135 3\n"), &LONGEST);
    }
    // no write ends it, and a reset does
    stays("R 51\nW 137 32\nW 136 192\nW 135 2\nW 135 0\n", &LONGEST);
    longest_are_shortened("R 51\nW 135 2\nR 51\nW 137 32\nW 136 192\n");
}

/// In idle timers and frames go on.
#[test]
fn idle_is_as_awake() {
    longest_are_shortened("R 51\nW 137 32\nW 136 192\nW 135 1\n");
    longest_are_shortened("R 51\nW 152 64\nW 153 85\nW 135 1\n");
}

#[test]
fn a_frame_on_a_stopped_clock_is_out_of_reach() {
    longest_are_shortened("R 51\nW 152 64\nW 153 85\n");
    let in_reach = ["J", "L", "Z"].map(|name| format!("{name} 127 {REACH}"));
    stays("R 51\nW 152 64\nW 153 85\n", &in_reach.each_ref().map(String::as_str));
    stays("R 51\nW 152 64\nW 153 85\n", &[&trace(&[(PINS_HIGH, REACH)])]);
    // INT1 stops Timer 1 by its gate, with the receiver resting and with a frame begun
    let gated = "R 51\nW 137 160\nW 136 64\nW 141 255\nW 139 255\nW 152 80\n";
    let stopped = |rxd: u8, n: u64| trace(&[(PINS_HIGH, 100), (PINS_HIGH & !rxd, 20), (PINS_HIGH & !rxd & !pin::INT1, n)]);
    stays(gated, &[&stopped(0, 16_777_215)]);
    is_shortened(gated, &[(&stopped(pin::RXD, 16_777_215), &stopped(pin::RXD, 2_216))]);
}

#[test]
fn a_timer_that_counts_is_out_of_reach() {
    // TF1 is set, so that the look ahead finds no rise
    longest_are_shortened("R 51\nW 137 32\nW 136 192\n");
    // every cycle overflows, and the record stays but for the cycle number
    longest_are_shortened("R 51\nW 137 2\nW 140 255\nW 138 255\nW 136 48\n");
    longest_are_shortened("R 52\nW 205 255\nW 204 255\nW 203 255\nW 202 255\nW 200 52\n");
}

#[test]
fn a_look_ahead_that_finds_a_rise_is_in_reach() {
    stays("R 51\nW 137 1\nW 136 16\n", &["L 127 1099511627776"]);
    is_shortened("R 51\nW 137 1\nW 136 16\n", &[("J 127 1099511627776", "J 127 2777")]);
}

/// The interrupt of Timer 0: where it is not enabled, the flag rises and nothing is offered.
#[test]
fn a_wake_look_that_finds_an_offer_is_in_reach() {
    stays("R 51\nW 137 1\nW 136 16\nW 168 130\n", &["Z 127 1099511627776", "L 127 1099511627776"]);
    is_shortened("R 51\nW 137 1\nW 136 16\nW 168 130\n", &[("J 127 1099511627776", "J 127 2777")]);
    is_shortened("R 51\nW 137 1\nW 136 16\n", &[("Z 127 1099511627776", "Z 127 2777")]);
    // TF0 was set before: it does not rise again, and is offered
    stays("R 51\nW 137 1\nW 136 48\nW 168 130\n", &["Z 127 1099511627776"]);
    is_shortened("R 51\nW 137 1\nW 136 48\nW 168 130\n", &[("L 127 1099511627776", "L 127 2777")]);
}

#[test]
fn refused_calls_stay() {
    let waiting = "R 51\nW 152 64\nW 153 85\n";
    stays(waiting, &["J 127 1099511627777", "L 127 18446744073709551615", "J 255 1099511627776", "L 128 1099511627776"]);
    stays(waiting, &["Z 127 1099511627777", "Z 127 18446744073709551615", "Z 255 1099511627776"]);
    stays(waiting, &["T 2 2147483647 2130706432", "T 2 2147483647 2147483649", "T 0"]);
    let too_long = format!("T 65537{}", " 2147483647".repeat(65_537));
    stays(waiting, &[&too_long]);
    stays("R 53\n", &LONGEST);
}

/// The longest jumps of the 82C53 and of the board, with all gates high and with all low, and what they are shortened to.
const LONGEST_PULSES: [&str; 2] = ["VJ 7 1099511627776", "VX 127 7 1099511627776"];
const GATES_LOW: [&str; 2] = ["VJ 0 1099511627776", "VX 127 0 1099511627776"];
const FEWER_PULSES: [&str; 2] = ["VJ 7 2777", "VX 127 7 2777"];

/// An 82C53 rests before a whole count, between two bytes of one in mode 0, and where gates hold what counts.
#[test]
fn an_82c53_at_rest_is_in_reach() {
    for before in ["", "VW 3 52\n", "VW 3 48\nVW 0 5\n", "VW 3 16\nVW 0 9\nVC 1\nVW 3 48\nVW 0 5\n"] {
        stays(&format!("R 52\n{before}"), &LONGEST_PULSES);
    }
    for word in [16, 20] {
        stays(&format!("R 52\nVW 3 {word}\nVW 0 9\n"), &GATES_LOW);
        stays(&format!("R 52\nVW 3 {word}\nVW 0 9\nVC 7\n"), &GATES_LOW);
    }
}

#[test]
fn a_counter_that_counts_is_out_of_reach() {
    for count in ["VW 3 16\nVW 0 9\n", "VW 3 149\nVW 2 9\n", "VW 3 116\nVW 1 0\nVW 1 0\nVJ 7 99999\n"] {
        let before = format!("R 52\n{count}");
        is_shortened(&before, &[0, 1].map(|i| (LONGEST_PULSES[i], FEWER_PULSES[i])));
        stays(&before, &[&format!("VJ 7 {PULSES}"), &format!("VX 127 7 {PULSES}"), "VJ 7 2000000"]);
        // power-down stops the chip alone
        is_shortened(&format!("{before}W 135 2\n"), &[0, 1].map(|i| (LONGEST_PULSES[i], FEWER_PULSES[i])));
    }
}

/// A jump of the board is in reach where both chips are.
#[test]
fn a_chip_that_does_not_rest_shortens_the_board() {
    let running = "R 51\nW 137 32\nW 136 192\n";
    is_shortened(running, &[("VX 127 7 1099511627776", "VX 127 7 2777")]);
    is_shortened(running, &[(&format!("VX 127 0 {}", REACH + 1), "VX 127 0 4290")]);
    stays(running, &["VJ 7 1099511627776", &format!("VX 127 7 {REACH}")]);
    // refused: by its gates, its pins, its length, and by a record
    stays(running, &["VX 127 8 1099511627776", "VX 128 7 1099511627776", "VX 127 7 1099511627777", "VJ 8 1099511627776"]);
    stays("R 53\nVW 3 16\nVW 0 9\n", &["VX 127 7 1099511627776"]);
}

#[test]
fn faults_and_other_lines_stay() {
    let text = "R 51\nW 152 64\nW 0153 85\nJ 127 +1099511627776\nJ 127 1099511627776 \nj 127 1099511627776\n\nx\nS 1\nJ 0127 0005";
    assert_eq!(script_in_reach(text), text);
    // a call for a speed, also with numbers past every limit, and one that is none
    stays("R 51\nW 152 64\n", &["B 11059200 9600 50", "B 0011059200 9600 0", "B 1099511627776 1099511627776 0", "B 1 2"]);
    // the frame of the line that is read as a call waits, and a last line with no newline is a line
    assert_eq!(script_in_reach(&format!("{text}\nJ 127 1099511627776")), format!("{text}\nJ 127 2777"));
}

fn reach(arguments: &[&str], script: &[u8]) -> Output {
    let mut child = Command::new(env!("CARGO_BIN_EXE_reach"))
        .args(arguments)
        .stdin(Stdio::piped())
        .stdout(Stdio::piped())
        .stderr(Stdio::piped())
        .spawn()
        .expect("the program runs");
    // a program that ends before it reads is judged by its status
    let _ = child.stdin.take().expect("a pipe").write_all(script);
    child.wait_with_output().expect("the program ends")
}

#[test]
fn the_program() {
    let ran = reach(&[], b"R 51\nW 152 64\nW 153 85\nJ 127 1099511627776\nx\n");
    assert!(ran.status.success());
    assert_eq!(ran.stdout, b"R 51\nW 152 64\nW 153 85\nJ 127 2777\nx\n");
    let ran = reach(&["--help"], b"");
    assert!(ran.status.success() && ran.stdout.starts_with(b"usage: reach"));
    for (arguments, script, message) in
        [(vec!["script.txt"], &b""[..], "unknown option script.txt"), (vec![], &b"R 51\n\xFF\n"[..], "the script cannot be read")]
    {
        let ran = reach(&arguments, script);
        assert_eq!(ran.status.code(), Some(2), "{message}");
        let said = String::from_utf8_lossy(&ran.stderr).into_owned();
        assert!(said.contains(message) && ran.stdout.is_empty(), "{said}");
    }
}
