//! The layout of the records and of the answers, size and each offset, and the constants: in Rust and in a C program
//! that includes `c51.h`; every call from C, and the C program of docs/CHECKPOINT.md.
use c51::raw::*;
use c51::{address, call, control, gate, out, pcon, pin, port, Flag, Refusal};
use c51::{SharesRefusal, MAX_TUNNELS};
use c51::{CHECKPOINT_51, CHECKPOINT_52, GATES_HIGH, MAX_CRYSTAL, MAX_CYCLES, MAX_RATE, MAX_TOLERANCE, MAX_TRACE, PINS_HIGH};
use std::collections::BTreeSet;
use std::mem::{offset_of, size_of};
use std::path::{Path, PathBuf};
use std::process::Command;

/// A place of the layout: the C expression for it, its number in Rust, and the number that it must be.
struct Place {
    c: String,
    rust: usize,
    expected: usize,
}

macro_rules! layout {
    ($($c:literal $rust:ident $size:literal { $($($field:ident).+ $offset:literal),* })*) => {
        vec![$(
            Place { c: format!("sizeof({})", $c), rust: size_of::<$rust>(), expected: $size },
            $(Place {
                c: format!("offsetof({}, {})", $c, stringify!($($field).+).replace(' ', "")),
                rust: offset_of!($rust, $($field).+),
                expected: $offset,
            },)*
        )*]
    };
}

fn places() -> Vec<Place> {
    layout! {
        "c51_device" Device 128 {
            kind 0, pcon 1,
            timers.tcon 2, timers.tmod 3, timers.tl0 4, timers.tl1 5, timers.th0 6, timers.th1 7, timers.due0 8, timers.due1 9,
            timer2.t2con 10, timer2.rcap2l 11, timer2.rcap2h 12, timer2.tl2 13, timer2.th2 14, timer2.due2 15,
            serial.scon 16,
            serial.send.position 18, serial.send.value 20, serial.send.counter 22,
            serial.receive.position 24, serial.receive.value 26, serial.receive.counter 28, serial.receive.votes 29,
            serial.receive.sample 30,
            serial.half 32, serial.received 33,
            interrupts.ie 34, interrupts.ip 35, interrupts.seen 36, interrupts.polled 37, interrupts.low 38, interrupts.high 39,
            levels 40, cycle 48,
            times.ever 56, times.number 64
        }
        "c51_timers" Timers 8 { tcon 0, tmod 1, tl0 2, tl1 3, th0 4, th1 5, due0 6, due1 7 }
        "c51_timer2" Timer2 6 { t2con 0, rcap2l 1, rcap2h 2, tl2 3, th2 4, due2 5 }
        "c51_sender" Sender 6 { position 0, value 2, counter 4 }
        "c51_receiver" Receiver 8 { position 0, value 2, counter 4, votes 5, sample 6 }
        "c51_serial" Serial 18 { scon 0, send 2, receive 8, half 16, received 17 }
        "c51_interrupts" Interrupts 6 { ie 0, ip 1, seen 2, polled 3, low 4, high 5 }
        "c51_flag_times" FlagTimes 72 { ever 0, number 8 }
        "c51_answer" Answer 136 { code 0, device 8 }
        "c51_line_answer" LineAnswer 2 { code 0, line 1 }
        "c51_vector_answer" VectorAnswer 2 { code 0, vector 1 }
        "c51_value_answer" ValueAnswer 2 { code 0, value 1 }
        "c51_offer_answer" OfferAnswer 3 { code 0, offered 1, vector 2 }
        "c51_look_answer" LookAnswer 16 { code 0, found 1, at 8 }
        "c51_totals" Totals 24 { timer0 0, timer1 8, timer2 16 }
        "c51_run_answer" RunAnswer 32 { code 0, totals 8, totals.timer2 24 }
        "c51_jump_answer" JumpAnswer 40 { code 0, totals 8, totals.timer2 24, rounds 32 }
        "c53_counter" Counter 20 {
            mode 0, bcd 1, format 2, output 3, gate 4, loaded 5, waits 6, first 7, low 8, high 9, latched 10,
            count 12, reload 14, waiting 16, latch 18
        }
        "c53_interval" Interval 60 { counter0 0, counter1 20, counter2 40, counter2.latch 58 }
        "c51_board" Board 192 { device 0, device.cycle 48, device.times.number 64, interval 128, interval.counter2.latch 186 }
        "c53_outputs_answer" OutputsAnswer 2 { code 0, outputs 1 }
        "c51_board_answer" BoardAnswer 3 { code 0, line 1, outputs 2 }
        "c51_board_jump_answer" BoardJumpAnswer 40 { code 0, outputs 1, totals 8, totals.timer2 24, rounds 32 }
        "c51_speed_answer" SpeedAnswer 16 { code 0, found 1, smod 2, th1 3, achieved 8 }
    }
}

/// A constant: its C name, and its number in Rust.
struct Constant {
    c: String,
    rust: u64,
}

macro_rules! constants {
    ($($prefix:literal $module:ident { $($name:ident),* })*) => {
        vec![$($(Constant { c: format!("{}{}", $prefix, stringify!($name)), rust: u64::from($module::$name) },)*)*]
    };
}

fn constants() -> Vec<Constant> {
    let mut constants = constants! {
        "C51_PIN_" pin { RXD, INT0, INT1, T0, T1, T2, T2EX }
        "C51_" address { PCON, TCON, TMOD, TL0, TL1, TH0, TH1, SCON, SBUF, IE, IP, T2CON, RCAP2L, RCAP2H, TL2, TH2 }
        "C51_PCON_" pcon { IDL, PD, SMOD }
        "C51_CALL_" call { RESET, READ, WRITE, CYCLE, JUMP, TRACE, LOOK, OFFER, TAKE, RETURN, WAKE }
        "C53_" port { COUNTER0, COUNTER1, COUNTER2, CONTROL }
        "C53_" control { SELECT0, SELECT1, SELECT2, LATCH, LOW, HIGH, BOTH, MODE0, MODE2, BCD }
        "C53_" gate { GATE0, GATE1, GATE2 }
        "C53_" out { OUT0, OUT1, OUT2 }
    };
    let others = [
        ("C51_PASSED", 0),
        ("C51_BAD_RECORD", Refusal::BadRecord as u64),
        ("C51_BAD_KIND", Refusal::BadKind as u64),
        ("C51_BAD_ADDRESS", Refusal::BadAddress as u64),
        ("C51_BAD_PINS", Refusal::BadPins as u64),
        ("C51_TOO_LONG", Refusal::TooLong as u64),
        ("C51_NOTHING_OFFERED", Refusal::NothingOffered as u64),
        ("C51_NOTHING_IN_SERVICE", Refusal::NothingInService as u64),
        ("C51_EMPTY_ENTRY", Refusal::EmptyEntry as u64),
        ("C51_POWERED_DOWN", Refusal::PoweredDown as u64),
        ("C51_BAD_MODE", Refusal::BadMode as u64),
        ("C51_BAD_CHOICE", Refusal::BadChoice as u64),
        ("C51_BAD_COUNT", Refusal::BadCount as u64),
        ("C51_BAD_SPEED", Refusal::BadSpeed as u64),
        ("C51_BAD_LENGTH", Refusal::BadLength as u64),
        ("C51_BAD_LAYOUT", Refusal::BadLayout as u64),
        ("C51_BAD_VALUE", Refusal::BadValue as u64),
        ("C51_BAD_TUNNELS", SharesRefusal::BadTunnels as u64),
        ("C51_BAD_WISH", SharesRefusal::BadWish as u64),
        ("C51_FLAG_TF0", Flag::Tf0 as u64),
        ("C51_FLAG_TF1", Flag::Tf1 as u64),
        ("C51_FLAG_IE0", Flag::Ie0 as u64),
        ("C51_FLAG_IE1", Flag::Ie1 as u64),
        ("C51_FLAG_RI", Flag::Ri as u64),
        ("C51_FLAG_TI", Flag::Ti as u64),
        ("C51_FLAG_TF2", Flag::Tf2 as u64),
        ("C51_FLAG_EXF2", Flag::Exf2 as u64),
        ("C51_MAX_CYCLES", MAX_CYCLES),
        ("C51_MAX_TRACE", MAX_TRACE as u64),
        ("C51_MAX_CRYSTAL", MAX_CRYSTAL),
        ("C51_MAX_RATE", MAX_RATE),
        ("C51_MAX_TOLERANCE", MAX_TOLERANCE),
        ("C51_MAX_TUNNELS", MAX_TUNNELS as u64),
        ("C51_CHECKPOINT_51", CHECKPOINT_51 as u64),
        ("C51_CHECKPOINT_52", CHECKPOINT_52 as u64),
        ("C51_PINS_HIGH", PINS_HIGH.into()),
        ("C53_GATES_HIGH", GATES_HIGH.into()),
        ("C51_CALL_WORDS", CALL_WORDS as u64),
        ("C51_ANSWER_WORDS", ANSWER_WORDS as u64),
        ("C51_NONE", NONE),
    ];
    constants.extend(others.map(|(c, rust)| Constant { c: c.to_string(), rust }));
    constants
}

fn dist() -> PathBuf {
    Path::new(env!("CARGO_MANIFEST_DIR")).join("../../dist")
}

/// Compiles a C program over the library and runs it; gives what it printed.
fn run_c(name: &str, source: &Path) -> String {
    let program = Path::new(env!("CARGO_TARGET_TMPDIR")).join(name);
    let compiler = std::env::var("CC").unwrap_or("cc".to_string());
    let compiled = Command::new(&compiler)
        .args(["-std=c99", "-Wall", "-Wextra", "-Werror", "-O1", "-I"])
        .arg(dist())
        .arg(source)
        .arg(dist().join("libc51.a"))
        .arg("-o")
        .arg(&program)
        .output()
        .unwrap_or_else(|why| panic!("{compiler}: {why}"));
    assert!(compiled.status.success(), "{compiler}: {}", String::from_utf8_lossy(&compiled.stderr));
    let ran = Command::new(&program).output().expect("the C program runs");
    let printed = String::from_utf8(ran.stdout).expect("text");
    assert!(ran.status.success(), "{name}: {}\n{printed}", ran.status);
    printed
}

/// The numbers that expressions have in C.
fn in_c<'a>(name: &str, expressions: impl Iterator<Item = &'a str>) -> Vec<u64> {
    let mut source = String::from("#include <c51.h>\n#include <stdio.h>\n\nint main(void) {\n");
    for expression in expressions {
        source += &format!("    printf(\"%llu\\n\", (unsigned long long)({expression}));\n");
    }
    source += "    return 0;\n}\n";
    let file = Path::new(env!("CARGO_TARGET_TMPDIR")).join(format!("{name}.c"));
    std::fs::write(&file, source).expect("the C file is written");
    run_c(name, &file).lines().map(|line| line.parse().expect("a number")).collect()
}

#[test]
fn the_layout_in_rust() {
    for place in places() {
        assert_eq!(place.rust, place.expected, "{}", place.c);
    }
}

#[test]
fn the_layout_in_c() {
    let places = places();
    let numbers = in_c("layout", places.iter().map(|place| place.c.as_str()));
    assert_eq!(numbers.len(), places.len());
    for (place, number) in places.iter().zip(numbers) {
        assert_eq!(number, place.expected as u64, "{}", place.c);
    }
}

/// The constants that the header defines; a macro with arguments is none.
fn names_in_c() -> BTreeSet<String> {
    let header = std::fs::read_to_string(dist().join("c51.h")).expect("the header");
    let name = |line: &str| match line.split_whitespace().collect::<Vec<&str>>()[..] {
        ["#define", name, _, ..] | [name, "=", ..] if !name.contains('(') => Some(name.to_string()),
        _ => None,
    };
    header.lines().filter_map(name).collect()
}

#[test]
fn the_constants_in_c() {
    let constants = constants();
    assert_eq!(constants.iter().map(|constant| constant.c.clone()).collect::<BTreeSet<String>>(), names_in_c());
    let numbers = in_c("constants", constants.iter().map(|constant| constant.c.as_str()));
    assert_eq!(numbers.len(), constants.len());
    for (constant, number) in constants.iter().zip(numbers) {
        assert_eq!(number, constant.rust, "{}", constant.c);
    }
}

/// The parts of a record and one byte of padding add up to its size, and the table has as many places in it as it has
/// fields.
#[test]
fn the_table_is_whole() {
    let parts = [size_of::<Timers>(), size_of::<Timer2>(), size_of::<Serial>(), size_of::<Interrupts>(), size_of::<FlagTimes>()];
    let bytes = parts.iter().sum::<usize>() + 2 + 7 + 8;
    assert_eq!(bytes + 1, size_of::<Device>(), "one byte of padding before the cycle number");
    let of_device = places().iter().filter(|place| place.c.starts_with("offsetof(c51_device,")).count();
    assert_eq!(of_device, 37, "57 numbers, of which the 7 levels are one array and the 16 flag times two");
    assert_eq!(8 * (size_of::<u8>() + size_of::<u64>()), size_of::<FlagTimes>(), "no padding");
    assert_eq!(11 + 4 * size_of::<u16>() + 1, size_of::<Counter>(), "one byte of padding before the counts");
    let of_counter = places().iter().filter(|place| place.c.starts_with("offsetof(c53_counter,")).count();
    assert_eq!(of_counter, 11 + 4, "bytes and counts");
    assert_eq!(size_of::<Device>() + size_of::<Interval>() + 4, size_of::<Board>(), "four bytes of padding after the 82C53");
}

/// The program of docs/CHECKPOINT.md compiles and prints what the page says.
#[test]
fn the_checkpoint_of_the_document() {
    let document =
        std::fs::read_to_string(Path::new(env!("CARGO_MANIFEST_DIR")).join("../../docs/CHECKPOINT.md")).expect("the page");
    let (_, section) = document.split_once("\n## In C\n").expect("the section");
    let section = section.split("\n## ").next().expect("its text");
    let code = |line: &str| line.strip_prefix("    ").map_or(String::new(), |line| line.to_string()) + "\n";
    let source: String = section.lines().filter(|line| line.is_empty() || line.starts_with("    ")).map(code).collect();
    let file = Path::new(env!("CARGO_TARGET_TMPDIR")).join("checkpoint.c");
    std::fs::write(&file, source).expect("the C file is written");
    let printed = run_c("checkpoint", &file);
    assert!(
        printed == "TI rises after 5 cycles more\n" && section.contains(&format!("It prints `{}`", printed.trim_end())),
        "{printed}"
    );
}

#[test]
fn every_call_from_c() {
    let source = Path::new(env!("CARGO_MANIFEST_DIR")).join("tests/calls.c");
    assert_eq!(run_c("calls_in_c", &source), "passed\n");
}
