//! The benchmark measures what it says: the loop by hand and the plain chip do the library's work, and a missing program stops nothing.
use bench::plain::Plain;
use bench::planning::{self, Work, HOUR};
use bench::tight::Idle;
use c51::{flag, pcon, Board, Device, MAX_CYCLES, PINS_HIGH};
use station::reader::Reader;
use station::run::{run, Plan, Ran};
use station::timing::Time;
use std::process::Command;

#[test]
fn the_loop_by_hand_is_the_idle_station() {
    let mut before = Reader::<Board>::new().chips.device;
    before.jump(PINS_HIGH, 10).unwrap();
    for n in (0..200).chain([12_345]) {
        let mut device = before;
        let rounds = device.jump(PINS_HIGH, n).unwrap().rounds;
        let mut idle = Idle::of(&before);
        assert_eq!(idle.jump(n), rounds, "{n} cycles");
        assert_eq!(idle.device(&before), device, "{n} cycles");
        assert!((2 * n / 3..=2 * n / 3 + 1).contains(&rounds), "{rounds} rounds in {n} cycles");
    }
}

/// What the looks over the idle station are timed on: TF1 is up, Timer 1 alone reloads, and no interrupt comes.
#[test]
fn looks_over_the_idle_station_find_nothing() {
    let mut device = Reader::<Board>::new().chips.device;
    device.jump(PINS_HIGH, 100).unwrap();
    assert_eq!((device.pcon & pcon::IDL, device.timers.tcon & flag::TF1), (pcon::IDL, flag::TF1));
    assert_eq!(device.look_ahead(PINS_HIGH, MAX_CYCLES), Ok(None));
    assert_eq!(device.wake_look(PINS_HIGH, MAX_CYCLES), Ok(None));
}

/// What the jumps at rest are timed on: each moves the cycle number alone, so that the next is of a device at rest too.
#[test]
fn a_device_at_rest_stays_at_rest() {
    let given = Device::reset(52).unwrap();
    let mut device = given;
    for jumps in 1..=3 {
        device.jump(PINS_HIGH, MAX_CYCLES).unwrap();
        assert_eq!(device, Device { cycle: jumps * MAX_CYCLES, ..given });
    }
}

/// Also at the stations that have an 82C53, whose times are the same; and Timer 1 laps as often, in as many rounds.
#[test]
fn the_plain_chips_read_the_same_tags() {
    let plan = Plan { stations: 3, tags: 6, gap: 5_000, seed: 8, noise: 1, chosen: Vec::new() };
    let Ran { rows, laps, .. } = run::<Board>(&plan, None, |_| ());
    let plain = run::<Plain>(&plan, None, |_| ());
    assert_eq!((plain.rows, plain.laps), (rows.clone(), laps));
    assert_eq!(rows.iter().filter(|row| matches!(row.time, Some(Time::Took(_)))).count(), 4);
    assert!(rows.iter().all(|row| row.last_digit.is_some_and(|cycle| cycle < row.cycle)), "{rows:?}");
}

/// What is planned with: two rounds for each lap of an idle hour, every cycle of a frame a round, and a tag of 16 frames, which has a
/// round for nearly every cycle of them and two for three cycles of the pauses.
#[test]
fn what_is_planned_with() {
    let Work { cycles, rounds, seconds } = planning::idle(1, HOUR / 1_000);
    assert_eq!((cycles, rounds), (3_317_760.0, 2_211_840.0));
    assert!(seconds > 0.0);
    let frame = planning::in_a_frame(1, 10);
    assert_eq!((frame.cycles, frame.rounds), (7_680.0, 7_680.0));
    let tag = planning::tags(1, 20).times(1.0 / 20.0);
    assert!((16.0 * 960.0..16.0 * (960.0 + 2.0 * 96.0)).contains(&tag.cycles), "{tag:?}");
    assert!((0.93..0.98).contains(&(tag.rounds / tag.cycles)), "{tag:?}");
}

/// An idle hour of 2 s goes into an hour 1,800 times; where a tag takes 1,000 s in place of an idle tenth of the hour, 1,001.8 s do.
#[test]
fn tunnels_in_real_time() {
    let hour = Work { cycles: HOUR as f64, rounds: 1.0, seconds: 2.0 };
    let tag = |seconds: f64| Work { cycles: HOUR as f64 / 10.0, rounds: 1.0, seconds };
    assert_eq!([0, 1, 3].map(|tags| planning::tunnels(tags, &hour, &tag(1_000.0))), [1_800, 3, 1]);
    assert_eq!([0, 1, 2, 10].map(|tags| planning::tunnels(tags, &hour, &tag(4.2))), [1_800, 600, 360, 85]);
    let twice = tag(4.2).times(2.0);
    assert_eq!((twice.cycles, twice.rounds, twice.seconds, twice.a_round()), (HOUR as f64 / 5.0, 2.0, 8.4, 4.2));
}

#[test]
fn missing_programs_are_named_and_left_out() {
    let ran = Command::new(env!("CARGO_BIN_EXE_bench")).arg("--quick").env("PATH", "").output().expect("the program runs");
    let out = String::from_utf8(ran.stdout).expect("text");
    assert!(ran.status.success(), "{out}");
    for part in [
        "A single cycle, idle station:",
        "An offer, two interrupts asking:\n  offer (c51_offer) ",
        "x record check (c51_accepts)\n  wake look that names 0 (c51_wake) ",
        "Looks over 80 cycles of a frame being sent, a cycle:\n  wake look (c51_wake) ",
        "The idle station,",
        "Looks over all of them, in which Timer 1 alone reloads and nothing is found:\n  look ahead (c51_look) ",
        "x look ahead (c51_look)\n  wake look (c51_wake) ",
        "A device at rest:",
        "\n  wake look over 2^40 cycles ",
        "A device in power-down, with all timers set to run, over 2^40 cycles (the trace run over 16 entries):\n  jump, power-down ",
        "x look ahead, at rest\n  wake look, power-down ",
        "x wake look, at rest\n  trace run, power-down ",
        "A checkpoint of 307 bytes:\n  save (c51_save) ",
        "x record check (c51_accepts)\n  load (c51_load) ",
        "x record check (c51_accepts)\n  load, plain model ",
        "An 82C53 with all three counters counting:\n  pulse (c53_pulse) ",
        "x pulse, plain model\n  jump of 2^40 pulses (c53_jump) ",
        "x jump of 1 pulse\n",
        "over 2^40 cycles:\n  board cycle (c51_board_cycle) ",
        "x cycle (c51_cycle)\n  board jump (c51_board_jump) ",
        "x jump (c51_jump)\n",
        "SMOD and TH1 for a wanted speed:\n  speed (c51_speed) ",
        "x speed, plain model\n  speed, plain model ",
        "A frame of 960 cycles in 948 rounds, by wake look and jump, read by interrupt:\n  library ",
        "Planning, for tunnels with 921600 cycles a second:\n  an idle hour                         3317760000 cycles   2211840000 rounds ",
        " s\n  a tag, all its calls included ",
        " us\n  the jump's loop, idle ",
        " ns a round\n  the jump's loop, in a frame ",
        "Tunnels that one core carries in real time, by these times:\n  idle ",
        "\n  with a tag every second ",
        "Run time for 1000 tags",
    ] {
        assert!(out.contains(part), "{part}\n{out}");
    }
    for package in ["sdcc-ucsim", "emu8051"] {
        assert!(out.contains(&format!("not installed (Debian package {package}), left out")), "{out}");
    }
}

#[test]
fn help_and_an_unknown_option() {
    let bench = |word: &str| Command::new(env!("CARGO_BIN_EXE_bench")).arg(word).output().expect("the program runs");
    let ran = bench("--help");
    assert!(ran.status.success() && ran.stdout.starts_with(b"usage: bench"));
    let ran = bench("--slow");
    assert_eq!(ran.status.code(), Some(2));
    let said = String::from_utf8_lossy(&ran.stderr).into_owned();
    assert!(said.contains("unknown options '--slow'") && said.contains("usage: bench"), "{said}");
}
