//! The benchmark: single cycles, offers, the idle station, a device at rest and in power-down, checkpoints, the 82C53 and the board, a
//! speed, a frame, and a thousand tags, next to the plain model and to other programs; and how many tunnels a core carries.
use bench::others::{emu8051, s51, Figure};
use bench::plain::Plain;
use bench::planning::{self, Work, HOUR, STATION};
use bench::tight::Idle;
use bench::timing::{race, seconds, Contender};
use c51::{
    address, control, flag, pcon, pin, port, raw, Board, Device, Interval, CHECKPOINT_52, GATES_HIGH, MAX_CYCLES, PINS_HIGH,
};
use c51model::baud::find_speed;
use c51model::checkpoint;
use c51model::model::set_stage;
use compare::record::{interval_to_model, to_model};
use compare::STAGE;
use station::chips::{Chips, CYCLES_A_SECOND, PASSES};
use station::frame::{frame, Stretch, BIT};
use station::reader::Reader;
use station::run::{Plan, Station};
use std::hint::black_box;
use std::process::exit;

const USAGE: &str = "usage: bench [--quick]
  --quick  run a twentieth of everything, to try the program out
  --help   print this";

/// The runs of each contender.
const RUNS: u32 = 5;
/// Each run is one part of so many: all of it, or a twentieth.
const WHOLE: u64 = 1;
const QUICK: u64 = 20;

fn main() {
    let words: Vec<String> = std::env::args().skip(1).collect();
    let part = match words.iter().map(String::as_str).collect::<Vec<&str>>()[..] {
        [] => WHOLE,
        ["--quick"] => QUICK,
        ["--help"] => return println!("{USAGE}"),
        _ => {
            eprintln!("bench: unknown options '{}'\n{USAGE}", words.join(" "));
            exit(2);
        }
    };
    println!("Times of this machine: {}", processor());
    println!("Each is the best of {RUNS} runs, contenders in turn.");
    single_cycles(part);
    offers(part);
    let per_cycle = idle_station(part);
    at_rest(part);
    power_down(part);
    checkpoints(part);
    interval_timer(part);
    board(part);
    speed(part);
    one_frame(part);
    plan_tunnels(part);
    let s51 = s51();
    let emu8051 = emu8051(&std::env::temp_dir());
    others(&s51, &emu8051, per_cycle);
    thousand_tags(part, per_cycle, &s51, &emu8051);
}

/// The processor's name, where the system tells it.
fn processor() -> String {
    let info = std::fs::read_to_string("/proc/cpuinfo").unwrap_or_default();
    let name = info.lines().find_map(|line| line.strip_prefix("model name")).and_then(|rest| rest.split_once(": "));
    name.map_or("unknown processor", |(_, name)| name).to_string()
}

/// A line for each contender: its time a piece, and how many times that of contender `base` it is.
fn lines(contenders: &[Contender], times: &[f64], pieces: u64, unit: (&str, f64), base: usize) {
    for (contender, time) in contenders.iter().zip(times) {
        let a_piece = time / pieces as f64 * unit.1;
        println!("  {:<34} {:>12.3} {}  {:>8.2} x {}", contender.name, a_piece, unit.0, time / times[base], contenders[base].name);
    }
}

/// All three timers running, serial mode 3 both ways from Timer 2.
fn all_running() -> Device {
    let mut device = Device::reset(52).expect("a kind");
    let writes = [
        (address::TMOD, 0x11),
        (address::RCAP2L, 0xFD),
        (address::RCAP2H, 0xFF),
        (address::TL2, 0xFD),
        (address::TH2, 0xFF),
        (address::T2CON, 0x34),
        (address::SCON, 0xD0),
        (address::SBUF, 0x55),
        (address::TCON, 0x50),
    ];
    for (address, value) in writes {
        device.write(address, value).expect("a register");
    }
    device
}

/// A frame as a pin byte for each cycle.
fn frame_pins() -> Vec<u8> {
    let levels = frame(b'5', None).into_iter().flat_map(|stretch| std::iter::repeat_n(stretch.rxd, stretch.cycles as usize));
    levels.map(|rxd| if rxd == 1 { PINS_HIGH } else { PINS_HIGH & !pin::RXD }).collect()
}

fn single_cycles(part: u64) {
    for (what, device, pins) in [
        ("idle station", planning::idle_station(), vec![PINS_HIGH]),
        ("a frame arriving", planning::idle_station(), frame_pins()),
        ("all timers running, serial mode 3 by Timer 2", all_running(), vec![PINS_HIGH]),
    ] {
        let rounds = 1_000_000 / part / pins.len() as u64;
        let cycles = rounds * pins.len() as u64;
        let model = to_model(&device);
        let mut contenders = [
            Contender::new("in place (c51_cycle)", || {
                let mut device = device;
                for _ in 0..rounds {
                    for &pins in &pins {
                        let a = raw::c51_cycle(&mut device, pins);
                        black_box((a.code, a.line));
                    }
                }
                black_box(device);
            }),
            Contender::new("plain model", || {
                let mut model = model;
                for _ in 0..rounds {
                    for &pins in &pins {
                        black_box(model.cycle(pins)).expect("a cycle");
                    }
                }
                black_box(model);
            }),
        ];
        let times = race(RUNS, &mut contenders);
        println!("\nA single cycle, {what}:");
        lines(&contenders, &times, cycles, ("ns", 1e9), 1);
    }
}

/// Two interrupts ask, that of the serial port with the high priority: IE 92, IP 10, TF0 and TI polled.
fn asked() -> Device {
    let mut device = Device::reset(52).expect("a kind");
    for (address, value) in [(address::IE, 0x92), (address::IP, 0x10), (address::TCON, flag::TF0), (address::SCON, flag::TI)] {
        device.write(address, value).expect("a register");
    }
    device.jump(PINS_HIGH, 2).expect(PASSES);
    device
}

/// Calls of a run where one takes some ten nanoseconds.
const MANY_CALLS: u64 = 1_000_000;
/// Cycles of a frame being sent in which no flag rises and nothing is offered, each a round.
const SENDING: u64 = 80;

/// An offer next to the record check with which it begins, so that the choice of a source is what it takes more; and wake looks,
/// which ask for an offer after every round, next to look aheads.
fn offers(part: u64) {
    let calls = MANY_CALLS / part;
    let device = asked();
    let model = to_model(&device);
    assert_eq!((device.offer(), model.offer()), (Ok(Some(0x23)), Ok(Some(0x23))), "the serial port's vector");
    let mut contenders = [
        Contender::new("offer (c51_offer)", || {
            for _ in 0..calls {
                black_box(raw::c51_offer(black_box(device)));
            }
        }),
        Contender::new("record check (c51_accepts)", || {
            for _ in 0..calls {
                black_box(raw::c51_accepts(black_box(device)));
            }
        }),
        Contender::new("offer, plain model", || {
            for _ in 0..calls {
                black_box(black_box(model).offer()).expect("an offer");
            }
        }),
        Contender::new("wake look that names 0 (c51_wake)", || wake_look(device, 1, calls)),
    ];
    let times = race(RUNS, &mut contenders);
    println!("\nAn offer, two interrupts asking:");
    lines(&contenders, &times, calls, ("ns", 1e9), 1);

    let sending = all_running();
    let mut sent = sending;
    for _ in 0..SENDING {
        sent.cycle(PINS_HIGH).expect("a cycle");
        assert_ne!(sent.serial.send.position, 0, "a frame is under way, so that each cycle is a round");
    }
    assert_eq!(sent.serial.send.position, 11, "its last bit");
    assert_eq!((sending.wake_look(PINS_HIGH, SENDING), sending.look_ahead(PINS_HIGH, SENDING)), (Ok(None), Ok(None)));
    let calls = CALLS / part;
    let mut contenders = [
        Contender::new("wake look (c51_wake)", || wake_look(sending, SENDING, calls)),
        Contender::new("look ahead (c51_look)", || look_ahead(sending, SENDING, calls)),
    ];
    let times = race(RUNS, &mut contenders);
    println!("Looks over {SENDING} cycles of a frame being sent, a cycle:");
    lines(&contenders, &times, calls * SENDING, ("ns", 1e9), 1);
}

/// Gives the library's seconds a cycle.
fn idle_station(part: u64) -> f64 {
    let cycles = 3_000_000 / part;
    let device = planning::idle_station();
    let model = to_model(&device);
    let mut tight = Idle::of(&device);
    let by_hand = tight.jump(cycles);
    let mut jumped = device;
    let rounds = jumped.jump(PINS_HIGH, cycles).expect(PASSES).rounds;
    assert_eq!((jumped, rounds), (tight.device(&device), by_hand), "the loop by hand ends where the library ends, in its rounds");
    let mut contenders = [
        Contender::new("jump in place (c51_jump)", || {
            let mut device = black_box(device);
            device.jump(PINS_HIGH, cycles).expect(PASSES);
            black_box(device);
        }),
        Contender::new("plain model, stepping", || {
            let mut model = black_box(model);
            model.jump(PINS_HIGH, cycles).expect("a jump");
            black_box(model);
        }),
        Contender::new("loop by hand over the same rounds", || {
            let mut idle = Idle::of(&black_box(device));
            black_box(idle.jump(black_box(cycles)));
            black_box(idle.device(&device));
        }),
    ];
    let times = race(RUNS, &mut contenders);
    println!("\nThe idle station, {cycles} cycles in {rounds} rounds, a million cycles:");
    lines(&contenders, &times, cycles, ("ms", 1e9), 2);
    println!("The same, a round:");
    lines(&contenders, &times, rounds, ("ns", 1e9), 1);
    let per_cycle = times[0] / cycles as f64;
    let calls = CALLS / part;
    let mut contenders = [
        Contender::new("look ahead (c51_look)", || look_ahead(device, cycles, calls)),
        Contender::new("wake look (c51_wake)", || wake_look(device, cycles, calls)),
    ];
    let times = race(RUNS, &mut contenders);
    println!("Looks over all of them, in which Timer 1 alone reloads and nothing is found:");
    lines(&contenders, &times, calls, ("ns", 1e9), 0);
    per_cycle
}

/// Calls of a run where one takes well under a microsecond.
const CALLS: u64 = 10_000;

/// Jumps of n cycles, one after the other, of one device in place: at rest and in power-down it stays so, and at most its cycle number
/// moves. No copy of the record is timed with them.
fn jump(mut device: Device, n: u64, calls: u64) {
    for _ in 0..calls {
        black_box(&mut device).jump(PINS_HIGH, n).expect(PASSES);
    }
    black_box(device);
}

/// Look aheads over n cycles, one after the other.
fn look_ahead(device: Device, n: u64, calls: u64) {
    for _ in 0..calls {
        black_box(raw::c51_look(black_box(device), PINS_HIGH, n));
    }
}

/// Wake looks over n cycles, one after the other.
fn wake_look(device: Device, n: u64, calls: u64) {
    for _ in 0..calls {
        black_box(raw::c51_wake(black_box(device), PINS_HIGH, n));
    }
}

fn at_rest(part: u64) {
    let device = Device::reset(52).expect("a kind");
    let calls = CALLS / part;
    let mut contenders = [
        Contender::new("jump of 2^40 cycles", || jump(device, MAX_CYCLES, calls)),
        Contender::new("look ahead over 2^40 cycles", || look_ahead(device, MAX_CYCLES, calls)),
        Contender::new("wake look over 2^40 cycles", || wake_look(device, MAX_CYCLES, calls)),
        Contender::new("jump of 1 cycle", || jump(device, 1, calls)),
    ];
    let times = race(RUNS, &mut contenders);
    println!("\nA device at rest:");
    lines(&contenders, &times, calls, ("ns", 1e9), 3);
}

/// Entries of a trace run, and the most cycles of one.
const ENTRIES: usize = 16;
const MOST_OF_AN_ENTRY: u32 = 0xFF_FFFF;

/// Trace runs, one after the other, in place as the jumps are.
fn trace_run(mut device: Device, entries: &[u32], calls: u64) {
    for _ in 0..calls {
        black_box(&mut device).trace(entries).expect("entries that pass");
    }
    black_box(device);
}

/// Each long call in power-down against the same at rest.
fn power_down(part: u64) {
    let rest = Device::reset(52).expect("a kind");
    let mut down = all_running();
    down.write(address::PCON, pcon::PD).expect("a register");
    let calls = CALLS / part;
    let entries = [u32::from(PINS_HIGH) << 24 | MOST_OF_AN_ENTRY; ENTRIES];
    let mut contenders = [
        Contender::new("jump, power-down", || jump(down, MAX_CYCLES, calls)),
        Contender::new("jump, at rest", || jump(rest, MAX_CYCLES, calls)),
        Contender::new("look ahead, power-down", || look_ahead(down, MAX_CYCLES, calls)),
        Contender::new("look ahead, at rest", || look_ahead(rest, MAX_CYCLES, calls)),
        Contender::new("wake look, power-down", || wake_look(down, MAX_CYCLES, calls)),
        Contender::new("wake look, at rest", || wake_look(rest, MAX_CYCLES, calls)),
        Contender::new("trace run, power-down", || trace_run(down, &entries, calls)),
        Contender::new("trace run, at rest", || trace_run(rest, &entries, calls)),
    ];
    let times = race(RUNS, &mut contenders);
    println!("\nA device in power-down, with all timers set to run, over 2^40 cycles (the trace run over {ENTRIES} entries):");
    for (pair, times) in contenders.chunks(2).zip(times.chunks(2)) {
        lines(pair, times, calls, ("ns", 1e9), 1);
    }
}

/// A save and a load of a device in the middle of a frame, next to the record check, which both make: the save first, the load part by
/// part.
fn checkpoints(part: u64) {
    let calls = MANY_CALLS / part / 10;
    let mut device = all_running();
    device.jump(PINS_HIGH, SENDING / 2).expect(PASSES);
    let file = device.save().expect("a device that is accepted");
    assert_eq!((file.len(), Device::load(&file)), (CHECKPOINT_52, Ok(device)));
    let model = to_model(&device);
    let mut contenders = [
        Contender::new("save (c51_save)", || {
            let mut buffer = [0; CHECKPOINT_52];
            for _ in 0..calls {
                black_box(raw::save(black_box(device), black_box(&mut buffer)));
            }
        }),
        Contender::new("load (c51_load)", || {
            for _ in 0..calls {
                black_box(raw::load(black_box(&file)));
            }
        }),
        Contender::new("record check (c51_accepts)", || {
            for _ in 0..calls {
                black_box(raw::c51_accepts(black_box(device)));
            }
        }),
        Contender::new("save, plain model", || {
            let mut buffer = [0; CHECKPOINT_52];
            for _ in 0..calls {
                black_box(checkpoint::write(black_box(&model), black_box(&mut buffer))).expect("a device that is accepted");
            }
        }),
        Contender::new("load, plain model", || {
            for _ in 0..calls {
                black_box(checkpoint::read(black_box(&file))).expect("a checkpoint");
            }
        }),
    ];
    let times = race(RUNS, &mut contenders);
    println!("\nA checkpoint of {CHECKPOINT_52} bytes:");
    lines(&contenders, &times, calls, ("ns", 1e9), 2);
}

/// An 82C53 whose three counters count: mode 0, mode 2, and mode 2 in BCD.
fn counting() -> Interval {
    let mut interval = Interval::reset();
    for (address, byte) in [
        (port::CONTROL, control::SELECT0 | control::HIGH | control::MODE0),
        (port::CONTROL, control::SELECT1 | control::HIGH | control::MODE2),
        (port::CONTROL, control::SELECT2 | control::HIGH | control::MODE2 | control::BCD),
        (port::COUNTER0, 0x90),
        (port::COUNTER1, 0x80),
        (port::COUNTER2, 0x70),
    ] {
        interval.write(address, byte).expect("a byte that passes");
    }
    interval.jump(GATES_HIGH, 100).expect("pulses");
    interval
}

/// Jumps of n pulses, one after the other, each of the 82C53 as given.
fn pulses(interval: Interval, n: u64, calls: u64) {
    for _ in 0..calls {
        let mut interval = black_box(interval);
        black_box(raw::c53_jump(&mut interval, GATES_HIGH, black_box(n)));
        black_box(interval);
    }
}

fn interval_timer(part: u64) {
    let interval = counting();
    let timer = interval_to_model(&interval).expect("a record within its ranges");
    let calls = CALLS / part;
    let mut contenders = [
        Contender::new("pulse (c53_pulse)", || {
            for _ in 0..calls {
                let mut interval = black_box(interval);
                black_box(raw::c53_pulse(&mut interval, GATES_HIGH));
                black_box(interval);
            }
        }),
        Contender::new("pulse, plain model", || {
            for _ in 0..calls {
                let mut timer = black_box(timer);
                black_box(timer.pulse(GATES_HIGH)).expect("a pulse");
                black_box(timer);
            }
        }),
        Contender::new("jump of 2^40 pulses (c53_jump)", || pulses(interval, MAX_CYCLES, calls)),
        Contender::new("jump of 1 pulse", || pulses(interval, 1, calls)),
    ];
    let times = race(RUNS, &mut contenders);
    println!("\nAn 82C53 with all three counters counting:");
    for (pair, times) in contenders.chunks(2).zip(times.chunks(2)) {
        lines(pair, times, calls, ("ns", 1e9), 1);
    }
}

/// Each call of the board against the same of the chip alone.
fn board(part: u64) {
    let cycles = 1_000_000 / part;
    let calls = CALLS / part;
    let running = Board { device: all_running(), interval: counting() };
    let rest = Board { device: Device::reset(52).expect("a kind"), interval: counting() };
    let mut contenders = [
        Contender::new("board cycle (c51_board_cycle)", || {
            let mut board = running;
            for _ in 0..cycles {
                black_box(raw::c51_board_cycle(&mut board, PINS_HIGH, GATES_HIGH));
            }
            black_box(board);
        }),
        Contender::new("cycle (c51_cycle)", || {
            let mut device = running.device;
            for _ in 0..cycles {
                black_box(raw::c51_cycle(&mut device, PINS_HIGH));
            }
            black_box(device);
        }),
        Contender::new("board jump (c51_board_jump)", || {
            let mut board = rest;
            for _ in 0..calls {
                black_box(raw::c51_board_jump(black_box(&mut board), PINS_HIGH, GATES_HIGH, MAX_CYCLES));
            }
            black_box(board);
        }),
        Contender::new("jump (c51_jump)", || jump(rest.device, MAX_CYCLES, calls)),
    ];
    let times = race(RUNS, &mut contenders);
    println!("\nA board with such an 82C53 beside all timers running, and beside a device at rest, over 2^40 cycles:");
    lines(&contenders[..2], &times[..2], cycles, ("ns", 1e9), 1);
    lines(&contenders[2..], &times[2..], calls, ("ns", 1e9), 1);
}

/// Speeds that are asked for in turn, as crystal, rate and tolerance: found exactly, found within the tolerance, none, and as near on
/// either side.
const SPEEDS: [(u64, u64, u64); 4] =
    [(11_059_200, 9_600, 50), (12_000_000, 4_800, 50), (12_000_000, 9_600, 50), (12_681_216, 257, 10_000)];

fn speed(part: u64) {
    const WITHIN: &str = "numbers within the limits";
    set_stage(STAGE);
    for (crystal, rate, tolerance) in SPEEDS {
        let library = c51::speed(crystal, rate, tolerance).expect(WITHIN).map(|s| (s.smod, s.th1, s.achieved));
        let model = find_speed(crystal, rate, tolerance).expect(WITHIN).map(|s| (s.smod, s.th1, s.achieved));
        assert_eq!(library, model, "the library and the model find the same");
    }
    let rounds = CALLS / part / SPEEDS.len() as u64;
    let mut contenders = [
        Contender::new("speed (c51_speed)", || {
            for _ in 0..rounds {
                for (crystal, rate, tolerance) in black_box(SPEEDS) {
                    black_box(raw::c51_speed(crystal, rate, tolerance));
                }
            }
        }),
        Contender::new("speed, plain model", || {
            for _ in 0..rounds {
                for (crystal, rate, tolerance) in black_box(SPEEDS) {
                    black_box(find_speed(crystal, rate, tolerance)).expect(WITHIN);
                }
            }
        }),
    ];
    let times = race(RUNS, &mut contenders);
    println!("\nSMOD and TH1 for a wanted speed:");
    lines(&contenders, &times, rounds * SPEEDS.len() as u64, ("ns", 1e9), 1);
}

/// Frames one after the other, each read by interrupt. Gives the rounds of the jumps.
fn read_frames<C: Chips>(frames: u64) -> u64 {
    let mut reader: Reader<C> = Reader::new();
    reader.hold(Stretch { rxd: 1, cycles: BIT });
    let before = reader.rounds;
    for number in 0..frames {
        frame(b'0' + (number % 10) as u8, None).into_iter().for_each(|stretch| reader.hold(stretch));
    }
    assert_eq!(reader.take_received().len() as u64, frames);
    reader.rounds - before
}

fn one_frame(part: u64) {
    let frames = 1000 / part;
    let rounds = read_frames::<Board>(frames);
    assert_eq!(rounds, read_frames::<Plain>(frames), "the library and the model have the same rounds");
    let mut contenders = [
        Contender::new("library", || {
            black_box(read_frames::<Board>(frames));
        }),
        Contender::new("plain model", || {
            black_box(read_frames::<Plain>(frames));
        }),
    ];
    let times = race(RUNS, &mut contenders);
    println!("\nA frame of 960 cycles in {} rounds, by wake look and jump, read by interrupt:", rounds / frames);
    lines(&contenders, &times, frames, ("us", 1e6), 1);
}

/// Tags that the time of one is taken of, and jumps within a frame.
const PLANNED_TAGS: u64 = 1_000;
const PLANNED_JUMPS: u64 = 1_000;

/// Rounds and times of a tunnel, and how many of them one core carries.
fn plan_tunnels(part: u64) {
    let hour = planning::idle(RUNS, HOUR / part).times(part as f64);
    let tags = PLANNED_TAGS / part;
    let tag = planning::tags(RUNS, tags).times(1.0 / tags as f64);
    let frame = planning::in_a_frame(RUNS, PLANNED_JUMPS / part);
    let row = |name: &str, work: &Work, unit: (&str, f64)| {
        let Work { cycles, rounds, seconds } = work;
        println!("  {name:<34} {cycles:>12.0} cycles {rounds:>12.0} rounds {:>12.3} {}", seconds * unit.1, unit.0);
    };
    println!("\nPlanning, for tunnels with {CYCLES_A_SECOND} cycles a second:");
    row("an idle hour", &hour, ("s", 1.0));
    row("a tag, all its calls included", &tag, ("us", 1e6));
    for (name, work) in [("the jump's loop, idle", &hour), ("the jump's loop, in a frame", &frame)] {
        println!("  {name:<34} {:>12.1} million rounds a second, {:.2} ns a round", 1e-6 / work.a_round(), 1e9 * work.a_round());
    }
    println!("Tunnels that one core carries in real time, by these times:");
    for (name, tags_an_hour) in [("idle", 0), ("with a tag every minute", 60), ("with a tag every second", 3_600)] {
        println!("  {name:<34} {:>12}", planning::tunnels(tags_an_hour, &hour, &tag));
    }
}

fn others(s51: &Figure, emu8051: &Figure, per_cycle: f64) {
    println!("\nOther programs on the idle station, a million cycles:");
    for (name, figure) in [("s51, tick", s51), ("emu8051, with its instructions", emu8051)] {
        match figure {
            Ok(seconds) => println!("  {name:<34} {:>12.3} ms  {:>8.2} x jump in place", seconds * 1e9, seconds / per_cycle),
            Err(why) => println!("  {name:<34} {why}"),
        }
    }
}

/// The time of `tags` tags at one station.
fn read_tags<C: Chips>(gap: u64, tags: u64) -> f64 {
    let plan = Plan { stations: STATION, tags, gap, seed: 1, noise: 1, chosen: Vec::new() };
    let mut station: Station<C> = Station::new(STATION, plan.seed);
    seconds(|| {
        for _ in 0..tags {
            assert!(station.read_tag(&plan, None).right(), "a tag as sent");
        }
    })
}

fn thousand_tags(part: u64, per_cycle: f64, s51: &Figure, emu8051: &Figure) {
    const TAGS: u64 = 1000;
    const GAPS: [u64; 2] = [1, 60];
    println!("\nRun time for {TAGS} tags, with a gap of {} s and of {} s before each:", GAPS[0], GAPS[1]);
    let row = |name: &str, times: [f64; 2], how: &str| println!("  {name:<16} {:>10.2} s {:>10.2} s   {how}", times[0], times[1]);

    let budget = 4.0 / part as f64;
    let counts = GAPS.map(|gap| ((budget / (2.0 * per_cycle * (gap * CYCLES_A_SECOND) as f64)) as u64).clamp(1, TAGS));
    let library = [0, 1].map(|i| read_tags::<Board>(GAPS[i] * CYCLES_A_SECOND, counts[i]) * TAGS as f64 / counts[i] as f64);
    row("library", library, &format!("measured on {} and {} tags", counts[0], counts[1]));

    let tags = (20 / part).max(2);
    let [short, long] = [CYCLES_A_SECOND / 100, CYCLES_A_SECOND / 10].map(|gap| (gap, read_tags::<Plain>(gap, tags) / tags as f64));
    let slope = (long.1 - short.1) / (long.0 - short.0) as f64;
    let model = GAPS.map(|gap| TAGS as f64 * (long.1 + slope * (gap * CYCLES_A_SECOND - long.0) as f64));
    row(
        "plain model",
        model,
        &format!("measured on scaled-down gaps of 0.01 s and 0.1 s, {tags} tags each, and extended in proportion"),
    );

    for (name, figure) in [("s51", s51), ("emu8051", emu8051)] {
        match figure {
            Ok(seconds) => {
                let idle = GAPS.map(|gap| TAGS as f64 * seconds * (gap * CYCLES_A_SECOND) as f64);
                row(name, idle, "the gaps alone, from its time a cycle above");
            }
            Err(why) => println!("  {name:<16} {why}"),
        }
    }
}
