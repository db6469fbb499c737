//! Fresh random records of any content and random lists of calls, beside those of the model's generator.
use crate::files::{file_of, some_file};
use crate::pair::{Pair, Tally};
use crate::speeds::speed_call;
use crate::{entry, STAGE};
use c51::{address, control, flag, pcon, port};
use c51::{Board, Counter, Device, Interval, Timer2, GATES_HIGH, MAX_CYCLES, PINS_HIGH};
use random::Rng;
use replay::board::BoardCall;
use replay::calls::{Call, Request};
use replay::record::FIELDS;
use std::path::Path;
use std::process::Command;

/// What a program writes.
fn written(program: &mut Command) -> Result<String, String> {
    let ran = program.output().map_err(|why| format!("{program:?}: {why}"))?;
    if !ran.status.success() {
        return Err(format!("{program:?}: {}", String::from_utf8_lossy(&ran.stderr)));
    }
    String::from_utf8(ran.stdout).map_err(|why| why.to_string())
}

/// The styles that the model's generator has at our stage.
pub fn styles() -> Result<Vec<String>, String> {
    let list = concat!(env!("CARGO_MANIFEST_DIR"), "/../../model/styles.sh");
    let names = written(Command::new("sh").args([list, &STAGE.to_string()]))?;
    Ok(names.split_whitespace().map(str::to_string).collect())
}

/// A script of the model's generator, which stands at `generator`, for our stage.
pub fn script(generator: &Path, seed: u64, lines: u64, style: &str) -> Result<String, String> {
    written(Command::new(generator).args([&seed.to_string(), &lines.to_string(), style, &STAGE.to_string()]))
}

/// The addresses of the registers.
const REGISTERS: [u8; 16] = [
    address::PCON,
    address::TCON,
    address::TMOD,
    address::TL0,
    address::TL1,
    address::TH0,
    address::TH1,
    address::SCON,
    address::SBUF,
    address::IE,
    address::IP,
    address::T2CON,
    address::RCAP2L,
    address::RCAP2H,
    address::TL2,
    address::TH2,
];

/// A record of any bytes.
fn any_record(rng: &mut Rng) -> Device {
    let mut device = Device::default();
    FIELDS.iter().for_each(|field| (field.set)(&mut device, rng.number()));
    device
}

/// Of so many random values for PCON one has PD: in power-down little else can be told apart.
const POWER_DOWN: u64 = 8;

/// A random value for PCON.
fn some_pcon(rng: &mut Rng) -> u8 {
    let pd = if rng.one_in(POWER_DOWN) { pcon::PD } else { 0 };
    rng.byte() & !pcon::PD | pd
}

/// The bits of a register other than its flags; of T2CON also without RCLK and TCLK, with which TF2 does not rise.
fn but_flags(address: u8) -> u8 {
    match address {
        address::TCON => !(flag::TF1 | flag::TF0 | flag::IE1 | flag::IE0),
        address::SCON => !(flag::TI | flag::RI),
        address::T2CON => 0x0F,
        _ => 0xFF,
    }
}

/// TMOD without gates and counters; TR0 and TR1 of TCON; TR2 of T2CON.
const TIMERS: u8 = 0x33;
const RUN: u8 = 0x50;
const RUN_2: u8 = 0x04;
/// The mode of Timer 0 in TMOD: in mode 3 Timer 1 counts without TR1.
const TIMER_0_MODE: u8 = 0x03;

/// A record of any content within the ranges and masks: reachable or not, it is accepted. In half of them counts are
/// about to overflow and laps are short, and in half of them timers run.
pub fn good_record(rng: &mut Rng) -> Device {
    let mut d = any_record(rng);
    d.kind = rng.pick(&[51, 52, 52]);
    d.pcon = some_pcon(rng) & 0x8F;
    d.interrupts.ie &= 0xBF;
    for field in [&mut d.interrupts.ip, &mut d.interrupts.seen, &mut d.interrupts.polled] {
        *field &= 0x3F;
    }
    let last_position = if d.serial.scon >= 0x80 { 11 } else { 10 };
    d.serial.send.position %= last_position + 1;
    d.serial.receive.position %= last_position + 1;
    d.serial.send.value &= 0x1FF;
    d.serial.receive.value &= 0x1FF;
    d.serial.send.counter &= 15;
    d.serial.receive.counter &= 15;
    d.serial.receive.votes %= 3;
    let bits = [&mut d.serial.receive.sample, &mut d.serial.half, &mut d.timers.due0, &mut d.timers.due1, &mut d.timer2.due2];
    for field in bits.into_iter().chain([&mut d.interrupts.low, &mut d.interrupts.high]).chain(&mut d.levels) {
        *field &= 1;
    }
    if rng.one_in(2) {
        let (t, t2) = (&mut d.timers, &mut d.timer2);
        for count in [&mut t.tl0, &mut t.tl1, &mut t.th0, &mut t.th1, &mut t2.tl2, &mut t2.th2, &mut t2.rcap2l, &mut t2.rcap2h] {
            *count |= rng.pick(&[0xFF, 0xFC, 0xF0]);
        }
    }
    if rng.one_in(2) {
        d.timers.tmod &= TIMERS;
        d.timers.tcon |= RUN;
        d.timer2.t2con |= RUN_2;
    }
    if rng.one_in(2) {
        d.timers.tcon &= but_flags(address::TCON);
        d.serial.scon &= but_flags(address::SCON);
        d.timer2.t2con &= but_flags(address::T2CON);
    }
    if rng.one_in(8) {
        d.cycle = u64::MAX - rng.below(4);
    }
    for (ever, number) in d.times.ever.iter_mut().zip(&mut d.times.number) {
        *ever &= 1;
        *number = if *ever == 1 { rng.pick(&[0, 1, d.cycle, u64::MAX, *number]) } else { 0 };
    }
    if d.kind == 51 {
        d.interrupts.ie &= 0x9F;
        d.interrupts.ip &= 0x1F;
        d.timer2 = Timer2::default();
    }
    d
}

/// A record that is accepted and would rest with all pins high, but for one thing or none, so that many a cycle is busy for one
/// reason alone.
fn nearly_at_rest(rng: &mut Rng) -> Device {
    let mut d = good_record(rng);
    d.pcon &= !pcon::PD;
    d.timers.tcon &= but_flags(address::TCON) & !RUN;
    d.timers.tmod &= !TIMER_0_MODE;
    d.timer2.t2con &= but_flags(address::T2CON) & !RUN_2;
    d.serial.scon &= but_flags(address::SCON);
    (d.serial.send.position, d.serial.receive.position) = (0, 0);
    (d.timers.due0, d.timers.due1, d.timer2.due2) = (0, 0, 0);
    (d.interrupts.seen, d.interrupts.polled, d.levels) = (0, 0, [1; 7]);
    let of_timer_2 = d.kind == 52;
    match rng.below(12) {
        0 => d.serial.send.position = rng.between(1, 10) as u8,
        1 => d.serial.receive.position = rng.between(1, 10) as u8,
        2 => d.timers.tcon |= rng.pick(&[flag::TF1, flag::TF0, flag::IE1, flag::IE0]),
        3 => d.serial.scon |= rng.pick(&[flag::RI, flag::TI]),
        4 if of_timer_2 => d.timer2.t2con |= rng.pick(&[flag::TF2, flag::EXF2]),
        5 => d.levels[rng.below(7) as usize] = 0,
        6 if of_timer_2 => d.timer2.due2 = 1,
        7 => (d.timers.due0, d.timers.due1) = rng.pick(&[(0, 1), (1, 0)]),
        8 => d.interrupts.seen = 1 << rng.below(6),
        9 => d.interrupts.polled = 1 << rng.below(6),
        10 => {
            d.interrupts.seen = 1 << rng.below(6);
            d.interrupts.polled = d.interrupts.seen;
        }
        _ => {}
    }
    d
}

/// A good record with a field or two as another record has them, often just outside its range.
fn spoilt_record(rng: &mut Rng) -> Device {
    let mut d = good_record(rng);
    let wild = any_record(rng);
    for _ in 0..rng.between(1, 2) {
        match rng.below(24) {
            0 => d.kind = rng.pick(&[0, 50, 51, 52, 53, wild.kind]),
            1 => d.pcon = wild.pcon,
            2 => d.interrupts.ie = wild.interrupts.ie,
            3 => d.interrupts.ip = rng.pick(&[0x1F, 0x20, 0x3F, 0x40, wild.interrupts.ip]),
            4 => d.timer2 = Timer2 { due2: d.timer2.due2, ..wild.timer2 },
            5 => d.timer2.due2 = rng.pick(&[1, 2, wild.timer2.due2]),
            6 => d.timers.due0 = rng.pick(&[2, wild.timers.due0]),
            7 => d.timers.due1 = rng.pick(&[2, wild.timers.due1]),
            8 => d.serial.scon = wild.serial.scon,
            9 => d.serial.send.position = rng.pick(&[10, 11, 12, wild.serial.send.position]),
            10 => d.serial.send.value = rng.pick(&[511, 512, wild.serial.send.value]),
            11 => d.serial.send.counter = rng.pick(&[15, 16, wild.serial.send.counter]),
            12 => d.serial.receive.position = rng.pick(&[10, 11, 12, wild.serial.receive.position]),
            13 => d.serial.receive.value = rng.pick(&[511, 512, wild.serial.receive.value]),
            14 => d.serial.receive.counter = rng.pick(&[15, 16, wild.serial.receive.counter]),
            15 => d.serial.receive.votes = rng.pick(&[2, 3, wild.serial.receive.votes]),
            16 => d.serial.receive.sample = rng.pick(&[2, wild.serial.receive.sample]),
            17 => d.serial.half = rng.pick(&[2, wild.serial.half]),
            18 => {
                let field = rng.pick(&[0, 1, 2, 3]);
                let interrupts = &mut d.interrupts;
                *[&mut interrupts.seen, &mut interrupts.polled, &mut interrupts.low, &mut interrupts.high][field] =
                    rng.pick(&[2, 63, 64, wild.interrupts.seen]);
            }
            19 => d.levels[rng.below(7) as usize] = rng.pick(&[2, 255]),
            _ => {
                let flag = rng.below(8) as usize;
                d.times.ever[flag] = rng.pick(&[0, 0, 0, 2, 255, wild.times.ever[flag]]);
                d.times.number[flag] = rng.pick(&[0, 1, 256, 1 << 63, u64::MAX, wild.times.number[flag]]);
            }
        }
    }
    d
}

/// A record of any content: half of them accepted.
pub fn raw_record(rng: &mut Rng) -> Device {
    match rng.below(8) {
        0 => any_record(rng),
        1..=3 => spoilt_record(rng),
        _ => good_record(rng),
    }
}

/// A counter of any content.
fn any_counter(rng: &mut Rng) -> Counter {
    Counter {
        mode: rng.byte(),
        bcd: rng.byte(),
        format: rng.byte(),
        output: rng.byte(),
        gate: rng.byte(),
        loaded: rng.byte(),
        waits: rng.byte(),
        first: rng.byte(),
        low: rng.byte(),
        high: rng.byte(),
        latched: rng.byte(),
        count: rng.number() as u16,
        reload: rng.number() as u16,
        waiting: rng.number() as u16,
        latch: rng.number() as u16,
    }
}

/// A count, often next to the ends of its range.
fn some_count(rng: &mut Rng, bcd: u8) -> u16 {
    let most = if bcd == 1 { 9_999 } else { u16::MAX.into() };
    let count = match rng.below(4) {
        0 => rng.below(4),
        1 => most - rng.below(4),
        2 => rng.below(50),
        _ => rng.between(0, most),
    };
    count as u16
}

/// A counter of any content within the ranges: reachable or not, it is accepted.
fn good_counter(rng: &mut Rng) -> Counter {
    let wild = any_counter(rng);
    let bcd = wild.bcd & 1;
    Counter {
        mode: wild.mode & 2,
        bcd,
        format: 1 + wild.format % 3,
        output: wild.output & 1,
        gate: wild.gate & 1,
        loaded: wild.loaded & 1,
        waits: wild.waits & 1,
        first: wild.first & 1,
        low: wild.low,
        high: wild.high & 1,
        latched: wild.latched & 1,
        count: some_count(rng, bcd),
        reload: some_count(rng, bcd),
        waiting: some_count(rng, bcd),
        latch: some_count(rng, bcd),
    }
}

/// A good counter with a field just outside its range, or as another counter has it.
fn spoilt_counter(rng: &mut Rng) -> Counter {
    let mut k = good_counter(rng);
    let wild = any_counter(rng);
    let mark = rng.pick(&[2, 3, 255, wild.bcd]);
    let count = rng.pick(&[9_999, 10_000, 65_535, wild.count]);
    match rng.below(14) {
        0 => k.mode = rng.pick(&[1, 3, 4, 6, wild.mode]),
        1 => k.format = rng.pick(&[0, 4, 255, wild.format]),
        2 => k.bcd = mark,
        3 => k.output = mark,
        4 => k.gate = mark,
        5 => k.loaded = mark,
        6 => k.waits = mark,
        7 => k.first = mark,
        8 => k.high = mark,
        9 => k.latched = mark,
        10 => (k.bcd, k.count) = (1, count),
        11 => (k.bcd, k.reload) = (1, count),
        12 => (k.bcd, k.waiting) = (1, count),
        _ => (k.bcd, k.latch) = (1, count),
    }
    k
}

fn good_interval(rng: &mut Rng) -> Interval {
    Interval { counter0: good_counter(rng), counter1: good_counter(rng), counter2: good_counter(rng) }
}

/// An 82C53 of any content: half of them accepted.
pub fn raw_interval(rng: &mut Rng) -> Interval {
    let good = good_interval(rng);
    match rng.below(8) {
        0 => Interval { counter0: any_counter(rng), counter1: any_counter(rng), counter2: any_counter(rng) },
        1 => Interval { counter0: spoilt_counter(rng), ..good },
        2 => Interval { counter1: spoilt_counter(rng), ..good },
        3 => Interval { counter2: spoilt_counter(rng), ..good },
        _ => good,
    }
}

/// A pin byte, sometimes with bit 7 set.
fn pins(rng: &mut Rng) -> u8 {
    match rng.below(8) {
        0 => rng.byte(),
        1..=3 => PINS_HIGH,
        _ => rng.byte() & PINS_HIGH,
    }
}

/// A number of cycles that the model can step, or one that is refused.
fn cycles(rng: &mut Rng, most: u64) -> u64 {
    match rng.below(24) {
        0 => 0,
        1 => MAX_CYCLES + rng.between(1, 3),
        2 => rng.number() | 1 << 63,
        _ => rng.between(1, most),
    }
}

fn trace(rng: &mut Rng, most: u64) -> Vec<u32> {
    let bad = rng.one_in(4);
    (0..rng.below(6))
        .map(|_| {
            let pins = if bad { pins(rng) } else { rng.byte() & PINS_HIGH };
            let cycles = if bad && rng.one_in(4) { 0 } else { rng.between(1, most) };
            entry(pins, cycles)
        })
        .collect()
}

/// A register's address, sometimes any address.
fn some_address(rng: &mut Rng) -> u8 {
    if rng.one_in(8) {
        rng.byte()
    } else {
        rng.pick(&REGISTERS)
    }
}

/// A value to write; half of the counts are about to overflow, half of the timers run, and half of the flags are 0, so
/// that they rise.
fn some_value(rng: &mut Rng, address: u8) -> u8 {
    let value = rng.byte();
    match address {
        address::PCON => some_pcon(rng),
        _ if rng.one_in(2) => value,
        address::TL0..=address::TH1 | address::RCAP2L..=address::TH2 => value | 0xFC,
        address::TMOD => value & TIMERS,
        address::TCON => value & but_flags(address) | RUN,
        address::T2CON => value & but_flags(address) | RUN_2,
        _ => value & but_flags(address),
    }
}

/// The names of the calls.
#[derive(Clone, Copy)]
enum Name {
    Write,
    Read,
    Cycle,
    Jump,
    Trace,
    Look,
    Offer,
    Take,
    Return,
    Reset,
    Wake,
}

const NAMES: [Name; 11] = [
    Name::Write,
    Name::Read,
    Name::Cycle,
    Name::Jump,
    Name::Trace,
    Name::Look,
    Name::Offer,
    Name::Take,
    Name::Return,
    Name::Reset,
    Name::Wake,
];

/// The call of that name with random arguments.
fn call(rng: &mut Rng, name: Name, most: u64) -> Call {
    match name {
        Name::Write => {
            let address = some_address(rng);
            Call::Write(address, some_value(rng, address))
        }
        Name::Read => Call::Read(some_address(rng)),
        Name::Cycle => Call::Cycle(pins(rng)),
        Name::Jump => Call::Jump(pins(rng), cycles(rng, most)),
        Name::Trace => Call::Trace(trace(rng, most)),
        Name::Look => Call::Look(pins(rng), cycles(rng, most)),
        Name::Offer => Call::Offer,
        Name::Take => Call::Take,
        Name::Return => Call::Return,
        Name::Reset => Call::Reset(rng.pick(&[51, 52, 52, 53, 0, 255])),
        Name::Wake => Call::Wake(pins(rng), cycles(rng, most)),
    }
}

/// The names of the calls of the 82C53 and of the board.
#[derive(Clone, Copy)]
enum BoardName {
    Reset,
    Write,
    Read,
    Pulse,
    Pulses,
    Cycle,
    Jump,
}

const BOARD_NAMES: [BoardName; 7] =
    [BoardName::Reset, BoardName::Write, BoardName::Read, BoardName::Pulse, BoardName::Pulses, BoardName::Cycle, BoardName::Jump];

/// A gate byte, sometimes above 7.
fn gates(rng: &mut Rng) -> u8 {
    match rng.below(16) {
        0 => rng.byte(),
        1..=7 => GATES_HIGH,
        _ => rng.byte() & GATES_HIGH,
    }
}

/// A control word, often a latch, sometimes any.
fn control_word(rng: &mut Rng) -> u8 {
    let select = rng.pick(&[control::SELECT0, control::SELECT1, control::SELECT2]);
    match rng.below(8) {
        0 => rng.byte(),
        1..=3 => select | control::LATCH | rng.below(16) as u8,
        _ => {
            let format = rng.pick(&[control::LOW, control::HIGH, control::BOTH, control::BOTH]);
            select | format | rng.pick(&[control::MODE0, control::MODE2]) | rng.pick(&[0, control::BCD])
        }
    }
}

/// A byte of a count, small as a rule, so that counts end.
fn count_byte(rng: &mut Rng) -> u8 {
    match rng.below(4) {
        0 => rng.byte(),
        1 => 0,
        _ => rng.below(10) as u8,
    }
}

/// A number of pulses, sometimes of several laps, or the longest.
fn pulses(rng: &mut Rng, most: u64) -> u64 {
    match rng.below(24) {
        0 => rng.below(200_000),
        1 => MAX_CYCLES - rng.below(3),
        _ => cycles(rng, most),
    }
}

/// The call of that name with random arguments.
fn board_call(rng: &mut Rng, name: BoardName, most: u64) -> BoardCall {
    match name {
        BoardName::Reset => BoardCall::Reset,
        BoardName::Write => match rng.below(10) {
            0 => BoardCall::Write(rng.byte(), rng.byte()),
            1..=3 => BoardCall::Write(port::CONTROL, control_word(rng)),
            _ => BoardCall::Write(rng.below(3) as u8, count_byte(rng)),
        },
        BoardName::Read if rng.one_in(16) => BoardCall::Read(rng.byte()),
        BoardName::Read => BoardCall::Read(rng.below(3) as u8),
        BoardName::Pulse => BoardCall::Pulse(gates(rng)),
        BoardName::Pulses => BoardCall::Pulses(gates(rng), pulses(rng, most)),
        BoardName::Cycle => BoardCall::Cycle(pins(rng), gates(rng)),
        BoardName::Jump => BoardCall::Jump(pins(rng), gates(rng), cycles(rng, most)),
    }
}

/// Runs every call on one board of raw records, and jumps of a device that nearly rests.
pub fn run_record(rng: &mut Rng) -> Result<Tally, String> {
    let pair = Pair::of_board(Board { device: raw_record(rng), interval: raw_interval(rng) });
    let mut tally = Tally::default();
    for name in NAMES {
        tally += pair.clone().run([Request::Call(call(rng, name, 8))])?;
    }
    for name in BOARD_NAMES {
        tally += pair.clone().run([Request::Board(board_call(rng, name, 8))])?;
    }
    for request in [Request::Save, Request::Load(some_file(rng))] {
        tally += pair.clone().run([request])?;
    }
    let pair = Pair::of_record(nearly_at_rest(rng));
    let n = rng.pick(&[0, 1, 2, 3, 4, 9, 40]);
    for request in [Request::Call(Call::Jump(PINS_HIGH, n)), Request::Board(BoardCall::Jump(PINS_HIGH, GATES_HIGH, n))] {
        tally += pair.clone().run([request])?;
    }
    Ok(tally)
}

/// The name of a list's next call: now and then a reset; of the others 6 of 19 are writes, and a read, a cycle, a jump or a trace comes
/// twice as often as a look ahead, a wake look, an offer, a take or a return. Writes that set IDL come beside these (`next_call`).
fn next_name(rng: &mut Rng) -> Name {
    if rng.one_in(200) {
        return Name::Reset;
    }
    match rng.below(19) {
        0..=5 => Name::Write,
        6..=7 => Name::Read,
        8..=9 => Name::Cycle,
        10..=11 => Name::Jump,
        12..=13 => Name::Trace,
        _ => rng.pick(&[Name::Look, Name::Wake, Name::Offer, Name::Take, Name::Return]),
    }
}

/// The name of a list's next call of the 82C53 or of the board: 4 of 14 are writes, and the others come alike, but for few resets.
fn next_board_name(rng: &mut Rng) -> BoardName {
    if rng.one_in(40) {
        return BoardName::Reset;
    }
    match rng.below(14) {
        0..=3 => BoardName::Write,
        _ => rng.pick(&[BoardName::Read, BoardName::Pulse, BoardName::Pulses, BoardName::Cycle, BoardName::Jump]),
    }
}

/// Calls of a list: one of so many asks for a speed; of the others one of so many saves or loads a checkpoint; of the others one of so
/// many is of the 82C53 or of the board; of the rest one of so many puts the device to sleep, and in power-down one of so many ends it.
const SPEED: u64 = 25;
const CHECKPOINT: u64 = 20;
const BOARD: u64 = 3;
const SLEEP: u64 = 20;
const END_OF_POWER_DOWN: u64 = 10;

/// A list's next call of the chip.
fn next_call(rng: &mut Rng, powered_down: bool, most: u64) -> Call {
    if powered_down && rng.one_in(END_OF_POWER_DOWN) {
        Call::Reset(rng.pick(&[51, 52]))
    } else if rng.one_in(SLEEP) {
        Call::Write(address::PCON, some_pcon(rng) | pcon::IDL)
    } else {
        let name = next_name(rng);
        call(rng, name, most)
    }
}

/// A list's next save or load. Most files pass: after one that does not, every call but a reset or a load is refused.
fn next_checkpoint(rng: &mut Rng) -> Request {
    match rng.below(8) {
        0..=3 => Request::Save,
        4..=6 => Request::Load(file_of(&good_record(rng))),
        _ => Request::Load(some_file(rng)),
    }
}

/// Whether PD is set after a call, with what it was before.
fn powers_down(before: bool, call: &Call) -> bool {
    match *call {
        Call::Reset(_) => false,
        Call::Write(address::PCON, value) => before || value & pcon::PD != 0,
        _ => before,
    }
}

/// Runs a random list from reset or from raw records.
pub fn run_list(rng: &mut Rng, length: u64) -> Result<Tally, String> {
    let interval = match rng.below(3) {
        0 => good_interval(rng),
        _ => Interval::reset(),
    };
    let mut powered_down = false;
    let mut refused = false;
    let first = match rng.below(3) {
        0 => {
            let device = good_record(rng);
            powered_down = device.pcon & pcon::PD != 0;
            Request::Put(Box::new(device))
        }
        _ => Request::Call(Call::Reset(rng.pick(&[51, 52]))),
    };
    let most = rng.pick(&[3, 30, 300, 3000]);
    let calls = (1..length).map(|_| {
        if refused && rng.one_in(2) {
            (refused, powered_down) = (false, false);
            return Request::Call(Call::Reset(rng.pick(&[51, 52])));
        }
        if rng.one_in(SPEED) {
            return Request::Speed(speed_call(rng));
        }
        if rng.one_in(CHECKPOINT) {
            let request = next_checkpoint(rng);
            if let Request::Load(file) = &request {
                let loaded = Device::load(file);
                refused = loaded.is_err();
                powered_down = loaded.is_ok_and(|device| device.pcon & pcon::PD != 0);
            }
            return request;
        }
        if rng.one_in(BOARD) {
            let name = next_board_name(rng);
            return Request::Board(board_call(rng, name, most));
        }
        let call = next_call(rng, powered_down, most);
        powered_down = powers_down(powered_down, &call);
        Request::Call(call)
    });
    Pair::of_board(Board { device: Device::default(), interval }).run(std::iter::once(first).chain(calls))
}
