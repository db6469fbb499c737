//! The 82C53 and the board that has both chips: what each counter does, each refusal and what it leaves, and jumps against single
//! pulses and cycles.
use c51::raw::{c51_board_jump, BoardJumpAnswer};
use c51::{address, control, flag, gate, out, pcon, port};
use c51::{Board, BoardJump, Counter, Device, Flag, Interval, Jump, Refusal, Totals, GATES_HIGH, MAX_CYCLES, PINS_HIGH};

const MODE0: u8 = control::BOTH | control::MODE0;
const MODE2: u8 = control::BOTH | control::MODE2;
const BCD: u8 = control::BCD;
const LATCH: u8 = control::SELECT0 | control::LATCH;

/// Counter 0 after a control word for both bytes, with these two bytes written; those of a BCD count are its digits.
fn counting(word: u8, count: u16) -> Interval {
    let mut interval = Interval::reset();
    interval.write(port::CONTROL, control::SELECT0 | word).unwrap();
    write_count(&mut interval, count);
    interval
}

fn write_count(interval: &mut Interval, count: u16) {
    for byte in count.to_le_bytes() {
        interval.write(port::COUNTER0, byte).unwrap();
    }
}

/// Both bytes of counter 0, read.
fn read_count(interval: &mut Interval) -> u16 {
    u16::from_le_bytes([(); 2].map(|()| interval.read(port::COUNTER0).unwrap()))
}

/// The outputs after each of some pulses with one gate byte.
fn pulses<const N: usize>(interval: &mut Interval, gates: u8) -> [u8; N] {
    [(); N].map(|()| interval.pulse(gates).unwrap())
}

#[test]
fn reset() {
    let counter = Counter { format: 3, ..Counter::default() };
    let interval = Interval::reset();
    assert_eq!(interval, Interval { counter0: counter, counter1: counter, counter2: counter });
    assert!(interval.accepts() && !Interval::default().accepts());
    assert_eq!(interval.outputs(), 0);
    assert_eq!(Board::reset(52), Ok(Board { device: Device::reset(52).unwrap(), interval }));
    assert_eq!(Board::reset(53), Err(Refusal::BadKind));
}

/// The loading pulse does not count; at 0 the output rises, and counting goes on below it.
#[test]
fn a_mode_0_count_of_3_ends_in_pulse_4() {
    let mut interval = counting(MODE0, 3);
    assert_eq!(pulses(&mut interval, 1), [0, 0, 0, 1]);
    assert_eq!(read_count(&mut interval), 0);
    assert_eq!(pulses(&mut interval, 1), [1]);
    assert_eq!(read_count(&mut interval), 0xFFFF);
    // with the gate low it is loaded and not counted
    let mut interval = counting(MODE0, 3);
    assert_eq!(pulses(&mut interval, 0), [0; 5]);
    assert_eq!(read_count(&mut interval), 3);
    assert_eq!(pulses(&mut interval, 1), [0, 0, 1]);
}

#[test]
fn a_mode_2_count_of_3_is_low_in_one_pulse_of_three() {
    for word in [MODE2, MODE2 | BCD, MODE2 | 0x08] {
        assert_eq!(pulses(&mut counting(word, 3), 1), [1, 1, 0, 1, 1, 0, 1, 1, 0], "control word {word:02X}");
    }
}

#[test]
fn nothing_counts_before_a_whole_count() {
    let mut interval = Interval::reset();
    // the record has the gates high from here on
    interval.pulse(GATES_HIGH).unwrap();
    for word in [MODE0, MODE2] {
        for (address, byte) in [(port::CONTROL, word), (port::COUNTER0, 5)] {
            interval.write(address, byte).unwrap();
            let given = interval;
            // the most pulses would be whole laps
            for n in [1, MAX_CYCLES] {
                assert_eq!(interval.jump(GATES_HIGH, n), Ok(given.outputs()));
                assert_eq!(interval, given);
            }
        }
        assert_eq!(read_count(&mut interval), 0);
    }
}

#[test]
fn a_count_of_0_is_the_largest() {
    for (bcd, laps, top) in [(0, 65_536, 0xFFFF), (BCD, 10_000, 0x9999)] {
        let mut interval = counting(MODE0 | bcd, 0);
        assert_eq!(pulses(&mut interval, 1), [0, 0]);
        assert_eq!(read_count(&mut interval), top);
        assert_eq!(interval.jump(1, laps - 2), Ok(0), "all of them but one");
        assert_eq!(pulses(&mut interval, 1), [1]);

        let mut interval = counting(MODE2 | bcd, 0);
        assert_eq!(interval.jump(1, laps - 1), Ok(1));
        assert_eq!(pulses(&mut interval, 1), [0, 1]);
        assert_eq!(read_count(&mut interval), 0);
        assert_eq!(interval.jump(1, laps - 1), Ok(0));
    }
}

#[test]
fn latches() {
    // taken between the low and the high byte: the high byte is the latched one, and it frees the latch
    let mut interval = counting(MODE0, 0x0201);
    interval.pulse(1).unwrap();
    assert_eq!(interval.read(port::COUNTER0), Ok(0x01));
    interval.write(port::CONTROL, LATCH).unwrap();
    interval.jump(1, 2).unwrap();
    assert_eq!(interval.read(port::COUNTER0), Ok(0x02));
    assert_eq!(read_count(&mut interval), 0x01FF);
    // a second one meanwhile is ignored, also between the bytes; its low bits may be anything
    interval.write(port::CONTROL, LATCH | 0x0F).unwrap();
    interval.jump(1, 0x100).unwrap();
    interval.write(port::CONTROL, LATCH).unwrap();
    assert_eq!(interval.read(port::COUNTER0), Ok(0xFF));
    interval.write(port::CONTROL, LATCH).unwrap();
    assert_eq!(interval.read(port::COUNTER0), Ok(0x01));
    assert_eq!(read_count(&mut interval), 0x00FF);
    // one byte read frees it where one is all; a control word drops it
    for format in [control::LOW, control::HIGH] {
        interval.write(port::CONTROL, format).unwrap();
        interval.write(port::COUNTER0, 7).unwrap();
        interval.pulse(1).unwrap();
        interval.write(port::CONTROL, LATCH).unwrap();
        interval.pulse(1).unwrap();
        assert_eq!([interval.read(port::COUNTER0), interval.read(port::COUNTER0)], [Ok(7), Ok(6)]);
        interval.write(port::CONTROL, LATCH).unwrap();
        interval.write(port::CONTROL, MODE0).unwrap();
        assert_eq!(interval.counter0.latched, 0);
    }
}

/// It stops where it is, with the output as it is; the output falls when the second byte completes the new count.
#[test]
fn the_first_of_two_bytes_stops_a_mode_0_count() {
    let mut interval = counting(MODE0, 9);
    interval.jump(1, 3).unwrap();
    interval.write(port::COUNTER0, 1).unwrap();
    assert_eq!(interval.jump(1, MAX_CYCLES), Ok(0));
    assert_eq!(read_count(&mut interval), 7);
    interval.write(port::COUNTER0, 0).unwrap();
    assert_eq!(pulses(&mut interval, 1), [0, 1]);
    interval.write(port::COUNTER0, 5).unwrap();
    assert_eq!(pulses(&mut interval, 1), [1; 4]);
    assert_eq!(read_count(&mut interval), 0);
    interval.write(port::COUNTER0, 0).unwrap();
    assert_eq!(interval.outputs(), 0);
    assert_eq!(pulses(&mut interval, 1), [0, 0, 0, 0, 0, 1]);
    // a whole count that waits is loaded all the same
    let mut interval = counting(MODE0, 9);
    interval.write(port::COUNTER0, 1).unwrap();
    interval.jump(1, 5).unwrap();
    assert_eq!(read_count(&mut interval), 9);
    // in mode 2 it stops nothing
    let mut interval = counting(MODE2, 3);
    interval.pulse(1).unwrap();
    interval.write(port::COUNTER0, 9).unwrap();
    assert_eq!(pulses(&mut interval, 1), [1, 0, 1, 1, 0]);
}

#[test]
fn the_gate_in_mode_2() {
    // low: the output is forced high and the count held; a rise reloads
    let mut interval = counting(MODE2, 3);
    assert_eq!(pulses(&mut interval, 1), [1, 1, 0]);
    assert_eq!(interval.jump(1, 0), Ok(0), "without a pulse nothing is forced");
    assert_eq!(pulses(&mut interval, 0), [1, 1]);
    assert_eq!(read_count(&mut interval), 1);
    assert_eq!(pulses(&mut interval, 1), [1]);
    assert_eq!(read_count(&mut interval), 3);
    // the rise takes a new count; the end of a lap does too
    let mut interval = counting(MODE2, 5);
    interval.jump(1, 2).unwrap();
    write_count(&mut interval, 4);
    assert_eq!(pulses(&mut interval, 1), [1, 1, 0, 1]);
    assert_eq!(read_count(&mut interval), 4);
    write_count(&mut interval, 7);
    interval.jump(0, 9).unwrap();
    assert_eq!(read_count(&mut interval), 4);
    interval.pulse(1).unwrap();
    assert_eq!(read_count(&mut interval), 7);
    // a new count takes the place of one that waits
    write_count(&mut interval, 8);
    write_count(&mut interval, 2);
    interval.jump(1, 7).unwrap();
    assert_eq!(read_count(&mut interval), 2);
    // the first count is loaded whatever the gate
    let mut interval = counting(MODE2, 6);
    assert_eq!(pulses(&mut interval, 0), [1]);
    assert_eq!(read_count(&mut interval), 6);
}

#[test]
fn a_bcd_count_borrows_over_its_digits() {
    for (count, below) in [(0x0020, 0x0019), (0x1000, 0x0999), (0x0100, 0x0099), (0x0000, 0x9999), (0x4321, 0x4320)] {
        let mut interval = counting(MODE0 | BCD, count);
        interval.jump(1, 2).unwrap();
        assert_eq!(read_count(&mut interval), below);
    }
    let interval = &mut counting(MODE0 | BCD, 0x1234);
    interval.pulse(1).unwrap();
    assert_eq!(interval.counter0.count, 1234, "the record has the number");
}

#[test]
fn one_byte_of_a_count() {
    for (format, count) in [(control::LOW, 0x0005), (control::HIGH, 0x0500)] {
        let mut interval = Interval::reset();
        interval.write(port::CONTROL, format).unwrap();
        interval.write(port::COUNTER0, 5).unwrap();
        interval.pulse(1).unwrap();
        assert_eq!((interval.counter0.count, interval.read(port::COUNTER0)), (count, Ok(5)));
        interval.pulse(1).unwrap();
        assert_eq!(interval.read(port::COUNTER0), Ok(4));
    }
}

/// Each counter has its own address, gate and output.
#[test]
fn three_counters() {
    let counters = [
        (port::COUNTER0, control::SELECT0, gate::GATE0, out::OUT0),
        (port::COUNTER1, control::SELECT1, gate::GATE1, out::OUT1),
        (port::COUNTER2, control::SELECT2, gate::GATE2, out::OUT2),
    ];
    for (address, select, gates, output) in counters {
        let mut interval = Interval::reset();
        interval.write(port::CONTROL, select | control::LOW).unwrap();
        interval.write(address, 2).unwrap();
        assert_eq!(interval.jump(GATES_HIGH & !gates, 9), Ok(0));
        assert_eq!(pulses(&mut interval, gates), [0, output]);
        assert_eq!(interval.read(address), Ok(0));
    }
}

/// 12 for counter choice 3, a latch's too, an address above 3 and a read at 3; 12 before 11; 13 when the count is complete; 4 before 5.
#[test]
fn refusals_of_the_82c53() {
    let mut interval = counting(MODE2 | BCD, 0x0100);
    interval.write(port::COUNTER0, 0x01).unwrap();
    let given = interval;
    for address in 4..=255 {
        assert_eq!(interval.write(address, 0x34), Err(Refusal::BadChoice));
        assert_eq!(interval.read(address), Err(Refusal::BadChoice));
    }
    assert_eq!(interval.read(port::CONTROL), Err(Refusal::BadChoice));
    for word in 0xC0..=0xFF {
        assert_eq!(interval.write(port::CONTROL, word), Err(Refusal::BadChoice), "control word {word:02X}");
    }
    for mode in [0x02, 0x06, 0x08, 0x0A, 0x0E] {
        for format in [control::LOW, control::HIGH, control::BOTH] {
            assert_eq!(interval.write(port::CONTROL, format | mode), Err(Refusal::BadMode), "mode bits {mode:02X}");
        }
    }
    assert_eq!(interval.write(port::COUNTER0, 0x00), Err(Refusal::BadCount), "a mode 2 count of 1");
    for digits in [0x0A, 0xA0, 0xFF] {
        assert_eq!(interval.write(port::COUNTER0, digits), Err(Refusal::BadCount), "a digit above nine");
    }
    for gates in 8..=255 {
        assert_eq!(interval.pulse(gates), Err(Refusal::BadPins));
        assert_eq!(interval.jump(gates, MAX_CYCLES + 1), Err(Refusal::BadPins));
    }
    assert_eq!(interval.jump(GATES_HIGH, MAX_CYCLES + 1), Err(Refusal::TooLong));
    assert_eq!(interval.jump(GATES_HIGH, u64::MAX), Err(Refusal::TooLong));
    assert_eq!(interval, given, "the low byte stands, and the high byte is still due");
    interval.write(port::COUNTER0, 0x10).unwrap();
    assert_eq!(interval.counter0.waiting, 1001);

    // a low byte is not tested by itself; a count of 1 passes in mode 0, and as 0100 with the high byte alone
    let mut interval = Interval::reset();
    interval.write(port::CONTROL, MODE0 | BCD).unwrap();
    interval.write(port::COUNTER0, 0x0A).unwrap();
    assert_eq!(interval.write(port::COUNTER0, 0x00), Err(Refusal::BadCount));
    assert_eq!(counting(MODE0, 1).counter0.waiting, 1);
    interval.write(port::CONTROL, control::LOW | control::MODE2).unwrap();
    assert_eq!(interval.write(port::COUNTER0, 1), Err(Refusal::BadCount));
    interval.write(port::CONTROL, control::HIGH | control::MODE2).unwrap();
    interval.write(port::COUNTER0, 1).unwrap();
    assert_eq!(interval.counter0.waiting, 0x100);
}

/// Every call but reset and outputs refuses the record by 1, before anything else, and leaves it; so does the board, with its chip.
fn is_refused(given: Interval) {
    let mut interval = given;
    assert!(!interval.accepts(), "{given:?}");
    assert_eq!(interval.write(port::COUNTER0, 0), Err(Refusal::BadRecord));
    assert_eq!(interval.write(4, 0), Err(Refusal::BadRecord));
    assert_eq!(interval.write(port::CONTROL, 0xC2), Err(Refusal::BadRecord));
    assert_eq!(interval.read(port::COUNTER0), Err(Refusal::BadRecord));
    assert_eq!(interval.read(port::CONTROL), Err(Refusal::BadRecord));
    assert_eq!(interval.pulse(GATES_HIGH), Err(Refusal::BadRecord));
    assert_eq!(interval.pulse(8), Err(Refusal::BadRecord));
    assert_eq!(interval.jump(GATES_HIGH, 0), Err(Refusal::BadRecord));
    assert_eq!(interval.jump(8, MAX_CYCLES + 1), Err(Refusal::BadRecord));
    assert_eq!(interval, given);
    board_is_refused(Board { interval: given, ..Board::reset(52).unwrap() });
}

fn board_is_refused(given: Board) {
    let mut board = given;
    assert_eq!(board.cycle(PINS_HIGH, GATES_HIGH), Err(Refusal::BadRecord), "{given:?}");
    assert_eq!(board.cycle(0x80, 8), Err(Refusal::BadRecord));
    assert_eq!(board.jump(PINS_HIGH, GATES_HIGH, 1), Err(Refusal::BadRecord));
    assert_eq!(board.jump(0x80, 8, MAX_CYCLES + 1), Err(Refusal::BadRecord));
    assert_eq!(board, given);
}

/// Each field of each counter at the ends of its range, and outside it.
#[test]
fn the_ranges_of_the_record() {
    type Change = fn(&mut Counter, u16);
    let marks: [Change; 9] = [
        |k, n| k.bcd = n as u8,
        |k, n| k.output = n as u8,
        |k, n| k.gate = n as u8,
        |k, n| k.loaded = n as u8,
        |k, n| k.waits = n as u8,
        |k, n| k.first = n as u8,
        |k, n| k.high = n as u8,
        |k, n| k.latched = n as u8,
        |k, n| k.mode = 2 * n as u8,
    ];
    let counts: [Change; 4] = [|k, n| k.count = n, |k, n| k.reload = n, |k, n| k.waiting = n, |k, n| k.latch = n];
    let mut changes: Vec<(Change, Vec<u16>, Vec<u16>)> = Vec::new();
    changes.extend(marks.map(|change| (change, vec![0, 1], vec![2, 3, 127])));
    changes.push((|k, n| k.mode = n as u8, vec![0, 2], vec![1, 3, 4, 6, 255]));
    changes.push((|k, n| k.format = n as u8, vec![1, 2, 3], vec![0, 4, 255]));
    changes.push((|k, n| k.low = n as u8, vec![0, 1, 255], vec![]));
    changes.extend(counts.map(|change| (change, vec![0, 9_999, 10_000, 65_535], vec![])));

    let accepted = Counter { format: 3, ..Counter::default() };
    let intervals = |counter: Counter| {
        let others = Interval::reset();
        [
            Interval { counter0: counter, ..others },
            Interval { counter1: counter, ..others },
            Interval { counter2: counter, ..others },
        ]
    };
    for (change, within, outside) in changes {
        let changed = |n: u16| {
            let mut counter = accepted;
            change(&mut counter, n);
            intervals(counter)
        };
        assert!(within.into_iter().flat_map(changed).all(|interval| interval.accepts()));
        outside.into_iter().flat_map(changed).for_each(is_refused);
    }
    for change in counts {
        let changed = |n: u16| {
            let mut counter = Counter { bcd: 1, ..accepted };
            change(&mut counter, n);
            intervals(counter)
        };
        assert!([0, 9_999].into_iter().flat_map(changed).all(|interval| interval.accepts()));
        [10_000, 65_535].into_iter().flat_map(changed).for_each(is_refused);
    }
    board_is_refused(Board { device: Device::default(), ..Board::reset(52).unwrap() });
    let mut board = Board::reset(52).unwrap();
    board.device.times.number[Flag::Exf2 as usize] = 1;
    board_is_refused(board);
    // the outputs are given whatever the record: the low bit of each
    let mut interval = Interval::default();
    (interval.counter0.output, interval.counter1.output, interval.counter2.output) = (3, 254, 255);
    assert_eq!(interval.outputs(), out::OUT0 | out::OUT2);
}

/// A board whose counters all count: 0 in mode 0, 1 in mode 2, 2 in mode 2 and BCD; Timer 0 about to overflow, Timer 1 in
/// mode 2, and Timer 2 as a baud rate generator with two overflows a cycle.
fn counting_board() -> Board {
    let mut board = Board::reset(52).unwrap();
    for (address, value) in [
        (address::TMOD, 0x21),
        (address::TH0, 0xFF),
        (address::TL0, 0xF0),
        (address::TH1, 0xF9),
        (address::RCAP2H, 0xFF),
        (address::RCAP2L, 0xFD),
        (address::TH2, 0xFF),
        (address::TL2, 0xFD),
        (address::T2CON, 0x34),
        (address::TCON, 0x50),
    ] {
        board.device.write(address, value).unwrap();
    }
    for (address, byte) in [
        (port::CONTROL, control::SELECT0 | control::LOW | control::MODE0),
        (port::CONTROL, control::SELECT1 | control::LOW | control::MODE2),
        (port::CONTROL, control::SELECT2 | control::BOTH | control::MODE2 | control::BCD),
        (port::COUNTER0, 50),
        (port::COUNTER1, 7),
        (port::COUNTER2, 0x20),
        (port::COUNTER2, 0x01),
    ] {
        board.interval.write(address, byte).unwrap();
    }
    board
}

/// 4 for either byte, before 5; both chips stay, and with the chip the time at which a flag last rose.
#[test]
fn refusals_of_the_board() {
    let mut board = counting_board();
    board.jump(PINS_HIGH, GATES_HIGH, 20).unwrap();
    assert_eq!(board.device.last_rise(Flag::Tf0), Some(16));
    let given = board;
    assert_eq!(board.cycle(0x80, GATES_HIGH), Err(Refusal::BadPins));
    assert_eq!(board.cycle(PINS_HIGH, 8), Err(Refusal::BadPins));
    assert_eq!(board.jump(0xFF, GATES_HIGH, 1), Err(Refusal::BadPins));
    assert_eq!(board.jump(PINS_HIGH, 0xFF, 0), Err(Refusal::BadPins));
    assert_eq!(board.jump(PINS_HIGH, 8, MAX_CYCLES + 1), Err(Refusal::BadPins));
    assert_eq!(board.jump(PINS_HIGH, GATES_HIGH, MAX_CYCLES + 1), Err(Refusal::TooLong));
    for (pins, gates, n, code) in [(0x80, 7, 9, 4), (0x7F, 8, 9, 4), (0x7F, 7, MAX_CYCLES + 1, 5)] {
        let refused = BoardJumpAnswer { code, outputs: 0, totals: Totals::default(), rounds: 0 };
        assert_eq!(c51_board_jump(&mut board, pins, gates, n), refused, "zeros beside the code");
    }
    assert_eq!(board, given);
}

/// A cycle of the board is one of the chip and a pulse, and a jump ends as so many of them do. Its totals are those of so
/// many jumps of 1, and its totals and rounds are those of the chip alone.
#[test]
fn a_board_jump_is_so_many_board_cycles() {
    for (pins, gates) in [(PINS_HIGH, GATES_HIGH), (0, GATES_HIGH), (PINS_HIGH, 0), (0x55, gate::GATE1), (PINS_HIGH, 0x05)] {
        let [mut cycled, mut by_ones] = [counting_board(); 2];
        let (mut device, mut interval) = (cycled.device, cycled.interval);
        let mut totals = Totals::default();
        for n in 0..400 {
            let mut jumped = counting_board();
            let given = jumped.jump(pins, gates, n);
            let Jump { totals: of_the_chip, rounds } = counting_board().device.jump(pins, n).unwrap();
            assert_eq!((of_the_chip, rounds), (totals, n), "{n} cycles, pins {pins:02X}: Timer 2 overflows in each");
            assert_eq!(
                given,
                Ok(BoardJump { totals, rounds, outputs: cycled.interval.outputs() }),
                "{n} cycles, pins {pins:02X}, gates {gates}"
            );
            assert_eq!(jumped, cycled, "{n} cycles, pins {pins:02X}, gates {gates}");
            let (line, outputs) = cycled.cycle(pins, gates).unwrap();
            assert_eq!((line, outputs), (device.cycle(pins).unwrap(), interval.pulse(gates).unwrap()));
            assert_eq!(cycled, Board { device, interval });
            totals += by_ones.jump(pins, gates, 1).unwrap().totals;
            assert_eq!(by_ones, cycled);
        }
        assert_eq!(totals, Totals { timer0: 1, timer1: 1 + (400 - 256) / 7, timer2: 2 * 400 }, "Timer 1 from 00, and then from F9");
        assert_eq!(cycled.device.timers.tcon & flag::TF0, flag::TF0, "Timer 0 has overflowed");
        assert_eq!(cycled.device.last_rise(Flag::Tf0), Some(16), "from FFF0");
    }
    let mut board = Board { device: Device::reset(51).unwrap(), ..counting_board() };
    let jump = board.jump(PINS_HIGH, GATES_HIGH, MAX_CYCLES).unwrap();
    assert_eq!((jump.totals, jump.rounds), (Totals::default(), 1), "a chip at rest");
    assert_eq!(board.device.cycle, MAX_CYCLES);
    let mut interval = counting_board().interval;
    interval.jump(GATES_HIGH, MAX_CYCLES / 2).unwrap();
    interval.jump(GATES_HIGH, MAX_CYCLES / 2).unwrap();
    assert_eq!(board.interval, interval);
}

/// The rounds are the chip's: pulses, outputs that change and gates make none, and a jump of no cycles has none.
#[test]
fn pulses_make_no_round() {
    let mut board = Board { device: Device::reset(52).unwrap(), ..counting_board() };
    for (n, rounds) in [(0, 0), (1, 1), (7, 1), (1_000, 1)] {
        for gates in 0..=GATES_HIGH {
            assert_eq!(board.jump(PINS_HIGH, gates, n).unwrap().rounds, rounds, "{n} cycles, gates {gates}");
        }
    }
    // the idle station: Timer 1 laps every third cycle
    for (address, value) in [(address::TMOD, 0x20), (address::TH1, 0xFD), (address::TL1, 0xFD), (address::TCON, 0xC0)] {
        board.device.write(address, value).unwrap();
    }
    assert_eq!(board.jump(PINS_HIGH, GATES_HIGH, 3).unwrap().rounds, 3);
    let jump = board.jump(PINS_HIGH, GATES_HIGH, 99).unwrap();
    assert_eq!((jump.totals.timer1, jump.rounds), (33, 66));
}

/// Power-down stops the chip, and neither the pulses nor the calls of the 82C53.
#[test]
fn power_down_stops_the_chip_alone() {
    let mut board = counting_board();
    board.jump(PINS_HIGH, GATES_HIGH, 20).unwrap();
    board.device.write(address::PCON, pcon::PD).unwrap();
    let mut interval = board.interval;
    let device = board.device;
    assert_eq!(device.last_rise(Flag::Tf0), Some(16));
    for _ in 0..60 {
        assert_eq!(board.cycle(0, GATES_HIGH), Ok((1, interval.pulse(GATES_HIGH).unwrap())));
    }
    let outputs = interval.jump(GATES_HIGH, MAX_CYCLES).unwrap();
    assert_eq!(board.jump(0, GATES_HIGH, MAX_CYCLES), Ok(BoardJump { totals: Totals::default(), rounds: 1, outputs }));
    assert_eq!(board, Board { device, interval });
    assert_eq!(board.interval.read(port::COUNTER1), interval.read(port::COUNTER1));
    board.interval.write(port::CONTROL, control::SELECT1 | control::LATCH).unwrap();
    board.interval.write(port::COUNTER1, 9).unwrap();
    assert_eq!((board.interval.counter1.latched, board.interval.counter1.waiting), (1, 9));
    assert_eq!(board.interval.pulse(GATES_HIGH), interval.pulse(GATES_HIGH));
    assert_eq!(board.device, device);
    assert_eq!(board.cycle(0x80, 0), Err(Refusal::BadPins));
    assert_eq!(board.jump(0, GATES_HIGH, MAX_CYCLES + 1), Err(Refusal::TooLong));
}
