//! The wrapper: each refusal that a call can meet, what a refused call leaves, the values of each call, when flags last
//! rose, how often timers overflowed, and how many rounds jumps took.
use c51::raw::{self, JumpAnswer, RunAnswer};
use c51::{address, call, flag, pcon, pin, AnswerRow, Board, Device, Flag, FlagTimes, Jump, Refusal, Totals};
use c51::{ANSWER_WORDS, CALL_WORDS, GATES_HIGH, MAX_CYCLES, MAX_TRACE, NONE, PINS_HIGH};

/// Writes, each as an address and a value.
type Writes = [(u8, u8)];

/// A device after reset and these writes.
fn written(kind: u8, writes: &Writes) -> Device {
    let mut device = Device::reset(kind).unwrap();
    for &(address, value) in writes {
        device.write(address, value).unwrap();
    }
    device
}

/// Timer 0 about to overflow, its interrupt enabled.
fn timer_0_at_fffe() -> Device {
    written(52, &[(address::TMOD, 0x01), (address::TH0, 0xFF), (address::TL0, 0xFE), (address::IE, 0x82), (address::TCON, 0x10)])
}

#[test]
fn codes_and_refusals() {
    assert_eq!(Refusal::ALL.map(Refusal::code), [1, 2, 3, 4, 5, 6, 7, 8, 10, 11, 12, 13, 14, 15, 16, 17]);
    for refusal in Refusal::ALL {
        assert_eq!(Refusal::of_code(refusal.code()), Some(refusal));
        assert!(!refusal.to_string().is_empty());
    }
    assert_eq!(Refusal::of_code(0), None);
    assert_eq!(Refusal::of_code(9), None, "9 is retired");
    assert_eq!(Refusal::of_code(10), Some(Refusal::PoweredDown));
    assert_eq!(Refusal::of_code(14), Some(Refusal::BadSpeed));
    assert_eq!([15, 16, 17].map(Refusal::of_code), [Refusal::BadLength, Refusal::BadLayout, Refusal::BadValue].map(Some));
    assert_eq!(Refusal::of_code(18), None);
}

#[test]
fn refusals() {
    let good = timer_0_at_fffe();
    let mut device = good;
    assert_eq!(Device::reset(50), Err(Refusal::BadKind));
    assert_eq!(device.read(0x80), Err(Refusal::BadAddress));
    assert_eq!(device.write(0x80, 1), Err(Refusal::BadAddress));
    assert_eq!(device.cycle(0x80), Err(Refusal::BadPins));
    assert_eq!(device.jump(0x80, MAX_CYCLES + 1), Err(Refusal::BadPins));
    assert_eq!(device.jump(PINS_HIGH, MAX_CYCLES + 1), Err(Refusal::TooLong));
    assert_eq!(device.look_ahead(PINS_HIGH, MAX_CYCLES + 1), Err(Refusal::TooLong));
    assert_eq!(device.wake_look(PINS_HIGH, MAX_CYCLES + 1), Err(Refusal::TooLong));
    assert_eq!(device.wake_look(0x80, MAX_CYCLES + 1), Err(Refusal::BadPins));
    assert_eq!(device.trace(&vec![0; MAX_TRACE + 1]), Err(Refusal::TooLong));
    assert_eq!(device.trace(&[0x7F00_0001, 0x7F00_0000]), Err(Refusal::EmptyEntry));
    assert_eq!(device.trace(&[0x8000_0000]), Err(Refusal::BadPins));
    assert_eq!(device.take(), Err(Refusal::NothingOffered));
    assert_eq!(device.return_from_interrupt(), Err(Refusal::NothingInService));
    assert_eq!(device, good);
}

/// Every call but reset refuses the record by 1, before anything else, and leaves it.
fn is_refused(given: Device) {
    let mut device = given;
    assert!(!device.accepts(), "{given:?}");
    assert_eq!(device.read(address::TCON), Err(Refusal::BadRecord));
    assert_eq!(device.write(address::TCON, 0), Err(Refusal::BadRecord));
    assert_eq!(device.cycle(PINS_HIGH), Err(Refusal::BadRecord));
    assert_eq!(device.jump(PINS_HIGH, 1), Err(Refusal::BadRecord));
    assert_eq!(device.trace(&[]), Err(Refusal::BadRecord));
    assert_eq!(device.look_ahead(PINS_HIGH, 1), Err(Refusal::BadRecord));
    assert_eq!(device.wake_look(PINS_HIGH, 1), Err(Refusal::BadRecord));
    assert_eq!(device.wake_look(0x80, MAX_CYCLES + 1), Err(Refusal::BadRecord));
    assert_eq!(device.offer(), Err(Refusal::BadRecord));
    assert_eq!(device.save(), Err(Refusal::BadRecord));
    assert_eq!(device.take(), Err(Refusal::BadRecord));
    assert_eq!(device.return_from_interrupt(), Err(Refusal::BadRecord));
    assert_eq!(device, given);
}

#[test]
fn a_bad_record_is_refused_by_every_call() {
    let mut device = timer_0_at_fffe();
    device.serial.receive.votes = 3;
    is_refused(device);
    is_refused(Device::default());
}

#[test]
fn an_interrupt_from_overflow_to_return() {
    let mut device = timer_0_at_fffe();
    assert!(device.accepts());
    assert_eq!(device.look_ahead(PINS_HIGH, 1), Ok(None));
    assert_eq!(device.look_ahead(PINS_HIGH, MAX_CYCLES), Ok(Some(2)));
    assert_eq!(device.cycle(PINS_HIGH), Ok(1));
    device.jump(PINS_HIGH, 1).unwrap();
    assert_eq!(device.read(address::TCON), Ok(0x30));
    assert_eq!(device.offer(), Ok(None));
    device.trace(&[0x7F00_0001]).unwrap();
    assert_eq!(device.offer(), Ok(Some(0x0B)));
    assert_eq!(device.take(), Ok(0x0B));
    assert_eq!(device.interrupts.low, 1);
    device.return_from_interrupt().unwrap();
    assert_eq!(device.interrupts.low, 0);
    assert_eq!(device.cycle, 3);
}

/// 0 where an interrupt is offered as the device stands, 1 where its source is seen and not polled, 2 where its flag is set and not
/// seen, and none where it is not offered within the cycles or is not enabled. Timer 2's overflow is apart, below.
#[test]
fn wake_looks() {
    let mut device = timer_0_at_fffe();
    for (cycle, k) in [(0, 3), (1, 2), (2, 1), (3, 0)] {
        assert_eq!(device.cycle, cycle);
        for n in 0..k {
            assert_eq!(device.wake_look(PINS_HIGH, n), Ok(None), "after {cycle} cycles, over {n}");
        }
        for n in [k, k + 1, MAX_CYCLES] {
            assert_eq!(device.wake_look(PINS_HIGH, n), Ok(Some(k)), "after {cycle} cycles, over {n}");
        }
        device.cycle(PINS_HIGH).unwrap();
    }

    let mut device = Device::reset(51).unwrap();
    device.write(address::TCON, 0x20).unwrap();
    assert_eq!(device.look_ahead(PINS_HIGH, MAX_CYCLES), Ok(None), "TF0 does not rise: it is written");
    assert_eq!(device.wake_look(PINS_HIGH, MAX_CYCLES), Ok(None), "not enabled");
    device.write(address::IE, 0x82).unwrap();
    assert_eq!(device.wake_look(PINS_HIGH, 1), Ok(None));
    assert_eq!(device.wake_look(PINS_HIGH, 2), Ok(Some(2)));
}

/// Timer 2 of a device at a count, with a reload value and a T2CON, its interrupt enabled.
fn timer_2_at(count: u16, reload: u16, t2con: u8) -> Device {
    let [th2, tl2] = count.to_be_bytes();
    let [rcap2h, rcap2l] = reload.to_be_bytes();
    let timer_2 = [(address::TH2, th2), (address::TL2, tl2), (address::RCAP2H, rcap2h), (address::RCAP2L, rcap2l)];
    written(52, &[&timer_2[..], &[(address::IE, 0xA0), (address::T2CON, t2con)]].concat())
}

/// The offers after each of the first cycles, with one pin byte.
fn offers(mut device: Device, pins: u8) -> [Option<u8>; 3] {
    let first = device.wake_look(pins, 3).unwrap();
    let offers = std::array::from_fn(|_| {
        device.cycle(pins).unwrap();
        device.offer().unwrap()
    });
    assert_eq!(first, offers.iter().position(Option::is_some).map(|k| k as u64 + 1), "the wake look names the first");
    offers
}

/// An overflow that sets TF2 is heard in its own cycle, with auto-reload and capture, as a timer and as a counter, newly and again;
/// EXF2, a TF2 that software set and the overflows of a baud rate generator are not.
#[test]
fn timer_2_is_heard_in_its_own_cycle() {
    const LOW_T2: u8 = PINS_HIGH & !0x20;
    const LOW_T2EX: u8 = PINS_HIGH & !0x40;
    const VECTOR: Option<u8> = Some(0x2B);
    for t2con in [0x04, 0x05] {
        assert_eq!(offers(timer_2_at(0xFFFE, 0, t2con), PINS_HIGH), [None, VECTOR, VECTOR], "T2CON {t2con:02X}");
        assert_eq!(offers(timer_2_at(0xFFFF, 0, t2con), PINS_HIGH), [VECTOR; 3], "T2CON {t2con:02X}");
        assert_eq!(offers(timer_2_at(0xFFFF, 0, t2con | 0x02), LOW_T2), [None, VECTOR, VECTOR], "T2 falls in 1, counts in 2");
        assert_eq!(offers(timer_2_at(0, 0, t2con | 0x08), LOW_T2EX), [None, VECTOR, VECTOR], "EXF2 rises in 1 and waits");
    }
    for t2con in [0x80, 0x84, 0x40, 0x44] {
        assert_eq!(offers(timer_2_at(0, 0, t2con), PINS_HIGH), [None, VECTOR, VECTOR], "T2CON {t2con:02X}, written");
    }
    assert_eq!(offers(timer_2_at(0xFFFF, 0, 0x84), PINS_HIGH), [VECTOR; 3], "an overflow sets the written TF2 again");
    for clock in [0x10, 0x20, 0x30] {
        // six overflows a cycle, and one
        for count in [0xFFFF, 0xFFFA] {
            let generator = timer_2_at(count, count, 0x04 | clock);
            assert_eq!(offers(generator, PINS_HIGH), [None; 3]);
            assert_eq!(generator.wake_look(PINS_HIGH, 1_000_000), Ok(None));
            assert_eq!(offers(timer_2_at(count, count, 0x84 | clock), PINS_HIGH), [None, VECTOR, VECTOR]);
        }
        assert_eq!(offers(timer_2_at(0xFFFF, 0xFFFF, 0x06 | clock), LOW_T2), [None; 3]);
        assert_eq!(offers(timer_2_at(0, 0, 0x0C | clock), LOW_T2EX), [None, VECTOR, VECTOR], "EXF2 waits there too");
    }

    let mut device = timer_2_at(0xFFFF, 0xFFFF, 0x04);
    device.cycle(PINS_HIGH).unwrap();
    assert_eq!(device.take(), Ok(0x2B));
    device.return_from_interrupt().unwrap();
    assert_eq!((device.read(address::T2CON), device.offer()), (Ok(0x84), Ok(None)), "TF2 stays, nothing is offered");
    assert_eq!(offers(device, PINS_HIGH), [VECTOR; 3], "each overflow sets TF2 again");
    device.write(address::T2CON, 0x80).unwrap();
    assert_eq!(offers(device, PINS_HIGH), [None, VECTOR, VECTOR], "no overflow: TF2 is heard after two cycles");
}

/// In idle the device goes on as one that is awake, and a take clears IDL and no other bit of PCON.
#[test]
fn idle() {
    let mut awake = timer_0_at_fffe();
    awake.write(address::PCON, 0x8C).unwrap();
    let mut device = awake;
    device.write(address::PCON, 0x8C | pcon::IDL).unwrap();
    assert_eq!(device.wake_look(PINS_HIGH, MAX_CYCLES), awake.wake_look(PINS_HIGH, MAX_CYCLES));
    for _ in 0..3 {
        assert_eq!(device.cycle(PINS_HIGH), awake.cycle(PINS_HIGH));
        assert_eq!(device, Device { pcon: 0x8C | pcon::IDL, ..awake });
        assert_eq!(device.offer(), awake.offer());
    }
    assert_eq!(device.take(), Ok(0x0B));
    awake.take().unwrap();
    assert_eq!(device, awake);
    assert_eq!(device.read(address::PCON), Ok(0x8C));
}

/// A device in power-down, with an interrupt that would be offered and one in service, and with IDL, over which PD wins.
fn powered_down() -> Device {
    let mut device = timer_0_at_fffe();
    device.jump(PINS_HIGH, 3).unwrap();
    device.take().unwrap();
    device.write(address::IP, 0x02).unwrap();
    device.write(address::TCON, 0x30).unwrap();
    device.jump(PINS_HIGH, 2).unwrap();
    assert_eq!((device.offer(), device.interrupts.low), (Ok(Some(0x0B)), 1));
    device.write(address::PCON, pcon::PD | pcon::IDL).unwrap();
    device
}

/// In power-down cycles, jumps and traces pass and alter nothing, nothing is offered, and write, take and return are refused.
#[test]
fn power_down() {
    let given = powered_down();
    let mut device = given;
    assert_eq!((device.pcon, device.accepts()), (0x03, true));
    assert_eq!(device.cycle(PINS_HIGH), Ok(1));
    assert_eq!(device.cycle(0), Ok(1));
    device.jump(0, MAX_CYCLES).unwrap();
    device.trace(&[0x0000_0001, 0x7FFF_FFFF]).unwrap();
    assert_eq!(device.offer(), Ok(None));
    for n in [0, 1, MAX_CYCLES] {
        assert_eq!(device.look_ahead(0, n), Ok(None));
        assert_eq!(device.wake_look(0, n), Ok(None), "also with an interrupt that would be offered");
    }
    assert_eq!(device.read(address::PCON), Ok(0x03));
    assert_eq!(device.write(address::PCON, 0), Err(Refusal::PoweredDown), "no write ends it");
    assert_eq!(device.write(address::SBUF, 0), Err(Refusal::PoweredDown));
    assert_eq!(device.take(), Err(Refusal::PoweredDown));
    assert_eq!(device.return_from_interrupt(), Err(Refusal::PoweredDown));
    assert_eq!(device, given);
    // the start bit of a frame stays on the line
    device.serial.scon = 0x40;
    device.serial.send.position = 2;
    let given = device;
    assert_eq!((device.cycle(PINS_HIGH), device), (Ok(0), given));
}

/// 10 goes after 1 and before 3, 6 and 7; the other refusals are judged as before.
#[test]
fn the_order_of_refusals_in_power_down() {
    let mut device = powered_down();
    assert_eq!(device.write(0x80, 1), Err(Refusal::PoweredDown), "before 3");
    device.interrupts.polled = 0;
    device.interrupts.low = 0;
    assert_eq!(device.take(), Err(Refusal::PoweredDown), "before 6");
    assert_eq!(device.return_from_interrupt(), Err(Refusal::PoweredDown), "before 7");
    assert_eq!(device.read(0x80), Err(Refusal::BadAddress));
    assert_eq!(device.cycle(0x80), Err(Refusal::BadPins));
    assert_eq!(device.jump(0x80, MAX_CYCLES + 1), Err(Refusal::BadPins));
    assert_eq!(device.jump(PINS_HIGH, MAX_CYCLES + 1), Err(Refusal::TooLong));
    assert_eq!(device.look_ahead(PINS_HIGH, MAX_CYCLES + 1), Err(Refusal::TooLong));
    assert_eq!(device.wake_look(PINS_HIGH, MAX_CYCLES + 1), Err(Refusal::TooLong));
    assert_eq!(device.wake_look(0x80, 1), Err(Refusal::BadPins));
    assert_eq!(device.trace(&[0x7F00_0001, 0x7F00_0000]), Err(Refusal::EmptyEntry));
    device.levels[0] = 2;
    assert_eq!(device.write(address::PCON, 0), Err(Refusal::BadRecord), "1 before 10");
    assert_eq!(device.take(), Err(Refusal::BadRecord));
    assert_eq!(device.return_from_interrupt(), Err(Refusal::BadRecord));
}

/// What each flag's last rise is, in the order of the places.
fn last_rises(device: &Device) -> [Option<u64>; 8] {
    Flag::ALL.map(|flag| device.last_rise(flag))
}

/// Each flag by itself: the writes and the pins with which it rises in a cycle from reset, and that cycle. INT0 is level-triggered,
/// INT1 edge-triggered; both frames are of serial mode 0.
#[test]
fn each_flag_has_its_place() {
    let rises: [(Flag, &Writes, u8, u64); 8] = [
        (Flag::Tf0, &[(address::TMOD, 0x01), (address::TH0, 0xFF), (address::TL0, 0xFE), (address::TCON, 0x10)], PINS_HIGH, 2),
        (Flag::Tf1, &[(address::TMOD, 0x10), (address::TH1, 0xFF), (address::TL1, 0xFD), (address::TCON, 0x40)], PINS_HIGH, 3),
        (Flag::Ie0, &[], PINS_HIGH & !pin::INT0, 1),
        (Flag::Ie1, &[(address::TCON, 0x04)], PINS_HIGH & !pin::INT1, 1),
        (Flag::Ri, &[(address::SCON, 0x10)], PINS_HIGH, 10),
        (Flag::Ti, &[(address::SBUF, 0x55)], PINS_HIGH, 10),
        (Flag::Tf2, &[(address::TH2, 0xFF), (address::TL2, 0xFC), (address::T2CON, 0x04)], PINS_HIGH, 4),
        (Flag::Exf2, &[(address::T2CON, 0x0C)], PINS_HIGH & !pin::T2EX, 1),
    ];
    assert_eq!(rises.map(|(flag, ..)| flag), Flag::ALL);
    assert_eq!(Flag::ALL.map(|flag| flag as usize), [0, 1, 2, 3, 4, 5, 6, 7]);
    for (flag, writes, pins, cycle) in rises {
        let mut device = written(52, writes);
        assert_eq!((device.times, last_rises(&device)), (FlagTimes::default(), [None; 8]), "never before a cycle");
        for number in 1..=cycle {
            assert_eq!(last_rises(&device), [None; 8], "{flag:?}, before cycle {number}");
            device.cycle(pins).unwrap();
        }
        let alone = |number: u64| Flag::ALL.map(|other| (other == flag).then_some(number));
        assert_eq!(last_rises(&device), alone(cycle), "{flag:?}");
        assert_eq!((device.times.ever[flag as usize], device.times.number[flag as usize]), (1, cycle));
        device.jump(pins, 100).unwrap();
        assert_eq!(last_rises(&device), alone(cycle), "{flag:?} stays 1, and does not rise");
    }
}

/// A write never counts, whether it sets a flag or clears it; neither does a take that clears one.
#[test]
fn software_never_counts() {
    let flags = [
        (address::TCON, flag::TF1 | flag::TF0 | flag::IE1 | flag::IE0),
        (address::SCON, flag::TI | flag::RI),
        (address::T2CON, flag::TF2 | flag::EXF2),
    ];
    let mut device = Device::reset(52).unwrap();
    for set in [1, 0, 1] {
        for (address, mask) in flags {
            device.write(address, set * mask).unwrap();
            assert_eq!(device.times, FlagTimes::default());
        }
        device.jump(PINS_HIGH, 3).unwrap();
        assert_eq!(device.times, FlagTimes::default());
    }
    // TF0 is set by software, and the overflow sets it again
    let mut device = timer_0_at_fffe();
    device.write(address::TCON, 0x30).unwrap();
    device.jump(PINS_HIGH, 3).unwrap();
    assert_eq!((device.timers.tl0, device.last_rise(Flag::Tf0)), (1, None));
    // the take clears TF0, and leaves when it rose
    let mut device = timer_0_at_fffe();
    device.jump(PINS_HIGH, 3).unwrap();
    let times = device.times;
    assert_eq!((device.take(), device.timers.tcon, device.last_rise(Flag::Tf0)), (Ok(0x0B), 0x10, Some(2)));
    device.return_from_interrupt().unwrap();
    assert_eq!(device.times, times);
    device.replay(&[[call::RESET, 52, 0]], &[], &mut [[0; ANSWER_WORDS]]);
    assert_eq!(device.times, FlagTimes::default(), "reset clears it");
}

/// The later of two rises counts. IE0 follows INT0 where it is level-triggered, so that a trace run makes it rise time and again.
#[test]
fn a_flag_that_rises_again() {
    let mut device = Device::reset(51).unwrap();
    const LOW: u32 = ((PINS_HIGH & !pin::INT0) as u32) << 24;
    const HIGH: u32 = (PINS_HIGH as u32) << 24;
    device.trace(&[HIGH | 4, LOW | 3, HIGH | 1, LOW | 100, HIGH | 50]).unwrap();
    assert_eq!((device.cycle, device.timers.tcon, device.last_rise(Flag::Ie0)), (158, 0, Some(9)));
    device.jump(PINS_HIGH & !pin::INT0, MAX_CYCLES).unwrap();
    assert_eq!(device.last_rise(Flag::Ie0), Some(159));
}

/// A device on which four flags rise in the first cycles: TF0 in 2, TI in 10, TF2 in 30, and TF1 in 200.
fn four_rises() -> Device {
    let mut device = timer_0_at_fffe();
    let writes = [
        (address::TMOD, 0x11),
        (address::TH1, 0xFF),
        (address::TL1, 0x38),
        (address::SBUF, 0x35),
        (address::TH2, 0xFF),
        (address::TL2, 0xE2),
        (address::T2CON, 0x04),
        (address::TCON, 0x50),
    ];
    for (address, value) in writes {
        device.write(address, value).unwrap();
    }
    device
}

/// Jumps and trace runs leave what single cycles leave, cut anywhere, and a list does too.
#[test]
fn jumps_leave_what_single_cycles_leave() {
    const NEVER: u64 = u64::MAX;
    let mut cycled = four_rises();
    for n in 0..300 {
        let expected = [2, 200, NEVER, NEVER, NEVER, 10, 30, NEVER].map(|number| (number <= n).then_some(number));
        assert_eq!((cycled.cycle, last_rises(&cycled)), (n, expected));
        let [mut jumped, mut traced, mut listed] = [four_rises(); 3];
        jumped.jump(PINS_HIGH, n / 3).unwrap();
        jumped.jump(PINS_HIGH, n - n / 3).unwrap();
        assert_eq!(jumped, cycled, "{n} cycles");
        if n > 0 {
            traced.trace(&[u32::from(PINS_HIGH) << 24 | n as u32]).unwrap();
            assert_eq!(traced, cycled, "{n} cycles");
        }
        listed.replay(&[[call::JUMP, PINS_HIGH.into(), n]], &[], &mut [[0; ANSWER_WORDS]]);
        assert_eq!(listed, cycled, "{n} cycles");
        cycled.cycle(PINS_HIGH).unwrap();
    }
}

/// The number is the one after the cycle, and wraps with it: a flag that rises in the cycle that ends at 0 has 0.
#[test]
fn the_number_wraps() {
    for (before, number) in [(0, 2), (7, 9), (u64::MAX - 2, u64::MAX), (u64::MAX - 1, 0), (u64::MAX, 1)] {
        let mut device = Device { cycle: before, ..timer_0_at_fffe() };
        device.jump(PINS_HIGH, 5).unwrap();
        assert_eq!((device.last_rise(Flag::Tf0), device.accepts()), (Some(number), true), "from {before}");
    }
}

/// Refused calls, calls that only look and power-down keep every pair, also pairs that no run has left.
#[test]
fn what_keeps_the_pairs() {
    let mut device = four_rises();
    device.jump(PINS_HIGH, 300).unwrap();
    device.write(address::IE, 0).unwrap();
    device.times.ever[Flag::Ri as usize] = 1;
    device.times.number[Flag::Ri as usize] = u64::MAX;
    let given = device;
    assert_eq!(last_rises(&given), [Some(2), Some(200), None, None, Some(u64::MAX), Some(10), Some(30), None]);
    // in a list each call has the device itself
    const PINS: u64 = PINS_HIGH as u64;
    let rows = [
        ([call::READ, address::TCON as u64, 0], 0),
        ([call::LOOK, PINS, 1_000], 0),
        ([call::WAKE, PINS, 1_000], 0),
        ([call::OFFER, 0, 0], 0),
        ([call::JUMP, PINS, 0], 0),
        ([call::TRACE, 0, 0], 0),
        ([call::READ, 0x80, 0], 3),
        ([call::WRITE, 0x80, 1], 3),
        ([call::CYCLE, 0x80, 0], 4),
        ([call::JUMP, 0x80, 1], 4),
        ([call::JUMP, PINS, MAX_CYCLES + 1], 5),
        ([call::TRACE, 0, 2], 8),
        ([call::TRACE, 2, 4], 4),
        ([call::TRACE, 0, MAX_TRACE as u64 + 1], 5),
        ([call::LOOK, 0x80, 1], 4),
        ([call::LOOK, PINS, MAX_CYCLES + 1], 5),
        ([call::WAKE, 0x80, 1], 4),
        ([call::WAKE, PINS, MAX_CYCLES + 1], 5),
        ([call::TAKE, 0, 0], 6),
        ([call::RETURN, 0, 0], 7),
    ];
    // a good entry, an empty one, a good one and one with bad pins
    let mut entries = vec![0x7F00_0001; MAX_TRACE + 1];
    (entries[1], entries[3]) = (0x7F00_0000, 0x8000_0001);
    for (row, code) in rows {
        let mut answers = [[0; ANSWER_WORDS]];
        device.replay(&[row], &entries, &mut answers);
        assert_eq!((answers[0][0], device), (code, given), "{row:?}");
    }
    device.write(address::PCON, pcon::PD).unwrap();
    assert_eq!(device.write(address::TCON, 0), Err(Refusal::PoweredDown));
    assert_eq!(device.take(), Err(Refusal::PoweredDown));
    // INT0 falls, and nothing is heard of it
    device.cycle(0).unwrap();
    device.jump(0, MAX_CYCLES).unwrap();
    device.trace(&[0x0000_0001, 0x7FFF_FFFF]).unwrap();
    assert_eq!(device, Device { pcon: pcon::PD, ..given });
}

/// An ever of 0 goes with 0 alone, an ever of 1 with any number, and no other is accepted; on kind 51 for TF2 and EXF2 too.
#[test]
fn the_ranges_of_the_pairs() {
    let given = Device { cycle: 1_000, ..Device::reset(51).unwrap() };
    for given in [given, Device { kind: 52, ..given }] {
        for flag in Flag::ALL {
            let with = |ever: u8, number: u64| {
                let mut device = given;
                device.times.ever[flag as usize] = ever;
                device.times.number[flag as usize] = number;
                device
            };
            assert_eq!((with(0, 0).accepts(), with(0, 0).last_rise(flag)), (true, None));
            for number in [0, 1, 999, 1_000, 1_001, 1 << 63, u64::MAX] {
                assert_eq!((with(1, number).accepts(), with(1, number).last_rise(flag)), (true, Some(number)));
                (2..=255).for_each(|ever| assert!(!with(ever, number).accepts(), "{flag:?}: {ever}, {number}"));
            }
            (0..64).for_each(|bit| assert!(!with(0, 1 << bit).accepts(), "{flag:?}: never, 2^{bit}"));
            for (ever, number) in [(2, 0), (2, 7), (255, 0), (128, u64::MAX), (0, 1), (0, 1_000), (0, 1 << 63), (0, u64::MAX)] {
                is_refused(with(ever, number));
            }
        }
    }
}

/// An answer in a list: its code, how many numbers it gives, the numbers, and zeros after them.
fn answer<const WORDS: usize>(words: [u64; WORDS]) -> AnswerRow {
    std::array::from_fn(|word| words.get(word).copied().unwrap_or(0))
}

/// A list answers as the single calls do, and leaves what they leave.
#[test]
fn a_list_of_every_call() {
    let pins = PINS_HIGH.into();
    const ROWS: usize = 20;
    let rows: [([u64; CALL_WORDS], AnswerRow); ROWS] = [
        ([call::LOOK, pins, 1], answer([0, NONE])),
        ([call::LOOK, pins, MAX_CYCLES], answer([0, 1, 2])),
        ([call::WAKE, pins, 2], answer([0, NONE])),
        ([call::WAKE, 0x100 | pins, MAX_CYCLES], answer([0, 1, 3])),
        ([call::WAKE, 0x80, 0], answer([Refusal::BadPins as u64, 1])),
        ([call::CYCLE, pins, 0], answer([0, 1, 1])),
        ([call::JUMP, pins, MAX_CYCLES + 1], answer([Refusal::TooLong as u64, 4])),
        ([call::JUMP, pins, 1], answer([0, 4, 1, 0, 0, 1])),
        ([call::JUMP, pins, 0], answer([0, 4])),
        ([call::READ, address::TCON.into(), 0], answer([0, 1, 0x30])),
        ([call::OFFER, 0, 0], answer([0, NONE])),
        ([call::TRACE, 0, 1], answer([Refusal::BadPins as u64, 3])),
        ([call::TRACE, 1, 2], answer([0, 3])),
        ([call::OFFER, 0, 0], answer([0, 1, 0x0B])),
        ([call::WAKE, pins, 0], answer([0, 1, 0])),
        ([call::TAKE, 0, 0], answer([0, 1, 0x0B])),
        ([call::WRITE, address::TMOD.into(), 0x101], answer([0, 0])),
        ([call::RETURN, 0, 0], answer([0, 0])),
        ([u64::MAX, 0, 0], answer([Refusal::NothingInService as u64, 0])),
        ([call::WAKE + 1, 0, 0], answer([Refusal::NothingInService as u64, 0])),
    ];
    let mut device = timer_0_at_fffe();
    let mut answers = [[7; ANSWER_WORDS]; ROWS];
    device.replay(&rows.map(|(call, _)| call), &[0x8000_0001, 0x7F00_0001], &mut answers);
    assert_eq!(answers, rows.map(|(_, answer)| answer));

    let mut single = timer_0_at_fffe();
    single.jump(PINS_HIGH, 3).unwrap();
    single.take().unwrap();
    single.return_from_interrupt().unwrap();
    assert_eq!(device, single);

    let refused = Refusal::PoweredDown as u64;
    let asleep = [
        ([call::WRITE, address::PCON.into(), (pcon::PD | pcon::IDL).into()], answer([0, 0])),
        ([call::WRITE, address::PCON.into(), 0], answer([refused, 0])),
        ([call::TAKE, 0, 0], answer([refused, 1])),
        ([call::RETURN, 0, 0], answer([refused, 0])),
        ([call::WAKE, pins, MAX_CYCLES], answer([0, NONE])),
        ([call::JUMP, pins, MAX_CYCLES], answer([0, 4, 0, 0, 0, 1])),
        ([call::CYCLE, pins, 0], answer([0, 1, 1])),
    ];
    device.replay(&asleep.map(|(call, _)| call), &[], &mut answers[..7]);
    assert_eq!(answers[..7], asleep.map(|(_, answer)| answer));
    assert_eq!(device, Device { pcon: 0x03, ..single });

    device.replay(&[[call::RESET, 51, 0]], &[], &mut answers[..1]);
    assert_eq!((Ok(device), answers[0]), (Device::reset(51), answer([0, 0])));
    device.replay(&[[call::RESET, 50, 0]], &[], &mut answers[..1]);
    assert_eq!((device, answers[0]), (Device::default(), answer([Refusal::BadKind as u64, 0])));
}

/// As many calls run as both slices have whole rows for, and what lies past them in the answers stays.
#[test]
fn whole_rows_run() {
    let calls = [[call::CYCLE, PINS_HIGH.into(), 0]; 5];
    for calls_length in 0..=calls.as_flattened().len() {
        for answers_length in 0..=5 * ANSWER_WORDS {
            let mut device = Device::reset(51).unwrap();
            let mut answers = [[7; ANSWER_WORDS]; 5];
            let answers_given = &mut answers.as_flattened_mut()[..answers_length];
            raw::replay(&mut device, &calls.as_flattened()[..calls_length], &[], answers_given);
            let ran = (calls_length / CALL_WORDS).min(answers_length / ANSWER_WORDS);
            assert_eq!(device.cycle, ran as u64);
            assert!(answers[..ran].iter().all(|row| *row == answer([0, 1, 1])), "{calls_length} and {answers_length} words");
            assert!(answers[ran..].as_flattened().iter().all(|&word| word == 7), "{calls_length} and {answers_length} words");
        }
    }
}

/// A trace that is not in order or not in range of the lent entries is empty: it passes and runs nothing.
#[test]
fn the_part_of_a_trace() {
    let lent = [0x7F00_0001, 0x7F00_0010, 0x7F00_0100];
    for (start, end, cycles) in [
        (0, 3, 0x111),
        (0, 1, 0x001),
        (1, 3, 0x110),
        (2, 3, 0x100),
        (3, 3, 0),
        (0, 0, 0),
        (2, 1, 0),
        (0, 4, 0),
        (4, 4, 0),
        (0, u64::MAX, 0),
        (u64::MAX, u64::MAX, 0),
        (u64::MAX, 1, 0),
        (1 << 32, 1, 0),
        (1 << 63, 3, 0),
    ] {
        let mut device = Device::reset(52).unwrap();
        let mut answers = [[7; ANSWER_WORDS]];
        device.replay(&[[call::TRACE, start, end]], &lent, &mut answers);
        assert_eq!((answers[0], device.cycle), (answer([0, 3]), cycles), "{start} to {end}");
    }
}

/// A jump in every way: by itself, in a list, on a board, and in parts, whose totals add up: a trace of two entries, two
/// jumps, and jumps of 1 where it is short. Two jumps have its rounds, or one more where they cut a run; jumps of 1 have one
/// each.
fn jumped(given: Device, pins: u8, n: u64) -> Jump {
    let mut device = given;
    let jump = device.jump(pins, n).unwrap();
    let same = |way: &str, given: Totals, left: Device| assert_eq!((given, left), (jump.totals, device), "{n} cycles by {way}");
    let parts = [n / 3, n - n / 3];
    let entries = parts.iter().filter(|&&part| part > 0).map(|&part| u32::from(pins) << 24 | part as u32);
    let [mut traced, mut listed, mut parted, mut by_ones] = [given; 4];
    same("a trace", traced.trace(&entries.collect::<Vec<u32>>()).unwrap(), traced);
    let mut rows = [[7; ANSWER_WORDS]; 1];
    listed.replay(&[[call::JUMP, pins.into(), n]], &[], &mut rows);
    let [0, 4, timer0, timer1, timer2, rounds] = rows[0] else { panic!("{rows:?}") };
    same("a list", Totals { timer0, timer1, timer2 }, listed);
    let mut board = Board { device: given, ..Board::reset(52).unwrap() };
    let on_a_board = board.jump(pins, GATES_HIGH, n).unwrap();
    same("a board", on_a_board.totals, board.device);
    assert_eq!([rounds, on_a_board.rounds], [jump.rounds; 2], "rounds of {n} cycles in a list and on a board");
    let jumps = parts.map(|part| parted.jump(pins, part).unwrap());
    same("two jumps", jumps.iter().map(|part| part.totals).sum(), parted);
    let rounds: u64 = jumps.iter().map(|part| part.rounds).sum();
    assert!((jump.rounds..=jump.rounds + 1).contains(&rounds), "{rounds} in two jumps, {} in one", jump.rounds);
    if n < 10_000 {
        let jumps: Vec<Jump> = (0..n).map(|_| by_ones.jump(pins, 1).unwrap()).collect();
        same("jumps of 1", jumps.iter().map(|part| part.totals).sum(), by_ones);
        assert!(jumps.iter().all(|part| part.rounds == 1), "{n} jumps of 1");
    }
    jump
}

/// Timers 0 and 1 by their modes: what is written, pins, cycles, and the overflows in them.
#[test]
fn totals_of_timers_0_and_1() {
    use address::{TCON, TH0, TH1, TL0, TL1, TMOD};
    const T0_LOW: u8 = PINS_HIGH & !pin::T0;
    let runs: [(&Writes, u8, u64, [u64; 2]); 15] = [
        // the third card of document 01: the first lap is short
        (&[(TMOD, 0x20), (TH1, 0xFD), (TL1, 0xFE), (TCON, 0x40)], PINS_HIGH, 101, [0, 34]),
        (&[(TMOD, 0x20), (TH1, 0xFD), (TL1, 0xFE), (TCON, 0x40)], PINS_HIGH, 1, [0, 0]),
        (&[(TMOD, 0x20), (TH1, 0xFD), (TL1, 0xFE), (TCON, 0x40)], PINS_HIGH, 2, [0, 1]),
        (&[(TMOD, 0x20), (TH1, 0xFD), (TL1, 0xFE), (TCON, 0xC0)], PINS_HIGH, 12_000_001, [0, 4_000_000]),
        // mode 0 has 13 bits, mode 1 has 16
        (&[(TMOD, 0x00), (TH0, 0xFF), (TL0, 0xFF), (TCON, 0x10)], PINS_HIGH, 8_192, [1, 0]),
        (&[(TMOD, 0x00), (TH0, 0xFF), (TL0, 0xFF), (TCON, 0x10)], PINS_HIGH, 8_193, [2, 0]),
        (&[(TMOD, 0x11), (TH0, 0xFF), (TL0, 0xFE), (TH1, 0xFF), (TL1, 0xFF), (TCON, 0x50)], PINS_HIGH, 65_537, [1, 2]),
        // mode 3: TL0 and TH0 in one cycle; TH0 alone under TR1; Timer 1 without a flag, its TR1 being 0
        (&[(TMOD, 0x03), (TH0, 0xFF), (TL0, 0xFF), (TCON, 0x50)], PINS_HIGH, 1, [2, 0]),
        (&[(TMOD, 0x03), (TH0, 0xFF), (TL0, 0xFF), (TCON, 0x50)], PINS_HIGH, 257, [4, 0]),
        (&[(TMOD, 0x33), (TH0, 0xFF), (TL0, 0xFF), (TCON, 0x40)], PINS_HIGH, 256, [1, 0]),
        (&[(TMOD, 0x23), (TH1, 0xFF), (TL1, 0xFF), (TCON, 0x00)], PINS_HIGH, 1_000, [0, 1_000]),
        // a counter counts in the cycle after the fall, also where another run has made it
        (&[(TMOD, 0x06), (TL0, 0xFF), (TCON, 0x10)], T0_LOW, 1, [0, 0]),
        (&[(TMOD, 0x06), (TL0, 0xFF), (TCON, 0x10)], T0_LOW, 2, [1, 0]),
        // stopped, and held by its gate
        (&[(TMOD, 0x12), (TL0, 0xFF), (TH1, 0xFF), (TL1, 0xFF)], PINS_HIGH, 1_000, [0, 0]),
        (&[(TMOD, 0x0A), (TL0, 0xFF), (TCON, 0x10)], PINS_HIGH & !pin::INT0, 1_000, [0, 0]),
    ];
    for kind in [51, 52] {
        for (writes, pins, n, [timer0, timer1]) in runs {
            assert_eq!(
                jumped(written(kind, writes), pins, n).totals,
                Totals { timer0, timer1, timer2: 0 },
                "{n} cycles after {writes:02X?}"
            );
        }
    }
    let mut silent = written(52, &[(TMOD, 0x23), (TH1, 0xFF), (TL1, 0xFF)]);
    assert_eq!((silent.jump(PINS_HIGH, 9).unwrap().totals.timer1, silent.timers.tcon), (9, 0), "no flag is set");
}

/// The rounds of cycles that are busy or not: one for each that is, and one for each longest run of those that are not.
fn rounds_of(cycles: impl Iterator<Item = bool>) -> u64 {
    let mut rounds = 0;
    let mut in_a_run = false;
    for busy in cycles {
        rounds += u64::from(busy || !in_a_run);
        in_a_run = !busy;
    }
    rounds
}

/// An idle station, with TF1 up: whatever the reload of Timer 1 and wherever in its lap a run begins, the laps up to its
/// end less those up to its beginning. Laps by division of its own length would lose the first one, which is short. The last
/// cycle of each lap is busy, and no other is.
#[test]
fn an_idle_station() {
    for reload in [0x00, 0xF9, 0xFD, 0xFE, 0xFF] {
        let lap = 0x100 - u64::from(reload);
        let timer_1 = [(address::TMOD, 0x20), (address::TH1, reload), (address::TL1, reload), (address::TCON, 0x40)];
        let serial = [(address::SCON, 0x50), (address::IE, 0x90), (address::PCON, pcon::IDL)];
        let mut device = written(52, &[&timer_1[..], &serial].concat());
        device.jump(PINS_HIGH, 999).unwrap();
        for _ in 0..7 {
            for n in (0..100).chain([1_000_000]) {
                let laps = (device.cycle + n) / lap - device.cycle / lap;
                let totals = Totals { timer1: laps, ..Totals::default() };
                let rounds = rounds_of((1..=n).map(|cycle| (device.cycle + cycle) % lap == 0));
                assert_eq!(jumped(device, PINS_HIGH, n), Jump { totals, rounds }, "{n} cycles, reload {reload:02X}");
            }
            device.cycle(PINS_HIGH).unwrap();
        }
    }
}

/// Timer 2: auto-reload and capture, and as a baud rate generator, from 1 in a cycle to 6. A reload by T2EX is no overflow.
#[test]
fn totals_of_timer_2() {
    let timer2 = |device: Device, pins: u8, n: u64| {
        let totals = jumped(device, pins, n).totals;
        assert_eq!((totals.timer0, totals.timer1), (0, 0));
        totals.timer2
    };
    for (t2con, reload) in [(0x04, 0xFFFE), (0x05, 0)] {
        let expected = [(1, 0), (2, 1), (6, if reload == 0 { 1 } else { 3 })];
        for (n, overflows) in expected {
            assert_eq!(timer2(timer_2_at(0xFFFE, reload, t2con), PINS_HIGH, n), overflows, "T2CON {t2con:02X}, {n} cycles");
        }
    }
    for clock in [0x14, 0x24, 0x34] {
        assert_eq!(timer2(timer_2_at(0xFFFD, 0xFFFD, clock), PINS_HIGH, 1), 2, "two a cycle");
        assert_eq!(timer2(timer_2_at(0xFFFD, 0xFFFD, clock), PINS_HIGH, 1_000), 2_000);
        for lap in 1..=7 {
            let count = (0x1_0000_u32 - lap) as u16;
            assert_eq!(timer2(timer_2_at(count, count, clock), PINS_HIGH, 700), u64::from(6 * 700 / lap), "a lap of {lap} counts");
        }
    }
    const T2EX_LOW: u8 = PINS_HIGH & !pin::T2EX;
    let mut reloaded = timer_2_at(0, 0xFFF0, 0x0C);
    assert_eq!(timer2(reloaded, T2EX_LOW, 1), 0);
    reloaded.jump(T2EX_LOW, 1).unwrap();
    assert_eq!((reloaded.timer2.th2, reloaded.timer2.tl2, reloaded.timer2.t2con & flag::EXF2), (0xFF, 0xF0, flag::EXF2));
}

/// An empty jump or trace, power-down, and each refusal: zeros, also where a timer is about to overflow; but power-down and a
/// device at rest are one round, of any length.
#[test]
fn answers_that_are_zeros() {
    let mut device = written(52, &[(address::TMOD, 0x22), (address::TL0, 0xFF), (address::TL1, 0xFF), (address::TCON, 0x50)]);
    let about = device;
    const ZEROS: Totals = Totals { timer0: 0, timer1: 0, timer2: 0 };
    assert_eq!((device.jump(PINS_HIGH, 0), device.trace(&[])), (Ok(Jump { totals: ZEROS, rounds: 0 }), Ok(ZEROS)));
    let jump_refused = |code: Refusal| JumpAnswer { code: code.code(), totals: ZEROS, rounds: 0 };
    let trace_refused = |code: Refusal| RunAnswer { code: code.code(), totals: ZEROS };
    assert_eq!(raw::c51_jump(&mut device, 0x80, 1), jump_refused(Refusal::BadPins));
    assert_eq!(raw::c51_jump(&mut device, PINS_HIGH, MAX_CYCLES + 1), jump_refused(Refusal::TooLong));
    assert_eq!(raw::trace(&mut device, &[0x7F00_0001, 0x8000_0001]), trace_refused(Refusal::BadPins));
    assert_eq!(raw::trace(&mut device, &[0x7F00_0001, 0x7F00_0000]), trace_refused(Refusal::EmptyEntry));
    assert_eq!(raw::trace(&mut device, &vec![0x7F00_0001; MAX_TRACE + 1]), trace_refused(Refusal::TooLong));
    assert_eq!(device, about);
    let mut bad = Device { kind: 53, ..about };
    assert_eq!(
        (raw::c51_jump(&mut bad, PINS_HIGH, 1), raw::trace(&mut bad, &[])),
        (jump_refused(Refusal::BadRecord), trace_refused(Refusal::BadRecord))
    );
    let mut down = about;
    down.write(address::PCON, pcon::PD).unwrap();
    let mut rest = Device::reset(51).unwrap();
    for n in [1, 2, 1_000, MAX_CYCLES] {
        assert_eq!(down.jump(PINS_HIGH, n), Ok(Jump { totals: ZEROS, rounds: 1 }), "power-down");
        assert_eq!(rest.jump(PINS_HIGH, n), Ok(Jump { totals: ZEROS, rounds: 1 }), "at rest");
    }
    assert_eq!(down.jump(0, 0).unwrap().rounds + rest.jump(PINS_HIGH, 0).unwrap().rounds, 0);
    assert_eq!(down.trace(&[0x7FFF_FFFF; 9]), Ok(ZEROS), "power-down");
    let totals = Totals { timer0: 1, timer1: 1, timer2: 0 };
    assert_eq!(device.jump(PINS_HIGH, 1), Ok(Jump { totals, rounds: 1 }), "the very next cycle has two");
}

/// What makes a cycle busy: what is written, pins, and which of the first twelve cycles from reset are busy. A jump over any of
/// them in a row has their rounds.
#[test]
fn what_makes_a_round() {
    use address::{RCAP2H, RCAP2L, SBUF, SCON, T2CON, TCON, TH0, TH1, TH2, TL0, TL1, TL2, TMOD};
    const RXD_LOW: u8 = PINS_HIGH & !pin::RXD;
    let cases: [(&str, &Writes, u8, &str); 21] = [
        ("nothing", &[], PINS_HIGH, "............"),
        // a saved level; of T0 a due mark too, which is cleared in the next cycle, whether a counter runs or not
        ("RXD falls", &[], RXD_LOW, "#..........."),
        ("T0 falls", &[], PINS_HIGH & !pin::T0, "##.........."),
        ("T1 falls", &[], PINS_HIGH & !pin::T1, "##.........."),
        ("T2 falls", &[], PINS_HIGH & !pin::T2, "##.........."),
        // a flag that rises or is written, seen and polled after it
        ("IE0 by its level", &[], PINS_HIGH & !pin::INT0, "##.........."),
        ("TF0 written", &[(TCON, 0x20)], PINS_HIGH, "##.........."),
        ("IE1 written, and cleared by its level", &[(TCON, 0x08)], PINS_HIGH, "#..........."),
        ("EXF2", &[(T2CON, 0x0C)], PINS_HIGH & !pin::T2EX, "##.........."),
        // overflows: TF1 is up from the first on; TF2 is polled in its own cycle
        ("Timer 0 in mode 1", &[(TMOD, 0x01), (TH0, 0xFF), (TL0, 0xFD), (TCON, 0x10)], PINS_HIGH, "..##........"),
        ("Timer 1 in mode 2", &[(TMOD, 0x20), (TH1, 0xFC), (TL1, 0xFC), (TCON, 0x40)], PINS_HIGH, "...##..#...#"),
        ("Timer 1, silent", &[(TMOD, 0x23), (TH1, 0xFE), (TL1, 0xFE)], PINS_HIGH, ".#.#.#.#.#.#"),
        ("TH0 in mode 3", &[(TMOD, 0x33), (TH0, 0xFE), (TCON, 0xC0)], PINS_HIGH, "##.........."),
        ("Timer 2, captures", &[(TH2, 0xFF), (TL2, 0xFD), (T2CON, 0x05)], PINS_HIGH, "..#........."),
        (
            "Timer 2 for the serial port, six counts a cycle",
            &[(RCAP2H, 0xFF), (RCAP2L, 0xEE), (TH2, 0xFF), (TL2, 0xEE), (T2CON, 0x34)],
            PINS_HIGH,
            "..#..#..#..#",
        ),
        // a serial position: a frame of serial mode 0 and the poll after it, and one that waits on a stopped clock
        ("a byte sent in mode 0", &[(SBUF, 0x35)], PINS_HIGH, "###########."),
        ("a byte received in mode 0", &[(SCON, 0x10)], PINS_HIGH, "###########."),
        ("a byte that waits in mode 1", &[(SCON, 0x40), (SBUF, 0x35)], PINS_HIGH, "############"),
        ("a start bit in mode 2", &[(SCON, 0x90)], RXD_LOW, "############"),
        // none of it: the serial counters, half and the last line sample
        ("ticks in mode 2", &[(SCON, 0x80)], PINS_HIGH, "............"),
        ("ticks in mode 2, RXD low", &[(SCON, 0x80)], RXD_LOW, "#..........."),
    ];
    for (what, writes, pins, busy) in cases {
        let is_busy = |cycle: u64| busy.as_bytes()[cycle as usize] == b'#';
        for n in 0..=12 {
            let rounds = rounds_of((0..n).map(is_busy));
            assert_eq!(jumped(written(52, writes), pins, n).rounds, rounds, "{what}: {n} cycles");
            let mut device = written(52, writes);
            for from in 0..n {
                let rounds = rounds_of((from..n).map(is_busy));
                let mut rest = device;
                assert_eq!(rest.jump(pins, n - from).unwrap().rounds, rounds, "{what}: cycles {from} to {n}");
                device.cycle(pins).unwrap();
            }
        }
    }
}

/// At most two rounds for a busy cycle, and one more: as many as that where busy cycles stand alone, fewer where they do not.
#[test]
fn as_many_rounds_as_can_be() {
    let alone = written(52, &[(address::TMOD, 0x23), (address::TH1, 0xF8), (address::TL1, 0xF8)]);
    let jump = jumped(alone, PINS_HIGH, 8 * 1_000 + 7);
    assert_eq!((jump.totals.timer1, jump.rounds), (1_000, 2 * 1_000 + 1));
    let waiting = written(51, &[(address::SCON, 0x40), (address::SBUF, 0x35)]);
    for n in [0, 1, 2, 96, 1_000_000] {
        assert_eq!(jumped(waiting, PINS_HIGH, n), Jump { rounds: n, ..Jump::default() }, "each cycle of a frame that waits");
    }
}

/// Totals are added timer by timer.
#[test]
fn totals_add_up() {
    let [a, b] = [Totals { timer0: 1, timer1: 20, timer2: 300 }, Totals { timer0: 4_000, timer1: 50_000, timer2: 1 << 40 }];
    let sum = Totals { timer0: 4_001, timer1: 50_020, timer2: 300 + (1 << 40) };
    let mut added = a;
    added += b;
    assert_eq!((a + b, added, [a, b].into_iter().sum::<Totals>()), (sum, sum, sum));
    assert_eq!([].into_iter().sum::<Totals>(), Totals::default());
    assert_eq!(a + Totals::default(), a);
}
