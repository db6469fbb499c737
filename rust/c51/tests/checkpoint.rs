//! Checkpoints: the bytes of a device, each refusal and what it leaves, which of several faults decides, and that a device goes on
//! from its checkpoint as the one that was saved.
use c51::raw::{self, Answer};
use c51::{address, pcon, pin, Device, Flag, Refusal, CHECKPOINT_51, CHECKPOINT_52, PINS_HIGH};

/// The registers in the order of a file: the address, the implemented bits on kinds 51 and 52, and the value.
type Register = (u8, [u8; 2], fn(&Device) -> u8);

const REGISTERS: [Register; 16] = [
    (0x87, [0x8F, 0x8F], |d| d.pcon),
    (0x88, [0xFF, 0xFF], |d| d.timers.tcon),
    (0x89, [0xFF, 0xFF], |d| d.timers.tmod),
    (0x8A, [0xFF, 0xFF], |d| d.timers.tl0),
    (0x8B, [0xFF, 0xFF], |d| d.timers.tl1),
    (0x8C, [0xFF, 0xFF], |d| d.timers.th0),
    (0x8D, [0xFF, 0xFF], |d| d.timers.th1),
    (0x98, [0xFF, 0xFF], |d| d.serial.scon),
    (0x99, [0xFF, 0xFF], |d| d.serial.received),
    (0xA8, [0x9F, 0xBF], |d| d.interrupts.ie),
    (0xB8, [0x1F, 0x3F], |d| d.interrupts.ip),
    (0xC8, [0x00, 0xFF], |d| d.timer2.t2con),
    (0xCA, [0x00, 0xFF], |d| d.timer2.rcap2l),
    (0xCB, [0x00, 0xFF], |d| d.timer2.rcap2h),
    (0xCC, [0x00, 0xFF], |d| d.timer2.tl2),
    (0xCD, [0x00, 0xFF], |d| d.timer2.th2),
];

/// The hidden fields in the order of a file and then the saved levels, each with the greatest value that it may have on kind 52; a
/// position's is that of serial modes 2 and 3.
type Hidden = (&'static str, u64, fn(&Device) -> u64);

const HIDDEN: [Hidden; 25] = [
    ("send position", 11, |d| d.serial.send.position.into()),
    ("send value", 511, |d| d.serial.send.value.into()),
    ("send counter", 15, |d| d.serial.send.counter.into()),
    ("receive position", 11, |d| d.serial.receive.position.into()),
    ("receive value", 511, |d| d.serial.receive.value.into()),
    ("receive counter", 15, |d| d.serial.receive.counter.into()),
    ("votes", 2, |d| d.serial.receive.votes.into()),
    ("last line sample", 1, |d| d.serial.receive.sample.into()),
    ("half", 1, |d| d.serial.half.into()),
    ("received byte", 255, |d| d.serial.received.into()),
    ("due mark of T0", 1, |d| d.timers.due0.into()),
    ("due mark of T1", 1, |d| d.timers.due1.into()),
    ("due mark of T2", 1, |d| d.timer2.due2.into()),
    ("seen", 63, |d| d.interrupts.seen.into()),
    ("polled", 63, |d| d.interrupts.polled.into()),
    ("low in service", 1, |d| d.interrupts.low.into()),
    ("high in service", 1, |d| d.interrupts.high.into()),
    ("cycle number", u64::MAX, |d| d.cycle),
    ("RXD", 1, |d| d.levels[0].into()),
    ("INT0", 1, |d| d.levels[1].into()),
    ("INT1", 1, |d| d.levels[2].into()),
    ("T0", 1, |d| d.levels[3].into()),
    ("T1", 1, |d| d.levels[4].into()),
    ("T2", 1, |d| d.levels[5].into()),
    ("T2EX", 1, |d| d.levels[6].into()),
];

const SEND_POSITION: usize = 0;
const RECEIVE_POSITION: usize = 3;
const RECEIVED_BYTE: usize = 9;
const DUE_T2: usize = 12;
const CYCLE: usize = 17;

/// The registers that a kind has in a file.
fn registers(kind: u8) -> &'static [Register] {
    if kind == 51 {
        &REGISTERS[..11]
    } else {
        &REGISTERS
    }
}

/// Where things stand in the file of a kind: a register's address, with its value behind it, the count of the hidden fields, one
/// of these, the count of the flag times, and one of these.
fn register_at(place: usize) -> usize {
    1 + 2 * place
}

fn hidden_count_at(kind: u8) -> usize {
    register_at(registers(kind).len())
}

fn hidden_at(kind: u8, place: usize) -> usize {
    hidden_count_at(kind) + 1 + 8 * place
}

fn times_count_at(kind: u8) -> usize {
    hidden_at(kind, HIDDEN.len())
}

fn time_at(kind: u8, flag: usize) -> usize {
    times_count_at(kind) + 1 + 9 * flag
}

/// The bytes of a device, written down from its record.
fn bytes_of(device: &Device) -> Vec<u8> {
    let registers = registers(device.kind);
    let mut file = vec![registers.len() as u8];
    registers.iter().for_each(|(address, _, value)| file.extend([*address, value(device)]));
    file.push(25);
    HIDDEN.iter().for_each(|(_, _, value)| file.extend(value(device).to_le_bytes()));
    file.push(8);
    for flag in 0..8 {
        file.push(device.times.ever[flag]);
        file.extend(device.times.number[flag].to_le_bytes());
    }
    file
}

/// Every field at its greatest, in serial mode 3.
fn greatest(kind: u8) -> Device {
    let mut d = Device::reset(kind).unwrap();
    let of = |place: usize| REGISTERS[place].1[usize::from(kind - 51)];
    d.pcon = of(0);
    d.timers = c51::Timers { tcon: 255, tmod: 255, tl0: 255, tl1: 255, th0: 255, th1: 255, due0: 1, due1: 1 };
    d.serial.scon = 255;
    d.serial.send = c51::Sender { position: 11, value: 511, counter: 15 };
    d.serial.receive = c51::Receiver { position: 11, value: 511, counter: 15, votes: 2, sample: 1 };
    (d.serial.half, d.serial.received) = (1, 255);
    d.interrupts = c51::Interrupts { ie: of(9), ip: of(10), seen: 63, polled: 63, low: 1, high: 1 };
    if kind == 52 {
        d.timer2 = c51::Timer2 { t2con: 255, rcap2l: 255, rcap2h: 255, tl2: 255, th2: 255, due2: 1 };
    }
    d.levels = [1; 7];
    d.cycle = u64::MAX;
    d.times = c51::FlagTimes { ever: [1; 8], number: [u64::MAX; 8] };
    d
}

/// Fields that all differ where their ranges allow it, levels and marks of both kinds, and numbers with a byte of their own in each
/// place; the flags have pairs of every form.
fn different(kind: u8) -> Device {
    let mut d = greatest(kind);
    d.pcon = 0x8D;
    d.timers = c51::Timers { tcon: 0x51, tmod: 0x52, tl0: 0x53, tl1: 0x54, th0: 0x55, th1: 0x56, due0: 1, due1: 0 };
    d.serial.scon = 0x97;
    d.serial.send = c51::Sender { position: 9, value: 0x1A2, counter: 6 };
    d.serial.receive = c51::Receiver { position: 5, value: 0x134, counter: 14, votes: 2, sample: 0 };
    (d.serial.half, d.serial.received) = (1, 0x57);
    d.interrupts = c51::Interrupts { ie: 0x98, ip: 0x19, seen: 0x2A, polled: 0x35, low: 1, high: 0 };
    if kind == 52 {
        d.timer2 = c51::Timer2 { t2con: 0x58, rcap2l: 0x59, rcap2h: 0x5A, tl2: 0x5B, th2: 0x5C, due2: 0 };
    }
    d.levels = [1, 0, 0, 1, 0, 1, 1];
    d.cycle = 0x0102_0304_0506_0708;
    d.times.ever = [1, 0, 1, 1, 0, 1, 1, 0];
    d.times.number = [0x1112_1314_1516_1718, 0, 0, u64::MAX, 0, 1, 0x2122_2324_2526_2728, 0];
    d
}

/// A station that is receiving a byte at 9600 baud and sending another, in the middle of both frames.
fn in_a_frame() -> Device {
    let mut d = Device::reset(52).unwrap();
    let setup = [(address::TMOD, 0x20), (address::TH1, 0xFD), (address::TL1, 0xFD), (address::SCON, 0x50), (address::IE, 0x90)];
    for (address, value) in setup.into_iter().chain([(address::TCON, 0x40), (address::SBUF, 0x35)]) {
        d.write(address, value).unwrap();
    }
    d.jump(PINS_HIGH & !pin::RXD, 250).unwrap();
    d.jump(PINS_HIGH, 205).unwrap();
    assert!(d.serial.send.position > 2 && d.serial.receive.position > 2 && d.times.ever[Flag::Tf1 as usize] == 1);
    d
}

/// Devices of both kinds.
fn devices() -> Vec<Device> {
    let resets = [51, 52].map(|kind| Device::reset(kind).unwrap());
    let mut down = different(52);
    down.write(address::PCON, pcon::PD | pcon::IDL).unwrap();
    [resets, [51, 52].map(greatest), [51, 52].map(different), [in_a_frame(), down]].concat()
}

/// A load that is refused: the record of zeros.
fn refused(code: Refusal) -> Answer {
    Answer { code: code.code(), device: Device::default() }
}

#[track_caller]
fn is_refused(file: &[u8], code: Refusal, what: &str) {
    assert_eq!(raw::load(file), refused(code), "{what}");
    assert_eq!(Device::load(file), Err(code), "{what}");
}

/// A change of a file.
fn changed(file: &[u8], change: impl FnOnce(&mut Vec<u8>)) -> Vec<u8> {
    let mut file = file.to_vec();
    change(&mut file);
    file
}

/// A file with these eight bytes in the place of a hidden field.
fn with_hidden(device: &Device, place: usize, value: u64) -> Vec<u8> {
    let at = hidden_at(device.kind, place);
    changed(&bytes_of(device), |file| file[at..at + 8].copy_from_slice(&value.to_le_bytes()))
}

#[test]
fn the_bytes_of_a_device() {
    assert_eq!((CHECKPOINT_51, CHECKPOINT_52), (297, 307));
    for device in devices() {
        let file = device.save().expect("a checkpoint");
        assert_eq!(file, bytes_of(&device), "{device:?}");
        assert_eq!(file.len(), if device.kind == 51 { CHECKPOINT_51 } else { CHECKPOINT_52 });
        assert_eq!(file.len(), device.checkpoint_length());
    }
    // the ends of the sections, and a value of each, as they stand
    let file = different(51).save().unwrap();
    assert_eq!(file[..5], [11, 0x87, 0x8D, 0x88, 0x51]);
    assert_eq!(file[17..25], [0x99, 0x57, 0xA8, 0x98, 0xB8, 0x19, 25, 9]);
    assert_eq!(file[32..40], [0xA2, 0x01, 0, 0, 0, 0, 0, 0], "the send value, low byte first");
    assert_eq!(file[160..168], [8, 7, 6, 5, 4, 3, 2, 1], "the cycle number");
    assert_eq!([168, 176, 184, 192, 200, 208, 216].map(|at| file[at]), [1, 0, 0, 1, 0, 1, 1], "the levels from RXD up");
    assert_eq!(file[224..234], [8, 1, 0x18, 0x17, 0x16, 0x15, 0x14, 0x13, 0x12, 0x11]);
    let file = different(52).save().unwrap();
    assert_eq!(file[..3], [16, 0x87, 0x8D]);
    assert_eq!(file[23..35], [0xC8, 0x58, 0xCA, 0x59, 0xCB, 0x5A, 0xCC, 0x5B, 0xCD, 0x5C, 25, 9]);
    assert_eq!(file[234..236], [8, 1]);
}

/// Reading what was written gives that device, and writing what was read gives that file.
#[test]
fn there_and_back() {
    for device in devices() {
        let file = device.save().unwrap();
        assert_eq!(Device::load(&file), Ok(device));
        assert_eq!(raw::load(&file), Answer { code: 0, device });
        assert!(device.accepts());
        let mut buffer = vec![0xAA; file.len()];
        assert_eq!((device.save_into(&mut buffer), &buffer), (Ok(()), &file));
    }
}

/// From each place of a frame: the moved device answers and ends as the one that was saved.
#[test]
fn a_loaded_device_goes_on() {
    for cycles in 0..1_000 {
        let mut device = in_a_frame();
        device.jump(PINS_HIGH, cycles).unwrap();
        let mut moved = Device::load(&device.save().unwrap()).unwrap();
        assert_eq!(moved.wake_look(PINS_HIGH, 10_000), device.wake_look(PINS_HIGH, 10_000));
        assert_eq!(moved.look_ahead(PINS_HIGH, 10_000), device.look_ahead(PINS_HIGH, 10_000));
        assert_eq!(moved.cycle(PINS_HIGH), device.cycle(PINS_HIGH));
        assert_eq!(moved.jump(PINS_HIGH & !pin::RXD, 500), device.jump(PINS_HIGH & !pin::RXD, 500));
        assert_eq!(moved.trace(&[0x7F00_0100, 0x7E00_0200]), device.trace(&[0x7F00_0100, 0x7E00_0200]));
        assert_eq!((moved.offer(), moved.read(address::SBUF)), (device.offer(), device.read(address::SBUF)));
        assert_eq!(moved.take(), device.take());
        assert_eq!(moved, device, "moved after {cycles} cycles");
    }
}

/// 1 goes before 15, and neither touches the buffer.
#[test]
fn a_refused_save_leaves_the_buffer() {
    for device in devices() {
        let right = device.checkpoint_length();
        let bad = Device { kind: 53, ..device };
        let odd = Device { levels: [0, 0, 0, 0, 0, 0, 2], ..device };
        for length in (0..=400).chain([1 << 16]) {
            let filled: Vec<u8> = (0..length).map(|at| at as u8 ^ 0x5A).collect();
            let mut buffer = filled.clone();
            for refused in [bad, odd, Device::default()] {
                assert_eq!((raw::save(refused, &mut buffer), &buffer), (1, &filled), "{length} bytes");
                assert_eq!(refused.save_into(&mut buffer), Err(Refusal::BadRecord));
            }
            if length != right {
                assert_eq!((raw::save(device, &mut buffer), &buffer), (15, &filled), "{length} bytes");
                assert_eq!((device.save_into(&mut buffer), &buffer), (Err(Refusal::BadLength), &filled));
            }
        }
        assert_eq!((bad.save(), odd.save()), (Err(Refusal::BadRecord), Err(Refusal::BadRecord)));
    }
}

/// A buffer that lies between other bytes: those stay.
#[test]
fn a_save_writes_its_buffer_alone() {
    for device in devices() {
        let length = device.checkpoint_length();
        let mut around = vec![0xAA; length + 64];
        device.save_into(&mut around[32..32 + length]).unwrap();
        assert_eq!(around[32..32 + length], bytes_of(&device));
        assert!(around[..32].iter().chain(&around[32 + length..]).all(|&byte| byte == 0xAA));
    }
}

#[test]
fn cut_short_and_left_over() {
    for device in devices() {
        let file = bytes_of(&device);
        for length in 0..file.len() {
            is_refused(&file[..length], Refusal::BadLength, "cut short");
        }
        for more in (1..=400).chain([1 << 16]) {
            for byte in [0, 1, 0xFF] {
                is_refused(&changed(&file, |file| file.resize(file.len() + more, byte)), Refusal::BadLength, "left over");
            }
        }
        is_refused(&[file.clone(), file].concat(), Refusal::BadLength, "two files");
    }
    is_refused(&[], Refusal::BadLength, "the empty file");
}

/// Every other count and every other address.
#[test]
fn the_layout() {
    for device in devices() {
        let file = bytes_of(&device);
        let kind = device.kind;
        let addresses = (0..registers(kind).len()).map(register_at);
        for at in addresses.chain([0, hidden_count_at(kind), times_count_at(kind)]) {
            for byte in (0..=255).filter(|&byte| byte != file[at]) {
                let other = changed(&file, |file| file[at] = byte);
                // with the count of the other kind, what comes after the last register of both is another address or count; an IE or
                // IP of kind 52 alone comes before it
                if at == 0 && [11, 16].contains(&byte) && (device.interrupts.ie > 0x9F || device.interrupts.ip > 0x1F) {
                    is_refused(&other, Refusal::BadValue, "IE or IP of the other kind");
                } else {
                    is_refused(&other, Refusal::BadLayout, &format!("{byte} at {at}"));
                }
            }
        }
    }
    is_refused(&[11; CHECKPOINT_51], Refusal::BadLayout, "a file of one byte");
    is_refused(&[25], Refusal::BadLayout, "a count alone");
    let file = bytes_of(&different(52));
    let swapped = changed(&file, |file| file[1..5].rotate_left(2));
    is_refused(&swapped, Refusal::BadLayout, "registers in another order");
}

/// Each bit of each register that the kind lacks.
#[test]
fn values_of_registers() {
    for device in devices() {
        let file = bytes_of(&device);
        for (place, (address, masks, _)) in registers(device.kind).iter().enumerate() {
            let mask = masks[usize::from(device.kind - 51)];
            for bit in (0..8).map(|bit| 1 << bit).filter(|bit| mask & bit == 0) {
                let other = changed(&file, |file| file[register_at(place) + 1] |= bit);
                is_refused(&other, Refusal::BadValue, &format!("bit {bit:02X} of {address:02X}"));
            }
        }
    }
}

/// Each hidden field at its greatest value passes, one more does not, and neither does a bit in any byte past it.
#[test]
fn values_of_hidden_fields() {
    for device in [51, 52].map(greatest) {
        for (place, &(name, most, _)) in HIDDEN.iter().enumerate().filter(|&(place, _)| place != CYCLE) {
            let most = if (device.kind, place) == (51, DUE_T2) { 0 } else { most };
            assert_eq!(Device::load(&with_hidden(&device, place, most)), Ok(device), "{name}");
            is_refused(&with_hidden(&device, place, most + 1), Refusal::BadValue, name);
            is_refused(&with_hidden(&device, place, u64::MAX), Refusal::BadValue, name);
            for bit in (0..64).filter(|bit| 1 << bit > most) {
                is_refused(&with_hidden(&device, place, most | 1 << bit), Refusal::BadValue, &format!("2^{bit} in {name}"));
            }
        }
        for cycle in [0, 1, 255, 256, 1 << 32, 1 << 63, u64::MAX] {
            assert_eq!(Device::load(&with_hidden(&device, CYCLE, cycle)), Ok(Device { cycle, ..device }));
        }
    }
}

/// Position 11 is judged by the SCON of the file, whatever comes before or after it.
#[test]
fn position_11() {
    for kind in [51, 52] {
        for scon in 0..=255 {
            let mut device = Device::reset(kind).unwrap();
            device.serial.scon = scon;
            for place in [SEND_POSITION, RECEIVE_POSITION] {
                assert!(Device::load(&with_hidden(&device, place, 10)).is_ok_and(|device| device.accepts()));
                let last = with_hidden(&device, place, 11);
                match scon >> 6 {
                    2 | 3 => assert!(Device::load(&last).is_ok_and(|device| device.accepts())),
                    _ => is_refused(&last, Refusal::BadValue, &format!("SCON {scon:02X}")),
                }
                is_refused(&with_hidden(&device, place, 12), Refusal::BadValue, &format!("SCON {scon:02X}"));
            }
        }
    }
}

/// The received byte stands twice: another one in either place is refused, also one of more than 8 bits.
#[test]
fn the_received_byte() {
    for device in devices() {
        let sbuf = register_at(8) + 1;
        let file = bytes_of(&device);
        for byte in (0..=255).filter(|&byte| byte != device.serial.received) {
            is_refused(&changed(&file, |file| file[sbuf] = byte), Refusal::BadValue, "the entry of SBUF");
            is_refused(&with_hidden(&device, RECEIVED_BYTE, byte.into()), Refusal::BadValue, "the hidden field");
            let both = changed(&with_hidden(&device, RECEIVED_BYTE, byte.into()), |file| file[sbuf] = byte);
            let mut expected = device;
            expected.serial.received = byte;
            assert_eq!(Device::load(&both), Ok(expected));
        }
        for more in [256, 1 << 32, 1 << 56, 255 << 56] {
            let value = u64::from(device.serial.received) + more;
            is_refused(&with_hidden(&device, RECEIVED_BYTE, value), Refusal::BadValue, "more than a byte");
        }
    }
}

/// An ever byte above 1 is refused, also where its number is cut off; never goes with 0 alone, ever with any number, on kind 51 for
/// TF2 and EXF2 too.
#[test]
fn flag_times() {
    for kind in [51, 52] {
        let device = Device::reset(kind).unwrap();
        let file = bytes_of(&device);
        for flag in 0..8 {
            let at = time_at(kind, flag);
            let with = |ever: u8, number: u64| {
                changed(&file, |file| {
                    file[at] = ever;
                    file[at + 1..at + 9].copy_from_slice(&number.to_le_bytes());
                })
            };
            for number in [0, 1, 1 << 40, u64::MAX] {
                let mut expected = device;
                (expected.times.ever[flag], expected.times.number[flag]) = (1, number);
                assert_eq!(Device::load(&with(1, number)), Ok(expected));
                for ever in 2..=255 {
                    is_refused(&with(ever, number), Refusal::BadValue, "neither ever nor never");
                }
            }
            (0..64).for_each(|bit| is_refused(&with(0, 1 << bit), Refusal::BadValue, "never, with a number"));
            for left in 1..9 {
                is_refused(&with(2, 0)[..at + left], Refusal::BadValue, "an ever byte of 2 whose number is cut off");
                is_refused(&with(0, 1)[..at + left], Refusal::BadLength, "never, with a number that is cut off");
            }
        }
    }
}

/// The first fault from the front decides, a value once it is whole.
#[test]
fn the_order_of_faults() {
    for device in devices() {
        let kind = device.kind;
        let file = bytes_of(&device);
        let last = file.len() - 1;
        for (place, &(name, _, _)) in HIDDEN.iter().enumerate().filter(|&(place, _)| place != CYCLE) {
            let bad = with_hidden(&device, place, u64::MAX);
            let at = hidden_at(kind, place);
            for length in at..at + 8 {
                is_refused(&bad[..length], Refusal::BadLength, &format!("cut inside {name}"));
            }
            is_refused(&bad[..at + 8], Refusal::BadValue, &format!("cut after {name}"));
            // a fault behind it does not count, one before it does
            let behind = changed(&bad, |file| file[times_count_at(kind)] = 9);
            is_refused(&behind, Refusal::BadValue, &format!("a count behind {name}"));
            is_refused(&changed(&bad, |file| file[hidden_count_at(kind)] = 24), Refusal::BadLayout, name);
            is_refused(&changed(&bad, |file| file.push(0)), Refusal::BadValue, &format!("a byte left over, and {name}"));
        }
        let bad_pcon = changed(&file, |file| file[2] = 0xFF);
        is_refused(&bad_pcon, Refusal::BadValue, "PCON");
        is_refused(&bad_pcon[..2], Refusal::BadLength, "cut before the value of PCON");
        is_refused(&bad_pcon[..3], Refusal::BadValue, "cut after it");
        is_refused(&changed(&bad_pcon, |file| file[1] = 0x86), Refusal::BadLayout, "its address, before its value");
        is_refused(&changed(&bad_pcon, |file| file[3] = 0), Refusal::BadValue, "its value, before the next address");
        let bad_time = changed(&file, |file| file[time_at(kind, 7)] = 2);
        is_refused(&changed(&bad_time, |file| file.push(0)), Refusal::BadValue, "bytes left over count last");
        is_refused(&changed(&bad_time, |file| file[times_count_at(kind)] = 7), Refusal::BadLayout, "a count before a value");
        is_refused(&changed(&file, |file| file[last] ^= 0x80)[..last], Refusal::BadLength, "cut before a fault");
        for at in [0, 1, hidden_count_at(kind), times_count_at(kind)] {
            is_refused(&changed(&file, |file| file[at] = 0xEE)[..at + 1], Refusal::BadLayout, "cut after a bad count or address");
            is_refused(&file[..at], Refusal::BadLength, "cut before it");
        }
    }
}
