//! The record as the numbers of a script.
use c51::Device;
use std::fmt::Write;

/// A field of the record as a number.
pub struct Field {
    pub get: fn(&Device) -> u64,
    /// Puts the low bits of a number, as many as the field has.
    pub set: fn(&mut Device, u64),
}

macro_rules! fields {
    ($($($name:ident).+ $([$index:literal])?),+ $(,)?) => {
        [$(Field { get: |d| d.$($name).+$([$index])? as u64, set: |d, n| d.$($name).+$([$index])? = n as _ }),+]
    };
}

/// How many numbers a record has.
pub const NUMBERS: usize = 57;

/// The fields in the order of a script's numbers.
#[rustfmt::skip]
pub const FIELDS: [Field; NUMBERS] = fields![
    kind,
    // the registers
    pcon, timers.tcon, timers.tmod, timers.tl0, timers.tl1, timers.th0, timers.th1, serial.scon, serial.received,
    interrupts.ie, interrupts.ip, timer2.t2con, timer2.rcap2l, timer2.rcap2h, timer2.tl2, timer2.th2,
    // the serial port
    serial.send.position, serial.send.value, serial.send.counter,
    serial.receive.position, serial.receive.value, serial.receive.counter, serial.receive.votes, serial.receive.sample, serial.half,
    // due marks, interrupts, the cycle number
    timers.due0, timers.due1, timer2.due2,
    interrupts.seen, interrupts.polled, interrupts.low, interrupts.high,
    cycle,
    // the saved levels of RXD, INT0, INT1, T0, T1, T2, T2EX
    levels[0], levels[1], levels[2], levels[3], levels[4], levels[5], levels[6],
    // when TF0, TF1, IE0, IE1, RI, TI, TF2, EXF2 last rose
    times.ever[0], times.number[0], times.ever[1], times.number[1], times.ever[2], times.number[2], times.ever[3], times.number[3],
    times.ever[4], times.number[4], times.ever[5], times.number[5], times.ever[6], times.number[6], times.ever[7], times.number[7],
];

/// The numbers of a record.
pub fn numbers(device: &Device) -> [u64; NUMBERS] {
    FIELDS.map(|field| (field.get)(device))
}

/// The record of such numbers; none where they are too few or too many, or one does not fit its field.
pub fn of_numbers(numbers: &[u64]) -> Option<Device> {
    let mut device = Device::default();
    let fits = |(field, &n): (&Field, &u64)| {
        (field.set)(&mut device, n);
        (field.get)(&device) == n
    };
    (numbers.len() == NUMBERS && FIELDS.iter().zip(numbers).all(fits)).then_some(device)
}

/// The numbers of a record with a space between them.
pub fn text(device: &Device) -> String {
    let mut text = String::new();
    for n in numbers(device) {
        let gap = if text.is_empty() { "" } else { " " };
        write!(text, "{gap}{n}").expect("a string grows");
    }
    text
}

#[cfg(test)]
mod tests {
    use super::*;

    /// Numbers that all differ, in the widths of the fields.
    fn different() -> [u64; NUMBERS] {
        std::array::from_fn(|i| i as u64 + 1)
    }

    #[test]
    fn every_field_has_its_place() {
        let device = of_numbers(&different()).expect("numbers that fit");
        assert_eq!(numbers(&device), different());
        assert_eq!(text(&device).split(' ').map(|n| n.parse().unwrap()).collect::<Vec<u64>>(), different());
        // a few places of each group, by the order that docs/SCRIPTS.md lists
        assert_eq!((device.kind, device.pcon, device.timers.tcon, device.timers.th1), (1, 2, 3, 8));
        assert_eq!((device.serial.scon, device.serial.received, device.interrupts.ie, device.interrupts.ip), (9, 10, 11, 12));
        assert_eq!((device.timer2.t2con, device.timer2.th2), (13, 17));
        assert_eq!((device.serial.send.position, device.serial.send.value, device.serial.send.counter), (18, 19, 20));
        assert_eq!((device.serial.receive.position, device.serial.receive.sample, device.serial.half), (21, 25, 26));
        assert_eq!((device.timers.due0, device.timers.due1, device.timer2.due2), (27, 28, 29));
        assert_eq!((device.interrupts.seen, device.interrupts.high, device.cycle), (30, 33, 34));
        assert_eq!(device.levels, [35, 36, 37, 38, 39, 40, 41]);
        assert_eq!(device.times.ever, [42, 44, 46, 48, 50, 52, 54, 56]);
        assert_eq!(device.times.number, [43, 45, 47, 49, 51, 53, 55, 57]);
    }

    /// A byte each, but the two values, the cycle number and the numbers of the flag times; what a field holds fits, and one more does
    /// not.
    #[test]
    fn the_widths_of_the_fields() {
        let mut full = Device::default();
        FIELDS.iter().for_each(|field| (field.set)(&mut full, u64::MAX));
        for (place, most) in numbers(&full).into_iter().enumerate() {
            let expected = match place {
                18 | 21 => u16::MAX.into(),
                33 | 42 | 44 | 46 | 48 | 50 | 52 | 54 | 56 => u64::MAX,
                _ => u8::MAX.into(),
            };
            assert_eq!(most, expected, "number {place}");
            let fits = |n: u64| {
                let mut numbers = different();
                numbers[place] = n;
                of_numbers(&numbers).is_some()
            };
            assert!(fits(most), "{most} as number {place}");
            assert!(most == u64::MAX || !fits(most + 1), "{most} + 1 as number {place}");
        }
    }

    #[test]
    fn too_few_and_too_many() {
        assert_eq!(of_numbers(&[0; NUMBERS]), Some(Device::default()));
        for count in [0, 1, NUMBERS - 1, NUMBERS + 1, 1000] {
            assert_eq!(of_numbers(&vec![0; count]), None, "{count} numbers");
        }
    }
}
