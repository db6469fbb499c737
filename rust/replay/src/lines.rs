//! A line of a script, taken byte by byte: a name, and numbers with one space before each, or a file in hexadecimal. What is
//! kept of it is bounded, however long it is.
use crate::calls::Request;
use crate::checkpoint::{File, LOAD};
use c51::MAX_TRACE;

/// The bytes of the longest name.
const LONGEST_NAME: usize = 2;
/// The numbers that are kept: the count of a trace, and one entry more than the longest trace has.
const KEPT: usize = 1 + MAX_TRACE + 1;

/// The numbers of a line: the first ones, and of the others, which are left out, how many there are and the greatest.
#[derive(Default)]
pub struct Numbers {
    pub first: Vec<u64>,
    pub left_out: u64,
    pub greatest_left_out: u64,
}

impl Numbers {
    fn push(&mut self, n: u64) {
        if self.first.len() < KEPT {
            self.first.push(n);
        } else {
            self.left_out += 1;
            self.greatest_left_out = self.greatest_left_out.max(n);
        }
    }

    fn clear(&mut self) {
        self.first.clear();
        self.left_out = 0;
        self.greatest_left_out = 0;
    }
}

/// What the last byte of a line belongs to.
#[derive(Clone, Copy, PartialEq, Default)]
enum Place {
    #[default]
    Name,
    Gap,
    Digits,
    /// The digits of a file.
    Hex,
    /// No call: neither this byte nor one after it is kept.
    Fault,
}

/// A line so far.
#[derive(Default)]
pub struct Line {
    place: Place,
    name: Vec<u8>,
    numbers: Numbers,
    /// The number whose digits are being read.
    number: u64,
    file: File,
}

impl Line {
    /// Takes some bytes of the line, without its newline.
    pub fn take(&mut self, bytes: &[u8]) {
        for &byte in bytes {
            self.place = match (self.place, byte) {
                (Place::Name, b' ') if self.name == LOAD => Place::Hex,
                (Place::Name, b' ') => Place::Gap,
                (Place::Name, _) if self.name.len() < LONGEST_NAME => {
                    self.name.push(byte);
                    Place::Name
                }
                (Place::Gap | Place::Digits, b'0'..=b'9') => self.digit(byte - b'0'),
                (Place::Digits, b' ') => {
                    self.end_number();
                    Place::Gap
                }
                (Place::Hex, _) => char::from(byte).to_digit(16).map_or(Place::Fault, |digit| {
                    self.file.push(digit as u8);
                    Place::Hex
                }),
                _ => Place::Fault,
            };
        }
    }

    /// One digit more; a number has at most 64 bits.
    fn digit(&mut self, digit: u8) -> Place {
        match self.number.checked_mul(10).and_then(|tens| tens.checked_add(digit.into())) {
            Some(number) => {
                self.number = number;
                Place::Digits
            }
            None => Place::Fault,
        }
    }

    fn end_number(&mut self) {
        self.numbers.push(self.number);
        self.number = 0;
    }

    /// Whether a byte was taken.
    pub fn is_begun(&self) -> bool {
        self.place != Place::Name || !self.name.is_empty()
    }

    /// Ends the line: gives what it asks for, or none where it is a fault, and begins the next one.
    pub fn end(&mut self) -> Option<Request> {
        if self.place == Place::Digits {
            self.end_number();
        }
        let request = match self.place {
            Place::Gap | Place::Fault => None,
            _ if self.name == LOAD => self.file.request(),
            _ => Request::of(&self.name, &self.numbers),
        };
        self.place = Place::Name;
        self.name.clear();
        self.numbers.clear();
        self.number = 0;
        self.file.clear();
        request
    }
}

/// What a whole line asks for, or none where it is a fault.
pub fn request(line: &[u8]) -> Option<Request> {
    let mut whole = Line::default();
    whole.take(line);
    whole.end()
}

#[cfg(test)]
mod tests {
    use super::*;
    use crate::board::BoardCall;
    use crate::calls::Call;
    use crate::checkpoint::KEPT;
    use crate::record::{numbers, text};
    use crate::speed::SpeedCall;
    use c51::Device;

    fn call(line: &str) -> Option<Call> {
        match request(line.as_bytes()) {
            Some(Request::Call(call)) => Some(call),
            Some(other) => panic!("{line}: {other:?}"),
            None => None,
        }
    }

    /// Every call, with its numbers at the ends of their widths.
    #[test]
    fn calls() {
        let most = u64::MAX;
        for (line, expected) in [
            ("R 0".to_string(), Call::Reset(0)),
            ("R 255".to_string(), Call::Reset(255)),
            ("W 0 255".to_string(), Call::Write(0, 255)),
            ("W 255 0".to_string(), Call::Write(255, 0)),
            ("r 0".to_string(), Call::Read(0)),
            ("r 255".to_string(), Call::Read(255)),
            ("C 255".to_string(), Call::Cycle(255)),
            (format!("J 255 {most}"), Call::Jump(255, most)),
            ("J 0 0".to_string(), Call::Jump(0, 0)),
            (format!("L 255 {most}"), Call::Look(255, most)),
            (format!("Z 255 {most}"), Call::Wake(255, most)),
            ("Z 0 0".to_string(), Call::Wake(0, 0)),
            ("T 0".to_string(), Call::Trace(vec![])),
            ("T 3 0 4294967295 7".to_string(), Call::Trace(vec![0, u32::MAX, 7])),
            ("O".to_string(), Call::Offer),
            ("K".to_string(), Call::Take),
            ("I".to_string(), Call::Return),
        ] {
            assert_eq!(call(&line), Some(expected.clone()), "{line}");
            assert_eq!(expected.to_string(), line);
        }
        assert_eq!(request(b"D"), Some(Request::Dump));
        assert_eq!(Request::Dump.to_string(), "D");
    }

    /// Those of the 82C53 and of the board likewise, and what is none of them.
    #[test]
    fn calls_of_the_board() {
        let most = u64::MAX;
        for (line, expected) in [
            ("VR".to_string(), BoardCall::Reset),
            ("VW 0 255".to_string(), BoardCall::Write(0, 255)),
            ("VW 255 0".to_string(), BoardCall::Write(255, 0)),
            ("Vr 0".to_string(), BoardCall::Read(0)),
            ("Vr 255".to_string(), BoardCall::Read(255)),
            ("VC 0".to_string(), BoardCall::Pulse(0)),
            ("VC 255".to_string(), BoardCall::Pulse(255)),
            ("VJ 0 0".to_string(), BoardCall::Pulses(0, 0)),
            (format!("VJ 255 {most}"), BoardCall::Pulses(255, most)),
            ("VB 0 255".to_string(), BoardCall::Cycle(0, 255)),
            ("VB 255 0".to_string(), BoardCall::Cycle(255, 0)),
            ("VX 0 255 0".to_string(), BoardCall::Jump(0, 255, 0)),
            (format!("VX 255 0 {most}"), BoardCall::Jump(255, 0, most)),
        ] {
            assert_eq!(request(line.as_bytes()), Some(Request::Board(expected)), "{line}");
            assert_eq!(expected.to_string(), line);
            for fault in
                [format!("{line} 0"), format!("{line} "), format!(" {line}"), line.to_lowercase(), line.replacen('V', "V ", 1)]
            {
                assert_eq!(request(fault.as_bytes()), None, "{fault:?}");
            }
            if let Some((fewer, _)) = line.rsplit_once(' ') {
                assert_eq!(request(fewer.as_bytes()), None, "{fewer}");
            }
        }
        for line in ["VW 256 0", "VW 0 256", "Vr 256", "VC 256", "VJ 256 0", "VB 256 0", "VB 0 256", "VX 256 0 0", "VX 0 256 0"] {
            assert_eq!(request(line.as_bytes()), None, "{line}");
        }
        for line in ["V", "V 0", "VRR", "RV", "VO", "VD", "VK", "VT 0", "VL 127 1", "VZ 127 1", "VV", "VJ 7 18446744073709551616"] {
            assert_eq!(request(line.as_bytes()), None, "{line}");
        }
    }

    /// The call that asks for a speed has three numbers of 64 bits.
    #[test]
    fn calls_for_a_speed() {
        let most = u64::MAX;
        for (crystal, rate, tolerance) in [(0, 0, 0), (11_059_200, 9_600, 50), (most, 0, 1), (1, most, 0), (0, 1, most)] {
            let line = format!("B {crystal} {rate} {tolerance}");
            let expected = Request::Speed(SpeedCall { crystal, rate, tolerance });
            assert_eq!(expected.to_string(), line);
            assert_eq!(request(line.as_bytes()), Some(expected), "{line}");
        }
        for line in [
            "B",
            "B ",
            "B 1",
            "B 1 2",
            "B 1 2 ",
            "B 1 2 3 ",
            "B 1 2 3 4",
            " B 1 2 3",
            "B  1 2 3",
            "B 1  2 3",
            "B 1 2 3\r",
            "B1 2 3",
            "BB 1 2 3",
            "b 1 2 3",
            "B x 2 3",
            "B 1 -2 3",
            "B 1 2 0.5",
            "B 1 2 18446744073709551616",
            "B 1 18446744073709551616 3",
            "B 18446744073709551616 2 3",
        ] {
            assert_eq!(request(line.as_bytes()), None, "{line:?}");
        }
    }

    fn load(line: &str) -> Option<Vec<u8>> {
        match request(line.as_bytes()) {
            Some(Request::Load(file)) => Some(file),
            Some(other) => panic!("{line}: {other:?}"),
            None => None,
        }
    }

    /// A save has no numbers; a load has a file in pairs of hexadecimal digits, in small letters or capitals. With none it is the empty
    /// file.
    #[test]
    fn checkpoints() {
        assert_eq!((request(b"P"), Request::Save.to_string()), (Some(Request::Save), "P".to_string()));
        for line in ["P ", "P 0", " P", "PP", "p", "P\r", "P00"] {
            assert_eq!(request(line.as_bytes()), None, "{line:?}");
        }
        let all: Vec<u8> = (0..=255).collect();
        let digits: String = all.iter().map(|byte| format!("{byte:02x}")).collect();
        for (line, file) in [("Q", vec![]), ("Q ", vec![]), ("Q 00", vec![0]), ("Q 0123456789", vec![1, 0x23, 0x45, 0x67, 0x89])] {
            assert_eq!(load(line), Some(file), "{line:?}");
        }
        assert_eq!(load("Q abcdefABCDEFaBcD"), Some(vec![0xAB, 0xCD, 0xEF, 0xAB, 0xCD, 0xEF, 0xAB, 0xCD]));
        assert_eq!(load(&format!("Q {digits}")), Some(all.clone()));
        assert_eq!(load(&format!("Q {}", digits.to_uppercase())), Some(all.clone()));
        assert_eq!(Request::Load(all).to_string(), format!("Q {digits}"));
        assert_eq!(Request::Load(vec![]).to_string(), "Q");
        for line in [
            "Q 0", "Q 000", "Q 0x", "Q 0g", "Q  ", "Q  00", "Q 00 ", "Q 00 00", "Q 0 0", "Q00", "QQ 00", " Q 00", "q 00", "Q 00\r",
            "Q\r", "Q -1", "Q 0\0", "Q ٠٠", "VQ 00", "VP",
        ] {
            assert_eq!(load(line), None, "{line:?}");
        }
    }

    /// What is past the longest file is judged, and not kept.
    #[test]
    fn long_files() {
        for (bytes, kept) in [(KEPT - 1, KEPT - 1), (KEPT, KEPT), (KEPT + 1, KEPT), (100_000, KEPT)] {
            let digits = "a5".repeat(bytes);
            assert_eq!(load(&format!("Q {digits}")), Some(vec![0xA5; kept]), "{bytes} bytes");
            for last in ["0", "x", "0x", "x0", " ", " 00", "000"] {
                assert_eq!(load(&format!("Q {digits}{last}")), None, "{bytes} bytes and {last:?}");
            }
        }
    }

    #[test]
    fn zeros_before_a_number() {
        let zeros = "0".repeat(1000);
        assert_eq!(call(&format!("W {zeros}137 {zeros}")), Some(Call::Write(137, 0)));
        assert_eq!(call(&format!("J {zeros}127 {zeros}18446744073709551615")), Some(Call::Jump(127, u64::MAX)));
        assert_eq!(call(&format!("T {zeros}1 {zeros}4294967295")), Some(Call::Trace(vec![u32::MAX])));
        let speed = SpeedCall { crystal: 7, rate: 0, tolerance: u64::MAX };
        assert_eq!(request(format!("B {zeros}7 {zeros} {zeros}{}", u64::MAX).as_bytes()), Some(Request::Speed(speed)));
    }

    #[test]
    fn records() {
        let mut device = Device { kind: 255, cycle: u64::MAX, ..Device::default() };
        device.serial.send.value = u16::MAX;
        device.levels[6] = 9;
        device.times.ever[0] = 255;
        device.times.number[6] = u64::MAX;
        let line = format!("S {}", text(&device));
        let request = request(line.as_bytes()).expect("a record");
        assert_eq!(request, Request::Put(Box::new(device)));
        assert_eq!(request.to_string(), line);
        for place in 0..numbers(&device).len() {
            let mut words: Vec<String> = line.split(' ').map(String::from).collect();
            words[place + 1] = "18446744073709551616".to_string();
            assert_eq!(super::request(words.join(" ").as_bytes()), None, "number {place}");
        }
        for line in ["S", "S ", &line[..line.len() - 2], &format!("{line} 0"), &format!("{line} ")] {
            assert_eq!(super::request(line.as_bytes()), None, "{line}");
        }
    }

    #[test]
    fn faults() {
        // the form of a line, with a call that any other form of it is
        for line in
            ["", " ", "  ", "R", "R ", " R 52", "R  52", "R 52 ", "R 52  ", "R 52\r", "R\t52", "R 52\t", "R52", "RR 52", "R R 52"]
        {
            assert_eq!(call(line), None, "{line:?}");
        }
        // numbers
        for number in
            ["+52", "-52", "5x", "x", "0x34", "5_2", "5.0", "5e1", "٥٢", "52\0", "18446744073709551616", "99999999999999999999"]
        {
            assert_eq!(call(&format!("J 1 {number}")), None, "{number}");
        }
        // widths
        for line in
            ["R 256", "W 256 0", "W 0 256", "r 256", "C 256", "J 256 0", "L 256 0", "T 1 4294967296", "T 18446744073709551616"]
        {
            assert_eq!(call(line), None, "{line}");
        }
        // counts
        for line in
            ["R 52 1", "W 1", "W 1 2 3", "r", "r 1 2", "C", "C 1 2", "J 1", "J 1 2 3", "L 1", "L 1 2 3", "O 0", "K 0", "I 0", "D 0"]
        {
            assert_eq!(call(line), None, "{line}");
        }
        for line in ["Z", "Z ", "Z 1", "Z 1 2 3", "Z 256 0", "Z 1 x"] {
            assert_eq!(call(line), None, "{line}");
        }
        for line in ["T", "T ", "T 1", "T 0 1", "T 2 1", "T 1 1 2", "T 18446744073709551615", "T 4294967296"] {
            assert_eq!(call(line), None, "{line}");
        }
        // names, also those of calls that are not there yet
        for line in ["X", "x", "w 137 1", "d", "o", "z 127 5", "b 1 2 3", "p", "q 00", "DD", "OO", "H 1 0", "F 127", "G 127 1", "?"]
        {
            assert_eq!(call(line), None, "{line}");
        }
    }

    #[test]
    fn lines_of_one_and_two_bytes() {
        for byte in 0..=255 {
            assert_eq!(request(&[byte]).is_some(), b"DIKOPQ".contains(&byte), "{byte}");
            for second in 0..=255 {
                assert_eq!(request(&[byte, second]).is_some(), [*b"VR", *b"Q "].contains(&[byte, second]), "{byte} {second}");
            }
        }
    }

    /// A trace of so many entries.
    fn long_trace(count: usize, last: &str) -> Vec<u8> {
        let mut line = format!("T {count}");
        line += &" 2130706433".repeat(count - 1);
        line += &format!(" {last}");
        line.into_bytes()
    }

    /// What is past the longest trace is counted and judged, and not kept.
    #[test]
    fn long_traces() {
        let most = MAX_TRACE;
        for (count, kept) in [(most, most), (most + 1, most + 1), (most + 2, most + 1), (3 * most, most + 1)] {
            let Some(Request::Call(Call::Trace(entries))) = request(&long_trace(count, "4294967295")) else { panic!("{count}") };
            assert_eq!(entries.len(), kept, "{count} entries");
            assert_eq!(request(&long_trace(count, "4294967296")), None, "{count} entries");
            assert_eq!(request(&long_trace(count, "x")), None, "{count} entries");
            assert_eq!(request(&long_trace(count, "1 1")), None, "{count} entries");
            assert_eq!(request(&long_trace(count, "")), None, "{count} entries");
        }
        let many = format!("T {}{}", most + 10, " 1".repeat(most + 9));
        assert_eq!(request(many.as_bytes()), None);
    }

    /// A line that follows another one has nothing of it.
    #[test]
    fn one_line_after_another() {
        let mut line = Line::default();
        for before in [
            &b""[..],
            b"R",
            b"R 5",
            b"R 99999999999999999999",
            b"RR",
            b"RRR",
            b"VR",
            b"Q 1234",
            b"Q 123",
            b"Q 12x",
            b"T 3 1 2 3",
            &long_trace(70_000, "4294967296"),
        ] {
            line.take(before);
            assert_eq!(line.is_begun(), !before.is_empty());
            line.end();
            assert!(!line.is_begun());
            line.take(b"W 1");
            line.take(b"37 2");
            assert_eq!(line.end(), Some(Request::Call(Call::Write(137, 2))));
            line.take(b"Q 0");
            line.take(b"a");
            assert_eq!(line.end(), Some(Request::Load(vec![0x0A])));
            line.take(&long_trace(70_000, "1"));
            assert!(line.end().is_some());
        }
    }
}
