//! A waveform as a VCD file: pins, output line, positions and flags of a station, and gates and outputs of its 82C53, cycle by cycle.
use c51::{flag, gate, out, pin, Device};
use std::fmt::Write;

/// The levels of a cycle: of the pins and the output line, and of the gates and outputs of the 82C53.
#[derive(Clone, Copy)]
pub struct Levels {
    pub pins: u8,
    pub line: u8,
    pub gates: u8,
    pub outputs: u8,
}

/// What a cycle shows.
struct Shown<'a> {
    device: &'a Device,
    levels: Levels,
}

/// A signal: the scope it stands in, its name, its width in bits, and its value.
struct Signal {
    scope: &'static str,
    name: &'static str,
    width: usize,
    value: fn(&Shown) -> u8,
}

const fn signal(scope: &'static str, name: &'static str, width: usize, value: fn(&Shown) -> u8) -> Signal {
    Signal { scope, name, width, value }
}

/// 1 where a bit of the mask is set.
fn bit(value: u8, mask: u8) -> u8 {
    u8::from(value & mask != 0)
}

/// Those of the 82C53 stand last.
const SIGNALS: [Signal; OF_THE_CHIP + 6] = [
    signal("pins", "RXD", 1, |s| bit(s.levels.pins, pin::RXD)),
    signal("pins", "INT0", 1, |s| bit(s.levels.pins, pin::INT0)),
    signal("pins", "INT1", 1, |s| bit(s.levels.pins, pin::INT1)),
    signal("pins", "T0", 1, |s| bit(s.levels.pins, pin::T0)),
    signal("pins", "T1", 1, |s| bit(s.levels.pins, pin::T1)),
    signal("pins", "T2", 1, |s| bit(s.levels.pins, pin::T2)),
    signal("pins", "T2EX", 1, |s| bit(s.levels.pins, pin::T2EX)),
    signal("send", "line", 1, |s| s.levels.line),
    signal("send", "send_position", 4, |s| s.device.serial.send.position),
    signal("send", "send_counter", 4, |s| s.device.serial.send.counter),
    signal("receive", "receive_position", 4, |s| s.device.serial.receive.position),
    signal("receive", "receive_counter", 4, |s| s.device.serial.receive.counter),
    signal("receive", "votes", 2, |s| s.device.serial.receive.votes),
    signal("receive", "SBUF", 8, |s| s.device.serial.received),
    signal("flags", "TF0", 1, |s| bit(s.device.timers.tcon, flag::TF0)),
    signal("flags", "TF1", 1, |s| bit(s.device.timers.tcon, flag::TF1)),
    signal("flags", "IE0", 1, |s| bit(s.device.timers.tcon, flag::IE0)),
    signal("flags", "IE1", 1, |s| bit(s.device.timers.tcon, flag::IE1)),
    signal("flags", "RI", 1, |s| bit(s.device.serial.scon, flag::RI)),
    signal("flags", "TI", 1, |s| bit(s.device.serial.scon, flag::TI)),
    signal("flags", "TF2", 1, |s| bit(s.device.timer2.t2con, flag::TF2)),
    signal("flags", "EXF2", 1, |s| bit(s.device.timer2.t2con, flag::EXF2)),
    signal("interval", "GATE0", 1, |s| bit(s.levels.gates, gate::GATE0)),
    signal("interval", "GATE1", 1, |s| bit(s.levels.gates, gate::GATE1)),
    signal("interval", "GATE2", 1, |s| bit(s.levels.gates, gate::GATE2)),
    signal("interval", "OUT0", 1, |s| bit(s.levels.outputs, out::OUT0)),
    signal("interval", "OUT1", 1, |s| bit(s.levels.outputs, out::OUT1)),
    signal("interval", "OUT2", 1, |s| bit(s.levels.outputs, out::OUT2)),
];

/// How many are of the chip alone.
const OF_THE_CHIP: usize = 22;

/// The time of a cycle number in nanoseconds: 12 periods of 11.0592 MHz are 78,125 / 72 ns.
fn nanoseconds(cycle: u64) -> u128 {
    u128::from(cycle) * 78_125 / 72
}

/// The text of the file as it grows.
pub struct Waveform {
    signals: &'static [Signal],
    text: String,
    last: Option<Vec<u8>>,
}

impl Waveform {
    /// The waveform of a station, which has an 82C53 or not.
    pub fn new(station: usize, with_interval: bool) -> Waveform {
        let signals = if with_interval { &SIGNALS[..] } else { &SIGNALS[..OF_THE_CHIP] };
        let mut text = String::from("$version c51 station $end\n");
        text += "$comment One cycle is 12 periods of 11.0592 MHz; a time is that of the cycle number that the cycle leaves. $end\n";
        text += "$timescale 1 ns $end\n";
        text += &format!("$scope module station{station} $end\n");
        for (number, signal) in signals.iter().enumerate() {
            if number == 0 || signals[number - 1].scope != signal.scope {
                text += &format!("$scope module {} $end\n", signal.scope);
            }
            text += &format!("$var wire {} {} {} $end\n", signal.width, code(number), signal.name);
            if signals.get(number + 1).is_none_or(|next| next.scope != signal.scope) {
                text += "$upscope $end\n";
            }
        }
        text += "$upscope $end\n$enddefinitions $end\n";
        Waveform { signals, text, last: None }
    }

    /// Takes the device as a cycle leaves it, with the cycle's levels.
    pub fn cycle(&mut self, device: &Device, levels: Levels) {
        let shown = Shown { device, levels };
        let values: Vec<u8> = self.signals.iter().map(|signal| (signal.value)(&shown)).collect();
        if self.last.as_ref() == Some(&values) {
            return;
        }
        writeln!(self.text, "#{}", nanoseconds(device.cycle)).expect("a string grows");
        if self.last.is_none() {
            self.text += "$dumpvars\n";
        }
        for (number, value) in values.iter().enumerate() {
            if self.last.as_ref().is_none_or(|last| last[number] != *value) {
                match self.signals[number].width {
                    1 => writeln!(self.text, "{value}{}", code(number)),
                    _ => writeln!(self.text, "b{value:b} {}", code(number)),
                }
                .expect("a string grows");
            }
        }
        if self.last.is_none() {
            self.text += "$end\n";
        }
        self.last = Some(values);
    }

    pub fn text(&self) -> &str {
        &self.text
    }
}

/// The identifier of a signal in the file.
fn code(number: usize) -> char {
    char::from(b'!' + number as u8)
}
