//! What a line of a script asks for: as a line's name and numbers, as text, and as a row of a list.
use crate::board::BoardCall;
use crate::checkpoint::Hex;
use crate::lines::Numbers;
use crate::record;
use crate::speed::SpeedCall;
use c51::{call, CallRow, Device};
use std::fmt;

/// A call of the chip with its arguments other than the device.
#[derive(Clone, PartialEq, Debug)]
pub enum Call {
    Reset(u8),
    Read(u8),
    Write(u8, u8),
    Cycle(u8),
    Jump(u8, u64),
    Trace(Vec<u32>),
    Look(u8, u64),
    Offer,
    Take,
    Return,
    Wake(u8, u64),
}

/// What a line asks for.
#[derive(Clone, PartialEq, Debug)]
pub enum Request {
    Call(Call),
    /// A call of the 82C53 or of the board.
    Board(BoardCall),
    /// The call that asks for a speed.
    Speed(SpeedCall),
    /// The device's checkpoint.
    Save,
    /// A checkpoint in place of the device; of a longer file than any checkpoint, as much as tells that it is longer.
    Load(Vec<u8>),
    /// A raw record in place of the device.
    Put(Box<Device>),
    /// The device's numbers.
    Dump,
}

/// A number of at most 8 bits.
pub fn byte(n: u64) -> Option<u8> {
    n.try_into().ok()
}

/// The entries of a trace, each of at most 32 bits and as many as its first number says. Where some are left out, those
/// that are kept are more than the longest trace has, and it is refused all the same.
fn entries(numbers: &Numbers) -> Option<Vec<u32>> {
    let (&count, entries) = numbers.first.split_first()?;
    let entry = |n: &u64| u32::try_from(*n).ok();
    if count != entries.len() as u64 + numbers.left_out {
        return None;
    }
    entry(&numbers.greatest_left_out)?;
    entries.iter().map(entry).collect()
}

impl Request {
    /// What a line of this name and these numbers asks for, or none where it is a fault. A load has no numbers, but a file.
    pub fn of(name: &[u8], numbers: &Numbers) -> Option<Request> {
        match (name, numbers.first.as_slice()) {
            (b"S", numbers) => Some(Request::Put(Box::new(record::of_numbers(numbers)?))),
            (b"D", []) => Some(Request::Dump),
            (b"P", []) => Some(Request::Save),
            (&[b'V', letter], numbers) => BoardCall::of(letter, numbers).map(Request::Board),
            (b"B", &[crystal, rate, tolerance]) => Some(Request::Speed(SpeedCall { crystal, rate, tolerance })),
            _ => Call::of(name, numbers).map(Request::Call),
        }
    }
}

impl Call {
    /// The call of a line of this name and these numbers, or none where it is a fault.
    fn of(name: &[u8], numbers: &Numbers) -> Option<Call> {
        Some(match (name, numbers.first.as_slice()) {
            (b"R", &[kind]) => Call::Reset(byte(kind)?),
            (b"W", &[address, value]) => Call::Write(byte(address)?, byte(value)?),
            (b"r", &[address]) => Call::Read(byte(address)?),
            (b"C", &[pins]) => Call::Cycle(byte(pins)?),
            (b"J", &[pins, n]) => Call::Jump(byte(pins)?, n),
            (b"T", _) => Call::Trace(entries(numbers)?),
            (b"L", &[pins, n]) => Call::Look(byte(pins)?, n),
            (b"O", []) => Call::Offer,
            (b"K", []) => Call::Take,
            (b"I", []) => Call::Return,
            (b"Z", &[pins, n]) => Call::Wake(byte(pins)?, n),
            _ => return None,
        })
    }
}

impl fmt::Display for Call {
    fn fmt(&self, f: &mut fmt::Formatter) -> fmt::Result {
        match self {
            Call::Reset(kind) => write!(f, "R {kind}"),
            Call::Write(address, value) => write!(f, "W {address} {value}"),
            Call::Read(address) => write!(f, "r {address}"),
            Call::Cycle(pins) => write!(f, "C {pins}"),
            Call::Jump(pins, n) => write!(f, "J {pins} {n}"),
            Call::Trace(entries) => {
                write!(f, "T {}", entries.len())?;
                entries.iter().try_for_each(|entry| write!(f, " {entry}"))
            }
            Call::Look(pins, n) => write!(f, "L {pins} {n}"),
            Call::Offer => f.write_str("O"),
            Call::Take => f.write_str("K"),
            Call::Return => f.write_str("I"),
            Call::Wake(pins, n) => write!(f, "Z {pins} {n}"),
        }
    }
}

impl fmt::Display for Request {
    fn fmt(&self, f: &mut fmt::Formatter) -> fmt::Result {
        match self {
            Request::Call(call) => call.fmt(f),
            Request::Board(call) => call.fmt(f),
            Request::Speed(call) => call.fmt(f),
            Request::Save => f.write_str("P"),
            Request::Load(file) if file.is_empty() => f.write_str("Q"),
            Request::Load(file) => write!(f, "Q {}", Hex(file)),
            Request::Put(device) => write!(f, "S {}", record::text(device)),
            Request::Dump => f.write_str("D"),
        }
    }
}

impl Call {
    /// The call in a list. The entries of a trace join those that are lent to the list.
    pub fn row(&self, lent: &mut Vec<u32>) -> CallRow {
        match *self {
            Call::Reset(kind) => [call::RESET, kind.into(), 0],
            Call::Read(address) => [call::READ, address.into(), 0],
            Call::Write(address, value) => [call::WRITE, address.into(), value.into()],
            Call::Cycle(pins) => [call::CYCLE, pins.into(), 0],
            Call::Jump(pins, n) => [call::JUMP, pins.into(), n],
            Call::Trace(ref entries) => {
                let start = lent.len() as u64;
                lent.extend(entries);
                [call::TRACE, start, lent.len() as u64]
            }
            Call::Look(pins, n) => [call::LOOK, pins.into(), n],
            Call::Offer => [call::OFFER, 0, 0],
            Call::Take => [call::TAKE, 0, 0],
            Call::Return => [call::RETURN, 0, 0],
            Call::Wake(pins, n) => [call::WAKE, pins.into(), n],
        }
    }
}
