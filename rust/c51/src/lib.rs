//! The proved peripherals of the 80C51 and 80C52, and the 82C53 beside the chip, for Rust: a thin wrapper over the C library.
//!
//! A [`Device`] is the plain record of `c51.h`, with public fields. Any content is answered: a record that is no
//! device's is refused as [`Refusal::BadRecord`]. A refused call leaves the device as it was. The same goes for an
//! [`Interval`], which is the 82C53, and for a [`Board`], which has both chips. [`Device::save`] and [`Device::load`] move a
//! device to another computer. [`speed()`] gives SMOD and TH1 for a wanted speed, and [`shares()`] the shares of a time slice; neither
//! needs a device. A [`Scheduler`] runs up to [`MAX_TUNNELS`] devices slice by slice, on one thread or several.
//!
//! ```
//! use c51::{address, Device, PINS_HIGH};
//!
//! let mut device = Device::reset(52)?;
//! device.write(address::TMOD, 0x01)?; // Timer 0 in mode 1
//! device.write(address::TH0, 0xFF)?;
//! device.write(address::TL0, 0xFE)?;
//! device.write(address::IE, 0x82)?;
//! device.write(address::TCON, 0x10)?; // run
//! assert_eq!(device.look_ahead(PINS_HIGH, 100)?, Some(2)); // TF0 rises in cycle 2
//! device.jump(PINS_HIGH, 3)?;
//! assert_eq!(device.offer()?, Some(0x0B));
//! # Ok::<(), c51::Refusal>(())
//! ```

mod board;
mod checkpoint;
mod interval;
mod jump;
pub mod raw;
mod scheduler;
mod shares;
mod speed;
mod totals;

pub use board::BoardJump;
pub use checkpoint::{CHECKPOINT_51, CHECKPOINT_52};
pub use jump::Jump;
pub use raw::{AnswerRow, CallRow, ANSWER_WORDS, CALL_WORDS, NONE};
pub use raw::{Board, Counter, Interval};
pub use raw::{Device, FlagTimes, Interrupts, Receiver, Sender, Serial, Timer2, Timers, Totals};
pub use scheduler::{Scheduler, Tunnel};
pub use shares::{shares, SharesRefusal, MAX_TUNNELS};
pub use speed::{speed, Speed, MAX_CRYSTAL, MAX_RATE, MAX_TOLERANCE};

/// All pins at 1.
pub const PINS_HIGH: u8 = 0x7F;
/// All gates at 1.
pub const GATES_HIGH: u8 = 0x07;
/// The longest jump, look ahead and wake look, in cycles or pulses; the longest time slice and the greatest wish.
pub const MAX_CYCLES: u64 = 1 << 40;
/// The entries of the longest trace.
pub const MAX_TRACE: usize = 65_536;

/// Bits of the pin byte.
pub mod pin {
    pub const RXD: u8 = 0x01;
    pub const INT0: u8 = 0x02;
    pub const INT1: u8 = 0x04;
    pub const T0: u8 = 0x08;
    pub const T1: u8 = 0x10;
    pub const T2: u8 = 0x20;
    pub const T2EX: u8 = 0x40;
}

/// Addresses of the registers; those of Timer 2 on kind 52 alone.
pub mod address {
    pub const PCON: u8 = 0x87;
    pub const TCON: u8 = 0x88;
    pub const TMOD: u8 = 0x89;
    pub const TL0: u8 = 0x8A;
    pub const TL1: u8 = 0x8B;
    pub const TH0: u8 = 0x8C;
    pub const TH1: u8 = 0x8D;
    pub const SCON: u8 = 0x98;
    pub const SBUF: u8 = 0x99;
    pub const IE: u8 = 0xA8;
    pub const IP: u8 = 0xB8;
    pub const T2CON: u8 = 0xC8;
    pub const RCAP2L: u8 = 0xCA;
    pub const RCAP2H: u8 = 0xCB;
    pub const TL2: u8 = 0xCC;
    pub const TH2: u8 = 0xCD;
}

/// Bits of PCON. In idle the peripherals go on as before, and a take clears IDL. Power-down wins over idle and only reset ends it:
/// a cycle, jump or trace run passes and alters nothing, nothing is offered, a look finds none, and a write, take or return is
/// refused.
pub mod pcon {
    pub const IDL: u8 = 0x01;
    pub const PD: u8 = 0x02;
    pub const SMOD: u8 = 0x80;
}

/// Masks of the flags: TF1, TF0, IE1, IE0 in TCON, TI, RI in SCON, TF2, EXF2 in T2CON.
pub mod flag {
    pub const TF1: u8 = 0x80;
    pub const TF0: u8 = 0x20;
    pub const IE1: u8 = 0x08;
    pub const IE0: u8 = 0x02;
    pub const TI: u8 = 0x02;
    pub const RI: u8 = 0x01;
    pub const TF2: u8 = 0x80;
    pub const EXF2: u8 = 0x40;
}

/// A flag; the number is its place in [`FlagTimes`]. TF2 and EXF2 rise on kind 52 alone.
#[derive(Clone, Copy, PartialEq, Eq, Hash, Debug)]
#[repr(u8)]
pub enum Flag {
    Tf0,
    Tf1,
    Ie0,
    Ie1,
    Ri,
    Ti,
    Tf2,
    Exf2,
}

impl Flag {
    /// Every flag, in the order of the places.
    pub const ALL: [Flag; 8] = [Flag::Tf0, Flag::Tf1, Flag::Ie0, Flag::Ie1, Flag::Ri, Flag::Ti, Flag::Tf2, Flag::Exf2];
}

/// Addresses of the 82C53: the bytes of a counter's count, and the control word.
pub mod port {
    pub const COUNTER0: u8 = 0;
    pub const COUNTER1: u8 = 1;
    pub const COUNTER2: u8 = 2;
    pub const CONTROL: u8 = 3;
}

/// The control word of the 82C53: a counter; low byte, high byte or both; a mode; and BCD or nothing, for binary. The latch command is
/// a counter alone.
pub mod control {
    pub const SELECT0: u8 = 0x00;
    pub const SELECT1: u8 = 0x40;
    pub const SELECT2: u8 = 0x80;
    pub const LATCH: u8 = 0x00;
    pub const LOW: u8 = 0x10;
    pub const HIGH: u8 = 0x20;
    pub const BOTH: u8 = 0x30;
    pub const MODE0: u8 = 0x00;
    pub const MODE2: u8 = 0x04;
    pub const BCD: u8 = 0x01;
}

/// Bits of the gate byte.
pub mod gate {
    pub const GATE0: u8 = 0x01;
    pub const GATE1: u8 = 0x02;
    pub const GATE2: u8 = 0x04;
}

/// Bits of the outputs.
pub mod out {
    pub const OUT0: u8 = 0x01;
    pub const OUT1: u8 = 0x02;
    pub const OUT2: u8 = 0x04;
}

/// Numbers of the calls in a list; every other number is a return.
pub mod call {
    pub const RESET: u64 = 0;
    pub const READ: u64 = 1;
    pub const WRITE: u64 = 2;
    pub const CYCLE: u64 = 3;
    pub const JUMP: u64 = 4;
    pub const TRACE: u64 = 5;
    pub const LOOK: u64 = 6;
    pub const OFFER: u64 = 7;
    pub const TAKE: u64 = 8;
    pub const RETURN: u64 = 9;
    pub const WAKE: u64 = 10;
}

/// Why a call was refused; the number is the library's code. Code 9 is retired and is not used again: it stood for a serial counter
/// that rolls over twice in one cycle, which is proved never to happen.
#[derive(Clone, Copy, PartialEq, Eq, Hash, Debug)]
#[repr(u8)]
pub enum Refusal {
    BadRecord = 1,
    BadKind = 2,
    BadAddress = 3,
    BadPins = 4,
    TooLong = 5,
    NothingOffered = 6,
    NothingInService = 7,
    EmptyEntry = 8,
    PoweredDown = 10,
    BadMode = 11,
    BadChoice = 12,
    BadCount = 13,
    BadSpeed = 14,
    BadLength = 15,
    BadLayout = 16,
    BadValue = 17,
}

impl Refusal {
    /// Every refusal, in the order of the codes.
    pub const ALL: [Refusal; 16] = [
        Refusal::BadRecord,
        Refusal::BadKind,
        Refusal::BadAddress,
        Refusal::BadPins,
        Refusal::TooLong,
        Refusal::NothingOffered,
        Refusal::NothingInService,
        Refusal::EmptyEntry,
        Refusal::PoweredDown,
        Refusal::BadMode,
        Refusal::BadChoice,
        Refusal::BadCount,
        Refusal::BadSpeed,
        Refusal::BadLength,
        Refusal::BadLayout,
        Refusal::BadValue,
    ];

    /// The library's code.
    pub fn code(self) -> u8 {
        self as u8
    }

    /// The refusal of a code, None for 0 and for a code that the library does not have.
    pub fn of_code(code: u8) -> Option<Refusal> {
        Refusal::ALL.into_iter().find(|refusal| refusal.code() == code)
    }
}

impl std::fmt::Display for Refusal {
    fn fmt(&self, f: &mut std::fmt::Formatter) -> std::fmt::Result {
        f.write_str(match self {
            Refusal::BadRecord => "a field of the record is outside its range or mask",
            Refusal::BadKind => "the kind is neither 51 nor 52",
            Refusal::BadAddress => "this kind has no register at the address",
            Refusal::BadPins => "bit 7 of the pin byte is set, or the gate byte is above 7",
            Refusal::TooLong => "more than 2^40 cycles or pulses, or more than 65,536 trace entries",
            Refusal::NothingOffered => "no interrupt is offered",
            Refusal::NothingInService => "no interrupt is in service",
            Refusal::EmptyEntry => "a trace entry has no cycles",
            Refusal::PoweredDown => "write, take or return in power-down",
            Refusal::BadMode => "the control word has another mode than 0 and 2",
            Refusal::BadChoice => "counter choice 3, an address of the 82C53 above 3, or a read at 3",
            Refusal::BadCount => "a BCD digit above nine, or a mode 2 count of 1",
            Refusal::BadSpeed => "crystal not 1 to 40,000,000 Hz, rate not 1 to 1,000,000, or tolerance above 10,000",
            Refusal::BadLength => "a checkpoint cut short or with bytes left over, or a buffer of another length",
            Refusal::BadLayout => "a checkpoint with another count or another address",
            Refusal::BadValue => "a checkpoint with a value outside its range or mask, or a received byte that is not SBUF's",
        })
    }
}

impl std::error::Error for Refusal {}

/// The value where the code is 0, otherwise the refusal.
#[inline]
fn answer<T>(code: u8, value: T) -> Result<T, Refusal> {
    match code {
        0 => Ok(value),
        _ => Err(Refusal::of_code(code).expect("a code of the library")),
    }
}

impl Device {
    /// The device after reset, of kind 51 or 52.
    pub fn reset(kind: u8) -> Result<Device, Refusal> {
        let a = raw::c51_reset(kind);
        answer(a.code, a.device)
    }

    /// Whether the calls accept the record.
    pub fn accepts(&self) -> bool {
        raw::c51_accepts(*self) == 1
    }

    /// Reads a register; SBUF gives the received byte.
    #[inline]
    pub fn read(&self, address: u8) -> Result<u8, Refusal> {
        let a = raw::c51_read(*self, address);
        answer(a.code, a.value)
    }

    /// Writes a register.
    #[inline]
    pub fn write(&mut self, address: u8, value: u8) -> Result<(), Refusal> {
        answer(raw::c51_write(self, address, value), ())
    }

    /// One machine cycle; gives the output line as the cycle leaves it.
    #[inline]
    pub fn cycle(&mut self, pins: u8) -> Result<u8, Refusal> {
        let a = raw::c51_cycle(self, pins);
        answer(a.code, a.line)
    }

    /// n cycles with one pin byte; gives how often each timer overflowed in them, and how many rounds they took. A timer that
    /// laps every third cycle:
    ///
    /// ```
    /// use c51::{address, Device, Totals, PINS_HIGH};
    ///
    /// let mut device = Device::reset(52)?;
    /// device.write(address::TMOD, 0x20)?; // Timer 1 in mode 2
    /// device.write(address::TH1, 0xFD)?; // reload
    /// device.write(address::TL1, 0xFE)?; // the first lap is a cycle shorter
    /// device.write(address::TCON, 0x40)?; // run
    /// let jump = device.jump(PINS_HIGH, 101)?;
    /// assert_eq!(jump.totals, Totals { timer1: 34, ..Totals::default() });
    /// assert_eq!(jump.rounds, 2 * 34 + 1); // a run and an overflow a lap, and the cycle that polls TF1 once it rose
    /// # Ok::<(), c51::Refusal>(())
    /// ```
    #[inline]
    pub fn jump(&mut self, pins: u8, n: u64) -> Result<Jump, Refusal> {
        let a = raw::c51_jump(self, pins, n);
        answer(a.code, Jump { totals: a.totals, rounds: a.rounds })
    }

    /// Runs a trace: in each entry the pin byte on top and the cycles in the low 24 bits. Gives how often each timer overflowed.
    pub fn trace(&mut self, entries: &[u32]) -> Result<Totals, Refusal> {
        let a = raw::trace(self, entries);
        answer(a.code, a.totals)
    }

    /// The first of the next n cycles in which a flag rises under this pin byte.
    #[inline]
    pub fn look_ahead(&self, pins: u8, n: u64) -> Result<Option<u64>, Refusal> {
        let a = raw::c51_look(*self, pins, n);
        answer(a.code, (a.found == 1).then_some(a.at))
    }

    /// The wake look: the first k from 0 to n such that an interrupt is offered after k cycles with this pin byte. It does not ask
    /// for IDL. A device that sleeps until Timer 0 wakes it:
    ///
    /// ```
    /// use c51::{address, pcon, Device, PINS_HIGH};
    ///
    /// let mut device = Device::reset(52)?;
    /// device.write(address::TMOD, 0x01)?; // Timer 0 in mode 1
    /// device.write(address::IE, 0x82)?;
    /// device.write(address::TCON, 0x10)?; // run
    /// device.write(address::PCON, pcon::IDL)?; // sleep
    /// assert_eq!(device.wake_look(PINS_HIGH, 65_536)?, None);
    /// let k = device.wake_look(PINS_HIGH, 100_000)?;
    /// assert_eq!(k, Some(65_537)); // TF0 rises in cycle 65,536, and the next one polls it
    /// device.jump(PINS_HIGH, 65_537)?;
    /// assert_eq!(device.wake_look(PINS_HIGH, 0)?, Some(0)); // offered as the device stands
    /// assert_eq!(device.take()?, 0x0B);
    /// assert_eq!(device.read(address::PCON)?, 0); // awake
    /// # Ok::<(), c51::Refusal>(())
    /// ```
    #[inline]
    pub fn wake_look(&self, pins: u8, n: u64) -> Result<Option<u64>, Refusal> {
        let a = raw::c51_wake(*self, pins, n);
        answer(a.code, (a.found == 1).then_some(a.at))
    }

    /// The vector of the interrupt that is offered. A flag that a cycle sets is polled in the next, one that is written in the second;
    /// an overflow that sets TF2, newly or again, is polled in its own cycle. A lamp that Timer 2 switches every 1,000 cycles:
    ///
    /// ```
    /// use c51::{address, Device, PINS_HIGH};
    ///
    /// let mut device = Device::reset(52)?;
    /// let [high, low] = (u16::MAX - 999).to_be_bytes(); // overflows in the 1,000th cycle
    /// for (register, byte) in [(address::RCAP2H, high), (address::RCAP2L, low), (address::TH2, high), (address::TL2, low)] {
    ///     device.write(register, byte)?;
    /// }
    /// device.write(address::IE, 0xA0)?;
    /// device.write(address::T2CON, 0x04)?; // run, reload on overflow
    /// for switched in 1..=3 {
    ///     assert_eq!(device.wake_look(PINS_HIGH, 10_000)?, Some(1_000));
    ///     device.jump(PINS_HIGH, 1_000)?;
    ///     assert_eq!((device.cycle, device.offer()?), (1_000 * switched, Some(0x2B)));
    ///     device.take()?;
    ///     device.write(address::T2CON, 0x04)?; // the take leaves TF2: the program clears it
    ///     device.return_from_interrupt()?;
    /// }
    /// # Ok::<(), c51::Refusal>(())
    /// ```
    #[inline]
    pub fn offer(&self) -> Result<Option<u8>, Refusal> {
        let a = raw::c51_offer(*self);
        answer(a.code, (a.offered == 1).then_some(a.vector))
    }

    /// The cycle number after the cycle in which a flag last rose, or None where it never did since reset. It is read off the record,
    /// which is not judged.
    ///
    /// A flag rises in a cycle that finds it 0 and leaves it 1, also in one of a jump or a trace run: one that is set again does not,
    /// and a write by software never counts. Reset alone makes it none again; power-down and refused calls leave it. It wraps with
    /// the cycle number, so that a flag that rose may have 0.
    ///
    /// ```
    /// use c51::{address, Device, Flag, PINS_HIGH};
    ///
    /// let mut device = Device::reset(52)?;
    /// device.write(address::TMOD, 0x02)?; // Timer 0 in mode 2
    /// device.write(address::TH0, 0x06)?;
    /// device.write(address::TL0, 0x06)?; // overflows in every 250th cycle
    /// device.write(address::TCON, 0x30)?; // run, and TF0 by software
    /// device.jump(PINS_HIGH, 1_000)?;
    /// assert_eq!(device.last_rise(Flag::Tf0), None); // it was set again, four times
    /// device.write(address::TCON, 0x10)?; // the program clears it
    /// device.jump(PINS_HIGH, 1_000)?;
    /// assert_eq!(device.last_rise(Flag::Tf0), Some(1_250));
    /// # Ok::<(), c51::Refusal>(())
    /// ```
    #[inline]
    pub fn last_rise(&self, flag: Flag) -> Option<u64> {
        let place = flag as usize;
        (self.times.ever[place] == 1).then_some(self.times.number[place])
    }

    /// Takes the interrupt that is offered, and clears IDL; gives the vector.
    #[inline]
    pub fn take(&mut self) -> Result<u8, Refusal> {
        let a = raw::c51_take(self);
        answer(a.code, a.vector)
    }

    /// Return from interrupt.
    #[inline]
    pub fn return_from_interrupt(&mut self) -> Result<(), Refusal> {
        answer(raw::c51_return(self), ())
    }

    /// Runs a list of calls, each on the device as the one before left it, and writes down the answer to each: the
    /// function that the theorem about lists is proved of. As many run as there are rows of both; the rows of answers
    /// past them stay as they were.
    ///
    /// The arguments of a call are those of the method, in its order, but of a trace the start and the end of its part
    /// of `entries`. A jump gives four numbers, the totals of Timers 0, 1 and 2 and the rounds, and a trace three, the totals. A
    /// refused call gives 0 for each number that it would give. It leaves the device, but a refused reset leaves the record of
    /// zeros.
    ///
    /// ```
    /// use c51::{address, call, Device, ANSWER_WORDS, NONE, PINS_HIGH};
    ///
    /// let calls = [
    ///     [call::RESET, 52, 0],
    ///     [call::WRITE, address::TCON.into(), 0x10], // Timer 0 runs, in mode 0
    ///     [call::TRACE, 0, 2],                       // both entries
    ///     [call::LOOK, PINS_HIGH.into(), 100],
    ///     [call::LOOK, PINS_HIGH.into(), 10_000],
    ///     [call::JUMP, PINS_HIGH.into(), 10_000],
    ///     [call::JUMP, 0x80, 10_000],
    /// ];
    /// let entries = [0x7F00_0001, 0x7E00_0001];
    /// let mut answers = [[0; ANSWER_WORDS]; 7];
    /// let mut device = Device::default();
    /// device.replay(&calls, &entries, &mut answers);
    /// assert_eq!(device.cycle, 10_002);
    /// assert_eq!(answers[..2], [[0, 0, 0, 0, 0, 0]; 2]); // passed
    /// assert_eq!(answers[2], [0, 3, 0, 0, 0, 0]); // no timer overflows in two cycles
    /// assert_eq!(answers[3], [0, NONE, 0, 0, 0, 0]); // no flag rises in 100
    /// assert_eq!(answers[4], [0, 1, 8_190, 0, 0, 0]); // TF0 rises in cycle 8,190
    /// assert_eq!(answers[5], [0, 4, 1, 0, 0, 5]); // Timer 0 overflows in it, and in no other of 10,000; five rounds
    /// assert_eq!(answers[6], [4, 4, 0, 0, 0, 0]); // refused: bit 7 of the pin byte is set
    /// ```
    pub fn replay(&mut self, calls: &[CallRow], entries: &[u32], answers: &mut [AnswerRow]) {
        raw::replay(self, calls.as_flattened(), entries, answers.as_flattened_mut());
    }
}
