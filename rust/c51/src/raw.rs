//! The library as `c51.h` has it: the records field by field, the answers, the rows of a list, and the functions.
//!
//! The functions are safe to call with any content of the record: each is proved for all inputs, and none keeps a
//! reference.

/// Timers 0 and 1: registers and due marks.
#[repr(C)]
#[derive(Clone, Copy, PartialEq, Eq, Debug, Default)]
pub struct Timers {
    pub tcon: u8,
    pub tmod: u8,
    pub tl0: u8,
    pub tl1: u8,
    pub th0: u8,
    pub th1: u8,
    pub due0: u8,
    pub due1: u8,
}

/// Timer 2: registers and due mark.
#[repr(C)]
#[derive(Clone, Copy, PartialEq, Eq, Debug, Default)]
pub struct Timer2 {
    pub t2con: u8,
    pub rcap2l: u8,
    pub rcap2h: u8,
    pub tl2: u8,
    pub th2: u8,
    pub due2: u8,
}

/// Send position, send value and send counter.
#[repr(C)]
#[derive(Clone, Copy, PartialEq, Eq, Debug, Default)]
pub struct Sender {
    pub position: u8,
    pub value: u16,
    pub counter: u8,
}

/// Receive position, receive value, receive counter, votes and last line sample.
#[repr(C)]
#[derive(Clone, Copy, PartialEq, Eq, Debug, Default)]
pub struct Receiver {
    pub position: u8,
    pub value: u16,
    pub counter: u8,
    pub votes: u8,
    pub sample: u8,
}

/// The serial port. SBUF's value is the received byte.
#[repr(C)]
#[derive(Clone, Copy, PartialEq, Eq, Debug, Default)]
pub struct Serial {
    pub scon: u8,
    pub send: Sender,
    pub receive: Receiver,
    pub half: u8,
    pub received: u8,
}

/// The interrupt controller: registers, seen, polled, and the levels in service.
#[repr(C)]
#[derive(Clone, Copy, PartialEq, Eq, Debug, Default)]
pub struct Interrupts {
    pub ie: u8,
    pub ip: u8,
    pub seen: u8,
    pub polled: u8,
    pub low: u8,
    pub high: u8,
}

/// When each flag last rose, at the place of its [`Flag`](crate::Flag): whether it ever did since reset, and the cycle number after
/// the cycle in which it last did, 0 where it never did.
#[repr(C)]
#[derive(Clone, Copy, PartialEq, Eq, Debug, Default)]
pub struct FlagTimes {
    pub ever: [u8; 8],
    pub number: [u64; 8],
}

/// The device record. The levels are those of RXD, INT0, INT1, T0, T1, T2, T2EX. The default is the record of zeros.
#[repr(C)]
#[derive(Clone, Copy, PartialEq, Eq, Debug, Default)]
pub struct Device {
    pub kind: u8,
    pub pcon: u8,
    pub timers: Timers,
    pub timer2: Timer2,
    pub serial: Serial,
    pub interrupts: Interrupts,
    pub levels: [u8; 7],
    pub cycle: u64,
    pub times: FlagTimes,
}

/// A counter of the 82C53. A count is a number, in BCD too.
#[repr(C)]
#[derive(Clone, Copy, PartialEq, Eq, Debug, Default)]
pub struct Counter {
    pub mode: u8,
    pub bcd: u8,
    pub format: u8,
    pub output: u8,
    pub gate: u8,
    pub loaded: u8,
    pub waits: u8,
    pub first: u8,
    pub low: u8,
    pub high: u8,
    pub latched: u8,
    pub count: u16,
    pub reload: u16,
    pub waiting: u16,
    pub latch: u16,
}

/// The 82C53. The default is the record of zeros, which is no 82C53: it has no format.
#[repr(C)]
#[derive(Clone, Copy, PartialEq, Eq, Debug, Default)]
pub struct Interval {
    pub counter0: Counter,
    pub counter1: Counter,
    pub counter2: Counter,
}

/// A board that has both chips. The default is the record of zeros.
#[repr(C)]
#[derive(Clone, Copy, PartialEq, Eq, Debug, Default)]
pub struct Board {
    pub device: Device,
    pub interval: Interval,
}

/// A reset or a load.
#[repr(C)]
#[derive(Clone, Copy, PartialEq, Eq, Debug)]
pub struct Answer {
    pub code: u8,
    pub device: Device,
}

/// A cycle.
#[repr(C)]
#[derive(Clone, Copy, PartialEq, Eq, Debug)]
pub struct LineAnswer {
    pub code: u8,
    pub line: u8,
}

/// A take.
#[repr(C)]
#[derive(Clone, Copy, PartialEq, Eq, Debug)]
pub struct VectorAnswer {
    pub code: u8,
    pub vector: u8,
}

/// A read, of the chip and of the 82C53.
#[repr(C)]
#[derive(Clone, Copy, PartialEq, Eq, Debug)]
pub struct ValueAnswer {
    pub code: u8,
    pub value: u8,
}

/// An offer.
#[repr(C)]
#[derive(Clone, Copy, PartialEq, Eq, Debug)]
pub struct OfferAnswer {
    pub code: u8,
    pub offered: u8,
    pub vector: u8,
}

/// A look ahead or a wake look.
#[repr(C)]
#[derive(Clone, Copy, PartialEq, Eq, Debug)]
pub struct LookAnswer {
    pub code: u8,
    pub found: u8,
    pub at: u64,
}

/// The overflows of each timer in the cycles of a jump or a trace run: all 0 in power-down, and where it has no cycles.
/// In mode 3 those of TH0 are Timer 0's too, so that a cycle may add 2. Those of Timer 1 count also where they set no
/// flag, Timer 0 being in mode 3. Timer 2 has up to 6 a cycle as a baud rate generator; a reload by T2EX is none, and
/// kind 51 has none.
#[repr(C)]
#[derive(Clone, Copy, PartialEq, Eq, Debug, Default)]
pub struct Totals {
    pub timer0: u64,
    pub timer1: u64,
    pub timer2: u64,
}

/// A jump.
#[repr(C)]
#[derive(Clone, Copy, PartialEq, Eq, Debug)]
pub struct JumpAnswer {
    pub code: u8,
    pub totals: Totals,
    pub rounds: u64,
}

/// A trace run.
#[repr(C)]
#[derive(Clone, Copy, PartialEq, Eq, Debug)]
pub struct RunAnswer {
    pub code: u8,
    pub totals: Totals,
}

/// Pulses of the 82C53.
#[repr(C)]
#[derive(Clone, Copy, PartialEq, Eq, Debug)]
pub struct OutputsAnswer {
    pub code: u8,
    pub outputs: u8,
}

/// A cycle of the board.
#[repr(C)]
#[derive(Clone, Copy, PartialEq, Eq, Debug)]
pub struct BoardAnswer {
    pub code: u8,
    pub line: u8,
    pub outputs: u8,
}

/// A jump of the board.
#[repr(C)]
#[derive(Clone, Copy, PartialEq, Eq, Debug)]
pub struct BoardJumpAnswer {
    pub code: u8,
    pub outputs: u8,
    pub totals: Totals,
    pub rounds: u64,
}

/// A speed.
#[repr(C)]
#[derive(Clone, Copy, PartialEq, Eq, Debug)]
pub struct SpeedAnswer {
    pub code: u8,
    pub found: u8,
    pub smod: u8,
    pub th1: u8,
    pub achieved: u64,
}

/// The words of a call in a list, and of its answer.
pub const CALL_WORDS: usize = 3;
pub const ANSWER_WORDS: usize = 6;
/// In place of how many numbers an answer gives: an offer, a look ahead or a wake look that passed and found none.
pub const NONE: u64 = u64::MAX;

/// A call in a list: its number (see [`call`](crate::call)), and two arguments.
pub type CallRow = [u64; CALL_WORDS];
/// An answer in a list: its code, how many numbers it gives or [`NONE`], and four numbers, 0 past those given.
pub type AnswerRow = [u64; ANSWER_WORDS];

// Sound as safe functions: the library is proved to answer every content, and a reference is only used during the call.
unsafe extern "C" {
    pub safe fn c51_write(device: &mut Device, address: u8, value: u8) -> u8;
    pub safe fn c51_cycle(device: &mut Device, pins: u8) -> LineAnswer;
    pub safe fn c51_jump(device: &mut Device, pins: u8, n: u64) -> JumpAnswer;
    pub safe fn c51_take(device: &mut Device) -> VectorAnswer;
    pub safe fn c51_return(device: &mut Device) -> u8;
    pub safe fn c51_reset(kind: u8) -> Answer;
    pub safe fn c51_read(device: Device, address: u8) -> ValueAnswer;
    pub safe fn c51_offer(device: Device) -> OfferAnswer;
    pub safe fn c51_look(device: Device, pins: u8, n: u64) -> LookAnswer;
    pub safe fn c51_wake(device: Device, pins: u8, n: u64) -> LookAnswer;
    pub safe fn c51_accepts(device: Device) -> u8;
    pub safe fn c53_reset() -> Interval;
    pub safe fn c53_write(interval: &mut Interval, address: u8, byte: u8) -> u8;
    pub safe fn c53_read(interval: &mut Interval, address: u8) -> ValueAnswer;
    pub safe fn c53_pulse(interval: &mut Interval, gates: u8) -> OutputsAnswer;
    pub safe fn c53_jump(interval: &mut Interval, gates: u8, n: u64) -> OutputsAnswer;
    pub safe fn c53_outputs(interval: Interval) -> u8;
    pub safe fn c53_accepts(interval: Interval) -> u8;
    pub safe fn c51_board_cycle(board: &mut Board, pins: u8, gates: u8) -> BoardAnswer;
    pub safe fn c51_board_jump(board: &mut Board, pins: u8, gates: u8, n: u64) -> BoardJumpAnswer;
    pub safe fn c51_speed(crystal: u64, rate: u64, tolerance: u64) -> SpeedAnswer;
    fn c51_shares(slice: u64, wishes: *const u64, tunnels: usize, shares: *mut u64, length: usize) -> u8;
    fn c51_save(device: Device, buffer: *mut u8, length: usize) -> u8;
    fn c51_load(file: *const u8, length: usize) -> Answer;
    fn c51_trace(device: &mut Device, entries: *const u32, count: usize) -> RunAnswer;
    fn c51_replay(
        device: &mut Device,
        calls: *const u64,
        calls_length: usize,
        entries: *const u32,
        entries_length: usize,
        answers: *mut u64,
        answers_length: usize,
    );
}

/// `c51_shares` of a slice, into a slice.
pub fn shares(slice: u64, wishes: &[u64], shares: &mut [u64]) -> u8 {
    // Each pointer and the length after it are those of one slice.
    unsafe { c51_shares(slice, wishes.as_ptr(), wishes.len(), shares.as_mut_ptr(), shares.len()) }
}

/// `c51_save` into a slice.
pub fn save(device: Device, buffer: &mut [u8]) -> u8 {
    // The pointer and the length are those of one slice.
    unsafe { c51_save(device, buffer.as_mut_ptr(), buffer.len()) }
}

/// `c51_load` of a slice.
pub fn load(file: &[u8]) -> Answer {
    // The pointer and the length are those of one slice.
    unsafe { c51_load(file.as_ptr(), file.len()) }
}

/// `c51_trace` over a slice.
pub fn trace(device: &mut Device, entries: &[u32]) -> RunAnswer {
    // The pointer and the length are those of one slice.
    unsafe { c51_trace(device, entries.as_ptr(), entries.len()) }
}

/// `c51_replay` over slices of words. As many calls run as both `calls` and `answers` have whole rows for.
pub fn replay(device: &mut Device, calls: &[u64], entries: &[u32], answers: &mut [u64]) {
    // Each pointer and the length after it are those of one slice.
    unsafe { c51_replay(device, calls.as_ptr(), calls.len(), entries.as_ptr(), entries.len(), answers.as_mut_ptr(), answers.len()) }
}
