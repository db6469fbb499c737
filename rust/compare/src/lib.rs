//! The proved library beside the model by other hands: every answer and every field of both chips after every call.
pub mod files;
pub mod lists;
pub mod pair;
pub mod ran;
pub mod reach;
pub mod record;
pub mod rounds;
pub mod speeds;

/// The model's stage, the N for which requests One to N have all landed: tests/stage has it, for tests/compare.sh too.
pub const STAGE: u8 = include!("../../../tests/stage");

/// A trace entry: the pin byte on top of 24 bits of cycles.
pub fn entry(pins: u8, cycles: u64) -> u32 {
    u32::from(pins) << 24 | cycles as u32
}
