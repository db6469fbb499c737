//! Calls for a speed: random ones, and the library beside the model on each.
use crate::pair::same;
use crate::STAGE;
use c51::raw::{c51_speed, SpeedAnswer};
use c51::{MAX_CRYSTAL, MAX_RATE, MAX_TOLERANCE};
use c51model::baud::{distance, find_speed, rate_of};
use c51model::model::{set_stage, Refusal};
use random::Rng;
use replay::speed::SpeedCall;

/// The model's answer in the library's form.
fn by_model(call: &SpeedCall) -> SpeedAnswer {
    const NONE: SpeedAnswer = SpeedAnswer { code: 0, found: 0, smod: 0, th1: 0, achieved: 0 };
    set_stage(STAGE);
    match find_speed(call.crystal, call.rate, call.tolerance) {
        Ok(Some(speed)) => SpeedAnswer { code: 0, found: 1, smod: speed.smod, th1: speed.th1, achieved: speed.achieved },
        Ok(None) => NONE,
        Err(Refusal(code)) => SpeedAnswer { code, ..NONE },
    }
}

/// Makes the call on both; gives the answer where it is the same.
pub fn compare_speed(call: &SpeedCall) -> Result<SpeedAnswer, String> {
    let answer = c51_speed(call.crystal, call.rate, call.tolerance);
    same(answer, by_model(call)).map_err(|what| format!("{call}\n{what}")).map(|()| answer)
}

/// What calls for a speed came to.
#[derive(Clone, Copy, Default, PartialEq, Debug)]
pub struct Outcomes {
    pub found: u64,
    pub none: u64,
    pub refused: u64,
}

impl Outcomes {
    pub fn add(&mut self, answer: &SpeedAnswer) {
        *match (answer.code, answer.found) {
            (0, 0) => &mut self.none,
            (0, _) => &mut self.found,
            _ => &mut self.refused,
        } += 1;
    }

    pub fn calls(&self) -> u64 {
        self.found + self.none + self.refused
    }
}

/// Crystals in Hz and rates in bits a second that are usual, and tolerances.
const CRYSTALS: [u64; 14] = [
    1_843_200, 3_579_545, 3_686_400, 4_000_000, 6_000_000, 7_372_800, 8_000_000, 11_059_200, 12_000_000, 14_745_600, 16_000_000,
    20_000_000, 22_118_400, 40_000_000,
];
const RATES: [u64; 14] = [50, 110, 300, 600, 1_200, 2_400, 4_800, 9_600, 19_200, 31_250, 38_400, 57_600, 62_500, 115_200];
const TOLERANCES: [u64; 9] = [0, 1, 10, 50, 100, 250, 1_000, 5_000, MAX_TOLERANCE];

/// A number from 1 to `most`, a small one as often as a great one.
fn of_any_size(rng: &mut Rng, most: u64) -> u64 {
    let bits = rng.below(u64::from(most.ilog2()) + 2);
    1 + rng.below(1 << bits).min(most - 1)
}

/// A crystal with a rate that lies in the middle between those of two pairs, of SMOD 1 and another or of SMOD 0 both, or next
/// to it.
fn between_two(rng: &mut Rng) -> (u64, u64) {
    let of_either_smod = rng.one_in(2);
    let steps = if of_either_smod { rng.between(1, 255) } else { rng.between(128, 227) };
    let common = if steps % 3 == 1 { rng.pick(&[1, 3]) } else { 1 };
    let least = if of_either_smod { 384 } else { 768 } * steps * (steps + 1) / common;
    let times = rng.between(1, MAX_CRYSTAL / least);
    let crystal = least * times;
    (rng.pick(&[crystal, crystal, crystal, crystal - 1, crystal + 1]), (2 * steps + 1) / common * times)
}

/// A pair that is off by exactly the tolerance, too fast or too slow, with the tolerance or with one more or less.
fn at_the_end(rng: &mut Rng) -> SpeedCall {
    let unit = rng.pick(&[1, 10, 100, 1_000]);
    let off = rng.between(1, 1_000 / unit);
    let parts = MAX_TOLERANCE / unit;
    let steps = rng.pick(&[1, 1, 2, 3, 4, 7, 12]);
    let achieved = if rng.one_in(2) { parts + off } else { parts - off };
    let times = rng.between(1, (MAX_CRYSTAL / (384 * steps * achieved)).clamp(1, MAX_RATE / parts));
    let crystal = rng.pick(&[384, 192]) * steps * achieved * times;
    SpeedCall { crystal, rate: parts * times, tolerance: off * unit + rng.below(3) - 1 }
}

/// A tolerance: a usual one, any, or the least that suffices with one less and one more, where it lies in the limits.
fn some_tolerance(rng: &mut Rng, crystal: u64, rate: u64) -> u64 {
    let least = match find_speed(crystal, rate, MAX_TOLERANCE) {
        Ok(Some(nearest)) => {
            let (above, below) = rate_of(crystal, nearest.smod, nearest.th1);
            let (off, below) = distance(above, below, rate);
            (off * u128::from(MAX_TOLERANCE)).div_ceil(below * u128::from(rate)) as u64
        }
        _ => 0,
    };
    match rng.below(4) {
        0 => rng.pick(&TOLERANCES),
        1 => rng.between(0, MAX_TOLERANCE),
        _ => (least + rng.below(3)).saturating_sub(1).min(MAX_TOLERANCE),
    }
}

/// Of so many calls one has a number at the end of its limits or past it.
const LIMITS: u64 = 6;

/// A call for a speed, with usual numbers or any, often with a rate as near on either side or with a tolerance that just
/// suffices.
pub fn speed_call(rng: &mut Rng) -> SpeedCall {
    let (crystal, rate) = match rng.below(9) {
        0..=1 => (rng.pick(&CRYSTALS), rng.pick(&RATES)),
        2..=3 => (of_any_size(rng, MAX_CRYSTAL), of_any_size(rng, MAX_RATE)),
        4 => (rng.between(1, 5_000), rng.between(1, 12)),
        5..=6 => between_two(rng),
        _ => return at_the_end(rng),
    };
    let mut call = SpeedCall { crystal, rate, tolerance: some_tolerance(rng, crystal, rate) };
    if rng.one_in(LIMITS) {
        let (number, most) = match rng.below(3) {
            0 => (&mut call.crystal, MAX_CRYSTAL),
            1 => (&mut call.rate, MAX_RATE),
            _ => (&mut call.tolerance, MAX_TOLERANCE),
        };
        *number = match rng.below(8) {
            0 => 0,
            1 => most,
            2 => most + 1,
            3 => 1 << 32 | *number,
            4 => u64::MAX - rng.below(3),
            _ => rng.number(),
        };
    }
    call
}
