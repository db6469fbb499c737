//! The reach of the comparison. A chip rests under a pin byte where no timer counts, no frame is under way and the cycle number alone
//! moves, and in power-down, where nothing moves; no cycle is busy there, and both cross that at once. Before it the model steps every
//! cycle, and the library makes a round of every busy one, as of a frame that waits on a stopped clock. A call of very many such cycles
//! is run over fewer, on both. An 82C53 rests where no counter counts; the model steps every pulse before it, and the library none.
use crate::record::Model;
use crate::{entry, STAGE};
use c51::{MAX_CYCLES, MAX_TRACE};
use c51model::interval::{board_jump, Interval};
use c51model::model::{entry_cycles, entry_pins, set_stage, Device, Refusal};
use c51model::script::{run_line, World};
use replay::board::BoardCall;
use replay::calls::{Call, Request};
use replay::lines;

/// The most cycles of a jump, a look or a trace entry before the chip rests or the look ends.
pub const REACH: u64 = 1 << 19;
/// The most cycles or pulses of a jump, a look or a trace entry that is shortened.
const FEW: u64 = 5_000;
/// The most pulses of a jump before the 82C53 rests.
pub const PULSES: u64 = 1 << 21;
/// Pulses after which a counter that still counts never stops: a load, a lap and a reload.
const LAP: u64 = 65_538;
/// Cycles until the pins are those of the cycle before, and the counter pins that fell are counted.
const SETTLED: u64 = 2;

/// Cycles that are not refused and may be out of reach.
fn are_many(n: u64) -> bool {
    (REACH + 1..=MAX_CYCLES).contains(&n)
}

/// Whether a timer counts in the next cycle: from 0, where none overflows, a count moves on.
fn timer_counts(device: &Device, pins: u8) -> bool {
    let mut d = Device { tl0: 0, th0: 0, tl1: 0, th1: 0, tl2: 0, th2: 0, ..*device };
    d.jump(pins, 1).is_ok() && [d.tl0, d.th0, d.tl1, d.th1, d.tl2, d.th2] != [0; 6]
}

/// Whether a cycle moves nothing in power-down, or the cycle number alone with no frame under way: so does every cycle after it.
fn is_still(device: &Device, pins: u8) -> bool {
    let mut after = *device;
    let no_frame = device.send_position == 0 && device.receive_position == 0;
    after.jump(pins, 1).is_ok() && after.the_same_for_ever(device) && (no_frame || device.in_power_down())
}

/// The cycles of a jump or a trace entry: fewer where the chip does not rest in time. A timer that still counts once the pins are
/// settled counts on, so that the chip never rests.
fn jump_in_reach(device: &Device, pins: u8, n: u64) -> u64 {
    let mut later = *device;
    if !are_many(n) || later.jump(pins, SETTLED).is_err() {
        return n;
    }
    let rests = !timer_counts(&later, pins) && later.jump(pins, REACH - SETTLED).is_ok() && is_still(&later, pins);
    if rests {
        n
    } else {
        1 + n % FEW
    }
}

/// The pulses of a jump of the 82C53: fewer where it does not rest in time.
fn pulses_in_reach(timer: &Interval, gates: u8, n: u64) -> u64 {
    let mut later = *timer;
    if !(PULSES + 1..=MAX_CYCLES).contains(&n) || later.pulses(gates, LAP).is_err() {
        return n;
    }
    let at = later;
    if later.pulse(gates).is_ok() && later == at {
        n
    } else {
        1 + n % FEW
    }
}

/// The cycles of a jump of the board: fewer where either chip does not rest in time. Nothing of a refused jump is run.
fn board_in_reach(device: &Device, timer: &Interval, pins: u8, gates: u8, n: u64) -> u64 {
    let (mut d, mut t) = (*device, *timer);
    if board_jump(&mut d, &mut t, pins, gates, 0).is_err() {
        return n;
    }
    jump_in_reach(device, pins, n).min(pulses_in_reach(timer, gates, n))
}

/// A look ahead or a wake look of the model.
type Look = fn(&Device, u8, u64) -> Result<Option<u64>, Refusal>;

/// The cycles of a look, which also ends where it finds what it looks for: a flag that rises, or an interrupt that is offered.
fn look_in_reach(look: Look, device: &Device, pins: u8, n: u64) -> u64 {
    if are_many(n) && look(device, pins, REACH) == Ok(None) {
        jump_in_reach(device, pins, n)
    } else {
        n
    }
}

/// The entries of a trace, each as a jump of its own. Nothing of a refused trace is run.
fn trace_in_reach(device: &Device, entries: &[u32]) -> Vec<u32> {
    let mut at = *device;
    let mut within = Vec::with_capacity(entries.len());
    for &e in entries {
        let pins = entry_pins(e);
        let n = jump_in_reach(&at, pins, entry_cycles(e).into());
        if n == 0 || entries.len() > MAX_TRACE || at.jump(pins, n).is_err() {
            return entries.to_vec();
        }
        within.push(entry(pins, n));
    }
    within
}

/// The call of the 82C53 or of the board over fewer pulses where it is out of reach, and none where it is in reach; one on an 82C53
/// that the model has no value for is refused.
fn board_shortened(model: &Model, call: &BoardCall) -> Option<Request> {
    let timer = model.timer.as_ref()?;
    let within = match *call {
        BoardCall::Pulses(gates, n) => BoardCall::Pulses(gates, pulses_in_reach(timer, gates, n)),
        BoardCall::Jump(pins, gates, n) => BoardCall::Jump(pins, gates, board_in_reach(&model.device, timer, pins, gates, n)),
        _ => return None,
    };
    (within != *call).then_some(Request::Board(within))
}

/// The call over fewer cycles where it is out of reach of the two chips, and none where it is in reach.
pub fn shortened(model: &Model, request: &Request) -> Option<Request> {
    let device = &model.device;
    let call = match request {
        Request::Call(call) => call,
        Request::Board(call) => return board_shortened(model, call),
        _ => return None,
    };
    let within = match call {
        &Call::Jump(pins, n) => Call::Jump(pins, jump_in_reach(device, pins, n)),
        &Call::Look(pins, n) => Call::Look(pins, look_in_reach(Device::look_ahead, device, pins, n)),
        &Call::Wake(pins, n) => Call::Wake(pins, look_in_reach(Device::wake_look, device, pins, n)),
        Call::Trace(entries) if entries.iter().any(|&e| are_many(entry_cycles(e).into())) => {
            Call::Trace(trace_in_reach(device, entries))
        }
        _ => return None,
    };
    (within != *call).then_some(Request::Call(within))
}

/// A call script with the calls shortened that are out of reach. Every other line stays as it is, also one that is a fault.
pub fn script_in_reach(text: &str) -> String {
    set_stage(STAGE);
    let mut world = World::new();
    let mut within = String::with_capacity(text.len());
    for whole in text.split_inclusive('\n') {
        let line = whole.strip_suffix('\n').unwrap_or(whole);
        let request = lines::request(line.as_bytes());
        let model = Model { device: world.device, timer: Some(world.timer) };
        let shorter = request.and_then(|request| shortened(&model, &request)).map(|shorter| shorter.to_string());
        let chosen = shorter.as_deref().unwrap_or(line);
        // a fault leaves the device
        let _ = run_line(&mut world, chosen);
        within += chosen;
        within += &whole[line.len()..];
    }
    within
}
