//! A board of the library and one of the model, run by the same calls.
use crate::files::{compare_load, compare_save, Loads};
use crate::ran::{row, Ran};
use crate::reach::{shortened, REACH};
use crate::record::{board_to_model, interval_of_model, interval_to_model, to_model, Model};
use crate::rounds::{by_single_cycles, Rounds};
use crate::speeds::compare_speed;
use c51::raw::{self, BoardAnswer, BoardJumpAnswer, JumpAnswer, LineAnswer, LookAnswer, OutputsAnswer, RunAnswer, ValueAnswer};
use c51::{pcon, AnswerRow, Board, Device, Interval, Totals};
use c51model::interval::{self, board_cycle, board_jump};
use c51model::model::{self, Refusal, BAD_RECORD};
use c51model::script;
use replay::board::BoardCall;
use replay::calls::{Call, Request};
use replay::{lines, record};
use std::fmt::Debug;

/// The two boards; they hold the same after every call that passes the comparison.
#[derive(Clone, Copy)]
pub struct Pair {
    pub library: Board,
    pub model: Model,
}

impl Default for Pair {
    /// As a script starts: a device that is the record of zeros, and an 82C53 after reset.
    fn default() -> Pair {
        Pair::of_record(Device::default())
    }
}

/// The code of the model's answer, and its value, 0 where it is refused.
fn code_and<T: Default>(answer: Result<T, Refusal>) -> (u8, T) {
    match answer {
        Ok(value) => (0, value),
        Err(Refusal(code)) => (code, T::default()),
    }
}

/// Nothing where both answers are the same in every number.
pub fn same<T: PartialEq + Debug>(library: T, model: T) -> Result<(), String> {
    if library == model {
        Ok(())
    } else {
        Err(format!("the library answers {library:?}\nthe model answers   {model:?}"))
    }
}

/// The totals of a run of the model.
pub fn totals_of(tally: &model::Tally) -> Totals {
    let [timer0, timer1, timer2] = tally.totals;
    Totals { timer0, timer1, timer2 }
}

/// The numbers that a jump of the model gives in a list: its totals, and its rounds.
fn jump_numbers(tally: &model::Tally) -> [u64; 4] {
    let [timer0, timer1, timer2] = tally.totals;
    [timer0, timer1, timer2, tally.rounds()]
}

/// Nothing where the rounds of a jump that passed are no more than its busy cycles allow, and, where it is short, are those of its
/// single cycles; the model tells how many are busy.
fn same_rounds(given: Device, pins: u8, n: u64, rounds: u64, busy: u64) -> Result<(), String> {
    if rounds > Rounds::most(busy) {
        return Err(format!("{rounds} rounds with {busy} busy cycles"));
    }
    if n <= ONE_BY_ONE {
        let single = by_single_cycles(given, pins, n);
        if (rounds, busy) != (single.count(), single.busy) {
            return Err(format!("{rounds} rounds with {busy} busy cycles\nby single cycles {single:?}"));
        }
    }
    Ok(())
}

/// The answer of a look ahead or a wake look.
fn look_answer(code: u8, found: Option<u64>) -> LookAnswer {
    LookAnswer { code, found: found.is_some().into(), at: found.unwrap_or(0) }
}

/// The answer of an offer, a look ahead or a wake look in a list: none only where it passed.
fn row_of_found(code: u8, found: Option<u64>) -> AnswerRow {
    match (code, found) {
        (0, None) => row(code, None),
        _ => row(code, Some(&[found.unwrap_or(0)])),
    }
}

/// The most pulses or board cycles of a jump that are made one by one too.
const ONE_BY_ONE: u64 = 40;

/// The call made the other way: a pulse or a cycle as a jump of 1, a short jump as so many of them. Gives the answer and the board.
fn other_way(mut board: Board, call: &BoardCall) -> Option<(OutputsAnswer, Board)> {
    let answer = match *call {
        BoardCall::Pulse(gates) => raw::c53_jump(&mut board.interval, gates, 1),
        BoardCall::Pulses(gates, n) if n <= ONE_BY_ONE => (0..n).map(|_| raw::c53_pulse(&mut board.interval, gates)).last()?,
        BoardCall::Cycle(pins, gates) => {
            let BoardJumpAnswer { code, outputs, .. } = raw::c51_board_jump(&mut board, pins, gates, 1);
            OutputsAnswer { code, outputs }
        }
        BoardCall::Jump(pins, gates, n) if n <= ONE_BY_ONE => {
            let BoardAnswer { code, outputs, .. } = (0..n).map(|_| raw::c51_board_cycle(&mut board, pins, gates)).last()?;
            OutputsAnswer { code, outputs }
        }
        _ => return None,
    };
    Some((answer, board))
}

/// Nothing where the parts of a run, made one after the other from the record before it, have its totals and leave what
/// it left.
fn adds_up<R: PartialEq + Debug, P>(
    mut record: R,
    parts: impl IntoIterator<Item = P>,
    part: impl Fn(&mut R, P) -> Totals,
    whole: (Totals, R),
) -> Result<(), String> {
    let totals: Totals = parts.into_iter().map(|p| part(&mut record, p)).sum();
    if (totals, &record) == (whole.0, &whole.1) {
        Ok(())
    } else {
        Err(format!("the run gives {whole:?}\nits parts   {:?}", (totals, record)))
    }
}

/// Whether 0 stands beside each mark of 0.
fn is_plain(c: &Interval) -> bool {
    interval_to_model(c).is_some_and(|model| interval_of_model(&model) == *c)
}

impl Pair {
    /// A device beside an 82C53 after reset.
    pub fn of_record(device: Device) -> Pair {
        Pair::of_board(Board { device, interval: Interval::reset() })
    }

    pub fn of_board(board: Board) -> Pair {
        Pair { library: board, model: board_to_model(&board) }
    }

    /// Runs a call script.
    pub fn run_script(&mut self, text: &str) -> Result<Tally, String> {
        let request = |line: &str| lines::request(line.as_bytes()).ok_or_else(|| format!("no call: {line}"));
        self.run(text.lines().map(request).collect::<Result<Vec<Request>, String>>()?)
    }

    /// Runs what the lines of a script ask for, each call over fewer cycles where it is out of reach, and compares
    /// every answer and after each line every field; then runs each call of the chip once more as a list of one, and all
    /// of them up to the next of another kind as one list. A difference comes as a text with a script that shows it.
    pub fn run(&mut self, requests: impl IntoIterator<Item = Request>) -> Result<Tally, String> {
        let mut tally = Tally::default();
        let mut ran = Ran::from(self.library.device);
        for request in requests {
            let request = shortened(&self.model, &request).unwrap_or(request);
            let before = self.library;
            let answer = self.step(&request).map_err(|what| {
                let put = Request::Put(Box::new(before.device));
                let beside = format!("the 82C53 before it: {:?}", before.interval);
                format!("the library and the model differ in the call of this script:\n{put}\n{request}\nD\n{what}\n{beside}")
            })?;
            tally += Tally::of(&request, &answer, &before.device, &self.library.device);
            match request {
                Request::Call(call) => ran.push(call, answer, self.library.device)?,
                Request::Board(_) | Request::Load(_) | Request::Put(_) => {
                    ran.compare()?;
                    ran = Ran::from(self.library.device);
                }
                Request::Speed(_) | Request::Save | Request::Dump => {}
            }
        }
        ran.compare()?;
        Ok(tally)
    }

    /// Runs one of them on both, and compares the answers and the records; gives the answer that a call has in a list, one
    /// with the totals and rounds of a jump of the board, and one with the code of a save or a load.
    fn step(&mut self, request: &Request) -> Result<AnswerRow, String> {
        let mut answer = row(0, Some(&[]));
        match request {
            Request::Call(call) => answer = self.call(call)?,
            Request::Board(call) => answer = row(0, Some(&self.board_call(call)?)),
            Request::Speed(call) => {
                compare_speed(call)?;
            }
            Request::Save => answer = row(compare_save(&self.library.device, &self.model.device)?, Some(&[])),
            Request::Load(file) => {
                let (loaded, model) = compare_load(file)?;
                self.library.device = loaded.device;
                self.model.device = model;
                answer = row(loaded.code, Some(&[]));
            }
            Request::Put(device) => {
                self.library.device = **device;
                self.model.device = to_model(device);
            }
            Request::Dump => {}
        }
        let (library, model) = (&self.library, &self.model);
        same(raw::c51_accepts(library.device), model.device.record_is_good().into())?;
        if to_model(&library.device) != model.device {
            let (library, model) = (record::text(&library.device), script::dump(&model.device));
            return Err(format!("the library leaves {library}\nthe model leaves   {model}"));
        }
        same(raw::c53_accepts(library.interval), model.timer.is_some().into())?;
        if interval_to_model(&library.interval) != model.timer {
            return Err(format!("the library leaves {:?}\nthe model leaves   {:?}", library.interval, model.timer));
        }
        if let Some(timer) = &model.timer {
            same(raw::c53_outputs(library.interval), timer.outputs())?;
        }
        Ok(answer)
    }

    /// Runs a call by itself on both, and compares the answers; gives the one that it has in a list. A short jump is made
    /// once more by jumps of 1 and by single cycles, and a trace run by a jump for each entry.
    fn call(&mut self, call: &Call) -> Result<AnswerRow, String> {
        let given = self.library.device;
        let (library, model) = (&mut self.library.device, &mut self.model.device);
        Ok(match call {
            &Call::Reset(kind) => {
                let (device, answer) = model::Device::reset(kind);
                *model = device;
                let a = raw::c51_reset(kind);
                *library = a.device;
                let code = code_and(answer).0;
                same(a.code, code)?;
                row(code, Some(&[]))
            }
            &Call::Write(address, value) => {
                let code = code_and(model.write(address, value)).0;
                same(raw::c51_write(library, address, value), code)?;
                row(code, Some(&[]))
            }
            &Call::Read(address) => {
                let (code, value) = code_and(model.read(address));
                same(raw::c51_read(*library, address), ValueAnswer { code, value })?;
                row(code, Some(&[value.into()]))
            }
            &Call::Cycle(pins) => {
                let (code, line) = code_and(model.cycle(pins));
                same(raw::c51_cycle(library, pins), LineAnswer { code, line })?;
                row(code, Some(&[line.into()]))
            }
            &Call::Jump(pins, n) => {
                let (code, tally) = code_and(model.jump(pins, n));
                let answer = JumpAnswer { code, totals: totals_of(&tally), rounds: tally.rounds() };
                same(raw::c51_jump(library, pins, n), answer)?;
                if n <= ONE_BY_ONE {
                    adds_up(given, 0..n, |device, _| raw::c51_jump(device, pins, 1).totals, (answer.totals, *library))?;
                }
                if code == 0 {
                    same_rounds(given, pins, n, answer.rounds, tally.busy)?;
                }
                row(code, Some(&jump_numbers(&tally)))
            }
            Call::Trace(entries) => {
                let (code, tally) = code_and(model.trace(entries));
                let answer = RunAnswer { code, totals: totals_of(&tally) };
                same(raw::trace(library, entries), answer)?;
                if code == 0 {
                    let jump = |device: &mut Device, &entry: &u32| {
                        raw::c51_jump(device, model::entry_pins(entry), model::entry_cycles(entry).into()).totals
                    };
                    adds_up(given, entries, jump, (answer.totals, *library))?;
                }
                row(code, Some(&tally.totals))
            }
            &Call::Look(pins, n) => {
                let (code, at) = code_and(model.look_ahead(pins, n));
                same(raw::c51_look(*library, pins, n), look_answer(code, at))?;
                row_of_found(code, at)
            }
            &Call::Wake(pins, n) => {
                let (code, at) = code_and(model.wake_look(pins, n));
                same(raw::c51_wake(*library, pins, n), look_answer(code, at))?;
                row_of_found(code, at)
            }
            Call::Offer => {
                let (code, vector) = code_and(model.offer());
                let a = raw::c51_offer(*library);
                same((a.code, a.offered, a.vector.into()), (code, vector.is_some().into(), vector.unwrap_or(0)))?;
                row_of_found(code, vector.map(u64::from))
            }
            Call::Take => {
                let (code, vector) = code_and(model.take());
                let a = raw::c51_take(library);
                same((a.code, a.vector.into()), (code, vector))?;
                row(code, Some(&[vector.into()]))
            }
            Call::Return => {
                let code = code_and(model.return_from_interrupt()).0;
                same(raw::c51_return(library), code)?;
                row(code, Some(&[]))
            }
        })
    }

    /// Makes a call of the 82C53 or of the board on both, and compares the answers, and the call with itself made the other
    /// way. A refused one leaves the board; one on an 82C53 that the model has no value for is refused by 1. Gives the
    /// totals and the rounds, which are zeros but of a jump of the board.
    fn board_call(&mut self, call: &BoardCall) -> Result<[u64; 4], String> {
        let given = self.library;
        let (library, model) = (&mut self.library, &mut self.model);
        let timer = model.timer.as_mut().ok_or(BAD_RECORD);
        let mut numbers = [0; 4];
        let (code, outputs) = match *call {
            BoardCall::Reset => {
                library.interval = raw::c53_reset();
                model.timer = Some(interval::Interval::reset());
                (0, 0)
            }
            BoardCall::Write(address, value) => {
                let code = code_and(timer.and_then(|timer| timer.write(address, value))).0;
                same(raw::c53_write(&mut library.interval, address, value), code)?;
                (code, 0)
            }
            BoardCall::Read(address) => {
                let (code, value) = code_and(timer.and_then(|timer| timer.read(address)));
                same(raw::c53_read(&mut library.interval, address), ValueAnswer { code, value })?;
                (code, 0)
            }
            BoardCall::Pulse(gates) => {
                let (code, outputs) = code_and(timer.and_then(|timer| timer.pulse(gates)));
                same(raw::c53_pulse(&mut library.interval, gates), OutputsAnswer { code, outputs })?;
                (code, outputs)
            }
            BoardCall::Pulses(gates, n) => {
                let (code, outputs) = code_and(timer.and_then(|timer| timer.pulses(gates, n)));
                same(raw::c53_jump(&mut library.interval, gates, n), OutputsAnswer { code, outputs })?;
                (code, outputs)
            }
            BoardCall::Cycle(pins, gates) => {
                let cycled = timer.and_then(|timer| board_cycle(&mut model.device, timer, pins, gates));
                let (code, (line, outputs)) = code_and(cycled);
                same(raw::c51_board_cycle(library, pins, gates), BoardAnswer { code, line, outputs })?;
                (code, outputs)
            }
            BoardCall::Jump(pins, gates, n) => {
                let jumped = timer.and_then(|timer| board_jump(&mut model.device, timer, pins, gates, n));
                let (code, (tally, outputs)) = code_and(jumped);
                let answer = BoardJumpAnswer { code, outputs, totals: totals_of(&tally), rounds: tally.rounds() };
                same(raw::c51_board_jump(library, pins, gates, n), answer)?;
                if n <= ONE_BY_ONE {
                    let jump = |board: &mut Board, _| raw::c51_board_jump(board, pins, gates, 1).totals;
                    adds_up(given, 0..n, jump, (answer.totals, *library))?;
                }
                if code == 0 {
                    same_rounds(given.device, pins, n, answer.rounds, tally.busy)?;
                }
                numbers = jump_numbers(&tally);
                (code, outputs)
            }
        };
        if code != 0 && self.library != given {
            return Err(format!("the refused call leaves {:?}", self.library));
        }
        if is_plain(&given.interval) && !is_plain(&self.library.interval) {
            return Err(format!("the library leaves a number beside a mark of 0: {:?}", self.library.interval));
        }
        let made = (OutputsAnswer { code, outputs }, self.library);
        match other_way(given, call) {
            Some(other) if other != made => Err(format!("the library gives {made:?}\nthe other way    {other:?}")),
            _ => Ok(numbers),
        }
    }
}

/// The cycles of a call that are counted.
fn cycles(request: &Request, before: &Device, after: &Device) -> u64 {
    match request {
        Request::Call(Call::Cycle(_) | Call::Jump(..) | Call::Trace(_))
        | Request::Board(BoardCall::Cycle(..) | BoardCall::Jump(..)) => {
            Some(after.cycle.wrapping_sub(before.cycle)).filter(|&cycles| cycles <= REACH).unwrap_or(0)
        }
        _ => 0,
    }
}

/// The calls and cycles that were compared. A call of more cycles than the reach crosses a chip at rest, and they are
/// not counted.
#[derive(Clone, Copy, Default, PartialEq, Debug)]
pub struct Tally {
    pub calls: u64,
    pub cycles: u64,
    /// The calls on a device in power-down.
    pub in_power_down: u64,
    /// The takes that cleared IDL.
    pub woken: u64,
    /// The calls of the 82C53 and of the board.
    pub of_the_board: u64,
    /// The calls for a speed.
    pub for_a_speed: u64,
    /// The saves that passed, and the loads.
    pub saved: u64,
    pub loads: Loads,
    /// The jumps and trace runs, of the chip and of the board, in which Timers 0, 1 and 2 overflowed.
    pub overflowed: [u64; 3],
    /// The jumps of the chip and of the board that took one round, and those that took more.
    pub of_one_round: u64,
    pub of_more_rounds: u64,
}

impl Tally {
    /// What one request counts, with its answer and the records before and after it.
    fn of(request: &Request, answer: &AnswerRow, before: &Device, after: &Device) -> Tally {
        let in_power_down = before.pcon & pcon::PD != 0 && before.accepts();
        let woken = *request == Request::Call(Call::Take) && before.pcon & !after.pcon & pcon::IDL != 0;
        let is_jump = matches!(request, Request::Call(Call::Jump(..)) | Request::Board(_));
        let has_totals = is_jump || matches!(request, Request::Call(Call::Trace(_)));
        let rounds = if is_jump { answer[5] } else { 0 };
        let mut loads = Loads::default();
        if let Request::Load(_) = request {
            loads.add(answer[0] as u8);
        }
        Tally {
            calls: 1,
            cycles: cycles(request, before, after),
            in_power_down: in_power_down.into(),
            woken: woken.into(),
            of_the_board: matches!(request, Request::Board(_)).into(),
            for_a_speed: matches!(request, Request::Speed(_)).into(),
            saved: (*request == Request::Save && answer[0] == 0).into(),
            loads,
            overflowed: [2, 3, 4].map(|word| (has_totals && answer[word] > 0).into()),
            of_one_round: (rounds == 1).into(),
            of_more_rounds: (rounds > 1).into(),
        }
    }
}

impl std::ops::AddAssign for Tally {
    fn add_assign(&mut self, other: Tally) {
        self.calls += other.calls;
        self.cycles += other.cycles;
        self.in_power_down += other.in_power_down;
        self.woken += other.woken;
        self.of_the_board += other.of_the_board;
        self.for_a_speed += other.for_a_speed;
        self.saved += other.saved;
        self.loads += other.loads;
        self.overflowed.iter_mut().zip(other.overflowed).for_each(|(count, other)| *count += other);
        self.of_one_round += other.of_one_round;
        self.of_more_rounds += other.of_more_rounds;
    }
}

#[cfg(test)]
mod tests {
    use super::*;

    /// A record that is a count of cycles, each of which overflows Timer 2 twice.
    #[test]
    fn parts_that_do_not_add_up_are_found() {
        let run = |cycles: &mut u64, n: u64| {
            *cycles += n;
            Totals { timer2: 2 * n, ..Totals::default() }
        };
        let whole = |timer2: u64, left: u64| adds_up(7, [1, 2, 3], run, (Totals { timer2, ..Totals::default() }, left));
        assert_eq!(whole(12, 13), Ok(()));
        assert!(whole(11, 13).is_err() && whole(12, 14).is_err());
    }

    /// RXD falls in the first of ten cycles: one is busy, and the run after it is the other round. Of a long jump the bound alone is
    /// checked.
    #[test]
    fn other_rounds_are_found() {
        let device = Device::reset(52).expect("a kind");
        let falls = |n: u64, rounds: u64, busy: u64| same_rounds(device, 0x7E, n, rounds, busy);
        assert_eq!(falls(10, 2, 1), Ok(()));
        for (rounds, busy) in [(1, 1), (3, 1), (2, 2), (2, 10), (4, 1), (0, 0), (1, 0)] {
            assert!(falls(10, rounds, busy).is_err(), "{rounds} rounds with {busy} busy cycles");
        }
        assert_eq!(falls(ONE_BY_ONE + 1, 3, 1), Ok(()));
        assert!(falls(ONE_BY_ONE + 1, 4, 1).is_err());
    }
}
