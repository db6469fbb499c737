//! The library's records and the model's: a device by the numbers that both have in a script, an 82C53 field by field.
use crate::STAGE;
use c51::{Board, Counter, Device, Interval};
use c51model::interval::{self, Format};
use c51model::{model, script};
use replay::record;

/// The model's record with the fields of the library's; the model of this thread is at our stage from then on.
pub fn to_model(d: &Device) -> model::Device {
    model::set_stage(STAGE);
    script::raw_record(&record::numbers(d)).expect("the numbers of a record")
}

/// The library's record with the fields of the model's.
pub fn of_model(d: &model::Device) -> Device {
    let numbers: Vec<u64> = script::dump(d).split(' ').map(|n| n.parse().expect("a number")).collect();
    record::of_numbers(&numbers).expect("the numbers of a record")
}

/// The model's two chips; none in place of an 82C53 with a field outside its range, for which it has no value.
#[derive(Clone, Copy, PartialEq, Debug)]
pub struct Model {
    pub device: model::Device,
    pub timer: Option<interval::Interval>,
}

pub fn board_to_model(board: &Board) -> Model {
    Model { device: to_model(&board.device), timer: interval_to_model(&board.interval) }
}

/// The model's 82C53 with the fields of the library's, or none. What stands beside a mark of 0 has no place in it.
pub fn interval_to_model(c: &Interval) -> Option<interval::Interval> {
    let [first, second, third] = [&c.counter0, &c.counter1, &c.counter2].map(counter_to_model);
    Some(interval::Interval { counters: [first?, second?, third?] })
}

/// The library's 82C53 with the fields of the model's, and 0 beside each mark of 0, as the calls leave it.
pub fn interval_of_model(c: &interval::Interval) -> Interval {
    let [counter0, counter1, counter2] = c.counters.each_ref().map(counter_of_model);
    Interval { counter0, counter1, counter2 }
}

/// The four digits of a count as the model has them, and the count of four digits.
fn digits(n: u16) -> u16 {
    [1000, 100, 10, 1].iter().fold(0, |digits, place| digits * 16 + n / place % 10)
}

fn of_digits(digits: u16) -> u16 {
    [12, 8, 4, 0].iter().fold(0, |n, place| n * 10 + (digits >> place & 15))
}

const MOST_IN_BCD: u16 = 9_999;

fn counter_to_model(k: &Counter) -> Option<interval::Counter> {
    let mark = |n: u8| (n < 2).then_some(n == 1);
    let bcd = mark(k.bcd)?;
    let count = |n: u16| match bcd {
        true => (n <= MOST_IN_BCD).then_some(digits(n)),
        false => Some(n),
    };
    let format = match k.format {
        1 => Format::Low,
        2 => Format::High,
        3 => Format::Both,
        _ => return None,
    };
    Some(interval::Counter {
        mode: [0, 2].into_iter().find(|&mode| mode == k.mode)?,
        bcd,
        format,
        count: count(k.count)?,
        waiting: mark(k.waits)?.then_some(count(k.waiting)?),
        loaded: mark(k.loaded)?.then_some(count(k.reload)?),
        low_written: mark(k.first)?.then_some(k.low),
        // it has a meaning with both alone
        high_read_next: mark(k.high)? && format == Format::Both,
        latch: mark(k.latched)?.then_some(count(k.latch)?),
        output: mark(k.output)?.into(),
        gate: mark(k.gate)?.into(),
    })
}

fn counter_of_model(k: &interval::Counter) -> Counter {
    let number = |count: Option<u16>| match k.bcd {
        true => count.map_or(0, of_digits),
        false => count.unwrap_or(0),
    };
    let format = match k.format {
        Format::Low => 1,
        Format::High => 2,
        Format::Both => 3,
    };
    Counter {
        mode: k.mode,
        bcd: k.bcd.into(),
        format,
        output: k.output,
        gate: k.gate,
        loaded: k.loaded.is_some().into(),
        waits: k.waiting.is_some().into(),
        first: k.low_written.is_some().into(),
        low: k.low_written.unwrap_or(0),
        high: k.high_read_next.into(),
        latched: k.latch.is_some().into(),
        count: number(Some(k.count)),
        reload: number(k.loaded),
        waiting: number(k.waiting),
        latch: number(k.latch),
    }
}
