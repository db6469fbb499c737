//! A fixed number of lists and raw records of fixed seeds, and that the comparison finds what it must.
use c51::{address, call, flag, pcon, Board, BoardJump, Counter, Device, FlagTimes, Interval, Jump, Totals};
use c51::{ANSWER_WORDS, GATES_HIGH, MAX_CYCLES, PINS_HIGH};
use c51model::baud::{distance, rate_of};
use c51model::interval::board_jump;
use c51model::{coverage, script};
use compare::lists::{raw_interval, raw_record, run_list, run_record, script, styles};
use compare::pair::{totals_of, Pair, Tally};
use compare::record::{board_to_model, interval_of_model, interval_to_model, of_model, to_model};
use compare::rounds::{by_single_cycles, Rounds};
use compare::speeds::{compare_speed, speed_call, Outcomes};
use compare::{entry, STAGE};
use random::Rng;
use replay::board::BoardCall;
use replay::calls::{Call, Request};
use replay::record::{numbers, NUMBERS};
use replay::speed::SpeedCall;
use std::path::Path;

const SCRIPTS_OF_A_STYLE: u64 = 4;
const LINES: u64 = 1500;
const LISTS: u64 = 3_000;
const LIST_LENGTH: u64 = 50;
const RECORDS: u64 = 100_000;
const SPEEDS: u64 = 40_000;

#[test]
fn scripts_of_the_model() {
    let mut total = Tally::default();
    let styles = styles().unwrap();
    for style in &styles {
        for seed in 1..=SCRIPTS_OF_A_STYLE {
            let text = script(Path::new(env!("CARGO_BIN_EXE_gen")), seed, LINES, style).unwrap();
            assert_eq!(text.lines().count() as u64, LINES);
            total += Pair::default().run_script(&text).unwrap_or_else(|what| panic!("gen {seed} {LINES} {style} {STAGE}: {what}"));
        }
    }
    assert_eq!(total.calls, styles.len() as u64 * SCRIPTS_OF_A_STYLE * LINES);
    assert!(total.cycles > 1_000_000, "{total:?}");
    assert!(total.of_the_board > SCRIPTS_OF_A_STYLE * LINES, "{total:?}");
    assert!(total.for_a_speed > SCRIPTS_OF_A_STYLE * LINES / 2, "{total:?}");
    assert!(total.saved > LINES / 2, "{total:?}");
    assert!(total.loads.counts().iter().all(|&count| count > LINES / 20), "{total:?}");
    assert!(total.overflowed.iter().all(|&runs| runs > total.calls / 100), "{total:?}");
    assert!([total.of_one_round, total.of_more_rounds].iter().all(|&jumps| jumps > total.calls / 100), "{total:?}");
    assert_eq!(rare_rules(SIX, 100), [""; 0], "each flag's first and later rises");
    assert_eq!(rare_rules(SEVEN, 100), [""; 0], "TL0 and TH0 overflow in one cycle");
    assert_eq!(rare_rules(NINE, 10), [""; 0], "cycles that are busy for one reason alone, and cycles that are not");
}

/// How the names of the rules that a request brought begin; and of Timer 2 as a baud rate generator.
const THREE: &str = "3: ";
const SIX: &str = "6: ";
const SEVEN: &str = "7: ";
const NINE: &str = "9: ";
const BAUD: &str = "T2 baud timer: ";

/// The rules of a request that the model has followed in this thread fewer times than so often.
fn rare_rules(request: &str, least: u64) -> Vec<&'static str> {
    let [on_51, on_52] = coverage::counts();
    let times = on_51.iter().zip(&on_52).map(|(a, b)| a + b);
    let rules: Vec<(&str, u64)> =
        coverage::NAMES.iter().copied().zip(times).filter(|(name, _)| name.starts_with(request)).collect();
    assert!(!rules.is_empty(), "no rule begins with {request}");
    rules.into_iter().filter(|&(_, times)| times < least).map(|(name, _)| name).collect()
}

#[test]
fn fresh_lists() {
    let mut total = Tally::default();
    for seed in 0..LISTS {
        total += run_list(&mut Rng::part(1, seed), LIST_LENGTH).unwrap_or_else(|what| panic!("list {seed}: {what}"));
    }
    assert_eq!(total.calls, LISTS * LIST_LENGTH);
    assert!((total.calls / 50..total.calls / 5).contains(&total.in_power_down), "{total:?}");
    assert!(total.woken > LISTS / 20, "{total:?}");
    assert!(total.of_the_board > total.calls / 4, "{total:?}");
    assert!(total.for_a_speed > total.calls / 50, "{total:?}");
    assert!(total.saved > total.calls / 60 && total.loads.passed > total.calls / 60, "{total:?}");
    assert!(total.loads.counts().iter().all(|&count| count > LISTS / 50), "{total:?}");
    assert!(total.overflowed.iter().all(|&runs| runs > LISTS / 20), "{total:?}");
    assert!([total.of_one_round, total.of_more_rounds].iter().all(|&jumps| jumps > LISTS / 2), "{total:?}");
    assert_eq!(rare_rules(THREE, 50), [""; 0], "every rule of the 82C53");
    assert_eq!(rare_rules(SIX, 10), [""; 0], "each flag's first and later rises");
    assert_eq!(rare_rules(SEVEN, 50), [""; 0], "TL0 and TH0 overflow in one cycle");
}

/// Which pairs of the flag times a record has: in an accepted one ever with 0, and ever with the greatest number; in one that is
/// refused for its pairs alone never with a number, and an ever above 1.
fn kinds_of_pairs(device: &Device) -> [bool; 4] {
    let pairs = || device.times.ever.into_iter().zip(device.times.number);
    let accepted = device.accepts();
    let refused = !accepted && Device { times: FlagTimes::default(), ..*device }.accepts();
    [
        accepted && pairs().any(|pair| pair == (1, 0)),
        accepted && pairs().any(|pair| pair == (1, u64::MAX)),
        refused && pairs().any(|(ever, number)| ever == 0 && number != 0),
        refused && pairs().any(|(ever, _)| ever > 1),
    ]
}

#[test]
fn raw_records() {
    let mut accepted = [0; 2];
    let mut kinds = [0; 4];
    let mut total = Tally::default();
    for seed in 0..RECORDS {
        let rng = &mut Rng::part(2, seed);
        let device = raw_record(rng);
        accepted[0] += u64::from(device.accepts());
        accepted[1] += u64::from(raw_interval(rng).accepts());
        kinds.iter_mut().zip(kinds_of_pairs(&device)).for_each(|(count, has)| *count += u64::from(has));
        total += run_record(&mut Rng::part(2, seed)).unwrap_or_else(|what| panic!("record {seed}: {what}"));
    }
    for accepted in accepted {
        assert!(accepted > RECORDS / 3 && accepted < RECORDS * 2 / 3, "{accepted} of {RECORDS} accepted");
    }
    assert!(kinds.iter().all(|&count| count > RECORDS / 100), "{kinds:?}");
    assert_eq!(rare_rules(SIX, RECORDS / 100), [""; 0], "each flag's first and later rises");
    assert_eq!(rare_rules(SEVEN, RECORDS / 50), [""; 0], "TL0 and TH0 overflow in one cycle");
    assert_eq!(rare_rules(BAUD, RECORDS / 2_000), [""; 0], "one to six overflows of Timer 2 in a cycle");
    assert_eq!(rare_rules(NINE, RECORDS / 200), [""; 0], "cycles that are busy for one reason alone, and cycles that are not");
    assert!(total.overflowed.iter().all(|&runs| runs > RECORDS / 25), "{total:?}");
    assert!([total.of_one_round, total.of_more_rounds].iter().all(|&jumps| jumps > RECORDS / 20), "{total:?}");
    assert_eq!((total.calls, total.of_the_board), (22 * RECORDS, 8 * RECORDS));
    assert!(total.saved > RECORDS / 3 && total.loads.counts().iter().all(|&count| count > RECORDS / 20), "{total:?}");
    assert!((total.calls / 40..total.calls / 5).contains(&total.in_power_down), "{total:?}");
    assert!(total.woken > RECORDS / 100, "{total:?}");
}

/// Found, none and refused are all common, and so are an answer exactly at the end of its tolerance, one that a hundredth of a percent
/// more would bring, and one with a rate on the other side that is as near.
#[test]
fn speeds() {
    let mut outcomes = Outcomes::default();
    let [mut at_the_end, mut just_outside, mut either_side] = [0; 3];
    for seed in 0..SPEEDS {
        let call = speed_call(&mut Rng::part(10, seed));
        let answer = compare_speed(&call).unwrap_or_else(|what| panic!("speed {seed}: {what}"));
        outcomes.add(&answer);
        let SpeedCall { crystal, rate, tolerance } = call;
        if answer.found == 1 {
            let (above, below) = rate_of(crystal, answer.smod, answer.th1);
            let (off, _) = distance(above, below, rate);
            at_the_end += u64::from(off > 0 && off * 10_000 == u128::from(rate) * u128::from(tolerance) * below);
            let is_fast = above > u128::from(rate) * below;
            let is_other = |smod: u8, th1: u8| {
                let (a, b) = rate_of(crystal, smod, th1);
                (a > u128::from(rate) * b) != is_fast && distance(a, b, rate).0 * below == off * b
            };
            either_side += u64::from(off > 0 && (0..=255).any(|th1| is_other(0, th1) || is_other(1, th1)));
        } else if answer.code == 0 {
            just_outside += u64::from(c51::speed(crystal, rate, tolerance + 1).is_ok_and(|found| found.is_some()));
        }
    }
    assert_eq!(outcomes.calls(), SPEEDS);
    let Outcomes { found, none, refused } = outcomes;
    let rare = [found, none, refused, at_the_end, just_outside, either_side].iter().any(|&count| count < SPEEDS / 20);
    assert!(!rare, "{outcomes:?}, {at_the_end} at the end, {just_outside} just outside, {either_side} on either side");
}

/// Cycles with one pin byte.
#[derive(Clone, Copy, Debug)]
struct Stretch {
    pins: u8,
    cycles: u64,
}

/// A list of stretches, most of which change a pin or two.
fn stretches(rng: &mut Rng) -> Vec<Stretch> {
    let longest = rng.pick(&[4, 40, 400]);
    let mut pins = rng.byte() & PINS_HIGH;
    (0..rng.between(2, 30))
        .map(|_| {
            pins = match rng.below(4) {
                0 => rng.byte() & PINS_HIGH,
                _ => pins ^ 1 << rng.below(7),
            };
            Stretch { pins, cycles: rng.between(1, longest) }
        })
        .collect()
}

/// The same cycles in other stretches: cut anywhere.
fn cut(rng: &mut Rng, list: &[Stretch]) -> Vec<Stretch> {
    let mut parts = Vec::new();
    for &Stretch { pins, cycles } in list {
        let mut left = cycles;
        while left > 0 {
            let part = rng.between(1, left);
            parts.push(Stretch { pins, cycles: part });
            left -= part;
        }
    }
    parts
}

/// Single cycles. They answer no totals: a jump of 1 does, and ends as each of them.
fn run_cycles(device: &mut Device, list: &[Stretch]) -> Totals {
    let mut totals = Totals::default();
    for stretch in list {
        for _ in 0..stretch.cycles {
            let mut jumped = *device;
            device.cycle(stretch.pins).unwrap();
            totals += jumped.jump(stretch.pins, 1).unwrap().totals;
            assert_eq!(jumped, *device);
        }
    }
    totals
}

fn run_jumps(device: &mut Device, list: &[Stretch]) -> Totals {
    list.iter().map(|stretch| device.jump(stretch.pins, stretch.cycles).unwrap().totals).sum()
}

fn run_trace(device: &mut Device, list: &[Stretch]) -> Totals {
    let entries: Vec<u32> = list.iter().map(|stretch| entry(stretch.pins, stretch.cycles)).collect();
    device.trace(&entries).unwrap()
}

/// Cuts the list anywhere and runs some parts in single cycles, some in jumps and some in traces of several entries.
fn run_mixed(device: &mut Device, list: &[Stretch], rng: &mut Rng) -> Totals {
    let parts = cut(rng, list);
    let mut rest = &parts[..];
    let mut totals = Totals::default();
    while !rest.is_empty() {
        let (some, others) = rest.split_at(rng.between(1, rest.len().min(8) as u64) as usize);
        totals += rng.pick(&[run_cycles, run_jumps, run_trace])(device, some);
        rest = others;
    }
    totals
}

/// Devices started alike and taken through the same cycles by single cycles, by jumps, by one trace and by any mix of
/// them are equal in every field and have the same totals, and so has the model.
#[test]
fn any_cut_ends_alike() {
    let mut lists = 0;
    let mut overflows = Totals::default();
    for seed in 0..4_000 {
        let rng = &mut Rng::part(6, seed);
        let device = raw_record(rng);
        if !device.accepts() {
            continue;
        }
        let list = stretches(rng);
        let mut model = to_model(&device);
        let jump = |stretch: &Stretch| totals_of(&model.jump(stretch.pins, stretch.cycles).unwrap());
        let totals: Totals = list.iter().map(jump).sum();
        let [mut cycled, mut jumped, mut traced, mut mixed] = [device; 4];
        for (way, given, ended) in [
            ("single cycles", run_cycles(&mut cycled, &list), cycled),
            ("jumps", run_jumps(&mut jumped, &list), jumped),
            ("a trace", run_trace(&mut traced, &list), traced),
            ("a mix", run_mixed(&mut mixed, &list, rng), mixed),
        ] {
            assert_eq!((given, ended), (totals, of_model(&model)), "record {seed}, {way}: {list:?}");
        }
        overflows += totals;
        lists += 1;
    }
    assert!(lists > 1_000, "{lists} lists");
    assert!([overflows.timer0, overflows.timer1, overflows.timer2].iter().all(|&total| total > lists), "{overflows:?}");
}

/// The rounds of a jump are those of its cycles one by one, by the words of request Nine, and of the model: at most two for a busy
/// cycle, and one more. Cut anywhere it has as many, or for each cut up to one more, where that cuts a run.
#[test]
fn rounds_by_single_cycles() {
    let mut jumps = 0;
    let mut kinds = [0; 5];
    for seed in 0..4_000 {
        let rng = &mut Rng::part(11, seed);
        let mut device = raw_record(rng);
        if !device.accepts() {
            continue;
        }
        let mut model = to_model(&device);
        for stretch in stretches(rng) {
            let Stretch { pins, cycles } = stretch;
            let single = by_single_cycles(device, pins, cycles);
            let parts = cut(rng, &[stretch]);
            let mut parted = device;
            let in_parts: u64 = parts.iter().map(|part| parted.jump(pins, part.cycles).unwrap().rounds).sum();
            let Jump { rounds, .. } = device.jump(pins, cycles).unwrap();
            let tally = model.jump(pins, cycles).unwrap();
            let expected = (single.count(), single.busy, single.runs);
            assert_eq!((rounds, tally.busy, tally.quiet_runs), expected, "record {seed}: {stretch:?}");
            assert!(rounds <= Rounds::most(single.busy), "record {seed}: {stretch:?}");
            assert!((rounds..rounds + parts.len() as u64).contains(&in_parts), "record {seed}: {stretch:?} cut to {parts:?}");
            let kind = match (single.busy, single.runs) {
                (0, _) => 0,
                (_, 0) => 1,
                (busy, runs) if runs == busy + 1 => 2,
                _ => 3,
            };
            kinds[kind] += 1;
            kinds[4] += u64::from(in_parts > rounds);
            jumps += 1;
        }
    }
    assert!(jumps > 20_000 && kinds.iter().all(|&count| count > jumps / 500), "of {jumps} jumps {kinds:?}");
}

/// The same of boards, with gates that change too: board cycles, board jumps and any mix of them. The totals are those of
/// board jumps, cut anywhere, and of the model, which has the rounds too.
#[test]
fn any_cut_of_a_board_ends_alike() {
    let mut lists = 0;
    for seed in 0..4_000 {
        let rng = &mut Rng::part(9, seed);
        let board = Board { device: raw_record(rng), interval: raw_interval(rng) };
        if !board.device.accepts() || !board.interval.accepts() {
            continue;
        }
        let list: Vec<(Stretch, u8)> = stretches(rng).into_iter().map(|part| (part, rng.byte() & GATES_HIGH)).collect();
        let [mut cycled, mut jumped, mut parted, mut mixed] = [board; 4];
        let mut model = board_to_model(&board);
        let timer = model.timer.as_mut().expect("an 82C53 that is accepted");
        for &(Stretch { pins, cycles }, gates) in &list {
            (0..cycles).for_each(|_| assert!(cycled.cycle(pins, gates).is_ok()));
            let given = jumped.jump(pins, gates, cycles).unwrap();
            let mut totals = Totals::default();
            for part in cut(rng, &[Stretch { pins, cycles }]) {
                totals += parted.jump(pins, gates, part.cycles).unwrap().totals;
                if rng.one_in(2) {
                    mixed.jump(pins, gates, part.cycles).unwrap();
                } else {
                    (0..part.cycles).for_each(|_| assert!(mixed.cycle(pins, gates).is_ok()));
                }
            }
            let (tally, outputs) = board_jump(&mut model.device, timer, pins, gates, cycles).unwrap();
            let expected = BoardJump { totals: totals_of(&tally), rounds: tally.rounds(), outputs };
            assert_eq!(given, expected, "board {seed}: {list:?}");
            assert_eq!(given.totals, totals, "board {seed}, in parts: {list:?}");
        }
        for (way, ended) in [("cycles", cycled), ("jumps", jumped), ("jumps of parts", parted), ("a mix", mixed)] {
            assert_eq!(ended, cycled, "board {seed}, {way}: {list:?}");
            assert_eq!(board_to_model(&ended), model, "board {seed}, {way}: {list:?}");
        }
        lists += 1;
    }
    assert!(lists > 600, "{lists} lists");
}

/// A wake look finds the first k after which single cycles have an interrupt offered, in the library and in the model; a jump
/// of k ends as those cycles do, and the take that follows clears IDL.
#[test]
fn wake_looks() {
    let mut found = [0; 5];
    for seed in 0..20_000 {
        let rng = &mut Rng::part(8, seed);
        let mut device = raw_record(rng);
        if !device.accepts() || device.pcon & pcon::PD != 0 {
            continue;
        }
        device.pcon |= pcon::IDL;
        device.interrupts.ie |= rng.pick(&[0, 0x80, 0x80, 0x80]); // EA
        device.interrupts.high = 0;
        device.interrupts.polled &= rng.pick(&[0, 0, 0x3F]);
        device.interrupts.seen &= rng.pick(&[0, 0x3F]);
        if rng.one_in(2) {
            // a flag has to rise first
            device.interrupts.polled = 0;
            device.interrupts.seen = 0;
            device.timers.tcon &= !(flag::TF1 | flag::TF0 | flag::IE1 | flag::IE0);
            device.serial.scon &= !(flag::TI | flag::RI);
            device.timer2.t2con &= !(flag::TF2 | flag::EXF2);
        }
        let (pins, n) = (rng.byte() & PINS_HIGH, rng.pick(&[0, 1, 2, 40, 400]));

        let mut stepped = device;
        let mut k = 0;
        while stepped.offer() == Ok(None) && k < n {
            stepped.cycle(pins).unwrap();
            k += 1;
        }
        let expected = stepped.offer().unwrap().map(|_| k);
        assert_eq!(device.wake_look(pins, n), Ok(expected), "record {seed}");
        assert_eq!(to_model(&device).wake_look(pins, n), Ok(expected), "record {seed}");
        if expected.is_some() {
            let mut jumped = device;
            jumped.jump(pins, k).unwrap();
            assert_eq!(jumped, stepped, "record {seed}");
            jumped.take().unwrap();
            assert_eq!(jumped.pcon, device.pcon & !pcon::IDL, "record {seed}");
        }
        found[expected.map_or(4, |k| k.min(3)) as usize] += 1;
    }
    assert!(found.iter().all(|&count| count > 200), "after 0, 1, 2, more cycles, and none: {found:?}");
}

/// The call of a row of any words: a byte is the low 8 bits of its word, a number that names no call is a return, and a
/// trace whose part is not in order or not in range is empty.
fn call_of([number, a, b]: [u64; 3], lent: &[u32]) -> Call {
    match number {
        call::RESET => Call::Reset(a as u8),
        call::READ => Call::Read(a as u8),
        call::WRITE => Call::Write(a as u8, b as u8),
        call::CYCLE => Call::Cycle(a as u8),
        call::JUMP => Call::Jump(a as u8, b),
        call::TRACE => {
            let part = usize::try_from(a).ok().zip(usize::try_from(b).ok()).and_then(|(start, end)| lent.get(start..end));
            Call::Trace(part.unwrap_or_default().to_vec())
        }
        call::LOOK => Call::Look(a as u8, b),
        call::OFFER => Call::Offer,
        call::TAKE => Call::Take,
        call::WAKE => Call::Wake(a as u8, b),
        _ => Call::Return,
    }
}

#[test]
fn rows_of_any_words() {
    for seed in 0..100_000 {
        let rng = &mut Rng::part(7, seed);
        let device = raw_record(rng);
        let lent: Vec<u32> = (0..rng.below(5)).map(|_| entry(rng.byte() & PINS_HIGH, rng.below(40))).collect();
        let number = if rng.one_in(4) { rng.number() } else { rng.below(12) };
        let first = match rng.below(3) {
            0 => rng.below(6),
            1 => rng.number() << 8 | rng.pick(&[51, 52, 0x7F, 0x88, 0x99]),
            _ => rng.number(),
        };
        // few cycles, or more than a call may have
        let second = match rng.below(3) {
            0 => rng.below(6),
            1 => rng.below(300),
            _ => rng.number() | MAX_CYCLES << 1,
        };
        let row = [number, first, second];

        let (mut by_row, mut by_call) = (device, device);
        let (mut answer, mut expected) = ([[7; ANSWER_WORDS]], [[8; ANSWER_WORDS]]);
        by_row.replay(&[row], &lent, &mut answer);
        let mut entries = Vec::new();
        let call = call_of(row, &lent);
        by_call.replay(&[call.row(&mut entries)], &entries, &mut expected);
        assert_eq!((by_row, answer), (by_call, expected), "record {seed}, {row:?}: {call}");
    }
}

/// A difference in any one of the numbers is found, and the text has the script that shows it.
#[test]
fn a_difference_in_any_field_is_found() {
    let mut rng = Rng::new(3);
    for number in 0..NUMBERS {
        let library = raw_record(&mut rng);
        let mut numbers = numbers(&library);
        numbers[number] ^= 1;
        let mut pair = Pair::of_record(library);
        pair.model.device = script::raw_record(&numbers).unwrap();
        let text = pair.run([Request::Dump]).unwrap_err();
        assert!(text.contains(&format!("{}\nD\n", Request::Put(Box::new(library)))), "{text}");
    }
}

/// The same of every field of the 82C53, beside a mark of 1 where it has one.
#[test]
fn a_difference_in_any_field_of_the_82c53_is_found() {
    let changes: [fn(&mut Counter); 15] = [
        |k| k.mode ^= 2,
        |k| k.bcd ^= 1,
        |k| k.format ^= 1,
        |k| k.output ^= 1,
        |k| k.gate ^= 1,
        |k| k.loaded ^= 1,
        |k| k.waits ^= 1,
        |k| k.first ^= 1,
        |k| k.low ^= 1,
        |k| k.high ^= 1,
        |k| k.latched ^= 1,
        |k| k.count ^= 1,
        |k| k.reload ^= 1,
        |k| k.waiting ^= 1,
        |k| k.latch ^= 1,
    ];
    let marks = Counter { format: 3, loaded: 1, waits: 1, first: 1, latched: 1, count: 1, ..Counter::default() };
    let interval = Interval { counter0: marks, counter1: marks, counter2: marks };
    let good = Pair::of_board(Board { device: Device::reset(52).unwrap(), interval });
    good.clone().run([Request::Dump]).expect("the same");
    for change in changes {
        for counter in 0..3 {
            let mut pair = good;
            let c = &mut pair.library.interval;
            change([&mut c.counter0, &mut c.counter1, &mut c.counter2][counter]);
            let text = pair.run([Request::Dump]).unwrap_err();
            assert!(text.contains("the library leaves Interval"), "{text}");
        }
    }
    let mut pair = good;
    pair.library.interval.counter1.format = 0;
    assert!(pair.run([Request::Dump]).is_err(), "a record that is not accepted");
}

/// A difference in the totals of a jump, a trace run and a jump of the board: Timer 0 of the model is a count behind.
#[test]
fn a_difference_in_the_totals_is_found() {
    let mut device = Device::reset(52).unwrap();
    for (address, value) in [(address::TMOD, 0x02), (address::TL0, 0xFF), (address::TCON, 0x10)] {
        device.write(address, value).unwrap();
    }
    for request in [
        Request::Call(Call::Jump(PINS_HIGH, 1)),
        Request::Call(Call::Trace(vec![entry(PINS_HIGH, 1)])),
        Request::Board(BoardCall::Jump(PINS_HIGH, GATES_HIGH, 1)),
    ] {
        let mut pair = Pair::of_record(device);
        assert!(pair.clone().run([request.clone()]).is_ok_and(|tally| tally.overflowed == [1, 0, 0]), "{request}");
        pair.model.device.tl0 -= 1;
        let text = pair.run([request]).unwrap_err();
        for (chip, timer0) in [("library", 1), ("model", 0)] {
            let totals = Totals { timer0, ..Totals::default() };
            let said = |line: &str| line.starts_with(&format!("the {chip} answers")) && line.contains(&format!("{totals:?}"));
            assert!(text.lines().any(said), "{text}");
        }
    }
}

/// A difference in the rounds of a jump and of a jump of the board: the model has RXD saved as 0, so that it finds it changed.
#[test]
fn a_difference_in_the_rounds_is_found() {
    for request in [Request::Call(Call::Jump(PINS_HIGH, 9)), Request::Board(BoardCall::Jump(PINS_HIGH, GATES_HIGH, 9))] {
        let mut pair = Pair::of_record(Device::reset(52).unwrap());
        let counted = pair.clone().run([request.clone()]).map(|tally| (tally.of_one_round, tally.of_more_rounds));
        assert_eq!(counted, Ok((1, 0)), "{request}");
        pair.model.device.saved[0] = 0;
        let text = pair.run([request]).unwrap_err();
        for (chip, rounds) in [("library", 1), ("model", 2)] {
            let said =
                |line: &str| line.starts_with(&format!("the {chip} answers")) && line.ends_with(&format!(" rounds: {rounds} }}"));
            assert!(text.lines().any(said), "{text}");
        }
    }
}

/// What the model has of an 82C53 is all of it, but for what stands beside a mark of 0.
#[test]
fn the_two_82c53s_are_one_to_one() {
    let mut rng = Rng::new(5);
    let mut accepted = 0;
    for _ in 0..1000 {
        let raw = raw_interval(&mut rng);
        assert_eq!(interval_to_model(&raw).is_some(), raw.accepts());
        let Some(model) = interval_to_model(&raw) else { continue };
        let plain = interval_of_model(&model);
        assert_eq!(interval_to_model(&plain), Some(model));
        for (raw, plain) in [(raw.counter0, plain.counter0), (raw.counter1, plain.counter1), (raw.counter2, plain.counter2)] {
            let Counter { loaded, waits, first, latched, .. } = raw;
            let expected = Counter {
                low: raw.low * first,
                high: if raw.format == 3 { raw.high } else { 0 },
                reload: raw.reload * u16::from(loaded),
                waiting: raw.waiting * u16::from(waits),
                latch: raw.latch * u16::from(latched),
                ..raw
            };
            assert_eq!(plain, expected);
        }
        accepted += 1;
    }
    assert!(accepted > 300, "{accepted} accepted");
    assert_eq!(interval_to_model(&Interval::reset()), Some(c51model::interval::Interval::reset()));
}

#[test]
fn the_two_records_are_one_to_one() {
    let mut rng = Rng::new(4);
    for _ in 0..1000 {
        let device = raw_record(&mut rng);
        assert_eq!(of_model(&to_model(&device)), device);
    }
    assert_eq!(to_model(&Device::default()), c51model::model::Device::zero());
}
