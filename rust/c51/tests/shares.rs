//! Shares of a time slice: every small slice against a sharing out cycle by cycle, the limits, what a refusal leaves; and the scheduler,
//! which advances devices by them.
use c51::{address, pin, shares, Device, Scheduler, SharesRefusal, Tunnel, MAX_CYCLES, MAX_TUNNELS, PINS_HIGH};
use std::num::{NonZeroU64, NonZeroUsize};
use std::sync::Barrier;
use std::thread;

fn given(slice: u64, wishes: &[u64]) -> Vec<u64> {
    let mut output = vec![u64::MAX; wishes.len()];
    shares(slice, wishes, &mut output).unwrap_or_else(|why| panic!("{slice} for {wishes:?}: {why}"));
    output
}

/// Cycle by cycle: each tunnel in turn takes one, for as many rounds as the equal part has, where it wishes for one more; then the first
/// takes what it still wishes for, then the second, and so on.
fn handed_out(slice: u64, wishes: &[u64]) -> Vec<u64> {
    let mut left = slice;
    let mut output = vec![0; wishes.len()];
    for _ in 0..slice / wishes.len() as u64 {
        for (share, wish) in output.iter_mut().zip(wishes) {
            if *share < *wish {
                *share += 1;
                left -= 1;
            }
        }
    }
    for (share, wish) in output.iter_mut().zip(wishes) {
        while *share < *wish && left > 0 {
            *share += 1;
            left -= 1;
        }
    }
    output
}

/// Up to four tunnels with wishes up to five, and slices past all of them.
#[test]
fn every_small_slice() {
    for tunnels in 1..=4u32 {
        for all in 0..6u64.pow(tunnels) {
            let wishes: Vec<u64> = (0..tunnels).map(|place| all / 6u64.pow(place) % 6).collect();
            for slice in 0..=wishes.iter().sum::<u64>() + 2 {
                assert_eq!(given(slice, &wishes), handed_out(slice, &wishes), "{slice} for {wishes:?}");
            }
        }
    }
}

#[test]
fn as_many_tunnels_and_cycles_as_there_can_be() {
    assert_eq!(given(65, &[2; MAX_TUNNELS]), [&[2][..], &[1; 63]].concat());
    assert_eq!(given(MAX_CYCLES, &[MAX_CYCLES; MAX_TUNNELS]), [MAX_CYCLES / 64; 64]);
    assert_eq!(given(MAX_CYCLES, &[5, MAX_CYCLES, MAX_CYCLES]), [5, 733_007_751_846, 366_503_875_925]);
    assert_eq!(given(MAX_CYCLES, &[MAX_CYCLES]), [MAX_CYCLES]);
    assert_eq!(given(0, &[MAX_CYCLES, 0]), [0, 0]);
}

#[test]
fn codes_and_refusals() {
    assert_eq!(SharesRefusal::ALL.map(SharesRefusal::code), [18, 19]);
    for refusal in SharesRefusal::ALL {
        assert_eq!(SharesRefusal::of_code(refusal.code()), Some(refusal));
        assert!(!refusal.to_string().is_empty());
    }
    assert_eq!([18, 19].map(SharesRefusal::of_code), [SharesRefusal::BadTunnels, SharesRefusal::BadWish].map(Some));
    assert_eq!([0, 17, 20].map(SharesRefusal::of_code), [None; 3]);
}

/// The number, 18 before 19, and an output that stays.
#[test]
fn refused() {
    let most = MAX_CYCLES;
    for (slice, wishes, places, why) in [
        (10, vec![], 0, SharesRefusal::BadTunnels),
        (10, vec![], 1, SharesRefusal::BadTunnels),
        (10, vec![5; 65], 65, SharesRefusal::BadTunnels),
        (10, vec![5; 1_000], 1_000, SharesRefusal::BadTunnels),
        (10, vec![5, 6], 1, SharesRefusal::BadTunnels),
        (10, vec![5, 6], 3, SharesRefusal::BadTunnels),
        (10, vec![5, 6], 0, SharesRefusal::BadTunnels),
        (most + 1, vec![5, 6], 2, SharesRefusal::BadWish),
        (u64::MAX, vec![5, 6], 2, SharesRefusal::BadWish),
        (10, vec![most + 1, 6], 2, SharesRefusal::BadWish),
        (10, vec![5, most + 1], 2, SharesRefusal::BadWish),
        (10, vec![u64::MAX; 64], 64, SharesRefusal::BadWish),
        (most + 1, vec![], 0, SharesRefusal::BadTunnels),
        (10, vec![most + 1], 2, SharesRefusal::BadTunnels),
        (most + 1, vec![u64::MAX; 65], 65, SharesRefusal::BadTunnels),
    ] {
        let before: Vec<u64> = (7..).take(places).collect();
        let mut output = before.clone();
        assert_eq!(shares(slice, &wishes, &mut output), Err(why), "{slice} for {wishes:?}, {places} places");
        assert_eq!(output, before);
    }
}

fn scheduler(slice: u64, threads: usize) -> Scheduler {
    Scheduler { slice: NonZeroU64::new(slice).unwrap(), threads: NonZeroUsize::new(threads).unwrap() }
}

/// A device that sends and receives, with its pins held, up to a cycle.
#[derive(Clone, PartialEq, Debug)]
struct Line {
    device: Device,
    pins: u8,
    until: u64,
    /// The shares that it was advanced by.
    shares: Vec<u64>,
}

impl Tunnel for Line {
    fn wish(&self) -> u64 {
        self.until - self.device.cycle
    }

    fn advance(&mut self, cycles: u64) {
        assert!(cycles > 0 && cycles <= self.wish(), "{cycles} cycles");
        self.device.jump(self.pins, cycles).unwrap();
        self.shares.push(cycles);
    }
}

/// Devices in different phases of a frame, each up to another cycle; every third is done before the first slice.
fn lines(count: usize) -> Vec<Line> {
    let line = |number: usize| {
        let mut device = Device::reset([51, 52][number % 2]).unwrap();
        let setup =
            [(address::TMOD, 0x21), (address::TH1, 0xF8 + (number % 8) as u8), (address::SCON, 0x50), (address::TCON, 0x50)];
        for (address, value) in setup.into_iter().chain([(address::SBUF, number as u8)]) {
            device.write(address, value).unwrap();
        }
        device.jump(PINS_HIGH, number as u64).unwrap();
        let pins = if number % 4 == 0 { PINS_HIGH & !pin::RXD } else { PINS_HIGH };
        let until = device.cycle + if number % 3 == 2 { 0 } else { 400 + 7 * number as u64 };
        Line { device, pins, until, shares: Vec::new() }
    };
    (0..count).map(line).collect()
}

/// Every device ends as single cycles leave it, whatever the slice and the threads; and its shares are those of the wishes at each slice.
#[test]
fn devices_end_as_by_single_cycles() {
    for count in [1, 2, 11, MAX_TUNNELS] {
        let before = lines(count);
        let mut single: Vec<Device> = before.iter().map(|line| line.device).collect();
        for (device, Line { pins, until, .. }) in single.iter_mut().zip(&before) {
            while device.cycle < *until {
                device.cycle(*pins).unwrap();
            }
        }
        for slice in [1, 7, 64, 100, 1_000, 5_000, MAX_CYCLES] {
            let mut wishes: Vec<u64> = before.iter().map(Line::wish).collect();
            let mut expected: Vec<Vec<u64>> = vec![Vec::new(); count];
            let mut slices = 0;
            while wishes.iter().any(|wish| *wish > 0) {
                let given = given(slice, &wishes);
                for ((wish, shares), share) in wishes.iter_mut().zip(&mut expected).zip(given) {
                    *wish -= share;
                    shares.extend((share > 0).then_some(share));
                }
                slices += 1;
            }
            for threads in [1, 2, 3, 100] {
                let mut lines = before.clone();
                let mut calls = 0;
                let ran = scheduler(slice, threads).run(&mut lines, |lines| {
                    assert_eq!(lines.len(), count);
                    calls += 1;
                });
                assert_eq!((ran, calls), (Ok(slices), slices), "{count} devices, slices of {slice}, {threads} threads");
                assert_eq!(lines.iter().map(|line| line.device).collect::<Vec<Device>>(), single);
                assert_eq!(lines.into_iter().map(|line| line.shares).collect::<Vec<Vec<u64>>>(), expected);
            }
        }
    }
}

/// One slice, and none where nobody wishes.
#[test]
fn one_slice() {
    let mut lines = lines(3);
    assert_eq!(scheduler(100, 1).slice(&mut lines), Ok(100));
    assert_eq!(lines.iter().map(|line| line.shares.clone()).collect::<Vec<Vec<u64>>>(), [vec![67], vec![33], vec![]]);
    assert_eq!(scheduler(MAX_CYCLES, 2).slice(&mut lines), Ok(400 + 407 - 100));
    assert_eq!(scheduler(MAX_CYCLES, 2).slice(&mut lines), Ok(0));
    assert_eq!(scheduler(MAX_CYCLES, 2).run(&mut lines, |_| panic!("no slice")), Ok(0));
}

/// No tunnel is advanced.
#[test]
fn a_slice_that_is_refused() {
    struct Greedy(u64);
    impl Tunnel for Greedy {
        fn wish(&self) -> u64 {
            self.0
        }
        fn advance(&mut self, _: u64) {
            panic!("advanced");
        }
    }
    for threads in [1, 4] {
        let refused = |slice: u64, wishes: &[u64]| {
            let mut tunnels: Vec<Greedy> = wishes.iter().map(|wish| Greedy(*wish)).collect();
            let scheduler = scheduler(slice, threads);
            (scheduler.slice(&mut tunnels), scheduler.run(&mut tunnels, |_| panic!("a slice")))
        };
        let [tunnels, wish] = [SharesRefusal::BadTunnels, SharesRefusal::BadWish].map(|why| (Err(why), Err(why)));
        assert_eq!(refused(100, &[]), tunnels);
        assert_eq!(refused(100, &[1; 65]), tunnels);
        assert_eq!(refused(MAX_CYCLES + 1, &[1]), wish);
        assert_eq!(refused(100, &[1, MAX_CYCLES + 1]), wish);
    }
}

/// With as many threads as tunnels each is advanced by its own: they wait for one another.
#[test]
fn tunnels_on_threads_of_their_own() {
    struct Meets<'a>(&'a Barrier, Option<thread::ThreadId>);
    impl Tunnel for Meets<'_> {
        fn wish(&self) -> u64 {
            u64::from(self.1.is_none())
        }
        fn advance(&mut self, _: u64) {
            self.0.wait();
            self.1 = Some(thread::current().id());
        }
    }
    let barrier = Barrier::new(3);
    let mut tunnels = [(); 3].map(|()| Meets(&barrier, None));
    assert_eq!(scheduler(3, 3).run(&mut tunnels, |_| ()), Ok(1));
    let [a, b, c] = tunnels.map(|tunnel| tunnel.1.expect("advanced"));
    assert!(a != b && b != c && a != c);
    assert!([a, b, c].contains(&thread::current().id()), "the caller's thread is one of them");
}

/// A tunnel that fails is not lost: the caller sees it.
#[test]
#[should_panic]
fn a_tunnel_that_fails() {
    struct Fails(bool);
    impl Tunnel for Fails {
        fn wish(&self) -> u64 {
            1
        }
        fn advance(&mut self, _: u64) {
            assert!(!self.0, "it fails");
        }
    }
    let _ = scheduler(10, 2).slice(&mut [Fails(false), Fails(true), Fails(false)]);
}
