//! The reader of checkpoints beside the model's, on files of random devices and on what is made of them: every change of one byte, every
//! cut, bytes left over, faults of several kinds at once, and random bytes. Each load is compared in its code and in every field of
//! the record, and a file that passes is written again. The writer likewise, on raw records.
use c51::{raw, Device, Receiver, Sender, CHECKPOINT_51, CHECKPOINT_52};
use compare::files::{compare_load, compare_save, file_of, sections, some_file, Loads};
use compare::lists::{good_record, raw_record};
use compare::record::to_model;
use random::Rng;

/// Files of each kind of which every byte is changed; devices and files of the other tests.
const FILES: u64 = 5;
const DEVICES: u64 = 40;
const RANDOM: u64 = 200_000;

/// A load on both; what differs is told with the file.
fn load(file: &[u8], loads: &mut Loads) {
    let (answer, _) = compare_load(file).unwrap_or_else(|what| panic!("{}\n{what}", replay::checkpoint::Hex(file)));
    loads.add(answer.code);
}

/// A random device of a kind that is accepted.
fn device(rng: &mut Rng, kind: u8) -> Device {
    loop {
        let device = good_record(rng);
        if device.kind == kind {
            return device;
        }
    }
}

/// Files of random devices of both kinds, so many of each.
fn files(seed: u64, of_a_kind: u64) -> Vec<Vec<u8>> {
    let part = |number: u64| [51, 52].map(|kind| file_of(&device(&mut Rng::part(seed + u64::from(kind), number), kind)));
    (0..of_a_kind).flat_map(part).collect()
}

/// None of the four is rare: each makes up at least one of so many.
fn all_are_common(loads: &Loads, one_in: u64) {
    let all: u64 = loads.counts().iter().sum();
    assert!(loads.counts().iter().all(|&count| count >= all / one_in), "{loads:?}");
    println!("{loads:?}");
}

#[test]
fn every_change_of_one_byte() {
    let mut loads = Loads::default();
    let files = files(100, FILES);
    for file in &files {
        load(file, &mut loads);
        let mut changed = file.clone();
        for at in 0..file.len() {
            for byte in (0..=255).filter(|&byte| byte != file[at]) {
                changed[at] = byte;
                load(&changed, &mut loads);
            }
            changed[at] = file[at];
        }
    }
    let bytes = FILES as usize * (CHECKPOINT_51 + CHECKPOINT_52);
    assert_eq!(loads.counts().iter().sum::<u64>(), (files.len() + 255 * bytes) as u64);
    let Loads { passed, bad_length, bad_layout, bad_value } = loads;
    assert_eq!(bad_length, 0, "no byte alone makes a file longer or shorter");
    assert!([passed, bad_layout, bad_value].iter().all(|&count| count > 5_000), "{loads:?}");
    println!("{loads:?}");
}

/// Also of files with a change or two, which a cut may come before or after.
#[test]
fn every_cut() {
    let mut loads = Loads::default();
    for (number, file) in files(200, DEVICES).into_iter().enumerate() {
        let mut rng = Rng::part(201, number as u64);
        let mut changed = file.clone();
        for _ in 0..2 {
            changed[rng.below(file.len() as u64) as usize] = rng.byte();
        }
        for length in 0..=file.len() {
            load(&file[..length], &mut loads);
            load(&changed[..length], &mut loads);
        }
    }
    assert!(loads.counts().iter().all(|&count| count > 20), "{loads:?}");
    println!("{loads:?}");
}

/// Of any length up to that of another file, and longer ones; what is left over may be any bytes, also those of a file.
#[test]
fn bytes_left_over() {
    let mut loads = Loads::default();
    for (number, file) in files(300, DEVICES).into_iter().enumerate() {
        let mut rng = Rng::part(301, number as u64);
        let mut longer = file.clone();
        for _ in 0..320 {
            longer.push(rng.byte());
            load(&longer, &mut loads);
        }
        load(&[&file[..], &file].concat(), &mut loads);
        load(&[&file[..], &[0; 100_000]].concat(), &mut loads);
        assert_eq!(loads.bad_length, loads.counts().iter().sum::<u64>(), "each is refused by 15");
        // a fault before what is left over decides
        longer[2 + 2 * rng.below(8) as usize - 1] ^= 0x40;
        let mut faulty = Loads::default();
        load(&longer, &mut faulty);
        assert_eq!(faulty.bad_layout, 1);
    }
}

#[test]
fn faults_of_every_kind() {
    let mut loads = Loads::default();
    for seed in 0..RANDOM {
        load(&some_file(&mut Rng::part(400, seed)), &mut loads);
    }
    all_are_common(&loads, 20);
}

/// Bytes from some place on at random, counts and addresses as they have to be or not.
#[test]
fn random_bytes() {
    let mut loads = Loads::default();
    for seed in 0..RANDOM {
        let rng = &mut Rng::part(500, seed);
        let kind = rng.pick(&[51, 52]);
        let mut file = file_of(&device(rng, kind));
        let whole = file.len();
        file.resize(rng.pick(&[whole, whole, whole + 1, 320, 600]), 0);
        let from = rng.below(file.len() as u64 + 1) as usize;
        let kept = file.clone();
        file[from..].iter_mut().for_each(|byte| *byte = rng.byte() & rng.pick(&[0xFF, 0x0F, 1, 1, 0]));
        if rng.one_in(2) {
            // the layout again, so that values are met
            let (hidden, times) = sections(whole);
            let layout = (1..hidden - 1).step_by(2).chain([0, hidden - 1, times - 1]);
            layout.for_each(|at| file[at] = kept[at]);
        }
        load(&file, &mut loads);
        load(&file[..rng.below(file.len() as u64 + 1) as usize], &mut loads);
        let any: Vec<u8> = (0..rng.below(400)).map(|_| rng.byte()).collect();
        load(&any, &mut loads);
    }
    assert!(loads.counts().iter().all(|&count| count > RANDOM / 200), "{loads:?}");
    println!("{loads:?}");
}

/// Each hidden field with every value of two bytes, and with one bit beside its value.
#[test]
fn values_of_two_bytes() {
    let mut loads = Loads::default();
    for file in files(600, 1) {
        let (hidden, _) = sections(file.len());
        for field in 0..25 {
            let at = hidden + 8 * field;
            let mut changed = file.clone();
            for value in 0..=u16::MAX {
                changed[at..at + 2].copy_from_slice(&value.to_le_bytes());
                load(&changed, &mut loads);
            }
            for bit in 0..64 {
                let mut changed = file.clone();
                changed[at + bit / 8] ^= 1 << (bit % 8);
                load(&changed, &mut loads);
            }
        }
    }
    assert!(loads.passed > 2 * 65_536 && loads.bad_value > 40 * 65_536, "{loads:?}");
    println!("{loads:?}");
}

/// Both positions with every SCON.
#[test]
fn positions_in_every_mode() {
    let mut loads = Loads::default();
    for mut file in files(700, 1) {
        let (hidden, _) = sections(file.len());
        for scon in 0..=255 {
            for (send, receive) in (0..=13).flat_map(|send| (0..=13).map(move |receive| (send, receive))) {
                (file[16], file[hidden], file[hidden + 24]) = (scon, send, receive);
                load(&file, &mut loads);
            }
        }
    }
    assert_eq!(loads.passed, 2 * 128 * (11 * 11 + 12 * 12), "{loads:?}");
}

/// The writer on raw records, in buffers of several lengths, and in one of any.
#[test]
fn saves() {
    let mut codes = [0; 18];
    for seed in 0..RANDOM / 2 {
        let rng = &mut Rng::part(800, seed);
        let device = raw_record(rng);
        let code = compare_save(&device, &to_model(&device)).unwrap_or_else(|what| panic!("record {seed}: {what}"));
        codes[usize::from(code)] += 1;
        let mut buffer = vec![0x3C; rng.below(400) as usize];
        let code = raw::save(device, &mut buffer);
        assert_eq!(code == 0, device.accepts() && buffer.len() == device.checkpoint_length(), "record {seed}");
        assert!(code == 0 || buffer.iter().all(|&byte| byte == 0x3C), "record {seed}");
        codes[usize::from(code)] += 1;
    }
    assert!([0, 1, 15].iter().all(|&code| codes[code] > RANDOM / 10) && codes.iter().sum::<u64>() == RANDOM, "{codes:?}");
}

/// A difference between the two devices is found by a save.
#[test]
fn differences_are_found() {
    let given = device(&mut Rng::new(900), 52);
    let changes: [fn(&mut Device); 4] = [
        |d| d.levels.swap(0, 6),
        |d| d.cycle = d.cycle.swap_bytes(),
        |d| d.serial.send = Sender { value: d.serial.send.value ^ 0x100, ..d.serial.send },
        |d| d.serial.receive = Receiver { sample: 1 - d.serial.receive.sample, ..d.serial.receive },
    ];
    for change in changes {
        let mut other = Device { levels: [1, 0, 0, 0, 0, 0, 0], cycle: 0x1234, ..given };
        let model = to_model(&other);
        assert_eq!(compare_save(&other, &model), Ok(0));
        change(&mut other);
        assert!(compare_save(&other, &model).is_err());
    }
}
