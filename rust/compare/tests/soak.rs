//! The soak program: a small one, its seed, and its bad options.
use std::process::{Command, Output};

fn soak(line: &str) -> Output {
    Command::new(env!("CARGO_BIN_EXE_soak")).args(line.split_whitespace()).output().expect("the program runs")
}

#[test]
fn a_small_soak() {
    let ran = soak("--cycles 100000 --records 500 --speeds 2500 --seed 3");
    let out = String::from_utf8(ran.stdout).expect("text");
    assert!(ran.status.success(), "{out}");
    assert!(out.starts_with("seed 3\n500 raw records in 11000 calls, ") && out.ends_with(" s: no difference\n"), "{out}");
    let between = |before: &str, after: char| -> Vec<u64> {
        let (_, rest) = out.split_once(before).expect("what stands before");
        let (numbers, _) = rest.split_once(after).expect("what stands after");
        numbers.split([' ', ',']).filter_map(|word| word.parse().ok()).collect()
    };
    let overflowed = between("runs with overflows of Timers 0, 1, 2: ", ';');
    assert!(overflowed.len() == 3 && overflowed.iter().all(|&count| count > 20), "{out}");
    let rounds = between("jumps of one round and of more: ", ';');
    assert!(rounds.len() == 2 && rounds.iter().all(|&count| count > 100), "{out}");
    let loads = between(" saves, loads passed and refused by 15, 16, 17: ", ';');
    assert!(loads.len() == 4 && loads.iter().all(|&count| count > 20), "{out}");
    let counts = between(" 2500 speeds (", ')');
    assert!(counts.len() == 3 && counts.iter().sum::<u64>() == 2_500 && counts.iter().all(|&count| count > 100), "{out}");
}

#[test]
fn help() {
    let ran = soak("--help");
    assert!(ran.status.success() && ran.stdout.starts_with(b"usage: soak"));
}

#[test]
fn bad_options() {
    for (line, message) in [("--hours 3", "unknown option --hours"), ("--seed", "--seed wants a number"), ("--cycles x", "not 'x'")]
    {
        let ran = soak(line);
        assert_eq!(ran.status.code(), Some(2), "{line}");
        let said = String::from_utf8_lossy(&ran.stderr).into_owned();
        assert!(said.contains(message) && said.contains("usage: soak"), "{said}");
    }
}
