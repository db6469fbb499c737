//! Other programs that model the chip, on the idle station: s51 of Debian's sdcc-ucsim and emu8051-cli of Debian's emu8051.
use crate::timing::seconds;
use std::io::Write;
use std::path::Path;
use std::process::{Command, Stdio};

/// Seconds a cycle, or why there is no figure.
pub type Figure = Result<f64, String>;

/// The figure of a program that takes `time(n)` for `cycles(n)` cycles and its start: the slope between two lengths.
fn slope(short: u64, long: u64, cycles: impl Fn(u64) -> u64, time: impl Fn(u64) -> Result<f64, String>) -> Figure {
    let best = |n| {
        (0..2).map(|_| time(n)).collect::<Result<Vec<f64>, String>>().map(|times| times.into_iter().fold(f64::INFINITY, f64::min))
    };
    let (at_short, at_long) = (best(short)?, best(long)?);
    let figure = (at_long - at_short) / (cycles(long) - cycles(short)) as f64;
    if figure > 0.0 {
        Ok(figure)
    } else {
        Err("its times are too uneven for a figure".to_string())
    }
}

/// Runs a program over the text of its input and gives what it prints.
fn run(command: &mut Command, package: &str, input: &str) -> Result<String, String> {
    let child = command.stdin(Stdio::piped()).stdout(Stdio::piped()).stderr(Stdio::null()).spawn();
    let mut child = child.map_err(|_| format!("not installed (Debian package {package}), left out"))?;
    // A program that ends before it has read everything is judged by what it printed.
    let _ = child.stdin.take().expect("a pipe").write_all(input.as_bytes());
    let output = child.wait_with_output().map_err(|why| why.to_string())?;
    Ok(String::from_utf8_lossy(&output.stdout).into_owned())
}

/// s51 ticks its timers and serial port without executing instructions.
pub fn s51() -> Figure {
    let time = |cycles: u64| {
        let mut input = String::new();
        for (address, value) in station::reader::SETUP {
            input += &format!("set mem sfr {address} {value}\n");
        }
        input += &format!("tick {cycles}\nstate\nquit\n");
        let mut printed = Ok(String::new());
        let mut s51 = Command::new("s51");
        let time = seconds(|| printed = run(s51.args(["-t", "C52", "-X", "11.0592M", "-b", "-q"]), "sdcc-ucsim", &input));
        match printed?.contains(&format!("({} clks)", 12 * cycles)) {
            true => Ok(time),
            false => Err("it did not tick as asked, left out".to_string()),
        }
    };
    slope(1_000_000, 6_000_000, |cycles| cycles, time)
}

/// emu8051 has no way to tick without instructions: it runs a loop of DJNZ, and its figure includes executing them.
pub fn emu8051(scratch: &Path) -> Figure {
    let time = |laps: u64| {
        let file = scratch.join(format!("c51-bench-{}.hex", std::process::id()));
        std::fs::write(&file, hex(&idle_program(laps as u8))).map_err(|why| why.to_string())?;
        let mut printed = Ok(String::new());
        let mut emu8051 = Command::new("emu8051-cli");
        let stop = format!("--stop={STOP}");
        let time = seconds(|| printed = run(emu8051.arg(stop).arg(&file), "emu8051", ""));
        std::fs::remove_file(&file).map_err(|why| why.to_string())?;
        match printed?.contains("001B") {
            true => Ok(time),
            false => Err("it did not run as asked, left out".to_string()),
        }
    };
    slope(1, 6, |laps| laps * LAP, time)
}

/// Where the program ends, and the cycles of one lap of its outer loop.
const STOP: &str = "0x1B";
const LAP: u64 = 256 * (1 + 256 * 2 + 2) + 1 + 2;

/// Sets the idle station up and then counts `laps` laps down.
fn idle_program(laps: u8) -> Vec<u8> {
    vec![
        0x75, 0x89, 0x20, // MOV TMOD,#20
        0x75, 0x8D, 0xFD, // MOV TH1,#FD
        0x75, 0x8B, 0xFD, // MOV TL1,#FD
        0x75, 0x98, 0x50, // MOV SCON,#50
        0x75, 0x88, 0x40, // MOV TCON,#40
        0x7F, laps, // MOV R7,#laps
        0x7E, 0x00, // MOV R6,#0
        0x7D, 0x00, // MOV R5,#0
        0xDD, 0xFE, // DJNZ R5,itself
        0xDE, 0xFA, // DJNZ R6,MOV R5
        0xDF, 0xF6, // DJNZ R7,MOV R6
        0x00, // NOP
    ]
}

/// A program from address 0 as Intel hex.
fn hex(program: &[u8]) -> String {
    let mut text = String::new();
    for (row, bytes) in program.chunks(16).enumerate() {
        let mut record = vec![bytes.len() as u8, 0, 16 * row as u8, 0];
        record.extend(bytes);
        let sum = record.iter().fold(0u8, |sum, byte| sum.wrapping_sub(*byte));
        record.push(sum);
        text += ":";
        text.extend(record.iter().map(|byte| format!("{byte:02X}")));
        text += "\n";
    }
    text + ":00000001FF\n"
}

#[cfg(test)]
mod tests {
    use super::*;

    #[test]
    fn intel_hex() {
        assert_eq!(hex(&[0x75, 0x89, 0x20]), ":03000000758920DF\n:00000001FF\n");
        assert_eq!(hex(&idle_program(4)).lines().count(), 3);
        assert_eq!(idle_program(4).len(), 0x1B + 1, "the NOP stands where the program stops");
    }

    #[test]
    fn a_missing_program_is_named() {
        let why = run(&mut Command::new("no-such-program-here"), "its-package", "").unwrap_err();
        assert_eq!(why, "not installed (Debian package its-package), left out");
    }
}
