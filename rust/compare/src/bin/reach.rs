//! Reads a call script and writes it with the calls shortened that are out of reach of the comparison.
//! Exit status: 0, or 2 for an argument, a script that is no text, or a failed write.
use compare::reach::script_in_reach;
use std::io::{Read, Write};
use std::process::exit;

const USAGE: &str = "usage: reach <SCRIPT
  reads a call script on standard input, follows it with the model, and writes it with only those jumps, look aheads,
  wake looks and trace entries shortened that take too many cycles or pulses before the chip or the 82C53 rests
  --help  print this";

fn fail(message: &str) -> ! {
    eprintln!("reach: {message}");
    exit(2)
}

fn main() {
    match std::env::args().nth(1).as_deref() {
        None => {}
        Some("--help") => return println!("{USAGE}"),
        Some(word) => fail(&format!("unknown option {word}\n{USAGE}")),
    }
    let mut text = String::new();
    if let Err(why) = std::io::stdin().read_to_string(&mut text) {
        fail(&format!("the script cannot be read: {why}"));
    }
    if let Err(why) = std::io::stdout().write_all(script_in_reach(&text).as_bytes()) {
        fail(&format!("cannot write: {why}"));
    }
}
