//! Answers a call script: reads it on standard input and writes the answer to each line on standard output.
//! Exit status: 0, or 2 for an argument, a script that cannot be read or answers that cannot be written.
use replay::script::replay;
use std::fs::File;
use std::io::{stderr, stdin, stdout, Result, Write};
use std::os::fd::AsFd;
use std::process::ExitCode;

const USAGE: &str = "usage: replay <SCRIPT
  reads a call script on standard input, and writes the answer to each line on standard output
  --help  print this";

/// A standard stream as a file: the stream itself takes one that is not open for reading as empty, and one that is not
/// open for writing as written.
fn file(stream: impl AsFd) -> Result<File> {
    Ok(stream.as_fd().try_clone_to_owned()?.into())
}

fn run() -> std::result::Result<(), String> {
    let words: Vec<String> = std::env::args_os().skip(1).map(|word| word.to_string_lossy().into_owned()).collect();
    let input = file(stdin()).map_err(|why| format!("no standard input: {why}"))?;
    let mut output = file(stdout()).map_err(|why| format!("no standard output: {why}"))?;
    match words.iter().map(String::as_str).collect::<Vec<&str>>()[..] {
        [] => replay(input, output).map_err(|failure| failure.to_string()),
        ["--help"] => writeln!(output, "{USAGE}").map_err(|why| format!("cannot print: {why}")),
        _ => Err(format!("unknown options '{}'\n{USAGE}", words.join(" "))),
    }
}

fn main() -> ExitCode {
    match run() {
        Ok(()) => ExitCode::SUCCESS,
        Err(message) => {
            // Where that fails too there is nobody to tell.
            let _ = writeln!(stderr(), "replay: {message}");
            ExitCode::from(2)
        }
    }
}
