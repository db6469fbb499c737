//! A whole script: its lines are taken as they come, calls of the chip one after the other run as a list, and each line
//! is answered.
use crate::answers::write_answer;
use crate::calls::Request;
use crate::lines::Line;
use crate::list::List;
use crate::{checkpoint, record};
use c51::{Board, Device, Interval};
use std::fmt;
use std::io::{self, BufWriter, ErrorKind, Read, Write};

/// The bytes that are read at once, and the bytes of answers that wait to be written.
const AT_ONCE: usize = 1 << 16;

/// Why a script is not answered to its end.
#[derive(Debug)]
pub enum Failure {
    Read(io::Error),
    Write(io::Error),
}

impl fmt::Display for Failure {
    fn fmt(&self, f: &mut fmt::Formatter) -> fmt::Result {
        match self {
            Failure::Read(why) => write!(f, "the script cannot be read: {why}"),
            Failure::Write(why) => write!(f, "the answers cannot be written: {why}"),
        }
    }
}

impl std::error::Error for Failure {}

/// Reads a script to its end and writes the answer to each line. All that was read is answered before more is read, so
/// that a person at a terminal sees each answer.
pub fn replay(mut input: impl Read, output: impl Write) -> Result<(), Failure> {
    let mut replay = Replay::new(output);
    let mut bytes = vec![0; AT_ONCE];
    loop {
        match input.read(&mut bytes) {
            Ok(0) => return replay.end().map_err(Failure::Write),
            Ok(count) => replay.take(&bytes[..count]).map_err(Failure::Write)?,
            Err(why) if why.kind() == ErrorKind::Interrupted => {}
            Err(why) => return Err(Failure::Read(why)),
        }
    }
}

/// A script so far.
struct Replay<W: Write> {
    /// Before the first reset, load or put the device is the record of zeros; the 82C53 starts as its reset leaves it.
    board: Board,
    line: Line,
    /// The lines that have ended.
    lines: u64,
    list: List,
    out: BufWriter<W>,
}

impl<W: Write> Replay<W> {
    fn new(output: W) -> Replay<W> {
        Replay {
            board: Board { device: Device::default(), interval: Interval::reset() },
            line: Line::default(),
            lines: 0,
            list: List::default(),
            out: BufWriter::with_capacity(AT_ONCE, output),
        }
    }

    /// Takes some bytes of the script, and answers every line that ends in them.
    fn take(&mut self, bytes: &[u8]) -> io::Result<()> {
        for part in bytes.split_inclusive(|&byte| byte == b'\n') {
            match part {
                [line @ .., b'\n'] => {
                    self.line.take(line);
                    self.end_line()?;
                }
                _ => self.line.take(part),
            }
        }
        self.answer()
    }

    /// Ends the script: a last line with no newline is a line.
    fn end(&mut self) -> io::Result<()> {
        if self.line.is_begun() {
            self.end_line()?;
        }
        self.answer()
    }

    fn end_line(&mut self) -> io::Result<()> {
        self.lines += 1;
        match self.line.end() {
            Some(Request::Call(call)) => {
                self.list.push(&call);
                if self.list.is_full() {
                    self.run_list()?;
                }
                Ok(())
            }
            Some(Request::Board(call)) => {
                self.run_list()?;
                call.answer(&mut self.board, &mut self.out)
            }
            Some(Request::Speed(call)) => {
                self.run_list()?;
                call.answer(&mut self.out)
            }
            Some(Request::Save) => {
                self.run_list()?;
                checkpoint::save(&self.board.device, &mut self.out)
            }
            Some(Request::Load(file)) => {
                self.run_list()?;
                checkpoint::load(&mut self.board.device, &file, &mut self.out)
            }
            Some(Request::Put(device)) => {
                self.run_list()?;
                self.board.device = *device;
                writeln!(self.out, "0 0")
            }
            Some(Request::Dump) => {
                self.run_list()?;
                writeln!(self.out, "{}", record::text(&self.board.device))
            }
            None => {
                self.run_list()?;
                writeln!(self.out, "? {}", self.lines)
            }
        }
    }

    /// Runs the calls that wait, and answers each.
    fn run_list(&mut self) -> io::Result<()> {
        self.list.run(&mut self.board.device).try_for_each(|(call, row)| write_answer(&mut self.out, call, row))
    }

    /// Answers all that was asked.
    fn answer(&mut self) -> io::Result<()> {
        self.run_list()?;
        self.out.flush()
    }
}
