//! Checkpoints in a script: the file of a line `Q` as it is read, a file as text, and both calls as they are made and answered.
use crate::calls::Request;
use c51::{raw, Device, CHECKPOINT_52};
use std::fmt;
use std::io::{Result, Write};

/// The name of the line that loads a checkpoint.
pub const LOAD: &[u8] = b"Q";

/// The bytes of a file that are kept: one more than the longest checkpoint has. Those past them are left over, whatever they are, and
/// are judged last.
pub const KEPT: usize = CHECKPOINT_52 + 1;

/// The file of a line so far.
#[derive(Default)]
pub struct File {
    bytes: Vec<u8>,
    /// The high digit of a byte whose low one is still to come.
    high: Option<u8>,
}

impl File {
    /// One hexadecimal digit more.
    pub fn push(&mut self, digit: u8) {
        match self.high.take() {
            None => self.high = Some(digit),
            Some(high) if self.bytes.len() < KEPT => self.bytes.push(high << 4 | digit),
            Some(_) => {}
        }
    }

    /// The call that loads it, or none where a digit is left over.
    pub fn request(&self) -> Option<Request> {
        self.high.is_none().then(|| Request::Load(self.bytes.clone()))
    }

    pub fn clear(&mut self) {
        self.bytes.clear();
        self.high = None;
    }
}

/// Bytes as pairs of hexadecimal digits.
pub struct Hex<'a>(pub &'a [u8]);

impl fmt::Display for Hex<'_> {
    fn fmt(&self, f: &mut fmt::Formatter) -> fmt::Result {
        self.0.iter().try_for_each(|byte| write!(f, "{byte:02x}"))
    }
}

/// Saves a device, and writes the code and the file, or a 0 in its place.
pub fn save(device: &Device, out: &mut impl Write) -> Result<()> {
    let mut file = [0; CHECKPOINT_52];
    let file = &mut file[..device.checkpoint_length()];
    match raw::save(*device, file) {
        0 => writeln!(out, "0 {}", Hex(file)),
        code => writeln!(out, "{code} 0"),
    }
}

/// Loads a file in place of a device, refused the record of zeros, and writes the code.
pub fn load(device: &mut Device, file: &[u8], out: &mut impl Write) -> Result<()> {
    let a = raw::load(file);
    *device = a.device;
    writeln!(out, "{} 0", a.code)
}
