//! The call that asks for a speed, which meets no chip: as a line's numbers, as text, and as it is made and answered.
use c51::raw::c51_speed;
use std::fmt;
use std::io::{Result, Write};

/// The call with its arguments.
#[derive(Clone, Copy, PartialEq, Debug)]
pub struct SpeedCall {
    pub crystal: u64,
    pub rate: u64,
    pub tolerance: u64,
}

impl SpeedCall {
    /// Makes the call, and writes its code and the pair with its rate, or `none`.
    pub fn answer(&self, out: &mut impl Write) -> Result<()> {
        let a = c51_speed(self.crystal, self.rate, self.tolerance);
        match (a.code, a.found) {
            (0, 0) => writeln!(out, "0 none"),
            _ => writeln!(out, "{} {} {} {}", a.code, a.smod, a.th1, a.achieved),
        }
    }
}

impl fmt::Display for SpeedCall {
    fn fmt(&self, f: &mut fmt::Formatter) -> fmt::Result {
        write!(f, "B {} {} {}", self.crystal, self.rate, self.tolerance)
    }
}
