//! Stations that read tags: each an 80C52 at 11.0592 MHz whose serial port receives 9600 baud in mode 1, clocked by Timer 1,
//! and which sleeps in idle until a byte is there. Two of them have an 82C53 beside it.
pub mod chips;
pub mod frame;
pub mod options;
pub mod reader;
pub mod report;
pub mod run;
pub mod saved;
pub mod speed;
pub mod timing;
pub mod vcd;
pub mod whole;
