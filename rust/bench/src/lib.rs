//! What the benchmark runs: the plain model as a station's chip, the tightest loop over the idle station's rounds, other programs, and
//! what an operator plans with.
pub mod others;
pub mod plain;
pub mod planning;
pub mod tight;
pub mod timing;
