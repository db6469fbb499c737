//! The tags that were read, as a table and as CSV, how often Timer 1 lapped, and how many rounds that took.
use crate::chips::CYCLES_A_SECOND;
use crate::run::{Laps, Row, DIGITS};
use crate::timing::{Time, LIMIT};
use std::collections::BTreeSet;

/// The time of a cycle in seconds.
fn seconds(cycle: u64) -> f64 {
    cycle as f64 / CYCLES_A_SECOND as f64
}

/// Cycles in milliseconds.
fn milliseconds(cycles: u64) -> String {
    format!("{:.3}", seconds(cycles) * 1e3)
}

/// The time of a tag in milliseconds, where the station has an 82C53.
fn time(row: &Row) -> String {
    match row.time {
        Some(Time::Took(cycles)) => milliseconds(cycles),
        Some(Time::NoEnd) => "no-end".to_string(),
        None => "-".to_string(),
    }
}

/// The cycle of a tag's last digit, where it has one.
fn last_digit(row: &Row) -> String {
    row.last_digit.map_or("-".to_string(), |cycle| cycle.to_string())
}

fn verdict(row: &Row) -> String {
    if row.right() {
        "as sent".to_string()
    } else {
        format!("WRONG: sent {}", row.sent)
    }
}

/// What a row of the CSV shows: station, cycle, seconds, tag, noisy samples, time by the 82C53, cycle of the last digit,
/// laps of Timer 1, verdict.
fn fields(row: &Row) -> [String; 9] {
    [
        row.station.to_string(),
        row.cycle.to_string(),
        format!("{:.6}", seconds(row.cycle)),
        row.tag.clone(),
        row.noisy_samples.to_string(),
        time(row),
        last_digit(row),
        row.timer1_laps.to_string(),
        verdict(row),
    ]
}

/// The tags, of which it leaves out the laps up to each, then the laps and rounds of each station in the run, and a summary.
pub fn table(rows: &[Row], laps: &[Laps]) -> String {
    let (cycle, seconds, tag) = ("cycle", "seconds", "tag");
    let mut text = format!("station {cycle:>16} {seconds:>14}  {tag:<15} noisy samples  ms by 82C53  last digit cycle  verdict\n");
    for row in rows {
        let [station, cycle, seconds, tag, noisy_samples, time, last_digit, _, verdict] = fields(row);
        text += &format!("{station:>7} {cycle:>16} {seconds:>14}  {tag:<15} {noisy_samples:>13}  {time:>11}  ");
        text += &format!("{last_digit:>16}  {verdict}\n");
    }
    let wrong = rows.iter().filter(|row| !row.right()).count();
    let noisy: u64 = rows.iter().map(|row| row.noisy_samples).sum();
    let woken: usize = rows.iter().map(|row| row.woken).sum();
    let (tags, digits) = (rows.len(), rows.len() * DIGITS);
    text += &lapped(laps);
    text += &timed(rows);
    text += &match wrong {
        0 => format!("{tags} tags, {digits} digits, all as sent"),
        _ => format!("{tags} tags, {wrong} of them WRONG"),
    };
    text += &format!("; {noisy} noisy samples; woken from idle {woken} times\n");
    text
}

/// A line for each station, under the first columns of the table: how often its Timer 1 overflowed, in which time, and how many rounds
/// its jumps took, in all and for a second of that time.
fn lapped(laps: &[Laps]) -> String {
    let mut text = format!("station {:>16} {:>14} {:>16} {:>16}\n", "Timer 1 laps", "in seconds", "jump rounds", "a second");
    for Laps { station, timer1, cycles, rounds } in laps {
        let seconds = seconds(*cycles);
        text += &format!("{station:>7} {timer1:>16} {seconds:>14.6} {rounds:>16} {:>16.0}\n", *rounds as f64 / seconds);
    }
    text
}

/// A line on the tags of the stations that have an 82C53, where there are any: the shortest and the longest time.
fn timed(rows: &[Row]) -> String {
    let stations: BTreeSet<usize> = rows.iter().filter(|row| row.time.is_some()).map(|row| row.station).collect();
    let names: Vec<String> = stations.iter().map(usize::to_string).collect();
    let took = |row: &Row| match row.time {
        Some(Time::Took(cycles)) => Some(cycles),
        _ => None,
    };
    let times: BTreeSet<u64> = rows.iter().filter_map(took).collect();
    let what = match (times.first(), times.last()) {
        (Some(&least), Some(&most)) => format!("took {} to {} ms", milliseconds(least), milliseconds(most)),
        _ => "had no end".to_string(),
    };
    let (station, limit) = (if names.len() == 1 { "station" } else { "stations" }, milliseconds(LIMIT.into()));
    match names.is_empty() {
        true => String::new(),
        false => format!("by the 82C53 of {station} {} a tag {what}, of {limit} ms allowed\n", names.join(" and ")),
    }
}

pub fn csv(rows: &[Row]) -> String {
    let mut text = String::from("station,cycle,seconds,tag,noisy_samples,ms_by_82c53,last_digit_cycle,timer1_laps,verdict\n");
    for row in rows {
        text += &fields(row).join(",");
        text += "\n";
    }
    text
}
