//! Eleven stations side by side: prints each tag with its station and cycle, how often Timer 1 of each station lapped and how
//! many rounds its jumps took, and checks that every digit is the one sent. With `--save` it ends in the middle of a frame and
//! leaves a file from which `--load` goes on. With `--speed`, which is used alone, it prints SMOD and TH1 for a crystal and a
//! rate instead.
//! Exit status: 0 all as sent, or a speed found; 1 a wrong tag, or no speed within the tolerance; 2 a bad command line, a file
//! that cannot be written, or one that is no saved run.
use c51::Board;
use station::options::{Options, Save, USAGE};
use station::run::{Ran, Row, Run};
use station::{report, saved, speed, whole};
use std::fs::File;
use std::io::{ErrorKind, Write};
use std::path::Path;
use std::process::exit;
use std::time::Instant;

fn fail(status: i32, message: &str) -> ! {
    eprintln!("station: {message}");
    exit(status)
}

/// A file of the command line, opened before the run.
struct Output {
    name: String,
    file: File,
}

impl Output {
    fn create(name: String) -> Output {
        match File::create(&name) {
            Ok(file) => Output { name, file },
            Err(why) => fail(2, &format!("cannot write {name}: {why}")),
        }
    }

    fn write(mut self, text: &str) {
        if let Err(why) = self.file.write_all(text.as_bytes()) {
            fail(2, &format!("cannot write {}: {why}", self.name));
        }
    }
}

fn print(text: &str) {
    match std::io::stdout().write_all(text.as_bytes()) {
        Err(why) if why.kind() != ErrorKind::BrokenPipe => fail(2, &format!("cannot print: {why}")),
        _ => {}
    }
}

/// The saved run of a file.
fn load(name: &str) -> Run<Board> {
    let bytes = File::open(name).and_then(saved::read);
    let bytes = bytes.unwrap_or_else(|why| fail(2, &format!("cannot read {name}: {why}")));
    Run::load(&bytes).unwrap_or_else(|what| fail(2, &format!("cannot go on from {name}: {what}")))
}

/// Saves the run in the middle of a frame.
fn save(run: &mut Run<Board>, file: &str) -> Result<(), String> {
    let station = run.stop_in_a_frame().number;
    whole::replace(Path::new(file), &run.save()).map_err(|why| format!("cannot write {file}: {why}"))?;
    eprintln!("{} of {} tags, saved to {file} in the middle of a frame of station {station}", run.rows.len(), run.plan.tags);
    Ok(())
}

fn main() {
    let words = std::env::args_os().skip(1).map(|word| word.to_string_lossy().into_owned());
    let options = Options::parse(words).unwrap_or_else(|why| fail(2, &format!("{why}\n{USAGE}")));
    if options.help {
        return print(&format!("{USAGE}\n"));
    }
    if let Some(wanted) = options.speed {
        print(&speed::report(&wanted));
        exit(if wanted.found().is_some() { 0 } else { 1 });
    }
    let mut run = match &options.load {
        Some(name) => load(name),
        None => Run::new(options.plan.clone()),
    };
    options.fit(&run.plan, run.rows.len() as u64).unwrap_or_else(|why| fail(2, &format!("{why}\n{USAGE}")));
    if let Some(Save { file, .. }) = &options.save {
        whole::can_replace(Path::new(file)).unwrap_or_else(|why| fail(2, &format!("cannot write {file}: {why}")));
    }
    let csv = options.csv.map(Output::create);
    let vcd = options.vcd.map(Output::create);
    if vcd.is_some() {
        run.draw(options.vcd_station);
    }
    let tags = run.plan.tags;
    let start = Instant::now();
    run.read(options.save.as_ref().map_or(tags, |save| save.after), |done| {
        if done == tags || done % tags.div_ceil(10) == 0 {
            eprintln!("{done} of {tags} tags, {:.1} s", start.elapsed().as_secs_f64());
        }
    });
    let saved = options.save.map_or(Ok(()), |Save { file, .. }| save(&mut run, &file));
    let Ran { rows, laps, waveform } = run.end();
    print(&report::table(&rows, &laps));
    if let Some(csv) = csv {
        csv.write(&report::csv(&rows));
    }
    if let (Some(vcd), Some(waveform)) = (vcd, waveform) {
        vcd.write(waveform.text());
    }
    saved.unwrap_or_else(|why| fail(2, &why));
    if !rows.iter().all(Row::right) {
        fail(1, "a tag is not the one sent");
    }
}
