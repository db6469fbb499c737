//! The program: what it answers at once, how much memory it takes, its exit statuses and messages.
use replay::record::NUMBERS;
use std::fs::File;
use std::io::{BufRead, BufReader, Read, Write};
use std::process::{Child, ChildStdin, ChildStdout, Command, Output, Stdio};

fn replay() -> Command {
    let mut command = Command::new(env!("CARGO_BIN_EXE_replay"));
    command.stdin(Stdio::piped()).stdout(Stdio::piped()).stderr(Stdio::piped());
    command
}

/// Runs the program over a script.
fn run(script: &[u8]) -> Output {
    let mut child = replay().spawn().expect("the program runs");
    child.stdin.take().expect("a pipe").write_all(script).expect("the script is read");
    child.wait_with_output().expect("the program ends")
}

fn said(output: &Output) -> String {
    String::from_utf8_lossy(&output.stderr).into_owned()
}

#[test]
fn a_script() {
    let ran = run(b"R 52\nC 127\n\xFF\nO");
    assert_eq!((ran.status.code(), ran.stdout, ran.stderr), (Some(0), b"0 0\n0 1\n? 3\n0 none\n".to_vec(), vec![]));
    let ran = run(b"");
    assert_eq!((ran.status.code(), ran.stdout, ran.stderr), (Some(0), vec![], vec![]));
}

/// A program under way, asked line by line.
struct Session {
    child: Child,
    input: ChildStdin,
    answers: BufReader<ChildStdout>,
}

impl Session {
    fn start() -> Session {
        let mut child = replay().spawn().expect("the program runs");
        let input = child.stdin.take().expect("a pipe");
        let answers = BufReader::new(child.stdout.take().expect("a pipe"));
        Session { child, input, answers }
    }

    fn send(&mut self, bytes: &[u8]) {
        self.input.write_all(bytes).expect("the script is read");
    }

    fn answer(&mut self) -> String {
        let mut line = String::new();
        self.answers.read_line(&mut line).expect("an answer");
        line
    }

    /// It has taken little memory so far, where the system tells how much.
    fn check_memory(&self, after: &str) {
        let status = std::fs::read_to_string(format!("/proc/{}/status", self.child.id())).unwrap_or_default();
        let Some(peak) = status.lines().find_map(|line| line.strip_prefix("VmHWM:")) else { return };
        let kilobytes: u64 = peak.trim().trim_end_matches(" kB").parse().expect("a number");
        assert!(kilobytes < 8 * 1024, "{kilobytes} kB after {after}");
    }

    fn end(self) {
        let Session { mut child, input, mut answers } = self;
        drop(input);
        let mut rest = String::new();
        answers.read_to_string(&mut rest).expect("the end of the answers");
        assert_eq!((rest.as_str(), child.wait().expect("the program ends").code()), ("", Some(0)));
    }
}

#[test]
fn each_line_is_answered_at_once() {
    let mut session = Session::start();
    for (line, answer) in [
        ("R 52\n", "0 0\n"),
        ("x\n", "? 2\n"),
        ("O\n", "0 none\n"),
        ("L 127 5\n", "0 none\n"),
        ("VB 127 7\n", "0 1 0\n"),
        ("B 11059200 9600 50\n", "0 0 253 9600\n"),
        ("r 1\n", "3 0\n"),
        ("Q 0b\n", "15 0\n"),
        ("P\n", "1 0\n"),
    ] {
        session.send(line.as_bytes());
        assert_eq!(session.answer(), answer);
    }
    session.end();
}

/// Lines of tens of megabytes, each in no more memory than a short one but for the entries that are kept.
#[test]
fn very_long_lines() {
    const MEGABYTE: usize = 1 << 20;
    let mut session = Session::start();
    session.send(b"R 52\n");
    assert_eq!(session.answer(), "0 0\n");
    let entries = " 2130706433".repeat(MEGABYTE / 8);
    let [zeros, letters, numbers, files] = ["0", "x", " 1", "0b"].map(|word| word.repeat(MEGABYTE));
    let parts = 24;
    for (first, part, last, answer) in [
        (format!("T {}", parts * MEGABYTE / 8), &entries, "\n", "5 0 0 0 0\n"),
        (format!("T {}", parts * MEGABYTE / 8), &entries, " 1\n", "? 3\n"),
        (format!("T {}", parts * MEGABYTE / 8 + 1), &entries, " 4294967296\n", "? 4\n"),
        ("r ".to_string(), &zeros, "136\n", "0 0\n"),
        ("r 1".to_string(), &zeros, "\n", "? 6\n"),
        ("r 136".to_string(), &letters, "\n", "? 7\n"),
        (String::new(), &letters, "\n", "? 8\n"),
        ("S".to_string(), &numbers, "\n", "? 9\n"),
        ("Q ".to_string(), &files, "0\n", "? 10\n"),
        ("Q ".to_string(), &files, "x0\n", "? 11\n"),
        ("r 136".to_string(), &String::new(), "\n", "0 0\n"),
        ("Q ".to_string(), &files, "\n", "16 0\n"),
    ] {
        session.send(first.as_bytes());
        (0..parts).for_each(|_| session.send(part.as_bytes()));
        session.send(last.as_bytes());
        assert_eq!(session.answer(), answer, "{first} and {parts} megabytes");
        session.check_memory(&first);
    }
    session.end();
}

/// Answers many times as long as the script, in no more memory.
#[test]
fn very_many_answers() {
    const DUMPS: usize = 1 << 20;
    let mut session = Session::start();
    let Session { input, answers, .. } = &mut session;
    std::thread::scope(|scope| {
        scope.spawn(|| input.write_all(&b"D\n".repeat(DUMPS)).expect("the script is read"));
        let zeros = ["0"; NUMBERS].join(" ");
        // all of them are read, also where one differs: the program waits for it
        let dumps = answers.lines().take(DUMPS).filter(|answer| answer.as_ref().expect("an answer") == &zeros);
        assert_eq!(dumps.count(), DUMPS);
    });
    session.check_memory("many dumps");
    session.end();
}

#[test]
fn answers_that_cannot_be_written() {
    let Ok(full) = File::create("/dev/full") else { return };
    let mut child = replay().stdout(full).spawn().expect("the program runs");
    child.stdin.take().expect("a pipe").write_all(b"R 52\n").expect("the script is read");
    let ran = child.wait_with_output().expect("the program ends");
    assert_eq!(ran.status.code(), Some(2));
    assert!(said(&ran).starts_with("replay: the answers cannot be written: "), "{}", said(&ran));
}

/// A child of another test has the closed end too until it runs its program, so that first answers may still be written: calls go on
/// until one is not, which ends the program and with it their own pipe.
#[test]
fn a_pipe_that_is_closed() {
    const MOST: usize = 1 << 20;
    let mut child = replay().spawn().expect("the program runs");
    drop(child.stdout.take());
    let mut input = child.stdin.take().expect("a pipe");
    let read = (0..MOST).take_while(|_| input.write_all(b"R 52\n").is_ok()).count();
    assert!(read < MOST, "all {MOST} calls are read");
    drop(input);
    let ran = child.wait_with_output().expect("the program ends");
    assert_eq!(ran.status.code(), Some(2));
    assert!(said(&ran).starts_with("replay: the answers cannot be written: "), "{}", said(&ran));
}

/// A folder, and a file that is open for writing alone.
#[test]
fn a_script_that_cannot_be_read() {
    let folder = File::open(env!("CARGO_MANIFEST_DIR")).expect("a folder");
    let written = File::create(std::path::Path::new(env!("CARGO_TARGET_TMPDIR")).join("written")).expect("a file");
    for input in [folder, written] {
        let ran = replay().stdin(input).output().expect("the program runs");
        assert_eq!((ran.status.code(), ran.stdout.as_slice()), (Some(2), &b""[..]));
        assert!(said(&ran).starts_with("replay: the script cannot be read: "), "{}", said(&ran));
    }
}

#[test]
fn help() {
    let ran = replay().arg("--help").output().expect("the program runs");
    assert!(ran.status.success() && ran.stdout.starts_with(b"usage: replay") && ran.stderr.is_empty());
}

#[test]
fn bad_arguments() {
    for words in [&["script.txt"][..], &["--quick"], &["--help", "--help"], &[""]] {
        let ran = replay().args(words).output().expect("the program runs");
        assert_eq!((ran.status.code(), ran.stdout.as_slice()), (Some(2), &b""[..]), "{words:?}");
        let said = said(&ran);
        assert!(said.contains(&format!("unknown options '{}'", words.join(" "))) && said.contains("usage: replay"), "{said}");
    }
}
