//! The worked example of docs/CHECKPOINT.md is what the library does: its calls end with its file, which is loaded and saved again.
use c51::{Device, Flag, CHECKPOINT_52};
use replay::checkpoint::Hex;
use replay::script::replay;

const DOCUMENT: &str = include_str!("../../../docs/CHECKPOINT.md");
const EXAMPLE: &str = include_str!("../../../examples/move.txt");

/// The indented lines of a section, block by block.
fn blocks(section: &str) -> Vec<Vec<&'static str>> {
    let (_, rest) = DOCUMENT.split_once(section).expect("the section");
    let section = rest.split("\n## ").next().expect("its text");
    let parts = section.split("\n\n").filter(|part| part.trim_start_matches('\n').starts_with("    "));
    parts.map(|part| part.lines().filter_map(|line| line.strip_prefix("    ")).collect()).collect()
}

/// The bytes of the file: in each line its place, bytes of two digits, and after two spaces what they are.
fn bytes(lines: &[&str]) -> Vec<u8> {
    let mut file = Vec::new();
    for line in lines {
        let (place, rest) = line.trim_start().split_once("  ").expect("a place");
        assert_eq!(place.parse(), Ok(file.len()), "{line}");
        let (digits, what) = rest.split_once("  ").expect("bytes");
        assert!(!what.trim().is_empty(), "{line}");
        file.extend(digits.split(' ').map(|byte| u8::from_str_radix(byte, 16).expect("a byte")));
    }
    file
}

#[test]
fn the_worked_example() {
    let blocks = blocks("\n## A worked example\n");
    let [calls, file] = &blocks[..] else { panic!("{} blocks", blocks.len()) };
    let file = bytes(file);
    let mut answers = Vec::new();
    replay((calls.join("\n") + "\n").as_bytes(), &mut answers).expect("a script");
    let answers = String::from_utf8(answers).expect("text");
    assert_eq!(answers.lines().last(), Some(format!("0 {}", Hex(&file)).as_str()));
    assert_eq!(EXAMPLE.lines().take(calls.len()).collect::<Vec<&str>>(), *calls, "examples/move.txt begins with them");

    let device = Device::load(&file).expect("a checkpoint");
    assert_eq!((file.len(), device.save()), (CHECKPOINT_52, Ok(file)));
    assert_eq!((device.kind, device.cycle, device.serial.receive.position), (52, 432, 5));
    assert_eq!(Flag::ALL.map(|flag| device.last_rise(flag)), [None, Some(3), None, None, None, None, None, None]);
}

/// The places of the tables are those of the parts: each field has a value of its own, and is found where its table says.
#[test]
fn the_tables_of_places() {
    let places = |name: &str, kind: u8| -> Vec<usize> {
        let (_, rest) = DOCUMENT.split_once(name).expect("a table");
        let rows = rest.lines().skip(2).take_while(|line| line.starts_with('|'));
        let columns = rows.map(|row| row.split('|').map(str::trim).collect::<Vec<&str>>());
        let column = if kind == 51 || name.starts_with("| at") { 1 } else { 2 };
        columns.map(|columns| columns[column].split(',').next().expect("a place").parse().expect("a number")).collect()
    };
    for kind in [51, 52] {
        let file = Device::reset(kind).and_then(|device| device.save()).expect("a checkpoint");
        let [registers, hidden, times] =
            ["| at | address |", "| kind 51 at | kind 52 at | field |", "| kind 51 at | kind 52 at | flag |"]
                .map(|name| places(name, kind));
        let registers = &registers[..file[0].into()];
        assert!(registers.iter().enumerate().all(|(number, &at)| at == 1 + 2 * number && file[at] >= 0x87), "{registers:?}");
        let first = 2 + 2 * registers.len();
        assert_eq!(hidden, (0..19).map(|number| first + 8 * number).collect::<Vec<usize>>());
        assert_eq!((file[first - 1], file[hidden[7]], file[hidden[18]]), (25, 1, 1), "the line sample and the level of RXD");
        assert_eq!(times, (0..8).map(|number| first + 201 + 9 * number).collect::<Vec<usize>>());
        assert_eq!((file[times[0] - 1], times[7] + 9), (8, file.len()));
    }
}
