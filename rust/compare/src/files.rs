//! Checkpoints: the library beside the model on a save and on a load, and files to load.
use crate::lists::good_record;
use crate::pair::same;
use crate::record::{of_model, to_model};
use crate::STAGE;
use c51::raw::{self, Answer};
use c51::{Device, CHECKPOINT_51, CHECKPOINT_52};
use c51model::checkpoint::{read, write};
use c51model::model::{self, set_stage, Refusal};
use random::Rng;

/// What stands in a buffer before a save.
const UNWRITTEN: u8 = 0xA5;

/// A save of the library and one of the model into a buffer of so many bytes: the same code and the same bytes, as they were where it
/// is refused. Gives both.
fn same_into(device: &Device, model: &model::Device, length: usize) -> Result<(u8, Vec<u8>), String> {
    let [mut ours, mut theirs] = [(); 2].map(|()| vec![UNWRITTEN; length]);
    let code = raw::save(*device, &mut ours);
    let expected = write(model, &mut theirs).map_or_else(|Refusal(code)| code, |()| 0);
    same((code, &ours), (expected, &theirs))?;
    match code != 0 && ours != [UNWRITTEN].repeat(length) {
        true => Err(format!("the refused save leaves {ours:?}")),
        false => Ok((code, ours)),
    }
}

/// Saves on both, into buffers of the length of either kind, of none, and of one byte more or less, and loads what was saved. Gives the
/// code of the save into a buffer of the kind's own length.
pub fn compare_save(device: &Device, model: &model::Device) -> Result<u8, String> {
    set_stage(STAGE);
    let length = device.checkpoint_length();
    for other in [0, 1, CHECKPOINT_51, CHECKPOINT_52, length - 1, length + 1] {
        same_into(device, model, other)?;
    }
    let (code, file) = same_into(device, model, length)?;
    let loaded = raw::load(&file);
    match code == 0 && loaded != (Answer { code, device: *device }) {
        true => Err(format!("the file of {device:?}\nis loaded as {loaded:?}")),
        false => Ok(code),
    }
}

/// The model's answer to a load, and its device.
fn by_model(file: &[u8]) -> (u8, model::Device) {
    set_stage(STAGE);
    read(file).map_or_else(|Refusal(code)| (code, model::Device::zero()), |device| (0, device))
}

/// Loads a file on both: the same code, and the same record. Of one that passes, the device is accepted, and the file is the one that a
/// save of it writes. Gives the library's answer and the model's device.
pub fn compare_load(file: &[u8]) -> Result<(Answer, model::Device), String> {
    let answer = raw::load(file);
    let (code, model) = by_model(file);
    let device = if code == 0 { of_model(&model) } else { Device::default() };
    same(answer, Answer { code, device })?;
    if code == 0 {
        same(raw::c51_accepts(answer.device), 1)?;
        let mut again = vec![UNWRITTEN; file.len()];
        let saved = raw::save(answer.device, &mut again);
        if (saved, &again[..]) != (0, file) {
            return Err(format!("the file that passes\n{file:?}\nis saved as {saved}, {again:?}"));
        }
    }
    Ok((answer, model))
}

/// How often loads passed and were refused by 15, 16 and 17.
#[derive(Clone, Copy, Default, PartialEq, Debug)]
pub struct Loads {
    pub passed: u64,
    pub bad_length: u64,
    pub bad_layout: u64,
    pub bad_value: u64,
}

impl Loads {
    pub fn add(&mut self, code: u8) {
        *match code {
            0 => &mut self.passed,
            15 => &mut self.bad_length,
            16 => &mut self.bad_layout,
            _ => &mut self.bad_value,
        } += 1;
    }

    /// Each of the four.
    pub fn counts(&self) -> [u64; 4] {
        [self.passed, self.bad_length, self.bad_layout, self.bad_value]
    }
}

impl std::ops::AddAssign for Loads {
    fn add_assign(&mut self, other: Loads) {
        self.passed += other.passed;
        self.bad_length += other.bad_length;
        self.bad_layout += other.bad_layout;
        self.bad_value += other.bad_value;
    }
}

/// The checkpoint of a device, by the model.
pub fn file_of(device: &Device) -> Vec<u8> {
    let model = to_model(device);
    let mut file = vec![0; device.checkpoint_length()];
    write(&model, &mut file).expect("a device that is accepted");
    file
}

/// The hidden fields and levels of a file, and the flag times.
const HIDDEN: usize = 25;
const TIMES: usize = 8;

/// Where a kind's file has its first hidden field, and its first flag time; the count stands before each.
pub fn sections(length: usize) -> (usize, usize) {
    let times = length - 9 * TIMES;
    (times - 1 - 8 * HIDDEN, times)
}

/// The greatest value of each hidden field, of a position in serial modes 2 and 3, and on kind 52.
const GREATEST: [u64; HIDDEN] = [11, 511, 15, 11, 511, 15, 2, 1, 1, 255, 1, 1, 1, 63, 63, 1, 1, u64::MAX, 1, 1, 1, 1, 1, 1, 1];

/// Where SCON's value and SBUF's stand.
const SCON: usize = 16;
const SBUF: usize = 18;

/// One fault or another in a file that is not empty, often just at the end of a range; some of them are none.
fn damage(rng: &mut Rng, file: &mut Vec<u8>) {
    let at = rng.below(file.len() as u64) as usize;
    let whole = [CHECKPOINT_51, CHECKPOINT_52].contains(&file.len());
    let (hidden, times) = if whole { sections(file.len()) } else { (0, 0) };
    match rng.below(if whole { 12 } else { 4 }) {
        0 => file.truncate(at),
        1 => (0..rng.pick(&[1, 1, 2, 9, 300])).for_each(|_| file.push(rng.byte())),
        2 => file[at] ^= 1 << rng.below(8),
        3 => file[at] = rng.byte(),
        4 => {
            let (at, count) =
                rng.pick(&[(0, 11), (0, 16), (0, 12), (hidden - 1, 24), (hidden - 1, 26), (times - 1, 7), (times - 1, 9)]);
            file[at] = count;
        }
        5 => {
            let register = rng.below((hidden as u64 - 2) / 2 - 1) as usize;
            file[1 + 2 * register..5 + 2 * register].rotate_left(2);
        }
        6 => {
            let register = rng.below((hidden as u64 - 2) / 2) as usize;
            file[2 + 2 * register] = rng.byte();
        }
        7 | 8 => {
            let field = rng.below(HIDDEN as u64) as usize;
            let most = GREATEST[field];
            let (bit, any) = (1 << rng.below(64), rng.number());
            let value = rng.pick(&[0, most, most - 1, most.wrapping_add(1), most | bit, any % 256, any]);
            file[hidden + 8 * field..][..8].copy_from_slice(&value.to_le_bytes());
        }
        9 => {
            let byte = rng.byte();
            file[SBUF] = byte;
            if rng.one_in(2) {
                file[hidden + 8 * 9] = byte;
            }
        }
        10 => {
            file[SCON] = rng.byte();
            file[hidden + rng.pick(&[0, 8 * 3])] = rng.pick(&[10, 11, 12]);
        }
        _ => {
            let time = times + 9 * rng.below(TIMES as u64) as usize;
            let bit = 1 << rng.below(64);
            let number = rng.pick(&[0, 1, bit, u64::MAX]);
            file[time] = rng.pick(&[0, 0, 1, 1, 2, 255]);
            file[time + 1..time + 9].copy_from_slice(&number.to_le_bytes());
            if rng.one_in(4) {
                file.truncate(time + rng.between(0, 9) as usize);
            }
        }
    }
}

/// A file to load: that of a device, as it is or with up to three faults, or any bytes.
pub fn some_file(rng: &mut Rng) -> Vec<u8> {
    if rng.one_in(16) {
        let length = rng.pick(&[0, 1, 2, 296, CHECKPOINT_51, 298, 306, CHECKPOINT_52, 308, 1_000]);
        let mut file: Vec<u8> = (0..length).map(|_| rng.byte()).collect();
        if let Some(count) = file.first_mut() {
            *count = rng.pick(&[11, 16, *count]);
        }
        return file;
    }
    let mut file = file_of(&good_record(rng));
    for _ in 0..rng.pick(&[0, 0, 1, 1, 1, 2, 3]) {
        if !file.is_empty() {
            damage(rng, &mut file);
        }
    }
    file
}
