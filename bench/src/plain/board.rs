//! The check of a bitmap, its directory, and the check of both.

use super::bitmap::{blocks_of, fill_directory, group_at, is_directory};
use super::{Refusal, MAX_HEIGHT, MAX_JOINTS};

#[derive(Clone, Copy, Debug, PartialEq, Eq)]
pub struct Checked {
    pub joints: u32,
    pub boxes: u32,
}

pub fn side(height: u32) -> u32 {
    1 << height
}

pub fn on_board(height: u32, row: u32, column: u32) -> bool {
    row >> height == 0 && column >> height == 0
}

/// The bits of a group that must be there.
fn sound_group(bytes: &[u8], group: u32) -> Result<u32, Refusal> {
    if bytes.len() <= group as usize / 2 {
        return Err(Refusal::CutShort);
    }
    let bits = group_at(bytes, group);
    if bits == 0 && group != 0 {
        return Err(Refusal::EmptyGroup);
    }
    Ok(bits)
}

pub fn check(height: u32, bytes: &[u8]) -> Result<Checked, Refusal> {
    if !(1..=MAX_HEIGHT).contains(&height) {
        return Err(Refusal::Height);
    }
    let mut group = 0;
    let mut boxes = 1;
    for _ in 0..height {
        let mut ones = 0;
        for _ in 0..boxes {
            ones += sound_group(bytes, group)?.count_ones();
            group += 1;
        }
        boxes = ones;
    }
    if bytes.len() != (group as usize + 1) / 2 || group_at(bytes, group) != 0 {
        return Err(Refusal::LeftOver);
    }
    if boxes > MAX_JOINTS {
        return Err(Refusal::TooManyJoints);
    }
    Ok(Checked { joints: boxes, boxes: group })
}

pub fn make_directory(height: u32, bytes: &[u8], directory: &mut [u16]) -> Result<Checked, Refusal> {
    let answer = check(height, bytes).and_then(|checked| {
        if directory.len() == blocks_of(bytes.len()) {
            Ok(checked)
        } else {
            Err(Refusal::Directory)
        }
    });
    match answer {
        Ok(_) => fill_directory(bytes, directory),
        Err(_) => directory.fill(0),
    }
    answer
}

/// The check of a board and of its directory.
pub fn ask(height: u32, bytes: &[u8], directory: &[u16]) -> Result<Checked, Refusal> {
    let checked = check(height, bytes)?;
    if is_directory(bytes, directory) {
        Ok(checked)
    } else {
        Err(Refusal::Directory)
    }
}
