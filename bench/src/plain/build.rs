//! The bitmap of a set of cells: codes, sorted, and written level by level.

use super::board::on_board;
use super::order::tidy;
use super::{Refusal, MAX_HEIGHT, MAX_JOINTS};

#[derive(Clone, Copy, Debug, PartialEq, Eq)]
pub struct Built {
    pub joints: u32,
    pub boxes: u32,
    pub length: u32,
}

/// A cell's quarters from the whole board down, as digits to base 4.
pub fn code(height: u32, row: u32, column: u32) -> u32 {
    (0..height).rev().fold(0, |found, left| 4 * found + 2 * ((row >> left) % 2) + (column >> left) % 2)
}

/// Adds four bits at a group, where there is room for it.
fn put(bitmap: &mut [u8], group: u32, bits: u32) {
    if let Some(byte) = bitmap.get_mut(group as usize / 2) {
        *byte += if group % 2 == 0 { bits * 16 } else { bits } as u8;
    }
}

/// What a quarter's bit is worth in its group.
fn worth(quarter: u32) -> u32 {
    8 >> (quarter % 4)
}

/// Writes the groups of one level; the number of the next group.
fn write_level(codes: &[u32], s: u32, first: u32, bitmap: &mut [u8]) -> u32 {
    let mut group = first;
    let mut child = codes[0] >> (2 * s);
    let mut bits = worth(child);
    for code in &codes[1..] {
        let next = code >> (2 * s);
        if next / 4 != child / 4 {
            put(bitmap, group, bits);
            group += 1;
            bits = worth(next);
            child = next;
        } else if next != child {
            bits += worth(next);
            child = next;
        }
    }
    put(bitmap, group, bits);
    group + 1
}

fn write_levels(height: u32, codes: &[u32], bitmap: &mut [u8]) -> u32 {
    if codes.is_empty() {
        return 1;
    }
    (0..height).rev().fold(0, |group, s| write_level(codes, s, group, bitmap))
}

/// Builds from the codes in the first `n` places of the work list.
pub fn build_codes(height: u32, n: usize, work: &mut [u32], bitmap: &mut [u8]) -> Result<Built, Refusal> {
    bitmap.fill(0);
    let joints = tidy(&mut work[..n]);
    if joints > MAX_JOINTS as usize {
        work.fill(0);
        return Err(Refusal::TooManyJoints);
    }
    let boxes = write_levels(height, &work[..joints], bitmap);
    work.fill(0);
    let length = (boxes + 1) / 2;
    if bitmap.len() < length as usize {
        bitmap.fill(0);
        return Err(Refusal::BitmapRoom);
    }
    Ok(Built { joints: joints as u32, boxes, length })
}

fn check_given(height: u32, rows: &[u32], columns: &[u32], room: usize) -> Result<(), Refusal> {
    if !(1..=MAX_HEIGHT).contains(&height) {
        return Err(Refusal::Height);
    }
    if rows.len() != columns.len() {
        return Err(Refusal::UnequalLists);
    }
    if !rows.iter().zip(columns).all(|(row, column)| on_board(height, *row, *column)) {
        return Err(Refusal::Cell);
    }
    if room < rows.len() {
        return Err(Refusal::WorkRoom);
    }
    Ok(())
}

pub fn build(height: u32, rows: &[u32], columns: &[u32], work: &mut [u32], bitmap: &mut [u8]) -> Result<Built, Refusal> {
    if let Err(refusal) = check_given(height, rows, columns, work.len()) {
        work.fill(0);
        bitmap.fill(0);
        return Err(refusal);
    }
    for (place, (row, column)) in work.iter_mut().zip(rows.iter().zip(columns)) {
        *place = code(height, *row, *column);
    }
    build_codes(height, rows.len(), work, bitmap)
}
