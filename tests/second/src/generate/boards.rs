//! Boards for the check, right and damaged.

use std::collections::BTreeSet;

use crate::batch::Writer;
use crate::board::{bitmap, cell, Cell};
use crate::generate::pattern;
use crate::random::Random;
use crate::rules::*;

pub type Case = (u32, Vec<u8>);

/// The stream of the fixed boards and `count` random ones.
pub fn stream(count: usize, seed: u64) -> Vec<u8> {
    let mut writer = Writer::default();
    for (height, bytes) in cases(count, seed) {
        writer.number(height);
        writer.counted_bytes(&bytes);
    }
    writer.stream
}

pub fn cases(count: usize, seed: u64) -> Vec<Case> {
    let mut all = fixed();
    let mut random = Random::new(seed);
    all.extend((0..count).map(|_| random_case(&mut random)));
    all
}

fn of_cells(height: u32, cells: impl IntoIterator<Item = Cell>) -> Vec<u8> {
    bitmap(height, &cells.into_iter().collect::<BTreeSet<_>>()).bytes
}

/// The full board: every bit of every group is one.
fn full(height: u32) -> Vec<u8> {
    let groups: usize = (0..height).map(|level| 4usize.pow(level)).sum();
    let mut bytes = vec![0xff; groups / 2];
    if groups % 2 == 1 {
        bytes.push(0xf0);
    }
    bytes
}

/// Every way to spoil a right board that has a number of its own: a group missing, one zero, a bit or byte left over.
fn spoiled(bytes: &[u8]) -> Vec<Vec<u8>> {
    let mut all = vec![];
    all.push(bytes[..bytes.len() - 1].to_vec());
    all.push([bytes, &[0]].concat());
    all.push([bytes, &[0x80]].concat());
    for (at, mask) in [(bytes.len() - 1, 0x0f), (bytes.len() - 1, 0xf0), (0, 0x0f), (bytes.len() / 2, 0xf0)] {
        let mut zeroed = bytes.to_vec();
        zeroed[at] &= mask;
        all.push(zeroed);
        let mut set = bytes.to_vec();
        set[at] |= 0x11;
        all.push(set);
    }
    all
}

fn fixed() -> Vec<Case> {
    let mut all: Vec<Case> = vec![];
    // the bench examples, and faults that two rules claim
    let small: [&[u8]; 11] = [
        &[0x96, 0x50],
        &[0x98, 0x00],
        &[0x96],
        &[0x96, 0x51],
        &[0x96, 0x50, 0x00],
        &[0x00],
        &[0xf0],
        &[],
        &[0xc1],
        &[0x08],
        &[0x88],
    ];
    let heights = (0..=12).chain([255, 256, 257, 266, 65_537, 0x8000_0002, u32::MAX]);
    for height in heights {
        all.extend(small.iter().map(|bytes| (height, bytes.to_vec())));
    }
    // every board of one byte and every start of a board of two levels
    for byte in 0..=255 {
        all.extend((1..=3).map(|height| (height, vec![byte])));
        all.extend([0x00, 0x10, 0x80, 0xf0].map(|next| (2, vec![byte, next])));
    }
    for height in 1..=MAX_HEIGHT {
        all.push((height, full(height)));
        all.extend(spoiled(&full(height)).into_iter().map(|bytes| (height, bytes)));
    }
    // joints at (16i, 16j): 17,749 groups, the most that a right board has
    let wide: Vec<Cell> = (0..4096).map(|i| cell(i / 64 * 16, i % 64 * 16)).collect();
    let square = |count: i64| (0..count).map(|i| cell(i / 64, i % 64));
    let few = [cell(0, 0), cell(1023, 1023)];
    for bytes in [
        of_cells(10, wide.clone()),
        of_cells(10, wide.into_iter().chain([cell(1, 0)])),
        of_cells(10, square(4096)),
        of_cells(10, square(4097)),
        of_cells(10, few),
    ] {
        all.extend(spoiled(&bytes).into_iter().map(|bytes| (10, bytes)));
        all.push((10, bytes));
    }
    all
}

/// A random board, half of them without a fault.
fn random_case(random: &mut Random) -> Case {
    let height = random.within(1..=i64::from(MAX_HEIGHT)) as u32;
    let mut bytes = of_cells(height, pattern::joints(random, height));
    let at = random.below(bytes.len());
    match random.below(16) {
        0 => bytes[at] ^= 1 << random.below(8),
        1 => bytes[at] = random.byte(),
        2 => bytes.truncate(at),
        3 => bytes.push(*random.pick(&[0, 0, 1, 0x80])),
        4 => bytes[at] &= *random.pick(&[0x0f, 0xf0, 0x00]),
        5 => *bytes.last_mut().expect("a board has a byte") |= 1 << random.below(8),
        6 => bytes = (0..random.below(40)).map(|_| random.byte()).collect(),
        7 => return (*random.pick(&[height - 1, height + 1, 0, 255]), bytes),
        _ => {}
    }
    (height, bytes)
}

/// A right board with its joints, for questions about it.
pub fn right(random: &mut Random) -> (u32, Vec<Cell>, Vec<u8>) {
    let height = random.within(1..=i64::from(MAX_HEIGHT)) as u32;
    let joints = pattern::joints(random, height);
    let bytes = of_cells(height, joints.iter().copied());
    (height, joints, bytes)
}
