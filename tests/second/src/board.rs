//! The board in bits: the check by recursive decoding, and building by sets.

use std::collections::BTreeSet;

use crate::rules::*;

/// A cell, or the place a question names. The derived order is row, then column.
#[derive(Clone, Copy, Debug, PartialEq, Eq, PartialOrd, Ord, Hash)]
pub struct Cell {
    pub row: i64,
    pub col: i64,
}

pub fn cell(row: i64, col: i64) -> Cell {
    Cell { row, col }
}

/// One group of four bits: the square box of `side` cells whose upper left cell is `corner`.
#[derive(Clone, Debug, PartialEq, Eq)]
pub struct Group {
    pub number: usize,
    pub corner: Cell,
    pub side: i64,
    /// Whether a joint lies in the box; in a valid board only group 0 may hold none.
    pub holds_joint: bool,
}

/// A board that passed the check.
#[derive(Debug)]
pub struct Board {
    /// The joints in bitmap order.
    pub joints: Vec<Cell>,
    /// The groups, in the order of their numbers.
    pub groups: Vec<Group>,
}

/// "The side is 2 to the power H cells."
pub fn side_of(height: u32) -> i64 {
    1 << height
}

/// "Height H is 1 to 10."
pub fn is_height(height: u32) -> bool {
    (1..=MAX_HEIGHT).contains(&height)
}

/// The quarters of a box "in the order upper left, upper right, lower left, lower right (row half first)".
fn quarters(corner: Cell, side: i64) -> [Cell; 4] {
    let half = side / 2;
    [(0, 0), (0, half), (half, 0), (half, half)].map(|(down, right)| cell(corner.row + down, corner.col + right))
}

/// "Bits are numbered from the most significant bit of byte 0."
fn bit(bytes: &[u8], position: usize) -> bool {
    bytes[position / 8] & (0x80 >> (position % 8)) != 0
}

struct Decoder<'a> {
    bytes: &'a [u8],
    /// At each bit position the ones in bits 0 to that position, itself counted.
    rank: Vec<usize>,
    joints: Vec<Cell>,
    groups: Vec<Group>,
    /// Each group that must be there and is missing (2) or all zero (3).
    faults: BTreeSet<(usize, Number)>,
}

impl Decoder<'_> {
    /// Decodes group `number`, the box of `side` cells at `corner`, and all beneath it.
    fn open(&mut self, number: usize, corner: Cell, side: i64) {
        if number >= 2 * self.bytes.len() {
            self.faults.insert((number, BYTES_END));
            return;
        }
        let positions = 4 * number..4 * number + 4;
        if number != 0 && positions.clone().all(|p| !bit(self.bytes, p)) {
            self.faults.insert((number, ZERO_GROUP));
            return;
        }
        let joints_before = self.joints.len();
        for (p, quarter) in positions.zip(quarters(corner, side)) {
            if !bit(self.bytes, p) {
                continue;
            }
            if side == 2 {
                // "A one in the last level is a stored cell, called a joint."
                self.joints.push(quarter);
            } else {
                // "the children of a one at bit p start at bit 4 × (ones in bits 0 to p)"
                self.open(self.rank[p], quarter, side / 2);
            }
        }
        let holds_joint = self.joints.len() > joints_before;
        self.groups.push(Group { number, corner, side, holds_joint });
    }
}

/// "Check: 1, then the first of 2 or 3 in bit order, 4, 5."
pub fn check(height: u32, bytes: &[u8]) -> Result<Board, Number> {
    refuse_if(!is_height(height), HEIGHT)?;
    let mut ones = 0;
    let rank = (0..8 * bytes.len())
        .map(|p| {
            ones += usize::from(bit(bytes, p));
            ones
        })
        .collect();
    let mut decoder = Decoder { bytes, rank, joints: vec![], groups: vec![], faults: BTreeSet::new() };
    decoder.open(0, cell(0, 0), side_of(height));
    let Decoder { joints, mut groups, faults, .. } = decoder;
    if let Some((_, number)) = faults.iter().next() {
        return Err(*number);
    }
    groups.sort_by_key(|g| g.number);
    assert!(groups.iter().map(|g| g.number).eq(0..groups.len()), "the groups lie without a gap");
    let unused_one = (4 * groups.len()..8 * bytes.len()).any(|p| bit(bytes, p));
    refuse_if(bytes.len() != (groups.len() + 1) / 2 || unused_one, LEFT_OVER)?;
    refuse_if(joints.len() > MAX_JOINTS, TOO_MANY_JOINTS)?;
    Ok(Board { joints, groups })
}

/// A bitmap that was built, with the counts that a served build gives.
#[derive(Debug, PartialEq, Eq)]
pub struct Built {
    pub joints: usize,
    pub boxes: usize,
    pub bytes: Vec<u8>,
}

/// The way from the whole board to a box of `side` cells that holds the cell: the quarter taken at each level.
fn way(height: u32, at: Cell, side: i64) -> Vec<u8> {
    let mut corner = cell(0, 0);
    let mut taken = vec![];
    let mut width = side_of(height);
    while width > side {
        let inside = |q: &Cell| (q.row..q.row + width / 2).contains(&at.row) && (q.col..q.col + width / 2).contains(&at.col);
        let quarter = quarters(corner, width).iter().position(inside).expect("the quarters cover the box");
        corner = quarters(corner, width)[quarter];
        taken.push(quarter as u8);
        width /= 2;
    }
    taken
}

/// The bits of a board: level by level the boxes that hold a joint, in order, each by which of its quarters hold one.
fn bits_of(height: u32, joints: &BTreeSet<Cell>) -> Vec<bool> {
    let ways: BTreeSet<Vec<u8>> = joints.iter().map(|j| way(height, *j, 1)).collect();
    let mut bits = vec![];
    for level in 0..height as usize {
        let mut boxes: BTreeSet<&[u8]> = ways.iter().map(|w| &w[..level]).collect();
        if level == 0 {
            // "Group 0 is the whole board": it is there on an empty board too.
            boxes.insert(&[]);
        }
        let with_joint: BTreeSet<&[u8]> = ways.iter().map(|w| &w[..level + 1]).collect();
        for group in boxes {
            bits.extend((0..4).map(|quarter| with_joint.contains([group, &[quarter]].concat().as_slice())));
        }
    }
    bits
}

/// The bitmap of a set of cells on a board of right height, with no limit on their number.
pub fn bitmap(height: u32, joints: &BTreeSet<Cell>) -> Built {
    let bits = bits_of(height, joints);
    let byte = |eight: &[bool]| eight.iter().enumerate().map(|(i, one)| u8::from(*one) << (7 - i)).sum();
    Built { joints: joints.len(), boxes: bits.len() / 4, bytes: bits.chunks(8).map(byte).collect() }
}

/// "Build: 1, 20, 12, 10, 5, 18." Here the work list has `work` places and the bitmap's room `room` bytes.
pub fn build(height: u32, rows: &[i64], cols: &[i64], work: usize, room: usize) -> Result<Built, Number> {
    refuse_if(!is_height(height), HEIGHT)?;
    refuse_if(rows.len() != cols.len(), UNEQUAL_LISTS)?;
    let given: Vec<Cell> = rows.iter().zip(cols).map(|(r, c)| cell(*r, *c)).collect();
    refuse_if(given.iter().any(|c| !on_board(height, *c)), CELL)?;
    refuse_if(work < given.len(), WORK_ROOM)?;
    let distinct: BTreeSet<Cell> = given.into_iter().collect();
    refuse_if(distinct.len() > MAX_JOINTS, TOO_MANY_JOINTS)?;
    let built = bitmap(height, &distinct);
    refuse_if(room < built.bytes.len(), BITMAP_ROOM)?;
    Ok(built)
}

/// "Rows and columns count from 0", and there are as many as the side has cells.
pub fn on_board(height: u32, at: Cell) -> bool {
    let span = 0..side_of(height);
    span.contains(&at.row) && span.contains(&at.col)
}
