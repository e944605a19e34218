//! Sheets as lists of written records, right or not.

use crate::board::Cell;
use crate::measure::{write_marked, write_plain};

pub type Record = Vec<u8>;

pub fn board(height: u8) -> Record {
    vec![1, height]
}

pub fn joint(at: Cell) -> Record {
    [vec![2], write_plain(at.row), write_plain(at.col)].concat()
}

pub fn question(k: u8, place: Cell) -> Record {
    [vec![3, k], write_marked(place.row), write_marked(place.col)].concat()
}

/// The ends in the order of the record: lowest row, highest row, lowest column, highest column.
pub fn window(ends: [i64; 4]) -> Record {
    let mut record = vec![4];
    for end in ends {
        record.extend(write_plain(end));
    }
    record
}

pub fn end() -> Record {
    vec![5]
}

/// Where the measures of a record lie: the start of each, with its length.
pub fn measures(record: &[u8]) -> Vec<(usize, usize)> {
    match record.first() {
        Some(2) => vec![(1, 5), (6, 5)],
        Some(3) => vec![(2, 6), (8, 6)],
        Some(4) => vec![(1, 5), (6, 5), (11, 5), (16, 5)],
        _ => vec![],
    }
}

/// A sheet of a board record, the joints, what is asked, and the end.
pub fn sheet(height: u8, joints: &[Cell], asked: &[Record]) -> Vec<Record> {
    let mut records = vec![board(height)];
    records.extend(joints.iter().map(|j| joint(*j)));
    records.extend_from_slice(asked);
    records.push(end());
    records
}
