//! A whole report by either side, as the program `report` makes it: the first line, the directory, then record by record.

use crate::plain::bitmap::blocks_of;
use crate::side::{Lists, Side};

const RECORDS: usize = 5957;
const BITMAP: usize = 8875;
const BLOCKS: usize = 139;
const JOINTS: usize = 4096;
const TRAIL: usize = 4096;
const ROOM: usize = 131_072;

/// What the program `report` holds: room for the longest sheet and its joints, the largest bitmap, and every answer but the longest trails.
pub struct Room {
    work: Vec<u32>,
    bitmap: Vec<u8>,
    blocks: Vec<u16>,
    lists: Lists,
    out: Vec<u8>,
}

impl Room {
    pub fn new() -> Self {
        let lists = Lists {
            rows: vec![0; JOINTS],
            columns: vec![0; JOINTS],
            keys: vec![0; JOINTS],
            corners: vec![0; JOINTS],
            trail: vec![0; TRAIL],
        };
        Room { work: vec![0; RECORDS], bitmap: vec![0; BITMAP], blocks: vec![0; BLOCKS], lists, out: vec![0; ROOM] }
    }

    /// Whether all lists that are to be left with zeros are.
    pub fn is_clear(&self) -> bool {
        let lists = [&self.work, &self.lists.rows, &self.lists.columns, &self.lists.corners, &self.lists.trail];
        lists.iter().all(|list| list.iter().all(|n| *n == 0)) && self.lists.keys.iter().all(|n| *n == 0)
    }
}

/// Hands each chunk of the report to `write`, as the program writes it.
pub fn report<S: Side>(sheet: &[u8], room: &mut Room, mut write: impl FnMut(&[u8])) {
    let first = S::first_line(sheet, &mut room.work, &mut room.bitmap, &mut room.out);
    write(&room.out[..first.end]);
    if first.height == 0 {
        return;
    }
    let bytes = &room.bitmap[..first.size as usize];
    let directory = &mut room.blocks[..blocks_of(bytes.len())];
    S::directory(first.height, bytes, directory);
    let mut at = first.requests;
    while at < sheet.len() {
        let (length, next) = S::next_lines(first.height, bytes, directory, sheet, at, &mut room.lists, &mut room.out);
        write(&room.out[..length]);
        at = next;
    }
}
