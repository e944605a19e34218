//! The K nearest joints: a best-first search over two work lists, with a scan for the smallest entry.

use super::bitmap::{bit_in, first_child, group_at};
use super::board::{ask, side};
use super::order::least;
use super::Refusal;

const MAX_PLACE: i32 = 1999;
const MAX_WANTED: u32 = 255;
const DISTANCE: u64 = 1 << 25;
const IDS: u64 = 1 << 24;
const COLUMNS: u32 = 1 << 12;

#[derive(Clone, Copy)]
pub struct Place {
    pub row: i32,
    pub column: i32,
}

#[derive(Clone, Copy)]
pub struct Answer {
    pub row: u32,
    pub column: u32,
    pub distance: u32,
}

pub fn answer_of(key: u64) -> Answer {
    let id = (key % IDS) as u32;
    Answer { row: id / COLUMNS, column: id % COLUMNS, distance: (key / DISTANCE) as u32 }
}

/// Joints found and boxes opened.
#[derive(Clone, Copy)]
pub struct Found {
    pub joints: u32,
    pub boxes: u32,
}

fn gap(place: i32, first: u32, last: u32) -> i32 {
    let (first, last) = (first as i32, last as i32);
    if place < first {
        first - place
    } else if last < place {
        last - place
    } else {
        0
    }
}

fn near(p: Place, row: u32, column: u32, side: u32) -> u32 {
    let down = gap(p.row, row, row + side - 1);
    let along = gap(p.column, column, column + side - 1);
    (down * down + along * along) as u32
}

/// A pending entry: its key, and of a box its levels and corner.
#[derive(Clone, Copy)]
struct Entry {
    key: u64,
    corner: u32,
}

fn entered(p: Place, level: u32, group: u32, row: u32, column: u32) -> Entry {
    let distance = u64::from(near(p, row, column, side(level))) * DISTANCE;
    if level == 0 {
        return Entry { key: distance + IDS + u64::from(row * COLUMNS + column), corner: 0 };
    }
    Entry { key: distance + u64::from(group), corner: (level * COLUMNS + row) * COLUMNS + column }
}

/// The work lists of a question: pending entries first, the keys of joints handed out at the end.
struct Search<'a> {
    place: Place,
    bytes: &'a [u8],
    directory: &'a [u16],
    keys: &'a mut [u64],
    corners: &'a mut [u32],
    trail: &'a mut [u32],
    opened: usize,
    pending: usize,
    handed: usize,
}

impl Search<'_> {
    fn add(&mut self, entry: Entry) {
        self.keys[self.pending] = entry.key;
        self.corners[self.pending] = entry.corner;
        self.pending += 1;
    }

    fn take(&mut self) -> Entry {
        let at = least(&self.keys[..self.pending]);
        let last = self.pending - 1;
        let entry = Entry { key: self.keys[at], corner: self.corners[at] };
        self.keys[at] = self.keys[last];
        self.corners[at] = self.corners[last];
        self.pending = last;
        entry
    }

    fn open(&mut self, group: u32, corner: u32) {
        let level = corner / (COLUMNS * COLUMNS) - 1;
        let (row, column) = (corner / COLUMNS % COLUMNS, corner % COLUMNS);
        let half = side(level);
        let bits = group_at(self.bytes, group);
        let mut child = first_child(self.bytes, self.directory, group);
        for quarter in 0..4 {
            if bit_in(bits, quarter) == 1 {
                let entry = entered(self.place, level, child, row + quarter / 2 * half, column + quarter % 2 * half);
                self.add(entry);
                child += 1;
            }
        }
    }

    fn step(&mut self) {
        let entry = self.take();
        if entry.key / IDS % 2 == 1 {
            let last = self.keys.len() - 1;
            self.keys[last - self.handed] = entry.key;
            self.handed += 1;
            return;
        }
        let group = (entry.key % IDS) as u32;
        if let Some(place) = self.trail.get_mut(self.opened) {
            *place = group;
        }
        self.opened += 1;
        self.open(group, entry.corner);
    }

    fn seek(&mut self, k: usize) {
        while self.pending > 0 && self.handed < k && self.opened <= self.trail.len() {
            self.step();
        }
    }
}

/// What a question is asked of.
#[derive(Clone, Copy)]
pub struct Board<'a> {
    pub height: u32,
    pub bytes: &'a [u8],
    pub directory: &'a [u16],
}

fn may_ask(board: Board, p: Place, k: u32, answers: usize, keys: usize, corners: usize) -> Result<(), Refusal> {
    let checked = ask(board.height, board.bytes, board.directory)?;
    if !(-MAX_PLACE..=MAX_PLACE).contains(&p.row) || !(-MAX_PLACE..=MAX_PLACE).contains(&p.column) {
        return Err(Refusal::Place);
    }
    if !(1..=MAX_WANTED).contains(&k) {
        return Err(Refusal::Count);
    }
    if answers < k as usize {
        return Err(Refusal::AnswerRoom);
    }
    let work = checked.joints.max(1) as usize;
    if keys < work || corners < work {
        return Err(Refusal::WorkRoom);
    }
    Ok(())
}

/// The question without its answer list: the keys of the joints found stand at the end of the keys, the last place first.
pub fn asked(
    board: Board,
    p: Place,
    k: u32,
    answers: usize,
    keys: &mut [u64],
    corners: &mut [u32],
    trail: &mut [u32],
) -> Result<Found, Refusal> {
    if let Err(refusal) = may_ask(board, p, k, answers, keys.len(), corners.len()) {
        corners.fill(0);
        trail.fill(0);
        return Err(refusal);
    }
    trail.fill(0);
    let Board { height, bytes, directory } = board;
    let mut search = Search { place: p, bytes, directory, keys, corners, trail, opened: 0, pending: 0, handed: 0 };
    search.add(entered(p, height, 0, 0, 0));
    search.seek(k as usize);
    let (joints, boxes) = (search.handed as u32, search.opened as u32);
    corners.fill(0);
    if trail.len() < boxes as usize {
        trail.fill(0);
        return Err(Refusal::TrailRoom);
    }
    Ok(Found { joints, boxes })
}
