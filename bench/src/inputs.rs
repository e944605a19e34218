//! Boards and sheets to measure on. They follow from a fixed seed, so that every run measures the same.

use std::collections::BTreeSet;

pub const HEIGHT: u32 = 10;
const SIDE: i64 = 1 << HEIGHT;

/// Numbers that look random and follow from a seed alone (splitmix64).
pub struct Random(u64);

impl Random {
    pub fn new(seed: u64) -> Self {
        Random(seed)
    }

    fn next(&mut self) -> u64 {
        self.0 = self.0.wrapping_add(0x9e37_79b9_7f4a_7c15);
        let mut z = self.0;
        z = (z ^ (z >> 30)).wrapping_mul(0xbf58_476d_1ce4_e5b9);
        z = (z ^ (z >> 27)).wrapping_mul(0x94d0_49bb_1331_11eb);
        z ^ (z >> 31)
    }

    /// A number from `low` to `high`, both inside.
    pub fn within(&mut self, low: i64, high: i64) -> i64 {
        low + (self.next() % (high - low + 1) as u64) as i64
    }

    fn shuffle<T>(&mut self, list: &mut [T]) {
        for i in (1..list.len()).rev() {
            list.swap(i, self.within(0, i as i64) as usize);
        }
    }
}

/// A row and a column.
pub type Cell = (i64, i64);

#[derive(Clone, Copy)]
pub enum Pattern {
    /// Anywhere on the board, alike.
    Uniform,
    /// Rows of 4 to 20 pads, 1 to 4 cells apart, as parts with many legs have them.
    Pads,
}

/// The name and the joints of a board, in no order.
pub struct Board {
    pub name: String,
    pub joints: Vec<Cell>,
}

pub fn board(pattern: Pattern, count: usize, seed: u64) -> Board {
    let mut random = Random::new(seed);
    let mut cells = BTreeSet::new();
    while cells.len() < count {
        let start = (random.within(0, SIDE - 1), random.within(0, SIDE - 1));
        match pattern {
            Pattern::Uniform => {
                cells.insert(start);
            }
            Pattern::Pads => {
                let (step, down) = (random.within(1, 4), random.within(0, 1) == 0);
                for i in 0..random.within(4, 20) {
                    let pad = if down { (start.0 + i * step, start.1) } else { (start.0, start.1 + i * step) };
                    if pad.0 < SIDE && pad.1 < SIDE && cells.len() < count {
                        cells.insert(pad);
                    }
                }
            }
        }
    }
    let mut joints: Vec<Cell> = cells.into_iter().collect();
    random.shuffle(&mut joints);
    let name = match pattern {
        Pattern::Uniform => format!("{count} uniform"),
        Pattern::Pads => format!("{count} in rows of pads"),
    };
    Board { name, joints }
}

fn measure(n: i64) -> String {
    format!("{:03},{}", n / 2, n % 2 * 5)
}

fn marked(z: i64) -> String {
    format!("{}{}", if z < 0 { '-' } else { '+' }, measure(z.abs()))
}

/// A sheet of joints, and of records that ask.
pub fn sheet(joints: &[Cell], asked: &[Vec<u8>]) -> Vec<u8> {
    let mut bytes = vec![1, HEIGHT as u8];
    for (row, column) in joints {
        bytes.push(2);
        bytes.extend_from_slice(measure(*row).as_bytes());
        bytes.extend_from_slice(measure(*column).as_bytes());
    }
    bytes.extend(asked.iter().flatten());
    bytes.push(5);
    bytes
}

/// Questions for `k` joints each, on the board and a little beside it.
pub fn questions(count: usize, k: u8, seed: u64) -> Vec<Vec<u8>> {
    let mut random = Random::new(seed);
    let mut place = || marked(random.within(-SIDE / 8, SIDE + SIDE / 8));
    (0..count).map(|_| [&[3, k], place().as_bytes(), place().as_bytes()].concat()).collect()
}

/// Windows between two cells each.
pub fn windows(count: usize, seed: u64) -> Vec<Vec<u8>> {
    let mut random = Random::new(seed);
    let mut ends = || {
        let (a, b) = (random.within(0, SIDE - 1), random.within(0, SIDE - 1));
        measure(a.min(b)) + &measure(a.max(b))
    };
    (0..count).map(|_| [&[4], ends().as_bytes(), ends().as_bytes()].concat()).collect()
}
