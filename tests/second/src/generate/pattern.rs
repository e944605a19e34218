//! Sets of joints as boards have them, and some that boards never have.

use crate::board::{cell, on_board, side_of, Cell};
use crate::random::Random;

/// How many joints: mostly few, at times many, at most as a board may hold.
fn size(random: &mut Random) -> usize {
    match random.below(60) {
        0..=4 => 0,
        5..=24 => 1 + random.below(8),
        25..=52 => 9 + random.below(72),
        53..=58 => 81 + random.below(520),
        _ => 601 + random.below(3496),
    }
}

/// Some joints of a board of that height; a joint may come twice.
pub fn joints(random: &mut Random, height: u32) -> Vec<Cell> {
    let side = side_of(height);
    let count = size(random);
    let mut cells = match random.below(6) {
        0 => clusters(random, side, count),
        1 => pads(random, side, count),
        2 => full_square(random, side, count),
        3 => lattice(random, side, count),
        4 => symmetric(random, side, count),
        _ => uniform(random, side, count),
    };
    cells.retain(|c| on_board(height, *c));
    cells.truncate(count);
    if random.one_in(4) && !cells.is_empty() {
        for _ in 0..1 + random.below(5) {
            cells.push(*random.pick(&cells));
        }
    }
    if random.one_in(2) {
        random.shuffle(&mut cells);
    }
    cells
}

pub fn any_cell(random: &mut Random, side: i64) -> Cell {
    cell(random.within(0..=side - 1), random.within(0..=side - 1))
}

fn uniform(random: &mut Random, side: i64, count: usize) -> Vec<Cell> {
    (0..count).map(|_| any_cell(random, side)).collect()
}

/// Joints close around a few middles.
fn clusters(random: &mut Random, side: i64, count: usize) -> Vec<Cell> {
    let middles: Vec<Cell> = (0..1 + random.below(4)).map(|_| any_cell(random, side)).collect();
    let spread = 1 + random.within(0..=side / 8);
    let around = |random: &mut Random, at: i64| at + random.within(-spread..=spread);
    (0..count)
        .map(|_| {
            let middle = *random.pick(&middles);
            cell(around(random, middle.row), around(random, middle.col))
        })
        .collect()
}

/// Rows of pads, as a part with many legs has them.
fn pads(random: &mut Random, side: i64, count: usize) -> Vec<Cell> {
    let mut cells = vec![];
    while cells.len() < count {
        let start = any_cell(random, side);
        let step = random.within(1..=4);
        let down = random.one_in(2);
        for i in 0..random.within(4..=20) {
            cells.push(if down { cell(start.row + i * step, start.col) } else { cell(start.row, start.col + i * step) });
        }
    }
    cells
}

/// A full square somewhere on the board; a small board is full.
fn full_square(random: &mut Random, side: i64, count: usize) -> Vec<Cell> {
    let width = (1..=side).take_while(|w| w * w <= count as i64).last().unwrap_or(0);
    let start = cell(random.within(0..=side - width), random.within(0..=side - width));
    (0..width * width).map(|i| cell(start.row + i / width.max(1), start.col + i % width.max(1))).collect()
}

/// Joints at even steps over the whole board: many boxes for few joints.
fn lattice(random: &mut Random, side: i64, count: usize) -> Vec<Cell> {
    let step = (1..=side).find(|s| (side / s).pow(2) <= count.max(1) as i64).unwrap_or(side);
    let start = any_cell(random, step);
    let along = (side + step - 1) / step;
    (0..along * along).map(|i| cell(start.row + i / along * step, start.col + i % along * step)).collect()
}

/// Joints at equal distances around one place, so that a question there meets ties.
fn symmetric(random: &mut Random, side: i64, count: usize) -> Vec<Cell> {
    let middle = any_cell(random, side);
    let mut cells = vec![];
    while cells.len() < count {
        let (a, b) = (random.within(0..=side / 2), random.within(0..=side / 2));
        for (down, right) in [(a, b), (-a, b), (a, -b), (-a, -b), (b, a), (-b, a), (b, -a), (-b, -a)] {
            cells.push(cell(middle.row + down, middle.col + right));
        }
    }
    cells
}
