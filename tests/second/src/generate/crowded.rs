//! Boards of which one question opens more boxes than the report's trail has places.
//!
//! The question stands in the middle of the largest board and asks for 255 joints. Of these, 254 lie inside a circle,
//! each with small boxes of its own, and the last lies on it. No other joint is nearer than that one, but each lies in
//! a box that reaches into the circle: so the box is opened though the joint isn't handed out.

use std::collections::BTreeSet;

use crate::board::{cell, side_of, Cell, Group};
use crate::nearest::{distance, near_distance};
use crate::rules::{ENOUGH, MAX_HEIGHT, MAX_K, TRAIL_ROOM};

pub const PLACE: Cell = Cell { row: 511, col: 511 };
/// The last joint found; the circle goes through it. No circle around the place cuts more boxes.
const ON_CIRCLE: Cell = Cell { row: 0, col: 498 };

/// A box by its side and its upper left cell.
type Square = (i64, Cell);

fn radius() -> i64 {
    distance(PLACE, ON_CIRCLE)
}

fn near((side, corner): &Square) -> i64 {
    near_distance(PLACE, &Group { number: 0, corner: *corner, side: *side, holds_joint: true })
}

/// The cell of a box that is farthest from the middle: one of its corners.
fn farthest((side, corner): &Square) -> Cell {
    let reach = side - 1;
    let corners =
        [(0, 0), (0, reach), (reach, 0), (reach, reach)].map(|(down, right)| cell(corner.row + down, corner.col + right));
    corners.into_iter().max_by_key(|c| distance(PLACE, *c)).expect("four corners")
}

/// The boxes that hold the cell and are opened.
fn opened_with(at: Cell) -> BTreeSet<Square> {
    let holding = |side: i64| (side, cell(at.row / side * side, at.col / side * side));
    (1..=MAX_HEIGHT).map(|level| holding(side_of(level))).filter(|square| near(square) <= radius()).collect()
}

/// The boxes that the circle cuts, small ones first: each has a cell in it or on it, and one on it or beyond.
fn cut_boxes() -> Vec<Square> {
    let corners = |side: i64| (0..side_of(MAX_HEIGHT)).step_by(side as usize);
    let of_side = |side: i64| corners(side).flat_map(move |row| corners(side).map(move |col| (side, cell(row, col))));
    let cut = |square: &Square| distance(PLACE, farthest(square)) >= radius() && near(square) <= radius();
    (1..=MAX_HEIGHT).map(side_of).flat_map(of_side).filter(cut).collect()
}

/// Cells inside the circle, one fewer than the joints asked for: first those that open the most boxes which neither the
/// circle cuts nor an earlier one opens.
fn inside(cut: &[Square]) -> Vec<Cell> {
    let mut open: BTreeSet<Square> = cut.iter().copied().collect();
    let mut chosen = vec![];
    let starts = (16..side_of(MAX_HEIGHT)).step_by(32);
    let spread: Vec<Cell> = starts.clone().flat_map(|row| starts.clone().map(move |col| cell(row, col))).collect();
    for least in (1..=MAX_HEIGHT as usize).rev() {
        for at in spread.iter().filter(|c| distance(PLACE, **c) < radius()) {
            let more = &opened_with(*at) - &open;
            if chosen.len() + 1 < MAX_K as usize && more.len() >= least {
                open.extend(more);
                chosen.push(*at);
            }
        }
    }
    chosen
}

/// Joints of which the question at `PLACE` with K 255 opens just `opened` boxes, or as many as there are if that is more.
/// Joints beyond the circle are taken one at a time, unless one would open too many; most open one box more or two.
fn joints(cut: &[Square], inside: &[Cell], opened: usize) -> Vec<Cell> {
    let mut cells = [inside, &[ON_CIRCLE]].concat();
    let mut open: BTreeSet<Square> = cells.iter().flat_map(|c| opened_with(*c)).collect();
    for beyond in cut.iter().map(farthest) {
        let more = &opened_with(beyond) - &open;
        if !more.is_empty() && open.len() + more.len() <= opened {
            open.extend(more);
            cells.push(beyond);
        }
    }
    cells
}

/// The joints of a crowded board, with a word for it.
pub struct Crowd {
    pub label: &'static str,
    pub joints: Vec<Cell>,
}

/// Boards on which the question opens nearly as many boxes as the trail has places, just as many, and more.
pub fn boards() -> Vec<Crowd> {
    let cut = cut_boxes();
    let inside = inside(&cut);
    let crowd = |(label, opened)| Crowd { label, joints: joints(&cut, &inside, opened) };
    [("4095", TRAIL_ROOM - 1), ("4096", TRAIL_ROOM), ("4097", TRAIL_ROOM + 1), ("most", ENOUGH)].map(crowd).into()
}
