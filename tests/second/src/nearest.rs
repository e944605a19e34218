//! The K nearest joints and the boxes opened, by sorting all joints and listing all boxes.

use crate::board::{Board, Cell, Group};
use crate::rules::*;

/// "Each place of the answer list is one record of row, column and squared distance."
#[derive(Clone, Copy, Debug, PartialEq, Eq)]
pub struct Record {
    pub joint: Cell,
    pub distance: i64,
}

#[derive(Debug, PartialEq, Eq)]
pub struct Answer {
    pub found: Vec<Record>,
    pub trail: Vec<usize>,
}

/// What a question names, and the places in the lists lent to it.
pub struct Question {
    pub place: Cell,
    pub k: u32,
    pub answer_room: usize,
    pub work_room: usize,
    pub trail_room: usize,
}

/// "Squared distance to a cell is the row difference squared plus the column difference squared."
pub fn distance(place: Cell, to: Cell) -> i64 {
    (to.row - place.row).pow(2) + (to.col - place.col).pow(2)
}

/// "A box's near distance is the smallest squared distance to any of its cells, stored or not": rows and columns are
/// free of each other, so the nearest row and the nearest column are sought one by one.
pub fn near_distance(place: Cell, group: &Group) -> i64 {
    let nearest = |start: i64, from: i64| (start..start + group.side).map(|x| (x - from).pow(2)).min().expect("a box has cells");
    nearest(group.corner.row, place.row) + nearest(group.corner.col, place.col)
}

/// The refusals of a question in the order 7, 8, 9, 10, 11 (the board and its directory are right).
pub fn nearest(board: &Board, question: &Question) -> Result<Answer, Number> {
    let place = question.place;
    let range = -MAX_PLACE..=MAX_PLACE;
    refuse_if(!range.contains(&place.row) || !range.contains(&place.col), PLACE)?;
    refuse_if(!(1..=MAX_K).contains(&question.k), K)?;
    refuse_if(question.answer_room < question.k as usize, ANSWER_ROOM)?;
    refuse_if(question.work_room < board.joints.len().max(1), WORK_ROOM)?;
    let found = first_joints(board, place, question.k as usize);
    let trail = opened(board, place, question.k as usize, &found);
    refuse_if(question.trail_room < trail.len(), TRAIL)?;
    Ok(Answer { found, trail })
}

/// All joints by squared distance, then row, then column; the first K of them.
fn first_joints(board: &Board, place: Cell, k: usize) -> Vec<Record> {
    let mut all: Vec<Record> = board.joints.iter().map(|j| Record { joint: *j, distance: distance(place, *j) }).collect();
    all.sort_by_key(|r| (r.distance, r.joint));
    all.truncate(k);
    all
}

/// The boxes opened: those that are the whole board or hold a joint and, if K joints were found, are no farther off
/// than the last of them; "ordered by near distance, then group number".
fn opened(board: &Board, place: Cell, k: usize, found: &[Record]) -> Vec<usize> {
    let farthest = match found.last() {
        Some(last) if found.len() == k => last.distance,
        _ => i64::MAX,
    };
    let mut boxes: Vec<(i64, usize)> = board
        .groups
        .iter()
        .filter(|g| g.number == 0 || g.holds_joint)
        .map(|g| (near_distance(place, g), g.number))
        .filter(|(near, _)| *near <= farthest)
        .collect();
    boxes.sort();
    boxes.into_iter().map(|(_, number)| number).collect()
}
