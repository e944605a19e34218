//! The stored cells in a window.

use crate::board::{cell, on_board, Board, Cell};
use crate::rules::*;

/// "A window is a lowest and a highest row and column, all four inside it."
#[derive(Clone, Copy, Debug, PartialEq, Eq)]
pub struct Window {
    pub low_row: i64,
    pub high_row: i64,
    pub low_col: i64,
    pub high_col: i64,
}

/// Refusal 12: "window end not on it, or a lowest above its highest"; else the cells in bitmap order.
pub fn cells_in(height: u32, board: &Board, w: &Window) -> Result<Vec<Cell>, Number> {
    let ends_on_board = on_board(height, cell(w.low_row, w.low_col)) && on_board(height, cell(w.high_row, w.high_col));
    refuse_if(!ends_on_board || w.low_row > w.high_row || w.low_col > w.high_col, CELL)?;
    let inside = |j: &&Cell| (w.low_row..=w.high_row).contains(&j.row) && (w.low_col..=w.high_col).contains(&j.col);
    Ok(board.joints.iter().filter(inside).copied().collect())
}
