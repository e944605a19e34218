//! The stored cells inside a window, listed box by box.

use std::ops::Range;

use super::bitmap::{bit_in, first_child, group_at};
use super::board::{ask, side};
use super::nearest::Board;
use super::Refusal;

/// A box by the levels left under it, its group, and its row and column among the boxes of its level.
struct Spot {
    left: u32,
    group: u32,
    row: u32,
    column: u32,
}

struct Listing<'a> {
    bytes: &'a [u8],
    directory: &'a [u16],
    in_rows: Range<u32>,
    in_columns: Range<u32>,
    rows: &'a mut [u32],
    columns: &'a mut [u32],
    count: usize,
}

fn meets(span: &Range<u32>, left: u32, at: u32) -> bool {
    let first = at * side(left);
    first + side(left) > span.start && first < span.end
}

impl Listing<'_> {
    fn list_quarter(&mut self, spot: Spot) {
        if !meets(&self.in_rows, spot.left, spot.row) || !meets(&self.in_columns, spot.left, spot.column) {
            return;
        }
        if spot.left > 0 {
            return self.list_box(spot);
        }
        if let Some(place) = self.rows.get_mut(self.count) {
            *place = spot.row;
        }
        if let Some(place) = self.columns.get_mut(self.count) {
            *place = spot.column;
        }
        self.count += 1;
    }

    fn list_box(&mut self, spot: Spot) {
        let bits = group_at(self.bytes, spot.group);
        let mut child = first_child(self.bytes, self.directory, spot.group);
        for quarter in 0..4 {
            if bit_in(bits, quarter) == 1 {
                let (row, column) = (2 * spot.row + quarter / 2, 2 * spot.column + quarter % 2);
                self.list_quarter(Spot { left: spot.left - 1, group: child, row, column });
                child += 1;
            }
        }
    }
}

fn ends_fit(height: u32, lowest: u32, highest: u32) -> bool {
    lowest <= highest && highest < side(height)
}

/// How many cells are inside; their rows and columns are left in the two lists. The ends are lowest and highest row, lowest and highest column.
pub fn window(board: Board, ends: [u32; 4], rows: &mut [u32], columns: &mut [u32]) -> Result<u32, Refusal> {
    rows.fill(0);
    columns.fill(0);
    let Board { height, bytes, directory } = board;
    ask(height, bytes, directory)?;
    if !ends_fit(height, ends[0], ends[1]) || !ends_fit(height, ends[2], ends[3]) {
        return Err(Refusal::Cell);
    }
    let mut listing =
        Listing { bytes, directory, in_rows: ends[0]..ends[1] + 1, in_columns: ends[2]..ends[3] + 1, rows, columns, count: 0 };
    listing.list_box(Spot { left: height, group: 0, row: 0, column: 0 });
    let count = listing.count;
    if count > rows.len() || count > columns.len() {
        rows.fill(0);
        columns.fill(0);
        return Err(Refusal::AnswerRoom);
    }
    Ok(count as u32)
}
