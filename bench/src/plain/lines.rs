//! The lines of a report, record by record, each record's in one buffer.

use super::nearest::{answer_of, asked, Board, Found, Place};
use super::sheet::{read, record_at, Record, Refused, Sheeted, Stage};
use super::window::window;

const MAX_ANSWERS: usize = 255;

fn put_decimal(n: u32, out: &mut [u8], at: usize) -> usize {
    let last = if n < 10 { at } else { put_decimal(n / 10, out, at) };
    out[last] = b'0' + (n % 10) as u8;
    last + 1
}

/// Puts a word, numbers, and a line feed from a place on; the place behind them.
fn put_line(word: &[u8], numbers: &[u32], out: &mut [u8], at: usize) -> usize {
    let mut end = at + word.len();
    out[at..end].copy_from_slice(word);
    for n in numbers {
        out[end] = b' ';
        end = put_decimal(*n, out, end + 1);
    }
    out[end] = b'\n';
    end + 1
}

/// The lists lent for asking.
pub struct Desk<'a> {
    pub rows: &'a mut [u32],
    pub columns: &'a mut [u32],
    pub keys: &'a mut [u64],
    pub corners: &'a mut [u32],
    pub trail: &'a mut [u32],
}

/// Reads a sheet, leaves its bitmap, and puts the first line; how many bytes it has.
pub fn first_line(sheet: &[u8], work: &mut [u32], bitmap: &mut [u8], out: &mut [u8]) -> (Result<Sheeted, Refused>, usize) {
    let answer = read(sheet, work, bitmap);
    let end = match answer {
        Ok(board) => put_line(b"board", &[board.height, board.joints, board.boxes], out, 0),
        Err((refusal, offset)) => put_line(b"refused", &[refusal.number(), offset as u32], out, 0),
    };
    (answer, end)
}

fn put_found(k: u32, found: Found, keys: &[u64], trail: &[u32], out: &mut [u8]) -> usize {
    let mut end = put_line(b"ask", &[k, found.joints, found.boxes], out, 0);
    for key in keys.iter().rev().take(found.joints as usize) {
        let answer = answer_of(*key);
        end = put_line(b"at", &[answer.row, answer.column, answer.distance], out, end);
    }
    put_line(b"opened", &trail[..found.boxes as usize], out, end)
}

fn ask_lines(board: Board, p: Place, k: u32, desk: &mut Desk, out: &mut [u8]) -> usize {
    let end = match asked(board, p, k, MAX_ANSWERS, desk.keys, desk.corners, desk.trail) {
        Ok(found) => put_found(k, found, desk.keys, desk.trail, out),
        Err(refusal) => put_line(b"no", &[refusal.number()], out, 0),
    };
    desk.keys.fill(0);
    end
}

fn window_lines(board: Board, ends: [u32; 4], desk: &mut Desk, out: &mut [u8]) -> usize {
    match window(board, ends, desk.rows, desk.columns) {
        Ok(count) => {
            let n = count as usize;
            let mut end = put_line(b"win", &[count], out, 0);
            for (row, column) in desk.rows[..n].iter().zip(&desk.columns[..n]) {
                end = put_line(b"in", &[*row, *column], out, end);
            }
            end
        }
        Err(refusal) => put_line(b"no", &[refusal.number()], out, 0),
    }
}

fn request_lines(board: Board, request: Record, desk: &mut Desk, out: &mut [u8]) -> usize {
    match request {
        Record::Board { .. } | Record::Joint { .. } => 0,
        Record::Question { k, row, column } => ask_lines(board, Place { row, column }, k, desk, out),
        Record::Window { lowest_row, highest_row, lowest_column, highest_column } => {
            window_lines(board, [lowest_row, highest_row, lowest_column, highest_column], desk, out)
        }
        Record::End => put_line(b"end", &[], out, 0),
    }
}

/// Puts the lines of the record at an offset; how many bytes they have, and the offset of the next record.
pub fn next_lines(board: Board, sheet: &[u8], at: usize, desk: &mut Desk, out: &mut [u8]) -> (usize, usize) {
    let chunk = match record_at(sheet, at, Stage::Requests, board.height) {
        Ok((record, next)) => (request_lines(board, record, desk, out), next),
        Err(_) => (0, sheet.len()),
    };
    desk.rows.fill(0);
    desk.columns.fill(0);
    desk.keys.fill(0);
    desk.corners.fill(0);
    desk.trail.fill(0);
    chunk
}
