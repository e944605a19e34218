//! The joint sheet: reading its records, and building the board that it describes.

use crate::board::{self, cell, on_board, Built, Cell};
use crate::measure::{read_marked, read_plain};
use crate::rules::*;
use crate::window::Window;

/// One record that was read.
#[derive(Clone, Debug, PartialEq, Eq)]
pub enum Record {
    Board { height: u32 },
    Joint(Cell),
    Question { k: u32, place: Cell },
    Window(Window),
    End,
}

/// A refused sheet: the number and the offset.
#[derive(Clone, Copy, Debug, PartialEq, Eq)]
pub struct Refused {
    pub number: Number,
    pub offset: usize,
}

/// A served sheet.
#[derive(Debug)]
pub struct Sheet {
    pub height: u32,
    pub built: Built,
    /// The questions and windows, in sheet order.
    pub asked: Vec<Record>,
    /// "the offset of the first record after the joints"
    pub after_joints: usize,
}

/// "Each record is one byte of kind, then a body whose length the kind fixes"; an unknown kind has none.
fn body_length(kind: u8) -> Option<usize> {
    match kind {
        1 => Some(1),
        2 => Some(10),
        3 => Some(13),
        4 => Some(20),
        5 => Some(0),
        _ => None,
    }
}

/// "Kind 1 stands first, once; then joints; then questions and windows in any mix; then the end."
fn in_place(kind: u8, before: &[Record]) -> bool {
    let only_joints = before.iter().skip(1).all(|r| matches!(r, Record::Joint(_)));
    match kind {
        1 => before.is_empty(),
        2 => !before.is_empty() && only_joints,
        _ => !before.is_empty(),
    }
}

/// The refusals of a body: "1, or 13 from the left, and for a joint 12".
fn read_body(kind: u8, body: &[u8], height: u32) -> Result<Record, Number> {
    match kind {
        1 => {
            let height = u32::from(body[0]);
            refuse_if(!board::is_height(height), HEIGHT)?;
            Ok(Record::Board { height })
        }
        2 => {
            let joint = cell(read_plain(&body[..5])?, read_plain(&body[5..])?);
            refuse_if(!on_board(height, joint), CELL)?;
            Ok(Record::Joint(joint))
        }
        3 => {
            let place = cell(read_marked(&body[1..7])?, read_marked(&body[7..])?);
            Ok(Record::Question { k: u32::from(body[0]), place })
        }
        4 => Ok(Record::Window(Window {
            low_row: read_plain(&body[..5])?,
            high_row: read_plain(&body[5..10])?,
            low_col: read_plain(&body[10..15])?,
            high_col: read_plain(&body[15..])?,
        })),
        _ => Ok(Record::End),
    }
}

/// Reads the record at the start of `rest`: "14, 15, 16, and of its body ...". Gives it with its length in bytes.
fn read_record(rest: &[u8], before: &[Record]) -> Result<(Record, usize), Number> {
    let kind = rest[0];
    let length = 1 + body_length(kind).ok_or(KIND)?;
    refuse_if(!in_place(kind, before), OUT_OF_PLACE)?;
    refuse_if(rest.len() < length, CUT_SHORT)?;
    let height = match before.first() {
        Some(Record::Board { height }) => *height,
        _ => 0,
    };
    Ok((read_body(kind, &rest[1..length], height)?, length))
}

/// All records up to and including the first end record, each with its offset: 19, the refusals of each record, 17.
fn read_records(bytes: &[u8]) -> Result<Vec<(Record, usize)>, Refused> {
    refuse_if(bytes.len() > MAX_SHEET, SHEET_TOO_LONG).map_err(|number| Refused { number, offset: 0 })?;
    let mut records: Vec<Record> = vec![];
    let mut offsets = vec![];
    let mut at = 0;
    while at < bytes.len() && records.last() != Some(&Record::End) {
        let (record, length) = read_record(&bytes[at..], &records).map_err(|number| Refused { number, offset: at })?;
        records.push(record);
        offsets.push(at);
        at += length;
    }
    // "for 17, the first byte after the end record, or the sheet's length": both are where the reading stopped.
    let right_end = at == bytes.len() && records.last() == Some(&Record::End);
    refuse_if(!right_end, NO_END).map_err(|number| Refused { number, offset: at })?;
    Ok(records.into_iter().zip(offsets).collect())
}

/// The sheet reader with a work list of `work` places and bitmap room of `room` bytes: "last 10, 5, then 18, all at
/// offset 0".
pub fn read(bytes: &[u8], work: usize, room: usize) -> Result<Sheet, Refused> {
    let records = read_records(bytes)?;
    let mut height = 0;
    let (mut rows, mut cols, mut asked) = (vec![], vec![], vec![]);
    let mut after_joints = None;
    for (record, offset) in records {
        match record {
            Record::Board { height: h } => height = h,
            Record::Joint(joint) => {
                rows.push(joint.row);
                cols.push(joint.col);
            }
            later => {
                after_joints.get_or_insert(offset);
                asked.push(later);
            }
        }
    }
    asked.pop(); // the end record
    let built = board::build(height, &rows, &cols, work, room).map_err(|number| Refused { number, offset: 0 })?;
    Ok(Sheet { height, built, asked, after_joints: after_joints.expect("the end record is after the joints") })
}
