//! Joint sheets: a scan, record by record, then the board of the joints.

use super::board::on_board;
use super::build::{build_codes, code};
use super::measure::{read as measure, read_marked};
use super::{Refusal, MAX_HEIGHT};

const MAX_SHEET: usize = 65536;
const FIRST_JOINT: usize = 2;
const JOINT_RECORD: usize = 11;

#[derive(Clone, Copy, PartialEq, Eq)]
pub enum Kind {
    Board,
    Joint,
    Question,
    Window,
    End,
}

#[derive(Clone, Copy, PartialEq, Eq)]
pub enum Stage {
    Start,
    Joints,
    Requests,
}

#[derive(Clone, Copy)]
pub enum Record {
    Board { height: u32 },
    Joint { row: u32, column: u32 },
    Question { k: u32, row: i32, column: i32 },
    Window { lowest_row: u32, highest_row: u32, lowest_column: u32, highest_column: u32 },
    End,
}

fn kind_of(byte: u8) -> Result<(Kind, usize), Refusal> {
    match byte {
        1 => Ok((Kind::Board, 1)),
        2 => Ok((Kind::Joint, 10)),
        3 => Ok((Kind::Question, 13)),
        4 => Ok((Kind::Window, 20)),
        5 => Ok((Kind::End, 0)),
        _ => Err(Refusal::Kind),
    }
}

fn in_place(stage: Stage, kind: Kind) -> bool {
    match stage {
        Stage::Start => kind == Kind::Board,
        Stage::Joints => kind != Kind::Board,
        Stage::Requests => kind != Kind::Board && kind != Kind::Joint,
    }
}

fn record_of(kind: Kind, height: u32, body: &[u8]) -> Result<Record, Refusal> {
    match kind {
        Kind::Board => {
            let height = u32::from(body[0]);
            if !(1..=MAX_HEIGHT).contains(&height) {
                return Err(Refusal::Height);
            }
            Ok(Record::Board { height })
        }
        Kind::Joint => {
            let row = measure(&body[0..5])?;
            let column = measure(&body[5..10])?;
            if !on_board(height, row, column) {
                return Err(Refusal::Cell);
            }
            Ok(Record::Joint { row, column })
        }
        Kind::Question => {
            Ok(Record::Question { k: u32::from(body[0]), row: read_marked(&body[1..7])?, column: read_marked(&body[7..13])? })
        }
        Kind::Window => Ok(Record::Window {
            lowest_row: measure(&body[0..5])?,
            highest_row: measure(&body[5..10])?,
            lowest_column: measure(&body[10..15])?,
            highest_column: measure(&body[15..20])?,
        }),
        Kind::End => Ok(Record::End),
    }
}

/// The record at an offset, and the offset of the next.
pub fn record_at(sheet: &[u8], at: usize, stage: Stage, height: u32) -> Result<(Record, usize), Refusal> {
    let (kind, length) = kind_of(sheet[at])?;
    if !in_place(stage, kind) {
        return Err(Refusal::OutOfPlace);
    }
    let body = &sheet[at + 1..];
    if body.len() < length {
        return Err(Refusal::RecordCut);
    }
    Ok((record_of(kind, height, body)?, at + 1 + length))
}

/// A refusal with its offset.
pub type Refused = (Refusal, usize);

/// The height and the number of joint records.
fn scan(sheet: &[u8]) -> Result<(u32, usize), Refused> {
    if sheet.len() > MAX_SHEET {
        return Err((Refusal::SheetLength, 0));
    }
    let (mut at, mut stage, mut height, mut joints) = (0, Stage::Start, 0, 0);
    while at < sheet.len() {
        let (record, next) = record_at(sheet, at, stage, height).map_err(|refusal| (refusal, at))?;
        match record {
            Record::Board { height: h } => {
                height = h;
                stage = Stage::Joints;
            }
            Record::Joint { .. } => joints += 1,
            Record::Question { .. } | Record::Window { .. } => stage = Stage::Requests,
            Record::End if next == sheet.len() => return Ok((height, joints)),
            Record::End => return Err((Refusal::End, next)),
        }
        at = next;
    }
    Err((Refusal::End, sheet.len()))
}

#[derive(Clone, Copy, Debug, PartialEq, Eq)]
pub struct Sheeted {
    pub height: u32,
    pub joints: u32,
    pub boxes: u32,
    pub length: u32,
    pub requests: usize,
}

/// The codes of the joints, each read where its record stands.
fn fill_codes(sheet: &[u8], height: u32, work: &mut [u32]) {
    for (i, place) in work.iter_mut().enumerate() {
        *place = match record_at(sheet, FIRST_JOINT + JOINT_RECORD * i, Stage::Joints, height) {
            Ok((Record::Joint { row, column }, _)) => code(height, row, column),
            _ => 0,
        };
    }
}

/// Reads a sheet and builds its board.
pub fn read(sheet: &[u8], work: &mut [u32], bitmap: &mut [u8]) -> Result<Sheeted, Refused> {
    work.fill(0);
    bitmap.fill(0);
    let (height, joints) = scan(sheet)?;
    if work.len() < joints {
        return Err((Refusal::WorkRoom, 0));
    }
    fill_codes(sheet, height, &mut work[..joints]);
    let built = build_codes(height, joints, work, bitmap).map_err(|refusal| (refusal, 0))?;
    Ok(Sheeted {
        height,
        joints: built.joints,
        boxes: built.boxes,
        length: built.length,
        requests: FIRST_JOINT + JOINT_RECORD * joints,
    })
}
