//! The batch streams: cases one after another in a stream of bytes, one line of answer for each. README.md describes
//! the formats; all numbers are 32-bit, least significant byte first.

use std::fmt::Write;

use crate::board::{self, cell, Built};
use crate::measure::{read_marked, read_plain};
use crate::nearest::{nearest, Question};
use crate::rules::Number;
use crate::sheet;

/// A stream of cases that is read from its front.
pub struct Cases<'a> {
    rest: &'a [u8],
}

impl<'a> Cases<'a> {
    fn bytes(&mut self, length: usize) -> Result<&'a [u8], String> {
        if self.rest.len() < length {
            return Err(format!("the stream ends inside a case: {length} bytes are due, {} are left", self.rest.len()));
        }
        let (taken, rest) = self.rest.split_at(length);
        self.rest = rest;
        Ok(taken)
    }

    fn number(&mut self) -> Result<u32, String> {
        Ok(u32::from_le_bytes(self.bytes(4)?.try_into().expect("four bytes")))
    }

    fn count(&mut self) -> Result<usize, String> {
        Ok(self.number()? as usize)
    }

    fn signed(&mut self) -> Result<i64, String> {
        Ok(i64::from(self.number()? as i32))
    }

    fn list(&mut self, length: usize) -> Result<Vec<i64>, String> {
        (0..length).map(|_| self.number().map(i64::from)).collect()
    }

    fn counted_bytes(&mut self) -> Result<&'a [u8], String> {
        let length = self.count()?;
        self.bytes(length)
    }
}

/// Reads one case and gives the line that answers it; an error when the stream ends inside the case.
pub type Line = fn(&mut Cases) -> Result<String, String>;

/// Reads the cases of `stream` one by one, each with `line`, and gives the lines.
pub fn answer_all(stream: &[u8], line: Line) -> Result<String, String> {
    let mut cases = Cases { rest: stream };
    let mut text = String::new();
    while !cases.rest.is_empty() {
        text += &line(&mut cases)?;
        text.push('\n');
    }
    Ok(text)
}

/// `number joints boxes`
pub fn check_line(case: &mut Cases) -> Result<String, String> {
    let height = case.number()?;
    let bytes = case.counted_bytes()?;
    Ok(match board::check(height, bytes) {
        Ok(board) => format!("0 {} {}", board.joints.len(), board.groups.len()),
        Err(number) => format!("{number} 0 0"),
    })
}

/// `number value number value`, first of the plain reading, then of the marked one
pub fn measure_line(case: &mut Cases) -> Result<String, String> {
    let text = case.counted_bytes()?;
    let show = |read: Result<i64, Number>| match read {
        Ok(value) => format!("0 {value}"),
        Err(number) => format!("{number} 0"),
    };
    Ok(format!("{} {}", show(read_plain(text)), show(read_marked(text))))
}

fn hex(bytes: &[u8]) -> String {
    bytes.iter().map(|b| format!("{b:02x}")).collect()
}

fn built_fields(built: &Built) -> String {
    format!("{} {} {}", built.joints, built.boxes, built.bytes.len())
}

/// `number joints boxes length bitmap`
pub fn build_line(case: &mut Cases) -> Result<String, String> {
    let height = case.number()?;
    let work = case.count()?;
    let room = case.count()?;
    let (row_count, col_count) = (case.count()?, case.count()?);
    let (rows, cols) = (case.list(row_count)?, case.list(col_count)?);
    Ok(match board::build(height, &rows, &cols, work, room) {
        Ok(built) => format!("0 {} {}", built_fields(&built), hex(&built.bytes)),
        Err(number) => format!("{number} 0 0 0 -"),
    })
}

/// `number offset height joints boxes length after bitmap`
pub fn sheet_line(case: &mut Cases) -> Result<String, String> {
    let work = case.count()?;
    sheet_line_with(case, work)
}

/// the same for a call that brings room of its own for the joints of the longest sheet; the work room of the case is left aside
pub fn tablet_line(case: &mut Cases) -> Result<String, String> {
    case.count()?;
    sheet_line_with(case, usize::MAX)
}

fn sheet_line_with(case: &mut Cases, work: usize) -> Result<String, String> {
    let room = case.count()?;
    let bytes = case.counted_bytes()?;
    Ok(match sheet::read(bytes, work, room) {
        Ok(s) => format!("0 0 {} {} {} {}", s.height, built_fields(&s.built), s.after_joints, hex(&s.built.bytes)),
        Err(refused) => format!("{} {} 0 0 0 0 0 -", refused.number, refused.offset),
    })
}

/// `number found opened`, then row, column and squared distance of each joint found, then the trail
pub fn nearest_line(case: &mut Cases) -> Result<String, String> {
    let height = case.number()?;
    let bytes = case.counted_bytes()?;
    let place = cell(case.signed()?, case.signed()?);
    let k = case.number()?;
    let (answer_room, work_room, trail_room) = (case.count()?, case.count()?, case.count()?);
    let question = Question { place, k, answer_room, work_room, trail_room };
    let answer = match board::check(height, bytes).and_then(|board| nearest(&board, &question)) {
        Ok(answer) => answer,
        Err(number) => return Ok(format!("{number} 0 0")),
    };
    let mut line = format!("0 {} {}", answer.found.len(), answer.trail.len());
    for r in &answer.found {
        write!(line, " {} {} {}", r.joint.row, r.joint.col, r.distance).unwrap();
    }
    for group in &answer.trail {
        write!(line, " {group}").unwrap();
    }
    Ok(line)
}

/// Writes cases, the counterpart of `Cases`.
#[derive(Default)]
pub struct Writer {
    pub stream: Vec<u8>,
}

impl Writer {
    pub fn number(&mut self, value: u32) {
        self.stream.extend(value.to_le_bytes());
    }

    pub fn count(&mut self, value: usize) {
        self.number(u32::try_from(value).expect("a count fits 32 bits"));
    }

    pub fn signed(&mut self, value: i64) {
        self.number(i32::try_from(value).expect("a place fits 32 bits") as u32);
    }

    pub fn counted_bytes(&mut self, bytes: &[u8]) {
        self.count(bytes.len());
        self.stream.extend(bytes);
    }
}
