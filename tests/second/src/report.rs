//! The report of a sheet, and the tally of what reports say.

use std::collections::BTreeMap;
use std::fmt::Write;

use crate::board::{self, Board};
use crate::nearest::{nearest, Question};
use crate::rules::*;
use crate::sheet::{self, Record};
use crate::window::cells_in;

/// What the program prints for a sheet, every line with its line feed.
pub fn report(bytes: &[u8]) -> String {
    let sheet = match sheet::read(bytes, ENOUGH, ENOUGH) {
        Ok(sheet) => sheet,
        Err(refused) => return format!("refused {} {}\n", refused.number, refused.offset),
    };
    let board = board::check(sheet.height, &sheet.built.bytes).expect("a bitmap that was built is valid");
    let mut text = format!("board {} {} {}\n", sheet.height, sheet.built.joints, sheet.built.boxes);
    // Questions and windows come in sheet order, mixed as written.
    for asked in &sheet.asked {
        text += &answer(sheet.height, &board, asked).unwrap_or_else(|number| format!("no {number}\n"));
    }
    text + "end\n"
}

/// The lines of one question or window, or the number that refuses it.
fn answer(height: u32, board: &Board, asked: &Record) -> Result<String, Number> {
    let mut text = String::new();
    match asked {
        Record::Question { k, place } => {
            let rooms = Question { place: *place, k: *k, answer_room: ENOUGH, work_room: ENOUGH, trail_room: TRAIL_ROOM };
            let answer = nearest(board, &rooms)?;
            writeln!(text, "ask {k} {} {}", answer.found.len(), answer.trail.len()).unwrap();
            for at in &answer.found {
                writeln!(text, "at {} {} {}", at.joint.row, at.joint.col, at.distance).unwrap();
            }
            text += "opened";
            for group in &answer.trail {
                write!(text, " {group}").unwrap();
            }
            text += "\n";
        }
        Record::Window(window) => {
            let cells = cells_in(height, board, window)?;
            writeln!(text, "win {}", cells.len()).unwrap();
            for found in &cells {
                writeln!(text, "in {} {}", found.row, found.col).unwrap();
            }
        }
        other => unreachable!("{other:?} is no question and no window"),
    }
    Ok(text)
}

/// How often each kind of line was met: `refused` and `no` with their number, `board`, `ask` and `win` alone.
#[derive(Default)]
pub struct Tally(BTreeMap<String, usize>);

impl Tally {
    pub fn add(&mut self, report: &str) {
        for line in report.lines() {
            let mut fields = line.split(' ');
            let key = match (fields.next(), fields.next()) {
                (Some(word @ ("refused" | "no")), Some(number)) => format!("{word} {number}"),
                (Some(word @ ("board" | "ask" | "win")), _) => word.to_string(),
                _ => continue,
            };
            *self.0.entry(key).or_default() += 1;
        }
    }

    pub fn count(&self, key: &str) -> usize {
        self.0.get(key).copied().unwrap_or(0)
    }

    /// One line for each word (and number) met: the word, the number if it has one, and how often.
    pub fn lines(&self) -> String {
        self.0.iter().map(|(key, count)| format!("{key} {count}\n")).collect()
    }
}
