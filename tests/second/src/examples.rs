//! Sheets with reports written by hand: document 01's own, and one for each place where a rule is easily misread.

use crate::board::{cell, Cell};
use crate::generate::records::{board, end, joint, question, sheet, window};
use crate::rules::MAX_SHEET;

pub struct Example {
    pub name: &'static str,
    pub sheet: Vec<u8>,
    pub report: String,
}

fn example(name: &'static str, sheet: Vec<u8>, lines: &[&str]) -> Example {
    Example { name, sheet, report: lines.iter().map(|line| format!("{line}\n")).collect() }
}

/// The joints of document 01's board A.
pub const BOARD_A: [Cell; 4] =
    [Cell { row: 0, col: 1 }, Cell { row: 1, col: 0 }, Cell { row: 2, col: 3 }, Cell { row: 3, col: 3 }];

/// "Sheet R: height 2; joints (0,1), (1,0), (2,3), (3,3) as 000,0 000,5 and so on; question K 1 at +000,0 +001,5;
/// window rows 000,5 to 001,5, columns 000,0 to 001,5; end. 82 bytes."
pub fn sheet_r() -> Vec<u8> {
    let text: &[&[u8]] = &[
        b"\x01\x02",
        b"\x02000,0000,5",
        b"\x02000,5000,0",
        b"\x02001,0001,5",
        b"\x02001,5001,5",
        b"\x03\x01+000,0+001,5",
        b"\x04000,5001,5000,0001,5",
        b"\x05",
    ];
    text.concat()
}

pub const REPORT_R: [&str; 9] =
    ["board 2 4 3", "ask 1 1 3", "at 0 1 4", "opened 0 1 2", "win 3", "in 1 0", "in 2 3", "in 3 3", "end"];

/// The records of a sheet on a board of height 2, the board record itself put before them.
fn on_height_2(records: &[Vec<u8>]) -> Vec<u8> {
    [board(2), records.concat()].concat()
}

fn cells_of_side_128(count: i64) -> Vec<Cell> {
    (0..count).map(|i| cell(i / 128, i % 128)).collect()
}

pub fn all() -> Vec<Example> {
    let mut all = served();
    all.extend(refused());
    all
}

fn served() -> Vec<Example> {
    let asked_a = [
        question(1, cell(1, 1)),
        question(3, cell(1, 1)),
        question(9, cell(1, 1)),
        question(1, cell(0, 3)),
        question(1, cell(-2, 0)),
    ];
    let answers_a = [
        "board 2 4 3",
        "ask 1 1 2",
        "at 0 1 1",
        "opened 0 1",
        "ask 3 3 3",
        "at 0 1 1",
        "at 1 0 1",
        "at 2 3 5",
        "opened 0 1 2",
        "ask 9 4 3",
        "at 0 1 1",
        "at 1 0 1",
        "at 2 3 5",
        "at 3 3 8",
        "opened 0 1 2",
        "ask 1 1 3",
        "at 0 1 4",
        "opened 0 1 2",
        "ask 1 1 2",
        "at 0 1 5",
        "opened 0 1",
        "end",
    ];
    let every = [cell(1, 1), cell(1, 0), cell(0, 1), cell(0, 0), cell(1, 1)];
    let full_2: Vec<Cell> = (0..16).map(|i| cell(i / 4, i % 4)).collect();
    let in_quarters = [
        "board 2 16 5",
        "win 16",
        "in 0 0",
        "in 0 1",
        "in 1 0",
        "in 1 1",
        "in 0 2",
        "in 0 3",
        "in 1 2",
        "in 1 3",
        "in 2 0",
        "in 2 1",
        "in 3 0",
        "in 3 1",
        "in 2 2",
        "in 2 3",
        "in 3 2",
        "in 3 3",
        "end",
    ];
    vec![
        example("r", sheet_r(), &REPORT_R),
        example("bench-questions", sheet(2, &BOARD_A, &asked_a).concat(), &answers_a),
        example("empty-board", sheet(2, &[], &[]).concat(), &["board 2 0 1", "end"]),
        example(
            "empty-board-asked",
            sheet(1, &[], &[question(255, cell(-1999, 1999)), window([0, 1, 0, 1])]).concat(),
            &["board 1 0 1", "ask 255 0 1", "opened 0", "win 0", "end"],
        ),
        example(
            "full-height-1",
            sheet(1, &every, &[question(255, cell(0, 0))]).concat(),
            &["board 1 4 1", "ask 255 4 1", "at 0 0 0", "at 0 1 1", "at 1 0 1", "at 1 1 2", "opened 0", "end"],
        ),
        // questions and windows are answered in sheet order
        example(
            "window-first",
            on_height_2(&[joint(cell(0, 1)), window([0, 0, 0, 0]), question(1, cell(0, 3)), end()]),
            &["board 2 1 2", "win 0", "ask 1 1 2", "at 0 1 4", "opened 0 1", "end"],
        ),
        example("cells-by-quarters", sheet(2, &full_2, &[window([0, 3, 0, 3])]).concat(), &in_quarters),
        example(
            "one-cell-windows",
            sheet(2, &BOARD_A, &[window([0, 0, 1, 1]), window([0, 0, 0, 0]), window([3, 3, 3, 3])]).concat(),
            &["board 2 4 3", "win 1", "in 0 1", "win 0", "win 1", "in 3 3", "end"],
        ),
        // K of 0 and a window off the board refuse that question alone
        example(
            "refused-questions",
            sheet(2, &BOARD_A, &[question(0, cell(0, 0)), window([1, 0, 0, 3]), window([0, 4, 0, 3]), window([0, 3, 2, 1])])
                .concat(),
            &["board 2 4 3", "no 8", "no 12", "no 12", "no 12", "end"],
        ),
    ]
}

fn refused() -> Vec<Example> {
    let r = sheet_r();
    let far = cells_of_side_128(4097);
    let mut no_end = sheet(7, &far, &[]).concat();
    no_end.pop();
    vec![
        example("empty-sheet", vec![], &["refused 17 0"]),
        example("height-0", sheet(0, &[], &[]).concat(), &["refused 1 0"]),
        example("height-11", sheet(11, &[], &[]).concat(), &["refused 1 0"]),
        example("digit-as-kind", b"1".to_vec(), &["refused 14 0"]),
        // all rules of one record before any of the next
        example("record-by-record", on_height_2(&[joint(cell(4, 0)), vec![9]]), &["refused 12 2"]),
        example("measure-before-board", on_height_2(&[b"\x02999,5000.0".to_vec(), end()]), &["refused 13 2"]),
        example("joint-after-question", on_height_2(&[question(1, cell(0, 0)), vec![2]]), &["refused 15 16"]),
        example("cut-before-measure", on_height_2(&[b"\x02...".to_vec()]), &["refused 16 2"]),
        example("end-first", end(), &["refused 15 0"]),
        example("board-cut", vec![1], &["refused 16 0"]),
        example("r-without-end", r[..81].to_vec(), &["refused 17 81"]),
        example("r-window-cut", r[..80].to_vec(), &["refused 16 60"]),
        example("byte-after-end", on_height_2(&[end(), vec![9]]), &["refused 17 3"]),
        example("end-after-end", on_height_2(&[end(), end()]), &["refused 17 3"]),
        example("board-twice", on_height_2(&[board(2), end()]), &["refused 15 2"]),
        example("minus-zero", on_height_2(&[b"\x03\x00-000,0+000,0".to_vec(), end()]), &["refused 13 2"]),
        example("joints-4097", sheet(7, &far, &[]).concat(), &["refused 5 0"]),
        example("joints-4097-no-end", no_end, &["refused 17 45069"]),
        example("zeros-65536", vec![0; MAX_SHEET], &["refused 14 0"]),
        example("zeros-65537", vec![0; MAX_SHEET + 1], &["refused 19 0"]),
    ]
}
