//! The benchmark: the proved library beside a plain safe Rust version of the same algorithms, in one run. Before a row is timed both sides must give
//! the same bytes on its input. Exit status 1 where they do not; a ratio is printed, and never asserted.

mod inputs;
#[forbid(unsafe_code)]
mod plain;
mod report;
mod side;
mod timing;

use std::hint::black_box;

use inputs::{Board, Pattern, HEIGHT};
use plain::bitmap::blocks_of;
use report::{report, Room};
use side::{Ours, Plain, Side};
use timing::{compare, Timing};

const QUESTIONS: usize = 128;
const BITMAP: usize = 8875;

/// Whether a row is asked for: all are, unless the command line has a text for them.
fn is_asked_for(what: &str, on: &str) -> bool {
    std::env::args().nth(1).map_or(true, |text| format!("{what} {on}").contains(&text))
}

/// Times both sides and prints the row.
fn row(what: &str, on: &str, goal: Option<f64>, ours: &mut dyn FnMut(), other: &mut dyn FnMut()) {
    if !is_asked_for(what, on) {
        return;
    }
    let Timing { ours, other, ratio } = compare(ours, other);
    let told = goal.map_or("none".to_string(), |goal| format!("{goal:.1}"));
    let over = if goal.is_some_and(|goal| ratio > goal) { "  over the goal" } else { "" };
    println!("{what:<34} {on:<24} {ours:>9.1} {other:>9.1} {ratio:>6.2} {told:>5}{over}");
}

fn must(same: bool, what: &str, on: &str) {
    if !same {
        eprintln!("bench: the two sides differ: {what}, {on}");
        std::process::exit(1);
    }
}

/// The bitmap of a board, without the zeros behind it.
fn bitmap_of<S: Side>(board: &Board) -> Vec<u8> {
    let mut bitmap = vec![0; BITMAP];
    let (_, values, _) = S::build_sheet(&inputs::sheet(&board.joints, &[]), &mut bitmap);
    bitmap.truncate(values[3] as usize);
    bitmap
}

fn check(board: &Board) {
    let bytes = bitmap_of::<Plain>(board);
    let expected = Plain::check(HEIGHT, &bytes);
    must(expected.0 == 0 && Ours::check(HEIGHT, &bytes) == expected, "check", &board.name);
    row(
        "check",
        &board.name,
        Some(1.5),
        &mut || {
            black_box(Ours::check(black_box(HEIGHT), black_box(&bytes)));
        },
        &mut || {
            black_box(Plain::check(black_box(HEIGHT), black_box(&bytes)));
        },
    );
}

fn directory(board: &Board) {
    let bytes = bitmap_of::<Plain>(board);
    let mut made = [vec![1; blocks_of(bytes.len())], vec![2; blocks_of(bytes.len())]];
    let [ours, plain] = &mut made;
    must(
        Ours::directory(HEIGHT, &bytes, ours) == Plain::directory(HEIGHT, &bytes, plain) && ours == plain,
        "directory",
        &board.name,
    );
    row(
        "check and make the directory",
        &board.name,
        Some(1.5),
        &mut || {
            black_box(Ours::directory(black_box(HEIGHT), black_box(&bytes), ours));
        },
        &mut || {
            black_box(Plain::directory(black_box(HEIGHT), black_box(&bytes), plain));
        },
    );
}

fn build_sheet(board: &Board) {
    let sheet = inputs::sheet(&board.joints, &[]);
    let (mut ours, mut plain) = (vec![1; BITMAP], vec![2; BITMAP]);
    let expected = Plain::build_sheet(&sheet, &mut plain);
    must(expected.0 == 0 && Ours::build_sheet(&sheet, &mut ours) == expected && ours == plain, "build from a sheet", &board.name);
    row(
        "build from a sheet",
        &board.name,
        Some(1.5),
        &mut || {
            black_box(Ours::build_sheet(black_box(&sheet), &mut ours));
        },
        &mut || {
            black_box(Plain::build_sheet(black_box(&sheet), &mut plain));
        },
    );
}

/// Building from lists of rows and columns: the goal is twice the plain version.
fn build_cells(board: &Board) {
    let rows: Vec<u32> = board.joints.iter().map(|cell| cell.0 as u32).collect();
    let columns: Vec<u32> = board.joints.iter().map(|cell| cell.1 as u32).collect();
    let mut work = [vec![1; rows.len()], vec![2; rows.len()]];
    let mut made = [vec![1; BITMAP], vec![2; BITMAP]];
    let [our_work, plain_work] = &mut work;
    let [ours, plain] = &mut made;
    let expected = Plain::build(HEIGHT, &rows, &columns, plain_work, plain);
    let same = Ours::build(HEIGHT, &rows, &columns, our_work, ours) == expected && ours == plain && our_work == plain_work;
    must(expected.0 == 0 && same, "build from cells", &board.name);
    row(
        "build from shuffled cells",
        &board.name,
        Some(2.0),
        &mut || {
            black_box(Ours::build(black_box(HEIGHT), black_box(&rows), black_box(&columns), our_work, ours));
        },
        &mut || {
            black_box(Plain::build(black_box(HEIGHT), black_box(&rows), black_box(&columns), plain_work, plain));
        },
    );
}

/// Sorting alone, beside the same heap sort, and beside the standard library's sort, which is another algorithm.
fn sort(board: &Board) {
    let codes: Vec<u32> = board.joints.iter().map(|cell| plain::build::code(HEIGHT, cell.0 as u32, cell.1 as u32)).collect();
    let mut expected = codes.clone();
    expected.sort_unstable();
    let (mut ours, mut other) = (codes.clone(), codes.clone());
    Ours::sort(&mut ours);
    Plain::sort(&mut other);
    must(ours == expected && other == expected, "sort", &board.name);
    let mut sort_ours = || {
        ours.copy_from_slice(&codes);
        Ours::sort(black_box(&mut ours));
    };
    let mut sort_plain = || {
        other.copy_from_slice(&codes);
        Plain::sort(black_box(&mut other));
    };
    row("sort codes, heap sort", &board.name, Some(1.5), &mut sort_ours, &mut sort_plain);
    let mut sort_unstable = || {
        other.copy_from_slice(&codes);
        black_box(&mut other).sort_unstable();
    };
    row("the same, beside sort_unstable", &board.name, None, &mut sort_ours, &mut sort_unstable);
}

fn whole<S: Side>(sheet: &[u8], room: &mut Room) -> Vec<u8> {
    let mut text = vec![];
    report::<S>(sheet, room, |chunk| text.extend_from_slice(chunk));
    text
}

fn whole_report(what: &str, board: &Board, asked: &[Vec<u8>]) {
    if !is_asked_for(what, &board.name) {
        return;
    }
    let sheet = inputs::sheet(&board.joints, asked);
    let (mut ours, mut plain) = (Room::new(), Room::new());
    let expected = whole::<Plain>(&sheet, &mut plain);
    let same = whole::<Ours>(&sheet, &mut ours) == expected && ours.is_clear() && plain.is_clear();
    must(expected.ends_with(b"end\n") && same, what, &board.name);
    let count = |room: &mut Room, by: fn(&[u8], &mut Room, &mut usize)| {
        let mut length = 0;
        by(black_box(&sheet), room, &mut length);
        black_box(length);
    };
    row(
        what,
        &board.name,
        Some(1.5),
        &mut || count(&mut ours, |sheet, room, length| report::<Ours>(sheet, room, |chunk| *length += chunk.len())),
        &mut || count(&mut plain, |sheet, room, length| report::<Plain>(sheet, room, |chunk| *length += chunk.len())),
    );
}

fn main() {
    let boards = [
        inputs::board(Pattern::Uniform, 4096, 1),
        inputs::board(Pattern::Pads, 4096, 2),
        inputs::board(Pattern::Uniform, 256, 3),
        inputs::board(Pattern::Pads, 256, 4),
    ];
    println!("{:<34} {:<24} {:>9} {:>9} {:>6} {:>5}", "what", "joints", "ours, us", "plain, us", "ratio", "goal");
    boards.iter().for_each(check);
    boards.iter().for_each(directory);
    boards.iter().for_each(build_sheet);
    build_cells(&boards[0]);
    sort(&boards[0]);
    for k in [1, 8, 64, 255] {
        let what = format!("report of {QUESTIONS} questions, K {k}");
        for board in &boards {
            whole_report(&what, board, &inputs::questions(QUESTIONS, k, 5));
        }
    }
    for board in &boards {
        whole_report(&format!("report of {QUESTIONS} windows"), board, &inputs::windows(QUESTIONS, 6));
    }
    println!();
    println!(
        "{:<24} {:>12} {:>12} {:>16} {:>16}",
        "bytes, for each joint", "bitmap", "directory", "bitmap, each", "directory, each"
    );
    for board in &boards {
        let bytes = bitmap_of::<Ours>(board).len();
        let directory = 2 * blocks_of(bytes);
        let each = |n: usize| n as f64 / board.joints.len() as f64;
        println!("{:<24} {bytes:>12} {directory:>12} {:>16.3} {:>16.3}", board.name, each(bytes), each(directory));
    }
}
