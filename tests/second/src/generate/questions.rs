//! The fixed questions: the paper's own, places off the board on every side, every K where many joints are equally far,
//! every refusal with each list one place too short, and the largest boards.

use std::collections::BTreeSet;

use crate::batch::Writer;
use crate::board::{bitmap, cell, check, side_of, Cell};
use crate::generate::pattern;
use crate::nearest::{distance, nearest, Question};
use crate::random::Random;
use crate::rules::*;

/// The joints of a board and its bitmap.
struct Sample {
    height: u32,
    joints: BTreeSet<Cell>,
    bytes: Vec<u8>,
}

fn sample(height: u32, joints: impl IntoIterator<Item = Cell>) -> Sample {
    let joints: BTreeSet<Cell> = joints.into_iter().collect();
    let bytes = bitmap(height, &joints).bytes;
    Sample { height, joints, bytes }
}

/// Every cell of a square of that side, `step` apart.
fn square(side: i64, step: i64) -> impl Iterator<Item = Cell> {
    (0..side * side).map(move |i| cell(i / side * step, i % side * step))
}

fn full(height: u32) -> Sample {
    sample(height, square(side_of(height), 1))
}

fn board_a() -> Sample {
    sample(2, [cell(0, 1), cell(1, 0), cell(2, 3), cell(3, 3)])
}

const MIDDLE: Cell = Cell { row: 31, col: 31 };

/// Joints in rings around `MIDDLE`: many are equally far from it.
fn rings() -> Sample {
    let ringed = |c: &Cell| *c != MIDDLE && distance(MIDDLE, *c) % 65 == 0;
    sample(6, square(side_of(6), 1).filter(ringed))
}

/// Joints 4 apart, four of them equally near to `MIDDLE`.
fn lattice() -> Sample {
    sample(6, square(16, 4).map(|c| cell(c.row + 1, c.col + 1)))
}

/// As many joints as a board may hold, at random.
fn uniform() -> Sample {
    let mut random = Random::new(1);
    let mut joints = BTreeSet::new();
    while joints.len() < MAX_JOINTS {
        joints.insert(pattern::any_cell(&mut random, side_of(MAX_HEIGHT)));
    }
    sample(MAX_HEIGHT, joints)
}

/// One case: a board, a question, and the room of the answers, of the work lists and of the trail.
pub fn case(writer: &mut Writer, height: u32, bytes: &[u8], (place, k): (Cell, u32), rooms: [usize; 3]) {
    writer.number(height);
    writer.counted_bytes(bytes);
    writer.signed(place.row);
    writer.signed(place.col);
    writer.number(k);
    rooms.into_iter().for_each(|room| writer.count(room));
}

/// The least rooms with which the question is served.
fn rooms(of: &Sample, place: Cell, k: u32) -> [usize; 3] {
    let board = check(of.height, &of.bytes).expect("a right board");
    let question = Question { place, k, answer_room: ENOUGH, work_room: ENOUGH, trail_room: ENOUGH };
    let opened = nearest(&board, &question).map_or(0, |answer| answer.trail.len());
    [k as usize, of.joints.len().max(1), opened]
}

/// The question with just enough room.
fn ask(writer: &mut Writer, of: &Sample, place: Cell, k: u32) {
    case(writer, of.height, &of.bytes, (place, k), rooms(of, place, k));
}

/// The question with each list one place too short on its own, and then with all of them too short, the first ones mended
/// one by one: so which number goes first is seen.
fn too_short(writer: &mut Writer, of: &Sample, place: Cell, k: u32) {
    let [answers, work, trail] = rooms(of, place, k);
    let mut write = |rooms| case(writer, of.height, &of.bytes, (place, k), rooms);
    write([answers - 1, work, trail]);
    write([answers, work - 1, trail]);
    write([answers, work, trail - 1]);
    write([answers - 1, work - 1, trail - 1]);
    write([answers, work - 1, trail - 1]);
    write([answers + 1, work + 1, trail + 1]);
    write([0, 0, 0]);
}

/// The paper's questions about board A, the board with no joint and the one that is full.
fn bench(writer: &mut Writer) {
    let a = board_a();
    for (row, col, k) in [(1, 1, 1), (1, 1, 3), (1, 1, 9), (0, 3, 1), (-2, 0, 1), (1, 1, 255)] {
        ask(writer, &a, cell(row, col), k);
    }
    for k in [1, 3, 255] {
        ask(writer, &sample(1, []), cell(MAX_PLACE, -MAX_PLACE), k);
        ask(writer, &full(1), cell(0, 0), k);
    }
}

/// Places off the board on every side, near it and as far as they may be.
fn around(writer: &mut Writer, of: &Sample, k: u32) {
    let side = side_of(of.height);
    let along = [-MAX_PLACE, -side, -1, side / 2, side, MAX_PLACE];
    for row in along {
        for col in along {
            ask(writer, of, cell(row, col), k);
        }
    }
}

/// Places and K out of range, with no room at all: those numbers go first, the place before K.
fn out_of_range(writer: &mut Writer) {
    let a = board_a();
    let far = [-MAX_PLACE - 1, MAX_PLACE + 1, i64::from(i32::MIN), i64::from(i32::MAX)];
    for place in far.iter().flat_map(|far| [cell(*far, 1), cell(1, *far), cell(*far, *far)]) {
        case(writer, a.height, &a.bytes, (place, 0), [0, 0, 0]);
        case(writer, a.height, &a.bytes, (place, 1), [9, 9, 9]);
    }
    for k in [0, MAX_K + 1, 65_537, u32::MAX] {
        case(writer, a.height, &a.bytes, (cell(1, 1), k), [0, 0, 0]);
        case(writer, a.height, &a.bytes, (cell(1, 1), k), [300, 9, 9]);
    }
}

/// Boards that are refused, of which the question is wrong too: the board's number goes first.
fn wrong_boards(writer: &mut Writer) {
    let too_many = sample(7, square(64, 1).chain([cell(64, 64)])).bytes;
    let spoiled: [(u32, &[u8]); 9] = [
        (0, &[0x96, 0x50]),
        (11, &[0x96, 0x50]),
        (u32::MAX, &[0x96, 0x50]),
        (2, &[]),
        (2, &[0x96]),
        (2, &[0x98, 0x00]),
        (2, &[0x96, 0x51]),
        (2, &[0x96, 0x50, 0x00]),
        (7, &too_many),
    ];
    for (height, bytes) in spoiled {
        case(writer, height, bytes, (cell(2000, 0), 0), [0, 0, 0]);
        case(writer, height, bytes, (cell(1, 1), 1), [1, 4097, 4096]);
    }
}

/// Every K from 1 to 255 on one of the boards with many ties, and on each of them those about the number of its joints.
fn ties(writer: &mut Writer) {
    let boards = [(full(3), cell(3, 3)), (full(4), cell(8, 8)), (rings(), MIDDLE), (lattice(), MIDDLE)];
    for k in 1..=MAX_K {
        let (board, place) = &boards[k as usize % boards.len()];
        ask(writer, board, *place, k);
    }
    for (board, place) in &boards {
        let joints = board.joints.len() as u32;
        for k in [joints - 1, joints, joints + 1, MAX_K].into_iter().filter(|k| *k <= MAX_K) {
            ask(writer, board, *place, k);
        }
    }
}

/// 4,096 joints on the largest board, at (16i, 16j) and at random: the fewest and the most to be found, from the middle and
/// from far off.
fn largest(writer: &mut Writer) {
    for board in [sample(MAX_HEIGHT, square(64, 16)), uniform()] {
        for place in [cell(511, 511), cell(-1500, 700)] {
            for k in [1, MAX_K] {
                ask(writer, &board, place, k);
            }
        }
    }
}

pub fn fixed(writer: &mut Writer) {
    bench(writer);
    for board in [board_a(), full(3), lattice()] {
        around(writer, &board, 5);
    }
    out_of_range(writer);
    wrong_boards(writer);
    for (board, place, k) in [(board_a(), cell(1, 1), 1), (sample(1, []), cell(0, 0), 1), (full(4), cell(8, 8), 7), (rings(), MIDDLE, 20)] {
        ask(writer, &board, place, k);
        too_short(writer, &board, place, k);
    }
    ties(writer);
    largest(writer);
}
