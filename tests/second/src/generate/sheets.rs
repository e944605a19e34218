//! The sheets of the generator.

use crate::board::{cell, side_of, Cell};
use crate::examples;
use crate::generate::records::{board, end, joint, measures, question, sheet, window, Record};
use crate::generate::{crowded, damage, pattern};
use crate::random::Random;
use crate::rules::*;

/// A sheet with a word for what it tries.
pub struct Sample {
    pub label: String,
    pub bytes: Vec<u8>,
}

fn sample(label: impl Into<String>, bytes: Vec<u8>) -> Sample {
    Sample { label: label.into(), bytes }
}

/// The fixed sheets, then `count` random ones.
pub fn samples(count: usize, seed: u64) -> Vec<Sample> {
    let mut all: Vec<Sample> = examples::all().into_iter().map(|e| sample(e.name, e.sheet)).collect();
    all.extend(cuts());
    all.extend(heights());
    all.extend(misplaced());
    all.extend(measure_faults());
    all.extend(window_ends());
    all.extend(long_sheets());
    all.extend(crowded_sheets());
    let mut random = Random::new(seed);
    all.extend((0..count).map(|_| random_sample(&mut random)));
    all
}

/// A small sheet with a record of every kind.
fn small() -> Vec<Record> {
    let asked = [question(2, cell(-1, 5)), window([0, 1, 2, 3])];
    sheet(2, &[cell(0, 2), cell(3, 3)], &asked)
}

/// The small sheet cut at every byte, and each of its bytes flipped in turn.
fn cuts() -> Vec<Sample> {
    let whole = small().concat();
    let cut = (0..=whole.len()).map(|n| sample(format!("cut-{n}"), whole[..n].to_vec()));
    let flipped = (0..whole.len()).map(|n| {
        let mut bytes = whole.clone();
        bytes[n] ^= 0x10;
        sample(format!("flip-{n}"), bytes)
    });
    cut.chain(flipped).collect()
}

/// Every height that a byte can say, right or not, in steps; and joints on the last and the first cell off the board.
fn heights() -> Vec<Sample> {
    let mut all = vec![];
    for height in (0..=12).chain([16, 42, 128, 255]) {
        all.push(sample(format!("height-{height}"), sheet(height, &[cell(0, 1)], &[question(1, cell(0, 0))]).concat()));
    }
    for height in 1..=MAX_HEIGHT {
        let (last, off) = (side_of(height) - 1, side_of(height));
        for at in [cell(last, last), cell(last, off), cell(off, last)] {
            all.push(sample(format!("last-cell-{height}"), sheet(height as u8, &[at], &[window([0, last, 0, last])]).concat()));
        }
    }
    all
}

/// A record of every kind, whole and cut, put at every border of the small sheet, the border after the end too.
fn misplaced() -> Vec<Sample> {
    let kinds = [vec![0], board(2), joint(cell(1, 1)), question(1, cell(1, 1)), window([1, 1, 1, 1]), end(), vec![6], vec![255]];
    let mut all = vec![];
    for at in 0..=small().len() {
        for record in &kinds {
            let mut records = small();
            records.insert(at, record.clone());
            all.push(sample(format!("put-{}-at-{at}", record[0]), records.concat()));
            let cut = [&small()[..at].concat(), &record[..record.len() / 2]].concat();
            all.push(sample(format!("half-{}-at-{at}", record[0]), cut));
        }
        let mut fewer = small();
        if at < fewer.len() {
            fewer.remove(at);
            all.push(sample(format!("without-{at}"), fewer.concat()));
        }
    }
    all
}

/// Each byte of each measure of the small sheet replaced by bytes that are close to right.
fn measure_faults() -> Vec<Sample> {
    let mut all = vec![];
    for (i, record) in small().iter().enumerate() {
        for (start, length) in measures(record) {
            for at in start..start + length {
                for byte in *b" .,+-05/:" {
                    let mut records = small();
                    records[i][at] = byte;
                    all.push(sample(format!("measure-{i}-{at}-{byte}"), records.concat()));
                }
            }
            if length == 6 {
                let mut records = small();
                records[i][start..start + length].copy_from_slice(b"-000,0");
                all.push(sample(format!("minus-zero-{i}-{start}"), records.concat()));
            }
        }
    }
    all
}

/// A board of each height with windows whose ends are the last cell, the first off the board, or reversed; and
/// questions with every special K at the ends of the range of places.
fn window_ends() -> Vec<Sample> {
    let mut all = vec![];
    for height in 1..=MAX_HEIGHT {
        let side = side_of(height);
        let (last, mid) = (side - 1, side / 2);
        let joints = [cell(0, 0), cell(0, last), cell(last, 0), cell(last, last), cell(mid, mid), cell(mid - 1, mid - 1)];
        let mut asked: Vec<Record> = vec![];
        for ends in [[0, last], [0, side], [last, last], [side, side], [mid, mid - 1], [0, 0], [0, MAX_PLACE]] {
            asked.push(window([ends[0], ends[1], 0, last]));
            asked.push(window([0, last, ends[0], ends[1]]));
        }
        for place in [cell(-MAX_PLACE, -MAX_PLACE), cell(MAX_PLACE, -MAX_PLACE), cell(mid, mid), cell(0, MAX_PLACE)] {
            asked.extend([0, 1, 2, 6, 7, 255].map(|k| question(k, place)));
        }
        all.push(sample(format!("ends-{height}"), sheet(height as u8, &joints, &asked).concat()));
    }
    all
}

/// `count` distinct cells of a board of side 128 or more.
fn distinct(count: usize) -> Vec<Cell> {
    (0..count as i64).map(|i| cell(i / 128 * 7 % 128, i % 128)).collect()
}

/// Sheets near the limits of joints and of length.
fn long_sheets() -> Vec<Sample> {
    let ask = [question(5, cell(60, 60)), question(255, cell(-9, 300))];
    let mut all = vec![];
    for count in [MAX_JOINTS - 1, MAX_JOINTS, MAX_JOINTS + 1, 5_000] {
        let records = sheet(7, &distinct(count), &ask);
        all.push(sample(format!("distinct-{count}"), records.concat()));
        all.push(sample(format!("distinct-{count}-no-end"), records[..records.len() - 1].concat()));
    }
    // doubled joints count once, so these are served though they have more records than a board may have joints
    for (height, records) in [(10, 5_955), (7, 5_957)] {
        let twice: Vec<Cell> = distinct(3_000).into_iter().cycle().take(records).collect();
        let asked = if records == 5_955 { &ask[..] } else { &[] };
        let bytes = sheet(height, &twice, asked).concat();
        all.push(sample(format!("length-{}", bytes.len()), bytes));
    }
    let exact: Vec<Cell> = distinct(MAX_JOINTS).into_iter().cycle().take(5_955).collect();
    let full = sheet(10, &exact, &ask).concat();
    assert_eq!(full.len(), MAX_SHEET, "a right sheet of the greatest length");
    for extra in [1, 2, 10_000] {
        all.push(sample(format!("too-long-{extra}"), [full.clone(), vec![5; extra]].concat()));
    }
    all.push(sample("full-length", full));
    for height in 1..=6 {
        let side = side_of(height);
        let every: Vec<Cell> = (0..side * side).map(|i| cell(i / side, i % side)).collect();
        let asked = [window([0, side - 1, 0, side - 1]), question(255, cell(side / 2, side / 2))];
        all.push(sample(format!("full-board-{height}"), sheet(height as u8, &every, &asked).concat()));
    }
    let wide: Vec<Cell> = (0..4096).map(|i| cell(i / 64 * 16, i % 64 * 16)).collect();
    all.push(sample("most-boxes", sheet(10, &wide, &ask).concat()));
    all
}

/// Questions that open more boxes than the trail has places, or nearly; those after them open fewer.
fn crowded_sheets() -> Vec<Sample> {
    let asked = [question(255, crowded::PLACE), question(254, crowded::PLACE), question(255, cell(512, 510))];
    let bytes = |joints: &[Cell]| sheet(MAX_HEIGHT as u8, joints, &asked).concat();
    crowded::boards().iter().map(|crowd| sample(format!("crowded-{}", crowd.label), bytes(&crowd.joints))).collect()
}

/// A random sheet, three of five without a fault.
fn random_sample(random: &mut Random) -> Sample {
    let height = random.within(1..=i64::from(MAX_HEIGHT)) as u32;
    let joints = pattern::joints(random, height);
    let asked: Vec<Record> = (0..random.below(7)).map(|_| any_asked(random, height, &joints)).collect();
    let mut records = sheet(height as u8, &joints, &asked);
    let faults = match random.below(10) {
        0..=5 => return sample("right", records.concat()),
        6..=8 => 1,
        _ => 2,
    };
    if random.one_in(2) {
        (0..faults).for_each(|_| damage::records(random, &mut records, height));
        return sample("fault", records.concat());
    }
    let mut bytes = records.concat();
    (0..faults).for_each(|_| damage::bytes(random, &mut bytes));
    sample("byte-fault", bytes)
}

/// A question or a window about the joints.
fn any_asked(random: &mut Random, height: u32, joints: &[Cell]) -> Record {
    if random.one_in(3) {
        any_window(random, height, joints)
    } else {
        question(any_k(random), any_place(random, height, joints))
    }
}

fn any_k(random: &mut Random) -> u8 {
    match random.below(12) {
        0 => 0,
        1 => 255,
        2 | 3 => random.byte(),
        _ => 1 + random.below(9) as u8,
    }
}

/// A place on a joint, close to one, in the middle, on the board, or anywhere in the range.
pub fn any_place(random: &mut Random, height: u32, joints: &[Cell]) -> Cell {
    let side = side_of(height);
    let joint = if joints.is_empty() { cell(0, 0) } else { *random.pick(joints) };
    match random.below(6) {
        0 => joint,
        1 => cell(joint.row + random.within(-3..=3), joint.col + random.within(-3..=3)),
        2 => cell(side / 2 - random.within(0..=1), side / 2 - random.within(0..=1)),
        3 => cell(random.within(-MAX_PLACE..=MAX_PLACE), random.within(-MAX_PLACE..=MAX_PLACE)),
        4 => *random.pick(&[cell(-1, side), cell(joint.row, -side), cell(-MAX_PLACE, MAX_PLACE), cell(side, joint.col)]),
        _ => pattern::any_cell(random, side),
    }
}

/// A window: between two cells, of one joint, the whole board, with an end off the board, or reversed.
fn any_window(random: &mut Random, height: u32, joints: &[Cell]) -> Record {
    let side = side_of(height);
    let (a, b) = (pattern::any_cell(random, side), pattern::any_cell(random, side));
    let mut ends = [a.row.min(b.row), a.row.max(b.row), a.col.min(b.col), a.col.max(b.col)];
    match random.below(8) {
        0 if !joints.is_empty() => {
            let joint = random.pick(joints);
            ends = [joint.row, joint.row, joint.col, joint.col];
        }
        1 => ends = [0, side - 1, 0, side - 1],
        2 => ends[random.below(4)] = random.within(side..=MAX_PLACE),
        3 => ends.swap(0, 1),
        4 => ends.swap(2, 3),
        _ => {}
    }
    window(ends)
}
