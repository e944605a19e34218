//! Cases for the calls that have lists lent to them: build, the sheet reader and nearest.

use crate::batch::Writer;
use crate::board::{bitmap, cell, Cell};
use crate::generate::{boards, crowded, pattern, questions, sheets};
use crate::random::Random;
use crate::rules::*;
use crate::sheet;

/// A room that is just enough, one short, none at all, or more than enough.
fn about(random: &mut Random, need: usize) -> usize {
    match random.below(8) {
        0 => need.saturating_sub(1),
        1 => 0,
        2 => need + 1 + random.below(40),
        _ => need,
    }
}

/// The stream of the fixed lists of cells and `count` random ones, for build.
pub fn build_stream(count: usize, seed: u64) -> Vec<u8> {
    let mut random = Random::new(seed);
    let mut writer = Writer::default();
    let cells = |count: i64| (0..count).map(|i| cell(i / 64, i % 64)).collect::<Vec<Cell>>();
    // 4,096 cells, each twice, and one cell too many; the room is short in turn, to show which number goes first
    let (most, too_many) = ([cells(4096), cells(4096)].concat(), cells(4097));
    for (list, work, room) in
        [(&most, 8192, 9000), (&most, 8191, 9000), (&too_many, 4097, 9000), (&too_many, 4096, 9000), (&too_many, 4097, 0)]
    {
        let (rows, cols) = split(list);
        write_build(&mut writer, 7, [work, room], &rows, &cols);
    }
    for _ in 0..count {
        build_case(&mut random, &mut writer);
    }
    writer.stream
}

fn split(cells: &[Cell]) -> (Vec<i64>, Vec<i64>) {
    cells.iter().map(|c| (c.row, c.col)).unzip()
}

fn write_build(writer: &mut Writer, height: u32, rooms: [usize; 2], rows: &[i64], cols: &[i64]) {
    writer.number(height);
    rooms.into_iter().for_each(|room| writer.count(room));
    writer.count(rows.len());
    writer.count(cols.len());
    rows.iter().chain(cols).for_each(|x| writer.signed(*x));
}

fn build_case(random: &mut Random, writer: &mut Writer) {
    let right_height = random.within(1..=i64::from(MAX_HEIGHT)) as u32;
    let cells = pattern::joints(random, right_height);
    let need = bitmap(right_height, &cells.iter().copied().collect()).bytes.len();
    let (mut rows, mut cols) = split(&cells);
    let mut height = right_height;
    match random.below(12) {
        0 => height = *random.pick(&[0, 11, 255]),
        1 => rows.push(0),
        2 => cols.push(0),
        3 => {
            rows.push(random.within(0..=MAX_PLACE));
            cols.push(random.within(0..=MAX_PLACE));
        }
        _ => {}
    }
    let rooms = [about(random, rows.len()), about(random, need)];
    write_build(writer, height, rooms, &rows, &cols);
}

/// The stream of the generator's sheets, `count` of them random, for the sheet reader.
pub fn sheet_stream(count: usize, seed: u64) -> Vec<u8> {
    let mut random = Random::new(seed);
    let mut writer = Writer::default();
    for sample in sheets::samples(count, seed) {
        // a joint record has 11 bytes: so many records, or fewer, are on the sheet
        let (records, length) = match sheet::read(&sample.bytes, ENOUGH, ENOUGH) {
            Ok(sheet) => ((sheet.after_joints - 2) / 11, sheet.built.bytes.len()),
            Err(_) => (sample.bytes.len() / 11, 0),
        };
        writer.count(about(&mut random, records));
        writer.count(about(&mut random, length));
        writer.counted_bytes(&sample.bytes);
    }
    writer.stream
}

/// The stream of the crowded boards, the fixed questions and `count` random ones, for nearest.
pub fn nearest_stream(count: usize, seed: u64) -> Vec<u8> {
    let mut random = Random::new(seed);
    let mut writer = Writer::default();
    for crowd in crowded::boards() {
        let joints = crowd.joints;
        let bytes = bitmap(MAX_HEIGHT, &joints.iter().copied().collect()).bytes;
        for trail_room in [TRAIL_ROOM - 1, TRAIL_ROOM, 2 * TRAIL_ROOM] {
            let rooms = [MAX_K as usize, joints.len(), trail_room];
            questions::case(&mut writer, MAX_HEIGHT, &bytes, (crowded::PLACE, MAX_K), rooms);
        }
    }
    questions::fixed(&mut writer);
    for _ in 0..count {
        nearest_case(&mut random, &mut writer);
    }
    writer.stream
}

fn nearest_case(random: &mut Random, writer: &mut Writer) {
    let (height, joints, bytes) = boards::right(random);
    let mut place = sheets::any_place(random, height, &joints);
    if random.one_in(12) {
        let far = random.within(MAX_PLACE - 1..=MAX_PLACE + 2);
        place.row = *random.pick(&[far, -far]);
    }
    let k = *random.pick(&[0, 1, 1, 2, 3, 3, 4, 5, 8, 20, 254, 255, 256, 257]);
    let distinct = joints.iter().collect::<std::collections::BTreeSet<_>>().len();
    let trail = random.below(2 * bytes.len() + 1);
    let rooms = [about(random, k as usize), about(random, distinct.max(1)), *random.pick(&[trail, 2 * bytes.len()])];
    questions::case(writer, height, &bytes, (place, k), rooms);
}
