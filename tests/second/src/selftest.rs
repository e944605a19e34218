//! What this program is sure of: document 01's examples by values written by hand, the search of the paper step by step
//! against the sorted lists, and that the generator meets every refusal.

use std::collections::BTreeSet;

use crate::batch;
use crate::board::{bitmap, build, cell, check, Board, Cell, Group};
use crate::examples;
use crate::generate::{boards, calls, crowded, sheets, texts};
use crate::measure::{read_marked, read_plain};
use crate::nearest::{distance, near_distance, nearest, Answer, Question, Record};
use crate::random::Random;
use crate::report::{report, Tally};
use crate::rules::*;
use crate::sheet;

#[derive(Default)]
struct Results {
    passed: usize,
    failed: usize,
}

impl Results {
    fn expect<T: PartialEq + std::fmt::Debug>(&mut self, what: &str, got: T, wanted: T) {
        if got == wanted {
            self.passed += 1;
        } else {
            self.failed += 1;
            println!("FAILED {what}: got {got:?}, wanted {wanted:?}");
        }
    }
}

/// Runs all tests; true when none failed.
pub fn run() -> bool {
    let mut results = Results::default();
    checks(&mut results);
    builds(&mut results);
    measures(&mut results);
    questions(&mut results);
    sheet_examples(&mut results);
    lent_rooms(&mut results);
    boxes(&mut results);
    steps(&mut results);
    crowded_questions(&mut results);
    coverage(&mut results);
    streams(&mut results);
    println!("{} passed, {} failed", results.passed, results.failed);
    results.failed == 0
}

fn checks(results: &mut Results) {
    let a = check(2, &[0x96, 0x50]).expect("board A");
    results.expect("joints of board A", a.joints.clone(), examples::BOARD_A.to_vec());
    results.expect("groups of board A", a.groups.len(), 3);
    let full_10 = vec![0xff; 174_762].into_iter().chain([0xf0]).collect();
    type Case = (&'static str, u32, Vec<u8>, Result<(usize, usize), Number>);
    let cases: Vec<Case> = vec![
        ("height 1, 00", 1, vec![0x00], Ok((0, 1))),
        ("height 1, F0", 1, vec![0xf0], Ok((4, 1))),
        ("height 5, 00", 5, vec![0x00], Ok((0, 1))),
        ("height 10, 00", 10, vec![0x00], Ok((0, 1))),
        ("98 00", 2, vec![0x98, 0x00], Err(3)),
        ("96", 2, vec![0x96], Err(2)),
        ("96 51", 2, vec![0x96, 0x51], Err(4)),
        ("96 50 00", 2, vec![0x96, 0x50, 0x00], Err(4)),
        ("no bytes", 2, vec![], Err(2)),
        ("height 0", 0, vec![0x96, 0x50], Err(1)),
        ("height 11", 11, vec![0x96, 0x50], Err(1)),
        ("height 258", 258, vec![0x96, 0x50], Err(1)),
        ("a zero group before a missing one", 2, vec![0xf0], Err(3)),
        ("a missing group", 2, vec![0xc1], Err(2)),
        ("a bit after an empty group 0", 2, vec![0x08], Err(4)),
        ("the full board of height 10", 10, full_10, Err(5)),
    ];
    for (what, height, bytes, wanted) in cases {
        results.expect(what, check(height, &bytes).map(|b| (b.joints.len(), b.groups.len())), wanted);
    }
    let square = |count: i64| bitmap(10, &(0..count).map(|i| cell(i / 64, i % 64)).collect()).bytes;
    let joints = |bytes: &[u8]| check(10, bytes).map(|b| b.joints.len());
    results.expect("4,096 joints", joints(&square(4096)), Ok(4096));
    results.expect("4,097 joints", joints(&square(4097)), Err(5));
    results.expect("4,097 joints and a byte", joints(&[square(4097), vec![0]].concat()), Err(4));
    let wide = bitmap(10, &(0..4096).map(|i| cell(i / 64 * 16, i % 64 * 16)).collect());
    results.expect("the most groups", (wide.boxes, wide.bytes.len()), (17_749, 8_875));
    results.expect("the most groups, checked", check(10, &wide.bytes).map(|b| b.groups.len()), Ok(17_749));
}

fn builds(results: &mut Results) {
    let all = |height, rows: &[i64], cols: &[i64], work, room| {
        build(height, rows, cols, work, room).map(|b| (b.joints, b.boxes, b.bytes))
    };
    let board_a = Ok((4, 3, vec![0x96, 0x50]));
    results.expect("board A", all(2, &[3, 2, 1, 0], &[3, 3, 0, 1], 4, 2), board_a.clone());
    results.expect("board A, a cell twice", all(2, &[3, 2, 1, 0, 3], &[3, 3, 0, 1, 3], 5, 9), board_a);
    results.expect("no cells", all(7, &[], &[], 0, 1), Ok((0, 1, vec![0])));
    results.expect("1 before 20", all(0, &[1], &[], 0, 0), Err(1));
    results.expect("20 before 12", all(2, &[9], &[], 0, 0), Err(20));
    results.expect("12 before 10", all(2, &[0, 4], &[0, 0], 0, 0), Err(12));
    results.expect("two equal cells, work list 1", all(2, &[0, 0], &[0, 0], 1, 1), Err(10));
    results.expect("bitmap room", all(2, &[0], &[0], 1, 0), Err(18));
    let many: Vec<i64> = (0..4097).collect();
    let (rows, cols): (Vec<i64>, Vec<i64>) = many.iter().map(|i| (i / 128, i % 128)).unzip();
    results.expect("10 before 5", all(7, &rows, &cols, 4096, 9000), Err(10));
    results.expect("5 before 18", all(7, &rows, &cols, 4097, 0), Err(5));
    let twice = |list: &[i64]| [&list[..4096], &list[..4096]].concat();
    let joints = all(7, &twice(&rows), &twice(&cols), 8192, 9000).map(|b| b.0);
    results.expect("4,096 cells given twice", joints, Ok(4096));
    // what is built from random cells is decoded to the same cells, and no fewer bytes would do
    let mut random = Random::new(1);
    for _ in 0..60 {
        let (height, joints, bytes) = boards::right(&mut random);
        let decoded: Option<BTreeSet<Cell>> = check(height, &bytes).ok().map(|b| b.joints.into_iter().collect());
        results.expect("build and decode", decoded, Some(joints.into_iter().collect()));
    }
}

fn measures(results: &mut Results) {
    let plain: [(&[u8], Result<i64, Number>); 9] = [
        (b"012,5", Ok(25)),
        (b"000,0", Ok(0)),
        (b"999,5", Ok(1999)),
        (b"12,50", Err(13)),
        (b"012.5", Err(13)),
        (b"012,3", Err(13)),
        (b"-000,5", Err(13)),
        (b" 12,5", Err(13)),
        (b"", Err(13)),
    ];
    for (text, wanted) in plain {
        results.expect(&format!("plain {:?}", String::from_utf8_lossy(text)), read_plain(text), wanted);
    }
    let marked: [(&[u8], Result<i64, Number>); 8] = [
        (b"-000,5", Ok(-1)),
        (b"+000,0", Ok(0)),
        (b"+012,5", Ok(25)),
        (b"-999,5", Ok(-1999)),
        (b"-000,0", Err(13)),
        (b"012,5", Err(13)),
        (b"+012,50", Err(13)),
        (b"\xe2\x88\x92000,5", Err(13)),
    ];
    for (text, wanted) in marked {
        results.expect(&format!("marked {:?}", String::from_utf8_lossy(text)), read_marked(text), wanted);
    }
}

fn ask(place: Cell, k: u32) -> Question {
    Question { place, k, answer_room: ENOUGH, work_room: ENOUGH, trail_room: ENOUGH }
}

/// What a question with room for everything is told: row, column and squared distance of each joint, and the trail.
fn told(board: &Board, place: Cell, k: u32) -> Result<(Vec<[i64; 3]>, Vec<usize>), Number> {
    let plain = |a: Answer| (a.found.iter().map(|r| [r.joint.row, r.joint.col, r.distance]).collect(), a.trail);
    nearest(board, &ask(place, k)).map(plain)
}

fn questions(results: &mut Results) {
    let a = check(2, &[0x96, 0x50]).expect("board A");
    let (first, second, third, fourth) = ([0, 1, 1], [1, 0, 1], [2, 3, 5], [3, 3, 8]);
    results.expect("A (1,1) K 1", told(&a, cell(1, 1), 1), Ok((vec![first], vec![0, 1])));
    results.expect("A (1,1) K 3", told(&a, cell(1, 1), 3), Ok((vec![first, second, third], vec![0, 1, 2])));
    results.expect("A (1,1) K 9", told(&a, cell(1, 1), 9), Ok((vec![first, second, third, fourth], vec![0, 1, 2])));
    results.expect("A (0,3) K 1", told(&a, cell(0, 3), 1), Ok((vec![[0, 1, 4]], vec![0, 1, 2])));
    results.expect("A (-2,0) K 1", told(&a, cell(-2, 0), 1), Ok((vec![[0, 1, 5]], vec![0, 1])));
    results.expect("K 0", told(&a, cell(0, 0), 0), Err(8));
    results.expect("K 255", told(&a, cell(0, 0), 255).map(|t| t.0.len()), Ok(4));
    results.expect("K 256", told(&a, cell(0, 0), 256), Err(8));
    results.expect("place 2,000", told(&a, cell(0, 2000), 0), Err(7));
    results.expect("place -2,000", told(&a, cell(-2000, 0), 1), Err(7));
    let empty = check(1, &[0]).expect("the empty board");
    results.expect("empty board", told(&empty, cell(1999, -1999), 3), Ok((vec![], vec![0])));
    let corner = check(10, &bitmap(10, &[cell(1023, 1023)].into()).bytes).expect("one joint");
    results.expect("the greatest distance", told(&corner, cell(-1999, -1999), 1).map(|t| t.0[0][2]), Ok(18_264_968));
    let rooms = |answer_room, work_room, trail_room| {
        let question = Question { place: cell(1, 1), k: 1, answer_room, work_room, trail_room };
        nearest(&a, &question).map(|answer| answer.trail.len())
    };
    results.expect("just enough room", rooms(1, 4, 2), Ok(2));
    results.expect("9 before 10", rooms(0, 3, 1), Err(9));
    results.expect("10 before 11", rooms(1, 3, 1), Err(10));
    results.expect("trail of 1", rooms(1, 4, 1), Err(11));
}

fn sheet_examples(results: &mut Results) {
    results.expect("length of sheet R", examples::sheet_r().len(), 82);
    let kept = (include_bytes!("../examples/r.sheet").to_vec(), include_str!("../examples/r.report").to_string());
    results.expect("sheet R as kept", kept, (examples::sheet_r(), examples::REPORT_R.join("\n") + "\n"));
    for example in examples::all() {
        results.expect(example.name, report(&example.sheet), example.report);
    }
}

fn lent_rooms(results: &mut Results) {
    let r = examples::sheet_r();
    let read =
        |work, room| sheet::read(&r, work, room).map(|s| (s.after_joints, s.built.bytes)).map_err(|e| (e.number, e.offset));
    results.expect("sheet R, just enough room", read(4, 2), Ok((46, vec![0x96, 0x50])));
    results.expect("sheet R, work list 3", read(3, 1), Err((10, 0)));
    results.expect("sheet R, bitmap room 1", read(4, 1), Err((18, 0)));
}

/// The near distance against every cell of the box.
fn boxes(results: &mut Results) {
    let mut random = Random::new(2);
    for _ in 0..200 {
        let side = 1 << random.below(5);
        let corner = cell(random.within(0..=40), random.within(0..=40));
        let group = Group { number: 0, corner, side, holds_joint: true };
        let place = cell(random.within(-60..=100), random.within(-60..=100));
        let every = (0..side * side).map(|i| distance(place, cell(corner.row + i / side, corner.col + i % side)));
        results.expect("near distance", near_distance(place, &group), every.min().expect("a box has cells"));
    }
}

/// A pending entry. The order is the paper's: "by distance, a box before a joint, then group number, or row and column".
#[derive(Clone, Copy, PartialEq, Eq, PartialOrd, Ord)]
struct Pending {
    distance: i64,
    what: Entry,
}

#[derive(Clone, Copy, PartialEq, Eq, PartialOrd, Ord)]
enum Entry {
    Box(usize),
    Joint(Cell),
}

/// The search as the paper describes its steps: "the smallest pending entry leaves, and either its group joins the trail
/// and exactly its ones become pending, or its joint joins the answer". Gives the most entries pending after a step too.
fn search(board: &Board, place: Cell, k: usize) -> (Answer, usize) {
    let mut pending = BTreeSet::from([Pending { distance: near_distance(place, &board.groups[0]), what: Entry::Box(0) }]);
    let mut answer = Answer { found: vec![], trail: vec![] };
    let mut most = 1;
    while answer.found.len() < k && !pending.is_empty() {
        let first = *pending.iter().next().expect("an entry is pending");
        pending.remove(&first);
        match first.what {
            Entry::Joint(joint) => answer.found.push(Record { joint, distance: first.distance }),
            Entry::Box(number) => {
                answer.trail.push(number);
                pending.extend(ones(board, number).into_iter().map(|what| Pending {
                    distance: match what {
                        Entry::Box(number) => near_distance(place, &board.groups[number]),
                        Entry::Joint(joint) => distance(place, joint),
                    },
                    what,
                }));
            }
        }
        most = most.max(pending.len());
    }
    (answer, most)
}

/// The ones of a group: the groups of half its side in its box, or the joints in it.
fn ones(board: &Board, number: usize) -> Vec<Entry> {
    let group = &board.groups[number];
    let inside = |c: Cell| {
        let span = |start: i64| start..start + group.side;
        span(group.corner.row).contains(&c.row) && span(group.corner.col).contains(&c.col)
    };
    if group.side == 2 {
        board.joints.iter().filter(|j| inside(**j)).map(|j| Entry::Joint(*j)).collect()
    } else {
        let child = |g: &&Group| g.side * 2 == group.side && inside(g.corner);
        board.groups.iter().filter(child).map(|g| Entry::Box(g.number)).collect()
    }
}

/// The sorted lists against the search step by step, on small random boards.
fn steps(results: &mut Results) {
    let mut random = Random::new(3);
    let mut compared = 0;
    while compared < 400 {
        let (height, joints, bytes) = boards::right(&mut random);
        if joints.len() > 80 {
            continue;
        }
        let board = check(height, &bytes).expect("a built board");
        let place = sheets::any_place(&mut random, height, &joints);
        let k = *random.pick(&[1, 2, 3, 5, 9, 40, 255]);
        let (answer, most) = search(&board, place, k as usize);
        results.expect("the search, step by step", nearest(&board, &ask(place, k)), Ok(answer));
        results.expect("pending entries stay within the joints", most <= board.joints.len().max(1), true);
        compared += 1;
    }
}

fn crowded_questions(results: &mut Results) {
    for (crowd, wanted) in crowded::boards().iter().zip([4_095, 4_096, 4_097, 4_218]) {
        let board = check(10, &bitmap(10, &crowd.joints.iter().copied().collect()).bytes).expect("a crowded board");
        let trail = |trail_room| {
            let question = Question { trail_room, ..ask(crowded::PLACE, 255) };
            nearest(&board, &question).map(|answer| answer.trail.len())
        };
        results.expect("boxes opened on a crowded board", trail(ENOUGH), Ok(wanted));
        results.expect("the trail of a report", trail(TRAIL_ROOM), if wanted <= TRAIL_ROOM { Ok(wanted) } else { Err(11) });
    }
}

/// The generator's sheets meet every refusal that can occur in a report, whatever the seed.
fn coverage(results: &mut Results) {
    let mut tally = Tally::default();
    for sample in sheets::samples(200, 4) {
        tally.add(&report(&sample.bytes));
    }
    let refused = [1, 5, 12, 13, 14, 15, 16, 17, 19].map(|number| format!("refused {number}"));
    let no = [8, 11, 12].map(|number| format!("no {number}"));
    for key in refused.iter().chain(&no).map(String::as_str).chain(["board", "ask", "win"]) {
        results.expect(&format!("a sheet with `{key}`"), tally.count(key) > 0, true);
    }
    // "so 9, 10 and 18 never occur in a report"; 2, 3, 4, 6, 7 and 20 have no cause there either
    let never = [2, 3, 4, 6, 7, 9, 10, 18, 20].map(|n| tally.count(&format!("refused {n}")) + tally.count(&format!("no {n}")));
    results.expect("numbers that no report has", never, [0; 9]);
}

/// The streams are read to their end, and every refusal of the calls is among the answers.
fn streams(results: &mut Results) {
    let answers: [(&str, Vec<u8>, batch::Line, &[Number]); 5] = [
        ("check", boards::stream(300, 5), batch::check_line, &[0, 1, 2, 3, 4, 5]),
        ("measure", texts::stream(300, 5), batch::measure_line, &[0, 13]),
        ("build", calls::build_stream(300, 5), batch::build_line, &[0, 1, 5, 10, 12, 18, 20]),
        ("sheet", calls::sheet_stream(300, 5), batch::sheet_line, &[0, 1, 5, 10, 12, 13, 14, 15, 16, 17, 18, 19]),
        ("nearest", calls::nearest_stream(300, 5), batch::nearest_line, &[0, 1, 2, 3, 4, 5, 7, 8, 9, 10, 11]),
    ];
    for (name, stream, line, wanted) in answers {
        let text = batch::answer_all(&stream, line).unwrap_or_else(|error| error);
        let met: BTreeSet<Number> = text.lines().filter_map(|l| l.split(' ').next()?.parse().ok()).collect();
        results.expect(&format!("numbers met by the {name} stream"), met, wanted.iter().copied().collect());
        let cut = batch::answer_all(&stream[..stream.len() - 1], line);
        results.expect(&format!("a {name} stream that is cut"), cut.is_err(), true);
    }
}
