//! The library's algorithms in plain safe Rust: the same tree, directory, scans, sort, clearing and text, and no trick that the library does not have.

pub mod bitmap;
pub mod board;
pub mod build;
pub mod lines;
pub mod measure;
pub mod nearest;
pub mod order;
pub mod sheet;
pub mod window;

pub const MAX_HEIGHT: u32 = 10;
pub const MAX_JOINTS: u32 = 4096;
pub const MAX_RECORDS: usize = 5957;

/// The numbers of refusal.
#[derive(Clone, Copy, Debug, PartialEq, Eq)]
pub enum Refusal {
    Height = 1,
    CutShort,
    EmptyGroup,
    LeftOver,
    TooManyJoints,
    Directory,
    Place,
    Count,
    AnswerRoom,
    WorkRoom,
    TrailRoom,
    Cell,
    Measure,
    Kind,
    OutOfPlace,
    RecordCut,
    End,
    BitmapRoom,
    SheetLength,
    UnequalLists,
}

impl Refusal {
    pub fn number(self) -> u32 {
        self as u32
    }
}
