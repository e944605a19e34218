//! The limits and the numbers of refusal of document 01, each named once.

/// "Height H is 1 to 10."
pub const MAX_HEIGHT: u32 = 10;
/// "At most 4,096 joints."
pub const MAX_JOINTS: usize = 4_096;
/// "a place whose row and column are each from −1,999 to 1,999"
pub const MAX_PLACE: i64 = 1_999;
/// "K is 1 to 255."
pub const MAX_K: u32 = 255;
/// "sheet longer than 65,536 bytes"
pub const MAX_SHEET: usize = 65_536;
/// "The program has room for 4,096 trail places and enough of everything else."
pub const TRAIL_ROOM: usize = 4_096;
/// More room than any call can need.
pub const ENOUGH: usize = usize::MAX;

/// A number of refusal, as in the table "Numbers of refusal".
pub type Number = u32;

pub const HEIGHT: Number = 1;
pub const BYTES_END: Number = 2;
pub const ZERO_GROUP: Number = 3;
pub const LEFT_OVER: Number = 4;
pub const TOO_MANY_JOINTS: Number = 5;
pub const PLACE: Number = 7;
pub const K: Number = 8;
pub const ANSWER_ROOM: Number = 9;
pub const WORK_ROOM: Number = 10;
pub const TRAIL: Number = 11;
pub const CELL: Number = 12;
pub const MEASURE: Number = 13;
pub const KIND: Number = 14;
pub const OUT_OF_PLACE: Number = 15;
pub const CUT_SHORT: Number = 16;
pub const NO_END: Number = 17;
pub const BITMAP_ROOM: Number = 18;
pub const SHEET_TOO_LONG: Number = 19;
pub const UNEQUAL_LISTS: Number = 20;

/// Refuses with `number` when `fault` holds; so the order of refusals reads as in the paper.
pub fn refuse_if(fault: bool, number: Number) -> Result<(), Number> {
    if fault {
        Err(number)
    } else {
        Ok(())
    }
}
