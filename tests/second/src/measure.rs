//! Measures. A measure and its number determine each other, so a reading is looked up among all that can be written.

use std::collections::HashMap;

use crate::rules::{Number, MAX_PLACE, MEASURE};

/// "A measure is five bytes: three digits, a comma, then 0 or 5. It means 2 × the three digits, plus 1 if it ends in 5."
pub fn write_plain(value: i64) -> Vec<u8> {
    assert!((0..=MAX_PLACE).contains(&value), "{value} is no measure");
    let last = if value % 2 == 1 { '5' } else { '0' };
    format!("{:03},{last}", value / 2).into_bytes()
}

/// "A marked measure is + or − (hyphen) before a measure; −000,0 is refused": zero is written with +.
pub fn write_marked(value: i64) -> Vec<u8> {
    let mark = if value < 0 { b'-' } else { b'+' };
    let mut text = vec![mark];
    text.extend(write_plain(value.abs()));
    text
}

type Written = HashMap<Vec<u8>, i64>;

thread_local! {
    static ALL_PLAIN: Written = (0..=MAX_PLACE).map(|v| (write_plain(v), v)).collect();
    static ALL_MARKED: Written = (-MAX_PLACE..=MAX_PLACE).map(|v| (write_marked(v), v)).collect();
}

pub fn read_plain(text: &[u8]) -> Result<i64, Number> {
    ALL_PLAIN.with(|all| all.get(text).copied().ok_or(MEASURE))
}

pub fn read_marked(text: &[u8]) -> Result<i64, Number> {
    ALL_MARKED.with(|all| all.get(text).copied().ok_or(MEASURE))
}
