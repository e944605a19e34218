//! Written measures.

use super::Refusal;

fn digit(byte: u8) -> Result<u32, Refusal> {
    match byte {
        b'0'..=b'9' => Ok(u32::from(byte - b'0')),
        _ => Err(Refusal::Measure),
    }
}

fn half(byte: u8) -> Result<u32, Refusal> {
    match byte {
        b'0' => Ok(0),
        b'5' => Ok(1),
        _ => Err(Refusal::Measure),
    }
}

pub fn read(text: &[u8]) -> Result<u32, Refusal> {
    match text {
        [a, b, c, b',', d] => Ok(2 * (100 * digit(*a)? + 10 * digit(*b)? + digit(*c)?) + half(*d)?),
        _ => Err(Refusal::Measure),
    }
}

pub fn read_marked(text: &[u8]) -> Result<i32, Refusal> {
    let (mark, size) = text.split_first().ok_or(Refusal::Measure)?;
    let n = read(size)? as i32;
    match mark {
        b'+' => Ok(n),
        b'-' if n != 0 => Ok(-n),
        _ => Err(Refusal::Measure),
    }
}
