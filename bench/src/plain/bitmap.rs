//! Bits, groups of four, rank, and the rank directory.

const BLOCK: usize = 64;

/// The four bits of a group, and 0 past the end.
pub fn group_at(bytes: &[u8], group: u32) -> u32 {
    let byte = bytes.get(group as usize / 2).copied().unwrap_or(0);
    u32::from(if group % 2 == 0 { byte / 16 } else { byte % 16 })
}

pub fn bit_in(bits: u32, quarter: u32) -> u32 {
    (bits >> (3 - quarter)) % 2
}

/// The ones before a group.
fn ones_before(bytes: &[u8], directory: &[u16], group: u32) -> u32 {
    let byte = group as usize / 2;
    let block = byte / BLOCK;
    let whole: u32 = bytes[block * BLOCK..byte].iter().map(|b| b.count_ones()).sum();
    let half = if group % 2 == 0 { 0 } else { (bytes[byte] / 16).count_ones() };
    u32::from(directory[block]) + whole + half
}

/// The group that a group's first one leads to.
pub fn first_child(bytes: &[u8], directory: &[u16], group: u32) -> u32 {
    ones_before(bytes, directory, group) + 1
}

pub fn blocks_of(len: usize) -> usize {
    len.div_ceil(BLOCK)
}

pub fn fill_directory(bytes: &[u8], directory: &mut [u16]) {
    let mut ones: u32 = 0;
    for (i, byte) in bytes.iter().enumerate() {
        if i % BLOCK == 0 {
            directory[i / BLOCK] = ones as u16;
        }
        ones += byte.count_ones();
    }
}

pub fn is_directory(bytes: &[u8], directory: &[u16]) -> bool {
    if directory.len() != blocks_of(bytes.len()) {
        return false;
    }
    let mut ones: u32 = 0;
    for (i, byte) in bytes.iter().enumerate() {
        if i % BLOCK == 0 && u32::from(directory[i / BLOCK]) != ones {
            return false;
        }
        ones += byte.count_ones();
    }
    true
}
