//! Texts for the two readings of a measure, right and damaged.

use crate::batch::Writer;
use crate::measure::{write_marked, write_plain};
use crate::random::Random;
use crate::rules::MAX_PLACE;

/// Bytes that measures are made of, and some that are easily taken for them.
const NEARLY: &[u8] = b"0011223344556789,,,,++--..  /:";

/// The stream of the fixed texts and `count` random ones.
pub fn stream(count: usize, seed: u64) -> Vec<u8> {
    let mut writer = Writer::default();
    for text in texts(count, seed) {
        writer.counted_bytes(&text);
    }
    writer.stream
}

pub fn texts(count: usize, seed: u64) -> Vec<Vec<u8>> {
    let mut all = fixed();
    let mut random = Random::new(seed);
    all.extend((0..count).map(|_| random_text(&mut random)));
    all
}

fn fixed() -> Vec<Vec<u8>> {
    // every measure, plain and marked, and the zero that is refused
    let mut all: Vec<Vec<u8>> = (0..=MAX_PLACE).map(write_plain).collect();
    all.extend((-MAX_PLACE..=MAX_PLACE).map(write_marked));
    all.extend([&b"-000,0"[..], b"12,50", b"012.5", b"012,3", b"-000,00", b"\xe2\x88\x92000,5"].map(<[u8]>::to_vec));
    for text in [&b"012,5"[..], b"-000,5", b"+999,0", b"-000,0"] {
        for at in 0..=text.len() {
            all.push(text[..at].to_vec());
            for byte in 0..=255 {
                if at < text.len() {
                    let mut changed = text.to_vec();
                    changed[at] = byte;
                    all.push(changed);
                }
                all.push([&text[..at], &[byte], &text[at..]].concat());
            }
        }
    }
    all
}

/// A text of 0 to 8 bytes: a measure, one with a changed byte, or a heap of bytes.
fn random_text(random: &mut Random) -> Vec<u8> {
    let value = random.within(-MAX_PLACE..=MAX_PLACE);
    let mut text = if random.one_in(2) { write_plain(value.abs()) } else { write_marked(value) };
    let at = random.below(text.len());
    match random.below(6) {
        0 => text[at] = *random.pick(NEARLY),
        1 => text[at] = random.byte(),
        2 => text.insert(at, *random.pick(NEARLY)),
        3 => text.truncate(at),
        4 => text = (0..random.below(9)).map(|_| *random.pick(NEARLY)).collect(),
        _ => {}
    }
    text
}
