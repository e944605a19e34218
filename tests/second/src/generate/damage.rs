//! Faults put into right sheets.

use crate::board::{cell, side_of};
use crate::generate::records::{self, Record};
use crate::random::Random;
use crate::rules::{MAX_PLACE, MAX_SHEET};

/// Bytes that are easily taken for part of a measure, or stand next to the digits in the character table.
const NEARLY: &[u8] = b"0123456789,.+- /:;\0\xb2\xff";

/// Puts one fault into the records; now and then it turns out to be none.
pub fn records(random: &mut Random, sheet: &mut Vec<Record>, height: u32) {
    let at = random.below(sheet.len());
    match random.below(9) {
        0 => sheet[at][0] = *random.pick(&[0, 1, 2, 3, 4, 5, 6, 7, 8, 9, b'1', b'2', 255]),
        1 => sheet.swap(at, 0),
        2 => {
            let other = random.below(sheet.len());
            sheet.swap(at, other);
        }
        3 => {
            let again = sheet[at].clone();
            sheet.insert(random.below(sheet.len() + 1), again);
        }
        4 => {
            sheet.remove(at);
        }
        5 => {
            let extra = any_record(random, height);
            sheet.insert(at, extra);
        }
        6 => sheet[0] = records::board(*random.pick(&[0, 11, 12, 128, 255, b'2'])),
        7 => {
            let side = side_of(height);
            let off = random.within(side..=MAX_PLACE);
            let on = random.within(0..=side - 1);
            let joint = *random.pick(&[cell(off, on), cell(on, off), cell(off, off)]);
            sheet.insert(1.min(sheet.len()), records::joint(joint));
        }
        _ => measure(random, sheet),
    }
}

/// A record of any kind, right in itself.
fn any_record(random: &mut Random, height: u32) -> Record {
    let mut on = || random.within(0..=side_of(height) - 1);
    let (a, b) = (on(), on());
    match random.below(6) {
        0 => records::board(height as u8),
        1 => records::joint(cell(a, b)),
        2 => records::question(1, cell(a, b)),
        3 => records::window([a, a, b, b]),
        4 => vec![6],
        _ => records::end(),
    }
}

/// Changes one byte of one measure, or makes it the refused zero.
fn measure(random: &mut Random, sheet: &mut [Record]) {
    let with_measures: Vec<usize> = (0..sheet.len()).filter(|i| !records::measures(&sheet[*i]).is_empty()).collect();
    if with_measures.is_empty() {
        return;
    }
    let record = &mut sheet[*random.pick(&with_measures)];
    let (start, length) = *random.pick(&records::measures(record));
    if length == 6 && random.one_in(3) {
        record[start..start + length].copy_from_slice(b"-000,0");
    } else {
        record[start + random.below(length)] = *random.pick(NEARLY);
    }
}

/// Puts one fault into the bytes.
pub fn bytes(random: &mut Random, sheet: &mut Vec<u8>) {
    if sheet.is_empty() {
        return;
    }
    let at = random.below(sheet.len());
    match random.below(7) {
        0 => sheet[at] ^= 1 << random.below(8),
        1 => sheet[at] = random.byte(),
        2 => sheet.truncate(at),
        3 => {
            sheet.remove(at);
        }
        4 => sheet.insert(at, random.byte()),
        5 => {
            for _ in 0..1 + random.below(30) {
                sheet.push(random.byte());
            }
        }
        _ => {
            if random.one_in(20) {
                let length = MAX_SHEET + random.below(3);
                sheet.resize(length.max(sheet.len()), 5);
            } else {
                sheet.push(*random.pick(&[0, 2, 3, 4, 5]));
            }
        }
    }
}
