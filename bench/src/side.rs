//! The two sides that are measured, behind one interface: the proved library, linked as C links it, and the plain version.

use crate::plain;

/// What the first line of a report tells: the height, the bitmap's length, the offset after the joints, and the line's length.
#[derive(Clone, Copy, Debug, PartialEq, Eq)]
pub struct First {
    pub height: u32,
    pub size: u32,
    pub requests: usize,
    pub end: usize,
}

/// The lists that a report is asked with.
pub struct Lists {
    pub rows: Vec<u32>,
    pub columns: Vec<u32>,
    pub keys: Vec<u64>,
    pub corners: Vec<u32>,
    pub trail: Vec<u32>,
}

pub trait Side {
    fn sort(list: &mut [u32]);
    /// The number; joints and boxes.
    fn check(height: u32, bytes: &[u8]) -> (u32, [u32; 2]);
    /// The number.
    fn directory(height: u32, bytes: &[u8], directory: &mut [u16]) -> u32;
    /// The number; joints, boxes and length.
    fn build(height: u32, rows: &[u32], columns: &[u32], work: &mut [u32], bitmap: &mut [u8]) -> (u32, [u32; 3]);
    /// The number; height, joints, boxes and length; the offset.
    fn build_sheet(sheet: &[u8], bitmap: &mut [u8]) -> (u32, [u32; 4], usize);
    fn first_line(sheet: &[u8], work: &mut [u32], bitmap: &mut [u8], out: &mut [u8]) -> First;
    /// How many bytes the lines have, and the offset of the next record.
    fn next_lines(
        height: u32,
        bytes: &[u8],
        directory: &[u16],
        sheet: &[u8],
        at: usize,
        lists: &mut Lists,
        out: &mut [u8],
    ) -> (usize, usize);
}

/// The proved library. A slice goes as a pointer and a length.
pub struct Ours;

extern "C" {
    fn joint_board_check(height: u32, bytes: *const u8, n: usize, joints: &mut u32, boxes: &mut u32) -> u32;
    fn joint_board_build(
        sheet: *const u8,
        sheet_n: usize,
        bitmap: *mut u8,
        bitmap_n: usize,
        height: &mut u32,
        joints: &mut u32,
        boxes: &mut u32,
        size: &mut u32,
        offset: &mut usize,
    ) -> u32;
    fn bench_sort(list: *mut u32, n: usize);
    fn bench_make_directory(height: u32, bytes: *const u8, n: usize, directory: *mut u16, blocks: usize) -> u32;
    fn bench_build(
        height: u32,
        rows: *const u32,
        rows_n: usize,
        columns: *const u32,
        columns_n: usize,
        work: *mut u32,
        work_n: usize,
        bitmap: *mut u8,
        bitmap_n: usize,
        joints: &mut u32,
        boxes: &mut u32,
        size: &mut u32,
    ) -> u32;
    fn bench_first_line(
        sheet: *const u8,
        sheet_n: usize,
        work: *mut u32,
        work_n: usize,
        bitmap: *mut u8,
        bitmap_n: usize,
        out: *mut u8,
        out_n: usize,
        height: &mut u32,
        size: &mut u32,
        requests: &mut usize,
    ) -> usize;
    fn bench_next_lines(
        height: u32,
        bytes: *const u8,
        bytes_n: usize,
        directory: *const u16,
        directory_n: usize,
        sheet: *const u8,
        sheet_n: usize,
        at: usize,
        rows: *mut u32,
        rows_n: usize,
        columns: *mut u32,
        columns_n: usize,
        keys: *mut u64,
        keys_n: usize,
        corners: *mut u32,
        corners_n: usize,
        trail: *mut u32,
        trail_n: usize,
        out: *mut u8,
        out_n: usize,
        next: &mut usize,
    ) -> usize;
}

// Each call lends what Rust's own references allow, and keeps the `requires` of its entry: `first_line` and `next_lines` are called by `report` alone.
impl Side for Ours {
    fn sort(list: &mut [u32]) {
        unsafe { bench_sort(list.as_mut_ptr(), list.len()) }
    }

    fn check(height: u32, bytes: &[u8]) -> (u32, [u32; 2]) {
        let (mut joints, mut boxes) = (0, 0);
        let number = unsafe { joint_board_check(height, bytes.as_ptr(), bytes.len(), &mut joints, &mut boxes) };
        (number, [joints, boxes])
    }

    fn directory(height: u32, bytes: &[u8], directory: &mut [u16]) -> u32 {
        unsafe { bench_make_directory(height, bytes.as_ptr(), bytes.len(), directory.as_mut_ptr(), directory.len()) }
    }

    fn build(height: u32, rows: &[u32], columns: &[u32], work: &mut [u32], bitmap: &mut [u8]) -> (u32, [u32; 3]) {
        let (mut joints, mut boxes, mut size) = (0, 0, 0);
        let number = unsafe {
            bench_build(
                height,
                rows.as_ptr(),
                rows.len(),
                columns.as_ptr(),
                columns.len(),
                work.as_mut_ptr(),
                work.len(),
                bitmap.as_mut_ptr(),
                bitmap.len(),
                &mut joints,
                &mut boxes,
                &mut size,
            )
        };
        (number, [joints, boxes, size])
    }

    fn build_sheet(sheet: &[u8], bitmap: &mut [u8]) -> (u32, [u32; 4], usize) {
        let (mut height, mut joints, mut boxes, mut size, mut offset) = (0, 0, 0, 0, 0);
        let number = unsafe {
            joint_board_build(
                sheet.as_ptr(),
                sheet.len(),
                bitmap.as_mut_ptr(),
                bitmap.len(),
                &mut height,
                &mut joints,
                &mut boxes,
                &mut size,
                &mut offset,
            )
        };
        (number, [height, joints, boxes, size], offset)
    }

    fn first_line(sheet: &[u8], work: &mut [u32], bitmap: &mut [u8], out: &mut [u8]) -> First {
        let (mut height, mut size, mut requests) = (0, 0, 0);
        let end = unsafe {
            bench_first_line(
                sheet.as_ptr(),
                sheet.len(),
                work.as_mut_ptr(),
                work.len(),
                bitmap.as_mut_ptr(),
                bitmap.len(),
                out.as_mut_ptr(),
                out.len(),
                &mut height,
                &mut size,
                &mut requests,
            )
        };
        First { height, size, requests, end }
    }

    fn next_lines(
        height: u32,
        bytes: &[u8],
        directory: &[u16],
        sheet: &[u8],
        at: usize,
        lists: &mut Lists,
        out: &mut [u8],
    ) -> (usize, usize) {
        let mut next = 0;
        let length = unsafe {
            bench_next_lines(
                height,
                bytes.as_ptr(),
                bytes.len(),
                directory.as_ptr(),
                directory.len(),
                sheet.as_ptr(),
                sheet.len(),
                at,
                lists.rows.as_mut_ptr(),
                lists.rows.len(),
                lists.columns.as_mut_ptr(),
                lists.columns.len(),
                lists.keys.as_mut_ptr(),
                lists.keys.len(),
                lists.corners.as_mut_ptr(),
                lists.corners.len(),
                lists.trail.as_mut_ptr(),
                lists.trail.len(),
                out.as_mut_ptr(),
                out.len(),
                &mut next,
            )
        };
        (length, next)
    }
}

/// The plain version. As the library's entries, its calls are not inlined into the measuring loop.
pub struct Plain;

impl Side for Plain {
    #[inline(never)]
    fn sort(list: &mut [u32]) {
        plain::order::heap_sort(list);
    }

    #[inline(never)]
    fn check(height: u32, bytes: &[u8]) -> (u32, [u32; 2]) {
        match plain::board::check(height, bytes) {
            Ok(board) => (0, [board.joints, board.boxes]),
            Err(refusal) => (refusal.number(), [0, 0]),
        }
    }

    #[inline(never)]
    fn directory(height: u32, bytes: &[u8], directory: &mut [u16]) -> u32 {
        plain::board::make_directory(height, bytes, directory).map_or_else(|refusal| refusal.number(), |_| 0)
    }

    #[inline(never)]
    fn build(height: u32, rows: &[u32], columns: &[u32], work: &mut [u32], bitmap: &mut [u8]) -> (u32, [u32; 3]) {
        match plain::build::build(height, rows, columns, work, bitmap) {
            Ok(built) => (0, [built.joints, built.boxes, built.length]),
            Err(refusal) => (refusal.number(), [0, 0, 0]),
        }
    }

    #[inline(never)]
    fn build_sheet(sheet: &[u8], bitmap: &mut [u8]) -> (u32, [u32; 4], usize) {
        let mut work = [0; plain::MAX_RECORDS];
        match plain::sheet::read(sheet, &mut work, bitmap) {
            Ok(board) => (0, [board.height, board.joints, board.boxes, board.length], board.requests),
            Err((refusal, offset)) => (refusal.number(), [0, 0, 0, 0], offset),
        }
    }

    #[inline(never)]
    fn first_line(sheet: &[u8], work: &mut [u32], bitmap: &mut [u8], out: &mut [u8]) -> First {
        let (answer, end) = plain::lines::first_line(sheet, work, bitmap, out);
        match answer {
            Ok(board) => First { height: board.height, size: board.length, requests: board.requests, end },
            Err(_) => First { height: 0, size: 0, requests: 0, end },
        }
    }

    #[inline(never)]
    fn next_lines(
        height: u32,
        bytes: &[u8],
        directory: &[u16],
        sheet: &[u8],
        at: usize,
        lists: &mut Lists,
        out: &mut [u8],
    ) -> (usize, usize) {
        let board = plain::nearest::Board { height, bytes, directory };
        let mut desk = plain::lines::Desk {
            rows: &mut lists.rows,
            columns: &mut lists.columns,
            keys: &mut lists.keys,
            corners: &mut lists.corners,
            trail: &mut lists.trail,
        };
        plain::lines::next_lines(board, sheet, at, &mut desk, out)
    }
}
