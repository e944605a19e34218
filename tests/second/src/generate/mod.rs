//! The generator: sheets, boards, texts and cases of the batch streams. Each kind has a fixed part, the same for every
//! seed, that meets every rule; a random part follows it.

pub mod boards;
pub mod calls;
pub mod crowded;
pub mod damage;
pub mod pattern;
pub mod questions;
pub mod records;
pub mod sheets;
pub mod texts;
