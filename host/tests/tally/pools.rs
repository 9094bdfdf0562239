//! How often a ticket asked for the largest pool and needed it, or for a pool that is none: 0, one buffer too many, one that
//! passed before request 2026-07, and more.

use super::add_each;
use crate::pools::BEFORE;
use dockplan::reference::MAX_POOL;
use std::ops::Range;

const KINDS: [&str; 5] = [
    "192 buffers and more frames, accepted",
    "0, refused by 5",
    "193, refused by 5",
    "194 to 1,024, refused by 5",
    "over 1,024, refused by 5",
];

/// Each kind is as often as this.
const LEAST: u64 = 150;

/// The digits of the pool and of the frames in a header.
const POOL: Range<usize> = 6..10;
const FRAMES: Range<usize> = 10..14;

#[derive(Default)]
pub struct Pools([u64; KINDS.len()]);

impl Pools {
    /// Counts a ticket with its own refusal, or 0.
    pub fn count(&mut self, ticket: &[u8], refusal: u8) {
        if refusal == 0 || refusal == 5 {
            let (pool, frames) = (number(&ticket[POOL]), number(&ticket[FRAMES]));
            let is = [
                refusal == 0 && pool == MAX_POOL && frames > MAX_POOL,
                refusal == 5 && pool == 0,
                refusal == 5 && pool == MAX_POOL + 1,
                refusal == 5 && (MAX_POOL + 2..=BEFORE).contains(&pool),
                refusal == 5 && pool > BEFORE,
            ];
            add_each(&mut self.0, &is.map(u64::from));
        }
    }

    pub fn add(&mut self, other: &Pools) {
        add_each(&mut self.0, &other.0);
    }

    pub fn print(&self) {
        for (kind, count) in KINDS.iter().zip(self.0) {
            println!("tickets with a pool of {kind}: {count}");
        }
    }

    pub fn assert_not_rare(&self) {
        for (kind, count) in KINDS.iter().zip(self.0) {
            assert!(count >= LEAST, "too rare: a pool of {kind}: {count}");
        }
    }
}

/// The number of a header's digits, which are known to be some.
fn number(digits: &[u8]) -> usize {
    let digits = std::str::from_utf8(digits).unwrap();
    usize::from_str_radix(digits, 16).unwrap()
}
