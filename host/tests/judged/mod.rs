//! Plans for the checker alone: with cards that fall back, with pools that are full or just overfull, with faults at the
//! first position, at the last and between, and with a largest cycle of 4,096, of 4,097 or of any size.

use crate::generate::tickets::{self, CARD_DIGITS, HEADER_BYTES};
use crate::generate::Random;
use crate::library;
use crate::same::with_mode;
use std::collections::BTreeSet;
use std::ops::Range;

const READ: u8 = 0;

/// A read or save ticket, and what a plan for it is made from.
pub struct Given {
    pub ticket: Vec<u8>,
    pub mode: u8,
    pool: usize,
    list: Vec<usize>,
    /// The library's plan for the same list and pool, or for a pool that holds one frame less.
    own: Vec<u16>,
}

/// The digits of the pool in a header.
const POOL: Range<usize> = 6..10;

impl Given {
    pub fn any(random: &mut Random, frames: usize) -> Given {
        let mode = random.below(2) as u8;
        Given::of_mode(random, mode, frames)
    }

    pub fn read(random: &mut Random, frames: usize) -> Given {
        Given::of_mode(random, READ, frames)
    }

    fn of_mode(random: &mut Random, mode: u8, frames: usize) -> Given {
        let ticket = with_mode(&tickets::of_length(random, frames), mode);
        let pool = number(&ticket[POOL]);
        let lines = ticket[HEADER_BYTES..].split_inclusive(|&byte| byte == b'\n');
        let list = lines.map(|line| number(&line[..CARD_DIGITS])).collect();
        let planned = with_pool(&ticket, (pool - random.below(2)).max(1));
        let mut own = vec![0; frames];
        library::plan(&planned, &mut own);
        Given {
            ticket,
            mode,
            pool,
            list,
            own,
        }
    }

    fn reads(&self) -> bool {
        self.mode == READ
    }
}

/// The same ticket with another pool.
pub fn with_pool(ticket: &[u8], pool: usize) -> Vec<u8> {
    let mut other = ticket.to_vec();
    other[POOL].copy_from_slice(format!("{pool:04X}").as_bytes());
    other
}

fn number(digits: &[u8]) -> usize {
    let digits = std::str::from_utf8(digits).unwrap();
    usize::from_str_radix(digits, 16).unwrap()
}

/// A plan for a ticket.
pub fn plan(random: &mut Random, given: &Given) -> Vec<u16> {
    let mut plan = without_damage(random, given);
    for _ in 0..random.pick(&[0, 1, 1, 1, 2]) {
        damage(random, given, &mut plan);
    }
    moved(random, plan)
}

/// A plan for a ticket "without cycle 0 or a shared card and cycle": a frame at fault gets the next cycle that is free.
pub fn plan_of_free_cycles(random: &mut Random, given: &Given) -> Vec<u16> {
    let mut plan = plan(random, given);
    let mut used = BTreeSet::new();
    for (cycle, card) in plan.iter_mut().zip(&given.list) {
        while *cycle == 0 || !used.insert((card, *cycle)) {
            *cycle = cycle.wrapping_add(1);
        }
    }
    plan
}

/// The own plan, or one that has nothing to do with it: most have one frame a cycle, so that only a pool can be at fault.
fn without_damage(random: &mut Random, given: &Given) -> Vec<u16> {
    let frames = given.own.len();
    match random.below(9) {
        0..=3 => given.own.clone(),
        4 | 5 => {
            let around = random.pick(&[given.pool - 1, given.pool, given.pool + 1, frames / 2]);
            falling_in_blocks(frames, around.max(1))
        }
        6 => falling_from(frames, random.pick(&[0, frames / 2, frames - 1])),
        7 => in_any_order(random, frames),
        _ => (0..frames).map(|_| random.between(1, frames) as u16).collect(),
    }
}

/// One frame a cycle. The list is cut into blocks of this length, and in each the cycles fall.
fn falling_in_blocks(frames: usize, block: usize) -> Vec<u16> {
    let mut plan: Vec<u16> = (1..=frames as u16).collect();
    plan.chunks_mut(block).for_each(<[u16]>::reverse);
    plan
}

/// One frame a cycle, falling from this position on.
fn falling_from(frames: usize, position: usize) -> Vec<u16> {
    let mut plan: Vec<u16> = (1..=frames as u16).collect();
    plan[position..].reverse();
    plan
}

fn in_any_order(random: &mut Random, frames: usize) -> Vec<u16> {
    let mut plan: Vec<u16> = (1..=frames as u16).collect();
    for position in 0..frames {
        plan.swap(position, random.between(position, frames - 1));
    }
    plan
}

/// Something at the first position, at the last or at any: no cycle, a card's other cycle, a pool with far too many
/// frames, one with just enough or just too many, or any frame's cycle.
fn damage(random: &mut Random, given: &Given, plan: &mut Vec<u16>) {
    let frames = plan.len();
    let position = match random.below(3) {
        0 => 0,
        1 => frames - 1,
        _ => random.below(frames),
    };
    match random.below(8) {
        0 | 1 => plan[position] = 0,
        2 | 3 => share_card(random, given, plan, position),
        4 | 5 => fill_pool(given, plan, position),
        6 => fill_pool_just(random, given, plan, position),
        _ => plan[position] = plan[random.below(frames)],
    }
}

/// The frame and an earlier one of its card get the cycle of one of them. A card's first frame stays as it is.
fn share_card(random: &mut Random, given: &Given, plan: &mut [u16], position: usize) {
    let of_card = |earlier: &usize| given.list[*earlier] == given.list[position];
    let earlier: Vec<usize> = (0..position).filter(of_card).collect();
    if !earlier.is_empty() {
        let other = random.pick(&earlier);
        let cycle = plan[random.pick(&[position, other])];
        plan[position] = cycle;
        plan[other] = cycle;
    }
}

/// A read: the frame comes after all others. A save: it comes before them. Its cycle is its own.
fn fill_pool(given: &Given, plan: &mut Vec<u16>, position: usize) {
    if given.reads() {
        plan[position] = largest(plan) + 1;
    } else {
        *plan = later(plan, 1);
        plan[position] = 1;
    }
}

/// The frame gets a cycle of its own next to the one in which its pool becomes overfull. The other cycles are doubled, so
/// that the cycles between them are free.
fn fill_pool_just(random: &mut Random, given: &Given, plan: &mut [u16], position: usize) {
    plan.iter_mut().for_each(|cycle| *cycle *= 2);
    let mut counted = if given.reads() {
        plan[position + 1..].to_vec()
    } else {
        plan[..position].to_vec()
    };
    counted.sort_unstable();
    if !given.reads() {
        counted.reverse();
    }
    if let Some(&cycle) = counted.get(given.pool - 1) {
        plan[position] = random.pick(&[cycle + 1, cycle.max(1) - 1]);
    }
}

/// The plan as it is; all cycles later by as much as makes the largest one 4,096, 4,097 or 65,535; all of them as many times
/// as large; or one of them far after the others.
fn moved(random: &mut Random, mut plan: Vec<u16>) -> Vec<u16> {
    let top = largest(&plan);
    let up_to = |limit: u16| later(&plan, limit.saturating_sub(top));
    match random.below(8) {
        0 | 1 => plan,
        2 => up_to(4096),
        3 => up_to(4097),
        4 => up_to(u16::MAX),
        5 | 6 => {
            let times = random.between(1, usize::from(u16::MAX / top.max(1))) as u16;
            plan.iter().map(|cycle| cycle * times).collect()
        }
        _ => {
            let last = plan.len() - 1;
            let position = random.pick(&[0, last / 2, last, last]);
            plan[position] = random.between(4096, 65_535) as u16;
            plan
        }
    }
}

/// Every cycle later by so many. A frame without a cycle gets none.
fn later(plan: &[u16], by: u16) -> Vec<u16> {
    let later = |&cycle: &u16| if cycle == 0 { 0 } else { cycle + by };
    plan.iter().map(later).collect()
}

fn largest(plan: &[u16]) -> u16 {
    plan.iter().copied().max().unwrap_or(0)
}
