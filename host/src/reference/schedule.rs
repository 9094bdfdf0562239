//! The plans: greedyWriting as a real pool with a queue for each card, cycle by cycle, and what is made of it.

use super::ticket::{Ticket, READ, SAVE};
use std::collections::VecDeque;

/// The cycle of each frame, 0 for a frame left in the pool, and the length T.
pub struct Schedule {
    pub cycles: Vec<u16>,
    pub length: u16,
}

/// "Modes: 00 read; 01 save; 02 save and keep", each with its plan.
pub fn of_ticket(ticket: &Ticket) -> Schedule {
    let m = usize::from(ticket.pool);
    match ticket.mode {
        READ => lazy_prefetching(&ticket.list, m),
        SAVE => greedy_writing(&ticket.list, m),
        _ => save_and_keep(&ticket.list, m),
    }
}

/// The frames that wait, as positions in one queue for each card, and the cycles given so far.
struct Pool {
    waiting: [VecDeque<usize>; 32],
    frames: usize,
    schedule: Schedule,
}

impl Pool {
    fn new(list: &[u8]) -> Pool {
        let schedule = Schedule {
            cycles: vec![0; list.len()],
            length: 0,
        };
        Pool {
            waiting: Default::default(),
            frames: 0,
            schedule,
        }
    }

    /// "The frame enters."
    fn enter(&mut self, position: usize, card: u8) {
        self.waiting[usize::from(card)].push_back(position);
        self.frames += 1;
    }

    /// "One cycle is made: every card with waiting frames writes the one that is first in the list."
    fn make_cycle(&mut self) {
        self.schedule.length += 1;
        for queue in &mut self.waiting {
            if let Some(position) = queue.pop_front() {
                self.schedule.cycles[position] = self.schedule.length;
                self.frames -= 1;
            }
        }
    }
}

/// "Take the frames in order. If the pool has fewer than m, the frame enters. If not, one cycle is made [...]; then the
/// frame enters."
fn take_frames(list: &[u8], m: usize) -> Pool {
    let mut pool = Pool::new(list);
    for (position, &card) in list.iter().enumerate() {
        if pool.frames >= m {
            pool.make_cycle();
        }
        pool.enter(position, card);
    }
    pool
}

/// greedyWriting: "after the last frame, cycles follow until the pool is empty".
fn greedy_writing(list: &[u8], m: usize) -> Schedule {
    let mut pool = take_frames(list, m);
    while pool.frames > 0 {
        pool.make_cycle();
    }
    pool.schedule
}

/// "Lazy prefetching: greedyWriting on the reversed list, with length T; a frame written there in cycle c is read in
/// cycle T − c + 1."
fn lazy_prefetching(list: &[u8], m: usize) -> Schedule {
    let reversed: Vec<u8> = list.iter().rev().copied().collect();
    let written = greedy_writing(&reversed, m);
    let cycles = written
        .cycles
        .iter()
        .rev()
        .map(|&cycle| written.length - cycle + 1)
        .collect();
    Schedule {
        cycles,
        length: written.length,
    }
}

/// "Save and keep: greedyWriting without the closing cycles; frames left in the pool have cycle 0, and T is the number
/// of cycles made."
fn save_and_keep(list: &[u8], m: usize) -> Schedule {
    take_frames(list, m).schedule
}
