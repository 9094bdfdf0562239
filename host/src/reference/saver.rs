//! The saver with a pool of its own: the frames in the order in which they came.

use super::MAX_POOL;
use crate::raw::{self, Cycle, Position, SaverAnswer};

/// A frame that waits in the pool.
#[derive(Clone, Copy)]
struct Frame {
    position: Position,
    card: u8,
}

/// A saver that takes frames one by one. The waiting frames stand in list order.
#[derive(Clone)]
pub struct Saver {
    cards: u8,
    pool: u16,
    taken: u16,
    made: Cycle,
    closing: bool,
    waiting: Vec<Frame>,
}

/// What one call made: the number of its cycle and the position that each card wrote in it.
struct Made {
    cycle: Cycle,
    written: [Position; 32],
}

/// A call that made no cycle: each entry is "65,535 for none".
const NOTHING: Made = Made {
    cycle: Cycle(0),
    written: [Position(raw::NONE); 32],
};

impl Saver {
    /// "A new saver gives 4, then 5, and the record that comes with such a refusal has one card, a pool of 1, nothing
    /// taken or waiting, and closing begun."
    pub fn new(cards: u8, pool: u16) -> (SaverAnswer, Saver) {
        let refusal = if !(1..=32).contains(&cards) {
            4
        } else if !(1..=MAX_POOL).contains(&pool.into()) {
            5
        } else {
            0
        };
        let (cards, pool) = if refusal == 0 { (cards, pool) } else { (1, 1) };
        let saver = Saver {
            cards,
            pool,
            taken: 0,
            made: Cycle(0),
            closing: refusal != 0,
            waiting: Vec::new(),
        };
        (saver.answer(refusal, NOTHING), saver)
    }

    /// "A save gives 15, 8, 13 in that order; a refused save does not use up a position."
    pub fn save(&mut self, card: u8) -> SaverAnswer {
        if self.closing {
            return self.answer(15, NOTHING);
        }
        if card >= self.cards {
            return self.answer(8, NOTHING);
        }
        if self.taken >= 4096 {
            return self.answer(13, NOTHING);
        }
        let made = self.take_frame(card);
        self.answer(0, made)
    }

    /// "If the pool has fewer than m, the frame enters. If not, one cycle is made [...]; then the frame enters."
    /// "A saved frame gets the next position."
    fn take_frame(&mut self, card: u8) -> Made {
        let made = if self.waiting.len() < usize::from(self.pool) {
            NOTHING
        } else {
            self.make_cycle()
        };
        self.waiting.push(Frame {
            position: Position(self.taken),
            card,
        });
        self.taken += 1;
        made
    }

    /// "Closing cycles are asked for one at a time", with 14 for "a closing cycle with an empty pool". "Closing begins
    /// with the first closing cycle that is not refused."
    pub fn close(&mut self) -> SaverAnswer {
        if self.waiting.is_empty() {
            return self.answer(14, NOTHING);
        }
        self.closing = true;
        let made = self.make_cycle();
        self.answer(0, made)
    }

    /// "Every card with waiting frames writes the one that is first in the list."
    fn make_cycle(&mut self) -> Made {
        self.made.0 += 1;
        let mut written = NOTHING.written;
        let mut left = Vec::new();
        for &frame in &self.waiting {
            let entry = &mut written[usize::from(frame.card)];
            if *entry == Position(raw::NONE) {
                *entry = frame.position;
            } else {
                left.push(frame);
            }
        }
        self.waiting = left;
        Made {
            cycle: self.made,
            written,
        }
    }

    /// The whole answer of a call, with the new record.
    fn answer(&self, refusal: u8, made: Made) -> SaverAnswer {
        SaverAnswer {
            refusal,
            cycle: made.cycle,
            written: made.written,
            saver: self.record(),
        }
    }

    /// The record as the header lays it out: the pool's frames at the front of the tables, oldest first, then zeros.
    fn record(&self) -> raw::Saver {
        let mut record = raw::Saver {
            cards: self.cards,
            pool: self.pool,
            taken: self.taken,
            made: self.made,
            waiting: self.waiting.len() as u16,
            closing: self.closing,
            card: [0; raw::MAX_POOL],
            position: [Position(0); raw::MAX_POOL],
        };
        for (place, frame) in self.waiting.iter().enumerate() {
            record.card[place] = frame.card;
            record.position[place] = frame.position;
        }
        record
    }
}
