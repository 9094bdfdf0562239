//! The dock planner for Rust: safe wrappers over the calls of include/dockplan.h.
//! Slices carry the pointers and counts, refusals are errors, and nothing here panics.
//! `raw` has the calls as they are, `reference` an implementation of its own that the tests compare them with, and
//! `explain` says in words what the calls answer.

pub mod explain;
pub mod raw;
pub mod reference;

pub use raw::{Cycle, Position};

/// Whether the archive that is linked is the one that these wrappers are written for.
pub fn belongs_together() -> bool {
    // SAFETY: the call takes nothing.
    unsafe { raw::dockplan_version() == raw::VERSION }
}

/// The number of the refusal that a call met, 1 to 21. It is never 0. A ticket's own are 1 to 9 and 17.
#[derive(Clone, Copy, Debug, PartialEq, Eq)]
pub struct Refusal(pub u8);

/// Turns the number of an answer into a result: 0 is no refusal.
fn accepted(refusal: u8) -> Result<(), Refusal> {
    match refusal {
        0 => Ok(()),
        number => Err(Refusal(number)),
    }
}

/// What the header of an accepted ticket says. The editions are 1 and 2, the modes 0 read, 1 save, 2 save and keep.
#[derive(Clone, Copy, Debug, PartialEq, Eq)]
pub struct Ticket {
    pub edition: u8,
    pub mode: u8,
    pub cards: u8,
    pub pool: u16,
    pub frames: u16,
}

/// Reads a whole ticket, its lines too. Refusals 1 to 9 and 17.
pub fn parse(ticket: &[u8]) -> Result<Ticket, Refusal> {
    // SAFETY: pointer and count are those of one slice.
    let answer = unsafe { raw::dockplan_parse(ticket.as_ptr(), ticket.len()) };
    accepted(answer.refusal)?;
    Ok(Ticket {
        edition: answer.edition,
        mode: answer.mode,
        cards: answer.cards,
        pool: answer.pool,
        frames: answer.frames,
    })
}

/// The line of the frame at a position, without its end byte, as a part of the ticket: the digits of its card and, in
/// edition 02, of its capture second. Refusals 1 to 9 and 17, then 16.
pub fn line(ticket: &[u8], position: Position) -> Result<&[u8], Refusal> {
    // SAFETY: pointer and count are those of one slice.
    accepted(unsafe { raw::dockplan_line_refusal(ticket.as_ptr(), ticket.len(), position) })?;
    // SAFETY: as above.
    let part = unsafe { raw::dockplan_line(ticket.as_ptr(), ticket.len(), position) };
    let from_offset = ticket.get(part.offset..).unwrap_or_default();
    Ok(from_offset.get(..part.length).unwrap_or_default())
}

/// How many frames each of the 32 cards has. Refusals 1 to 9 and 17.
pub fn counts(ticket: &[u8]) -> Result<[u16; 32], Refusal> {
    // SAFETY: pointer and count are those of one slice.
    let answer = unsafe { raw::dockplan_counts(ticket.as_ptr(), ticket.len()) };
    accepted(answer.refusal)?;
    Ok(answer.frames)
}

/// Plans a ticket and answers T. The first L places of `out` get each frame's cycle, 0 for a frame that is kept.
/// Refusals 1 to 9 and 17, then 10 where `out` has fewer than L places.
pub fn plan(ticket: &[u8], out: &mut [u16]) -> Result<Cycle, Refusal> {
    // SAFETY: each pointer and count are those of one slice, and `out` is borrowed alone.
    let answer = unsafe { raw::dockplan_plan(ticket.as_ptr(), ticket.len(), out.as_mut_ptr(), out.len()) };
    accepted(answer.refusal)?;
    Ok(answer.cycles)
}

/// Prints the plan of a ticket, or the line of its refusal, to the front of `out` and answers how many bytes that is.
/// The answer is 0 where the text has no room.
pub fn print(ticket: &[u8], out: &mut [u8]) -> usize {
    // SAFETY: each pointer and count are those of one slice, and `out` is borrowed alone.
    unsafe { raw::dockplan_print(ticket.as_ptr(), ticket.len(), out.as_mut_ptr(), out.len()) }
}

/// Joins two read tickets of edition 02 into one, sorted by second, at the front of `out`, and answers how many bytes it
/// has. For equal seconds the first ticket's frames go before the second's. Refusals 1 to 9 and 17 of the first ticket,
/// then of the second; then 18 where one is not edition 02 or not a read, or cards or pool differ; then 19 for more than
/// 4,096 frames together; then 10 where `out` has too few places.
pub fn join(first: &[u8], second: &[u8], out: &mut [u8]) -> Result<usize, Refusal> {
    // SAFETY: each pointer and count are those of one slice, and `out` is borrowed alone.
    let answer = unsafe {
        raw::dockplan_join(
            first.as_ptr(),
            first.len(),
            second.as_ptr(),
            second.len(),
            out.as_mut_ptr(),
            out.len(),
        )
    };
    accepted(answer.refusal)?;
    Ok(answer.bytes)
}

/// Puts the card of each frame of a field hub at the front of `cards` and answers how many there are. `patterns` has the
/// number of a pattern for each camera, `cameras` the number of a camera for each frame. Refusals 20 where there are not 1
/// to 6 patterns or one is not 0 to 7; then 6 for more than 4,096 frames; then 21 where a camera number is not below the
/// camera count; then 10 where `cards` has fewer places than there are frames.
pub fn hub(patterns: &[u8], cameras: &[u8], cards: &mut [u8]) -> Result<u16, Refusal> {
    // SAFETY: each pointer and count are those of one slice, and `cards` is borrowed alone.
    let answer = unsafe {
        raw::dockplan_hub(
            patterns.as_ptr(),
            patterns.len(),
            cameras.as_ptr(),
            cameras.len(),
            cards.as_mut_ptr(),
            cards.len(),
        )
    };
    accepted(answer.refusal)?;
    Ok(answer.frames)
}

/// What the checker says of a plan: valid, or the lowest position at fault with the first of its faults.
#[derive(Clone, Copy, Debug, PartialEq, Eq)]
pub enum Verdict {
    /// A correct schedule of that many cycles. The peak of a read is the most frames held right after the reads of a cycle,
    /// which is how many buffers it needs; that of a save is 0.
    Valid { cycles: Cycle, peak: u16 },
    /// The frame has cycle 0.
    NoCycle(Position),
    /// An earlier frame of the same card has the same cycle.
    SharedCard(Position),
    /// Too many frames in the pool.
    Overfull(Position),
}

/// Checks a plan for a read or save ticket. Refusals 1 to 9 and 17, then 12 for mode 02, then 11 for a plan of another
/// length.
pub fn check(ticket: &[u8], plan: &[u16]) -> Result<Verdict, Refusal> {
    // SAFETY: each pointer and count are those of one slice.
    let answer = unsafe { raw::dockplan_check(ticket.as_ptr(), ticket.len(), plan.as_ptr(), plan.len()) };
    accepted(answer.refusal)?;
    Ok(match answer.verdict {
        raw::VALID => Verdict::Valid {
            cycles: answer.cycles,
            peak: answer.peak,
        },
        raw::NO_CYCLE => Verdict::NoCycle(answer.position),
        raw::SHARED_CARD => Verdict::SharedCard(answer.position),
        _ => Verdict::Overfull(answer.position),
    })
}

/// A plan's run on the dock.
#[derive(Clone, Copy, Debug, PartialEq, Eq)]
pub struct Run {
    /// A step was against the rules, and nothing changed from there on.
    pub broken: bool,
    /// The frames handed over.
    pub delivered: u16,
    /// The cycles that ended.
    pub ended: Cycle,
    /// The cycles needed to hand over all frames, or none where that was not reached.
    pub needed: Option<Cycle>,
    /// The most frames held right after the reads of a cycle, before handing over. It is above the pool exactly where the
    /// run broke off at an end of a cycle.
    pub peak: u16,
}

/// Runs a plan, good or bad, on the dock of the ticket's list and pool.
/// Refusals 1 to 9 and 17, then 11 for a plan of another length.
pub fn run_plan(ticket: &[u8], plan: &[u16]) -> Result<Run, Refusal> {
    // SAFETY: each pointer and count are those of one slice.
    let answer = unsafe { raw::dockplan_run_plan(ticket.as_ptr(), ticket.len(), plan.as_ptr(), plan.len()) };
    accepted(answer.refusal)?;
    Ok(Run {
        broken: answer.broken,
        delivered: answer.delivered,
        ended: answer.ended,
        needed: answer.complete.then_some(answer.needed),
        peak: answer.peak,
    })
}

/// A saver, which takes frames one by one.
///
/// The record is private: only records that a call gave ever go into a call. That is the one premise of the C calls,
/// and it makes these wrappers safe.
#[derive(Clone, Debug, PartialEq, Eq)]
pub struct Saver {
    record: raw::Saver,
}

/// What a saver's call made.
#[derive(Clone, Copy, Debug, PartialEq, Eq)]
pub struct Saved {
    /// The number of the cycle, if one was made.
    pub cycle: Option<Cycle>,
    /// For each card the position written in that cycle.
    pub written: [Option<Position>; 32],
}

impl Saver {
    /// A new saver for that many cards and a pool of that many frames. Refusals 4, then 5.
    pub fn new(cards: u8, pool: u16) -> Result<Saver, Refusal> {
        // SAFETY: the call takes numbers alone.
        let answer = unsafe { raw::dockplan_saver_new(cards, pool) };
        accepted(answer.refusal)?;
        Ok(Saver { record: answer.saver })
    }

    /// Saves the next frame, on this card; a full pool makes one cycle first. Refusals 15, 8, 13 in this order.
    pub fn save(&mut self, card: u8) -> Result<Saved, Refusal> {
        // SAFETY: a call gave this record.
        let answer = unsafe { raw::dockplan_saver_save(self.record, card) };
        self.take(answer)
    }

    /// Makes one closing cycle. Refusal 14 says that the pool is empty.
    pub fn close(&mut self) -> Result<Saved, Refusal> {
        // SAFETY: a call gave this record.
        let answer = unsafe { raw::dockplan_saver_close(self.record) };
        self.take(answer)
    }

    /// The frames in the pool.
    pub fn waiting(&self) -> u16 {
        self.record.waiting
    }

    /// The frames saved so far; the next one gets the position of this number.
    pub fn taken(&self) -> u16 {
        self.record.taken
    }

    /// Keeps the record of an accepted call. A refused call leaves the record as it is.
    fn take(&mut self, answer: raw::SaverAnswer) -> Result<Saved, Refusal> {
        accepted(answer.refusal)?;
        self.record = answer.saver;
        Ok(Saved {
            cycle: (answer.cycle != Cycle(0)).then_some(answer.cycle),
            written: answer
                .written
                .map(|position| (position != Position(raw::NONE)).then_some(position)),
        })
    }
}
