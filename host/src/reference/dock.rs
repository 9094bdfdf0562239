//! The dock, step by step, and the run of a plan on it. A plan's run has no drops, so there is no drop here.

use std::collections::BTreeSet;

/// A step of a plan's run. A read names a position.
#[derive(Clone, Copy, PartialEq, Eq)]
pub enum Step {
    Read(usize),
    EndOfCycle,
}

/// What the dock keeps: "how many frames are handed over (always the first ones of the list), which frames are held,
/// which cards have read in this cycle, how many cycles have ended, and whether the list of steps is broken off", and then
/// by which step.
struct Dock<'a> {
    list: &'a [u8],
    m: usize,
    handed_over: usize,
    held: BTreeSet<usize>,
    has_read: [bool; 32],
    ended: u16,
    broken_off: Option<Step>,
}

impl Dock<'_> {
    /// "At the start it is empty."
    fn new(list: &[u8], m: usize) -> Dock<'_> {
        Dock {
            list,
            m,
            handed_over: 0,
            held: BTreeSet::new(),
            has_read: [false; 32],
            ended: 0,
            broken_off: None,
        }
    }

    /// "A step against the rules breaks the list of steps off: beyond that, neither it nor any later step changes
    /// anything." Answers whether the step was made.
    fn step(&mut self, step: Step) -> bool {
        if self.broken_off.is_none() {
            let within_rules = match step {
                Step::Read(position) => self.read(position),
                Step::EndOfCycle => self.end_cycle(),
            };
            self.broken_off = (!within_rules).then_some(step);
        }
        self.broken_off.is_none()
    }

    /// "Against the rules if its card has read in this cycle. Otherwise it uses the card's turn. A frame neither held
    /// nor handed over takes a buffer and is held; for any other frame nothing else changes."
    fn read(&mut self, position: usize) -> bool {
        let card = usize::from(self.list[position]);
        if self.has_read[card] {
            return false;
        }
        self.has_read[card] = true;
        if position >= self.handed_over {
            self.held.insert(position);
        }
        true
    }

    /// "Against the rules if more than m frames are held. Otherwise, while the next frame of the list is held, it is
    /// handed over and its buffer is free; one more cycle has ended, and every card may read again."
    fn end_cycle(&mut self) -> bool {
        if self.held.len() > self.m {
            return false;
        }
        while self.held.remove(&self.handed_over) {
            self.handed_over += 1;
        }
        self.ended += 1;
        self.has_read = [false; 32];
        true
    }
}

/// What a plan's run came to. A step against the rules is there where it broke off, and the cycles needed where all frames
/// were handed over.
pub struct Run {
    pub broken_off: Option<Step>,
    pub delivered: u16,
    pub ended: u16,
    pub needed: Option<u16>,
    pub peak: u16,
}

/// "Its length T, the number of its cycles, is its largest cycle number, 0 for no frames."
pub fn length(plan: &[u16]) -> u16 {
    plan.iter().copied().max().unwrap_or(0)
}

/// "A plan's run has, for each cycle from 1 to T, the reads of the frames with that number in list order, then the end
/// of the cycle, and no drops."
/// "The cycles needed are all those ended up to and with the step that hands over the last frame, 0 for no frames."
/// "The peak becomes the most frames held right after the reads of a cycle, before handing over", 0 for no cycles. It counts
/// a cycle whose reads were all made, and so the one whose end finds too many frames held.
pub fn run_plan(list: &[u8], m: usize, plan: &[u16]) -> Run {
    let mut dock = Dock::new(list, m);
    let mut needed = list.is_empty().then_some(0);
    let mut peak = 0;
    let mut reads = positions_by_cycle(plan).into_iter().peekable();
    for cycle in 1..=length(plan) {
        while let Some(position) = reads.next_if(|&position| plan[position] == cycle) {
            dock.step(Step::Read(position));
        }
        if dock.broken_off.is_none() {
            peak = peak.max(dock.held.len());
        }
        if dock.step(Step::EndOfCycle) && needed.is_none() && dock.handed_over == list.len() {
            needed = Some(dock.ended);
        }
    }
    Run {
        broken_off: dock.broken_off,
        delivered: dock.handed_over as u16,
        ended: dock.ended,
        needed,
        peak: peak as u16,
    }
}

/// The positions in the order of their cycles, in list order within a cycle. A frame with cycle 0 is never read.
fn positions_by_cycle(plan: &[u16]) -> Vec<usize> {
    let mut positions: Vec<usize> = (0..plan.len()).filter(|&position| plan[position] > 0).collect();
    positions.sort_by_key(|&position| plan[position]);
    positions
}
