//! The run of a plan on the dock, for plans that are written down by hand, with the answer that the rules of document 01 and
//! request 2026-05 give: the peak right after the reads of a cycle, and what still counts for it where a run breaks off.

use dockplan::reference::MAX_POOL;
use dockplan::{Cycle, Run};

const MODES: [u8; 3] = [0, 1, 2];

/// A ticket whose cards are just enough for a list.
fn ticket(mode: u8, m: usize, list: &[u8]) -> Vec<u8> {
    let cards = list.iter().max().map_or(1, |&card| card + 1);
    let mut text = format!("01{mode:02X}{cards:02X}{m:04X}{:04X}\n", list.len());
    for card in list {
        text += &format!("{card:02X}\n");
    }
    text.into_bytes()
}

/// A run that hands over all frames, in as many cycles as it ends.
fn complete(delivered: u16, cycles: u16, peak: u16) -> Run {
    Run {
        broken: false,
        delivered,
        ended: Cycle(cycles),
        needed: Some(Cycle(cycles)),
        peak,
    }
}

/// A run within the rules that leaves frames.
fn incomplete(delivered: u16, ended: u16, peak: u16) -> Run {
    Run {
        needed: None,
        ..complete(delivered, ended, peak)
    }
}

fn broken_off(delivered: u16, ended: u16, peak: u16) -> Run {
    Run {
        broken: true,
        ..incomplete(delivered, ended, peak)
    }
}

/// The mode of the ticket is not looked at.
#[track_caller]
fn is(m: usize, list: &[u8], plan: &[u16], run: Run) {
    for mode in MODES {
        let found = dockplan::run_plan(&ticket(mode, m, list), plan);
        assert_eq!(found, Ok(run), "mode {mode}, m={m}, plan {plan:?}");
    }
}

/// "Read list 0 0 1 with plan 1 2 2 has peak 2, and plan 1 2 1 also." A pool with more buffers changes nothing.
#[test]
fn peaks() {
    for m in [2, 3, MAX_POOL] {
        is(m, &[0, 0, 1], &[1, 2, 2], complete(3, 2, 2));
        is(m, &[0, 0, 1], &[1, 2, 1], complete(3, 2, 2));
        is(m, &[0, 0, 1], &[1, 2, 3], complete(3, 3, 1));
        is(m, &[0, 0, 1], &[1, 3, 3], complete(3, 3, 2));
    }
    is(3, &[0, 0, 1], &[2, 1, 2], complete(3, 2, 3));
    is(3, &[0, 0, 0], &[3, 2, 1], complete(3, 3, 3));
    is(4, &[0, 1, 2, 3], &[1, 1, 1, 1], complete(4, 1, 4));
    is(1, &[0], &[65_535], complete(1, 65_535, 1));
    is(1, &[], &[], complete(0, 0, 0));
}

/// An end that finds more than m frames held is against the rules. The reads of its cycle were made, so they count.
#[test]
fn broken_off_at_an_end() {
    is(1, &[0, 0, 1], &[1, 2, 2], broken_off(1, 1, 2));
    is(1, &[0, 0, 1], &[1, 2, 1], broken_off(0, 0, 2));
    is(2, &[0, 0, 1], &[2, 1, 2], broken_off(0, 1, 3));
    is(2, &[0, 0, 0], &[3, 2, 1], broken_off(0, 2, 3));
    is(1, &[0, 1, 2, 3], &[1, 1, 1, 1], broken_off(0, 0, 4));
    is(3, &[0, 1, 2, 3], &[1, 1, 1, 1], broken_off(0, 0, 4));
}

/// After the break nothing counts, and neither do the reads of a cycle in which a card has a second one.
#[test]
fn not_counted() {
    is(1, &[0, 1, 0, 1, 2], &[1, 1, 2, 2, 2], broken_off(0, 0, 2));
    is(2, &[0, 0, 1], &[1, 1, 2], broken_off(0, 0, 0));
    is(2, &[0, 1, 0, 2, 3], &[1, 1, 1, 2, 2], broken_off(0, 0, 0));
    is(3, &[0, 1, 2, 2], &[1, 2, 2, 2], broken_off(1, 1, 1));
    is(1, &[0, 1, 2, 2], &[1, 2, 2, 2], broken_off(1, 1, 1));
    is(3, &[0, 1, 2, 3, 3], &[1, 1, 2, 2, 2], broken_off(2, 1, 2));
}

/// A frame with cycle 0 is never read, so those after it stay held.
#[test]
fn frames_without_cycle() {
    is(1, &[0], &[0], incomplete(0, 0, 0));
    is(1, &[0, 1], &[0, 1], incomplete(0, 1, 1));
    is(1, &[0, 1], &[1, 0], incomplete(1, 1, 1));
    is(2, &[0, 1, 2], &[0, 1, 3], incomplete(0, 3, 2));
    is(1, &[0, 1, 2], &[0, 1, 3], broken_off(0, 2, 2));
}
