//! The checker on plans that are written down by hand, with the verdict that the rules of document 01 give: which of several
//! faults is named, and the largest cycle at 4,096 and one more, where the library goes from tables to counting.

use dockplan::reference::MAX_POOL;
use dockplan::{Cycle, Position, Verdict};

const READ: u8 = 0;
const SAVE: u8 = 1;
const BOTH: [u8; 2] = [READ, SAVE];

/// The largest cycles that each plan is tried with: at the end of the tables, one more, and the largest there is.
const TOPS: [u16; 3] = [4096, 4097, 65_535];

/// A ticket whose cards are just enough for a list.
fn ticket(mode: u8, m: usize, list: &[u8]) -> Vec<u8> {
    let cards = list.iter().max().map_or(1, |&card| card + 1);
    let mut text = format!("01{mode:02X}{cards:02X}{m:04X}{:04X}\n", list.len());
    for card in list {
        text += &format!("{card:02X}\n");
    }
    text.into_bytes()
}

fn valid(cycles: u16, peak: u16) -> Verdict {
    Verdict::Valid {
        cycles: Cycle(cycles),
        peak,
    }
}

/// Valid in this mode. The peak of a save is 0.
fn valid_in(mode: u8, cycles: u16, peak_of_read: u16) -> Verdict {
    valid(cycles, if mode == READ { peak_of_read } else { 0 })
}

fn no_cycle(position: u16) -> Verdict {
    Verdict::NoCycle(Position(position))
}

fn shared_card(position: u16) -> Verdict {
    Verdict::SharedCard(Position(position))
}

fn overfull(position: u16) -> Verdict {
    Verdict::Overfull(Position(position))
}

#[track_caller]
fn is(mode: u8, m: usize, list: &[u8], plan: &[u16], verdict: Verdict) {
    let found = dockplan::check(&ticket(mode, m, list), plan);
    let shown = &plan[..plan.len().min(8)];
    assert_eq!(found, Ok(verdict), "mode {mode}, m={m}, plan {shown:?}");
}

/// The plan as it is, and with its cycles so much later that the largest one is each of TOPS: a fault stays the same. A cycle
/// 0 stays 0, and quiet cycles at the start change no peak.
#[track_caller]
fn is_at_every_top(mode: u8, m: usize, list: &[u8], plan: &[u16], verdict: Verdict) {
    is(mode, m, list, plan, verdict);
    let largest = plan.iter().copied().max().unwrap_or(0);
    for top in TOPS {
        let by = top - largest;
        let later = |&cycle: &u16| if cycle == 0 { 0 } else { cycle + by };
        let later_plan: Vec<u16> = plan.iter().map(later).collect();
        let verdict = match verdict {
            Verdict::Valid { peak, .. } => valid(top, peak),
            fault => fault,
        };
        is(mode, m, list, &later_plan, verdict);
    }
}

/// The order of the faults at one position: "cycle 0; an earlier frame of the same card in the same cycle; too many frames
/// in the pool". In a read, a frame that shares its card has an earlier one with more frames in its pool, so the two faults
/// never meet at the lowest position.
#[test]
fn first_of_the_faults_at_a_position() {
    is_at_every_top(READ, 1, &[0, 1], &[0, 0], no_cycle(0));
    is_at_every_top(READ, 1, &[0, 0, 1], &[0, 0, 1], no_cycle(0));
    is_at_every_top(SAVE, 1, &[0, 1], &[1, 0], no_cycle(1));
    is_at_every_top(SAVE, 2, &[0, 1, 1], &[2, 1, 0], no_cycle(2));
    is_at_every_top(SAVE, 1, &[0, 0], &[1, 1], shared_card(1));
    is_at_every_top(SAVE, 2, &[0, 1, 0], &[1, 1, 1], shared_card(2));
    is_at_every_top(SAVE, 3, &[0, 1, 0], &[1, 1, 1], shared_card(2));
}

/// "The lowest position at fault" comes before the order of the faults.
#[test]
fn overfull_before_other_faults() {
    is_at_every_top(READ, 1, &[0, 0, 1], &[1, 1, 2], overfull(0));
    is_at_every_top(READ, 1, &[0, 1, 0], &[1, 3, 1], overfull(0));
    is_at_every_top(READ, 1, &[0, 1, 2], &[1, 2, 0], overfull(0));
    is_at_every_top(READ, 2, &[0, 1, 2], &[1, 2, 0], no_cycle(2));
    is_at_every_top(SAVE, 1, &[0, 1, 0], &[2, 1, 2], overfull(1));
    is_at_every_top(SAVE, 2, &[0, 1, 0], &[2, 1, 2], shared_card(2));
    is_at_every_top(SAVE, 1, &[0, 1, 2], &[2, 1, 0], overfull(1));
    is_at_every_top(SAVE, 2, &[0, 1, 2], &[2, 1, 0], no_cycle(2));
}

/// The other way round: a shared card or no cycle, and a pool that is overfull only after it.
#[test]
fn other_faults_before_overfull() {
    is_at_every_top(READ, 2, &[0, 0, 1, 2, 3], &[1, 1, 9, 8, 7], shared_card(1));
    is_at_every_top(READ, 2, &[0, 1, 2, 3], &[0, 9, 8, 7], no_cycle(0));
    is_at_every_top(SAVE, 2, &[0, 0, 1, 2, 3], &[1, 1, 9, 8, 7], shared_card(1));
    is_at_every_top(SAVE, 2, &[0, 1, 2, 3], &[0, 9, 8, 7], no_cycle(0));
}

/// "A cycle 0 takes part in the comparisons of other frames as the number 0": a read counts it as a later frame with an
/// earlier cycle, a save never counts it.
#[test]
fn cycle_0_in_the_pools_of_others() {
    is_at_every_top(READ, 1, &[0, 1], &[1, 0], overfull(0));
    is_at_every_top(READ, 2, &[0, 1], &[1, 0], no_cycle(1));
    is_at_every_top(READ, 2, &[0, 1, 2, 3], &[1, 2, 0, 0], overfull(0));
    is_at_every_top(READ, 3, &[0, 1, 2, 3], &[1, 2, 0, 0], no_cycle(2));
    is_at_every_top(SAVE, 1, &[0, 1], &[0, 1], no_cycle(0));
}

/// A pool that is just full, and one that has a frame too many.
#[test]
fn just_full() {
    is_at_every_top(READ, 2, &[0, 1, 2], &[2, 1, 3], valid(3, 2));
    is_at_every_top(READ, 2, &[0, 1, 2], &[2, 1, 2], overfull(0));
    is_at_every_top(READ, 2, &[0, 1, 2, 3], &[1, 9, 5, 10], valid(10, 2));
    is_at_every_top(READ, 2, &[0, 1, 2, 3], &[1, 9, 5, 9], overfull(1));
    is_at_every_top(SAVE, 2, &[0, 1, 2], &[1, 3, 2], valid(3, 0));
    is_at_every_top(SAVE, 2, &[0, 1, 2], &[2, 3, 2], overfull(2));
    is_at_every_top(SAVE, 2, &[0, 1, 2, 3], &[1, 9, 5, 6], valid(9, 0));
    is_at_every_top(SAVE, 2, &[0, 1, 2, 3], &[1, 9, 5, 5], overfull(3));
    is_at_every_top(SAVE, 2, &[0, 1, 2, 3, 4], &[1, 9, 5, 6, 7], valid(9, 0));
    is_at_every_top(SAVE, 2, &[0, 1, 2, 3, 4], &[1, 9, 5, 6, 6], overfull(4));
}

/// The list and plan of a read, its peak, and the position at fault with one buffer less. Frames that are handed over in a
/// cycle are among those held right after its reads.
const PEAKS: [(&[u8], &[u16], u16, u16); 8] = [
    (&[0, 0, 1], &[1, 2, 2], 2, 1),
    (&[0, 0, 1], &[1, 2, 1], 2, 0),
    (&[0, 0, 1], &[2, 1, 2], 3, 0),
    (&[0, 1, 2, 3], &[1, 1, 1, 1], 4, 0),
    (&[0, 1, 2, 3, 0], &[1, 2, 2, 2, 3], 3, 1),
    (&[0, 0, 0, 1, 1], &[1, 3, 2, 3, 5], 3, 1),
    (&[0, 0, 0, 1], &[1, 5, 9, 9], 2, 2),
    (&[0, 1, 2, 3, 4, 5], &[2, 1, 3, 4, 3, 3], 3, 2),
];

/// "Valid for pool m exactly when the peak of its run, on a dock with a buffer for every frame, is at most m."
#[test]
fn pool_as_large_as_the_peak() {
    for (list, plan, peak, position) in PEAKS {
        let top = plan.iter().copied().max().unwrap_or(0);
        let m = usize::from(peak);
        is_at_every_top(READ, m - 1, list, plan, overfull(position));
        for m in [m, m + 1, MAX_POOL] {
            is_at_every_top(READ, m, list, plan, valid(top, peak));
        }
    }
}

/// A card whose cycles fall may still use each once; another card's frame in the same cycle is no fault.
#[test]
fn cards_that_fall_back() {
    for mode in BOTH {
        is_at_every_top(mode, 3, &[0, 0, 0], &[3, 2, 1], valid_in(mode, 3, 3));
        is_at_every_top(mode, 4, &[0, 1, 0, 1], &[2, 2, 1, 1], valid_in(mode, 2, 4));
        is_at_every_top(mode, 4, &[0, 1, 0, 1], &[2, 1, 1, 2], valid_in(mode, 2, 4));
        is_at_every_top(mode, 4, &[0, 1, 0, 1], &[2, 1, 1, 1], shared_card(3));
        for cycle in 1..=3 {
            is_at_every_top(mode, 4, &[0, 0, 0, 0], &[3, 1, 2, cycle], shared_card(3));
        }
        is_at_every_top(mode, 4, &[31, 30, 31, 30], &[2, 1, 1, 1], shared_card(3));
        is_at_every_top(mode, 4, &[0, 31, 0, 31], &[2, 2, 1, 1], valid_in(mode, 2, 4));
    }
}

/// All 32 cards twice, in cycle 2 and then in cycle 1; then one of the later frames goes to cycle 2.
#[test]
fn all_cards() {
    let list: Vec<u8> = (0..32).chain(0..32).collect();
    let falling = [[2; 32], [1; 32]].concat();
    is_at_every_top(READ, 64, &list, &falling, valid(2, 64));
    is_at_every_top(SAVE, 64, &list, &falling, valid(2, 0));
    for position in 32..64 {
        let mut plan = falling.clone();
        plan[position] = 2;
        for mode in BOTH {
            is_at_every_top(mode, 64, &list, &plan, shared_card(position as u16));
        }
    }
}

/// All frames on one card and in one cycle: a read is overfull at the first frame unless the pool has room for all.
#[test]
fn one_card_and_one_cycle() {
    let cards = [0; 5];
    for m in [1, 2, 4] {
        is_at_every_top(READ, m, &cards, &[3; 5], overfull(0));
    }
    for m in [5, 6, MAX_POOL] {
        is_at_every_top(READ, m, &cards, &[3; 5], shared_card(1));
    }
    for m in [1, 2, 4, 5, 6, MAX_POOL] {
        is_at_every_top(SAVE, m, &cards, &[3; 5], shared_card(1));
    }
    for m in [1, MAX_POOL] {
        is_at_every_top(READ, m, &[31; 4096], &[1; 4096], overfull(0));
        is_at_every_top(SAVE, m, &[31; 4096], &[1; 4096], shared_card(1));
    }
}

#[test]
fn one_frame() {
    for mode in BOTH {
        for m in [1, MAX_POOL] {
            is_at_every_top(mode, m, &[0], &[1], valid_in(mode, 1, 1));
            is(mode, m, &[0], &[0], no_cycle(0));
        }
    }
}

#[test]
fn two_frames() {
    for list in [[0, 0], [0, 1]] {
        for mode in BOTH {
            is_at_every_top(mode, 1, &list, &[1, 2], valid_in(mode, 2, 1));
            is_at_every_top(mode, 2, &list, &[2, 1], valid_in(mode, 2, 2));
        }
        is_at_every_top(READ, 1, &list, &[2, 1], overfull(0));
        is_at_every_top(SAVE, 1, &list, &[2, 1], overfull(1));
    }
    is_at_every_top(READ, 1, &[0, 0], &[1, 1], overfull(0));
    is_at_every_top(READ, 2, &[0, 0], &[1, 1], shared_card(1));
    is_at_every_top(SAVE, 2, &[0, 0], &[1, 1], shared_card(1));
    is_at_every_top(READ, 1, &[0, 1], &[1, 1], overfull(0));
    is_at_every_top(SAVE, 1, &[0, 1], &[1, 1], overfull(1));
    for mode in BOTH {
        is_at_every_top(mode, 2, &[0, 1], &[1, 1], valid_in(mode, 1, 2));
    }
}

/// The first frame stays in cycle 1 while the other one goes from 4,096 to 4,097, and the other way round.
#[test]
fn one_of_two_frames_past_the_tables() {
    for top in TOPS {
        for mode in BOTH {
            is(mode, 1, &[0, 0], &[1, top], valid_in(mode, top, 1));
        }
        is(READ, 1, &[0, 0], &[top, 1], overfull(0));
        is(READ, 2, &[0, 0], &[top, 1], valid(top, 2));
        is(SAVE, 1, &[0, 0], &[top, 1], overfull(1));
        is(SAVE, 2, &[0, 0], &[top, 1], valid(top, 0));
        is(READ, 1, &[0, 1], &[top, 0], overfull(0));
        is(READ, 2, &[0, 1], &[top, 0], no_cycle(1));
        is(SAVE, 1, &[0, 1], &[top, 0], no_cycle(1));
    }
}

/// 4,096 frames on one card, one a cycle, and what the last two frames can do to that.
#[test]
fn longest_list() {
    let list = [7; 4096];
    let in_order: Vec<u16> = (1..=4096).collect();
    let with_last = |last: [u16; 2]| [&in_order[..4094], &last].concat();
    for mode in BOTH {
        is_at_every_top(mode, 1, &list, &in_order, valid_in(mode, 4096, 1));
        is_at_every_top(mode, 2, &list, &with_last([4096, 4095]), valid_in(mode, 4096, 2));
        is_at_every_top(mode, 2, &list, &with_last([4096, 4096]), shared_card(4095));
        is_at_every_top(mode, 2, &list, &with_last([4095, 0]), no_cycle(4095));
    }
    is_at_every_top(READ, 1, &list, &with_last([4096, 4095]), overfull(4094));
    is_at_every_top(SAVE, 1, &list, &with_last([4096, 4095]), overfull(4095));
    is_at_every_top(READ, 1, &list, &with_last([4095, 0]), overfull(0));
    is_at_every_top(SAVE, 1, &list, &with_last([4095, 0]), no_cycle(4095));
}

/// 4,096 frames whose cycles fall throughout: a read is overfull at once, a save as soon as m frames came.
#[test]
fn longest_list_falling() {
    let list: Vec<u8> = (0..4096).map(|position| (position % 32) as u8).collect();
    let falling: Vec<u16> = (1..=4096).rev().collect();
    for m in [1, 2, 100, MAX_POOL - 1, MAX_POOL] {
        is_at_every_top(READ, m, &list, &falling, overfull(0));
        is_at_every_top(SAVE, m, &list, &falling, overfull(m as u16));
    }
}

/// One frame a cycle; the cycles fall in each block. The blocks begin at these positions, and the last one ends the list.
fn falling_in_blocks(starts: &[usize]) -> Vec<u16> {
    let mut plan: Vec<u16> = (1..=4096).collect();
    for (number, &start) in starts.iter().enumerate() {
        let end = starts.get(number + 1).copied().unwrap_or(4096);
        plan[start..end].reverse();
    }
    plan
}

/// Blocks of 192 frames are just what a pool of 192 has room for: 64 frames and then 21 blocks are the whole list. A read
/// counts for the first frame of a block the 191 later ones of it, which have earlier cycles, and for the others fewer; a
/// save counts for the last frame of a block the 191 earlier ones, which have later cycles. So a pool of 191 is overfull in
/// the first whole block, which has positions 64 to 255: a read at 64, a save at 255. Then the last block begins a frame
/// earlier, at 3,903 instead of 3,904, and has 193 frames: a pool of 192 is overfull at its first frame or at its last.
#[test]
fn longest_list_falling_in_blocks() {
    let list = [0; 4096];
    let mut starts: Vec<usize> = [0].into_iter().chain((64..4096).step_by(192)).collect();
    let plan = falling_in_blocks(&starts);
    is_at_every_top(READ, 192, &list, &plan, valid(4096, 192));
    is_at_every_top(SAVE, 192, &list, &plan, valid(4096, 0));
    is_at_every_top(READ, 191, &list, &plan, overfull(64));
    is_at_every_top(SAVE, 191, &list, &plan, overfull(255));
    assert_eq!(starts.pop(), Some(3904));
    starts.push(3903);
    let plan = falling_in_blocks(&starts);
    is_at_every_top(READ, 192, &list, &plan, overfull(3903));
    is_at_every_top(SAVE, 192, &list, &plan, overfull(4095));
}
