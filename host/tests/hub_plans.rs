//! What request 2026-06 promises of a hub's cards: "with S cameras, L frames and a pool above 7 × S, both read and full save
//! take exactly the load of the fullest card, and 8 × T is at most L + 7 × S". Here on lists that are written down: those that
//! need the whole pool, those that need most cycles, and all of 16 frames of two cameras.

use dockplan::reference::MAX_POOL;
use dockplan::{counts, hub, plan};
use std::thread;

const READ: u8 = 0;
const SAVE: u8 = 1;

/// The frames of a hub's list on their cards.
struct Gathered {
    /// The number of cameras.
    s: usize,
    cards: Vec<u8>,
}

impl Gathered {
    fn new(patterns: &[u8], cameras: &[u8]) -> Gathered {
        let mut cards = vec![0; cameras.len()];
        assert_eq!(hub(patterns, cameras, &mut cards), Ok(cameras.len() as u16));
        let s = patterns.len();
        Gathered { s, cards }
    }

    /// The frames on the fullest card, which is also what the library counts.
    fn fullest(&self) -> usize {
        let load = |card| self.cards.iter().filter(|&&own| own == card).count();
        let loads = [0, 1, 2, 3, 4, 5, 6, 7].map(load);
        let counted = counts(&self.ticket(1, READ, 1)).unwrap().map(usize::from);
        assert_eq!(counted[..8], loads);
        loads.into_iter().max().unwrap_or(0)
    }

    /// T as a read or a save with this pool. It is the same in both editions.
    fn cycles(&self, mode: u8, pool: usize) -> usize {
        let mut places = vec![0; self.cards.len()];
        let mut cycles = |edition| plan(&self.ticket(edition, mode, pool), &mut places).unwrap();
        let (first, second) = (cycles(1), cycles(2));
        assert_eq!(first, second, "the editions differ");
        first.0.into()
    }

    /// The ticket for eight cards. The frames of edition 02 were captured in the same second.
    fn ticket(&self, edition: u8, mode: u8, pool: usize) -> Vec<u8> {
        let second = if edition == 1 { "" } else { "6AF30900" };
        let mut text = format!("{edition:02X}{mode:02X}08{pool:04X}{:04X}\n", self.cards.len());
        for card in &self.cards {
            text += &format!("{card:02X}{second}\n");
        }
        text.into_bytes()
    }

    /// Read and saved, with the smallest pool above 7 S and with larger ones.
    fn takes_the_fullest_load(&self) {
        let (s, l, t) = (self.s, self.cards.len(), self.fullest());
        assert!(8 * t <= l + 7 * s, "{s} cameras, {l} frames, {t} on one card");
        for mode in [READ, SAVE] {
            for pool in [7 * s + 1, 7 * s + 2, 100, MAX_POOL] {
                assert_eq!(
                    self.cycles(mode, pool),
                    t,
                    "mode {mode}, pool {pool}, cards {:?}",
                    self.cards
                );
            }
        }
    }
}

/// So many frames of each camera, one camera after the other.
fn of_each(cameras: usize, frames: usize) -> Vec<u8> {
    (0..cameras as u8).flat_map(|camera| vec![camera; frames]).collect()
}

// ---- Lists that need the whole pool ----

/// Saved with a pool of 7 S: seven frames of each camera fill it, and none is on the card of their eighth frames. So a cycle
/// passes in which that card writes nothing. With one buffer more it does not.
#[test]
fn saved_with_one_buffer_less() {
    for pattern in 0..8 {
        for s in 1..=6 {
            let gathered = Gathered::new(&vec![pattern; s], &[of_each(s, 7), of_each(s, 1)].concat());
            assert_eq!(gathered.fullest(), s);
            assert_eq!(gathered.cycles(SAVE, 7 * s), s + 1, "{s} cameras, pattern {pattern}");
            assert_eq!(gathered.cycles(SAVE, 7 * s + 1), s, "{s} cameras, pattern {pattern}");
            gathered.takes_the_fullest_load();
        }
    }
}

/// Read with a pool of 7 S: the other way round, the first frame of each camera and then seven of each.
#[test]
fn read_with_one_buffer_less() {
    for pattern in 0..8 {
        for s in 1..=6 {
            let gathered = Gathered::new(&vec![pattern; s], &[of_each(s, 1), of_each(s, 7)].concat());
            assert_eq!(gathered.fullest(), s);
            assert_eq!(gathered.cycles(READ, 7 * s), s + 1, "{s} cameras, pattern {pattern}");
            assert_eq!(gathered.cycles(READ, 7 * s + 1), s, "{s} cameras, pattern {pattern}");
            gathered.takes_the_fullest_load();
        }
    }
}

/// The cards of the save, in the other order, are what a read needs the whole pool for.
#[test]
fn read_in_the_other_order() {
    for s in 1..=6 {
        let mut gathered = Gathered::new(&vec![5; s], &[of_each(s, 7), of_each(s, 1)].concat());
        gathered.cards.reverse();
        assert_eq!(gathered.cycles(READ, 7 * s), s + 1, "{s} cameras");
        assert_eq!(gathered.cycles(READ, 7 * s + 1), s, "{s} cameras");
    }
}

// ---- Lists that need most cycles ----

/// Each camera's last frame is on the same card: 8 T is L + 7 S, and no list has more.
#[test]
fn most_cycles() {
    for s in 1..=6 {
        for rounds in [0, 1, 2, 5, 84] {
            let gathered = Gathered::new(&vec![3; s], &of_each(s, 8 * rounds + 1));
            let (l, t) = (gathered.cards.len(), s * (rounds + 1));
            assert_eq!(gathered.fullest(), t, "{s} cameras, {rounds} rounds");
            assert_eq!(8 * t, l + 7 * s);
            gathered.takes_the_fullest_load();
        }
    }
}

/// Whole rounds of each camera are on all cards alike: 8 T is L.
#[test]
fn fewest_cycles() {
    for s in 1..=6 {
        for rounds in [0, 1, 2, 85] {
            let patterns = [0, 3, 5, 6, 1, 4];
            let gathered = Gathered::new(&patterns[..s], &of_each(s, 8 * rounds));
            assert_eq!(gathered.fullest(), s * rounds, "{s} cameras, {rounds} rounds");
            gathered.takes_the_fullest_load();
        }
    }
}

// ---- All lists of some kind ----

/// One camera: its list has a length and nothing else.
#[test]
fn one_camera() {
    for frames in (0..=300).chain([1000, 4095, 4096]) {
        for pattern in 0..8 {
            let gathered = Gathered::new(&[pattern], &vec![0; frames]);
            assert_eq!(gathered.fullest(), frames.div_ceil(8), "{frames} frames");
            gathered.takes_the_fullest_load();
        }
    }
}

/// Two cameras: every list of 16 frames, which is one more than the smallest pool above 7 S, with patterns that have the same
/// first and last card, the same first one, the same last one, and neither.
#[test]
fn two_cameras() {
    thread::scope(|scope| {
        for patterns in [[5, 5], [0, 1], [0, 6], [0, 4]] {
            scope.spawn(move || {
                for code in 0..1_u32 << 16 {
                    let cameras: Vec<u8> = (0..16).map(|position| (code >> position & 1) as u8).collect();
                    let gathered = Gathered::new(&patterns, &cameras);
                    let fullest = gathered.fullest();
                    for mode in [READ, SAVE] {
                        let more = usize::from(needs_a_pool_of_15(mode, &cameras, &gathered.cards));
                        let input = format_args!("mode {mode}, patterns {patterns:?}, cameras {cameras:?}");
                        assert_eq!(gathered.cycles(mode, 15), fullest, "{input}");
                        assert_eq!(gathered.cycles(mode, 14), fullest + more, "{input}");
                    }
                }
            });
        }
    });
}

/// As above: the first two frames of a read, or the last two of a save, are of both cameras and on one card, and the other
/// fourteen are seven of each.
fn needs_a_pool_of_15(mode: u8, cameras: &[u8], cards: &[u8]) -> bool {
    let two = if mode == READ { 0..2 } else { 14..16 };
    let eight_of_each = cameras.iter().filter(|&&camera| camera == 0).count() == 8;
    let of_both = cameras[two.clone()] == [0, 1] || cameras[two.clone()] == [1, 0];
    let on_one_card = cards[two.start] == cards[two.start + 1];
    eight_of_each && of_both && on_one_card
}

/// The longest lists of several cameras: in turns, and in bursts of 7, of 8, of 9 and of as many frames as each camera has.
#[test]
fn longest_lists() {
    let patterns = [0, 1, 2, 4, 6, 7];
    for s in 2..=6 {
        for burst in [1, 7, 8, 9, 4096_usize.div_ceil(s)] {
            let camera = |position| (position / burst % s) as u8;
            let cameras: Vec<u8> = (0..4096).map(camera).collect();
            Gathered::new(&patterns[..s], &cameras).takes_the_fullest_load();
            Gathered::new(&vec![2; s], &cameras).takes_the_fullest_load();
        }
    }
}
