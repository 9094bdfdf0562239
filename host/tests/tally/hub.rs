//! What came of the patterns and lists that a hub was given: how often each ground for a refusal, alone and with another one,
//! each size of a list, each pattern, and how close the cards came to what is promised of them.

use super::add_each;
use crate::hubs::Hub;
use dockplan::raw::HubAnswer;
use std::fmt::Display;

/// The grounds for a refusal, in their order.
const GROUNDS: [u8; 4] = [20, 6, 21, 10];

/// What makes a ground hold. It counts where no other ground does.
const CAUSES: [&str; 11] = [
    "20, no cameras",
    "20, seven cameras",
    "20, more cameras",
    "20, pattern 8",
    "20, another pattern",
    "6, 4,097 frames",
    "6, more frames",
    "21 at the first frame alone",
    "21 at the last frame alone",
    "21 by the number of cameras",
    "10, one place less",
];

/// Two grounds that hold, and no other. The one that is named first must be answered.
const ORDERS: [(u8, u8); 6] = [(20, 6), (20, 21), (20, 10), (6, 21), (6, 10), (21, 10)];

/// Lists of which the cards were given, by their number of frames.
const SIZES: [&str; 5] = ["none", "1 to 8", "9 to 60", "61 to 4,095", "4,096"];

/// Everything is as often as this.
const LEAST: u64 = 300;

#[derive(Default)]
pub struct Hubs {
    /// Patterns with a list, each given with several buffers.
    pub inputs: u64,
    refusals: [u64; GROUNDS.len()],
    causes: [u64; CAUSES.len()],
    orders: [u64; ORDERS.len()],
    sizes: [u64; SIZES.len()],
    /// By the number of cameras, of lists whose cards were given. The first place stays 0, here and below.
    cameras: [u64; 7],
    /// By pattern, of cameras with nine frames or more.
    patterns: [u64; 8],
    /// By the number of cameras: the cards have 8 T = L + 7 S; and a pool of 7 S is not enough for a read, and for a save.
    most_cycles: [u64; 7],
    whole_pool: [[u64; 7]; 2],
}

impl Hubs {
    /// Counts a call with that many places.
    pub fn count(&mut self, given: &Hub, places: usize, answer: &HubAnswer) {
        let grounds = grounds(given, places);
        match grounds[..] {
            [] => self.count_given(given),
            [ground] => self.count_cause(given, places, ground),
            [first, second] => {
                let counted = ORDERS.map(|order| u64::from(order == (first, second) && answer.refusal == first));
                add_each(&mut self.orders, &counted);
            }
            _ => {}
        }
        let refused = GROUNDS.map(|ground| u64::from(answer.refusal == ground));
        add_each(&mut self.refusals, &refused);
    }

    /// Counts what makes the one ground hold.
    fn count_cause(&mut self, given: &Hub, places: usize, ground: u8) {
        let Hub { patterns, cameras } = given;
        let (count, frames) = (patterns.len(), cameras.len());
        let highest_pattern = patterns.iter().max().copied().unwrap_or(0);
        let highest_camera = cameras.iter().max().copied().map_or(0, usize::from);
        let too_high: Vec<usize> = (0..frames).filter(|&i| usize::from(cameras[i]) >= count).collect();
        let holds = [
            ground == 20 && count == 0,
            ground == 20 && count == 7,
            ground == 20 && count > 7,
            ground == 20 && (1..=6).contains(&count) && highest_pattern == 8,
            ground == 20 && (1..=6).contains(&count) && highest_pattern > 8,
            ground == 6 && frames == 4097,
            ground == 6 && frames > 4097,
            ground == 21 && frames > 1 && too_high == [0],
            ground == 21 && frames > 1 && too_high == [frames - 1],
            ground == 21 && highest_camera == count,
            ground == 10 && places + 1 == frames,
        ];
        add_each(&mut self.causes, &holds.map(u64::from));
    }

    /// Counts a list whose cards were given.
    fn count_given(&mut self, given: &Hub) {
        let size = match given.cameras.len() {
            0 => 0,
            1..=8 => 1,
            9..=60 => 2,
            61..=4095 => 3,
            _ => 4,
        };
        self.sizes[size] += 1;
        self.cameras[given.patterns.len()] += 1;
        for (camera, &pattern) in given.patterns.iter().enumerate() {
            let frames = given.cameras.iter().filter(|&&of| usize::from(of) == camera);
            self.patterns[usize::from(pattern)] += u64::from(frames.count() >= 9);
        }
    }

    /// Counts the cycles of S cameras and L frames.
    pub fn count_cycles(&mut self, s: usize, l: usize, t: usize) {
        self.most_cycles[s] += u64::from(8 * t == l + 7 * s);
    }

    /// Counts a read (mode 0) or a save (mode 1) of S cameras that takes more cycles with a pool of 7 S, or not.
    pub fn count_pool(&mut self, mode: usize, s: usize, takes_more: bool) {
        self.whole_pool[mode][s] += u64::from(takes_more);
    }

    pub fn add(&mut self, other: &Hubs) {
        self.inputs += other.inputs;
        add_each(&mut self.refusals, &other.refusals);
        add_each(&mut self.causes, &other.causes);
        add_each(&mut self.orders, &other.orders);
        add_each(&mut self.sizes, &other.sizes);
        add_each(&mut self.cameras, &other.cameras);
        add_each(&mut self.patterns, &other.patterns);
        add_each(&mut self.most_cycles, &other.most_cycles);
        for (sums, counts) in self.whole_pool.iter_mut().zip(&other.whole_pool) {
            add_each(sums, counts);
        }
    }

    pub fn print(&self) {
        println!("{} patterns and lists for a hub", self.inputs);
        for (name, count) in self.counts() {
            println!("hubs, {name}: {count}");
        }
    }

    pub fn assert_not_rare(&self) {
        assert!(self.inputs >= 100_000, "too few lists for a hub");
        for (name, count) in self.counts() {
            assert!(count >= LEAST, "too rare for a hub: {name}: {count}");
        }
    }

    /// Everything that is counted, by name.
    fn counts(&self) -> Vec<(String, u64)> {
        let orders = ORDERS.map(|(first, second)| format!("{first} before {second}"));
        [
            named("refused by", GROUNDS, &self.refusals),
            named("refused by", CAUSES, &self.causes),
            named("two grounds,", orders, &self.orders),
            named("lists by frames:", SIZES, &self.sizes),
            named("lists by cameras:", 1..=6, &self.cameras[1..]),
            named("cameras by pattern:", 0..8, &self.patterns),
            named("lists with 8 T = L + 7 S, by cameras:", 1..=6, &self.most_cycles[1..]),
            named(
                "lists that need over 7 S buffers to read, by cameras:",
                1..=6,
                &self.whole_pool[0][1..],
            ),
            named(
                "lists that need over 7 S buffers to save, by cameras:",
                1..=6,
                &self.whole_pool[1][1..],
            ),
        ]
        .concat()
    }
}

/// The counts with their names, after what they have in common.
fn named<N: Display>(common: &str, names: impl IntoIterator<Item = N>, counts: &[u64]) -> Vec<(String, u64)> {
    let named = names.into_iter().zip(counts);
    named
        .map(|(name, &count)| (format!("{common} {name}"), count))
        .collect()
}

/// The grounds for a refusal that hold, in their order.
fn grounds(given: &Hub, places: usize) -> Vec<u8> {
    let Hub { patterns, cameras } = given;
    let count = patterns.len();
    let holds = [
        !(1..=6).contains(&count) || patterns.iter().any(|&pattern| pattern > 7),
        cameras.len() > 4096,
        cameras.iter().any(|&camera| usize::from(camera) >= count),
        places < cameras.len(),
    ];
    let grounds = GROUNDS.into_iter().zip(holds);
    grounds.filter(|&(_, holds)| holds).map(|(ground, _)| ground).collect()
}
