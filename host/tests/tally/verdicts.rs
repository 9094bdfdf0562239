//! How often each verdict came up: for plans with cycles up to 4,096 and with larger ones, for a read and for a save, and by
//! the position at fault.

use dockplan::raw::{CheckAnswer, OVERFULL, SHARED_CARD, VALID};

const RANGES: [&str; 2] = ["up to 4,096", "over 4,096"];
const MODES: [&str; 2] = ["read", "save"];
const READ: usize = 0;
const VERDICTS: [&str; 5] = ["refused", "valid", "no cycle", "shared card", "overfull"];

/// A valid plan counts as the first.
const PLACES: [&str; 3] = ["at 0", "between", "at the last"];
const FIRST: usize = 0;
const BETWEEN: usize = 1;
const LAST: usize = 2;

/// Each verdict of a range and mode is as often as this, and each position that it can have.
const LEAST: u64 = 1_000;
const LEAST_OF_PLACE: u64 = 500;

/// By range of the cycles, mode, verdict and place.
#[derive(Default)]
pub struct Verdicts([[[[u64; 3]; 5]; 2]; 2]);

impl Verdicts {
    /// Counts what a read or save plan was found to be; the checker refuses other modes.
    pub fn count(&mut self, mode: u8, plan: &[u16], checked: &CheckAnswer) {
        let range = usize::from(plan.iter().any(|&cycle| cycle > 4096));
        let position = usize::from(checked.position.0);
        let place = if position == 0 {
            FIRST
        } else if position + 1 < plan.len() {
            BETWEEN
        } else {
            LAST
        };
        if let Some(verdicts) = self.0[range].get_mut(usize::from(mode)) {
            verdicts[usize::from(checked.verdict)][place] += 1;
        }
    }

    /// All counts, each with the range, mode, verdict and place that it is for.
    fn counts(&self) -> impl Iterator<Item = ([usize; 4], u64)> + '_ {
        let keys = (0..2 * 2 * 5 * 3).map(|code| [code / 30, code / 15 % 2, code / 3 % 5, code % 3]);
        keys.map(|key| (key, self.0[key[0]][key[1]][key[2]][key[3]]))
    }

    pub fn add(&mut self, other: &Verdicts) {
        for ([range, mode, verdict, place], count) in other.counts() {
            self.0[range][mode][verdict][place] += count;
        }
    }

    pub fn print(&self) {
        for (range, modes) in RANGES.iter().zip(&self.0) {
            for (mode, verdicts) in MODES.iter().zip(modes) {
                for (verdict, places) in VERDICTS.iter().zip(verdicts).skip(1) {
                    println!("{mode}, cycles {range}, {verdict}: {}", words(verdict, places));
                }
            }
        }
    }

    pub fn assert_not_rare(&self) {
        for (key, count) in self.counts() {
            let [range, mode, verdict, place] = key;
            let all: u64 = self.0[range][mode][verdict].iter().sum();
            let least = if can_be(mode, verdict, place) {
                LEAST_OF_PLACE
            } else {
                0
            };
            assert!(
                verdict == 0 || all >= LEAST && count >= least,
                "too rare: {}, cycles {}, {} {}: {count} of {all}",
                MODES[mode],
                RANGES[range],
                VERDICTS[verdict],
                PLACES[place]
            );
        }
    }
}

fn words(verdict: &str, places: &[u64; 3]) -> String {
    if verdict == VERDICTS[usize::from(VALID)] {
        return places[FIRST].to_string();
    }
    let place = |(place, count): (&&str, &u64)| format!("{count} {place}");
    let counts: Vec<String> = PLACES.iter().zip(places).map(place).collect();
    counts.join(", ")
}

/// The first frame shares its card with no earlier one, no later frame fills the last one's pool, and no earlier one the
/// first one's.
fn can_be(mode: usize, verdict: usize, place: usize) -> bool {
    match verdict as u8 {
        VALID => place == FIRST,
        SHARED_CARD => place != FIRST,
        OVERFULL if mode == READ => place != LAST,
        OVERFULL => place != FIRST,
        _ => true,
    }
}
