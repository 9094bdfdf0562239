//! What a hub is given: the lists that are measured, and mixed patterns and lists that are compared.

use crate::inputs::{random_list, Random, MAX_FRAMES};

const CAMERAS: usize = 6;
const PATTERNS: usize = 8;

/// A pattern for each camera, and the camera of each frame.
pub struct Hub {
    pub patterns: Vec<u8>,
    pub cameras: Vec<u8>,
}

/// How the cameras follow each other, and the lists that come of it.
pub struct Lists {
    pub name: &'static str,
    pub hubs: Vec<Hub>,
}

/// So many lists are at random: a processor learns which camera comes next in one list that it is given again and again.
const LISTS_AT_RANDOM: usize = 64;

/// The frames of a camera in a long run. Eight do not go into it, so runs begin at every place of a pattern.
const RUN: usize = 100;

/// Lists of 4,096 frames, of one camera or of six.
pub fn lists() -> [Lists; 4] {
    let mut random = Random::new(0xA076_1D64_78BD_642F);
    let at_random = (0..LISTS_AT_RANDOM).map(|_| six(&random_list(&mut random, CAMERAS, MAX_FRAMES)));
    [
        Lists {
            name: "one camera",
            hubs: vec![Hub {
                patterns: vec![6],
                cameras: vec![0; MAX_FRAMES],
            }],
        },
        Lists {
            name: "six cameras in turns",
            hubs: vec![six(&in_runs(1))],
        },
        Lists {
            name: "six cameras at random",
            hubs: at_random.collect(),
        },
        Lists {
            name: "six cameras in runs of 100",
            hubs: vec![six(&in_runs(RUN))],
        },
    ]
}

/// The cameras in turns of so many frames.
fn in_runs(run: usize) -> Vec<usize> {
    (0..MAX_FRAMES).map(|position| position / run % CAMERAS).collect()
}

/// Six cameras, with a pattern of its own each.
fn six(list: &[usize]) -> Hub {
    Hub {
        patterns: vec![0, 1, 6, 3, 4, 7],
        cameras: bytes(list),
    }
}

fn bytes(numbers: &[usize]) -> Vec<u8> {
    numbers.iter().map(|&number| number as u8).collect()
}

/// Patterns and a list that are mostly good; each of the grounds for a refusal is sometimes there. A short list is in runs or
/// at random.
pub fn mixed(random: &mut Random) -> Hub {
    let cameras = match random.below(12) {
        0 => 0,
        1 => 7 + random.below(300),
        _ => 1 + random.below(CAMERAS),
    };
    let mut patterns = random_list(random, PATTERNS, cameras);
    if cameras > 0 && random.below(8) == 0 {
        patterns[random.below(cameras)] = 8 + random.below(248);
    }
    let frames = match random.below(64) {
        0 => MAX_FRAMES - 2 + random.below(6),
        _ => random.below(120),
    };
    let below = cameras.clamp(1, 256);
    let mut list = random_list(random, below, frames);
    if random.below(2) == 0 {
        let run = 1 + random.below(40);
        list = (0..frames).map(|position| position / run % below).collect();
    }
    if frames > 0 && random.below(6) == 0 {
        list[random.below(frames)] = random.below(256);
    }
    Hub {
        patterns: bytes(&patterns),
        cameras: bytes(&list),
    }
}
