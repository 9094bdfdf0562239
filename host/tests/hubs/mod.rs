//! What a hub is given: mostly good patterns and lists of every size, in which the cameras take turns, come in bursts, at
//! random or as a pool likes it least; and those with a ground for a refusal, or with several.

use crate::generate::Random;

/// A pattern for each camera, and the camera of each frame.
pub struct Hub {
    pub patterns: Vec<u8>,
    pub cameras: Vec<u8>,
}

/// Any patterns and any list. Each ground for a refusal is there or not, whatever the others are.
pub fn any(random: &mut Random) -> Hub {
    let count = random.between(1, 6);
    let mut patterns = patterns(random, count);
    if random.once_in(6) {
        spoil_patterns(random, &mut patterns);
    }
    let below = patterns.len().clamp(1, 256);
    let order = match random.below(16) {
        0 => {
            let frames = too_many(random);
            list(random, below, frames)
        }
        1..=4 => hard_list(random, below.min(6)),
        _ => {
            let frames = length(random);
            list(random, below, frames)
        }
    };
    let mut cameras: Vec<u8> = order.into_iter().map(|camera| camera as u8).collect();
    if random.once_in(5) {
        spoil_list(random, patterns.len(), &mut cameras);
    }
    Hub { patterns, cameras }
}

/// All equal, of two kinds, or any.
fn patterns(random: &mut Random, cameras: usize) -> Vec<u8> {
    let [one, other] = [(); 2].map(|()| random.below(8) as u8);
    match random.below(5) {
        0 | 1 => vec![one; cameras],
        2 => (0..cameras).map(|_| random.pick(&[one, other])).collect(),
        _ => (0..cameras).map(|_| random.below(8) as u8).collect(),
    }
}

/// Too few or too many cameras, or a pattern that there is not. Their number may be one that is good if it is cut to 8 bits.
fn spoil_patterns(random: &mut Random, patterns: &mut Vec<u8>) {
    match random.below(5) {
        0 => patterns.clear(),
        1 => patterns.resize(7, 0),
        2 => {
            let many = random.between(8, 300);
            patterns.resize(random.pick(&[8, 255, 256, 257, 262, many]), 7);
        }
        _ => {
            let camera = random.below(patterns.len());
            let any = random.between(8, 255) as u8;
            patterns[camera] = random.pick(&[8, 8, 9, 15, 16, 0x80, 0xFF, any]);
        }
    }
}

/// Short, or of some rounds of each camera, and seldom long. The two longest lengths are rare, because they take the most time.
fn length(random: &mut Random) -> usize {
    match random.below(400) {
        0..=19 => 0,
        20..=119 => random.between(1, 12),
        120..=279 => random.between(13, 60),
        280..=394 => random.between(61, 300),
        395..=396 => random.between(301, 4094),
        397 => 4095,
        _ => 4096,
    }
}

/// Mostly one frame too many. Some numbers are good ones if they are cut to 16 bits.
fn too_many(random: &mut Random) -> usize {
    let any = random.between(4098, 9000);
    let cut = 65_536 + random.between(0, 20);
    random.pick(&[4097, 4097, 4097, 4098, 8192, any, any, cut])
}

/// A list of that many frames, with camera numbers below `cameras`.
fn list(random: &mut Random, cameras: usize, frames: usize) -> Vec<usize> {
    match random.below(5) {
        0 => (0..frames).map(|_| random.below(cameras)).collect(),
        1 => {
            let first = random.below(cameras);
            (0..frames).map(|position| (position + first) % cameras).collect()
        }
        2 => {
            let burst = random.between(1, 20);
            (0..frames).map(|position| position / burst % cameras).collect()
        }
        3 => bursts(random, cameras, frames),
        _ => {
            let mostly = random.below(cameras);
            let any = |random: &mut Random| random.below(cameras);
            (0..frames)
                .map(|_| if random.once_in(4) { any(random) } else { mostly })
                .collect()
        }
    }
}

/// Bursts of any camera, of any length up to some.
fn bursts(random: &mut Random, cameras: usize, frames: usize) -> Vec<usize> {
    let longest = random.between(1, 40);
    let mut order = Vec::new();
    while order.len() < frames {
        let camera = random.below(cameras);
        order.extend(vec![camera; random.between(1, longest)]);
    }
    order.truncate(frames);
    order
}

/// The lists that are hardest on a pool, where patterns are equal: seven frames of each camera and then the eighth of each,
/// for a save; the first of each and then seven, for a read; and the first of the next round last of all, which takes most
/// cycles. There may be whole rounds, in which each camera has all cards, at the other end.
fn hard_list(random: &mut Random, cameras: usize) -> Vec<usize> {
    let rounds = random.pick(&[0, 0, 0, 1, 2, 5]);
    let rounds = of_each(random, cameras, 8 * rounds);
    let sevens = of_each(random, cameras, 7);
    let ones = of_each(random, cameras, 1);
    match random.below(3) {
        0 => [rounds, sevens, ones].concat(),
        1 => [ones, sevens, rounds].concat(),
        _ => [rounds, ones].concat(),
    }
}

/// So many frames of each camera: one camera after the other, in turns, or mixed.
fn of_each(random: &mut Random, cameras: usize, frames: usize) -> Vec<usize> {
    let in_turns = (0..cameras * frames).map(|position| position % cameras);
    match random.below(3) {
        0 => (0..cameras).flat_map(|camera| vec![camera; frames]).collect(),
        1 => in_turns.collect(),
        _ => {
            let mut mixed: Vec<usize> = in_turns.collect();
            for position in 1..mixed.len() {
                mixed.swap(position, random.below(position + 1));
            }
            mixed
        }
    }
}

/// Camera numbers that are not below the count, in one frame or two: the first, the last or between.
fn spoil_list(random: &mut Random, count: usize, cameras: &mut [u8]) {
    if cameras.is_empty() {
        return;
    }
    let last = cameras.len() - 1;
    for _ in 0..random.between(1, 2) {
        let any = random.below(cameras.len());
        let position = random.pick(&[0, last, any]);
        let higher = random.between(count.min(255), 255);
        let number = random.pick(&[count, count, count + 1, 6, 7, 8, 0x80, 0xFF, higher]);
        cameras[position] = number.clamp(count.min(255), 255) as u8;
    }
}
