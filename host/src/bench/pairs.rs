//! Pairs of tickets to join: the halves that are measured, and mixed ones that are compared.

use crate::inputs::{damage, mixed_ticket, random_list, ticket, with_seconds};
use crate::inputs::{List, Random, FIRST_SECOND, MAX_CARDS, MAX_FRAMES};
use crate::rows::READ;
use dockplan::raw::MAX_POOL;

/// Where the number of frames stands in a header.
const FRAMES_OFFSET: usize = 10;

/// Two tickets to join.
pub type Pair = [Vec<u8>; 2];

/// How the frames of a list are dealt, and the halves that come of it.
pub struct Halves {
    pub name: &'static str,
    pub pairs: Vec<Pair>,
}

/// So many pairs are mixed at random: a processor learns which ticket comes next in one pair that it is given again and
/// again, also in a few, and would then never guess wrong.
const PAIRS_AT_RANDOM: usize = 64;

/// The halves of a list as read tickets of 2,048 frames each, with one frame captured in each second.
pub fn halves(list: &List) -> [Halves; 3] {
    let frames = list.cards.len();
    let mut random = Random::new(0xD1B5_4A32_D192_ED03);
    let whole = with_seconds(&list.ticket(READ), |position| FIRST_SECOND + position);
    let at_random = (0..PAIRS_AT_RANDOM).map(|_| deal(&whole, &in_any_order(&mut random, frames)));
    [
        Halves {
            name: "mixed at random",
            pairs: at_random.collect(),
        },
        Halves {
            name: "one after the other",
            pairs: vec![deal(&whole, &in_turns(frames, frames / 2))],
        },
        Halves {
            name: "in turns of 64",
            pairs: vec![deal(&whole, &in_turns(frames, 64))],
        },
    ]
}

/// For each frame the half that it goes to, in turns of so many frames.
fn in_turns(frames: usize, turn: usize) -> Vec<usize> {
    (0..frames).map(|position| position / turn % 2).collect()
}

/// For each frame any half, and to both as many.
fn in_any_order(random: &mut Random, frames: usize) -> Vec<usize> {
    let mut half = in_turns(frames, 1);
    for position in 1..frames {
        half.swap(position, random.below(position + 1));
    }
    half
}

/// The two tickets between which the frames of one of edition 2 are dealt, with its header but for the number of frames.
fn deal(ticket: &[u8], half: &[usize]) -> Pair {
    let text = String::from_utf8_lossy(ticket);
    let mut lines = text.lines();
    let header = lines.next().unwrap_or_default();
    let mut dealt = [Vec::new(), Vec::new()];
    for (line, &half) in lines.zip(half) {
        dealt[half].push(line);
    }
    dealt.map(|lines| {
        let mut text = format!("{}{:04X}\n", &header[..FRAMES_OFFSET], lines.len());
        lines.iter().for_each(|line| text += &format!("{line}\n"));
        text.into_bytes()
    })
}

/// Two halves that can be joined or have too many frames together; one time in four with a digit changed in one of their
/// headers, one time in four with one of them damaged, and in every second pair one is typed in lower case. Sometimes two
/// tickets that have nothing to do with each other.
pub fn mixed(random: &mut Random) -> Pair {
    if random.below(8) == 0 {
        return [mixed_ticket(random), mixed_ticket(random)];
    }
    let frames = match random.below(64) {
        0 => MAX_FRAMES - 2 + random.below(6),
        _ => random.below(60),
    };
    let cards = 1 + random.below(MAX_CARDS);
    let pool = 1 + random.below(MAX_POOL);
    let list = random_list(random, cards, frames);
    let mut second = random.below(1 << 31);
    let text = with_seconds(&ticket(READ, cards, pool, &list), |_| {
        second += random.below(3);
        second
    });
    let half: Vec<usize> = (0..frames).map(|_| random.below(2)).collect();
    let mut pair = deal(&text, &half);
    let changed = random.below(2);
    match random.below(4) {
        0 => pair[changed][random.below(FRAMES_OFFSET)] = b"0123"[random.below(4)],
        1 => damage(random, &mut pair[changed]),
        _ => {}
    }
    if random.below(2) == 0 {
        pair[random.below(2)].make_ascii_lowercase();
    }
    pair
}
