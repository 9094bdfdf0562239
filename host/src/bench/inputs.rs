//! Tickets and plans, made by a generator with a fixed start: each run of the program has the same ones.

use dockplan::raw::MAX_POOL;

pub const MAX_CARDS: usize = 32;
pub const MAX_FRAMES: usize = 4096;
pub const MAX_PRINTED_BYTES: usize = 45061;
pub const MAX_TICKET_BYTES: usize = 45071;

/// The pool of the measured lists and savers: "the largest dock in use has 192 buffers".
pub const POOL: usize = 192;
const _: () = assert!(POOL <= MAX_POOL);

/// The capture second of the first frame of a measured list.
pub const FIRST_SECOND: usize = 0x6AF3_0900;

/// Numbers that look random (xorshift).
pub struct Random(u64);

impl Random {
    pub fn new(start: u64) -> Random {
        Random(start)
    }

    /// A number from 0 to `limit` - 1.
    pub fn below(&mut self, limit: usize) -> usize {
        self.0 ^= self.0 << 13;
        self.0 ^= self.0 >> 7;
        self.0 ^= self.0 << 17;
        ((self.0 >> 32) as usize) % limit
    }
}

/// A list of frames, in words, with its pool.
#[derive(Clone)]
pub struct List {
    order: &'static str,
    pool: usize,
    pub cards: Vec<usize>,
}

impl List {
    pub fn name(&self) -> String {
        format!("{}, pool {}", self.order, self.pool)
    }

    pub fn with_pool(&self, pool: usize) -> List {
        List { pool, ..self.clone() }
    }

    pub fn ticket(&self, mode: usize) -> Vec<u8> {
        ticket(mode, MAX_CARDS, self.pool, &self.cards)
    }

    /// The same ticket in edition 2, with three frames captured in each second.
    pub fn ticket_with_seconds(&self, mode: usize) -> Vec<u8> {
        with_seconds(&self.ticket(mode), |position| FIRST_SECOND + position / 3)
    }
}

/// The lists that are measured.
pub fn lists() -> [List; 2] {
    [
        List {
            order: "at random",
            pool: POOL,
            cards: random_list(&mut Random::new(0x9E37_79B9_7F4A_7C15), MAX_CARDS, MAX_FRAMES),
        },
        List {
            order: "in blocks of 16",
            pool: POOL,
            cards: list_in_blocks(MAX_CARDS, MAX_FRAMES, 16),
        },
    ]
}

/// The text of a ticket, edition 1.
pub fn ticket(mode: usize, cards: usize, pool: usize, list: &[usize]) -> Vec<u8> {
    let mut text = format!("01{mode:02X}{cards:02X}{pool:04X}{:04X}\n", list.len());
    for card in list {
        text += &format!("{card:02X}\n");
    }
    text.into_bytes()
}

/// The ticket of edition 2 with the same numbers and cards, and with this capture second for each position.
pub fn with_seconds(ticket: &[u8], mut second: impl FnMut(usize) -> usize) -> Vec<u8> {
    let text = String::from_utf8_lossy(ticket);
    let mut lines = text.lines();
    let numbers = lines.next().and_then(|header| header.strip_prefix("01"));
    let mut twin = format!("02{}\n", numbers.unwrap_or_default());
    for (position, card) in lines.enumerate() {
        twin += &format!("{card}{:08X}\n", second(position));
    }
    twin.into_bytes()
}

/// Each frame on any card.
pub fn random_list(random: &mut Random, cards: usize, frames: usize) -> Vec<usize> {
    (0..frames).map(|_| random.below(cards)).collect()
}

/// Blocks of frames on one card, the cards in turn.
fn list_in_blocks(cards: usize, frames: usize, block: usize) -> Vec<usize> {
    (0..frames).map(|position| position / block % cards).collect()
}

/// A ticket that is accepted, but where its pool is one of those just over the limit: mostly a short one with a small pool, of
/// either edition.
fn any_ticket(random: &mut Random) -> Vec<u8> {
    let cards = 1 + random.below(MAX_CARDS);
    let pool = match random.below(16) {
        0..8 => 1 + random.below(8),
        8 => MAX_POOL - 1 + random.below(4),
        _ => 1 + random.below(MAX_POOL),
    };
    let frames = if random.below(64) == 0 {
        random.below(MAX_FRAMES + 1)
    } else {
        random.below(60)
    };
    let used = 1 + random.below(cards);
    let list = random_list(random, used, frames);
    let text = ticket(random.below(3), cards, pool, &list);
    if random.below(2) == 0 {
        return text;
    }
    let mut second = random.below(1 << 31);
    with_seconds(&text, |_| {
        second += random.below(3);
        second
    })
}

/// Any such ticket, one time in three a damaged one; every second one is typed in lower case.
pub fn mixed_ticket(random: &mut Random) -> Vec<u8> {
    let mut text = any_ticket(random);
    if random.below(2) == 0 {
        text.make_ascii_lowercase();
    }
    if random.below(3) == 0 {
        for _ in 0..1 + random.below(3) {
            damage(random, &mut text);
        }
    }
    text
}

/// Changes a byte, cuts a part off, adds a byte, or leaves no ticket at all.
pub fn damage(random: &mut Random, text: &mut Vec<u8>) {
    const BYTES: &[u8] = b"0123456789ABCDEFGabcdefg/:@` \r\n";
    let any_byte = BYTES[random.below(BYTES.len())];
    match random.below(6) {
        0 => text.truncate(random.below(text.len() + 1)),
        1 => text.push(any_byte),
        2 => text.insert(random.below(text.len() + 1), any_byte),
        3 if random.below(8) == 0 => *text = (0..random.below(40)).map(|_| random.below(256) as u8).collect(),
        4 if text.len() >= 14 => text[random.below(14)] = any_byte,
        _ if !text.is_empty() => {
            let place = random.below(text.len());
            text[place] = any_byte;
        }
        _ => {}
    }
}

/// Plans made from a good one: itself; some cycles changed; the cycles spread up to 65,535; each frame in a cycle of its
/// own, from the first cycle, from the second, and up to the last; small numbers; any numbers; the cycles falling in one
/// block from some frame on, and in blocks of some length; the last frame in another one's cycle; all cycles so much
/// later that the largest is 4,096, is 4,097, or is any number up to 65,535; and one of another length.
pub fn plans(random: &mut Random, good: &[u16]) -> Vec<Vec<u16>> {
    let frames = good.len();
    let mut changed = good.to_vec();
    for _ in 0..random.below(4).min(frames) {
        changed[random.below(frames)] = random.below(frames + 2) as u16;
    }
    let largest = good.iter().max().copied().unwrap_or(0);
    let factor = u16::MAX / largest.max(1);
    let spread = changed.iter().map(|cycle| cycle.wrapping_mul(factor)).collect();
    let one_by_one = |first: usize| (first..first + frames).map(|cycle| cycle as u16).collect();
    let few = 2 + random.below(frames + 2);
    let small = (0..frames).map(|_| random.below(few) as u16).collect();
    let any = (0..frames).map(|_| random.below(65_536) as u16).collect();
    let longer = vec![1; frames + 1];
    let [first, second, last] = [1, 2, 65_536 - frames].map(one_by_one);
    let from_some_frame = falling_from(frames, random.below(frames + 1));
    let in_blocks = falling_in_blocks(frames, 1 + random.below(frames + 1));
    let mut at_the_end = good.to_vec();
    if let Some(cycle) = at_the_end.last_mut() {
        *cycle = good[random.below(frames)];
    }
    let any_top = usize::from(largest) + random.below(65_536 - usize::from(largest));
    let mut plans = vec![good.to_vec(), changed, spread, first, second, last, small, any, longer];
    for top in [MAX_FRAMES, MAX_FRAMES + 1, any_top] {
        let by = top - usize::from(largest);
        plans.push(later(&at_the_end, by));
        plans.push(later(&in_blocks, by));
    }
    plans.extend([from_some_frame, in_blocks, at_the_end]);
    plans
}

/// Every cycle so many cycles later, 65,535 where it would be over. A frame without one gets none.
fn later(plan: &[u16], by: usize) -> Vec<u16> {
    let later = |&cycle: &u16| if cycle == 0 { 0 } else { cycle.saturating_add(by as u16) };
    plan.iter().map(later).collect()
}

/// A plan that no planner of ours made.
pub struct Foreign {
    pub name: &'static str,
    pub cycles: Vec<u16>,
}

/// One frame a cycle; in each block the cycles fall. The blocks begin at these positions, and the last one ends the list.
fn falling(frames: usize, starts: &[usize]) -> Vec<u16> {
    let ends = starts[1..].iter().chain([&frames]);
    let block = |(&start, &end): (&usize, &usize)| (start + 1..=end).rev().map(|cycle| cycle as u16);
    starts.iter().zip(ends).flat_map(block).collect()
}

fn falling_in_blocks(frames: usize, block: usize) -> Vec<u16> {
    let starts: Vec<usize> = (0..frames.max(1)).step_by(block).collect();
    falling(frames, &starts)
}

/// One frame a cycle: in list order up to the frame at `start`, and falling from there on.
fn falling_from(frames: usize, start: usize) -> Vec<u16> {
    let starts: Vec<usize> = (0..=start).collect();
    falling(frames, &starts)
}

/// The last block of a plan that is overfull there: more frames than a pool of 192 holds, and the others are whole blocks.
const LONG_BLOCK: usize = 256;

/// Plans for 4,096 frames and a pool of 192 in which most cycles fall, so that a frame may share its card with any earlier
/// one: a valid one, one whose pool is overfull in the last block alone, and one with cycles over 4,096.
pub fn plans_in_blocks() -> [Foreign; 3] {
    let valid = falling_in_blocks(MAX_FRAMES, POOL);
    let starts: Vec<usize> = (0..=MAX_FRAMES - LONG_BLOCK).step_by(POOL).collect();
    let overfull = falling(MAX_FRAMES, &starts);
    let spread = valid.iter().map(|cycle| cycle * 15).collect();
    [
        Foreign {
            name: "falling",
            cycles: valid,
        },
        Foreign {
            name: "falling, overfull late",
            cycles: overfull,
        },
        Foreign {
            name: "falling, up to 61,440",
            cycles: spread,
        },
    ]
}

/// Plans that no pool has room for, early in the list or from its middle on. No card is shared.
pub fn hopeless_plans() -> [Foreign; 2] {
    [
        Foreign {
            name: "falling throughout",
            cycles: falling_from(MAX_FRAMES, 0),
        },
        Foreign {
            name: "falling from the middle",
            cycles: falling_from(MAX_FRAMES, MAX_FRAMES / 2),
        },
    ]
}

/// Plans that differ little from `own`, the list's own read or save plan: with one fault, as late in the list as can be, and
/// valid with cycles over 4,096.
pub fn plans_like_own(list: &List, read: bool, own: &[u16]) -> [Foreign; 3] {
    [
        Foreign {
            name: "own, shared at the end",
            cycles: shared_at_the_end(list, read, own),
        },
        Foreign {
            name: "own, overfull at the end",
            cycles: overfull_at_the_end(list, read, own),
        },
        Foreign {
            name: "own, 5,000 cycles later",
            cycles: later(own, 5000),
        },
    ]
}

/// The last frame and the one before it on its card get the same cycle: the later one of a read, where the last frame's is
/// the last of all, and the earlier one of a save. So no pool has more frames.
fn shared_at_the_end(list: &List, read: bool, own: &[u16]) -> Vec<u16> {
    let mut plan = own.to_vec();
    if let Some((last, earlier)) = list.cards.split_last() {
        if let Some(before) = earlier.iter().rposition(|card| card == last) {
            let end = earlier.len();
            if read {
                plan[before] = own[end];
            } else {
                plan[end] = own[before];
            }
        }
    }
    plan
}

/// A read: the last frame that has as many frames behind it as the pool holds comes after all others. A save: the last
/// frame comes before all others.
fn overfull_at_the_end(list: &List, read: bool, own: &[u16]) -> Vec<u16> {
    let end = own.len() - 1;
    if read {
        let mut plan = own.to_vec();
        plan[end - list.pool] = own.iter().max().map_or(1, |largest| largest + 1);
        plan
    } else {
        let mut plan = later(own, 1);
        plan[end] = 1;
        plan
    }
}
