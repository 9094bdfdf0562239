//! Plans that anyone might hand in: correct ones of other kinds, damaged ones, random ones, and ones of a wrong length.

use super::Random;

/// A plan made from `own`, which is a plan of the same list.
pub fn foreign(random: &mut Random, own: &[u16]) -> Vec<u16> {
    match random.below(12) {
        0 | 1 => delayed(random, own),
        2 => one_a_cycle(random, own.len()),
        3 | 4 => swapped(random, own),
        5..=7 => damaged(random, own),
        8 => clipped(random, own),
        9 | 10 => small_numbers(random, own.len()),
        _ => any_numbers(random, own.len()),
    }
}

/// A plan of another length than `places`.
pub fn of_wrong_length(random: &mut Random, places: usize) -> Vec<u16> {
    let length = match random.below(4) {
        0 => places.saturating_sub(1),
        1 => 0,
        2 => places + 1,
        _ => places + random.between(1, 40),
    };
    let length = if length == places { places + 1 } else { length };
    (0..length).map(|place| place as u16 + 1).collect()
}

/// Quiet cycles put in: each cycle from some number on comes later. The order of the cycles stays.
fn delayed(random: &mut Random, own: &[u16]) -> Vec<u16> {
    let largest = own.iter().copied().max().unwrap_or(0);
    let from = random.between(0, usize::from(largest)) as u16;
    let room = usize::from(u16::MAX - largest);
    let by = if random.once_in(24) {
        room
    } else {
        random.below(room.min(9) + 1)
    } as u16;
    own.iter()
        .map(|&cycle| if cycle >= from { cycle + by } else { cycle })
        .collect()
}

/// One frame a cycle, in list order, which is correct for every list and pool. Sometimes it starts later.
fn one_a_cycle(random: &mut Random, places: usize) -> Vec<u16> {
    let first = random.between(1, 4) as u16;
    (0..places).map(|place| first + place as u16).collect()
}

/// Two frames change places, once or twice.
fn swapped(random: &mut Random, own: &[u16]) -> Vec<u16> {
    let mut plan = own.to_vec();
    for _ in 0..random.between(1, 2) {
        if !plan.is_empty() {
            let (one, other) = (random.below(plan.len()), random.below(plan.len()));
            plan.swap(one, other);
        }
    }
    plan
}

/// One to three cycles changed: to a neighbour, to another frame's, to 0, or to a large number.
fn damaged(random: &mut Random, own: &[u16]) -> Vec<u16> {
    let mut plan = own.to_vec();
    for _ in 0..random.between(1, 3) {
        if plan.is_empty() {
            break;
        }
        let place = random.below(plan.len());
        let cycle = plan[place];
        plan[place] = match random.below(24) {
            0..=7 => cycle.saturating_add(1),
            8..=13 => cycle.saturating_sub(1),
            14..=18 => plan[random.below(plan.len())],
            19..=21 => 0,
            22 => random.pick(&[300, 4096, 4097]),
            _ => u16::MAX,
        };
    }
    plan
}

/// All cycles above some number become that number, so that cards are shared and the pool is overfull.
fn clipped(random: &mut Random, own: &[u16]) -> Vec<u16> {
    let largest = own.iter().copied().max().unwrap_or(0);
    let limit = random.between(0, usize::from(largest)) as u16;
    own.iter().map(|&cycle| cycle.min(limit)).collect()
}

/// Random cycles from 1 on, as many as there are frames or fewer, and sometimes from 0 on.
fn small_numbers(random: &mut Random, places: usize) -> Vec<u16> {
    let least = usize::from(!random.once_in(4));
    let most = random.between(1, places + 1);
    (0..places).map(|_| random.between(least, most) as u16).collect()
}

/// Random numbers below some limit, which is seldom the largest: such a plan has very many cycles.
fn any_numbers(random: &mut Random, places: usize) -> Vec<u16> {
    let most = random.pick(&[3, 9, 40, 200, 200, 1000, 1000, 65_535]);
    (0..places).map(|_| random.between(0, most) as u16).collect()
}
