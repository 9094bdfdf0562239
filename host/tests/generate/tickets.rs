//! Tickets of both editions: valid ones of every size, fields at their limits and one past, falling seconds, lines of
//! the other edition, damaged ones, and bytes that are no ticket.

use super::Random;
use crate::pools;
use dockplan::reference::MAX_POOL;

/// The bytes of the header: 14 digits and the end byte.
pub const HEADER_BYTES: usize = 15;

/// The digits of a card, at the start of a frame line, and of the capture second that follows it in edition 02.
pub const CARD_DIGITS: usize = 2;
pub const SECOND_DIGITS: usize = 8;

/// A frame's line as its edition has it. Whoever needs the width of a line takes it from here.
pub fn line(edition: usize, card: usize, second: u32) -> String {
    match edition {
        1 => format!("{card:0CARD_DIGITS$X}\n"),
        _ => format!("{card:0CARD_DIGITS$X}{second:0SECOND_DIGITS$X}\n"),
    }
}

/// The bytes of a frame line, its end byte too.
pub fn line_bytes(edition: usize) -> usize {
    line(edition, 0, 0).len()
}

/// A ticket's numbers before they are written down. They may be out of range.
#[derive(Clone)]
pub struct Fields {
    pub edition: usize,
    pub mode: usize,
    pub cards: usize,
    pub pool: usize,
    pub frames: usize,
    pub list: Vec<usize>,
    pub seconds: Vec<u32>,
    /// The edition whose lines are written. In a valid ticket it is the header's.
    pub edition_of_lines: usize,
}

/// Any bytes at all, and most often something close to a ticket, typed in either case.
pub fn any(random: &mut Random) -> Vec<u8> {
    let ticket = match random.below(24) {
        0..=12 => valid(random),
        13..=15 => written(&with_field_at_limit(random)),
        16..=18 => damaged(random),
        19 => with_bad_card(random),
        20 => with_bytes_after(random),
        21 => with_falling_second(random),
        22 => with_lines_of_other_edition(random),
        _ => no_ticket(random),
    };
    typed(random, ticket)
}

/// A ticket that is accepted.
fn valid(random: &mut Random) -> Vec<u8> {
    let frames = length(random);
    of_length(random, frames)
}

/// A ticket of that many frames that is accepted.
pub fn of_length(random: &mut Random, frames: usize) -> Vec<u8> {
    written(&fields(random, frames))
}

/// The numbers of a ticket of that many frames that is accepted.
pub fn fields(random: &mut Random, frames: usize) -> Fields {
    let cards = if random.once_in(4) {
        random.between(1, 32)
    } else {
        random.pick(&[1, 2, 3, 4, 8, 31, 32])
    };
    let pool = pool(random, frames);
    let list = list(random, cards, frames);
    let edition = random.between(1, 2);
    Fields {
        edition,
        mode: random.below(3),
        cards,
        pool,
        frames,
        list,
        seconds: seconds(random, frames),
        edition_of_lines: edition,
    }
}

/// Mostly short, sometimes long. The two longest lengths are rare, because they take the most time.
pub fn length(random: &mut Random) -> usize {
    match random.below(2000) {
        0..=99 => 0,
        100..=1399 => random.between(1, 12),
        1400..=1899 => random.between(13, 48),
        1900..=1989 => random.between(49, 200),
        1990..=1997 => random.between(201, 1100),
        1998 => random.between(1101, 4095),
        _ => 4096,
    }
}

/// Small pools, pools around L, and the largest ones.
fn pool(random: &mut Random, frames: usize) -> usize {
    let wanted = match random.below(10) {
        0 => 1,
        1 | 2 => 2,
        3 => 3,
        4 => frames,
        5 => frames.saturating_sub(1),
        6 => frames + 1,
        7 => random.between(1, frames + 1),
        8 => random.pick(&[MAX_POOL - 1, MAX_POOL]),
        _ => random.between(1, 40),
    };
    wanted.clamp(1, MAX_POOL)
}

/// The cards of a list: random, one card, round robin, blocked, or skewed to the low cards.
fn list(random: &mut Random, cards: usize, frames: usize) -> Vec<usize> {
    let shape = random.below(5);
    let one_card = random.below(cards);
    let block = random.between(1, 9);
    (0..frames)
        .map(|position| match shape {
            0 => random.below(cards),
            1 => one_card,
            2 => position % cards,
            3 => position / block % cards,
            _ => random.below(cards).min(random.below(cards)).min(random.below(cards)),
        })
        .collect()
}

/// Capture seconds that do not fall: from any first one on, all equal, in small steps or in large ones, and equal again
/// once the largest is reached.
fn seconds(random: &mut Random, frames: usize) -> Vec<u32> {
    let mut next = second(random);
    let most = random.pick(&[0, 1, 2, 0x100, 0x1_0000, 0x1000_0000]);
    (0..frames)
        .map(|_| {
            let own = next;
            next = own.saturating_add(random.between(0, most) as u32);
            own
        })
        .collect()
}

/// Any second, or one next to where a careless reader goes wrong: at the ends, at the end of the lower half, and at the
/// lowest number that is negative for one who reads a sign.
fn second(random: &mut Random) -> u32 {
    const ENDS: [u32; 4] = [0, 1, u32::MAX - 1, u32::MAX];
    const WITHIN: [u32; 4] = [0xFFFF, 0x1_0000, 0x7FFF_FFFF, 0x8000_0000];
    match random.below(4) {
        0 => random.pick(&ENDS),
        1 => random.pick(&WITHIN),
        _ => random.second(),
    }
}

/// The ticket's text. Each number has its digits, even where it is out of range.
pub fn written(fields: &Fields) -> Vec<u8> {
    let Fields {
        edition,
        mode,
        cards,
        pool,
        frames,
        list,
        seconds,
        edition_of_lines,
    } = fields;
    let mut text = format!("{edition:02X}{mode:02X}{cards:02X}{pool:04X}{frames:04X}\n");
    for (&card, &second) in list.iter().zip(seconds) {
        text += &line(*edition_of_lines, card, second);
    }
    text.into_bytes()
}

/// The same ticket as another editor writes it: letters in upper case, in lower case, or mixed within each number.
pub fn typed(random: &mut Random, mut ticket: Vec<u8>) -> Vec<u8> {
    match random.below(3) {
        0 => {}
        1 => ticket.make_ascii_lowercase(),
        _ => ticket
            .iter_mut()
            .filter(|_| random.once_in(2))
            .for_each(|byte| byte.make_ascii_lowercase()),
    }
    ticket
}

/// One field, or two for the order of the refusals, at a limit or one past it.
fn with_field_at_limit(random: &mut Random) -> Fields {
    let frames = random.below(12);
    let mut fields = fields(random, frames);
    for _ in 0..random.between(1, 2) {
        match random.below(6) {
            0 => fields.edition = random.pick(&[0, 1, 2, 3, 3, 0x10, 0x11, 0x12, 0x20, 0xFF]),
            1 => fields.mode = random.pick(&[0, 2, 3, 3, 4, 0x10, 0xFF]),
            2 => fields.cards = random.pick(&[0, 1, 32, 33, 33, 34, 0xFF]),
            3 => fields.pool = pool_at_limit(random),
            4 => fields.frames = random.pick(&[0, 1, 4095, 4096, 4097, 4098, 0x1FFF, 0xFFFF]),
            _ => {
                let more = random.between(0, 4);
                let last = fields.list.len().saturating_sub(random.below(2));
                fields.frames = last + more;
            }
        }
    }
    fields
}

/// Mostly none or one too many, or one that passed before request 2026-07.
fn pool_at_limit(random: &mut Random) -> usize {
    let filed = random.between(MAX_POOL + 1, pools::BEFORE);
    let good = random.pick(&pools::PASS);
    let refused = random.pick(&pools::GIVE_5);
    random.pick(&[0, MAX_POOL + 1, filed, good, refused])
}

/// A valid ticket with one to three bytes changed, inserted or removed, or cut short.
fn damaged(random: &mut Random) -> Vec<u8> {
    let mut ticket = valid(random);
    for _ in 0..random.between(1, 3) {
        damage(random, &mut ticket);
    }
    ticket
}

fn damage(random: &mut Random, ticket: &mut Vec<u8>) {
    if ticket.is_empty() {
        return;
    }
    // Half of the damage is done near the header, which is a small part of a long ticket.
    let near = if random.once_in(2) {
        ticket.len().min(24)
    } else {
        ticket.len()
    };
    let place = random.below(near);
    match random.below(8) {
        0 => ticket[place] ^= 1 << random.below(8),
        1 => ticket[place] = near_miss(random),
        2 => ticket[place] = digit(random),
        3 => ticket.insert(place, near_miss(random)),
        4 => ticket.insert(place, digit(random)),
        5 => _ = ticket.remove(place),
        6 => ticket.truncate(place),
        _ => change_ends(random, ticket),
    }
}

/// Bytes that a careless reader may take for a digit or an end byte: those next to the digits first of all, / and :, @ and G,
/// ` and g.
fn near_miss(random: &mut Random) -> u8 {
    random.pick(b"/:@G`gAFaf\n\r\t \0\x0B\x8A\xB0\xC1\xE1\xFF")
}

fn digit(random: &mut Random) -> u8 {
    random.pick(b"0123456789ABCDEFabcdef")
}

/// Other end bytes, or none.
fn change_ends(random: &mut Random, ticket: &mut Vec<u8>) {
    match random.below(3) {
        0 => ticket
            .iter_mut()
            .filter(|byte| **byte == b'\n')
            .for_each(|byte| *byte = b'\r'),
        1 => ticket.retain(|&byte| byte != b'\n'),
        _ => _ = ticket.pop(),
    }
}

/// A card number that is not below cards, on one line or two, and sometimes a damaged line before or after it.
fn with_bad_card(random: &mut Random) -> Vec<u8> {
    let frames = random.between(1, 20);
    let mut fields = fields(random, frames);
    for _ in 0..random.between(1, 2) {
        let position = random.below(frames);
        fields.list[position] = random.pick(&[fields.cards, fields.cards, fields.cards + 1, 32, 0x80, 0xFF]);
    }
    let mut ticket = written(&fields);
    if random.once_in(3) {
        damage(random, &mut ticket);
    }
    ticket
}

/// A second that is lower than the one before: on the second line, on the last, or between them. Sometimes the line has
/// a card that is too high as well, or a wrong byte.
fn with_falling_second(random: &mut Random) -> Vec<u8> {
    let frames = random.between(2, 20);
    let mut fields = fields(random, frames);
    (fields.edition, fields.edition_of_lines) = (2, 2);
    let position = match random.below(3) {
        0 => 1,
        1 => frames - 1,
        _ => random.between(1, frames - 1),
    };
    let (before, lower) = falling(random);
    for second in &mut fields.seconds[..position] {
        *second = before.min(*second);
    }
    fields.seconds[position - 1] = before;
    fields.seconds[position] = lower;
    if random.once_in(4) {
        fields.list[position] = random.pick(&[fields.cards, 0xFF]);
    }
    let mut ticket = written(&fields);
    if random.once_in(4) {
        let width = line_bytes(fields.edition);
        ticket[HEADER_BYTES + width * position + random.below(width)] = near_miss(random);
    }
    ticket
}

/// A second and a lower one: by one, by any difference, or the largest and the least.
fn falling(random: &mut Random) -> (u32, u32) {
    let before = second(random).max(1);
    match random.below(4) {
        0 | 1 => (before, before - 1),
        2 => (before, random.below(before as usize) as u32),
        _ => (u32::MAX, 0),
    }
}

/// A good ticket whose header says the other edition. Without frames it is good all the same.
fn with_lines_of_other_edition(random: &mut Random) -> Vec<u8> {
    let frames = random.below(20);
    let mut fields = fields(random, frames);
    fields.edition_of_lines = 3 - fields.edition;
    written(&fields)
}

/// Bytes after the last line: one byte, a whole line of either edition, or many bytes.
fn with_bytes_after(random: &mut Random) -> Vec<u8> {
    let mut ticket = valid(random);
    match random.below(4) {
        0 => ticket.push(near_miss(random)),
        1 => ticket.extend(line(random.between(1, 2), 0, u32::MAX).bytes()),
        2 => ticket.push(b'\n'),
        _ => {
            let more = if random.once_in(50) {
                70_000
            } else {
                random.between(1, 300)
            };
            ticket.extend((0..more).map(|_| random.byte()));
        }
    }
    ticket
}

/// Random bytes, random digits, or a header line of random digits with random lines behind it.
fn no_ticket(random: &mut Random) -> Vec<u8> {
    let bytes = random.below(80);
    let edition = random.between(1, 2);
    match random.below(4) {
        0 => (0..bytes).map(|_| random.byte()).collect(),
        1 => (0..bytes).map(|_| digit(random)).collect(),
        2 => random_lines(random, edition, bytes),
        _ => {
            let mut ticket = format!("{edition:02X}").into_bytes();
            ticket.resize_with(HEADER_BYTES - 1, || digit(random));
            ticket.push(b'\n');
            ticket.extend(random_lines(random, edition, bytes));
            ticket
        }
    }
}

/// Random digits, with an end byte wherever a line of the edition has it.
fn random_lines(random: &mut Random, edition: usize, bytes: usize) -> Vec<u8> {
    let width = line_bytes(edition);
    (1..=bytes)
        .map(|place| if place % width == 0 { b'\n' } else { digit(random) })
        .collect()
}
