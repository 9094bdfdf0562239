//! The explanations of many tickets and plans from a fixed seed. The place of a refusal is tried on the library itself,
//! by mending the ticket there; and a plan is called valid exactly where the library says so.

mod generate;
mod pools;

use dockplan::explain::place::{self, Place};
use dockplan::explain::{explain, File};
use dockplan::{Refusal, Ticket, Verdict};
use generate::tickets::{line, line_bytes, CARD_DIGITS, HEADER_BYTES, SECOND_DIGITS};
use generate::{plans, tickets, Random};

const TICKETS: usize = 40_000;

const GOOD_HEADER: &[u8; HEADER_BYTES] = b"01000100010000\n";

fn refusal(ticket: &[u8]) -> u8 {
    dockplan::parse(ticket).err().map_or(0, |Refusal(number)| number)
}

/// The edition of a ticket whose header is good.
fn edition(ticket: &[u8]) -> usize {
    let digits = std::str::from_utf8(&ticket[..2]).unwrap();
    usize::from_str_radix(digits, 16).unwrap()
}

// ---- The place of a refusal ----

/// Every refused ticket has a place, and mending the ticket there and nowhere else ends this refusal.
#[test]
fn places_of_refusals() {
    let mut random = Random::new(11);
    let mut seen = [0; 18];
    for _ in 0..TICKETS {
        let ticket = tickets::any(&mut random);
        let number = refusal(&ticket);
        seen[usize::from(number)] += 1;
        match (place::find(&ticket, number), number) {
            (None, 0) => (),
            (Some(place), 1..=9 | 17) => try_place(&ticket, number, &place),
            (place, _) => panic!("{}: {number}, {place:?}", ticket.escape_ascii()),
        }
    }
    assert!(
        (0..=9).chain([17]).all(|number| seen[number] >= 300),
        "a refusal is too rare: {seen:?}"
    );
}

fn try_place(ticket: &[u8], number: u8, place: &Place) {
    let input = format!("{}, refused by {number}, {place:?}", ticket.escape_ascii());
    line_and_byte_are_the_offset(ticket, place, &input);
    match number {
        1 => wrong_byte(ticket, 0, GOOD_HEADER, place, 1, &input),
        2..=6 => wrong_field(ticket, number, place, &input),
        7 | 8 | 17 => wrong_line(ticket, number, place, &input),
        _ => {
            assert!(place.offset < ticket.len(), "{input}");
            assert_eq!(refusal(&ticket[..place.offset]), 0, "{input}");
        }
    }
}

/// "Lines and bytes are counted from 1, and line 1 is the header; offsets are counted from 0."
fn line_and_byte_are_the_offset(ticket: &[u8], place: &Place, input: &str) {
    let before = &ticket[..place.offset];
    let ends = before.iter().filter(|&&byte| byte == b'\n').count();
    let in_line = before.iter().rev().take_while(|&&byte| byte != b'\n').count();
    assert_eq!((place.line, place.byte), (ends + 1, in_line + 1), "{input}");
}

/// The bytes before the place, with a good rest of the line, are not refused by this number; with the byte at the place
/// they are, or the text ends there.
fn wrong_byte(ticket: &[u8], start: usize, good: &[u8], place: &Place, number: u8, input: &str) {
    let with_good_rest = |kept: usize| refusal(&[&ticket[..kept], &good[kept - start..]].concat());
    assert_ne!(with_good_rest(place.offset), number, "{input}");
    if place.offset < ticket.len() {
        assert_eq!(with_good_rest(place.offset + 1), number, "{input}");
    }
}

/// With a good value in the named field the ticket is accepted or gets a later refusal.
fn wrong_field(ticket: &[u8], number: u8, place: &Place, input: &str) {
    let good = &GOOD_HEADER[place.offset..place.offset + place.bytes];
    let after = refusal(&mended(ticket, place, good));
    assert!(after == 0 || after > number, "{input}: then {after}");
}

/// A ticket that ends before the named line is accepted, one that ends with it gets the same refusal. In the line it is
/// the named byte that is malformed, the whole card number that is too large, or the whole second that is too low.
fn wrong_line(ticket: &[u8], number: u8, place: &Place, input: &str) {
    let edition = edition(ticket);
    let position = place.line - 2;
    let start = HEADER_BYTES + line_bytes(edition) * position;
    let end = ticket.len().min(start + line_bytes(edition));
    assert_eq!(refusal(&with_frames(&ticket[..start], position)), 0, "{input}");
    let through_line = &with_frames(ticket, position + 1)[..end];
    assert_eq!(refusal(through_line), number, "{input}");
    let good_line = line(edition, 0, u32::MAX);
    match number {
        7 => wrong_byte(through_line, start, good_line.as_bytes(), place, 7, input),
        8 => wrong_card(through_line, start, place, input),
        _ => wrong_second(through_line, start, place, input),
    }
}

/// The place is the card of the last line, which begins at `start`. With card 0 the ticket is accepted, or the line's
/// second is too low as well.
fn wrong_card(ticket: &[u8], start: usize, place: &Place, input: &str) {
    assert_eq!((place.offset, place.bytes), (start, CARD_DIGITS), "{input}");
    let after = refusal(&mended(ticket, place, b"00"));
    assert!(after == 0 || after == 17, "{input}: then {after}");
}

/// The place is the second of the last line, which begins at `start`. With the second of the line before the ticket is
/// accepted.
fn wrong_second(ticket: &[u8], start: usize, place: &Place, input: &str) {
    let expected = (start + CARD_DIGITS, SECOND_DIGITS);
    assert_eq!((place.offset, place.bytes), expected, "{input}");
    let before = place.offset - line_bytes(edition(ticket));
    let second_before = &ticket[before..before + SECOND_DIGITS];
    assert_eq!(refusal(&mended(ticket, place, second_before)), 0, "{input}");
}

/// The ticket with these bytes at the named place.
fn mended(ticket: &[u8], place: &Place, bytes: &[u8]) -> Vec<u8> {
    let mut mended = ticket.to_vec();
    mended[place.offset..place.offset + place.bytes].copy_from_slice(bytes);
    mended
}

/// The ticket with another number of frames in its header.
fn with_frames(ticket: &[u8], frames: usize) -> Vec<u8> {
    let mut other = ticket.to_vec();
    other[10..14].copy_from_slice(format!("{frames:04X}").as_bytes());
    other
}

// ---- Plans ----

/// Whether the explanation of a ticket with this plan file is good.
fn is_good(ticket: &[u8], plan: &[u8]) -> bool {
    let file = |name: &str, bytes: &[u8]| File {
        name: name.to_string(),
        bytes: bytes.to_vec(),
    };
    let report = explain(&file("a.ticket", ticket), Some(&file("a.plan", plan)));
    assert!(report.text.starts_with("a.ticket: "), "{}", report.text);
    assert!(report.text.contains("\na.plan: "), "{}", report.text);
    report.good
}

/// A printed plan with these cycles for a ticket's frames.
fn printed(ticket: &[u8], plan: &[u16]) -> Vec<u8> {
    let mut text = format!("{:04X}\n", plan.iter().max().unwrap_or(&0));
    let lines = ticket[HEADER_BYTES..].chunks(line_bytes(edition(ticket)));
    for (position, (cycle, line)) in plan.iter().zip(lines).enumerate() {
        let card = String::from_utf8_lossy(&line[..CARD_DIGITS]);
        text += &format!("{position:04X}{card}{cycle:04X}\n");
    }
    text.into_bytes()
}

fn own_print(ticket: &[u8]) -> Vec<u8> {
    let mut text = vec![0; 45061];
    let bytes = dockplan::print(ticket, &mut text);
    text.truncate(bytes);
    text
}

/// Accepted tickets, each with its numbers and the library's plan.
fn accepted(random: &mut Random, tickets: usize) -> impl Iterator<Item = (Vec<u8>, Ticket, Vec<u16>)> + '_ {
    (0..tickets).filter_map(|_| {
        let ticket = tickets::any(random);
        let read = dockplan::parse(&ticket).ok()?;
        let mut own = vec![0; read.frames.into()];
        dockplan::plan(&ticket, &mut own).ok()?;
        Some((ticket, read, own))
    })
}

/// What the library prints is valid beside an accepted ticket, and never makes a refused one good.
#[test]
fn the_librarys_own_plan() {
    let mut random = Random::new(12);
    for _ in 0..TICKETS / 4 {
        let ticket = tickets::any(&mut random);
        assert_eq!(is_good(&ticket, &own_print(&ticket)), refusal(&ticket) == 0);
    }
}

/// A plan by anyone is valid exactly where the checker says so; a save and keep plan where it is the library's own.
#[test]
fn plans_by_anyone() {
    let mut random = Random::new(13);
    let mut seen = [0; 2];
    let mut choices = Random::new(14);
    for (ticket, read, own) in accepted(&mut random, TICKETS / 2) {
        let plan = plans::foreign(&mut choices, &own);
        let valid = match dockplan::check(&ticket, &plan) {
            Ok(verdict) => matches!(verdict, Verdict::Valid { .. }),
            Err(_) => plan == own,
        };
        seen[usize::from(valid)] += 1;
        let text = printed(&ticket, &plan);
        assert_eq!(is_good(&ticket, &text), valid, "{read:?}, {}", text.escape_ascii());
        let other_length = plans::of_wrong_length(&mut choices, own.len());
        assert!(!is_good(&ticket, &with_lines(&text, other_length.len())), "{read:?}");
    }
    assert!(seen.iter().all(|&times| times >= 1000), "{seen:?}");
}

/// A printed plan cut to so many frame lines, or with its own lines once more until it has so many.
fn with_lines(text: &[u8], lines: usize) -> Vec<u8> {
    let (first, rest) = text.split_at(5);
    let more = b"0000000001\n".iter().cycle();
    let frames = rest.iter().chain(more).take(11 * lines);
    first.iter().chain(frames).copied().collect()
}

/// A valid plan is at fault once it is cut, has bytes added, or has a byte other than a cycle's digit changed by more than
/// its case.
#[test]
fn damaged_plan_files() {
    let mut random = Random::new(15);
    let mut choices = Random::new(16);
    for (ticket, _, _) in accepted(&mut random, TICKETS / 4) {
        let text = own_print(&ticket);
        let place = choices.below(text.len());
        assert!(!is_good(&ticket, &text[..place]), "cut at {place}");
        let more = choices.byte();
        assert!(!is_good(&ticket, &[&text[..], &[more]].concat()), "byte {more} added");
        let mut changed = text.clone();
        changed[place] ^= 1 << choices.below(8);
        if changed[place].eq_ignore_ascii_case(&text[place]) {
            assert!(is_good(&ticket, &changed), "the case of byte {place} changed");
        } else if !is_digit_of_cycle(place) || !changed[place].is_ascii_hexdigit() {
            assert!(!is_good(&ticket, &changed), "byte {place} changed");
        }
    }
}

/// Whether the byte at this offset of a printed plan is a digit of a frame's cycle.
fn is_digit_of_cycle(offset: usize) -> bool {
    offset >= 5 && (6..10).contains(&((offset - 5) % 11))
}

/// Any bytes may stand in either file: something is said of them, and none is a valid plan by chance.
#[test]
fn any_bytes_in_both_files() {
    let mut random = Random::new(17);
    for _ in 0..TICKETS / 4 {
        let (ticket, plan) = (tickets::any(&mut random), tickets::any(&mut random));
        assert!(!is_good(&ticket, &plan), "{}", plan.escape_ascii());
    }
}
