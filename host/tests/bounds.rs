//! No call reads or writes beside the memory lent to it. Each lent piece ends right before a page that nobody may
//! touch, or starts right behind one, so that a step outside ends the test program.

use dockplan::reference::{self, MAX_POOL};
use dockplan::{Position, Refusal};
use std::ffi::c_void;
use std::ptr::null_mut;

const PAGE: usize = 4096;
const NOTHING_ALLOWED: i32 = 0;
const READ_AND_WRITE: i32 = 3;
const PRIVATE_AND_ANONYMOUS: i32 = 0x22;

extern "C" {
    fn mmap(address: *mut c_void, bytes: usize, allowed: i32, flags: i32, file: i32, offset: i64) -> *mut c_void;
    fn mprotect(address: *mut c_void, bytes: usize, allowed: i32) -> i32;
    fn munmap(address: *mut c_void, bytes: usize) -> i32;
}

/// Pages between two that nobody may touch.
struct Guarded {
    start: *mut u8,
    pages: usize,
}

#[derive(Clone, Copy)]
enum Side {
    Front,
    Back,
}

impl Guarded {
    fn new(pages: usize) -> Guarded {
        let all = (pages + 2) * PAGE;
        // SAFETY: a new mapping, and then its inner pages.
        unsafe {
            let start = mmap(null_mut(), all, NOTHING_ALLOWED, PRIVATE_AND_ANONYMOUS, -1, 0).cast::<u8>();
            assert!(start as isize != -1);
            assert_eq!(mprotect(start.add(PAGE).cast(), pages * PAGE, READ_AND_WRITE), 0);
            Guarded { start, pages }
        }
    }

    /// A copy of the content at the front or the back of the pages.
    fn copy<T: Copy>(&mut self, side: Side, content: &[T]) -> &mut [T] {
        let bytes = size_of_val(content);
        assert!(bytes <= self.pages * PAGE);
        let offset = match side {
            Side::Front => PAGE,
            Side::Back => PAGE + self.pages * PAGE - bytes,
        };
        // SAFETY: the piece is within the inner pages, pages are aligned, and `self` is borrowed as long as it is.
        unsafe {
            let place = self.start.add(offset).cast::<T>();
            place.copy_from_nonoverlapping(content.as_ptr(), content.len());
            std::slice::from_raw_parts_mut(place, content.len())
        }
    }
}

impl Drop for Guarded {
    fn drop(&mut self) {
        // SAFETY: the mapping of `new`.
        unsafe { munmap(self.start.cast(), (self.pages + 2) * PAGE) };
    }
}

/// The tickets of each edition and mode with this rest of the header and these cards. All seconds are equal.
fn tickets(rest_of_header: &str, list: &[u8]) -> Vec<String> {
    let mut tickets = Vec::new();
    for (edition, second) in [("01", ""), ("02", "7FFFFFFF")] {
        for mode in 0..3 {
            let mut ticket = format!("{edition}{mode:02X}{rest_of_header}\n");
            list.iter().for_each(|card| ticket += &format!("{card:02X}{second}\n"));
            tickets.push(ticket);
        }
    }
    tickets
}

/// Tickets of each edition and mode, with each length that they can be cut to, and with a byte after the last line. The
/// cycles of a plan rise for each card, or fall.
#[test]
fn cut_tickets() {
    let mut memory = Memory::new();
    for ticket in tickets("0200020006", &[0, 0, 1, 0, 1, 1]) {
        let whole = ticket + "\n";
        for length in 0..=whole.len() {
            for cycles in [[1, 2, 2, 3, 3, 4], [2, 1, 2, 3, 1, 3]] {
                memory.call_everything(&whole.as_bytes()[..length], &cycles);
            }
        }
    }
}

/// The longest ticket of each edition and mode. The cycles of a plan rise, or fall in blocks, up to 4,096 and beyond.
#[test]
fn longest_tickets() {
    let mut memory = Memory::new();
    let rising: Vec<u16> = (1..=4096).collect();
    let mut falling = rising.clone();
    falling.chunks_mut(MAX_POOL).for_each(<[u16]>::reverse);
    let larger: Vec<u16> = falling.iter().map(|cycle| cycle * 15).collect();
    let list: Vec<u8> = (0..4096).map(|position| (position % 32) as u8).collect();
    for ticket in tickets(&format!("20{MAX_POOL:04X}1000"), &list) {
        assert_eq!(refusal(dockplan::parse(ticket.as_bytes())), 0);
        for cycles in [&rising, &falling, &larger] {
            memory.call_everything(ticket.as_bytes(), cycles);
        }
    }
}

/// Two tickets to join, each with every length that it can be cut to, and with a byte after the last line.
#[test]
fn cut_tickets_to_join() {
    let mut memory = Memory::new();
    let first = b"02000200020003\n0000000E10\n0100000E11\n000000abcd\n\n";
    let second = b"02000200020002\n0100000e11\n0100000e12\n\n";
    let [whole_first, whole_second] = [first.len() - 1, second.len() - 1];
    for length in 0..=first.len() {
        memory.call_join(&first[..length], &second[..whole_second], 70);
    }
    for length in 0..=second.len() {
        memory.call_join(&first[..whole_first], &second[..length], 70);
    }
}

/// Tickets that join to the longest one: of 2,048 frames each, whose seconds alternate, are equal or follow each other, and
/// of all 4,096 and none. And those that have one frame too many.
#[test]
fn longest_tickets_to_join() {
    let mut memory = Memory::new();
    let ticket = |frames: u32, second: fn(u32) -> u32| {
        let lines = (0..frames).map(|position| format!("1F{:08X}\n", second(position)));
        format!("020020{MAX_POOL:04X}{frames:04X}\n{}", lines.collect::<String>())
    };
    let even = ticket(2048, |position| 2 * position);
    let odd = ticket(2048, |position| 2 * position + 1);
    let last = ticket(2048, |_| u32::MAX);
    let all = ticket(4096, |position| position);
    let none = ticket(0, |_| 0);
    let more = ticket(2049, |position| 2 * position + 1);
    for (first, second) in [
        (&even, &odd),
        (&odd, &even),
        (&last, &last),
        (&even, &last),
        (&last, &odd),
    ] {
        memory.call_join(first.as_bytes(), second.as_bytes(), 45_071);
    }
    for (first, second) in [
        (&all, &none),
        (&none, &all),
        (&even, &more),
        (&more, &even),
        (&all, &all),
    ] {
        memory.call_join(first.as_bytes(), second.as_bytes(), 45_071);
    }
}

/// Lists of every length up to 20, of 4,095, of 4,096 and of one frame too many, for no cameras up to 7, in turns and in runs.
#[test]
fn lists_for_the_hub() {
    let mut memory = Memory::new();
    for cameras in 0..=7_usize {
        let patterns: Vec<u8> = (0..cameras as u8).collect();
        for frames in (0..=20).chain([4095, 4096, 4097]) {
            for run in [1, 9] {
                let camera = |position: usize| (position / run % cameras.max(1)) as u8;
                let list: Vec<u8> = (0..frames).map(camera).collect();
                memory.call_hub(&patterns, &list);
            }
        }
    }
}

/// A pattern, or a camera number, that there is not, at each place.
#[test]
fn refused_by_the_hub() {
    let mut memory = Memory::new();
    let (patterns, list) = ([7; 6], [5; 20]);
    for camera in 0..patterns.len() {
        let mut spoiled = patterns;
        spoiled[camera] = 8;
        memory.call_hub(&spoiled, &list);
    }
    for position in 0..list.len() {
        let mut spoiled = list;
        spoiled[position] = 6;
        memory.call_hub(&patterns, &spoiled);
    }
}

/// Memory for a ticket, for another one, for a plan and for a text. A hub's list, patterns and cards take the place of two
/// tickets and a text.
struct Memory {
    ticket: Guarded,
    other: Guarded,
    plan: Guarded,
    text: Guarded,
}

impl Memory {
    fn new() -> Memory {
        Memory {
            ticket: Guarded::new(12),
            other: Guarded::new(12),
            plan: Guarded::new(2),
            text: Guarded::new(12),
        }
    }

    /// Every call with slices, and buffers of L places and fewer, on both sides.
    fn call_everything(&mut self, ticket: &[u8], cycles: &[u16]) {
        for side in [Side::Front, Side::Back] {
            let lent = self.ticket.copy(side, ticket);
            assert_eq!(refusal(dockplan::parse(lent)), reference::parse(ticket).refusal);
            assert_eq!(refusal(dockplan::counts(lent)), reference::counts(ticket).refusal);
            for position in [0, cycles.len() - 1, cycles.len(), 65_535] {
                let position = Position(position as u16);
                let line = dockplan::line(lent, position);
                assert_eq!(refusal(line), reference::line_refusal(ticket, position));
            }
            for places in [0, 1, cycles.len() - 1, cycles.len()] {
                let plan = self.plan.copy(side, &cycles[..places]);
                let mut expected = plan.to_vec();
                assert_eq!(
                    refusal(dockplan::check(lent, plan)),
                    reference::check(ticket, plan).refusal
                );
                assert_eq!(
                    refusal(dockplan::run_plan(lent, plan)),
                    reference::run_plan(ticket, plan).refusal
                );
                assert_eq!(
                    refusal(dockplan::plan(lent, plan)),
                    reference::plan(ticket, &mut expected).refusal
                );
                assert_eq!(plan, expected);
            }
            for places in [0, 4, 5, 4 + 11 * cycles.len(), 5 + 11 * cycles.len()] {
                let text = self.text.copy(side, &vec![0xA5; places]);
                let mut expected = text.to_vec();
                assert_eq!(dockplan::print(lent, text), reference::print(ticket, &mut expected));
                assert_eq!(text, expected);
            }
        }
    }

    /// The join of two tickets, and buffers of that many places and fewer, on both sides.
    fn call_join(&mut self, first: &[u8], second: &[u8], most: usize) {
        for side in [Side::Front, Side::Back] {
            let one = self.ticket.copy(side, first);
            let other = self.other.copy(side, second);
            for places in [0, 1, 14, 15, most - 1, most] {
                let text = self.text.copy(side, &vec![0xA5; places]);
                let mut expected = text.to_vec();
                let reference = reference::join(first, second, &mut expected);
                assert_eq!(refusal(dockplan::join(one, other, text)), reference.refusal);
                assert_eq!(text, expected);
            }
        }
    }

    /// The hub, with buffers of as many places as there are frames and fewer, on both sides.
    fn call_hub(&mut self, patterns: &[u8], list: &[u8]) {
        let frames = list.len();
        for side in [Side::Front, Side::Back] {
            let cameras = self.ticket.copy(side, list);
            let numbers = self.other.copy(side, patterns);
            for places in [0, 1, frames.saturating_sub(1), frames] {
                let cards = self.text.copy(side, &vec![0xA5; places]);
                let mut expected = cards.to_vec();
                let reference = reference::hub(patterns, list, &mut expected);
                assert_eq!(refusal(dockplan::hub(numbers, cameras, cards)), reference.refusal);
                assert_eq!(cards, expected);
            }
        }
    }
}

/// The number of a refusal, 0 for none.
fn refusal<T>(answer: Result<T, Refusal>) -> u8 {
    answer.err().map_or(0, |Refusal(number)| number)
}
