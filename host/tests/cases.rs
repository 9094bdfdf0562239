//! The cases of document 01 and worked examples of the requests in document 02, written down from the documents and run
//! through the safe wrappers. Where a case has no T, it is the plan's largest cycle number, as document 01 defines it.

mod pools;

use dockplan::{Cycle, Position, Refusal, Saver, Verdict};

const READ: u8 = 0;
const SAVE: u8 = 1;
const SAVE_AND_KEEP: u8 = 2;

/// A ticket with these numbers and cards.
fn ticket(mode: u8, cards: usize, m: usize, list: &[u8]) -> Vec<u8> {
    let mut text = format!("01{mode:02X}{cards:02X}{m:04X}{:04X}\n", list.len());
    for card in list {
        text += &format!("{card:02X}\n");
    }
    text.into_bytes()
}

/// A ticket of edition 02 with these numbers, and the card and capture second of each frame.
fn ticket_with_seconds(mode: u8, cards: usize, m: usize, frames: &[(u8, u32)]) -> Vec<u8> {
    let mut text = format!("02{mode:02X}{cards:02X}{m:04X}{:04X}\n", frames.len());
    for (card, second) in frames {
        text += &format!("{card:02X}{second:08X}\n");
    }
    text.into_bytes()
}

/// The tickets of each edition whose cards are just enough for a list. In edition 02 two frames have each second.
fn tickets_of_list(mode: u8, m: usize, list: &[u8]) -> [Vec<u8>; 2] {
    let cards = list.iter().max().map_or(1, |&card| usize::from(card) + 1);
    let frames: Vec<(u8, u32)> = list.iter().copied().zip((0..).map(|position| position / 2)).collect();
    [
        ticket(mode, cards, m, list),
        ticket_with_seconds(mode, cards, m, &frames),
    ]
}

struct PlanCase {
    mode: u8,
    m: usize,
    list: &'static [u8],
    plan: &'static [u16],
    cycles: u16,
}

#[rustfmt::skip]
const PLANS: [PlanCase; 12] = [
    PlanCase { mode: READ, m: 2, list: &[0, 0, 1], plan: &[1, 2, 2], cycles: 2 },
    PlanCase { mode: SAVE, m: 2, list: &[0, 0, 1], plan: &[1, 2, 2], cycles: 2 },
    PlanCase { mode: READ, m: 1, list: &[0, 0, 1], plan: &[1, 2, 3], cycles: 3 },
    PlanCase { mode: READ, m: 2, list: &[0, 0, 0, 1], plan: &[1, 2, 3, 3], cycles: 3 },
    PlanCase { mode: SAVE_AND_KEEP, m: 2, list: &[0, 0, 0, 1], plan: &[1, 2, 0, 0], cycles: 2 },
    PlanCase { mode: READ, m: 3, list: &[0, 1, 2, 0], plan: &[1, 2, 2, 2], cycles: 2 },
    PlanCase { mode: READ, m: 2, list: &[0, 1, 2, 0], plan: &[1, 1, 2, 2], cycles: 2 },
    PlanCase { mode: SAVE, m: 3, list: &[0, 1, 2, 0], plan: &[1, 1, 1, 2], cycles: 2 },
    PlanCase { mode: READ, m: 1, list: &[], plan: &[], cycles: 0 },
    PlanCase { mode: SAVE, m: 1, list: &[], plan: &[], cycles: 0 },
    PlanCase { mode: SAVE_AND_KEEP, m: 1, list: &[], plan: &[], cycles: 0 },
    PlanCase { mode: READ, m: 192, list: &[], plan: &[], cycles: 0 },
];

#[test]
fn plans() {
    for case in PLANS {
        for ticket in tickets_of_list(case.mode, case.m, case.list) {
            let input = ticket.escape_ascii();
            let mut plan = vec![0xA5A5; case.list.len()];
            let length = dockplan::plan(&ticket, &mut plan);
            assert_eq!(length, Ok(Cycle(case.cycles)), "{input}");
            assert_eq!(plan, case.plan, "{input}");
        }
    }
}

/// "Saving a list and closing until the pool is empty writes exactly what its save plan says."
#[test]
fn saver_writes_the_save_plans() {
    for case in PLANS.iter().filter(|case| case.mode == SAVE) {
        let mut saver = Saver::new(3, case.m as u16).unwrap();
        let mut plan = vec![0; case.list.len()];
        let mut note = |saved: dockplan::Saved| {
            for position in saved.written.iter().flatten() {
                plan[usize::from(position.0)] = saved.cycle.unwrap().0;
            }
        };
        for &card in case.list {
            note(saver.save(card).unwrap());
        }
        while saver.waiting() > 0 {
            note(saver.close().unwrap());
        }
        assert_eq!(plan, case.plan);
        assert_eq!(saver.close(), Err(Refusal(14)));
    }
}

/// What the document says of a checked plan. A valid one has T and the peak where the document gives them.
enum Expected {
    Valid(Option<u16>, Option<u16>),
    SharedCard(u16),
    Overfull(u16),
}

use Expected::{Overfull, SharedCard, Valid};

/// Read list 0 0 1: the pool m, the plan, and what the checker says. "Read list 0 0 1 with plan 1 2 2 has peak 2, and plan 1
/// 2 1 also."
const CHECKS: [(usize, [u16; 3], Expected); 8] = [
    (2, [1, 2, 2], Valid(None, Some(2))),
    (2, [1, 2, 1], Valid(Some(2), Some(2))),
    (2, [2, 1, 2], Overfull(0)),
    (3, [2, 1, 2], Valid(None, None)),
    (1, [1, 2, 2], Overfull(1)),
    (1, [1, 1, 2], Overfull(0)),
    (2, [1, 1, 2], SharedCard(1)),
    (2, [1, 3, 3], Valid(Some(3), None)),
];

#[test]
fn checks() {
    for (m, plan, expected) in CHECKS {
        for ticket in tickets_of_list(READ, m, &[0, 0, 1]) {
            let verdict = dockplan::check(&ticket, &plan).unwrap();
            assert!(
                agrees(verdict, &expected),
                "{}, plan {plan:?}: {verdict:?}",
                ticket.escape_ascii()
            );
        }
    }
}

fn agrees(verdict: Verdict, expected: &Expected) -> bool {
    match (verdict, expected) {
        (Verdict::Valid { cycles, peak }, Valid(given_cycles, given_peak)) => {
            given_cycles.is_none_or(|given| cycles == Cycle(given)) && given_peak.is_none_or(|given| peak == given)
        }
        (Verdict::SharedCard(position), SharedCard(given)) => position == Position(*given),
        (Verdict::Overfull(position), Overfull(given)) => position == Position(*given),
        _ => false,
    }
}

/// "Pool 0 gives 5, pool 1 [...] pass [...]. Cards 32 pass, 33 give 4. Frames 4,096 pass, 4,097 give 6. An empty ticket gives
/// 1." Of larger pools, "192 passes and 193 gives 5". Here 0 is a ticket that passes.
#[test]
fn limits() {
    for (numbers, number) in [(&pools::PASS[..], 0), (&pools::GIVE_5, 5)] {
        for &pool in numbers {
            for mode in [READ, SAVE, SAVE_AND_KEEP] {
                for ticket in tickets_of_list(mode, pool, &[0, 0, 1]) {
                    assert_eq!(refusal(&ticket), number, "{}", ticket.escape_ascii());
                }
            }
        }
    }
    for (cards, number) in [(32, 0), (33, 4)] {
        assert_eq!(refusal(&ticket(READ, cards, 2, &[0, 0, 1])), number, "{cards} cards");
    }
    for (frames, number) in [(4096, 0), (4097, 6)] {
        assert_eq!(
            refusal(&ticket(READ, 1, 2, &vec![0; frames])),
            number,
            "{frames} frames"
        );
    }
    assert_eq!(refusal(b""), 1);
}

/// "That becomes the limit in tickets and in the saver." Cards come first: "a new saver gives 4, then 5".
#[test]
fn limits_of_the_saver() {
    let refusal = |cards, pool: usize| Saver::new(cards, pool as u16).err().map_or(0, |refusal| refusal.0);
    for pool in pools::PASS {
        for (cards, number) in [(0, 4), (1, 0), (2, 0), (32, 0), (33, 4), (255, 4)] {
            assert_eq!(refusal(cards, pool), number, "{cards} cards, pool {pool}");
        }
    }
    for pool in pools::GIVE_5 {
        for (cards, number) in [(0, 4), (1, 5), (2, 5), (32, 5), (33, 4), (255, 4)] {
            assert_eq!(refusal(cards, pool), number, "{cards} cards, pool {pool}");
        }
    }
}

/// The largest pool takes 192 frames before it makes a cycle, and then one for each further frame of the same card.
#[test]
fn saver_with_the_largest_pool() {
    let mut saver = Saver::new(1, 192).unwrap();
    for position in 0..192 {
        let saved = saver.save(0).unwrap();
        assert_eq!((saved.cycle, saver.waiting()), (None, position + 1));
    }
    for position in 0..1000 {
        let saved = saver.save(0).unwrap();
        assert_eq!((saved.cycle, saver.waiting()), (Some(Cycle(position + 1)), 192));
        assert_eq!(saved.written[0], Some(Position(position)));
    }
}

/// The longest ticket has edition 02 and 4,096 frames: 15 + 11 × 4,096 bytes. One byte more follows the last line.
#[test]
fn longest_ticket() {
    let mut ticket = ticket_with_seconds(READ, 32, 192, &[(31, u32::MAX); 4096]);
    assert_eq!(ticket.len(), 45_071);
    assert_eq!(refusal(&ticket), 0);
    let last = dockplan::line(&ticket, Position(4095));
    assert_eq!(last, Ok(&b"1FFFFFFFFF"[..]));
    for byte in [b'\n', b'0', 0] {
        ticket.push(byte);
        assert_eq!(refusal(&ticket), 9);
        ticket.pop();
    }
    assert_eq!(refusal(&ticket_with_seconds(READ, 1, 1, &[(0, 0); 4097])), 6);
}

fn refusal(ticket: &[u8]) -> u8 {
    dockplan::parse(ticket).err().map_or(0, |Refusal(number)| number)
}

/// The printing example, and the line of a refusal.
#[test]
fn printing() {
    let mut out = [0; 64];
    let bytes = dockplan::print(b"01000200020003\n00\n00\n01\n", &mut out);
    assert_eq!(&out[..bytes], b"0002\n0000000001\n0001000002\n0002010002\n");
    let bytes = dockplan::print(b"", &mut out);
    assert_eq!(&out[..bytes], b"FF01\n");
}

/// Edition 02 prints the same lines, without the seconds; 17 is 11 in hexadecimal.
#[test]
fn printing_with_seconds() {
    let mut out = [0; 64];
    let bytes = dockplan::print(b"02000200020003\n0000000E10\n0000000E10\n0100000E11\n", &mut out);
    assert_eq!(&out[..bytes], b"0002\n0000000001\n0001000002\n0002010002\n");
    let bytes = dockplan::print(b"02000200020003\n0000000E10\n0000000E11\n0100000E10\n", &mut out);
    assert_eq!(&out[..bytes], b"FF11\n");
}

/// "A digit now has its value in either case, also mixed within a line. .. Printed lines remain upper case": header fields and
/// cards in lower case, and mixed within one number. The line handed back has the caller's own bytes.
#[test]
fn either_case() {
    let upper = b"01001F00AB0003\n1E\n0A\n0B\n";
    let lower = b"01001f00ab0003\n1e\n0a\n0b\n";
    let mixed = b"01001f00aB0003\n1e\n0A\n0b\n";
    for ticket in [upper, lower, mixed] {
        let header = dockplan::parse(ticket).unwrap();
        assert_eq!((header.cards, header.pool, header.frames), (31, 171, 3));
        let mut plan = [0; 3];
        assert_eq!(dockplan::plan(ticket, &mut plan), Ok(Cycle(1)));
        assert_eq!(plan, [1, 1, 1]);
        let mut out = [0; 64];
        let bytes = dockplan::print(ticket, &mut out);
        assert_eq!(&out[..bytes], b"0001\n00001E0001\n00010A0001\n00020B0001\n");
    }
    for (position, line) in [(0, b"1e"), (1, b"0A"), (2, b"0b")] {
        assert_eq!(dockplan::line(mixed, Position(position)), Ok(&line[..]));
    }
}

/// The bytes next to the digits are none: 2F 3A 40 47 60 67 hex, in the header, in a card's first digit and in its second.
#[test]
fn no_digits() {
    for byte in [0x2F, 0x3A, 0x40, 0x47, 0x60, 0x67] {
        for (place, number) in (0..14).map(|place| (place, 1)).chain([(15, 7), (16, 7)]) {
            let mut ticket = *b"01002000020001\n00\n";
            assert_eq!(refusal(&ticket), 0);
            ticket[place] = byte;
            assert_eq!(refusal(&ticket), number, "byte {byte:02X} at {place}");
        }
    }
}

/// The same for a line of edition 02: its card, its second, and its end byte, which is right at the end alone.
#[test]
fn no_digits_in_seconds() {
    for byte in [0x2F, 0x3A, 0x40, 0x47, 0x60, 0x67, b'\n', b'\r'] {
        for place in 15..=25 {
            let mut ticket = *b"02002000020001\n00DEADBEEF\n";
            assert_eq!(refusal(&ticket), 0);
            let own = std::mem::replace(&mut ticket[place], byte);
            let number = if own == byte { 0 } else { 7 };
            assert_eq!(refusal(&ticket), number, "byte {byte:02X} at {place}");
        }
    }
}

/// "For a position, the reader hands back that frame's line as a part of the caller's own ticket, without its end
/// byte."
#[test]
fn lines() {
    let ticket = b"01000200020003\n00\n00\n01\n";
    for (position, line) in [(0, b"00"), (1, b"00"), (2, b"01")] {
        assert_eq!(dockplan::line(ticket, Position(position)), Ok(&line[..]));
    }
    assert_eq!(dockplan::line(ticket, Position(3)), Err(Refusal(16)));
}

/// In edition 02 "each frame line has 10 digits, the card (2) and the capture second (8)", in the caller's own bytes.
#[test]
fn lines_with_seconds() {
    let ticket = b"02000200020003\n0000000009\n000000000a\n010000000A\n";
    for (position, line) in [(0, b"0000000009"), (1, b"000000000a"), (2, b"010000000A")] {
        assert_eq!(dockplan::line(ticket, Position(position)), Ok(&line[..]));
    }
    assert_eq!(dockplan::line(ticket, Position(3)), Err(Refusal(16)));
    let falling = b"02000200020002\n000000000a\n0000000009\n";
    assert_eq!(dockplan::line(falling, Position(0)), Err(Refusal(17)));
    assert_eq!(dockplan::line(falling, Position(2)), Err(Refusal(17)));
}

/// "Refusal 2 now means neither 01 nor 02": all editions that 2 digits can say, for a ticket without frames.
#[test]
fn editions() {
    for edition in 0..=255 {
        let header = dockplan::parse(format!("{edition:02X}000200020000\n").as_bytes());
        match edition {
            1 | 2 => assert_eq!(header.map(|header| header.edition), Ok(edition)),
            _ => assert_eq!(header, Err(Refusal(2)), "edition {edition:02X}"),
        }
    }
}

/// "The edition in the header decides": lines of the other edition are not its digits and an end byte.
#[test]
fn lines_of_the_other_edition() {
    assert_eq!(refusal(b"01000200020001\n0000000E10\n"), 7);
    assert_eq!(refusal(b"02000200020001\n00\n"), 7);
    assert_eq!(refusal(b"01000200020002\n00\n0000000E10\n"), 7);
    assert_eq!(refusal(b"02000200020002\n0000000E10\n00\n"), 7);
    assert_eq!(refusal(b"02000200020004\n00\n00\n00\n00\n"), 7);
    assert_eq!(refusal(b"03000200020001\n0000000E10\n"), 2);
}

/// "Seconds may repeat but not fall."
const GOOD_SECONDS: [&[u32]; 11] = [
    &[],
    &[0],
    &[u32::MAX],
    &[0, 0, 0],
    &[u32::MAX, u32::MAX, u32::MAX],
    &[0, u32::MAX],
    &[5, 5, 6, 6, 7],
    &[0x0000_FFFF, 0x0001_0000],
    &[0x0001_FFFF, 0x0002_0000],
    &[0x00FF_FFFF, 0x0100_0000],
    &[0x7FFF_FFFF, 0x8000_0000],
];

const FALLING_SECONDS: [&[u32]; 10] = [
    &[1, 0],
    &[u32::MAX, 0],
    &[u32::MAX, u32::MAX - 1],
    &[5, 6, 5],
    &[5, 5, 4, 5],
    &[9, 10, 11, 12, 11],
    &[0x0001_0000, 0x0000_FFFF],
    &[0x0002_0000, 0x0001_FFFF],
    &[0x0100_0000, 0x00FF_FFFF],
    &[0x8000_0000, 0x7FFF_FFFF],
];

/// 17 "for a second lower than the line before", as a number. The case of its digits makes no difference.
#[test]
fn seconds() {
    for seconds in GOOD_SECONDS {
        assert_eq!(refusal_of_seconds(seconds), 0, "{seconds:X?}");
    }
    for seconds in FALLING_SECONDS {
        assert_eq!(refusal_of_seconds(seconds), 17, "{seconds:X?}");
    }
    assert_eq!(refusal(b"02000200020002\n000000000a\n000000000B\n"), 0);
    assert_eq!(refusal(b"02000200020002\n000000000B\n000000000a\n"), 17);
    assert_eq!(refusal(b"02000200020002\n00ABCDEFab\n00abcdefAB\n"), 0);
}

/// The refusal of a ticket whose frames, all on card 0, have these capture seconds.
fn refusal_of_seconds(seconds: &[u32]) -> u8 {
    let frames: Vec<(u8, u32)> = seconds.iter().map(|&second| (0, second)).collect();
    refusal(&ticket_with_seconds(SAVE, 1, 1, &frames))
}

/// In a list of rising seconds, one alone repeats or falls by one: in each line but the first.
#[test]
fn one_falling_second_among_many() {
    let rising: Vec<u32> = (0..300).map(|position| 0xFF00 + position).collect();
    assert_eq!(refusal_of_seconds(&rising), 0);
    for position in 1..rising.len() {
        let mut seconds = rising.clone();
        seconds[position] = seconds[position - 1];
        assert_eq!(refusal_of_seconds(&seconds), 0, "repeats at {position}");
        seconds[position] -= 1;
        assert_eq!(refusal_of_seconds(&seconds), 17, "falls at {position}");
    }
}

/// "17 [...] after 7 and 8 of the same line", line by line, and before 9.
#[test]
fn order_of_7_8_and_17() {
    for (lines, number) in [
        ("0000000005\n0000000004\n", 17),
        ("0000000005\n0200000004\n", 8),
        ("0000000005\n0G00000004\n", 7),
        ("0000000005\n000000000g\n", 7),
        ("0000000005\n0000000004 ", 7),
        ("0000000005\n0200000004", 7),
        ("0000000005\n02000000G4\n", 7),
        ("0200000005\n0000000004\n", 8),
        ("000000000G\n0000000004\n", 7),
        ("0000000005\n0000000004\n\n", 17),
        ("0000000005\n0000000005\n\n", 9),
    ] {
        let ticket = format!("02000200020002\n{lines}");
        assert_eq!(refusal(ticket.as_bytes()), number, "{lines:?}");
    }
    for third in ["0000000005\n", "0000000003\n", "0200000005\n", "0G\n", ""] {
        let ticket = format!("02000200020003\n0000000005\n0000000004\n{third}");
        assert_eq!(refusal(ticket.as_bytes()), 17, "{third:?}");
    }
}

/// A ticket of edition 02 that is cut short: 1 within the header, 7 within the lines.
#[test]
fn cut_short() {
    let ticket = b"02000200020003\n0000000E10\n0000000E10\n0100000E11\n";
    assert_eq!(refusal(ticket), 0);
    for length in 0..ticket.len() {
        let number = if length < 15 { 1 } else { 7 };
        assert_eq!(refusal(&ticket[..length]), number, "{length} bytes");
    }
}
