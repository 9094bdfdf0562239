//! Request 2026-04, "one showing from two tickets", on pairs that are written down by hand, through the safe wrapper: the
//! order of the frames, sizes and buffers, the grounds for 18, 19 and 10 and their order, cuts, and every wrong byte.

mod pools;

use dockplan::{parse, reference, Refusal};

/// Places for the longest ticket: 15 + 11 × 4,096 bytes.
const ROOM: usize = 45_071;
/// What stands in a buffer before the call.
const MARK: u8 = 0xA5;

/// A card and the second of its capture.
type Frame = (u8, u32);

/// A read ticket of edition 02 for 6 cards and a pool of 10.
fn ticket(frames: &[Frame]) -> Vec<u8> {
    with_header("020006000A", frames)
}

/// A ticket whose header begins so, up to the pool. The number of frames and the lines of edition 02 follow.
fn with_header(header: &str, frames: &[Frame]) -> Vec<u8> {
    let mut text = format!("{header}{:04X}\n", frames.len());
    for (card, second) in frames {
        text += &format!("{card:02X}{second:08X}\n");
    }
    text.into_bytes()
}

/// So many frames on card 0, one in each second from this one on.
fn many(frames: usize, from: u32) -> Vec<u8> {
    let frames: Vec<Frame> = (from..).take(frames).map(|second| (0, second)).collect();
    ticket(&frames)
}

/// The joined ticket. Places behind it, or all of them beside a refusal, have their content still.
fn join_in(places: usize, first: &[u8], second: &[u8]) -> Result<Vec<u8>, u8> {
    let mut out = vec![MARK; places];
    let answer = dockplan::join(first, second, &mut out);
    let written = answer.unwrap_or(0);
    assert!(out[written..].iter().all(|&byte| byte == MARK), "later places");
    out.truncate(written);
    answer.map(|_| out).map_err(|Refusal(number)| number)
}

fn join(first: &[u8], second: &[u8]) -> Result<Vec<u8>, u8> {
    join_in(ROOM, first, second)
}

/// Two halves with overlapping seconds, of which both have 3,601: the whole texts.
#[test]
fn two_halves() {
    let first = b"02000200020003\n0000000E10\n0100000E11\n0000000E13\n";
    let second = b"02000200020002\n0000000E11\n0100000E12\n";
    let joined = b"02000200020005\n0000000E10\n0100000E11\n0000000E11\n0100000E12\n0000000E13\n";
    assert_eq!(join(first, second), Ok(joined.to_vec()));
    let other_way = b"02000200020005\n0000000E10\n0000000E11\n0100000E11\n0100000E12\n0000000E13\n";
    assert_eq!(join(second, first), Ok(other_way.to_vec()));
}

// ---- The order of the frames ----

/// "For equal seconds the first ticket's frames go before the second's, and each ticket's own order is kept."
#[test]
fn equal_seconds() {
    let first = ticket(&[(5, 7), (0, 7), (3, 7)]);
    let second = ticket(&[(4, 7), (1, 7), (2, 7)]);
    let joined = ticket(&[(5, 7), (0, 7), (3, 7), (4, 7), (1, 7), (2, 7)]);
    assert_eq!(join(&first, &second), Ok(joined));
}

/// One after the other, whichever is handed in first.
#[test]
fn one_after_the_other() {
    let early = ticket(&[(0, 1), (1, 2), (2, 3)]);
    let late = ticket(&[(3, 4), (4, 5), (5, 6)]);
    let joined = ticket(&[(0, 1), (1, 2), (2, 3), (3, 4), (4, 5), (5, 6)]);
    assert_eq!(join(&early, &late), Ok(joined.clone()));
    assert_eq!(join(&late, &early), Ok(joined));
}

/// The same memory twice: each frame, and then the same one of the second ticket.
#[test]
fn with_itself() {
    let own = ticket(&[(0, 1), (1, 2), (2, 2), (3, 9)]);
    let joined = ticket(&[(0, 1), (0, 1), (1, 2), (2, 2), (1, 2), (2, 2), (3, 9), (3, 9)]);
    assert_eq!(join(&own, &own), Ok(joined));
}

/// Seconds are numbers of 32 bits without a sign. The largest one is a second like others, also where it is a ticket's last.
#[test]
fn seconds_are_numbers() {
    for (low, high) in [
        (0, 1),
        (0, u32::MAX),
        (u32::MAX - 1, u32::MAX),
        (0x7FFF_FFFF, 0x8000_0000),
        (0x0000_FFFF, 0x0001_0000),
        (0x00FF_FFFF, 0x0100_0000),
        (0x0000_0009, 0x0000_000A),
        (0x0000_000F, 0x0000_0010),
        (0x9FFF_FFFF, 0xA000_0000),
    ] {
        let (one, other) = (ticket(&[(0, low)]), ticket(&[(1, high)]));
        let joined = ticket(&[(0, low), (1, high)]);
        assert_eq!(join(&one, &other), Ok(joined.clone()), "{low:X} and {high:X}");
        assert_eq!(join(&other, &one), Ok(joined), "{high:X} and {low:X}");
    }
    let largest = ticket(&[(0, u32::MAX), (1, u32::MAX)]);
    let others = ticket(&[(2, 5), (3, u32::MAX), (4, u32::MAX)]);
    let lines = |frames: [u8; 4]| frames.map(|card| (card, u32::MAX));
    let joined = ticket(&[&[(2, 5)][..], &lines([0, 1, 3, 4])].concat());
    assert_eq!(join(&largest, &others), Ok(joined));
    let joined = ticket(&[&[(2, 5)][..], &lines([3, 4, 0, 1])].concat());
    assert_eq!(join(&others, &largest), Ok(joined));
}

/// Every pair of tickets with up to 4 frames in up to 3 different seconds, and each frame known by its card.
#[test]
fn all_short_pairs() {
    let lists: Vec<Vec<u32>> = (0..=4).flat_map(non_falling).collect();
    assert_eq!(lists.len(), 1 + 3 + 6 + 10 + 15);
    for one in &lists {
        for other in &lists {
            let first: Vec<Frame> = (0..).zip(one.iter().copied()).collect();
            let second: Vec<Frame> = (4..).zip(other.iter().copied()).collect();
            let mut all = [first.clone(), second.clone()].concat();
            all.sort_by_key(|&(card, second)| (second, card));
            let [first, second, joined] = [first, second, all].map(|frames| with_header("020008000A", &frames));
            assert_eq!(join(&first, &second), Ok(joined), "seconds {one:?} and {other:?}");
        }
    }
}

/// All lists of that many seconds below 3 that do not fall.
fn non_falling(frames: u32) -> Vec<Vec<u32>> {
    let second = |code: u32, place: u32| code / 3u32.pow(place) % 3;
    (0..3u32.pow(frames))
        .map(|code| (0..frames).map(|place| second(code, place)).collect())
        .filter(|seconds: &Vec<u32>| seconds.is_sorted())
        .collect()
}

// ---- Sizes and buffers ----

/// Two tickets without frames join to a header, and one with frames and one without to the former, in upper case.
#[test]
fn no_frames() {
    let none = ticket(&[]);
    assert_eq!(none.len(), 15);
    assert_eq!(join(&none, &none), Ok(none.clone()));
    let some = ticket(&[(1, 0xABCDEF), (0, u32::MAX)]);
    for typed in [some.to_ascii_lowercase(), some.clone()] {
        assert_eq!(join(&typed, &none), Ok(some.clone()));
        assert_eq!(join(&none, &typed), Ok(some.clone()));
    }
}

/// 4,096 frames together are 45,071 bytes, however they are shared out; 4,097 give 19.
#[test]
fn most_frames() {
    for (first, second) in [(2048, 2048), (1, 4095), (4095, 1), (4096, 0), (0, 4096), (2049, 2047)] {
        let joined = join(&many(first, 0), &many(second, 1000));
        assert_eq!(joined.as_ref().map(Vec::len), Ok(45_071), "{first} and {second}");
        assert_eq!(parse(&joined.unwrap()).map(|header| header.frames), Ok(4096));
    }
    for (first, second) in [(2048, 2049), (2049, 2048), (1, 4096), (4096, 1), (4096, 4096)] {
        assert_eq!(
            join(&many(first, 0), &many(second, 1000)),
            Err(19),
            "{first} and {second}"
        );
    }
    let half = many(2048, 0);
    assert_eq!(join(&half, &half).map(|joined| joined.len()), Ok(45_071));
    let more_than_half = many(2049, 0);
    assert_eq!(join(&more_than_half, &more_than_half), Err(19));
}

/// A buffer of exactly the size takes the ticket, a larger one keeps its later places, and one place less gives 10.
#[test]
fn buffers() {
    for (first, second) in [(0, 0), (1, 0), (0, 1), (2, 3), (100, 200), (2048, 2048)] {
        let (one, other) = (many(first, 5), many(second, 50));
        let size = 15 + 11 * (first + second);
        let joined = join(&one, &other);
        assert_eq!(joined.as_ref().map(Vec::len), Ok(size));
        for places in [size, size + 1, size + 11, size + 500] {
            assert_eq!(join_in(places, &one, &other), joined, "{places} places for {size}");
        }
        for places in [size - 1, 14, 1, 0] {
            assert_eq!(join_in(places, &one, &other), Err(10), "{places} places for {size}");
        }
    }
}

// ---- The grounds for turning a pair down ----

/// Each cause of 18, for either ticket: edition 01, the other modes, other cards, another pool in either of its last digits.
/// The first two are 00 in every pool.
#[test]
fn different_tickets() {
    let good = with_header("020006000A", &[]);
    assert_eq!(join(&good, &good), Ok(good.clone()));
    for header in [
        "010006000A",
        "020106000A",
        "020206000A",
        "020005000A",
        "020007000A",
        "020020000A",
        "0200060009",
        "020006000B",
        "020006001A",
        "020006009A",
        "0200060001",
        "02000600C0",
    ] {
        let other = with_header(header, &[]);
        assert_eq!(parse(&other).err(), None, "{header}");
        assert_eq!(join(&good, &other), Err(18), "{header} second");
        assert_eq!(join(&other, &good), Err(18), "{header} first");
    }
    for header in ["010006000A", "020106000A", "020206000A", "010106000A", "010206000A"] {
        let both = with_header(header, &[]);
        assert_eq!(join(&both, &both), Err(18), "{header} twice");
    }
}

/// Pools at the limit: two tickets with the same good one are joined, and the result has it too. Any other gives 5 as a
/// ticket's own refusal, whichever of the two asks for it, also where both do and they would be the same.
#[test]
fn limits_of_the_pool() {
    let of_pool = |pool: usize| with_header(&format!("020006{pool:04X}"), &[(0, 1), (5, 2)]);
    for pool in pools::PASS {
        let joined = with_header(&format!("020006{pool:04X}"), &[(0, 1), (0, 1), (5, 2), (5, 2)]);
        assert_eq!(join(&of_pool(pool), &of_pool(pool)), Ok(joined), "pool {pool}");
    }
    for pool in pools::GIVE_5 {
        assert_eq!(join(&of_pool(pool), &of_pool(pool)), Err(5), "pool {pool} twice");
        for good in pools::PASS {
            assert_eq!(join(&of_pool(pool), &of_pool(good)), Err(5), "pool {pool} first");
            assert_eq!(join(&of_pool(good), &of_pool(pool)), Err(5), "pool {pool} second");
        }
    }
}

/// With frames it is the same; lines of edition 01 have 2 digits.
#[test]
fn different_tickets_with_frames() {
    let good = ticket(&[(0, 1), (5, 2)]);
    let edition_01 = b"010006000A0002\n00\n05\n".to_vec();
    let others = ["020106000A", "020206000A", "020007000A", "020006000B"];
    let others = others.map(|header| with_header(header, &[(0, 1), (5, 2)]));
    for other in others.iter().chain([&edition_01]) {
        assert_eq!(parse(other).err(), None);
        assert_eq!(join(&good, other), Err(18), "{}", other.escape_ascii());
        assert_eq!(join(other, &good), Err(18), "{}", other.escape_ascii());
    }
}

/// "Turned away: 18 [...]; then 19", and "10 [...] comes last".
#[test]
fn order_of_18_19_and_10() {
    let frames = vec![(0, 1); 2049];
    let long = ticket(&frames);
    for header in ["020106000A", "020007000A", "020006000B"] {
        let other = with_header(header, &frames);
        for places in [ROOM, 100, 0] {
            assert_eq!(join_in(places, &long, &other), Err(18), "{header}, {places} places");
            assert_eq!(join_in(places, &other, &long), Err(18), "{header}, {places} places");
        }
    }
    for places in [ROOM + 1000, ROOM, ROOM - 1, 100, 15, 14, 0] {
        assert_eq!(join_in(places, &long, &long), Err(19), "{places} places");
    }
    let (one, other) = (ticket(&[(0, 1)]), with_header("020007000A", &[(0, 1)]));
    assert_eq!(join_in(0, &one, &other), Err(18));
}

/// A ticket for each of its own refusals, 1 to 9 and 17. Some would be turned away by 18 as well.
const REFUSED: [(u8, &[u8]); 15] = [
    (1, b""),
    (1, b"0200060000A0000\n"),
    (2, b"03000600000000\n"),
    (3, b"02030600000000\n"),
    (4, b"02002100000000\n"),
    (5, b"02000600000000\n"),
    (5, b"02000600C10000\n"),
    (5, b"02000604000001\n0500000001\n"),
    (5, b"020006FFFF1001\n"),
    (6, b"020006000A1001\n"),
    (7, b"020006000A0001\n"),
    (7, b"020105000B0001\n0000000001 "),
    (8, b"020006000A0001\n0600000001\n"),
    (9, b"020006000A0001\n0500000001\n\n"),
    (17, b"020006000A0002\n0500000001\n0500000000\n"),
];

/// "Each ticket meets its own refusals first, the first ticket before the second", and all of them before 18, 19 and 10.
#[test]
fn own_refusals_come_first() {
    let good = [
        ticket(&[(0, 1)]),
        with_header("020106000A", &[(0, 1)]),
        b"010006000A0001\n00\n".to_vec(),
        many(4096, 0),
    ];
    for (number, refused) in REFUSED {
        assert_eq!(parse(refused).err(), Some(Refusal(number)));
        for places in [ROOM, 14, 0] {
            for good in &good {
                assert_eq!(join_in(places, refused, good), Err(number), "{number} first");
                assert_eq!(join_in(places, good, refused), Err(number), "{number} second");
            }
            for (_, other) in REFUSED {
                assert_eq!(join_in(places, refused, other), Err(number), "{number} before another");
            }
        }
    }
}

// ---- Cuts, wrong bytes and letters ----

const FIRST: &[u8] = b"02001f00ab0003\n00000000fE\n1e00000100\n1E00aBcDeF\n";
const SECOND: &[u8] = b"02001F00AB0002\n0A00000100\n0b00000101\n";
const BOTH: &[u8] = b"02001F00AB0005\n00000000FE\n1E00000100\n0A00000100\n0B00000101\n1E00ABCDEF\n";

/// "A digit now has its value in either case", in headers and lines, and the result is "an upper-case edition 02 ticket".
#[test]
fn either_case() {
    let typed = |text: &[u8]| [text.to_vec(), text.to_ascii_uppercase(), text.to_ascii_lowercase()];
    for first in typed(FIRST) {
        for second in typed(SECOND) {
            assert_eq!(join(&first, &second), Ok(BOTH.to_vec()));
        }
    }
}

/// Seconds are sorted by their numbers, however they are typed: a before B, A before b, and a as A.
#[test]
fn sorted_in_either_case() {
    let one = |card: u8, digit: char| format!("02000200020001\n0{card}0000000{digit}\n").into_bytes();
    let both = |lines: [&str; 2]| format!("02000200020002\n{}\n{}\n", lines[0], lines[1]).into_bytes();
    for (low, high) in [('a', 'B'), ('A', 'b'), ('a', 'b'), ('9', 'a'), ('e', 'F')] {
        let [first, second] = [low, high].map(|digit| digit.to_ascii_uppercase());
        let joined = both([&format!("000000000{first}"), &format!("010000000{second}")]);
        assert_eq!(
            join(&one(0, low), &one(1, high)),
            Ok(joined.clone()),
            "{low} and {high}"
        );
        assert_eq!(join(&one(1, high), &one(0, low)), Ok(joined), "{high} and {low}");
    }
    for (first, second) in [('a', 'A'), ('A', 'a')] {
        let joined = both(["010000000A", "000000000A"]);
        assert_eq!(
            join(&one(1, first), &one(0, second)),
            Ok(joined),
            "{first} and {second}"
        );
    }
}

/// Every digit at every place of a line, in either case: the joined line has it in upper case.
#[test]
fn every_digit() {
    let none = b"02002000010000\n";
    for digit in b"0123456789ABCDEFabcdef" {
        for place in 16..25 {
            let mut one = b"02002000010001\n0000000000\n".to_vec();
            one[place] = *digit;
            assert_eq!(join(&one, none), Ok(one.to_ascii_uppercase()));
            assert_eq!(join(none, &one), Ok(one.to_ascii_uppercase()));
        }
    }
}

/// The answer for a pair of which one ticket was spoiled: the reference's, with the whole buffer. A ticket that is refused
/// alone is refused here, by the same number.
fn compare(first: &[u8], second: &[u8], spoiled: &[u8]) {
    let size = BOTH.len();
    let (mut out, mut expected) = (vec![MARK; size], vec![MARK; size]);
    let answer = dockplan::join(first, second, &mut out);
    let reference = reference::join(first, second, &mut expected);
    let input = spoiled.escape_ascii();
    let found = answer.map_or_else(|Refusal(number)| (number, 0), |bytes| (0, bytes));
    assert_eq!(found, (reference.refusal, reference.bytes), "{input}");
    assert_eq!(out, expected, "{input}");
    if let Err(own) = parse(spoiled) {
        assert_eq!(answer, Err(own), "{input}");
    }
}

/// Every prefix of either ticket: 1 within the header, 7 within the lines.
#[test]
fn every_prefix() {
    for length in 0..FIRST.len() {
        let number = if length < 15 { 1 } else { 7 };
        compare(&FIRST[..length], SECOND, &FIRST[..length]);
        assert_eq!(join(&FIRST[..length], SECOND), Err(number), "{length} bytes");
    }
    for length in 0..SECOND.len() {
        let number = if length < 15 { 1 } else { 7 };
        compare(FIRST, &SECOND[..length], &SECOND[..length]);
        assert_eq!(join(FIRST, &SECOND[..length]), Err(number), "{length} bytes");
    }
}

/// Every byte at every place of either ticket, and one byte behind its last line.
#[test]
fn every_wrong_byte() {
    for byte in 0..=255 {
        for place in 0..=FIRST.len() {
            let spoiled = with_byte(FIRST, place, byte);
            compare(&spoiled, SECOND, &spoiled);
        }
        for place in 0..=SECOND.len() {
            let spoiled = with_byte(SECOND, place, byte);
            compare(FIRST, &spoiled, &spoiled);
        }
    }
}

/// The ticket with this byte at a place, or behind its last one.
fn with_byte(ticket: &[u8], place: usize, byte: u8) -> Vec<u8> {
    let mut spoiled = ticket.to_vec();
    spoiled.resize(ticket.len().max(place + 1), 0);
    spoiled[place] = byte;
    spoiled
}

// ---- The plan of the joined ticket ----

/// "Its fewest cycles are never below those of either half": two halves of 2 cycles make a showing of 2, 3 or 4.
#[test]
fn fewest_cycles() {
    let cycles = |ticket: &[u8]| dockplan::plan(ticket, &mut [0; 8]).map(|cycles| cycles.0);
    let half = ticket(&[(0, 1), (0, 2)]);
    assert_eq!(cycles(&half), Ok(2));
    for (other, expected) in [([(1, 1), (1, 2)], 2), ([(0, 1), (1, 2)], 3), ([(0, 1), (0, 2)], 4)] {
        let joined = join(&half, &ticket(&other)).unwrap();
        assert_eq!(cycles(&joined), Ok(expected), "{other:?}");
    }
}
