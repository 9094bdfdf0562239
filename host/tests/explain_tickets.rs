//! What `explain` says of tickets, word for word: what an accepted one asks for, every refusal, the commonest causes.
//! The expected texts are written by hand.

use dockplan::explain::{explain, File};

const FIRST: &str = "01000200020003\n00\n00\n01\n";
const SAVE: &str = "01010300030004\n00\n01\n02\n00\n";
const KEEP: &str = "01020200020004\n00\n00\n00\n01\n";
const SECONDS: &str = "02000200020003\n0000000E10\n0000000E10\n0100000E11\n";

fn file(name: &str, bytes: &[u8]) -> File {
    File {
        name: name.to_string(),
        bytes: bytes.to_vec(),
    }
}

/// The ticket alone is explained by exactly these lines.
fn says(ticket: impl AsRef<[u8]>, good: bool, expected: &[&str]) {
    let report = explain(&file("a.ticket", ticket.as_ref()), None);
    assert_eq!(report.text.lines().collect::<Vec<_>>(), expected);
    assert_eq!(report.good, good);
}

fn accepted(ticket: impl AsRef<[u8]>, expected: &[&str]) {
    says(ticket, true, &[&["a.ticket: accepted"], expected].concat());
}

fn refused(ticket: impl AsRef<[u8]>, expected: &[&str]) {
    says(ticket, false, expected);
}

// ---- Accepted tickets ----

/// What each mode asks for.
#[test]
fn accepted_tickets() {
    accepted(
        FIRST,
        &[
            "  It is of edition 01 and asks for a read plan of 3 frames on 2 cards, with a pool of 2 buffers.",
            "  Frames on card 0: 2, card 1: 1.",
            "  The plan has 2 cycles.",
        ],
    );
    accepted(
        SAVE,
        &[
            "  It is of edition 01 and asks for a save plan of 4 frames on 3 cards, with a pool of 3 buffers.",
            "  Frames on card 0: 2, cards 1 to 2: 1 each.",
            "  The plan has 2 cycles.",
        ],
    );
    accepted(
        KEEP,
        &[
            "  It is of edition 01 and asks for a save and keep plan of 4 frames on 2 cards, with a pool of 2 buffers.",
            "  Frames on card 0: 3, card 1: 1.",
            "  The plan has 2 cycles. 2 frames stay in the pool, with cycle 0.",
        ],
    );
}

/// Edition 02: the first and the last capture second, also where they are the same one, and none without frames.
#[test]
fn capture_seconds() {
    accepted(
        SECONDS,
        &[
            "  It is of edition 02 and asks for a read plan of 3 frames on 2 cards, with a pool of 2 buffers.",
            "  Capture seconds: 00000E10 to 00000E11 hex, which is 3600 to 3601.",
            "  Frames on card 0: 2, card 1: 1.",
            "  The plan has 2 cycles.",
        ],
    );
    accepted(
        "02010100010001\n00fffffFFf\n",
        &[
            "  It is of edition 02 and asks for a save plan of 1 frame on 1 card, with a pool of 1 buffer.",
            "  Capture seconds: FFFFFFFF to FFFFFFFF hex, which is 4294967295 to 4294967295.",
            "  Frames on card 0: 1.",
            "  The plan has 1 cycle.",
        ],
    );
    accepted(
        "02000100010000\n",
        &[
            "  It is of edition 02 and asks for a read plan of 0 frames on 1 card, with a pool of 1 buffer.",
            "  The plan has 0 cycles.",
        ],
    );
}

/// Digits in lower case, and mixed within a number.
#[test]
fn either_case() {
    accepted(
        "01001f00aB0003\n1e\n0A\n0a\n",
        &[
            "  It is of edition 01 and asks for a read plan of 3 frames on 31 cards, with a pool of 171 buffers.",
            "  Frames on card 10: 2, card 30: 1.",
            "  No frames on the other 29 cards.",
            "  The plan has 2 cycles.",
        ],
    );
}

/// The smallest numbers, and cards without frames.
#[test]
fn few_frames() {
    accepted(
        "01000100010000\n",
        &[
            "  It is of edition 01 and asks for a read plan of 0 frames on 1 card, with a pool of 1 buffer.",
            "  The plan has 0 cycles.",
        ],
    );
    accepted(
        "01022000C00001\n1F\n",
        &[
            "  It is of edition 01 and asks for a save and keep plan of 1 frame on 32 cards, with a pool of 192 buffers.",
            "  Frames on card 31: 1.",
            "  No frames on the other 31 cards.",
            "  The plan has 0 cycles. 1 frame stays in the pool, with cycle 0.",
        ],
    );
    accepted(
        "01000200010001\n00\n",
        &[
            "  It is of edition 01 and asks for a read plan of 1 frame on 2 cards, with a pool of 1 buffer.",
            "  Frames on card 0: 1.",
            "  No frames on the other card.",
            "  The plan has 1 cycle.",
        ],
    );
}

/// 32 cards in few lines: neighbours with the same count are said together, and long lists are broken. The plan has as many
/// cycles as the fullest card has frames: in the first list each cycle reads one frame of each card, and in the second the
/// pool has room for all 160 frames.
#[test]
fn many_cards() {
    let ticket = |list: &[usize]| {
        let mut text = format!("01002000C0{:04X}\n", list.len());
        list.iter().for_each(|card| text += &format!("{card:02X}\n"));
        text
    };
    let round_robin: Vec<usize> = (0..4096).map(|position| position % 32).collect();
    accepted(
        ticket(&round_robin),
        &[
            "  It is of edition 01 and asks for a read plan of 4096 frames on 32 cards, with a pool of 192 buffers.",
            "  Frames on cards 0 to 31: 128 each.",
            "  The plan has 128 cycles.",
        ],
    );
    let card_c_has_c_mod_12: Vec<usize> = (0..32).flat_map(|card| vec![card; card % 12]).collect();
    accepted(
        ticket(&card_c_has_c_mod_12),
        &[
            "  It is of edition 01 and asks for a read plan of 160 frames on 32 cards, with a pool of 192 buffers.",
            "  Frames on card 1: 1, card 2: 2, card 3: 3, card 4: 4, card 5: 5, card 6: 6, card 7: 7, card 8: 8,",
            "    card 9: 9, card 10: 10, card 11: 11, card 13: 1, card 14: 2, card 15: 3, card 16: 4, card 17: 5,",
            "    card 18: 6, card 19: 7, card 20: 8, card 21: 9, card 22: 10, card 23: 11, card 25: 1, card 26: 2,",
            "    card 27: 3, card 28: 4, card 29: 5, card 30: 6, card 31: 7.",
            "  No frames on the other 3 cards.",
            "  The plan has 11 cycles.",
        ],
    );
}

// ---- Refused tickets ----

const HEADER_IS_WRONG: [&str; 2] = [
    "a.ticket: refused by 1 (FF01)",
    "  The first 15 bytes are not 14 digits and an end byte.",
];

fn refused_by_1(ticket: impl AsRef<[u8]>, expected: &[&str]) {
    refused(ticket, &[&HEADER_IS_WRONG[..], expected].concat());
}

#[test]
fn refusal_1() {
    refused_by_1(
        "0100020002000G\n",
        &[
            "  Place:    line 1, byte 14; offset 13 from the start of the file",
            "  Found:    'G'",
            "  Expected: a digit, 0 to 9, A to F or a to f",
        ],
    );
    refused_by_1(
        "0100020002 0003\n",
        &[
            "  Place:    line 1, byte 11; offset 10 from the start of the file",
            "  Found:    space 20",
            "  Expected: a digit, 0 to 9, A to F or a to f",
        ],
    );
    refused_by_1(
        b"0100\x800002000\n",
        &[
            "  Place:    line 1, byte 5; offset 4 from the start of the file",
            "  Found:    byte 80",
            "  Expected: a digit, 0 to 9, A to F or a to f",
        ],
    );
    refused_by_1(
        "0100020002000g\n",
        &[
            "  Place:    line 1, byte 14; offset 13 from the start of the file",
            "  Found:    'g'",
            "  Expected: a digit, 0 to 9, A to F or a to f",
        ],
    );
}

/// The commonest causes of 1: CR LF, and a byte order mark.
#[test]
fn causes_of_1() {
    refused_by_1(
        FIRST.replace('\n', "\r\n"),
        &[
            "  Place:    line 1, byte 15; offset 14 from the start of the file",
            "  Found:    carriage return 0D",
            "  Expected: the end byte 0A",
            "  Hint:     The line ends in CR LF (0D 0A). Each line must end in the end byte 0A alone.",
        ],
    );
    refused_by_1(
        [b"\xEF\xBB\xBF", FIRST.as_bytes()].concat(),
        &[
            "  Place:    line 1, byte 1; offset 0 from the start of the file",
            "  Found:    byte order mark EF BB BF",
            "  Expected: a digit, 0 to 9, A to F or a to f",
            "  Hint:     The file begins with a byte order mark EF BB BF. Save it as plain ASCII text, without it.",
        ],
    );
}

/// A header that is too short or too long, a header alone without its end byte, and no text at all.
#[test]
fn headers_of_other_lengths() {
    refused_by_1(
        "",
        &[
            "  Place:    line 1, byte 1; offset 0 from the start of the file",
            "  Found:    the text ends here",
            "  Expected: a digit, 0 to 9, A to F or a to f",
            "  Hint:     The file is empty.",
        ],
    );
    refused_by_1(
        "01000200020003",
        &[
            "  Place:    line 1, byte 15; offset 14 from the start of the file",
            "  Found:    the text ends here",
            "  Expected: the end byte 0A",
            "  Hint:     The last line has no end byte. Some editors leave it out.",
        ],
    );
    refused_by_1(
        "010002000203\n",
        &[
            "  Place:    line 1, byte 13; offset 12 from the start of the file",
            "  Found:    the end byte 0A",
            "  Expected: a digit, 0 to 9, A to F or a to f",
            "  Hint:     The line is too short. It has only 12 digits.",
        ],
    );
    refused_by_1(
        "010002000200003\n",
        &[
            "  Place:    line 1, byte 15; offset 14 from the start of the file",
            "  Found:    '3'",
            "  Expected: the end byte 0A",
            "  Hint:     The line is too long. It must have 14 digits.",
        ],
    );
}

#[test]
fn refusals_2_and_3() {
    refused(
        "03030000000000\n",
        &[
            "a.ticket: refused by 2 (FF02)",
            "  The edition is not 1 to 2.",
            "  Place:    line 1, bytes 1 to 2; offsets 0 to 1 from the start of the file",
            "  Found:    03 hex, which is 3",
            "  Expected: the edition: 01 to 02 hex, which is 1 to 2",
            "  Hint:     Only editions 01 and 02 are known.",
        ],
    );
    refused(
        "01030200020000\n",
        &[
            "a.ticket: refused by 3 (FF03)",
            "  The mode is not 0 to 2.",
            "  Place:    line 1, bytes 3 to 4; offsets 2 to 3 from the start of the file",
            "  Found:    03 hex, which is 3",
            "  Expected: the mode: 00 to 02 hex, which is 0 to 2",
            "  Hint:     The modes are 00 read, 01 save, 02 save and keep.",
        ],
    );
}

/// The header's numbers out of range; and where their digits would be in range as a decimal number, a hint.
#[test]
fn refusals_4_to_6() {
    refused(
        "01003200020000\n",
        &[
            "a.ticket: refused by 4 (FF04)",
            "  The number of cards is not 1 to 32.",
            "  Place:    line 1, bytes 5 to 6; offsets 4 to 5 from the start of the file",
            "  Found:    32 hex, which is 50",
            "  Expected: the number of cards: 01 to 20 hex, which is 1 to 32",
            "  Hint:     Numbers are hexadecimal. If 32 was meant as a decimal number, write 20.",
        ],
    );
    refused_by_5("01000200000000\n", "0000 hex, which is 0", &[]);
    refused(
        "01000200021001\n",
        &[
            "a.ticket: refused by 6 (FF06)",
            "  The number of frames is not 0 to 4096.",
            "  Place:    line 1, bytes 11 to 14; offsets 10 to 13 from the start of the file",
            "  Found:    1001 hex, which is 4097",
            "  Expected: the number of frames: 0000 to 1000 hex, which is 0 to 4096",
            "  Hint:     Numbers are hexadecimal. If 1001 was meant as a decimal number, write 03E9.",
        ],
    );
}

fn refused_by_5(ticket: &str, found: &str, hints: &[&str]) {
    let found = format!("  Found:    {found}");
    let lines = [
        "a.ticket: refused by 5 (FF05)",
        "  The pool is not 1 to 192.",
        "  Place:    line 1, bytes 7 to 10; offsets 6 to 9 from the start of the file",
        &found,
        "  Expected: the pool: 0001 to 00C0 hex, which is 1 to 192",
    ];
    refused(ticket, &[&lines, hints].concat());
}

/// Pools over the limit, which filed tickets of every mode and edition may have. Some look like decimal numbers too.
#[test]
fn pools_over_the_limit() {
    let filed = "  Hint:     Docks have at most 192 buffers; tickets filed earlier may ask for more.";
    refused_by_5("01000200C10003\n00\n00\n01\n", "00C1 hex, which is 193", &[filed]);
    refused_by_5("01010200c20001\n00\n", "00c2 hex, which is 194", &[filed]);
    refused_by_5("01020203FF0000\n", "03FF hex, which is 1023", &[filed]);
    refused_by_5("02000204000001\n0000000E10\n", "0400 hex, which is 1024", &[filed]);
    refused_by_5("02020204010000\n", "0401 hex, which is 1025", &[filed]);
    refused_by_5("020102FFFF0000\n", "FFFF hex, which is 65535", &[filed]);
    let decimal = "  Hint:     Numbers are hexadecimal. If 0192 was meant as a decimal number, write 00C0.";
    refused_by_5("01000201920000\n", "0192 hex, which is 402", &[decimal, filed]);
    refused_by_5("01000201930000\n", "0193 hex, which is 403", &[filed]);
    let decimal = "  Hint:     Numbers are hexadecimal. If 0100 was meant as a decimal number, write 0064.";
    refused_by_5("01000201000000\n", "0100 hex, which is 256", &[decimal, filed]);
    refused_by_5("01000210240000\n", "1024 hex, which is 4132", &[filed]);
}

/// The largest pool that passes.
#[test]
fn pool_at_the_limit() {
    for ticket in ["01000100C00000\n", "01000100c00000\n"] {
        accepted(
            ticket,
            &[
                "  It is of edition 01 and asks for a read plan of 0 frames on 1 card, with a pool of 192 buffers.",
                "  The plan has 0 cycles.",
            ],
        );
    }
}

const LINE_IS_WRONG: [&str; 2] = [
    "a.ticket: refused by 7 (FF07)",
    "  A frame line is missing, or it is not 2 digits and an end byte.",
];

fn refused_by_7(ticket: &str, expected: &[&str]) {
    refused(ticket, &[&LINE_IS_WRONG[..], expected].concat());
}

fn refused_by_7_with_seconds(ticket: &str, expected: &[&str]) {
    let [answer, _] = LINE_IS_WRONG;
    let meaning = "  A frame line is missing, or it is not 10 digits and an end byte.";
    refused(ticket, &[&[answer, meaning], expected].concat());
}

/// A malformed frame line: which byte of it, and what is wrong with the line.
#[test]
fn refusal_7() {
    refused_by_7(
        "01000200020003\n00\n0G\n02\n",
        &[
            "  Place:    line 3, byte 2; offset 19 from the start of the file",
            "  Found:    'G'",
            "  Expected: a digit, 0 to 9, A to F or a to f",
        ],
    );
    refused_by_7(
        "01000200020003\n000\n0\n01\n",
        &[
            "  Place:    line 2, byte 3; offset 17 from the start of the file",
            "  Found:    '0'",
            "  Expected: the end byte 0A",
            "  Hint:     The line is too long. It must have 2 digits.",
        ],
    );
    refused_by_7(
        "01000200020003\n00\n0\n01\n",
        &[
            "  Place:    line 3, byte 2; offset 19 from the start of the file",
            "  Found:    the end byte 0A",
            "  Expected: a digit, 0 to 9, A to F or a to f",
            "  Hint:     The line is too short. It has only 1 digit.",
        ],
    );
    refused_by_7(
        "01000200020003\n00\n\n01\n",
        &[
            "  Place:    line 3, byte 1; offset 18 from the start of the file",
            "  Found:    the end byte 0A",
            "  Expected: a digit, 0 to 9, A to F or a to f",
            "  Hint:     The line is blank.",
        ],
    );
    refused_by_7(
        "01000200020001\n00\r",
        &[
            "  Place:    line 2, byte 3; offset 17 from the start of the file",
            "  Found:    carriage return 0D",
            "  Expected: the end byte 0A",
            "  Hint:     The line ends in a carriage return (0D). Each line must end in the end byte 0A alone.",
        ],
    );
}

/// The same for edition 02, whose lines have 10 digits.
#[test]
fn refusal_7_with_seconds() {
    refused_by_7_with_seconds(
        "02000200020002\n0000000E10\n0000000G10\n",
        &[
            "  Place:    line 3, byte 8; offset 33 from the start of the file",
            "  Found:    'G'",
            "  Expected: a digit, 0 to 9, A to F or a to f",
        ],
    );
    refused_by_7_with_seconds(
        "02000200020002\n0000000E10\n000000E10\n",
        &[
            "  Place:    line 3, byte 10; offset 35 from the start of the file",
            "  Found:    the end byte 0A",
            "  Expected: a digit, 0 to 9, A to F or a to f",
            "  Hint:     The line is too short. It has only 9 digits.",
        ],
    );
    refused_by_7_with_seconds(
        "02000200020002\n0000000E10\n00000000E10\n",
        &[
            "  Place:    line 3, byte 11; offset 36 from the start of the file",
            "  Found:    '0'",
            "  Expected: the end byte 0A",
            "  Hint:     The line is too long. It must have 10 digits.",
        ],
    );
    refused_by_7_with_seconds(
        "02000200020002\n0000000E10\n",
        &[
            "  Place:    line 3, byte 1; offset 26 from the start of the file",
            "  Found:    the text ends here",
            "  Expected: a digit, 0 to 9, A to F or a to f",
            "  Hint:     The text ends early. It has 1 whole frame line; the header says 2 frames (0002 hex).",
        ],
    );
}

/// Lines of edition 01 under a header that says edition 02, the other way round, and a ticket with both.
#[test]
fn lines_of_another_edition() {
    refused_by_7_with_seconds(
        "02000200020003\n00\n00\n01\n",
        &[
            "  Place:    line 2, byte 3; offset 17 from the start of the file",
            "  Found:    the end byte 0A",
            "  Expected: a digit, 0 to 9, A to F or a to f",
            "  Hint:     The line is too short. It has only 2 digits.",
            "  Hint:     This is a line of edition 01. The header says edition 02.",
        ],
    );
    refused_by_7(
        "01000200020003\n0000000E10\n0000000E10\n0100000E11\n",
        &[
            "  Place:    line 2, byte 3; offset 17 from the start of the file",
            "  Found:    '0'",
            "  Expected: the end byte 0A",
            "  Hint:     The line is too long. It must have 2 digits.",
            "  Hint:     This is a line of edition 02. The header says edition 01.",
        ],
    );
    refused_by_7(
        "01000200020002\n00\n0000000E10\n",
        &[
            "  Place:    line 3, byte 3; offset 20 from the start of the file",
            "  Found:    '0'",
            "  Expected: the end byte 0A",
            "  Hint:     The line is too long. It must have 2 digits.",
            "  Hint:     This is a line of edition 02. The header says edition 01.",
        ],
    );
}

/// The text ends too early: the last end byte is missing, a line is missing, or the text breaks off within a line.
#[test]
fn early_ends() {
    refused_by_7(
        "01000200020003\n00\n00\n01",
        &[
            "  Place:    line 4, byte 3; offset 23 from the start of the file",
            "  Found:    the text ends here",
            "  Expected: the end byte 0A",
            "  Hint:     The last line has no end byte. Some editors leave it out.",
        ],
    );
    refused_by_7(
        "01000200020003\n00\n00\n",
        &[
            "  Place:    line 4, byte 1; offset 21 from the start of the file",
            "  Found:    the text ends here",
            "  Expected: a digit, 0 to 9, A to F or a to f",
            "  Hint:     The text ends early. It has 2 whole frame lines; the header says 3 frames (0003 hex).",
        ],
    );
    refused_by_7(
        "01000200020003\n00\n01",
        &[
            "  Place:    line 3, byte 3; offset 20 from the start of the file",
            "  Found:    the text ends here",
            "  Expected: the end byte 0A",
            "  Hint:     The last line has no end byte. Some editors leave it out.",
            "  Hint:     The text ends early. It has 1 whole frame line; the header says 3 frames (0003 hex).",
        ],
    );
    refused_by_7(
        &format!("01000200020010\n{}", "00\n".repeat(10)),
        &[
            "  Place:    line 12, byte 1; offset 45 from the start of the file",
            "  Found:    the text ends here",
            "  Expected: a digit, 0 to 9, A to F or a to f",
            "  Hint:     The text ends early. It has 10 whole frame lines; the header says 16 frames (0010 hex).",
            "  Hint:     Numbers are hexadecimal. If 0010 was meant as a decimal number, write 000A.",
        ],
    );
}

#[test]
fn refusal_8() {
    refused(
        "01000200020003\n00\n02\n0G\n",
        &[
            "a.ticket: refused by 8 (FF08)",
            "  A card number is not below the number of cards.",
            "  Place:    line 3, bytes 1 to 2; offsets 18 to 19 from the start of the file",
            "  Found:    02 hex, which is 2",
            "  Expected: a card: 00 to 01 hex, which is 0 to 1; the header says 2 cards",
            "  Hint:     Cards are counted from 0, so the highest card is 1.",
        ],
    );
    refused(
        "01002000020001\n31\n",
        &[
            "a.ticket: refused by 8 (FF08)",
            "  A card number is not below the number of cards.",
            "  Place:    line 2, bytes 1 to 2; offsets 15 to 16 from the start of the file",
            "  Found:    31 hex, which is 49",
            "  Expected: a card: 00 to 1F hex, which is 0 to 31; the header says 32 cards",
            "  Hint:     Numbers are hexadecimal. If 31 was meant as a decimal number, write 1F.",
        ],
    );
}

/// In edition 02 the card is the first 2 digits of the line. Its second may be too low as well: the card comes first.
#[test]
fn refusal_8_with_seconds() {
    refused(
        "02000200020002\n0000000E10\n0200000E0F\n",
        &[
            "a.ticket: refused by 8 (FF08)",
            "  A card number is not below the number of cards.",
            "  Place:    line 3, bytes 1 to 2; offsets 26 to 27 from the start of the file",
            "  Found:    02 hex, which is 2",
            "  Expected: a card: 00 to 01 hex, which is 0 to 1; the header says 2 cards",
            "  Hint:     Cards are counted from 0, so the highest card is 1.",
        ],
    );
}

#[test]
fn refusal_17() {
    refused(
        "02000200020003\n0000000E10\n0000000E11\n0100000e10\n",
        &[
            "a.ticket: refused by 17 (FF11)",
            "  A capture second is lower than that of the line before.",
            "  Place:    line 4, bytes 3 to 10; offsets 39 to 46 from the start of the file",
            "  Found:    00000e10 hex, which is 3600",
            "  Expected: a second not lower than that of the line before: 00000E11 hex, which is 3601",
            "  Hint:     The frames are not in the order in which they were captured, or two tickets were put together.",
        ],
    );
    refused(
        "02000200020003\n00FFFFFFFF\n0000000000\n0100000000\n",
        &[
            "a.ticket: refused by 17 (FF11)",
            "  A capture second is lower than that of the line before.",
            "  Place:    line 3, bytes 3 to 10; offsets 28 to 35 from the start of the file",
            "  Found:    00000000 hex, which is 0",
            "  Expected: a second not lower than that of the line before: FFFFFFFF hex, which is 4294967295",
            "  Hint:     The frames are not in the order in which they were captured, or two tickets were put together.",
        ],
    );
}

/// Bytes after the last line: a blank line, or more lines than the header says.
#[test]
fn refusal_9() {
    let head = ["a.ticket: refused by 9 (FF09)", "  Bytes follow the last line."];
    let place = "  Place:    line 5, byte 1; offset 24 from the start of the file";
    let expected = "  Expected: the end of the text";
    for (after, found, hint) in [
        ("\n", "the end byte 0A", "The text has 1 blank line at its end."),
        (
            "\r\n\r\n",
            "carriage return 0D",
            "The text has 2 blank lines at its end.",
        ),
        (
            "00\n01",
            "'0'",
            "The text has 2 lines too many; the header says 3 frames (0003 hex).",
        ),
        (
            "x",
            "'x'",
            "The text has 1 line too many; the header says 3 frames (0003 hex).",
        ),
    ] {
        let found = format!("  Found:    {found}");
        let hint = format!("  Hint:     {hint}");
        refused(
            format!("{FIRST}{after}"),
            &[&head[..], &[place, &found, expected, &hint]].concat(),
        );
    }
}

/// The same for edition 02: its last line ends at another byte.
#[test]
fn refusal_9_with_seconds() {
    refused(
        format!("{SECONDS}0100000E12\n"),
        &[
            "a.ticket: refused by 9 (FF09)",
            "  Bytes follow the last line.",
            "  Place:    line 5, byte 1; offset 48 from the start of the file",
            "  Found:    '0'",
            "  Expected: the end of the text",
            "  Hint:     The text has 1 line too many; the header says 3 frames (0003 hex).",
        ],
    );
}
