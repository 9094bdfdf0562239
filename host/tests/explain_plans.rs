//! What `explain` says of plan files, word for word: every verdict, plans that do not fit their ticket, files that are
//! no printed plan, save and keep, and the line of a refusal. The expected texts are written by hand.

use dockplan::explain::{explain, File};

const FIRST: &str = "01000200020003\n00\n00\n01\n";
const SAVE: &str = "01010300030004\n00\n01\n02\n00\n";
const KEEP: &str = "01020200020004\n00\n00\n00\n01\n";

fn file(name: &str, bytes: &[u8]) -> File {
    File {
        name: name.to_string(),
        bytes: bytes.to_vec(),
    }
}

/// What is said of a plan file beside a ticket, after what is said of the ticket alone.
fn plan_says(ticket: &str, plan: impl AsRef<[u8]>, good: bool, expected: &[&str]) {
    let ticket = file("a.ticket", ticket.as_bytes());
    let alone = explain(&ticket, None);
    let report = explain(&ticket, Some(&file("a.plan", plan.as_ref())));
    let of_plan = report.text.strip_prefix(&alone.text).unwrap_or_default();
    assert_eq!(of_plan.lines().collect::<Vec<_>>(), expected);
    assert_eq!(report.good, good);
}

fn valid(ticket: &str, plan: &str, expected: &[&str]) {
    plan_says(ticket, plan, true, &[&["a.plan: valid"], expected].concat());
}

fn at_fault(ticket: &str, plan: impl AsRef<[u8]>, expected: &[&str]) {
    plan_says(ticket, plan, false, &[&["a.plan: at fault"], expected].concat());
}

/// Valid plans, as short as can be and longer. A read needs as many buffers as it has frames held at once; a save has no peak.
#[test]
fn valid_plans() {
    valid(
        FIRST,
        "0002\n0000000001\n0001000002\n0002010001\n",
        &[
            "  It has 2 cycles, and no plan has fewer.",
            "  It needs 2 buffers. That is its peak, the most frames held right after the reads of a cycle.",
        ],
    );
    valid(
        FIRST,
        "0003\n0000000001\n0001000003\n0002010003\n",
        &[
            "  It has 3 cycles. The shortest plan has 2.",
            "  It needs 2 buffers. That is its peak, the most frames held right after the reads of a cycle.",
        ],
    );
    valid(
        FIRST,
        "0003\n0000000001\n0001000002\n0002010003\n",
        &[
            "  It has 3 cycles. The shortest plan has 2.",
            "  It needs 1 buffer. That is its peak, the most frames held right after the reads of a cycle.",
        ],
    );
    valid(
        "01000200020000\n",
        "0000\n",
        &[
            "  It has 0 cycles, and no plan has fewer.",
            "  It needs 0 buffers. That is its peak, the most frames held right after the reads of a cycle.",
        ],
    );
    valid(
        SAVE,
        "0002\n0000000001\n0001010001\n0002020001\n0003000002\n",
        &["  It has 2 cycles, and no plan has fewer."],
    );
}

/// A plan that was typed in lower case has the same numbers.
#[test]
fn either_case() {
    valid(
        "01000c00020003\n0b\n0B\n0a\n",
        "0002\n00000b0001\n00010B0002\n00020a0002\n",
        &[
            "  It has 2 cycles, and no plan has fewer.",
            "  It needs 2 buffers. That is its peak, the most frames held right after the reads of a cycle.",
        ],
    );
}

/// A ticket of edition 02: the plan has no seconds, and its cards are compared with the first digits of each line.
#[test]
fn beside_seconds() {
    let ticket = "02000200020003\n0000000E10\n0000000E10\n0100000E11\n";
    valid(
        ticket,
        "0002\n0000000001\n0001000002\n0002010002\n",
        &[
            "  It has 2 cycles, and no plan has fewer.",
            "  It needs 2 buffers. That is its peak, the most frames held right after the reads of a cycle.",
        ],
    );
    at_fault(
        ticket,
        "0002\n0000000001\n0001010002\n0002010002\n",
        &["  Line 3 has card 1. The ticket has card 0 at position 1."],
    );
    plan_says(
        "02000200020002\n0000000E11\n0000000E10\n",
        "FF11\n",
        false,
        &["a.plan: says the same refusal, FF11"],
    );
}

/// The three faults that the checker names.
#[test]
fn verdicts() {
    at_fault(
        FIRST,
        "0002\n0000000001\n0001000000\n0002010002\n",
        &[
            "  The lowest position at fault is 1.",
            "  Line 3: position 1, card 0, cycle 0.",
            "  Its cycle is 0. Cycles are counted from 1.",
        ],
    );
    at_fault(
        FIRST,
        "0002\n0000000001\n0001000001\n0002010002\n",
        &[
            "  The lowest position at fault is 1.",
            "  Line 3: position 1, card 0, cycle 1.",
            "  An earlier frame of this card has the same cycle: position 0, line 2.",
        ],
    );
    at_fault(
        FIRST,
        "0002\n0000000002\n0001000001\n0002010002\n",
        &[
            "  The lowest position at fault is 0.",
            "  Line 2: position 0, card 0, cycle 2.",
            "  Too many frames in the pool: 2 later frames have cycle 2 or earlier; 2 buffers allow at most 1.",
        ],
    );
    at_fault(
        "01010200010002\n00\n01\n",
        "0001\n0000000001\n0001010001\n",
        &[
            "  The lowest position at fault is 1.",
            "  Line 3: position 1, card 1, cycle 1.",
            "  Too many frames in the pool: 1 earlier frame has cycle 1 or later; 1 buffer allows at most 0.",
        ],
    );
}

/// A printed plan of another ticket, or with a wrong first line.
#[test]
fn plans_that_do_not_fit() {
    at_fault(
        FIRST,
        "0002\n0000000001\n0002010002\n",
        &[
            "  Line 3 has position 2. It must have position 1.",
            "  Positions are counted from 0, one on each line.",
        ],
    );
    at_fault(
        FIRST,
        "0002\n0000000001\n0001010002\n0002010002\n",
        &["  Line 3 has card 1. The ticket has card 0 at position 1."],
    );
    at_fault(
        FIRST,
        "0002\n0000000001\n0001000002\n",
        &["  It has 2 frame lines. The ticket has 3 frames."],
    );
    at_fault(
        FIRST,
        "0002\n0000000001\n0001000002\n0002010002\n0003010003\n",
        &["  It has 4 frame lines. The ticket has 3 frames."],
    );
    at_fault(
        FIRST,
        "0003\n0000000001\n0001000002\n0002010002\n",
        &["  Line 1 says T = 3. The plan has 2 cycles."],
    );
}

/// Files that are no printed plan: where they go wrong.
#[test]
fn no_printed_plans() {
    at_fault(
        FIRST,
        "0002\r\n0000000001\r\n",
        &[
            "  It is not a printed plan.",
            "  Place:    line 1, byte 5; offset 4 from the start of the file",
            "  Found:    carriage return 0D",
            "  Expected: the end byte 0A",
            "  Hint:     The line ends in CR LF (0D 0A). Each line must end in the end byte 0A alone.",
        ],
    );
    at_fault(
        FIRST,
        "0002\n0000000001\n0001 000002\n",
        &[
            "  It is not a printed plan.",
            "  Place:    line 3, byte 5; offset 20 from the start of the file",
            "  Found:    space 20",
            "  Expected: a digit, 0 to 9, A to F or a to f",
        ],
    );
    at_fault(
        FIRST,
        "0002\n0000000001\n0001000002\n0002010002",
        &[
            "  It is not a printed plan.",
            "  Place:    line 4, byte 11; offset 37 from the start of the file",
            "  Found:    the text ends here",
            "  Expected: the end byte 0A",
            "  Hint:     The last line has no end byte. Some editors leave it out.",
        ],
    );
    at_fault(
        FIRST,
        "",
        &[
            "  It is not a printed plan.",
            "  Place:    line 1, byte 1; offset 0 from the start of the file",
            "  Found:    the text ends here",
            "  Expected: a digit, 0 to 9, A to F or a to f",
            "  Hint:     The file is empty.",
        ],
    );
}

/// Save and keep, which the checker refuses by 12: the library's own text is valid, and no other.
#[test]
fn save_and_keep() {
    let not_taken = "  The checker does not take save and keep (refusal 12).";
    valid(
        KEEP,
        "0002\n0000000001\n0001000002\n0002000000\n0003010000\n",
        &[
            not_taken,
            "  The file says exactly what the library prints for this ticket.",
        ],
    );
    at_fault(
        KEEP,
        "0003\n0000000001\n0001000002\n0002000003\n0003010003\n",
        &[
            not_taken,
            "  The file does not say what the library prints for this ticket.",
            "  Line 1 is 0003. The library prints 0002.",
        ],
    );
    at_fault(
        KEEP,
        "0002\n0000000001\n0001000002\n0002000000\n0003010002\n",
        &[
            not_taken,
            "  The file does not say what the library prints for this ticket.",
            "  Line 5 is 0003010002. The library prints 0003010000.",
        ],
    );
}

/// The line of a refusal beside an accepted ticket is at fault; beside a refused one it is compared.
#[test]
fn lines_of_refusals() {
    at_fault(
        FIRST,
        "FF05\n",
        &[
            "  It says that the ticket is refused by 5 (FF05).",
            "  The library accepts the ticket.",
        ],
    );
    let pool_of_0 = "01000200000000\n";
    for line in ["FF05\n", "ff05\n", "fF05\n"] {
        plan_says(pool_of_0, line, false, &["a.plan: says the same refusal, FF05"]);
    }
    plan_says(
        pool_of_0,
        "FF07\n",
        false,
        &["a.plan: says another refusal, FF07; FF05 is right"],
    );
    plan_says(
        pool_of_0,
        "0000\n",
        false,
        &["a.plan: does not say the refusal; FF05 is right"],
    );
    plan_says(
        pool_of_0,
        "FF05",
        false,
        &["a.plan: does not say the refusal; FF05 is right"],
    );
}

/// A ticket that was filed with a pool of 1,024: the plan that was made for it then, and the line of its refusal now.
#[test]
fn beside_a_filed_ticket() {
    let filed = "01000204000003\n00\n00\n01\n";
    plan_says(
        filed,
        "0002\n0000000001\n0001000002\n0002010002\n",
        false,
        &["a.plan: does not say the refusal; FF05 is right"],
    );
    plan_says(filed, "FF05\n", false, &["a.plan: says the same refusal, FF05"]);
}
