//! A save and keep plan. The checker refuses this mode by 12, so the file is compared with what the library prints.
//! Only that text counts as valid, its digits in either case.

use super::digits::END;
use super::{printed, Said};
use crate::Ticket;

/// Compares the text of a plan file, whose lines fit the ticket, with the library's own.
pub fn compare(ticket: &[u8], read: &Ticket, text: &[u8]) -> Said {
    let mut lines = vec!["The checker does not take save and keep (refusal 12).".to_string()];
    let mut own = vec![0; printed::length(read.frames.into())];
    let bytes = crate::print(ticket, &mut own);
    let own = own.get(..bytes).unwrap_or_default();
    if text.eq_ignore_ascii_case(own) {
        lines.push("The file says exactly what the library prints for this ticket.".to_string());
        return Ok(lines);
    }
    lines.push("The file does not say what the library prints for this ticket.".to_string());
    lines.extend(first_difference(text, own));
    Err(lines)
}

/// The first line that differs. Both texts are lines of digits.
fn first_difference(text: &[u8], own: &[u8]) -> Option<String> {
    let is_end = |byte: &u8| *byte == END;
    let mut lines = text.split(is_end).zip(own.split(is_end)).zip(1..);
    let ((found, expected), line) = lines.find(|((found, expected), _)| !found.eq_ignore_ascii_case(expected))?;
    let (found, expected) = (String::from_utf8_lossy(found), String::from_utf8_lossy(expected));
    Some(format!("Line {line} is {found}. The library prints {expected}."))
}
