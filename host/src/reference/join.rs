//! One showing from two tickets: "join two edition 02 read tickets into one, sorted by second".

use super::ticket::{Ticket, READ};

/// A frame, and where it comes from: the first ticket (0) or the second (1), and its position there.
struct Frame {
    second: u32,
    ticket: usize,
    position: usize,
    card: u8,
}

/// "Turned away: 18 where a ticket is not edition 02, is not a read, or cards or pool differ; then 19 for more than 4,096
/// frames together."
pub fn allowed(first: &Ticket, second: &Ticket) -> Result<(), u8> {
    let is_joined = |ticket: &Ticket| ticket.edition == 2 && ticket.mode == READ;
    if !is_joined(first) || !is_joined(second) || first.cards != second.cards || first.pool != second.pool {
        return Err(18);
    }
    if first.list.len() + second.list.len() > 4096 {
        return Err(19);
    }
    Ok(())
}

/// "The result is written as an upper-case edition 02 ticket": a read with the cards and the pool of both.
pub fn text(first: &Ticket, second: &Ticket) -> Vec<u8> {
    let frames = sorted(first, second);
    let Ticket { cards, pool, .. } = first;
    let mut text = format!("02{READ:02X}{cards:02X}{pool:04X}{:04X}\n", frames.len());
    for frame in frames {
        text += &format!("{:02X}{:08X}\n", frame.card, frame.second);
    }
    text.into_bytes()
}

/// "Sorted by second; for equal seconds the first ticket's frames go before the second's, and each ticket's own order is
/// kept."
fn sorted(first: &Ticket, second: &Ticket) -> Vec<Frame> {
    let mut frames = Vec::new();
    for (ticket, read) in [first, second].into_iter().enumerate() {
        for (position, (&card, &second)) in read.list.iter().zip(&read.seconds).enumerate() {
            frames.push(Frame {
                second,
                ticket,
                position,
                card,
            });
        }
    }
    frames.sort_by_key(|frame| (frame.second, frame.ticket, frame.position));
    frames
}
