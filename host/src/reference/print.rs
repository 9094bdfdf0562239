//! The text of the printing program. "Printed digits are upper-case hexadecimal, and each line ends in byte 0A hex."

use super::schedule::Schedule;

/// "T in 4 digits; then for each frame position (4), card (2), cycle (4)."
pub fn plan(list: &[u8], schedule: &Schedule) -> Vec<u8> {
    let mut text = format!("{:04X}\n", schedule.length);
    for (position, (card, cycle)) in list.iter().zip(&schedule.cycles).enumerate() {
        text += &format!("{position:04X}{card:02X}{cycle:04X}\n");
    }
    text.into_bytes()
}

/// "A refusal prints one line, FF and its number in 2 digits."
pub fn refusal(number: u8) -> Vec<u8> {
    format!("FF{number:02X}\n").into_bytes()
}
