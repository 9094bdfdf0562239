//! Says in plain words what a ticket asks for or why it is refused, and whether a plan file beside it is valid.
//! Every number of a refusal and every verdict is the library's. The command is main.rs.

mod accepted;
mod digits;
mod fits;
mod hints;
mod keep;
pub mod place;
mod plan;
mod printed;
mod refused;
mod shown;
mod verdict;

use crate::{Refusal, Ticket};

const READ: u8 = 0;
const SAVE: u8 = 1;
const SAVE_AND_KEEP: u8 = 2;

/// What is said of a plan file, as an error where it is at fault.
type Said = Result<Vec<String>, Vec<String>>;

/// A file: the name by which it is called in the text, and its content.
pub struct File {
    pub name: String,
    pub bytes: Vec<u8>,
}

/// What the command says. It is good where the ticket is accepted and a plan, if there is one, is valid.
pub struct Report {
    pub text: String,
    pub good: bool,
}

/// Explains a ticket, and a plan file if there is one.
pub fn explain(ticket: &File, plan: Option<&File>) -> Report {
    match crate::parse(&ticket.bytes) {
        Ok(read) => explain_accepted(ticket, &read, plan),
        Err(Refusal(number)) => explain_refused(ticket, number, plan),
    }
}

fn explain_accepted(ticket: &File, read: &Ticket, plan: Option<&File>) -> Report {
    let text = section(&ticket.name, "accepted", &accepted::lines(&ticket.bytes, read));
    let Some(plan) = plan else {
        return Report { text, good: true };
    };
    let (good, of_plan) = match plan::judge(&ticket.bytes, read, &plan.bytes) {
        Ok(lines) => (true, section(&plan.name, "valid", &lines)),
        Err(lines) => (false, section(&plan.name, "at fault", &lines)),
    };
    Report {
        text: text + &of_plan,
        good,
    }
}

fn explain_refused(ticket: &File, number: u8, plan: Option<&File>) -> Report {
    let answer = format!("refused by {number} ({})", refused::printed(number));
    let mut text = section(&ticket.name, &answer, &refused::lines(&ticket.bytes, number));
    if let Some(plan) = plan {
        text += &section(&plan.name, &plan::beside_refused(&plan.bytes, number), &[]);
    }
    Report { text, good: false }
}

/// A file's name with the answer in short, and lines below it.
fn section(name: &str, answer: &str, lines: &[String]) -> String {
    let mut text = format!("{name}: {answer}\n");
    for line in lines {
        text += &format!("  {line}\n");
    }
    text
}
