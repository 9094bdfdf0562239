//! The command `explain TICKET [PLAN]`: reads the files, prints what is said of them, and ends with 0 (ticket accepted,
//! plan valid), 1 (ticket refused or plan at fault) or 2 (a file cannot be read, or wrong usage).

use dockplan::explain::{explain, File, Report};
use std::env;
use std::ffi::OsString;
use std::io::{self, Write};
use std::path::{Path, PathBuf};
use std::process::ExitCode;

const USAGE: &str = "usage: explain TICKET [PLAN]
Without PLAN, a file beside NAME.ticket that is called NAME.plan is the plan.";

fn main() -> ExitCode {
    let arguments: Vec<OsString> = env::args_os().skip(1).collect();
    let printed = report(&arguments).and_then(|report| {
        let written = io::stdout().write_all(report.text.as_bytes());
        written.map_err(|error| format!("explain: {error}"))?;
        Ok(report.good)
    });
    match printed {
        Ok(true) => ExitCode::SUCCESS,
        Ok(false) => ExitCode::from(1),
        Err(message) => {
            // Where standard error cannot be written either, the status alone says it.
            _ = writeln!(io::stderr(), "{message}");
            ExitCode::from(2)
        }
    }
}

fn report(arguments: &[OsString]) -> Result<Report, String> {
    let (ticket, plan) = match arguments {
        [ticket] => (PathBuf::from(ticket), plan_beside(Path::new(ticket))),
        [ticket, plan] => (PathBuf::from(ticket), Some(PathBuf::from(plan))),
        _ => return Err(USAGE.to_string()),
    };
    let ticket = read(&ticket)?;
    let plan = plan.as_deref().map(read).transpose()?;
    Ok(explain(&ticket, plan.as_ref()))
}

/// The file NAME.plan beside NAME.ticket, if it is there.
fn plan_beside(ticket: &Path) -> Option<PathBuf> {
    let is_ticket = ticket.extension().is_some_and(|extension| extension == "ticket");
    let plan = ticket.with_extension("plan");
    (is_ticket && plan.is_file()).then_some(plan)
}

fn read(path: &Path) -> Result<File, String> {
    let name = path.display().to_string();
    match std::fs::read(path) {
        Ok(bytes) => Ok(File { name, bytes }),
        Err(error) => Err(format!("explain: {name}: {error}")),
    }
}
