//! Instructions, counted by valgrind: for the same program they are the same on every run and whatever else the machine
//! does. The program runs itself once more under valgrind, and there makes each call once within `counted_call`.

use crate::implementations::Implementation;
use crate::rows::Row;
use std::path::{Path, PathBuf};
use std::process::{Command, Stdio};
use std::{env, fs, process};

/// The argument that asks for the calls alone.
pub const ARGUMENT: &str = "counted-calls";

/// One call, between whose start and end valgrind counts.
#[no_mangle]
#[inline(never)]
pub extern "C" fn counted_call(row: &mut Row, implementation: &Implementation) {
    (row.make)(implementation, &mut row.work);
}

/// Every call once, in the order in which `count` reads the counts. A call before it settles what a first call alone does.
pub fn make_calls(rows: &mut [Row], implementations: &[&Implementation]) {
    for row in rows {
        for implementation in implementations {
            (row.make)(implementation, &mut row.work);
            counted_call(row, implementation);
        }
    }
}

/// A folder of its own for the counts, removed at the end.
struct Folder(PathBuf);

impl Folder {
    fn new() -> Option<Folder> {
        let folder = env::temp_dir().join(format!("dockplan-counts-{}", process::id()));
        fs::create_dir(&folder).ok()?;
        Some(Folder(folder))
    }
}

impl Drop for Folder {
    fn drop(&mut self) {
        let _ = fs::remove_dir_all(&self.0);
    }
}

fn run_valgrind(counts: &Path) -> Option<()> {
    let status = Command::new("valgrind")
        .args([
            "--tool=callgrind",
            "--toggle-collect=counted_call",
            "--dump-after=counted_call",
        ])
        .arg(format!("--callgrind-out-file={}", counts.display()))
        .arg(env::current_exe().ok()?)
        .arg(ARGUMENT)
        .stdout(Stdio::null())
        .stderr(Stdio::null())
        .status();
    status.ok()?.success().then_some(())
}

/// The count of the call with that number, from 1 on.
fn count_of(counts: &Path, call: usize) -> Option<u64> {
    let text = fs::read_to_string(format!("{}.{call}", counts.display())).ok()?;
    let totals = text.lines().find_map(|line| line.strip_prefix("totals: "))?;
    totals.trim().parse().ok()
}

/// For each row, the instructions of each implementation's call; none where valgrind did not run.
pub fn count(rows: usize, implementations: usize) -> Option<Vec<Vec<u64>>> {
    let folder = Folder::new()?;
    let counts = folder.0.join("call");
    run_valgrind(&counts)?;
    (0..rows)
        .map(|row| {
            let calls = 1 + row * implementations..1 + (row + 1) * implementations;
            calls.map(|call| count_of(&counts, call)).collect()
        })
        .collect()
}
