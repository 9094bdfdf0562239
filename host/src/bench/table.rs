//! The printed table: the lines above it, which say what was measured and how, its rows, and the line that closes it.

use crate::implementations::Implementation;
use crate::measure::{Ratio, QUIET, TURNS};
use crate::rows::Row;
use std::fs::read_to_string;
use std::process::Command;

/// What was measured of a row: for the library, each C compiler and Rust the nanoseconds a frame, for the library and each
/// C compiler the instructions a frame, and the library's time over that of each C compiler.
pub struct Measures {
    pub nanoseconds: Vec<f64>,
    pub instructions: Option<Vec<f64>>,
    pub ratios: Vec<Ratio>,
}

/// Whether a measure is within its target; unknown where it was not taken, or not on a quiet machine.
#[derive(Clone, Copy, PartialEq)]
enum Judged {
    Met,
    Missed,
    Unknown,
}

/// The ratio to the C compiler that was faster: the larger one.
pub fn better(ratios: &[Ratio]) -> Ratio {
    let larger = |a: Ratio, b: &Ratio| if b.median > a.median { *b } else { a };
    ratios[1..].iter().fold(ratios[0], larger)
}

impl Measures {
    fn time(&self) -> Ratio {
        better(&self.ratios)
    }

    /// The library's instructions over those of the C compiler that needs fewer.
    fn instructions(&self) -> Option<f64> {
        let counts = self.instructions.as_ref()?;
        Some(counts[0] / counts[1..].iter().copied().fold(f64::INFINITY, f64::min))
    }

    fn judge_time(&self, target: f64) -> Judged {
        match self.time() {
            Ratio { quiet: false, .. } => Judged::Unknown,
            Ratio { median, .. } => judge(median, target),
        }
    }

    fn judge_instructions(&self, target: f64) -> Judged {
        self.instructions()
            .map_or(Judged::Unknown, |ratio| judge(ratio, target))
    }
}

fn judge(ratio: f64, target: f64) -> Judged {
    if ratio <= target {
        Judged::Met
    } else {
        Judged::Missed
    }
}

/// How many rows met their target, by time and by instructions.
#[derive(Default)]
pub struct Tally {
    time: Count,
    instructions: Count,
}

#[derive(Default)]
struct Count {
    met: usize,
    missed: usize,
    not_judged: usize,
}

impl Count {
    fn add(&mut self, judged: Judged) {
        match judged {
            Judged::Met => self.met += 1,
            Judged::Missed => self.missed += 1,
            Judged::Unknown => self.not_judged += 1,
        }
    }

    fn words(&self) -> String {
        let [met, missed, not_judged] = [self.met, self.missed, self.not_judged];
        format!("{met} met it, {missed} missed it, {not_judged} not judged")
    }
}

/// The first line of what a command prints, or "unknown".
fn first_line(command: &str) -> String {
    let output = Command::new(command).arg("--version").output();
    let text = output
        .map(|output| String::from_utf8_lossy(&output.stdout).into_owned())
        .unwrap_or_default();
    text.lines().next().unwrap_or("unknown").into()
}

fn machine() -> String {
    let text = read_to_string("/proc/cpuinfo").unwrap_or_default();
    let model = text.lines().find(|line| line.starts_with("model name"));
    model
        .and_then(|line| line.split(": ").nth(1))
        .unwrap_or("unknown")
        .into()
}

/// A line of the table from its cells.
fn print_cells(call: &str, given: &str, numbers: impl Iterator<Item = String>, target: &str) {
    let numbers: String = numbers.map(|number| format!("{number:>9}")).collect();
    println!("{call:<9}{given:<51}{numbers}  {target}");
}

pub fn print_head(c: &[Implementation], counted: bool) {
    let compilers: Vec<String> = c.iter().map(|implementation| first_line(implementation.name)).collect();
    println!("machine    {}", machine());
    println!("library    libdockplan.a, called as C calls it");
    println!("C          c/plain.c at -O3 by {}", compilers.join(" and by "));
    println!(
        "Rust-ref   src/reference by {}: simple and not tuned, its checker and its hub count by the rule",
        first_line("rustc")
    );
    println!("given      4,096 frames over 32 cards, and the kind of ticket, of edition 01 where none is named; the checker also a plan:");
    println!("           own plan: the planner's for this ticket, which is valid");
    println!("           falling: one frame a cycle, falling in blocks of 192, valid; or with a last block of 256, overfull late; or with");
    println!("           each cycle 15 times as large, up to 61,440");
    println!("           falling throughout or from the middle: one frame a cycle in one falling block, from the start of the list or from");
    println!("           its middle on, so that the pool is overfull from there on (a save: 192 frames later)");
    println!("           own, shared or overfull at the end: the planner's with one fault, at the last frame (a read is overfull at the last");
    println!("           one that can be, 192 before it)");
    println!("           own, 5,000 cycles later: the planner's with 5,000 added to each cycle, valid and over 4,096");
    println!("           joining is given two tickets of edition 02 between which the frames, one in each second, are dealt: each to any of");
    println!("           the two, in 64 pairs of which each call has the next one; the first 2,048 and the others; or by 64 in turns");
    println!("           a hub is given no ticket but the camera of each of 4,096 frames: one, or six, which take turns, are at random in 64");
    println!("           lists of which each call has the next one, or have runs of 100 frames each");
    println!("ns         nanoseconds a frame, of all 4,096 also where the check ends early: the least of {TURNS} runs of 0.25 ms, all taken in");
    println!("           turns; buffers are not cleared between calls");
    println!(
        "in         instructions a frame, {}",
        if counted {
            "counted by valgrind in one call"
        } else {
            "not counted: valgrind did not run"
        }
    );
    println!("lib/C      the library's over the better C's. Time is the median of the turns, and ~ says that the machine was not quiet: the");
    println!("           middle half of the turns spread over more than {QUIET:.2} of it, and the time is not judged");
    println!();
    let names: Vec<&str> = c.iter().map(|implementation| implementation.name).collect();
    let measured = |unit| {
        let own = ["library"].into_iter().chain(names.iter().copied());
        own.map(move |name| format!("{name} {unit}")).map(short)
    };
    let columns = measured("ns")
        .chain(["Rust ns".into()])
        .chain(measured("in"))
        .chain(["time".into(), "in".into()]);
    print_cells("call", "given", columns, "target");
}

/// "library" is "lib" in the head of a column.
fn short(name: String) -> String {
    name.replace("library", "lib")
}

fn words(target: f64, time: Judged, instructions: Judged) -> String {
    let missed = match (time == Judged::Missed, instructions == Judged::Missed) {
        (false, false) => return format!("{target:.2}"),
        (true, false) => "time",
        (false, true) => "instructions",
        (true, true) => "both",
    };
    format!("{target:.2}: {missed} over")
}

pub fn print_row(row: &Row, measures: &Measures, tally: &mut Tally) {
    let number = |number: &f64| format!("{number:.2}");
    let time = measures.time();
    let mark = if time.quiet { "" } else { "~" };
    let instructions = match &measures.instructions {
        Some(counts) => counts.iter().map(number).collect(),
        None => vec!["-".to_string(); measures.ratios.len() + 1],
    };
    let ratios = [
        format!("{mark}{:.2}", time.median),
        measures.instructions().as_ref().map_or("-".into(), number),
    ];
    let cells = measures
        .nanoseconds
        .iter()
        .map(number)
        .chain(instructions)
        .chain(ratios);
    let judged = (measures.judge_time(row.target), measures.judge_instructions(row.target));
    tally.time.add(judged.0);
    tally.instructions.add(judged.1);
    print_cells(row.call, &row.given, cells, &words(row.target, judged.0, judged.1));
}

pub fn print_tally(tally: &Tally) {
    println!();
    println!("Rows and their target, on this machine and in this run:");
    println!("by time          {}", tally.time.words());
    println!("by instructions  {}", tally.instructions.words());
}
