//! Measures the library against plain C and against the Rust reference, by time and by instructions, and prints one table.
//! First it compares their answers, and stops with a message where they differ.

mod alone;
mod compare;
mod hubs;
mod implementations;
mod inputs;
mod instructions;
mod measure;
mod pairs;
mod rows;
mod saver_calls;
mod savers;
mod table;

use implementations::{Implementation, C, LIBRARY, RUST};
use inputs::List;
use rows::Row;
use std::env;
use std::process::ExitCode;
use table::{Measures, Tally};

/// How many mixed tickets are compared, how many pairs of them, how many lists of a hub, and how many savers.
const MIXED_TICKETS: usize = 4000;
const MIXED_PAIRS: usize = 8000;
const MIXED_HUBS: usize = 20_000;
const MIXED_SAVERS: usize = 4000;

/// Those the library is compared with: each C compiler, then Rust.
fn others() -> Vec<&'static Implementation> {
    C.iter().chain([&RUST]).collect()
}

/// Those whose instructions are counted: the library, then each C compiler.
fn counted() -> Vec<&'static Implementation> {
    [&LIBRARY].into_iter().chain(C).collect()
}

fn compare_answers(lists: &[List], rows: &[Row]) -> Result<(), String> {
    let of_mode = |list: &List, mode| [list.ticket(mode), list.ticket_with_seconds(mode)];
    let of_list = |list: &List| rows::MODES.map(|mode| of_mode(list, mode)).concat();
    let tickets: Vec<Vec<u8>> = lists.iter().flat_map(of_list).collect();
    compare::compare_all(&LIBRARY, &others(), &tickets, MIXED_TICKETS)?;
    compare::compare_joins(&LIBRARY, &others(), MIXED_PAIRS)?;
    compare::compare_hubs(&LIBRARY, &others(), MIXED_HUBS)?;
    savers::compare_all(MIXED_SAVERS)?;
    for row in rows {
        compare::compare_check(&LIBRARY, &others(), &row.work.ticket, &row.work.checked)?;
        for pair in &row.work.pairs {
            compare::compare_join(&LIBRARY, &others(), pair)?;
        }
        for hub in &row.work.hubs {
            compare::compare_hub(&LIBRARY, &others(), hub)?;
        }
    }
    Ok(())
}

fn measure_row(row: &mut Row, counts: Option<&Vec<u64>>) -> Measures {
    let implementations: Vec<&Implementation> = [&LIBRARY].into_iter().chain(others()).collect();
    let frames = row.work.frames as f64;
    let times = measure::measure(implementations.len(), |number| {
        (row.make)(implementations[number], &mut row.work)
    });
    Measures {
        nanoseconds: (0..implementations.len())
            .map(|number| times.least(number) / frames)
            .collect(),
        instructions: counts.map(|counts| counts.iter().map(|&count| count as f64 / frames).collect()),
        ratios: (1..=C.len()).map(|other| times.ratio(0, other)).collect(),
    }
}

fn print_table(rows: &mut [Row]) -> Tally {
    let counts = instructions::count(rows.len(), counted().len());
    let mut tally = Tally::default();
    table::print_head(C, counts.is_some());
    for (number, row) in rows.iter_mut().enumerate() {
        let measures = measure_row(row, counts.as_ref().map(|counts| &counts[number]));
        table::print_row(row, &measures, &mut tally);
    }
    tally
}

fn main() -> ExitCode {
    let lists = inputs::lists();
    let mut rows = rows::rows(&lists);
    if env::args().nth(1).is_some_and(|word| word == instructions::ARGUMENT) {
        instructions::make_calls(&mut rows, &counted());
        return ExitCode::SUCCESS;
    }
    if let Err(message) = compare_answers(&lists, &rows) {
        eprintln!("{message}");
        return ExitCode::FAILURE;
    }
    let tally = print_table(&mut rows);
    savers::print_table();
    alone::print_table(&lists[0]);
    table::print_tally(&tally);
    ExitCode::SUCCESS
}
