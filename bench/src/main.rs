//! Times the proved library beside the Rust on the same bytes, both turn about, and prints a table.
//! bench [--check | --growth] [RUNS] [WORD]; see docs/SPEED.md.

extern crate jxl_bitstream; // found in the folder that build.rs tells of

mod bits;
mod boxes;
mod fields;
mod files;
mod proved;
mod rows;
mod timing;

use std::process::ExitCode;
use timing::Row;

/// How often each row is run when nothing is said.
const RUNS: u32 = 101;

/// Runs the rows and prints a line for each. Answers how many missed their bar.
fn print(rows: &mut [Row], runs: u32) -> usize {
    let all = timing::run(rows, runs);
    println!("| Row | Per | Proved | Rust | Ratio | Middle half | Bar |");
    println!("|---|---|---|---|---|---|---|");
    let mut missed = 0;
    for (row, times) in rows.iter().zip(all) {
        let bar = match row.bar {
            Some(bar) if times.ratio() > bar => {
                missed += 1;
                format!("{bar:.2} MISSED")
            }
            Some(bar) => format!("{bar:.2}"),
            None => "-".to_string(),
        };
        let (ratio, (low, high)) = (times.ratio(), times.quarters);
        println!(
            "| {} | {} | {:.2} ns | {:.2} ns | {ratio:.2} | {low:.2} to {high:.2} | {bar} |",
            row.name, row.unit, times.proved, times.rust
        );
    }
    missed
}

fn main() -> ExitCode {
    let (mut check, mut grow, mut runs, mut word) = (false, false, RUNS, String::new());
    for arg in std::env::args().skip(1) {
        match arg.as_str() {
            "--check" => check = true,
            "--growth" => grow = true,
            _ => match arg.parse() {
                Ok(number) => runs = number,
                Err(_) => word = arg,
            },
        }
    }
    rows::compare_lines();
    let mut rows = if grow { rows::growth() } else { rows::table() };
    rows.retain(|row| row.name.contains(&word));
    let missed = print(&mut rows, runs.max(1));
    if !grow {
        let bars = rows.iter().filter(|row| row.bar.is_some()).count();
        eprintln!("{missed} of {bars} bars missed");
    }
    if check && missed > 0 {
        ExitCode::FAILURE
    } else {
        ExitCode::SUCCESS
    }
}
