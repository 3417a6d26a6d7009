//! Writes the Rust's answers as text on standard output. See README.md.

extern crate jxl_bitstream; // found in the folder that build.rs tells of

mod box_files;
mod boxes;
mod end;
mod field_cases;
mod fields;
mod listing;
mod rng;
mod unpack;

use std::io::Write;
use std::process::ExitCode;

const USAGE: &str = "usage: oracle unpack | fields | boxes | listing FILE.. | end FILE..";

fn main() -> ExitCode {
    let args: Vec<String> = std::env::args().skip(1).collect();
    let args: Vec<&str> = args.iter().map(String::as_str).collect();
    let answer = match args[..] {
        ["unpack"] => Ok(unpack::list()),
        ["fields"] => Ok(field_cases::list()),
        ["boxes"] => Ok(boxes::list()),
        ["listing", ref files @ ..] if !files.is_empty() => listing::of_files(files),
        ["end", ref files @ ..] if !files.is_empty() => ends(files),
        _ => Err(USAGE.to_string()),
    };
    match answer {
        Ok(text) => print(&text),
        Err(message) => complain(&message),
    }
}

/// What the judge says of the end of each file, a line each.
fn ends(names: &[&str]) -> Result<String, String> {
    let mut out = String::new();
    for name in names {
        let file = std::fs::read(name).map_err(|e| format!("{name}: {e}"))?;
        out += &format!("{}\n", end::of_file(&file));
    }
    Ok(out)
}

/// Writes the whole answer at once.
fn print(text: &str) -> ExitCode {
    match std::io::stdout().write_all(text.as_bytes()) {
        Ok(()) => ExitCode::SUCCESS,
        Err(e) => complain(&e.to_string()),
    }
}

/// Says what is wrong on standard error.
fn complain(message: &str) -> ExitCode {
    eprintln!("{message}");
    ExitCode::FAILURE
}
