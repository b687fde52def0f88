//! The programs `listing`, `bench`, `run`, `replay` and `twin` on the reference model.

use std::fs;
use std::io::{self, Read, Write};
use std::process::ExitCode;

use reference::{bench, listing, script, twin};

const USAGE: &str =
    "reference listing | bench | run [FILE] | replay FITTINGS CAPTURE | twin FITTINGS CAPTURE [--other CAPTURE]";

fn main() -> ExitCode {
    let arguments: Vec<String> = std::env::args().skip(1).collect();
    let words: Vec<&str> = arguments.iter().map(String::as_str).collect();
    match perform(&words) {
        Ok(true) => ExitCode::SUCCESS,
        Ok(false) => ExitCode::FAILURE,
        Err(message) => {
            eprintln!("reference: {message}");
            ExitCode::FAILURE
        }
    }
}

/// Answers whether all went well; an error is told besides.
fn perform(words: &[&str]) -> Result<bool, String> {
    match *words {
        ["listing"] => print(&listing::lines(&standard_input()?))?,
        ["bench"] => print(&bench::lines(&standard_input()?))?,
        ["run"] => return run(&standard_input()?),
        ["run", file] => return run(&contents(file)?),
        ["replay", fittings, capture] => return replay(fittings, capture),
        ["twin", fittings, capture] => return compare(fittings, capture, None),
        ["twin", fittings, capture, "--other", other] => return compare(fittings, capture, Some(other)),
        _ => return Err(USAGE.to_string()),
    }
    Ok(true)
}

fn run(text: &[u8]) -> Result<bool, String> {
    let performance = script::run(&String::from_utf8_lossy(text));
    print(&performance.lines)?;
    match performance.bad_line {
        None => Ok(true),
        Some(number) => Err(format!("line {number}: bad line")),
    }
}

fn replay(fittings: &str, capture: &str) -> Result<bool, String> {
    let fittings = contents(fittings)?;
    print(&twin::replay(&String::from_utf8_lossy(&fittings), &contents(capture)?)?)?;
    Ok(true)
}

fn compare(fittings: &str, capture: &str, other: Option<&str>) -> Result<bool, String> {
    let fittings = contents(fittings)?;
    let capture = contents(capture)?;
    let other = other.map(contents).transpose()?;
    let outcome = twin::run(&String::from_utf8_lossy(&fittings), &capture, other.as_deref())?;
    print(&outcome.lines)?;
    Ok(outcome.success)
}

fn print(lines: &[String]) -> Result<(), String> {
    let mut text = lines.join("\n");
    if !lines.is_empty() {
        text.push('\n');
    }
    io::stdout().write_all(text.as_bytes()).map_err(|error| error.to_string())
}

fn contents(file: &str) -> Result<Vec<u8>, String> {
    fs::read(file).map_err(|error| format!("{file}: {error}"))
}

fn standard_input() -> Result<Vec<u8>, String> {
    let mut bytes = Vec::new();
    io::stdin().read_to_end(&mut bytes).map_err(|error| error.to_string())?;
    Ok(bytes)
}
