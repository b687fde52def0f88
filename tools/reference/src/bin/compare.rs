//! Compares the programs in a directory with the reference.

use std::path::PathBuf;
use std::process::ExitCode;

use reference::compare::{run, Plan};

const USAGE: &str = "compare BIN_DIR [--blocks N] [--scripts N] [--captures N] [--listings N] [--seed S]";

fn main() -> ExitCode {
    let Some(plan) = plan(std::env::args().skip(1)) else {
        eprintln!("{USAGE}");
        return ExitCode::FAILURE;
    };
    let reports = run(&plan);
    for report in &reports {
        if let Some(trouble) = &report.trouble {
            println!("{}: {trouble}", report.name);
        }
    }
    for report in &reports {
        println!("reference {}: {} compared, {} differ", report.name, report.compared, report.differ);
    }
    let passed = reports.iter().filter(|report| report.passed()).count();
    println!("{passed} passed, {} failed", reports.len() - passed);
    if passed == reports.len() {
        ExitCode::SUCCESS
    } else {
        ExitCode::FAILURE
    }
}

fn plan(mut arguments: impl Iterator<Item = String>) -> Option<Plan> {
    let programs = PathBuf::from(arguments.next().filter(|word| !word.starts_with("--"))?);
    let mut plan = Plan { programs, blocks: 5000, scripts: 1000, captures: 100, listings: 0, seed: 20_260_101 };
    while let Some(option) = arguments.next() {
        let number: u64 = arguments.next()?.parse().ok()?;
        match option.as_str() {
            "--blocks" => plan.blocks = number as usize,
            "--scripts" => plan.scripts = number as usize,
            "--captures" => plan.captures = number as usize,
            "--listings" => plan.listings = number as usize,
            "--seed" => plan.seed = number,
            _ => return None,
        }
    }
    Some(plan)
}
