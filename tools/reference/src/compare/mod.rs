//! Compares programs with the reference on made-up input.

pub mod captures;
pub mod coverage;
pub mod packets;
pub mod program;
pub mod published;
pub mod random;
pub mod scripts;
pub mod sets;
pub mod shrink;

use std::path::PathBuf;

/// What to compare, and how much of it.
pub struct Plan {
    pub programs: PathBuf,
    pub blocks: usize,
    pub scripts: usize,
    pub captures: usize,
    /// Off unless asked for.
    pub listings: usize,
    pub seed: u64,
}

/// What came of one set.
pub struct Report {
    pub name: &'static str,
    pub compared: usize,
    pub differ: usize,
    /// Why the set failed apart from differences.
    pub trouble: Option<String>,
}

impl Report {
    pub fn passed(&self) -> bool {
        self.differ == 0 && self.trouble.is_none()
    }
}

/// Compares all sets, telling differences as they are found.
pub fn run(plan: &Plan) -> Vec<Report> {
    let mut reports = vec![sets::blocks(plan), sets::scripts(plan), sets::captures(plan), sets::published(plan)];
    if plan.listings > 0 {
        reports.push(sets::listings(plan));
    }
    reports
}
