//! The sets: each makes its input, asks both sides, and shows the first difference made small.

use std::fs;
use std::path::PathBuf;

use super::captures::{self, Capture, Case};
use super::coverage::Coverage;
use super::packets::{self, Air};
use super::program::{Answer, Program};
use super::published::{self, Example};
use super::random::Random;
use super::scripts;
use super::shrink::{shrink, shrink_block, Budget};
use super::{Plan, Report};
use crate::script::{Call, Line};
use crate::{bench, listing, script, twin};

/// Runs a set: `case` answers whether the two sides agree, and shows the difference where they do not.
fn set(
    name: &'static str,
    count: usize,
    program: Result<Program, String>,
    case: &mut dyn FnMut(&Program, usize) -> bool,
) -> Report {
    let mut report = Report { name, compared: 0, differ: 0, trouble: None };
    match program {
        Err(trouble) => report.trouble = Some(trouble),
        Ok(program) => {
            for index in 0..count {
                report.compared += 1;
                if !case(&program, index) {
                    report.differ += 1;
                    break;
                }
            }
        }
    }
    report
}

/// A set that is large enough must bring about all that it should.
fn covered(mut report: Report, enough: usize, coverage: &Coverage) -> Report {
    println!("{} bring about: {coverage}\n", report.name);
    let missing = coverage.missing();
    if report.passed() && report.compared >= enough && !missing.is_empty() {
        report.trouble = Some(format!("never brought about: {}", missing.join(", ")));
    }
    report
}

/// Where an input comes from, for those who look for it again.
#[derive(Clone, Copy)]
struct Origin {
    set: &'static str,
    seed: u64,
    case: usize,
}

impl Origin {
    /// Shows a difference between a program and the reference.
    fn show(self, input: &str, program: &Answer, reference: &Answer) {
        self.show_against("reference", input, program, reference);
    }

    fn show_against(self, other: &str, input: &str, program: &Answer, expected: &Answer) {
        let told = |success| if success { "success" } else { "failure" };
        println!("difference in {}, seed {}, case {}", self.set, self.seed, self.case);
        println!("input:\n{}", input.trim_end());
        println!("program ({}):\n{}", told(program.success), program.output.trim_end());
        println!("{other} ({}):\n{}\n", told(expected.success), expected.output.trim_end());
    }
}

pub fn blocks(plan: &Plan) -> Report {
    block_set("blocks", "bench", plan, plan.blocks, bench::lines)
}

pub fn listings(plan: &Plan) -> Report {
    block_set("listings", "listing", plan, plan.listings, listing::lines)
}

/// What the reference makes of a block.
type Lines = fn(&[u8]) -> Vec<String>;

/// The sets whose input is one block.
fn block_set(name: &'static str, program: &str, plan: &Plan, count: usize, lines: Lines) -> Report {
    let mut coverage = Coverage::of_blocks();
    let report = set(name, count, Program::find(&plan.programs, program), &mut |program, case| {
        let mut random = Random::for_case(plan.seed, name, case);
        let block = packets::block(&mut random, &Air::of_bench(), 12);
        coverage.block(&block);
        block_agrees(Origin { set: name, seed: plan.seed, case }, program, lines, &block)
    });
    covered(report, 1000, &coverage)
}

/// Whether a program says of a block what the reference says; else the difference is shown.
fn block_agrees(origin: Origin, program: &Program, lines: Lines, block: &[u8]) -> bool {
    let expected = |block: &[u8]| Answer::of(&lines(block), true);
    let mut differs = |block: &[u8]| program.run(&[], block) != expected(block);
    if !differs(block) {
        return true;
    }
    let block = shrink_block(block, &mut Budget::new(), &mut differs);
    origin.show(&script::hex(&block), &program.run(&[], &block), &expected(&block));
    false
}

fn script_text(lines: &[String]) -> String {
    lines.iter().map(|line| format!("{line}\n")).collect()
}

fn script_answer(text: &str) -> Answer {
    let performance = script::run(text);
    Answer::of(&performance.lines, performance.bad_line.is_none())
}

pub fn scripts(plan: &Plan) -> Report {
    let mut coverage = Coverage::of_scripts();
    let report = set("scripts", plan.scripts, Program::find(&plan.programs, "rig"), &mut |rig, case| {
        let mut random = Random::for_case(plan.seed, "scripts", case);
        let lines = scripts::script(&mut random);
        coverage.script(&lines, &script_answer(&script_text(&lines)).output);
        script_agrees(Origin { set: "scripts", seed: plan.seed, case }, rig, lines)
    });
    covered(report, 200, &coverage)
}

/// Whether `rig` answers a script as the reference does; else the difference is shown.
fn script_agrees(origin: Origin, rig: &Program, lines: Vec<String>) -> bool {
    let text = script_text(&lines);
    if rig.run(&["run"], text.as_bytes()) == script_answer(&text) {
        return true;
    }
    let text = script_text(&small_script(rig, lines));
    origin.show(&text, &rig.run(&["run"], text.as_bytes()), &script_answer(&text));
    false
}

/// Leaves off lines, then records and bytes of the blocks that are left, then lines again.
fn small_script(rig: &Program, lines: Vec<String>) -> Vec<String> {
    let mut budget = Budget::new();
    let mut differs = |lines: &[String]| {
        let text = script_text(lines);
        rig.run(&["run"], text.as_bytes()) != script_answer(&text)
    };
    let mut lines = shrink(&lines, &mut budget, &mut differs);
    for index in 0..lines.len() {
        let Ok(Some(Line::Run(Call::Take(block)))) = script::parse(&lines[index]) else {
            continue;
        };
        let with = |block: &[u8]| {
            let mut lines = lines.clone();
            lines[index] = format!("take {}", script::hex(block));
            lines
        };
        let block = shrink_block(&block, &mut budget, &mut |block| differs(&with(block)));
        let changed = with(&block);
        // The spelling of the line may be what differs.
        if differs(&changed) {
            lines = changed;
        }
    }
    shrink(&lines, &mut budget, &mut differs)
}

/// A directory of its own for the files of the captures, which goes when it is dropped.
struct Files(PathBuf);

impl Files {
    fn new() -> std::io::Result<Self> {
        let path = std::env::temp_dir().join(format!("reference-compare-{}", std::process::id()));
        fs::create_dir_all(&path)?;
        Ok(Files(path))
    }

    fn write(&self, name: &str, bytes: &[u8]) -> String {
        let path = self.0.join(name);
        // A file that cannot be written shows as a difference, which is what the reader should see.
        if let Err(error) = fs::write(&path, bytes) {
            eprintln!("{}: {error}", path.display());
        }
        path.to_string_lossy().into_owned()
    }
}

impl Drop for Files {
    fn drop(&mut self) {
        let _ = fs::remove_dir_all(&self.0);
    }
}

fn twin_answers(rig: &Program, files: &Files, case: &Case) -> (Answer, Answer) {
    let fittings = script_text(&case.fittings);
    let capture = case.capture.bytes();
    let other = case.other.as_ref().map(Capture::bytes);
    let expected = match twin::run(&fittings, &capture, other.as_deref()) {
        Ok(outcome) => Answer::of(&outcome.lines, outcome.success),
        Err(_) => Answer::of(&[], false),
    };
    let first = files.write("fittings", fittings.as_bytes());
    let second = files.write("capture", &capture);
    let mut arguments = vec!["twin", &first, &second];
    let third = other.map(|bytes| files.write("other", &bytes));
    if let Some(third) = &third {
        arguments.extend(["--other", third]);
    }
    (rig.run(&arguments, &[]), expected)
}

pub fn captures(plan: &Plan) -> Report {
    let files = match Files::new() {
        Ok(files) => files,
        Err(error) => {
            return Report { name: "captures", compared: 0, differ: 0, trouble: Some(error.to_string()) };
        }
    };
    set("captures", plan.captures, Program::find(&plan.programs, "rig"), &mut |rig, index| {
        let case = captures::case(&mut Random::for_case(plan.seed, "captures", index));
        let (program, expected) = twin_answers(rig, &files, &case);
        if program == expected {
            return true;
        }
        let case = small_case(case, &|case| {
            let (program, expected) = twin_answers(rig, &files, case);
            program != expected
        });
        let (program, expected) = twin_answers(rig, &files, &case);
        let origin = Origin { set: "captures", seed: plan.seed, case: index };
        origin.show(&case_text(&case), &program, &expected);
        false
    })
}

/// Leaves off fittings, blocks and bytes of blocks; at last it tries whether the second capture matters.
fn small_case(mut case: Case, differs: &dyn Fn(&Case) -> bool) -> Case {
    let mut budget = Budget::new();
    case.fittings = shrink(&case.fittings.clone(), &mut budget, &mut |rest| {
        differs(&Case { fittings: rest.to_vec(), ..case.clone() })
    });
    case.capture =
        small_capture(&case.capture.clone(), &mut budget, &|capture| differs(&Case { capture, ..case.clone() }));
    if let Some(other) = case.other.clone() {
        let alone = Case { other: None, ..case.clone() };
        if differs(&alone) {
            return alone;
        }
        case.other = Some(small_capture(&other, &mut budget, &|capture| {
            differs(&Case { other: Some(capture), ..case.clone() })
        }));
    }
    case
}

fn small_capture(capture: &Capture, budget: &mut Budget, differs: &dyn Fn(Capture) -> bool) -> Capture {
    let rest = capture.rest.clone();
    let mut blocks =
        shrink(&capture.blocks, budget, &mut |blocks| differs(Capture { blocks: blocks.to_vec(), rest: rest.clone() }));
    for index in 0..blocks.len() {
        let block = shrink_block(&blocks[index], budget, &mut |block| {
            let mut blocks = blocks.clone();
            blocks[index] = block.to_vec();
            differs(Capture { blocks, rest: rest.clone() })
        });
        blocks[index] = block;
    }
    Capture { blocks, rest }
}

fn case_text(case: &Case) -> String {
    let show = |capture: &Capture| -> String {
        let mut lines: Vec<String> =
            capture.blocks.iter().map(|block| format!("block {}\n", script::hex(block))).collect();
        if !capture.rest.is_empty() {
            lines.push(format!("rest {}\n", script::hex(&capture.rest)));
        }
        lines.concat()
    };
    let mut text = format!("fittings:\n{}capture:\n{}", script_text(&case.fittings), show(&case.capture));
    if let Some(other) = &case.other {
        text += &format!("other:\n{}", show(other));
    }
    text
}

/// Whether a program gives the answers of the table; else the difference is shown whole, since the table has answers to
/// the whole input alone.
fn is_as_published(origin: Origin, example: &Example, answer: &Answer) -> bool {
    let expected = Answer::of(example.answers(), true);
    let agree = *answer == expected;
    if !agree {
        origin.show_against("table", &example.input(), answer, &expected);
    }
    agree
}

/// The published packets, whose answers stand in the table and are not worked out by the reference. A program that
/// differs from both is shown against the reference, by an input made small.
pub fn published(plan: &Plan) -> Report {
    let (bench, lister) = match (Program::find(&plan.programs, "bench"), Program::find(&plan.programs, "listing")) {
        (Ok(bench), Ok(lister)) => (bench, lister),
        (Err(trouble), _) | (_, Err(trouble)) => {
            return Report { name: "published", compared: 0, differ: 0, trouble: Some(trouble) };
        }
    };
    let examples = published::examples();
    set("published", examples.len(), Program::find(&plan.programs, "rig"), &mut |rig, case| {
        let example = &examples[case];
        let origin = Origin { set: "published", seed: plan.seed, case };
        let agree = match example {
            Example::Script { text, .. } => {
                script_agrees(origin, rig, text.lines().map(str::to_string).collect())
                    && is_as_published(origin, example, &rig.run(&["run"], text.as_bytes()))
            }
            Example::Bench { block, .. } => {
                block_agrees(origin, &bench, bench::lines, block)
                    && is_as_published(origin, example, &bench.run(&[], block))
            }
            Example::Listing { block, .. } => is_as_published(origin, example, &lister.run(&[], block)),
        };
        agree & example.blocks().iter().all(|block| block_agrees(origin, &lister, listing::lines, block))
    })
}
