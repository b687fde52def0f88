//! Running a program of the other side.

use std::io::Write;
use std::path::{Path, PathBuf};
use std::process::{Command, Stdio};

/// What a program printed, and whether it ended well.
#[derive(Clone, Debug, PartialEq, Eq)]
pub struct Answer {
    pub output: String,
    pub success: bool,
}

impl Answer {
    /// What the program should print if it prints these lines.
    pub fn of(lines: &[String], success: bool) -> Self {
        let output = lines.iter().map(|line| format!("{line}\n")).collect();
        Answer { output, success }
    }
}

pub struct Program {
    path: PathBuf,
}

impl Program {
    pub fn find(directory: &Path, name: &str) -> Result<Self, String> {
        let path = directory.join(name);
        if path.is_file() {
            Ok(Program { path })
        } else {
            Err(format!("{}: no such program", path.display()))
        }
    }

    /// A program that cannot be run at all answers nothing, and so differs.
    pub fn run(&self, arguments: &[&str], input: &[u8]) -> Answer {
        self.try_run(arguments, input)
            .unwrap_or_else(|error| Answer { output: format!("cannot be run: {error}\n"), success: false })
    }

    fn try_run(&self, arguments: &[&str], input: &[u8]) -> std::io::Result<Answer> {
        let mut child = Command::new(&self.path)
            .args(arguments)
            .stdin(Stdio::piped())
            .stdout(Stdio::piped())
            .stderr(Stdio::null())
            .spawn()?;
        let stdin = child.stdin.take();
        let output = std::thread::scope(|scope| {
            // Beside the reading, so that neither side waits for the other with a full pipe. A program may end
            // before it has read everything, which is no trouble of its own.
            scope.spawn(move || stdin.map(|mut stdin| stdin.write_all(input)));
            child.wait_with_output()
        })?;
        Ok(Answer { output: String::from_utf8_lossy(&output.stdout).into_owned(), success: output.status.success() })
    }
}
