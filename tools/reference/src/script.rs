//! Scripts: the lines, and what performs them.

use crate::bench::numbers_on;
use crate::board::{Board, Lent, Name, Taken};
use crate::decoder::{Address, Body, Decoder, Kind, Reply, Speed};
use crate::refusal::Fault;

/// A line that is no call.
#[derive(Clone, Copy, Debug, PartialEq, Eq)]
pub struct BadLine;

#[derive(Clone, Debug, PartialEq, Eq)]
pub enum Line {
    New,
    Lend(Lent),
    Fit(Address),
    Start,
    Run(Call),
}

/// The calls of a running board.
#[derive(Clone, Debug, PartialEq, Eq)]
pub enum Call {
    Take(Vec<u8>),
    Set(Name, u16, u8),
    State(Name),
    Variable(Name, u16),
    Function(Name, u16),
    Binary(Name, u16),
}

/// Reads a line; a line without any word is none.
pub fn parse(text: &str) -> Result<Option<Line>, BadLine> {
    let before_comment = text.split('#').next().unwrap_or("");
    let words: Vec<&str> = before_comment.split([' ', '\t']).filter(|word| !word.is_empty()).collect();
    let line = match words[..] {
        [] => return Ok(None),
        ["new"] => Line::New,
        ["lend", mobiles, basics, extendeds, cells] => {
            let records = [number(mobiles, 32)?, number(basics, 32)?, number(extendeds, 32)?];
            Line::Lend(Lent { records: records.map(usize::from), cells: usize::from(number(cells, 32768)?) })
        }
        ["fit", "mobile", "short", address] => Line::Fit(Address::Short(number(address, 255)?)),
        ["fit", "mobile", "long", address] => Line::Fit(Address::Long(number(address, u16::MAX)?)),
        ["fit", "basic", address] => Line::Fit(Address::Basic(number(address, u16::MAX)?)),
        ["fit", "extended", address] => Line::Fit(Address::Extended(number(address, u16::MAX)?)),
        ["start"] => Line::Start,
        _ => Line::Run(parse_call(&words)?),
    };
    Ok(Some(line))
}

fn parse_call(words: &[&str]) -> Result<Call, BadLine> {
    let any = |word| number(word, u16::MAX);
    Ok(match *words {
        ["take", ref bytes @ ..] => Call::Take(bytes.iter().map(|word| byte(word)).collect::<Result<_, _>>()?),
        ["set", kind, index, cv, value] => Call::Set(name(kind, index)?, any(cv)?, number(value, 255)? as u8),
        ["state", kind, index] => Call::State(name(kind, index)?),
        ["variable", kind, index, cv] => Call::Variable(name(kind, index)?, any(cv)?),
        ["function", kind, index, function] => Call::Function(name(kind, index)?, any(function)?),
        ["binary", kind, index, state] => Call::Binary(name(kind, index)?, any(state)?),
        _ => return Err(BadLine),
    })
}

fn number(word: &str, most: u16) -> Result<u16, BadLine> {
    if !word.bytes().all(|digit| digit.is_ascii_digit()) {
        return Err(BadLine);
    }
    word.parse().ok().filter(|&number| number <= most).ok_or(BadLine)
}

fn byte(word: &str) -> Result<u8, BadLine> {
    if word.len() != 2 || !word.bytes().all(|digit| digit.is_ascii_hexdigit()) {
        return Err(BadLine);
    }
    u8::from_str_radix(word, 16).map_err(|_| BadLine)
}

fn name(kind: &str, index: &str) -> Result<Name, BadLine> {
    let kind = Kind::ALL.into_iter().find(|known| known.word() == kind).ok_or(BadLine)?;
    Ok(Name { kind, number: usize::from(number(index, u16::MAX)?) })
}

/// What performs a script line by line.
pub struct Rig {
    pub board: Board,
    pub started: bool,
    pub lent: Lent,
}

impl Default for Rig {
    fn default() -> Self {
        Rig { board: Board::default(), started: false, lent: Lent::ALL }
    }
}

impl Rig {
    /// Performs a line, and answers what it prints.
    pub fn line(&mut self, text: &str) -> Result<Option<String>, BadLine> {
        Ok(parse(text)?.map(|line| match line {
            Line::Fit(_) | Line::Start if self.started => "not now: begin a new board".to_string(),
            Line::Run(_) if !self.started => "not now: start first".to_string(),
            line => self.perform(line).unwrap_or_else(|fault| format!("refused {fault}")),
        }))
    }

    fn perform(&mut self, line: Line) -> Result<String, Fault> {
        match line {
            Line::New => {
                self.board = Board::default();
                self.started = false;
                Ok("new board".to_string())
            }
            Line::Lend(lent) => {
                self.lent = lent;
                let [mobiles, basics, extendeds] = lent.records;
                Ok(format!("lent {mobiles} {basics} {extendeds} {}", lent.cells))
            }
            Line::Fit(address) => {
                let Name { kind, number } = self.board.fit(address, &self.lent)?;
                Ok(format!("fitted {} {number}", kind.word()))
            }
            Line::Start => {
                self.started = true;
                Ok("started".to_string())
            }
            Line::Run(call) => self.call(call),
        }
    }

    fn call(&mut self, call: Call) -> Result<String, Fault> {
        let (board, lent) = (&mut self.board, &self.lent);
        let switch = |on| if on { "on" } else { "off" };
        Ok(match call {
            Call::Take(block) => show_taken(&board.take(&block, lent)?),
            Call::Set(name, cv, value) => {
                board.set(name, cv, value, lent)?;
                "set".to_string()
            }
            Call::State(name) => show_state(board.state(name, lent)?),
            Call::Variable(name, cv) => format!("variable {cv} = {}", board.variable(name, cv, lent)?),
            Call::Function(name, f) => format!("function {f} {}", switch(board.function(name, f, lent)?)),
            Call::Binary(name, n) => format!("binary state {n} {}", switch(board.binary_state(name, n, lent)?)),
        })
    }
}

fn show_taken(taken: &Taken) -> String {
    let mut text = format!("taken heard {} unheard {} refused {}", taken.heard, taken.unheard, taken.refused);
    if let Some(first) = taken.first {
        text += &format!(" first {first}");
    }
    if let Some(fault) = taken.fault {
        text += &format!(" fault {fault}");
    }
    text
}

fn show_state(decoder: &Decoder) -> String {
    let body = match &decoder.body {
        Body::Mobile(mobile) => {
            let direction = if mobile.forward { "forward" } else { "reverse" };
            let speed = match mobile.speed {
                Speed::Stop => "stop".to_string(),
                Speed::EmergencyStop => "emergency stop".to_string(),
                Speed::Step { step, scale } => format!("step {step} of {scale}"),
            };
            let functions = numbers_on(&mobile.functions, "none");
            let states = numbers_on(&mobile.states, "none");
            format!("mobile {direction} {speed} functions {functions} states {states}")
        }
        Body::Basic { outputs, .. } => format!("basic outputs {}", numbers_on(outputs, "none")),
        Body::Extended { aspect, .. } => format!("extended aspect {aspect}"),
    };
    let waiting = decoder.waiting.as_deref().map_or("none".to_string(), hex);
    let reply = match decoder.reply {
        Reply::None => "none".to_string(),
        Reply::Acknowledgment => "acknowledgment".to_string(),
        Reply::Value(value) => format!("value {value}"),
    };
    format!("{body} waiting {waiting} reply {reply}")
}

/// Bytes as upper-case hexadecimal with a blank between two.
pub fn hex(bytes: &[u8]) -> String {
    let words: Vec<String> = bytes.iter().map(|byte| format!("{byte:02X}")).collect();
    words.join(" ")
}

/// The answers of a whole script, and the number of the bad line that ended it, if one did.
pub struct Performance {
    pub lines: Vec<String>,
    pub bad_line: Option<usize>,
}

pub fn run(text: &str) -> Performance {
    let mut rig = Rig::default();
    let mut lines = Vec::new();
    for (index, line) in text.split('\n').enumerate() {
        match rig.line(line) {
            Ok(answer) => lines.extend(answer),
            Err(BadLine) => return Performance { lines, bad_line: Some(index + 1) },
        }
    }
    Performance { lines, bad_line: None }
}

#[cfg(test)]
mod tests {
    use super::*;

    #[test]
    fn phases_and_answers() {
        let script = "\n# nothing\ntake 10\nfit mobile short 3#three\nstart\nfit basic 1\n\
            take 05 03 EC 03 0A E6 03 03 74 74\nstate mobile 0\nvariable mobile 0 4\n\
            function mobile 0 69\nstate basic 0";
        let expected = [
            "not now: start first",
            "fitted mobile 0",
            "started",
            "not now: begin a new board",
            "taken heard 1 unheard 0 refused 1 first 2 packet 6 wrong error byte",
            "mobile forward stop functions none states none waiting 03 EC 03 0A E6 reply none",
            "variable 4 = 0",
            "refused 19 board 0 number out of range",
            "refused 18 board 0 no such decoder",
        ];
        let performance = run(script);
        assert_eq!(performance.lines, expected);
        assert_eq!(performance.bad_line, None);
    }

    #[test]
    fn bad_lines() {
        for bad in ["fit mobile short 256", "take 1", "state loco 0", "lend 33 0 0 0", "start now", "set basic 0 1 +5"]
        {
            let performance = run(&format!("new\n{bad}\nnew"));
            assert_eq!((performance.lines.len(), performance.bad_line), (1, Some(2)), "{bad}");
        }
    }
}
