//! What made-up input brings about, so that a set that leaves something out does not pass.

use std::collections::BTreeMap;
use std::fmt;

use crate::block::{self, Record, LONGEST};
use crate::board::{Board, MOST_DECODERS};
use crate::decoder::{Body, Decoder, Kind, Role, VARIABLES};
use crate::packet::{self, Access, Order, Target, BASIC_BROADCAST, EXTENDED_BROADCAST};
use crate::refusal::Refusal;
use crate::script::{self, Call, Line, Rig};

/// What a block can bring about by itself, besides the refusals.
const OF_BLOCKS: [&str; 31] = [
    "power-up",
    "fill",
    "longest block",
    "to nobody",
    "to all mobiles",
    "to a short address",
    "to a long address",
    "to a basic decoder",
    "to all basic decoders",
    "to an extended decoder",
    "to all extended decoders",
    "no operation",
    "reset",
    "hard reset",
    "advanced addressing",
    "acknowledgment request",
    "consist",
    "no consist",
    "speed of 126",
    "speed of 28 or 14",
    "functions",
    "binary state",
    "all binary states",
    "short write",
    "verify",
    "write",
    "verify bit",
    "write bit",
    "output",
    "aspect",
    "packet accepted",
];

/// What the answers of a script tell besides, and whether a line tells it.
const OF_ANSWERS: [(&str, fn(&str) -> bool); 21] = [
    ("start too early", |line| line == "not now: start first"),
    ("fitting too late", |line| line == "not now: begin a new board"),
    ("none lent", |line| line.starts_with("lent 0 ")),
    ("setting", |line| line == "set"),
    ("reading", |line| line.starts_with("variable ")),
    ("function on", |line| line.starts_with("function ") && line.ends_with(" on")),
    ("function off", |line| line.starts_with("function ") && line.ends_with(" off")),
    ("binary state on", |line| line.starts_with("binary state ") && line.ends_with(" on")),
    ("binary state off", |line| line.starts_with("binary state ") && line.ends_with(" off")),
    ("reverse", |line| line.starts_with("mobile reverse")),
    ("stopped", |line| line.contains("ward stop ")),
    ("emergency stop shown", |line| line.contains(" emergency stop ")),
    ("step of 14", |line| line.contains(" of 14 ")),
    ("step of 28", |line| line.contains(" of 28 ")),
    ("step of 126", |line| line.contains(" of 126 ")),
    ("functions shown", |line| line.contains(" functions ") && !line.contains(" functions none ")),
    ("binary states shown", |line| line.contains(" states ") && !line.contains(" states none ")),
    ("outputs shown", |line| line.starts_with("basic ") && !line.contains(" outputs none ")),
    ("aspect shown", |line| line.starts_with("extended ") && !line.contains(" aspect 0 ")),
    ("reply", |line| line.ends_with(" reply acknowledgment")),
    ("reply with a value", |line| line.contains(" reply value ")),
];

/// What a script brings about on its boards.
const OF_BOARDS: [&str; 16] = [
    "heard by an own short address",
    "heard by an own long address",
    "heard by a consist address",
    "heard by all mobiles",
    "heard by a basic decoder",
    "heard by all basic decoders",
    "heard by an extended decoder",
    "heard by all extended decoders",
    "full board",
    "one decoder too many",
    "board of all kinds",
    "write waits",
    "setting ends a wait",
    "packets change variables",
    "second board",
    "bad line",
];

/// The refusals that a block can cause: it cannot carry a packet of another length than 3 to 6.
const OF_PACKETS_AND_BLOCKS: [Refusal; 12] = [
    Refusal::ErrorByte,
    Refusal::ReservedAddress,
    Refusal::AdvancedFormat,
    Refusal::IdleForm,
    Refusal::NoInstruction,
    Refusal::ReservedInstruction,
    Refusal::InstructionLength,
    Refusal::AccessoryHead,
    Refusal::BlockLength,
    Refusal::UnknownKind,
    Refusal::BodyCutOff,
    Refusal::NonzeroFill,
];

/// The refusals of calls.
const OF_CALLS: [Refusal; 6] = [
    Refusal::FittedAddress,
    Refusal::BankFull,
    Refusal::TooFewCells,
    Refusal::LentTooShort,
    Refusal::NoSuchDecoder,
    Refusal::NumberOutOfRange,
];

/// In how many inputs, or how often in one, each thing came about.
pub struct Coverage(BTreeMap<&'static str, usize>);

impl Coverage {
    fn of(things: impl IntoIterator<Item = &'static str>) -> Self {
        Coverage(things.into_iter().map(|thing| (thing, 0)).collect())
    }

    pub fn of_blocks() -> Self {
        Coverage::of(OF_BLOCKS.into_iter().chain(OF_PACKETS_AND_BLOCKS.map(Refusal::name)))
    }

    pub fn of_scripts() -> Self {
        let mut all = Coverage::of_blocks();
        all.0.extend(OF_BOARDS.map(|thing| (thing, 0)));
        all.0.extend(OF_ANSWERS.map(|(thing, _)| (thing, 0)));
        all.0.extend(OF_CALLS.map(|refusal| (refusal.name(), 0)));
        all
    }

    fn note(&mut self, thing: &'static str) {
        let count = self.0.get_mut(thing);
        debug_assert!(count.is_some(), "{thing} is not to be covered");
        count.into_iter().for_each(|count| *count += 1);
    }

    pub fn missing(&self) -> Vec<&'static str> {
        self.0.iter().filter(|(_, &count)| count == 0).map(|(&thing, _)| thing).collect()
    }

    pub fn block(&mut self, block: &[u8]) {
        let contents = match block::split(block) {
            Ok(contents) => contents,
            Err(fault) => return self.note(fault.refusal.name()),
        };
        for (_, record) in contents.records {
            match record {
                Record::PowerUp => self.note("power-up"),
                Record::Packet(bytes) => self.packet(bytes),
            }
        }
        if let Some(fault) = contents.fault {
            self.note(fault.refusal.name());
        }
        if contents.fill > 0 {
            self.note("fill");
        }
        if block.len() == LONGEST {
            self.note("longest block");
        }
    }

    fn packet(&mut self, bytes: &[u8]) {
        match packet::read(bytes) {
            Ok(packet) => {
                self.note("packet accepted");
                self.note(to_whom(packet.target));
                self.note(what(packet.order));
            }
            Err(refusal) => self.note(refusal.name()),
        }
    }

    /// Follows a script, whose answers are these.
    pub fn script(&mut self, lines: &[String], answers: &str) {
        let mut rig = Rig::default();
        for text in lines {
            let Ok(line) = script::parse(text) else {
                return self.note("bad line");
            };
            let before = rig.board.clone();
            match (&line, rig.started) {
                (Some(Line::Run(Call::Take(block))), true) => {
                    self.block(block);
                    self.hearing(&before, block);
                }
                (Some(Line::New), true) => self.note("second board"),
                (Some(Line::Start), false) => self.board(&before),
                (Some(Line::Fit(_)), false) if before.decoders.len() == MOST_DECODERS => {
                    self.note("one decoder too many");
                }
                _ => {}
            }
            let _ = rig.line(text);
            for (earlier, later) in before.decoders.iter().zip(&rig.board.decoders) {
                self.change(&line, earlier, later);
            }
        }
        answers.lines().for_each(|answer| self.answer(answer));
    }

    /// What a line made of one decoder.
    fn change(&mut self, line: &Option<Line>, earlier: &Decoder, later: &Decoder) {
        let variables_differ = || (1..=VARIABLES as u16).any(|cv| earlier.variable(cv) != later.variable(cv));
        match line {
            Some(Line::Run(Call::Take(_))) if variables_differ() => self.note("packets change variables"),
            Some(Line::Run(Call::Set(..))) if earlier.waiting.is_some() && later.waiting.is_none() => {
                self.note("setting ends a wait");
            }
            _ => {}
        }
    }

    /// Who hears the first packet of a block.
    fn hearing(&mut self, board: &Board, block: &[u8]) {
        let Ok(contents) = block::split(block) else {
            return;
        };
        let Some((_, Record::Packet(bytes))) = contents.records.first() else {
            return;
        };
        let Ok(packet) = packet::read(bytes) else {
            return;
        };
        for decoder in &board.decoders {
            if let Some(role) = decoder.role(packet.target) {
                self.note(match (&decoder.body, role, packet.target) {
                    (Body::Mobile(_), Role::Everyone, _) => "heard by all mobiles",
                    (Body::Mobile(_), Role::Consist, _) => "heard by a consist address",
                    (Body::Mobile(_), Role::Own, Target::Long(_)) => "heard by an own long address",
                    (Body::Mobile(_), Role::Own, _) => "heard by an own short address",
                    (Body::Basic { .. }, Role::Everyone, _) => "heard by all basic decoders",
                    (Body::Basic { .. }, _, _) => "heard by a basic decoder",
                    (Body::Extended { .. }, Role::Everyone, _) => "heard by all extended decoders",
                    (Body::Extended { .. }, _, _) => "heard by an extended decoder",
                });
            }
        }
    }

    fn board(&mut self, board: &Board) {
        if board.decoders.len() == MOST_DECODERS {
            self.note("full board");
        }
        if Kind::ALL.iter().all(|&kind| board.count(kind) > 0) {
            self.note("board of all kinds");
        }
    }

    fn answer(&mut self, answer: &str) {
        for (thing, tells) in OF_ANSWERS {
            if tells(answer) {
                self.note(thing);
            }
        }
        for refusal in OF_CALLS {
            if answer.contains(refusal.name()) {
                self.note(refusal.name());
            }
        }
        if answer.contains(" waiting ") && !answer.contains(" waiting none ") {
            self.note("write waits");
        }
    }
}

fn to_whom(target: Target) -> &'static str {
    match target {
        Target::Idle => "to nobody",
        Target::AllMobiles => "to all mobiles",
        Target::Short(_) => "to a short address",
        Target::Long(_) => "to a long address",
        Target::Basic(BASIC_BROADCAST) => "to all basic decoders",
        Target::Basic(_) => "to a basic decoder",
        Target::Extended(EXTENDED_BROADCAST) => "to all extended decoders",
        Target::Extended(_) => "to an extended decoder",
    }
}

fn what(order: Order) -> &'static str {
    match order {
        Order::Nothing => "no operation",
        Order::Reset => "reset",
        Order::HardReset => "hard reset",
        Order::AdvancedAddressing(_) => "advanced addressing",
        Order::AcknowledgmentRequest => "acknowledgment request",
        Order::Consist { address: 0, .. } => "no consist",
        Order::Consist { .. } => "consist",
        Order::Speed126 { .. } => "speed of 126",
        Order::SpeedFive { .. } => "speed of 28 or 14",
        Order::GroupOne(_) | Order::Group { .. } => "functions",
        Order::StateShort { number: 0, .. } | Order::StateLong { number: 0, .. } => "all binary states",
        Order::StateShort { .. } | Order::StateLong { .. } => "binary state",
        Order::ShortWrite { .. } => "short write",
        Order::Access { access: Access::Verify(_), .. } => "verify",
        Order::Access { access: Access::Write(_), .. } => "write",
        Order::Access { access: Access::VerifyBit { .. }, .. } => "verify bit",
        Order::Access { access: Access::WriteBit { .. }, .. } => "write bit",
        Order::Output { .. } => "output",
        Order::Aspect(_) => "aspect",
    }
}

impl fmt::Display for Coverage {
    fn fmt(&self, f: &mut fmt::Formatter<'_>) -> fmt::Result {
        let counts: Vec<String> = self.0.iter().map(|(thing, count)| format!("{thing} {count}")).collect();
        write!(f, "{}", counts.join(", "))
    }
}

#[cfg(test)]
mod tests {
    use super::*;

    #[test]
    fn counts_a_block() {
        let mut coverage = Coverage::of_blocks();
        coverage.block(&[0x10, 3, 0x03, 0x74, 0x77, 3, 0x03, 0x74, 0x78, 0, 0]);
        for thing in ["power-up", "to a short address", "speed of 28 or 14", "wrong error byte", "fill"] {
            assert_eq!(coverage.0[thing], 1, "{thing}");
        }
        assert!(coverage.missing().contains(&"idle in another form"));
    }

    #[test]
    fn counts_a_script() {
        let lines = ["fit mobile short 3", "start", "take 03 03 74 77", "state mobile 1"].map(String::from);
        let answers = script::run(&lines.join("\n")).lines.join("\n");
        let mut coverage = Coverage::of_scripts();
        coverage.script(&lines, &answers);
        assert_eq!(coverage.0["heard by an own short address"], 1);
        assert_eq!(coverage.0["no such decoder"], 1);
        assert_eq!(coverage.0["full board"], 0);
    }
}
