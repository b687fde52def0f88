//! Made-up scripts.

use super::packets::{self, Air};
use super::random::Random;
use crate::board::Name;
use crate::decoder::{Body, Decoder, Kind, Mobile};
use crate::script::{hex, Rig};

const VARIABLES_AT_THE_END: [u16; 14] = [1, 4, 8, 17, 18, 19, 23, 24, 29, 31, 32, 519, 541, 1024];
const BAD_LINES: [&str; 24] = [
    "begin",
    "new board",
    "lend 1 2 3",
    "lend 33 0 0 0",
    "lend 0 0 0 32769",
    "lend 1 1 1 1 1",
    "fit",
    "fit mobile 3",
    "fit mobile short 256",
    "fit mobile long 65536",
    "fit basic 65536",
    "fit extended -1",
    "fit point 1",
    "start now",
    "take 3",
    "take 03 0G",
    "take 0x10",
    "set mobile 0 29",
    "set mobile 0 29 256",
    "set mobile 0 65536 0",
    "state signal 0",
    "state mobile",
    "variable basic 0 1 2",
    "function mobile 0 +1",
];

/// A fitting, mostly one that is accepted; the address joins those that packets are sent to.
pub fn fit(random: &mut Random, air: &mut Air, percent_odd: usize) -> String {
    let odd = random.chance(percent_odd);
    match random.weighted(&[4, 3, 3, 3]) {
        0 => {
            let any = random.between(1, 127);
            let address = if odd { random.pick(&[0, 128, 200, 255]) } else { random.pick(&[3, 3, 5, 9, 1, 127, any]) };
            air.shorts.extend((1..=127).contains(&address).then_some(address as u8));
            format!("fit mobile short {address}")
        }
        1 => {
            let any = random.below(10240);
            let address = if odd { random.pick(&[10240, 65535]) } else { random.pick(&[1000, 1000, 3, 0, 10239, any]) };
            air.longs.extend((address < 10240).then_some(address as u16));
            format!("fit mobile long {address}")
        }
        2 => {
            let any = random.below(511);
            let address = if odd { random.pick(&[511, 512, 65535]) } else { random.pick(&[1, 1, 0, 510, any]) };
            air.basics.extend((address < 512).then_some(address as u16));
            format!("fit basic {address}")
        }
        _ => {
            let any = random.below(2047);
            let address = if odd { random.pick(&[2047, 2048, 65535]) } else { random.pick(&[1, 1, 0, 2046, any]) };
            air.extendeds.extend((address < 2048).then_some(address as u16));
            format!("fit extended {address}")
        }
    }
}

/// The one address that reaches the decoder as it is now.
fn air_of(decoder: &Decoder) -> Air {
    let mut air = Air::default();
    match decoder.body {
        Body::Mobile(_) if decoder.variable(29) & 0x20 != 0 => {
            let high = decoder.variable(17).clamp(192, 231) - 192;
            air.longs.push(u16::from(high) << 8 | u16::from(decoder.variable(18)));
        }
        Body::Mobile(_) => air.shorts.push(decoder.variable(1).clamp(1, 127)),
        Body::Basic { address, .. } => air.basics.push(address),
        Body::Extended { address, .. } => air.extendeds.push(address),
    }
    air
}

/// The numbers of the places that are on.
fn numbers_of(name: Name, places: &[bool]) -> Vec<(Name, usize)> {
    (0..places.len()).filter(|&number| places[number]).map(|number| (name, number)).collect()
}

/// What makes a script; the reference follows it, so that the script can speak of decoders that exist.
struct Maker<'a> {
    random: &'a mut Random,
    rig: Rig,
    air: Air,
    lines: Vec<String>,
}

/// The lines of a script; only the last may be a bad one.
pub fn script(random: &mut Random) -> Vec<String> {
    let mut maker = Maker { random, rig: Rig::default(), air: Air::default(), lines: Vec::new() };
    let boards = maker.random.weighted(&[0, 6, 2, 1]);
    for board in 0..boards {
        if board > 0 || maker.random.chance(10) {
            maker.say("new".to_string());
        }
        maker.fittings();
        maker.running();
    }
    maker.readings_at_the_end();
    if maker.random.chance(8) {
        let bad = maker.random.pick(&BAD_LINES).to_string();
        maker.lines.push(bad);
    }
    maker.lines
}

impl Maker<'_> {
    fn say(&mut self, line: String) {
        let performed = self.rig.line(&line);
        debug_assert!(performed.is_ok(), "{line}");
        self.lines.push(line);
        self.ornament();
    }

    /// Now and then something that changes no call.
    fn ornament(&mut self) {
        match self.random.below(40) {
            0 => self.lines.push(String::new()),
            1 => self.lines.push("# take 10 and more".to_string()),
            2 => self.lines.push(" \t # start".to_string()),
            3 => {
                if let Some(last) = self.lines.last_mut() {
                    *last = format!("\t {}  # so", last.replace(' ', "  "));
                }
            }
            4 => {
                if let Some(last) = self.lines.last_mut() {
                    last.push_str("#so");
                }
            }
            // All words are in lower case, so that this changes the bytes of blocks alone.
            5 => {
                if let Some(last) = self.lines.last_mut() {
                    last.make_ascii_lowercase();
                }
            }
            _ => {}
        }
    }

    fn lend(&mut self) {
        let cells = self.random.below(32769);
        let line = match self.random.below(4) {
            0 => "lend 32 32 32 32768".to_string(),
            1 => {
                let cells = self.random.pick(&[0, 1023, 1024, 2047, 2048, 5120, cells]);
                format!("lend 32 32 32 {cells}")
            }
            2 => {
                let [m, b, e] = [self.random.below(4), self.random.below(4), self.random.below(4)];
                format!("lend {m} {b} {e} 32768")
            }
            _ => {
                let [m, b, e] = [self.random.below(33), self.random.below(33), self.random.below(33)];
                format!("lend {m} {b} {e} {cells}")
            }
        };
        self.say(line);
    }

    fn lend_all(&mut self) {
        self.say("lend 32 32 32 32768".to_string());
    }

    fn fittings(&mut self) {
        self.air = Air::default();
        if self.random.chance(25) {
            self.lend();
        }
        let count = match self.random.below(10) {
            0 => 0,
            1 => self.random.between(32, 38),
            2 => self.random.between(6, 16),
            _ => self.random.between(1, 6),
        };
        for _ in 0..count {
            if self.random.chance(3) {
                self.any_call();
            }
            if self.random.chance(3) {
                self.lend();
            }
            let line = fit(self.random, &mut self.air, 8);
            self.say(line);
        }
    }

    fn running(&mut self) {
        if self.random.chance(97) {
            self.say("start".to_string());
        }
        if self.random.chance(80) {
            self.lend_all();
        }
        for _ in 0..self.random.between(3, 25) {
            match self.random.weighted(&[85, 3, 2, 10]) {
                0 => self.any_call(),
                3 => self.talk(),
                1 => {
                    self.lend();
                    self.any_call();
                    self.lend_all();
                }
                _ if self.random.chance(50) => {
                    let mut unused = Air::default();
                    let line = fit(self.random, &mut unused, 30);
                    if self.rig.started {
                        self.say(line);
                    }
                }
                _ => self.say("start".to_string()),
            }
        }
    }

    /// Mostly the name of a decoder that there is.
    fn name(&mut self) -> String {
        let names = self.rig.board.names();
        let name = if names.is_empty() || self.random.chance(8) {
            let number = self.random.pick(&[0, 1, 5, 31, 32, 65535]);
            Name { kind: self.random.pick(&Kind::ALL), number }
        } else {
            self.random.pick(&names)
        };
        format!("{} {}", name.kind.word(), name.number)
    }

    fn variable(&mut self) -> u16 {
        let any = self.random.between(1, 1024) as u16;
        self.random
            .pick(&[1, 7, 8, 17, 18, 19, 19, 29, 29, 29, 519, 520, 541, 541, 541, 1024, 0, 1025, 65535, any, any])
    }

    fn any_call(&mut self) {
        let line = match self.random.weighted(&[50, 14, 12, 6, 4, 4, 3]) {
            0 => self.take(),
            1 => {
                let cv = self.variable();
                let value = packets::value_for(self.random, cv);
                format!("set {} {cv} {value}", self.name())
            }
            2 => format!("state {}", self.name()),
            3 => {
                let cv = self.variable();
                let digits = if self.random.chance(5) { 6 } else { 1 };
                format!("variable {} {cv:0digits$}", self.name())
            }
            4 => {
                let any = self.random.below(69) as u16;
                let number = self.random.pick(&[0, 1, 68, 69, 65535, any]);
                self.switch("function", number, |mobile| &mobile.functions)
            }
            5 => {
                let any = self.random.between(1, 2047) as u16;
                let number = self.random.pick(&[0, 1, 127, 2047, 2048, 65535, any]);
                self.switch("binary", number, |mobile| &mobile.states)
            }
            _ => "take 10".to_string(),
        };
        self.say(line);
    }

    /// Reads a function or a binary state: often one that is on, else that of the number.
    fn switch(&mut self, word: &str, number: u16, places: fn(&Mobile) -> &[bool]) -> String {
        let board = &self.rig.board;
        let on: Vec<(Name, usize)> = board
            .names()
            .into_iter()
            .zip(&board.decoders)
            .flat_map(|(name, decoder)| match &decoder.body {
                Body::Mobile(mobile) => numbers_of(name, places(mobile)),
                _ => Vec::new(),
            })
            .collect();
        if on.is_empty() || self.random.chance(40) {
            format!("{word} {} {number}", self.name())
        } else {
            let (name, number) = self.random.pick(&on);
            format!("{word} {} {} {number}", name.kind.word(), name.number)
        }
    }

    fn take(&mut self) -> String {
        let block = packets::block(self.random, &self.air, 5);
        format!("take {}", hex(&block)).trim_end().to_string()
    }

    /// A talk with one decoder that may reply: each packet is followed by a look at what became of it.
    fn talk(&mut self) {
        let names = self.rig.board.names();
        if names.is_empty() || !self.rig.started {
            return;
        }
        let slot = self.random.below(names.len());
        let name = format!("{} {}", names[slot].kind.word(), names[slot].number);
        let cv = if names[slot].kind == Kind::Mobile { 29 } else { 541 };
        let value = self.rig.board.decoders[slot].variable(cv) | 0x08;
        self.say(format!("set {name} {cv} {value}"));
        let cv = self.random.pick(&[31, 32, 19, 4, 23, 1024]);
        let value = packets::value_for(self.random, cv);
        self.say(format!("set {name} {cv} {value}"));
        for _ in 0..self.random.between(1, 5) {
            let air = air_of(&self.rig.board.decoders[slot]);
            let records = packets::phrase(self.random, &air);
            self.say(format!("take {}", hex(&records.concat())));
            self.say(format!("state {name}"));
        }
        for cv in [19, 31, 32] {
            self.say(format!("variable {name} {cv}"));
        }
    }

    fn readings_at_the_end(&mut self) {
        self.lend_all();
        if !self.rig.started {
            self.say("start".to_string());
        }
        for Name { kind, number } in self.rig.board.names() {
            let kind = kind.word();
            self.say(format!("state {kind} {number}"));
            for cv in VARIABLES_AT_THE_END {
                self.say(format!("variable {kind} {number} {cv}"));
            }
        }
    }
}

#[cfg(test)]
mod tests {
    use super::*;
    use crate::script::run;

    #[test]
    fn only_the_last_line_may_be_bad() {
        for case in 0..200 {
            let lines = script(&mut Random::for_case(1, "scripts", case));
            let bad = run(&lines.join("\n")).bad_line;
            assert!(bad.is_none() || bad == Some(lines.len()), "{case}");
        }
    }

    #[test]
    fn bad_lines_are_bad() {
        assert!(BAD_LINES.iter().all(|line| crate::script::parse(line).is_err()));
    }
}
