//! A board of decoders.

use crate::block::{self, Record};
use crate::decoder::{Address, Body, Decoder, Kind, FUNCTIONS, STATES, VARIABLES};
use crate::packet;
use crate::refusal::{Fault, Refusal};

pub const MOST_DECODERS: usize = 32;

/// How much of the banks and of the memory is lent. Here only the sizes matter: a decoder carries its own variables.
#[derive(Clone, Copy, Debug, PartialEq, Eq)]
pub struct Lent {
    /// By kind: mobile, basic, extended.
    pub records: [usize; 3],
    pub cells: usize,
}

impl Lent {
    pub const ALL: Lent = Lent { records: [MOST_DECODERS; 3], cells: MOST_DECODERS * VARIABLES };
}

#[derive(Clone, Copy, Debug, PartialEq, Eq)]
pub struct Name {
    pub kind: Kind,
    pub number: usize,
}

/// What happened in a block.
#[derive(Clone, Debug, Default, PartialEq, Eq)]
pub struct Taken {
    pub heard: usize,
    pub unheard: usize,
    pub refused: usize,
    pub first: Option<Fault>,
    pub fault: Option<Fault>,
    pub fill: usize,
}

/// One event of one decoder.
#[derive(Clone, Debug, PartialEq, Eq)]
pub enum Event {
    PowerUp,
    Packet(Vec<u8>),
}

/// The same while the block is at hand.
pub enum Happening<'a> {
    PowerUp,
    Packet(&'a [u8]),
}

impl From<Happening<'_>> for Event {
    fn from(happening: Happening) -> Event {
        match happening {
            Happening::PowerUp => Event::PowerUp,
            Happening::Packet(bytes) => Event::Packet(bytes.to_vec()),
        }
    }
}

/// The decoders in the order of their fitting.
#[derive(Clone, Debug, Default)]
pub struct Board {
    pub decoders: Vec<Decoder>,
}

impl Board {
    pub fn count(&self, kind: Kind) -> usize {
        self.decoders.iter().filter(|decoder| decoder.kind() == kind).count()
    }

    /// The names of all decoders in the order of fitting.
    pub fn names(&self) -> Vec<Name> {
        let mut counts = [0; 3];
        let mut names = Vec::new();
        for decoder in &self.decoders {
            let kind = decoder.kind();
            names.push(Name { kind, number: counts[kind as usize] });
            counts[kind as usize] += 1;
        }
        names
    }

    pub fn fit(&mut self, address: Address, lent: &Lent) -> Result<Name, Fault> {
        let kind = address.kind();
        let number = self.count(kind);
        if !address.can_be_fitted() {
            Err(Refusal::FittedAddress.at(0))
        } else if self.decoders.len() >= MOST_DECODERS || number >= lent.records[kind as usize] {
            Err(Refusal::BankFull.at(0))
        } else if (self.decoders.len() + 1) * VARIABLES > lent.cells {
            Err(Refusal::TooFewCells.at(0))
        } else {
            self.decoders.push(Decoder::fitted(address));
            Ok(Name { kind, number })
        }
    }

    fn check(&self, lent: &Lent) -> Result<(), Fault> {
        let banks = Kind::ALL.iter().all(|&kind| self.count(kind) <= lent.records[kind as usize]);
        if banks && self.decoders.len() * VARIABLES <= lent.cells {
            Ok(())
        } else {
            Err(Refusal::LentTooShort.at(0))
        }
    }

    pub fn take(&mut self, block: &[u8], lent: &Lent) -> Result<Taken, Fault> {
        self.take_watched(block, lent, |_, _| {})
    }

    /// Takes a block and tells each decoder's events by its slot.
    pub fn take_watched(
        &mut self,
        block: &[u8],
        lent: &Lent,
        mut watch: impl FnMut(usize, Happening),
    ) -> Result<Taken, Fault> {
        self.check(lent)?;
        let contents = block::split(block)?;
        let mut taken = Taken { fault: contents.fault, fill: contents.fill, ..Taken::default() };
        for (offset, record) in contents.records {
            match record {
                Record::PowerUp => {
                    for (slot, decoder) in self.decoders.iter_mut().enumerate() {
                        decoder.power_up();
                        watch(slot, Happening::PowerUp);
                    }
                }
                Record::Packet(bytes) => match self.deliver(bytes, &mut watch) {
                    Ok(true) => taken.heard += 1,
                    Ok(false) => taken.unheard += 1,
                    Err(refusal) => {
                        taken.refused += 1;
                        taken.first.get_or_insert(refusal.at(offset));
                    }
                },
            }
        }
        Ok(taken)
    }

    /// Answers whether any decoder heard the packet.
    fn deliver(&mut self, bytes: &[u8], watch: &mut impl FnMut(usize, Happening)) -> Result<bool, Refusal> {
        let packet = packet::read(bytes)?;
        let mut heard = false;
        for (slot, decoder) in self.decoders.iter_mut().enumerate() {
            if decoder.hear(&packet) {
                heard = true;
                watch(slot, Happening::Packet(bytes));
            }
        }
        Ok(heard)
    }

    fn slot(&self, name: Name, lent: &Lent) -> Result<usize, Fault> {
        self.check(lent)?;
        self.names().iter().position(|&other| other == name).ok_or(Refusal::NoSuchDecoder.at(0))
    }

    pub fn set(&mut self, name: Name, cv: u16, value: u8, lent: &Lent) -> Result<(), Fault> {
        let slot = self.slot(name, lent)?;
        in_range(usize::from(cv), 1, VARIABLES)?;
        self.decoders[slot].set(cv, value);
        Ok(())
    }

    pub fn state(&self, name: Name, lent: &Lent) -> Result<&Decoder, Fault> {
        Ok(&self.decoders[self.slot(name, lent)?])
    }

    pub fn variable(&self, name: Name, cv: u16, lent: &Lent) -> Result<u8, Fault> {
        let decoder = self.state(name, lent)?;
        in_range(usize::from(cv), 1, VARIABLES)?;
        Ok(decoder.variable(cv))
    }

    pub fn function(&self, name: Name, number: u16, lent: &Lent) -> Result<bool, Fault> {
        let Body::Mobile(mobile) = &self.state(name, lent)?.body else {
            return Err(Refusal::NoSuchDecoder.at(0));
        };
        in_range(usize::from(number), 0, FUNCTIONS - 1)?;
        Ok(mobile.functions[usize::from(number)])
    }

    pub fn binary_state(&self, name: Name, number: u16, lent: &Lent) -> Result<bool, Fault> {
        let Body::Mobile(mobile) = &self.state(name, lent)?.body else {
            return Err(Refusal::NoSuchDecoder.at(0));
        };
        in_range(usize::from(number), 1, STATES - 1)?;
        Ok(mobile.states[usize::from(number)])
    }
}

fn in_range(number: usize, least: usize, most: usize) -> Result<(), Fault> {
    if (least..=most).contains(&number) {
        Ok(())
    } else {
        Err(Refusal::NumberOutOfRange.at(0))
    }
}

#[cfg(test)]
mod tests {
    use super::*;

    fn number<T>(answer: Result<T, Fault>) -> u8 {
        answer.err().map_or(0, |fault| fault.refusal.number())
    }

    #[test]
    fn fitting_refuses_in_order() {
        let mut board = Board::default();
        let none = Lent { records: [0; 3], cells: 0 };
        assert_eq!(number(board.fit(Address::Short(128), &none)), 14);
        assert_eq!(number(board.fit(Address::Short(127), &none)), 15);
        assert_eq!(number(board.fit(Address::Long(10239), &Lent { records: [1, 0, 0], cells: 1023 })), 16);
        assert_eq!(number(board.fit(Address::Long(10239), &Lent { records: [1, 0, 0], cells: 1024 })), 0);
        for _ in 1..MOST_DECODERS {
            assert_eq!(number(board.fit(Address::Basic(0), &Lent::ALL)), 0);
        }
        assert_eq!(number(board.fit(Address::Extended(0), &Lent::ALL)), 15);
    }

    #[test]
    fn running_refuses_in_order() {
        let mut board = Board::default();
        board.fit(Address::Basic(7), &Lent::ALL).expect("a fitting");
        let short = Lent { records: [32, 0, 32], cells: 32768 };
        let (basic, absent) = (Name { kind: Kind::Basic, number: 0 }, Name { kind: Kind::Basic, number: 1 });
        assert_eq!(number(board.take(&[], &short)), 17);
        assert_eq!(number(board.take(&[], &Lent::ALL)), 10);
        assert_eq!(number(board.variable(absent, 0, &Lent::ALL)), 18);
        assert_eq!(number(board.variable(basic, 0, &Lent::ALL)), 19);
        assert_eq!(number(board.function(basic, 69, &Lent::ALL)), 18);
    }
}
