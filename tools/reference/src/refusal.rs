//! Why something is refused.

use std::fmt;

/// A cause of refusal. Those of calls that no program offers are left out.
#[derive(Clone, Copy, Debug, PartialEq, Eq)]
pub enum Refusal {
    PacketLength = 1,
    ErrorByte,
    ReservedAddress,
    AdvancedFormat,
    IdleForm,
    NoInstruction,
    ReservedInstruction,
    InstructionLength,
    AccessoryHead,
    BlockLength,
    UnknownKind,
    BodyCutOff,
    NonzeroFill,
    FittedAddress,
    BankFull,
    TooFewCells,
    LentTooShort,
    NoSuchDecoder,
    NumberOutOfRange,
}

impl Refusal {
    pub fn number(self) -> u8 {
        self as u8
    }

    pub fn layer(self) -> &'static str {
        match self.number() {
            1..=9 => "packet",
            10..=13 => "block",
            _ => "board",
        }
    }

    pub fn name(self) -> &'static str {
        match self {
            Refusal::PacketLength => "packet length not 3 to 6",
            Refusal::ErrorByte => "wrong error byte",
            Refusal::ReservedAddress => "reserved address",
            Refusal::AdvancedFormat => "advanced packet format",
            Refusal::IdleForm => "idle in another form",
            Refusal::NoInstruction => "long address without instruction",
            Refusal::ReservedInstruction => "reserved instruction or value",
            Refusal::InstructionLength => "instruction too short or too long",
            Refusal::AccessoryHead => "no accessory head",
            Refusal::BlockLength => "block length not 1 to 512",
            Refusal::UnknownKind => "unknown record kind",
            Refusal::BodyCutOff => "record cut off",
            Refusal::NonzeroFill => "byte after fill not zero",
            Refusal::FittedAddress => "address cannot be fitted",
            Refusal::BankFull => "bank or board full",
            Refusal::TooFewCells => "too few cells left",
            Refusal::LentTooShort => "bank or memory shorter than fitted",
            Refusal::NoSuchDecoder => "no such decoder",
            Refusal::NumberOutOfRange => "number out of range",
        }
    }

    pub fn at(self, offset: usize) -> Fault {
        Fault { refusal: self, offset }
    }
}

/// A refusal and where it was caused.
#[derive(Clone, Copy, Debug, PartialEq, Eq)]
pub struct Fault {
    pub refusal: Refusal,
    pub offset: usize,
}

/// The order of a script's answers: number, layer, offset, name.
impl fmt::Display for Fault {
    fn fmt(&self, f: &mut fmt::Formatter<'_>) -> fmt::Result {
        let Fault { refusal, offset } = self;
        write!(f, "{} {} {} {}", refusal.number(), refusal.layer(), offset, refusal.name())
    }
}
