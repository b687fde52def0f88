//! What the bytes of a packet say.

use crate::refusal::Refusal;

pub const BASIC_BROADCAST: u16 = 511;
pub const EXTENDED_BROADCAST: u16 = 2047;

/// Whom a packet is for.
#[derive(Clone, Copy, Debug, PartialEq, Eq)]
pub enum Target {
    Idle,
    AllMobiles,
    Short(u8),
    Long(u16),
    Basic(u16),
    Extended(u16),
}

/// What a packet asks for. Variables (`cv`) are numbered from 1.
#[derive(Clone, Copy, Debug, PartialEq, Eq)]
pub enum Order {
    Nothing,
    Reset,
    HardReset,
    AdvancedAddressing(bool),
    AcknowledgmentRequest,
    Consist {
        address: u8,
        reversed: bool,
    },
    Speed126 {
        forward: bool,
        code: u8,
    },
    SpeedFive {
        forward: bool,
        code: u8,
    },
    /// F1 to F4 in bits 0 to 3, FL in bit 4.
    GroupOne(u8),
    Group {
        first: u8,
        count: u8,
        bits: u8,
    },
    StateShort {
        number: u16,
        on: bool,
    },
    StateLong {
        number: u16,
        on: bool,
    },
    ShortWrite {
        cv: u16,
        value: u8,
    },
    Access {
        cv: u16,
        access: Access,
    },
    Output {
        number: u8,
        on: bool,
    },
    Aspect(u8),
}

/// The long-form instructions.
#[derive(Clone, Copy, Debug, PartialEq, Eq)]
pub enum Access {
    Verify(u8),
    Write(u8),
    VerifyBit { bit: u8, value: bool },
    WriteBit { bit: u8, value: bool },
}

#[derive(Clone, Debug, PartialEq, Eq)]
pub struct Packet {
    pub target: Target,
    pub order: Order,
    pub bytes: Vec<u8>,
}

/// Reads a packet, or tells the first cause why it is refused.
pub fn read(bytes: &[u8]) -> Result<Packet, Refusal> {
    if !(3..=6).contains(&bytes.len()) {
        return Err(Refusal::PacketLength);
    }
    if bytes.iter().fold(0, |sum, byte| sum ^ byte) != 0 {
        return Err(Refusal::ErrorByte);
    }
    let body = &bytes[..bytes.len() - 1];
    let (target, order) = match body[0] {
        0x00 => (Target::AllMobiles, mobile_order(&body[1..])?),
        short @ 0x01..=0x7F => (Target::Short(short), mobile_order(&body[1..])?),
        0x80..=0xBF => accessory(body)?,
        0xC0..=0xE7 if body.len() == 2 => return Err(Refusal::NoInstruction),
        high @ 0xC0..=0xE7 => {
            let address = u16::from(high - 0xC0) * 256 + u16::from(body[1]);
            (Target::Long(address), mobile_order(&body[2..])?)
        }
        0xE8..=0xFC => return Err(Refusal::ReservedAddress),
        0xFD | 0xFE => return Err(Refusal::AdvancedFormat),
        0xFF if body == [0xFF, 0x00] => (Target::Idle, Order::Nothing),
        0xFF => return Err(Refusal::IdleForm),
    };
    Ok(Packet { target, order, bytes: bytes.to_vec() })
}

/// How many bytes the form has that this byte begins.
fn mobile_form(first: u8) -> Option<usize> {
    match first {
        0x00 | 0x01 | 0x0A | 0x0B | 0x0F | 0x40..=0xBF => Some(1),
        0x12 | 0x13 | 0x3F | 0xD8..=0xDF | 0xF2 | 0xF3 => Some(2),
        0xC0 | 0xE4..=0xEF => Some(3),
        _ => None,
    }
}

fn mobile_order(code: &[u8]) -> Result<Order, Refusal> {
    let first = code[0];
    let length = mobile_form(first).ok_or(Refusal::ReservedInstruction)?;
    if code.len() != length {
        return Err(Refusal::InstructionLength);
    }
    let second = code.get(1).copied().unwrap_or(0);
    let (top, low_seven) = (second & 0x80 != 0, second & 0x7F);
    let eight = |lowest| Order::Group { first: lowest, count: 8, bits: second };
    Ok(match first {
        0x00 => Order::Reset,
        0x01 => Order::HardReset,
        0x0A | 0x0B => Order::AdvancedAddressing(first == 0x0B),
        0x0F => Order::AcknowledgmentRequest,
        0x12 | 0x13 if top => return Err(Refusal::ReservedInstruction),
        0x12 | 0x13 => Order::Consist { address: low_seven, reversed: first == 0x13 },
        0x3F => Order::Speed126 { forward: top, code: low_seven },
        0x40..=0x7F => Order::SpeedFive { forward: first >= 0x60, code: first & 0x1F },
        0x80..=0x9F => Order::GroupOne(first & 0x1F),
        0xA0..=0xAF => Order::Group { first: 9, count: 4, bits: first & 0x0F },
        0xB0..=0xBF => Order::Group { first: 5, count: 4, bits: first & 0x0F },
        0xC0 => Order::StateLong { number: u16::from(low_seven) + 128 * u16::from(code[2]), on: top },
        0xD8..=0xDC => eight(29 + 8 * (first - 0xD8)),
        0xDD => Order::StateShort { number: u16::from(low_seven), on: top },
        0xDE => eight(13),
        0xDF => eight(21),
        0xF2 | 0xF3 => Order::ShortWrite { cv: 23 + u16::from(first - 0xF2), value: second },
        _ => return long_form(code),
    })
}

/// A long form by its bytes, E4 to EF first.
fn long_form(code: &[u8]) -> Result<Order, Refusal> {
    let &[first, low, data] = code else {
        return Err(Refusal::InstructionLength);
    };
    let cv = u16::from(first & 0x03) * 256 + u16::from(low) + 1;
    let (bit, value) = (data & 0x07, data & 0x08 != 0);
    let access = match (first, data) {
        (0xE4..=0xE7, _) => Access::Verify(data),
        (0xEC..=0xEF, _) => Access::Write(data),
        (_, 0xF0..=0xFF) => Access::WriteBit { bit, value },
        (_, 0xE0..=0xEF) => Access::VerifyBit { bit, value },
        _ => return Err(Refusal::ReservedInstruction),
    };
    Ok(Order::Access { cv, access })
}

fn accessory(body: &[u8]) -> Result<(Target, Order), Refusal> {
    let (first, second, rest) = (body[0], body[1], &body[2..]);
    let nine = 64 * u16::from(7 - (second >> 4) % 8) + u16::from(first % 64);
    if second & 0x80 != 0 {
        Ok((Target::Basic(nine), basic_order(second & 0x0F, rest)?))
    } else if second & 0x09 == 0x01 {
        let address = 4 * nine + u16::from(second / 2 % 4);
        Ok((Target::Extended(address), extended_order(rest)?))
    } else {
        Err(Refusal::AccessoryHead)
    }
}

fn basic_order(cddd: u8, rest: &[u8]) -> Result<Order, Refusal> {
    match (cddd, rest) {
        (_, []) => Ok(Order::Output { number: cddd & 0x07, on: cddd & 0x08 != 0 }),
        (0, [0xE4..=0xEF, ..]) => long_form(rest),
        (0, _) => Err(Refusal::ReservedInstruction),
        _ => Err(Refusal::InstructionLength),
    }
}

fn extended_order(rest: &[u8]) -> Result<Order, Refusal> {
    match rest {
        [aspect @ 0x00..=0x1F] => Ok(Order::Aspect(*aspect)),
        [] | [0x00..=0x1F, ..] => Err(Refusal::InstructionLength),
        [0xE4..=0xEF, ..] => long_form(rest),
        _ => Err(Refusal::ReservedInstruction),
    }
}

#[cfg(test)]
mod tests {
    use super::*;

    fn told(bytes: &[u8]) -> (Target, Order) {
        let packet = read(bytes).expect("a lawful packet");
        (packet.target, packet.order)
    }

    #[test]
    fn documented_packets() {
        assert_eq!(told(&[0, 0, 0]), (Target::AllMobiles, Order::Reset));
        assert_eq!(told(&[0xFF, 0, 0xFF]), (Target::Idle, Order::Nothing));
        assert_eq!(
            told(&[0x03, 0xC0, 0x81, 0x01, 0x43]),
            (Target::Short(3), Order::StateLong { number: 129, on: true })
        );
        assert_eq!(
            told(&[0x03, 0xEC, 0x03, 0x0A, 0xE6]),
            (Target::Short(3), Order::Access { cv: 4, access: Access::Write(10) })
        );
        assert_eq!(told(&[0xC3, 0xE8, 0x90, 0xBB]), (Target::Long(1000), Order::GroupOne(0x10)));
        assert_eq!(told(&[0x80, 0x73, 0x05, 0xF6]), (Target::Extended(1), Order::Aspect(5)));
        assert_eq!(told(&[0xBF, 0x88, 0x37]), (Target::Basic(511), Order::Output { number: 0, on: true }));
        assert_eq!(told(&[0xBF, 0x07, 0x00, 0xB8]), (Target::Extended(2047), Order::Aspect(0)));
    }

    #[test]
    fn causes_in_their_order() {
        let cause = |bytes: &[u8]| read(bytes).expect_err("a refused packet").number();
        assert_eq!(cause(&[0, 0]), 1);
        assert_eq!(cause(&[0; 7]), 1);
        assert_eq!(cause(&[0xFD, 0, 0]), 2);
        assert_eq!(cause(&[0xE8, 0, 0xE8]), 3);
        assert_eq!(cause(&[0xFE, 0, 0xFE]), 4);
        assert_eq!(cause(&[0xFF, 1, 0xFE]), 5);
        assert_eq!(cause(&[0xC0, 0x02, 0xC2]), 6);
        assert_eq!(cause(&[0x03, 0xE0, 0, 0, 0xE3]), 7);
        assert_eq!(cause(&[0x03, 0x74, 0x74, 0x03]), 8);
        assert_eq!(cause(&[0x80, 0x08, 0x88]), 9);
        assert_eq!(cause(&[0x03, 0x12, 0x85, 0x94]), 7, "bit 7 of a consist address");
        assert_eq!(cause(&[0x03, 0x12, 0x85, 0, 0x94]), 8, "the length comes before a later byte");
        assert_eq!(cause(&[0x80, 0x71, 0xF1]), 8, "an extended head alone");
        assert_eq!(cause(&[0x81, 0xF1, 0xE4, 0x94]), 8, "CDDD other than 0000");
        assert_eq!(cause(&[0x81, 0xF0, 0x00, 0x71]), 7, "CDDD = 0000");
    }
}
