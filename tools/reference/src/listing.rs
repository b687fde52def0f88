//! The program `listing`: the records of a block in words.

use crate::block::{self, Record};
use crate::packet::{self, Access, Order, Target, BASIC_BROADCAST, EXTENDED_BROADCAST};
use crate::refusal::Fault;
use crate::script::hex;

pub fn lines(block: &[u8]) -> Vec<String> {
    let contents = match block::split(block) {
        Ok(contents) => contents,
        Err(fault) => return vec![format!("refused {}", in_words(fault))],
    };
    let mut lines = Vec::new();
    let (mut accepted, mut refused, mut power_ups) = (0, 0, 0);
    for (offset, record) in contents.records {
        let (bytes, words) = match record {
            Record::PowerUp => {
                power_ups += 1;
                ("10".to_string(), "power-up".to_string())
            }
            Record::Packet(bytes) => match packet::read(bytes) {
                Ok(packet) => {
                    accepted += 1;
                    (hex(bytes), format!("{}: {}", target(packet.target), order(packet.order)))
                }
                Err(refusal) => {
                    refused += 1;
                    (hex(bytes), format!("refused {} {}", refusal.number(), refusal.name()))
                }
            },
        };
        lines.push(row(offset, &bytes, &words));
    }
    if contents.fill > 0 {
        lines.push(row(block.len() - contents.fill, "00", "fill to the end of the block"));
    }
    if let Some(fault) = contents.fault {
        lines.push(format!("fault {}", in_words(fault)));
    }
    lines.push(format!(
        "packets {}, accepted {accepted}, refused {refused}, power-ups {power_ups}, fill {}",
        accepted + refused,
        contents.fill
    ));
    lines
}

fn row(offset: usize, bytes: &str, words: &str) -> String {
    format!("{offset:3}  {bytes:17}  {words}")
}

fn in_words(fault: Fault) -> String {
    format!("{} {}, offset {}", fault.refusal.number(), fault.refusal.name(), fault.offset)
}

fn target(target: Target) -> String {
    match target {
        Target::Idle => "idle".to_string(),
        Target::AllMobiles => "all mobiles".to_string(),
        Target::Short(address) => format!("short {address}"),
        Target::Long(address) => format!("long {address}"),
        Target::Basic(BASIC_BROADCAST) => "all basic".to_string(),
        Target::Basic(address) => format!("basic {address}"),
        Target::Extended(EXTENDED_BROADCAST) => "all extended".to_string(),
        Target::Extended(address) => format!("extended {address}"),
    }
}

fn order(order: Order) -> String {
    let switch = |on| if on { "on" } else { "off" };
    match order {
        Order::Nothing => "no operation".to_string(),
        Order::Reset => "reset".to_string(),
        Order::HardReset => "hard reset".to_string(),
        Order::AdvancedAddressing(on) => format!("advanced addressing {}", switch(on)),
        Order::AcknowledgmentRequest => "acknowledgment request".to_string(),
        Order::Consist { address, reversed } => {
            let whose = if address == 0 { "none".to_string() } else { address.to_string() };
            format!("consist {whose}{}", if reversed { " reversed" } else { "" })
        }
        Order::Speed126 { forward, code } => format!("speed {} {}", direction(forward), speed_126(code)),
        Order::SpeedFive { forward, code } => format!("speed {} {}", direction(forward), speed_five(code)),
        // FL stands in the highest bit but is the lowest function.
        Order::GroupOne(bits) => group(0, 5, bits << 1 & 0x1E | bits >> 4),
        Order::Group { first, count, bits } => group(first, count, bits),
        Order::StateShort { number: 0, on } => format!("binary states 1 to 127 {}", switch(on)),
        Order::StateLong { number: 0, on } => format!("all binary states {}", switch(on)),
        Order::StateShort { number, on } | Order::StateLong { number, on } => {
            format!("binary state {number} {}", switch(on))
        }
        Order::ShortWrite { cv, value } => format!("write CV {cv} = {value}"),
        Order::Access { cv, access } => accessing(cv, access),
        Order::Output { number, on } => format!("output {number} {}", switch(on)),
        Order::Aspect(aspect) => format!("aspect {aspect}"),
    }
}

fn direction(forward: bool) -> &'static str {
    if forward {
        "forward"
    } else {
        "reverse"
    }
}

fn speed_126(code: u8) -> String {
    match code {
        0 => "stop of 126".to_string(),
        1 => "emergency stop of 126".to_string(),
        _ => format!("step {} of 126", code - 1),
    }
}

fn speed_five(code: u8) -> String {
    let (s, c) = (code & 0x0F, code >> 4);
    let fl = if c == 1 { "on" } else { "off" };
    match s {
        0 => format!("stop, in 14 steps FL {fl}"),
        1 => format!("emergency stop, in 14 steps FL {fl}"),
        _ => format!("step {} of 28, in 14 steps {} and FL {fl}", 2 * (s - 2) + c + 1, s - 1),
    }
}

fn group(first: u8, count: u8, bits: u8) -> String {
    let on: Vec<String> = (0..count).filter(|bit| bits >> bit & 1 == 1).map(|bit| (first + bit).to_string()).collect();
    let on = if on.is_empty() { "-".to_string() } else { on.join(",") };
    format!("functions {first} to {} on {on}", first + count - 1)
}

fn accessing(cv: u16, access: Access) -> String {
    match access {
        Access::Verify(byte) => format!("verify CV {cv} = {byte}"),
        Access::Write(byte) => format!("write CV {cv} = {byte}"),
        Access::VerifyBit { bit, value } => format!("verify CV {cv} bit {bit} = {}", u8::from(value)),
        Access::WriteBit { bit, value } => format!("write CV {cv} bit {bit} = {}", u8::from(value)),
    }
}

#[cfg(test)]
mod tests {
    use super::*;

    #[test]
    fn rows_and_counts() {
        let block = [0x10, 3, 0x03, 0x74, 0x77, 4, 0xC3, 0xE8, 0x90, 0xBB, 5, 0x03, 0xE0, 0, 0, 0xE3, 0, 0];
        let expected = [
            "  0  10                 power-up",
            "  1  03 74 77           short 3: speed forward step 6 of 28, in 14 steps 3 and FL on",
            "  5  C3 E8 90 BB        long 1000: functions 0 to 4 on 0",
            " 10  03 E0 00 00 E3     refused 7 reserved instruction or value",
            " 16  00                 fill to the end of the block",
            "packets 3, accepted 2, refused 1, power-ups 1, fill 2",
        ];
        assert_eq!(lines(&block), expected);
        assert_eq!(lines(&[]), ["refused 10 block length not 1 to 512, offset 0"]);
    }
}
