//! The program `bench`: one block to three decoders.

use crate::board::{Board, Lent};
use crate::decoder::{Address, Body, Speed};

pub fn lines(block: &[u8]) -> Vec<String> {
    let mut board = Board::default();
    for address in [Address::Short(3), Address::Basic(1), Address::Extended(1)] {
        board.fit(address, &Lent::ALL).expect("an empty board has room for three");
    }
    let taken = match board.take(block, &Lent::ALL) {
        Ok(taken) => taken,
        Err(fault) => return vec![format!("refused {}", fault.refusal.number())],
    };
    let mut lines: Vec<String> = board.decoders.iter().map(|decoder| show(&decoder.body)).collect();
    lines.push(format!("heard {} unheard {} refused {}", taken.heard, taken.unheard, taken.refused));
    if let Some(fault) = taken.fault {
        lines.push(format!("fault {} {}", fault.refusal.number(), fault.offset));
    }
    lines
}

fn show(body: &Body) -> String {
    match body {
        Body::Mobile(mobile) => {
            let direction = if mobile.forward { 'f' } else { 'r' };
            let speed = match mobile.speed {
                Speed::Stop => "stop".to_string(),
                Speed::EmergencyStop => "halt".to_string(),
                Speed::Step { step, scale } => format!("{step}/{scale}"),
            };
            format!("mobile 3 {direction} {speed} on {}", numbers_on(&mobile.functions, "-"))
        }
        Body::Basic { outputs, .. } => format!("basic 1 on {}", numbers_on(outputs, "-")),
        Body::Extended { aspect, .. } => format!("extended 1 aspect {aspect}"),
    }
}

/// The places that are on, with commas between, or the word for none.
pub fn numbers_on(places: &[bool], none: &str) -> String {
    let on: Vec<String> =
        places.iter().enumerate().filter(|(_, &on)| on).map(|(number, _)| number.to_string()).collect();
    if on.is_empty() {
        none.to_string()
    } else {
        on.join(",")
    }
}

#[cfg(test)]
mod tests {
    use super::*;

    #[test]
    fn one_block() {
        let block = [3, 0x03, 0x74, 0x77, 3, 0x81, 0xF8, 0x79, 4, 0x80, 0x73, 0x05, 0xF6, 3, 0xFF, 0, 0xFF, 2];
        let expected = [
            "mobile 3 f 6/28 on -",
            "basic 1 on 0",
            "extended 1 aspect 5",
            "heard 3 unheard 1 refused 0",
            "fault 11 17",
        ];
        assert_eq!(lines(&block), expected);
        assert_eq!(lines(&[]), ["refused 10"]);
    }
}
