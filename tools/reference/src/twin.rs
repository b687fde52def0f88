//! Captures, and the comparison of two boards that take them.

use crate::board::{Board, Event, Lent, Taken};
use crate::decoder::{Address, Decoder};
use crate::refusal::Fault;
use crate::script::{self, Line};

/// What a comparison prints, and whether it is a success.
pub struct Outcome {
    pub lines: Vec<String>,
    pub success: bool,
}

/// What became of one capture on one board.
struct Ride {
    board: Board,
    /// By slot.
    events: Vec<Vec<Event>>,
    counts: Counts,
}

#[derive(Default)]
struct Counts {
    heard: usize,
    unheard: usize,
    refused: usize,
    blocks_refused: usize,
    faults: usize,
    fill: usize,
}

pub fn run(fittings: &str, capture: &[u8], other: Option<&[u8]>) -> Result<Outcome, String> {
    let addresses = parse_fittings(fittings)?;
    let first = blocks(capture)?;
    let second = other.map(blocks).transpose()?;
    let one = ride(&addresses, &first)?;
    let two = ride(&addresses, second.as_ref().unwrap_or(&first))?;
    let mut lines = heading(&one, first.len());
    if let Some(second) = second {
        lines.extend(heading(&two, second.len()));
        Ok(apart(lines, &one, &two))
    } else {
        Ok(alike(lines, &one.board, &two.board))
    }
}

fn parse_fittings(text: &str) -> Result<Vec<Address>, String> {
    let mut addresses = Vec::new();
    for (index, line) in text.split('\n').enumerate() {
        match script::parse(line) {
            Ok(None) => {}
            Ok(Some(Line::Fit(address))) => addresses.push(address),
            _ => return Err(format!("line {}: bad line", index + 1)),
        }
    }
    Ok(addresses)
}

/// The blocks of a capture, each behind its length.
fn blocks(mut capture: &[u8]) -> Result<Vec<&[u8]>, String> {
    let mut blocks = Vec::new();
    while !capture.is_empty() {
        let (length, rest) = capture.split_first_chunk().ok_or("the capture ends within a length")?;
        let length = usize::from(u16::from_be_bytes(*length));
        if rest.len() < length {
            return Err("the capture ends within a block".to_string());
        }
        let (block, rest) = rest.split_at(length);
        blocks.push(block);
        capture = rest;
    }
    Ok(blocks)
}

/// A board with these decoders.
fn fitted(addresses: &[Address]) -> Result<Board, String> {
    let mut board = Board::default();
    for &address in addresses {
        board.fit(address, &Lent::ALL).map_err(|fault| format!("refused {fault}"))?;
    }
    Ok(board)
}

impl Counts {
    fn add(&mut self, taken: Result<Taken, Fault>) {
        let Ok(taken) = taken else {
            self.blocks_refused += 1;
            return;
        };
        self.heard += taken.heard;
        self.unheard += taken.unheard;
        self.refused += taken.refused;
        self.faults += usize::from(taken.fault.is_some());
        self.fill += usize::from(taken.fill > 0);
    }
}

fn ride(addresses: &[Address], blocks: &[&[u8]]) -> Result<Ride, String> {
    let mut board = fitted(addresses)?;
    let mut events = vec![Vec::new(); addresses.len()];
    let mut counts = Counts::default();
    for block in blocks {
        counts.add(board.take_watched(block, &Lent::ALL, |slot, happening| events[slot].push(happening.into())));
    }
    Ok(Ride { board, events, counts })
}

/// A capture on one board: the counts, and the digest.
pub fn replay(fittings: &str, capture: &[u8]) -> Result<Vec<String>, String> {
    let blocks = blocks(capture)?;
    let mut board = fitted(&parse_fittings(fittings)?)?;
    let mut counts = Counts::default();
    for block in &blocks {
        counts.add(board.take(block, &Lent::ALL));
    }
    let ride = Ride { board, events: Vec::new(), counts };
    let mut lines = heading(&ride, blocks.len());
    lines.push(format!("digest {:016x}", digest(&ride.board)));
    Ok(lines)
}

fn heading(ride: &Ride, blocks: usize) -> Vec<String> {
    let Counts { heard, unheard, refused, blocks_refused, faults, fill } = ride.counts;
    vec![
        format!("decoders {} blocks {blocks}", ride.board.decoders.len()),
        format!("heard {heard} unheard {unheard} refused {refused} ")
            + &format!("blocks-refused {blocks_refused} faults {faults} fill {fill}"),
    ]
}

fn alike(mut lines: Vec<String>, one: &Board, two: &Board) -> Outcome {
    for (slot, name) in one.names().into_iter().enumerate() {
        if let Some(field) = first_difference(&one.decoders[slot], &two.decoders[slot]) {
            lines.push(format!("differ {} {} {field}", name.kind.word(), name.number));
            return Outcome { lines, success: false };
        }
    }
    lines.push(format!("alike {:016x}", digest(one)));
    Outcome { lines, success: true }
}

fn apart(mut lines: Vec<String>, one: &Ride, two: &Ride) -> Outcome {
    let word = |same| if same { "alike" } else { "unlike" };
    let mut success = true;
    for (slot, name) in one.board.names().into_iter().enumerate() {
        let events = one.events[slot] == two.events[slot];
        let ended = first_difference(&one.board.decoders[slot], &two.board.decoders[slot]).is_none();
        let mut line = format!("{} {} events {} ended {}", name.kind.word(), name.number, word(events), word(ended));
        if events && !ended {
            line += " ISOLATION BROKEN";
            success = false;
        }
        lines.push(line);
    }
    Outcome { lines, success }
}

fn first_difference(one: &Decoder, two: &Decoder) -> Option<&'static str> {
    one.fields().into_iter().zip(two.fields()).find(|(a, b)| a != b).map(|((field, _), _)| field)
}

fn digest(board: &Board) -> u64 {
    let fields = board.decoders.iter().flat_map(|decoder| decoder.fields());
    fields
        .flat_map(|(_, bytes)| bytes)
        .fold(14_695_981_039_346_656_037, |sum, byte| (sum ^ u64::from(byte)).wrapping_mul(1_099_511_628_211))
}

#[cfg(test)]
mod tests {
    use super::*;

    #[test]
    fn an_empty_board_has_the_first_digest() {
        let outcome = run("# none", &[0, 3, 0, 0, 0, 0, 0, 0, 1, 2], None).expect("a lawful capture");
        let expected = [
            "decoders 0 blocks 3",
            "heard 0 unheard 0 refused 0 blocks-refused 1 faults 1 fill 1",
            "alike cbf29ce484222325",
        ];
        assert_eq!(outcome.lines, expected);
    }

    #[test]
    fn events_of_each_decoder() {
        let fittings = "fit mobile short 3\nfit basic 1";
        let one = [0, 4, 3, 0x03, 0x74, 0x77];
        let two = [0, 8, 3, 0x81, 0xF8, 0x79, 3, 0x03, 0x74, 0x77];
        let outcome = run(fittings, &one, Some(&two)).expect("lawful captures");
        assert_eq!(outcome.lines[4..], ["mobile 0 events alike ended alike", "basic 0 events unlike ended unlike"]);
    }

    #[test]
    fn errors() {
        assert!(run("", &[0], None).is_err());
        assert!(run("", &[0, 2, 0], None).is_err());
        assert!(run("start", &[], None).is_err());
        assert!(run("fit basic 511", &[], None).is_err());
    }
}
