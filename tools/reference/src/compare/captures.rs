//! Made-up fittings files and captures.

use super::packets::{self, Air};
use super::random::Random;
use super::scripts;

/// Blocks, and bytes behind them that are cut off from a further block.
#[derive(Clone, Debug, Default)]
pub struct Capture {
    pub blocks: Vec<Vec<u8>>,
    pub rest: Vec<u8>,
}

impl Capture {
    pub fn bytes(&self) -> Vec<u8> {
        let mut bytes = Vec::new();
        for block in &self.blocks {
            bytes.extend((block.len() as u16).to_be_bytes());
            bytes.extend(block);
        }
        bytes.extend(&self.rest);
        bytes
    }
}

#[derive(Clone, Debug)]
pub struct Case {
    pub fittings: Vec<String>,
    pub capture: Capture,
    pub other: Option<Capture>,
}

pub fn case(random: &mut Random) -> Case {
    let mut air = Air::default();
    let count = match random.below(12) {
        0 => 0,
        1 => random.between(31, 33),
        _ => random.between(1, 8),
    };
    let mut fittings: Vec<String> = (0..count).map(|_| scripts::fit(random, &mut air, 0)).collect();
    spoil_fittings(random, &mut fittings);
    let longest = random.pick(&[2, 8, 8, 40]);
    let count = random.below(longest + 1);
    let mut capture = Capture { blocks: (0..count).map(|_| packets::block(random, &air, 6)).collect(), rest: vec![] };
    if random.chance(5) {
        capture.rest = random.pick(&[&[0x00][..], &[0x02], &[0x00, 0x01], &[0x00, 0x04, 0x03, 0x00]]).to_vec();
    }
    let other = random.chance(50).then(|| varied(random, &air, &capture));
    Case { fittings, capture, other }
}

/// Comments, and now and then a line that is an error.
fn spoil_fittings(random: &mut Random, fittings: &mut Vec<String>) {
    if random.chance(30) {
        let index = random.below(fittings.len() + 1);
        fittings.insert(index, random.pick(&["# a comment", "", " \t"]).to_string());
    }
    if random.chance(8) {
        let index = random.below(fittings.len() + 1);
        let bad =
            random.pick(&["start", "new", "fit basic 511", "fit mobile short 0", "fit extended 70000", "take 10"]);
        fittings.insert(index, bad.to_string());
    }
}

/// A capture that is much like another, so that some decoders hear the same in both.
fn varied(random: &mut Random, air: &Air, capture: &Capture) -> Capture {
    let mut other = capture.clone();
    for _ in 0..random.below(4) {
        let index = random.below(other.blocks.len() + 1);
        match random.below(4) {
            0 if index < other.blocks.len() => {
                other.blocks.remove(index);
            }
            1 => other.blocks.insert(index, vec![0; random.below(5)]),
            2 if index < other.blocks.len() => {
                // Records in front move the others, and leave them as they are.
                let front = packets::phrase(random, air).concat();
                let block = &mut other.blocks[index];
                if block.len() + front.len() <= 512 {
                    block.splice(0..0, front);
                }
            }
            _ => other.blocks.insert(index, packets::block(random, air, 2)),
        }
    }
    other
}
