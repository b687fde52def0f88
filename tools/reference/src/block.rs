//! The records of a block.

use crate::refusal::{Fault, Refusal};

pub const LONGEST: usize = 512;

#[derive(Clone, Copy, Debug, PartialEq, Eq)]
pub enum Record<'a> {
    PowerUp,
    Packet(&'a [u8]),
}

/// What a block carries, each record with its offset.
#[derive(Clone, Debug, PartialEq, Eq)]
pub struct Contents<'a> {
    pub records: Vec<(usize, Record<'a>)>,
    pub fault: Option<Fault>,
    /// How many bytes of fill end the block; none where the fill is spoiled.
    pub fill: usize,
}

pub fn split(block: &[u8]) -> Result<Contents<'_>, Fault> {
    if block.is_empty() || block.len() > LONGEST {
        return Err(Refusal::BlockLength.at(0));
    }
    let mut contents = Contents { records: Vec::new(), fault: None, fill: 0 };
    let mut offset = 0;
    while let Some((&kind, rest)) = block[offset..].split_first() {
        match kind {
            0x00 => {
                match rest.iter().position(|&byte| byte != 0) {
                    Some(zeros) => contents.fault = Some(Refusal::NonzeroFill.at(offset + 1 + zeros)),
                    None => contents.fill = 1 + rest.len(),
                }
                break;
            }
            0x10 => {
                contents.records.push((offset, Record::PowerUp));
                offset += 1;
            }
            0x03..=0x06 => {
                let Some(packet) = rest.get(..usize::from(kind)) else {
                    contents.fault = Some(Refusal::BodyCutOff.at(offset));
                    break;
                };
                contents.records.push((offset, Record::Packet(packet)));
                offset += 1 + packet.len();
            }
            _ => {
                contents.fault = Some(Refusal::UnknownKind.at(offset));
                break;
            }
        }
    }
    Ok(contents)
}

#[cfg(test)]
mod tests {
    use super::*;

    fn fault(block: &[u8]) -> Option<(u8, usize)> {
        let contents = split(block).expect("a block of lawful length");
        contents.fault.map(|fault| (fault.refusal.number(), fault.offset))
    }

    #[test]
    fn documented_blocks() {
        assert_eq!(split(&[0, 0, 0]), Ok(Contents { records: vec![], fault: None, fill: 3 }));
        let reset = split(&[3, 0, 0, 0]).expect("a lawful block");
        assert_eq!(reset.records, [(0, Record::Packet(&[0, 0, 0]))]);
        assert_eq!(fault(&[2]), Some((11, 0)));
        assert_eq!(fault(&[3, 3, 0x74]), Some((12, 0)));
        assert_eq!(fault(&[0, 1]), Some((13, 1)));
        assert_eq!(fault(&[0x10, 0, 0, 0, 5, 6]), Some((13, 4)));
    }

    #[test]
    fn lengths() {
        assert_eq!(split(&[]), Err(Refusal::BlockLength.at(0)));
        assert_eq!(split(&[0; 513]), Err(Refusal::BlockLength.at(0)));
        assert!(split(&[0; 512]).is_ok());
    }
}
