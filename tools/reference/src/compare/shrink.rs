//! Making an input small that shows a difference.

use crate::block::{split, Record};

/// How many attempts one difference may cost.
pub struct Budget(usize);

impl Budget {
    pub fn new() -> Self {
        Budget(3000)
    }

    fn spend(&mut self) -> bool {
        let left = self.0 > 0;
        self.0 = self.0.saturating_sub(1);
        left
    }
}

impl Default for Budget {
    fn default() -> Self {
        Budget::new()
    }
}

/// Leaves off parts, large ones first, while the rest still differs.
pub fn shrink<T: Clone>(items: &[T], budget: &mut Budget, differs: &mut dyn FnMut(&[T]) -> bool) -> Vec<T> {
    let mut best = items.to_vec();
    let mut size = best.len().next_power_of_two();
    while size > 0 {
        let mut from = 0;
        let mut shorter = false;
        while from < best.len() && budget.spend() {
            let to = (from + size).min(best.len());
            let rest = [&best[..from], &best[to..]].concat();
            if differs(&rest) {
                best = rest;
                shorter = true;
            } else {
                from = to;
            }
        }
        // What could not go alone before may go now that others have gone.
        if size > 1 || !shorter {
            size /= 2;
        }
    }
    best
}

/// Leaves off whole records of a block before single bytes.
pub fn shrink_block(block: &[u8], budget: &mut Budget, differs: &mut dyn FnMut(&[u8]) -> bool) -> Vec<u8> {
    let records = shrink(&pieces(block), budget, &mut |rest| differs(&rest.concat()));
    shrink(&records.concat(), budget, differs)
}

/// The records that a block carries, and then all that stands behind them.
fn pieces(block: &[u8]) -> Vec<Vec<u8>> {
    let records = split(block).map_or(Vec::new(), |contents| contents.records);
    let mut pieces = Vec::new();
    let mut end = 0;
    for (offset, record) in records {
        end = offset + 1 + if let Record::Packet(bytes) = record { bytes.len() } else { 0 };
        pieces.push(block[offset..end].to_vec());
    }
    pieces.push(block[end..].to_vec());
    pieces
}

#[cfg(test)]
mod tests {
    use super::*;

    #[test]
    fn pieces_are_the_block() {
        let block = [0x10, 3, 0, 0, 0, 0x10, 0, 1];
        assert_eq!(pieces(&block), [&block[..1], &block[1..5], &block[5..6], &block[6..]]);
    }

    #[test]
    fn keeps_what_matters() {
        let items: Vec<usize> = (0..100).collect();
        let small = shrink(&items, &mut Budget::new(), &mut |rest| rest.contains(&17) && rest.contains(&80));
        assert_eq!(small, [17, 80]);
    }
}
