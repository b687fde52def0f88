//! Made-up packets, records and blocks.

use super::random::Random;

/// The addresses that packets are mostly sent to.
#[derive(Clone, Debug, Default)]
pub struct Air {
    pub shorts: Vec<u8>,
    pub longs: Vec<u16>,
    pub basics: Vec<u16>,
    pub extendeds: Vec<u16>,
}

/// Used for consists, besides the short addresses.
const CONSISTS: [u8; 4] = [5, 9, 100, 127];
/// The variables that rules speak of, and their neighbours.
const VARIABLES: [u16; 24] =
    [1, 1, 2, 4, 6, 7, 8, 9, 17, 18, 19, 23, 24, 29, 29, 29, 31, 32, 512, 513, 519, 520, 541, 1024];
const RESERVED_FIRST: [u8; 20] = [
    0x02, 0x09, 0x0C, 0x0E, 0x10, 0x11, 0x14, 0x1F, 0x20, 0x3E, 0xC1, 0xCF, 0xD0, 0xD7, 0xE0, 0xE3, 0xF0, 0xF1, 0xF4,
    0xFF,
];

impl Air {
    pub fn of_bench() -> Self {
        Air { shorts: vec![3], longs: vec![], basics: vec![1], extendeds: vec![1] }
    }
}

/// Whom a head addresses, and so what may follow it.
#[derive(Clone, Copy, Debug, PartialEq, Eq)]
enum Head {
    Mobile,
    Basic,
    Extended,
}

pub fn with_error_byte(mut bytes: Vec<u8>) -> Vec<u8> {
    bytes.push(bytes.iter().fold(0, |sum, byte| sum ^ byte));
    bytes
}

pub fn record(packet: &[u8]) -> Vec<u8> {
    let mut bytes = vec![packet.len() as u8];
    bytes.extend(packet);
    bytes
}

fn long_head(address: u16) -> Vec<u8> {
    vec![0xC0 + (address >> 8) as u8, address as u8]
}

fn basic_head(address: u16, cddd: u8) -> Vec<u8> {
    let high = 7 - (address >> 6 & 7) as u8;
    vec![0x80 | (address & 63) as u8, 0x80 | high << 4 | cddd]
}

fn extended_head(address: u16) -> Vec<u8> {
    let high = 7 - (address >> 8 & 7) as u8;
    vec![0x80 | (address >> 2 & 63) as u8, high << 4 | (address as u8 & 3) << 1 | 1]
}

fn one_of<T: Copy>(random: &mut Random, known: &[T], other: T) -> T {
    if known.is_empty() || random.chance(10) {
        other
    } else {
        random.pick(known)
    }
}

fn mobile_head(random: &mut Random, air: &Air) -> Vec<u8> {
    let any_short = random.between(1, 127) as u8;
    let any_long = random.below(10240) as u16;
    let shorts = if air.shorts.is_empty() { 4 } else { 40 };
    let longs = if air.longs.is_empty() { 4 } else { 30 };
    match random.weighted(&[12, 12, shorts, longs]) {
        0 => vec![0x00],
        1 => vec![random.pick(&CONSISTS)],
        2 => vec![one_of(random, &air.shorts, any_short)],
        _ => long_head(one_of(random, &air.longs, any_long)),
    }
}

fn basic_address(random: &mut Random, air: &Air) -> u16 {
    let any = random.below(512) as u16;
    if random.chance(15) {
        511
    } else {
        one_of(random, &air.basics, any)
    }
}

fn extended_address(random: &mut Random, air: &Air) -> u16 {
    let any = random.below(2048) as u16;
    if random.chance(15) {
        2047
    } else {
        one_of(random, &air.extendeds, any)
    }
}

/// Mostly a kind that somebody listens to.
fn kind(random: &mut Random, air: &Air) -> Head {
    let mobiles = air.shorts.len() + air.longs.len();
    let weight = |listeners: usize, usual: usize| if listeners == 0 { 1 } else { usual };
    match random.weighted(&[weight(mobiles, 24), weight(air.basics.len(), 7), weight(air.extendeds.len(), 7)]) {
        0 => Head::Mobile,
        1 => Head::Basic,
        _ => Head::Extended,
    }
}

/// A head that a long form may follow.
fn any_head(random: &mut Random, air: &Air) -> (Head, Vec<u8>) {
    let kind = kind(random, air);
    let bytes = match kind {
        Head::Mobile => mobile_head(random, air),
        Head::Basic => basic_head(basic_address(random, air), 0),
        Head::Extended => extended_head(extended_address(random, air)),
    };
    (kind, bytes)
}

fn variable(random: &mut Random) -> u16 {
    if random.chance(85) {
        random.pick(&VARIABLES)
    } else {
        random.between(1, 1024) as u16
    }
}

/// A byte that is worth writing to the variable.
pub fn value_for(random: &mut Random, cv: u16) -> u8 {
    let any = random.byte();
    match cv {
        1 => random.pick(&[3, 3, 5, 9, 0, 127, 128, any]),
        17 => random.pick(&[191, 192, 195, 231, 232, any]),
        18 => random.pick(&[0, 232, any]),
        19 => random.pick(&[0, 3, 5, 9, 128, 131, 133, any]),
        29 => random.pick(&[0, 2, 8, 10, 10, 10, 32, 34, 40, 42, any]),
        541 => random.pick(&[0, 8, 8, 8, any]),
        _ => random.pick(&[0, 1, 16, 255, any]),
    }
}

fn long_form(random: &mut Random, base: u8, cv: u16, data: u8) -> Vec<u8> {
    // Bit operations look alike but for their last byte.
    let data = if base == 0xE8 { 0xE0 | random.pick(&[0x10, 0x10, 0x00]) | data & 0x0F } else { data };
    let wire = cv - 1;
    vec![base | (wire >> 8) as u8, wire as u8, data]
}

fn any_long_form(random: &mut Random) -> Vec<u8> {
    let cv = variable(random);
    let data = value_for(random, cv);
    let base = random.pick(&[0xE4, 0xE8, 0xEC, 0xEC]);
    long_form(random, base, cv, data)
}

fn speed(random: &mut Random) -> Vec<u8> {
    let any = random.byte();
    match random.below(5) {
        0 | 1 => vec![0x40 + random.below(64) as u8],
        2 => vec![0x40 + random.pick(&[0x00, 0x01, 0x10, 0x11, 0x20, 0x21, 0x30, 0x31, 0x1F, 0x3F, 0x02, 0x32])],
        3 => vec![0x3F, random.pick(&[0x00, 0x01, 0x02, 0x7F, 0x80, 0x81, 0x82, 0xFF])],
        _ => vec![0x3F, any],
    }
}

fn mobile_instruction(random: &mut Random, air: &Air) -> Vec<u8> {
    let any = random.byte();
    match random.weighted(&[3, 3, 3, 3, 6, 24, 8, 4, 4, 8, 8, 10, 14, 4]) {
        0 => vec![0x00],
        1 => vec![0x01],
        2 => vec![random.pick(&[0x0A, 0x0B])],
        3 => vec![0x0F],
        4 => vec![random.pick(&[0x12, 0x13]), consist_address(random, air)],
        5 => speed(random),
        6 => vec![0x80 + random.below(32) as u8],
        7 => vec![0xA0 + random.below(16) as u8],
        8 => vec![0xB0 + random.below(16) as u8],
        9 => vec![random.pick(&[0xD8, 0xD9, 0xDA, 0xDB, 0xDC, 0xDE, 0xDF]), any],
        10 => vec![0xDD, random.pick(&[0x00, 0x80, 0x01, 0x81, 0xFF, any])],
        11 => vec![0xC0, random.pick(&[0x00, 0x80, 0x81, 0xFF, any]), random.pick(&[0, 0, 1, 15, 16, 255, any])],
        12 => any_long_form(random),
        _ => vec![random.pick(&[0xF2, 0xF3]), any],
    }
}

fn consist_address(random: &mut Random, air: &Air) -> u8 {
    match random.below(8) {
        0 => 0,
        1 => random.below(128) as u8,
        2 if !air.shorts.is_empty() => random.pick(&air.shorts) & 0x7F,
        _ => random.pick(&CONSISTS),
    }
}

/// A lawful packet without its error byte.
fn lawful(random: &mut Random, air: &Air) -> Vec<u8> {
    if random.chance(3) {
        return vec![0xFF, 0x00];
    }
    let (kind, head) = any_head(random, air);
    let order = match kind {
        Head::Mobile => mobile_instruction(random, air),
        _ if random.chance(25) => any_long_form(random),
        Head::Basic => {
            let cddd = random.below(16) as u8;
            return basic_head(basic_address(random, air), cddd);
        }
        Head::Extended => vec![random.below(32) as u8],
    };
    [head, order].concat()
}

fn lawful_record(random: &mut Random, air: &Air) -> Vec<u8> {
    record(&with_error_byte(lawful(random, air)))
}

fn own_variables(head: Head) -> u16 {
    if head == Head::Mobile {
        0
    } else {
        512
    }
}

/// A write, twice, with or without something between, and sometimes a verify behind it.
fn write_pair(random: &mut Random, air: &Air) -> Vec<Vec<u8>> {
    let (head, bytes) = any_head(random, air);
    let cv = match random.below(6) {
        0 => own_variables(head) + random.pick(&[7, 8]),
        1 | 2 => own_variables(head) + 29,
        _ => variable(random),
    };
    let value = value_for(random, cv);
    let base = random.pick(&[0xE8, 0xEC, 0xEC]);
    let order = long_form(random, base, cv, value);
    let write = record(&with_error_byte([bytes.clone(), order].concat()));
    let mut records = vec![write.clone()];
    if random.chance(35) {
        records.push(interruption(random, air, &write));
    }
    records.push(write);
    if random.chance(40) {
        let check = if random.chance(70) { value } else { random.byte() };
        let verify = long_form(random, 0xE4, cv, check);
        records.push(record(&with_error_byte([bytes, verify].concat())));
    }
    records
}

fn interruption(random: &mut Random, air: &Air, write: &[u8]) -> Vec<u8> {
    match random.below(5) {
        0 => vec![0x10],
        1 => {
            // The same write with another last bit is another packet.
            let mut packet = write[1..write.len() - 1].to_vec();
            if let Some(last) = packet.last_mut() {
                *last ^= 1;
            }
            record(&with_error_byte(packet))
        }
        2 => damaged(random, air),
        _ => lawful_record(random, air),
    }
}

/// A consist is made, and then speed and other things are sent to its address.
fn consist_use(random: &mut Random, air: &Air) -> Vec<Vec<u8>> {
    let address = consist_address(random, air);
    let make = [mobile_head(random, air), vec![random.pick(&[0x12, 0x13]), address]].concat();
    let mut records = vec![record(&with_error_byte(make))];
    for _ in 0..random.between(1, 4) {
        let order = if random.chance(70) { speed(random) } else { mobile_instruction(random, air) };
        let head = if random.chance(65) && address > 0 { vec![address] } else { mobile_head(random, air) };
        records.push(record(&with_error_byte([head, order].concat())));
    }
    records
}

/// Replies are enabled by a write pair, and then something is sent to the same decoder.
fn reply_use(random: &mut Random, air: &Air) -> Vec<Vec<u8>> {
    let (head, bytes) = any_head(random, air);
    let cv = own_variables(head) + 29;
    let value = if head == Head::Mobile { random.pick(&[8, 10, 42]) } else { 8 };
    let order = long_form(random, 0xEC, cv, value);
    let write = record(&with_error_byte([bytes.clone(), order].concat()));
    let mut records = vec![write.clone(), write];
    for _ in 0..random.between(1, 3) {
        let order = match head {
            Head::Mobile => mobile_instruction(random, air),
            _ if random.chance(30) => long_form(random, 0xE4, cv, value),
            _ => any_long_form(random),
        };
        records.push(record(&with_error_byte([bytes.clone(), order].concat())));
    }
    records
}

/// A lawful packet that was spoiled on its way; the kind byte tells the new length.
fn damaged(random: &mut Random, air: &Air) -> Vec<u8> {
    let mut packet = with_error_byte(lawful(random, air));
    match random.below(3) {
        0 => {
            let index = random.below(packet.len());
            packet[index] ^= 1 << random.below(8);
        }
        1 if packet.len() > 3 => {
            packet.remove(random.below(packet.len()));
        }
        _ => {
            let index = random.below(packet.len());
            packet[index] = random.byte();
        }
    }
    record(&packet)
}

/// A packet with a right error byte that is refused for something else.
fn reserved(random: &mut Random, air: &Air) -> Vec<u8> {
    let any = random.byte();
    let head = mobile_head(random, air);
    let mut packet = match random.below(10) {
        0 => vec![random.between(0xE8, 0xFC) as u8, any],
        1 => vec![random.pick(&[0xFD, 0xFE]), any],
        2 => vec![0xFF, any, random.byte()],
        3 => vec![random.between(0xC0, 0xE7) as u8, any],
        4 => vec![random.between(0x80, 0xBF) as u8, any & 0x7F | random.pick(&[0x08, 0x00]), random.byte()],
        5 => [head, vec![random.pick(&RESERVED_FIRST), any]].concat(),
        6 => [head, vec![random.pick(&[0x12, 0x13]), any | 0x80]].concat(),
        7 => [head, vec![random.between(0xE8, 0xEB) as u8, any, random.byte()]].concat(),
        8 => [basic_head(basic_address(random, air), any & 0x0F), random.bytes(1)].concat(),
        _ => extended_head(extended_address(random, air)),
    };
    if random.chance(15) {
        packet.push(any);
    }
    packet.truncate(5);
    record(&with_error_byte(packet))
}

/// An instruction with a byte too many or too few.
fn wrong_length(random: &mut Random, air: &Air) -> Vec<u8> {
    let mut packet = lawful(random, air);
    if random.chance(50) && packet.len() < 5 {
        packet.push(random.byte());
    } else if packet.len() > 2 {
        packet.pop();
    }
    record(&with_error_byte(packet))
}

fn random_record(random: &mut Random) -> Vec<u8> {
    let count = random.between(3, 6);
    if random.chance(50) {
        record(&random.bytes(count))
    } else {
        record(&with_error_byte(random.bytes(count - 1)))
    }
}

/// A few records that belong together.
pub fn phrase(random: &mut Random, air: &Air) -> Vec<Vec<u8>> {
    match random.weighted(&[30, 18, 9, 7, 6, 7, 4, 4, 3]) {
        0 => vec![lawful_record(random, air)],
        1 => write_pair(random, air),
        2 => consist_use(random, air),
        3 => reply_use(random, air),
        4 => vec![damaged(random, air)],
        5 => vec![reserved(random, air)],
        6 => vec![wrong_length(random, air)],
        7 => vec![random_record(random)],
        _ => vec![vec![0x10]],
    }
}

fn length(pieces: &[Vec<u8>]) -> usize {
    pieces.iter().map(Vec::len).sum()
}

/// A block: its records, and how it ends.
pub fn block(random: &mut Random, air: &Air, phrases: usize) -> Vec<u8> {
    let mut pieces: Vec<Vec<u8>> = (0..random.below(phrases + 1)).flat_map(|_| phrase(random, air)).collect();
    match random.weighted(&[40, 25, 5, 6, 6, 5, 3, 3, 3, 2]) {
        0 => {}
        1 => pieces.push(vec![0; random.between(1, 20)]),
        2 => {
            let mut fill = vec![0; random.between(2, 20)];
            let index = random.between(1, fill.len() - 1);
            fill[index] = random.pick(&[0x01, 0x03, 0x10, 0xFF]);
            pieces.push(fill);
        }
        3 => {
            pieces.push(vec![random.pick(&[0x01, 0x02, 0x07, 0x08, 0x0F, 0x11, 0x20, 0x80, 0xFF])]);
            pieces.extend(phrase(random, air));
        }
        4 => {
            let mut cut = lawful_record(random, air);
            cut.truncate(random.between(1, cut.len() - 1));
            pieces.push(cut);
        }
        5 => pieces.push(random.bytes(30)),
        6 => fill_up(random, air, &mut pieces, 512),
        7 => pieces.push(vec![0; 512usize.saturating_sub(length(&pieces))]),
        8 => {
            let size = random.pick(&[513, 514, 600]);
            fill_up(random, air, &mut pieces, size);
        }
        _ => pieces.clear(),
    }
    pieces.concat()
}

/// Adds records up to exactly this length; power-ups close the gap.
fn fill_up(random: &mut Random, air: &Air, pieces: &mut Vec<Vec<u8>>, size: usize) {
    while length(pieces) + 7 <= size {
        pieces.push(lawful_record(random, air));
    }
    while length(pieces) < size {
        pieces.push(vec![0x10]);
    }
}

#[cfg(test)]
mod tests {
    use super::*;
    use crate::packet::{read, Target};

    #[test]
    fn heads_name_their_addresses() {
        let target = |bytes: Vec<u8>| read(&with_error_byte(bytes)).map(|packet| packet.target);
        for address in 0..512 {
            assert_eq!(target(basic_head(address, 9)), Ok(Target::Basic(address)));
        }
        for address in 0..2048 {
            assert_eq!(target([extended_head(address), vec![0]].concat()), Ok(Target::Extended(address)));
        }
        assert_eq!(target([long_head(10239), vec![0]].concat()), Ok(Target::Long(10239)));
    }

    #[test]
    fn lawful_packets_are_accepted() {
        let mut random = Random::for_case(1, "lawful", 0);
        for _ in 0..2000 {
            let packet = with_error_byte(lawful(&mut random, &Air::of_bench()));
            assert!(read(&packet).is_ok(), "{packet:02X?}");
        }
    }
}
