//! Packets that are known from the standard, and the answers to them, which do not depend on the reference.

use crate::script::hex;

pub enum Example {
    Script { text: String, answers: Vec<String> },
    Bench { block: Vec<u8>, answers: Vec<String> },
    Listing { block: Vec<u8>, answers: Vec<String> },
}

impl Example {
    pub fn input(&self) -> String {
        match self {
            Example::Script { text, .. } => text.clone(),
            Example::Bench { block, .. } | Example::Listing { block, .. } => hex(block),
        }
    }

    pub fn answers(&self) -> &[String] {
        match self {
            Example::Script { answers, .. } | Example::Bench { answers, .. } | Example::Listing { answers, .. } => {
                answers
            }
        }
    }

    /// The blocks that it has a board take.
    pub fn blocks(&self) -> Vec<Vec<u8>> {
        match self {
            Example::Script { text, .. } => {
                text.lines().filter_map(|line| line.strip_prefix("take ")).map(bytes).collect()
            }
            Example::Bench { block, .. } | Example::Listing { block, .. } => vec![block.clone()],
        }
    }
}

/// Packets and what they say, worked out from the format by hand; every bit pattern that the public standard NMRA S-9.2.1
/// gives is among them. The program `trials` is run on the same rows.
const READINGS: &str = include_str!("../../../../crates/trials/stdin");

/// The names of the refusals of packets, from 1.
const REFUSALS: [&str; 9] = [
    "packet length not 3 to 6",
    "wrong error byte",
    "reserved address",
    "advanced packet format",
    "idle in another form",
    "long address without instruction",
    "reserved instruction or value",
    "instruction too short or too long",
    "no accessory head",
];

const FITTINGS: &str =
    "fit mobile short 3\nfit mobile long 1000\nfit mobile short 55\nfit basic 1\nfit extended 1\nstart\n";
const FITTED: [&str; 6] =
    ["fitted mobile 0", "fitted mobile 1", "fitted mobile 2", "fitted basic 0", "fitted extended 0", "started"];
const AT_POWER_UP: &str = "mobile forward stop functions none states none waiting none reply none";

/// The packets, `heard unheard refused` and what follows, a question, and its answer.
type Row = (&'static [&'static str], &'static str, &'static str, &'static str);

const TARGETS_AND_RESETS: [Row; 11] = [
    (&["FF 00 FF"], "heard 0 unheard 1 refused 0", "state mobile 0", AT_POWER_UP),
    (&["03 74 77", "00 00 00"], "heard 2 unheard 0 refused 0", "state mobile 0", AT_POWER_UP),
    (&["03 01 02"], "heard 1 unheard 0 refused 0", "variable mobile 0 31", "variable 31 = 16"),
    (&["03 0F 0C"], "heard 1 unheard 0 refused 0", "state mobile 0", AT_POWER_UP),
    (&["03 0B 08"], "heard 1 unheard 0 refused 0", "variable mobile 0 29", "variable 29 = 34"),
    (&["C3 E8 0A 21"], "heard 1 unheard 0 refused 0", "variable mobile 1 29", "variable 29 = 2"),
    (&["04 74 70"], "heard 0 unheard 1 refused 0", "state mobile 0", AT_POWER_UP),
    (
        &["03 E0 00 00 E3"],
        "heard 0 unheard 0 refused 1 first 7 packet 0 reserved instruction or value",
        "state mobile 0",
        AT_POWER_UP,
    ),
    (
        &["03 74 74 03"],
        "heard 0 unheard 0 refused 1 first 8 packet 0 instruction too short or too long",
        "state mobile 0",
        AT_POWER_UP,
    ),
    (
        &["FF 00 FF", "03 74 76"],
        "heard 0 unheard 1 refused 1 first 2 packet 4 wrong error byte",
        "state mobile 0",
        AT_POWER_UP,
    ),
    (
        &["FD 00 FD", "E8 00 E8"],
        "heard 0 unheard 0 refused 2 first 4 packet 0 advanced packet format",
        "state mobile 0",
        AT_POWER_UP,
    ),
];

/// A packet that is refused as reserved, and a mobile decoder afterwards.
const fn reserved(packet: &'static [&'static str]) -> Row {
    let refused = "heard 0 unheard 0 refused 1 first 7 packet 0 reserved instruction or value";
    (packet, refused, "state mobile 0", AT_POWER_UP)
}

const ONCE: &str = "heard 1 unheard 0 refused 0";
const TWICE: &str = "heard 2 unheard 0 refused 0";
const THRICE: &str = "heard 3 unheard 0 refused 0";

/// NMRA S-9.2.1: decoder control, consist control and the forms that are left out here.
const CONTROL: [Row; 23] = [
    (&["03 74 77", "03 00 03"], TWICE, "state mobile 0", AT_POWER_UP),
    (&["00 01 01"], ONCE, "variable mobile 1 29", "variable 29 = 2"),
    (&["00 0A 0A"], ONCE, "variable mobile 1 29", "variable 29 = 2"),
    (&["00 0B 0B"], ONCE, "variable mobile 2 29", "variable 29 = 34"),
    (&["00 0F 0F"], ONCE, "state mobile 1", AT_POWER_UP),
    (&["03 12 7F 6E"], ONCE, "variable mobile 0 19", "variable 19 = 127"),
    (&["03 13 7F 6F"], ONCE, "variable mobile 0 19", "variable 19 = 255"),
    (&["03 13 00 10"], ONCE, "variable mobile 0 19", "variable 19 = 128"),
    (&["03 13 05 15", "03 12 00 11"], TWICE, "variable mobile 0 19", "variable 19 = 0"),
    (&["C3 E8 12 05 3C", "00 12 00 12"], TWICE, "variable mobile 1 19", "variable 19 = 0"),
    // While a consist address stands, speed to the own address is ignored, unless both are the same.
    (&["03 12 05 14", "03 74 77"], TWICE, "state mobile 0", AT_POWER_UP),
    (
        &["03 12 03 12", "03 74 77"],
        TWICE,
        "state mobile 0",
        "mobile forward step 6 of 28 functions none states none waiting none reply none",
    ),
    // The factory test, flags, restricted speed, the volume, the time, the date, the system time, pairs of variables.
    reserved(&["03 02 01"]),
    reserved(&["03 07 50 54"]),
    reserved(&["03 3E 00 3D"]),
    reserved(&["03 3D 01 FF C0"]),
    reserved(&["00 C1 00 00 00 C1"]),
    reserved(&["00 C1 3B D7 BF 92"]),
    reserved(&["00 C1 5F CF FF AE"]),
    reserved(&["00 C2 FF FF C2"]),
    reserved(&["03 F4 C3 E8 DC"]),
    reserved(&["03 F5 10 00 E6"]),
    reserved(&["00 E0 00 00 E0"]),
];

/// NMRA S-9.2.1: `C0 00 00` sets all binary states to off, `DD 00` those from 1 to 127.
const STATES: [Row; 10] = [
    (&["03 C0 80 00 43"], ONCE, "binary mobile 0 1", "binary state 1 on"),
    (&["03 C0 80 00 43"], ONCE, "binary mobile 0 2047", "binary state 2047 on"),
    (&["03 C0 80 00 43", "03 C0 00 00 C3"], TWICE, "state mobile 0", AT_POWER_UP),
    (&["00 C0 80 00 40", "00 C0 00 00 C0"], TWICE, "state mobile 1", AT_POWER_UP),
    (&["03 DD 80 5E"], ONCE, "binary mobile 0 127", "binary state 127 on"),
    (&["03 DD 80 5E"], ONCE, "binary mobile 0 128", "binary state 128 off"),
    (&["03 C0 80 00 43", "03 DD 00 DE"], TWICE, "binary mobile 0 127", "binary state 127 off"),
    (&["03 C0 80 00 43", "03 DD 00 DE"], TWICE, "binary mobile 0 128", "binary state 128 on"),
    (&["00 DD 80 5D", "00 DD 00 DD"], TWICE, "state mobile 2", AT_POWER_UP),
    (&["03 C0 7F FF 43"], ONCE, "state mobile 0", AT_POWER_UP),
];

/// NMRA S-9.2.1: access to variables, the first of them and the 513th, and speed in 14 steps.
const LONG_FORMS: [Row; 15] = [
    (&["03 F2 07 F6", "00 F2 00 F2"], TWICE, "variable mobile 0 23", "variable 23 = 0"),
    (&["03 EC 00 05 EA", "03 EC 00 05 EA"], TWICE, "variable mobile 0 1", "variable 1 = 5"),
    (&["03 E8 00 F0 1B", "03 E8 00 F0 1B"], TWICE, "variable mobile 0 1", "variable 1 = 2"),
    (&["03 E8 00 FF 14", "03 E8 00 FF 14"], TWICE, "variable mobile 0 1", "variable 1 = 131"),
    (&["03 EE 00 05 E8", "03 EE 00 05 E8"], TWICE, "variable mobile 0 513", "variable 513 = 5"),
    (&["00 EC 03 0A E5", "00 EC 03 0A E5"], TWICE, "variable mobile 1 4", "variable 4 = 10"),
    // The two need not be back to back, but any other packet to the decoder is in their way, also one to all.
    (&["03 EC 03 0A E6", "37 74 43", "03 EC 03 0A E6"], THRICE, "variable mobile 0 4", "variable 4 = 10"),
    (&["03 EC 03 0A E6", "00 0F 0F", "03 EC 03 0A E6"], THRICE, "variable mobile 0 4", "variable 4 = 0"),
    // None is obeyed by the consist address.
    (&["03 12 05 14", "05 EC 03 0A E0", "05 EC 03 0A E0"], THRICE, "variable mobile 0 4", "variable 4 = 0"),
    (
        &["03 EC 1C 0A F9", "03 EC 1C 0A F9", "03 E8 00 E8 03"],
        THRICE,
        "state mobile 0",
        "mobile forward stop functions none states none waiting none reply acknowledgment",
    ),
    (&["03 EC 1C 0A F9", "03 EC 1C 0A F9", "03 E8 00 E0 0B"], THRICE, "state mobile 0", AT_POWER_UP),
    (
        &["03 EC 1C 00 F3", "03 EC 1C 00 F3", "03 62 61"],
        THRICE,
        "state mobile 0",
        "mobile forward step 1 of 14 functions none states none waiting none reply none",
    ),
    (
        &["03 EC 1C 00 F3", "03 EC 1C 00 F3", "03 5F 5C"],
        THRICE,
        "state mobile 0",
        "mobile reverse step 14 of 14 functions 0 states none waiting none reply none",
    ),
    (
        &["03 EC 1C 00 F3", "03 EC 1C 00 F3", "03 70 73"],
        THRICE,
        "state mobile 0",
        "mobile forward stop functions 0 states none waiting none reply none",
    ),
    (
        &["03 EC 1C 00 F3", "03 EC 1C 00 F3", "03 41 42"],
        THRICE,
        "state mobile 0",
        "mobile reverse emergency stop functions none states none waiting none reply none",
    ),
];

/// NMRA S-9.2.1: accessory decoders, all of a kind, and their variables.
const ALL_ACCESSORIES: [Row; 8] = [
    (&["BF 8F 30"], ONCE, "state basic 0", "basic outputs 7 waiting none reply none"),
    (&["BF 8F 30", "BF 87 38"], TWICE, "state basic 0", "basic outputs none waiting none reply none"),
    (&["81 F0 EE 00 05 9A", "81 F0 EE 00 05 9A"], TWICE, "variable basic 0 513", "variable 513 = 5"),
    (&["80 73 EE 00 05 18", "80 73 EE 00 05 18"], TWICE, "variable extended 0 513", "variable 513 = 5"),
    (&["BF 80 EE 00 05 D4", "BF 80 EE 00 05 D4"], TWICE, "variable basic 0 513", "variable 513 = 5"),
    (&["BF 07 EE 00 05 53", "BF 07 EE 00 05 53"], TWICE, "variable extended 0 513", "variable 513 = 5"),
    (
        &["81 F8 EE 00 05 92"],
        "heard 0 unheard 0 refused 1 first 8 packet 0 instruction too short or too long",
        "variable basic 0 513",
        "variable 513 = 0",
    ),
    (
        &["81 7E 00 05 FA"],
        "heard 0 unheard 0 refused 1 first 9 packet 0 no accessory head",
        "variable basic 0 513",
        "variable 513 = 0",
    ),
];

/// A packet to one mobile decoder and its direction and speed afterwards.
const SPEEDS: [(&str, &str, &str); 29] = [
    ("37 74 43", "mobile 2", "forward step 6 of 28"),
    ("03 74 77", "mobile 0", "forward step 6 of 28"),
    ("C3 E8 74 5F", "mobile 1", "forward step 6 of 28"),
    ("03 62 61", "mobile 0", "forward step 1 of 28"),
    ("03 7F 7C", "mobile 0", "forward step 28 of 28"),
    ("03 5F 5C", "mobile 0", "reverse step 28 of 28"),
    ("00 40 40", "mobile 0", "reverse stop"),
    ("00 61 61", "mobile 1", "forward emergency stop"),
    ("00 41 41", "mobile 2", "reverse emergency stop"),
    ("03 3F FF C3", "mobile 0", "forward step 126 of 126"),
    ("03 3F 82 BE", "mobile 0", "forward step 1 of 126"),
    ("03 3F 02 3E", "mobile 0", "reverse step 1 of 126"),
    ("03 3F 80 BC", "mobile 0", "forward stop"),
    ("03 3F 01 3D", "mobile 0", "reverse emergency stop"),
    ("03 40 43", "mobile 0", "reverse stop"),
    ("03 50 53", "mobile 0", "reverse stop"),
    ("03 60 63", "mobile 0", "forward stop"),
    ("03 70 73", "mobile 0", "forward stop"),
    ("03 51 52", "mobile 0", "reverse emergency stop"),
    ("03 61 62", "mobile 0", "forward emergency stop"),
    ("03 71 72", "mobile 0", "forward emergency stop"),
    ("03 42 41", "mobile 0", "reverse step 1 of 28"),
    ("03 52 51", "mobile 0", "reverse step 2 of 28"),
    ("03 72 71", "mobile 0", "forward step 2 of 28"),
    ("03 4F 4C", "mobile 0", "reverse step 27 of 28"),
    ("03 6F 6C", "mobile 0", "forward step 27 of 28"),
    ("03 3F 81 BD", "mobile 0", "forward emergency stop"),
    ("00 3F 00 3F", "mobile 2", "reverse stop"),
    ("00 3F 81 BE", "mobile 1", "forward emergency stop"),
];

/// A packet to a mobile decoder and the functions and states that are on afterwards.
const FUNCTIONS: [(&str, &str, &str); 29] = [
    ("C3 E8 90 BB", "mobile 1", "functions 0 states none"),
    ("03 9F 9C", "mobile 0", "functions 0,1,2,3,4 states none"),
    ("03 B5 B6", "mobile 0", "functions 5,7 states none"),
    ("03 A8 AB", "mobile 0", "functions 12 states none"),
    ("03 DE 81 5C", "mobile 0", "functions 13,20 states none"),
    ("03 DF 01 DD", "mobile 0", "functions 21 states none"),
    ("03 D8 01 DA", "mobile 0", "functions 29 states none"),
    ("03 DC 80 5F", "mobile 0", "functions 68 states none"),
    ("03 DD 85 5B", "mobile 0", "functions none states 5"),
    ("03 C0 81 01 43", "mobile 0", "functions none states 129"),
    ("03 81 82", "mobile 0", "functions 1 states none"),
    ("03 88 8B", "mobile 0", "functions 4 states none"),
    ("03 B1 B2", "mobile 0", "functions 5 states none"),
    ("03 B8 BB", "mobile 0", "functions 8 states none"),
    ("03 A1 A2", "mobile 0", "functions 9 states none"),
    ("03 DE 01 DC", "mobile 0", "functions 13 states none"),
    ("03 DE 80 5D", "mobile 0", "functions 20 states none"),
    ("03 DF 80 5C", "mobile 0", "functions 28 states none"),
    ("03 D8 80 5B", "mobile 0", "functions 36 states none"),
    ("03 D9 01 DB", "mobile 0", "functions 37 states none"),
    ("03 D9 80 5A", "mobile 0", "functions 44 states none"),
    ("03 DA 01 D8", "mobile 0", "functions 45 states none"),
    ("03 DA 80 59", "mobile 0", "functions 52 states none"),
    ("03 DB 01 D9", "mobile 0", "functions 53 states none"),
    ("03 DB 80 58", "mobile 0", "functions 60 states none"),
    ("03 DC 01 DE", "mobile 0", "functions 61 states none"),
    ("00 DC 81 5D", "mobile 2", "functions 61,68 states none"),
    ("03 DD 81 5F", "mobile 0", "functions none states 1"),
    ("03 DD FF 21", "mobile 0", "functions none states 127"),
];

const VARIABLES_AND_CONSISTS: [Row; 9] = [
    (
        &["03 EC 03 0A E6"],
        "heard 1 unheard 0 refused 0",
        "state mobile 0",
        "mobile forward stop functions none states none waiting 03 EC 03 0A E6 reply none",
    ),
    (&["03 EC 03 0A E6", "03 EC 03 0A E6"], "heard 2 unheard 0 refused 0", "variable mobile 0 4", "variable 4 = 10"),
    (&["03 E8 1C FB 0C", "03 E8 1C FB 0C"], "heard 2 unheard 0 refused 0", "variable mobile 0 29", "variable 29 = 10"),
    (
        &["03 EC 1C 0A F9", "03 EC 1C 0A F9", "03 E4 1C 0A F1"],
        "heard 3 unheard 0 refused 0",
        "state mobile 0",
        "mobile forward stop functions none states none waiting none reply value 10",
    ),
    (&["03 F2 07 F6"], "heard 1 unheard 0 refused 0", "variable mobile 0 23", "variable 23 = 7"),
    (&["03 F3 85 75"], "heard 1 unheard 0 refused 0", "variable mobile 0 24", "variable 24 = 133"),
    (&["03 12 05 14"], "heard 1 unheard 0 refused 0", "variable mobile 0 19", "variable 19 = 5"),
    (&["03 13 05 15"], "heard 1 unheard 0 refused 0", "variable mobile 0 19", "variable 19 = 133"),
    (
        &["03 13 05 15", "05 74 71", "03 7F 7C"],
        "heard 3 unheard 0 refused 0",
        "state mobile 0",
        "mobile reverse step 6 of 28 functions none states none waiting none reply none",
    ),
];

const ACCESSORIES: [Row; 7] = [
    (&["81 F8 79"], "heard 1 unheard 0 refused 0", "state basic 0", "basic outputs 0 waiting none reply none"),
    (&["81 FF 7E"], "heard 1 unheard 0 refused 0", "state basic 0", "basic outputs 7 waiting none reply none"),
    (&["BF 88 37"], "heard 1 unheard 0 refused 0", "state basic 0", "basic outputs 0 waiting none reply none"),
    (
        &["81 F8 79", "BF 80 3F"],
        "heard 2 unheard 0 refused 0",
        "state basic 0",
        "basic outputs none waiting none reply none",
    ),
    (
        &["81 F0 EE 1C 08 8B", "81 F0 EE 1C 08 8B"],
        "heard 2 unheard 0 refused 0",
        "variable basic 0 541",
        "variable 541 = 8",
    ),
    (&["80 73 05 F6"], "heard 1 unheard 0 refused 0", "state extended 0", "extended aspect 5 waiting none reply none"),
    (
        &["80 73 05 F6", "BF 07 00 B8"],
        "heard 2 unheard 0 refused 0",
        "state extended 0",
        "extended aspect 0 waiting none reply none",
    ),
];

/// A block to `bench` and the lines that it prints.
const BENCH: [(&str, &[&str]); 6] = [
    ("03 03 74 77", &["mobile 3 f 6/28 on -", "basic 1 on -", "extended 1 aspect 0", "heard 1 unheard 0 refused 0"]),
    (
        "04 03 3F FF C3 03 03 9F 9C",
        &["mobile 3 f 126/126 on 0,1,2,3,4", "basic 1 on -", "extended 1 aspect 0", "heard 2 unheard 0 refused 0"],
    ),
    (
        "03 00 41 41 03 81 F8 79 04 80 73 05 F6 00 00",
        &["mobile 3 r halt on -", "basic 1 on 0", "extended 1 aspect 5", "heard 3 unheard 0 refused 0"],
    ),
    (
        "04 C3 E8 90 BB 03 FF 00 FF 05 03 E0 00 00 E3 02",
        &["mobile 3 f stop on -", "basic 1 on -", "extended 1 aspect 0", "heard 0 unheard 2 refused 1", "fault 11 15"],
    ),
    (
        "03 81 FF 7E 03 81 F9 78 10 03 81 FA 7B 00 00 01",
        &["mobile 3 f stop on -", "basic 1 on 2", "extended 1 aspect 0", "heard 3 unheard 0 refused 0", "fault 13 15"],
    ),
    ("", &["refused 10"]),
];

pub fn examples() -> Vec<Example> {
    let mut examples = Vec::new();
    let rows = [
        &TARGETS_AND_RESETS[..],
        &VARIABLES_AND_CONSISTS,
        &ACCESSORIES,
        &CONTROL,
        &STATES,
        &LONG_FORMS,
        &ALL_ACCESSORIES,
    ];
    for (packets, taken, question, answer) in rows.concat() {
        examples.push(scripted(packets, taken, question, answer));
    }
    for (packet, name, speed) in SPEEDS {
        let answer = format!("mobile {speed} functions none states none waiting none reply none");
        examples.push(scripted(&[packet], ONCE, &format!("state {name}"), &answer));
    }
    for (packet, name, on) in FUNCTIONS {
        let answer = format!("mobile forward stop {on} waiting none reply none");
        examples.push(scripted(&[packet], ONCE, &format!("state {name}"), &answer));
    }
    for (block, answers) in BENCH {
        let answers = answers.iter().map(|line| line.to_string()).collect();
        examples.push(Example::Bench { block: bytes(block), answers });
    }
    // A block has no record for a packet that is shorter or longer.
    let fits = |row: &(Vec<u8>, &str)| (3..=6).contains(&row.0.len());
    examples.extend(readings().filter(fits).map(|(packet, words)| listed(packet, words)));
    examples
}

/// The rows of the table of readings.
fn readings() -> impl Iterator<Item = (Vec<u8>, &'static str)> {
    let rows = READINGS.lines().filter(|line| !line.is_empty() && !line.starts_with('#'));
    rows.map(|row| {
        let (packet, words) = row.split_once(" = ").expect("bytes = words");
        (bytes(packet), words)
    })
}

/// The number of a refusal, if the words are one.
fn refusal(words: &str) -> Option<usize> {
    words.strip_prefix("refused ").map(|number| number.parse().expect("the number of a refusal"))
}

/// What `listing` prints of a packet by itself.
fn listed(packet: Vec<u8>, words: &str) -> Example {
    let (words, accepted, refused) = match refusal(words) {
        Some(number) => (format!("{words} {}", REFUSALS[number - 1]), 0, 1),
        None => (words.to_string(), 1, 0),
    };
    let row = format!("  0  {:17}  {words}", hex(&packet));
    let counts = format!("packets 1, accepted {accepted}, refused {refused}, power-ups 0, fill 0");
    let block = [&[packet.len() as u8][..], &packet].concat();
    Example::Listing { block, answers: vec![row, counts] }
}

fn scripted(packets: &[&str], taken: &str, question: &str, answer: &str) -> Example {
    let records: Vec<String> = packets.iter().map(|packet| format!("{:02X} {packet}", bytes(packet).len())).collect();
    let mut answers: Vec<String> = FITTED.iter().map(|line| line.to_string()).collect();
    answers.push(format!("taken {taken}"));
    answers.push(answer.to_string());
    Example::Script { text: format!("{FITTINGS}take {}\n{question}\n", records.join(" ")), answers }
}

fn bytes(words: &str) -> Vec<u8> {
    words.split_whitespace().map(|word| u8::from_str_radix(word, 16).expect("two digits")).collect()
}

#[cfg(test)]
mod tests {
    use super::*;
    use crate::{bench, listing, packet, script};

    #[test]
    fn the_reference_agrees() {
        for example in examples() {
            match &example {
                Example::Script { text, answers } => assert_eq!(&script::run(text).lines, answers, "{text}"),
                Example::Bench { block, answers } => assert_eq!(&bench::lines(block), answers, "{block:02X?}"),
                Example::Listing { block, answers } => assert_eq!(&listing::lines(block), answers, "{block:02X?}"),
            }
        }
    }

    #[test]
    fn the_reference_refuses_the_same() {
        for (bytes, words) in readings() {
            let found = packet::read(&bytes).err().map(|cause| usize::from(cause.number()));
            assert_eq!(found, refusal(words), "{bytes:02X?}");
        }
    }
}
