//! One decoder: what it holds, what it hears and what it does.

use crate::packet::{Access, Order, Packet, Target, BASIC_BROADCAST, EXTENDED_BROADCAST};

pub const VARIABLES: usize = 1024;
pub const FUNCTIONS: usize = 69;
pub const STATES: usize = 2048;

#[derive(Clone, Copy, Debug, PartialEq, Eq)]
pub enum Kind {
    Mobile,
    Basic,
    Extended,
}

impl Kind {
    pub const ALL: [Kind; 3] = [Kind::Mobile, Kind::Basic, Kind::Extended];

    pub fn word(self) -> &'static str {
        match self {
            Kind::Mobile => "mobile",
            Kind::Basic => "basic",
            Kind::Extended => "extended",
        }
    }
}

/// An address as it is asked for at fitting; it may be one that cannot be fitted.
#[derive(Clone, Copy, Debug, PartialEq, Eq)]
pub enum Address {
    Short(u16),
    Long(u16),
    Basic(u16),
    Extended(u16),
}

impl Address {
    pub fn kind(self) -> Kind {
        match self {
            Address::Short(_) | Address::Long(_) => Kind::Mobile,
            Address::Basic(_) => Kind::Basic,
            Address::Extended(_) => Kind::Extended,
        }
    }

    pub fn can_be_fitted(self) -> bool {
        match self {
            Address::Short(number) => (1..=127).contains(&number),
            Address::Long(number) => number <= 10239,
            Address::Basic(number) => number < BASIC_BROADCAST,
            Address::Extended(number) => number < EXTENDED_BROADCAST,
        }
    }
}

#[derive(Clone, Copy, Debug, PartialEq, Eq)]
pub enum Speed {
    Stop,
    EmergencyStop,
    Step { step: u8, scale: u8 },
}

#[derive(Clone, Copy, Debug, PartialEq, Eq)]
pub enum Reply {
    None,
    Acknowledgment,
    Value(u8),
}

/// What each kind holds of its own.
#[derive(Clone, Debug, PartialEq, Eq)]
pub enum Body {
    Mobile(Mobile),
    Basic { address: u16, outputs: [bool; 8] },
    Extended { address: u16, aspect: u8 },
}

#[derive(Clone, Debug, PartialEq, Eq)]
pub struct Mobile {
    pub forward: bool,
    pub speed: Speed,
    pub functions: [bool; FUNCTIONS],
    /// By number; the place of number 0 is never on.
    pub states: Vec<bool>,
}

impl Mobile {
    fn at_power_up() -> Self {
        Mobile { forward: true, speed: Speed::Stop, functions: [false; FUNCTIONS], states: vec![false; STATES] }
    }
}

/// By which of its addresses a decoder hears a packet.
#[derive(Clone, Copy, Debug, PartialEq, Eq)]
pub enum Role {
    Everyone,
    Own,
    Consist,
}

#[derive(Clone, Debug, PartialEq, Eq)]
pub struct Decoder {
    pub body: Body,
    pub waiting: Option<Vec<u8>>,
    pub reply: Reply,
    variables: Vec<u8>,
}

impl Decoder {
    /// A decoder as it is fitted.
    pub fn fitted(address: Address) -> Self {
        let body = match address {
            Address::Short(_) | Address::Long(_) => Body::Mobile(Mobile::at_power_up()),
            Address::Basic(address) => Body::Basic { address, outputs: [false; 8] },
            Address::Extended(address) => Body::Extended { address, aspect: 0 },
        };
        let mut decoder = Decoder { body, waiting: None, reply: Reply::None, variables: vec![0; VARIABLES] };
        if address.kind() == Kind::Mobile {
            for (cv, value) in [(1, 3), (17, 192), (29, 2), (31, 16)] {
                decoder.put(cv, value);
            }
        }
        match address {
            Address::Short(number) => decoder.put(1, (number % 256) as u8),
            Address::Long(number) => {
                decoder.put(17, (192 + number / 256) as u8);
                decoder.put(18, (number % 256) as u8);
                decoder.put(29, 34);
            }
            _ => {}
        }
        decoder
    }

    pub fn kind(&self) -> Kind {
        match self.body {
            Body::Mobile(_) => Kind::Mobile,
            Body::Basic { .. } => Kind::Basic,
            Body::Extended { .. } => Kind::Extended,
        }
    }

    /// A variable by its number, 1 to 1024.
    pub fn variable(&self, cv: u16) -> u8 {
        self.variables[usize::from(cv) - 1]
    }

    fn put(&mut self, cv: u16, value: u8) {
        self.variables[usize::from(cv) - 1] = value;
    }

    /// A setting by the host; it ends the wait and leaves the reply.
    pub fn set(&mut self, cv: u16, value: u8) {
        self.put(cv, value);
        self.waiting = None;
    }

    pub fn power_up(&mut self) {
        self.waiting = None;
        self.reply = Reply::None;
        match &mut self.body {
            Body::Mobile(mobile) => *mobile = Mobile::at_power_up(),
            Body::Basic { outputs, .. } => *outputs = [false; 8],
            Body::Extended { aspect, .. } => *aspect = 0,
        }
    }

    /// Lets the decoder hear a packet, and answers whether it did.
    pub fn hear(&mut self, packet: &Packet) -> bool {
        let Some(role) = self.role(packet.target) else {
            return false;
        };
        let may_reply = role == Role::Own && self.variable(self.first_own() + 28) & 0x08 != 0;
        let waited = self.waiting.take();
        let acted = match packet.order {
            Order::Access { .. } if role == Role::Consist => false,
            Order::Access { cv, access } => self.access(cv, access, packet, waited),
            order => self.obey(order, role),
        };
        self.reply = match packet.order {
            _ if !(may_reply && acted) => Reply::None,
            Order::Access { cv, access: Access::Verify(_) } => Reply::Value(self.variable(cv)),
            _ => Reply::Acknowledgment,
        };
        true
    }

    /// Whether the decoder hears a packet, and by which address.
    #[inline]
    pub fn role(&self, target: Target) -> Option<Role> {
        let (own, everyone) = match self.body {
            Body::Mobile(_) => (self.own_address(), Target::AllMobiles),
            Body::Basic { address, .. } => (Some(Target::Basic(address)), Target::Basic(BASIC_BROADCAST)),
            Body::Extended { address, .. } => (Some(Target::Extended(address)), Target::Extended(EXTENDED_BROADCAST)),
        };
        if target == everyone {
            Some(Role::Everyone)
        } else if own == Some(target) {
            Some(Role::Own)
        } else if self.kind() == Kind::Mobile && self.consist_address() == Some(target) {
            Some(Role::Consist)
        } else {
            None
        }
    }

    /// The address that a mobile decoder's variables give it, if they give it any.
    fn own_address(&self) -> Option<Target> {
        if self.variable(29) & 0x20 != 0 {
            let high = self.variable(17);
            let number = || u16::from(high - 192) * 256 + u16::from(self.variable(18));
            (192..=231).contains(&high).then(|| Target::Long(number()))
        } else {
            let short = self.variable(1);
            (1..=127).contains(&short).then_some(Target::Short(short))
        }
    }

    fn consist_address(&self) -> Option<Target> {
        let short = self.variable(19) & 0x7F;
        (short != 0).then_some(Target::Short(short))
    }

    /// The number of the first of the kind's own variables.
    fn first_own(&self) -> u16 {
        match self.kind() {
            Kind::Mobile => 1,
            Kind::Basic | Kind::Extended => 513,
        }
    }

    /// A long form to the own address or to everyone. Answers whether it acted, as `obey` does.
    fn access(&mut self, cv: u16, access: Access, packet: &Packet, waited: Option<Vec<u8>>) -> bool {
        let old = self.variable(cv);
        let new = match access {
            Access::Verify(byte) => return old == byte,
            Access::VerifyBit { bit, value } => return (old >> bit & 1 == 1) == value,
            Access::Write(byte) => byte,
            Access::WriteBit { bit, value: true } => old | 1 << bit,
            Access::WriteBit { bit, value: false } => old & !(1 << bit),
        };
        if waited.as_ref() != Some(&packet.bytes) {
            self.waiting = Some(packet.bytes.clone());
            return false;
        }
        let seventh = self.first_own() + 6;
        if cv == seventh || cv == seventh + 1 {
            return false;
        }
        self.put(cv, new);
        true
    }

    fn obey(&mut self, order: Order, role: Role) -> bool {
        match order {
            Order::SpeedFive { .. } | Order::Speed126 { .. } => return self.drive(order, role),
            _ if role == Role::Consist => return false,
            Order::Reset => self.power_up(),
            Order::HardReset => {
                self.power_up();
                for (cv, value) in [(19, 0), (29, 2), (31, 16), (32, 0)] {
                    self.put(cv, value);
                }
            }
            Order::AdvancedAddressing(true) => self.put(29, self.variable(29) | 0x20),
            Order::AdvancedAddressing(false) => self.put(29, self.variable(29) & !0x20),
            Order::Consist { address, reversed } => self.put(19, if reversed { address + 128 } else { address }),
            Order::ShortWrite { cv, value } => self.put(cv, value),
            other => return self.switch(other),
        }
        true
    }

    fn drive(&mut self, order: Order, role: Role) -> bool {
        let consist = self.consist_address();
        if role == Role::Own && consist.is_some() && consist != self.own_address() {
            return false;
        }
        let turned = role == Role::Consist && self.variable(19) & 0x80 != 0;
        let in_28_steps = self.variable(29) & 0x02 != 0;
        let Body::Mobile(mobile) = &mut self.body else {
            return false;
        };
        match order {
            Order::Speed126 { forward, code } => {
                mobile.forward = forward != turned;
                mobile.speed = speed(code, code.saturating_sub(1), 126);
            }
            Order::SpeedFive { forward, code } => {
                let (s, c) = (code & 0x0F, code >> 4);
                mobile.forward = forward != turned;
                if in_28_steps {
                    mobile.speed = speed(s, (2 * s + c).saturating_sub(3), 28);
                } else {
                    mobile.speed = speed(s, s.saturating_sub(1), 14);
                    mobile.functions[0] = c == 1;
                }
            }
            _ => return false,
        }
        true
    }

    /// What changes functions, states, outputs and the aspect, and nothing else.
    fn switch(&mut self, order: Order) -> bool {
        let fl_by_group = self.variable(29) & 0x02 != 0;
        match (&mut self.body, order) {
            (Body::Mobile(_), Order::AcknowledgmentRequest) => {}
            (Body::Mobile(mobile), Order::GroupOne(bits)) => {
                spread(&mut mobile.functions[1..=4], bits);
                if fl_by_group {
                    mobile.functions[0] = bits & 0x10 != 0;
                }
            }
            (Body::Mobile(mobile), Order::Group { first, count, bits }) => {
                let first = usize::from(first);
                spread(&mut mobile.functions[first..first + usize::from(count)], bits);
            }
            (Body::Mobile(mobile), Order::StateShort { number: 0, on }) => mobile.states[1..=127].fill(on),
            (Body::Mobile(mobile), Order::StateLong { number: 0, on }) => mobile.states[1..].fill(on),
            (Body::Mobile(mobile), Order::StateShort { number, on } | Order::StateLong { number, on }) => {
                match mobile.states.get_mut(usize::from(number)) {
                    Some(state) => *state = on,
                    None => return false,
                }
            }
            (Body::Basic { outputs, .. }, Order::Output { number, on }) => outputs[usize::from(number)] = on,
            (Body::Extended { aspect, .. }, Order::Aspect(new)) => *aspect = new,
            _ => return false,
        }
        true
    }

    /// Every field, with its name and its bytes, in the order of the digest.
    pub fn fields(&self) -> Vec<(&'static str, Vec<u8>)> {
        let high_first = |address: u16| address.to_be_bytes().to_vec();
        let mut fields = match &self.body {
            Body::Mobile(mobile) => {
                let speed = match mobile.speed {
                    Speed::Stop => vec![0, 0],
                    Speed::EmergencyStop => vec![1, 0],
                    Speed::Step { step, scale } => vec![scale, step],
                };
                vec![
                    ("kind", vec![0]),
                    ("direction", vec![u8::from(mobile.forward)]),
                    ("speed", speed),
                    ("functions", mobile.functions.map(u8::from).to_vec()),
                    ("states", mobile.states.chunks(8).map(packed).collect()),
                ]
            }
            Body::Basic { address, outputs } => {
                vec![("kind", vec![1]), ("address", high_first(*address)), ("outputs", outputs.map(u8::from).to_vec())]
            }
            Body::Extended { address, aspect } => {
                vec![("kind", vec![2]), ("address", high_first(*address)), ("aspect", vec![*aspect])]
            }
        };
        fields.push(("waiting", self.waiting_bytes()));
        fields.push(("reply", self.reply_bytes()));
        fields.push(("variables", self.variables.clone()));
        fields
    }

    fn waiting_bytes(&self) -> Vec<u8> {
        let packet = self.waiting.as_deref().unwrap_or(&[]);
        let mut bytes = vec![packet.len() as u8];
        bytes.extend(packet);
        bytes.resize(7, 0);
        bytes
    }

    fn reply_bytes(&self) -> Vec<u8> {
        match self.reply {
            Reply::None => vec![0, 0],
            Reply::Acknowledgment => vec![1, 0],
            Reply::Value(value) => vec![2, value],
        }
    }
}

/// The codes 0 and 1 are the stops on every scale.
fn speed(code: u8, step: u8, scale: u8) -> Speed {
    match code {
        0 => Speed::Stop,
        1 => Speed::EmergencyStop,
        _ => Speed::Step { step, scale },
    }
}

/// Sets the places to the bits, the lowest first.
fn spread(places: &mut [bool], bits: u8) {
    for (bit, place) in places.iter_mut().enumerate() {
        *place = bits >> bit & 1 == 1;
    }
}

fn packed(eight: &[bool]) -> u8 {
    eight.iter().rev().fold(0, |byte, &on| byte << 1 | u8::from(on))
}

#[cfg(test)]
mod tests {
    use super::*;
    use crate::packet::read;

    fn hears(decoder: &mut Decoder, bytes: &[u8]) -> bool {
        let error = bytes.iter().fold(0, |sum, byte| sum ^ byte);
        let mut packet = bytes.to_vec();
        packet.push(error);
        decoder.hear(&read(&packet).expect("a lawful packet"))
    }

    fn mobile(decoder: &Decoder) -> &Mobile {
        match &decoder.body {
            Body::Mobile(mobile) => mobile,
            _ => panic!("not a mobile decoder"),
        }
    }

    #[test]
    fn five_bit_speed_by_variable_29() {
        let mut decoder = Decoder::fitted(Address::Short(3));
        hears(&mut decoder, &[3, 0x74]);
        assert_eq!(mobile(&decoder).speed, Speed::Step { step: 6, scale: 28 });
        assert!(!mobile(&decoder).functions[0]);
        decoder.set(29, 0);
        hears(&mut decoder, &[3, 0x74]);
        assert_eq!(mobile(&decoder).speed, Speed::Step { step: 3, scale: 14 });
        assert!(mobile(&decoder).functions[0]);
        hears(&mut decoder, &[3, 0x40]);
        assert_eq!((mobile(&decoder).speed, mobile(&decoder).functions[0]), (Speed::Stop, false));
        hears(&mut decoder, &[3, 0x7F]);
        assert_eq!(mobile(&decoder).speed, Speed::Step { step: 14, scale: 14 });
    }

    #[test]
    fn speed_in_a_consist() {
        let mut decoder = Decoder::fitted(Address::Short(3));
        hears(&mut decoder, &[3, 0x13, 5]);
        assert_eq!(decoder.variable(19), 133);
        assert!(hears(&mut decoder, &[3, 0x74]));
        assert_eq!(mobile(&decoder).speed, Speed::Stop);
        assert!(hears(&mut decoder, &[5, 0x74]));
        assert_eq!((mobile(&decoder).forward, mobile(&decoder).speed), (false, Speed::Step { step: 6, scale: 28 }));
        assert!(hears(&mut decoder, &[5, 0x90]));
        assert!(!mobile(&decoder).functions[0], "only speed acts by the consist address");
        hears(&mut decoder, &[0, 0x62]);
        assert_eq!((mobile(&decoder).forward, mobile(&decoder).speed), (true, Speed::Step { step: 1, scale: 28 }));
    }

    #[test]
    fn writes_wait_for_their_second() {
        let mut decoder = Decoder::fitted(Address::Basic(1));
        let write = [0x81, 0xF0, 0xEE, 0x1C, 0x08];
        hears(&mut decoder, &write);
        assert!(decoder.waiting.is_some());
        hears(&mut decoder, &[0x81, 0xF8]);
        assert!(decoder.waiting.is_none(), "any other packet ends the wait");
        hears(&mut decoder, &write);
        assert!(!hears(&mut decoder, &[0x82, 0xF8]));
        hears(&mut decoder, &write);
        assert_eq!((decoder.variable(541), decoder.reply), (8, Reply::None));
        hears(&mut decoder, &[0x81, 0xF0, 0xE6, 0x1C, 0x08]);
        assert_eq!(decoder.reply, Reply::Value(8));
    }

    #[test]
    fn read_only_variables_stay() {
        let mut decoder = Decoder::fitted(Address::Short(3));
        decoder.set(29, 10);
        for _ in 0..2 {
            hears(&mut decoder, &[3, 0xEC, 6, 9]);
        }
        assert_eq!((decoder.variable(7), decoder.reply, decoder.waiting.clone()), (0, Reply::None, None));
        hears(&mut decoder, &[3, 0x00]);
        assert_eq!(decoder.reply, Reply::Acknowledgment);
    }
}
