use core::fmt;
use core::ops::Deref;

use crate::Endpoint;

/// wPortStatus and, from bit 16 on, wPortChange (11.24.2.7) of root ports 1 to 7; 0 for those that there are not.
pub type Statuses = [u32; 7];

/// Bits of a root port's status.
pub mod status {
    /// A device is connected.
    pub const CONNECTION: u32 = 1;
    /// The port is enabled.
    pub const ENABLE: u32 = 2;
    /// The port has power.
    pub const POWER: u32 = 0x100;
    /// The device has low speed.
    pub const LOW: u32 = 0x200;
    /// The connection has changed.
    pub const CHANGED_CONNECTION: u32 = 0x1_0000;
    /// The port was disabled on an error.
    pub const CHANGED_ENABLE: u32 = 0x2_0000;
    /// A reset has ended.
    pub const CHANGED_RESET: u32 = 0x10_0000;
}

/// At most 64 bytes.
#[derive(Clone, Copy, PartialEq, Eq)]
pub struct Packet {
    length: u8,
    bytes: [u8; Packet::MOST],
}

impl Packet {
    /// The most bytes of a packet.
    pub const MOST: usize = 64;

    /// No bytes.
    pub const EMPTY: Packet = Packet { length: 0, bytes: [0; Packet::MOST] };

    /// A packet of these bytes; `None` if they are too many.
    pub fn new(bytes: &[u8]) -> Option<Packet> {
        let mut packet = Packet { length: u8::try_from(bytes.len()).ok()?, ..Packet::EMPTY };
        packet.bytes.get_mut(..bytes.len())?.copy_from_slice(bytes);
        Some(packet)
    }
}

impl Deref for Packet {
    type Target = [u8];

    fn deref(&self) -> &[u8] {
        &self.bytes[..usize::from(self.length)]
    }
}

/// Full packets, one after the other: 63 of 64 bytes at most.
#[derive(Clone)]
pub struct Row {
    length: usize,
    bytes: [u8; Row::MOST],
}

impl Row {
    /// The most packets of a question.
    pub const PACKETS: u8 = 64;

    /// The most bytes before its last packet.
    pub const MOST: usize = 63 * Packet::MOST;

    /// No packets.
    pub const EMPTY: Row = Row { length: 0, bytes: [0; Row::MOST] };

    /// Adds the bytes of a full packet. Returns whether there was room.
    pub fn push(&mut self, packet: &[u8]) -> bool {
        let Some(room) = self.bytes.get_mut(self.length..self.length + packet.len()) else {
            return false;
        };
        room.copy_from_slice(packet);
        self.length += packet.len();
        true
    }

    /// Leaves no packets.
    pub fn clear(&mut self) {
        self.length = 0;
    }
}

impl Deref for Row {
    type Target = [u8];

    fn deref(&self) -> &[u8] {
        &self.bytes[..self.length]
    }
}

impl fmt::Debug for Row {
    fn fmt(&self, f: &mut fmt::Formatter<'_>) -> fmt::Result {
        fmt::Debug::fmt(&**self, f)
    }
}

impl fmt::Debug for Packet {
    fn fmt(&self, f: &mut fmt::Formatter<'_>) -> fmt::Result {
        fmt::Debug::fmt(&**self, f)
    }
}

/// Which of the two a data packet is (8.6).
#[derive(Clone, Copy, Debug, PartialEq, Eq, Hash)]
pub enum Toggle {
    /// DATA0.
    Data0,
    /// DATA1.
    Data1,
}

impl Toggle {
    /// The other one.
    #[must_use]
    pub fn flipped(self) -> Toggle {
        match self {
            Toggle::Data0 => Toggle::Data1,
            Toggle::Data1 => Toggle::Data0,
        }
    }
}

/// The speed of an attempt.
#[derive(Clone, Copy, Debug, PartialEq, Eq, Hash)]
pub enum Speed {
    /// Full speed.
    Full,
    /// Low speed, at a root port.
    Low,
    /// Low speed below a hub: PRE goes before each packet of the host (8.6.5).
    LowBelowHub,
}

/// Where an attempt goes.
#[derive(Clone, Copy, Debug, PartialEq, Eq, Hash)]
pub struct Target {
    /// The device's address, 0 to 127.
    pub address: u8,
    /// The endpoint's number, 0 to 15.
    pub endpoint: u8,
    /// The speed.
    pub speed: Speed,
    /// The endpoint's maximum packet, 1 to 64.
    pub most: u8,
}

/// A feature of a root port (table 11-17).
#[derive(Clone, Copy, Debug, PartialEq, Eq, Hash)]
pub enum Feature {
    /// PORT_ENABLE, which is only cleared.
    Enable,
    /// PORT_RESET, which is only set.
    Reset,
    /// PORT_POWER.
    Power,
    /// C_PORT_CONNECTION, which is only cleared, as the next two.
    ChangedConnection,
    /// C_PORT_ENABLE.
    ChangedEnable,
    /// C_PORT_RESET.
    ChangedReset,
}

impl Feature {
    fn of(number: u8) -> Option<Feature> {
        Some(match number {
            1 => Feature::Enable,
            4 => Feature::Reset,
            8 => Feature::Power,
            16 => Feature::ChangedConnection,
            17 => Feature::ChangedEnable,
            20 => Feature::ChangedReset,
            _ => return None,
        })
    }
}

/// One transaction attempt (8.5): no retry.
#[derive(Clone, Copy, Debug, PartialEq, Eq)]
pub enum Attempt {
    /// SETUP, with its eight bytes as DATA0 (9.3).
    Setup {
        /// Where it goes: endpoint 0.
        to: Target,
        /// The setup data.
        data: [u8; 8],
    },
    /// OUT.
    Out {
        /// Where it goes.
        to: Target,
        /// Which data packet it is.
        toggle: Toggle,
        /// The data, at most the maximum.
        data: Packet,
    },
    /// IN: at most the maximum may come.
    In {
        /// Where it goes.
        to: Target,
    },
}

impl Attempt {
    /// Where it goes.
    pub fn to(&self) -> &Target {
        let (Attempt::Setup { to, .. } | Attempt::Out { to, .. } | Attempt::In { to }) = self;
        to
    }
}

/// INs of one endpoint, one after the other.
#[derive(Clone, Copy, Debug, PartialEq, Eq)]
pub struct Ins {
    /// Where they go. A full packet has its maximum.
    pub to: Target,
    /// The toggle of the first packet. Those of the others alternate.
    pub toggle: Toggle,
    /// The most packets, 1 to 64.
    pub most: u8,
}

/// What a host asks of its controller.
#[derive(Clone, Copy, Debug, PartialEq, Eq)]
pub enum Question {
    /// One transaction attempt.
    Attempt(Attempt),
    /// A row: INs of one endpoint, one after the other, until one brings no full packet of the toggle that is due. It
    /// may end after any attempt, so one `Attempt::In` is a row too.
    Ins(Ins),
    /// A feature of a root port, which is to be set (11.24.2.13) or cleared (11.24.2.2).
    Port {
        /// The port, from 1.
        port: u8,
        /// Whether it is to be set.
        set: bool,
        /// The feature.
        feature: Feature,
    },
    /// An endpoint begins again at DATA0, by SET_INTERFACE (9.1.1.5). A controller that keeps toggles sets that one.
    Restart {
        /// The device's address.
        address: u8,
        /// The endpoint.
        endpoint: Endpoint,
    },
}

impl Question {
    pub(crate) const LENGTH: usize = 72;

    /// The question of a record; `None` if it is none that this crate knows.
    pub(crate) fn of(record: &[u8; Question::LENGTH]) -> Option<Question> {
        let [kind, first, second, flags, most, length, row, ..] = *record;
        let speed = match flags & 3 {
            0 => Speed::Full,
            1 => Speed::Low,
            _ => Speed::LowBelowHub,
        };
        let to = Target { address: first, endpoint: second, speed, most };
        let data = Packet::new(record[8..].get(..usize::from(length))?)?;
        let toggle = if flags & 4 == 0 { Toggle::Data0 } else { Toggle::Data1 };
        Some(match kind {
            1 => Question::Attempt(Attempt::Setup { to, data: (&*data).try_into().ok()? }),
            2 => Question::Attempt(Attempt::Out { to, toggle, data }),
            3 => Question::Attempt(Attempt::In { to }),
            4 | 5 => Question::Port { port: first, set: kind == 4, feature: Feature::of(second)? },
            6 => Question::Restart { address: first, endpoint: Endpoint::new(second)? },
            7 => Question::Ins(Ins { to, toggle, most: row }),
            _ => return None,
        })
    }
}

/// What came of an attempt. After any other question it is not read.
#[derive(Clone, Copy, Debug, PartialEq, Eq)]
pub enum Came {
    /// No good answer: none in time, a wrong check, or more bytes than the maximum.
    Nothing,
    /// ACK.
    Ack,
    /// NAK.
    Nak,
    /// STALL.
    Stall,
    /// Good data, which the controller has acknowledged.
    Data {
        /// Which data packet it was.
        toggle: Toggle,
        /// The data.
        data: Packet,
    },
}

impl Came {
    /// Puts the record of this answer into a room. Returns its length.
    pub(crate) fn put(&self, statuses: &Statuses, room: &mut [u8; 96]) -> usize {
        let (kind, toggle, data): (u8, u8, &[u8]) = match self {
            Came::Nothing => (0, 0, &[]),
            Came::Ack => (1, 0, &[]),
            Came::Nak => (2, 0, &[]),
            Came::Stall => (3, 0, &[]),
            Came::Data { toggle, data } => (4, u8::from(*toggle == Toggle::Data1), data),
        };
        room[..4].copy_from_slice(&[kind, toggle, data.len() as u8, 0]);
        room[4..32].copy_from_slice(&status_bytes(statuses));
        room[32..32 + data.len()].copy_from_slice(data);
        32 + data.len()
    }
}

pub(crate) fn status_bytes(statuses: &Statuses) -> [u8; 28] {
    let mut bytes = [0; 28];
    for (place, status) in bytes.chunks_exact_mut(4).zip(statuses) {
        place.copy_from_slice(&status.to_le_bytes());
    }
    bytes
}
