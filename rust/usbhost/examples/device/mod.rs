//! One device in memory, at root port 1: bulk IN 1 and OUT 2, interrupt IN 3.
use usbhost::{Attempt, Came, Controller, Endpoint, Feature, Ins, Packet, Row, Toggle, status};

const DESCRIPTOR: [u8; 18] = [18, 1, 0, 2, 0, 0, 0, 64, 0x34, 0x12, 0x78, 0x56, 0, 1, 0, 1, 0, 1];
const CONFIGURATION: [u8; 39] = [
    9, 2, 39, 0, 1, 1, 0, 0x80, 50, 9, 4, 0, 0, 3, 0xFF, 0, 0, 0, 7, 5, 0x81, 2, 64, 0, 0, 7, 5, 2, 2, 64, 0, 0, 7, 5,
    0x83, 3, 8, 0, 10,
];
const LANGUAGES: [u8; 4] = [4, 3, 9, 4];
const PRODUCT: [u8; 6] = [6, 3, b'o', 0, b'k', 0];

/// The device and its port.
#[derive(Default)]
pub struct Device {
    pub port: u32,
    pub attempts: u32,
    /// What bulk OUT 2 took.
    pub took: Vec<u8>,
    /// What interrupt IN 3 gives next.
    pub report: Option<[u8; 8]>,
    /// How many attempts the controller makes in a row at most, less one.
    pub row: u8,
    /// How many rows it made.
    pub rows: u32,
    /// After this number of packets bulk IN 1 gives a short one, of two bytes; 0: it gives none.
    pub full: u32,
    address: u8,
    setup: [u8; 8],
    left: Vec<u8>,
    /// Whether an IN endpoint gives DATA1 next.
    is_one: [bool; 4],
    given: u8,
}

impl Device {
    /// Unplugs it.
    pub fn unplug(&mut self) {
        self.port = status::POWER | status::CHANGED_CONNECTION;
    }

    fn take_setup(&mut self, data: &[u8; 8]) -> Came {
        self.setup = *data;
        let all: &[u8] = match (data[1], data[3], data[2]) {
            (6, 1, _) => &DESCRIPTOR,
            (6, 2, _) => &CONFIGURATION,
            (6, 3, 0) => &LANGUAGES,
            (6, 3, _) => &PRODUCT,
            _ => &[],
        };
        let asked = usize::from(u16::from_le_bytes([data[6], data[7]]));
        self.left = all[..all.len().min(asked)].to_vec();
        self.is_one[0] = true;
        Came::Ack
    }

    /// Ends a request at its status stage.
    fn end_request(&mut self) {
        match self.setup[..2] {
            [0, 5] => self.address = self.setup[2],
            [0, 9] => self.is_one[1..].fill(false),
            _ => {}
        }
    }

    fn give(&mut self, endpoint: u8, most: u8) -> Came {
        let data = match endpoint {
            0 => {
                let rest = self.left.split_off(self.left.len().min(usize::from(most)));
                std::mem::replace(&mut self.left, rest)
            }
            1 => {
                self.given = self.given.wrapping_add(1);
                let is_short = self.full == 1;
                self.full = self.full.saturating_sub(1);
                vec![self.given; if is_short { 2 } else { 64 }]
            }
            _ => match self.report.take() {
                Some(report) => report.to_vec(),
                None => return Came::Nak,
            },
        };
        if endpoint == 0 && self.setup[0] < 0x80 {
            self.end_request();
        }
        let is_one = &mut self.is_one[usize::from(endpoint)];
        let toggle = if *is_one { Toggle::Data1 } else { Toggle::Data0 };
        *is_one = !*is_one;
        Packet::new(&data).map_or(Came::Nothing, |data| Came::Data { toggle, data })
    }
}

impl Controller for Device {
    fn roots(&self) -> u8 {
        2
    }

    fn status(&mut self, port: u8) -> u32 {
        if port == 1 { self.port } else { 0 }
    }

    fn attempt(&mut self, attempt: &Attempt) -> Came {
        self.attempts += 1;
        let (Attempt::Setup { to, .. } | Attempt::Out { to, .. } | Attempt::In { to }) = attempt;
        if to.address != self.address || self.port & status::ENABLE == 0 {
            return Came::Nothing;
        }
        match attempt {
            Attempt::Setup { data, .. } => self.take_setup(data),
            Attempt::Out { to, data, .. } => {
                if to.endpoint == 2 {
                    self.took.extend_from_slice(data);
                }
                Came::Ack
            }
            Attempt::In { to } => self.give(to.endpoint, to.most),
        }
    }

    fn port(&mut self, port: u8, set: bool, feature: Feature) {
        match (port, set, feature) {
            (1, true, Feature::Power) => self.port = status::POWER | status::CONNECTION | status::CHANGED_CONNECTION,
            (1, false, Feature::Power) => self.port = 0,
            (1, true, Feature::Reset) => {
                self.port |= status::ENABLE | status::CHANGED_RESET;
                self.address = 0;
            }
            (1, false, Feature::Enable) => self.port &= !status::ENABLE,
            (1, false, Feature::ChangedConnection) => self.port &= !status::CHANGED_CONNECTION,
            (1, false, Feature::ChangedEnable) => self.port &= !status::CHANGED_ENABLE,
            (1, false, Feature::ChangedReset) => self.port &= !status::CHANGED_RESET,
            _ => {}
        }
    }

    fn restart(&mut self, _address: u8, endpoint: Endpoint) {
        if endpoint.is_in() {
            self.is_one[usize::from(endpoint.number())] = false;
        }
    }

    fn ins(&mut self, ins: &Ins, before: &mut Row) -> Came {
        let (mut due, mut left) = (ins.toggle, ins.most.min(self.row + 1));
        self.rows += 1;
        loop {
            let came = self.attempt(&Attempt::In { to: ins.to });
            left -= 1;
            match came {
                Came::Data { toggle, data }
                    if left > 0 && toggle == due && data.len() == usize::from(ins.to.most) && before.push(&data) =>
                {
                    due = due.flipped();
                }
                _ => return came,
            }
        }
    }
}
