use alloc::vec::Vec;
use core::fmt::{self, Write};

use crate::{Fault, Path};

/// Why a device is refused.
#[derive(Clone, Copy, Debug, PartialEq, Eq, Hash)]
#[non_exhaustive]
pub enum Cause {
    /// It gave no answer.
    Silent,
    /// It returned NAK too often.
    Busy,
    /// It refused this request.
    Stalled(Request),
    /// Its device descriptor is malformed.
    BadDevice,
    /// It is a hub in the seventh tier (4.1.1).
    TooDeep,
    /// The configuration of this index is malformed, or repeats a value.
    BadConfiguration(u8),
    /// No configuration needs as little power as the port gives.
    NoPower,
    /// It is a hub that the host does not take.
    BadHub,
    /// Its port was not enabled by the reset, or it is a hub that no longer answers.
    Lost,
    /// No address was free.
    NoAddress,
    /// Its configurations say that they have more bytes than the host takes.
    TooLarge,
}

/// A request of an enumeration.
#[derive(Clone, Copy, Debug, PartialEq, Eq, Hash)]
pub enum Request {
    /// GET_DESCRIPTOR of the device descriptor.
    Device,
    /// SET_ADDRESS.
    Address,
    /// GET_DESCRIPTOR of a configuration.
    Configuration,
    /// SET_CONFIGURATION.
    SetConfiguration,
}

impl Cause {
    fn of(number: u8, of: u8) -> Option<Cause> {
        Some(match number {
            1 => Cause::Silent,
            2 => Cause::Busy,
            3 => Cause::Stalled(match of {
                0 => Request::Device,
                1 => Request::Address,
                2 => Request::Configuration,
                3 => Request::SetConfiguration,
                _ => return None,
            }),
            4 => Cause::BadDevice,
            5 => Cause::TooDeep,
            6 => Cause::BadConfiguration(of),
            7 => Cause::NoPower,
            8 => Cause::BadHub,
            9 => Cause::Lost,
            10 => Cause::NoAddress,
            11 => Cause::TooLarge,
            _ => return None,
        })
    }
}

/// A string of a device: UTF-16 units, in any order. As text, units that spell no character are U+FFFD.
#[derive(Clone, Debug, PartialEq, Eq)]
pub struct Text(pub Vec<u16>);

impl fmt::Display for Text {
    fn fmt(&self, f: &mut fmt::Formatter<'_>) -> fmt::Result {
        char::decode_utf16(self.0.iter().copied())
            .try_for_each(|it| f.write_char(it.unwrap_or(char::REPLACEMENT_CHARACTER)))
    }
}

/// A device that is configured.
#[derive(Clone, Debug, PartialEq, Eq)]
pub struct Device {
    /// Where it is.
    pub path: Path,
    /// This host gives no other device the same number.
    pub number: u64,
    /// Its address, 1 to 127.
    pub address: u8,
    /// Whether it has low speed.
    pub is_low: bool,
    /// The index of the configuration that it has.
    pub chosen: u8,
    /// How many ports a hub has; 0 of any other device.
    pub ports: u8,
    /// Its device descriptor (9.6.1).
    pub descriptor: [u8; 18],
    /// Its configurations, each whole and well formed (9.6.3).
    pub configurations: Vec<Vec<u8>>,
    /// Its manufacturer, if it said so.
    pub manufacturer: Option<Text>,
    /// What it is, if it said so.
    pub product: Option<Text>,
    /// Its serial number, if it said so.
    pub serial_number: Option<Text>,
}

impl Device {
    /// The configuration that it has.
    pub fn configuration(&self) -> Option<&[u8]> {
        self.configurations.get(usize::from(self.chosen)).map(Vec::as_slice)
    }
}

/// A device that is refused.
#[derive(Clone, Debug, PartialEq, Eq)]
pub struct Refused {
    /// Where it is.
    pub path: Path,
    /// Why.
    pub cause: Cause,
    /// What came of its device descriptor last, 0 to 18 bytes.
    pub said: Vec<u8>,
}

/// What is at a port.
#[derive(Clone, Debug, PartialEq, Eq)]
pub enum Entry {
    /// A device that is configured.
    Device(Device),
    /// A device that is refused.
    Refused(Refused),
}

impl Entry {
    /// Where it is.
    pub fn path(&self) -> Path {
        match self {
            Entry::Device(it) => it.path,
            Entry::Refused(it) => it.path,
        }
    }
}

/// What a look found.
#[derive(Clone, Copy, Debug, PartialEq, Eq, Hash)]
pub enum Look {
    /// Nothing is connected.
    Empty,
    /// A device was accepted.
    Accepted,
    /// A device was refused.
    Refused(Cause),
}

/// A device that left, or that was accepted.
#[derive(Clone, Copy, Debug, PartialEq, Eq, Hash)]
pub struct News {
    /// Whether it arrived; else it left.
    pub has_arrived: bool,
    /// Where.
    pub path: Path,
    /// The number of a device that arrived.
    pub number: u64,
}

/// A record: its kind and its bytes.
pub(crate) type Record<'a> = (u8, &'a [u8]);

/// The records of what was done, in their order.
pub(crate) fn records(mut all: &[u8]) -> impl Iterator<Item = Record<'_>> {
    core::iter::from_fn(move || {
        let (head, rest) = all.split_first_chunk::<5>()?;
        let [kind, length @ ..] = *head;
        let (body, rest) = rest.split_at_checked(u32::from_le_bytes(length) as usize)?;
        all = rest;
        Some((kind, body))
    })
}

pub(crate) const DONE: u8 = 32;

pub(crate) const DATA: u8 = 37;

pub(crate) const LOOK: u8 = 38;

pub(crate) const NEWS: u8 = 39;

fn vec_of(bytes: &[u8]) -> Result<Vec<u8>, Fault> {
    let mut vec = Vec::new();
    vec.try_reserve_exact(bytes.len()).map_err(|_| Fault::Memory)?;
    vec.extend_from_slice(bytes);
    Ok(vec)
}

fn push<T>(to: &mut Vec<T>, it: T) -> Result<(), Fault> {
    to.try_reserve(1).map_err(|_| Fault::Memory)?;
    to.push(it);
    Ok(())
}

/// The device of a record, as yet without configurations and strings.
fn device_of(body: &[u8]) -> Option<Device> {
    let (head, descriptor) = body.split_first_chunk::<20>()?;
    Some(Device {
        path: Path::from_bytes(&head[..8])?,
        number: u64::from_le_bytes(*head.last_chunk()?),
        address: head[8],
        is_low: head[9] != 0,
        chosen: head[10],
        ports: head[11],
        descriptor: descriptor.try_into().ok()?,
        configurations: Vec::new(),
        manufacturer: None,
        product: None,
        serial_number: None,
    })
}

fn refused_of(body: &[u8]) -> Result<Option<Refused>, Fault> {
    let Some((head, said)) = body.split_first_chunk::<10>() else {
        return Ok(None);
    };
    match (Path::from_bytes(&head[..8]), Cause::of(head[8], head[9])) {
        (Some(path), Some(cause)) => Ok(Some(Refused { path, cause, said: vec_of(said)? })),
        _ => Ok(None),
    }
}

fn text_of(units: &[u8]) -> Result<Text, Fault> {
    let mut text = Vec::new();
    text.try_reserve_exact(units.len() / 2).map_err(|_| Fault::Memory)?;
    text.extend(units.chunks_exact(2).map(|it| u16::from_le_bytes([it[0], it[1]])));
    Ok(Text(text))
}

/// Takes a configuration or a string of the device that came last.
fn complete(entries: &mut [Entry], kind: u8, body: &[u8]) -> Result<(), Fault> {
    let Some(Entry::Device(device)) = entries.last_mut() else {
        return Err(Fault::Unknown(kind));
    };
    if kind == 34 {
        return push(&mut device.configurations, vec_of(body)?);
    }
    match body.split_first() {
        Some((0, units)) => device.manufacturer = Some(text_of(units)?),
        Some((1, units)) => device.product = Some(text_of(units)?),
        Some((2, units)) => device.serial_number = Some(text_of(units)?),
        _ => return Err(Fault::Unknown(kind)),
    }
    Ok(())
}

/// The entries of a tree, by rising path.
pub(crate) fn entries(all: &[u8]) -> Result<Vec<Entry>, Fault> {
    let mut entries = Vec::new();
    for (kind, body) in records(all) {
        match kind {
            33 => push(&mut entries, Entry::Device(device_of(body).ok_or(Fault::Unknown(kind))?))?,
            36 => push(&mut entries, Entry::Refused(refused_of(body)?.ok_or(Fault::Unknown(kind))?))?,
            34 | 35 => complete(&mut entries, kind, body)?,
            _ => {}
        }
    }
    Ok(entries)
}

/// The bytes that were received, polled or read.
pub(crate) fn data(all: &[u8]) -> Result<Option<Vec<u8>>, Fault> {
    records(all).find(|it| it.0 == DATA).map(|it| vec_of(it.1)).transpose()
}

pub(crate) fn look(all: &[u8]) -> Option<Look> {
    let (_, body) = records(all).find(|it| it.0 == LOOK)?;
    Some(match *body {
        [0, ..] => Look::Empty,
        [1, ..] => Look::Accepted,
        [2, cause, of, ..] => Look::Refused(Cause::of(cause, of)?),
        _ => return None,
    })
}

pub(crate) fn news(all: &[u8]) -> Option<News> {
    let (_, body) = records(all).find(|it| it.0 == NEWS)?;
    let (head, number) = body.split_first_chunk::<9>()?;
    Some(News {
        has_arrived: head[0] != 0,
        path: Path::from_bytes(&head[1..])?,
        number: u64::from_le_bytes(number.try_into().ok()?),
    })
}
