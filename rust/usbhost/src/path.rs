use core::fmt;
use core::str::FromStr;

use crate::Fault;

/// A place in the tree: the number of the root port, then that of a port of each hub on the way, as `1.2`.
#[derive(Clone, Copy, Debug, PartialEq, Eq, PartialOrd, Ord, Hash)]
pub struct Path {
    // The unused numbers are 0, so the order is that of the listing.
    ports: [u8; Path::DEPTH],
    length: u8,
}

impl Path {
    /// The most numbers of a path.
    pub const DEPTH: usize = 7;

    /// The path of these numbers; `None` if there are none, more than seven, or one is 0.
    pub fn new(ports: &[u8]) -> Option<Path> {
        if ports.is_empty() || ports.len() > Path::DEPTH || ports.contains(&0) {
            return None;
        }
        let mut path = Path { ports: [0; Path::DEPTH], length: ports.len() as u8 };
        path.ports[..ports.len()].copy_from_slice(ports);
        Some(path)
    }

    /// The path of a root port; `None` for 0.
    pub fn root(port: u8) -> Option<Path> {
        Path::new(&[port])
    }

    /// Its numbers, from the root port on.
    pub fn ports(&self) -> &[u8] {
        &self.ports[..usize::from(self.length)]
    }

    /// Whether this is the other path, or below it.
    pub fn is_below(&self, other: &Path) -> bool {
        self.ports().starts_with(other.ports())
    }

    /// The eight bytes of the archive's records.
    pub(crate) fn to_bytes(self) -> [u8; 8] {
        let mut bytes = [self.length, 0, 0, 0, 0, 0, 0, 0];
        bytes[1..].copy_from_slice(&self.ports);
        bytes
    }

    pub(crate) fn from_bytes(bytes: &[u8]) -> Option<Path> {
        let (&length, ports) = bytes.split_first()?;
        Path::new(ports.get(..usize::from(length))?)
    }
}

impl fmt::Display for Path {
    fn fmt(&self, f: &mut fmt::Formatter<'_>) -> fmt::Result {
        for (place, port) in self.ports().iter().enumerate() {
            if place > 0 {
                f.write_str(".")?;
            }
            write!(f, "{port}")?;
        }
        Ok(())
    }
}

impl FromStr for Path {
    type Err = Fault;

    /// Reads numbers with dots between.
    ///
    /// # Errors
    ///
    /// `Value`: it is no path.
    fn from_str(text: &str) -> Result<Path, Fault> {
        let (mut ports, mut count) = ([0; Path::DEPTH], 0);
        for word in text.split('.') {
            let place = ports.get_mut(count).ok_or(Fault::Value)?;
            let is_number = !word.is_empty() && word.bytes().all(|it| it.is_ascii_digit());
            *place = word.parse().ok().filter(|_| is_number).ok_or(Fault::Value)?;
            count += 1;
        }
        Path::new(&ports[..count]).ok_or(Fault::Value)
    }
}

/// The address of an endpoint (9.6.6): a number from 1 to 15 and a direction.
#[derive(Clone, Copy, Debug, PartialEq, Eq, PartialOrd, Ord, Hash)]
pub struct Endpoint(u8);

impl Endpoint {
    /// The endpoint of this bEndpointAddress, whose reserved bits are ignored; `None` for endpoint 0.
    pub fn new(address: u8) -> Option<Endpoint> {
        (address & 15 != 0).then_some(Endpoint(address & 0x8F))
    }

    /// The IN endpoint of this number; `None` if it is not 1 to 15.
    pub fn input(number: u8) -> Option<Endpoint> {
        (1..=15).contains(&number).then_some(Endpoint(number | 0x80))
    }

    /// The OUT endpoint of this number; `None` if it is not 1 to 15.
    pub fn output(number: u8) -> Option<Endpoint> {
        (1..=15).contains(&number).then_some(Endpoint(number))
    }

    /// bEndpointAddress: bit 7 is set for IN.
    pub fn address(self) -> u8 {
        self.0
    }

    /// Its number, 1 to 15.
    pub fn number(self) -> u8 {
        self.0 & 15
    }

    /// Whether its data go to the host.
    pub fn is_in(self) -> bool {
        self.0 & 0x80 != 0
    }
}
