use alloc::vec::Vec;

use crate::question::status_bytes;
use crate::{Endpoint, Fault, Path, Statuses};

/// The setup data of a request (9.3).
#[derive(Clone, Copy, Debug, PartialEq, Eq, Hash)]
pub struct Setup {
    /// bmRequestType: bit 7 is set if the data come from the device.
    pub request_type: u8,
    /// bRequest.
    pub request: u8,
    /// wValue.
    pub value: u16,
    /// wIndex.
    pub index: u16,
    /// wLength.
    pub length: u16,
}

/// A call that a host can make.
#[derive(Clone, Copy, Debug, PartialEq, Eq)]
pub enum Want<'a> {
    /// One round over the root ports and the listed hubs.
    Round,
    /// What is known of each port.
    Tree,
    /// Bytes to the first bulk OUT endpoint of a device.
    Send {
        /// The device.
        path: Path,
        /// The bytes.
        bytes: &'a [u8],
    },
    /// Packets of the first bulk IN endpoint, up to one that is shorter than the maximum.
    Receive {
        /// The device.
        path: Path,
        /// The most packets.
        packets: u16,
    },
    /// The halts of the first bulk endpoints cleared, if a transfer found them halted.
    ClearHalt {
        /// The device.
        path: Path,
    },
    /// Bytes to a bulk or interrupt OUT endpoint.
    SendTo {
        /// The device.
        path: Path,
        /// The endpoint.
        endpoint: Endpoint,
        /// The bytes.
        bytes: &'a [u8],
    },
    /// Packets of a bulk IN endpoint.
    ReceiveFrom {
        /// The device.
        path: Path,
        /// The endpoint.
        endpoint: Endpoint,
        /// The most packets.
        packets: u16,
    },
    /// One packet of an interrupt IN endpoint, if it has one.
    Poll {
        /// The device.
        path: Path,
        /// The endpoint.
        endpoint: Endpoint,
    },
    /// The halt of an endpoint cleared, in any case.
    ClearHaltOf {
        /// The device.
        path: Path,
        /// The endpoint.
        endpoint: Endpoint,
    },
    /// Another alternate setting of an interface (9.4.10).
    SetInterface {
        /// The device.
        path: Path,
        /// The interface.
        interface: u8,
        /// The setting.
        setting: u8,
    },
    /// A request whose data come from the device: bit 7 of its type is set.
    ControlIn {
        /// The device.
        path: Path,
        /// The request.
        setup: Setup,
    },
    /// A request with data for the device, or with none: bit 7 of its type is clear.
    ControlOut {
        /// The device.
        path: Path,
        /// The request.
        setup: Setup,
        /// The bytes: their number is its length.
        bytes: &'a [u8],
    },
    /// A port enumerated again, as if its connection had changed.
    Look {
        /// The port.
        path: Path,
    },
    /// The next change of the accepted devices.
    News,
}

impl Want<'_> {
    /// What the call is, without statuses and data.
    pub(crate) fn head(&self) -> [u8; 24] {
        let mut head = [0; 24];
        head[0] = self.kind();
        if let Some(path) = self.path() {
            head[1..9].copy_from_slice(&path.to_bytes());
        }
        match *self {
            Want::SendTo { endpoint, .. }
            | Want::ReceiveFrom { endpoint, .. }
            | Want::Poll { endpoint, .. }
            | Want::ClearHaltOf { endpoint, .. } => head[9] = endpoint.address(),
            Want::SetInterface { interface, setting, .. } => head[9..11].copy_from_slice(&[interface, setting]),
            _ => {}
        }
        if let Want::Receive { packets, .. } | Want::ReceiveFrom { packets, .. } = *self {
            head[12..14].copy_from_slice(&packets.to_le_bytes());
        }
        if let Want::ControlIn { setup, .. } | Want::ControlOut { setup, .. } = *self {
            head[16..18].copy_from_slice(&[setup.request_type, setup.request]);
            head[18..20].copy_from_slice(&setup.value.to_le_bytes());
            head[20..22].copy_from_slice(&setup.index.to_le_bytes());
            head[22..24].copy_from_slice(&setup.length.to_le_bytes());
        }
        head
    }

    /// The record of the call.
    pub(crate) fn record(&self, statuses: &Statuses) -> Result<Vec<u8>, Fault> {
        let mut record = Vec::new();
        record.try_reserve_exact(52 + self.bytes().len()).map_err(|_| Fault::Memory)?;
        record.extend_from_slice(&self.head());
        record.extend_from_slice(&status_bytes(statuses));
        record.extend_from_slice(self.bytes());
        Ok(record)
    }

    fn kind(&self) -> u8 {
        match self {
            Want::Round => 16,
            Want::Tree => 17,
            Want::Send { .. } => 18,
            Want::Receive { .. } => 19,
            Want::ClearHalt { .. } => 20,
            Want::SendTo { .. } => 21,
            Want::ReceiveFrom { .. } => 22,
            Want::Poll { .. } => 23,
            Want::ClearHaltOf { .. } => 24,
            Want::SetInterface { .. } => 25,
            Want::ControlIn { .. } => 26,
            Want::ControlOut { .. } => 27,
            Want::Look { .. } => 28,
            Want::News => 29,
        }
    }

    fn path(&self) -> Option<Path> {
        match *self {
            Want::Round | Want::Tree | Want::News => None,
            Want::Send { path, .. }
            | Want::Receive { path, .. }
            | Want::ClearHalt { path }
            | Want::SendTo { path, .. }
            | Want::ReceiveFrom { path, .. }
            | Want::Poll { path, .. }
            | Want::ClearHaltOf { path, .. }
            | Want::SetInterface { path, .. }
            | Want::ControlIn { path, .. }
            | Want::ControlOut { path, .. }
            | Want::Look { path } => Some(path),
        }
    }

    /// The most bytes that a call moves.
    pub(crate) fn moves(&self) -> u64 {
        match *self {
            Want::ControlIn { setup, .. } | Want::ControlOut { setup, .. } => u64::from(setup.length),
            Want::Receive { packets, .. } | Want::ReceiveFrom { packets, .. } => 64 * u64::from(packets),
            _ => self.bytes().len() as u64,
        }
    }

    fn bytes(&self) -> &[u8] {
        match self {
            Want::Send { bytes, .. } | Want::SendTo { bytes, .. } | Want::ControlOut { bytes, .. } => bytes,
            _ => &[],
        }
    }
}
