use core::fmt;

/// Why a call was not done.
#[derive(Clone, Copy, Debug, PartialEq, Eq, Hash)]
#[non_exhaustive]
pub enum Fault {
    /// No accepted device is at the path.
    NoDevice,
    /// The device is a hub, or has no such endpoint.
    NoEndpoint,
    /// The endpoint returned STALL, or the device refused the request.
    Stalled,
    /// The device returned NAK too often.
    Busy,
    /// There were three errors in a row.
    NoAnswer,
    /// The endpoint must be cleared first, or its interface set.
    Broken,
    /// Only the host may send this request.
    Reserved,
    /// No root port has this number, and no listed hub has such a port.
    NoPort,
    /// The device is a hub, or has no such interface and setting.
    NoInterface,
    /// The heap had no memory. Nothing has changed: make the same call again.
    Memory,
    /// A call is under way, or nothing was asked.
    OutOfTurn,
    /// A record has another length than its kind: a fault of this crate.
    Length,
    /// The data are longer than the question's maximum.
    TooMuch,
    /// A controller has 1 to 7 root ports.
    Roots,
    /// A value has no meaning: a path, an endpoint or the direction of a request.
    Value,
    /// In [`Bus::settle`](crate::Bus::settle): each of 256 rounds in a row had work to do.
    Restless,
    /// The archive returned a number, or a record, that this crate does not know.
    Unknown(u8),
}

impl Fault {
    /// The fault of the archive's number; `None` if there is none.
    pub(crate) fn of(number: u8) -> Option<Fault> {
        Some(match number {
            0 | 1 => return None,
            2 => Fault::NoDevice,
            3 => Fault::NoEndpoint,
            4 => Fault::Stalled,
            5 => Fault::Busy,
            6 => Fault::NoAnswer,
            7 => Fault::Broken,
            8 => Fault::Reserved,
            9 => Fault::NoPort,
            10 => Fault::NoInterface,
            40 => Fault::Memory,
            41 => Fault::OutOfTurn,
            43 => Fault::Length,
            44 => Fault::TooMuch,
            45 => Fault::Roots,
            46 => Fault::Value,
            other => Fault::Unknown(other),
        })
    }
}

impl fmt::Display for Fault {
    fn fmt(&self, f: &mut fmt::Formatter<'_>) -> fmt::Result {
        f.write_str(match self {
            Fault::NoDevice => "no device",
            Fault::NoEndpoint => "no endpoint",
            Fault::Stalled => "stalled",
            Fault::Busy => "busy",
            Fault::NoAnswer => "no answer",
            Fault::Broken => "broken",
            Fault::Reserved => "reserved",
            Fault::NoPort => "no port",
            Fault::NoInterface => "no interface",
            Fault::Memory => "out of memory",
            Fault::OutOfTurn => "out of turn",
            Fault::Length => "wrong length",
            Fault::TooMuch => "too much data",
            Fault::Roots => "bad number of root ports",
            Fault::Value => "bad value",
            Fault::Restless => "restless",
            Fault::Unknown(number) => return write!(f, "unknown status {number}"),
        })
    }
}

impl core::error::Error for Fault {}

/// What a call that was done had to do.
#[derive(Clone, Copy, Debug, PartialEq, Eq, Hash)]
pub enum Done {
    /// It did something.
    Worked,
    /// There was nothing: no work for a round, no packet for a poll, no news.
    Quiet,
}
