use alloc::vec::Vec;

use crate::question::status_bytes;
use crate::records;
use crate::sys::{self, Handle};
use crate::{Came, Done, Entry, Fault, Look, News, Question, Row, Statuses, Want};

/// Which hubs a host takes.
#[derive(Clone, Copy, Debug, PartialEq, Eq, Hash)]
pub enum Hubs {
    /// Those of 1 to 7 ports whose status endpoint is number 1.
    Narrow,
    /// Those of 1 to 15 ports, with a status endpoint of any number.
    Wide,
}

/// What a host takes. By default narrow hubs alone, and 8,192 bytes of each device.
#[derive(Clone, Copy, Debug, PartialEq, Eq, Hash)]
pub struct Options {
    /// Which hubs.
    pub hubs: Hubs,
    /// The most bytes of all configurations of a device together; `None` is no limit. A device that says more is
    /// refused, so that no device uses up the heap.
    pub device_bytes: Option<u32>,
}

impl Default for Options {
    fn default() -> Options {
        Options { hubs: Hubs::Narrow, device_bytes: Some(8192) }
    }
}

/// A host that asks questions and hears answers, with no I/O of its own and no blocking.
///
/// It does one call at a time. [`Host::begin`] begins a call. As long as [`Host::question`] is some, the holder of the
/// controller does what it says, and calls [`Host::answer`]. Then [`Host::done`] says how the call ended, and one of
/// `bytes`, `entries`, `look` and `news` has its result. [`Host::open`] begins the first call itself.
///
/// A fault of [`Fault::Memory`] changes nothing: make the same call of `Host` again.
///
/// Dropping a host closes it, also in the middle of a call, and frees all that it has.
pub struct Host {
    handle: Handle,
}

// SAFETY: the archive's state is plain data in blocks of its heap, and no other handle has any of it.
unsafe impl Send for Host {}

impl Drop for Host {
    fn drop(&mut self) {
        sys::close(&mut self.handle);
    }
}

fn checked(number: u8) -> Result<(), Fault> {
    Fault::of(number).map_or(Ok(()), Err)
}

impl Host {
    /// A host at a controller with 1 to 7 root ports, which have these statuses now. The call that opens it is under
    /// way then: it switches the power of each root port off and on.
    ///
    /// # Errors
    ///
    /// - `Roots`: there are not 1 to 7 root ports.
    /// - `Memory`: the heap had no memory.
    pub fn open(roots: u8, options: Options, statuses: &Statuses) -> Result<Host, Fault> {
        let mut host = Host { handle: Handle::CLOSED };
        let device_bytes = options.device_bytes.unwrap_or(u32::MAX);
        checked(sys::open(&mut host.handle, roots, options.hubs == Hubs::Wide, device_bytes, &status_bytes(statuses)))?;
        Ok(host)
    }

    /// Begins a call; the root ports have these statuses now.
    ///
    /// # Errors
    ///
    /// After any of them nothing was begun.
    ///
    /// - `OutOfTurn`: a call is under way.
    /// - `Value`: a port number is over 15, the direction of a request is the other one, or its bytes are not as many
    ///   as its length says.
    /// - `Memory`: the heap had no memory.
    pub fn begin(&mut self, want: &Want<'_>, statuses: &Statuses) -> Result<(), Fault> {
        checked(sys::begin(&mut self.handle, &want.record(statuses)?))
    }

    /// What the controller is to do next; `None` if the call is done, or none was begun. It stays the same until it is
    /// answered.
    ///
    /// # Errors
    ///
    /// `Memory`: the heap had no memory.
    pub fn question(&mut self) -> Result<Option<Question>, Fault> {
        let mut record = [0; Question::LENGTH];
        let number = sys::question(&mut self.handle, &mut record);
        checked(number)?;
        if number != 0 {
            return Ok(None);
        }
        Question::of(&record).map(Some).ok_or(Fault::Unknown(record[0]))
    }

    /// Says what came of the question, and how the root ports are then.
    ///
    /// # Errors
    ///
    /// After any of them the answer was not taken.
    ///
    /// - `OutOfTurn`: there is no question.
    /// - `TooMuch`: the data are longer than the maximum of the question.
    /// - `Memory`: the heap had no memory.
    pub fn answer(&mut self, came: &Came, statuses: &Statuses) -> Result<(), Fault> {
        let mut record = [0; 96];
        let length = came.put(statuses, &mut record);
        checked(sys::answer(&mut self.handle, &record[..length]))
    }

    /// The same for a row of more than one packet ([`Question::Ins`]): the full packets that came first, in order, and
    /// what came of the attempt after them.
    ///
    /// # Errors
    ///
    /// After any of them nothing was taken.
    ///
    /// - `OutOfTurn`: there is no question, or there are packets and the question is no row.
    /// - `Length`: a packet is not full.
    /// - `TooMuch`: there are more packets than in the row, or the data of the last attempt are longer than the
    ///   maximum.
    /// - `Memory`: the heap had no memory.
    pub fn answer_row(&mut self, before: &Row, last: &Came, statuses: &Statuses) -> Result<(), Fault> {
        let mut record = [0; 96];
        let length = last.put(statuses, &mut record);
        checked(sys::answer_row(&mut self.handle, before, &record[..length]))
    }

    /// How the call ended that was done last.
    ///
    /// # Errors
    ///
    /// - The fault of the call.
    /// - `OutOfTurn`: no call is done yet.
    /// - `Memory`: this call found no memory.
    pub fn done(&mut self) -> Result<Done, Fault> {
        let all = self.records()?;
        match records::records(&all).find(|it| it.0 == records::DONE) {
            Some((_, &[number])) => {
                checked(number)?;
                Ok(if number == 0 { Done::Worked } else { Done::Quiet })
            }
            Some((kind, _)) => Err(Fault::Unknown(kind)),
            None => Err(Fault::OutOfTurn),
        }
    }

    /// The bytes that the last call received, polled or read; `None` if it was no such call, or nothing came.
    ///
    /// # Errors
    ///
    /// `Memory`: the heap had no memory.
    pub fn bytes(&mut self) -> Result<Option<Vec<u8>>, Fault> {
        records::data(&self.records()?)
    }

    /// What the last call, a [`Want::Tree`], found at each port, by rising path.
    ///
    /// # Errors
    ///
    /// `Memory`: the heap had no memory.
    pub fn entries(&mut self) -> Result<Vec<Entry>, Fault> {
        records::entries(&self.records()?)
    }

    /// What the last call, a [`Want::Look`], found.
    ///
    /// # Errors
    ///
    /// `Memory`: the heap had no memory.
    pub fn look(&mut self) -> Result<Option<Look>, Fault> {
        Ok(records::look(&self.records()?))
    }

    /// The change that the last call, a [`Want::News`], reports.
    ///
    /// # Errors
    ///
    /// `Memory`: the heap had no memory.
    pub fn news(&mut self) -> Result<Option<News>, Fault> {
        Ok(records::news(&self.records()?))
    }

    /// All records of the call that was done last.
    fn records(&mut self) -> Result<Vec<u8>, Fault> {
        let length = sys::told(&mut self.handle, &mut []);
        let mut all = Vec::new();
        all.try_reserve_exact(length).map_err(|_| Fault::Memory)?;
        all.resize(length, 0);
        sys::told(&mut self.handle, &mut all);
        Ok(all)
    }
}
