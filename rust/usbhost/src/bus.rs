use alloc::vec::Vec;

use crate::{
    Attempt, Came, Done, Endpoint, Entry, Fault, Feature, Host, Ins, Look, News, Options, Packet, Path, Question, Row,
    Setup, Statuses, Want,
};

/// A controller with its root ports: what its driver provides.
///
/// The host has no clock, so the controller makes all waits: in [`Controller::port`] those of a reset, and in
/// [`Controller::attempt`] those after SET_ADDRESS and after a hub's PORT_RESET.
pub trait Controller {
    /// The number of root ports, 1 to 7: always the same.
    fn roots(&self) -> u8;

    /// wPortStatus and, from bit 16 on, wPortChange of a root port, from 1 on.
    fn status(&mut self, port: u8) -> u32;

    /// Makes one attempt, with no retry.
    fn attempt(&mut self, attempt: &Attempt) -> Came;

    /// Sets or clears a feature of a root port. A reset has ended, and has had its 10 ms, when this returns.
    fn port(&mut self, port: u8, set: bool, feature: Feature);

    /// An endpoint begins again at DATA0. A controller that takes the toggle from each attempt, and compares none, does
    /// nothing.
    fn restart(&mut self, address: u8, endpoint: Endpoint) {
        let _ = (address, endpoint);
    }

    /// Makes a row: INs of one endpoint, at least one and at most `ins.most`. A controller with a queue makes one queue
    /// of them.
    ///
    /// The row ends after an attempt that brings no full packet of the toggle that is due. It may also end after any
    /// other attempt. What came of the last attempt is returned, and `before` gets the full packets before that one.
    ///
    /// This body makes one attempt.
    fn ins(&mut self, ins: &Ins, before: &mut Row) -> Came {
        let _ = before;
        self.attempt(&Attempt::In { to: ins.to })
    }
}

/// A host with its controller: each call returns when it is done.
///
/// If a call finds no memory ([`Fault::Memory`]), make the same call again, with the same arguments: it goes on where
/// it was, and no attempt is made twice. Until it is done, each other call is [`Fault::OutOfTurn`].
pub struct Bus<C> {
    host: Host,
    controller: C,
    /// The call that is under way.
    begun: Option<[u8; 24]>,
    /// An answer that found no memory.
    kept: Option<Came>,
    /// The packets of a row before it.
    before: Row,
    device_bytes: Option<u32>,
    budget: Budget,
}

/// The attempts that each address may have in a call, so that no device fills the heap with NAKs.
struct Budget {
    most: u64,
    made: [u32; 128],
}

impl Budget {
    /// Some for what goes wrong, and one for each least packet.
    fn of(device_bytes: Option<u32>, want: &Want<'_>) -> Budget {
        let bytes = device_bytes.map(|it| u64::from(it) + want.moves());
        Budget { most: bytes.map_or(u64::MAX, |it| 4096 + it / 8), made: [0; 128] }
    }

    /// Whether this address may have another attempt.
    fn has(&self, address: u8) -> bool {
        u64::from(self.made[usize::from(address & 127)]) < self.most
    }

    /// Notes attempts.
    fn spend(&mut self, address: u8, attempts: usize) {
        let made = &mut self.made[usize::from(address & 127)];
        *made = made.saturating_add(attempts as u32);
    }
}

fn statuses_of<C: Controller>(controller: &mut C) -> Statuses {
    let mut statuses = [0; 7];
    for (port, status) in (1..=controller.roots()).zip(&mut statuses) {
        *status = controller.status(port);
    }
    statuses
}

impl<C: Controller> Bus<C> {
    /// Opens a host at a controller. It switches the power of each root port off and on.
    ///
    /// In one call a device gets at most 4,096 attempts, and one for each 8 bytes that the options allow and that the
    /// call may move. After them the controller is not asked, and the host hears no answer. So no device fills the heap
    /// with NAKs. With no limit of bytes there is no such limit either.
    ///
    /// # Errors
    ///
    /// - `Roots`: the controller has not 1 to 7 root ports.
    /// - `Memory`: the heap had no memory. The controller is lost, so lend a `&mut` one if it must not be.
    pub fn open(mut controller: C, options: Options) -> Result<Bus<C>, Fault> {
        let statuses = statuses_of(&mut controller);
        let host = Host::open(controller.roots(), options, &statuses)?;
        let device_bytes = options.device_bytes.filter(|it| *it != u32::MAX);
        let budget = Budget::of(device_bytes, &Want::Round);
        let mut bus = Bus { host, controller, begun: None, kept: None, before: Row::EMPTY, device_bytes, budget };
        bus.finish()?;
        Ok(bus)
    }

    /// The controller.
    pub fn controller(&self) -> &C {
        &self.controller
    }

    /// The controller, to be changed.
    pub fn controller_mut(&mut self) -> &mut C {
        &mut self.controller
    }

    /// The controller, for good: the host is closed.
    pub fn into_controller(self) -> C {
        self.controller
    }

    /// Makes one round over the root ports and the listed hubs: each port that reports a change is handled.
    ///
    /// # Errors
    ///
    /// `Memory`, `OutOfTurn`, as each call (see [`Bus`]).
    pub fn round(&mut self) -> Result<Done, Fault> {
        self.make(&Want::Round)
    }

    /// Makes rounds until one is quiet.
    ///
    /// # Errors
    ///
    /// `Restless`: 256 rounds in a row had work to do, as happens with a broken port.
    pub fn settle(&mut self) -> Result<(), Fault> {
        for _ in 0..256 {
            if self.round()? == Done::Quiet {
                return Ok(());
            }
        }
        Err(Fault::Restless)
    }

    /// What is known of each port, by rising path. No attempt is made.
    ///
    /// # Errors
    ///
    /// `Memory`, `OutOfTurn`.
    pub fn tree(&mut self) -> Result<Vec<Entry>, Fault> {
        self.make(&Want::Tree)?;
        self.host.entries()
    }

    /// The changes of the accepted devices that were not taken yet: first those that left, then those that arrived,
    /// each by rising path. After an error the iterator may be asked again.
    pub fn news(&mut self) -> impl Iterator<Item = Result<News, Fault>> {
        core::iter::from_fn(move || self.next_news().transpose())
    }

    fn next_news(&mut self) -> Result<Option<News>, Fault> {
        match self.make(&Want::News)? {
            Done::Worked => self.host.news(),
            Done::Quiet => Ok(None),
        }
    }

    /// Enumerates a port again, as if its connection had changed.
    ///
    /// # Errors
    ///
    /// `NoPort`: there is no such port.
    pub fn look(&mut self, path: Path) -> Result<Look, Fault> {
        self.make(&Want::Look { path })?;
        self.host.look()?.ok_or(Fault::Unknown(0))
    }

    /// Sends bytes to the first bulk OUT endpoint of a device. After a fault it may have taken a prefix.
    ///
    /// # Errors
    ///
    /// `NoDevice`, `NoEndpoint` or `Broken`, after no attempt; `Stalled`, `Busy`, `NoAnswer`.
    pub fn send(&mut self, path: Path, bytes: &[u8]) -> Result<(), Fault> {
        self.make(&Want::Send { path, bytes }).map(drop)
    }

    /// Receives packets of the first bulk IN endpoint, up to one that is shorter than the maximum.
    ///
    /// # Errors
    ///
    /// As `send`.
    pub fn receive(&mut self, path: Path, packets: u16) -> Result<Vec<u8>, Fault> {
        self.make_read(&Want::Receive { path, packets })
    }

    /// Clears the halts of the first bulk endpoints, if a transfer found them halted.
    ///
    /// # Errors
    ///
    /// As `send`, but for `Broken`.
    pub fn clear_halt(&mut self, path: Path) -> Result<(), Fault> {
        self.make(&Want::ClearHalt { path }).map(drop)
    }

    /// Sends bytes to a bulk or interrupt OUT endpoint.
    ///
    /// # Errors
    ///
    /// As `send`.
    pub fn send_to(&mut self, path: Path, endpoint: Endpoint, bytes: &[u8]) -> Result<(), Fault> {
        self.make(&Want::SendTo { path, endpoint, bytes }).map(drop)
    }

    /// Receives packets of a bulk IN endpoint.
    ///
    /// # Errors
    ///
    /// As `send`.
    pub fn receive_from(&mut self, path: Path, endpoint: Endpoint, packets: u16) -> Result<Vec<u8>, Fault> {
        self.make_read(&Want::ReceiveFrom { path, endpoint, packets })
    }

    /// Asks an interrupt IN endpoint once; `None` if it has no packet.
    ///
    /// # Errors
    ///
    /// As `send`. No poll breaks the endpoint: after `Busy` and `NoAnswer` it may be asked again.
    pub fn poll(&mut self, path: Path, endpoint: Endpoint) -> Result<Option<Packet>, Fault> {
        match self.make(&Want::Poll { path, endpoint })? {
            Done::Quiet => Ok(None),
            Done::Worked => {
                let bytes = self.host.bytes()?.unwrap_or_default();
                Packet::new(&bytes).map(Some).ok_or(Fault::TooMuch)
            }
        }
    }

    /// Clears the halt of an endpoint in any case: both ends begin again at DATA0.
    ///
    /// # Errors
    ///
    /// As `clear_halt`.
    pub fn clear_halt_of(&mut self, path: Path, endpoint: Endpoint) -> Result<(), Fault> {
        self.make(&Want::ClearHaltOf { path, endpoint }).map(drop)
    }

    /// Gives an interface another alternate setting (9.4.10): its endpoints begin again at DATA0.
    ///
    /// # Errors
    ///
    /// - `NoDevice`, `NoInterface`, after no attempt; `Stalled`.
    /// - `Busy`, `NoAnswer`: nobody knows the setting. Its endpoints are `Broken` until a setting is given.
    pub fn set_interface(&mut self, path: Path, interface: u8, setting: u8) -> Result<(), Fault> {
        self.make(&Want::SetInterface { path, interface, setting }).map(drop)
    }

    /// Makes a request whose data come from the device, at most as many bytes as its length says.
    ///
    /// # Errors
    ///
    /// - `Value`: bit 7 of its type is clear.
    /// - `NoDevice`, after no attempt; `Stalled`: the device refused it; `Busy`, `NoAnswer`.
    pub fn control_in(&mut self, path: Path, setup: Setup) -> Result<Vec<u8>, Fault> {
        self.make_read(&Want::ControlIn { path, setup })
    }

    /// Makes a request with data for the device, or with none. After a fault it has all the bytes or none.
    ///
    /// # Errors
    ///
    /// - `Value`: bit 7 of its type is set, or the number of bytes is not its length.
    /// - `Reserved`: only the host may send it. `NoDevice`. Nothing is attempted.
    /// - `Stalled`: the device refused it; `Busy`, `NoAnswer`.
    pub fn control_out(&mut self, path: Path, setup: Setup, bytes: &[u8]) -> Result<(), Fault> {
        self.make(&Want::ControlOut { path, setup, bytes }).map(drop)
    }

    fn make_read(&mut self, want: &Want<'_>) -> Result<Vec<u8>, Fault> {
        self.make(want)?;
        Ok(self.host.bytes()?.unwrap_or_default())
    }

    /// Makes a call, or goes on with this one if it found no memory.
    fn make(&mut self, want: &Want<'_>) -> Result<Done, Fault> {
        let head = want.head();
        match self.begun {
            Some(begun) if begun != head => return Err(Fault::OutOfTurn),
            Some(_) => {}
            None => {
                let statuses = statuses_of(&mut self.controller);
                self.host.begin(want, &statuses)?;
                self.begun = Some(head);
                self.budget = Budget::of(self.device_bytes, want);
            }
        }
        self.finish()?;
        self.begun = None;
        self.host.done()
    }

    /// Answers what is asked until the call is done.
    fn finish(&mut self) -> Result<(), Fault> {
        loop {
            if self.kept.is_none() {
                let Some(question) = self.host.question()? else {
                    return Ok(());
                };
                self.before.clear();
                self.kept = Some(came_of(&mut self.controller, &question, &mut self.before, &mut self.budget));
            }
            let statuses = statuses_of(&mut self.controller);
            let last = self.kept.as_ref().unwrap_or(&Came::Nothing);
            if self.before.is_empty() {
                self.host.answer(last, &statuses)?;
            } else {
                self.host.answer_row(&self.before, last, &statuses)?;
            }
            self.kept = None;
        }
    }
}

/// Data that are too long are no good answer (8.7.4).
fn fitting(came: Came, most: u8) -> Came {
    match came {
        Came::Data { data, .. } if data.len() > usize::from(most) => Came::Nothing,
        came => came,
    }
}

/// Lets the controller make a row. One that cannot be is no good answer.
fn row_of<C: Controller>(controller: &mut C, ins: &Ins, before: &mut Row) -> Came {
    let came = fitting(controller.ins(ins, before), ins.to.most);
    let most = usize::from(ins.to.most);
    if !before.len().is_multiple_of(most) || before.len() >= most * usize::from(ins.most) {
        before.clear();
        return Came::Nothing;
    }
    came
}

/// Lets the controller make an attempt.
fn attempt_of<C: Controller>(controller: &mut C, attempt: &Attempt) -> Came {
    match (controller.attempt(attempt), attempt) {
        (came, Attempt::In { to }) => fitting(came, to.most),
        (Came::Data { .. }, Attempt::Setup { .. } | Attempt::Out { .. }) => Came::Nothing,
        (came, _) => came,
    }
}

/// Lets the controller do what is asked. An address that has had all its attempts gives no answer.
fn came_of<C: Controller>(controller: &mut C, question: &Question, before: &mut Row, budget: &mut Budget) -> Came {
    match question {
        Question::Attempt(attempt) if budget.has(attempt.to().address) => {
            budget.spend(attempt.to().address, 1);
            attempt_of(controller, attempt)
        }
        Question::Ins(ins) if budget.has(ins.to.address) => {
            let came = row_of(controller, ins, before);
            budget.spend(ins.to.address, before.len() / usize::from(ins.to.most).max(1) + 1);
            came
        }
        Question::Attempt(_) | Question::Ins(_) => Came::Nothing,
        Question::Port { port, set, feature } => {
            controller.port(*port, *set, *feature);
            Came::Nothing
        }
        Question::Restart { address, endpoint } => {
            controller.restart(*address, *endpoint);
            Came::Nothing
        }
    }
}

impl<C: Controller> Controller for &mut C {
    fn roots(&self) -> u8 {
        (**self).roots()
    }

    fn status(&mut self, port: u8) -> u32 {
        (**self).status(port)
    }

    fn attempt(&mut self, attempt: &Attempt) -> Came {
        (**self).attempt(attempt)
    }

    fn port(&mut self, port: u8, set: bool, feature: Feature) {
        (**self).port(port, set, feature);
    }

    fn restart(&mut self, address: u8, endpoint: Endpoint) {
        (**self).restart(address, endpoint);
    }

    fn ins(&mut self, ins: &Ins, before: &mut Row) -> Came {
        (**self).ins(ins, before)
    }
}
