//! Each call before one device in memory.
#[path = "../examples/device/mod.rs"]
mod device;

use device::Device;
use usbhost::{
    Bus, Came, Cause, Controller, Done, Endpoint, Entry, Fault, Host, Hubs, Look, Options, Packet, Path, Question, Row,
    Setup, Statuses, Want,
};

fn opened() -> Bus<Device> {
    let mut bus = Bus::open(Device::default(), Options::default()).unwrap();
    bus.settle().unwrap();
    bus
}

fn at(text: &str) -> Path {
    text.parse().unwrap()
}

fn setup(request_type: u8, request: u8, length: u16) -> Setup {
    Setup { request_type, request, value: 0x100, index: 0, length }
}

#[test]
fn the_device_is_listed() {
    let entries = opened().tree().unwrap();
    let [Entry::Device(it)] = entries.as_slice() else { panic!("{entries:?}") };
    assert_eq!((it.path, it.address, it.is_low, it.chosen, it.ports), (at("1"), 1, false, 0, 0));
    assert_eq!(it.descriptor[8..12], [0x34, 0x12, 0x78, 0x56]);
    assert_eq!(it.configuration().map(<[u8]>::len), Some(39));
    assert_eq!(it.product.as_ref().map(ToString::to_string).as_deref(), Some("ok"));
    assert!(it.manufacturer.is_none() && it.serial_number.is_none());
}

#[test]
fn bytes_come_and_go() {
    let mut bus = opened();
    let bytes = bus.receive(at("1"), 3).unwrap();
    assert_eq!(bytes, [[1; 64], [2; 64], [3; 64]].concat());
    bus.send(at("1"), &bytes).unwrap();
    bus.send_to(at("1"), Endpoint::output(2).unwrap(), b"more").unwrap();
    assert_eq!(bus.controller().took, [&bytes, &b"more"[..]].concat());
    assert_eq!(bus.receive_from(at("1"), Endpoint::input(1).unwrap(), 1).unwrap(), [4; 64]);
    bus.clear_halt(at("1")).unwrap();
    bus.send(at("1"), &[]).unwrap();
    assert_eq!(bus.receive(at("1"), 0).unwrap(), []);
}

#[test]
fn rows_bring_the_same_bytes() {
    // How many attempts the controller makes in a row, less one, and how many rows 100 packets and 30 are then.
    for (row, rows) in [(0, 130), (2, 44), (63, 3), (200, 3)] {
        let mut bus = opened();
        bus.controller_mut().row = row;
        let before = bus.controller().attempts;
        let bytes = bus.receive(at("1"), 100).unwrap();
        assert!(bytes.len() == 6400 && bytes.iter().zip(0..).all(|(it, place)| usize::from(*it) == place / 64 + 1));
        bus.controller_mut().full = 30;
        assert_eq!(bus.receive(at("1"), 100).unwrap().len(), 29 * 64 + 2);
        assert_eq!((bus.controller().attempts - before, bus.controller().rows), (130, rows), "{row}");
    }
}

#[test]
fn a_device_with_one_byte_too_many_is_too_large() {
    for (bytes, cause) in [(38, Some(Cause::TooLarge)), (39, None)] {
        let options = Options { hubs: Hubs::Wide, device_bytes: Some(bytes) };
        let mut bus = Bus::open(Device::default(), options).unwrap();
        bus.settle().unwrap();
        match (bus.tree().unwrap().as_slice(), cause) {
            ([Entry::Refused(it)], Some(cause)) => assert_eq!(it.cause, cause),
            ([Entry::Device(_)], None) => {}
            (entries, _) => panic!("{bytes}: {entries:?}"),
        }
    }
}

/// A device that answers NAK to each IN of endpoint 0, and how often it was asked.
struct Late(Device, u32);

impl Controller for Late {
    fn roots(&self) -> u8 {
        1
    }
    fn status(&mut self, port: u8) -> u32 {
        self.0.status(port)
    }
    fn attempt(&mut self, attempt: &usbhost::Attempt) -> Came {
        self.1 += 1;
        match attempt {
            // one in 256 is answered, so that the host never calls it busy
            usbhost::Attempt::In { to } if to.endpoint == 0 && !self.1.is_multiple_of(256) => Came::Nak,
            _ => self.0.attempt(attempt),
        }
    }
    fn port(&mut self, port: u8, set: bool, feature: usbhost::Feature) {
        self.0.port(port, set, feature);
    }
}

#[test]
fn a_late_device_does_not_hold_the_host() {
    for (device_bytes, most) in [(Some(64), 2 * (4096 + 8)), (None, u32::MAX)] {
        let options = Options { device_bytes, ..Options::default() };
        let mut bus = Bus::open(Late(Device::default(), 0), options).unwrap();
        bus.settle().unwrap();
        assert!(bus.controller().1 <= most && bus.tree().unwrap().len() == 1, "{}", bus.controller().1);
    }
}

#[test]
fn polls_and_requests() {
    let (mut bus, reports) = (opened(), Endpoint::input(3).unwrap());
    assert_eq!(bus.poll(at("1"), reports), Ok(None));
    bus.controller_mut().report = Some(*b"pressed!");
    assert_eq!(bus.poll(at("1"), reports).unwrap().as_deref(), Some(&b"pressed!"[..]));
    assert_eq!(bus.control_in(at("1"), setup(0x80, 6, 8)).unwrap()[..4], [18, 1, 0, 2]);
    bus.control_out(at("1"), setup(0x41, 7, 4), b"four").unwrap();
    assert_eq!(bus.control_out(at("1"), setup(0x41, 7, 5), b"four"), Err(Fault::Value));
    assert_eq!(bus.control_out(at("1"), setup(0xC1, 7, 0), b""), Err(Fault::Value));
    assert_eq!(bus.control_in(at("1"), setup(0x41, 7, 4)), Err(Fault::Value));
    assert_eq!(bus.control_out(at("1"), setup(0, 5, 0), b""), Err(Fault::Reserved));
}

#[test]
fn faults_are_told() {
    let mut bus = opened();
    let before = bus.controller().attempts;
    assert_eq!(bus.send(at("2"), b"x"), Err(Fault::NoDevice));
    assert_eq!(bus.send_to(at("1"), Endpoint::output(9).unwrap(), b"x"), Err(Fault::NoEndpoint));
    assert_eq!(bus.set_interface(at("1"), 0, 9), Err(Fault::NoInterface));
    assert_eq!(bus.look(at("1.1")), Err(Fault::NoPort));
    assert_eq!(bus.look(at("1.16")), Err(Fault::Value));
    assert_eq!(bus.controller().attempts, before);
    assert_eq!(Host::open(0, Options::default(), &[0; 7]).err(), Some(Fault::Roots));
    assert_eq!(Host::open(8, Options::default(), &[0; 7]).err(), Some(Fault::Roots));
}

#[test]
fn news_come_once() {
    let mut bus = opened();
    let arrived: Vec<_> = bus.news().map(Result::unwrap).collect();
    assert_eq!(arrived.len(), 1);
    assert!(arrived[0].has_arrived && arrived[0].path == at("1"));
    assert_eq!(bus.news().count(), 0);
    assert_eq!(bus.look(at("1")), Ok(Look::Accepted));
    assert_eq!(bus.look(at("2")), Ok(Look::Empty));
    let again: Vec<_> = bus.news().map(Result::unwrap).collect();
    assert_eq!(again.iter().map(|it| it.has_arrived).collect::<Vec<_>>(), [false, true]);
    assert_ne!(again[1].number, arrived[0].number);
    bus.controller_mut().unplug();
    bus.settle().unwrap();
    let left: Vec<_> = bus.news().map(Result::unwrap).collect();
    assert!(left.len() == 1 && !left[0].has_arrived);
    assert_eq!(bus.tree().unwrap(), []);
}

fn statuses(device: &mut Device) -> Statuses {
    let mut statuses = [0; 7];
    statuses[0] = device.status(1);
    statuses
}

/// Answers each question; how many there were.
fn answer_all(host: &mut Host, device: &mut Device) -> usize {
    let mut count = 0;
    while let Some(question) = host.question().unwrap() {
        assert_eq!(host.question().unwrap(), Some(question));
        let mut before = Row::EMPTY;
        let came = match question {
            Question::Attempt(attempt) => device.attempt(&attempt),
            Question::Ins(ins) => device.ins(&ins, &mut before),
            Question::Port { port, set, feature } => {
                device.port(port, set, feature);
                Came::Nothing
            }
            Question::Restart { .. } => Came::Nothing,
        };
        host.answer_row(&before, &came, &statuses(device)).unwrap();
        assert_eq!(host.answer(&came, &statuses(device)), Err(Fault::OutOfTurn));
        count += 1;
    }
    count
}

#[test]
fn questions_and_answers() {
    let mut device = Device::default();
    let mut host = Host::open(1, Options::default(), &[0; 7]).unwrap();
    assert_eq!(host.done(), Err(Fault::OutOfTurn));
    assert_eq!(host.begin(&Want::Round, &[0; 7]), Err(Fault::OutOfTurn));
    assert_eq!(answer_all(&mut host, &mut device), 2);
    host.begin(&Want::Round, &statuses(&mut device)).unwrap();
    assert!(answer_all(&mut host, &mut device) > 10);
    assert_eq!(host.done(), Ok(Done::Worked));
    host.begin(&Want::Round, &statuses(&mut device)).unwrap();
    assert_eq!((answer_all(&mut host, &mut device), host.done()), (0, Ok(Done::Quiet)));
    host.begin(&Want::Tree, &statuses(&mut device)).unwrap();
    assert_eq!((answer_all(&mut host, &mut device), host.entries().unwrap().len()), (0, 1));
    host.begin(&Want::Receive { path: at("1"), packets: 1 }, &statuses(&mut device)).unwrap();
    assert!(matches!(host.question(), Ok(Some(_))));
    drop(host); // in the middle of a call
}

#[test]
fn too_much_is_not_taken() {
    struct Long(Device);
    impl Controller for Long {
        fn roots(&self) -> u8 {
            1
        }
        fn status(&mut self, port: u8) -> u32 {
            self.0.status(port)
        }
        fn attempt(&mut self, attempt: &usbhost::Attempt) -> Came {
            match self.0.attempt(attempt) {
                Came::Data { toggle, .. } => Came::Data { toggle, data: Packet::new(&[0; 64]).unwrap() },
                came => came,
            }
        }
        fn port(&mut self, port: u8, set: bool, feature: usbhost::Feature) {
            self.0.port(port, set, feature);
        }
    }
    let mut bus = Bus::open(Long(Device::default()), Options::default()).unwrap();
    bus.settle().unwrap();
    let entries = bus.tree().unwrap();
    assert!(matches!(entries.as_slice(), [Entry::Refused(_)]), "{entries:?}");
}

#[test]
fn paths() {
    for text in ["1", "1.12.3", "7.15.15.15.15.15.15", "255"] {
        assert_eq!(at(text).to_string(), text);
    }
    for text in ["", "0", "1.", ".1", "1..2", "256", "1.2.3.4.5.6.7.8", "1 ", "a", "-1", "+1"] {
        assert_eq!(text.parse::<Path>(), Err(Fault::Value), "{text}");
    }
    assert!(at("1.2") < at("1.2.1") && at("1.2.1") < at("1.3") && at("1.2.1").is_below(&at("1.2")));
    assert_eq!(Endpoint::new(0xF1).map(Endpoint::address), Some(0x81));
    assert_eq!((Endpoint::new(0x80), Endpoint::input(16)), (None, None));
}
