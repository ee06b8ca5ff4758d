//! A first driver over the host in Rust (docs/EMBEDDING.md). The four functions of the hardware are yours.
use usbhost::{Attempt, Bus, Came, Controller, Entry, Fault, Feature, Hubs, Options};

// The hardware.
fn mine_attempt(_attempt: &Attempt) -> Came {
    todo!("one attempt, with no retry")
}
fn mine_status(_port: u8) -> u32 {
    todo!("wPortStatus, and wPortChange from bit 16 on")
}
fn mine_port(_port: u8, _set: bool, _feature: Feature) {
    todo!("a call at a root port")
}
fn mine_pause_ms(_ms: u32) {
    todo!("a pause")
}

struct Mine {
    /// By address: the last request.
    setup: [[u8; 8]; 128],
}

impl Controller for Mine {
    fn roots(&self) -> u8 {
        2
    }

    fn status(&mut self, port: u8) -> u32 {
        mine_status(port)
    }

    fn attempt(&mut self, attempt: &Attempt) -> Came {
        let came = mine_attempt(attempt);
        match attempt {
            Attempt::Setup { to, data } => self.setup[usize::from(to.address)] = *data,
            Attempt::In { to } if to.endpoint == 0 && matches!(came, Came::Data { .. }) => {
                match self.setup[usize::from(to.address)] {
                    [0x00, 5, ..] => mine_pause_ms(10),    // SET_ADDRESS is done
                    [0x23, 3, 4, ..] => mine_pause_ms(30), // a hub has begun a reset of a port
                    _ => {}
                }
            }
            _ => {}
        }
        came
    }

    fn port(&mut self, port: u8, set: bool, feature: Feature) {
        mine_port(port, set, feature); // of a reset: held for 50 ms, and ended
        if set && feature == Feature::Reset {
            mine_pause_ms(10);
        }
    }
}

fn main() -> Result<(), Fault> {
    let options = Options { hubs: Hubs::Wide, ..Options::default() };
    let mut bus = Bus::open(Mine { setup: [[0; 8]; 128] }, options)?;
    bus.settle()?;
    for entry in bus.tree()? {
        if let Entry::Device(device) = entry {
            println!("{}: address {}", device.path, device.address);
        }
    }
    loop {
        bus.round()?;
        for news in bus.news() {
            println!("{:?}", news?);
        }
        mine_pause_ms(10);
    }
}
