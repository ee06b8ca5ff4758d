//! A host before one device in memory: it is found, read from, written to, and unplugged.
mod device;

use device::Device;
use usbhost::{Bus, Endpoint, Entry, Fault, Options, Path};

fn main() -> Result<(), Fault> {
    let mut bus = Bus::open(Device::default(), Options::default())?;
    bus.settle()?;
    for entry in bus.tree()? {
        match entry {
            Entry::Device(it) => {
                let product = it.product.as_ref().map_or(String::new(), |it| format!(", \"{it}\""));
                println!("{} address {}, {} endpoints{product}", it.path, it.address, it.configurations[0][13]);
            }
            Entry::Refused(it) => println!("{} refused: {:?}", it.path, it.cause),
        }
    }
    let path: Path = "1".parse()?;
    println!("received {} bytes", bus.receive(path, 16)?.len());
    bus.send(path, b"Hello, device")?;
    println!("it took {:?}", String::from_utf8_lossy(&bus.controller().took));
    bus.controller_mut().report = Some(*b"pressed!");
    if let Some(endpoint) = Endpoint::input(3) {
        println!("polled {:?}, then {:?}", bus.poll(path, endpoint)?, bus.poll(path, endpoint)?);
    }
    bus.controller_mut().unplug();
    bus.settle()?;
    for news in bus.news() {
        println!("{:?}", news?);
    }
    println!("{} attempts", bus.controller().attempts);
    Ok(())
}
