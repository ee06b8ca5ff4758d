//! A USB 2.0 host for full and low speed. It needs a heap, and no operating system.
//!
//! What the host decides is proved code, in a static archive: `tools/c_library` of its repository makes
//! `libusb_handle.a`, and `USBHOST_LIB` names that file when this crate is built. `docs/EMBEDDING.md` there says what
//! is proved and what is assumed. This crate turns calls into the archive's records. Its `unsafe` code is the calls of
//! the archive, in `sys.rs`, and the archive's heap, in `heap.rs`.
//!
//! A program that may block implements [`Controller`] and uses a [`Bus`]:
//!
//! ```no_run
//! use usbhost::{Attempt, Bus, Came, Controller, Entry, Feature, Options};
//!
//! struct Mine;
//!
//! impl Controller for Mine {
//!     fn roots(&self) -> u8 {
//!         2
//!     }
//!     fn status(&mut self, port: u8) -> u32 {
//!         todo!("the status of root port {port}")
//!     }
//!     fn attempt(&mut self, attempt: &Attempt) -> Came {
//!         todo!("make {attempt:?}")
//!     }
//!     fn port(&mut self, port: u8, set: bool, feature: Feature) {
//!         todo!("at root port {port}, set ({set}) or clear {feature:?}")
//!     }
//! }
//!
//! # fn main() -> Result<(), usbhost::Fault> {
//! let mut bus = Bus::open(Mine, Options::default())?;
//! bus.settle()?;
//! for entry in bus.tree()? {
//!     match entry {
//!         Entry::Device(device) => println!("{}: address {}", device.path, device.address),
//!         Entry::Refused(refused) => println!("{}: refused, {:?}", refused.path, refused.cause),
//!     }
//! }
//! for news in bus.news() {
//!     println!("{:?}", news?);
//! }
//! # Ok(())
//! # }
//! ```
//!
//! A program that must not block uses a [`Host`]. It begins a call, answers each question when it can, from an
//! interrupt or a loop of its own, and then takes the result:
//!
//! ```no_run
//! # use usbhost::{Came, Fault, Host, Options, Question, Statuses, Want};
//! # fn do_it(question: &Question) -> (Came, Statuses) { unimplemented!() }
//! # fn main() -> Result<(), Fault> {
//! # let statuses = [0; 7];
//! let mut host = Host::open(2, Options::default(), &statuses)?;
//! while let Some(question) = host.question()? {
//!     let (came, statuses) = do_it(&question);
//!     host.answer(&came, &statuses)?;
//! }
//! host.begin(&Want::Round, &statuses)?;
//! # Ok(())
//! # }
//! ```
//!
//! With the feature `heap`, which is on by default, the archive's blocks come from Rust's global allocator. A program
//! that links `c/heap.c` too must turn it off.
#![no_std]
#![warn(missing_docs)]

extern crate alloc;

mod bus;
mod fault;
#[cfg(feature = "heap")]
mod heap;
mod host;
mod path;
mod question;
mod records;
mod sys;
mod want;

pub use bus::{Bus, Controller};
pub use fault::{Done, Fault};
pub use host::{Host, Hubs, Options};
pub use path::{Endpoint, Path};
pub use question::{Attempt, Came, Feature, Ins, Packet, Question, Row, Speed, Statuses, Target, Toggle, status};
pub use records::{Cause, Device, Entry, Look, News, Refused, Request, Text};
pub use want::{Setup, Want};
