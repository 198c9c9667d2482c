// SPDX-License-Identifier: Apache-2.0
//! Fixed-point signal algorithms in the style of XDAIS (IALG), hosted in three memory spaces with shared scratch memory.
//!
//! ```
//! use rokdaum::{Biquad, Fir, Gain, Group, Host, Options};
//!
//! # fn main() -> Result<(), rokdaum::Error> {
//! let host = Host::open(&Options::default())?;
//! let average = host.create(Group::G0, Fir::new(&[16384, 16384])?)?;
//! let loud = host.create(Group::G1, Gain::new(8192))?;
//! let mut line = host.chain((average, loud))?;
//!
//! let mut out = [0; 3];
//! let given = line.feed(&[1000, 1000, 1000], &mut out)?;
//! assert_eq!(out[..given], [1000, 2000, 2000]);
//!
//! line.members().1.set(4096); // the gain, while the line lives
//! # Ok(())
//! # }
//! ```
//!
//! The work is done by `librokdaum`, whose entry points are proved; this crate isn't. It has no `unsafe` in its interface, and its types
//! leave little to refuse:
//!
//! - a number of an instance or a channel is never named: what lives has a value, and what is dropped is deleted;
//! - an instance that is a member of a line is owned by it, so it can't be deleted, nor be in two lines;
//! - `set` exists for the kinds that take it, with as many words as they take;
//! - a host outlives what lives in it. It may go from thread to thread, and is shared by none; a [`SharedHost`] is, under a lock, and its
//!   lines own a share of it.
//!
//! ```compile_fail,E0505
//! # use rokdaum::*;
//! let host = Host::open(&Options::default()).unwrap();
//! let one = host.create(Group::G0, Gain::new(4096)).unwrap();
//! drop(host); // `one` lives in it
//! one.set(0);
//! ```
//! ```compile_fail,E0382
//! # use rokdaum::*;
//! let host = Host::open(&Options::default()).unwrap();
//! let one = host.create(Group::G0, Gain::new(4096)).unwrap();
//! let a = host.chain((one,)).unwrap();
//! let b = host.chain((one,)).unwrap(); // it is in `a`
//! ```
//! ```
//! # use rokdaum::*;
//! let host = Host::open(&Options::default()).unwrap();
//! std::thread::spawn(move || host.compact(Space::Daram)).join().unwrap(); // a host may go to another thread
//! ```
//! ```compile_fail,E0277
//! # use rokdaum::*;
//! let host = Host::open(&Options::default()).unwrap();
//! std::thread::scope(|s| { s.spawn(|| host.compact(Space::Daram)); }); // it isn't shared
//! ```
//! ```compile_fail,E0599
//! # use rokdaum::*;
//! let host = Host::open(&Options::default()).unwrap();
//! let one = host.create(Group::G0, G711::decoder(Law::Mu)).unwrap();
//! one.set(1); // G.711 takes no `set`
//! ```
//! ```compile_fail,E0277
//! # use rokdaum::*;
//! let host = Host::open(&Options::default()).unwrap();
//! let line = host.chain((Gain::new(4096),)).unwrap(); // parameters aren't an instance
//! ```
#![deny(missing_docs, unsafe_op_in_unsafe_fn)]
#![warn(missing_debug_implementations)]

mod error;
pub mod g711;
mod host;
mod kinds;
mod members;
pub mod operators;
mod shared;

pub use error::{Error, Refused};
pub use host::{AnyInstance, Block, Group, Host, Instance, Line, Options, Owner, Space, Stat, BLOCK_SAMPLES};
pub use kinds::{Activity, Adpcm, AnyParameters, Biquad, Decim, Digits, Dtmf, Echo, Fir, Gain, Kind, Law, Level, Parameters, Rate, Signal, Tone, G711};
pub use members::Members;
pub use shared::{OwnedLine, SharedHost};

/// The version of the library that this crate stands over.
pub fn version() -> &'static str {
    // SAFETY: the library returns a static string that ends with a zero.
    let text = unsafe { std::ffi::CStr::from_ptr(rokdaum_sys::rokdaum_version()) };
    text.to_str().unwrap_or("?")
}
