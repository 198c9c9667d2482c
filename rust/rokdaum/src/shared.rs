// SPDX-License-Identifier: Apache-2.0
use crate::host::{AnyInstance, Group, Host, Options};
use crate::kinds::AnyParameters;
use crate::Error;
use std::sync::{Arc, Mutex, PoisonError};

/// A host with several owners: each line keeps a share of it, so a struct may hold it beside its lines, and they may go to other threads.
/// A lock orders the calls.
///
/// ```
/// use rokdaum::{Biquad, Gain, Group, Options, OwnedLine, SharedHost};
///
/// struct Call {
///     from_caller: OwnedLine,
///     to_caller: OwnedLine,
/// }
///
/// # fn main() -> Result<(), rokdaum::Error> {
/// let host = SharedHost::open(&Options::default())?;
/// let mut call = Call {
///     from_caller: host.line([(Group::G0, Biquad::new([8192, 0, 0, 0, 0]).any()), (Group::G1, Gain::new(8192).any())])?,
///     to_caller: host.line([(Group::G2, Gain::new(4096))])?,
/// };
/// drop(host); // the lines keep it
/// let far = std::thread::spawn(move || call.to_caller.feed_vec(&[1, 2, 3]));
/// assert_eq!(call.from_caller.feed_vec(&[100, 200]), [100, 200]);
/// assert_eq!(far.join().unwrap(), [1, 2, 3]);
/// # Ok(())
/// # }
/// ```
#[derive(Clone, Debug)]
pub struct SharedHost(Arc<Mutex<Host>>);

impl SharedHost {
    /// Opens a host without instances.
    pub fn open(options: &Options) -> Result<SharedHost, Error> {
        Ok(SharedHost(Arc::new(Mutex::new(Host::open(options)?))))
    }

    /// Makes a line of new instances, in this order, each in its scratch group. Where it is refused, none of them is left.
    pub fn line<P: Into<AnyParameters>>(&self, members: impl IntoIterator<Item = (Group, P)>) -> Result<OwnedLine, Error> {
        let (channel, numbers) = self.with(|host| {
            let made = members.into_iter().map(|(group, parameters)| host.create_any(group, parameters)).collect::<Result<Vec<AnyInstance<'_>>, Error>>()?;
            Ok::<_, Error>(host.chain(made)?.into_numbers())
        })?;
        Ok(OwnedLine { host: self.clone(), channel, numbers })
    }

    /// Calls of the host, such as `map`, `stat` and `compact`, with no other call between them.
    pub fn with<R>(&self, calls: impl FnOnce(&Host) -> R) -> R {
        // A host is whole between two calls, so one that was locked during a panic is as good as any.
        calls(&self.0.lock().unwrap_or_else(PoisonError::into_inner))
    }
}

/// A line that owns its instances and a share of its host. When it is dropped, the instances are deleted; the host is closed with its last
/// share.
#[derive(Debug)]
pub struct OwnedLine {
    host: SharedHost,
    channel: u8,
    numbers: Vec<u8>,
}

impl OwnedLine {
    /// Passes samples through it. What the last member gives is written to `out`, which has room for as many as go in; how many they are
    /// is returned.
    pub fn feed(&mut self, samples: &[i16], out: &mut [i16]) -> Result<usize, Error> {
        self.host.with(|host| host.feed_channel(self.channel, samples, out))
    }

    /// Passes samples through it, and returns what the last member gives.
    pub fn feed_vec(&mut self, samples: &[i16]) -> Vec<i16> {
        self.host.with(|host| host.feed_channel_vec(self.channel, samples))
    }

    /// Passes one sample through it.
    pub fn feed_one(&mut self, sample: i16) -> Option<i16> {
        self.host.with(|host| host.feed_channel_one(self.channel, sample))
    }

    /// The numbers of its members, as maps have them.
    pub fn numbers(&self) -> &[u8] {
        &self.numbers
    }

    /// Puts words into force for the member at a place, as [`AnyInstance::set`] does.
    ///
    /// # Panics
    ///
    /// Where the line has no such place.
    pub fn set(&self, place: usize, words: &[i16]) -> Result<(), Error> {
        self.host.with(|host| host.set_numbered(self.numbers[place], words))
    }

    /// Lets the member at a place forget its past.
    ///
    /// # Panics
    ///
    /// Where the line has no such place.
    pub fn reset(&self, place: usize) {
        self.host.with(|host| host.reset_numbered(self.numbers[place]));
    }

    /// What the member at a place tells of itself.
    ///
    /// # Panics
    ///
    /// Where the line has no such place.
    pub fn get(&self, place: usize) -> Vec<i16> {
        self.host.with(|host| host.get_numbered(self.numbers[place]))
    }

    /// The host that it has a share of.
    pub fn host(&self) -> &SharedHost {
        &self.host
    }
}

impl Drop for OwnedLine {
    fn drop(&mut self) {
        self.host.with(|host| {
            host.unchain_channel(self.channel);
            self.numbers.iter().for_each(|&number| host.delete_numbered(number));
        });
    }
}
