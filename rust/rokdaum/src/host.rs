// SPDX-License-Identifier: Apache-2.0
use crate::error::{Error, Refused};
use crate::kinds::{AnyParameters, Kind, Parameters};
use crate::members::Members;
use rokdaum_sys as sys;
use std::cell::{Cell, UnsafeCell};
use std::fmt;
use std::marker::PhantomData;

/// The most samples that the library takes at once; [`Line::feed`] cuts longer slices.
pub const BLOCK_SAMPLES: usize = sys::ROKDAUM_BLOCK_SAMPLES;

/// A memory space.
#[derive(Clone, Copy, Debug, PartialEq, Eq)]
pub enum Space {
    /// Fast memory of two accesses; scratch memory stands here.
    Daram = 0,
    /// Fast memory of one access.
    Saram = 1,
    /// External memory.
    External = 2,
}

impl fmt::Display for Space {
    fn fmt(&self, f: &mut fmt::Formatter<'_>) -> fmt::Result {
        f.write_str(["daram", "saram", "external"][*self as usize])
    }
}

/// A scratch group: its members work in the same scratch memory by turns.
#[derive(Clone, Copy, Debug, PartialEq, Eq)]
#[allow(missing_docs)]
pub enum Group {
    G0,
    G1,
    G2,
    G3,
    G4,
    G5,
    G6,
    G7,
}

/// What a host is opened with.
#[derive(Clone, Copy, Debug)]
pub struct Options {
    /// Words of 16 bits in each space: 0 to 65,536, a multiple of 4.
    pub daram: u32,
    /// See `daram`.
    pub saram: u32,
    /// See `daram`.
    pub external: u32,
    /// How many lines there may be: 1 to 16.
    pub channels: u8,
    /// What fills new blocks and released scratch memory. No output depends on it.
    pub poison: Option<i16>,
}

impl Default for Options {
    fn default() -> Options {
        Options { daram: sys::ROKDAUM_SPACE_WORDS, saram: sys::ROKDAUM_SPACE_WORDS, external: sys::ROKDAUM_SPACE_WORDS, channels: sys::ROKDAUM_CHANNELS as u8, poison: None }
    }
}

/// Whose a block of memory is.
#[derive(Clone, Copy, Debug, PartialEq, Eq)]
pub enum Owner {
    /// The scratch memory of a group.
    Scratch(u8),
    /// A record of an instance.
    Record {
        /// The number of the instance.
        instance: u8,
        /// The number of the record.
        record: u8,
    },
}

/// A block of a memory space, in words.
#[derive(Clone, Copy, Debug, PartialEq, Eq)]
pub struct Block {
    /// Whose it is.
    pub owner: Owner,
    /// Its first word.
    pub place: u32,
    /// Its words.
    pub size: u32,
    /// Its alignment.
    pub align: u32,
}

/// A scratch group as it stands.
#[derive(Clone, Copy, Debug, PartialEq, Eq)]
pub struct Stat {
    /// The number of the active instance.
    pub active: Option<u8>,
    /// How often one was activated.
    pub activations: u32,
}

/// A host of instances, which lives as long as what lives in it. It may go to another thread while nothing lives in it that borrows it, and is
/// shared by none.
pub struct Host {
    // A box, since a handle isn't copied while it is open. A cell, since each call writes to it: a host is shared by no threads, and no
    // call of the library comes back to its caller, so there is one call at a time.
    raw: Box<UnsafeCell<sys::rokdaum>>,
    numbers: Cell<u64>,
    channels: Cell<u16>,
    most: u8,
}

// SAFETY: a handle has no thread of its own (rokdaum.h): it takes one call at a time from any. The cells keep a host from being shared.
unsafe impl Send for Host {}

impl fmt::Debug for Host {
    fn fmt(&self, f: &mut fmt::Formatter<'_>) -> fmt::Result {
        write!(f, "Host {{ instances: {}, lines: {} }}", self.numbers.get().count_ones(), self.channels.get().count_ones())
    }
}

/// What the types of this crate rule out.
#[track_caller]
fn sure(code: sys::rokdaum_code) {
    assert!(code == sys::ROKDAUM_OK, "librokdaum answers {code} where it can't");
}

impl Host {
    /// Opens a host without instances.
    pub fn open(options: &Options) -> Result<Host, Error> {
        let raw = Box::new(UnsafeCell::new(sys::rokdaum { mark: 0, at: std::ptr::null_mut(), allocator: std::ptr::null() }));
        let given = sys::rokdaum_options {
            daram: options.daram,
            saram: options.saram,
            external: options.external,
            channels: options.channels,
            poisoned: u8::from(options.poison.is_some()),
            poison: options.poison.unwrap_or(0),
        };
        // SAFETY: both pointers are of living values, and the handle is closed.
        match unsafe { sys::rokdaum_open(raw.get(), &given) } {
            sys::ROKDAUM_OK => Ok(Host { raw, numbers: Cell::new(0), channels: Cell::new(0), most: options.channels }),
            sys::ROKDAUM_NO_MEMORY => Err(Error::NoMemory),
            _ => Err(Error::BadSize),
        }
    }

    /// Creates an instance in a scratch group.
    pub fn create<K: Kind>(&self, group: Group, parameters: Parameters<K>) -> Result<Instance<'_, K>, Error> {
        let number = self.create_numbered(group, K::CODE, parameters.words())?;
        Ok(Instance { host: self, number, kind: PhantomData })
    }

    /// The same for a kind that is known only when the program runs.
    pub fn create_any(&self, group: Group, parameters: impl Into<AnyParameters>) -> Result<AnyInstance<'_>, Error> {
        let parameters = parameters.into();
        let number = self.create_numbered(group, parameters.code, parameters.words())?;
        Ok(AnyInstance { host: self, number, name: parameters.name })
    }

    fn create_numbered(&self, group: Group, kind: i32, words: &[i16]) -> Result<u8, Error> {
        let number = (!self.numbers.get()).trailing_zeros();
        if number == 64 {
            return Err(Error::Instances);
        }
        let mut full = 0;
        // SAFETY: the pointers are of living values, and `words` has so many.
        let code = unsafe { sys::rokdaum_create(self.raw.get(), number as u8, kind, group as u8, words.as_ptr(), words.len(), &mut full) };
        match code {
            sys::ROKDAUM_OK => {
                self.numbers.set(self.numbers.get() | 1 << number);
                Ok(number as u8)
            }
            sys::ROKDAUM_ROOM => Err(Error::Room([Space::Daram, Space::Saram, Space::External][full as usize])),
            sys::ROKDAUM_BAD_LENGTH => Err(Error::BadLength),
            _ => Err(Error::Params),
        }
    }

    pub(crate) fn delete_numbered(&self, number: u8) {
        // SAFETY: the handle is open, and a line unchains its members before it drops them.
        let code = unsafe { sys::rokdaum_delete(self.raw.get(), number) };
        if code == sys::ROKDAUM_OK {
            self.numbers.set(self.numbers.get() & !(1 << number));
        }
    }

    pub(crate) fn reset_numbered(&self, number: u8) {
        // SAFETY: the handle is open.
        sure(unsafe { sys::rokdaum_reset(self.raw.get(), number) });
    }

    pub(crate) fn get_numbered(&self, number: u8) -> Vec<i16> {
        let (mut words, mut count) = (vec![0; sys::ROKDAUM_PARAMETER_WORDS], 0);
        // SAFETY: the pointers are of living values, and `words` has so many.
        sure(unsafe { sys::rokdaum_get(self.raw.get(), number, words.as_mut_ptr(), words.len(), &mut count) });
        words.truncate(count as usize);
        words
    }

    pub(crate) fn set_numbered(&self, number: u8, words: &[i16]) -> Result<(), Error> {
        // SAFETY: `words` has so many.
        match unsafe { sys::rokdaum_set(self.raw.get(), number, words.as_ptr(), words.len()) } {
            sys::ROKDAUM_OK => Ok(()),
            sys::ROKDAUM_COMMAND => Err(Error::Command),
            _ => Err(Error::BadLength),
        }
    }

    /// Makes a line of instances, which it owns from then on. Where it is refused they come back.
    pub fn chain<'h, M: Members<'h>>(&'h self, members: M) -> Result<Line<'h, M>, Refused<M>> {
        let (mut numbers, mut mine) = (Vec::with_capacity(sys::ROKDAUM_MEMBERS), true);
        members.each(&mut |host, number| {
            mine &= std::ptr::eq(host, self);
            numbers.push(number);
        });
        let channel = (!self.channels.get()).trailing_zeros() as u8;
        let error = if !mine {
            Error::OtherHost
        } else if channel >= self.most {
            Error::Channels
        // SAFETY: `numbers` has so many.
        } else if unsafe { sys::rokdaum_chain(self.raw.get(), channel, numbers.as_ptr(), numbers.len()) } != sys::ROKDAUM_OK {
            Error::BadLength
        } else {
            self.channels.set(self.channels.get() | 1 << channel);
            return Ok(Line { host: self, channel, members: Some(members) });
        };
        Err(Refused { error, members })
    }

    pub(crate) fn unchain_channel(&self, channel: u8) {
        // SAFETY: the handle is open.
        sure(unsafe { sys::rokdaum_unchain(self.raw.get(), channel) });
        self.channels.set(self.channels.get() & !(1 << channel));
    }

    pub(crate) fn feed_channel(&self, channel: u8, samples: &[i16], out: &mut [i16]) -> Result<usize, Error> {
        if out.len() < samples.len() {
            return Err(Error::BadLength);
        }
        let mut given = 0;
        // SAFETY: the slices have so many, and don't overlap.
        sure(unsafe { sys::rokdaum_feed_all(self.raw.get(), channel, samples.as_ptr(), samples.len(), out.as_mut_ptr(), out.len(), &mut given) });
        Ok(given)
    }

    pub(crate) fn feed_channel_vec(&self, channel: u8, samples: &[i16]) -> Vec<i16> {
        let mut out = vec![0; samples.len()];
        let given = self.feed_channel(channel, samples, &mut out).unwrap_or(0);
        out.truncate(given);
        out
    }

    pub(crate) fn feed_channel_one(&self, channel: u8, sample: i16) -> Option<i16> {
        let (mut out, mut given) = (0, 0);
        // SAFETY: the pointers are of living values, one sample each.
        sure(unsafe { sys::rokdaum_feed(self.raw.get(), channel, &sample, 1, &mut out, 1, &mut given) });
        (given == 1).then_some(out)
    }

    /// Moves the first block of a space that can be moved down; whether one was.
    pub fn step(&self, space: Space) -> bool {
        let mut moved = 0;
        // SAFETY: the pointers are of living values.
        sure(unsafe { sys::rokdaum_step(self.raw.get(), space as i32, &mut moved) });
        moved != 0
    }

    /// Moves blocks down until none can be; how many were moved.
    pub fn compact(&self, space: Space) -> u32 {
        let mut moved = 0;
        // SAFETY: the pointers are of living values.
        sure(unsafe { sys::rokdaum_compact(self.raw.get(), space as i32, &mut moved) });
        moved
    }

    /// How many words all moves have copied.
    pub fn copied(&self) -> u64 {
        let mut words = 0;
        // SAFETY: the pointers are of living values.
        sure(unsafe { sys::rokdaum_copied(self.raw.get(), &mut words) });
        words
    }

    /// The blocks of a space in ascending place.
    pub fn map(&self, space: Space) -> Vec<Block> {
        let (mut blocks, mut count) = (vec![sys::rokdaum_block::default(); sys::ROKDAUM_MAP_BLOCKS], 0);
        // SAFETY: the pointers are of living values, and `blocks` has so many.
        sure(unsafe { sys::rokdaum_map(self.raw.get(), space as i32, blocks.as_mut_ptr(), blocks.len(), &mut count) });
        let owner = |it: &sys::rokdaum_block| match it.scratch {
            0 => Owner::Record { instance: it.number as u8, record: it.record as u8 },
            _ => Owner::Scratch(it.number as u8),
        };
        blocks[..count as usize].iter().map(|it| Block { owner: owner(it), place: it.place, size: it.size, align: it.align }).collect()
    }

    /// Deactivates the active member of a group; whether there was one.
    pub fn release(&self, group: Group) -> bool {
        let mut released = 0;
        // SAFETY: the pointers are of living values.
        sure(unsafe { sys::rokdaum_release(self.raw.get(), group as u8, &mut released) });
        released != 0
    }

    /// The active member of a group, and how often one was activated.
    pub fn stat(&self, group: Group) -> Stat {
        let (mut active, mut activations) = (0, 0);
        // SAFETY: the pointers are of living values.
        sure(unsafe { sys::rokdaum_stat(self.raw.get(), group as u8, &mut active, &mut activations) });
        Stat { active: u8::try_from(active).ok(), activations }
    }
}

impl Drop for Host {
    fn drop(&mut self) {
        // SAFETY: the handle is open, and nothing that lives in it is left: it would borrow the host.
        unsafe { sys::rokdaum_close(self.raw.get()) };
    }
}

/// An instance of an algorithm. It is deleted when it is dropped.
pub struct Instance<'h, K: Kind> {
    host: &'h Host,
    number: u8,
    kind: PhantomData<K>,
}

impl<K: Kind> fmt::Debug for Instance<'_, K> {
    fn fmt(&self, f: &mut fmt::Formatter<'_>) -> fmt::Result {
        write!(f, "{} {}", K::NAME, self.number)
    }
}

impl<'h, K: Kind> Instance<'h, K> {
    /// Its number, as maps have it.
    pub fn number(&self) -> u8 {
        self.number
    }

    pub(crate) fn host(&self) -> &'h Host {
        self.host
    }

    /// Lets it forget its past.
    pub fn reset(&self) {
        self.host.reset_numbered(self.number);
    }

    /// What it tells of itself: its coefficients, or the samples in its frame.
    pub fn get(&self) -> Vec<i16> {
        self.host.get_numbered(self.number)
    }

    pub(crate) fn set_words(&self, words: &[i16]) -> Result<(), Error> {
        // With another number of words than it has, a filter doesn't take the command.
        self.host.set_numbered(self.number, words).map_err(|_| Error::BadLength)
    }

    pub(crate) fn set_fixed(&self, words: &[i16]) {
        assert_eq!(self.host.set_numbered(self.number, words), Ok(()), "librokdaum refuses what its kind takes");
    }
}

impl<K: Kind> Drop for Instance<'_, K> {
    fn drop(&mut self) {
        self.host.delete_numbered(self.number);
    }
}

/// An instance of a kind that is known only when the program runs. It is deleted when it is dropped.
pub struct AnyInstance<'h> {
    host: &'h Host,
    number: u8,
    name: &'static str,
}

impl fmt::Debug for AnyInstance<'_> {
    fn fmt(&self, f: &mut fmt::Formatter<'_>) -> fmt::Result {
        write!(f, "{} {}", self.name, self.number)
    }
}

impl<'h> AnyInstance<'h> {
    /// Its number, as maps have it.
    pub fn number(&self) -> u8 {
        self.number
    }

    /// The name of its kind.
    pub fn name(&self) -> &'static str {
        self.name
    }

    pub(crate) fn host(&self) -> &'h Host {
        self.host
    }

    /// Puts words into force. Refused with [`Error::Command`] where its kind doesn't take `set`, or takes another number of words, and with
    /// [`Error::BadLength`] past 72 of them.
    pub fn set(&self, words: &[i16]) -> Result<(), Error> {
        self.host.set_numbered(self.number, words)
    }

    /// Lets it forget its past.
    pub fn reset(&self) {
        self.host.reset_numbered(self.number);
    }

    /// What it tells of itself.
    pub fn get(&self) -> Vec<i16> {
        self.host.get_numbered(self.number)
    }

    /// Its number, which whoever asks deletes from then on.
    pub(crate) fn into_number(self) -> u8 {
        std::mem::ManuallyDrop::new(self).number
    }
}

impl Drop for AnyInstance<'_> {
    fn drop(&mut self) {
        self.host.delete_numbered(self.number);
    }
}

impl<'h, K: Kind> From<Instance<'h, K>> for AnyInstance<'h> {
    fn from(one: Instance<'h, K>) -> AnyInstance<'h> {
        let one = std::mem::ManuallyDrop::new(one);
        AnyInstance { host: one.host, number: one.number, name: K::NAME }
    }
}

/// Instances that samples go through in order. When it is dropped, so are they.
pub struct Line<'h, M: Members<'h>> {
    host: &'h Host,
    channel: u8,
    members: Option<M>,
}

impl<'h, M: Members<'h> + fmt::Debug> fmt::Debug for Line<'h, M> {
    fn fmt(&self, f: &mut fmt::Formatter<'_>) -> fmt::Result {
        write!(f, "Line {} {:?}", self.channel, self.members)
    }
}

impl<'h, M: Members<'h>> Line<'h, M> {
    /// Passes samples through it. What the last member gives is written to `out`, which has room for as many as go in; how many they are
    /// is returned.
    pub fn feed(&mut self, samples: &[i16], out: &mut [i16]) -> Result<usize, Error> {
        self.host.feed_channel(self.channel, samples, out)
    }

    /// Passes samples through it, and returns what the last member gives.
    pub fn feed_vec(&mut self, samples: &[i16]) -> Vec<i16> {
        self.host.feed_channel_vec(self.channel, samples)
    }

    /// Passes one sample through it.
    pub fn feed_one(&mut self, sample: i16) -> Option<i16> {
        self.host.feed_channel_one(self.channel, sample)
    }

    /// Its members, whose `set`, `get` and `reset` go on.
    pub fn members(&self) -> &M {
        self.members.as_ref().expect("a line has members until it ends")
    }

    /// Ends the line, and gives its members back with all that they have heard.
    pub fn unchain(mut self) -> M {
        self.members.take().expect("a line has members until it ends")
    }
}

impl<'h> Line<'h, Vec<AnyInstance<'h>>> {
    /// Its channel and the numbers of its members, which whoever asks unchains and deletes from then on.
    pub(crate) fn into_numbers(self) -> (u8, Vec<u8>) {
        let mut line = std::mem::ManuallyDrop::new(self);
        let members = line.members.take().unwrap_or_default();
        (line.channel, members.into_iter().map(AnyInstance::into_number).collect())
    }
}

impl<'h, M: Members<'h>> Drop for Line<'h, M> {
    fn drop(&mut self) {
        self.host.unchain_channel(self.channel);
    }
}
