// SPDX-License-Identifier: Apache-2.0
use crate::host::Instance;
use crate::Error;
use rokdaum_sys as sys;
use rokdaum_sys::ROKDAUM_PARAMETER_WORDS as MOST_WORDS;
use std::marker::PhantomData;

mod sealed {
    pub trait Sealed {}
}

/// A kind of algorithm.
pub trait Kind: sealed::Sealed {
    /// Its name, as scripts have it.
    const NAME: &'static str;
    #[doc(hidden)]
    const CODE: i32;
}

/// The parameters of an instance, which the constructor of a kind makes.
#[derive(Clone, Copy, Debug)]
pub struct Parameters<K> {
    words: [i16; MOST_WORDS],
    count: usize,
    kind: PhantomData<K>,
}

impl<K> Parameters<K> {
    fn of(parts: &[&[i16]]) -> Result<Self, Error> {
        let (mut words, mut count) = ([0; MOST_WORDS], 0);
        for part in parts {
            words.get_mut(count..count + part.len()).ok_or(Error::Params)?.copy_from_slice(part);
            count += part.len();
        }
        Ok(Parameters { words, count, kind: PhantomData })
    }

    fn few(few: &[i16]) -> Self {
        let mut words = [0; MOST_WORDS];
        words[..few.len()].copy_from_slice(few);
        Parameters { words, count: few.len(), kind: PhantomData }
    }

    /// The words, as a script has them.
    pub fn words(&self) -> &[i16] {
        &self.words[..self.count]
    }
}

/// The parameters of an instance whose kind is known only when the program runs.
#[derive(Clone, Copy, Debug)]
pub struct AnyParameters {
    pub(crate) name: &'static str,
    pub(crate) code: i32,
    words: [i16; MOST_WORDS],
    count: usize,
}

impl AnyParameters {
    /// Words for the kind that scripts call by this name.
    pub fn named(name: &str, words: &[i16]) -> Result<AnyParameters, Error> {
        let &(name, code) = NAMES.iter().find(|it| it.0 == name).ok_or(Error::Kind)?;
        let given: Parameters<()> = Parameters::of(&[words])?;
        Ok(AnyParameters { name, code, words: given.words, count: given.count })
    }

    /// The name of the kind.
    pub fn name(&self) -> &'static str {
        self.name
    }

    /// The words, as a script has them.
    pub fn words(&self) -> &[i16] {
        &self.words[..self.count]
    }
}

impl<K: Kind> From<Parameters<K>> for AnyParameters {
    fn from(given: Parameters<K>) -> AnyParameters {
        AnyParameters { name: K::NAME, code: K::CODE, words: given.words, count: given.count }
    }
}

impl<K: Kind> Parameters<K> {
    /// The same, for lists of several kinds.
    pub fn any(self) -> AnyParameters {
        self.into()
    }
}

macro_rules! kinds {
    ($($(#[$about:meta])* $name:ident $text:literal $code:literal,)*) => {
        /// The names and numbers of the kinds.
        const NAMES: &[(&str, i32)] = &[$(($text, $code)),*];
    $(
        $(#[$about])*
        #[derive(Clone, Copy, Debug)]
        pub enum $name {}
        impl sealed::Sealed for $name {}
        impl Kind for $name {
            const NAME: &'static str = $text;
            const CODE: i32 = $code;
        }
    )*};
}

kinds! {
    /// A FIR filter of 1 to 64 coefficients in Q15.
    Fir "fir" 0,
    /// A decimator: one sample for each M.
    Decim "decim" 1,
    /// A second-order section with coefficients in Q14.
    Biquad "biquad" 2,
    /// A Goertzel tone detector: a level for each frame.
    Tone "tone" 3,
    /// G.711: codes to samples, or samples to codes.
    G711 "g711" 4,
    /// A gain in Q12.
    Gain "gain" 5,
    /// The energy of each frame.
    Level "level" 6,
    /// Dialled digits: a code for each frame, which [`Digits`] makes digits of.
    Dtmf "dtmf" 7,
    /// A line echo canceller: one sample for each pair, the far end's first.
    Echo "echo" 8,
    /// G.726: samples to codes, or codes to samples.
    Adpcm "adpcm" 9,
    /// One or two tones with a cadence, clocked by the samples that it takes.
    Signal "signal" 10,
    /// Voice activity: for each frame 1 while somebody talks, and else 0.
    Activity "activity" 11,
}

/// The kbit/s of a coder of G.726.
#[derive(Clone, Copy, Debug, PartialEq, Eq)]
pub enum Rate {
    /// Codes of two bits.
    K16 = 16,
    /// Codes of three bits.
    K24 = 24,
    /// Codes of four bits.
    K32 = 32,
    /// Codes of five bits.
    K40 = 40,
}

/// A companding law of G.711.
#[derive(Clone, Copy, Debug, PartialEq, Eq)]
pub enum Law {
    /// A-law.
    A = 0,
    /// Mu-law.
    Mu = 1,
}

impl Fir {
    /// 1 to 64 coefficients, that of the newest sample first.
    #[allow(clippy::new_ret_no_self)]
    pub fn new(coefficients: &[i16]) -> Result<Parameters<Fir>, Error> {
        Parameters::of(&[coefficients])
    }
}

impl Decim {
    /// A factor of 1 to 16, and 1 to 64 coefficients.
    #[allow(clippy::new_ret_no_self)]
    pub fn new(factor: u8, coefficients: &[i16]) -> Result<Parameters<Decim>, Error> {
        Parameters::of(&[&[i16::from(factor)], coefficients])
    }
}

impl Biquad {
    /// b0 b1 b2 a1 a2; a1 and a2 are subtracted.
    #[allow(clippy::new_ret_no_self)]
    pub fn new(words: [i16; 5]) -> Parameters<Biquad> {
        Parameters::few(&words)
    }
}

impl Tone {
    /// k in Q15, a frame of 1 to 1,024 samples, and a shift of 0 to 15 bits.
    #[allow(clippy::new_ret_no_self)]
    pub fn new(k: i16, frame: u16, shift: u8) -> Result<Parameters<Tone>, Error> {
        Ok(Parameters::few(&[k, i16::try_from(frame).map_err(|_| Error::Params)?, i16::from(shift)]))
    }

    /// k for a frequency at a rate.
    pub fn k(frequency: f64, rate: f64) -> i16 {
        (32768.0 * (std::f64::consts::TAU * frequency / rate).cos()).round().clamp(-32768.0, 32767.0) as i16
    }
}

impl G711 {
    /// Samples to codes.
    pub fn encoder(law: Law) -> Parameters<G711> {
        Parameters::few(&[law as i16, 0])
    }

    /// Codes to samples.
    pub fn decoder(law: Law) -> Parameters<G711> {
        Parameters::few(&[law as i16, 1])
    }
}

impl Gain {
    /// A factor in Q12: 4096 is 1.
    #[allow(clippy::new_ret_no_self)]
    pub fn new(factor: i16) -> Parameters<Gain> {
        Parameters::few(&[factor])
    }
}

impl Level {
    /// A frame of 1 to 1,024 samples, and a shift of 0 to 15 bits.
    #[allow(clippy::new_ret_no_self)]
    pub fn new(frame: u16, shift: u8) -> Result<Parameters<Level>, Error> {
        Ok(Parameters::few(&[i16::try_from(frame).map_err(|_| Error::Params)?, i16::from(shift)]))
    }
}

impl Dtmf {
    /// `ROKDAUM_DTMF_A`, with which [`Digits::a`] goes.
    pub fn a() -> Parameters<Dtmf> {
        Parameters::few(&[102, 7, 91, 2920, 7336, 5827, 22938])
    }

    /// `ROKDAUM_DTMF_B`, with which [`Digits::b`] goes.
    pub fn b() -> Parameters<Dtmf> {
        Parameters::few(&[92, 7, 82, 2920, 7336, 9235, 20316])
    }

    /// Seven words: frame, shift, threshold, down, up, dominance, share.
    pub fn with(words: [i16; 7]) -> Parameters<Dtmf> {
        Parameters::few(&words)
    }
}

impl Echo {
    /// 1 to 256 coefficients, the step in Q15, the share in Q15 of the far end from which on the near end talks, and for how many
    /// pairs it then does not learn.
    #[allow(clippy::new_ret_no_self)]
    pub fn new(coefficients: u16, step: i16, share: i16, hold: i16) -> Result<Parameters<Echo>, Error> {
        Ok(Parameters::few(&[i16::try_from(coefficients).map_err(|_| Error::Params)?, step, share, hold]))
    }
}

impl Adpcm {
    /// Samples, of which the upper fourteen bits count, to codes.
    pub fn encoder(rate: Rate) -> Parameters<Adpcm> {
        Parameters::few(&[rate as i16, 0])
    }

    /// Codes, one in the low bits of each word, to samples.
    pub fn decoder(rate: Rate) -> Parameters<Adpcm> {
        Parameters::few(&[rate as i16, 1])
    }
}

impl Signal {
    /// Seven words: k1, s1, k2, s2, the samples on, the samples off, and the number of cycles, 0 for no end.
    pub fn with(words: [i16; 7]) -> Parameters<Signal> {
        Parameters::few(&words)
    }
}

impl Activity {
    /// 1 to 1,024 samples a frame, the shift of squares, the margin over the floor and its rise in a frame, 0 to 15 each, the least floor,
    /// and the frames of the hangover.
    #[allow(clippy::new_ret_no_self)]
    pub fn new(samples: u16, bits: [i16; 3], least: i16, hang: i16) -> Result<Parameters<Activity>, Error> {
        Parameters::of(&[&[i16::try_from(samples).map_err(|_| Error::Params)?], &bits, &[least, hang]])
    }
}

impl Instance<'_, Fir> {
    /// Puts as many coefficients into force as it has; past samples stay.
    pub fn set(&self, coefficients: &[i16]) -> Result<(), Error> {
        self.set_words(coefficients)
    }
}

impl Instance<'_, Biquad> {
    /// Puts b0 b1 b2 a1 a2 into force; past samples and outputs stay.
    pub fn set(&self, words: [i16; 5]) {
        self.set_fixed(&words);
    }
}

impl Instance<'_, Tone> {
    /// Puts k into force; the frame stays.
    pub fn set(&self, k: i16) {
        self.set_fixed(&[k]);
    }
}

impl Instance<'_, Gain> {
    /// Puts a factor into force.
    pub fn set(&self, factor: i16) {
        self.set_fixed(&[factor]);
    }
}

/// What makes dialled digits of the codes that a [`Dtmf`] gives: one counts once so many frames in a row have it, and may count again
/// once two haven't. There is one for each line.
///
/// ```
/// let mut digits = rokdaum::Digits::a();
/// assert_eq!(digits.dialled(&[-1, 5, 5, 5, -1, 5, -1, -1, 5, 5]), Ok("55".to_owned()));
/// ```
#[derive(Clone, Debug)]
pub struct Digits(sys::rokdaum_digits);

impl Digits {
    /// Two frames in a row, for [`Dtmf::a`].
    pub fn a() -> Digits {
        Digits(sys::ROKDAUM_DIGITS_A)
    }

    /// Three frames in a row, for [`Dtmf::b`].
    pub fn b() -> Digits {
        Digits(sys::ROKDAUM_DIGITS_B)
    }

    /// The digits that begin with the frames of these codes. How codes are cut into calls doesn't show. Refused with
    /// [`Error::Params`] where a code isn't -1 to 15; nothing was counted then.
    pub fn dialled(&mut self, codes: &[i16]) -> Result<String, Error> {
        let (mut keys, mut given) = (vec![0u8; codes.len()], 0);
        // SAFETY: `codes` and `keys` have so many, and the pointers are of living values.
        let code = unsafe { sys::rokdaum_dialled(&mut self.0, codes.as_ptr(), codes.len(), keys.as_mut_ptr().cast(), keys.len(), &mut given) };
        if code != sys::ROKDAUM_OK {
            return Err(Error::Params);
        }
        Ok(keys[..given].iter().copied().map(char::from).collect())
    }
}
