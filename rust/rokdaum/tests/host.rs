// SPDX-License-Identifier: Apache-2.0
// What is collected lives at once, be it instances or threads: an iterator would make one after the other.
#![allow(clippy::needless_collect)]
use rokdaum::*;

fn host() -> Host {
    Host::open(&Options::default()).unwrap()
}

#[test]
fn the_first_run() {
    let host = host();
    let mut line = host.chain((host.create(Group::G0, Fir::new(&[16384]).unwrap()).unwrap(),)).unwrap();
    assert_eq!(line.feed_vec(&[1, -1]), [1, 0]);
}

#[test]
fn cuts_do_not_show() {
    let (host, samples) = (host(), (0..5000).map(|i| (i * 7919 % 20011) as i16).collect::<Vec<_>>());
    let make = |group| host.create(group, Biquad::new([11969, 0, -11969, -2999, -7553])).unwrap();
    let mut whole = host.chain((make(Group::G0),)).unwrap();
    let mut cut = host.chain([make(Group::G0)]).unwrap();
    let mut single = host.chain(vec![make(Group::G1)]).unwrap();
    let wanted = whole.feed_vec(&samples);
    let pieces: Vec<i16> = samples.chunks(160).flat_map(|block| cut.feed_vec(block)).collect();
    assert_eq!(pieces, wanted);
    assert_eq!(samples.iter().map(|&it| single.feed_one(it).unwrap()).collect::<Vec<_>>(), wanted);
    assert!(host.stat(Group::G0).activations >= 2);
}

#[test]
fn what_is_dropped_is_deleted() {
    let host = host();
    for _ in 0..1000 {
        let one = host.create(Group::G0, Gain::new(4096)).unwrap();
        let line = host.chain((one, host.create(Group::G1, Fir::new(&[1; 64]).unwrap()).unwrap())).unwrap();
        assert_eq!(line.members().0.number(), 0);
    }
    for space in [Space::Daram, Space::Saram, Space::External] {
        assert_eq!(host.map(space), []);
    }
}

#[test]
fn members_come_back() {
    let host = host();
    let line = host.chain((host.create(Group::G0, Gain::new(8192)).unwrap(),)).unwrap();
    let (gain,) = line.unchain();
    assert_eq!(gain.get(), [8192]);
    gain.set(100);
    let mut again = host.chain((gain,)).unwrap();
    assert_eq!(again.members().0.get(), [100]);
    again.members().0.set(4096);
    assert_eq!(again.feed_one(5), Some(5));
}

#[test]
fn refusals() {
    assert_eq!(Host::open(&Options { daram: 6, ..Options::default() }).unwrap_err(), Error::BadSize);
    assert_eq!(Host::open(&Options { channels: 17, ..Options::default() }).unwrap_err(), Error::BadSize);
    let small = Host::open(&Options { daram: 1028, channels: 1, ..Options::default() }).unwrap();
    assert_eq!(small.create(Group::G0, Fir::new(&[1; 64]).unwrap()).unwrap_err(), Error::Room(Space::Daram));
    assert_eq!(small.create(Group::G0, Fir::new(&[]).unwrap()).unwrap_err(), Error::Params);
    assert_eq!(small.create(Group::G0, Fir::new(&[1; 65]).unwrap()).unwrap_err(), Error::Params);
    assert_eq!(Fir::new(&[1; 73]).unwrap_err(), Error::Params);
    assert_eq!(small.create(Group::G0, Level::new(0, 0).unwrap()).unwrap_err(), Error::Params);
    let two = [small.create(Group::G0, Gain::new(1)).unwrap(), small.create(Group::G0, Gain::new(2)).unwrap()];
    let [a, b] = two;
    let line = small.chain((a,)).unwrap();
    let refused = small.chain((b,)).unwrap_err();
    assert_eq!(refused.error, Error::Channels);
    assert_eq!(refused.members.0.get(), [2]);
    drop(line);
    let none: Vec<Instance<Gain>> = Vec::new();
    assert_eq!(small.chain(none).unwrap_err().error, Error::BadLength);
    let nine: Vec<_> = (0..9).map(|_| small.create(Group::G0, Gain::new(1)).unwrap()).collect();
    assert_eq!(small.chain(nine).unwrap_err().error, Error::BadLength);
    let other = host();
    assert_eq!(other.chain((small.create(Group::G0, Gain::new(1)).unwrap(),)).unwrap_err().error, Error::OtherHost);
}

#[test]
fn sixty_four_and_sixteen() {
    let host = host();
    let all: Vec<_> = (0..64).map(|_| host.create(Group::G0, Gain::new(4096)).unwrap()).collect();
    assert_eq!(host.create(Group::G0, Gain::new(4096)).unwrap_err(), Error::Instances);
    let mut lines = Vec::new();
    for one in all.into_iter().take(16) {
        lines.push(host.chain((one,)).unwrap());
    }
    let one = host.create(Group::G0, Gain::new(4096)).unwrap();
    assert_eq!(host.chain((one,)).unwrap_err().error, Error::Channels);
    assert!(lines.iter_mut().all(|line| line.feed_vec(&[1, 2]) == [1, 2]));
}

#[test]
fn feed_needs_room() {
    let host = host();
    let mut line = host.chain((host.create(Group::G0, Level::new(4, 0).unwrap()).unwrap(),)).unwrap();
    let mut out = [0; 7];
    assert_eq!(line.feed(&[1000; 8], &mut out), Err(Error::BadLength));
    assert_eq!(line.feed_vec(&[1000; 8]).len(), 2);
    assert_eq!(line.feed_vec(&[]), []);
}

#[test]
fn a_transcoder_and_g711_agree() {
    let host = host();
    let mut line = host.chain((host.create(Group::G0, G711::decoder(Law::Mu)).unwrap(), host.create(Group::G0, G711::encoder(Law::A)).unwrap())).unwrap();
    let codes: Vec<u8> = (0..=255).collect();
    let wanted = g711::encode(Law::A, &g711::decode(Law::Mu, &codes));
    let words: Vec<i16> = codes.iter().map(|&it| i16::from(it)).collect();
    assert_eq!(line.feed_vec(&words), wanted.iter().map(|&it| i16::from(it)).collect::<Vec<_>>());
}

#[test]
fn codes_of_g726_and_pairs_of_a_canceller() {
    let host = host();
    let mut coded = host.chain((host.create(Group::G0, Adpcm::encoder(Rate::K32)).unwrap(), host.create(Group::G0, Adpcm::decoder(Rate::K32)).unwrap())).unwrap();
    let tone: Vec<i16> = (0..1024).map(|i| (8000.0 * (0.3 * f64::from(i)).sin()) as i16).collect();
    let heard = coded.feed_vec(&tone);
    assert!(tone.iter().zip(&heard).skip(512).all(|(a, b)| (i32::from(*a) - i32::from(*b)).abs() < 1000));
    let mut pairs = host.chain((host.create(Group::G1, Echo::new(16, 8192, 16384, 240).unwrap()).unwrap(),)).unwrap();
    assert_eq!(pairs.feed_vec(&[0, 5, 0, -6, 0, 7]), [5, -6, 7]);
    assert!(host.create(Group::G1, Echo::new(257, 1, 1, 1).unwrap()).is_err());
    let mut rings = host.chain((host.create(Group::G2, Signal::with([0, 0, 0, 0, 2, 1, 1])).unwrap(),)).unwrap();
    assert_eq!(rings.feed_vec(&[9, 8, 7, 6]), [0, 0, 7, 6]);
    let mut talk = host.chain((host.create(Group::G2, Activity::new(2, [0, 3, 6], 0, 1).unwrap()).unwrap(),)).unwrap();
    assert_eq!(talk.feed_vec(&[10, -10, 1000, -1000, 10, 10, 10, -10, -10, 10]), [0, 1, 1, 0, 0]);
    assert!(host.create(Group::G2, Activity::new(1025, [0, 3, 6], 0, 1).unwrap()).is_err());
}

#[test]
fn digits_of_a_line() {
    let host = host();
    let mut line = host.chain((host.create(Group::G0, Dtmf::a()).unwrap(),)).unwrap();
    let (mut rule, mut heard) = (Digits::a(), String::new());
    for key in "159#0D".chars() {
        let at = "123A456B789C*0#D".find(key).unwrap();
        let (low, high) = ([697.0, 770.0, 852.0, 941.0][at / 4], [1209.0, 1336.0, 1477.0, 1633.0][at % 4]);
        let tone = |f: f64, i: usize| 6000.0 * (std::f64::consts::TAU * f * i as f64 / 8000.0).sin();
        let samples: Vec<i16> = (0..1280).map(|i| if i < 640 { (tone(low, i) + tone(high, i)) as i16 } else { 0 }).collect();
        heard += &rule.dialled(&line.feed_vec(&samples)).unwrap();
    }
    assert_eq!(heard, "159#0D");
}

#[test]
fn hosts_in_threads() {
    let heard: Vec<Vec<i16>> = std::thread::scope(|scope| {
        let serve = |poison: i16| {
            move || {
                let host = Host::open(&Options { poison: Some(poison), ..Options::default() }).unwrap();
                let mut lines: Vec<_> = (0..16).map(|_| host.chain((host.create(Group::G0, Fir::new(&[9000, -8000, 7000]).unwrap()).unwrap(),)).unwrap()).collect();
                lines.iter_mut().flat_map(|line| line.feed_vec(&[1, 200, 30000, -4])).collect::<Vec<_>>()
            }
        };
        let threads: Vec<_> = (0..8).map(|it| scope.spawn(serve(it * 1000 - 4000))).collect();
        threads.into_iter().map(|it| it.join().unwrap()).collect()
    });
    assert!(heard.windows(2).all(|two| two[0] == two[1]));
}

#[test]
fn a_host_goes_from_thread_to_thread() {
    let host = std::thread::spawn(host).join().unwrap();
    let heard = std::thread::spawn(move || {
        let heard = host.chain((host.create(Group::G0, Gain::new(8192)).unwrap(),)).unwrap().feed_vec(&[1, 2]);
        (host, heard)
    });
    let (host, heard) = heard.join().unwrap();
    assert_eq!(heard, [2, 4]);
    assert_eq!(host.map(Space::Saram), []);
}

#[test]
fn digits_that_are_none() {
    let mut digits = Digits::b();
    assert_eq!(digits.dialled(&[5, 5, 16]), Err(Error::Params));
    assert_eq!(digits.dialled(&[5, 5]), Ok(String::new()));
    assert_eq!(digits.dialled(&[5]), Ok("5".to_owned()));
}

#[test]
fn moves_do_not_show() {
    let host = host();
    let first = host.create(Group::G0, Fir::new(&[1; 64]).unwrap()).unwrap();
    let mut line = host.chain((host.create(Group::G1, Fir::new(&[16384, 16384]).unwrap()).unwrap(),)).unwrap();
    assert_eq!(line.feed_vec(&[2, 4]), [1, 3]);
    drop(first);
    assert!(host.step(Space::Daram));
    assert_eq!(host.compact(Space::Saram) + host.compact(Space::External), 2);
    assert!(host.copied() > 0 && !host.release(Group::G0) && host.release(Group::G1));
    assert_eq!(line.feed_vec(&[6]), [5]);
}

#[test]
fn versions_agree() {
    assert_eq!(version(), env!("CARGO_PKG_VERSION"));
}

#[test]
fn kinds_that_are_known_late() {
    let host = host();
    let made = host.create_any(Group::G0, AnyParameters::named("gain", &[8192]).unwrap()).unwrap();
    assert_eq!((made.name(), made.number(), made.get()), ("gain", 0, vec![8192]));
    let average = AnyInstance::from(host.create(Group::G1, Fir::new(&[16384, 16384]).unwrap()).unwrap());
    assert_eq!((average.name(), average.number()), ("fir", 1));
    let mut line = host.chain(vec![made, average]).unwrap();
    assert_eq!(line.feed_vec(&[1000, 1000]), [1000, 2000]);
    assert_eq!(line.members()[0].set(&[4096]), Ok(()));
    assert_eq!(line.members()[0].set(&[1, 2]), Err(Error::Command));
    assert_eq!(line.members()[0].set(&[0; 73]), Err(Error::BadLength));
    line.members()[1].reset();
    assert_eq!(line.feed_vec(&[1000, 1000]), [500, 1000]);
    let coder = host.create_any(Group::G2, G711::decoder(Law::Mu)).unwrap();
    assert_eq!(coder.set(&[1]), Err(Error::Command));
    drop((line, coder));
    assert_eq!(host.map(Space::External), []);
    assert_eq!(AnyParameters::named("iir", &[1]).unwrap_err(), Error::Kind);
    assert_eq!(AnyParameters::named("fir", &[1; 73]).unwrap_err(), Error::Params);
    assert_eq!(host.create_any(Group::G0, AnyParameters::named("biquad", &[1]).unwrap()).unwrap_err(), Error::Params);
}

#[test]
fn every_kind_by_its_name() {
    let host = host();
    let all: [AnyParameters; 11] = [
        Fir::new(&[1]).unwrap().any(),
        Decim::new(2, &[1]).unwrap().any(),
        Biquad::new([1, 2, 3, 4, 5]).any(),
        Tone::new(1, 2, 3).unwrap().any(),
        G711::encoder(Law::A).any(),
        Gain::new(1).any(),
        Level::new(2, 3).unwrap().any(),
        Dtmf::a().any(),
        Echo::new(2, 3, 4, 5).unwrap().any(),
        Adpcm::encoder(Rate::K32).any(),
        Signal::with([1, 2, 3, 4, 5, 6, 7]).any(),
    ];
    for one in all {
        let named = AnyParameters::named(one.name(), one.words()).unwrap();
        assert_eq!((named.name(), named.words()), (one.name(), one.words()));
        assert_eq!(host.create_any(Group::G0, named).unwrap().name(), one.name());
    }
}

#[test]
fn owned_lines() {
    let host = SharedHost::open(&Options { daram: 2112, channels: 2, ..Options::default() }).unwrap();
    let mut first = host.line([(Group::G0, Gain::new(8192).any()), (Group::G0, Fir::new(&[16384, 16384]).unwrap().any())]).unwrap();
    let mut second = host.line([(Group::G1, Gain::new(4096))]).unwrap();
    assert_eq!((first.numbers(), second.numbers()), (&[0, 1][..], &[2][..]));
    assert_eq!(host.line([(Group::G1, Gain::new(1))]).unwrap_err(), Error::Channels);
    drop(second);
    // Where a line is refused none of its instances is left.
    let before = host.with(|host| host.map(Space::External));
    assert_eq!(host.line([(Group::G1, Gain::new(1).any()), (Group::G2, Fir::new(&[1; 64]).unwrap().any())]).unwrap_err(), Error::Room(Space::Daram));
    assert_eq!(host.line((0..9).map(|_| (Group::G1, Gain::new(1)))).unwrap_err(), Error::BadLength);
    assert_eq!(host.line(Vec::<(Group, AnyParameters)>::new()).unwrap_err(), Error::BadLength);
    assert_eq!(host.with(|host| host.map(Space::External)), before);
    second = host.line([(Group::G1, Gain::new(4096))]).unwrap();
    drop(host);
    assert_eq!(first.feed_vec(&[1000, 1000]), [1000, 2000]);
    assert_eq!(first.set(0, &[4096]), Ok(()));
    assert_eq!(first.set(1, &[1]), Err(Error::Command));
    first.reset(1);
    assert_eq!(first.feed_one(1000), Some(500));
    assert_eq!(first.get(0), [4096]);
    let (mut out, other) = ([0; 3], std::thread::spawn(move || second.feed_vec(&[5, 6, 7])));
    assert_eq!(first.feed(&[1000, 0, 0], &mut out), Ok(3));
    assert_eq!(first.feed(&[1, 2, 3, 4], &mut out), Err(Error::BadLength));
    assert_eq!((out, other.join().unwrap()), ([1000, 500, 0], vec![5, 6, 7]));
    let host = first.host().clone();
    drop(first);
    assert_eq!(host.with(|host| host.map(Space::Daram)), []);
}

#[test]
fn lines_in_threads() {
    let host = SharedHost::open(&Options { poison: Some(21845), ..Options::default() }).unwrap();
    let threads: Vec<_> = (0..16)
        .map(|at: i16| {
            let mut line = host.line([(Group::G0, Fir::new(&[16384, at]).unwrap())]).unwrap();
            std::thread::spawn(move || (0..200).map(|_| line.feed_vec(&[2000, 1000])).last().unwrap())
        })
        .collect();
    for moves in 0..200 {
        host.with(|host| if moves % 2 == 0 { host.compact(Space::Saram) } else { u32::from(host.release(Group::G0)) });
    }
    for (at, one) in threads.into_iter().enumerate() {
        let at = at as i32;
        let wanted = [2000 * 16384 + 1000 * at, 1000 * 16384 + 2000 * at].map(|sum| ((sum + 16384) >> 15) as i16);
        assert_eq!(one.join().unwrap(), wanted);
    }
    assert_eq!(host.with(|host| host.map(Space::Daram)), []);
}

#[test]
fn a_panic_under_the_lock() {
    let host = SharedHost::open(&Options::default()).unwrap();
    let mut line = host.line([(Group::G0, Gain::new(4096))]).unwrap();
    assert!(std::thread::spawn(move || host.with(|_| panic!("on purpose"))).join().is_err());
    assert_eq!(line.feed_vec(&[7]), [7]);
}
