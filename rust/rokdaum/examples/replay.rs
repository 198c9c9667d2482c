// SPDX-License-Identifier: Apache-2.0
//! The job of `gateway_console` over the safe crate: the same command line, scripts, files and replies. `rust/check` runs it beside the
//! independent model. A crate that names no numbers gives its own; they are translated to those of the script here.

use rokdaum::{AnyInstance, AnyParameters, Error, Group, Host, Line, Options, Owner, Space};
use std::collections::BTreeMap;
use std::env;
use std::fs::File;
use std::io::{self, BufRead, BufReader, BufWriter, Read, Write};
use std::process::exit;

const NAME: &str = "gateway_console";
const GROUPS: [Group; 8] = [Group::G0, Group::G1, Group::G2, Group::G3, Group::G4, Group::G5, Group::G6, Group::G7];
const SPACES: [(&str, Space); 3] = [("daram", Space::Daram), ("saram", Space::Saram), ("external", Space::External)];
const LINE_MOST: usize = 1024;

/// Why a line is refused.
#[derive(Clone, Copy)]
enum No {
    Long = 1,
    Syntax,
    Range,
    Taken,
    Missing,
    Params,
    Room,
    Busy,
    Command,
    Short,
}

const NOS: [&str; 11] = ["", "long", "syntax", "range", "taken", "missing", "params", "room", "busy", "command", "short"];

/// A living instance: by itself, or a member of a channel that owns it.
struct Living<'h> {
    alone: Option<AnyInstance<'h>>,
    channel: Option<u8>,
    name: &'static str,
    parameters: Vec<i16>,
    number: u8,
}

impl Living<'_> {
    /// The record that equal instances share, if there is one.
    fn shared_record(&self) -> Option<u8> {
        match self.name {
            "decim" => Some(2),
            "g711" if self.parameters.get(1) == Some(&1) => Some(1),
            _ => None,
        }
    }
}

/// A channel: its line, and the script's numbers of its members.
struct Channel<'h> {
    line: Line<'h, Vec<AnyInstance<'h>>>,
    members: Vec<u8>,
}

struct Port {
    input: BufReader<File>,
    output: BufWriter<File>,
    narrow_in: bool,
    narrow_out: bool,
}

struct Run<'h> {
    host: &'h Host,
    ports: Vec<Port>,
    living: BTreeMap<u8, Living<'h>>,
    channels: BTreeMap<u8, Channel<'h>>,
}

type Reply = Result<String, No>;

/// A number as scripts write it; one past 64 bits is held at them.
fn number(word: &[u8]) -> Result<i64, No> {
    let digits = word.strip_prefix(b"-").unwrap_or(word);
    if digits.is_empty() || !digits.iter().all(u8::is_ascii_digit) {
        return Err(No::Syntax);
    }
    let held = digits.iter().fold(0i64, |sum, digit| sum.saturating_mul(10).saturating_add(i64::from(digit - b'0')));
    Ok(if word[0] == b'-' { -held } else { held })
}

fn numbers(words: &[&[u8]]) -> Result<Vec<i64>, No> {
    words.iter().map(|word| number(word)).collect()
}

fn within(value: i64, most: u8) -> Result<u8, No> {
    u8::try_from(value).ok().filter(|it| *it <= most).ok_or(No::Range)
}

/// Parameters: at most 72 words of 16 bits.
fn words16(values: &[i64]) -> Result<Vec<i16>, No> {
    if values.len() > 72 {
        return Err(No::Range);
    }
    values.iter().map(|it| i16::try_from(*it).map_err(|_| No::Range)).collect()
}

fn space(words: &[&[u8]]) -> Result<Space, No> {
    match words {
        [name] => SPACES.iter().find(|it| it.0.as_bytes() == *name).map(|it| it.1).ok_or(No::Syntax),
        _ => Err(No::Syntax),
    }
}

fn one(words: &[&[u8]], most: u8) -> Result<u8, No> {
    if words.len() != 1 {
        return Err(No::Syntax);
    }
    within(number(words[0])?, most)
}

impl<'h> Run<'h> {
    fn serve(&mut self, words: &[&[u8]]) -> Reply {
        let (verb, rest) = words.split_first().ok_or(No::Syntax)?;
        match *verb {
            b"create" => self.create(rest),
            b"control" => self.control(rest),
            b"delete" => self.delete(one(rest, 63)?),
            b"chain" => self.chain(rest),
            b"unchain" => self.unchain(one(rest, 255)?),
            b"feed" => self.feed(rest),
            b"compact" => space(rest).map(|it| format!("ok {}", self.host.compact(it))),
            b"step" => space(rest).map(|it| format!("ok {}", u8::from(self.host.step(it)))),
            b"map" => space(rest).map(|it| self.map(it)),
            b"release" => one(rest, 7).map(|it| format!("ok {}", u8::from(self.host.release(GROUPS[usize::from(it)])))),
            b"stat" => one(rest, 7).map(|it| self.stat(it)),
            _ => Err(No::Syntax),
        }
    }

    fn create(&mut self, words: &[&[u8]]) -> Reply {
        if words.len() < 3 {
            return Err(No::Syntax);
        }
        let name = std::str::from_utf8(words[1]).map_err(|_| No::Syntax)?;
        AnyParameters::named(name, &[]).map_err(|_| No::Syntax)?;
        let given = numbers(&[&words[..1], &words[2..]].concat())?;
        let (i, group) = (within(given[0], 63)?, within(given[1], 7)?);
        let parameters = words16(&given[2..])?;
        if self.living.contains_key(&i) {
            return Err(No::Taken);
        }
        let asked = AnyParameters::named(name, &parameters).map_err(|_| No::Range)?;
        let made = self.host.create_any(GROUPS[usize::from(group)], asked).map_err(|why| match why {
            Error::Room(_) => No::Room,
            _ => No::Params,
        })?;
        self.living.insert(i, Living { name: made.name(), number: made.number(), alone: Some(made), channel: None, parameters });
        Ok("ok".to_owned())
    }

    fn control(&mut self, words: &[&[u8]]) -> Reply {
        if words.len() < 2 || !matches!((words[1], words.len()), (b"set", _) | (b"reset" | b"get", 2)) {
            return Err(No::Syntax);
        }
        let given = numbers(&[&words[..1], &words[2..]].concat())?;
        let (i, values) = (within(given[0], 63)?, words16(&given[1..])?);
        let living = self.living.get(&i).ok_or(No::Missing)?;
        let instance = match (&living.alone, living.channel) {
            (Some(alone), _) => alone,
            (None, Some(c)) => self.channels[&c].line.members().iter().find(|it| it.number() == living.number).ok_or(No::Missing)?,
            (None, None) => return Err(No::Missing),
        };
        match words[1] {
            b"set" => instance.set(&values).map(|()| "ok".to_owned()).map_err(|_| No::Command),
            b"reset" => {
                instance.reset();
                Ok("ok".to_owned())
            }
            _ => Ok(instance.get().iter().fold("ok".to_owned(), |text, word| format!("{text} {word}"))),
        }
    }

    fn delete(&mut self, i: u8) -> Reply {
        if self.living.get(&i).ok_or(No::Missing)?.channel.is_some() {
            return Err(No::Busy);
        }
        self.living.remove(&i);
        Ok("ok".to_owned())
    }

    fn chain(&mut self, words: &[&[u8]]) -> Reply {
        if words.len() < 2 {
            return Err(No::Syntax);
        }
        let given = numbers(words)?;
        let members = given[1..].iter().map(|it| within(*it, 63)).collect::<Result<Vec<u8>, No>>();
        let c = self.channel_number(given[0])?;
        let members = members?;
        if members.len() > 8 {
            return Err(No::Range);
        }
        if self.channels.contains_key(&c) {
            return Err(No::Taken);
        }
        if members.iter().any(|it| !self.living.contains_key(it)) {
            return Err(No::Missing);
        }
        if members.iter().enumerate().any(|(at, it)| members[..at].contains(it) || self.living[it].channel.is_some()) {
            return Err(No::Busy);
        }
        let mut taken = Vec::new();
        for i in &members {
            let living = self.living.get_mut(i).ok_or(No::Missing)?;
            living.channel = Some(c);
            taken.extend(living.alone.take());
        }
        let line = self.host.chain(taken).unwrap_or_else(|why| panic!("a line of living instances is refused: {why}"));
        self.channels.insert(c, Channel { line, members });
        Ok("ok".to_owned())
    }

    fn unchain(&mut self, c: u8) -> Reply {
        let c = self.channel_number(i64::from(c))?;
        let Channel { line, members } = self.channels.remove(&c).ok_or(No::Missing)?;
        for (i, instance) in members.into_iter().zip(line.unchain()) {
            if let Some(living) = self.living.get_mut(&i) {
                living.channel = None;
                living.alone = Some(instance);
            }
        }
        Ok("ok".to_owned())
    }

    fn channel_number(&self, given: i64) -> Result<u8, No> {
        within(given, 15).ok().filter(|it| usize::from(*it) < self.ports.len()).ok_or(No::Range)
    }

    fn feed(&mut self, words: &[&[u8]]) -> Reply {
        if words.len() != 2 {
            return Err(No::Syntax);
        }
        let given = numbers(words)?;
        let c = self.channel_number(given[0])?;
        let n = usize::try_from(given[1]).ok().filter(|it| (1..=1024).contains(it)).ok_or(No::Range)?;
        let channel = self.channels.get_mut(&c).ok_or(No::Missing)?;
        let port = &mut self.ports[usize::from(c)];
        let wanted = n * if port.narrow_in { 1 } else { 2 };
        let mut octets = Vec::new();
        port.input.by_ref().take(wanted as u64).read_to_end(&mut octets).unwrap_or_else(|_| exit(3));
        if octets.len() < wanted {
            return Err(No::Short);
        }
        let samples: Vec<i16> = if port.narrow_in { octets.into_iter().map(i16::from).collect() } else { octets.chunks(2).map(|it| i16::from_le_bytes([it[0], it[1]])).collect() };
        let out = channel.line.feed_vec(&samples);
        let made: Vec<u8> = if port.narrow_out { out.iter().map(|it| *it as u8).collect() } else { out.iter().flat_map(|it| it.to_le_bytes()).collect() };
        port.output.write_all(&made).unwrap_or_else(|_| exit(4));
        Ok(format!("ok {}", out.len()))
    }

    /// The script's number of a living instance.
    fn named(&self, number: u8) -> Option<u8> {
        self.living.iter().find(|(_, it)| it.number == number).map(|(i, _)| *i)
    }

    /// The least number of those that share a record of an instance.
    fn owner(&self, number: u8, record: u8) -> u8 {
        let mine = self.living.values().find(|it| it.number == number);
        let shares = |it: &&Living<'_>| mine.map_or(false, |mine| mine.shared_record() == Some(record) && it.name == mine.name && it.parameters == mine.parameters);
        let least = self.living.iter().find(|(_, it)| it.number == number || shares(it)).map(|(i, _)| *i);
        least.unwrap_or(u8::MAX)
    }

    fn map(&self, space: Space) -> String {
        self.host.map(space).iter().fold("ok".to_owned(), |text, block| match block.owner {
            Owner::Scratch(group) => format!("{text} g{group}@{}+{}", block.place, block.size),
            Owner::Record { instance, record } => format!("{text} i{}.r{record}@{}+{}", self.owner(instance, record), block.place, block.size),
        })
    }

    fn stat(&self, group: u8) -> String {
        let stat = self.host.stat(GROUPS[usize::from(group)]);
        let active = stat.active.and_then(|it| self.named(it)).map_or("-".to_owned(), |it| it.to_string());
        format!("ok {active} {}", stat.activations)
    }
}

/// The next line of a script, without its line feed.
fn next_line(script: &mut impl BufRead) -> Option<Vec<u8>> {
    let mut line = Vec::new();
    let got = script.read_until(b'\n', &mut line).unwrap_or_else(|_| exit(3));
    if line.last() == Some(&b'\n') {
        line.pop();
    }
    (got > 0).then_some(line)
}

/// The options and the words behind them.
fn options() -> (Options, u32, u32, Vec<String>) {
    let mut words: Vec<String> = env::args().skip(1).collect();
    let (mut options, mut in8, mut out8) = (Options::default(), 0, 0);
    while words.len() > 1 && words[0].starts_with("--") {
        let value: u32 = words[1].parse().unwrap_or_else(|_| exit(2));
        match words[0].as_str() {
            "--daram" => options.daram = value,
            "--saram" => options.saram = value,
            "--external" => options.external = value,
            "--poison" => options.poison = Some(value as u16 as i16),
            "--in8" => in8 = value,
            "--out8" => out8 = value,
            _ => exit(2),
        }
        words.drain(..2);
    }
    (options, in8, out8, words)
}

fn main() {
    let (mut options, in8, out8, words) = options();
    let (script, ports) = words.split_first().unwrap_or_else(|| exit(2));
    let mut script = BufReader::new(File::open(script).unwrap_or_else(|_| exit(3)));
    let inputs: Vec<File> = ports.iter().step_by(2).map(|it| File::open(it).unwrap_or_else(|_| exit(3))).collect();
    options.channels = inputs.len() as u8;
    let host = Host::open(&options).unwrap_or_else(|why| {
        let (status, text) = if why == Error::NoMemory { (5, "out of memory") } else { (2, "a space is 0 to 65536 words, a multiple of 4") };
        eprintln!("{NAME}: {text}");
        exit(status)
    });
    // Not before: a run that doesn't begin leaves each OUT as it was.
    let outputs = ports.iter().skip(1).step_by(2).map(|it| File::create(it).unwrap_or_else(|_| exit(4)));
    let ports = inputs.into_iter().zip(outputs).enumerate();
    let ports =
        ports.map(|(c, (input, output))| Port { input: BufReader::new(input), output: BufWriter::new(output), narrow_in: in8 >> c & 1 == 1, narrow_out: out8 >> c & 1 == 1 });
    let mut run = Run { host: &host, ports: ports.collect(), living: BTreeMap::new(), channels: BTreeMap::new() };
    let (mut refused, mut replies) = (false, BufWriter::new(io::stdout()));
    while let Some(mut line) = next_line(&mut script) {
        let reply = if line.len() > LINE_MOST {
            Err(No::Long)
        } else {
            if line.last() == Some(&b'\r') {
                line.pop();
            }
            let words: Vec<&[u8]> = line.split(|it| matches!(it, b' ' | b'\t')).filter(|it| !it.is_empty()).collect();
            if words.is_empty() {
                continue;
            }
            run.serve(&words)
        };
        refused |= reply.is_err();
        let text = reply.unwrap_or_else(|why| format!("no {} {}", why as u8, NOS[why as usize]));
        writeln!(replies, "{text}").unwrap_or_else(|_| exit(4));
    }
    replies.flush().unwrap_or_else(|_| exit(4));
    for port in &mut run.ports {
        port.output.flush().unwrap_or_else(|_| exit(4));
    }
    drop(run);
    exit(i32::from(refused));
}
