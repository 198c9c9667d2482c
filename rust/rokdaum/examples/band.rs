// SPDX-License-Identifier: Apache-2.0
//! A telephone band over samples of 16 bits, the low byte first, from the standard input to the standard output:
//!
//!     cargo run --example band < speech.raw > band.raw
use rokdaum::{Biquad, Group, Host, Options};
use std::io::{self, Read, Write};

const BAND: [[i16; 5]; 3] = [[11969, 0, -11969, -2999, -7553], [12335, 24670, 12335, 23864, 10482], [14459, -28918, 14459, -28604, 13055]];

fn main() -> Result<(), Box<dyn std::error::Error>> {
    let host = Host::open(&Options::default())?;
    let sections = BAND.iter().zip([Group::G0, Group::G1, Group::G2]).map(|(words, group)| host.create(group, Biquad::new(*words))).collect::<Result<Vec<_>, _>>()?;
    let mut line = host.chain(sections).map_err(|refused| refused.error)?;
    let mut octets = Vec::new();
    io::stdin().lock().read_to_end(&mut octets)?;
    let samples: Vec<i16> = octets.chunks_exact(2).map(|two| i16::from_le_bytes([two[0], two[1]])).collect();
    let out: Vec<u8> = line.feed_vec(&samples).into_iter().flat_map(i16::to_le_bytes).collect();
    io::stdout().lock().write_all(&out)?;
    Ok(())
}
