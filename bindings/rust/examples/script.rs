// SPDX-License-Identifier: MIT OR Apache-2.0
//! Runs a script on a room of a protocol: each line is a role, a space and its command, and is answered by a line. With
//! `--full` it is a room by full merging.
//!
//!     cargo run --example script -- FILE SCRIPT [--full]

use std::env;
use std::error::Error;
use std::fs;
use std::io::{self, BufWriter, Write};

use cizhmolat::Room;

const USAGE: &str = "usage: script FILE SCRIPT [--full]";

fn main() -> Result<(), Box<dyn Error>> {
    let mut words = env::args_os().skip(1);
    let (Some(protocol), Some(script), more) = (words.next(), words.next(), words.next()) else {
        return Err(USAGE.into());
    };
    let (protocol, script) = (fs::read(protocol)?, fs::read(script)?);
    let mut room = match more {
        None => Room::open(protocol)?,
        Some(word) if word == "--full" => Room::open_full(protocol)?,
        Some(_) => return Err(USAGE.into()),
    };
    let mut out = BufWriter::new(io::stdout().lock());
    for line in script
        .strip_suffix(b"\n")
        .unwrap_or(&script)
        .split(|&byte| byte == b'\n')
    {
        let end = line
            .iter()
            .position(|&byte| byte == b' ')
            .unwrap_or(line.len());
        let command = line.get(end + 1..).unwrap_or_default();
        writeln!(out, "{}", room.ask(&line[..end], command)?)?;
    }
    out.flush()?;
    Ok(())
}
