//! Plays on in a room that a file keeps, as play of tests/embed/bindings does in Python: PROTOCOL PATH SESSION SYNC. It says each
//! answer, and ends after the first refusal, of which it says what comes then.

use std::env;
use std::error::Error;
use std::fmt::Display;
use std::io::{self, Write};

use cizhmolat::{FileError, FileOptions};

fn say(what: impl Display) -> io::Result<()> {
    let mut out = io::stdout().lock();
    writeln!(out, "{what}") // which goes out at once, with the line's end
}

fn main() -> Result<(), Box<dyn Error>> {
    let words: Vec<String> = env::args().skip(1).collect();
    let [protocol, path, session, sync] = words.as_slice() else {
        return Err("usage: player PROTOCOL PATH SESSION SYNC".into());
    };
    let options = FileOptions::new().session(session.parse()?).sync(sync == "sync");
    let mut room = match options.open(protocol, path) {
        Ok(room) => room,
        Err(FileError::Io(error)) => return Ok(say(format!("file {}", error.raw_os_error().unwrap_or(0)))?),
        Err(other) => return Ok(say(other)?),
    };
    for number in room.entries() / 2 + 1.. {
        for (role, command) in [("a", format!("send b {}", 7 * number)), ("b", "recv a x".into())] {
            let answer = room.ask(role, format!("{number} {command}"))?.to_owned();
            say(&answer)?;
            if answer.starts_with("refused") {
                say(room.ask("a", "news 0")?)?;
                say(room.would("b", "mark m")?.map_or_else(|it| it.word(), |()| "accepted"))?;
                say(room.sync().map_or("not stored", |()| "stored"))?;
                return Ok(());
            }
        }
    }
    Ok(())
}
