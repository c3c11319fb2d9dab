// SPDX-License-Identifier: MIT OR Apache-2.0
//! disk FILE: a room whose file can't grow any more. The state is lost with the command that isn't in the file, and a room that
//! is opened of the file has the state before it.

use std::env;
use std::error::Error;
use std::time::Duration;

use cizhmolat::states::{Lost, Shared, Standing, Stopped};
use cizhmolat::{Error as RoomError, Refusal, Room};
use modules::loop_store::{self as store, State};

fn started(file: &str) -> Result<store::PickReader, Box<dyn Error>> {
    let room = Shared::new(Room::open_file(store::PROTOCOL, file)?, Duration::ZERO);
    match store::resume(&room)? {
        State::PickReader(state) => Ok(state),
        other => Err(format!("{other:?}").into()),
    }
}

fn main() -> Result<(), Box<dyn Error>> {
    let file = env::args().nth(1).ok_or("usage: disk FILE")?;
    let mut state = started(&file)?;
    let mut marks = 0;
    let stopped = loop {
        state = match state.mark("here") {
            Ok(state) => state,
            Err(stopped) => break stopped,
        };
        marks += 1;
    };
    let Stopped::Lost(Lost::Room(error)) = stopped else {
        return Err(stopped.into());
    };
    assert_eq!(error, RoomError::Refused(Refusal::Journal));
    assert!(marks > 10);
    assert_eq!(started(&file)?.deeds().len(), marks);
    Ok(())
}
