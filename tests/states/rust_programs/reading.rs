// SPDX-License-Identifier: MIT OR Apache-2.0
//! reading: a reader and a store in two threads, over one room. The reader takes a choice back while the store answers it.

use std::error::Error;
use std::thread;
use std::time::Duration;

use cizhmolat::states::{Shared, Standing, Stopped};
use cizhmolat::Room;
use modules::loop_reader as reader;
use modules::loop_store::{self as store, PickedReader, State};

const PAGES: [&str; 3] = ["one, two]", "", "[three"];

/// Sends a page for each `next`, wherever the session stands, until the reader stops; and how often others took steps back.
fn serve(room: &Shared) -> Result<(store::End, usize), Box<dyn Error + Send + Sync>> {
    let (mut state, mut taken) = (store::resume(room)?, 0);
    loop {
        let next = match state {
            State::PickReader(it) => it.pick_reader().map_err(Stopped::any).map(|it| match it {
                PickedReader::Next(state) => State::from(state),
                PickedReader::Stop(end) => end.into(),
            }),
            State::SendReader(it) => {
                let sent = it.deeds().len() / 2;
                let answer = it.send_reader(PAGES[sent % PAGES.len()]);
                answer.map(State::from).map_err(Stopped::any)
            }
            State::End(end) => return Ok((end, taken)),
        };
        state = match next {
            Ok(state) => state,
            Err(Stopped::TakenBack { state, .. }) => {
                taken += 1;
                state
            }
            Err(stopped) => return Err(stopped.into()),
        };
    }
}

/// Reads the pages, and takes back the first choice once.
fn read(room: &Shared) -> Result<Vec<String>, Box<dyn Error + Send + Sync>> {
    let reader::State::ChooseStore(state) = reader::resume(room)? else {
        return Err("not at the start".into());
    };
    let begin = state.place();
    let state = state.choose_next()?;
    let mut state = state.back_to(begin)?;
    let mut pages = Vec::new();
    for _ in PAGES {
        let (page, after) = state.choose_next()?.recv_store()?;
        pages.push(page);
        state = after;
    }
    let end = state.choose_stop()?;
    assert_eq!(end.kept_store(), Some(PAGES[2]));
    Ok(pages)
}

fn main() -> Result<(), Box<dyn Error + Send + Sync>> {
    for _ in 0..50 {
        let room = Shared::new(Room::open(store::PROTOCOL)?, Duration::from_secs(60));
        let serving = thread::spawn({
            let room = room.clone();
            move || serve(&room)
        });
        assert_eq!(read(&room)?, PAGES);
        let (end, taken) = serving.join().expect("the store didn't panic")?;
        assert!(taken < 2);
        assert_eq!(end.deeds().len(), 7); // a pick and a page for each, and the last pick
    }
    Ok(())
}
