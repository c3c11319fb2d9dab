// SPDX-License-Identifier: MIT OR Apache-2.0
//! States of a role, by a module as `./mps api rust` writes it: how they wait, and what stops them. The test states_rust of the
//! repository has the rest, with modules that are written for it.

use std::error::Error;
use std::thread;
use std::time::{Duration, Instant};

use cizhmolat::states::{Deed, Got, Lost, Shared, Standing, Stopped};
use cizhmolat::{Answer, Refusal, Room};
use store::{Input, PickReader, PickedReader, SendReader, State};

const LONG: Duration = Duration::from_secs(60);
const SHORT: Duration = Duration::from_millis(20);

/// The store of a loop in which a reader asks for pages.
mod store {
    #![allow(dead_code)]

    use cizhmolat::states::{self, Lost, Shared, Stopped, Talk};
    use cizhmolat::Value;

    pub const PROTOCOL: &str = "roles reader store ; \
        rec MORE . reader -> store { next : store -> reader : text . MORE , stop : end }";

    pub fn resume(room: &Shared) -> Result<State, Lost> {
        states::resume(room)
    }

    #[derive(Debug)]
    pub struct PickReader(Talk);

    impl PickReader {
        pub fn pick_reader(self) -> Result<PickedReader, Stopped<Self, Input>> {
            self.0.pick(PickedReader::of)
        }
    }

    #[derive(Debug)]
    pub enum PickedReader {
        Next(SendReader),
        Stop(End),
    }

    impl PickedReader {
        fn of(label: &str, talk: Talk) -> Self {
            match label {
                "next" => Self::Next(talk.at()),
                "stop" => Self::Stop(talk.at()),
                other => unreachable!("{other}"),
            }
        }
    }

    #[derive(Debug)]
    pub struct SendReader(Talk);

    impl SendReader {
        pub fn send_reader(self, value: &str) -> Result<PickReader, Stopped<Self, Input>> {
            self.0.send(Value::Text(value.to_owned()))
        }
    }

    #[derive(Debug)]
    pub struct End(Talk);

    #[derive(Debug)]
    pub enum State {
        PickReader(PickReader),
        SendReader(SendReader),
        End(End),
    }

    #[derive(Debug)]
    pub enum Input {
        PickReader(PickReader),
    }

    cizhmolat::standing! {
        role "store";
        0 PickReader "pick reader" ["next" SendReader, "stop" End] "";
        1 SendReader "send reader" ["text" PickReader] "";
        2 End "end" [] "";
        inputs [0 PickReader];
    }
}

/// A room, and the store at its start.
fn opened(patience: Duration) -> (Shared, PickReader) {
    let room = Shared::new(Room::open(store::PROTOCOL).unwrap(), patience);
    let Ok(State::PickReader(state)) = store::resume(&room) else {
        panic!("not at the start")
    };
    (room, state)
}

fn reader(room: &Shared, line: &str) -> Answer {
    room.with(|room| room.line("reader", line)).unwrap()
}

/// The store after a pick of `next`.
fn asked(state: PickReader) -> SendReader {
    match state.pick_reader() {
        Ok(PickedReader::Next(state)) => state,
        other => panic!("{other:?}"),
    }
}

#[test]
fn a_pick_waits_for_its_label() {
    let (room, state) = opened(LONG);
    let picking = thread::spawn(|| state.pick_reader());
    thread::sleep(SHORT);
    reader(&room, "choose store stop");
    let picked = picking.join().unwrap();
    assert!(matches!(picked, Ok(PickedReader::Stop(_))), "{picked:?}");
}

#[test]
fn a_pick_without_a_label_is_refused_when_its_time_is_over() {
    for patience in [Duration::ZERO, SHORT] {
        let (room, state) = opened(patience);
        let begin = Instant::now();
        let Err(Stopped::Refused { state, why }) = state.pick_reader() else {
            panic!("nothing was chosen")
        };
        assert_eq!(why, Refusal::NothingQueued);
        assert!(begin.elapsed() >= patience);
        reader(&room, "choose store next");
        asked(state);
    }
}

#[test]
fn a_pick_that_waits_is_told_of_what_is_taken_back() {
    let (room, state) = opened(LONG);
    reader(&room, "choose store next");
    let state = asked(state).send_reader("a page").unwrap();
    let place = state.place();
    let picking = thread::spawn(|| state.pick_reader());
    thread::sleep(SHORT);
    assert_eq!(reader(&room, "rollback 1"), Answer::Undone(vec![3, 2, 1]));
    let stopped = picking.join().unwrap().unwrap_err();
    assert_eq!(
        stopped.to_string(),
        "others took back 2 pick reader, 3 send reader \"a page\""
    );
    let Stopped::TakenBack { state, gone } = stopped else {
        panic!("{stopped}")
    };
    assert_eq!(gone[0].got, Some(Got::Label("next".into())));
    let Input::PickReader(state) = state;
    assert!(state.deeds().is_empty());
    // the place is gone with the step before it
    let Err(Stopped::Refused { why, .. }) = state.back_to(place) else {
        panic!("a place that is gone")
    };
    assert_eq!(why, Refusal::NoStep);
}

#[test]
fn a_watch_ends_with_its_time_or_what_is_taken_back() {
    let (room, state) = opened(LONG);
    reader(&room, "choose store next");
    let begin = Instant::now();
    let state = asked(state).watch(SHORT).unwrap();
    assert!(begin.elapsed() >= SHORT);
    let watching = thread::spawn(|| state.watch(LONG));
    thread::sleep(SHORT);
    reader(&room, "rollback 1");
    let watched = watching.join().unwrap();
    assert!(
        matches!(watched, Err(Stopped::TakenBack { .. })),
        "{watched:?}"
    );
}

#[test]
fn a_command_that_no_line_has_is_refused_and_nothing_is_lost() {
    let (room, state) = opened(Duration::ZERO);
    reader(&room, "choose store next");
    let mut state = asked(state);
    for page in ["\"", "\\", "\n", "\u{e9}", &"x".repeat(257)] {
        let Err(Stopped::Refused { state: same, why }) = state.send_reader(page) else {
            panic!("{page:?}")
        };
        assert_eq!(why, Refusal::Line);
        state = same;
    }
    for mark in ["", "A", "a b", "end", "a\n"] {
        let stopped = state.mark(mark).unwrap_err();
        assert_eq!(stopped.to_string(), "refused: the line can't be read");
        let Stopped::Refused { state: same, .. } = stopped else {
            panic!("{mark:?}")
        };
        state = same;
    }
    assert_eq!(room.with(|room| room.entries()), 2);
    state.send_reader("] , [\u{20}").unwrap();
    let Ok(State::PickReader(state)) = store::resume(&room) else {
        panic!("another state")
    };
    assert_eq!(state.deeds()[1].to_string(), "3 send reader \"] , [ \"");
}

#[test]
fn a_place_has_the_state_in_which_the_role_stood() {
    let (room, state) = opened(Duration::ZERO);
    reader(&room, "choose store next");
    let state = asked(state).mark("asked").unwrap();
    let [picked, marked] = state.deeds() else {
        panic!("a pick and a mark")
    };
    assert!(picked.place::<SendReader>().is_none() && marked.place::<PickReader>().is_none());
    let (before, after) = (marked.place(), state.place());
    let state = state.back_to(after).unwrap(); // where it stands
    assert_eq!(state.deeds().len(), 2);
    let state: SendReader = state.back_to(before.unwrap()).unwrap();
    assert_eq!(state.deeds().len(), 1);
    let state = state.commit().unwrap();
    let Err(Stopped::Refused { state, why }) = state.back_to(after) else {
        panic!("a place that is gone")
    };
    assert_eq!(why, Refusal::NoStep);
    let due: Vec<_> = state.due().into_iter().map(Deed::to_string).collect();
    assert_eq!(due, ["4 commit"]);
    let start = state.deeds()[0].place::<PickReader>().unwrap();
    let Err(Stopped::Refused { why, .. }) = state.back_to(start) else {
        panic!("a final step")
    };
    assert_eq!(why, Refusal::Final(4));
}

#[test]
fn a_session_of_another_protocol_gives_no_state() {
    for (protocol, lines, what) in [
        (
            "roles reader store ; store -> reader : text . end",
            vec![],
            "it expects `send reader text` of store",
        ),
        (
            "roles reader store ; reader -> store { next : end , stop : end , turn : end }",
            vec![],
            "it expects `pick reader next stop turn` of store",
        ),
        (
            "roles reader store ; store -> reader : text . end",
            vec!["store send reader \"x\""],
            "step 1 \"store\" \"send\" \"reader\" \"x\"",
        ),
        (
            "roles reader store ; reader -> store { stop : end , turn : end }",
            vec!["reader choose store turn", "store pick reader"],
            "step 2 \"store\" \"pick\" \"reader\" \"turn\"",
        ),
        (
            "roles reader store ; reader -> store { next : store -> reader : int . end }",
            vec![
                "reader choose store next",
                "store pick reader",
                "store send reader 5",
            ],
            "step 3 \"store\" \"send\" \"reader\" 5",
        ),
        (
            "roles reader store ; store -> reader { next : store -> reader : text . end }",
            vec!["store choose reader next"],
            "step 1 \"store\" \"choose\" \"reader\" \"next\"",
        ),
    ] {
        let room = Shared::new(Room::open(protocol).unwrap(), Duration::ZERO);
        for line in lines {
            let (role, command) = line.split_once(' ').unwrap();
            room.with(|room| room.line(role, command)).unwrap();
        }
        let lost = store::resume(&room).unwrap_err();
        assert_eq!(lost, Lost::OtherProtocol(what.into()));
        assert_eq!(
            lost.to_string(),
            format!("the session is of another protocol: {what}")
        );
    }
}

#[test]
fn a_label_of_another_protocol_gives_no_state() {
    let protocol = "roles reader store ; reader -> store { \
        next : store -> reader : text . reader -> store { more : end } , stop : end }";
    let room = Shared::new(Room::open(protocol).unwrap(), Duration::ZERO);
    let Ok(State::PickReader(state)) = store::resume(&room) else {
        panic!("it begins as the store's protocol does")
    };
    reader(&room, "choose store next");
    let state = asked(state).send_reader("a page").unwrap();
    reader(&room, "recv store page");
    reader(&room, "choose store more");
    let Err(Stopped::Lost(lost)) = state.pick_reader() else {
        panic!("no such label")
    };
    assert_eq!(
        lost,
        Lost::OtherProtocol("step 6 pick reader got more".into())
    );
}

#[test]
fn a_state_outlives_a_thread_that_panicked_with_the_room() {
    let (room, state) = opened(Duration::ZERO);
    let other = room.clone();
    let panicked = thread::spawn(move || {
        other.with(|room| {
            room.line("reader", "choose store next").unwrap();
            panic!("on purpose")
        })
    });
    assert!(panicked.join().is_err());
    assert_eq!(asked(state).deeds().len(), 1);
}

#[test]
fn what_stops_an_act_is_an_error_that_can_be_passed_on() {
    fn page(state: SendReader) -> Result<PickReader, Box<dyn Error + Send + Sync>> {
        Ok(state.send_reader("a page")?)
    }
    let (room, state) = opened(Duration::ZERO);
    reader(&room, "choose store next");
    let state = asked(state);
    assert_eq!(
        format!("{state:?}"),
        "SendReader(store at `send reader text` after 2 pick reader)"
    );
    reader(&room, "rollback 1");
    let error = page(state).unwrap_err();
    assert_eq!(error.to_string(), "others took back 2 pick reader");
    let lost: Stopped<SendReader, Input> = Stopped::Lost(Lost::OtherProtocol("it".into()));
    let stopped: Stopped<State, State> = lost.any();
    assert_eq!(
        stopped.to_string(),
        "the session is of another protocol: it"
    );
}
