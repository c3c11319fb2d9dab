// SPDX-License-Identifier: MIT OR Apache-2.0
//! auction: bob overbids by mistake, and goes back to the place before. Then alice takes back a bid of which he was told.

use std::error::Error;
use std::time::Duration;

use cizhmolat::states::{Deed, Got, Shared, Standing, Stopped};
use cizhmolat::{Answer, Refusal, Room, Value};
use modules::auction_bob::{self as bob, Input, State};

/// What the room answers to lines `ROLE COMMAND` of the others.
fn say(room: &Shared, lines: &[&str]) -> Vec<Answer> {
    let answer = |line: &&str| {
        let (role, command) = line.split_once(' ').expect("a role and a command");
        room.with(|room| room.line(role, command)).expect(line)
    };
    lines.iter().map(answer).collect()
}

fn told(deeds: &[Deed]) -> Vec<String> {
    deeds.iter().map(Deed::to_string).collect()
}

fn main() -> Result<(), Box<dyn Error>> {
    let room = Shared::new(Room::open(bob::PROTOCOL)?, Duration::ZERO);
    let State::RecvSeller(state) = bob::resume(&room)? else {
        return Err("not at the start".into());
    };
    assert_eq!(state.kept_offer(), None);
    let begin = state.place();

    // nothing was sent yet: the state is handed back
    let Err(Stopped::Refused { state, why }) = state.recv_seller() else {
        return Err("nothing was sent".into());
    };
    assert_eq!(why, Refusal::NothingQueued);
    say(
        &room,
        &[
            "alice send seller 5",
            "seller recv alice bid",
            "seller send bob 5",
        ],
    );
    let (offer, state) = state.recv_seller()?;
    assert_eq!((offer, state.kept_offer()), (5, 5));

    // bob means 6
    let place = state.place();
    let state = state.send_seller(60)?;
    let ahead = state.place();
    let state = state.back_to(place)?;
    assert_eq!(told(state.deeds()), ["4 recv seller offer"]);

    // the place after that bid is gone
    let Err(Stopped::Refused { state, why }) = state.back_to(ahead) else {
        return Err("a place that is gone".into());
    };
    assert_eq!(why, Refusal::NoStep);
    let state = state.send_seller(6)?;

    // the next round, up to alice's next bid
    let lines = [
        "seller recv bob bid",
        "seller send alice 6",
        "alice recv seller bid",
    ];
    say(&room, &lines);
    let answers = say(
        &room,
        &[
            "alice send seller 7",
            "seller recv alice bid",
            "seller send bob 7",
        ],
    );
    let Answer::Done(bid) = answers[0] else {
        return Err("no bid".into());
    };
    let (offer, state) = state.recv_seller()?;
    assert_eq!(offer, 7);

    // alice takes it back, and with it what bob received
    say(&room, &[&format!("alice rollback {bid}")]);
    let Err(Stopped::TakenBack { state, gone }) = state.send_seller(8) else {
        return Err("the bid was taken back".into());
    };
    let Input::RecvSeller(state) = state;
    assert_eq!(gone.len(), 1);
    assert_eq!(gone[0].got, Some(Got::Value(Value::Int(7))));
    assert_eq!(state.kept_offer(), Some(5));

    // she bids 10, and what bob's steps say now is what the session says
    say(
        &room,
        &[
            "alice send seller 10",
            "seller recv alice bid",
            "seller send bob 10",
        ],
    );
    let (offer, state) = state.recv_seller()?;
    assert_eq!((offer, state.kept_offer()), (10, 10));
    let State::SendSeller(again) = bob::resume(&room)? else {
        return Err("another state".into());
    };
    assert_eq!(state.deeds(), again.deeds());

    // back to the start: all that bob did is taken back
    let state = state.back_to(begin)?;
    assert!(state.deeds().is_empty());
    Ok(())
}
