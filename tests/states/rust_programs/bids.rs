mod bob; // ./mps api rust examples/auction.protocol bob offer > src/bob.rs

use bob::State;
use cizhmolat::states::{Shared, Stopped};
use cizhmolat::Room;
use std::{error::Error, time::Duration};

fn main() -> Result<(), Box<dyn Error>> {
    let room = Shared::new(Room::open(bob::PROTOCOL)?, Duration::ZERO);
    room.with(|room| room.line("alice", "send seller 5"))?;
    room.with(|room| room.line("seller", "recv alice bid"))?;
    room.with(|room| room.line("seller", "send bob 5"))?;
    let mut state = bob::resume(&room)?;
    loop {
        let next = match state {
            State::RecvSeller(it) => it.recv_seller().map(|it| it.1.into()).map_err(Stopped::any),
            State::SendSeller(it) => {
                let bid = it.kept_offer() + 1;
                println!("bob bids {bid}");
                it.send_seller(bid).map(State::from).map_err(Stopped::any)
            }
        };
        state = match next {
            Ok(next) => next,
            Err(Stopped::TakenBack { state, .. }) => state,
            Err(Stopped::Refused { .. }) => return Ok(()), // nothing waits
            Err(stopped) => return Err(stopped.into()),
        };
    }
}
