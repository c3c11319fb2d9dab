// SPDX-License-Identifier: MIT OR Apache-2.0
//! again: a program that is started again goes on where the room's file has the session; and a room of another protocol.

use std::error::Error;
use std::time::Duration;
use std::{env, fs, process};

use cizhmolat::states::{Lost, Shared, Standing};
use cizhmolat::{Room, Value};
use modules::{branching_buyer as buyer, loop_store as store};

fn main() -> Result<(), Box<dyn Error>> {
    let folder = env::temp_dir().join(format!("cizhmolat-again-{}", process::id()));
    fs::create_dir_all(&folder)?;
    let file = folder.join("1.journal");
    let open = || Room::open_file(buyer::PROTOCOL, &file).map(|it| Shared::new(it, Duration::ZERO));

    // the first run ends behind a mark
    let room = open()?;
    let buyer::State::SendSeller(state) = buyer::resume(&room)? else {
        return Err("not at the start".into());
    };
    let state = state
        .send_seller("[1,\"x".trim_end_matches("\"x"))?
        .mark("asked")?;
    let place = state.place();
    let deeds = state.deeds().to_vec();
    drop((state, room));

    // the second one knows of the mark, and that the seller answers
    let room = open()?;
    let buyer::State::RecvSeller(state) = buyer::resume(&room)? else {
        return Err("not behind the mark".into());
    };
    assert_eq!(state.deeds(), deeds);
    assert_eq!(deeds[0].to_string(), "1 send seller \"[1,\"");
    assert_eq!(deeds[1].to_string(), "2 mark asked");
    room.with(|room| -> Result<(), cizhmolat::Error> {
        room.line("seller", "recv buyer item")?;
        room.line("seller", "send buyer -9223372036854775808")
            .map(|_| ())
    })?;
    let (price, state) = state.recv_seller()?;
    assert_eq!(price, i64::MIN);
    let state = state.choose_buy()?;
    drop((state, room));

    // the third one goes back to the place that the first one had
    let room = open()?;
    let buyer::State::RecvCourier1(state) = buyer::resume(&room)? else {
        return Err("not in the branch".into());
    };
    assert_eq!(state.kept_seller(), i64::MIN);
    let state = state.back_to(place)?;
    assert_eq!(state.deeds(), deeds);
    let (price, _) = state.recv_seller()?;
    assert_eq!(Value::Int(price), Value::Int(i64::MIN));

    // a role that the protocol has, and that does something else there; and one that it doesn't have
    let other = "roles reader store ; store -> reader : text . end";
    let lost = store::resume(&Shared::new(Room::open(other)?, Duration::ZERO)).unwrap_err();
    assert!(matches!(lost, Lost::OtherProtocol(_)), "{lost}");
    let lost = store::resume(&room).unwrap_err();
    assert_eq!(
        lost.to_string(),
        "refused: the room has no role of that name"
    );
    fs::remove_dir_all(&folder)?;
    Ok(())
}
