// SPDX-License-Identifier: MIT OR Apache-2.0
//! order: three roles in one thread. The carrier commits, and marks what it did for the commit.

use std::error::Error;
use std::time::Duration;

use cizhmolat::states::{Shared, Standing, Stopped};
use cizhmolat::{Refusal, Room};
use modules::{order_buyer as buyer, order_carrier as carrier, order_seller as seller};

fn main() -> Result<(), Box<dyn Error>> {
    let room = Shared::new(Room::open(buyer::PROTOCOL)?, Duration::ZERO);
    let buyer::State::SendSeller1(buying) = buyer::resume(&room)? else {
        return Err("not at the start".into());
    };
    let seller::State::RecvBuyer1(selling) = seller::resume(&room)? else {
        return Err("not at the start".into());
    };
    let carrier::State::RecvSeller(carrying) = carrier::resume(&room)? else {
        return Err("not at the start".into());
    };

    // a text that no line can have is refused, and nothing is lost
    let Err(Stopped::Refused { state, why }) = buying.send_seller("a \"lamp\"") else {
        return Err("a quote in a text".into());
    };
    assert_eq!(why, Refusal::Line);
    let buying = state.send_seller("a lamp")?.send_seller(-20)?;
    let (item, selling) = selling.recv_buyer()?;
    let (price, selling) = selling.recv_buyer()?;
    assert_eq!((&*item, price), ("a lamp", -20));
    assert_eq!(
        (selling.kept_buyer(), selling.kept_buyer_2()),
        ("a lamp", -20)
    );
    let start = selling.deeds()[0]
        .place::<seller::RecvBuyer1>()
        .expect("the first place");
    assert!(selling.deeds()[0].place::<seller::SendCarrier>().is_none());
    let sold = selling.send_carrier(&item)?;

    let (item, carrying) = carrying.recv_seller()?;
    let carrying = carrying.mark("asked")?;
    let carrying = carrying.commit()?;
    let due: Vec<_> = carrying.due().iter().map(|it| it.number).collect();
    assert_eq!(due, [8]);
    let carrying = carrying.mark("packed")?;
    assert!(carrying.due().is_empty());

    // what the commit depends on is final for the seller too
    let Err(Stopped::Refused { state: sold, why }) = sold.back_to(start) else {
        return Err("a final step".into());
    };
    assert_eq!(why, Refusal::Final(8));
    let _: seller::End = sold.check()?;

    let carried = carrying.send_buyer(&format!("{item}, delivered"))?;
    let (note, bought) = buying.recv_carrier()?;
    assert_eq!(
        (&*note, bought.kept_carrier()),
        ("a lamp, delivered", "a lamp, delivered")
    );
    let carried = carried.commit()?;
    assert_eq!(carried.due().len(), 1);
    Ok(())
}
