// SPDX-License-Identifier: MIT OR Apache-2.0
//! engine FOLDER: runs 1,000 orders to their ends, each a session of workflow.protocol with a file
//! FOLDER/K.journal. However it ends, also by kill -9, the next start goes on where each file left
//! its order. A room is open only while its order takes steps, so any number may be under way.
use cizhmolat::{Expects::*, FileOptions, Room, Sort::Int, Value};
use std::{collections::VecDeque, env, error::Error, fs, path::Path};

const PROTOCOL: &str = include_str!("workflow.protocol");
const ORDERS: std::ops::RangeInclusive<u64> = 1..=1000;

/// What the role does next, if its part hasn't ended. Here an engine calls its services: once more
/// where it was ended before the line was accepted, so they take order, role and number as a key.
fn line(order: u64, room: &Room, role: &str) -> Result<Option<String>, Box<dyn Error>> {
    let entries = (0..room.entries()).filter_map(|k| room.entry(k).transpose());
    let journal = entries.collect::<Result<Vec<_>, _>>()?;
    let is_paid = journal.iter().any(|it| it == "bank choose store paid");
    let is_own = |it: &&String| it.split(' ').next() == Some(role);
    let number = journal.iter().filter(is_own).count() + 1; // given twice, a line counts once
    let command = match (role, room.expects(role)?.ok_or("no such role")?) {
        (_, End) => return Ok(None),
        (_, Pick { peer, .. }) => format!("pick {peer}"),
        ("bank", Receive { peer, .. }) => format!("recv {peer} price"),
        ("store", Receive { peer, .. }) => format!("recv {peer} item"),
        (_, Receive { peer, .. }) => format!("recv {peer} outcome"),
        (_, Choose { peer, .. }) => match room.slot(role, "price")? {
            Some(Value::Int(price)) if price <= 900 => format!("choose {peer} paid"),
            _ => format!("choose {peer} declined"),
        },
        ("client", Send { peer, .. }) => format!("send {peer} \"lamp {order}\""),
        (_, Send { peer, sort: Int }) => format!("send {peer} {order}"),
        (_, Send { peer, .. }) if is_paid => format!("send {peer} \"shipped\""),
        (_, Send { peer, .. }) => format!("send {peer} \"cancelled\""),
    };
    Ok(Some(format!("{number} {command}")))
}

fn main() -> Result<(), Box<dyn Error>> {
    let folder = env::args_os().nth(1).ok_or("usage: engine FOLDER")?;
    fs::create_dir_all(&folder)?;
    let mut left = VecDeque::from_iter(ORDERS);
    while let Some(order) = left.pop_front() {
        let file = Path::new(&folder).join(format!("{order}.journal"));
        // with sync(true) it outlives the machine too
        let mut room = FileOptions::new().session(order).open(PROTOCOL, file)?;
        let mut is_over = true;
        for role in ["client", "store", "bank"] {
            if let Some(line) = line(order, &room, role)? {
                is_over = false;
                if room.would(role, &line)?.is_ok() {
                    room.line(role, line)?; // else it waits for a message
                }
            }
        }
        if !is_over {
            left.push_back(order);
        }
    }
    println!("{} orders have ended", ORDERS.count());
    Ok(())
}
