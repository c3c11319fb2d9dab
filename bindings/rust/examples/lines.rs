// SPDX-License-Identifier: MIT OR Apache-2.0
//! What a line of a room costs: prints the nanoseconds of an accepted line, of a refused one, and of an accepted one whose answer
//! is read, each the least of forty rounds.

use std::time::Instant;

use cizhmolat::Room;

const LINES: u32 = 40_000;

/// The least time of a line, of rounds that each begin with a new room.
fn measured(lines: impl Fn(&mut Room)) -> u128 {
    let round = |_| {
        let mut room = Room::open("roles a b c ; rec X . a -> b : int . X").expect("a room");
        let began = Instant::now();
        lines(&mut room);
        began.elapsed().as_nanos() / u128::from(LINES)
    };
    (0..40).map(round).min().expect("a round")
}

fn main() {
    let accepted = measured(|room| {
        for _ in 0..LINES / 2 {
            assert!(room.ask("a", "send b 123456").is_ok());
            assert!(room.ask("b", "recv a x").is_ok());
        }
        assert_eq!(room.entries(), u64::from(LINES));
    });
    let refused = measured(|room| {
        for _ in 0..LINES {
            assert_eq!(room.ask("a", "send c 123456"), Ok("refused wrongpeer"));
        }
    });
    let read = measured(|room| {
        for _ in 0..LINES / 2 {
            assert!(room.line("a", "send b 123456").is_ok());
            assert!(room.line("b", "recv a x").is_ok());
        }
    });
    println!("{accepted}\n{refused}\n{read}");
}
