// SPDX-License-Identifier: MIT OR Apache-2.0
//! taken SEED: one role by its states, while the others act at random before each of its acts, and take steps back. After each
//! act the state and its steps are those that the session shows.

use std::env;
use std::error::Error;
use std::time::Duration;

use cizhmolat::states::{Deed, Shared, Standing, Stopped};
use cizhmolat::{Answer, Expects, Refusal, Room, Sort, Value};
use modules::{
    auction_rounds_bob as bob, claim_client as client, two_phase_coordinator as coordinator,
};

/// Random numbers, by xorshift.
struct Dice(u64);

impl Dice {
    fn below(&mut self, limit: usize) -> usize {
        self.0 ^= self.0 << 13;
        self.0 ^= self.0 >> 7;
        self.0 ^= self.0 << 17;
        (self.0 >> 11) as usize % limit
    }
}

/// The others: their names, and the steps that they took.
struct Others {
    roles: Vec<&'static str>,
    steps: Vec<(&'static str, u64)>,
}

impl Others {
    /// One of them does something.
    fn act(&mut self, room: &mut Room, dice: &mut Dice) -> Result<(), Box<dyn Error>> {
        let role = self.roles[dice.below(self.roles.len())];
        let line = match room.expects(role)?.ok_or("no such role")? {
            Expects::Send {
                peer,
                sort: Sort::Int,
            } => format!("send {peer} {}", dice.below(100)),
            Expects::Send {
                peer,
                sort: Sort::Bool,
            } => format!("send {peer} true"),
            Expects::Send {
                peer,
                sort: Sort::Text,
            } => format!("send {peer} \"], [\""),
            Expects::Receive { peer, .. } => format!("recv {peer} it"),
            Expects::Choose { peer, labels } => {
                format!("choose {peer} {}", labels[dice.below(labels.len())])
            }
            Expects::Pick { peer, .. } => format!("pick {peer}"),
            Expects::End => "mark over".to_owned(),
        };
        let taken_back = self.steps[..].get(dice.below(self.steps.len() + 1));
        let (role, line) = match taken_back {
            Some((role, step)) if dice.below(5) == 0 => (*role, format!("rollback {step}")),
            _ => (role, line),
        };
        match room.line(role, line) {
            Ok(Answer::Done(step) | Answer::Received(step, _) | Answer::Picked(step, _)) => {
                self.steps.push((role, step));
            }
            Ok(Answer::Undone(gone)) => self.steps.retain(|it| !gone.contains(&it.1)),
            _ => {} // refused: nothing is there to take
        }
        Ok(())
    }
}

/// A role's states, as the walk needs them.
trait Walk: Sized + std::fmt::Debug {
    const PROTOCOL: &'static str;
    const FULL: bool;
    const ROLE: &'static str;
    const OTHERS: &'static [&'static str];
    fn resume(room: &Shared) -> Self;
    fn act(self, dice: &mut Dice) -> Result<Self, Stopped<Self, Self>>;
    fn deeds(&self) -> Vec<Deed>;
    fn kept(&self) -> Option<(&'static str, Value)>;
}

/// The state after an act, as one of all.
macro_rules! next {
    ($told:expr) => {
        $told.map(Self::from).map_err(Stopped::any)
    };
}

/// The state after a receipt.
macro_rules! received {
    ($told:expr) => {
        $told.map(|it| it.1.into()).map_err(Stopped::any)
    };
}

macro_rules! walk {
    ($module:ident, $others:expr, $home:ident, $dice:ident, [$($state:ident => $act:expr),*], $kept:expr) => {
        impl Walk for $module::State {
            const PROTOCOL: &'static str = $module::PROTOCOL;
            const FULL: bool = $module::FULL_MERGING;
            const ROLE: &'static str = stringify!($module);
            const OTHERS: &'static [&'static str] = &$others;

            fn resume(room: &Shared) -> Self {
                $module::resume(room).expect("a state")
            }

            fn act(self, $dice: &mut Dice) -> Result<Self, Stopped<Self, Self>> {
                match self {
                    $($module::State::$state(it) => {
                        let count = it.deeds().len();
                        let place = it.deeds().get($dice.below(count + 1)).and_then(Deed::place);
                        match ($dice.below(50), place) {
                            (0..5, _) => next!(it.mark("m")),
                            (5, _) => next!(it.commit()),
                            (6..12, Some(place)) => next!(it.back_to::<$module::$home>(place)),
                            _ => $act(it),
                        }
                    })*
                }
            }

            fn deeds(&self) -> Vec<Deed> {
                match self {
                    $($module::State::$state(it) => it.deeds().to_vec(),)*
                }
            }

            fn kept(&self) -> Option<(&'static str, Value)> {
                $kept(self)
            }
        }
    };
}

walk!(bob, ["seller", "alice"], RecvSeller, dice, [
    PickSeller => |it: bob::PickSeller| it.pick_seller().map_err(Stopped::any).map(|it| match it {
        bob::PickedSeller::Bid(state) => state.into(),
        bob::PickedSeller::Sold(state) => state.into(),
    }),
    RecvSeller => |it: bob::RecvSeller| received!(it.recv_seller()),
    ChooseSeller => |it: bob::ChooseSeller| match dice.below(4) {
        0 => next!(it.choose_pass()),
        _ => next!(it.choose_bid()),
    },
    SendSeller1 => |it: bob::SendSeller1| {
        let bid = it.kept_seller();
        next!(it.send_seller(bid))
    },
    SendSeller2 => |it: bob::SendSeller2| next!(it.send_seller("bob's street")),
    End => |it: bob::End| next!(it.check())
], |state: &bob::State| match state {
    bob::State::SendSeller1(it) => Some(("seller", Value::Int(it.kept_seller()))),
    bob::State::PickSeller(it) => it.kept_seller().map(|it| ("seller", Value::Int(it))),
    _ => None,
});

walk!(client, ["insurer", "assessor", "bank", "archive"], PickInsurer, dice, [
    SendInsurer1 => |it: client::SendInsurer1| next!(it.send_insurer("a roof")),
    PickInsurer => |it: client::PickInsurer| it.pick_insurer().map_err(Stopped::any).map(|it| match it {
        client::PickedInsurer::More(state) => state.into(),
        client::PickedInsurer::Pay(state) => state.into(),
        client::PickedInsurer::Reject(state) => state.into(),
    }),
    SendInsurer2 => |it: client::SendInsurer2| next!(it.send_insurer("a picture of it")),
    RecvBank => |it: client::RecvBank| received!(it.recv_bank()),
    RecvInsurer => |it: client::RecvInsurer| received!(it.recv_insurer()),
    End => |it: client::End| next!(it.check())
], |state: &client::State| match state {
    client::State::End(it) => it.kept_insurer().map(|it| ("insurer", Value::Text(it.into()))),
    _ => None,
});

walk!(coordinator, ["first", "second"], SendSecond, dice, [
    SendFirst => |it: coordinator::SendFirst| next!(it.send_first("a row")),
    SendSecond => |it: coordinator::SendSecond| next!(it.send_second("a row")),
    RecvFirst => |it: coordinator::RecvFirst| received!(it.recv_first()),
    RecvSecond => |it: coordinator::RecvSecond| received!(it.recv_second()),
    ChooseFirst => |it: coordinator::ChooseFirst| match it.kept_first() && it.kept_second() {
        true => next!(it.choose_commit()),
        false => next!(it.choose_abort()),
    },
    ChooseSecond1 => |it: coordinator::ChooseSecond1| next!(it.choose_commit()),
    ChooseSecond2 => |it: coordinator::ChooseSecond2| next!(it.choose_abort()),
    End => |it: coordinator::End| next!(it.check())
], |state: &coordinator::State| match state {
    coordinator::State::ChooseFirst(it) => Some(("first", Value::Bool(it.kept_first()))),
    _ => None,
});

/// So many acts of a role; how many went on, found that steps were taken back, and went back themselves.
fn walk<S: Walk>(dice: &mut Dice, acts: usize) -> Result<[usize; 3], Box<dyn Error>> {
    let room = if S::FULL {
        Room::open_full(S::PROTOCOL)?
    } else {
        Room::open(S::PROTOCOL)?
    };
    let room = Shared::new(room, Duration::ZERO);
    let mut others = Others {
        roles: S::OTHERS.to_vec(),
        steps: Vec::new(),
    };
    let (mut state, mut done) = (S::resume(&room), [0; 3]);
    for _ in 0..acts {
        for _ in 0..dice.below(8) {
            room.with(|room| others.act(room, dice))?;
        }
        let before = state.deeds();
        state = match state.act(dice) {
            Ok(state) => {
                done[0] += 1;
                let (deeds, is_back) = (state.deeds(), state.deeds().len() <= before.len());
                assert!(if is_back {
                    before.starts_with(&deeds)
                } else {
                    deeds.starts_with(&before)
                });
                done[2] += usize::from(deeds.len() < before.len());
                state
            }
            Err(Stopped::TakenBack { state, gone }) => {
                done[1] += 1;
                assert_eq!([state.deeds(), gone].concat(), before, "{state:?}");
                state
            }
            Err(Stopped::Refused { state, why }) => {
                let is_final = matches!(why, Refusal::Final(_));
                assert!(is_final || why == Refusal::NothingQueued, "{state:?} {why}");
                assert_eq!(state.deeds(), before);
                state
            }
            Err(Stopped::Lost(lost)) => return Err(lost.into()),
        };
        let shown = S::resume(&room);
        assert_eq!(format!("{state:?}"), format!("{shown:?}"));
        assert_eq!(state.deeds(), shown.deeds());
        if let Some((slot, value)) = state.kept() {
            let kept = room.with(|room| room.slot(S::ROLE, slot))?;
            assert_eq!(kept, Some(value), "{state:?}");
        }
    }
    Ok(done)
}

fn main() -> Result<(), Box<dyn Error>> {
    let seed: u64 = env::args().nth(1).ok_or("usage: taken SEED")?.parse()?;
    let mut dice = Dice(seed * 2 + 0x9e37_79b9_7f4a_7c15);
    let mut counts = [0; 3];
    for _ in 0..100 {
        for done in [
            walk::<bob::State>(&mut dice, 40)?,
            walk::<client::State>(&mut dice, 40)?,
            walk::<coordinator::State>(&mut dice, 40)?,
        ] {
            counts = [0, 1, 2].map(|at| counts[at] + done[at]);
        }
    }
    println!("{} {} {}", counts[0], counts[1], counts[2]);
    Ok(())
}
