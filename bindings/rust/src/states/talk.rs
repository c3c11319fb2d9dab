// SPDX-License-Identifier: MIT OR Apache-2.0
//! A role's conversation with a room, and where it stands in a session that is shown.

use std::fmt;
use std::time::{Duration, Instant};

use super::{
    at, newest, Act, Deed, FromValue, Got, Key, Lost, Part, Place, Shared, Standing, States,
    Stopped,
};
use crate::{Answer, Error, Refusal, Room, Value};

/// A role's conversation. A state owns it, so there is one state at a time.
#[doc(hidden)]
pub struct Talk {
    room: Shared,
    part: &'static Part,
    place: u16,
    // how many entries of the journal it heard of
    entries: u64,
    // the steps that survive, as far as it heard
    deeds: Vec<Deed>,
}

/// Why a command gave nothing; the conversation stands where the role does, unless it is lost.
enum Halt {
    TakenBack(Vec<Deed>),
    Refused(Refusal),
    Lost(Lost),
}

impl From<Error> for Halt {
    fn from(error: Error) -> Halt {
        match error {
            Error::Refused(why) if why != Refusal::Journal => Halt::Refused(why),
            other => Halt::Lost(Lost::Room(other)),
        }
    }
}

impl Talk {
    /// The place of the state in which the role stands.
    pub fn place(&self) -> u16 {
        self.place
    }

    /// The state in which the role stands, which is one of this struct.
    pub fn at<N: Standing>(self) -> N {
        at(self)
    }

    /// Sends a value.
    pub fn send<S: Standing, N: Standing>(self, value: Value) -> Result<N, Stopped<S, S::Input>> {
        let command = format!("{} {value}", self.act().head);
        self.run(&command, |_| Some(N::PLACE), at)
    }

    /// Chooses a branch.
    pub fn choose<S: Standing, N: Standing>(self, label: &str) -> Result<N, Stopped<S, S::Input>> {
        let command = format!("{} {label}", self.act().head);
        self.run(&command, |_| Some(N::PLACE), at)
    }

    /// Receives a value.
    pub fn recv<S, N, V>(self) -> Result<(V, N), Stopped<S, S::Input>>
    where
        S: Standing,
        N: Standing,
        V: for<'v> FromValue<'v>,
    {
        let command = format!("{} {}", self.act().head, self.act().slot);
        let read = |got: Option<&Got>| match got {
            Some(Got::Value(value)) => V::from_value(value),
            _ => None,
        };
        self.run(
            &command,
            |got| read(got).map(|_| N::PLACE),
            |talk| {
                let got = talk.deeds.last().and_then(|it| it.got.as_ref());
                (read(got).expect("the step has such a value"), at(talk))
            },
        )
    }

    /// Takes a label, of which the other function makes what is picked.
    pub fn pick<S: Standing, P>(self, of: fn(&str, Talk) -> P) -> Result<P, Stopped<S, S::Input>> {
        let act = self.act();
        let after = |got: Option<&Got>| match got {
            Some(Got::Label(label)) => act.after(label),
            _ => None,
        };
        self.run(act.head, after, |talk| {
            let Some(Got::Label(label)) = talk.deeds.last().and_then(|it| it.got.clone()) else {
                unreachable!("the step has a label")
            };
            of(&label, talk)
        })
    }

    /// The newest value in a slot that has one.
    pub fn kept<'v, V: FromValue<'v>>(&'v self, slot: &str) -> V {
        let value = self.kept_if_any(slot);
        value.expect("the slot has a value in this state")
    }

    /// The newest value in a slot.
    pub fn kept_if_any<'v, V: FromValue<'v>>(&'v self, slot: &str) -> Option<V> {
        let values = self.deeds.iter().rev().filter_map(|it| match &it.got {
            Some(Got::Value(value)) => Some((self.part.acts[usize::from(it.place)].slot, value)),
            _ => None,
        });
        let mut of_slot = values.filter(|it| it.0 == slot);
        of_slot.next().and_then(|it| V::from_value(it.1))
    }

    pub(super) fn deeds(&self) -> &[Deed] {
        &self.deeds
    }

    /// Runs a command that moves nothing.
    pub(super) fn stay<S: Standing>(self, command: &str) -> Result<S, Stopped<S, S::Input>> {
        self.run(command, |_| Some(S::PLACE), at)
    }

    /// Waits so long for steps that others take back.
    pub(super) fn watch<S: Standing>(mut self, time: Duration) -> Result<S, Stopped<S, S::Input>> {
        match self.listen(time) {
            Ok(()) => Ok(at(self)),
            Err(halt) => Err(self.stopped(halt)),
        }
    }

    /// Goes back to a place that is behind.
    pub(super) fn back_to<S, P>(mut self, place: Place<P>) -> Result<P, Stopped<S, S::Input>>
    where
        S: Standing,
        P: Standing,
    {
        match self.roll_back(place.before, P::PLACE) {
            Ok(()) => Ok(at(self)),
            Err(halt) => Err(self.stopped(halt)),
        }
    }

    fn act(&self) -> &'static Act {
        &self.part.acts[usize::from(self.place)]
    }

    /// Runs a command. `after` gives the place to which it leads with what it got, and `then` what is made of that.
    fn run<S: Standing, T>(
        mut self,
        command: &str,
        after: impl FnOnce(Option<&Got>) -> Option<u16>,
        then: impl FnOnce(Talk) -> T,
    ) -> Result<T, Stopped<S, S::Input>> {
        match self.step(command, after) {
            Ok(()) => Ok(then(self)),
            Err(halt) => Err(self.stopped(halt)),
        }
    }

    fn step(
        &mut self,
        command: &str,
        after: impl FnOnce(Option<&Got>) -> Option<u16>,
    ) -> Result<(), Halt> {
        let (number, got) = match self.tell(command)? {
            Answer::Done(number) => (number, None),
            Answer::Received(number, value) => (number, Some(Got::Value(value))),
            Answer::Picked(number, label) => (number, Some(Got::Label(label))),
            other => return Err(Error::Unknown(format!("{other:?}")).into()),
        };
        let Some(place) = after(got.as_ref()) else {
            let got = got.map_or(String::new(), |it| it.to_string());
            let other = format!("step {number} {command} got {got}");
            return Err(Halt::Lost(Lost::OtherProtocol(other)));
        };
        self.push(number, command.to_owned(), got, place);
        Ok(())
    }

    /// Goes on to a place by a step.
    fn push(&mut self, number: u64, command: String, got: Option<Got>, place: u16) {
        self.deeds.push(Deed {
            number,
            command,
            got,
            place: self.place,
            before: newest(&self.deeds),
        });
        self.place = place;
    }

    /// Goes back to where the step of that index was done, and gives the steps from there on.
    fn cut(&mut self, index: usize) -> Vec<Deed> {
        let cut = self.deeds.split_off(index);
        self.place = cut.first().map_or(self.place, |it| it.place);
        cut
    }

    /// The answer to a command, if nothing is gone. It waits where a message has to come first.
    fn tell(&mut self, command: &str) -> Result<Answer, Halt> {
        let (shared, begin) = (self.room.clone(), Instant::now());
        let mut room = shared.lock();
        loop {
            self.hear(&mut room)?;
            let answer = room.line(self.part.role, command);
            let rest = shared.0.patience.saturating_sub(begin.elapsed());
            if answer != Err(Error::Refused(Refusal::NothingQueued)) || rest.is_zero() {
                shared.0.changed.notify_all();
                return Ok(answer?);
            }
            room = shared.wait(room, rest);
        }
    }

    fn listen(&mut self, time: Duration) -> Result<(), Halt> {
        let (shared, begin) = (self.room.clone(), Instant::now());
        let mut room = shared.lock();
        loop {
            self.hear(&mut room)?;
            let rest = time.saturating_sub(begin.elapsed());
            if rest.is_zero() {
                return Ok(());
            }
            room = shared.wait(room, rest);
        }
    }

    /// Asks which steps others took back, and stops where the program knows one of them.
    fn hear(&mut self, room: &mut Room) -> Result<(), Halt> {
        let answer = room.line(self.part.role, format!("news {}", self.entries))?;
        let Answer::News { entries, gone } = answer else {
            return Err(Error::Unknown(format!("{answer:?}")).into());
        };
        self.entries = entries;
        let index = |number| self.deeds.binary_search_by_key(number, |it| it.number).ok();
        match gone.iter().filter_map(index).min() {
            Some(first) => Err(Halt::TakenBack(self.cut(first))),
            None => Ok(()),
        }
    }

    /// Goes back to the place after that step, if it is behind and the state there is the one of that place.
    fn roll_back(&mut self, before: u64, place: u16) -> Result<(), Halt> {
        self.listen(Duration::ZERO)?;
        let index = self.deeds.partition_point(|it| it.number <= before);
        let first = self.deeds.get(index);
        let is_behind = newest(&self.deeds[..index]) == before
            && first.map_or(self.place, |it| it.place) == place;
        if !is_behind {
            return Err(Halt::Refused(Refusal::NoStep));
        }
        if let Some(first) = first {
            let command = format!("rollback {}", first.number);
            self.tell(&command)?;
            self.cut(index);
        }
        Ok(())
    }

    fn stopped<S: Standing>(self, halt: Halt) -> Stopped<S, S::Input> {
        match halt {
            Halt::TakenBack(gone) => Stopped::TakenBack {
                state: S::input(self, Key(())),
                gone,
            },
            Halt::Refused(why) => Stopped::Refused {
                state: at(self),
                why,
            },
            Halt::Lost(lost) => Stopped::Lost(lost),
        }
    }

    /// Goes on by a step of the role that is shown in these words, if the state has it.
    fn follow(&mut self, words: &[&str]) -> Option<()> {
        let (number, value) = (words[0].parse().ok()?, words[words.len() - 1]);
        let spelled: Vec<_> = words[2..].iter().map(|it| bare(it)).collect();
        let head = spelled[..spelled.len().min(2)].join(" ");
        let (command, word, got) = match spelled[..] {
            ["mark", _] | ["commit"] => {
                self.push(number, head, None, self.place);
                return Some(());
            }
            ["send", _, _] => (format!("{head} {value}"), sort(value)?, None),
            ["choose", _, label] => (format!("{head} {label}"), label, None),
            ["recv", _, slot, _] => {
                let got = Got::Value(value.parse().ok()?);
                (format!("{head} {slot}"), sort(value)?, Some(got))
            }
            ["pick", _, label] => (head.clone(), label, Some(Got::Label(label.to_owned()))),
            _ => return None,
        };
        let act = self.act();
        let place = act.after(word).filter(|_| act.head == head)?;
        self.push(number, command, got, place);
        Some(())
    }
}

impl fmt::Debug for Talk {
    fn fmt(&self, f: &mut fmt::Formatter<'_>) -> fmt::Result {
        write!(f, "{} at `{}`", self.part.role, self.act())?;
        match self.deeds.last() {
            Some(deed) => write!(f, " after {deed}"),
            None => Ok(()),
        }
    }
}

// --- A program that starts ---

/// The state in which the role stands in the room's session.
#[doc(hidden)]
pub fn resume<S: States>(shared: &Shared) -> Result<S, Lost> {
    let part = S::PART;
    let mut room = shared.lock();
    let answer = room.line(part.role, "show")?;
    let expected = room.expects(part.role)?.map(|it| it.to_string());
    let mut talk = Talk {
        room: shared.clone(),
        part,
        place: 0,
        entries: room.entries(),
        deeds: Vec::new(),
    };
    drop(room);
    let steps = match &answer {
        Answer::Shown(shown) => steps(shown),
        _ => None,
    };
    let steps = steps.ok_or_else(|| Error::Unknown(format!("{answer:?}")))?;
    for step in steps.iter().filter(|it| bare(it[1]) == part.role) {
        let other = || Lost::OtherProtocol(format!("step {}", step.join(" ")));
        talk.follow(step).ok_or_else(other)?;
    }
    let expected = expected.unwrap_or_default();
    if expected != talk.act().to_string() {
        let other = format!("it expects `{expected}` of {}", part.role);
        return Err(Lost::OtherProtocol(other));
    }
    Ok(S::of(talk, Key(())))
}

/// A name or a text of a shown session, without its quotes.
fn bare(word: &str) -> &str {
    word.trim_matches('"')
}

/// The sort of a value.
fn sort(value: &str) -> Option<&'static str> {
    Some(match value.parse().ok()? {
        Value::Int(_) => "int",
        Value::Bool(_) => "bool",
        Value::Text(_) => "text",
    })
}

/// The steps of a shown session, each as its words: the number, the role, the kind, and what the kind has besides.
fn steps(shown: &str) -> Option<Vec<Vec<&str>>> {
    let mut rest = shown.strip_prefix("{\"history\":[")?;
    let mut steps = Vec::new();
    while let Some(inside) = rest.strip_prefix('[') {
        let (words, after) = words(inside)?;
        steps.push(words);
        rest = after.strip_prefix(',').unwrap_or(after);
    }
    let is_whole = rest.starts_with(']') && steps.iter().all(|it| it.len() > 2);
    is_whole.then_some(steps)
}

/// The words up to the bracket that ends a step, and what stands behind it.
fn words(mut rest: &str) -> Option<(Vec<&str>, &str)> {
    let mut words = Vec::new();
    loop {
        // no text has a quote in it
        let length = match rest.strip_prefix('"') {
            Some(inner) => inner.find('"')? + 2,
            None => rest.find([',', ']'])?,
        };
        words.push(&rest[..length]);
        rest = &rest[length..];
        match rest.strip_prefix(']') {
            Some(after) => return Some((words, after)),
            None => rest = rest.strip_prefix(',')?,
        }
    }
}
