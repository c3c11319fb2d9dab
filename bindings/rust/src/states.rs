// SPDX-License-Identifier: MIT OR Apache-2.0
//! What the modules share that `./mps api rust` writes: a struct for each state of a role, and for each act of a state a method,
//! which uses the state up and gives the next one.
//!
//! So rustc refuses a second use of a state, an act that the protocol doesn't have there, and a `match` that leaves out a label.
//! `docs/STATES.md` in the repository of Cizhmolat says how such a module is used. What every state can do is in [`Standing`].
//!
//! # What others take back
//!
//! Others can take back steps of the role at any time. A step depends on nothing but its role's step before it, and, if it is a
//! receipt or a pick, on what it took. So what others take back of a role are its steps from a receipt or a pick on, up to the
//! newest: the role then stands at that receipt or pick. Each method first asks the room, under one lock with its command,
//! whether steps are gone that the program knows of. Where they are, nothing is run, and [`Stopped::TakenBack`] has the state in
//! which the role stands.
//!
//! This holds as long as one state of a role is in use at a time. A second one, which a second call of `resume` would give, is
//! the caller's fault: then an act may be refused that its state has. The session is right all the same, as the room checks each
//! command.

mod talk;

use std::error::Error as StdError;
use std::fmt;
use std::marker::PhantomData;
use std::sync::{Arc, Condvar, Mutex, MutexGuard, PoisonError};
use std::time::Duration;

#[doc(hidden)]
pub use talk::{resume, Talk};

use crate::{Error, Refusal, Room, Value};

// --- The room ---

/// A room that the states of its roles share. Clones are of the same room.
#[derive(Clone)]
pub struct Shared(Arc<Inner>);

struct Inner {
    room: Mutex<Room>,
    changed: Condvar,
    patience: Duration,
}

impl Shared {
    /// Shares the room. A receipt or a pick waits so long at most for its message; without one it is then refused by
    /// [`Refusal::NothingQueued`], with [`Duration::ZERO`] at once.
    pub fn new(room: Room, patience: Duration) -> Shared {
        Shared(Arc::new(Inner {
            room: Mutex::new(room),
            changed: Condvar::new(),
            patience,
        }))
    }

    /// Does something with the room, such as lines of roles that aren't played by states, and wakes the states that wait. No state
    /// of the room may be used meanwhile by the same thread.
    pub fn with<T>(&self, act: impl FnOnce(&mut Room) -> T) -> T {
        let done = act(&mut self.lock());
        self.0.changed.notify_all();
        done
    }

    /// The room, which is whole after each line, also where a thread panicked that had it.
    fn lock(&self) -> MutexGuard<'_, Room> {
        self.0.room.lock().unwrap_or_else(PoisonError::into_inner)
    }

    /// Lets others have the room until one of them changes it, for so long at most.
    fn wait<'a>(&self, room: MutexGuard<'a, Room>, rest: Duration) -> MutexGuard<'a, Room> {
        let waited = self.0.changed.wait_timeout(room, rest);
        waited.unwrap_or_else(PoisonError::into_inner).0
    }
}

impl fmt::Debug for Shared {
    fn fmt(&self, f: &mut fmt::Formatter<'_>) -> fmt::Result {
        f.debug_struct("Shared").finish_non_exhaustive()
    }
}

// --- Steps and places ---

/// A step of the role.
#[derive(Clone, Debug, PartialEq, Eq)]
pub struct Deed {
    /// Its number.
    pub number: u64,
    /// Its command, as a line spells it, such as `send bob 5`.
    pub command: String,
    /// What a receipt or a pick took.
    pub got: Option<Got>,
    // where it was done: the state, and the role's step before
    place: u16,
    before: u64,
}

/// What a receipt or a pick took.
#[derive(Clone, Debug, PartialEq, Eq)]
pub enum Got {
    /// The value of a message.
    Value(Value),
    /// The label of a choice.
    Label(String),
}

impl Deed {
    /// The place where the step was done, if that was in the state `S`.
    pub fn place<S: Standing>(&self) -> Option<Place<S>> {
        (self.place == S::PLACE).then(|| Place::after(self.before))
    }

    fn is_mark(&self) -> bool {
        self.command.starts_with("mark ")
    }

    fn is_commit(&self) -> bool {
        self.command == "commit"
    }
}

impl fmt::Display for Deed {
    fn fmt(&self, f: &mut fmt::Formatter<'_>) -> fmt::Result {
        write!(f, "{} {}", self.number, self.command)
    }
}

impl fmt::Display for Got {
    /// Writes it as an answer spells it.
    fn fmt(&self, f: &mut fmt::Formatter<'_>) -> fmt::Result {
        match self {
            Got::Value(value) => value.fmt(f),
            Got::Label(label) => f.write_str(label),
        }
    }
}

/// A place in what the role did, at which it stood in the state `S`. [`Standing::back_to`] goes back there.
pub struct Place<S> {
    // the number of the role's step before, or 0
    before: u64,
    state: PhantomData<fn() -> S>,
}

impl<S> Place<S> {
    fn after(before: u64) -> Place<S> {
        Place {
            before,
            state: PhantomData,
        }
    }
}

impl<S> Clone for Place<S> {
    fn clone(&self) -> Place<S> {
        *self
    }
}

impl<S> Copy for Place<S> {}

impl<S> fmt::Debug for Place<S> {
    fn fmt(&self, f: &mut fmt::Formatter<'_>) -> fmt::Result {
        write!(f, "Place(after step {})", self.before)
    }
}

// --- What gives no next state ---

/// Why a method of the state `S` gives no next state. `I` is the `Input` of its module.
#[derive(Debug)]
pub enum Stopped<S, I> {
    /// Others took back steps of the role, and nothing was run.
    TakenBack {
        /// The state in which the role stands now.
        state: I,
        /// The steps, the oldest first.
        gone: Vec<Deed>,
    },
    /// The command was refused, and nothing has changed.
    Refused {
        /// The state, as it was.
        state: S,
        /// Why.
        why: Refusal,
    },
    /// The state is lost: `resume` gives the one in which the role stands.
    Lost(Lost),
}

/// Why there is no state.
#[derive(Clone, Debug, PartialEq, Eq)]
pub enum Lost {
    /// The room gives no answer, or its file can't be written. The command may have been run.
    Room(Error),
    /// The session isn't one of the module's protocol: this is what its states don't have there.
    OtherProtocol(String),
}

impl<S, I> Stopped<S, I> {
    /// The same, with the state as one of all states of the role.
    pub fn any<T: From<S> + From<I>>(self) -> Stopped<T, T> {
        match self {
            Stopped::TakenBack { state, gone } => Stopped::TakenBack {
                state: state.into(),
                gone,
            },
            Stopped::Refused { state, why } => Stopped::Refused {
                state: state.into(),
                why,
            },
            Stopped::Lost(lost) => Stopped::Lost(lost),
        }
    }
}

impl<S, I> fmt::Display for Stopped<S, I> {
    fn fmt(&self, f: &mut fmt::Formatter<'_>) -> fmt::Result {
        match self {
            Stopped::TakenBack { gone, .. } => {
                let steps: Vec<_> = gone.iter().map(Deed::to_string).collect();
                write!(f, "others took back {}", steps.join(", "))
            }
            Stopped::Refused { why, .. } => write!(f, "refused: {why}"),
            Stopped::Lost(lost) => lost.fmt(f),
        }
    }
}

impl<S: fmt::Debug, I: fmt::Debug> StdError for Stopped<S, I> {}

impl fmt::Display for Lost {
    fn fmt(&self, f: &mut fmt::Formatter<'_>) -> fmt::Result {
        match self {
            Lost::Room(error) => error.fmt(f),
            Lost::OtherProtocol(what) => write!(f, "the session is of another protocol: {what}"),
        }
    }
}

impl StdError for Lost {}

impl From<Error> for Lost {
    fn from(error: Error) -> Lost {
        Lost::Room(error)
    }
}

// --- States ---

/// A state in which a role stands, and what can be done in each.
pub trait Standing: Sized {
    /// The states in which others may leave the role.
    type Input;

    #[doc(hidden)]
    const PLACE: u16;
    #[doc(hidden)]
    fn of(talk: Talk, key: Key) -> Self;
    #[doc(hidden)]
    fn into_talk(self, key: Key) -> Talk;
    #[doc(hidden)]
    fn talk(&self, key: Key) -> &Talk;
    #[doc(hidden)]
    fn input(talk: Talk, key: Key) -> Self::Input;

    /// Leaves a mark of that name, by which a program that is started again knows how far it came.
    fn mark(self, name: &str) -> Result<Self, Stopped<Self, Self::Input>> {
        self.into_talk(Key(())).stay(&format!("mark {name}"))
    }

    /// Makes final what the role did: nobody takes it back any more, nor what it depends on.
    fn commit(self) -> Result<Self, Stopped<Self, Self::Input>> {
        self.into_talk(Key(())).stay("commit")
    }

    /// Changes nothing, and stops where others took back steps of the role.
    fn check(self) -> Result<Self, Stopped<Self, Self::Input>> {
        self.watch(Duration::ZERO)
    }

    /// Waits so long, and stops before that where others take back steps of the role.
    fn watch(self, time: Duration) -> Result<Self, Stopped<Self, Self::Input>> {
        self.into_talk(Key(())).watch(time)
    }

    /// The place at which the role stands, to go back to.
    fn place(&self) -> Place<Self> {
        Place::after(newest(self.deeds()))
    }

    /// Goes back to an earlier place, by a rollback of the role's first step after it, with all that depends on that. It is
    /// refused by [`Refusal::NoStep`] where the place isn't behind the state.
    fn back_to<P>(self, place: Place<P>) -> Result<P, Stopped<Self, Self::Input>>
    where
        P: Standing<Input = Self::Input>,
    {
        self.into_talk(Key(())).back_to(place)
    }

    /// The role's steps that survive, as far as the program heard, in order.
    fn deeds(&self) -> &[Deed] {
        self.talk(Key(())).deeds()
    }

    /// Whether a commit came after all that the role did by the protocol, so that nobody takes it back any more.
    fn is_final(&self) -> bool {
        let mut newest = self.deeds().iter().rev().filter(|it| !it.is_mark());
        newest.next().is_some_and(Deed::is_commit)
    }

    /// The commits since the role's last mark: what was to be done after them may not have been done.
    fn due(&self) -> Vec<&Deed> {
        let mut since = self.deeds();
        if let Some(mark) = since.iter().rposition(Deed::is_mark) {
            since = &since[mark + 1..];
        }
        since.iter().filter(|it| it.is_commit()).collect()
    }
}

/// All states of a role.
#[doc(hidden)]
pub trait States: Sized {
    const PART: &'static Part;
    fn of(talk: Talk, key: Key) -> Self;
}

/// Without it nobody takes a state apart, or makes one. Only this file makes it.
#[doc(hidden)]
pub struct Key(());

/// The role's part in the protocol: its states, the first first.
#[doc(hidden)]
#[derive(Debug)]
pub struct Part {
    pub role: &'static str,
    pub acts: &'static [Act],
}

/// What a state allows.
#[doc(hidden)]
#[derive(Debug)]
pub struct Act {
    /// The act and the peer, such as `send bob`.
    pub head: &'static str,
    /// For the sort or each label the place of the state that follows.
    pub then: &'static [(&'static str, u16)],
    /// The slot of what is received.
    pub slot: &'static str,
}

impl Act {
    /// The place of the state that follows the sort or label.
    fn after(&self, word: &str) -> Option<u16> {
        let found = self.then.iter().find(|it| it.0 == word);
        found.map(|it| it.1)
    }
}

impl fmt::Display for Act {
    /// Writes it as a room says what it expects.
    fn fmt(&self, f: &mut fmt::Formatter<'_>) -> fmt::Result {
        f.write_str(self.head)?;
        let mut words = self.then.iter();
        words.try_for_each(|it| write!(f, " {}", it.0))
    }
}

/// A value as Rust has it.
#[doc(hidden)]
pub trait FromValue<'v>: Sized {
    fn from_value(value: &'v Value) -> Option<Self>;
}

impl FromValue<'_> for i64 {
    fn from_value(value: &Value) -> Option<i64> {
        match value {
            Value::Int(number) => Some(*number),
            _ => None,
        }
    }
}

impl FromValue<'_> for bool {
    fn from_value(value: &Value) -> Option<bool> {
        match value {
            Value::Bool(truth) => Some(*truth),
            _ => None,
        }
    }
}

impl<'v> FromValue<'v> for &'v str {
    fn from_value(value: &'v Value) -> Option<&'v str> {
        match value {
            Value::Text(text) => Some(text),
            _ => None,
        }
    }
}

impl FromValue<'_> for String {
    fn from_value(value: &Value) -> Option<String> {
        <&str>::from_value(value).map(str::to_owned)
    }
}

/// The number of the newest of these steps, or 0.
fn newest(deeds: &[Deed]) -> u64 {
    deeds.last().map_or(0, |it| it.number)
}

/// The state of the role's conversation, which stands there.
fn at<S: Standing>(talk: Talk) -> S {
    S::of(talk, Key(()))
}

/// What a module of states has besides its structs and their methods. Each state has a line: its place, its struct, what it
/// does, which state follows each sort or label, and the slot of what it receives.
#[doc(hidden)]
#[macro_export]
macro_rules! standing {
    (
        role $role:literal;
        $($place:literal $name:ident $head:literal [$($word:literal $then:ident),*] $slot:literal;)*
        inputs [$($at:literal $input:ident),*];
    ) => {
        $(
            impl $crate::states::Standing for $name {
                type Input = Input;
                const PLACE: u16 = $place;

                fn of(talk: $crate::states::Talk, _: $crate::states::Key) -> Self {
                    $name(talk)
                }

                fn into_talk(self, _: $crate::states::Key) -> $crate::states::Talk {
                    self.0
                }

                fn talk(&self, _: $crate::states::Key) -> &$crate::states::Talk {
                    &self.0
                }

                fn input(talk: $crate::states::Talk, _: $crate::states::Key) -> Input {
                    Input::at_place_of(talk)
                }
            }

            impl From<$name> for State {
                fn from(state: $name) -> State {
                    State::$name(state)
                }
            }
        )*

        impl Input {
            fn at_place_of(talk: $crate::states::Talk) -> Input {
                match talk.place() {
                    $($at => Input::$input($input(talk)),)*
                    _ => unreachable!("others leave a role at a receipt or a pick"),
                }
            }
        }

        impl From<Input> for State {
            fn from(input: Input) -> State {
                match input {
                    $(Input::$input(state) => State::$input(state),)*
                }
            }
        }

        impl $crate::states::States for State {
            const PART: &'static $crate::states::Part = &$crate::states::Part {
                role: $role,
                acts: &[$($crate::states::Act {
                    head: $head,
                    then: &[$(($word, <$then as $crate::states::Standing>::PLACE)),*],
                    slot: $slot,
                }),*],
            };

            fn of(talk: $crate::states::Talk, _: $crate::states::Key) -> State {
                match talk.place() {
                    $($place => State::$name($name(talk)),)*
                    _ => unreachable!("each place is a state's"),
                }
            }
        }
    };
}
