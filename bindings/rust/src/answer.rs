// SPDX-License-Identifier: MIT OR Apache-2.0
//! Answers and refusals, as types.

use std::error::Error as StdError;
use std::fmt;
use std::str::FromStr;

/// The answer to a line that was accepted.
#[derive(Clone, Debug, PartialEq, Eq, Hash)]
pub enum Answer {
    /// A send, a choice, a mark or a commit is the step of this number.
    Done(u64),
    /// A receipt is the step of this number, and received this value.
    Received(u64, Value),
    /// A pick is the step of this number, and received this label.
    Picked(u64, String),
    /// The steps that an undo, a rollback or a return to a mark took back, the newest first.
    Undone(Vec<u64>),
    /// How the journal stands, as the role sees it.
    News {
        /// How many entries the journal has.
        entries: u64,
        /// Which of the role's steps others took back, in that order.
        gone: Vec<u64>,
    },
    /// The session, as JSON.
    Shown(String),
}

/// A value of a message.
#[derive(Clone, Debug, PartialEq, Eq, Hash)]
pub enum Value {
    /// An `int`.
    Int(i64),
    /// A `bool`.
    Bool(bool),
    /// A `text`.
    Text(String),
}

/// Why a line was refused. The session is then as it was, unless it is by [`Refusal::Journal`].
#[derive(Clone, Copy, Debug, PartialEq, Eq, Hash)]
pub enum Refusal {
    /// The role's part of the protocol has ended.
    Ended,
    /// The protocol wants an act of another kind of the role now.
    WrongAct,
    /// The protocol has another peer in that place.
    WrongPeer,
    /// The value is of another sort than the protocol wants.
    WrongSort,
    /// The choice has no branch of that label.
    NoLabel,
    /// No message waits from the peer.
    NothingQueued,
    /// The message that waits is another than the role's type expects. A room never answers so.
    Mismatch,
    /// No step of that number survives.
    NoStep,
    /// The step is another role's.
    NotYours,
    /// The commit of this number stands in the way.
    Final(u64),
    /// Another step depends on the step that is to be undone: the least has this number.
    Needed(u64),
    /// No mark of that name of the role survives.
    NoMark,
    /// The journal has as many entries as it may have.
    Full,
    /// Memory ran out in the command.
    Memory,
    /// The line can't be read.
    Line,
    /// The room has no role of that name.
    NoRole,
    /// The line's number is neither that of the role's last accepted one nor the one after it.
    Number,
    /// The room's file can't be written, or the disk didn't store it, and each line from then on is refused so. Open it again,
    /// and it is as the file has it; after a sync that failed only another process can.
    Journal,
}

/// Why a line has no [`Answer`].
#[derive(Clone, Debug, PartialEq, Eq, Hash)]
pub enum Error {
    /// The line was refused, and nothing has changed, unless it is by [`Refusal::Journal`].
    Refused(Refusal),
    /// There was no memory for the text of the answer. The line was run, so ask [`Room::answer`](crate::Room::answer) for
    /// its answer, and don't give it again.
    NoMemory,
    /// The library answers what this crate can't read, so it is of another version.
    Unknown(String),
}

/// There was no memory for a text.
#[derive(Clone, Copy, Debug, PartialEq, Eq, Hash)]
pub struct NoMemory;

const LONE: [(Refusal, &str, &str); 16] = [
    (
        Refusal::Ended,
        "ended",
        "the role's part of the protocol has ended",
    ),
    (
        Refusal::WrongAct,
        "wrongact",
        "the protocol wants an act of another kind of the role now",
    ),
    (
        Refusal::WrongPeer,
        "wrongpeer",
        "the protocol has another peer in that place",
    ),
    (
        Refusal::WrongSort,
        "wrongsort",
        "the value is of another sort than the protocol wants",
    ),
    (
        Refusal::NoLabel,
        "nolabel",
        "the choice has no branch of that label",
    ),
    (
        Refusal::NothingQueued,
        "nothingqueued",
        "no message waits from the peer",
    ),
    (
        Refusal::Mismatch,
        "mismatch",
        "the message that waits is another than the role's type expects",
    ),
    (Refusal::NoStep, "nostep", "no step of that number survives"),
    (Refusal::NotYours, "notyours", "the step is another role's"),
    (
        Refusal::NoMark,
        "nomark",
        "no mark of that name of the role survives",
    ),
    (
        Refusal::Full,
        "full",
        "the journal has as many entries as it may have",
    ),
    (Refusal::Memory, "memory", "memory ran out in the command"),
    (Refusal::Line, "line", "the line can't be read"),
    (
        Refusal::NoRole,
        "norole",
        "the room has no role of that name",
    ),
    (
        Refusal::Number,
        "number",
        "the line has another number than the role's last one or the next one",
    ),
    (
        Refusal::Journal,
        "journal",
        "the room's file can't be written",
    ),
];

impl Refusal {
    /// The word by which an answer names the refusal.
    pub fn word(self) -> &'static str {
        match self {
            Refusal::Final(_) => "final",
            Refusal::Needed(_) => "needed",
            lone => told(lone).0,
        }
    }
}

/// The word and the sentence of a refusal that has no number.
fn told(refusal: Refusal) -> (&'static str, &'static str) {
    let found = LONE.iter().find(|it| it.0 == refusal);
    found.map_or(("", ""), |it| (it.1, it.2))
}

impl fmt::Display for Refusal {
    fn fmt(&self, f: &mut fmt::Formatter<'_>) -> fmt::Result {
        match self {
            Refusal::Final(step) => write!(f, "the commit of step {step} stands in the way"),
            Refusal::Needed(step) => {
                write!(f, "step {step} depends on the step that is to be undone")
            }
            lone => f.write_str(told(*lone).1),
        }
    }
}

impl StdError for Refusal {}

impl fmt::Display for Error {
    fn fmt(&self, f: &mut fmt::Formatter<'_>) -> fmt::Result {
        match self {
            Error::Refused(refusal) => write!(f, "refused: {refusal}"),
            Error::NoMemory => NoMemory.fmt(f),
            Error::Unknown(answer) => {
                write!(f, "the library answers `{answer}`, which can't be read")
            }
        }
    }
}

impl StdError for Error {
    fn source(&self) -> Option<&(dyn StdError + 'static)> {
        match self {
            Error::Refused(refusal) => Some(refusal),
            Error::NoMemory | Error::Unknown(_) => None,
        }
    }
}

impl fmt::Display for NoMemory {
    fn fmt(&self, f: &mut fmt::Formatter<'_>) -> fmt::Result {
        f.write_str("there was no memory for the text")
    }
}

impl StdError for NoMemory {}

impl From<NoMemory> for Error {
    fn from(_: NoMemory) -> Error {
        Error::NoMemory
    }
}

/// Reads what a line would be answered.
pub(crate) fn foreseen(answer: &str) -> Result<Result<(), Refusal>, Error> {
    let would = match answer.strip_prefix("refused ") {
        Some(reason) => refusal(reason).map(Err),
        None => (answer == "accepted").then_some(Ok(())),
    };
    would.ok_or_else(|| Error::Unknown(answer.to_owned()))
}

/// Reads the text of an answer.
pub(crate) fn read(answer: &str) -> Result<Answer, Error> {
    let unknown = || Error::Unknown(answer.to_owned());
    match answer.strip_prefix("refused ") {
        Some(reason) => Err(refusal(reason).map_or_else(unknown, Error::Refused)),
        None => accepted(answer).ok_or_else(unknown),
    }
}

fn refusal(reason: &str) -> Option<Refusal> {
    match reason.split_once(' ') {
        Some(("final", step)) => step.parse().ok().map(Refusal::Final),
        Some(("needed", step)) => step.parse().ok().map(Refusal::Needed),
        Some(_) => None,
        None => LONE.iter().find(|it| it.1 == reason).map(|it| it.0),
    }
}

fn accepted(answer: &str) -> Option<Answer> {
    if answer.starts_with('{') {
        return Some(Answer::Shown(answer.to_owned()));
    }
    let (word, rest) = answer.split_once(' ').unwrap_or((answer, ""));
    match word {
        "done" => done(rest),
        "undone" => numbers(rest).map(Answer::Undone),
        "news" => {
            let mut gone = numbers(rest)?;
            (!gone.is_empty()).then(|| Answer::News {
                entries: gone.remove(0),
                gone,
            })
        }
        _ => None,
    }
}

fn done(rest: &str) -> Option<Answer> {
    let Some((step, message)) = rest.split_once(' ') else {
        return rest.parse().ok().map(Answer::Done);
    };
    let step = step.parse().ok()?;
    match message.parse() {
        Ok(value) => Some(Answer::Received(step, value)),
        Err(NoValue) => Some(Answer::Picked(step, message.to_owned())),
    }
}

fn numbers(rest: &str) -> Option<Vec<u64>> {
    rest.split_terminator(' ')
        .map(|word| word.parse().ok())
        .collect()
}

/// The text spells no value.
#[derive(Clone, Copy, Debug, PartialEq, Eq, Hash)]
pub struct NoValue;

impl fmt::Display for NoValue {
    fn fmt(&self, f: &mut fmt::Formatter<'_>) -> fmt::Result {
        f.write_str("the text spells no value")
    }
}

impl StdError for NoValue {}

/// Whether the byte may stand between the quotes of a text.
fn is_of_a_text(byte: u8) -> bool {
    matches!(byte, b' '..=b'~') && byte != b'"' && byte != b'\\'
}

impl FromStr for Value {
    type Err = NoValue;

    /// Reads a value as a line or an answer spells it.
    fn from_str(text: &str) -> Result<Value, NoValue> {
        match text {
            "true" => return Ok(Value::Bool(true)),
            "false" => return Ok(Value::Bool(false)),
            _ => {}
        }
        if let Some(inner) = text
            .strip_prefix('"')
            .and_then(|rest| rest.strip_suffix('"'))
        {
            let is_text = inner.len() <= 256 && inner.bytes().all(is_of_a_text);
            return is_text
                .then(|| Value::Text(inner.to_owned()))
                .ok_or(NoValue);
        }
        let digits = text.strip_prefix('-').unwrap_or(text);
        let is_spelled =
            text == "0" || digits.starts_with(|first: char| matches!(first, '1'..='9'));
        match text.parse() {
            Ok(number) if is_spelled => Ok(Value::Int(number)),
            _ => Err(NoValue),
        }
    }
}

impl fmt::Display for Value {
    /// Writes the value as a line spells it.
    fn fmt(&self, f: &mut fmt::Formatter<'_>) -> fmt::Result {
        match self {
            Value::Int(number) => number.fmt(f),
            Value::Bool(truth) => truth.fmt(f),
            Value::Text(text) => write!(f, "\"{text}\""),
        }
    }
}
