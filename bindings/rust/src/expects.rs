// SPDX-License-Identifier: MIT OR Apache-2.0
//! What a role's type wants next, as a type.

use std::error::Error;
use std::fmt;
use std::str::FromStr;

/// What the protocol wants of a role next.
#[derive(Clone, Debug, PartialEq, Eq, Hash)]
pub enum Expects {
    /// The role sends the peer a value of this sort.
    Send {
        /// To whom.
        peer: String,
        /// Of which sort.
        sort: Sort,
    },
    /// The role receives a value of this sort from the peer.
    Receive {
        /// From whom.
        peer: String,
        /// Of which sort.
        sort: Sort,
    },
    /// The role chooses one of these labels, and tells the peer.
    Choose {
        /// Who is told.
        peer: String,
        /// Which labels there are.
        labels: Vec<String>,
    },
    /// The role picks the label that the peer chose, which is one of these.
    Pick {
        /// Who chose.
        peer: String,
        /// Which labels there are.
        labels: Vec<String>,
    },
    /// Nothing: the role's part has ended.
    End,
}

/// A sort of values.
#[derive(Clone, Copy, Debug, PartialEq, Eq, Hash)]
pub enum Sort {
    /// Those of [`Value::Int`](crate::Value::Int).
    Int,
    /// Those of [`Value::Bool`](crate::Value::Bool).
    Bool,
    /// Those of [`Value::Text`](crate::Value::Text).
    Text,
}

/// The text doesn't spell what a role's type wants.
#[derive(Clone, Copy, Debug, PartialEq, Eq, Hash)]
pub struct NothingExpected;

impl FromStr for Expects {
    type Err = NothingExpected;

    /// Reads it as a shown session has it, such as `send b int`, `pick b go stop` or `end`.
    fn from_str(text: &str) -> Result<Expects, NothingExpected> {
        let mut words = text.split(' ').map(str::to_owned);
        let (act, peer) = (words.next().unwrap_or_default(), words.next());
        let rest: Vec<String> = words.collect();
        let Some(peer) = peer else {
            return (act == "end")
                .then_some(Expects::End)
                .ok_or(NothingExpected);
        };
        let sort = || match rest.as_slice() {
            [word] => word.parse(),
            _ => Err(NothingExpected),
        };
        match act.as_str() {
            "send" => sort().map(|sort| Expects::Send { peer, sort }),
            "recv" => sort().map(|sort| Expects::Receive { peer, sort }),
            _ if rest.is_empty() => Err(NothingExpected),
            "choose" => Ok(Expects::Choose { peer, labels: rest }),
            "pick" => Ok(Expects::Pick { peer, labels: rest }),
            _ => Err(NothingExpected),
        }
    }
}

impl fmt::Display for Expects {
    fn fmt(&self, f: &mut fmt::Formatter<'_>) -> fmt::Result {
        match self {
            Expects::Send { peer, sort } => write!(f, "send {peer} {sort}"),
            Expects::Receive { peer, sort } => write!(f, "recv {peer} {sort}"),
            Expects::Choose { peer, labels } => write!(f, "choose {peer} {}", labels.join(" ")),
            Expects::Pick { peer, labels } => write!(f, "pick {peer} {}", labels.join(" ")),
            Expects::End => f.write_str("end"),
        }
    }
}

impl FromStr for Sort {
    type Err = NothingExpected;

    fn from_str(word: &str) -> Result<Sort, NothingExpected> {
        match word {
            "int" => Ok(Sort::Int),
            "bool" => Ok(Sort::Bool),
            "text" => Ok(Sort::Text),
            _ => Err(NothingExpected),
        }
    }
}

impl fmt::Display for Sort {
    fn fmt(&self, f: &mut fmt::Formatter<'_>) -> fmt::Result {
        f.write_str(match self {
            Sort::Int => "int",
            Sort::Bool => "bool",
            Sort::Text => "text",
        })
    }
}

impl fmt::Display for NothingExpected {
    fn fmt(&self, f: &mut fmt::Formatter<'_>) -> fmt::Result {
        f.write_str("the text doesn't spell what a role's type wants")
    }
}

impl Error for NothingExpected {}
