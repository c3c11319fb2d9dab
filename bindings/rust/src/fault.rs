// SPDX-License-Identifier: MIT OR Apache-2.0
//! Why a text gives no room.

use std::error::Error;
use std::fmt;

use crate::Room;

/// Why [`Room::open`](crate::Room::open) and [`Room::open_full`](crate::Room::open_full) give no room.
#[derive(Clone, Copy, Debug, PartialEq, Eq, Hash)]
pub enum OpenError {
    /// Memory ran out.
    Memory,
    /// The text isn't read.
    Text {
        /// What is wrong.
        fault: TextFault,
        /// The byte where it is.
        at: u64,
    },
    /// The text is read, and spells a protocol with a fault.
    Protocol(ProtocolFault),
    /// A role has no local type. [`explained`](OpenError::explained) says it with names.
    Projection {
        /// The place of the role in the order of `roles`, from 0.
        role: u32,
        /// The choice whose branches the role can't tell apart, as [`Room::choice`] counts them.
        choice: u64,
    },
    /// The library tells a number that this crate doesn't know, so it is of another version.
    Unknown(u32),
}

/// What is wrong with a text that isn't read.
#[derive(Clone, Copy, Debug, PartialEq, Eq, Hash)]
pub enum TextFault {
    /// The text has more than 65,536 bytes.
    TooLong,
    /// No token begins here, or a word isn't well formed.
    Word,
    /// The token can't follow those before it, or the text ends where a token is missing.
    Unexpected,
    /// The protocol has more than 256 nodes.
    TooManyNodes,
    /// The protocol has more than 64 levels.
    TooDeep,
    /// A token stands after a whole protocol.
    Trailing,
}

/// What is wrong with a protocol that was read.
#[derive(Clone, Copy, Debug, PartialEq, Eq, Hash)]
pub enum ProtocolFault {
    /// There are not 2 to 8 roles.
    RoleCount,
    /// A role is named twice.
    DoubleRole,
    /// There are more than 256 nodes.
    TooManyNodes,
    /// There are more than 64 levels.
    TooDeep,
    /// A message or a choice names no role of the protocol.
    UnknownRole,
    /// A role sends to itself.
    SelfMessage,
    /// A choice has a label twice.
    DoubleLabel,
    /// A choice has more than 16 branches.
    TooManyBranches,
    /// A choice has no branches.
    NoBranches,
    /// A variable stands outside a `rec` of its name.
    Unbound,
    /// A `rec` stands inside a `rec` of the same name.
    Shadowed,
    /// No message and no choice stands between a variable and its `rec`.
    Unguarded,
}

/// A choice of a protocol.
#[derive(Clone, Debug, PartialEq, Eq, Hash)]
pub struct Choice {
    /// Who chooses.
    pub sender: String,
    /// Who is told.
    pub receiver: String,
    /// The labels of the branches.
    pub labels: Vec<String>,
}

const TEXTS: [(TextFault, &str); 6] = [
    (TextFault::TooLong, "toolong"),
    (TextFault::Word, "word"),
    (TextFault::Unexpected, "unexpected"),
    (TextFault::TooManyNodes, "toomanynodes"),
    (TextFault::TooDeep, "toodeep"),
    (TextFault::Trailing, "trailing"),
];

const PROTOCOLS: [(ProtocolFault, &str); 12] = [
    (ProtocolFault::RoleCount, "rolecount"),
    (ProtocolFault::DoubleRole, "doublerole"),
    (ProtocolFault::TooManyNodes, "toomanynodes"),
    (ProtocolFault::TooDeep, "toodeep"),
    (ProtocolFault::UnknownRole, "unknownrole"),
    (ProtocolFault::SelfMessage, "selfmessage"),
    (ProtocolFault::DoubleLabel, "doublelabel"),
    (ProtocolFault::TooManyBranches, "toomanybranches"),
    (ProtocolFault::NoBranches, "nobranches"),
    (ProtocolFault::Unbound, "unbound"),
    (ProtocolFault::Shadowed, "shadowed"),
    (ProtocolFault::Unguarded, "unguarded"),
];

impl OpenError {
    /// The fault of that number and place, as the library tells them.
    pub(crate) fn of(number: u32, place: u64) -> OpenError {
        let index = number as usize;
        match number {
            1 => OpenError::Memory,
            16..=21 => OpenError::Text {
                fault: TEXTS[index - 16].0,
                at: place,
            },
            32..=43 => OpenError::Protocol(PROTOCOLS[index - 32].0),
            48..=55 => OpenError::Projection {
                role: number - 48,
                choice: place,
            },
            _ => OpenError::Unknown(number),
        }
    }

    /// What is wrong with the text that gave no room, in a sentence. Of a projection it has the names that the text has for
    /// the role, the choice and its labels; else it is that of [`Display`](fmt::Display).
    ///
    /// ```
    /// use cizhmolat::Room;
    ///
    /// let text = "roles a b c ; a -> b { l : a -> c : int . end , r : end }";
    /// assert_eq!(
    ///     Room::open(text).unwrap_err().explained(text),
    ///     "`c` takes no part in the choice between `a` and `b`, and doesn't do the same in all branches: `l`, `r`"
    /// );
    /// ```
    pub fn explained(&self, text: impl AsRef<[u8]>) -> String {
        self.said(text.as_ref(), "doesn't do the same in all branches")
    }

    /// [`explained`](OpenError::explained) of a text that gave no room by full merging, by which a role needn't do the same in
    /// all branches.
    ///
    /// ```
    /// use cizhmolat::Room;
    ///
    /// let text = "roles a b c ; a -> b { l : a -> c : int . end , r : end }";
    /// assert_eq!(
    ///     Room::open_full(text).unwrap_err().explained_full(text),
    ///     "`c` takes no part in the choice between `a` and `b`, and can't be ready for all branches: `l`, `r`"
    /// );
    /// ```
    pub fn explained_full(&self, text: impl AsRef<[u8]>) -> String {
        self.said(text.as_ref(), "can't be ready for all branches")
    }

    /// What is wrong, in a sentence, of which this is what a role does wrong.
    fn said(&self, text: &[u8], wrong: &str) -> String {
        self.named(text, wrong).unwrap_or_else(|| self.to_string())
    }

    /// The sentence with names, where the fault is a projection's, and there was memory to read the text once more.
    fn named(&self, text: &[u8], wrong: &str) -> Option<String> {
        let OpenError::Projection { role, choice } = *self else {
            return None;
        };
        let role = role_of(text, role)?;
        let Choice {
            sender,
            receiver,
            labels,
        } = Room::choice(text, choice).ok()??;
        Some(format!(
            "`{role}` takes no part in the choice between `{sender}` and `{receiver}`, and {wrong}: `{}`",
            labels.join("`, `")
        ))
    }
}

/// The name of the role at that place, from 0, in a text that can be read: the roles are the words behind the first one.
fn role_of(text: &[u8], place: u32) -> Option<&str> {
    let ends_word = |byte: &u8| !byte.is_ascii_alphanumeric() && *byte != b'_';
    let mut words = text.split(ends_word).filter(|word| !word.is_empty());
    std::str::from_utf8(words.nth(place as usize + 1)?).ok()
}

impl Choice {
    /// The choice of these words, unless there are none.
    pub(crate) fn of(words: &str) -> Option<Choice> {
        let mut words = words.split(' ').map(str::to_owned);
        Some(Choice {
            sender: words.next()?,
            receiver: words.next()?,
            labels: words.collect(),
        })
    }
}

impl TextFault {
    /// The word by which `mps check` names the fault.
    pub fn word(self) -> &'static str {
        TEXTS[self as usize].1
    }
}

impl ProtocolFault {
    /// The word by which `mps check` names the fault.
    pub fn word(self) -> &'static str {
        PROTOCOLS[self as usize].1
    }
}

impl fmt::Display for OpenError {
    fn fmt(&self, f: &mut fmt::Formatter<'_>) -> fmt::Result {
        match self {
            OpenError::Memory => f.write_str("memory ran out"),
            OpenError::Text { fault, at } => {
                write!(f, "the text has a fault at byte {at}: {}", fault.word())
            }
            OpenError::Protocol(fault) => write!(f, "the protocol has a fault: {}", fault.word()),
            OpenError::Projection { role, choice } => {
                write!(
                    f,
                    "role number {role} has no local type, because of choice {choice}"
                )
            }
            OpenError::Unknown(number) => write!(f, "the library tells the unknown fault {number}"),
        }
    }
}

impl Error for OpenError {}

#[cfg(test)]
mod tests {
    use super::*;

    #[test]
    fn each_word_stands_at_the_place_of_its_fault() {
        for (at, (fault, word)) in TEXTS.into_iter().enumerate() {
            assert_eq!((fault as usize, fault.word()), (at, word));
        }
        for (at, (fault, word)) in PROTOCOLS.into_iter().enumerate() {
            assert_eq!((fault as usize, fault.word()), (at, word));
        }
    }
}
