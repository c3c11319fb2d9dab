// SPDX-License-Identifier: MIT OR Apache-2.0
//! Rooms that files keep: how they are opened, and why not.

use std::error::Error;
use std::fmt;
use std::io;
use std::os::unix::ffi::OsStrExt;
use std::path::Path;

use crate::{sys, OpenError, Room};

/// How a room is opened that a file keeps; [`Room::open_file`] is for session 1 without syncs, by plain merging.
///
/// ```no_run
/// use cizhmolat::FileOptions;
///
/// let protocol = "roles a b ; a -> b : int . end";
/// let mut room = FileOptions::new().session(7).sync(true).open(protocol, "kept/7.journal")?;
/// # Ok::<(), cizhmolat::FileError>(())
/// ```
#[derive(Clone, Copy, Debug, PartialEq, Eq, Hash)]
pub struct FileOptions {
    session: u64,
    sync: bool,
    full_merging: bool,
}

impl FileOptions {
    /// Session 1, without syncs, by plain merging.
    pub fn new() -> FileOptions {
        FileOptions {
            session: 1,
            sync: false,
            full_merging: false,
        }
    }

    /// Of which session the file is, from 1 to 2^63, whose number goes into its seals. A server has session K in `K.journal`
    /// of its folder.
    pub fn session(self, session: u64) -> FileOptions {
        FileOptions { session, ..self }
    }

    /// Whether the disk has stored each accepted command before its answer is told. Without it answers are safe from a
    /// crash of the process as they are told, and from one of the machine only after [`Room::sync`].
    pub fn sync(self, sync: bool) -> FileOptions {
        FileOptions { sync, ..self }
    }

    /// Whether the room is opened by full merging, as by [`Room::open_full`]. The file doesn't say by which merging it was
    /// written: a text that gives a room by both may have it by either. Why there is none
    /// [`OpenError::explained_full`] says.
    pub fn full_merging(self, full_merging: bool) -> FileOptions {
        FileOptions {
            full_merging,
            ..self
        }
    }

    /// Opens the room as the file at the path leaves it. The file is made where there is none, and locked as long as the
    /// room is open. Its folder has to be there.
    pub fn open(self, text: impl AsRef<[u8]>, path: impl AsRef<Path>) -> Result<Room, FileError> {
        let (text, path) = (text.as_ref(), path.as_ref().as_os_str().as_bytes());
        let flags =
            u32::from(self.sync) * sys::SYNC + u32::from(self.full_merging) * sys::FULL_MERGING;
        Room::opened(|room, fault, place| {
            // SAFETY: the text and the path are slices, and the three places are values of `opened`'s own.
            unsafe {
                sys::mps_open_file(
                    text.as_ptr(),
                    text.len(),
                    path.as_ptr(),
                    path.len(),
                    self.session,
                    flags,
                    room,
                    fault,
                    place,
                )
            }
        })
        .map_err(|(fault, place)| FileError::of(fault, place))
    }
}

impl Default for FileOptions {
    fn default() -> FileOptions {
        FileOptions::new()
    }
}

/// Why a room isn't opened with its file.
#[derive(Debug)]
pub enum FileError {
    /// The text gives no room.
    Room(OpenError),
    /// Another room, or another process, has the file.
    Elsewhere,
    /// The system refuses something of the file; or it is no plain file, or a link; or the session's number isn't 1 to 2^63.
    Io(io::Error),
    /// A line of the file isn't one of this room's journal. The file stays as it is.
    Line {
        /// The number of the line, from 1.
        number: u64,
        /// What is wrong with it.
        fault: LineFault,
    },
}

/// What is wrong with a line of a file.
#[derive(Clone, Copy, Debug, PartialEq, Eq, Hash)]
pub enum LineFault {
    /// It spells no command.
    Unreadable,
    /// Its command isn't accepted.
    Refused,
    /// It isn't as it was written, or it is of another session or protocol.
    Changed,
}

impl FileError {
    /// The fault of that number and place, as the library tells them.
    fn of(fault: u32, place: u64) -> FileError {
        let of_line = |fault| FileError::Line {
            number: place,
            fault,
        };
        match fault {
            64 => FileError::Elsewhere,
            65 => FileError::Io(io_error(place)),
            66 => of_line(LineFault::Unreadable),
            67 => of_line(LineFault::Refused),
            68 => of_line(LineFault::Changed),
            _ => FileError::Room(OpenError::of(fault, place)),
        }
    }
}

/// The system's error of that number; where it is 0 the system gave none.
fn io_error(number: u64) -> io::Error {
    match i32::try_from(number) {
        Ok(number) if number != 0 => io::Error::from_raw_os_error(number),
        _ => io::Error::other("the system doesn't say why"),
    }
}

impl LineFault {
    /// The word by which `cizhmolat.h` names the fault.
    pub fn word(self) -> &'static str {
        match self {
            LineFault::Unreadable => "unreadable",
            LineFault::Refused => "refused",
            LineFault::Changed => "changed",
        }
    }
}

impl fmt::Display for FileError {
    fn fmt(&self, f: &mut fmt::Formatter<'_>) -> fmt::Result {
        match self {
            FileError::Room(fault) => fault.fmt(f),
            FileError::Elsewhere => f.write_str("another room, or another process, has the file"),
            FileError::Io(error) => write!(f, "the file can't be used: {error}"),
            FileError::Line { number, fault } => {
                write!(f, "line {number} of the file has a fault: {}", fault.word())
            }
        }
    }
}

impl Error for FileError {
    fn source(&self) -> Option<&(dyn Error + 'static)> {
        match self {
            FileError::Room(fault) => Some(fault),
            FileError::Io(error) => Some(error),
            FileError::Elsewhere | FileError::Line { .. } => None,
        }
    }
}

/// The disk didn't store what was answered. The room answers [`Refusal::Journal`](crate::Refusal::Journal) to each line from
/// then on, and the file stays locked until this process ends.
#[derive(Clone, Copy, Debug, PartialEq, Eq, Hash)]
pub struct NotStored;

impl fmt::Display for NotStored {
    fn fmt(&self, f: &mut fmt::Formatter<'_>) -> fmt::Result {
        f.write_str("the disk didn't store the room's file")
    }
}

impl Error for NotStored {}
