// SPDX-License-Identifier: MIT OR Apache-2.0
//! Rooms of Cizhmolat in the caller's own process.
//!
//! A [`Room`] has one session of a protocol between 2 to 8 roles. Each line that it is given is a command of one of the roles:
//! the room compares it with what the protocol leaves the role to do, and accepts it, or refuses it and says why. A role can
//! take a step back, with all that depends on it in all roles, and nothing else.
//!
//! ```
//! use cizhmolat::{Answer, Error, Refusal, Room, Value};
//!
//! let mut room = Room::open("roles a b c ; a -> b : int . b -> c : int . end")?;
//! assert_eq!(room.line("a", "send b 5")?, Answer::Done(1));
//! assert_eq!(room.line("b", "recv a x")?, Answer::Received(2, Value::Int(5)));
//! assert_eq!(room.line("a", "undo 1"), Err(Error::Refused(Refusal::Needed(2))));
//! assert_eq!(room.line("a", "rollback 1")?, Answer::Undone(vec![2, 1]));
//! # Ok::<(), Box<dyn std::error::Error>>(())
//! ```
//!
//! [`Room::open_file`] opens a room that a file keeps: it outlives its process, and its file can go to a server and back.
//!
//! The lines and their answers are those of `docs/FORMATS.md` in the repository of Cizhmolat; `docs/EMBEDDING.md` says what is
//! proved of the library that this crate calls, and what isn't. This crate is plain Rust, and nothing of it is proved. It is
//! linked with `libcizhmolat.a`, which `./mps library DIR` makes there: set `CIZHMOLAT_DIR` to that folder.
#![deny(missing_docs)]

mod answer;
mod expects;
mod fault;
mod file;
pub mod states;
mod sys;

use std::cell::UnsafeCell;
use std::fmt;
use std::path::Path;
use std::ptr;
use std::str::FromStr;

pub use answer::{Answer, Error, NoMemory, NoValue, Refusal, Value};
pub use expects::{Expects, NothingExpected, Sort};
pub use fault::{Choice, OpenError, ProtocolFault, TextFault};
pub use file::{FileError, FileOptions, LineFault, NotStored};

/// A room with a session of a protocol.
///
/// A room may go to another thread, and threads share one by a lock. By itself it isn't [`Sync`].
///
/// ```
/// use cizhmolat::{Answer, Room};
/// use std::sync::Mutex;
/// use std::thread;
///
/// let room = Mutex::new(Room::open("roles a b ; a -> b : int . end").unwrap());
/// thread::scope(|scope| {
///     scope.spawn(|| room.lock().unwrap().line("a", "mark m"));
///     scope.spawn(|| room.lock().unwrap().line("b", "mark m"));
/// });
/// assert_eq!(room.into_inner().unwrap().entries(), 2);
/// ```
///
/// ```compile_fail,E0277
/// fn shared<T: Sync>(_: T) {}
/// shared(cizhmolat::Room::open("roles a b ; end"));
/// ```
pub struct Room {
    handle: UnsafeCell<sys::Handle>,
    // where the newest answer is written
    text: Vec<u8>,
}

// SAFETY: a room is data of its own on the program's heap. That it may go to another thread is proved of what the handle owns:
// law `rooms_may_cross_threads` of the crate mps_embed.
unsafe impl Send for Room {}

impl Room {
    /// Opens a room with a new session of the protocol that the text spells. [`OpenError::explained`] says most of why there is
    /// none.
    ///
    /// ```
    /// use cizhmolat::{OpenError, Room, TextFault};
    ///
    /// let fault = Room::open("roles a b ; a -> b : int end").unwrap_err();
    /// assert_eq!(fault, OpenError::Text { fault: TextFault::Unexpected, at: 25 });
    /// ```
    pub fn open(text: impl AsRef<[u8]>) -> Result<Room, OpenError> {
        Room::opened_by(sys::mps_open, text.as_ref())
    }

    /// Opens a room by full merging: a role that takes no part in a choice may be told of the branch by a label of its own, where
    /// by the plain merging of [`open`](Room::open) it has to do the same in all branches. Where both give a room, they give the
    /// same one. [`OpenError::explained_full`] says most of why there is none.
    ///
    /// ```
    /// use cizhmolat::{OpenError, Room};
    ///
    /// let text = "roles a b c ; a -> b { l : a -> c { l : end } , m : a -> c { m : end } }";
    /// let fault = Room::open(text).unwrap_err();
    /// assert_eq!(fault, OpenError::Projection { role: 2, choice: 0 });
    /// assert!(Room::open_full(text).is_ok());
    /// ```
    pub fn open_full(text: impl AsRef<[u8]>) -> Result<Room, OpenError> {
        Room::opened_by(sys::mps_open_full, text.as_ref())
    }

    /// Opens a room that a file keeps: it is as the file at the path leaves it, and each command that is accepted from then
    /// on is in the file before its answer is told. The file is the journal of session 1, as a server's folder has it in
    /// `1.journal`; [`FileOptions`] has other numbers, syncs, and full merging.
    ///
    /// ```
    /// use cizhmolat::{Answer, Room};
    ///
    /// # let folder = std::env::temp_dir().join(format!("cizhmolat-doc-{}", std::process::id()));
    /// # std::fs::create_dir_all(&folder)?;
    /// # let path = folder.join("1.journal");
    /// let protocol = "roles a b ; a -> b : int . end";
    /// let mut room = Room::open_file(protocol, &path)?;
    /// assert_eq!(room.line("a", "1 send b 5")?, Answer::Done(1));
    /// drop(room); // or the process is killed
    /// let mut room = Room::open_file(protocol, &path)?;
    /// assert_eq!(room.line("a", "1 send b 5")?, Answer::Done(1)); // as before, and nothing is run
    /// assert_eq!(room.entries(), 1);
    /// # std::fs::remove_dir_all(&folder)?;
    /// # Ok::<(), Box<dyn std::error::Error>>(())
    /// ```
    pub fn open_file(text: impl AsRef<[u8]>, path: impl AsRef<Path>) -> Result<Room, FileError> {
        FileOptions::new().open(text, path)
    }

    /// The choice of that number of the protocol that the text spells, as [`OpenError::Projection`] has it: counted from 0, in
    /// the order in which choices begin in the text. Nothing is told where the text can't be read, or has not so many.
    ///
    /// ```
    /// use cizhmolat::{OpenError, Room};
    ///
    /// let text = "roles a b c ; a -> b { l : a -> c : int . end , r : end }";
    /// let fault = Room::open(text).unwrap_err();
    /// assert_eq!(fault, OpenError::Projection { role: 2, choice: 0 });
    /// let choice = Room::choice(text, 0)?.expect("a choice");
    /// assert_eq!((&*choice.sender, &*choice.receiver), ("a", "b"));
    /// assert_eq!(choice.labels, ["l", "r"]);
    /// # Ok::<(), cizhmolat::NoMemory>(())
    /// ```
    pub fn choice(text: impl AsRef<[u8]>, number: u64) -> Result<Option<Choice>, NoMemory> {
        let text = text.as_ref();
        let words = whole_text(|out, capacity| {
            // SAFETY: the text is a slice, and `whole_text` lends its own.
            unsafe { sys::mps_choice(text.as_ptr(), text.len(), number, out, capacity) }
        })?;
        Ok(Choice::of(&words))
    }

    /// The room that this call opens of the text, or why there is none.
    fn opened_by(open: sys::Open, text: &[u8]) -> Result<Room, OpenError> {
        Room::opened(|room, fault, place| {
            // SAFETY: the text is a slice, and the three places are values of `opened`'s own.
            unsafe { open(text.as_ptr(), text.len(), room, fault, place) }
        })
        .map_err(|(fault, place)| OpenError::of(fault, place))
    }

    /// The room that the call opens, or the number and the place of the fault that it tells.
    fn opened(
        open: impl FnOnce(*mut sys::Handle, *mut u32, *mut u64) -> bool,
    ) -> Result<Room, (u32, u64)> {
        let (mut fault, mut place) = (0, 0);
        let mut room = Room {
            handle: UnsafeCell::new(sys::Handle {
                at: ptr::null_mut(),
            }),
            text: Vec::new(),
        };
        if open(room.handle.get_mut(), &mut fault, &mut place) {
            Ok(room)
        } else {
            Err((fault, place))
        }
    }

    /// Runs a line as a command of the role of that name, such as `send b 5`, or `1 send b 5` with a number, and reads its
    /// answer.
    pub fn line(
        &mut self,
        role: impl AsRef<[u8]>,
        line: impl AsRef<[u8]>,
    ) -> Result<Answer, Error> {
        answer::read(self.ask(role, line)?)
    }

    /// Runs a line as [`line`](Room::line) does, and gives its answer as a text.
    ///
    /// ```
    /// # let mut room = cizhmolat::Room::open("roles a b ; a -> b : int . end").unwrap();
    /// assert_eq!(room.ask("a", "send b true"), Ok("refused wrongsort"));
    /// assert_eq!(room.ask("nobody", "send b 5"), Ok("refused norole"));
    /// ```
    pub fn ask(
        &mut self,
        role: impl AsRef<[u8]>,
        line: impl AsRef<[u8]>,
    ) -> Result<&str, NoMemory> {
        let (role, line) = (role.as_ref(), line.as_ref());
        let handle = self.handle.get_mut();
        // SAFETY: the handle owns an open room, both texts are slices, and the last slice is this room's own.
        let length = unsafe {
            sys::mps_line(
                handle,
                role.as_ptr(),
                role.len(),
                line.as_ptr(),
                line.len(),
                self.text.as_mut_ptr(),
                self.text.len(),
            )
        };
        self.whole(length)
    }

    /// The answer to the newest line once more. Where there was no memory for its text, it can be had here later.
    pub fn answer(&mut self) -> Result<Answer, Error> {
        // SAFETY: the handle owns an open room, and the slice is this room's own.
        let length = unsafe {
            sys::mps_answer(
                self.handle.get_mut(),
                self.text.as_mut_ptr(),
                self.text.len(),
            )
        };
        answer::read(self.whole(length)?)
    }

    /// Has the disk store all that was answered so far, in one sync for a batch of lines. Nothing happens where the room has no
    /// file.
    pub fn sync(&mut self) -> Result<(), NotStored> {
        // SAFETY: the handle owns an open room.
        let is_stored = unsafe { sys::mps_sync(self.handle.get_mut()) };
        is_stored.then_some(()).ok_or(NotStored)
    }

    /// Whether the line would be accepted, if it was given now, or by which refusal it would be refused. Nothing changes. Lack of
    /// memory for what an accepted command would do isn't foreseen.
    ///
    /// ```
    /// use cizhmolat::Refusal;
    ///
    /// # let mut room = cizhmolat::Room::open("roles a b ; a -> b : int . end").unwrap();
    /// assert_eq!(room.would("a", "send b 5")?, Ok(()));
    /// assert_eq!(room.would("a", "undo 1")?, Err(Refusal::NoStep));
    /// # Ok::<(), cizhmolat::Error>(())
    /// ```
    pub fn would(
        &self,
        role: impl AsRef<[u8]>,
        line: impl AsRef<[u8]>,
    ) -> Result<Result<(), Refusal>, Error> {
        let (role, line) = (role.as_ref(), line.as_ref());
        let told = self.text_of(|room, out, capacity| {
            // SAFETY: `text_of` lends an open room and its own slice, and both texts are slices.
            unsafe {
                sys::mps_would(
                    room,
                    role.as_ptr(),
                    role.len(),
                    line.as_ptr(),
                    line.len(),
                    out,
                    capacity,
                )
            }
        })?;
        answer::foreseen(&told)
    }

    /// What the protocol wants of the role next; nothing is told where the room has no role of that name.
    ///
    /// ```
    /// use cizhmolat::{Expects, Sort};
    ///
    /// # let mut room = cizhmolat::Room::open("roles a b ; a -> b : int . end").unwrap();
    /// let wanted = Expects::Send { peer: "b".into(), sort: Sort::Int };
    /// assert_eq!(room.expects("a"), Ok(Some(wanted)));
    /// ```
    pub fn expects(&self, role: impl AsRef<[u8]>) -> Result<Option<Expects>, Error> {
        let role = role.as_ref();
        let told = self.text_of(|room, out, capacity| {
            // SAFETY: `text_of` lends an open room and its own slice, and the role is a slice.
            unsafe { sys::mps_expects(room, role.as_ptr(), role.len(), out, capacity) }
        })?;
        read_if_any(told)
    }

    /// The value in the slot of the role; there is none where nothing was received there, or the room has no role of that name.
    ///
    /// ```
    /// use cizhmolat::Value;
    ///
    /// # let mut room = cizhmolat::Room::open("roles a b ; a -> b : int . end").unwrap();
    /// room.line("a", "send b 5")?;
    /// room.line("b", "recv a x")?;
    /// assert_eq!(room.slot("b", "x")?, Some(Value::Int(5)));
    /// # Ok::<(), cizhmolat::Error>(())
    /// ```
    pub fn slot(
        &self,
        role: impl AsRef<[u8]>,
        slot: impl AsRef<[u8]>,
    ) -> Result<Option<Value>, Error> {
        let (role, slot) = (role.as_ref(), slot.as_ref());
        let told = self.text_of(|room, out, capacity| {
            // SAFETY: `text_of` lends an open room and its own slice, and both names are slices.
            unsafe {
                sys::mps_slot(
                    room,
                    role.as_ptr(),
                    role.len(),
                    slot.as_ptr(),
                    slot.len(),
                    out,
                    capacity,
                )
            }
        })?;
        read_if_any(told)
    }

    /// How many entries the journal has: the commands that were accepted and change the session.
    pub fn entries(&self) -> u64 {
        // SAFETY: the handle owns an open room, and no other call of it is under way: it isn't `Sync`.
        unsafe { sys::mps_entries(self.handle.get()) }
    }

    /// Entry number `k`, from 0, as a line of a script; past the end there is none.
    ///
    /// ```
    /// # let mut room = cizhmolat::Room::open("roles a b ; a -> b : int . end").unwrap();
    /// room.line("a", "send b 5").unwrap();
    /// assert_eq!(room.entry(0).unwrap().as_deref(), Some("a send b 5"));
    /// assert_eq!(room.entry(1), Ok(None));
    /// ```
    pub fn entry(&self, k: u64) -> Result<Option<String>, NoMemory> {
        let entry = self.text_of(|room, out, capacity| {
            // SAFETY: `text_of` lends an open room and its own slice.
            unsafe { sys::mps_entry(room, k, out, capacity) }
        })?;
        Ok((!entry.is_empty()).then_some(entry))
    }

    /// The whole text that the call gives of an open room, which it doesn't change.
    fn text_of(
        &self,
        call: impl Fn(*mut sys::Handle, *mut u8, usize) -> usize,
    ) -> Result<String, NoMemory> {
        // no other call of the handle is under way: the room isn't `Sync`
        whole_text(|out, capacity| call(self.handle.get(), out, capacity))
    }

    /// The whole newest answer, of which the length is told, and which was written where it fitted.
    fn whole(&mut self, mut length: usize) -> Result<&str, NoMemory> {
        while length > self.text.len() {
            grow(&mut self.text, length)?;
            // SAFETY: as in `answer`.
            length = unsafe {
                sys::mps_answer(
                    self.handle.get_mut(),
                    self.text.as_mut_ptr(),
                    self.text.len(),
                )
            };
        }
        Ok(std::str::from_utf8(&self.text[..length]).expect("an answer is ASCII"))
    }
}

/// The whole text that the call gives, which writes as much as fits into a slice, and gives the length of the whole.
fn whole_text(call: impl Fn(*mut u8, usize) -> usize) -> Result<String, NoMemory> {
    let mut text = Vec::new();
    loop {
        let length = call(text.as_mut_ptr(), text.len());
        if length <= text.len() {
            text.truncate(length);
            return Ok(String::from_utf8(text).expect("a text of the library is ASCII"));
        }
        grow(&mut text, length)?;
    }
}

/// Reads a text of the library, of which there is none where it is empty.
fn read_if_any<T: FromStr>(text: String) -> Result<Option<T>, Error> {
    match text.parse() {
        Ok(read) => Ok(Some(read)),
        Err(_) if text.is_empty() => Ok(None),
        Err(_) => Err(Error::Unknown(text)),
    }
}

/// Makes the text so long, or longer, where there is memory and the length is that of a text.
fn grow(text: &mut Vec<u8>, length: usize) -> Result<(), NoMemory> {
    if length == sys::NO_MEMORY {
        return Err(NoMemory);
    }
    text.try_reserve(length - text.len())
        .map_err(|_| NoMemory)?;
    text.resize(text.capacity(), 0);
    Ok(())
}

impl Drop for Room {
    fn drop(&mut self) {
        let at = self.handle.get_mut().at;
        if !at.is_null() {
            // SAFETY: the handle owns the room, and is gone after this.
            unsafe { sys::mps_close_at(at) }
        }
    }
}

impl fmt::Debug for Room {
    fn fmt(&self, f: &mut fmt::Formatter<'_>) -> fmt::Result {
        f.debug_struct("Room")
            .field("entries", &self.entries())
            .finish_non_exhaustive()
    }
}
