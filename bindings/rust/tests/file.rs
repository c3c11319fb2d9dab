// SPDX-License-Identifier: MIT OR Apache-2.0
//! A room that a file keeps, as a caller sees it; and the questions that change nothing.

use std::fs;
use std::io;
use std::os::unix::fs::symlink;
use std::path::{Path, PathBuf};
use std::process;

use cizhmolat::{
    Answer, Error, Expects, FileError, FileOptions, LineFault, OpenError, Refusal, Room, Sort,
    TextFault, Value,
};

const LOOP: &str = "roles a b ; rec X . a -> b { go : b -> a : text . X , stop : end }";
const TURNS: &str = "roles a b ; rec X . a -> b : int . X";

/// A folder that is removed at the end.
struct Folder(PathBuf);

impl Folder {
    fn new(name: &str) -> Folder {
        let path = std::env::temp_dir().join(format!("cizhmolat-{name}-{}", process::id()));
        fs::create_dir_all(&path).unwrap();
        Folder(path)
    }

    fn file(&self, name: &str) -> PathBuf {
        self.0.join(name)
    }
}

impl Drop for Folder {
    fn drop(&mut self) {
        fs::remove_dir_all(&self.0).unwrap();
    }
}

/// What is wrong where no room is opened.
fn fault(text: &str, path: impl AsRef<Path>) -> FileError {
    Room::open_file(text, path).expect_err("no room")
}

#[test]
fn a_room_goes_on_where_its_file_left_it() {
    for options in [FileOptions::new(), FileOptions::default().sync(true)] {
        let folder = Folder::new(&format!("on-{options:?}").replace(' ', ""));
        let path = folder.file("7.journal");
        let mut room = options.session(7).open(TURNS, &path).unwrap();
        assert_eq!(room.line("a", "1 send b 5"), Ok(Answer::Done(1)));
        assert_eq!(room.line("a", "2 send b 6"), Ok(Answer::Done(2)));
        let received = Ok(Answer::Received(3, Value::Int(5)));
        assert_eq!(room.line("b", "1 recv a x"), received);
        room.sync().unwrap();
        drop(room);
        let mut room = options.session(7).open(TURNS, &path).unwrap();
        assert_eq!(room.entries(), 3);
        assert_eq!(room.entry(1), Ok(Some("a send b 6".into())));
        assert_eq!(room.slot("b", "x"), Ok(Some(Value::Int(5))));
        assert_eq!(room.line("b", "1 recv a x"), received);
        let number = Err(Error::Refused(Refusal::Number));
        assert_eq!(room.line("a", "1 send b 5"), number);
        assert_eq!(room.line("a", "3 rollback 1"), {
            Ok(Answer::Undone(vec![3, 2, 1]))
        });
        assert_eq!(room.entries(), 4);
    }
}

#[test]
fn each_fault_of_a_file() {
    let folder = Folder::new("faults");
    let path = folder.file("1.journal");
    let mut room = Room::open_file(TURNS, &path).unwrap();
    room.line("a", "1 send b 5").unwrap();
    assert!(matches!(fault(TURNS, &path), FileError::Elsewhere));
    drop(room);
    let text = fs::read_to_string(&path).unwrap();
    let digit = if text.starts_with(" 0") { '1' } else { '0' };
    for (changed, number) in [
        (text.replacen("send b 5", "send b 6", 1), 2),
        (format!(" {digit}{}", &text[2..]), 1),
    ] {
        fs::write(&path, &changed).unwrap();
        let FileError::Line {
            number: found,
            fault: LineFault::Changed,
        } = fault(TURNS, &path)
        else {
            panic!("not changed")
        };
        assert_eq!(found, number);
        assert_eq!(fs::read_to_string(&path).unwrap(), changed);
    }
    // lines without seals, as version 0.1 wrote them
    for (lines, number, wanted) in [
        ("a send b 5\na sing\n", 2, LineFault::Unreadable),
        ("b recv a x\n", 1, LineFault::Refused),
    ] {
        fs::write(&path, lines).unwrap();
        match fault(TURNS, &path) {
            FileError::Line {
                number: found,
                fault,
            } => assert_eq!((found, fault), (number, wanted), "{lines}"),
            other => panic!("{other}"),
        }
    }
    fs::write(&path, &text).unwrap();
    for other in [
        FileOptions::new().session(2).open(TURNS, &path),
        Room::open_file(LOOP, &path),
    ] {
        let error = other.expect_err("of another session or protocol");
        assert_eq!(
            error.to_string(),
            "line 1 of the file has a fault: changed",
            "{error:?}"
        );
    }
    assert_eq!(Room::open_file(TURNS, &path).unwrap().entries(), 1);
}

#[test]
fn a_room_by_full_merging_goes_on_by_it_alone() {
    let text = "roles a b c ; a -> b { l : a -> c { l : end } , m : a -> c { m : end } }";
    let folder = Folder::new("full");
    let path = folder.file("1.journal");
    for sync in [false, true] {
        let full = FileOptions::new().full_merging(true).sync(sync);
        let mut room = full.open(text, &path).unwrap();
        assert_eq!(room.line("a", "1 choose b l"), Ok(Answer::Done(1)));
        assert_eq!(room.line("a", "2 rollback 1"), Ok(Answer::Undone(vec![1])));
        assert_eq!(room.line("a", "3 choose b m"), Ok(Answer::Done(2)));
        assert_eq!(room.line("a", "4 choose c m"), Ok(Answer::Done(3)));
        drop(room);
        let kept = fs::read(&path).unwrap();
        let plain = FileOptions::new().sync(sync).open(text, &path);
        let Err(FileError::Room(fault)) = plain else {
            panic!("{plain:?}")
        };
        assert_eq!(fault, OpenError::Projection { role: 2, choice: 0 });
        assert_eq!(fs::read(&path).unwrap(), kept);
        let mut room = full.open(text, &path).unwrap();
        assert_eq!(room.entries(), 4);
        assert_eq!(room.line("a", "4 choose c m"), Ok(Answer::Done(3)));
        let picked = Ok(Answer::Picked(4, "m".into()));
        assert_eq!(room.line("c", "1 pick a"), picked);
        assert_eq!(room.expects("c"), Ok(Some(Expects::End)));
        fs::remove_file(&path).unwrap();
    }
    // where plain merging gives a room too, the file is for both
    for full_merging in [false, true, false] {
        let options = FileOptions::new().full_merging(full_merging);
        let mut room = options.open(TURNS, &path).unwrap();
        room.line("a", "send b 5").unwrap();
    }
    assert_eq!(Room::open_file(TURNS, &path).unwrap().entries(), 3);
}

#[test]
fn what_the_system_refuses() {
    let folder = Folder::new("system");
    let FileError::Io(error) = fault(TURNS, &folder.0) else {
        panic!("a folder is no file")
    };
    assert_eq!(error.kind(), io::ErrorKind::IsADirectory);
    let link = folder.file("link.journal");
    symlink(folder.file("1.journal"), &link).unwrap();
    let FileError::Io(error) = fault(TURNS, &link) else {
        panic!("a link is no file")
    };
    assert_eq!(error.raw_os_error(), Some(40)); // ELOOP
    for session in [0, (1 << 63) + 1, u64::MAX] {
        let options = FileOptions::new().session(session);
        match options.open(TURNS, folder.file("1.journal")) {
            Err(FileError::Io(error)) => {
                assert_eq!(error.kind(), io::ErrorKind::InvalidInput)
            }
            other => panic!("{session}: {other:?}"),
        }
    }
    assert!(matches!(
        fault(TURNS, folder.file("no/1.journal")),
        FileError::Io(_)
    ));
    assert!(matches!(
        fault("roles a b", folder.file("1.journal")),
        FileError::Room(OpenError::Text {
            fault: TextFault::Unexpected,
            at: 9
        })
    ));
    assert!(!folder.file("1.journal").exists());
}

#[test]
fn a_path_may_have_any_bytes() {
    use std::ffi::OsStr;
    use std::os::unix::ffi::OsStrExt;
    let folder = Folder::new("bytes");
    let path = folder.0.join(OsStr::from_bytes(b"\xff \xe9.journal"));
    let mut room = Room::open_file(TURNS, &path).unwrap();
    room.line("a", "send b 5").unwrap();
    assert!(path.exists());
}

#[test]
fn what_a_role_expects() {
    let mut room = Room::open(LOOP).unwrap();
    let labels = vec!["go".to_owned(), "stop".to_owned()];
    let choose = Expects::Choose {
        peer: "b".into(),
        labels: labels.clone(),
    };
    let pick = Expects::Pick {
        peer: "a".into(),
        labels,
    };
    let send = Expects::Send {
        peer: "a".into(),
        sort: Sort::Text,
    };
    let receive = Expects::Receive {
        peer: "b".into(),
        sort: Sort::Text,
    };
    assert_eq!(room.expects("a"), Ok(Some(choose.clone())));
    assert_eq!(room.expects("b"), Ok(Some(pick.clone())));
    room.line("a", "choose b go").unwrap();
    room.line("b", "pick a").unwrap();
    assert_eq!(room.expects("a"), Ok(Some(receive.clone())));
    assert_eq!(room.expects("b"), Ok(Some(send.clone())));
    room.line("b", "send a \"good day\"").unwrap();
    room.line("a", "recv b x").unwrap();
    room.line("a", "choose b stop").unwrap();
    assert_eq!(room.expects("a"), Ok(Some(Expects::End)));
    assert_eq!(room.expects("nobody"), Ok(None));
    for wanted in [choose, pick, send, receive, Expects::End] {
        assert_eq!(wanted.to_string().parse(), Ok(wanted));
    }
    for text in ["", "end a", "send b", "send b real", "pick a", "go b x"] {
        assert!(text.parse::<Expects>().is_err(), "{text}");
    }
}

#[test]
fn what_a_slot_keeps() {
    let mut room =
        Room::open("roles a b ; a -> b : int . a -> b : bool . a -> b : text . end").unwrap();
    let long = "x".repeat(256);
    for (slot, value) in [
        ("x", Value::Int(i64::MIN)),
        ("y", Value::Bool(false)),
        ("x", Value::Text(long)),
    ] {
        room.line("a", format!("send b {value}")).unwrap();
        room.line("b", format!("recv a {slot}")).unwrap();
        assert_eq!(room.slot("b", slot), Ok(Some(value)));
    }
    for (role, slot) in [("a", "x"), ("b", "z"), ("nobody", "x"), ("b", "")] {
        assert_eq!(room.slot(role, slot), Ok(None), "{role} {slot}");
    }
}

#[test]
fn what_a_line_would_be_answered() {
    let mut room = Room::open(TURNS).unwrap();
    room.line("a", "1 send b 5").unwrap();
    room.line("b", "recv a x").unwrap();
    for (role, line, wanted) in [
        ("a", "2 send b 6", Ok(())),
        ("a", "1 send b 6", Ok(())),
        ("a", "3 send b 6", Err(Refusal::Number)),
        ("a", "undo 1", Err(Refusal::Needed(2))),
        ("a", "rollback 1", Ok(())),
        ("b", "recv a x", Err(Refusal::NothingQueued)),
        ("b", "show", Ok(())),
        ("b", "sing", Err(Refusal::Line)),
        ("c", "show", Err(Refusal::NoRole)),
    ] {
        assert_eq!(room.would(role, line), Ok(wanted), "{role} {line}");
        assert_eq!(room.entries(), 2);
    }
    assert_eq!(room.answer(), Ok(Answer::Received(2, Value::Int(5))));
}

#[test]
fn a_room_without_a_file_has_nothing_to_store() {
    assert_eq!(Room::open(LOOP).unwrap().sync(), Ok(()));
}
