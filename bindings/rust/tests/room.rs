// SPDX-License-Identifier: MIT OR Apache-2.0
//! A room as a caller sees it: each form of an answer, each refusal that a room gives, and each fault of a protocol.

use cizhmolat::{
    Answer, Choice, Error, Expects, OpenError, ProtocolFault, Refusal, Room, TextFault, Value,
};

const RELAY: &str = "roles a b c ; a -> b : int . b -> c : int . end";
const LOOP: &str = "roles a b ; rec X . a -> b { go : b -> a : text . X , stop : end }";

/// What the room answers to `ROLE COMMAND`.
fn say(room: &mut Room, line: &str) -> Result<Answer, Error> {
    let (role, command) = line.split_once(' ').expect("a role and a command");
    room.line(role, command)
}

#[test]
fn each_form_of_an_answer() {
    let mut room = Room::open(LOOP).unwrap();
    for (line, answer) in [
        ("a choose b go", Answer::Done(1)),
        ("b pick a", Answer::Picked(2, "go".into())),
        ("b send a \"good day\"", Answer::Done(3)),
        (
            "a recv b x",
            Answer::Received(4, Value::Text("good day".into())),
        ),
        ("a mark m", Answer::Done(5)),
        ("a back m", Answer::Undone(vec![])),
        ("a rollback 1", Answer::Undone(vec![5, 4, 3, 2, 1])),
        (
            "b news 0",
            Answer::News {
                entries: 7,
                gone: vec![3, 2],
            },
        ),
        (
            "a news 7",
            Answer::News {
                entries: 7,
                gone: vec![],
            },
        ),
        ("a 1 commit", Answer::Done(6)),
    ] {
        assert_eq!(say(&mut room, line), Ok(answer.clone()), "{line}");
        assert_eq!(room.answer(), Ok(answer));
    }
    let Ok(Answer::Shown(shown)) = room.line("b", "show") else {
        panic!("no shown session")
    };
    assert!(
        shown.starts_with("{\"history\":[[6,\"a\",\"commit\"]]"),
        "{shown}"
    );
    assert_eq!(room.entries(), 8);
    assert_eq!(room.entry(2), Ok(Some("b send a \"good day\"".into())));
    assert_eq!(room.entry(8), Ok(None));
}

#[test]
fn each_sort_of_a_value() {
    let mut room =
        Room::open("roles a b ; a -> b : int . a -> b : bool . a -> b : text . end").unwrap();
    for value in [
        Value::Int(i64::MIN),
        Value::Bool(true),
        Value::Text(String::new()),
    ] {
        let step = room.entries() + 1;
        assert_eq!(
            room.line("a", format!("send b {value}")),
            Ok(Answer::Done(step))
        );
        assert_eq!(
            room.line("b", "recv a x"),
            Ok(Answer::Received(step + 1, value))
        );
    }
    for text in [
        "+5",
        "007",
        "-0",
        "-",
        "",
        "x",
        "9223372036854775808",
        "\"",
        "\"a",
        "a\"",
    ] {
        assert!(text.parse::<Value>().is_err(), "{text}");
    }
    for inner in [
        "\"",
        "a\"b",
        "\\",
        "\u{e9}",
        "\n",
        "\x1f",
        "\x7f",
        &"x".repeat(257),
    ] {
        assert!(
            format!("\"{inner}\"").parse::<Value>().is_err(),
            "{inner:?}"
        );
    }
    for inner in ["", " ", "a ~ b", &"x".repeat(256)] {
        assert_eq!(
            format!("\"{inner}\"").parse(),
            Ok(Value::Text(inner.into()))
        );
    }
}

#[test]
fn each_refusal_of_a_room() {
    let mut room = Room::open(RELAY).unwrap();
    for (line, refusal) in [
        ("c send a 1", Refusal::WrongAct),
        ("a send c 5", Refusal::WrongPeer),
        ("a send b true", Refusal::WrongSort),
        ("b recv a x", Refusal::NothingQueued),
        ("a undo 1", Refusal::NoStep),
        ("a back m", Refusal::NoMark),
        ("a sing", Refusal::Line),
        ("z send b 5", Refusal::NoRole),
        ("a 2 send b 5", Refusal::Number),
    ] {
        assert_eq!(say(&mut room, line), Err(Error::Refused(refusal)), "{line}");
    }
    for line in ["a 1 send b 5", "b recv a x"] {
        say(&mut room, line).unwrap();
    }
    assert_eq!(say(&mut room, "a 1 send b 5"), Ok(Answer::Done(1)));
    assert_eq!(say(&mut room, "a mark m").unwrap(), Answer::Done(3));
    for (line, refusal) in [
        ("a send b 5", Refusal::Ended),
        ("b undo 1", Refusal::NotYours),
        ("a undo 1", Refusal::Needed(2)),
    ] {
        assert_eq!(say(&mut room, line), Err(Error::Refused(refusal)), "{line}");
    }
    say(&mut room, "b commit").unwrap();
    assert_eq!(
        say(&mut room, "a rollback 1"),
        Err(Error::Refused(Refusal::Final(4)))
    );
    let mut room = Room::open(LOOP).unwrap();
    assert_eq!(
        say(&mut room, "a choose b no"),
        Err(Error::Refused(Refusal::NoLabel))
    );
}

#[test]
fn a_full_room() {
    let mut room = Room::open(RELAY).unwrap();
    for step in 1..=100_000 {
        assert_eq!(room.line("c", "mark m"), Ok(Answer::Done(step)));
    }
    assert_eq!(room.line("c", "mark m"), Err(Error::Refused(Refusal::Full)));
}

#[test]
fn each_kind_of_a_fault() {
    let text = |fault, at| OpenError::Text { fault, at };
    for (protocol, fault) in [
        ("roles a b ; a -> Bc : int . end", text(TextFault::Word, 17)),
        ("", text(TextFault::Unexpected, 0)),
        (
            "roles a a ; end",
            OpenError::Protocol(ProtocolFault::DoubleRole),
        ),
        (
            "roles a b ; rec X . rec Y . X",
            OpenError::Protocol(ProtocolFault::Unguarded),
        ),
        (
            "roles a b c ; a -> b { l : a -> c : int . end , r : end }",
            OpenError::Projection { role: 2, choice: 0 },
        ),
    ] {
        assert_eq!(Room::open(protocol).unwrap_err(), fault, "{protocol}");
    }
    assert_eq!(
        text(TextFault::Word, 17).to_string(),
        "the text has a fault at byte 17: word"
    );
}

/// The choice of a is told to b, and then to c by labels of its own.
const TOLD: &str = "roles a b c ; rec X . \
    a -> b { go : a -> c { go : c -> a : int . X } , stop : a -> c { stop : end } }";

#[test]
fn a_room_by_full_merging() {
    let fault = Room::open(TOLD).unwrap_err();
    assert_eq!(fault, OpenError::Projection { role: 2, choice: 0 });
    let mut room = Room::open_full(TOLD).unwrap();
    for (line, answer) in [
        ("a choose b stop", Answer::Done(1)),
        ("a choose c stop", Answer::Done(2)),
        ("c pick a", Answer::Picked(3, "stop".into())),
        ("a rollback 1", Answer::Undone(vec![3, 2, 1])),
        ("a choose b go", Answer::Done(4)),
        ("a choose c go", Answer::Done(5)),
        ("c pick a", Answer::Picked(6, "go".into())),
        ("c send a 5", Answer::Done(7)),
        ("a recv c x", Answer::Received(8, Value::Int(5))),
        ("b pick a", Answer::Picked(9, "go".into())),
        ("a choose b stop", Answer::Done(10)),
        ("b pick a", Answer::Picked(11, "stop".into())),
        ("a choose c stop", Answer::Done(12)),
        ("c pick a", Answer::Picked(13, "stop".into())),
    ] {
        assert_eq!(say(&mut room, line), Ok(answer), "{line}");
    }
    for role in ["a", "b", "c"] {
        assert_eq!(room.expects(role), Ok(Some(Expects::End)), "{role}");
    }
}

#[test]
fn what_full_merging_refuses_too() {
    let text = "roles a b c ; a -> b { l : a -> c : int . end , r : end }";
    let fault = Room::open_full(text).unwrap_err();
    assert_eq!(fault, OpenError::Projection { role: 2, choice: 0 });
    assert_eq!(
        fault.explained_full(text),
        "`c` takes no part in the choice between `a` and `b`, and can't be ready for all branches: `l`, `r`"
    );
    for text in ["", "roles a a ; end"] {
        let fault = Room::open_full(text).unwrap_err();
        assert_eq!(fault, Room::open(text).unwrap_err());
        assert_eq!(fault.explained_full(text), fault.to_string());
    }
}

#[test]
fn the_choice_of_a_projection() {
    let text = "roles a b c d;\na->b{ l : c -> d : int . b -> a { m : a -> c : int . end , n : end } , r : end }";
    let fault = Room::open(text).unwrap_err();
    assert_eq!(fault, OpenError::Projection { role: 2, choice: 1 });
    assert_eq!(
        fault.explained(text),
        "`c` takes no part in the choice between `b` and `a`, and doesn't do the same in all branches: `m`, `n`"
    );
    for (number, sender, receiver, labels) in [(0, "a", "b", ["l", "r"]), (1, "b", "a", ["m", "n"])]
    {
        let choice = Choice {
            sender: sender.into(),
            receiver: receiver.into(),
            labels: labels.map(String::from).into(),
        };
        assert_eq!(Room::choice(text, number), Ok(Some(choice)));
    }
    let unread = "roles a b ; a -> b { l : end , r";
    for (text, number) in [
        (text, 2),
        (text, u64::MAX),
        (unread, 0),
        ("", 0),
        (RELAY, 0),
    ] {
        assert_eq!(Room::choice(text, number), Ok(None), "{text} {number}");
    }
    // where the text isn't the one that was refused, and hasn't such a role or choice
    for other in [RELAY, unread, "", "roles"] {
        assert_eq!(fault.explained(other), fault.to_string(), "{other}");
    }
    let fault = Room::open(unread).unwrap_err();
    assert_eq!(fault.explained(unread), fault.to_string());
    assert_eq!(
        fault.to_string(),
        "the text has a fault at byte 32: unexpected"
    );
}

#[test]
fn what_an_error_says() {
    let mut room = Room::open(RELAY).unwrap();
    let error = say(&mut room, "a undo 1").unwrap_err();
    assert_eq!(
        error.to_string(),
        "refused: no step of that number survives"
    );
    let Error::Refused(refusal) = error else {
        panic!("not refused")
    };
    assert_eq!(refusal.word(), "nostep");
}
