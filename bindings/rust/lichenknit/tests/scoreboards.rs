//! An audit entry by entry.

use lichenknit::{Act, Contents, Entry, Error, Op, Scoreboard, VerdictKind};

#[test]
fn entries_are_judged_as_they_come() {
    let mut board = Scoreboard::new(2, 2).unwrap();
    board.begin(1, Contents { version: 5, words: [7, 0, 0, 0, 0, 0, 0, 0] }).unwrap();
    let store = Entry {
        node: 0,
        serial: 0,
        op: Op { line: 1, word: 0, act: Act::Store(8) },
        word: None,
        version: 6,
    };
    let load =
        Entry { node: 1, op: Op { line: 1, word: 0, act: Act::Load }, word: Some(8), ..store };
    assert_eq!(board.tell(&load), Ok(None));
    assert!(board.tell(&store).unwrap().unwrap().is_lawful());
    assert_eq!(
        board.contents(1).unwrap(),
        Contents { version: 6, words: [8, 0, 0, 0, 0, 0, 0, 0] }
    );
    let stale = board.tell(&Entry { word: Some(7), ..load }).unwrap().unwrap();
    assert_eq!((stale.kind, stale.line, stale.entry), (VerdictKind::WrongReply, 1, Some((1, 0))));
    assert!(board.tell(&load).unwrap().unwrap().is_lawful());
    let again = board.tell(&load).unwrap().unwrap();
    assert_eq!(again.kind, VerdictKind::OutOfOrder);
    assert_eq!(board.tell(&Entry { node: 2, ..load }), Err(Error::OutOfRange));
    assert_eq!(board.contents(2), Err(Error::OutOfRange));
}
