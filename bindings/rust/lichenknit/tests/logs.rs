//! Logs of any machine: read, written, audited and put in order.

use lichenknit::{
    Act, Contents, Entry, Error, Logs, Op, Order, TextFault, TextKind, VerdictKind, Wanted,
};

const LOG: &str =
    "log 2 2 1\nlast 0 @1 7 0 0 0 0 0 0 0\n0 0 store 0 0 7 = - @1\n1 0 load 0 0 = 7 @1\n";
const STORE_BUFFER: &str = include_str!("../../../../examples/store-buffer.log");

#[test]
fn texts_are_read_and_written() {
    let logs: Logs = LOG.parse().unwrap();
    assert_eq!(logs.text().unwrap(), LOG);
    assert_eq!(logs.size(), (2, 1));
    assert_eq!(
        (logs.count(0), logs.count(1), logs.count(16)),
        (Ok(1), Ok(1), Err(Error::OutOfRange))
    );
    assert_eq!(logs.of(1).map(|it| it.word).collect::<Vec<_>>(), [Some(7)]);
    assert_eq!(logs.last(0).unwrap().words[0], 7);
    let fault = Error::Text(TextFault { line: 3, kind: TextKind::Syntax });
    assert_eq!(
        "log 2 2 1\nlast 0 @1 7 0 0 0 0 0 0 0\n0 zero\n".parse::<Logs>().unwrap_err(),
        fault
    );
    assert!(Logs::new(1, 1).unwrap().explain().unwrap() == "lawful\n");
    assert_eq!(fault.to_string(), "SCI_TEXT: the text has a fault: line 3: Syntax");
}

#[test]
fn entries_are_pushed_and_judged() {
    let mut logs = Logs::new(2, 1).unwrap();
    let store = Entry {
        node: 0,
        serial: 0,
        op: Op { line: 0, word: 0, act: Act::Store(7) },
        word: None,
        version: 1,
    };
    let load =
        Entry { node: 1, op: Op { line: 0, word: 0, act: Act::Load }, word: Some(8), ..store };
    logs.push(&store).unwrap();
    logs.push(&load).unwrap();
    logs.set_last(0, Contents { version: 1, words: [7, 0, 0, 0, 0, 0, 0, 0] }).unwrap();
    let verdict = logs.audit().unwrap();
    assert_eq!(
        (verdict.kind, verdict.line, verdict.entry),
        (VerdictKind::WrongReply, 0, Some((1, 0)))
    );
    assert_eq!(verdict.kind.to_string(), "wrong-reply");
    assert_eq!(logs.wanted().unwrap(), Some(Wanted { word: 7, maker: Some(store) }));
    assert_eq!(LOG.parse::<Logs>().unwrap().wanted(), Ok(None));
    assert_eq!(logs.order().unwrap(), Order::Unlawful);
    assert_eq!(logs.push(&Entry { word: Some(1), ..store }), Err(Error::OutOfRange));
    assert_eq!(logs.push(&Entry { node: 2, ..store }), Err(Error::OutOfRange));
}

#[test]
fn logs_that_were_cut_off_have_any_last_contents() {
    let store = Op { line: 0, word: 3, act: Act::Store(42) };
    let made = Entry { node: 0, serial: 0, op: store, word: None, version: 1 };
    let mut logs = Logs::new(1, 1).unwrap();
    logs.push(&made).unwrap();
    assert!(!logs.audit().unwrap().is_lawful());
    assert!(logs.audit_cut_off().unwrap().is_lawful());
    logs.push(&Entry { serial: 1, ..made }).unwrap();
    assert!(!logs.audit_cut_off().unwrap().is_lawful());
}

#[test]
fn orders_and_cycles_are_found() {
    let logs: Logs = LOG.parse().unwrap();
    let Order::Order(entries) = logs.order().unwrap() else { panic!("there is an order") };
    assert_eq!(entries.iter().map(|it| it.node).collect::<Vec<_>>(), [0, 1]);
    assert!(logs.has_order().unwrap());
    assert_eq!(Logs::new(1, 1).unwrap().order().unwrap(), Order::Order(Vec::new()));
    let buffered: Logs = STORE_BUFFER.parse().unwrap();
    assert!(buffered.audit().unwrap().is_lawful() && !buffered.has_order().unwrap());
    let Order::Cycle(entries) = buffered.order().unwrap() else { panic!("there is a cycle") };
    assert_eq!(
        entries.iter().map(|it| (it.node, it.serial)).collect::<Vec<_>>(),
        [(0, 0), (1, 1), (1, 0), (0, 1)]
    );
}

#[test]
fn windows_go_on_where_the_last_one_ended() {
    let add = Entry {
        node: 1,
        serial: 0,
        op: Op { act: Act::FetchAdd(1), line: 0, word: 3 },
        word: Some(0),
        version: 1,
    };
    let contents = |version| Contents { version, words: [0, 0, 0, version, 0, 0, 0, 0] };
    let mut logs = Logs::new(2, 1).unwrap();
    for version in 0..4 {
        assert_eq!(logs.first(0).unwrap(), contents(version));
        logs.push(&Entry { word: Some(version), version: version + 1, ..add }).unwrap();
        logs.set_last(0, contents(version + 1)).unwrap();
        assert!(logs.audit().unwrap().is_lawful() && logs.has_order().unwrap());
        logs.go_on().unwrap();
        assert_eq!(logs.iter().count(), 0);
    }
    assert_eq!(logs.text(), Err(Error::OutOfRange));
    logs.push(&Entry { word: Some(4), version: 5, ..add }).unwrap();
    logs.set_last(0, contents(5)).unwrap();
    logs.set_first(0, contents(3)).unwrap();
    assert_eq!(logs.audit().unwrap().kind, VerdictKind::VersionMissing);
}

#[test]
fn many_calls_keep_nothing() {
    let used = |_| {
        std::fs::read_to_string("/proc/self/statm")
            .map_or(0, |it| it.split(' ').nth(1).map_or(0, |it| it.parse::<u64>().unwrap()))
    };
    let before = used(LOG.parse::<Logs>().unwrap().text().unwrap());
    for _ in 0..100_000 {
        assert_eq!(LOG.parse::<Logs>().unwrap().iter().count(), 2);
    }
    assert!(used(String::new()) < before + 256, "pages");
}
