//! Machines: events, what they do, and what stands in their way.

use lichenknit::{
    Act, AskKind, Command, Dead, Error, Event, HomeState, Lane, Machine, Obstacle, Op, Size, State,
    TextFault, TextKind,
};

const SIZE: Size = Size { nodes: 2, lines: 4, slots: 2 };
const STORE: Op = Op { line: 0, word: 3, act: Act::Store(42) };

/// A machine in which node 1 has stored to line 0, whose home is at node 0.
fn stored() -> Machine {
    let mut machine = Machine::new(SIZE, 16).unwrap();
    let events = [
        Event::Issue { node: 1, op: STORE },
        Event::Ask { node: 1, line: 0, kind: AskKind::Mread },
        Event::Serve { from: 1, node: 0 },
        Event::Reply { node: 0 },
        Event::Accept { from: 0, node: 1 },
        Event::Perform { node: 1, line: 0 },
    ];
    for event in events {
        assert_eq!(machine.obstacle(event), None);
        machine.step(event).unwrap();
    }
    machine
}

#[test]
fn sizes_out_of_range_are_refused() {
    for (nodes, lines, slots, limit) in
        [(0, 1, 1, 1), (17, 1, 1, 1), (1, 65, 1, 1), (1, 1, 9, 1), (1, 1, 1, 0), (1, 1, 1, 65_537)]
    {
        assert_eq!(
            Machine::new(Size { nodes, lines, slots }, limit).unwrap_err(),
            Error::OutOfRange
        );
    }
    assert_eq!(Error::OutOfRange.to_string(), "SCI_RANGE: a number is outside its limits");
}

#[test]
fn steps_say_what_they_did() {
    let mut machine = Machine::new(SIZE, 16).unwrap();
    assert_eq!(machine.step(Event::Issue { node: 1, op: STORE }).unwrap().packet, None);
    assert_eq!(machine.pending(1, 0).unwrap(), Some((STORE, 0)));
    let asked = machine
        .step(Event::Ask { node: 1, line: 0, kind: AskKind::Mread })
        .unwrap()
        .packet
        .unwrap();
    assert_eq!((asked.command, asked.source, asked.target), (Command::Mread, 1, 0));
    assert_eq!(machine.packets(Lane::Requests, 1, 0).collect::<Vec<_>>(), [asked]);
    assert_eq!(machine.packets(Lane::Answers, 0, 1).count(), 0);
    assert!(machine.held(1, 0).unwrap().waits);
    machine.step(Event::Issue { node: 1, op: Op { line: 2, word: 0, act: Act::Load } }).unwrap();
    machine.step(Event::Ask { node: 1, line: 2, kind: AskKind::Fread }).unwrap();
    assert_eq!(machine.packets(Lane::Requests, 1, 0).map(|it| it.line).collect::<Vec<_>>(), [0, 2]);
    machine.step(Event::Serve { from: 1, node: 0 }).unwrap();
    assert_eq!(machine.answer(0).unwrap().unwrap().command, Command::Mdata);
    assert_eq!(machine.answer(1).unwrap(), None);
}

#[test]
fn a_store_is_seen() {
    let mut machine = stored();
    let held = machine.held(1, 0).unwrap();
    assert_eq!(
        (held.state, held.contents.unwrap().words[3], held.forward),
        (State::Head, 42, None)
    );
    let home = machine.home(0, 0).unwrap().unwrap();
    assert_eq!((home.state, home.head, home.contents), (HomeState::Gone, Some(1), None));
    assert_eq!(machine.home(1, 0).unwrap(), None);
    assert_eq!(
        (machine.home(0, 3).unwrap(), machine.home(1, 3).unwrap().map(|it| it.state)),
        (None, Some(HomeState::Home))
    );
    assert_eq!(machine.sharing(0).unwrap(), [1]);
    assert_eq!(machine.authority(0).unwrap(), Some(1));
    assert_eq!(machine.authority(1).unwrap(), None);
    assert!(machine.settle().unwrap() > 0);
    assert_eq!(machine.last(0).unwrap().words[3], 42);
    let logs = machine.logs().unwrap();
    assert!(logs.audit().unwrap().is_lawful());
    assert_eq!(
        logs.iter().map(|it| (it.node, it.op, it.version)).collect::<Vec<_>>(),
        [(1, STORE, 1)]
    );
}

#[test]
fn what_is_not_enabled_changes_nothing() {
    let mut machine = stored();
    let event = Event::Perform { node: 1, line: 0 };
    assert_eq!(machine.obstacle(event), Some(Obstacle::NothingPending));
    assert_eq!(Obstacle::NothingPending.to_string(), "nothing-pending");
    assert_eq!(machine.step(event).unwrap_err(), Error::NotEnabled);
    assert!(!machine.try_step(event).unwrap());
    assert_eq!(machine.held(2, 0).unwrap_err(), Error::OutOfRange);
    assert_eq!(machine.logs().unwrap().iter().count(), 1);
}

#[test]
fn operations_do_what_they_say() {
    let acts = [
        Act::Store(12),
        Act::MaskSwap { mask: 10, datum: 6 },
        Act::CompareSwap { expected: 6, datum: 20 },
        Act::FetchAdd(5),
        Act::BoundedAdd { bound: 25, datum: 1 },
        Act::BoundedAdd { bound: 0, datum: 1 },
        Act::WrapAdd { bound: 26, datum: 3 },
        Act::Load,
    ];
    let mut machine = Machine::new(Size { nodes: 1, lines: 1, slots: 1 }, 16).unwrap();
    for act in acts {
        machine.step(Event::Issue { node: 0, op: Op { line: 0, word: 0, act } }).unwrap();
        machine.settle().unwrap();
    }
    let logs = machine.logs().unwrap();
    assert_eq!(logs.iter().map(|it| it.op.act).collect::<Vec<_>>(), acts);
    let words = [None, Some(12), Some(6), Some(20), Some(25), Some(25), Some(26), Some(3)];
    assert_eq!(logs.iter().map(|it| it.word).collect::<Vec<_>>(), words);
}

#[test]
fn requests_may_be_refused() {
    let mut machine = Machine::new(SIZE, 16).unwrap();
    let load = Op { line: 0, word: 0, act: Act::Load };
    for event in [
        Event::Issue { node: 1, op: load },
        Event::Ask { node: 1, line: 0, kind: AskKind::Fread },
        Event::Refuse { from: 1, node: 0 },
    ] {
        machine.step(event).unwrap();
    }
    let answer = machine.answer(0).unwrap().unwrap();
    assert_eq!((answer.command, answer.target), (Command::Busy, 1));
}

#[test]
fn a_run_is_written_and_made_again() {
    let mut text = SIZE.text().unwrap();
    for event in [
        Event::Issue { node: 1, op: STORE },
        Event::Ask { node: 1, line: 0, kind: AskKind::Mread },
        Event::Reply { node: 1 },
        Event::Serve { from: 1, node: 0 },
        Event::Reply { node: 0 },
        Event::Accept { from: 0, node: 1 },
        Event::Perform { node: 1, line: 0 },
    ] {
        text += &event.text().unwrap();
    }
    let (machine, dead) = Machine::replay(text.as_bytes(), 16).unwrap();
    assert_eq!(dead, Some(Dead { count: 1, place: 2, obstacle: Obstacle::NoAnswerWaits }));
    assert_eq!(machine.last(0).unwrap(), stored().last(0).unwrap());
    let logs = machine.logs().unwrap();
    let lines: String = logs.iter().map(|it| it.text().unwrap()).collect();
    assert_eq!(lines, "1 0 store 0 3 42 = - @1\n");
    text += "reply 2\n";
    let refused = Machine::replay(text.as_bytes(), 16).unwrap_err();
    assert_eq!(refused, Error::Text(TextFault { line: 9, kind: TextKind::Range }));
    assert_eq!(Machine::replay(b"machine 2 4 2\n", 0).unwrap_err(), Error::OutOfRange);
    assert_eq!(Machine::replay(b"machine 2 4 2\n", 1).unwrap().1, None);
}

#[test]
fn copies_share_nothing() {
    let machine = stored();
    let mut copy = machine.try_clone().unwrap();
    assert!(copy.try_step(Event::Issue { node: 0, op: STORE }).unwrap());
    assert_eq!(
        (machine.pending(0, 0).unwrap(), copy.pending(0, 0).unwrap()),
        (None, Some((STORE, 0)))
    );
}

#[test]
fn machines_go_from_thread_to_thread() {
    let threads: Vec<_> = (0..4).map(|_| std::thread::spawn(stored)).collect();
    for thread in threads {
        assert_eq!(thread.join().unwrap().last(0).unwrap().words[3], 42);
    }
}
