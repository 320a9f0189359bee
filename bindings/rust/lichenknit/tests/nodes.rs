//! Controllers, and packets that the test carries.

use lichenknit::{
    Act, AskKind, Command, Decision, Error, Logs, Node, Op, Packet, PacketBytes, Packets, Size,
    Want,
};

const SIZE: Size = Size { nodes: 3, lines: 4, slots: 2 };
const OPERATIONS: u32 = 200;

/// A node that works through its operations, and the packets that have come to it.
struct Station {
    node: Node,
    issued: u32,
    came: Vec<PacketBytes>,
}

impl Station {
    fn new(me: u8) -> Self {
        Station { node: Node::new(me, SIZE, OPERATIONS).unwrap(), issued: 0, came: Vec::new() }
    }

    /// One turn of the node: it takes what has come, and does what it wants. What it performs goes to the logs.
    fn turn(&mut self, logs: &mut Logs, sent: &mut Vec<PacketBytes>) {
        self.node.begin_turn();
        let op = Op {
            line: (self.issued % 4) as u8,
            word: 0,
            act: if self.issued.is_multiple_of(3) { Act::Load } else { Act::FetchAdd(1) },
        };
        if self.node.issue(op).is_ok() {
            self.issued += 1;
        }
        let (requests, answers): (Vec<_>, Vec<_>) =
            self.came.drain(..).partition(|it| it.is_request());
        for packet in answers {
            self.node.accept(&packet).unwrap();
        }
        for packet in requests {
            match self.node.decide(&packet).unwrap() {
                Decision::Keep => self.came.push(packet),
                Decision::Refuse => self.node.refuse(&packet).unwrap(),
                Decision::Serve => self.node.serve(&packet).unwrap(),
            }
            sent.extend(self.node.take_answer().unwrap());
        }
        while let Some(want) = self.node.next_want() {
            match want {
                Want::Perform { line } => logs.push(&self.node.perform(line).unwrap()).unwrap(),
                Want::Ask { line, kind } => sent.push(self.node.ask(line, kind).unwrap()),
            }
        }
    }
}

#[test]
fn nodes_do_all_their_operations() {
    let mut stations: Vec<_> = (0..SIZE.nodes).map(Station::new).collect();
    let (mut logs, mut sent) = (Logs::new(SIZE.nodes, SIZE.lines).unwrap(), Vec::new());
    let all = usize::from(SIZE.nodes) * OPERATIONS as usize;
    for _ in 0..10_000 {
        stations.iter_mut().for_each(|it| it.turn(&mut logs, &mut sent));
        for packet in sent.drain(..) {
            stations[usize::from(packet.target())].came.push(packet);
        }
        if logs.iter().count() == all {
            break;
        }
    }
    assert_eq!(logs.iter().count(), all);
    for line in 0..SIZE.lines {
        let held = stations
            .iter()
            .flat_map(|it| [it.node.home(line).unwrap(), it.node.held(line).unwrap().contents]);
        logs.set_last(line, held.flatten().max_by_key(|it| it.version).unwrap()).unwrap();
    }
    assert!(logs.audit().unwrap().is_lawful() && logs.has_order().unwrap());
}

#[test]
fn requests_go_out_and_answers_come_back() {
    let (mut home, mut node) = (Node::new(0, SIZE, 4).unwrap(), Node::new(1, SIZE, 4).unwrap());
    let store = Op { line: 0, word: 3, act: Act::Store(42) };
    assert_eq!(node.issue(store), Ok(0));
    assert_eq!(node.issue(store), Err(Error::NotEnabled));
    assert_eq!(node.pending(0), Some((store, 0)));
    let request = node.ask(0, AskKind::Mread).unwrap();
    assert_eq!((request.target(), request.len(), request.is_request()), (0, 16, true));
    assert_eq!(home.decide(&request), Ok(Decision::Serve));
    assert_eq!(home.serve(&request[..15]), Err(Error::Short));
    assert_eq!(home.take_answer(), Ok(None));
    home.serve(&request).unwrap();
    assert_eq!(home.answer().unwrap().command, Command::Mdata);
    let answer = home.take_answer().unwrap().unwrap();
    node.accept(&answer).unwrap();
    assert_eq!(node.accept(&answer), Err(Error::NotEnabled));
    assert_eq!(node.next_want(), Some(Want::Perform { line: 0 }));
    let entry = node.perform(0).unwrap();
    assert_eq!((entry.node, entry.serial, entry.word, entry.version), (1, 0, None, 1));
    assert_eq!(home.home(0), Ok(None));
    assert!(home.is_at_rest() && !node.is_at_rest());
}

#[test]
fn nodes_work_by_turns() {
    let mut nodes: Vec<_> = (0..SIZE.nodes).map(|me| Node::new(me, SIZE, 8).unwrap()).collect();
    let (mut ways, mut performed) = (vec![Vec::new(); nodes.len()], 0);
    for serial in 0..8 {
        for node in &mut nodes {
            let op = Op { line: serial % SIZE.lines, word: 0, act: Act::FetchAdd(1) };
            assert_eq!(node.issue(op), Ok(serial.into()));
        }
        for _ in 0..200 {
            for (me, node) in nodes.iter_mut().enumerate() {
                let turn = node.turn(&ways[me]).unwrap();
                ways[me] = turn.left;
                for packet in turn.sent {
                    ways[usize::from(packet.target)].push(packet);
                }
                if let Some(Want::Perform { line }) = turn.want {
                    node.perform(line).unwrap();
                    performed += 1;
                }
            }
        }
    }
    assert_eq!(performed, 24);
    assert!(ways.iter().all(Vec::is_empty));
}

#[test]
fn a_copy_goes_its_own_way() {
    let mut node = Node::new(1, SIZE, 2).unwrap();
    let load = |line| Op { line, word: 0, act: Act::Load };
    node.issue(load(0)).unwrap();
    let mut copy = node.try_clone().unwrap();
    assert_eq!(node.issue(load(1)), Ok(1));
    assert_eq!(
        (node.issue(load(2)), node.issue(load(1))),
        (Err(Error::Full), Err(Error::NotEnabled))
    );
    assert_eq!((copy.pending(0), copy.pending(1)), (Some((load(0), 0)), None));
    assert_eq!(copy.next_want(), Some(Want::Ask { line: 0, kind: AskKind::Fread }));
}

#[test]
fn packets_are_read_and_written() {
    let node = &mut Node::new(1, SIZE, 4).unwrap();
    node.issue(Op { line: 0, word: 0, act: Act::Load }).unwrap();
    let bytes = node.ask(0, AskKind::Fread).unwrap();
    let (packet, used) = Packet::decode(&bytes).unwrap();
    assert_eq!((packet.command, used), (Command::Fread, 16));
    assert_eq!(packet.encode().unwrap(), bytes);
    assert_eq!(packet.text().unwrap(), "fread to 0 from 1 control 0 line 0\n");
    assert_eq!(Packet::from_words(&packet.to_words().unwrap()), Ok((packet, 2)));
    let twice = [&bytes[..], &bytes[..]].concat();
    assert_eq!(Packets::new(&twice).collect::<Result<Vec<_>, _>>(), Ok(vec![packet, packet]));
    assert_eq!(Packets::new(&twice[..20]).last(), Some(Err(Error::Short)));
    assert_eq!(Packet { line: 1 << 42, ..packet }.encode(), Err(Error::OutOfRange));
    assert_eq!(Packet { command: Command::Mdata, ..packet }.encode(), Err(Error::Short));
}
