//! A node: its homes, its cache, its operations and its log.

use crate::memory::{Contents, Entry, Op};
use crate::packet::{AskKind, Body, NodeId, Packet};
use crate::text::Size;

const MOST_OPERATIONS: u32 = 65_536;

/// What the home of a line keeps.
#[derive(Clone, Copy)]
pub enum HomeState {
    Home(Contents),
    Fresh(NodeId, Contents),
    Gone(NodeId),
}

impl HomeState {
    pub fn contents(&self) -> Option<&Contents> {
        match self {
            HomeState::Home(contents) | HomeState::Fresh(_, contents) => Some(contents),
            HomeState::Gone(_) => None,
        }
    }

    /// Serves a request of node n, and returns the answer. The request is one for a home.
    fn serve(&mut self, n: NodeId, request: &Body) -> Body {
        let (next, answer) = match (*request, *self) {
            (Body::Mread, HomeState::Home(contents)) => (HomeState::Gone(n), Body::Mdata(contents)),
            (Body::Mread, HomeState::Fresh(head, _) | HomeState::Gone(head)) => {
                (HomeState::Gone(n), Body::Mgone { head })
            }
            (Body::Fread, HomeState::Home(contents)) => {
                (HomeState::Fresh(n, contents), Body::Fdata { head: None, contents })
            }
            (Body::Fread, HomeState::Fresh(head, contents)) => {
                (HomeState::Fresh(n, contents), Body::Fdata { head: Some(head), contents })
            }
            (Body::Fread, HomeState::Gone(head)) => (HomeState::Gone(n), Body::Mgone { head }),
            (Body::Claim, HomeState::Fresh(head, _)) if head == n => {
                (HomeState::Gone(n), Body::Wbok)
            }
            (Body::Clear, HomeState::Fresh(head, contents)) if head == n => {
                (HomeState::Home(contents), Body::Wbok)
            }
            (Body::Wback(contents), HomeState::Gone(head)) if head == n => {
                (HomeState::Home(contents), Body::Wbok)
            }
            (_, home) => (home, Body::Wbno),
        };
        *self = next;
        answer
    }
}

/// What a cache keeps for a line.
#[derive(Clone, Copy)]
pub enum Held {
    Out,
    Asking,
    Joining { head: NodeId, sent: bool },
    FreshJoining { head: NodeId, contents: Contents, sent: bool },
    Head { forward: Option<NodeId>, contents: Contents },
    FreshHead { forward: Option<NodeId>, contents: Contents },
    Below { forward: Option<NodeId>, back: NodeId, contents: Contents },
    Purging { next: NodeId, contents: Contents },
    Claiming { forward: Option<NodeId>, contents: Contents },
    Clearing { contents: Contents },
    Returning { contents: Contents },
    Rolling { forward: Option<NodeId>, back: NodeId, contents: Contents },
    Telling { behind: NodeId, before: NodeId, sent: bool },
    Fading,
}

impl Held {
    /// The request of this kind, whom it goes to (None is the home), and the state then.
    fn asking(&self, kind: AskKind) -> Option<(Body, Option<NodeId>, Held)> {
        Some(match (kind, *self) {
            (AskKind::Mread, Held::Out) => (Body::Mread, None, Held::Asking),
            (AskKind::Fread, Held::Out) => (Body::Fread, None, Held::Asking),
            (AskKind::Cread, Held::Joining { head, sent: false }) => {
                (Body::Cread, Some(head), Held::Joining { head, sent: true })
            }
            (AskKind::Cread, Held::FreshJoining { head, contents, sent: false }) => {
                (Body::Cread, Some(head), Held::FreshJoining { head, contents, sent: true })
            }
            (AskKind::Purge, Held::Head { forward: Some(next), contents }) => {
                (Body::Purge, Some(next), Held::Purging { next, contents })
            }
            (AskKind::Wback, Held::Head { forward: None, contents }) => {
                (Body::Wback(contents), None, Held::Returning { contents })
            }
            (AskKind::Claim, Held::FreshHead { forward, contents }) => {
                (Body::Claim, None, Held::Claiming { forward, contents })
            }
            (AskKind::Clear, Held::FreshHead { forward: None, contents }) => {
                (Body::Clear, None, Held::Clearing { contents })
            }
            (AskKind::Roll, Held::Below { forward, back, contents }) => {
                (Body::Roll { forward }, Some(back), Held::Rolling { forward, back, contents })
            }
            (AskKind::Setback, Held::Telling { behind, before, sent: false }) => (
                Body::Setback { back: before },
                Some(behind),
                Held::Telling { behind, before, sent: true },
            ),
            _ => return None,
        })
    }

    /// Serves a request of node n, and returns the answer. The request is one for a cache.
    fn serve(&mut self, n: NodeId, request: &Body) -> Body {
        match (*request, &mut *self) {
            (
                Body::Cread,
                Held::Head { forward, contents } | Held::FreshHead { forward, contents },
            ) => {
                let (forward, contents) = (*forward, *contents);
                *self = Held::Below { forward, back: n, contents };
                Body::Cdata(contents)
            }
            (Body::Purge, Held::Below { forward, .. }) => {
                let forward = *forward;
                *self = Held::Out;
                Body::Purged { forward }
            }
            (Body::Purge, Held::Rolling { forward, .. }) => {
                let forward = *forward;
                *self = Held::Fading;
                Body::Purged { forward }
            }
            (
                Body::Roll { forward: after },
                Held::Head { forward, .. }
                | Held::FreshHead { forward, .. }
                | Held::Below { forward, .. },
            ) if *forward == Some(n) => {
                *forward = after;
                Body::Rolled
            }
            (
                Body::Setback { back: before },
                Held::Below { back, .. } | Held::Rolling { back, .. },
            ) => {
                if *back == n {
                    *back = before;
                }
                Body::Told
            }
            (Body::Setback { .. }, _) => Body::Told,
            _ => Body::Busy,
        }
    }

    /// The state after an answer, or None if it isn't awaited.
    fn accepting(&self, answer: &Body) -> Option<Held> {
        Some(match (*self, *answer) {
            (Held::Asking, Body::Mdata(contents)) => Held::Head { forward: None, contents },
            (Held::Asking, Body::Mgone { head }) => Held::Joining { head, sent: false },
            (Held::Asking, Body::Fdata { head: None, contents }) => {
                Held::FreshHead { forward: None, contents }
            }
            (Held::Asking, Body::Fdata { head: Some(head), contents }) => {
                Held::FreshJoining { head, contents, sent: false }
            }
            (Held::Asking, Body::Busy) => Held::Out,
            (Held::Joining { head, sent: true }, Body::Cdata(contents)) => {
                Held::Head { forward: Some(head), contents }
            }
            (Held::Joining { head, sent: true }, Body::Busy) => Held::Joining { head, sent: false },
            (Held::FreshJoining { head, contents, sent: true }, Body::Cdata(_)) => {
                Held::FreshHead { forward: Some(head), contents }
            }
            (Held::FreshJoining { head, contents, sent: true }, Body::Busy) => {
                Held::FreshJoining { head, contents, sent: false }
            }
            (Held::Purging { contents, .. }, Body::Purged { forward }) => {
                Held::Head { forward, contents }
            }
            (Held::Purging { next, contents }, Body::Busy) => {
                Held::Head { forward: Some(next), contents }
            }
            (Held::Claiming { forward, contents }, Body::Wbok) => Held::Head { forward, contents },
            (Held::Claiming { forward, contents }, Body::Wbno | Body::Busy) => {
                Held::FreshHead { forward, contents }
            }
            (Held::Clearing { .. } | Held::Returning { .. }, Body::Wbok) => Held::Out,
            (Held::Clearing { contents }, Body::Wbno | Body::Busy) => {
                Held::FreshHead { forward: None, contents }
            }
            (Held::Returning { contents }, Body::Wbno | Body::Busy) => {
                Held::Head { forward: None, contents }
            }
            (Held::Rolling { forward: None, .. }, Body::Rolled) => Held::Out,
            (Held::Rolling { forward: Some(behind), back, .. }, Body::Rolled) => {
                Held::Telling { behind, before: back, sent: false }
            }
            (Held::Rolling { forward, back, contents }, Body::Busy) => {
                Held::Below { forward, back, contents }
            }
            (Held::Telling { sent: true, .. }, Body::Told) => Held::Out,
            (Held::Fading, Body::Busy) => Held::Out,
            _ => return None,
        })
    }

    /// The contents on which this operation may be performed now.
    fn performing(&mut self, op: &Op) -> Option<&mut Contents> {
        match self {
            Held::Head { forward: None, contents } => {
                (!op.is_maker() || contents.version < u64::MAX).then_some(contents)
            }
            Held::Head { contents, .. }
            | Held::FreshHead { contents, .. }
            | Held::Below { contents, .. } => (!op.is_maker()).then_some(contents),
            _ => None,
        }
    }
}

/// A set of lines.
#[derive(Clone, Copy, Default)]
pub struct Lines(u64);

impl Lines {
    pub fn has(self, line: u8) -> bool {
        self.0 >> line & 1 != 0
    }

    pub fn set(&mut self, line: u8, is_in: bool) {
        self.0 = self.0 & !(1 << line) | u64::from(is_in) << line;
    }

    pub fn first(self) -> Option<u8> {
        self.iter().next()
    }

    pub fn is_empty(self) -> bool {
        self.0 == 0
    }

    pub fn and(self, other: Lines) -> Lines {
        Lines(self.0 & other.0)
    }

    pub fn or(self, other: Lines) -> Lines {
        Lines(self.0 | other.0)
    }

    pub fn iter(self) -> impl Iterator<Item = u8> {
        let mut rest = self.0;
        std::iter::from_fn(move || {
            let line = (rest != 0).then(|| rest.trailing_zeros() as u8)?;
            rest &= rest - 1;
            Some(line)
        })
    }
}

/// The lines of each kind of state.
#[derive(Default)]
pub struct Kinds {
    pub taken: Lines,
    /// Head or Purging.
    pub drains: Lines,
    /// Head with a next entry.
    pub has_sharers: Lines,
    /// FreshHead with a next entry.
    pub has_fresh_sharers: Lines,
    /// The same, or Claiming.
    pub can_be_due: Lines,
    pub joins: Lines,
    pub must_send: Lines,
    pub gives_way: Lines,
    pub could_give_way: Lines,
}

impl Kinds {
    fn set(&mut self, line: u8, held: &Held) {
        let has_sharers = matches!(held, Held::Head { forward: Some(_), .. });
        self.taken.set(line, !matches!(held, Held::Out));
        self.drains.set(line, has_sharers || matches!(held, Held::Purging { .. }));
        self.has_sharers.set(line, has_sharers);
        let has_fresh_sharers = matches!(held, Held::FreshHead { forward: Some(_), .. });
        self.has_fresh_sharers.set(line, has_fresh_sharers);
        self.can_be_due.set(line, has_fresh_sharers || matches!(held, Held::Claiming { .. }));
        self.joins.set(line, matches!(held, Held::Joining { .. } | Held::FreshJoining { .. }));
        self.must_send.set(
            line,
            matches!(
                held,
                Held::Joining { sent: false, .. }
                    | Held::FreshJoining { sent: false, .. }
                    | Held::Telling { sent: false, .. }
            ),
        );
        self.gives_way.set(
            line,
            matches!(
                held,
                Held::Purging { .. }
                    | Held::Claiming { .. }
                    | Held::Clearing { .. }
                    | Held::Returning { .. }
                    | Held::Rolling { .. }
                    | Held::Telling { .. }
                    | Held::Fading
            ),
        );
        self.could_give_way.set(
            line,
            matches!(held, Held::Head { .. } | Held::FreshHead { .. } | Held::Below { .. }),
        );
    }
}

/// An operation that was issued and isn't performed yet.
#[derive(Clone, Copy)]
pub struct Pending {
    pub op: Op,
    pub serial: u32,
}

pub struct Node {
    pub me: NodeId,
    pub size: Size,
    pub log: Vec<Entry>,
    /// The answer that waits to be sent.
    pub waiting: Option<Packet>,
    pub kinds: Kinds,
    /// The lines on which an operation is pending.
    pub busy: Lines,
    issued: u32,
    homes: Vec<HomeState>,
    held: Vec<Held>,
    /// How often the cache has asked about each line.
    asks: Vec<u16>,
    pending: Vec<Option<Pending>>,
}

impl Node {
    pub fn new(me: NodeId, size: Size) -> Node {
        let Size { nodes, lines, .. } = size;
        let homes = (usize::from(me)..lines).step_by(nodes);
        Node {
            me,
            size,
            log: Vec::new(),
            waiting: None,
            kinds: Kinds::default(),
            busy: Lines::default(),
            issued: 0,
            homes: homes.map(|_| HomeState::Home(Contents::default())).collect(),
            held: vec![Held::Out; lines],
            asks: vec![0; lines],
            pending: vec![None; lines],
        }
    }

    pub fn held(&self, line: u8) -> &Held {
        &self.held[usize::from(line)]
    }

    /// The home of a line, if it is here.
    pub fn home(&self, line: usize) -> Option<&HomeState> {
        (line % self.size.nodes == usize::from(self.me))
            .then(|| &self.homes[line / self.size.nodes])
    }

    pub fn pending(&self, line: u8) -> Option<&Pending> {
        self.pending[usize::from(line)].as_ref()
    }

    pub fn has_maker(&self, line: u8) -> bool {
        self.pending(line).is_some_and(|it| it.op.is_maker())
    }

    pub fn has_slot(&self) -> bool {
        (self.kinds.taken.0.count_ones() as usize) < self.size.slots
    }

    fn hold(&mut self, line: u8, held: Held) {
        self.kinds.set(line, &held);
        self.held[usize::from(line)] = held;
    }

    /// Issues an operation. False if it may not.
    pub fn issue(&mut self, op: Op) -> bool {
        let pending = &mut self.pending[usize::from(op.line)];
        if pending.is_some() || self.issued == MOST_OPERATIONS {
            return false;
        }
        *pending = Some(Pending { op, serial: self.issued });
        self.busy.set(op.line, true);
        self.issued += 1;
        true
    }

    pub fn may_perform(&mut self, line: u8) -> bool {
        let place = usize::from(line);
        match self.pending[place] {
            Some(Pending { op, .. }) => self.held[place].performing(&op).is_some(),
            None => false,
        }
    }

    /// Performs the operation that is pending on a line. False if it can't be.
    pub fn perform(&mut self, line: u8) -> bool {
        let place = usize::from(line);
        let Some(Pending { op, serial }) = self.pending[place] else {
            return false;
        };
        let Some(contents) = self.held[place].performing(&op) else {
            return false;
        };
        let reply = contents.apply(&op);
        self.log.push(Entry { op, reply, version: contents.version, serial });
        self.pending[place] = None;
        self.busy.set(line, false);
        true
    }

    /// Asks a request about a line. The packet has to be sent. None if the node can't ask it.
    pub fn ask(&mut self, line: u8, kind: AskKind) -> Option<Packet> {
        let needs_slot = matches!(kind, AskKind::Mread | AskKind::Fread);
        if needs_slot && !self.has_slot() {
            return None;
        }
        let (body, target, next) = self.held(line).asking(kind)?;
        let home = (usize::from(line) % self.size.nodes) as NodeId;
        let asks = &mut self.asks[usize::from(line)];
        let control = *asks;
        *asks = asks.wrapping_add(1);
        self.hold(line, next);
        let target = target.unwrap_or(home);
        Some(Packet { target, source: self.me, control, line: u64::from(line), body })
    }

    /// Whom a request that the node can ask goes to.
    pub fn target_of(&self, line: u8, kind: AskKind) -> NodeId {
        let home = (usize::from(line) % self.size.nodes) as NodeId;
        self.held(line).asking(kind).and_then(|(_, target, _)| target).unwrap_or(home)
    }

    /// Serves a request; the answer waits.
    pub fn serve(&mut self, request: &Packet) {
        let line = request.line as u8;
        let is_for_home = matches!(
            request.body,
            Body::Mread | Body::Fread | Body::Claim | Body::Clear | Body::Wback(_)
        );
        let body = if is_for_home {
            let home = &mut self.homes[usize::from(line) / self.size.nodes];
            home.serve(request.source, &request.body)
        } else {
            let held = &mut self.held[usize::from(line)];
            let body = held.serve(request.source, &request.body);
            self.kinds.set(line, held);
            body
        };
        self.answer(request, body);
    }

    /// Answers a request busy. False if it is one that may not be refused.
    pub fn refuse(&mut self, request: &Packet) -> bool {
        if matches!(request.body, Body::Setback { .. }) {
            return false;
        }
        self.answer(request, Body::Busy);
        true
    }

    fn answer(&mut self, request: &Packet, body: Body) {
        let Packet { source, control, line, .. } = *request;
        self.waiting = Some(Packet { target: source, source: self.me, control, line, body });
    }

    /// Accepts an answer. False if it isn't awaited.
    pub fn accept(&mut self, answer: &Packet) -> bool {
        let line = answer.line as u8;
        if answer.control != self.asks[usize::from(line)].wrapping_sub(1) {
            return false;
        }
        let Some(next) = self.held(line).accepting(&answer.body) else {
            return false;
        };
        self.hold(line, next);
        true
    }

    pub fn is_at_rest(&self) -> bool {
        self.busy.is_empty() && self.kinds.taken.is_empty()
    }
}

/// The contents of a line in a node that may change it or is about to, by the answer that is under way to it.
fn authority(held: &Held, answer: Option<&Body>) -> Option<Contents> {
    match (held, answer) {
        (Held::Head { contents, .. } | Held::FreshHead { contents, .. }, None) => Some(*contents),
        (Held::Purging { contents, .. } | Held::Claiming { contents, .. }, _) => Some(*contents),
        (Held::Clearing { contents } | Held::Returning { contents }, answer) => {
            (answer != Some(&Body::Wbok)).then_some(*contents)
        }
        (Held::Asking, Some(Body::Mdata(contents) | Body::Fdata { head: None, contents })) => {
            Some(*contents)
        }
        (Held::Joining { .. } | Held::FreshJoining { .. }, Some(Body::Cdata(contents))) => {
            Some(*contents)
        }
        _ => None,
    }
}

/// The last contents of a line, in its home or at the node that may change it, by the answers under way.
pub fn last_contents(nodes: &[Node], answers: &[Packet], line: usize) -> Contents {
    let home = nodes[line % nodes.len()].home(line);
    if let Some(contents) = home.and_then(HomeState::contents) {
        return *contents;
    }
    let found = nodes.iter().find_map(|node| {
        let is_to_it = |it: &&Packet| it.line == line as u64 && it.target == node.me;
        let answer = answers.iter().find(is_to_it).map(|it| &it.body);
        authority(&node.held[line], answer)
    });
    found.expect("a line whose home has no contents has an authority")
}
