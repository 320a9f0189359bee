//! What a node's controller decides by itself.

use crate::node::{Held, Lines, Node};
use crate::packet::{AskKind, Body, NodeId, Packet};

const PATIENCE: u8 = 64;

/// An event that a controller would make next.
#[derive(Clone, Copy)]
pub enum Want {
    Perform,
    Ask(u8, AskKind),
}

/// What is done with a request.
pub enum Decision {
    Keep,
    Refuse,
    Serve,
}

#[derive(Default)]
pub struct Policy {
    draining: Lines,
    due: Lines,
    used: Lines,
    patience: u8,
    turns: u8,
    served: Option<NodeId>,
}

impl Policy {
    pub fn begin_turn(&mut self) {
        self.turns = (self.turns + 1) % PATIENCE;
    }

    pub fn served(&mut self, node: NodeId) {
        self.served = Some(node);
    }

    /// The node whose requests a turn looks at first.
    pub fn first_sender(&self, nodes: usize) -> usize {
        self.served.map_or(0, |node| (usize::from(node) + 1) % nodes)
    }

    pub fn next(&mut self, node: &mut Node) -> Option<Want> {
        self.draining = self.draining.and(node.kinds.drains);
        self.due = self.due.and(node.kinds.can_be_due);
        self.patience += 1;
        if self.patience == PATIENCE {
            self.draining = self.draining.or(node.kinds.has_sharers);
            self.due = self.due.or(node.kinds.has_fresh_sharers);
            self.patience = 0;
        }
        let want = self.wanted(node);
        match want {
            Some(Want::Perform) => {
                for line in node.busy.and(node.kinds.could_give_way).iter() {
                    if matches!(node.held(line), Held::Head { .. }) && node.may_perform(line) {
                        self.used.set(line, true);
                    }
                }
            }
            Some(Want::Ask(line, AskKind::Purge)) => self.draining.set(line, true),
            Some(Want::Ask(line, AskKind::Mread | AskKind::Fread)) => self.used.set(line, false),
            _ => {}
        }
        want
    }

    fn wanted(&self, node: &mut Node) -> Option<Want> {
        if node.is_at_rest() {
            return None;
        }
        let with_contents = node.busy.and(node.kinds.could_give_way);
        if with_contents.iter().any(|line| node.may_perform(line)) {
            return Some(Want::Perform);
        }
        let (line, kind) = self.ruled(node)?;
        let asks_home_to_change = matches!(kind, AskKind::Claim | AskKind::Clear | AskKind::Wback);
        if asks_home_to_change && !node.kinds.joins.is_empty() {
            return None;
        }
        Some(Want::Ask(line, kind))
    }

    fn ruled(&self, node: &Node) -> Option<(u8, AskKind)> {
        let kinds = &node.kinds;
        if let Some(line) = kinds.has_sharers.and(self.draining.or(node.busy)).first() {
            return Some((line, AskKind::Purge));
        }
        if let Some(line) = kinds.must_send.first() {
            return Some((line, own_ask(node, line)?));
        }
        if let Some(line) = kinds.has_fresh_sharers.and(self.due).first() {
            return Some((line, AskKind::Claim));
        }
        if !node.has_slot() && kinds.gives_way.is_empty() {
            let oldest = oldest(node, |_| Some(()));
            if oldest.is_some_and(|(line, ())| !kinds.taken.has(line)) {
                let line = kinds.could_give_way.first()?;
                return Some((line, own_ask(node, line)?));
            }
        }
        oldest(node, |line| operation_asks(node, line))
    }

    fn refuses(&self, node: &Node, line: u8) -> bool {
        self.draining.and(node.kinds.drains).has(line)
            || (matches!(node.held(line), Held::Head { .. })
                && node.has_maker(line)
                && !(self.turns == 0 && self.used.has(line)))
    }

    pub fn keeps(&self, node: &Node, request: &Packet) -> bool {
        if request.body != Body::Cread || request.source == node.me {
            return false;
        }
        let line = request.line as u8;
        match node.held(line) {
            Held::Claiming { .. } | Held::Clearing { .. } | Held::Returning { .. } => true,
            _ if self.turns == 0 => false,
            Held::Asking
            | Held::Joining { .. }
            | Held::FreshJoining { .. }
            | Held::Purging { .. } => true,
            _ => self.refuses(node, line),
        }
    }

    pub fn decide(&self, node: &Node, request: &Packet) -> Decision {
        if self.keeps(node, request) {
            Decision::Keep
        } else if request.body == Body::Cread && self.refuses(node, request.line as u8) {
            Decision::Refuse
        } else {
            Decision::Serve
        }
    }
}

/// What a line with an entry asks.
fn own_ask(node: &Node, line: u8) -> Option<AskKind> {
    Some(match node.held(line) {
        Held::Joining { sent: false, .. } | Held::FreshJoining { sent: false, .. } => {
            AskKind::Cread
        }
        Held::Head { forward: Some(_), .. } => AskKind::Purge,
        Held::Head { .. } => AskKind::Wback,
        Held::FreshHead { forward: Some(_), .. } => AskKind::Claim,
        Held::FreshHead { .. } if node.has_maker(line) => AskKind::Claim,
        Held::FreshHead { .. } => AskKind::Clear,
        Held::Below { .. } => AskKind::Roll,
        Held::Telling { sent: false, .. } => AskKind::Setback,
        _ => return None,
    })
}

/// What the operation that is pending on a line asks for.
fn operation_asks(node: &Node, line: u8) -> Option<AskKind> {
    match node.held(line) {
        Held::Out if !node.has_slot() => None,
        Held::Out if node.has_maker(line) => Some(AskKind::Mread),
        Held::Out => Some(AskKind::Fread),
        Held::FreshHead { .. } | Held::Below { .. } => own_ask(node, line),
        _ => None,
    }
}

/// Of the lines with an operation pending for which something is found, that of the oldest operation.
fn oldest<T>(node: &Node, find: impl Fn(u8) -> Option<T>) -> Option<(u8, T)> {
    let mut best: Option<(u32, u8, T)> = None;
    for line in node.busy.iter() {
        let Some(pending) = node.pending(line) else {
            continue;
        };
        if best.as_ref().is_some_and(|it| it.0 < pending.serial) {
            continue;
        }
        if let Some(found) = find(line) {
            best = Some((pending.serial, line, found));
        }
    }
    best.map(|(_, line, found)| (line, found))
}
