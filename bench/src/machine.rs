//! The machine that does single events.

use crate::memory::Logs;
use crate::node::{Node, last_contents};
use crate::packet::{NodeId, Packet};
use crate::text::{Event, Size};
use std::collections::VecDeque;

pub struct Machine {
    nodes: Vec<Node>,
    requests: Vec<VecDeque<Packet>>,
    answers: Vec<VecDeque<Packet>>,
}

impl Machine {
    pub fn new(size: Size) -> Machine {
        let lanes = size.nodes * size.nodes;
        Machine {
            nodes: (0..size.nodes).map(|me| Node::new(me as NodeId, size)).collect(),
            requests: vec![VecDeque::new(); lanes],
            answers: vec![VecDeque::new(); lanes],
        }
    }

    fn lane(&self, from: usize, to: usize) -> usize {
        from * self.nodes.len() + to
    }

    /// Does an event. One that isn't enabled changes nothing.
    pub fn apply(&mut self, event: &Event) {
        match *event {
            Event::Issue(n, op) => {
                self.nodes[usize::from(n)].issue(op);
            }
            Event::Perform(n, line) => {
                self.nodes[usize::from(n)].perform(line);
            }
            Event::Ask(n, line, kind) => {
                let n = usize::from(n);
                if let Some(request) = self.nodes[n].ask(line, kind) {
                    let lane = self.lane(n, usize::from(request.target));
                    self.requests[lane].push_back(request);
                }
            }
            Event::Serve(j, n) => {
                let lane = self.lane(usize::from(j), usize::from(n));
                let node = &mut self.nodes[usize::from(n)];
                if node.waiting.is_none()
                    && let Some(request) = self.requests[lane].pop_front()
                {
                    node.serve(&request);
                }
            }
            Event::Refuse(j, n) => {
                let lane = self.lane(usize::from(j), usize::from(n));
                let node = &mut self.nodes[usize::from(n)];
                if node.waiting.is_none()
                    && let Some(request) = self.requests[lane].front()
                    && node.refuse(request)
                {
                    self.requests[lane].pop_front();
                }
            }
            Event::Reply(n) => {
                let n = usize::from(n);
                if let Some(answer) = self.nodes[n].waiting.take() {
                    let lane = self.lane(n, usize::from(answer.target));
                    self.answers[lane].push_back(answer);
                }
            }
            Event::Accept(j, n) => {
                let lane = self.lane(usize::from(j), usize::from(n));
                if let Some(answer) = self.answers[lane].front()
                    && self.nodes[usize::from(n)].accept(answer)
                {
                    self.answers[lane].pop_front();
                }
            }
        }
    }

    pub fn into_logs(self) -> Logs {
        let lines = self.nodes[0].size.lines;
        let waiting = self.nodes.iter().filter_map(|it| it.waiting);
        let answers: Vec<Packet> = waiting.chain(self.answers.iter().flatten().copied()).collect();
        let last = (0..lines).map(|line| last_contents(&self.nodes, &answers, line)).collect();
        Logs { nodes: self.nodes.into_iter().map(|it| it.log).collect(), last }
    }
}
