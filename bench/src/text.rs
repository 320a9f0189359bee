//! Scripts, schedules and logs as text.

use crate::digits::{self, Digits};
use crate::memory::{Action, Contents, Entry, Logs, Op};
use crate::packet::AskKind;
use std::io::{self, Read};
use std::ops::RangeInclusive;

const MOST_BYTES: u64 = 134_217_728;
const MOST_EVENTS: usize = 500_000;
const MOST_OPERATIONS: usize = 65_536;
const MOST_LINE: usize = 256;

#[derive(Clone, Copy, PartialEq, Eq)]
pub enum Kind {
    Syntax,
    Range,
    TooMany,
    Read,
}

impl Kind {
    pub fn name(self) -> &'static str {
        match self {
            Kind::Syntax => "syntax",
            Kind::Range => "range",
            Kind::TooMany => "too-many",
            Kind::Read => "read",
        }
    }
}

/// The first fault of a text, and its line.
pub struct Refused {
    pub line: usize,
    pub kind: Kind,
}

pub fn read_input() -> Result<Vec<u8>, Kind> {
    let mut input = Vec::new();
    let mut reader = io::stdin().lock().take(MOST_BYTES + 1);
    reader.read_to_end(&mut input).map_err(|_| Kind::Read)?;
    if input.len() as u64 > MOST_BYTES {
        return Err(Kind::TooMany);
    }
    Ok(input)
}

/// The lines of a text. `number` is that of the line that was read last, from 1.
struct Lines<'a> {
    rest: &'a [u8],
    number: usize,
}

impl<'a> Lines<'a> {
    fn new(text: &'a [u8]) -> Lines<'a> {
        Lines { rest: text, number: 0 }
    }

    fn next(&mut self) -> Result<Option<Line<'a>>, Kind> {
        self.number += 1;
        if self.rest.is_empty() {
            return Ok(None);
        }
        let front = &self.rest[..self.rest.len().min(MOST_LINE + 1)];
        let end = front.iter().position(|byte| *byte == b'\n').ok_or(Kind::Syntax)?;
        let line = &self.rest[..end];
        self.rest = &self.rest[end + 1..];
        Ok(Some(Line { rest: Some(line), is_in_range: true }))
    }

    fn need(&mut self) -> Result<Line<'a>, Kind> {
        self.next()?.ok_or(Kind::Syntax)
    }
}

/// The words of a line that are still to be read, and whether all numbers so far were in range.
#[derive(Clone, Copy)]
struct Line<'a> {
    rest: Option<&'a [u8]>,
    is_in_range: bool,
}

impl<'a> Line<'a> {
    fn word(&mut self) -> Result<&'a [u8], Kind> {
        let rest = self.rest.ok_or(Kind::Syntax)?;
        match rest.iter().position(|byte| *byte == b' ') {
            Some(end) => {
                self.rest = Some(&rest[end + 1..]);
                Ok(&rest[..end])
            }
            None => {
                self.rest = None;
                Ok(rest)
            }
        }
    }

    fn expect(&mut self, wanted: &[u8]) -> Result<(), Kind> {
        if self.word()? == wanted { Ok(()) } else { Err(Kind::Syntax) }
    }

    /// A word of digits.
    fn number_in(&mut self, range: RangeInclusive<u64>) -> Result<u64, Kind> {
        let rest = self.rest.ok_or(Kind::Syntax)?;
        let Digits { count, value } = digits::read(rest).ok_or(Kind::Syntax)?;
        self.rest = match rest.get(count) {
            None => None,
            Some(b' ') => Some(&rest[count + 1..]),
            Some(_) => return Err(Kind::Syntax),
        };
        match value {
            Some(value) if range.contains(&value) => Ok(value),
            _ => {
                self.is_in_range = false;
                Ok(u64::MAX)
            }
        }
    }

    fn number(&mut self) -> Result<u64, Kind> {
        self.number_in(0..=u64::MAX)
    }

    fn below(&mut self, bound: usize) -> Result<u8, Kind> {
        Ok(self.number_in(0..=bound as u64 - 1)? as u8)
    }

    /// The number of a version, behind its @.
    fn version(&mut self) -> Result<u64, Kind> {
        let rest = self.rest.ok_or(Kind::Syntax)?;
        self.rest = Some(rest.strip_prefix(b"@").ok_or(Kind::Syntax)?);
        self.number()
    }

    fn op(&mut self, lines: usize) -> Result<Op, Kind> {
        let name = self.word()?;
        let line = self.below(lines)?;
        let word = self.below(8)?;
        let action = match name {
            b"load" => Action::Load,
            b"store" => Action::Store(self.number()?),
            b"fetch-add" => Action::FetchAdd(self.number()?),
            b"mask-swap" => Action::MaskSwap { mask: self.number()?, data: self.number()? },
            b"compare-swap" => {
                Action::CompareSwap { expected: self.number()?, data: self.number()? }
            }
            b"bounded-add" => Action::BoundedAdd { bound: self.number()?, addend: self.number()? },
            b"wrap-add" => Action::WrapAdd { bound: self.number()?, addend: self.number()? },
            _ => return Err(Kind::Syntax),
        };
        Ok(Op { action, line, word })
    }

    fn end(&self) -> Result<(), Kind> {
        match self.rest {
            Some(_) => Err(Kind::Syntax),
            None if self.is_in_range => Ok(()),
            None => Err(Kind::Range),
        }
    }
}

/// Reads a text, and says in which line a fault is.
fn located<'a, T>(
    text: &'a [u8],
    read: impl FnOnce(&mut Lines<'a>) -> Result<T, Kind>,
) -> Result<T, Refused> {
    let mut lines = Lines::new(text);
    read(&mut lines).map_err(|kind| Refused { line: lines.number, kind })
}

/// The size of a machine.
#[derive(Clone, Copy)]
pub struct Size {
    pub nodes: usize,
    pub lines: usize,
    pub slots: usize,
}

fn read_size(lines: &mut Lines) -> Result<Size, Kind> {
    let mut line = lines.need()?;
    line.expect(b"machine")?;
    let nodes = line.number_in(1..=16)?;
    let count = line.number_in(1..=64)?;
    let slots = line.number_in(1..=8)?;
    line.end()?;
    Ok(Size { nodes: nodes as usize, lines: count as usize, slots: slots as usize })
}

pub struct Script {
    pub size: Size,
    pub operations: Vec<(u8, Op)>,
}

pub fn read_script(text: &[u8]) -> Result<Script, Refused> {
    located(text, |lines| {
        let size = read_size(lines)?;
        let mut operations = Vec::new();
        let mut issued = vec![0; size.nodes];
        while let Some(mut line) = lines.next()? {
            line.expect(b"p")?;
            let node = line.below(size.nodes)?;
            let op = line.op(size.lines)?;
            line.end()?;
            issued[usize::from(node)] += 1;
            if issued[usize::from(node)] > MOST_OPERATIONS {
                return Err(Kind::TooMany);
            }
            operations.push((node, op));
        }
        Ok(Script { size, operations })
    })
}

/// An event of the machine. The node that sent comes first.
#[derive(Clone, Copy)]
pub enum Event {
    Issue(u8, Op),
    Perform(u8, u8),
    Ask(u8, u8, AskKind),
    Serve(u8, u8),
    Refuse(u8, u8),
    Reply(u8),
    Accept(u8, u8),
}

fn read_event(line: &mut Line, size: &Size) -> Result<Event, Kind> {
    let Size { nodes, lines, .. } = *size;
    let event = match line.word()? {
        b"issue" => Event::Issue(line.below(nodes)?, line.op(lines)?),
        b"perform" => Event::Perform(line.below(nodes)?, line.below(lines)?),
        b"ask" => {
            let (node, about) = (line.below(nodes)?, line.below(lines)?);
            Event::Ask(node, about, AskKind::named(line.word()?).ok_or(Kind::Syntax)?)
        }
        b"serve" => Event::Serve(line.below(nodes)?, line.below(nodes)?),
        b"refuse" => Event::Refuse(line.below(nodes)?, line.below(nodes)?),
        b"reply" => Event::Reply(line.below(nodes)?),
        b"accept" => Event::Accept(line.below(nodes)?, line.below(nodes)?),
        _ => return Err(Kind::Syntax),
    };
    line.end()?;
    Ok(event)
}

pub fn read_schedule(text: &[u8]) -> Result<(Size, Vec<Event>), Refused> {
    located(text, |lines| {
        let size = read_size(lines)?;
        let mut events = Vec::new();
        while let Some(mut line) = lines.next()? {
            let event = read_event(&mut line, &size)?;
            if events.len() == MOST_EVENTS {
                return Err(Kind::TooMany);
            }
            events.push(event);
        }
        Ok((size, events))
    })
}

fn read_last(line: &mut Line, number: usize) -> Result<Contents, Kind> {
    line.expect(number.to_string().as_bytes())?;
    let mut contents = Contents { version: line.version()?, words: [0; 8] };
    for word in &mut contents.words {
        *word = line.number()?;
    }
    line.is_in_range &= number < 64;
    line.end()?;
    Ok(contents)
}

/// The limits of a form of logs.
struct Form {
    nodes: usize,
    serials: usize,
    lines: Option<usize>,
}

fn read_form(lines: &mut Lines) -> Result<Form, Kind> {
    if !lines.rest.starts_with(b"log ") {
        return Ok(Form { nodes: 8, serials: 4_096, lines: None });
    }
    let mut line = lines.need()?;
    line.expect(b"log")?;
    line.expect(b"2")?;
    let nodes = line.number_in(1..=16)?;
    let count = line.number_in(1..=64)?;
    line.end()?;
    Ok(Form { nodes: nodes as usize, serials: 65_536, lines: Some(count as usize) })
}

fn read_entry(
    line: &mut Line,
    form: &Form,
    lines: usize,
    least_node: u64,
) -> Result<(u8, Entry), Kind> {
    let node = line.number_in(0..=form.nodes as u64 - 1)?;
    let serial = line.number_in(0..=form.serials as u64 - 1)?;
    let op = line.op(lines)?;
    line.expect(b"=")?;
    let reply = match op.action {
        Action::Store(_) => line.expect(b"-").map(|_| None)?,
        _ => Some(line.number()?),
    };
    let version = line.version()?;
    if line.rest.is_some() || node < least_node {
        return Err(Kind::Syntax);
    }
    line.end()?;
    Ok((node as u8, Entry { op, reply, version, serial: serial as u32 }))
}

pub fn read_logs(text: &[u8]) -> Result<Logs, Refused> {
    located(text, |lines| {
        let form = read_form(lines)?;
        let mut logs = Logs { nodes: vec![Vec::new(); form.nodes], last: Vec::new() };
        let mut least_node = 0;
        let mut has_entries = false;
        while let Some(mut line) = lines.next()? {
            let is_last = line.rest.is_some_and(|it| it.starts_with(b"last "));
            if is_last && !has_entries && form.lines != Some(logs.last.len()) {
                line.word()?;
                logs.last.push(read_last(&mut line, logs.last.len())?);
                continue;
            }
            if logs.last.is_empty() || form.lines.is_some_and(|it| it != logs.last.len()) {
                return Err(Kind::Syntax);
            }
            let (node, entry) = read_entry(&mut line, &form, logs.last.len(), least_node)?;
            has_entries = true;
            least_node = u64::from(node);
            let log = &mut logs.nodes[usize::from(node)];
            if log.len() == form.serials {
                return Err(Kind::TooMany);
            }
            log.push(entry);
        }
        match form.lines {
            _ if logs.last.is_empty() => Err(Kind::Syntax),
            Some(count) if count != logs.last.len() => Err(Kind::Syntax),
            _ => Ok(logs),
        }
    })
}

/// Appends a blank and a number.
pub fn push_field(out: &mut Vec<u8>, value: u64) {
    out.push(b' ');
    digits::push(out, value);
}

pub fn push_contents(out: &mut Vec<u8>, contents: &Contents) {
    out.extend_from_slice(b" @");
    digits::push(out, contents.version);
    for word in contents.words {
        push_field(out, word);
    }
}

fn push_op(out: &mut Vec<u8>, op: &Op) {
    let (name, operands): (&[u8], &[u64]) = match op.action {
        Action::Load => (b"load", &[]),
        Action::Store(new) => (b"store", &[new]),
        Action::MaskSwap { mask, data } => (b"mask-swap", &[mask, data]),
        Action::CompareSwap { expected, data } => (b"compare-swap", &[expected, data]),
        Action::FetchAdd(addend) => (b"fetch-add", &[addend]),
        Action::BoundedAdd { bound, addend } => (b"bounded-add", &[bound, addend]),
        Action::WrapAdd { bound, addend } => (b"wrap-add", &[bound, addend]),
    };
    out.extend_from_slice(name);
    push_field(out, u64::from(op.line));
    push_field(out, u64::from(op.word));
    for operand in operands {
        push_field(out, *operand);
    }
}

fn push_entry(out: &mut Vec<u8>, node: usize, entry: &Entry) {
    digits::push(out, node as u64);
    push_field(out, u64::from(entry.serial));
    out.push(b' ');
    push_op(out, &entry.op);
    match entry.reply {
        Some(word) => {
            out.extend_from_slice(b" = ");
            digits::push(out, word);
        }
        None => out.extend_from_slice(b" = -"),
    }
    out.extend_from_slice(b" @");
    digits::push(out, entry.version);
    out.push(b'\n');
}

/// The text of logs, in format 2.
pub fn logs_text(logs: &Logs) -> Vec<u8> {
    let mut out = b"log 2".to_vec();
    push_field(&mut out, logs.nodes.len() as u64);
    push_field(&mut out, logs.last.len() as u64);
    out.push(b'\n');
    for (line, contents) in logs.last.iter().enumerate() {
        out.extend_from_slice(b"last");
        push_field(&mut out, line as u64);
        push_contents(&mut out, contents);
        out.push(b'\n');
    }
    for (node, log) in logs.nodes.iter().enumerate() {
        for entry in log {
            push_entry(&mut out, node, entry);
        }
    }
    out
}
