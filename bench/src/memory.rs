//! Operations, what each does to a line, and one memory of all lines.

/// What an operation does to its word.
#[derive(Clone, Copy, PartialEq, Eq)]
pub enum Action {
    Load,
    Store(u64),
    MaskSwap { mask: u64, data: u64 },
    CompareSwap { expected: u64, data: u64 },
    FetchAdd(u64),
    BoundedAdd { bound: u64, addend: u64 },
    WrapAdd { bound: u64, addend: u64 },
}

impl Action {
    /// Whether it makes a version of its line.
    pub fn is_maker(self) -> bool {
        self != Action::Load
    }

    fn applied(self, old: u64) -> u64 {
        match self {
            Action::Load => old,
            Action::Store(new) => new,
            Action::MaskSwap { mask, data } => (data & mask) | (old & !mask),
            Action::CompareSwap { expected, data } if old == expected => data,
            Action::CompareSwap { .. } => old,
            Action::FetchAdd(addend) => old.wrapping_add(addend),
            Action::BoundedAdd { bound, .. } if old == bound => old,
            Action::BoundedAdd { addend, .. } => old.wrapping_add(addend),
            Action::WrapAdd { bound, addend } if old == bound => addend,
            Action::WrapAdd { addend, .. } => old.wrapping_add(addend),
        }
    }
}

#[derive(Clone, Copy)]
pub struct Op {
    pub action: Action,
    pub line: u8,
    pub word: u8,
}

impl Op {
    pub fn is_maker(&self) -> bool {
        self.action.is_maker()
    }
}

/// The eight words of a line, with their version.
#[derive(Clone, Copy, Default, PartialEq, Eq)]
pub struct Contents {
    pub version: u64,
    pub words: [u64; 8],
}

impl Contents {
    /// Does an operation, and returns its reply: the old word, or nothing for a store.
    pub fn apply(&mut self, op: &Op) -> Option<u64> {
        let word = &mut self.words[usize::from(op.word)];
        let old = *word;
        *word = op.action.applied(old);
        self.version += u64::from(op.is_maker());
        (!matches!(op.action, Action::Store(_))).then_some(old)
    }
}

#[derive(Clone, Copy)]
pub struct Entry {
    pub op: Op,
    pub reply: Option<u64>,
    pub version: u64,
    pub serial: u32,
}

/// The entries of each node, and the last contents of each line.
pub struct Logs {
    pub nodes: Vec<Vec<Entry>>,
    pub last: Vec<Contents>,
}

/// The logs of one memory that does these operations in order.
pub fn oracle(nodes: usize, lines: usize, script: &[(u8, Op)]) -> Logs {
    let mut logs = Logs { nodes: vec![Vec::new(); nodes], last: vec![Contents::default(); lines] };
    for (node, op) in script {
        let log = &mut logs.nodes[usize::from(*node)];
        let contents = &mut logs.last[usize::from(op.line)];
        let reply = contents.apply(op);
        log.push(Entry { op: *op, reply, version: contents.version, serial: log.len() as u32 });
    }
    logs
}
