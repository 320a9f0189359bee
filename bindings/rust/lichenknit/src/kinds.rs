//! The enums of lichenknit.h. Those with names in the library are printed by them.

use std::fmt;

use lichenknit_sys as sys;

use crate::calls::text;

/// An enum whose variants are numbers of the header, and the function of the library that names them, if there is one.
macro_rules! numbered {
    ($(#[$doc:meta])* $name:ident $(by $named:ident)? { $($(#[$of:meta])* $variant:ident = $number:ident,)* }) => {
        $(#[$doc])*
        #[derive(Clone, Copy, Debug, PartialEq, Eq, PartialOrd, Ord, Hash)]
        pub enum $name { $($(#[$of])* $variant,)* }

        impl $name {
            /// The number that the header has for it.
            pub fn number(self) -> u32 {
                match self { $(Self::$variant => sys::$number,)* }
            }

            /// What the number stands for, if it does for something.
            pub fn of(number: u32) -> Option<Self> {
                match number { $(sys::$number => Some(Self::$variant),)* _ => None }
            }
        }

        $(impl fmt::Display for $name {
            fn fmt(&self, f: &mut fmt::Formatter<'_>) -> fmt::Result {
                // SAFETY: the function takes any number.
                f.write_str(text(unsafe { sys::$named(self.number()) }))
            }
        })?
    };
}

numbered! {
    /// The kind of a request that a node sends.
    AskKind {
        Mread = SCI_MREAD, Fread = SCI_FREAD, Cread = SCI_CREAD, Claim = SCI_CLAIM, Clear = SCI_CLEAR, Purge = SCI_PURGE, Roll = SCI_ROLL,
        Wback = SCI_WBACK, Setback = SCI_SETBACK,
    }
}

numbered! {
    /// The command of a packet.
    Command by sci_command_name {
        Mread = SCI_CMD_MREAD, Cread = SCI_CMD_CREAD, Purge = SCI_CMD_PURGE, Roll = SCI_CMD_ROLL, Wback = SCI_CMD_WBACK,
        Setback = SCI_CMD_SETBACK, Fread = SCI_CMD_FREAD, Claim = SCI_CMD_CLAIM, Clear = SCI_CMD_CLEAR, Mdata = SCI_CMD_MDATA,
        Mgone = SCI_CMD_MGONE, Cdata = SCI_CMD_CDATA, Purged = SCI_CMD_PURGED, Rolled = SCI_CMD_ROLLED, Wbok = SCI_CMD_WBOK,
        Wbno = SCI_CMD_WBNO, Told = SCI_CMD_TOLD, Busy = SCI_CMD_BUSY, Fdata = SCI_CMD_FDATA,
    }
}

impl Command {
    /// Whether packets with it are requests, and no answers.
    pub fn is_request(self) -> bool {
        self.number() < 0x100
    }
}

numbered! {
    /// The state of a line in a node's cache.
    State by sci_state_name {
        Out = SCI_OUT, Asking = SCI_ASKING, Joining = SCI_JOINING, FreshJoining = SCI_FRESH_JOINING, Head = SCI_HEAD, FreshHead = SCI_FRESH_HEAD,
        Below = SCI_BELOW, Purging = SCI_PURGING, Claiming = SCI_CLAIMING, Clearing = SCI_CLEARING, Returning = SCI_RETURNING,
        Rolling = SCI_ROLLING, Telling = SCI_TELLING, Fading = SCI_FADING,
    }
}

numbered! {
    /// The state of a line's home.
    HomeState by sci_home_state_name { Home = SCI_HOME, Fresh = SCI_FRESH, Gone = SCI_GONE, }
}

numbered! {
    /// The lanes from one node to another.
    Lane { Requests = SCI_REQUESTS, Answers = SCI_ANSWERS, }
}

numbered! {
    /// Why an event isn't enabled.
    Obstacle by sci_obstacle_name {
        NoSuchNode = SCI_NO_SUCH_NODE, NoSuchSender = SCI_NO_SUCH_SENDER, NoSuchLine = SCI_NO_SUCH_LINE, NoSuchWord = SCI_NO_SUCH_WORD,
        AlreadyPending = SCI_ALREADY_PENDING, NoIssueLeft = SCI_NO_ISSUE_LEFT, NothingPending = SCI_NOTHING_PENDING, NotAllowed = SCI_NOT_ALLOWED,
        NotAsked = SCI_NOT_ASKED, NoSlot = SCI_NO_SLOT, NothingUnderWay = SCI_NOTHING_UNDER_WAY, AnswerWaits = SCI_ANSWER_WAITS,
        SetbackComes = SCI_SETBACK_COMES, NoAnswerWaits = SCI_NO_ANSWER_WAITS,
    }
}

numbered! {
    /// What a node does with a request that has come.
    Decision {
        /// It stays where it is, and is looked at again in a later turn.
        Keep = SCI_KEEP,
        Refuse = SCI_TO_REFUSE,
        Serve = SCI_TO_SERVE,
    }
}

numbered! {
    /// What an audit finds.
    VerdictKind by sci_verdict_name {
        Lawful = SCI_LAWFUL, VersionTwice = SCI_VERSION_TWICE, VersionMissing = SCI_VERSION_MISSING, WrongReply = SCI_WRONG_REPLY,
        OutOfOrder = SCI_OUT_OF_ORDER, LastDiffers = SCI_LAST_DIFFERS,
    }
}

numbered! {
    /// What is wrong with a text.
    TextKind { Syntax = SCI_TEXT_SYNTAX, Range = SCI_TEXT_RANGE, TooMany = SCI_TEXT_TOO_MANY, }
}

numbered! {
    /// Whether other versions explain a coherent trace as well.
    Freedom { Forced = SCI_VERSIONS_FORCED, Free = SCI_VERSIONS_FREE, Unknown = SCI_VERSIONS_UNKNOWN, }
}

numbered! {
    /// Whether one order of all operations explains a coherent trace.
    Consistency {
        Unasked = SCI_CONSISTENCY_UNASKED,
        Sequential = SCI_CONSISTENCY_SEQUENTIAL,
        /// None does: each operation that is named comes before the next one, and the last one before the first.
        Cycle = SCI_CONSISTENCY_CYCLE,
        NotSequential = SCI_CONSISTENCY_NOT_SEQUENTIAL,
        Unknown = SCI_CONSISTENCY_UNKNOWN,
    }
}

numbered! {
    /// What shows that operations at an address aren't coherent.
    Witness {
        None = SCI_WITNESS_NONE, Unwritten = SCI_WITNESS_UNWRITTEN, UnwrittenLast = SCI_WITNESS_UNWRITTEN_LAST, Early = SCI_WITNESS_EARLY,
        Circle = SCI_WITNESS_CIRCLE, Round = SCI_WITNESS_ROUND,
    }
}
