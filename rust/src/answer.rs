//! Answers, as threads are given them.

use std::error::Error;
use std::fmt;

use crate::call::{Cid, Func, Mid, Tid};
use crate::sys::loq_effect_t;

/// Why a call is refused.
#[derive(Clone, Copy, Debug, PartialEq, Eq)]
pub enum LwpErr {
    /// Nobody has this number, or nothing is there to do it with.
    NonExist,
    /// A receive found no letter, and waits no longer, or not at all.
    Timeout,
    /// It is in use.
    InUse,
    /// What was named doesn't go with this call.
    InvalidArg,
    /// A limit is reached.
    NoRoom,
    /// The monitor isn't held as this call needs it.
    NotOwned,
    /// A priority is out of range, or another than is needed.
    IllPrio,
    /// That one doesn't wait for this.
    NoWait,
}

impl LwpErr {
    fn of(number: u32) -> LwpErr {
        match number {
            1 => LwpErr::NonExist,
            2 => LwpErr::Timeout,
            3 => LwpErr::InUse,
            4 => LwpErr::InvalidArg,
            5 => LwpErr::NoRoom,
            6 => LwpErr::NotOwned,
            7 => LwpErr::IllPrio,
            _ => LwpErr::NoWait,
        }
    }
}

impl fmt::Display for LwpErr {
    /// The name that traces print.
    fn fmt(&self, f: &mut fmt::Formatter<'_>) -> fmt::Result {
        f.write_str(match self {
            LwpErr::NonExist => "LE_NONEXIST",
            LwpErr::Timeout => "LE_TIMEOUT",
            LwpErr::InUse => "LE_INUSE",
            LwpErr::InvalidArg => "LE_INVALIDARG",
            LwpErr::NoRoom => "LE_NOROOM",
            LwpErr::NotOwned => "LE_NOTOWNED",
            LwpErr::IllPrio => "LE_ILLPRIO",
            LwpErr::NoWait => "LE_NOWAIT",
        })
    }
}

impl Error for LwpErr {}

/// The answer to a call.
#[derive(Clone, Debug, PartialEq, Eq)]
pub enum Answer {
    /// A number; 0 where there is nothing to tell.
    Value(i64),
    /// The number of a thread or an agent.
    Thread(Tid),
    /// The number of a monitor.
    Monitor(Mid),
    /// The number of a condition.
    Cond(Cid),
    /// A letter: who sent it, how many bytes the reply may have, and what it says.
    Letter {
        /// Who sent it; an agent, if it is a line from outside.
        from: Tid,
        /// How many bytes the reply may have.
        room: u8,
        /// What it says.
        text: String,
    },
    /// The reply to a letter.
    Reply(String),
    /// What a handler was set with.
    Bound {
        /// What it does.
        func: Func,
        /// Its argument.
        arg: u32,
    },
    /// An exception was caught by a handler of this thread.
    Caught {
        /// How many procedures are left of those that the thread was in.
        depth: u32,
        /// How many handlers the last of them still has; the one after them caught.
        mark: u32,
        /// The exception.
        pattern: u32,
    },
    /// The numbers of threads or agents.
    Threads(Vec<Tid>),
    /// The numbers of monitors.
    Monitors(Vec<Mid>),
    /// The numbers of conditions.
    Conds(Vec<Cid>),
    /// The call is refused.
    Refused(LwpErr),
}

fn said(text: &[u8]) -> String {
    text.iter().map(|&byte| char::from(byte)).collect()
}

fn list(kind: u32, ids: &[u64]) -> Answer {
    let ids = ids.iter().copied();
    match kind {
        0 => Answer::Threads(ids.map(Tid).collect()),
        1 => Answer::Monitors(ids.map(Mid).collect()),
        _ => Answer::Conds(ids.map(Cid).collect()),
    }
}

impl Answer {
    // The answer of an effect, whose text and numbers these are.
    #[inline]
    pub(crate) fn of(effect: &loq_effect_t, text: &[u8], ids: &[u64]) -> Answer {
        match effect.answer {
            0 => Answer::Value(effect.value),
            1 => Answer::Thread(Tid(effect.id)),
            2 => Answer::Monitor(Mid(effect.id)),
            3 => Answer::Cond(Cid(effect.id)),
            4 => Answer::Letter { from: Tid(effect.id), room: effect.small as u8, text: said(text) },
            5 => Answer::Reply(said(text)),
            6 => Answer::Bound { func: [Func::Nothing, Func::Give, Func::Sum][effect.small as usize % 3], arg: effect.arg },
            7 => Answer::Caught { depth: effect.depth, mark: effect.mark, pattern: effect.pattern },
            8 => list(effect.small, ids),
            _ => Answer::Refused(LwpErr::of(effect.small)),
        }
    }
}
