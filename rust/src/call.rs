//! Calls, as threads make them.

use std::borrow::Cow;
use std::fmt;

use crate::sys::{self, loq_call_t};
use crate::text::Text;

macro_rules! number {
    ($name:ident, $letter:literal, $what:literal) => {
        #[doc = $what]
        #[derive(Clone, Copy, Debug, PartialEq, Eq, PartialOrd, Ord, Hash)]
        pub struct $name(pub u64);

        impl $name {
            /// The number that there never is.
            pub const NONE: $name = $name(sys::NULL);
        }

        impl fmt::Display for $name {
            fn fmt(&self, f: &mut fmt::Formatter<'_>) -> fmt::Result {
                if *self == $name::NONE {
                    f.write_str("none")
                } else {
                    write!(f, "{}{}", $letter, self.0)
                }
            }
        }
    };
}

number!(Tid, "t", "The number of a thread or an agent, as traces print it: `t3`.");
number!(Mid, "m", "The number of a monitor, as traces print it: `m0`.");
number!(Cid, "c", "The number of a condition, as traces print it: `c1`.");

/// The thread that a pod begins with.
pub const FIRST: Tid = Tid(0);

/// How a thread is created.
#[derive(Clone, Copy, Debug, Default, PartialEq, Eq)]
pub struct Flags {
    /// It waits to be resumed.
    pub suspended: bool,
    /// Its death isn't reported.
    pub nolastrites: bool,
    /// The pod may end while it lives.
    pub server: bool,
}

/// Whether a receive waits for a letter.
#[derive(Clone, Copy, Debug, PartialEq, Eq)]
pub enum Mode {
    /// Not at all.
    Poll,
    /// As long as it takes.
    Block,
    /// Until the clock has ticked so often.
    Until {
        /// How often.
        ticks: u32,
    },
}

/// What a handler catches.
#[derive(Clone, Copy, Debug, PartialEq, Eq)]
pub enum Pattern {
    /// Every exception.
    All,
    /// The exception of this number, 1 to 2,147,483,647.
    Num(u32),
}

/// What a handler answers to a notification.
#[derive(Clone, Copy, Debug, PartialEq, Eq)]
pub enum Func {
    /// Nothing: it catches.
    Nothing,
    /// Its argument.
    Give,
    /// Its argument plus the exception.
    Sum,
}

/// A call that an exit procedure makes: one of the eight that neither wait, raise nor kill.
#[allow(missing_docs)]
#[derive(Clone, Debug, PartialEq, Eq)]
pub enum ExitCall<'t> {
    MonExit { mon: Mid },
    MonBreak { mon: Mid },
    Notify { cond: Cid },
    Broadcast { cond: Cid },
    Reply { to: Tid, text: Text<'t> },
    Resume { tid: Tid },
    SetExit { code: u32 },
    Note { text: Text<'t> },
}

/// A call that a thread makes.
///
/// The variants have the names and fields that `docs/calls.md` gives each call beside its name in the manual; there is told what it does
/// and what it is refused for. Numbers may be any: the pod refuses what doesn't fit.
#[allow(missing_docs)]
#[derive(Clone, Debug, PartialEq, Eq)]
pub enum Call<'t> {
    Create { proc: u32, prio: u32, flags: Flags },
    Destroy { tid: Tid },
    Ping { tid: Tid },
    Yield { to: Tid },
    Resched { prio: u32 },
    SetPri { tid: Tid, prio: u32 },
    Suspend { tid: Tid },
    Resume { tid: Tid },
    Join { tid: Tid },
    Sleep { ticks: u32 },
    Me,
    SetMaxPri { prio: u32 },
    SetExit { code: u32 },
    GetExit,
    PodExit { code: u32 },
    Threads,
    Send { to: Tid, room: u8, text: Text<'t> },
    Recv { from: Option<Tid>, mode: Mode },
    Reply { to: Tid, text: Text<'t> },
    Senders,
    Receivers,
    MonCreate,
    MonDestroy { mon: Mid },
    Enter { mon: Mid },
    CondEnter { mon: Mid },
    MonExit { mon: Mid },
    MonBreak { mon: Mid },
    Monitors,
    MonWaiters { mon: Mid },
    CvCreate { mon: Mid },
    CvDestroy { cond: Cid },
    Wait { cond: Cid },
    Notify { cond: Cid },
    Broadcast { cond: Cid },
    CvSend { cond: Cid, tid: Tid },
    Conds,
    CvWaiters { cond: Cid },
    CallProc { proc: u32 },
    Return,
    Handle { pattern: Pattern, func: Func, arg: u32 },
    Unhandle,
    OnExit { call: ExitCall<'t> },
    Raise { pattern: u32 },
    ExcNotify { pattern: u32 },
    Bound { pattern: u32 },
    UniqPatt,
    Agent { event: u32 },
    Agents,
    Trap { event: u32 },
    Say { text: Text<'t> },
}

pub(crate) const CREATE: u32 = 0;
pub(crate) const REPLY: u32 = 19;

// What a kind of call doesn't name isn't read, so it stays as it was in a record that is written again.
fn bare(record: &mut loq_call_t, kind: u32) {
    record.kind = kind;
}

fn of(record: &mut loq_call_t, kind: u32, target: u64) {
    record.kind = kind;
    record.target = target;
}

fn with(record: &mut loq_call_t, kind: u32, number: u32) {
    record.kind = kind;
    record.number = number;
}

fn at_prio(record: &mut loq_call_t, kind: u32, prio: u32) {
    record.kind = kind;
    record.prio = prio;
}

fn create(record: &mut loq_call_t, proc: u32, prio: u32, flags: Flags) {
    with(record, CREATE, proc);
    record.prio = prio;
    record.suspended = flags.suspended;
    record.nolastrites = flags.nolastrites;
    record.server = flags.server;
}

fn receive(record: &mut loq_call_t, from: Option<Tid>, mode: Mode) {
    record.kind = 18;
    record.any = from.is_none();
    record.target = from.map_or(0, |from| from.0);
    (record.mode, record.number) = match mode {
        Mode::Poll => (0, 0),
        Mode::Block => (1, 0),
        Mode::Until { ticks } => (2, ticks),
    };
}

fn handle(record: &mut loq_call_t, pattern: Pattern, func: Func, arg: u32) {
    record.kind = 50;
    (record.any, record.number) = match pattern {
        Pattern::All => (true, 0),
        Pattern::Num(number) => (false, number),
    };
    record.func = func as u8;
    record.arg = arg;
}

const NONE: Cow<'static, str> = Cow::Borrowed("");

impl<'t> ExitCall<'t> {
    // Writes the call to a record, of its own kind, and gives its text.
    fn write(self, record: &mut loq_call_t) -> Cow<'t, str> {
        match self {
            ExitCall::MonExit { mon } => of(record, 36, mon.0),
            ExitCall::MonBreak { mon } => of(record, 37, mon.0),
            ExitCall::Notify { cond } => of(record, 43, cond.0),
            ExitCall::Broadcast { cond } => of(record, 44, cond.0),
            ExitCall::Resume { tid } => of(record, 7, tid.0),
            ExitCall::SetExit { code } => with(record, 12, code),
            ExitCall::Reply { to, text } => {
                of(record, REPLY, to.0);
                return text.into_cow();
            }
            ExitCall::Note { text } => {
                bare(record, 16);
                return text.into_cow();
            }
        }
        NONE
    }
}

impl<'t> Call<'t> {
    // Writes the call to a record, and gives its text.
    #[inline]
    pub(crate) fn write(self, record: &mut loq_call_t) -> Cow<'t, str> {
        match self {
            Call::Create { proc, prio, flags } => create(record, proc, prio, flags),
            Call::Destroy { tid } => of(record, 1, tid.0),
            Call::Ping { tid } => of(record, 2, tid.0),
            Call::Yield { to } => of(record, 3, to.0),
            Call::Resched { prio } => at_prio(record, 4, prio),
            Call::SetPri { tid, prio } => {
                of(record, 5, tid.0);
                record.prio = prio;
            }
            Call::Suspend { tid } => of(record, 6, tid.0),
            Call::Resume { tid } => of(record, 7, tid.0),
            Call::Join { tid } => of(record, 8, tid.0),
            Call::Sleep { ticks } => with(record, 9, ticks),
            Call::Me => bare(record, 10),
            Call::SetMaxPri { prio } => at_prio(record, 11, prio),
            Call::SetExit { code } => with(record, 12, code),
            Call::GetExit => bare(record, 13),
            Call::PodExit { code } => with(record, 14, code),
            Call::Threads => bare(record, 15),
            Call::Recv { from, mode } => receive(record, from, mode),
            Call::Senders => bare(record, 20),
            Call::Receivers => bare(record, 21),
            Call::Agent { event } => with(record, 22, event),
            Call::Agents => bare(record, 23),
            Call::Trap { event } => with(record, 24, event),
            Call::MonCreate => bare(record, 32),
            Call::MonDestroy { mon } => of(record, 33, mon.0),
            Call::Enter { mon } => of(record, 34, mon.0),
            Call::CondEnter { mon } => of(record, 35, mon.0),
            Call::MonExit { mon } => of(record, 36, mon.0),
            Call::MonBreak { mon } => of(record, 37, mon.0),
            Call::Monitors => bare(record, 38),
            Call::MonWaiters { mon } => of(record, 39, mon.0),
            Call::CvCreate { mon } => of(record, 40, mon.0),
            Call::CvDestroy { cond } => of(record, 41, cond.0),
            Call::Wait { cond } => of(record, 42, cond.0),
            Call::Notify { cond } => of(record, 43, cond.0),
            Call::Broadcast { cond } => of(record, 44, cond.0),
            Call::CvSend { cond, tid } => {
                of(record, 45, cond.0);
                record.other = tid.0;
            }
            Call::Conds => bare(record, 46),
            Call::CvWaiters { cond } => of(record, 47, cond.0),
            Call::CallProc { proc } => with(record, 48, proc),
            Call::Return => bare(record, 49),
            Call::Handle { pattern, func, arg } => handle(record, pattern, func, arg),
            Call::Unhandle => bare(record, 51),
            Call::Raise { pattern } => with(record, 53, pattern),
            Call::ExcNotify { pattern } => with(record, 54, pattern),
            Call::Bound { pattern } => with(record, 55, pattern),
            Call::UniqPatt => bare(record, 56),
            Call::Send { .. } | Call::Reply { .. } | Call::Say { .. } | Call::OnExit { .. } => return self.write_with_text(record),
        }
        NONE
    }

    fn write_with_text(self, record: &mut loq_call_t) -> Cow<'t, str> {
        match self {
            Call::Send { to, room, text } => {
                of(record, 17, to.0);
                record.room = room;
                text.into_cow()
            }
            Call::Reply { to, text } => {
                of(record, REPLY, to.0);
                text.into_cow()
            }
            Call::OnExit { call } => {
                let text = call.write(record);
                record.exit = record.kind;
                record.kind = 52;
                text
            }
            Call::Say { text } => {
                bare(record, 16);
                text.into_cow()
            }
            _ => NONE,
        }
    }
}
