//! A pod, the bodies of its threads, the lines that come from outside, and the trace.

use std::borrow::Cow;
use std::collections::{BTreeMap, HashMap, VecDeque};
use std::error::Error;
use std::fmt;
use std::hash::{BuildHasherDefault, Hasher};
use std::mem;

use crate::answer::Answer;
use crate::call::{self, Call, Tid};
use crate::sys::{self, loq_call_t, loq_effect_t, loq_pod};
use crate::text::Text;

/// What a thread runs.
///
/// A function from an answer to the next call is a body, so a closure will often do.
pub trait Body<'t> {
    /// The next call of this thread, after the answer to its last one. Before its first call a thread is answered `Value(0)`.
    fn next(&mut self, me: Tid, answer: Answer) -> Call<'t>;
}

impl<'t, F: FnMut(Tid, Answer) -> Call<'t>> Body<'t> for F {
    fn next(&mut self, me: Tid, answer: Answer) -> Call<'t> {
        self(me, answer)
    }
}

/// Why a run stopped.
#[derive(Clone, Copy, Debug, PartialEq, Eq)]
pub enum End {
    /// The pod has ended, with this exit status.
    Ended(u8),
    /// Nobody may run, and no line that was posted can be taken.
    Idle,
    /// As many calls were made as were allowed.
    Spent,
}

/// What a pod can't do.
#[derive(Clone, Copy, Debug, PartialEq, Eq)]
pub enum Fault {
    /// Memory was refused. The pod is as it was, and can be run on.
    NoMemory,
    /// A number is out of its range.
    BadNumber,
}

impl fmt::Display for Fault {
    fn fmt(&self, f: &mut fmt::Formatter<'_>) -> fmt::Result {
        f.write_str(match self {
            Fault::NoMemory => "memory was refused",
            Fault::BadNumber => "a number is out of its range",
        })
    }
}

impl Error for Fault {}

type Made<'t> = Box<dyn Body<'t> + 't>;
type Tell<'t> = Box<dyn FnMut(u8, &str) + 't>;

// A procedure: its name, and what makes a body of it for a new thread.
struct Proc<'t> {
    name: Text<'t>,
    make: Box<dyn FnMut(Tid) -> Made<'t> + 't>,
}

// A call on its way to the library. The text is the pod's, or lent for its life.
#[derive(Clone, Copy)]
struct Raw {
    record: loq_call_t,
    text: *const u8,
    len: usize,
}

struct Thread<'t> {
    body: Made<'t>,
    answer: Answer,
    // A call for which memory was refused: it is made again.
    pending: Option<Box<Raw>>,
}

// The kinds of effects.
const ANSWERED: u32 = 1;
const DIED: u32 = 3;
const DELIVERED: u32 = 4;
const ENDED: u32 = 6;

// One thing that the last step did, with its text and its numbers.
struct Told {
    effect: loq_effect_t,
    text: [u8; sys::TEXT_MAX],
    ids: Vec<u64>,
}

impl Told {
    // How many things the last step did.
    #[inline]
    fn count(&self, pod: &mut loq_pod) -> usize {
        let mut count = 0;
        // SAFETY: the handle holds a pod.
        unsafe { sys::loq_effects(pod, &mut count) };
        count
    }

    #[inline]
    fn ask(&mut self, pod: &mut loq_pod, at: usize) {
        loop {
            let Told { effect, text, ids } = self;
            // SAFETY: the handle holds a pod, and each buffer is as long as is said. An empty list's pointer isn't null.
            let status = unsafe { sys::loq_effect(pod, at, effect, text.as_mut_ptr(), text.len(), ids.as_mut_ptr(), ids.len()) };
            if status != sys::TOO_SMALL {
                return;
            }
            self.ids.resize(self.effect.ids_len, 0);
        }
    }

    // The number, if that is what this thread is answered.
    #[inline]
    fn value_for(&self, tid: Tid) -> Option<i64> {
        let Told { effect, .. } = self;
        (effect.kind == ANSWERED && effect.answer == 0 && effect.tid == tid.0).then_some(effect.value)
    }

    fn answer(&self) -> Answer {
        Answer::of(&self.effect, &self.text[..self.effect.text_len], &self.ids[..self.effect.ids_len])
    }
}

// Numbers of threads are given in order, so one product spreads them.
#[derive(Default)]
struct Spread(u64);

impl Hasher for Spread {
    fn finish(&self) -> u64 {
        self.0
    }

    fn write(&mut self, bytes: &[u8]) {
        for &byte in bytes {
            self.write_u64(u64::from(byte));
        }
    }

    fn write_u64(&mut self, number: u64) {
        self.0 = (self.0 ^ number).wrapping_mul(0x9e37_79b9_7f4a_7c15);
    }
}

type Table<V> = HashMap<u64, V, BuildHasherDefault<Spread>>;

// A line that was posted: its client, its number among that client's, and its text.
struct Posted<'t> {
    client: u8,
    seq: u32,
    text: Cow<'t, str>,
}

/// What a pod is to be.
pub struct Setup<'t> {
    maxpri: u32,
    births: u64,
    procs: Vec<Proc<'t>>,
    trace: bool,
    tell: Option<Tell<'t>>,
}

impl<'t> Setup<'t> {
    /// How many threads, monitors and conditions may ever be born, of each: 1 to 4,294,967,295, which it is without this.
    pub fn births(mut self, births: u64) -> Self {
        self.births = births;
        self
    }

    /// Adds a procedure. The first is that of the first thread, and `Create` names them from 0 on. Of a thread that runs it, `make` makes
    /// the body; the name stands in traces.
    pub fn proc<B: Body<'t> + 't>(mut self, name: &'t str, mut make: impl FnMut(Tid) -> B + 't) -> Self {
        let name = crate::text::text(name);
        self.procs.push(Proc { name, make: Box::new(move |tid| Box::new(make(tid))) });
        self
    }

    /// Whether the trace is kept. Without this it is.
    pub fn trace(mut self, trace: bool) -> Self {
        self.trace = trace;
        self
    }

    /// What is done where a thread replies to an agent: the client whose line the agent holds is told this text.
    pub fn tell(mut self, tell: impl FnMut(u8, &str) + 't) -> Self {
        self.tell = Some(Box::new(tell));
        self
    }

    /// Makes the pod.
    ///
    /// # Errors
    ///
    /// `BadNumber` where the greatest priority, the births or the number of procedures, which is 1 at least, are out of range.
    pub fn pod(mut self) -> Result<Pod<'t>, Fault> {
        let mut raw = Box::new(loq_pod::empty());
        let count = u32::try_from(self.procs.len()).map_err(|_| Fault::BadNumber)?;
        // SAFETY: the handle is empty, and is where it stays.
        let status = unsafe { sys::loq_pod_new(&mut *raw, self.maxpri, self.births, count) };
        done(status)?;
        let mut threads = Table::default();
        let body = (self.procs[0].make)(call::FIRST);
        threads.insert(call::FIRST.0, Thread { body, answer: Answer::Value(0), pending: None });
        let mut pod = Pod {
            raw,
            threads,
            procs: Vec::new(),
            texts: Vec::new(),
            told: Told { effect: loq_effect_t::default(), text: [0; sys::TEXT_MAX], ids: Vec::new() },
            waiting: BTreeMap::new(),
            clients: BTreeMap::new(),
            holders: Table::default(),
            made: Raw { record: loq_call_t::default(), text: "".as_ptr(), len: 0 },
            calls: 0,
            trace: self.trace.then(Vec::new),
            unwritten: false,
            spent: false,
            tell: self.tell,
        };
        for proc in &self.procs {
            let name = proc.name.as_str();
            // SAFETY: the handle holds a pod, and the name is read before the function is over.
            done(unsafe { sys::loq_name(&mut *pod.raw, name.as_ptr(), name.len()) })?;
        }
        pod.procs = self.procs;
        Ok(pod)
    }
}

fn done(status: u32) -> Result<(), Fault> {
    match status {
        sys::DONE => Ok(()),
        sys::NO_MEMORY => Err(Fault::NoMemory),
        _ => Err(Fault::BadNumber),
    }
}

/// A pod: threads that take turns, one at a time, in an order that is the same on every run.
///
/// `'t` is how long the texts last that its threads and clients lend it, and whatever its bodies borrow: longer than the pod.
///
/// ```compile_fail
/// use loqzemar::{text, Answer, Call, Pod, Tid};
/// let mut pod = Pod::setup(1).proc("main", |_| |_: Tid, _: Answer| Call::Return).pod().unwrap();
/// {
///     let word = String::from("short-lived");
///     pod.post(5, 0, text(word.as_str())).unwrap();
/// } // `word` is gone, and the pod would still refer to it
/// pod.run().unwrap();
/// ```
pub struct Pod<'t> {
    // It stays where it is, for the library keeps to its address.
    raw: Box<loq_pod>,
    threads: Table<Thread<'t>>,
    procs: Vec<Proc<'t>>,
    // The texts that the pod owns, which the library refers to until it is freed.
    texts: Vec<Box<str>>,
    // The call that is being made, or was made last.
    made: Raw,
    told: Told,
    waiting: BTreeMap<u8, VecDeque<Posted<'t>>>,
    // By each client, how many lines it has posted and how many of them were taken.
    clients: BTreeMap<u8, (u32, u32)>,
    // The clients whose lines agents hold.
    holders: Table<u8>,
    calls: u64,
    trace: Option<Vec<u8>>,
    // The last step's lines are still to be written.
    unwritten: bool,
    spent: bool,
    tell: Option<Tell<'t>>,
}

impl<'t> Pod<'t> {
    /// A pod with this greatest priority, 1 to 255, is set up.
    pub fn setup(maxpri: u32) -> Setup<'t> {
        Setup { maxpri, births: u64::from(u32::MAX), procs: Vec::new(), trace: true, tell: None }
    }

    /// Whose turn it is.
    pub fn current(&mut self) -> Option<Tid> {
        let mut tid = 0;
        // SAFETY: the handle holds a pod, and the number is written at most.
        (unsafe { sys::loq_current(&mut *self.raw, &mut tid) } == sys::DONE).then_some(Tid(tid))
    }

    /// How many calls were made.
    pub fn calls(&self) -> u64 {
        self.calls
    }

    /// Whether a line of the event can be taken now.
    pub fn armed(&mut self, event: u8) -> bool {
        let mut armed = false;
        // SAFETY: the handle holds a pod.
        unsafe { sys::loq_armed(&mut *self.raw, event, &mut armed) == sys::DONE && armed }
    }

    /// Posts a line of a client to an event, 0 to 31; a run takes it as soon as it can. Event 0 is the clock, of which each line is a tick.
    ///
    /// # Errors
    ///
    /// `BadNumber` where there is no such event.
    pub fn post(&mut self, event: u8, client: u8, text: Text<'t>) -> Result<(), Fault> {
        if 31 < event {
            return Err(Fault::BadNumber);
        }
        let (posted, _) = self.clients.entry(client).or_default();
        let line = Posted { client, seq: *posted, text: text.into_cow() };
        *posted += 1;
        self.waiting.entry(event).or_default().push_back(line);
        Ok(())
    }

    /// Runs until the pod has ended or nobody may run. It can be run on, for more lines may come.
    ///
    /// # Errors
    ///
    /// `NoMemory`.
    pub fn run(&mut self) -> Result<End, Fault> {
        self.run_for(u64::MAX)
    }

    /// Runs as `run` does, with so many calls at most.
    ///
    /// # Errors
    ///
    /// `NoMemory`.
    pub fn run_for(&mut self, turns: u64) -> Result<End, Fault> {
        let last = self.calls.saturating_add(turns);
        self.spent = false;
        loop {
            let mut tid = match self.current() {
                Some(tid) => tid,
                None => {
                    if let Some(status) = self.status() {
                        return Ok(End::Ended(status));
                    }
                    if !self.boundary()? {
                        return Ok(End::Idle);
                    }
                    continue;
                }
            };
            if self.calls == last {
                self.spent = true;
                return Ok(End::Spent);
            }
            if !self.waiting.is_empty() && self.boundary()? {
                tid = self.current().unwrap_or(tid);
            }
            self.turn(tid)?;
        }
    }

    /// The exit status of the pod, if it has ended.
    pub fn status(&mut self) -> Option<u8> {
        let (mut why, mut status) = (0, 0);
        // SAFETY: the handle holds a pod.
        unsafe { sys::loq_ending(&mut *self.raw, &mut why, &mut status) };
        (why == 1).then_some(status as u8)
    }

    /// The trace so far, as `lwpserve plan` writes it, with the lines at its end if the run goes no further. It is empty where none is kept.
    pub fn trace(&mut self) -> String {
        let mut trace: String = self.trace.iter().flatten().map(|&byte| char::from(byte)).collect();
        if self.current().is_some() {
            if !self.spent {
                return trace;
            }
            trace.push_str(&format!("spent {}\n", self.calls));
        } else if self.status().is_none() {
            trace.push_str("stuck\n");
        }
        for (client, (posted, taken)) in &self.clients {
            if taken < posted {
                trace.push_str(&format!("left client {client} {}\n", posted - taken));
            }
        }
        trace
    }

    /// How the pod stands, as `lwpstate` writes it: who waits for whom, who holds what, and who is in a deadlock. It has no lines of clients.
    ///
    /// # Errors
    ///
    /// `NoMemory`.
    pub fn state(&mut self) -> Result<String, Fault> {
        let (mut text, mut len) = (vec![0; 256], 0);
        loop {
            // SAFETY: the handle holds a pod, and the buffer is as long as is said.
            let status = unsafe { sys::loq_state(&mut *self.raw, text.as_mut_ptr(), text.len(), &mut len) };
            text.resize(len.max(1), 0);
            if status != sys::TOO_SMALL {
                done(status)?;
                return Ok(text[..len].iter().map(|&byte| char::from(byte)).collect());
            }
        }
    }

    // A text as the library is to have it: it lasts as long as the pod.
    #[inline(always)]
    fn lend(texts: &mut Vec<Box<str>>, text: Cow<'t, str>) -> (*const u8, usize) {
        match text {
            Cow::Borrowed(text) => (text.as_ptr(), text.len()),
            Cow::Owned(text) => Pod::keep(texts, text.into_boxed_str()),
        }
    }

    #[cold]
    fn keep(texts: &mut Vec<Box<str>>, text: Box<str>) -> (*const u8, usize) {
        let lent = (text.as_ptr(), text.len());
        texts.push(text);
        lent
    }

    // One call of the thread whose turn it is.
    #[inline(always)]
    fn turn(&mut self, tid: Tid) -> Result<(), Fault> {
        if self.unwritten {
            self.write_lines()?;
        }
        let thread = self.threads.get_mut(&tid.0).expect("a thread whose turn it is lives");
        match thread.pending.take() {
            Some(raw) => self.made = *raw,
            None => {
                let answer = mem::replace(&mut thread.answer, Answer::Value(0));
                let text = thread.body.next(tid, answer).write(&mut self.made.record);
                (self.made.text, self.made.len) = Pod::lend(&mut self.texts, text);
            }
        }
        let Raw { record, text, len } = &self.made;
        // SAFETY: the handle holds a pod; the text is of this length, and lasts as long as the pod.
        let status = unsafe { sys::loq_call(&mut *self.raw, record, *text, *len) };
        if status != sys::DONE {
            thread.pending = Some(Box::new(self.made));
            return done(status);
        }
        self.calls += 1;
        let count = self.told.count(&mut self.raw);
        // By far most turns do one thing: the caller is answered a number.
        if count == 1 && self.made.record.kind != call::REPLY {
            self.told.ask(&mut self.raw, 0);
            if let Some(value) = self.told.value_for(tid) {
                thread.answer = Answer::Value(value);
                return self.write_lines();
            }
        }
        self.take_effects(count, Some(tid), None);
        self.write_lines()
    }

    fn take_effects(&mut self, count: usize, maker: Option<Tid>, client: Option<u8>) {
        for at in 0..count {
            self.told.ask(&mut self.raw, at);
            self.take(maker, client);
        }
    }

    // One thing that a step did.
    fn take(&mut self, maker: Option<Tid>, client: Option<u8>) {
        let effect = self.told.effect;
        match effect.kind {
            ANSWERED => {
                let answer = self.told.answer();
                if maker == Some(Tid(effect.tid)) {
                    self.grant(&answer);
                }
                if let Some(thread) = self.threads.get_mut(&effect.tid) {
                    thread.answer = answer;
                }
            }
            DIED => drop(self.threads.remove(&effect.tid)),
            DELIVERED => {
                if let Some(client) = client {
                    self.holders.insert(effect.tid, client);
                }
            }
            ENDED => self.threads.clear(),
            _ => {}
        }
    }

    // A thread that was created begins; a client whose line was replied to is told.
    fn grant(&mut self, answer: &Answer) {
        let Raw { record, text, len } = self.made;
        match (record.kind, answer) {
            (call::CREATE, Answer::Thread(tid)) => {
                let body = (self.procs[record.number as usize].make)(*tid);
                self.threads.insert(tid.0, Thread { body, answer: Answer::Value(0), pending: None });
            }
            (call::REPLY, Answer::Value(_)) => {
                if let (Some(client), Some(tell)) = (self.holders.remove(&record.target), &mut self.tell) {
                    // SAFETY: the text of a call lasts as long as the pod, and is a str.
                    tell(client, unsafe { std::str::from_utf8_unchecked(std::slice::from_raw_parts(text, len)) });
                }
            }
            _ => {}
        }
    }

    // The lines of the last step go to the trace, if one is kept.
    #[inline]
    fn write_lines(&mut self) -> Result<(), Fault> {
        if let Some(trace) = &mut self.trace {
            self.unwritten = true;
            Pod::add_lines(&mut self.raw, trace)?;
            self.unwritten = false;
        }
        Ok(())
    }

    // The lines of the last step go to the end of these bytes.
    fn add_lines(raw: &mut loq_pod, out: &mut Vec<u8>) -> Result<(), Fault> {
        let (at, mut len) = (out.len(), 0);
        out.reserve(128);
        loop {
            let room = out.capacity() - at;
            // SAFETY: the handle holds a pod, and after the bytes is so much room.
            let status = unsafe { sys::loq_lines(raw, out.as_mut_ptr().add(at), room, &mut len) };
            if status == sys::TOO_SMALL {
                out.reserve(len);
                continue;
            }
            done(status)?;
            // SAFETY: so many bytes were written there.
            unsafe { out.set_len(at + len) };
            return Ok(());
        }
    }

    // The lines of the last step.
    pub(crate) fn last_lines(&mut self) -> Result<String, Fault> {
        let mut lines = Vec::new();
        Pod::add_lines(&mut self.raw, &mut lines)?;
        Ok(lines.into_iter().map(char::from).collect())
    }

    // Each event may have one line taken, the lower ones first.
    fn boundary(&mut self) -> Result<bool, Fault> {
        let events: Vec<u8> = self.waiting.keys().copied().collect();
        let mut some = false;
        for event in events {
            if self.armed(event) {
                self.deliver(event)?;
                some = true;
            }
        }
        Ok(some)
    }

    fn deliver(&mut self, event: u8) -> Result<(), Fault> {
        let lines = match self.waiting.get_mut(&event) {
            Some(lines) => lines,
            None => return Ok(()),
        };
        let line = lines.pop_front();
        if lines.is_empty() {
            self.waiting.remove(&event);
        }
        match line {
            Some(line) => self.take_line(event, line),
            None => Ok(()),
        }
    }

    // A line is taken, for which its event is armed.
    fn take_line(&mut self, event: u8, line: Posted<'t>) -> Result<(), Fault> {
        if self.unwritten {
            self.write_lines()?;
        }
        let Posted { client, seq, text } = line;
        let (text, len) = Pod::lend(&mut self.texts, text);
        // SAFETY: the handle holds a pod; the text is of this length, and lasts as long as the pod.
        done(unsafe { sys::loq_deliver(&mut *self.raw, event, client, seq, text, len) })?;
        let (posted, taken) = self.clients.entry(client).or_default();
        *posted = (*posted).max(seq.saturating_add(1));
        *taken += 1;
        let count = self.told.count(&mut self.raw);
        self.take_effects(count, None, Some(client));
        self.write_lines()
    }

    // A line that was recorded is taken, if its event is armed.
    pub(crate) fn take_recorded(&mut self, event: u8, client: u8, seq: u32, text: Text<'t>) -> Result<bool, Fault> {
        let armed = self.armed(event);
        if armed {
            self.take_line(event, Posted { client, seq, text: text.into_cow() })?;
        }
        Ok(armed)
    }

    // One call of the thread whose turn it is, if it is anybody's.
    pub(crate) fn one_turn(&mut self) -> Result<(), Fault> {
        match self.current() {
            Some(tid) => self.turn(tid),
            None => Ok(()),
        }
    }
}

impl Drop for Pod<'_> {
    fn drop(&mut self) {
        // SAFETY: the handle holds a pod, and is never used after this. The texts go after it.
        unsafe { sys::loq_pod_free(&mut *self.raw) };
    }
}
