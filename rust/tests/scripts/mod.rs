//! A small interpreter of scripts: the threads of a script as bodies.

use std::cell::RefCell;
use std::collections::HashMap;
use std::rc::Rc;

use loqzemar::{text, Answer, Body, Call, Cid, ExitCall, Fault, Flags, Func, Mid, Mode, Pattern, Pod, Tid, FIRST};

type Names = Rc<RefCell<HashMap<(char, String), u64>>>;

/// A script, as lwpserve takes it, without `native`.
#[derive(Default)]
pub struct Script {
    maxpri: u32,
    births: Option<u64>,
    procs: Vec<(String, Vec<Vec<String>>)>,
    events: Vec<u8>,
    posts: Vec<(u8, String)>,
}

impl Script {
    pub fn new(script: &str) -> Script {
        let mut new = Script::default();
        for line in script.lines() {
            let words: Vec<String> = line.split(' ').map(String::from).collect();
            match words[0].as_str() {
                "lwp" => {}
                "pod" => new.maxpri = words[1].parse().unwrap(),
                "limit" => new.births = Some(words[2].parse().unwrap()),
                "client" => new.events.push(words[2].parse().unwrap()),
                "post" => new.posts.push((words[1].parse().unwrap(), words[2..].join(" "))),
                "proc" => new.procs.push((words[1].clone(), Vec::new())),
                _ => new.procs.last_mut().unwrap().1.push(words),
            }
        }
        new
    }

    /// The pod of the script, with all lines of its clients in place.
    pub fn pod(&self) -> Result<Pod<'_>, Fault> {
        let names = Names::default();
        let mut setup = Pod::setup(self.maxpri).births(self.births.unwrap_or(u64::from(u32::MAX)));
        for (number, (name, _)) in self.procs.iter().enumerate() {
            let names = names.clone();
            setup = setup.proc(name, move |_| Thread::new(self, names.clone(), number));
        }
        let mut pod = setup.pod()?;
        for (client, said) in &self.posts {
            pod.post(self.events[usize::from(*client)], *client, text(said.as_str()))?;
        }
        Ok(pod)
    }

    /// What clients post is left out.
    #[allow(dead_code)]
    pub fn forget_posts(&mut self) {
        self.posts.clear();
    }

    fn proc(&self, name: &str) -> u32 {
        self.procs.iter().position(|(it, _)| it == name).unwrap() as u32
    }
}

/// A procedure that a thread is in: the place of its next statement, and the places after the handles that are set.
struct Frame {
    proc: usize,
    at: usize,
    handlers: Vec<usize>,
}

pub struct Thread<'t> {
    script: &'t Script,
    names: Names,
    frames: Vec<Frame>,
    sender: Tid,
    /// The statement of the last call.
    said: &'t [String],
    /// The last call was a return.
    returns: bool,
}

const NOTHING: &[String] = &[];

impl<'t> Thread<'t> {
    fn new(script: &'t Script, names: Names, proc: usize) -> Thread<'t> {
        Thread {
            script,
            names,
            frames: vec![Frame { proc, at: 0, handlers: Vec::new() }],
            sender: Tid::NONE,
            said: NOTHING,
            returns: false,
        }
    }

    fn take(&mut self, answer: &Answer) {
        let said = self.said;
        if let Answer::Caught { depth, mark, .. } = *answer {
            self.frames.truncate(depth as usize);
            let frame = self.frames.last_mut().unwrap();
            frame.at = frame.handlers[mark as usize];
            frame.handlers.truncate(mark as usize);
            return;
        }
        if self.returns {
            self.frames.pop();
        }
        if said.is_empty() || matches!(answer, Answer::Refused(_)) {
            return;
        }
        let frame = self.frames.last_mut().unwrap();
        match (said[0].as_str(), answer) {
            (_, Answer::Letter { from, .. }) => self.sender = *from,
            ("create" | "agent", Answer::Thread(tid)) => self.set('t', tid.0),
            ("moncreate", Answer::Monitor(mon)) => self.set('m', mon.0),
            ("cvcreate", Answer::Cond(cond)) => self.set('c', cond.0),
            ("handle", _) => frame.handlers.push(frame.at),
            ("unhandle", _) => drop(frame.handlers.pop()),
            ("call", _) => self.frames.push(Frame { proc: self.script.proc(&said[1]) as usize, at: 0, handlers: Vec::new() }),
            _ => {}
        }
    }

    fn set(&self, list: char, number: u64) {
        self.names.borrow_mut().insert((list, self.said[1].clone()), number);
    }

    fn named(&self, list: char, name: &str) -> u64 {
        self.names.borrow().get(&(list, name.to_string())).copied().unwrap_or(u64::MAX)
    }

    fn who(&self, me: Tid, word: &str) -> Tid {
        match word {
            "self" => me,
            "first" => FIRST,
            "sender" => self.sender,
            "none" => Tid::NONE,
            name => Tid(self.named('t', name)),
        }
    }

    /// The next statement that makes a call; after the last it is a return.
    fn statement(&mut self, answer: &Answer) -> &'t [String] {
        let frame = self.frames.last_mut().unwrap();
        let lines = &self.script.procs[frame.proc].1;
        loop {
            let words = match lines.get(frame.at) {
                Some(words) => words,
                None => return NOTHING,
            };
            frame.at += 1;
            match words[0].as_str() {
                "again" => frame.at = 0,
                "skip" => frame.at += usize::from(meets(answer, words)),
                _ => return words,
            }
        }
    }

    fn exit_call(&self, me: Tid, words: &[String]) -> ExitCall<'t> {
        let word = words.get(1).map_or("", String::as_str);
        match words[0].as_str() {
            "monexit" => ExitCall::MonExit { mon: Mid(self.named('m', word)) },
            "monbreak" => ExitCall::MonBreak { mon: Mid(self.named('m', word)) },
            "notify" => ExitCall::Notify { cond: Cid(self.named('c', word)) },
            "broadcast" => ExitCall::Broadcast { cond: Cid(self.named('c', word)) },
            "reply" => ExitCall::Reply { to: self.who(me, word), text: text(words[2..].join(" ")) },
            "resume" => ExitCall::Resume { tid: self.who(me, word) },
            "setexit" => ExitCall::SetExit { code: word.parse().unwrap() },
            _ => ExitCall::Note { text: text(words[1..].join(" ")) },
        }
    }

    fn call(&self, me: Tid, words: &[String]) -> Call<'t> {
        let key = match words.first() {
            Some(key) => key,
            None => return Call::Return,
        };
        let word = |at: usize| words.get(at).map_or("", String::as_str);
        let number = |at: usize| word(at).parse().unwrap();
        let who = |at: usize| self.who(me, word(at));
        let (mon, cond) = (|at| Mid(self.named('m', word(at))), |at| Cid(self.named('c', word(at))));
        let rest = |at: usize| text(words[at.min(words.len())..].join(" "));
        match key.as_str() {
            "create" => {
                let flag = |letter| word(4).contains(letter);
                let flags = Flags { suspended: flag('s'), nolastrites: flag('n'), server: flag('v') };
                Call::Create { proc: self.script.proc(word(2)), prio: number(3), flags }
            }
            "destroy" => Call::Destroy { tid: who(1) },
            "ping" => Call::Ping { tid: who(1) },
            "yield" => Call::Yield { to: who(1) },
            "resched" => Call::Resched { prio: number(1) },
            "setpri" => Call::SetPri { tid: who(1), prio: number(2) },
            "suspend" => Call::Suspend { tid: who(1) },
            "resume" => Call::Resume { tid: who(1) },
            "join" => Call::Join { tid: who(1) },
            "sleep" => Call::Sleep { ticks: number(1) },
            "self" => Call::Me,
            "setmaxpri" => Call::SetMaxPri { prio: number(1) },
            "setexit" => Call::SetExit { code: number(1) },
            "getexit" => Call::GetExit,
            "podexit" => Call::PodExit { code: number(1) },
            "threads" => Call::Threads,
            "say" => Call::Say { text: rest(1) },
            "send" => Call::Send { to: who(1), room: word(2).parse().unwrap(), text: rest(3) },
            "recv" => Call::Recv { from: (word(1) != "any").then(|| who(1)), mode: mode(word(2)) },
            "reply" => Call::Reply { to: who(1), text: rest(2) },
            "senders" => Call::Senders,
            "receivers" => Call::Receivers,
            "agent" => Call::Agent { event: number(2) },
            "agents" => Call::Agents,
            "trap" => Call::Trap { event: number(1) },
            "moncreate" => Call::MonCreate,
            "mondestroy" => Call::MonDestroy { mon: mon(1) },
            "enter" => Call::Enter { mon: mon(1) },
            "condenter" => Call::CondEnter { mon: mon(1) },
            "monexit" => Call::MonExit { mon: mon(1) },
            "monbreak" => Call::MonBreak { mon: mon(1) },
            "monitors" => Call::Monitors,
            "monwaiters" => Call::MonWaiters { mon: mon(1) },
            "cvcreate" => Call::CvCreate { mon: mon(2) },
            "cvdestroy" => Call::CvDestroy { cond: cond(1) },
            "wait" => Call::Wait { cond: cond(1) },
            "notify" => Call::Notify { cond: cond(1) },
            "broadcast" => Call::Broadcast { cond: cond(1) },
            "cvsend" => Call::CvSend { cond: cond(1), tid: who(2) },
            "conditions" => Call::Conds,
            "cvwaiters" => Call::CvWaiters { cond: cond(1) },
            "call" => Call::CallProc { proc: self.script.proc(word(1)) },
            "return" => Call::Return,
            "handle" => Call::Handle { pattern: pattern(word(1)), func: func(word(2)), arg: number(3) },
            "unhandle" => Call::Unhandle,
            "onexit" => Call::OnExit { call: self.exit_call(me, &words[1..]) },
            "raise" => Call::Raise { pattern: number(1) },
            "excnotify" => Call::ExcNotify { pattern: number(1) },
            "bound" => Call::Bound { pattern: number(1) },
            "uniqpatt" => Call::UniqPatt,
            other => panic!("no statement: {other}"),
        }
    }
}

impl<'t> Body<'t> for Thread<'t> {
    fn next(&mut self, me: Tid, answer: Answer) -> Call<'t> {
        self.take(&answer);
        let words = self.statement(&answer);
        // A return past the last statement leaves its procedure as the statement does.
        self.said = words;
        self.returns = words.first().map_or(true, |word| word == "return");
        self.call(me, words)
    }
}

fn meets(answer: &Answer, words: &[String]) -> bool {
    match words[1].as_str() {
        "err" => matches!(answer, Answer::Refused(_)),
        "caught" => matches!(answer, Answer::Caught { .. }),
        "ok" => !matches!(answer, Answer::Refused(_) | Answer::Caught { .. }),
        _ => *answer == Answer::Value(words[2].parse().unwrap()),
    }
}

fn mode(word: &str) -> Mode {
    match word {
        "poll" => Mode::Poll,
        "wait" => Mode::Block,
        ticks => Mode::Until { ticks: ticks.parse().unwrap() },
    }
}

fn pattern(word: &str) -> Pattern {
    word.parse().map_or(Pattern::All, Pattern::Num)
}

fn func(word: &str) -> Func {
    match word {
        "give" => Func::Give,
        "sum" => Func::Sum,
        _ => Func::Nothing,
    }
}
