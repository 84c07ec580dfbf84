//! Each refusal that docs/calls.md lists, by the call and the number that it has there: a script whose last refusal it is.

mod scripts;

use std::collections::BTreeMap;
use std::fs;
use std::path::Path;

use loqzemar::{Answer, Body, Call, LwpErr, Pod, Tid};
use scripts::Script;

/// What takes a thousand million calls or more to come to.
const OUT_OF_REACH: [(&str, usize); 2] = [("exc_on_exit", 2), ("exc_uniqpatt", 1)];

/// Call, number, error, greatest priority, limit on births, and the statements of the first thread, of which the last is refused. A statement
/// that begins with a number is repeated so often.
const ROWS: &[(&str, usize, &str, u32, &str, &str)] = &[
    ("agt_create", 1, "LE_INUSE", 1, "", "trap 5;agent a 5"),
    ("agt_create", 2, "LE_INVALIDARG", 1, "", "agent a 0;agent a 33"),
    ("agt_create", 3, "LE_NOROOM", 1, "", "256 agent a 1;agent a 2"),
    ("agt_create", 4, "LE_NOROOM", 1, "2", "agent a 1;agent a 2"),
    ("agt_trap", 1, "LE_INVALIDARG", 1, "", "trap 0;trap 32"),
    ("agt_trap", 2, "LE_INUSE", 1, "", "trap 5;trap 5"),
    ("cv_broadcast", 1, "LE_NONEXIST", 1, "", "broadcast c"),
    ("cv_broadcast", 2, "LE_NOTOWNED", 1, "", "moncreate m;cvcreate c m;broadcast c"),
    ("cv_create", 1, "LE_NONEXIST", 1, "", "cvcreate c m"),
    ("cv_create", 2, "LE_NOROOM", 1, "", "moncreate m;256 cvcreate c m;cvcreate c m"),
    ("cv_create", 3, "LE_NOROOM", 1, "1", "moncreate m;cvcreate c m;cvcreate c m"),
    ("cv_destroy", 1, "LE_NONEXIST", 1, "", "cvdestroy c"),
    ("cv_destroy", 2, "LE_INUSE", 1, "", "moncreate m;cvcreate c m;create t waiter 1 -;yield t;cvdestroy c"),
    ("cv_notify", 1, "LE_NONEXIST", 1, "", "notify c"),
    ("cv_notify", 2, "LE_NOTOWNED", 1, "", "moncreate m;cvcreate c m;moncreate o;enter m;enter o;notify c"),
    ("cv_send", 1, "LE_NONEXIST", 1, "", "cvsend c self"),
    ("cv_send", 2, "LE_NOTOWNED", 1, "", "moncreate m;cvcreate c m;cvsend c self"),
    ("cv_send", 3, "LE_NONEXIST", 1, "", "moncreate m;cvcreate c m;enter m;cvsend c none"),
    ("cv_send", 4, "LE_NOWAIT", 1, "", "moncreate m;cvcreate c m;enter m;cvsend c self"),
    ("cv_wait", 1, "LE_NONEXIST", 1, "", "wait c"),
    ("cv_wait", 2, "LE_NOTOWNED", 1, "", "moncreate m;cvcreate c m;wait c"),
    ("cv_waiters", 1, "LE_NONEXIST", 1, "", "cvwaiters c"),
    ("exc_bound", 1, "LE_INVALIDARG", 1, "", "bound 0;bound 2147483648"),
    ("exc_bound", 2, "LE_NONEXIST", 1, "", "bound 5"),
    ("exc_handle", 1, "LE_INVALIDARG", 1, "", "handle 0 - 0;handle 2147483648 - 0"),
    ("exc_handle", 2, "LE_NOROOM", 1, "", "255 handle all - 0;handle all - 0"),
    ("exc_notify", 1, "LE_INVALIDARG", 1, "", "excnotify 0;excnotify 2147483648"),
    ("exc_notify", 2, "LE_NONEXIST", 1, "", "excnotify 5"),
    ("exc_on_exit", 1, "LE_NOROOM", 1, "", "255 handle all - 0;onexit note x"),
    ("exc_raise", 1, "LE_INVALIDARG", 1, "", "raise 0;raise 2147483648"),
    ("exc_raise", 2, "LE_NONEXIST", 1, "", "raise 5"),
    ("exc_unhandle", 1, "LE_NONEXIST", 1, "", "unhandle"),
    ("exc_unhandle", 2, "LE_INVALIDARG", 1, "", "onexit note x;unhandle"),
    ("lwp_create", 2, "LE_ILLPRIO", 1, "", "create t idler 0 -;create t idler 2 -"),
    ("lwp_create", 3, "LE_NOROOM", 1, "", "1023 create t idler 1 -;create t idler 1 -"),
    ("lwp_create", 4, "LE_NOROOM", 1, "1", "create t idler 1 -"),
    ("lwp_destroy", 1, "LE_NONEXIST", 1, "", "destroy none"),
    ("lwp_join", 1, "LE_NONEXIST", 1, "", "join none"),
    ("lwp_join", 2, "LE_INVALIDARG", 1, "", "join self"),
    ("lwp_ping", 1, "LE_NONEXIST", 1, "", "ping none"),
    ("lwp_resched", 1, "LE_ILLPRIO", 1, "", "resched 0;resched 2"),
    ("lwp_resched", 2, "LE_INVALIDARG", 2, "", "setpri self 1;resched 2"),
    ("lwp_resume", 1, "LE_NONEXIST", 1, "", "resume none"),
    ("lwp_setpri", 1, "LE_NONEXIST", 1, "", "setpri none 1"),
    ("lwp_setpri", 2, "LE_ILLPRIO", 1, "", "setpri self 0;setpri self 2"),
    ("lwp_suspend", 1, "LE_NONEXIST", 1, "", "suspend none"),
    ("lwp_yield", 1, "LE_NONEXIST", 1, "", "yield none"),
    ("lwp_yield", 2, "LE_ILLPRIO", 2, "", "create t idler 1 -;yield t"),
    ("lwp_yield", 3, "LE_INVALIDARG", 1, "", "create t idler 1 s;yield t"),
    ("mon_break", 1, "LE_NONEXIST", 1, "", "monbreak m"),
    ("mon_break", 2, "LE_NOTOWNED", 1, "", "moncreate m;monbreak m"),
    ("mon_cond_enter", 1, "LE_NONEXIST", 1, "", "condenter m"),
    ("mon_cond_enter", 2, "LE_INUSE", 1, "", "moncreate m;create t holder 1 -;yield t;condenter m"),
    ("mon_cond_enter", 3, "LE_NOROOM", 1, "", "moncreate m;65535 condenter m;condenter m"),
    ("mon_create", 1, "LE_NOROOM", 1, "", "256 moncreate m;moncreate m"),
    ("mon_create", 2, "LE_NOROOM", 1, "1", "moncreate m;moncreate m"),
    ("mon_destroy", 1, "LE_NONEXIST", 1, "", "mondestroy m"),
    ("mon_destroy", 2, "LE_INUSE", 1, "", "moncreate m;enter m;mondestroy m"),
    ("mon_destroy", 3, "LE_INUSE", 1, "", "moncreate m;cvcreate c m;create t waiter 1 -;yield t;mondestroy m"),
    ("mon_enter", 1, "LE_NONEXIST", 1, "", "enter m"),
    ("mon_enter", 2, "LE_NOROOM", 1, "", "moncreate m;65535 enter m;enter m"),
    ("mon_exit", 1, "LE_NONEXIST", 1, "", "monexit m"),
    ("mon_exit", 2, "LE_INVALIDARG", 1, "", "moncreate m;monexit m"),
    ("mon_waiters", 1, "LE_NONEXIST", 1, "", "monwaiters m"),
    ("msg_recv", 1, "LE_NONEXIST", 1, "", "recv none wait"),
    ("msg_recv", 2, "LE_INVALIDARG", 1, "", "recv self wait"),
    ("msg_recv", 3, "LE_TIMEOUT", 1, "", "recv any 0;recv any 2;recv any poll"),
    ("msg_reply", 1, "LE_NONEXIST", 1, "", "reply none x"),
    ("msg_reply", 2, "LE_NOWAIT", 1, "", "create t sender 1 -;yield t;reply t x"),
    ("msg_reply", 3, "LE_INVALIDARG", 1, "", "create t sender 1 -;recv any wait;reply sender long"),
    ("msg_send", 1, "LE_NONEXIST", 1, "", "send none 0 x"),
    ("msg_send", 2, "LE_INVALIDARG", 1, "", "send self 0 x"),
    ("pod_exit", 1, "LE_INVALIDARG", 1, "", "podexit 100"),
    ("pod_setexit", 1, "LE_INVALIDARG", 1, "", "setexit 100"),
    ("pod_setmaxpri", 1, "LE_ILLPRIO", 2, "", "setmaxpri 1;setmaxpri 256"),
    ("call", 2, "LE_NOROOM", 1, "", "call deep"),
    ("call", 3, "LE_NOROOM", 1, "", "255 handle all - 0;call deep"),
];

/// Refusals of numbers that no script can say.
const BY_HAND: [(&str, usize, &str); 2] = [("call", 1, "LE_INVALIDARG"), ("lwp_create", 1, "LE_INVALIDARG")];

const HELPERS: &str = "proc idler\nsleep 1\nproc holder\nenter m\nsleep 1\nproc waiter\nenter m\nwait c\nproc sender\nsend first 2 hello\n\
                       proc deep\ncall deep\nskip err\nsleep 1\nsleep 9\n";

fn script(maxpri: u32, births: &str, statements: &str) -> String {
    let limit = if births.is_empty() { String::new() } else { format!("limit births {births}\n") };
    let mut main = String::new();
    for statement in statements.split(';') {
        let (count, one) = match statement.split_once(' ') {
            Some((count, one)) if count.parse::<usize>().is_ok() => (count.parse().unwrap(), one),
            _ => (1, statement),
        };
        main.push_str(&format!("{one}\n").repeat(count));
    }
    let ticks = "post 0 t\n".repeat(4);
    format!("lwp 1\npod {maxpri}\n{limit}client 0 0\nproc main\n{main}{HELPERS}{ticks}")
}

/// The keyword of a call's statement: that of the last statement of the row, as traces print it.
fn refused(trace: &str, error: &str, statements: &str) -> bool {
    let last = statements.rsplit(';').next().unwrap().split(' ').next().unwrap();
    let lines: Vec<&str> = trace.lines().collect();
    let wanted = format!("t0 ! {error}");
    // The last refusal of the first thread, right after its call, or later where it waited.
    let at = match lines.iter().rposition(|line| *line == wanted) {
        Some(at) => at,
        None => return false,
    };
    let call = lines[..at].iter().rev().find_map(|line| line.strip_prefix("t0: ")).unwrap();
    call.split(' ').next() == Some(last)
}

#[test]
fn every_refusal_is_answered() {
    for (name, number, error, maxpri, births, statements) in ROWS {
        let text = script(*maxpri, births, statements);
        let script = Script::new(&text);
        let mut pod = script.pod().unwrap();
        pod.run_for(200_000).unwrap();
        let trace = pod.trace();
        let tail = &trace[trace.len().saturating_sub(400)..];
        assert!(refused(&trace, error, statements), "{name} {number}: {tail}");
    }
}

fn refusal_of(call: Call<'static>) -> Answer {
    let got = std::cell::RefCell::new(Answer::Value(0));
    {
        let main = |_| {
            let (got, mut call) = (&got, Some(call.clone()));
            move |_: Tid, answer: Answer| {
                got.replace(answer);
                call.take().unwrap_or(Call::Return)
            }
        };
        Pod::setup(1).proc("main", main).pod().unwrap().run().unwrap();
    }
    got.into_inner()
}

#[test]
fn numbers_of_no_procedure_are_refused() {
    let flags = loqzemar::Flags::default();
    assert_eq!(refusal_of(Call::CallProc { proc: 1 }), Answer::Refused(LwpErr::InvalidArg));
    assert_eq!(refusal_of(Call::Create { proc: u32::MAX, prio: 1, flags }), Answer::Refused(LwpErr::InvalidArg));
    assert_eq!(LwpErr::InvalidArg.to_string(), "LE_INVALIDARG");
}

#[test]
fn none_is_left_out() {
    let top = std::env::var("LOQZEMAR_TOP").unwrap_or_else(|_| format!("{}/..", env!("CARGO_MANIFEST_DIR")));
    let page = fs::read_to_string(Path::new(&top).join("docs/calls.md")).unwrap();
    let mut listed = BTreeMap::new();
    for entry in page.split("\n### ").skip(1) {
        let name = entry.lines().next().unwrap();
        let errors = entry.split("**ERRORS**").nth(1).unwrap_or("").split("**SEE ALSO**").next().unwrap();
        for line in errors.lines() {
            if let Some((number, rest)) = line.split_once(". LE_") {
                listed.insert((name.to_string(), number.parse::<usize>().unwrap()), format!("LE_{}", rest.split(':').next().unwrap()));
            }
        }
    }
    let shown = ROWS.iter().map(|row| (row.0, row.1, row.2)).chain(BY_HAND);
    let mut shown: BTreeMap<_, _> = shown.map(|(name, number, error)| ((name.to_string(), number), error.to_string())).collect();
    for (name, number) in OUT_OF_REACH {
        let key = (name.to_string(), number);
        shown.insert(key.clone(), listed[&key].clone());
    }
    assert_eq!(shown, listed);
}

/// A body may be a type with a `Body` of its own.
#[test]
fn a_body_of_its_own_type() {
    struct Counter(u32);
    impl<'t> Body<'t> for Counter {
        fn next(&mut self, me: Tid, answer: Answer) -> Call<'t> {
            assert_eq!(answer, if self.0 == 0 { Answer::Value(0) } else { Answer::Thread(me) });
            self.0 += 1;
            if self.0 < 5 {
                Call::Me
            } else {
                Call::Return
            }
        }
    }
    let mut pod = Pod::setup(1).proc("main", |_| Counter(0)).pod().unwrap();
    pod.run().unwrap();
    assert_eq!(pod.calls(), 5);
}
