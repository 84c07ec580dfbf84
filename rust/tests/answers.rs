//! What the calls are answered, by the kinds of answers, and what a pod does around them.

use std::cell::RefCell;

use loqzemar::{text, Answer, Call, Cid, End, ExitCall, Fault, Flags, Func, LwpErr, Mid, Mode, NoText, Pattern, Pod, Text, Tid, FIRST};

/// What a first thread that makes these calls is answered, one after the other, beside idle threads.
fn answers(calls: Vec<Call<'static>>) -> Vec<Answer> {
    let got = RefCell::new(Vec::new());
    {
        let made = RefCell::new(calls.into_iter());
        let (made, taken) = (&made, &got);
        let main = move |_| {
            move |_: Tid, answer: Answer| {
                taken.borrow_mut().push(answer);
                made.borrow_mut().next().unwrap_or(Call::PodExit { code: 0 })
            }
        };
        let mut pod = Pod::setup(2).proc("main", main).proc("idler", |_| |_: Tid, _: Answer| Call::Sleep { ticks: 9 }).pod().unwrap();
        assert_eq!(pod.run().unwrap(), End::Ended(0));
    }
    got.into_inner().split_off(1)
}

fn create() -> Call<'static> {
    Call::Create { proc: 1, prio: 1, flags: Flags { suspended: true, ..Flags::default() } }
}

#[test]
fn numbers_and_lists() {
    let calls = vec![
        Call::Me,
        create(),
        Call::MonCreate,
        Call::CvCreate { mon: Mid(0) },
        Call::Threads,
        Call::Monitors,
        Call::Conds,
        Call::Agent { event: 5 },
        Call::Agents,
        Call::SetPri { tid: Tid(1), prio: 2 },
        Call::Ping { tid: Tid(9) },
    ];
    let wanted = vec![
        Answer::Thread(FIRST),
        Answer::Thread(Tid(1)),
        Answer::Monitor(Mid(0)),
        Answer::Cond(Cid(0)),
        Answer::Threads(vec![FIRST, Tid(1)]),
        Answer::Monitors(vec![Mid(0)]),
        Answer::Conds(vec![Cid(0)]),
        Answer::Thread(Tid(2)),
        Answer::Threads(vec![Tid(2)]),
        Answer::Value(1),
        Answer::Refused(LwpErr::NonExist),
    ];
    assert_eq!(answers(calls), wanted);
    assert_eq!([Tid(3).to_string(), Mid(0).to_string(), Cid(1).to_string(), Tid::NONE.to_string()], ["t3", "m0", "c1", "none"]);
}

#[test]
fn long_lists() {
    let calls = (0..300).map(|_| create()).chain([Call::Threads]).collect();
    assert_eq!(answers(calls)[300], Answer::Threads((0..=300).map(Tid).collect()));
}

#[test]
fn exceptions() {
    let calls = vec![
        Call::Handle { pattern: Pattern::Num(7), func: Func::Nothing, arg: 0 },
        Call::Handle { pattern: Pattern::All, func: Func::Sum, arg: 5 },
        Call::Bound { pattern: 8 },
        Call::ExcNotify { pattern: 8 },
        Call::Unhandle,
        Call::CallProc { proc: 1 },
        Call::OnExit { call: ExitCall::Note { text: text("out") } },
        Call::Raise { pattern: 7 },
        Call::UniqPatt,
    ];
    let wanted = vec![
        Answer::Value(0),
        Answer::Value(0),
        Answer::Bound { func: Func::Sum, arg: 5 },
        Answer::Value(13),
        Answer::Value(0),
        Answer::Value(0),
        Answer::Value(0),
        Answer::Caught { depth: 1, mark: 0, pattern: 7 },
        Answer::Value(1 << 30),
    ];
    assert_eq!(answers(calls), wanted);
}

/// A server that replies to each letter in capitals.
fn shouting<'t>() -> impl FnMut(Tid, Answer) -> Call<'t> {
    |_, answer| match answer {
        Answer::Letter { from, text: said, .. } => Call::Reply { to: from, text: text(said.to_uppercase()) },
        _ => Call::Recv { from: None, mode: Mode::Block },
    }
}

#[test]
fn letters_and_lines() {
    let told = RefCell::new(Vec::new());
    let mut step = 0;
    let main = move |_: Tid, answer: Answer| {
        step += 1;
        match (step, answer) {
            (1, _) => Call::Create { proc: 1, prio: 1, flags: Flags { server: true, ..Flags::default() } },
            (2, Answer::Thread(desk)) => Call::Send { to: desk, room: 9, text: text("hello") },
            (3, Answer::Reply(reply)) => Call::Say { text: text(reply) },
            _ => Call::Return,
        }
    };
    let main = RefCell::new(Some(main));
    let mut pod = Pod::setup(1).proc("main", |_| main.take().unwrap()).proc("desk", |_| shouting()).pod().unwrap();
    assert_eq!(pod.run().unwrap(), End::Ended(0));
    assert!(pod.trace().contains("t0: say HELLO\n"));

    let tell = |client: u8, said: &str| told.borrow_mut().push((client, said.to_string()));
    let word = String::from("borrowed");
    let mut pod = Pod::setup(1).proc("listener", |_| listener()).tell(tell).pod().unwrap();
    pod.post(5, 3, text(word.as_str())).unwrap();
    pod.post(5, 4, text(format!("owned {}", 1))).unwrap();
    pod.post(5, 3, Text::EMPTY).unwrap();
    assert_eq!(pod.run().unwrap(), End::Idle);
    let wanted: Vec<(u8, String)> = vec![(3, "BORROWED".into()), (4, "OWNED 1".into()), (3, "".into())];
    assert_eq!(*told.borrow(), wanted);
    assert!(pod.trace().contains("event 5 client 3 seq 1\n") && pod.trace().ends_with("stuck\n"));
    assert!(pod.armed(5) && !pod.armed(6));
    assert_eq!((pod.post(32, 0, Text::EMPTY), pod.status(), pod.current()), (Err(Fault::BadNumber), None, None));
}

/// A thread with an agent for event 5, which replies to each line in capitals.
fn listener<'t>() -> impl FnMut(Tid, Answer) -> Call<'t> {
    let mut agent = Tid::NONE;
    move |_, answer| match answer {
        Answer::Value(_) if agent == Tid::NONE => {
            agent = Tid(1);
            Call::Agent { event: 5 }
        }
        Answer::Letter { from, text: said, .. } => Call::Reply { to: from, text: text(said.to_uppercase()) },
        _ => Call::Recv { from: Some(agent), mode: Mode::Block },
    }
}

#[test]
fn turns_and_traces() {
    let mut pod = Pod::setup(1).proc("main", |_| |_: Tid, _: Answer| Call::Me).pod().unwrap();
    assert_eq!(pod.run_for(2), Ok(End::Spent));
    assert_eq!((pod.calls(), pod.current()), (2, Some(FIRST)));
    assert_eq!(pod.trace(), "t0: self\nt0 = t0\nt0: self\nt0 = t0\nspent 2\n");
    let mut pod = Pod::setup(1).proc("main", |_| |_: Tid, _: Answer| Call::Return).trace(false).pod().unwrap();
    pod.post(5, 2, Text::EMPTY).unwrap();
    assert_eq!(pod.run(), Ok(End::Ended(0)));
    assert_eq!((pod.status(), pod.trace().as_str()), (Some(0), "left client 2 1\n"));
    assert_eq!(pod.run(), Ok(End::Ended(0)));
}

#[test]
fn bad_pods_and_texts() {
    let setup = |maxpri| Pod::setup(maxpri).proc("main", |_| |_: Tid, _: Answer| Call::Return);
    for setup in [setup(0), setup(256), setup(1).births(0), setup(1).births(1 << 32), Pod::setup(1)] {
        assert_eq!(setup.pod().map(|_| ()), Err(Fault::BadNumber));
    }
    let long = "x".repeat(241);
    for bad in [long.as_str(), "a\nb", "caf\u{e9}", "\u{7f}"] {
        assert_eq!(Text::try_from(bad), Err(NoText));
        assert_eq!(Text::try_from(bad.to_string()), Err(NoText));
    }
    assert!(Text::try_from(&long[..240]).is_ok());
}
