//! A program of two locks, under every order of the lines that make its threads go on.

use std::cell::Cell;

use loqzemar::{text, Answer, Call, End, Flags, Mid, Mode, Pod, Tid};

/// What a worker does on each of its lines.
#[derive(Clone, Copy)]
enum Deed {
    Enter(u64),
    Leave(u64),
}
use Deed::{Enter, Leave};

/// A worker makes an agent for its event, and does one deed for each line; after the last it is done.
fn worker<'t>(event: u32, deeds: [Deed; 4], done: &'t Cell<u32>) -> impl FnMut(Tid, Answer) -> Call<'t> {
    let (mut at, mut agent, mut is_at_deed) = (0, Tid::NONE, false);
    move |_, answer| match answer {
        Answer::Thread(tid) => {
            agent = tid;
            Call::Recv { from: Some(agent), mode: Mode::Block }
        }
        Answer::Letter { .. } => {
            is_at_deed = true;
            at += 1;
            match deeds[at - 1] {
                Enter(mon) => Call::Enter { mon: Mid(mon) },
                Leave(mon) => Call::MonExit { mon: Mid(mon) },
            }
        }
        Answer::Value(_) if at == 0 => Call::Agent { event },
        Answer::Value(_) if is_at_deed => {
            is_at_deed = false;
            Call::Reply { to: agent, text: text("done") }
        }
        Answer::Value(_) if at < deeds.len() => Call::Recv { from: Some(agent), mode: Mode::Block },
        _ => {
            done.set(done.get() + 1);
            Call::Return
        }
    }
}

/// Makes two monitors and two workers.
fn main_thread<'t>() -> impl FnMut(Tid, Answer) -> Call<'t> {
    let mut step = 0;
    move |_, _| {
        step += 1;
        match step {
            1 | 2 => Call::MonCreate,
            3 | 4 => Call::Create { proc: step - 2, prio: 1, flags: Flags::default() },
            _ => Call::Return,
        }
    }
}

/// How a run of these two ends where their lines come in this order, and its trace.
fn run(first: [Deed; 4], second: [Deed; 4], order: &[u8]) -> (End, u32, String) {
    let done = Cell::new(0);
    let count = &done;
    let mut pod = Pod::setup(1)
        .proc("main", |_| main_thread())
        .proc("first", move |_| worker(1, first, count))
        .proc("second", move |_| worker(2, second, count))
        .pod()
        .unwrap();
    assert_eq!(pod.run().unwrap(), End::Idle);
    let mut end = End::Idle;
    for &event in order {
        pod.post(event, event, text("on")).unwrap();
        end = pod.run().unwrap();
    }
    (end, done.get(), pod.trace())
}

/// All orders of four lines of each of two events.
fn orders() -> Vec<Vec<u8>> {
    let events = |bits: u32| (0..8).map(|at| if bits >> at & 1 == 1 { 2 } else { 1 }).collect();
    (0u32..256).filter(|bits| bits.count_ones() == 4).map(events).collect()
}

/// Whether each of the two gets its first lock before the other gets its second, and so neither ever gets that.
fn deadlocks(order: &[u8]) -> bool {
    let first_two = |event| {
        let mut places = order.iter().enumerate().filter(|(_, it)| **it == event).map(|(at, _)| at);
        (places.next().unwrap(), places.next().unwrap())
    };
    let ((one, two), (other_one, other_two)) = (first_two(1), first_two(2));
    one < other_two && other_one < two
}

#[test]
fn locks_in_one_order_never_deadlock() {
    let deeds = [Enter(0), Enter(1), Leave(1), Leave(0)];
    assert_eq!(orders().len(), 70);
    for order in orders() {
        let (end, done, trace) = run(deeds, deeds, &order);
        assert_eq!((end, done), (End::Ended(0), 2), "{order:?}\n{trace}");
        assert_eq!(trace, run(deeds, deeds, &order).2);
    }
}

#[test]
fn locks_in_two_orders_deadlock_where_both_have_their_first() {
    let (first, second) = ([Enter(0), Enter(1), Leave(1), Leave(0)], [Enter(1), Enter(0), Leave(0), Leave(1)]);
    let mut count = 0;
    for order in orders() {
        let (end, done, trace) = run(first, second, &order);
        if deadlocks(&order) {
            count += 1;
            assert_eq!((end, done), (End::Idle, 0), "{order:?}\n{trace}");
            assert!(trace.contains("t1: enter m1\n") && trace.contains("t2: enter m0\n") && trace.contains("\nstuck\n"));
        } else {
            assert_eq!((end, done), (End::Ended(0), 2), "{order:?}\n{trace}");
        }
        assert_eq!(trace, run(first, second, &order).2);
    }
    assert!(0 < count && count < 70, "{count}");
}
