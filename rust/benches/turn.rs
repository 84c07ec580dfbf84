//! What a turn of two threads that yield costs, beside the C library's own turn: `cargo bench`, and `cargo bench -- 1.2` to fail where the
//! ratio is more.
//!
//! Where valgrind is there, the instructions of a turn are counted too: what else the machine does changes the nanoseconds, and not these.
//! The ratio is then that of the instructions.

use std::process::{exit, Command};
use std::time::Instant;

use loqzemar::sys::{self, loq_call_t, loq_effect_t, loq_pod};
use loqzemar::{Answer, Call, Flags, Pod, Tid};

const TURNS: u64 = 10_000;
const ROUNDS: usize = 500;
/// Under valgrind a turn takes some fifty times as long.
const COUNTED: u64 = 5_000;

/// Whose turn is measured.
#[derive(Clone, Copy)]
enum Side {
    C,
    Bare,
    Traced,
}

impl Side {
    const ALL: [(Side, &'static str); 3] = [(Side::C, "c"), (Side::Bare, "bare"), (Side::Traced, "traced")];

    /// How many nanoseconds each of so many turns takes.
    fn turns(self, turns: u64) -> f64 {
        match self {
            Side::C => c_library(turns),
            Side::Bare => package(false, turns),
            Side::Traced => package(true, turns),
        }
    }
}

fn nanoseconds(turns: u64, work: impl FnOnce()) -> f64 {
    let began = Instant::now();
    work();
    began.elapsed().as_nanos() as f64 / turns as f64
}

/// One turn of the C library, as a program in C makes it: whose turn it is, the call, how many effects there are, and each of them.
unsafe fn turn_of_c(pod: &mut loq_pod, call: &mut loq_call_t, effect: &mut loq_effect_t, text: &mut [u8; sys::TEXT_MAX]) -> i64 {
    let (mut tid, mut count, mut sum) = (0, 0, 0);
    let mut ids = [0u64; 1];
    sys::loq_current(pod, &mut tid);
    call.target = tid;
    sys::loq_call(pod, call, text.as_ptr(), 0);
    sys::loq_effects(pod, &mut count);
    for at in 0..count {
        sys::loq_effect(pod, at, effect, text.as_mut_ptr(), text.len(), ids.as_mut_ptr(), ids.len());
        sum += effect.value;
    }
    sum
}

fn c_library(turns: u64) -> f64 {
    let mut pod = loq_pod::empty();
    let mut call = loq_call_t { prio: 1, number: 1, ..loq_call_t::default() };
    let (mut effect, mut text) = (loq_effect_t::default(), [0; sys::TEXT_MAX]);
    // SAFETY: the pod is made here, stays where it is, and is freed at the end.
    unsafe {
        assert_eq!(sys::loq_pod_new(&mut pod, 1, u64::from(u32::MAX), 2), sys::DONE);
        turn_of_c(&mut pod, &mut call, &mut effect, &mut text);
        call.kind = 3;
        let mut sum = 0;
        let took = nanoseconds(turns, || {
            for _ in 0..turns {
                sum += turn_of_c(&mut pod, &mut call, &mut effect, &mut text);
            }
        });
        assert_eq!(sum, 0);
        sys::loq_pod_free(&mut pod);
        took
    }
}

fn package(trace: bool, turns: u64) -> f64 {
    let first = |_| {
        let mut has_created = false;
        move |me: Tid, _: Answer| {
            if has_created {
                return Call::Yield { to: me };
            }
            has_created = true;
            Call::Create { proc: 1, prio: 1, flags: Flags::default() }
        }
    };
    let mut pod =
        Pod::setup(1).proc("first", first).proc("other", |_| |me: Tid, _: Answer| Call::Yield { to: me }).trace(trace).pod().unwrap();
    pod.run_for(100).unwrap();
    nanoseconds(turns, || {
        pod.run_for(turns).unwrap();
    })
}

/// How many instructions a turn takes: this program makes so many turns under valgrind, and then three times as many.
fn instructions(side: &str) -> Option<f64> {
    let of = |turns: u64| -> Option<u64> {
        let ran = Command::new("valgrind")
            .args(["--tool=callgrind", "--callgrind-out-file=/dev/null"])
            .arg(std::env::current_exe().ok()?)
            .args([side, &turns.to_string()])
            .output()
            .ok()?;
        let told = String::from_utf8_lossy(&ran.stderr).into_owned();
        told.lines().find_map(|line| line.split_once("Collected :")?.1.trim().parse().ok())
    };
    Some((of(3 * COUNTED)? - of(COUNTED)?) as f64 / (2 * COUNTED) as f64)
}

/// Prints what a turn of each side costs, and returns how much of the C library's turn one of the package is.
fn tell(costs: [f64; 3], unit: &str) -> f64 {
    let [c, bare, traced] = costs;
    println!("the C library's turn:   {c:6.1} {unit}");
    println!("a turn of this package: {bare:6.1} {unit}, {:.2} of it", bare / c);
    println!("with the trace:         {traced:6.1} {unit}");
    bare / c
}

fn main() {
    let words: Vec<String> = std::env::args().skip(1).filter(|word| word != "--bench").collect();
    if let [name, turns] = words.as_slice() {
        let (side, _) = Side::ALL.into_iter().find(|(_, its)| its == name).expect("a side");
        side.turns(turns.parse().expect("a number of turns"));
        return;
    }
    let most: Option<f64> = words.iter().find_map(|word| word.parse().ok());
    let mut costs = [f64::MAX; 3];
    for _ in 0..ROUNDS {
        for (cost, (side, _)) in costs.iter_mut().zip(Side::ALL) {
            *cost = cost.min(side.turns(TURNS));
        }
    }
    let mut ratio = tell(costs, "ns");
    let counted: Option<Vec<f64>> = Side::ALL.into_iter().map(|(_, name)| instructions(name)).collect();
    match counted.as_deref() {
        Some(&[c, bare, traced]) => ratio = tell([c, bare, traced], "instructions"),
        _ => println!("no valgrind: the instructions are not counted"),
    }
    if most.map_or(false, |most| most < ratio) {
        println!("{ratio:.3} is more than may be");
        exit(1);
    }
}
