//! Loqzemar: many threads in one process, one at a time, in an order that is the same on every run.
//!
//! A thread is a [`Body`]: a function from an answer to the next [`Call`]. A [`Pod`] lets its threads take turns, and keeps a trace of all
//! that they call and are answered. The trace of a program is the same on every run, byte for byte, because nothing in it depends on time or
//! chance; what comes from outside is posted as lines, and the trace tells when each was taken.
//!
//! ```
//! use loqzemar::{text, Answer, Call, End, Flags, Mode, Pod, Tid, FIRST};
//!
//! // The first thread makes another, waits for its letter, and replies.
//! let shop = |_: Tid| {
//!     let mut step = 0;
//!     move |_: Tid, answer: Answer| {
//!         step += 1;
//!         match (step, answer) {
//!             (1, _) => Call::Create { proc: 1, prio: 1, flags: Flags::default() },
//!             (2, _) => Call::Recv { from: None, mode: Mode::Block },
//!             (3, Answer::Letter { from, .. }) => Call::Reply { to: from, text: text("that is 3 euros") },
//!             _ => Call::Return,
//!         }
//!     }
//! };
//! let customer = |_: Tid| {
//!     let mut step = 0;
//!     move |_: Tid, answer: Answer| {
//!         step += 1;
//!         match (step, answer) {
//!             (1, _) => Call::Send { to: FIRST, room: 240, text: text("two pages, please") },
//!             (2, Answer::Reply(price)) => Call::Say { text: text(format!("i was told: {price}")) },
//!             _ => Call::Return,
//!         }
//!     }
//! };
//!
//! let mut pod = Pod::setup(1).proc("shop", shop).proc("customer", customer).pod()?;
//! assert_eq!(pod.run()?, End::Ended(0));
//! assert!(pod.trace().contains("t1: say i was told: that is 3 euros\n"));
//! # Ok::<(), loqzemar::Fault>(())
//! ```
//!
//! # What can't go wrong
//!
//! A call that means nothing can't be written: texts, modes, functions and exit procedures are types. A text is lent for the lifetime of the
//! pod, or the pod owns it, so the library never refers to one that is gone. A pod is freed when it is dropped, and stays on its thread of
//! the system. What is left is [`Fault`]: memory that is refused, and numbers out of range as a pod is set up.
#![warn(missing_docs)]

#[cfg(doctest)]
#[doc = include_str!("../README.md")]
struct Readme;

mod answer;
mod call;
mod explored;
mod follow;
mod pod;
pub mod sys;
mod text;

pub use answer::{Answer, LwpErr};
pub use call::{Call, Cid, ExitCall, Flags, Func, Mid, Mode, Pattern, Tid, FIRST};
pub use explored::{explore_ends, explore_line, explore_trace, Ending, Explored, Unexplored};
pub use follow::Unfollowed;
pub use pod::{Body, End, Fault, Pod, Setup};
pub use text::{text, NoText, Text};
