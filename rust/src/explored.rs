//! All sessions of a script.

use std::error::Error;
use std::fmt;

use crate::pod::Fault;
use crate::sys;

/// How many bytes there is room for at first.
const ROOM: usize = 1 << 16;

/// What a search comes to.
#[derive(Clone, Copy, Debug, PartialEq, Eq)]
pub enum Ending {
    /// Each session that is over has ended, with no line left; or the trace is there; or no session writes the line.
    Well,
    /// There is another kind of end; or a session writes the line.
    Told,
    /// There are more cores than were kept.
    Cut,
    /// There are not so many kinds of ends.
    Missing,
}

/// What a search tells, and what it comes to.
#[derive(Clone, Debug, PartialEq, Eq)]
pub struct Explored {
    /// What `lwpexplore` writes.
    pub text: String,
    /// What it comes to.
    pub ending: Ending,
}

/// Why there was no search.
#[derive(Clone, Debug, PartialEq, Eq)]
pub enum Unexplored {
    /// The bytes are no script.
    NoScript {
        /// The first bad line, from 1, or 0 where the whole is too large.
        line: u64,
        /// What `lwpexplore` says of it.
        why: String,
    },
    /// Memory was refused, or a number is out of its range.
    Fault(Fault),
}

impl fmt::Display for Unexplored {
    fn fmt(&self, f: &mut fmt::Formatter<'_>) -> fmt::Result {
        match self {
            Unexplored::NoScript { why, .. } => f.write_str(why),
            Unexplored::Fault(fault) => fault.fmt(f),
        }
    }
}

impl Error for Unexplored {}

impl From<Fault> for Unexplored {
    fn from(fault: Fault) -> Unexplored {
        Unexplored::Fault(fault)
    }
}

/// Asks with a buffer, and once more with one that is large enough, where that one is too small.
fn explored(ask: impl Fn(&mut [u8], &mut usize, &mut sys::loq_session_t) -> u32) -> Result<Explored, Unexplored> {
    let mut out = Vec::new();
    let (mut room, mut len, mut session) = (ROOM, 0, sys::loq_session_t::default());
    loop {
        out.resize(room, 0);
        match ask(&mut out, &mut len, &mut session) {
            sys::TOO_SMALL => room = len,
            sys::NO_MEMORY => return Err(Fault::NoMemory.into()),
            sys::BAD_NUMBER => return Err(Fault::BadNumber.into()),
            _ => break,
        }
    }
    let text = String::from_utf8_lossy(&out[..len]).into_owned();
    let ending = match session.status {
        0 => Ending::Well,
        109 => Ending::Told,
        110 => Ending::Cut,
        111 => Ending::Missing,
        _ => return Err(Unexplored::NoScript { line: session.line, why: text.trim_end().to_string() }),
    };
    Ok(Explored { text, ending })
}

/// The kinds of ends of a script's sessions, whenever the lines of its clients come: each with how many cores it has and the way to the
/// first. A core is all of a session that counts for how it goes on; at most so many are kept, 1 to 1,000,000.
///
/// ```
/// use loqzemar::{explore_ends, Ending};
/// let told = explore_ends(b"lwp 1\npod 1\nproc main\nyield self\nagain\n", 100_000)?;
/// assert_eq!(told.text, "states 2 steps 2 whole\nendless: 1 cores, calls 1 takes 0\n");
/// assert_eq!(told.ending, Ending::Told);
/// # Ok::<(), loqzemar::Unexplored>(())
/// ```
///
/// # Errors
///
/// Bytes that are no script, a number out of its range, or memory that was refused.
pub fn explore_ends(script: &[u8], cores: u64) -> Result<Explored, Unexplored> {
    // SAFETY: each pointer points to as many bytes as are said, and the library keeps none.
    explored(|out, len, session| unsafe {
        sys::loq_explore_ends(script.as_ptr(), script.len(), cores, out.as_mut_ptr(), out.len(), len, session)
    })
}

/// The trace of the way to the first core of a kind, by its number in what `explore_ends` lists, from 1.
///
/// # Errors
///
/// As of [`explore_ends`].
pub fn explore_trace(script: &[u8], kind: u64, cores: u64) -> Result<Explored, Unexplored> {
    // SAFETY: as above.
    explored(|out, len, session| unsafe {
        sys::loq_explore_trace(script.as_ptr(), script.len(), kind, cores, out.as_mut_ptr(), out.len(), len, session)
    })
}

/// How many calls and takes lead to the first step that writes a line of a trace, which is given without its newline; or `never` where no
/// session writes it.
///
/// # Errors
///
/// As of [`explore_ends`].
pub fn explore_line(script: &[u8], line: &[u8], cores: u64) -> Result<Explored, Unexplored> {
    // SAFETY: as above.
    explored(|out, len, session| unsafe {
        let (script, script_len) = (script.as_ptr(), script.len());
        sys::loq_explore_line(script, script_len, line.as_ptr(), line.len(), cores, out.as_mut_ptr(), out.len(), len, session)
    })
}
