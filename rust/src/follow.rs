//! A recorded trace beside a run.

use std::error::Error;
use std::fmt;

use crate::pod::{End, Fault, Pod};
use crate::text::Text;

/// Why a run isn't the one that was recorded.
#[derive(Clone, Debug, PartialEq, Eq)]
pub enum Unfollowed {
    /// This line of the record, counted from 1, is another in the run. `None` is where there is no more.
    Differs {
        /// The number of the line.
        line: usize,
        /// The line of the run.
        want: Option<String>,
        /// The line of the record.
        got: Option<String>,
    },
    /// The pod could not go on.
    Fault(Fault),
}

impl fmt::Display for Unfollowed {
    fn fmt(&self, f: &mut fmt::Formatter<'_>) -> fmt::Result {
        match self {
            Unfollowed::Differs { line, want, got } => write!(f, "line {line}: the run has {want:?}, and the record {got:?}"),
            Unfollowed::Fault(fault) => fault.fmt(f),
        }
    }
}

impl Error for Unfollowed {}

impl From<Fault> for Unfollowed {
    fn from(fault: Fault) -> Unfollowed {
        Unfollowed::Fault(fault)
    }
}

/// A line from outside that a trace tells of.
struct Delivery<'r> {
    event: u8,
    client: u8,
    seq: u32,
    text: &'r str,
}

fn delivery(line: &str) -> Option<Delivery<'_>> {
    let (event, rest) = match line.strip_prefix("event ") {
        Some(rest) => rest.split_once(" client ").and_then(|(event, rest)| Some((event.parse().ok()?, rest)))?,
        None => (0, line.strip_prefix("tick ")?.split_once(" client ")?.1),
    };
    let (client, rest) = rest.split_once(" seq ")?;
    let (seq, text) = rest.split_once(' ').unwrap_or((rest, ""));
    Some(Delivery { event, client: client.parse().ok()?, seq: seq.parse().ok()?, text })
}

/// A record, and how many of its lines were followed.
struct Record<'r> {
    lines: Vec<&'r str>,
    next: usize,
}

impl<'r> Record<'r> {
    fn at(&self) -> Option<&'r str> {
        self.lines.get(self.next).copied()
    }

    fn differs(&self, want: Option<&str>) -> Unfollowed {
        Unfollowed::Differs { line: self.next + 1, want: want.map(String::from), got: self.at().map(String::from) }
    }

    /// Goes on after these lines, which come next. A record that ends among them is followed to its end.
    fn compare(&mut self, lines: &str) -> Result<(), Unfollowed> {
        if lines.is_empty() && self.at().is_some() {
            return Err(self.differs(None));
        }
        for want in lines.lines() {
            match self.at() {
                None => return Ok(()),
                Some(got) if got == want => self.next += 1,
                Some(_) => return Err(self.differs(Some(want))),
            }
        }
        Ok(())
    }

    /// The lines that tell of lines that weren't taken.
    fn left(&self) -> String {
        self.lines[self.next..].iter().filter(|line| line.starts_with("left client ")).map(|line| format!("{line}\n")).collect()
    }
}

impl Pod<'_> {
    /// Runs as a recorded trace tells: each line is taken where it was taken then, and nothing has to be posted. Where the record ends early,
    /// so does this, and the pod can be run on.
    ///
    /// ```
    /// use loqzemar::{text, Answer, Call, End, Pod, Tid};
    /// let sleeper = |_: Tid| {
    ///     let mut slept = 0;
    ///     move |_: Tid, _: Answer| {
    ///         slept += 1;
    ///         if slept < 3 { Call::Sleep { ticks: 1 } } else { Call::Return }
    ///     }
    /// };
    /// let mut pod = Pod::setup(1).proc("sleeper", sleeper).pod()?;
    /// while pod.run()? == End::Idle {
    ///     pod.post(0, 0, text("tick"))?;
    /// }
    /// let record = pod.trace();
    ///
    /// // No tick is posted here: the record tells when each was taken.
    /// let mut again = Pod::setup(1).proc("sleeper", sleeper).pod()?;
    /// assert_eq!(again.follow(&record)?, End::Ended(0));
    /// assert_eq!(again.trace(), record);
    /// # Ok::<(), loqzemar::Unfollowed>(())
    /// ```
    ///
    /// # Errors
    ///
    /// `Differs` where the run isn't the recorded one, and `Fault`.
    pub fn follow(&mut self, record: &str) -> Result<End, Unfollowed> {
        // What comes after the last newline is no line.
        let whole = record.rfind('\n').map_or("", |end| &record[..end]);
        let mut record = Record { lines: if whole.is_empty() { Vec::new() } else { whole.split('\n').collect() }, next: 0 };
        while let Some(line) = record.at() {
            if let Some(Delivery { event, client, seq, text }) = delivery(line) {
                let taken = match Text::try_from(text.to_string()) {
                    Ok(text) => self.take_recorded(event, client, seq, text)?,
                    Err(_) => false,
                };
                if !taken {
                    return Err(record.differs(None));
                }
                record.compare(&self.last_lines()?)?;
            } else if self.current().is_some() && line != format!("spent {}", self.calls()) {
                self.one_turn()?;
                record.compare(&self.last_lines()?)?;
            } else {
                let end = match (self.current(), self.status()) {
                    (Some(_), _) => format!("spent {}\n", self.calls()),
                    (None, None) => String::from("stuck\n"),
                    (None, Some(_)) => String::new(),
                };
                record.compare(&(end + &record.left()))?;
            }
        }
        Ok(match (self.current(), self.status()) {
            (Some(_), _) => End::Spent,
            (None, None) => End::Idle,
            (None, Some(status)) => End::Ended(status),
        })
    }
}
