//! Texts, as calls and lines carry them.

use std::borrow::Cow;
use std::error::Error;
use std::fmt;

use crate::sys;

/// A text: at most 240 bytes, each from a space to `~`.
///
/// It is lent for `'t`, or it is the text's own. A pod of lifetime `'t` keeps either until it is dropped: a lent one it refers to, and one of
/// its own it owns.
#[derive(Clone, Debug, PartialEq, Eq)]
pub struct Text<'t>(Cow<'t, str>);

/// What isn't a text: it has more than 240 bytes, or one that isn't from a space to `~`.
#[derive(Clone, Copy, Debug, PartialEq, Eq)]
pub struct NoText;

impl fmt::Display for NoText {
    fn fmt(&self, f: &mut fmt::Formatter<'_>) -> fmt::Result {
        f.write_str("a text has at most 240 bytes, each from a space to '~'")
    }
}

impl Error for NoText {}

fn is_text(bytes: &[u8]) -> bool {
    bytes.len() <= sys::TEXT_MAX && bytes.iter().all(|byte| (b' '..=b'~').contains(byte))
}

impl<'t> Text<'t> {
    /// The empty text.
    pub const EMPTY: Text<'static> = Text(Cow::Borrowed(""));

    /// The text as a `str`.
    pub fn as_str(&self) -> &str {
        &self.0
    }

    pub(crate) fn into_cow(self) -> Cow<'t, str> {
        self.0
    }
}

impl<'t> TryFrom<&'t str> for Text<'t> {
    type Error = NoText;

    fn try_from(text: &'t str) -> Result<Text<'t>, NoText> {
        is_text(text.as_bytes()).then_some(Text(Cow::Borrowed(text))).ok_or(NoText)
    }
}

impl<'t> TryFrom<String> for Text<'t> {
    type Error = NoText;

    fn try_from(text: String) -> Result<Text<'t>, NoText> {
        if is_text(text.as_bytes()) {
            Ok(Text(Cow::Owned(text)))
        } else {
            Err(NoText)
        }
    }
}

/// The text of a `&str`, which is lent, or of a `String`.
///
/// # Panics
///
/// Where it is no text. Of one that came from outside, make a [`Text`] by `try_from`.
///
/// ```
/// use loqzemar::text;
/// assert_eq!(text("hello").as_str(), "hello");
/// assert_eq!(text(format!("number {}", 3)).as_str(), "number 3");
/// ```
pub fn text<'t, T>(text: T) -> Text<'t>
where
    Text<'t>: TryFrom<T, Error = NoText>,
{
    match Text::try_from(text) {
        Ok(text) => text,
        Err(why) => panic!("{why}"),
    }
}
