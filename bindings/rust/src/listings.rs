//! The text of a listing.

use crate::names::LINE;
use crate::{calls, Refusal};
use core::fmt;

/// Which tracks a listing shows.
#[derive(Clone, Copy, Debug, PartialEq, Eq, Hash)]
pub enum Shown {
    /// Those with a known position.
    Positioned,
    /// All.
    All,
}

/// A line of a listing, with its newline; or nothing, if its track is not shown.
#[derive(Clone, Copy)]
pub struct Line(pub(crate) [u8; LINE]);

impl Line {
    /// Its text.
    pub fn as_str(&self) -> &str {
        text(&self.0[..self.0.iter().position(|byte| *byte == 0).unwrap_or(LINE)])
    }
}

impl fmt::Display for Line {
    fn fmt(&self, form: &mut fmt::Formatter<'_>) -> fmt::Result {
        form.pad(self.as_str())
    }
}

impl fmt::Debug for Line {
    fn fmt(&self, form: &mut fmt::Formatter<'_>) -> fmt::Result {
        fmt::Debug::fmt(self.as_str(), form)
    }
}

/// What the library wrote, which is ASCII.
pub(crate) fn text(bytes: &[u8]) -> &str {
    core::str::from_utf8(bytes).expect("the library writes ASCII")
}

/// Two listings as one, for tables side by side, into an array of as many bytes as both have. Or [`Refusal::Length`] for an array of another
/// length, [`Refusal::Form`] for texts that cannot become one.
pub fn merge<'b>(one: &[u8], other: &[u8], out: &'b mut [u8]) -> Result<&'b str, Refusal> {
    let mut written = [0];
    calls::merge(one, other, out, &mut written)?;
    Ok(text(&out[..written[0] as usize]))
}
