//! What a code means: known, over, unknown.

use crate::names::reading::{KNOWN, NONE, OVER, STOPPED};
use core::fmt;

/// What a code says. There is no number in one that is over, so that nobody computes with it.
#[derive(Clone, Copy, Debug, Default, PartialEq, Eq, Hash)]
pub enum Reading<T> {
    /// Nothing.
    #[default]
    Unknown,
    /// This.
    Known(T),
    /// More than the code can say.
    Over,
}

impl<T> Reading<T> {
    /// The number, if it is known.
    pub fn known(self) -> Option<T> {
        match self {
            Reading::Known(value) => Some(value),
            _ => None,
        }
    }

    /// Whether it is more than the code can say.
    pub fn is_over(&self) -> bool {
        matches!(self, Reading::Over)
    }
}

/// How an aircraft moves on the surface, in 48ths of a knot.
#[derive(Clone, Copy, Debug, Default, PartialEq, Eq, Hash)]
pub enum Movement {
    /// It does not say.
    #[default]
    Unknown,
    /// It stands.
    Stopped,
    /// At least this: the lower edge of a step.
    From(u32),
    /// Above all steps: this, and more.
    Over(u32),
    /// The code is reserved.
    Reserved,
}

/// How fast a coarse message says that an aircraft is over ground, in knots.
#[derive(Clone, Copy, Debug, Default, PartialEq, Eq, Hash)]
pub enum CoarseSpeed {
    /// It does not say.
    #[default]
    Unknown,
    /// At least this: the lower edge of a step.
    From(u32),
    /// Above all steps: this, and more.
    Over(u32),
}

/// A direction, in 2^-32 of a turn from north, clockwise.
#[derive(Clone, Copy, Debug, Default, PartialEq, Eq, PartialOrd, Ord, Hash)]
pub struct Turn(pub u32);

impl Turn {
    /// In degrees, from 0 to below 360, exactly.
    pub fn degrees(self) -> f64 {
        f64::from(self.0) * 360.0 / 4_294_967_296.0
    }
}

/// The callsign of an aircraft: eight characters of ASCII, with spaces behind a shorter one.
#[derive(Clone, Copy, PartialEq, Eq, PartialOrd, Ord, Hash)]
pub struct Callsign([u8; 8]);

impl Callsign {
    /// The eight bytes.
    pub const fn bytes(&self) -> &[u8; 8] {
        &self.0
    }

    /// Without the spaces behind it.
    pub fn as_str(&self) -> &str {
        core::str::from_utf8(&self.0).unwrap_or_default().trim_end_matches(' ')
    }
}

/// Nothing but spaces.
impl Default for Callsign {
    fn default() -> Self {
        Callsign([b' '; 8])
    }
}

impl fmt::Display for Callsign {
    fn fmt(&self, form: &mut fmt::Formatter<'_>) -> fmt::Result {
        form.pad(self.as_str())
    }
}

impl fmt::Debug for Callsign {
    fn fmt(&self, form: &mut fmt::Formatter<'_>) -> fmt::Result {
        fmt::Debug::fmt(self.as_str(), form)
    }
}

/// What one entry of an array holds.
pub(crate) trait Value {
    fn of(entry: u64) -> Self;
}

impl Value for i32 {
    fn of(entry: u64) -> i32 {
        entry as i64 as i32
    }
}

impl Value for u32 {
    fn of(entry: u64) -> u32 {
        entry as u32
    }
}

impl Value for u8 {
    fn of(entry: u64) -> u8 {
        entry as u8
    }
}

impl Value for bool {
    fn of(entry: u64) -> bool {
        entry != 0
    }
}

impl Value for char {
    fn of(entry: u64) -> char {
        char::from(entry as u8)
    }
}

impl Value for Turn {
    fn of(entry: u64) -> Turn {
        Turn(entry as u32)
    }
}

impl Value for Callsign {
    fn of(entry: u64) -> Callsign {
        Callsign(entry.to_be_bytes())
    }
}

/// A reading: two entries, what it is and its value.
pub(crate) trait Read {
    fn read(what: u64, value: u64) -> Self;
}

impl<T: Value> Read for Option<T> {
    fn read(what: u64, value: u64) -> Self {
        (what == KNOWN).then(|| T::of(value))
    }
}

/// One that is always known.
impl Read for bool {
    fn read(_: u64, value: u64) -> Self {
        bool::of(value)
    }
}

impl<T: Value> Read for Reading<T> {
    fn read(what: u64, value: u64) -> Self {
        match what {
            KNOWN => Reading::Known(T::of(value)),
            OVER => Reading::Over,
            _ => Reading::Unknown,
        }
    }
}

impl Read for Movement {
    fn read(what: u64, value: u64) -> Self {
        match what {
            KNOWN => Movement::From(u32::of(value)),
            OVER => Movement::Over(u32::of(value)),
            NONE => Movement::Reserved,
            STOPPED => Movement::Stopped,
            _ => Movement::Unknown,
        }
    }
}

impl Read for CoarseSpeed {
    fn read(what: u64, value: u64) -> Self {
        match what {
            KNOWN => CoarseSpeed::From(u32::of(value)),
            OVER => CoarseSpeed::Over(u32::of(value)),
            _ => CoarseSpeed::Unknown,
        }
    }
}
