//! Why the library refused: what Rust asks of an error.

use crate::Refusal;
use core::fmt;

impl Refusal {
    /// The number, as the header has it.
    pub const fn number(self) -> u32 {
        self as u32
    }
}

impl fmt::Display for Refusal {
    fn fmt(&self, form: &mut fmt::Formatter<'_>) -> fmt::Result {
        form.write_str(self.words())
    }
}

// core::error::Error came with Rust 1.81
#[cfg(feature = "std")]
impl std::error::Error for Refusal {}
