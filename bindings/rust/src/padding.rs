//! Text of several parts that keeps to the width it is asked for.

use core::fmt::{self, Write};

/// The longest is a key of kind C.
const MOST: usize = 16;

struct Text {
    bytes: [u8; MOST],
    length: usize,
}

impl Write for Text {
    fn write_str(&mut self, part: &str) -> fmt::Result {
        let end = self.length + part.len();
        self.bytes.get_mut(self.length..end).ok_or(fmt::Error)?.copy_from_slice(part.as_bytes());
        self.length = end;
        Ok(())
    }
}

/// Writes the parts as one text, padded as the format says.
pub(crate) fn padded(form: &mut fmt::Formatter<'_>, parts: fmt::Arguments<'_>) -> fmt::Result {
    let mut text = Text { bytes: [0; MOST], length: 0 };
    text.write_fmt(parts)?;
    form.pad(core::str::from_utf8(&text.bytes[..text.length]).map_err(|_| fmt::Error)?)
}
