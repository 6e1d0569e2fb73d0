//! The bytes of a file.
use crate::raw::Range;
use crate::sys;
use core::ops::Deref;
use core::{fmt, str};

/// The bytes of a file. Its `Debug` prints only their number.
#[derive(Clone, Copy)]
pub struct File<'a>(pub &'a [u8]);

/// The empty file, of tables that a program makes without a file.
impl Default for File<'_> {
    fn default() -> Self {
        sys::check_interface();
        File(&[])
    }
}

impl<'a> File<'a> {
    /// Returns the bytes of a range that the library returned.
    #[inline]
    pub fn slice(self, range: Range) -> &'a [u8] {
        let start = range.offset as usize;
        &self.0[start..start + range.size as usize]
    }

    /// Returns the text of a range that the library returned for text. It is checked once more.
    pub fn text(self, range: Range) -> &'a str {
        str::from_utf8(self.slice(range)).expect("the library returned a range of text")
    }
}

impl Deref for File<'_> {
    type Target = [u8];

    fn deref(&self) -> &[u8] {
        self.0
    }
}

impl fmt::Debug for File<'_> {
    fn fmt(&self, f: &mut fmt::Formatter<'_>) -> fmt::Result {
        write!(f, "{} bytes", self.len())
    }
}
