//! Texts over those of `alloc`.
use crate::alloc::{AllocError, Global};
use core::fmt;
use core::ops::Deref;

/// A text whose growth may fail.
#[derive(Debug, PartialEq, Eq)]
pub struct String(on_heap::string::String);

impl String {
    /// An empty one, which takes no memory.
    pub fn new(_: Global) -> Self {
        String(on_heap::string::String::new())
    }

    /// A copy of a text.
    pub fn from_str(alloc: Global, text: &str) -> Result<Self, AllocError> {
        let mut made = Self::new(alloc);
        made.push_str(text)?;
        Ok(made)
    }

    /// Appends a text.
    pub fn push_str(&mut self, text: &str) -> Result<(), AllocError> {
        self.0.try_reserve(text.len()).map_err(|_| AllocError)?;
        self.0.push_str(text);
        Ok(())
    }

    /// The text.
    pub fn as_str(&self) -> &str {
        &self.0
    }
}

impl Deref for String {
    type Target = str;

    fn deref(&self) -> &str {
        &self.0
    }
}

impl fmt::Display for String {
    fn fmt(&self, out: &mut fmt::Formatter<'_>) -> fmt::Result {
        out.write_str(self)
    }
}

impl fmt::Write for String {
    fn write_str(&mut self, text: &str) -> fmt::Result {
        self.push_str(text).map_err(|_| fmt::Error)
    }
}

/// `format_in!(alloc, ..)`: the text that `format!` makes, or `AllocError`.
#[macro_export]
macro_rules! format_in {
    ($alloc:expr, $($words:tt)*) => {{
        let mut text = $crate::string::String::new($alloc);
        match $crate::fmt::Write::write_fmt(&mut text, $crate::format_args!($($words)*)) {
            Ok(()) => Ok(text),
            Err(_) => Err($crate::alloc::AllocError),
        }
    }};
}
