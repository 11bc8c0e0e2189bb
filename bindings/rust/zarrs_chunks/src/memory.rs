//! Memory that is asked for so that its lack is an error.

use std::fmt;

use crate::error::{Error, Result};

/// A list of `count` zeros.
pub(crate) fn zeros<T: Copy + Default>(count: usize) -> Result<Vec<T>> {
    let mut items = Vec::new();
    items.try_reserve_exact(count).map_err(|_| Error::OutOfMemory)?;
    items.resize(count, T::default());
    Ok(items)
}

/// A copy of a list.
pub(crate) fn copy_of<T: Copy>(items: &[T]) -> Result<Vec<T>> {
    let mut copy = Vec::new();
    append(&mut copy, items)?;
    Ok(copy)
}

/// Appends items to a list.
pub(crate) fn append<T: Copy>(list: &mut Vec<T>, items: &[T]) -> Result<()> {
    list.try_reserve(items.len()).map_err(|_| Error::OutOfMemory)?;
    list.extend_from_slice(items);
    Ok(())
}

/// Appends an item to a list.
pub(crate) fn push<T>(list: &mut Vec<T>, item: T) -> Result<()> {
    list.try_reserve(1).map_err(|_| Error::OutOfMemory)?;
    list.push(item);
    Ok(())
}

/// A copy of a text.
pub(crate) fn text_of(text: &str) -> Result<String> {
    let mut copy = String::new();
    copy.try_reserve_exact(text.len()).map_err(|_| Error::OutOfMemory)?;
    copy.push_str(text);
    Ok(copy)
}

/// Appends a piece to a text.
pub(crate) fn add(text: &mut String, piece: &str) -> Result<()> {
    text.try_reserve(piece.len()).map_err(|_| Error::OutOfMemory)?;
    text.push_str(piece);
    Ok(())
}

/// A text that is written piece by piece.
#[derive(Default)]
pub(crate) struct Text(String);

impl Text {
    /// Appends a piece to the text.
    pub(crate) fn add(&mut self, piece: fmt::Arguments<'_>) -> Result<()> {
        // What is written here fails for no other reason.
        fmt::write(self, piece).map_err(|_| Error::OutOfMemory)
    }

    /// Appends a list of numbers to the text, as JSON.
    pub(crate) fn add_list(&mut self, numbers: &[u64]) -> Result<()> {
        self.add(format_args!("["))?;
        for (position, number) in numbers.iter().enumerate() {
            let separator = if position == 0 { "" } else { "," };
            self.add(format_args!("{separator}{number}"))?;
        }
        self.add(format_args!("]"))
    }

    pub(crate) fn as_str(&self) -> &str {
        &self.0
    }
}

impl fmt::Write for Text {
    fn write_str(&mut self, piece: &str) -> fmt::Result {
        add(&mut self.0, piece).map_err(|_| fmt::Error)
    }
}
