//! What becomes of the chunks of an array that gets another shape.

use crate::error::Result;
use crate::grid::Grid;
use crate::questions::{self, Member};
use crate::reader::Reader;

/// How many chunks hold elements of an array before and after a resize, and how many of them stay
/// as they are stored, along each dimension: [`Grid::changed_chunks`] makes it.
///
/// | Chunks that | have numbers |
/// |---|---|
/// | are kept | below `kept` |
/// | are rewritten | below `before` and below `after`, and not below `kept` |
/// | are deleted | below `before`, and not below `after` |
/// | are created | below `after`, and not below `before` |
///
/// The numbers of a chunk are below a list if each is less than the list's number of that
/// dimension. A list that no chunk is below has only zeros. A chunk that is rewritten is written in
/// its new shape, without the elements that leave it: so these can't come back if the array grows
/// again.
///
/// # Example
///
/// ```
/// use zarrs_chunks::Grid;
///
/// let chunk_grid = r#"{"name":"regular","configuration":{"chunk_shape":[4]}}"#;
/// let changed = Grid::new(&[10], chunk_grid)?.changed_chunks(&[14])?;
/// // The third chunk held two elements, and is to hold four; the fourth one holds the last two.
/// assert_eq!((changed.before, changed.after, changed.kept), (vec![3], vec![4], vec![2]));
/// # Ok::<(), zarrs_chunks::Error>(())
/// ```
#[derive(Debug, Clone, PartialEq, Eq, Hash)]
#[non_exhaustive]
pub struct ChangedChunks {
    /// The chunks that hold elements of the array before the resize.
    pub before: Vec<u64>,
    /// The chunks that hold elements of the array after it.
    pub after: Vec<u64>,
    /// The chunks that hold the same elements in both, and have the same shape.
    pub kept: Vec<u64>,
}

impl ChangedChunks {
    pub(crate) fn new(grid: &Grid, resize: &[u64]) -> Result<ChangedChunks> {
        questions::ask(grid, "changed_chunks", &[("resize", Member::List(resize))], changed_chunks)
    }
}

/// An answer: `{"after":[..],"before":[..],"kept":[..]}`.
fn changed_chunks(reader: &mut Reader<'_>) -> Result<ChangedChunks> {
    reader.expect("{\"after\":")?;
    let after = reader.list()?;
    reader.expect(",\"before\":")?;
    let before = reader.list()?;
    reader.expect(",\"kept\":")?;
    let kept = reader.list()?;
    reader.expect("}")?;
    Ok(ChangedChunks { before, after, kept })
}

#[cfg(test)]
mod tests {
    use super::changed_chunks;
    use crate::reader::Reader;

    #[test]
    fn answers_are_read_or_are_none() {
        let read = |line: &str| Reader::read(line, 2, changed_chunks);
        let line = r#"{"after":[4,2],"before":[3,3],"kept":[2,1]}"#;
        let found = read(line).unwrap();
        assert_eq!((found.before, found.after, found.kept), (vec![3, 3], vec![4, 2], vec![2, 1]));
        for (from, to) in [
            ("[4,2]", "[4]"),
            ("[3,3]", "null"),
            ("kept", "keep"),
            (",\"kept\":[2,1]", ""),
            ("}", ""),
        ] {
            assert!(read(&line.replacen(from, to, 1)).is_err(), "{from} {to}");
        }
    }
}
