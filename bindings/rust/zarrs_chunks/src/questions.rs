//! Questions about grids as text, for what the library has no call of its own.

use crate::answers;
use crate::error::{Error, Result};
use crate::grid::Grid;
use crate::memory::{text_of, Text};
use crate::reader::Reader;
use crate::subset::ArraySubset;

/// What a member of a question holds.
#[derive(Clone, Copy)]
pub(crate) enum Member<'a> {
    /// The member is left out.
    Absent,
    Number(u64),
    List(&'a [u64]),
    Box(&'a ArraySubset),
    /// A text that is JSON.
    Json(&'a str),
    /// An array: its grid, and the text of its encoding.
    Array(&'a Grid, &'a str),
}

/// What is read of the answer to a question about a grid. If a call has no answer, the error has
/// the library's words.
pub(crate) fn ask<T>(
    grid: &Grid,
    call: &str,
    members: &[(&str, Member<'_>)],
    read: impl FnOnce(&mut Reader<'_>) -> Result<T>,
) -> Result<T> {
    Reader::read(&line(grid, call, members)?, grid.dimensionality(), read)
}

/// The line of an answer.
pub(crate) fn line(grid: &Grid, call: &str, members: &[(&str, Member<'_>)]) -> Result<String> {
    line_within(grid, call, members, (answers::USUAL, answers::LONGEST))
}

/// The same, with room for `room.0` bytes at first, and for `room.1` bytes at most.
pub(crate) fn line_within(
    grid: &Grid,
    call: &str,
    members: &[(&str, Member<'_>)],
    room: (usize, usize),
) -> Result<String> {
    answered(answers::line_within(question(grid, call, members)?.as_str(), room)?)
}

/// The answer to a question that isn't about a grid.
pub(crate) fn answer_to(question: &str) -> Result<String> {
    answered(answers::line_within(question, (answers::USUAL, answers::LONGEST))?)
}

/// The line, or the words of a call without an answer.
fn answered(line: String) -> Result<String> {
    for beginning in ["refused: ", "unreadable: "] {
        if let Some(words) = line.strip_prefix(beginning) {
            return Err(Error::Refused { words: text_of(words)? });
        }
    }
    Ok(line)
}

fn question(grid: &Grid, call: &str, members: &[(&str, Member<'_>)]) -> Result<Text> {
    let mut text = Text::default();
    text.add(format_args!("{{\"call\":\"{call}\","))?;
    add_grid(&mut text, grid)?;
    for (name, member) in members {
        if !matches!(member, Member::Absent) {
            text.add(format_args!(",\"{name}\":"))?;
            add_member(&mut text, *member)?;
        }
    }
    text.add(format_args!("}}"))?;
    Ok(text)
}

fn add_member(text: &mut Text, member: Member<'_>) -> Result<()> {
    match member {
        Member::Absent => Ok(()),
        Member::Number(number) => text.add(format_args!("{number}")),
        Member::List(numbers) => text.add_list(numbers),
        Member::Box(subset) => {
            text.add(format_args!("["))?;
            text.add_list(subset.start())?;
            text.add(format_args!(","))?;
            text.add_list(subset.shape())?;
            text.add(format_args!("]"))
        }
        Member::Json(json) => text.add(format_args!("{json}")),
        Member::Array(grid, encoding) => {
            text.add(format_args!("{{"))?;
            add_grid(text, grid)?;
            text.add(format_args!(",\"chunk_key_encoding\":{encoding}}}"))
        }
    }
}

/// The members that say a grid.
fn add_grid(text: &mut Text, grid: &Grid) -> Result<()> {
    text.add(format_args!("\"shape\":"))?;
    text.add_list(grid.array_shape())?;
    text.add(format_args!(",\"chunk_grid\":{}", grid.chunk_grid()))
}

#[cfg(test)]
mod tests {
    use super::{ask, line, question, Member};
    use crate::error::{Error, Result};
    use crate::grid::Grid;
    use crate::reader::Reader;
    use crate::subset::ArraySubset;

    const REGULAR: &str = r#"{"name":"regular","configuration":{"chunk_shape":[2,3]}}"#;

    #[test]
    fn a_question_is_an_object() -> Result<()> {
        let (grid, encoding) = (Grid::new(&[5, 7], REGULAR)?, " \"v2\"\n");
        let subset = ArraySubset::new_with_ranges(&[1..2, 3..7])?;
        let members = [
            ("number", Member::Number(u64::MAX)),
            ("list", Member::List(&[])),
            ("absent", Member::Absent),
            ("box", Member::Box(&subset)),
            ("encoding", Member::Json(encoding)),
            ("array", Member::Array(&grid, encoding)),
        ];
        let expected = [
            r#"{"call":"any","shape":[5,7],"chunk_grid":"#,
            REGULAR,
            r#","number":18446744073709551615,"list":[],"box":[[1,3],[1,4]],"encoding": "v2""#,
            "\n,\"array\":{\"shape\":[5,7],\"chunk_grid\":",
            REGULAR,
            ",\"chunk_key_encoding\": \"v2\"\n}}",
        ];
        assert_eq!(question(&grid, "any", &members)?.as_str(), expected.concat());
        Ok(())
    }

    #[test]
    fn what_has_no_answer_is_told_in_the_words_of_the_library() -> Result<()> {
        let grid = Grid::new(&[5, 7], REGULAR)?;
        let refused = |words: &str| Some(Error::Refused { words: words.to_owned() });
        let of = [("of", Member::List(&[1]))];
        let found = ask(&grid, "subset", &of, |reader| reader.optional(Reader::subset));
        assert_eq!(found.err(), refused("incompatible dimensionality 1, expected 2"));
        assert_eq!(line(&grid, "subset", &[]).err(), refused("missing field `of`"));
        Ok(())
    }
}
