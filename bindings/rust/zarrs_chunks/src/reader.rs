//! Reads answers, which are compact JSON.

use std::char;

use crate::error::{Error, Result};
use crate::memory::{add, push};
use crate::subset::ArraySubset;

/// The escapes of one letter that JSON has.
const ESCAPES: [(&str, char); 8] = [
    ("\\\"", '"'),
    ("\\\\", '\\'),
    ("\\/", '/'),
    ("\\b", '\u{8}'),
    ("\\f", '\u{c}'),
    ("\\n", '\n'),
    ("\\r", '\r'),
    ("\\t", '\t'),
];

/// Reads the answer to a question about a grid, piece by piece. Any other piece than the one that
/// must come is an error.
pub(crate) struct Reader<'a> {
    rest: &'a str,
    dimensionality: usize,
}

impl Reader<'_> {
    /// What is read of an answer, which must have nothing else. Lists have `dimensionality`
    /// numbers.
    pub(crate) fn read<T>(
        line: &str,
        dimensionality: usize,
        read: impl FnOnce(&mut Reader<'_>) -> Result<T>,
    ) -> Result<T> {
        let mut reader = Reader { rest: line, dimensionality };
        let answer = read(&mut reader)?;
        match reader.rest {
            "" => Ok(answer),
            _ => Err(no_answer()),
        }
    }

    /// Reads the answer of a walk, item by item. Returns how many items there are, and whether more
    /// follow.
    pub(crate) fn items(
        &mut self,
        item: impl FnMut(&mut Self) -> Result<()>,
    ) -> Result<(usize, bool)> {
        self.expect("{\"items\":")?;
        let count = self.each(item)?;
        self.expect(",\"more\":")?;
        let has_more = self.truth()?;
        self.expect("}")?;
        Ok((count, has_more))
    }

    /// Reads a list, item by item. Returns how many items there are.
    pub(crate) fn each(&mut self, mut item: impl FnMut(&mut Self) -> Result<()>) -> Result<usize> {
        self.expect("[")?;
        let mut count = 0;
        while !self.reads("]") {
            if count > 0 {
                self.expect(",")?;
            }
            item(self)?;
            count += 1;
        }
        Ok(count)
    }

    /// What is read, or `None` if `null` follows.
    pub(crate) fn optional<T>(
        &mut self,
        read: impl FnOnce(&mut Self) -> Result<T>,
    ) -> Result<Option<T>> {
        if self.reads("null") {
            return Ok(None);
        }
        read(self).map(Some)
    }

    /// A box: its start and its shape.
    pub(crate) fn subset(&mut self) -> Result<ArraySubset> {
        self.expect("[")?;
        let start = self.list()?;
        self.expect(",")?;
        let shape = self.list()?;
        self.expect("]")?;
        ArraySubset::of_answer(start, shape)
    }

    /// A list with a number for each dimension.
    pub(crate) fn list(&mut self) -> Result<Vec<u64>> {
        self.list_of(Reader::number)
    }

    /// A list with an item for each dimension.
    pub(crate) fn list_of<T>(
        &mut self,
        mut item: impl FnMut(&mut Self) -> Result<T>,
    ) -> Result<Vec<T>> {
        let mut items = Vec::new();
        let count = self.each(|reader| push(&mut items, item(reader)?))?;
        if count != self.dimensionality {
            return Err(no_answer());
        }
        Ok(items)
    }

    /// Reads a list with a number for each dimension, and appends its numbers to others.
    pub(crate) fn list_onto(&mut self, numbers: &mut Vec<u64>) -> Result<()> {
        let count = self.each(|reader| push(numbers, reader.number()?))?;
        if count != self.dimensionality {
            return Err(no_answer());
        }
        Ok(())
    }

    /// A list of any length.
    pub(crate) fn numbers(&mut self) -> Result<Vec<u64>> {
        let mut numbers = Vec::new();
        self.each(|reader| push(&mut numbers, reader.number()?))?;
        Ok(numbers)
    }

    pub(crate) fn number(&mut self) -> Result<u64> {
        let end = self.rest.find(|letter: char| !letter.is_ascii_digit());
        let (digits, rest) = self.rest.split_at(end.unwrap_or(self.rest.len()));
        self.rest = rest;
        digits.parse().map_err(|_| no_answer())
    }

    pub(crate) fn truth(&mut self) -> Result<bool> {
        if self.reads("true") {
            return Ok(true);
        }
        self.expect("false")?;
        Ok(false)
    }

    pub(crate) fn text(&mut self) -> Result<String> {
        self.expect("\"")?;
        let mut text = String::new();
        loop {
            let end = self.rest.find(['"', '\\']);
            let (piece, rest) = self.rest.split_at(end.ok_or_else(no_answer)?);
            add(&mut text, piece)?;
            self.rest = rest;
            if self.reads("\"") {
                return Ok(text);
            }
            add(&mut text, self.escaped()?.encode_utf8(&mut [0; 4]))?;
        }
    }

    /// The character that an escape stands for.
    fn escaped(&mut self) -> Result<char> {
        for (escape, letter) in ESCAPES {
            if self.reads(escape) {
                return Ok(letter);
            }
        }
        // A character past U+FFFF has two units, of which the first one says so.
        let first = self.unit()?;
        let second = if (0xD800..0xDC00).contains(&first) { Some(self.unit()?) } else { None };
        let mut letters = char::decode_utf16(Some(first).into_iter().chain(second));
        match (letters.next(), letters.next()) {
            (Some(Ok(letter)), None) => Ok(letter),
            _ => Err(no_answer()),
        }
    }

    /// A unit of UTF-16 by its four digits.
    fn unit(&mut self) -> Result<u16> {
        self.expect("\\u")?;
        let digits = self.rest.get(..4).ok_or_else(no_answer)?;
        // `from_str_radix` takes a sign too.
        if !digits.bytes().all(|digit| digit.is_ascii_hexdigit()) {
            return Err(no_answer());
        }
        self.rest = &self.rest[4..];
        u16::from_str_radix(digits, 16).map_err(|_| no_answer())
    }

    /// Reads this text, which must follow.
    pub(crate) fn expect(&mut self, text: &str) -> Result<()> {
        if self.reads(text) {
            return Ok(());
        }
        Err(no_answer())
    }

    /// Whether this text follows. It is read then.
    fn reads(&mut self, text: &str) -> bool {
        match self.rest.strip_prefix(text) {
            Some(rest) => {
                self.rest = rest;
                true
            }
            None => false,
        }
    }
}

fn no_answer() -> Error {
    Error::of_answer("a line that is no answer to its question")
}

#[cfg(test)]
mod tests {
    use super::{no_answer, Reader};
    use crate::error::Result;

    /// Reads all kinds of pieces.
    fn read(line: &str) -> Result<(usize, Option<String>)> {
        Reader::read(line, 2, |reader| {
            reader.expect("{\"text\":")?;
            let text = reader.optional(Reader::text)?;
            reader.expect(",\"walk\":")?;
            let (count, _) = reader.items(|reader| reader.subset().map(drop))?;
            reader.expect("}")?;
            Ok((count, text))
        })
    }

    fn text(json: &str) -> Result<String> {
        Reader::read(json, 0, |reader| reader.text())
    }

    #[test]
    fn texts_have_escapes() {
        let texts = [
            (r#""""#, ""),
            (r#""c/1.x""#, "c/1.x"),
            (r#""\"\\\/\b\f\n\r\t""#, "\"\\/\u{8}\u{c}\n\r\t"),
            (r#""a\u0041\u00e4\u00E4\u20ac\u0000z""#, "aAää€\0z"),
            (r#""\ud83d\ude00\uD800\uDC00\udbff\udfff""#, "😀\u{10000}\u{10ffff}"),
            (r#""ä😀\\u0041""#, "ä😀\\u0041"),
        ];
        for (json, expected) in texts {
            assert_eq!(text(json).as_deref(), Ok(expected), "{json}");
        }
        let wrong = [
            "",
            "\"",
            "a",
            "\"\\",
            r#""\""#,
            r#""\x""#,
            r#""\u""#,
            r#""\u004""#,
            r#""\u+041""#,
            r#""\u00g1""#,
            r#""\u00ä""#,
            r#""\uä""#,
            r#""\ud83d""#,
            r#""\ud83dx""#,
            r#""\ud83d\n""#,
            r#""\ud83d\ud83d""#,
            r#""\ud83d\u0041""#,
            r#""\ude00""#,
            r#""\ud83d\ude0""#,
            "\"a\"b",
        ];
        for json in wrong {
            assert_eq!(text(json), Err(no_answer()), "{json}");
        }
    }

    #[test]
    fn numbers_and_lists_are_those_of_their_range() {
        let number = |json| Reader::read(json, 0, |reader| reader.number());
        assert_eq!(number("0"), Ok(0));
        assert_eq!(number("18446744073709551615"), Ok(u64::MAX));
        for json in ["", "-1", "+1", "1.5", "1e3", "18446744073709551616", "x", "1 ", "null"] {
            assert_eq!(number(json), Err(no_answer()), "{json}");
        }
        let list = |json, dimensionality| Reader::read(json, dimensionality, |it| it.list());
        assert_eq!(list("[]", 0), Ok(vec![]));
        assert_eq!(list("[1,22]", 2), Ok(vec![1, 22]));
        for json in ["[]", "[1]", "[1,2,3]", "[1,]", "[,1]", "[1 2]", "[1,2", "[1,2]]", "1,2"] {
            assert_eq!(list(json, 2), Err(no_answer()), "{json}");
        }
        let subset = |json| Reader::read(json, 1, |reader| reader.subset());
        assert!(subset("[[3],[4]]").is_ok());
        assert!(subset("[[18446744073709551615],[1]]").is_err());
    }

    #[test]
    fn lines_that_are_cut_or_changed_are_errors() {
        let walk = r#"{"items":[[[1,2],[3,4]],[[5,6],[7,8]]],"more":true}"#;
        let line = &format!(r#"{{"text":"c/1\n\ud83d\ude00ä","walk":{walk}}}"#)[..];
        assert_eq!(read(line), Ok((2, Some("c/1\n😀ä".to_owned()))));
        let none = r#"{"text":null,"walk":{"items":[],"more":false}}"#;
        assert_eq!(read(none), Ok((0, None)));
        let places: Vec<_> = line.char_indices().map(|(place, _)| place).collect();
        for place in places {
            let (before, behind) = line.split_at(place);
            assert!(read(before).is_err(), "{before}");
            for letter in ["", "\"", "\\", "[", "]", "{", "}", ",", ":", "0", "u", "ä", "\0"] {
                let rest: String = behind.chars().skip(1).collect();
                // A changed line may be an answer too: what counts is that it is read or refused.
                let _ = read(&format!("{before}{letter}{rest}"));
                let _ = read(&format!("{before}{letter}{behind}"));
            }
        }
        assert!(read(&format!("{line} ")).is_err());
    }
}
