//! A tiny reader of JSON, which is to be well-formed, and what writes answers as the vectors have
//! them.

use zarrs_chunks::{ArraySubset, ChangedChunks, Part, Task, TaskCounts};

/// A value, as the text that it is.
#[derive(Debug, Clone, Copy, PartialEq, Eq)]
pub struct Json<'a>(pub &'a str);

impl<'a> Json<'a> {
    /// The values of a list, or the names and the values of an object by turns.
    pub fn values(self) -> Vec<Json<'a>> {
        let inside = &self.0[1..self.0.len() - 1];
        let (mut values, mut start, mut depth) = (Vec::new(), 0, 0);
        let (mut is_text, mut is_escaped) = (false, false);
        for (place, letter) in inside.char_indices() {
            match letter {
                _ if is_escaped => is_escaped = false,
                '\\' => is_escaped = true,
                '"' => is_text = !is_text,
                _ if is_text => {}
                '[' | '{' => depth += 1,
                ']' | '}' => depth -= 1,
                ',' | ':' if depth == 0 => {
                    values.push(Json(inside[start..place].trim()));
                    start = place + 1;
                }
                _ => {}
            }
        }
        if !inside.trim().is_empty() {
            values.push(Json(inside[start..].trim()));
        }
        values
    }

    /// The member of an object with this name.
    pub fn get(self, name: &str) -> Option<Json<'a>> {
        let members = self.values();
        members.chunks(2).find(|member| member[0].text() == name).map(|member| member[1])
    }

    pub fn member(self, name: &str) -> Json<'a> {
        self.get(name).unwrap_or_else(|| panic!("no member {name} in {}", self.0))
    }

    pub fn number(self) -> u64 {
        self.0.parse().unwrap_or_else(|_| panic!("no number: {}", self.0))
    }

    pub fn list(self) -> Vec<u64> {
        self.values().into_iter().map(Json::number).collect()
    }

    pub fn text(self) -> String {
        let mut letters = self.0.strip_prefix('"').expect("a text").chars();
        let mut units = Vec::new();
        loop {
            let letter = match letters.next().expect("the end of a text") {
                '"' => return String::from_utf16(&units).expect("a text"),
                '\\' => match letters.next().expect("an escaped letter") {
                    'b' => '\u{8}',
                    'f' => '\u{c}',
                    'n' => '\n',
                    'r' => '\r',
                    't' => '\t',
                    'u' => {
                        let digits: String = letters.by_ref().take(4).collect();
                        units.push(u16::from_str_radix(&digits, 16).expect("four digits"));
                        continue;
                    }
                    letter => letter,
                },
                letter => letter,
            };
            units.extend_from_slice(letter.encode_utf16(&mut [0; 2]));
        }
    }
}

pub fn written(numbers: &[u64]) -> String {
    let numbers: Vec<_> = numbers.iter().map(u64::to_string).collect();
    format!("[{}]", numbers.join(","))
}

/// A text without control characters.
pub fn written_text(text: &str) -> String {
    format!("\"{}\"", text.replace('\\', "\\\\").replace('"', "\\\""))
}

pub fn written_box(subset: &ArraySubset) -> String {
    format!("[{},{}]", written(subset.start()), written(subset.shape()))
}

pub fn written_part(part: &Part) -> String {
    format!(
        r#"{{"chunk":{},"in_chunk":[{},{shape}],"in_selection":[{},{shape}],"key":{}}}"#,
        written(&part.chunk),
        written(&part.in_chunk),
        written(&part.in_selection),
        written_text(&part.key),
        shape = written(&part.shape)
    )
}

/// An item of `tasks`.
pub fn written_task(task: &Task) -> String {
    let sources = task.sources.iter().map(|it| {
        format!(
            "{{{}}}",
            written_piece(&it.chunk, [&it.in_buffer, &it.in_chunk], &it.key, &it.shape)
        )
    });
    let targets = task.targets.iter().map(|it| {
        let piece = written_piece(&it.chunk, [&it.in_buffer, &it.in_chunk], &it.key, &it.shape);
        format!(r#"{{{piece},"whole":{}}}"#, it.whole)
    });
    format!(
        r#"{{"buffer":{},"from":[{}],"to":[{}]}}"#,
        written(&task.buffer),
        sources.collect::<Vec<_>>().join(","),
        targets.collect::<Vec<_>>().join(",")
    )
}

fn written_piece(chunk: &[u64], boxes: [&ArraySubset; 2], key: &str, shape: &[u64]) -> String {
    format!(
        r#""chunk":{},"in_buffer":{},"in_chunk":{},"key":{},"shape":{}"#,
        written(chunk),
        written_box(boxes[0]),
        written_box(boxes[1]),
        written_text(key),
        written(shape)
    )
}

/// The answer of `task_counts`.
pub fn written_task_counts(counts: &TaskCounts) -> String {
    let number = |number: &Option<u64>| number.map_or("null".to_owned(), |it| it.to_string());
    let decoded: Vec<_> = counts.elements_decoded.iter().map(number).collect();
    format!(
        concat!(
            r#"{{"chunks_read":{},"chunks_written":{},"elements_decoded":[{}],"#,
            r#""elements_moved":{},"largest_task":{},"share":[{},{}],"tasks":{}}}"#
        ),
        written(&counts.chunks_read),
        written(&counts.chunks_written),
        decoded.join(","),
        written(&counts.elements_moved),
        written(&counts.largest_task),
        number(&counts.first),
        number(&counts.end),
        written(&counts.tasks)
    )
}

pub fn written_changes(changes: &ChangedChunks) -> String {
    format!(
        r#"{{"after":{:?},"before":{:?},"kept":{:?}}}"#,
        changes.after, changes.before, changes.kept
    )
    .replace(' ', "")
}

/// The answer of a walk with these items.
pub fn written_items(items: &[String], has_more: bool) -> String {
    format!(r#"{{"items":[{}],"more":{has_more}}}"#, items.join(","))
}
