//! Puts every vector to the library as text, and compares the line that answers; and each that a
//! method can be asked to the method.

mod common;

use std::collections::BTreeMap;
use std::num::NonZeroU64;

use common::json::{
    written, written_box, written_changes, written_items, written_part, written_task,
    written_task_counts, written_text, Json,
};
use common::vectors::vectors;
use common::GREATEST;
use zarrs_chunks::{
    answer, byte_ranges, ArraySubset, Encoding, Error, Grid, MemoryOrder, TaskOptions, TaskOrder,
};

#[test]
fn each_vector_is_answered() {
    let (vectors, mut wrong) = (vectors(), Vec::new());
    for vector in &vectors {
        let (question, expected) = (&vector.question, &vector.line);
        let found = answer(question).unwrap();
        if &found != expected {
            wrong.push(format!("{question}\n  expected {expected}\n  found    {found}"));
        }
    }
    assert!(wrong.is_empty(), "{} of {} wrong:\n{}", wrong.len(), vectors.len(), wrong.join("\n"));
}

/// So many vectors at least are put to methods, of so many calls. The others are those whose question
/// can't be read, and walks over boxes from a number on, which counts chunks and not boxes.
const PUT: usize = 1315;
const CALLS: usize = 28;

#[test]
fn each_vector_that_a_method_can_be_asked_is_answered_by_it() {
    let (mut put, mut left, mut wrong) = (BTreeMap::new(), 0, Vec::new());
    for vector in vectors() {
        let asked = Json(&vector.question);
        if is_unread(&vector.line) || is_box_walk_from_a_number(asked) {
            left += 1;
            continue;
        }
        let call = asked.member("call").text();
        let expected = expected(&call, asked, vector.line);
        let found = by_method(&call, asked).unwrap_or_else(|words| format!("refused: {words}"));
        *put.entry(call).or_insert(0_usize) += 1;
        if found != expected {
            wrong.push(format!("{}\n  expected {expected}\n  found    {found}", vector.question));
        }
    }
    let in_all: usize = put.values().sum();
    println!("{in_all} vectors put to methods, {left} left: {put:?}");
    assert!(wrong.is_empty(), "{} of {in_all} wrong:\n{}", wrong.len(), wrong.join("\n"));
    assert!(in_all >= PUT, "{in_all} put, {left} left");
    assert!(put.len() >= CALLS && put.values().all(|count| *count >= 10), "{put:?}");
}

/// Questions that can't be read have no method, but for the two calls that one kind of grid has.
fn is_unread(line: &str) -> bool {
    line.starts_with("unreadable: ")
        && !line.starts_with("unreadable: there is no call `runs`")
        && !line.starts_with("unreadable: there is no call `chunk_indices_counted`")
}

/// From a number on, such a walk counts chunks, and the iterators count boxes.
fn is_box_walk_from_a_number(asked: Json<'_>) -> bool {
    let walks = ["\"iter_chunk_subsets\"", "\"iter_chunk_indices_and_subsets\""];
    walks.contains(&asked.member("call").0) && asked.get("first").is_some()
}

/// The answer of a method, by the line that answers the question.
fn expected(call: &str, asked: Json<'_>, line: String) -> String {
    // The library tells the dimension too, and the crate the number of the box.
    if line.starts_with("refused: box end exceeds ") {
        return "refused: a box ends past the greatest number".to_owned();
    }
    match call {
        // What is refused as a key is the key of no chunk, and there is no list of so many numbers.
        "decode" if asked.member("dimensionality").number() == GREATEST => {
            return "refused: out of memory".to_owned();
        }
        "decode" if line.starts_with("refused: invalid store key ") => return "null".to_owned(),
        // An empty box of another length has an answer, and the methods take none.
        "chunks_in_array_subset" | "parts" if !line.starts_with("refused: ") => {
            let dimensionality = asked.member("shape").list().len();
            let given = asked.member("of").values()[0].list().len();
            if given != dimensionality {
                return format!("refused: {}", wrong_length(given, dimensionality));
            }
        }
        _ => {}
    }
    match line.strip_prefix("unreadable: ") {
        Some(words) => format!("refused: {words}"),
        None => line,
    }
}

/// What a method answers, as the vectors have it, or the words of its error.
fn by_method(call: &str, asked: Json<'_>) -> Result<String, String> {
    if call == "byte_ranges" {
        return ranges_of(asked);
    }
    let of = asked.get("of").unwrap_or(Json("[]"));
    if call == "encode" || call == "decode" {
        let encoding = encoding_in(asked)?;
        if call == "encode" {
            return Ok(written_text(&told(encoding.encode(&of.list()))?));
        }
        let dimensionality = asked.member("dimensionality").number() as usize;
        let chunk = told(encoding.decode(&of.text(), dimensionality))?;
        return Ok(or_null(chunk, |chunk| written(&chunk)));
    }
    let grid = grid_in(asked, asked)?;
    let list = |found: zarrs_chunks::Result<Option<Vec<u64>>>| {
        Ok(or_null(told(found)?, |numbers| written(&numbers)))
    };
    let subset = |found: zarrs_chunks::Result<Option<ArraySubset>>| {
        Ok(or_null(told(found)?, |subset| written_box(&subset)))
    };
    match call {
        "dimensionality" => Ok(grid.dimensionality().to_string()),
        "array_shape" => Ok(written(grid.array_shape())),
        "grid_shape" => Ok(written(grid.grid_shape())),
        "metadata" => told(grid.written_metadata()),
        "configuration" => {
            let metadata = told(grid.written_metadata())?;
            Ok(Json(&metadata).member("configuration").0.to_owned())
        }
        "chunk_shape" | "chunk_shape_u64" => list(grid.chunk_shape(&of.list())),
        "chunk_origin" => list(grid.chunk_origin(&of.list())),
        "chunk_indices" => list(grid.chunk_indices(&of.list())),
        "chunk_element_indices" => list(grid.chunk_element_indices(&of.list())),
        "chunk_indices_inbounds" => Ok(told(grid.chunk_indices_inbounds(&of.list()))?.to_string()),
        "array_indices_inbounds" => Ok(told(grid.array_indices_inbounds(&of.list()))?.to_string()),
        "subset" => subset(grid.subset(&of.list())),
        "chunks_subset" => subset(grid.chunks_subset(&box_of(of)?)),
        "chunks_in_array_subset" => subset(grid.chunks_in_array_subset(&box_of(of)?)),
        "runs" => {
            let runs = told(grid.runs(of.number() as usize))?;
            Ok(or_null(runs, |runs| runs.to_string()))
        }
        "chunk_indices_counted" => {
            let counted = told(grid.chunk_indices_counted(&of.list()))?;
            let chunk = or_null(counted.chunk, |chunk| written(&chunk));
            Ok(format!(r#"{{"answer":{chunk},"comparisons":{}}}"#, counted.comparisons))
        }
        "locate" => {
            let located = told(grid.locate(&encoding_in(asked)?, &of.list()))?;
            Ok(or_null(located, |located| {
                format!(
                    r#"{{"chunk":{},"element":{},"key":{}}}"#,
                    written(&located.chunk),
                    written(&located.place),
                    written_text(&located.key)
                )
            }))
        }
        "parts" => {
            let (encoding, subset) = (encoding_in(asked)?, box_of(of)?);
            match told(grid.parts(&encoding, &subset))? {
                Some(parts) => page(asked, parts, |part| written_part(&part)),
                None => Ok("null".to_owned()),
            }
        }
        "tasks" | "task_counts" => {
            let encoding = encoding_in(asked)?;
            let (target, target_encoding) = target_of(asked)?;
            let subset = asked.get("subset").map(box_of).transpose()?;
            let [at, task_chunks] =
                ["at", "task_chunks"].map(|name| asked.get(name).map(Json::list));
            let options = TaskOptions {
                subset: subset.as_ref(),
                at: at.as_deref(),
                task_chunks: task_chunks.as_deref(),
                order: match asked.get("order").map(Json::text).as_deref() {
                    Some("source") => TaskOrder::Source,
                    _ => TaskOrder::Target,
                },
            };
            if call == "tasks" {
                let tasks = told(grid.tasks(&encoding, &target, &target_encoding, options))?;
                return page(asked, tasks, |task| written_task(&task));
            }
            let share = asked.get("share").map_or(vec![0, 1], Json::list);
            let counts = told(grid.task_counts(&target, options, (share[0], share[1])))?;
            Ok(written_task_counts(&counts))
        }
        "changed_chunks" => {
            Ok(written_changes(&told(grid.changed_chunks(&asked.member("resize").list()))?))
        }
        "iter_chunk_indices" => page(asked, grid.iter_chunk_indices(), |chunk| written(&chunk)),
        "iter_chunk_subsets" => page(asked, grid.iter_chunk_subsets(), |it| written_box(&it)),
        "iter_chunk_indices_and_subsets" => {
            page(asked, grid.iter_chunk_indices_and_subsets(), |(chunk, subset)| {
                format!("[{},{}]", written(&chunk), written_box(&subset))
            })
        }
        _ => panic!("no method for the call {call}"),
    }
}

/// The byte ranges of a box, as the vectors have them.
fn ranges_of(asked: Json<'_>) -> Result<String, String> {
    let order = match asked.get("memory_order").map(Json::text).as_deref() {
        Some("F") => MemoryOrder::F,
        _ => MemoryOrder::C,
    };
    let item_size = NonZeroU64::new(asked.member("item_size").number()).unwrap();
    let elements = box_of(asked.member("of"))?;
    let edges = asked.member("chunk_shape").list();
    let found = told(byte_ranges(&edges, &elements, item_size, order))?;
    Ok(or_null(found, |ranges| {
        let (counts, strides) = (written(&ranges.counts), written(&ranges.strides));
        let (first, length) = (ranges.first, ranges.length);
        format!(r#"{{"counts":{counts},"first":{first},"length":{length},"strides":{strides}}}"#)
    }))
}

fn grid_in(array: Json<'_>, stored: Json<'_>) -> Result<Grid, String> {
    told(Grid::new(&array.member("shape").list(), stored.member("chunk_grid").0))
}

fn encoding_in(stored: Json<'_>) -> Result<Encoding, String> {
    told(Encoding::new(stored.member("chunk_key_encoding").0))
}

/// The target of a question, whose array has the shape of the question's unless it says another.
fn target_of(asked: Json<'_>) -> Result<(Grid, Encoding), String> {
    let target = asked.member("target");
    let array = if target.get("shape").is_some() { target } else { asked };
    let made = || Ok((grid_in(array, target)?, encoding_in(target)?));
    made().map_err(|words: String| format!("field `target`: {words}"))
}

fn box_of(lists: Json<'_>) -> Result<ArraySubset, String> {
    let lists: Vec<_> = lists.values().into_iter().map(Json::list).collect();
    told(ArraySubset::new_with_start_shape(lists[0].clone(), lists[1].clone()))
}

/// As many items as the question asks for.
fn page<T>(
    asked: Json<'_>,
    items: impl Iterator<Item = zarrs_chunks::Result<T>>,
    write: impl Fn(T) -> String,
) -> Result<String, String> {
    let first = asked.get("first").map_or(0, Json::number);
    let mut items = items.skip(first as usize);
    let mut page = Vec::new();
    while (page.len() as u64) < asked.member("items").number() {
        match items.next() {
            Some(item) => page.push(write(told(item)?)),
            None => break,
        }
    }
    let more = told(items.next().transpose())?;
    Ok(written_items(&page, more.is_some()))
}

fn or_null<T>(found: Option<T>, write: impl FnOnce(T) -> String) -> String {
    found.map_or_else(|| "null".to_owned(), write)
}

/// What a method answers, or its error in words as the library's.
fn told<T>(answered: zarrs_chunks::Result<T>) -> Result<T, String> {
    answered.map_err(|error| match error {
        Error::WrongLength { given, wanted, .. } => wrong_length(given, wanted),
        Error::NotABox { which: 0 } => "a box ends past the greatest number".to_owned(),
        Error::Unexpected { .. } => panic!("{error}"),
        error => error.to_string(),
    })
}

fn wrong_length(given: usize, wanted: usize) -> String {
    format!("incompatible dimensionality {given}, expected {wanted}")
}

#[test]
fn a_long_answer_is_given_room() {
    // 100,000 chunks with numbers of one to five digits, whose line the library counts at first.
    let question = r#"{"shape":[100000],"chunk_grid":{"name":"regular",
        "configuration":{"chunk_shape":[1]}},"call":"iter_chunk_indices","items":100000}"#;
    let items: Vec<_> = (0..100_000).map(|chunk| format!("[{chunk}]")).collect();
    let expected = format!("{{\"items\":[{}],\"more\":false}}", items.join(","));
    assert!(answer(question).unwrap() == expected);
}
