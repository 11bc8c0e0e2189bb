//! Grids and encodings, one list at a time and in batches, beside plain arithmetic and the same
//! questions as text; what is refused, in which words; and many threads.

mod common;

use std::collections::HashSet;
use std::thread;

use common::GREATEST;
use common::{
    default_key, great_models, grid_of, json, small_models, wide_model, Axis, Model, Numbers,
};
use zarrs_chunks::{
    abi_version, answer, ArraySubset, ChunkIndices, ChunkIndicesAndSubsets, ChunkSubsets, Counted,
    Encoding, Error, Grid, Home, Keys, Located, Part, Parts, Task, Tasks, ABI_VERSION, STACK,
};

const LEFT: u64 = 7; // what slices hold before a call

fn encoding_of(name: &str) -> Encoding {
    Encoding::new(&format!("\"{name}\"")).unwrap()
}

fn all_models() -> Vec<Model> {
    let mut models = small_models();
    models.extend(great_models());
    models.push(wide_model());
    models
}

/// The lists that each model is asked of: numbers near 0, near its sizes, near the greatest, any.
fn lists_of(model: &Model, count: usize, is_chunk: bool) -> Vec<Vec<u64>> {
    let mut numbers = Numbers::new(count as u64);
    let sizes = if is_chunk { model.grid_shape() } else { model.shape.clone() };
    let mut number = |size: u64| match numbers.below(8) {
        0 => size,
        1 => size.saturating_sub(1),
        2 => GREATEST - numbers.below(3),
        3 => numbers.below(GREATEST),
        _ => numbers.below(size.saturating_add(1).max(1)),
    };
    let mut lists: Vec<_> =
        (0..count).map(|_| sizes.iter().map(|size| number(*size)).collect()).collect();
    // Of many dimensions hardly any list would lie inside along each.
    let mut numbers = Numbers::new(1);
    let inside = |size: &u64| if *size == 0 { 0 } else { numbers.below(*size) };
    lists.push(sizes.iter().map(inside).collect());
    lists.push(vec![0; sizes.len()]);
    lists
}

/// Boxes that begin at each of these lists.
fn boxes_of(model: &Model, starts: &[Vec<u64>]) -> Vec<(Vec<u64>, Vec<u64>)> {
    let mut numbers = Numbers::new(5);
    let sized = |start: &Vec<u64>| {
        let sizes = start.iter().zip(&model.shape).map(|(start, size)| {
            let room = GREATEST - start;
            match numbers.below(12) {
                0 => 0,
                1 => room,
                2 => numbers.below(9).min(room),
                _ => (1 + numbers.below(size.saturating_sub(*start).max(1))).min(room),
            }
        });
        (start.clone(), sizes.collect())
    };
    starts.iter().map(sized).collect()
}

/// What the library answers to a question of a grid as text.
fn answered(model: &Model, call: &str, of: &str) -> String {
    let (shape, chunk_grid) = (json(&model.shape), model.chunk_grid());
    let question =
        format!(r#"{{"shape":{shape},"chunk_grid":{chunk_grid},"call":"{call}","of":{of}}}"#);
    answer(&question).unwrap()
}

fn text_of_box((start, shape): &(Vec<u64>, Vec<u64>)) -> String {
    format!("[{},{}]", json(start), json(shape))
}

fn or_null(text: Option<String>) -> String {
    text.unwrap_or_else(|| "null".to_owned())
}

fn flat(lists: &[Vec<u64>]) -> Vec<u64> {
    lists.concat()
}

/// What a batch leaves in a slice, and in its marks, where each number was LEFT before.
fn left_by(answers: &[Option<Vec<u64>>], width: usize) -> (Vec<u64>, Vec<bool>) {
    let list = |answer: &Option<Vec<u64>>| answer.clone().unwrap_or_else(|| vec![LEFT; width]);
    (answers.iter().flat_map(list).collect(), answers.iter().map(Option::is_some).collect())
}

#[test]
fn a_grid_tells_its_shapes() {
    for model in all_models() {
        let grid = grid_of(&model);
        assert_eq!(grid.dimensionality(), model.dimensionality());
        assert_eq!(grid.array_shape(), model.shape);
        assert_eq!(grid.grid_shape(), model.grid_shape(), "{model:?}");
        assert_eq!(grid.chunk_grid(), model.chunk_grid());
    }
}

#[test]
fn elements_have_the_chunks_and_places_of_arithmetic() {
    let (mut found_in_all, encoding) = (0, encoding_of("default"));
    for model in all_models() {
        let (grid, width) = (grid_of(&model), model.dimensionality());
        let indices = lists_of(&model, 60, false);
        let homes: Vec<_> = indices.iter().map(|index| model.home(index)).collect();
        for (index, home) in indices.iter().zip(&homes) {
            let chunk = home.as_ref().map(|(chunk, _)| chunk.clone());
            let place = home.as_ref().map(|(_, place)| place.clone());
            assert_eq!(grid.chunk_indices(index).unwrap(), chunk, "{model:?} {index:?}");
            assert_eq!(grid.chunk_element_indices(index).unwrap(), place, "{model:?} {index:?}");
            let found = grid.find_home(index).unwrap();
            assert_eq!(found.map(|Home { chunk, place, .. }| (chunk, place)), *home);
            let located = grid.locate(&encoding, index).unwrap();
            let located = located.map(|Located { chunk, place, key, .. }| (chunk, place, key));
            let expected = home.clone().map(|(chunk, place)| {
                let key = default_key(&chunk);
                (chunk, place, key)
            });
            assert_eq!(located, expected);
            let is_in = grid.array_indices_inbounds(index).unwrap();
            assert_eq!(is_in, model.has_element(index), "{model:?} {index:?}");
            match grid.chunk_indices_counted(index) {
                Ok(counted) => assert_eq!((&counted.chunk, model.name), (&chunk, "rectilinear")),
                Err(error) => {
                    let words = "there is no call `chunk_indices_counted`".to_owned();
                    assert_eq!(error, Error::Refused { words });
                    assert_ne!(model.name, "rectilinear");
                }
            }
            let (chunk, place) = (chunk.as_deref().map(json), place.as_deref().map(json));
            assert_eq!(answered(&model, "chunk_indices", &json(index)), or_null(chunk));
            assert_eq!(answered(&model, "chunk_element_indices", &json(index)), or_null(place));
        }
        let chunks: Vec<_> =
            homes.iter().map(|home| home.clone().map(|(chunk, _)| chunk)).collect();
        let places: Vec<_> =
            homes.iter().map(|home| home.clone().map(|(_, place)| place)).collect();
        let (expected_chunks, expected_found) = left_by(&chunks, width);
        let (expected_places, _) = left_by(&places, width);
        let (asked, count) = (flat(&indices), indices.len());
        // What `found` held before says nothing.
        for before in [false, true] {
            let (mut chunks, mut found) = (vec![LEFT; count * width], vec![before; count]);
            grid.chunk_indices_of(&asked, &mut chunks, &mut found).unwrap();
            assert_eq!((&chunks, &found), (&expected_chunks, &expected_found));
            let (mut chunks, mut places) = (vec![LEFT; count * width], vec![LEFT; count * width]);
            let mut found = vec![before; count];
            grid.homes_of(&asked, &mut chunks, &mut places, &mut found).unwrap();
            assert_eq!((&chunks, &found), (&expected_chunks, &expected_found));
            assert_eq!(places, expected_places);
        }
        found_in_all += expected_found.iter().filter(|is_found| **is_found).count();
    }
    assert!(found_in_all > 300, "{found_in_all} elements were found");
}

#[test]
fn chunks_have_the_boxes_of_arithmetic() {
    let mut found_in_all = 0;
    for model in all_models() {
        let (grid, width) = (grid_of(&model), model.dimensionality());
        let chunks = lists_of(&model, 60, true);
        let boxes: Vec<_> = chunks.iter().map(|chunk| model.subset(chunk)).collect();
        for (chunk, expected) in chunks.iter().zip(&boxes) {
            let found = grid.subset(chunk).unwrap();
            let found = found.map(|found| (found.start().to_vec(), found.shape().to_vec()));
            assert_eq!(found, *expected, "{model:?} {chunk:?}");
            let expected = expected.as_ref().map(text_of_box);
            assert_eq!(answered(&model, "subset", &json(chunk)), or_null(expected));
            let (origin, shape) = (model.chunk_origin(chunk), model.chunk_shape(chunk));
            assert_eq!(grid.chunk_origin(chunk).unwrap(), origin, "{model:?} {chunk:?}");
            assert_eq!(grid.chunk_shape(chunk).unwrap(), shape, "{model:?} {chunk:?}");
            let is_in = grid.chunk_indices_inbounds(chunk).unwrap();
            assert_eq!(is_in, model.has_chunk(chunk), "{model:?} {chunk:?}");
        }
        let starts: Vec<_> = boxes.iter().map(|of| of.clone().map(|(start, _)| start)).collect();
        let sizes: Vec<_> = boxes.iter().map(|of| of.clone().map(|(_, shape)| shape)).collect();
        let count = chunks.len();
        let (mut origins, mut shapes) = (vec![LEFT; count * width], vec![LEFT; count * width]);
        let mut found = vec![false; count];
        grid.chunk_boxes_of(&flat(&chunks), &mut origins, &mut shapes, &mut found).unwrap();
        let (expected, expected_found) = left_by(&starts, width);
        assert_eq!((origins, &found), (expected, &expected_found));
        assert_eq!(shapes, left_by(&sizes, width).0);
        found_in_all += found.iter().filter(|is_found| **is_found).count();
    }
    assert!(found_in_all > 300, "{found_in_all} chunks were found");
}

#[test]
fn boxes_of_chunks_have_the_elements_of_arithmetic() {
    let (mut asked, mut found_in_all) = (0, 0);
    for model in all_models() {
        let grid = grid_of(&model);
        for pair in lists_of(&model, 60, true).windows(2) {
            let ends = pair[0].iter().zip(&pair[1]);
            let first: Vec<_> = ends.clone().map(|(one, other)| *one.min(other)).collect();
            let last: Vec<_> = ends.map(|(one, other)| *one.max(other)).collect();
            let counts =
                first.iter().zip(&last).map(|(first, last)| (last - first).wrapping_add(1));
            let counts: Vec<_> = counts.collect();
            let chunks = match ArraySubset::new_with_start_shape(first.clone(), counts.clone()) {
                Ok(chunks) => chunks,
                Err(_) => continue,
            };
            let expected = match (model.subset(&first), model.subset(&last)) {
                _ if counts.contains(&0) => Some((vec![0; first.len()], vec![0; first.len()])),
                (Some((start, _)), Some((last, sizes))) => {
                    let ends = last.iter().zip(&sizes).map(|(last, size)| last + size);
                    let shape = ends.zip(&start).map(|(end, start)| end - start).collect();
                    Some((start, shape))
                }
                _ => None,
            };
            let found = grid.chunks_subset(&chunks).unwrap();
            asked += 1;
            found_in_all += usize::from(found.is_some());
            let found = found.map(|found| (found.start().to_vec(), found.shape().to_vec()));
            assert_eq!(found, expected, "{model:?} {chunks:?}");
        }
    }
    assert!(asked > 900 && found_in_all > 300, "{found_in_all} of {asked} boxes");
}

#[test]
fn runs_are_those_of_equal_edges() {
    for model in all_models() {
        let grid = grid_of(&model);
        for dimension in 0..model.dimensionality() + 2 {
            let runs = match model.axes.get(dimension) {
                Some(Axis::Listed(edges)) => {
                    let changes = edges.windows(2).filter(|pair| pair[0] != pair[1]).count();
                    Some(1 + changes as u64)
                }
                _ => None,
            };
            let expected = match model.name {
                "rectilinear" => Ok(runs),
                _ => Err(Error::Refused { words: "there is no call `runs`".to_owned() }),
            };
            assert_eq!(grid.runs(dimension), expected, "{model:?} {dimension}");
        }
        if model.name == "rectilinear" {
            assert_eq!(grid.runs(usize::MAX), Ok(None));
        }
    }
}

#[test]
fn metadata_are_written_in_one_form() {
    for model in all_models().into_iter().filter(|model| model.name != "rectilinear") {
        let written = grid_of(&model).written_metadata().unwrap();
        let edges: Vec<_> = model.axes.iter().map(Axis::edges).collect();
        let (edges, name) = (edges.join(","), model.name);
        let expected =
            format!(r#"{{"configuration":{{"chunk_shape":[{edges}]}},"name":"{name}"}}"#);
        assert_eq!(written, expected);
    }
    let text = r#" { "must_understand" : true, "configuration" : {"chunk_shapes":
        [ [5, 5, [7, 1], [7, 2]], 4 ], "kind" : "inline"} , "name" : "rectilinear" } "#;
    let grid = Grid::new(&[31, 9], text).unwrap();
    let configuration = r#"{"chunk_shapes":[[[5,2],[7,3]],4],"kind":"inline"}"#;
    let expected = format!(r#"{{"configuration":{configuration},"name":"rectilinear"}}"#);
    assert_eq!(grid.written_metadata().unwrap(), expected);
    // A text of 800 kB; and what was written is written again.
    let edges: Vec<_> = (0..400_000_u64).map(|number| 1 + number % 2 + number % 3).collect();
    let size = edges.iter().sum();
    let model = Model::new("rectangular", &[size], vec![Axis::Listed(edges)]);
    let written = grid_of(&model).written_metadata().unwrap();
    assert_eq!(Grid::new(&[size], &written).unwrap().written_metadata().unwrap(), written);
    assert_eq!(written.len(), model.chunk_grid().len());
}

#[test]
fn boxes_have_the_covers_of_arithmetic() {
    let (mut found_in_all, mut empty_in_all) = (0, 0);
    for model in all_models() {
        let (grid, width) = (grid_of(&model), model.dimensionality());
        let boxes = boxes_of(&model, &lists_of(&model, 60, false));
        let covers: Vec<_> = boxes.iter().map(|(start, shape)| model.cover(start, shape)).collect();
        for ((start, shape), expected) in boxes.iter().zip(&covers) {
            let subset = ArraySubset::new_with_start_shape(start.clone(), shape.clone()).unwrap();
            let cover = grid.chunks_in_array_subset(&subset).unwrap();
            assert_eq!(cover.is_some(), expected.is_some(), "{model:?} {subset:?}");
            if let (Some(cover), Some((first, counts))) = (cover, expected) {
                assert_eq!(cover.is_empty(), subset.is_empty());
                if !subset.is_empty() {
                    assert_eq!((cover.start(), cover.shape()), (&first[..], &counts[..]));
                    let of = text_of_box(&(start.clone(), shape.clone()));
                    let found = answered(&model, "chunks_in_array_subset", &of);
                    assert_eq!(found, text_of_box(&(first.clone(), counts.clone())));
                }
            }
        }
        let starts: Vec<_> = boxes.iter().map(|(start, _)| start.clone()).collect();
        let sizes: Vec<_> = boxes.iter().map(|(_, shape)| shape.clone()).collect();
        let count = boxes.len();
        let (mut first, mut counts) = (vec![LEFT; count * width], vec![LEFT; count * width]);
        let mut found = vec![false; count];
        grid.covers_of(&flat(&starts), &flat(&sizes), &mut first, &mut counts, &mut found).unwrap();
        for (number, expected) in covers.iter().enumerate() {
            let lists = [&first, &counts].map(|list| &list[number * width..][..width]);
            assert_eq!(found[number], expected.is_some());
            match expected {
                None => assert!(lists.concat().iter().all(|number| *number == LEFT)),
                Some(_) if sizes[number].contains(&0) => assert!(lists[1].contains(&0)),
                Some((first, counts)) => assert_eq!(lists, [&first[..], &counts[..]]),
            }
            found_in_all += usize::from(expected.is_some());
            empty_in_all += usize::from(sizes[number].contains(&0));
        }
    }
    assert!(found_in_all > 300 && empty_in_all > 50, "{found_in_all} covers, {empty_in_all} empty");
}

#[test]
fn a_box_that_is_none_is_told() {
    let grid = grid_of(&small_models()[4]);
    let (starts, shapes) = ([0, 0, GREATEST, 0, GREATEST, 0], [1, 1, 1, 1, 9, 9]);
    let (mut first, mut counts, mut found) = ([0; 6], [0; 6], [false; 3]);
    let error = grid.covers_of(&starts, &shapes, &mut first, &mut counts, &mut found).unwrap_err();
    assert_eq!(error, Error::NotABox { which: 1 });
    assert_eq!(error.to_string(), "box 1 ends past 18446744073709551615");
    let subset = |start: &[u64], shape: &[u64]| {
        ArraySubset::new_with_start_shape(start.to_vec(), shape.to_vec())
    };
    assert_eq!(subset(&[3, 2], &[1, GREATEST - 1]), Err(Error::NotABox { which: 0 }));
    assert!(subset(&[3, 2], &[1, GREATEST - 2]).is_ok());
    let wrong = Error::WrongLength { argument: "shape", given: 1, wanted: 2 };
    assert_eq!(subset(&[3, 2], &[1]), Err(wrong));
    let backwards = Range { start: 9, end: 4 };
    let ranges = ArraySubset::new_with_ranges(&[2..5, backwards]).unwrap();
    assert_eq!((ranges.start(), ranges.shape()), (&[2, 9][..], &[3, 0][..]));
    assert!(ranges.is_empty());
}

/// A range as it is written in a literal that no lint takes for a slip.
type Range = std::ops::Range<u64>;

#[test]
fn keys_are_those_of_the_definition() {
    let mut numbers = Numbers::new(3);
    let second: fn(&[u64]) -> String = |chunk| match chunk {
        [] => "0".to_owned(),
        _ => chunk.iter().map(u64::to_string).collect::<Vec<_>>().join("."),
    };
    let dotted: fn(&[u64]) -> String = |chunk| default_key(chunk).replace('/', ".");
    let suffixed: fn(&[u64]) -> String = |chunk| default_key(chunk) + ".long-suffix\u{e9}\u{1F600}";
    let with_suffix = "{\"name\":\"zarrs.default_suffix\",\"configuration\":\
        {\"separator\":\"/\",\"suffix\":\".long-suffix\u{e9}\u{1F600}\"}}";
    let encodings = [
        ("\"default\"", default_key as fn(&[u64]) -> String),
        (r#"{"name":"default","configuration":{"separator":"."}}"#, dotted),
        ("\"v2\"", second),
        (r#"{"name":"v2","configuration":{"separator":"."}}"#, second),
        (with_suffix, suffixed),
    ];
    for (text, expected) in encodings {
        let encoding = Encoding::new(text).unwrap();
        assert_eq!(encoding.chunk_key_encoding(), text);
        for width in [0, 1, 2, 3, 5, 300] {
            let mut number = || match numbers.below(4) {
                0 => GREATEST - numbers.below(2),
                1 => numbers.below(GREATEST),
                _ => numbers.below(100),
            };
            let chunks: Vec<Vec<u64>> =
                (0..40).map(|_| (0..width).map(|_| number()).collect()).collect();
            let keys: Vec<_> = chunks.iter().map(|chunk| expected(chunk)).collect();
            for (chunk, key) in chunks.iter().zip(&keys) {
                assert_eq!(encoding.encode(chunk).unwrap(), *key);
                assert_eq!(encoding.decode(key, width).unwrap().as_ref(), Some(chunk));
                assert_eq!(encoding.decode(key, width + 7).unwrap(), None);
                assert_eq!(encoding.decode(&format!("{key}/"), width).unwrap(), None);
                let question = format!(
                    r#"{{"chunk_key_encoding":{text},"call":"encode","of":{}}}"#,
                    json(chunk)
                );
                assert_eq!(answer(&question).unwrap(), format!("\"{key}\""));
            }
            let found = encoding.encode_all(chunks.len(), &flat(&chunks)).unwrap();
            assert_eq!(found.iter().collect::<Vec<_>>(), keys);
            assert_eq!((found.len(), found.is_empty()), (keys.len(), false));
            assert_eq!((found.get(0), found.get(40)), (Some(&keys[0][..]), None));
            assert_eq!(found.get(usize::MAX), None);
            assert_eq!(found.text(), keys.concat());
            assert_eq!(found.offsets().len(), keys.len() + 1);

            // One key in two is that of no chunk.
            let mixed: Vec<_> =
                keys.iter().flat_map(|key| [key.clone(), key.clone() + "x"]).collect();
            let answers: Vec<_> =
                chunks.iter().flat_map(|chunk| [Some(chunk.clone()), None]).collect();
            let (expected_chunks, expected_found) = left_by(&answers, width);
            let (mut decoded, mut marks) = (vec![LEFT; 80 * width], vec![true; 80]);
            encoding.decode_all(&mixed, width, &mut decoded, &mut marks).unwrap();
            assert_eq!((decoded, marks), (expected_chunks, expected_found));
            let (mut decoded, mut marks) = (vec![LEFT; 40 * width], vec![false; 40]);
            let (text, offsets) = (found.text().as_bytes(), found.offsets());
            encoding.decode_text(text, offsets, width, &mut decoded, &mut marks).unwrap();
            assert_eq!((decoded, marks), (flat(&chunks), vec![true; 40]));
        }
    }
}

#[test]
fn bytes_that_are_no_text_are_no_key() {
    let (mut chunks, mut found) = ([LEFT; 2], [true; 2]);
    let keys: [&[u8]; 2] = [b"c/\xff", b"c/5"];
    encoding_of("default").decode_all(&keys, 1, &mut chunks, &mut found).unwrap();
    assert_eq!((chunks, found), ([LEFT, 5], [false, true]));
}

#[test]
fn no_lists_are_no_answers() {
    let (grid, encoding) = (grid_of(&small_models()[0]), encoding_of("v2"));
    grid.chunk_indices_of(&[], &mut [], &mut []).unwrap();
    grid.homes_of(&[], &mut [], &mut [], &mut []).unwrap();
    grid.chunk_boxes_of(&[], &mut [], &mut [], &mut []).unwrap();
    grid.covers_of(&[], &[], &mut [], &mut [], &mut []).unwrap();
    encoding.decode_all::<&str>(&[], 3, &mut [], &mut []).unwrap();
    encoding.decode_text(b"", &[0], 3, &mut [], &mut []).unwrap();
    let keys = encoding.encode_all(0, &[]).unwrap();
    assert_eq!((keys.len(), keys.is_empty(), keys.text(), keys.offsets()), (0, true, "", &[0][..]));
    assert_eq!((keys.get(0), keys.iter().next()), (None, None));
}

#[test]
fn lists_without_numbers_are_counted() {
    for name in ["regular", "zarrs.regular_bounded", "rectangular", "rectilinear"] {
        let grid = grid_of(&Model::new(name, &[], vec![]));
        let mut found = [false; 5];
        grid.chunk_indices_of(&[], &mut [], &mut found).unwrap();
        assert_eq!(found, [true; 5]);
        assert_eq!(grid.chunk_indices(&[]).unwrap(), Some(vec![]));
        assert_eq!(grid.grid_shape(), [0; 0]);
    }
    let keys = encoding_of("default").encode_all(3, &[]).unwrap();
    assert_eq!(keys.iter().collect::<Vec<_>>(), ["c", "c", "c"]);
    let mut found = [false; 2];
    encoding_of("v2").decode_all(&["0", "1"], 0, &mut [], &mut found).unwrap();
    assert_eq!(found, [true, false]);
}

fn wrong(argument: &'static str, given: usize, wanted: usize) -> Error {
    Error::WrongLength { argument, given, wanted }
}

#[test]
fn wrong_lengths_of_one_list_are_told() {
    let (grid, encoding) = (grid_of(&small_models()[4]), encoding_of("default"));
    for given in [0, 1, 3] {
        let list = vec![1; given];
        let subset = ArraySubset::new_with_start_shape(list.clone(), list.clone()).unwrap();
        assert_eq!(grid.chunk_indices(&list), Err(wrong("indices", given, 2)));
        assert_eq!(grid.chunk_element_indices(&list), Err(wrong("indices", given, 2)));
        assert_eq!(grid.find_home(&list), Err(wrong("indices", given, 2)));
        assert_eq!(grid.locate(&encoding, &list), Err(wrong("indices", given, 2)));
        assert_eq!(grid.chunk_indices_counted(&list), Err(wrong("indices", given, 2)));
        assert_eq!(grid.array_indices_inbounds(&list), Ok(false));
        assert_eq!(grid.chunk_indices_inbounds(&list), Ok(false));
        assert_eq!(grid.subset(&list), Err(wrong("chunk", given, 2)));
        assert_eq!(grid.chunk_shape(&list), Err(wrong("chunk", given, 2)));
        assert_eq!(grid.chunk_origin(&list), Err(wrong("chunk", given, 2)));
        assert_eq!(grid.chunks_subset(&subset), Err(wrong("chunks", given, 2)));
        assert_eq!(grid.chunks_in_array_subset(&subset), Err(wrong("subset", given, 2)));
        let error = grid.parts(&encoding, &subset).unwrap_err();
        assert_eq!(error, wrong("subset", given, 2));
    }
    let error = grid.chunk_indices(&[1, 2, 3]).unwrap_err();
    assert_eq!(error.to_string(), "indices: there are to be 2 items, and 3 are given");
}

#[test]
fn wrong_lengths_of_batches_are_told() {
    let grid = grid_of(&small_models()[4]);
    // Of each batch each slice in turn is too short, right, and too long for two lists.
    for (which, given) in (0..4).flat_map(|which| [(which, 3), (which, 4), (which, 5)]) {
        let length = |slice: usize| if slice == which { given } else { 4 };
        let [a, b] = [vec![0; length(0)], vec![0; length(1)]];
        let [mut d, mut e, mut f] = [1, 2, 3].map(|slice| vec![0; length(slice)]);
        let found = &mut [false; 2];
        let told = |names: [&'static str; 4]| match (names[which], given) {
            ("", _) | (_, 4) => Ok(()),
            (name, _) => Err(wrong(name, given, 4)),
        };
        let names = ["indices", "chunks", "", ""];
        assert_eq!(grid.chunk_indices_of(&a, &mut d, found), told(names));
        let names = ["indices", "chunks", "places", ""];
        assert_eq!(grid.homes_of(&a, &mut d, &mut e, found), told(names));
        let names = ["chunks", "origins", "shapes", ""];
        assert_eq!(grid.chunk_boxes_of(&a, &mut d, &mut e, found), told(names));
        let names = ["starts", "shapes", "first_chunks", "chunk_counts"];
        assert_eq!(grid.covers_of(&a, &b, &mut e, &mut f, found), told(names));
    }
}

#[test]
fn wrong_lengths_of_keys_are_told() {
    let encoding = encoding_of("default");
    assert_eq!(encoding.encode_all(2, &[1, 2, 3]), Err(wrong("chunks", 3, 2)));
    assert_eq!(encoding.encode_all(0, &[1]), Err(wrong("chunks", 1, 0)));
    let mut chunks = [0; 4];
    let decoded = encoding.decode_all(&["c/1/1"], 2, &mut chunks, &mut [false; 2]);
    assert_eq!(decoded, Err(wrong("found", 2, 1)));
    let decoded = encoding.decode_all(&["c/1/1"], 2, &mut chunks, &mut [false; 1]);
    assert_eq!(decoded, Err(wrong("chunks", 4, 2)));
    let decoded = encoding.decode_text(b"c/1/1", &[0], 2, &mut chunks, &mut [false; 2]);
    assert_eq!(decoded, Err(wrong("offsets", 1, 3)));
}

#[test]
fn wrong_offsets_are_told() {
    let (encoding, mut chunks, mut found) = (encoding_of("default"), [0; 2], [false; 2]);
    for (offsets, which) in [([0, 4, 3], 1), ([0, 3, 9], 1), ([4, 3, 6], 0), ([GREATEST; 3], 0)] {
        let decoded = encoding.decode_text(b"c/0c/1", &offsets, 1, &mut chunks, &mut found);
        assert_eq!(decoded, Err(Error::WrongOffsets { which }), "{offsets:?}");
    }
    let error = Error::WrongOffsets { which: 3 };
    assert_eq!(error.to_string(), "the offsets of key 3 descend, or lie past the text");
}

#[test]
fn refusals_have_the_words_of_the_library() {
    let words = |words: &str| words.to_owned();
    let not_json = |text| Error::NotJson { words: words(text) };
    let not_metadata = |text| Error::NotMetadata { words: words(text) };
    let refused = |text| Error::Refused { words: words(text) };
    let regular =
        |edges: &str| format!(r#"{{"name":"regular","configuration":{{"chunk_shape":{edges}}}}}"#);
    let long = "x".repeat(5000);
    let long_words = format!("name `{long}` is not supported");
    let faults = [
        (words("{"), not_json("the metadata is not JSON")),
        (words(""), not_json("the metadata is not JSON")),
        (words("regular"), not_json("the metadata is not JSON")),
        (words("null"), not_metadata("not an extension")),
        (words("{}"), not_metadata("name is missing")),
        (words(r#"{"name":3}"#), not_metadata("name is not a text")),
        (
            words(r#"{"name":"regular","configuration":[]}"#),
            not_metadata("configuration is not an object"),
        ),
        (words(r#""hexagonal""#), refused("name `hexagonal` is not supported")),
        (format!("\"{long}\""), refused(&long_words)),
        (
            words(r#"{"name":"regular","configuration":{}}"#),
            refused("configuration is unsupported: missing field `chunk_shape`"),
        ),
        (
            regular("[0,3]"),
            refused("configuration is unsupported: wrong value in field `chunk_shape`"),
        ),
    ];
    for (text, expected) in faults {
        let error = Grid::new(&[4, 7], &text).unwrap_err();
        assert_eq!(error, expected);
        match &expected {
            Error::NotJson { words } | Error::NotMetadata { words } | Error::Refused { words } => {
                assert_eq!(error.to_string(), *words);
            }
            other => panic!("{other:?}"),
        }
    }
    let error = Encoding::new(r#""octal""#).unwrap_err();
    assert_eq!(error, refused("name `octal` is not supported"));
    let slash = r#"{"name":"zarrs.default_suffix","configuration":{"suffix":"a/"}}"#;
    let error = Encoding::new(slash).unwrap_err();
    assert_eq!(error, refused("chunk key suffix must not end with a slash"));
    assert_eq!(Encoding::new("default").unwrap_err(), not_json("the metadata is not JSON"));
    assert_eq!(Encoding::new("[1]").unwrap_err(), not_metadata("not an extension"));
}

#[test]
fn errors_are_errors_with_words() {
    let words = "some words".to_owned();
    let told = [
        (Error::OutOfMemory, "out of memory"),
        (Error::TooLong { most: 1 << 30 }, "the answer is longer than 1073741824 bytes"),
        (
            Error::WrongVersion { found: 2 },
            "the library has the version 2 of the calls, and this crate is for the version 3",
        ),
        (
            Error::WrongProcessor { missing: "sse4_2" },
            "the library needs an x86-64-v2 processor, and this one is without sse4_2",
        ),
        (
            Error::Unexpected { code: 0, words: words.clone() },
            "the library answers what its header rules out: some words",
        ),
        (
            Error::Unexpected { code: -9, words },
            "the library ends with the unexpected code -9: some words",
        ),
    ];
    for (error, expected) in told {
        let error: Box<dyn std::error::Error + Send + Sync> = Box::new(error);
        assert_eq!(error.to_string(), expected);
        assert!(error.source().is_none());
    }
    assert_eq!((abi_version(), ABI_VERSION, STACK), (3, 3, 163_840));
}

#[test]
fn what_takes_too_much_memory_is_an_error() {
    let encoding = encoding_of("default");
    assert_eq!(encoding.decode("c/0", usize::MAX), Err(Error::OutOfMemory));
    assert_eq!(encoding.decode("c/0", usize::MAX / 16), Err(Error::OutOfMemory));
    assert_eq!(encoding.encode_all(usize::MAX, &[]).unwrap_err(), Error::OutOfMemory);
    assert_eq!(encoding.encode_all(usize::MAX / 16, &[]).unwrap_err(), Error::OutOfMemory);
    assert_eq!(encoding.encode(&[0]).unwrap(), "c/0");
}

#[test]
fn grids_and_encodings_are_values() {
    let model = &small_models()[0];
    let (grid, again) = (grid_of(model), grid_of(model));
    let other = Grid::new(&[5, 7, 53], &model.chunk_grid()).unwrap();
    assert_eq!((grid == again, grid == grid.clone(), grid == other), (true, true, false));
    assert_eq!(HashSet::from([grid.clone(), again, other]).len(), 2);
    let shown = format!("Grid {{ shape: [5, 7, 52], chunk_grid: {:?} }}", model.chunk_grid());
    assert_eq!(format!("{grid:?}"), shown);
    let encodings = HashSet::from([encoding_of("v2"), encoding_of("default"), encoding_of("v2")]);
    assert_eq!(encodings.len(), 2);
    assert_eq!(format!("{:?}", encoding_of("v2")), r#"Encoding { chunk_key_encoding: "\"v2\"" }"#);
}

#[test]
fn all_types_may_be_sent_and_shared() {
    fn may<T: Send + Sync + Unpin>() {}
    may::<Grid>();
    may::<Encoding>();
    may::<ArraySubset>();
    may::<Home>();
    may::<Located>();
    may::<Counted>();
    may::<Task>();
    may::<Keys>();
    may::<Part>();
    may::<Error>();
    may::<Parts<'_>>();
    may::<Tasks<'_>>();
    may::<ChunkIndices<'_>>();
    may::<ChunkSubsets<'_>>();
    may::<ChunkIndicesAndSubsets<'_>>();
}

#[test]
fn threads_ask_at_once() {
    let axes = vec![Axis::Listed((1..=40).collect()), Axis::Fixed(7)];
    let model = Model::new("rectilinear", &[820, 1000], axes);
    let (grid, encoding) = (grid_of(&model), encoding_of("default"));
    thread::scope(|scope| {
        for seed in 0..8 {
            let (grid, encoding, model) = (&grid, &encoding, &model);
            scope.spawn(move || {
                let mut numbers = Numbers::new(seed);
                for _ in 0..20 {
                    let indices: Vec<_> =
                        (0..100).map(|_| vec![numbers.below(820), numbers.below(1000)]).collect();
                    let (mut chunks, mut found) = (vec![0; 200], vec![false; 100]);
                    grid.chunk_indices_of(&flat(&indices), &mut chunks, &mut found).unwrap();
                    let expected: Vec<_> =
                        indices.iter().map(|index| model.chunk_indices(index).unwrap()).collect();
                    assert_eq!((chunks, found), (flat(&expected), vec![true; 100]));
                    let keys: Vec<_> = expected.iter().map(|chunk| default_key(chunk)).collect();
                    let found = encoding.encode_all(100, &flat(&expected)).unwrap();
                    assert_eq!(found.iter().collect::<Vec<_>>(), keys);
                }
            });
        }
    });
}

#[test]
fn a_thread_with_the_stack_of_a_call_asks() {
    // Metadata that nest as deep as JSON is read, in a member that says nothing.
    let nested = format!("{}{}", "[".repeat(126), "]".repeat(126));
    let text =
        format!(r#"{{"name":"regular","configuration":{{"chunk_shape":[2]}},"more":{nested}}}"#);
    // As much again is for what a thread of `std` and of the tests does besides.
    let thread = thread::Builder::new().stack_size(2 * STACK);
    let made = thread.spawn(move || Grid::new(&[5], &text)).unwrap().join().unwrap().unwrap();
    assert_eq!(made.grid_shape(), [3]);
    let deeper = format!("[{nested}]");
    let text =
        format!(r#"{{"name":"regular","configuration":{{"chunk_shape":[2]}},"more":{deeper}}}"#);
    assert!(matches!(Grid::new(&[5], &text), Err(Error::NotJson { .. })));
    // In a question the metadata are one deeper, so of such a grid there is no walk, and the one
    // item says so.
    let mut walk = made.iter_chunk_indices();
    let error = walk.next().unwrap().unwrap_err();
    assert_eq!(error, Error::Refused { words: "not JSON".to_owned() });
    assert!(walk.next().is_none() && walk.is_empty());
}
