//! Copies as tasks: beside plain arithmetic, and page by page.

mod common;

use std::collections::BTreeMap;

use common::json::{written_box, written_items, written_task, written_text, Json};
use common::{grid_of, json, regular, row_major, small_models, Axis, Model, Numbers, GREATEST};
use zarrs_chunks::{
    answer, ArraySubset, Encoding, Error, Grid, Task, TaskCounts, TaskOptions, TaskOrder, Tasks,
};

const REGULAR: &str = r#"{"name":"regular","configuration":{"chunk_shape":[2,3]}}"#;

fn by(name: &str) -> Encoding {
    Encoding::new(&format!("\"{name}\"")).unwrap()
}

fn boxed(start: &[u64], shape: &[u64]) -> ArraySubset {
    ArraySubset::new_with_start_shape(start.to_vec(), shape.to_vec()).unwrap()
}

fn all(tasks: Tasks<'_>) -> Vec<Task> {
    tasks.collect::<Result<_, _>>().unwrap()
}

/// A grid of each kind over an array of this shape.
fn targets(shape: &[u64], numbers: &mut Numbers) -> Vec<Model> {
    ["regular", "zarrs.regular_bounded", "rectangular", "rectilinear"]
        .into_iter()
        .map(|name| {
            let axes = shape.iter().map(|size| {
                let edge = 1 + numbers.below(size + 2);
                match name {
                    "regular" => Axis::Fixed(edge),
                    "zarrs.regular_bounded" => Axis::Bounded(edge),
                    _ if *size == 0 || numbers.below(3) == 0 => Axis::Fixed(edge),
                    _ => {
                        let (mut edges, mut left) = (Vec::new(), *size);
                        while left > 0 {
                            edges.push(1 + numbers.below(left));
                            left -= edges[edges.len() - 1];
                        }
                        // Chunks past the array, and a last one that reaches past it.
                        if name == "rectilinear" {
                            *edges.last_mut().unwrap() += numbers.below(3);
                            edges.extend((0..numbers.below(3)).map(|past| past + 1));
                        }
                        Axis::Listed(edges)
                    }
                }
            });
            let axes = axes.collect();
            Model::new(name, shape, axes)
        })
        .collect()
}

/// The chunk of an element, and its place there.
type Home = (Vec<u64>, Vec<u64>);

/// A copy between two arrays: a box, the index where it begins in the target, and the groups.
struct Copied {
    source: Model,
    target: Model,
    subset: ArraySubset,
    at: Vec<u64>,
    each: Vec<u64>,
    order: TaskOrder,
}

impl Copied {
    /// The rechunking of an array, by single chunks of the target.
    fn rechunking(source: Model, target: Model) -> Copied {
        let (begin, each) = (vec![0; source.shape.len()], vec![1; source.shape.len()]);
        let subset = boxed(&begin, &source.shape);
        Copied { source, target, subset, at: begin, each, order: TaskOrder::Target }
    }

    /// A region that lies in both arrays, by any groups.
    fn any(source: Model, target: Model, numbers: &mut Numbers) -> Copied {
        let [mut start, mut shape, mut at, mut each] = [(); 4].map(|()| Vec::new());
        for (size, other) in source.shape.iter().zip(&target.shape) {
            let most = *size.min(other);
            let count = most.min(numbers.below(most + 4));
            start.push(numbers.below(size - count + 1));
            shape.push(count);
            at.push(numbers.below(other - count + 1));
            each.push(1 + numbers.below(4));
        }
        let order = [TaskOrder::Target, TaskOrder::Source][numbers.below(2) as usize];
        Copied { source, target, subset: boxed(&start, &shape), at, each, order }
    }

    fn options(&self) -> TaskOptions<'_> {
        let (subset, at, each) = (Some(&self.subset), Some(&self.at[..]), Some(&self.each[..]));
        TaskOptions { subset, at, task_chunks: each, order: self.order }
    }

    /// What arithmetic has of each task, as the vectors write it, by going over all elements.
    fn expected(&self) -> Vec<String> {
        let begins = [self.subset.start(), &self.at];
        let mut groups = BTreeMap::new();
        for step in row_major(&vec![0; self.at.len()], self.subset.shape()) {
            let [read, written] = begins.map(|begin| sums(begin, &step));
            let homes = [self.source.home(&read), self.target.home(&written)].map(Option::unwrap);
            let grouped = &homes[usize::from(self.order == TaskOrder::Target)].0;
            let group: Vec<_> = grouped.iter().zip(&self.each).map(|(n, each)| n / each).collect();
            groups.entry(group).or_insert_with(Vec::new).push((step, homes));
        }
        let written = |moved: Vec<(Vec<u64>, [Home; 2])>| {
            let buffer = box_of(moved.iter().map(|(step, _)| step));
            let mut pieces = [BTreeMap::new(), BTreeMap::new()];
            for (step, homes) in moved {
                let in_buffer = step.iter().zip(buffer.start()).map(|(n, start)| n - start);
                let in_buffer: Vec<_> = in_buffer.collect();
                for (pieces, (chunk, place)) in pieces.iter_mut().zip(homes) {
                    pieces.entry(chunk).or_insert_with(Vec::new).push((place, in_buffer.clone()));
                }
            }
            let [from, to] = pieces;
            let whole = |chunk: &[u64], count| {
                let held = self.target.held(chunk).unwrap().into_iter();
                let held = held.map(|(range, _)| range.end - range.start).product::<u128>();
                format!(r#","whole":{}"#, held == count as u128)
            };
            format!(
                r#"{{"buffer":{},"from":{},"to":{}}}"#,
                json(buffer.shape()),
                written_pieces(&self.source, "default", from, |_, _| String::new()),
                written_pieces(&self.target, "v2", to, whole)
            )
        };
        groups.into_values().map(written).collect()
    }
}

/// The places of some elements in a chunk, and in the buffer, by the chunk.
type Pieces = BTreeMap<Vec<u64>, Vec<(Vec<u64>, Vec<u64>)>>;

fn written_pieces(
    model: &Model,
    encoding: &str,
    pieces: Pieces,
    more: impl Fn(&[u64], usize) -> String,
) -> String {
    let encoding = by(encoding);
    let written = pieces.into_iter().map(|(chunk, places)| {
        let in_chunk = box_of(places.iter().map(|(place, _)| place));
        let in_buffer = box_of(places.iter().map(|(_, place)| place));
        format!(
            r#"{{"chunk":{},"in_buffer":{},"in_chunk":{},"key":{},"shape":{}{}}}"#,
            json(&chunk),
            written_box(&in_buffer),
            written_box(&in_chunk),
            written_text(&encoding.encode(&chunk).unwrap()),
            json(&model.chunk_shape(&chunk).unwrap()),
            more(&chunk, places.len())
        )
    });
    format!("[{}]", written.collect::<Vec<_>>().join(","))
}

/// The box of some places, which has to be each of them once, in row-major order.
fn box_of<'a>(places: impl Iterator<Item = &'a Vec<u64>>) -> ArraySubset {
    let places: Vec<_> = places.cloned().collect();
    let (first, last) = (&places[0], &places[places.len() - 1]);
    let shape: Vec<_> = first.iter().zip(last).map(|(first, last)| last - first + 1).collect();
    assert_eq!(row_major(first, &shape), places);
    boxed(first, &shape)
}

fn sums(numbers: &[u64], steps: &[u64]) -> Vec<u64> {
    numbers.iter().zip(steps).map(|(number, step)| number + step).collect()
}

/// The counts of some tasks by going over them, in the order of the answer's members.
fn counts_in(tasks: &[Task]) -> [Option<u128>; 6] {
    let size = |shape: &[u64]| shape.iter().map(|size| u128::from(*size)).product::<u128>();
    let buffers: Vec<_> = tasks.iter().map(|task| size(&task.buffer)).collect();
    let read = tasks.iter().flat_map(|task| &task.sources);
    let counts = [
        tasks.iter().map(|task| task.sources.len() as u128).sum(),
        tasks.iter().map(|task| task.targets.len() as u128).sum(),
        read.map(|source| size(&source.shape)).sum(),
        buffers.iter().sum(),
        buffers.iter().copied().max().unwrap_or(0),
        tasks.len() as u128,
    ];
    counts.map(Some)
}

fn products(counts: &TaskCounts) -> [Option<u128>; 6] {
    let (read, written) = (counts.chunks_read(), counts.chunks_written());
    let (decoded, moved) = (counts.elements_decoded(), counts.elements_moved());
    [read, written, decoded, moved, counts.largest_task(), counts.tasks()]
}

#[test]
fn tasks_are_those_of_arithmetic() {
    let (encodings, mut numbers) = ((by("default"), by("v2")), Numbers::new(11));
    let (mut copies, mut empty, mut sources, mut pieces, mut whole) = (0, 0, 0, 0, 0);
    let mut compare = |copied: &Copied, options: TaskOptions<'_>, share: (u64, u64)| {
        let Copied { source, target, subset, at, each, order } = copied;
        let (grid, written) = (grid_of(source), grid_of(target));
        let tasks = grid.tasks(&encodings.0, &written, &encodings.1, options).unwrap();
        let expected = copied.expected();
        let what = format!("{source:?} {target:?} {subset:?} {at:?} {each:?} {order:?}");
        assert_eq!((tasks.len(), tasks.is_empty()), (expected.len() as u64, expected.is_empty()));
        let found = all(tasks);
        assert_eq!(found.iter().map(written_task).collect::<Vec<_>>(), expected, "{what}");

        // The counts are what the walk has, and the share is one of its parts.
        let counts = grid.task_counts(&written, options, share).unwrap();
        assert_eq!(products(&counts), counts_in(&found), "{what}");
        let (count, (number, of)) = (found.len() as u64, share);
        assert_eq!(counts.share(), Some(number * count / of..(number + 1) * count / of), "{what}");
        assert_eq!(counts.elements_moved, subset.shape());

        (copies, empty) = (copies + 1, empty + usize::from(found.is_empty()));
        let targets: Vec<_> = found.iter().flat_map(|task| &task.targets).collect();
        sources += found.iter().map(|task| task.sources.len()).sum::<usize>();
        pieces += targets.len();
        whole += targets.iter().filter(|target| target.whole).count();
    };
    for source in small_models() {
        for _ in 0..10 {
            // A rechunking, without any option.
            for target in targets(&source.shape, &mut numbers) {
                let copied = Copied::rechunking(source.clone(), target);
                let of = 1 + numbers.below(9);
                compare(&copied, TaskOptions::default(), (numbers.below(of), of));
            }
            let shape = source.shape.iter().map(|size| 1 + numbers.below(size + 9));
            let shape: Vec<_> = shape.collect();
            for target in targets(&shape, &mut numbers) {
                let copied = Copied::any(source.clone(), target, &mut numbers);
                compare(&copied, copied.options(), (numbers.below(5), 5));
            }
        }
    }
    println!(
        "{copies} copies, {empty} empty; {sources} chunks read, {pieces} written, {whole} whole"
    );
    assert!(copies == 1120 && empty > 200 && sources > 10_000);
    assert!(whole > 3000 && pieces - whole > 1000);
}

#[test]
fn a_rechunking_writes_whole_chunks() {
    let mut numbers = Numbers::new(3);
    for source in small_models() {
        for target in targets(&source.shape, &mut numbers) {
            let (grid, written, encoding) = (grid_of(&source), grid_of(&target), by("v2"));
            let each: Vec<_> = source.shape.iter().map(|_| 1 + numbers.below(5)).collect();
            let options = TaskOptions { task_chunks: Some(&each), ..Default::default() };
            let tasks = all(grid.tasks(&encoding, &written, &encoding, options).unwrap());
            let mut targets: Vec<_> = tasks.into_iter().flat_map(|task| task.targets).collect();
            assert!(targets.iter().all(|target| target.whole));
            // Each chunk is written once.
            let count = targets.len();
            targets.sort_by(|one, other| one.chunk.cmp(&other.chunk));
            targets.dedup_by(|one, other| one.chunk == other.chunk);
            assert_eq!(targets.len(), count);
        }
    }
}

#[test]
fn pages_are_all_tasks() {
    let axes = vec![Axis::Bounded(4), Axis::Bounded(7)];
    let source = Model::new("zarrs.regular_bounded", &[304, 309], axes);
    let target = regular(&[500, 320], &[2, 3]);
    let copied = Copied {
        source,
        target,
        subset: boxed(&[1, 5], &[301, 301]),
        at: vec![98, 9],
        each: vec![1, 1],
        order: TaskOrder::Target,
    };
    let (grid, written) = (grid_of(&copied.source), grid_of(&copied.target));
    let encodings = (by("default"), by("v2"));
    let tasks = || grid.tasks(&encodings.0, &written, &encodings.1, copied.options()).unwrap();
    let expected = copied.expected();
    assert_eq!(expected.len(), 151 * 101);

    // The library's answer in one page.
    let question = format!(
        r#"{{"call":"tasks","shape":[304,309],"chunk_grid":{},"chunk_key_encoding":"default",
        "target":{{"shape":[500,320],"chunk_grid":{},"chunk_key_encoding":"v2"}},
        "subset":[[1,5],[301,301]],"at":[98,9],"items":15251}}"#,
        copied.source.chunk_grid(),
        copied.target.chunk_grid()
    );
    let line = written_items(&expected, false);
    assert!(line.len() > 8 << 18, "{} bytes are no pages", line.len());
    assert!(answer(&question).unwrap() == line);

    // What is left falls by one with each task, within pages and between them.
    let mut whole = tasks();
    for (number, expected) in expected.iter().enumerate() {
        let left = 151 * 101 - number;
        assert_eq!((whole.len(), whole.size_hint()), (left as u64, (1, Some(left))));
        assert_eq!(&written_task(&whole.next().unwrap().unwrap()), expected);
    }
    assert!(whole.next().is_none() && whole.next().is_none() && whole.is_empty());

    // Tasks that are left out, few and many at a time, and pages that begin anywhere.
    for step in [2, 3, 15, 16, 17, 1000, 4095, 4096, 4097, 15250, 15251] {
        let found: Vec<_> = tasks().step_by(step).map(|it| written_task(&it.unwrap())).collect();
        let right: Vec<_> = expected.iter().step_by(step).cloned().collect();
        assert!(found == right, "steps of {step}");
        let found = tasks().nth(step).map(|task| written_task(&task.unwrap()));
        assert_eq!(found.as_ref(), expected.get(step));
    }
    let (mut rest, mut number, mut numbers) = (tasks(), 0, Numbers::new(9));
    while number < expected.len() {
        let skipped = numbers.below(200) as usize;
        number += skipped;
        let found = rest.nth(skipped).map(|task| written_task(&task.unwrap()));
        assert_eq!(found.as_ref(), expected.get(number));
        number += 1;
        assert_eq!(rest.len(), expected.len().saturating_sub(number) as u64);
    }
    assert!(rest.next().is_none());

    // A copy goes on by itself.
    let mut rest = tasks();
    rest.nth(99);
    let copy = rest.clone();
    assert_eq!(written_task(&rest.next().unwrap().unwrap()), expected[100]);
    assert!(copy.map(|task| written_task(&task.unwrap())).eq(expected[100..].iter().cloned()));
    let shown = format!("{rest:?}");
    assert!(shown.contains("at: Some([98, 9])") && shown.contains("len: 15150"), "{shown}");
}

#[test]
fn small_and_large_tasks_stand_beside_each_other() {
    // Tasks that read one chunk, and tasks that read very many and have more text than a page.
    let edges: Vec<_> = [&[1; 600][..], &[20_000], &[1; 50], &[20_000, 7_000]].concat();
    let shape = [edges.iter().sum()];
    let target = Model::new("rectangular", &shape, vec![Axis::Listed(edges.clone())]);
    let (grid, written) = (grid_of(&regular(&shape, &[1])), grid_of(&target));
    let encoding = by("v2");
    let tasks = || grid.tasks(&encoding, &written, &encoding, TaskOptions::default()).unwrap();
    let (mut first, mut rest) = (0, tasks());
    for (number, edge) in edges.iter().enumerate() {
        let found = rest.next().unwrap().unwrap();
        assert_eq!((&found.buffer, found.targets.len()), (&vec![*edge], 1));
        assert_eq!(found.targets[0].key, number.to_string());
        let chunks: Vec<_> = found.sources.iter().map(|source| source.chunk[0]).collect();
        assert!(chunks.into_iter().eq(first..first + edge), "chunk {number}");
        first += edge;
    }
    assert!(rest.next().is_none());
    // From a task on that is behind a large one.
    assert_eq!(tasks().nth(651).unwrap().unwrap().sources.len(), 20_000);
}

#[test]
fn the_elements_of_some_chunks_are_the_tasks_of_these_chunks() {
    let (source, target) = (regular(&[9, 14], &[2, 3]), regular(&[9, 14], &[4, 5]));
    let (grid, written, encoding) = (grid_of(&source), grid_of(&target), by("default"));
    let of = |options: TaskOptions<'_>| {
        all(grid.tasks(&encoding, &written, &encoding, options).unwrap())
    };
    let whole = of(TaskOptions::default());
    let mut left_in_all = 0;
    for start in row_major(&[0, 0], &[3, 3]) {
        for shape in row_major(&[0, 0], &[4, 4]) {
            let chunks = boxed(&start, &shape);
            let lies = |chunk: &[u64]| {
                chunk.iter().zip(chunks.ranges()).all(|(number, range)| range.contains(number))
            };
            let right: Vec<_> = whole.iter().filter(|task| lies(&task.targets[0].chunk)).collect();
            let ranges = chunks.ranges().zip([(4, 9), (5, 14)]);
            let ranges = ranges.map(|(range, (edge, size))| {
                (range.start * edge).min(size)..(range.end * edge).min(size)
            });
            let elements = ArraySubset::new_with_ranges(&ranges.collect::<Vec<_>>()).unwrap();
            let at = Some(elements.start());
            let found = of(TaskOptions { subset: Some(&elements), at, ..Default::default() });
            assert!(found.iter().eq(right.iter().copied()), "{chunks:?}");
            left_in_all += found.len();
        }
    }
    // Along a dimension there are 3 chunks. This is how many of the 12 ranges a chunk lies in.
    let ranges = |chunk: usize| (0..=chunk).map(|start| 3 - (chunk - start)).sum::<usize>();
    let in_all: usize = (0..3).map(ranges).sum();
    assert_eq!(left_in_all, in_all * in_all);
}

#[test]
fn counts_of_very_many_chunks() {
    let size = 3_u64 << 40;
    let (source, target) = (regular(&[size; 2], &[3, 3]), regular(&[size; 2], &[2, size]));
    let (grid, written) = (grid_of(&source), grid_of(&target));
    let counts = grid.task_counts(&written, TaskOptions::default(), (0, 1)).unwrap();
    let (columns, elements) = (u128::from(size / 3), u128::from(size).pow(2));
    // Six rows of elements are three tasks, which read four rows of chunks.
    let (rows, read) = (u128::from(size / 2), 2 * u128::from(size / 3) * columns);
    let expected = [read, rows, 9 * read, elements, 2 * u128::from(size), rows].map(Some);
    assert_eq!(products(&counts), expected);
    // More chunks than there are numbers, and more than 128 bits.
    let ones = grid_of(&regular(&[1 << 43; 3], &[1; 3]));
    let counts = ones.task_counts(&ones, TaskOptions::default(), (1, 1 << 63)).unwrap();
    assert_eq!((counts.tasks(), counts.elements_decoded()), (None, None));
    assert_eq!((counts.first, counts.end, counts.share()), (None, None, None));
    let counts = ones.task_counts(&ones, TaskOptions::default(), (0, GREATEST)).unwrap();
    assert_eq!((counts.first, counts.end, counts.share()), (Some(0), None, None));
    let row = boxed(&[5, 7, 0], &[1, 1, 1 << 43]);
    let options = TaskOptions { subset: Some(&row), at: Some(row.start()), ..Default::default() };
    let counts = ones.task_counts(&ones, options, (3, 8)).unwrap();
    assert_eq!((counts.share(), counts.tasks()), (Some(3 << 40..4 << 40), Some(1 << 43)));
}

#[test]
fn more_chunks_are_walked_over_than_counted() {
    let (count, words) = (1_048_577, "more than 1048576 chunks along a dimension");
    let (ones, encoding) = (regular(&[count], &[1]), by("v2"));
    let halves = Model::new("rectilinear", &[count], vec![Axis::Listed(vec![count, 1])]);
    for (source, target) in [(&ones, &halves), (&halves, &ones)] {
        let (grid, written) = (grid_of(source), grid_of(target));
        let error = grid.task_counts(&written, TaskOptions::default(), (0, 1)).unwrap_err();
        let refused = Error::Refused { words: format!("{words}, so the tasks aren't counted") };
        assert_eq!(error, refused);
        let options = TaskOptions { task_chunks: Some(&[1 << 20]), ..Default::default() };
        let tasks = grid.tasks(&encoding, &written, &encoding, options).unwrap();
        assert_eq!(tasks.len(), if target.name == "regular" { 2 } else { 1 });
        let fewer = boxed(&[0], &[count - 1]);
        let options = TaskOptions { subset: Some(&fewer), ..Default::default() };
        let counts = grid.task_counts(&written, options, (0, 1)).unwrap();
        assert_eq!(counts.chunks_read().max(counts.chunks_written()), Some(1 << 20));
    }
}

#[test]
fn copies_at_the_greatest_numbers() {
    let (encoding, half) = (by("v2"), 1 << 63);
    let (grid, written) =
        (grid_of(&regular(&[GREATEST], &[GREATEST])), grid_of(&regular(&[GREATEST], &[half])));
    // All but the first element, to the front: the last chunk lacks one, and ends past all numbers.
    let subset = boxed(&[1], &[GREATEST - 1]);
    let options = TaskOptions { subset: Some(&subset), ..Default::default() };
    let found = all(grid.tasks(&encoding, &written, &encoding, options).unwrap()).remove(1);
    let (source, target) = (&found.sources[0], &found.targets[0]);
    assert_eq!(
        (&target.chunk[..], &target.shape[..], target.whole),
        (&[1][..], &[half][..], false)
    );
    assert_eq!(
        (&source.in_chunk, &source.in_buffer),
        (&boxed(&[half + 1], &[half - 2]), &target.in_chunk)
    );
    assert_eq!(
        (&target.in_chunk, &target.in_buffer),
        (&boxed(&[0], &[half - 2]), &target.in_chunk)
    );
    let counts = grid.task_counts(&written, options, (1, 2)).unwrap();
    assert_eq!((&counts.elements_moved, counts.share()), (&vec![GREATEST - 1], Some(1..2)));
    // Both tasks decode the only chunk.
    assert_eq!(counts.elements_decoded, [None]);

    // More tasks than there are numbers. A row has 18446744073709551615 chunks, so the last task
    // that has a number ends the first row.
    let ones = grid_of(&regular(&[GREATEST, GREATEST], &[1, 1]));
    let tasks = |options| ones.tasks(&encoding, &ones, &encoding, options).unwrap();
    let mut rest = tasks(TaskOptions::default());
    assert_eq!((rest.len(), rest.size_hint()), (GREATEST, (1, Some(usize::MAX))));
    assert_eq!(rest.next().unwrap().unwrap().targets[0].key, "0.0");
    let last = rest.nth(usize::MAX - 2).unwrap().unwrap();
    assert_eq!(
        (&last.targets[0].chunk, &last.sources[0].chunk),
        (&vec![0, GREATEST - 1], &last.targets[0].chunk)
    );
    assert!(rest.next().is_none() && rest.is_empty());
    // A region reaches the last of all.
    let end = boxed(&[GREATEST - 2, GREATEST - 1], &[2, 1]);
    let at = [GREATEST - 3, GREATEST - 1];
    let options = TaskOptions { subset: Some(&end), at: Some(&at), ..Default::default() };
    let found = all(tasks(options)).into_iter();
    let found: Vec<_> = found.map(|it| (it.targets[0].chunk[0], it.sources[0].chunk[0])).collect();
    assert_eq!(found, [(GREATEST - 3, GREATEST - 2), (GREATEST - 2, GREATEST - 1)]);
    // Groups of as many chunks as there are numbers.
    let options = TaskOptions { task_chunks: Some(&[GREATEST, GREATEST - 1]), ..options };
    assert_eq!(tasks(TaskOptions { subset: None, at: None, ..options }).len(), 2);
    assert_eq!(all(tasks(options)).len(), 1);
}

#[test]
fn arrays_without_dimensions_or_elements() {
    let (encoding, none) = (by("default"), grid_of(&regular(&[], &[])));
    let everything = boxed(&[], &[]);
    for options in [
        TaskOptions::default(),
        TaskOptions {
            subset: Some(&everything),
            at: Some(&[]),
            task_chunks: Some(&[]),
            order: TaskOrder::Source,
        },
    ] {
        let found = all(none.tasks(&encoding, &none, &encoding, options).unwrap());
        assert_eq!((found.len(), &found[0].sources[0].key[..]), (1, "c"));
        assert_eq!((&found[0].targets[0].key[..], found[0].targets[0].whole), ("c", true));
        let counts = none.task_counts(&none, options, (0, 1)).unwrap();
        assert_eq!((products(&counts), counts.share()), ([Some(1); 6], Some(0..1)));
    }
    let (grid, empty) =
        (Grid::new(&[5, 7], REGULAR).unwrap(), Grid::new(&[5, 0], REGULAR).unwrap());
    // An empty box may begin where both arrays end.
    let nothing = boxed(&[5, 0], &[0, 7]);
    let options = TaskOptions { subset: Some(&nothing), at: Some(&[5, 0]), ..Default::default() };
    for (grid, options) in [(&empty, TaskOptions::default()), (&grid, options)] {
        let mut tasks = grid.tasks(&encoding, grid, &encoding, options).unwrap();
        assert_eq!((tasks.len(), tasks.size_hint()), (0, (0, Some(0))));
        assert!(tasks.next().is_none() && tasks.nth(3).is_none());
        let counts = grid.task_counts(grid, options, (1, 2)).unwrap();
        assert_eq!((products(&counts), counts.share()), ([Some(0); 6], Some(0..0)));
    }
}

#[test]
fn refusals_come_at_the_call() {
    let (grid, encoding) = (Grid::new(&[5, 7], REGULAR).unwrap(), by("default"));
    let (larger, line) = (grid_of(&regular(&[9, 9], &[4, 4])), grid_of(&regular(&[9], &[4])));
    let boxes = [boxed(&[0; 3], &[1; 3]), boxed(&[0; 2], &[6, 1]), boxed(&[0; 2], &[5, 7])];
    let default = TaskOptions::default();
    let [of_three, too_long, whole] =
        [0, 1, 2].map(|it| TaskOptions { subset: Some(&boxes[it]), ..default });
    let cases = [
        (&larger, of_three, "the region: incompatible dimensionality 3, expected 2"),
        (&line, default, "the target's array: incompatible dimensionality 1, expected 2"),
        (
            &larger,
            TaskOptions { at: Some(&[0, 0, 0]), ..default },
            "the index to begin at: incompatible dimensionality 3, expected 2",
        ),
        (&larger, too_long, "the region has to end within the source's array"),
        (
            &larger,
            TaskOptions { at: Some(&[0, 3]), ..whole },
            "the region, moved to the index to begin at, has to end within the target's array",
        ),
        (
            &larger,
            TaskOptions { task_chunks: Some(&[1]), ..of_three },
            "the chunks a task: incompatible dimensionality 1, expected 2",
        ),
        (
            &larger,
            TaskOptions { task_chunks: Some(&[1, 0]), ..default },
            "wrong value in field `task_chunks`",
        ),
    ];
    for (target, options, words) in cases {
        let refused = Error::Refused { words: words.to_owned() };
        let tasks = grid.tasks(&encoding, target, &encoding, options);
        assert_eq!(tasks.unwrap_err(), refused);
        assert_eq!(grid.task_counts(target, options, (0, 1)).unwrap_err(), refused);
    }
    let refused = Error::Refused { words: "wrong value in field `share`".to_owned() };
    for share in [(1, 1), (0, 0), (GREATEST, 5), (GREATEST, GREATEST)] {
        assert_eq!(grid.task_counts(&larger, default, share).unwrap_err(), refused, "{share:?}");
    }
}

#[test]
fn texts_nest_as_deep_as_a_question_holds_them() {
    let (grid, encoding, options) =
        (Grid::new(&[5, 7], REGULAR).unwrap(), by("default"), TaskOptions::default());
    // In a member that says nothing. The target's texts stand one deeper than the others.
    let nested = |depth: usize| {
        let more = format!("{}{}", "[".repeat(depth - 1), "]".repeat(depth - 1));
        let text = REGULAR.strip_suffix('}').unwrap();
        let encoding = r#"{"name":"v2","configuration":{"separator":"."}"#;
        let grid = Grid::new(&[5, 7], &format!(r#"{text},"more":{more}}}"#)).unwrap();
        (grid, Encoding::new(&format!(r#"{encoding},"more":{more}}}"#)).unwrap())
    };
    let refused = Some(Error::Refused { words: "not JSON".to_owned() });
    let (fits, fits_in_target) = (nested(126), nested(125));
    let found = fits.0.tasks(&fits.1, &fits_in_target.0, &fits_in_target.1, options).unwrap();
    assert_eq!(all(found).len(), 9);
    let deep = nested(127);
    for (source, target) in [((&deep.0, &encoding), &grid), ((&grid, &deep.1), &grid)] {
        assert_eq!(source.0.tasks(source.1, target, &encoding, options).err(), refused);
    }
    assert_eq!(grid.tasks(&encoding, &fits.0, &encoding, options).err(), refused);
    assert_eq!(grid.tasks(&encoding, &grid, &fits.1, options).err(), refused);
}

#[test]
fn keys_hold_any_character() {
    let suffixes = [
        "\u{0}\u{1}\u{8}\t\n\u{b}\u{c}\r\u{1f} \u{7f}",
        "\"\\\"\\\\u0041",
        "/x/.y",
        "äß\u{7ff}\u{800}\u{ffff}\u{2028}",
        "😀\u{10000}\u{10ffff}x",
        "{\"from\":[],\"to\":null}",
    ];
    let grid = grid_of(&regular(&[3], &[2]));
    for suffix in suffixes {
        // Each unit of UTF-16 by its digits.
        let escaped: String = suffix.encode_utf16().map(|unit| format!("\\u{unit:04x}")).collect();
        let configuration = format!(r#"{{"suffix":"{escaped}"}}"#);
        let text = format!(r#"{{"name":"zarrs.default_suffix","configuration":{configuration}}}"#);
        let encoding = Encoding::new(&text).unwrap();
        let found = all(grid.tasks(&encoding, &grid, &encoding, TaskOptions::default()).unwrap());
        for (number, task) in found.iter().enumerate() {
            let key = format!("c/{number}{suffix}");
            assert_eq!((&task.sources[0].key, &task.targets[0].key), (&key, &key));
        }
        let key = &found[1].targets[0].key;
        assert_eq!(&grid.locate(&encoding, &[2]).unwrap().unwrap().key, key);
        // The reader of the tests reads the same.
        let question =
            format!(r#"{{"call":"encode","chunk_key_encoding":{text},"of":{}}}"#, json(&[1]));
        assert_eq!(&Json(&answer(&question).unwrap()).text(), key);
    }
}

#[test]
fn texts_of_several_lines_are_asked() {
    let text = "\n {\"name\" : \"regular\",\r\n\t\"configuration\":\n{\"chunk_shape\":[2]} }\n ";
    let (grid, encoding) = (Grid::new(&[5], text).unwrap(), Encoding::new("\n\t\"v2\" ").unwrap());
    let found = all(grid.tasks(&encoding, &grid, &encoding, TaskOptions::default()).unwrap());
    assert_eq!(found.iter().map(|it| &it.targets[0].key[..]).collect::<Vec<_>>(), ["0", "1", "2"]);
}
