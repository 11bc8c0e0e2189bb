//! Plans of reads: beside plain arithmetic, and page by page.

mod common;

use common::{default_key, grid_of, small_models, wide_model, Axis, Model, Numbers, GREATEST};
use zarrs_chunks::{ArraySubset, Encoding, Grid, Part, Parts};

fn by_default() -> Encoding {
    Encoding::new("\"default\"").unwrap()
}

fn subset_of((start, shape): &(Vec<u64>, Vec<u64>)) -> ArraySubset {
    ArraySubset::new_with_start_shape(start.clone(), shape.clone()).unwrap()
}

/// A part of arithmetic as the crate gives it, but for the key.
fn lists(part: &Part) -> [Vec<u64>; 4] {
    let lists = [&part.chunk, &part.in_chunk, &part.in_selection, &part.shape];
    lists.map(Clone::clone)
}

fn all(parts: Parts<'_>) -> Vec<Part> {
    parts.collect::<Result<_, _>>().unwrap()
}

#[test]
fn plans_are_those_of_arithmetic() {
    let (encoding, mut numbers) = (by_default(), Numbers::new(2));
    let (mut parts_in_all, mut plans, mut without) = (0, 0, 0);
    let mut models = small_models();
    models.push(wide_model());
    for model in models {
        let grid = grid_of(&model);
        for _ in 0..60 {
            let start: Vec<_> = model.shape.iter().map(|size| numbers.below(size + 1)).collect();
            let is_empty = numbers.below(8) == 0;
            let shape = start.iter().zip(&model.shape).enumerate().map(|(axis, (start, size))| {
                let room = size.saturating_sub(*start) + numbers.below(2);
                // A long box of many dimensions would have very many parts.
                let most = if axis < 6 { room.min(40) } else { 1 };
                match most {
                    0 => 1 - numbers.below(2),
                    _ if is_empty => numbers.below(most + 1),
                    _ => most - numbers.below(most),
                }
            });
            let shape: Vec<_> = shape.collect();
            let subset = subset_of(&(start.clone(), shape.clone()));
            let expected = model.parts(&start, &shape);
            let found = grid.parts(&encoding, &subset).unwrap();
            assert_eq!(found.is_some(), expected.is_some(), "{model:?} {subset:?}");
            let (found, expected) = match (found, expected) {
                (Some(found), Some(expected)) => (found, expected),
                _ => {
                    without += 1;
                    continue;
                }
            };
            assert_eq!(found.len(), expected.len() as u64);
            let found = all(found);
            for part in &found {
                assert_eq!(part.key, default_key(&part.chunk));
            }
            assert_eq!(found.iter().map(lists).collect::<Vec<_>>(), expected);
            plans += 1;
            parts_in_all += expected.len();
        }
    }
    println!("{plans} plans of {parts_in_all} parts, and {without} boxes without one");
    assert!(plans > 400 && parts_in_all > 2000 && without > 100);
}

#[test]
fn a_plan_without_dimensions_has_one_part() {
    let (model, encoding) = (Model::new("rectilinear", &[], vec![]), by_default());
    let (grid, subset) = (grid_of(&model), ArraySubset::new_with_ranges(&[]).unwrap());
    let parts = all(grid.parts(&encoding, &subset).unwrap().unwrap());
    assert_eq!(parts.len(), 1);
    assert_eq!((&parts[0].key[..], lists(&parts[0])), ("c", [(); 4].map(|()| vec![])));
}

#[test]
fn an_empty_box_has_a_plan_without_parts() {
    let (grid, encoding) = (grid_of(&small_models()[0]), by_default());
    let subset = ArraySubset::new_with_ranges(&[9..9, 0..3, 99..100]).unwrap();
    let mut parts = grid.parts(&encoding, &subset).unwrap().unwrap();
    assert_eq!((parts.len(), parts.is_empty(), parts.size_hint()), (0, true, (0, Some(0))));
    assert!(parts.next().is_none() && parts.nth(5).is_none());
}

/// A grid with more parts than the first pages have room for, and the box of all of it.
fn many() -> (Model, (Vec<u64>, Vec<u64>)) {
    let axes = vec![Axis::Bounded(2), Axis::Bounded(3)];
    let model = Model::new("zarrs.regular_bounded", &[301, 301], axes);
    (model, (vec![1, 1], vec![299, 300]))
}

#[test]
fn pages_of_a_plan_are_the_whole_plan() {
    let (model, asked) = many();
    let (grid, encoding, subset) = (grid_of(&model), by_default(), subset_of(&asked));
    let expected = model.parts(&asked.0, &asked.1).unwrap();
    assert_eq!(expected.len(), 150 * 101);
    let plan = || grid.parts(&encoding, &subset).unwrap().unwrap();

    // What is left falls by one with each part, within pages and between them.
    let mut parts = plan();
    for (number, expected) in expected.iter().enumerate() {
        let left = 150 * 101 - number;
        assert_eq!((parts.len(), parts.size_hint()), (left as u64, (1, Some(left))));
        let part = parts.next().unwrap().unwrap();
        assert_eq!((&lists(&part), part.key), (expected, default_key(&expected[0])));
    }
    assert!(parts.next().is_none() && parts.next().is_none());

    // Parts that are left out, few and many at a time, and pages that begin anywhere.
    for step in [2, 3, 15, 16, 17, 1000, 4095, 4096, 4097, 15149, 15150] {
        let found: Vec<_> = plan().step_by(step).map(|part| lists(&part.unwrap())).collect();
        let expected: Vec<_> = expected.iter().step_by(step).cloned().collect();
        assert_eq!(found, expected, "steps of {step}");
        let found = plan().nth(step).map(|part| lists(&part.unwrap()));
        assert_eq!(found.as_ref(), expected_at(&model, &asked, step).as_ref());
    }
    let mut numbers = Numbers::new(9);
    let (mut parts, mut number) = (plan(), 0);
    while number < expected.len() {
        let skipped = numbers.below(200) as usize;
        number += skipped;
        let found = parts.nth(skipped).map(|part| lists(&part.unwrap()));
        assert_eq!(found.as_ref(), expected.get(number));
        number += 1;
    }
    assert_eq!(parts.len(), 0);
    assert!(parts.next().is_none());

    // A copy goes on by itself.
    let mut parts = plan();
    parts.nth(99);
    let copy = parts.clone();
    assert_eq!(lists(&parts.next().unwrap().unwrap()), expected[100]);
    assert_eq!(copy.map(|part| lists(&part.unwrap())).collect::<Vec<_>>(), expected[100..]);
    assert!(format!("{parts:?}").contains("len: 15049"));
}

fn expected_at(
    model: &Model,
    asked: &(Vec<u64>, Vec<u64>),
    number: usize,
) -> Option<[Vec<u64>; 4]> {
    model.parts(&asked.0, &asked.1).unwrap().get(number).cloned()
}

#[test]
fn keys_that_are_long_have_room() {
    let suffix = "y".repeat(3000);
    let configuration = format!(r#"{{"separator":"/","suffix":".{suffix}"}}"#);
    let text = format!(r#"{{"name":"zarrs.default_suffix","configuration":{configuration}}}"#);
    let encoding = Encoding::new(&text).unwrap();
    let model = Model::new("regular", &[100], vec![Axis::Fixed(1)]);
    let (grid, subset) = (grid_of(&model), subset_of(&(vec![0], vec![100])));
    let parts = all(grid.parts(&encoding, &subset).unwrap().unwrap());
    let keys: Vec<_> = parts.into_iter().map(|part| part.key).collect();
    let expected: Vec<_> = (0..100).map(|chunk| format!("c/{chunk}.{suffix}")).collect();
    assert_eq!(keys, expected);
    assert_eq!(
        encoding.encode_all(100, &(0..100).collect::<Vec<_>>()).unwrap().text(),
        expected.concat()
    );
}

#[test]
fn plans_longer_than_numbers_are_told_so() {
    let axes = vec![Axis::Fixed(1), Axis::Fixed(1)];
    let model = Model::new("regular", &[GREATEST, GREATEST], axes);
    let (grid, encoding) = (grid_of(&model), by_default());
    let subset = ArraySubset::new_with_ranges(&[0..GREATEST, 0..GREATEST]).unwrap();
    let mut parts = grid.parts(&encoding, &subset).unwrap().unwrap();
    assert_eq!((parts.len(), parts.size_hint()), (GREATEST, (1, Some(usize::MAX))));
    // Each row has 18446744073709551615 chunks, so the last one that has a number ends the first.
    let last = parts.nth(usize::MAX - 1).unwrap().unwrap();
    assert_eq!(last.chunk, [0, GREATEST - 1]);
    assert_eq!(last.key, "c/0/18446744073709551614");
    assert!(parts.next().is_none() && parts.is_empty());
}

#[test]
fn a_text_of_several_lines_is_planned() {
    let text = "\n {\"name\" : \"regular\",\r\n\t\"configuration\":\n{\"chunk_shape\":[2]} }\n ";
    let (grid, encoding) = (Grid::new(&[5], text).unwrap(), by_default());
    let subset = subset_of(&(vec![1], vec![3]));
    assert_eq!(all(grid.parts(&encoding, &subset).unwrap().unwrap()).len(), 2);
}
