//! Walks over the chunks of grids: beside plain arithmetic, and page by page.

mod common;

use common::{great_models, grid_of, small_models, wide_model, Axis, Model, GREATEST};
use zarrs_chunks::{ArraySubset, Grid};

fn subset_of((start, shape): &(Vec<u64>, Vec<u64>)) -> ArraySubset {
    ArraySubset::new_with_start_shape(start.clone(), shape.clone()).unwrap()
}

#[test]
fn walks_go_over_all_chunks() {
    let mut walked = 0;
    for model in small_models() {
        let (grid, chunks) = (grid_of(&model), model.chunks());
        let found: Vec<_> = grid.iter_chunk_indices().map(Result::unwrap).collect();
        assert_eq!(found, chunks, "{model:?}");
        let boxes: Vec<_> =
            chunks.iter().map(|chunk| subset_of(&model.subset(chunk).unwrap())).collect();
        let found: Vec<_> = grid.iter_chunk_subsets().map(Result::unwrap).collect();
        assert_eq!(found, boxes, "{model:?}");
        let both: Vec<_> = chunks.into_iter().zip(boxes).collect();
        let found: Vec<_> = grid.iter_chunk_indices_and_subsets().map(Result::unwrap).collect();
        assert_eq!(found, both, "{model:?}");
        walked += both.len();
    }
    assert!(walked > 400, "{walked} chunks");
}

#[test]
fn pages_of_a_walk_are_the_whole_walk() {
    let axes = vec![Axis::Bounded(2), Axis::Bounded(3)];
    let model = Model::new("zarrs.regular_bounded", &[301, 301], axes);
    let (grid, chunks) = (grid_of(&model), model.chunks());
    assert_eq!(chunks.len(), 151 * 101);
    let mut walk = grid.iter_chunk_indices();
    for (number, expected) in chunks.iter().enumerate() {
        let left = 151 * 101 - number;
        assert_eq!((walk.len(), walk.size_hint()), (left as u64, (1, Some(left))));
        assert_eq!(&walk.next().unwrap().unwrap(), expected);
    }
    assert!(walk.next().is_none() && walk.next().is_none());
    for step in [2, 16, 17, 1000, 4096, 4097, 15250, 15251] {
        let found: Vec<_> = grid.iter_chunk_indices().step_by(step).map(Result::unwrap).collect();
        assert_eq!(found, chunks.iter().step_by(step).cloned().collect::<Vec<_>>());
    }
    let boxes: Vec<_> =
        chunks.iter().map(|chunk| subset_of(&model.subset(chunk).unwrap())).collect();
    let mut walk = grid.iter_chunk_subsets();
    assert_eq!(walk.size_hint(), (0, Some(15251)));
    let found: Vec<_> = walk.by_ref().map(Result::unwrap).collect();
    assert!(found == boxes && walk.next().is_none());
    let found: Vec<_> = grid.iter_chunk_indices_and_subsets().map(Result::unwrap).collect();
    assert!(found.into_iter().eq(chunks.into_iter().zip(boxes)));
}

#[test]
fn walks_at_the_greatest_numbers_begin_and_end() {
    for model in great_models().into_iter().chain([wide_model()]) {
        let (grid, shape) = (grid_of(&model), model.grid_shape());
        let first: Vec<_> = grid.iter_chunk_indices().take(20).map(Result::unwrap).collect();
        // The last dimension goes on the fastest: the number of each chunk in the digits of the
        // grid's shape.
        let digits = |mut number: u64| {
            let mut digits: Vec<_> = shape
                .iter()
                .rev()
                .map(|size| {
                    let digit = number % size;
                    number /= size;
                    digit
                })
                .collect();
            digits.reverse();
            digits
        };
        let sizes = shape.iter().map(|size| u128::from(*size));
        let count = sizes.fold(1, u128::saturating_mul);
        let expected: Vec<_> =
            (0..20).filter(|number| u128::from(*number) < count).map(digits).collect();
        assert_eq!(first, expected, "{model:?}");
        assert_eq!(u128::from(grid.iter_chunk_indices().len()), count.min(u128::from(GREATEST)));
        // Chunks without a box are passed over.
        let boxes: Vec<_> = expected.iter().filter_map(|chunk| model.subset(chunk)).collect();
        let found = grid.iter_chunk_subsets().take(boxes.len()).map(Result::unwrap);
        let boxes: Vec<_> = boxes.iter().map(subset_of).collect();
        assert_eq!(found.collect::<Vec<_>>(), boxes, "{model:?}");
    }
    // The second half has no box, and the walk ends behind it.
    let model = Model::new("regular", &[GREATEST, 50], vec![Axis::Fixed(1 << 63), Axis::Fixed(1)]);
    let found: Vec<_> =
        grid_of(&model).iter_chunk_indices_and_subsets().map(Result::unwrap).collect();
    let expected: Vec<_> = (0..50)
        .map(|chunk| (vec![0, chunk], subset_of(&(vec![0, chunk], vec![1 << 63, 1]))))
        .collect();
    assert_eq!(found, expected);
}

#[test]
fn walks_longer_than_numbers_are_told_so() {
    let axes = vec![Axis::Fixed(1), Axis::Fixed(1)];
    let grid = grid_of(&Model::new("regular", &[GREATEST, GREATEST], axes));
    let mut chunks = grid.iter_chunk_indices();
    assert_eq!((chunks.len(), chunks.size_hint()), (GREATEST, (1, Some(usize::MAX))));
    assert_eq!(chunks.next().unwrap().unwrap(), [0, 0]);
    assert_eq!(chunks.nth(usize::MAX - 2).unwrap().unwrap(), [0, GREATEST - 1]);
    assert!(chunks.next().is_none() && chunks.is_empty());
}

#[test]
fn a_text_of_several_lines_is_walked_over() {
    let text = "\n {\"name\" : \"regular\",\r\n\t\"configuration\":\n{\"chunk_shape\":[2]} }\n ";
    let grid = Grid::new(&[5], text).unwrap();
    let found: Vec<_> = grid.iter_chunk_indices().map(Result::unwrap).collect();
    assert_eq!(found, [[0], [1], [2]]);
}
