//! What a resize makes of chunks: beside plain arithmetic.

mod common;

use std::collections::BTreeSet;

use common::{grid_of, regular, row_major, small_models, Axis, Model, Numbers, GREATEST};
use zarrs_chunks::{ChangedChunks, Error, Grid};

type Chunks = BTreeSet<Vec<u64>>;

/// The chunks that are kept, rewritten, deleted and created, by three lists of numbers.
fn chunks_of(changed: &ChangedChunks) -> [Chunks; 4] {
    let ChangedChunks { before, after, kept, .. } = changed;
    let is_below = |chunk: &[u64], numbers: &[u64]| {
        chunk.len() == numbers.len() && chunk.iter().zip(numbers).all(|(n, size)| n < size)
    };
    let most: Vec<_> = before.iter().zip(after).map(|(n, m)| *n.max(m)).collect();
    let mut chunks = [(); 4].map(|()| Chunks::new());
    for chunk in row_major(&vec![0; most.len()], &most) {
        let list = match (is_below(&chunk, before), is_below(&chunk, after)) {
            (true, true) if is_below(&chunk, kept) => 0,
            (true, true) => 1,
            (true, false) => 2,
            (false, true) => 3,
            (false, false) => continue,
        };
        chunks[list].insert(chunk);
    }
    chunks
}

/// The chunks that are kept, written again, deleted and new, by what each holds before and after.
fn expected_of(before: &Model, after: &Model) -> [Chunks; 4] {
    let counts = before.grid_shape().into_iter().zip(after.grid_shape());
    let counts: Vec<_> = counts.map(|(before, after)| before.max(after)).collect();
    let mut expected = [(); 4].map(|()| Chunks::new());
    for chunk in row_major(&vec![0; counts.len()], &counts) {
        let list = match (before.held(&chunk), after.held(&chunk)) {
            (Some(was), Some(now)) if was == now => 0,
            (Some(_), Some(_)) => 1,
            (Some(_), None) => 2,
            (None, Some(_)) => 3,
            (None, None) => continue,
        };
        expected[list].insert(chunk);
    }
    expected
}

#[test]
fn changes_are_those_of_arithmetic() {
    let (mut numbers, mut resizes, mut chunks) = (Numbers::new(3), 0, [0; 4]);
    for before in small_models() {
        let grid = grid_of(&before);
        for _ in 0..20 {
            let sizes = before.axes.iter().zip(&before.shape).map(|(axis, size)| match axis {
                Axis::Listed(_) if before.name == "rectangular" => *size,
                Axis::Listed(edges) => numbers.below(edges.iter().sum::<u64>() + 1),
                _ => numbers.below(2 * size + 3),
            });
            let after = Model::new(before.name, &sizes.collect::<Vec<_>>(), before.axes.clone());
            let changed = grid.changed_chunks(&after.shape).unwrap();
            let found = chunks_of(&changed);
            assert_eq!(found, expected_of(&before, &after), "{before:?} {:?}", after.shape);
            chunks.iter_mut().zip(&found).for_each(|(count, found)| *count += found.len());
            resizes += 1;
        }
    }
    println!("{resizes} resizes, {chunks:?} chunks kept, written again, deleted and new");
    assert!(resizes == 280 && chunks.iter().all(|count| *count > 200));
}

#[test]
fn an_array_that_stays_keeps_its_chunks() {
    for model in small_models() {
        let (grid, shape) = (grid_of(&model), &model.shape);
        let changed = grid.changed_chunks(shape).unwrap();
        assert_eq!(chunks_of(&changed), expected_of(&model, &model));
        assert_eq!((&changed.before, &changed.after), (&changed.kept, &changed.kept));
    }
}

#[test]
fn changes_at_the_greatest_numbers() {
    let grid = grid_of(&regular(&[GREATEST, 1], &[1, 2]));
    let changed = grid.changed_chunks(&[GREATEST - 1, 1]).unwrap();
    assert_eq!((changed.before, changed.after), (vec![GREATEST, 1], vec![GREATEST - 1, 1]));
    assert_eq!(changed.kept, [GREATEST - 1, 1]);
    let changed = grid.changed_chunks(&[GREATEST, 2]).unwrap();
    assert_eq!((changed.before, changed.after), (vec![GREATEST, 1], vec![GREATEST, 1]));
    assert_eq!(changed.kept, [0, 0]);
}

#[test]
fn shapes_that_make_no_grid_are_refused() {
    let listed = r#"{"name":"rectangular","configuration":{"chunk_shape":[[2,3],4]}}"#;
    let grid = Grid::new(&[5, 7], listed).unwrap();
    assert_eq!(grid.changed_chunks(&[5, 9]).unwrap().kept, [2, 1]);
    for resize in [&[6, 7][..], &[5], &[5, 7, 1], &[]] {
        match grid.changed_chunks(resize).unwrap_err() {
            Error::Refused { words } => assert!(words.starts_with("field `resize`: "), "{words}"),
            error => panic!("{error}"),
        }
    }
}
