//! What grids answer, by plain arithmetic with 128 bits, and the texts that tell them.
#![allow(dead_code)]

pub mod json;
pub mod vectors;

use std::ops::Range;

pub use json::written as json;
use zarrs_chunks::Grid;

pub const GREATEST: u64 = u64::MAX;

/// The chunks along a dimension of an array.
#[derive(Debug, Clone)]
pub enum Axis {
    /// All chunks have this edge, without end.
    Fixed(u64),
    /// The same, and the last one ends where the array does.
    Bounded(u64),
    /// One chunk for each edge.
    Listed(Vec<u64>),
}

/// A grid: its name, the array's sizes, and the chunks along each dimension.
#[derive(Debug, Clone)]
pub struct Model {
    pub name: &'static str,
    pub shape: Vec<u64>,
    pub axes: Vec<Axis>,
}

/// Parts of a box, each as the chunk, where the part begins in it and in the box, and its shape.
pub type Parts = Vec<[Vec<u64>; 4]>;

impl Axis {
    pub fn edges(&self) -> String {
        match self {
            Axis::Fixed(edge) | Axis::Bounded(edge) => edge.to_string(),
            Axis::Listed(edges) => json(edges),
        }
    }

    pub fn count(&self, size: u64) -> u64 {
        match self {
            Axis::Fixed(edge) | Axis::Bounded(edge) => {
                (u128::from(size) + u128::from(*edge) - 1).wrapping_div(u128::from(*edge)) as u64
            }
            Axis::Listed(edges) => edges.len() as u64,
        }
    }

    pub fn chunk(&self, size: u64, index: u64) -> Option<u64> {
        match self {
            Axis::Fixed(edge) => Some(index / edge),
            Axis::Bounded(edge) => (index < size).then(|| index / edge),
            Axis::Listed(edges) => {
                let holds = |chunk: &usize| {
                    let before: u128 = edges[..*chunk].iter().map(|edge| u128::from(*edge)).sum();
                    u128::from(index) < before + u128::from(edges[*chunk])
                };
                (0..edges.len()).find(holds).map(|chunk| chunk as u64)
            }
        }
    }

    /// The elements of a chunk, or `None` where there is no such chunk.
    pub fn elements(&self, size: u64, chunk: u64) -> Option<Range<u128>> {
        match self {
            Axis::Fixed(edge) => {
                let start = u128::from(chunk) * u128::from(*edge);
                Some(start..start + u128::from(*edge))
            }
            Axis::Bounded(edge) => {
                let start = u128::from(chunk) * u128::from(*edge);
                let end = (start + u128::from(*edge)).min(u128::from(size));
                (start < u128::from(size)).then_some(start..end)
            }
            Axis::Listed(edges) => {
                let chunk = usize::try_from(chunk).ok().filter(|chunk| *chunk < edges.len())?;
                let start = edges[..chunk].iter().map(|edge| u128::from(*edge)).sum();
                Some(start..start + u128::from(edges[chunk]))
            }
        }
    }
}

impl Model {
    pub fn new(name: &'static str, shape: &[u64], axes: Vec<Axis>) -> Model {
        assert_eq!(shape.len(), axes.len());
        Model { name, shape: shape.to_vec(), axes }
    }

    pub fn dimensionality(&self) -> usize {
        self.shape.len()
    }

    /// The text of the member `chunk_grid`.
    pub fn chunk_grid(&self) -> String {
        let edges: Vec<_> = self.axes.iter().map(Axis::edges).collect();
        let (name, edges) = (self.name, edges.join(","));
        let members = match name {
            "rectilinear" => format!(r#""kind":"inline","chunk_shapes":[{edges}]"#),
            _ => format!(r#""chunk_shape":[{edges}]"#),
        };
        format!(r#"{{"name":"{name}","configuration":{{{members}}}}}"#)
    }

    pub fn grid_shape(&self) -> Vec<u64> {
        self.sized().map(|(axis, size)| axis.count(size)).collect()
    }

    fn sized(&self) -> impl Iterator<Item = (&Axis, u64)> {
        self.axes.iter().zip(self.shape.iter().copied())
    }

    pub fn chunk_indices(&self, indices: &[u64]) -> Option<Vec<u64>> {
        self.sized().zip(indices).map(|((axis, size), index)| axis.chunk(size, *index)).collect()
    }

    /// The chunk of an element, and its place there.
    pub fn home(&self, indices: &[u64]) -> Option<(Vec<u64>, Vec<u64>)> {
        let chunk = self.chunk_indices(indices)?;
        let of_all = self.sized().zip(&chunk).zip(indices);
        let place = of_all.map(|(((axis, size), chunk), index)| {
            let start = axis.elements(size, *chunk).unwrap().start;
            u64::try_from(u128::from(*index) - start).unwrap()
        });
        let place = place.collect();
        Some((chunk, place))
    }

    /// The origin and the shape of a chunk.
    pub fn subset(&self, chunk: &[u64]) -> Option<(Vec<u64>, Vec<u64>)> {
        let ranges = self.sized().zip(chunk).map(|((axis, size), chunk)| {
            let elements = axis.elements(size, *chunk)?;
            let end = u64::try_from(elements.end).ok()?;
            let start = elements.start as u64;
            Some((start, end - start))
        });
        ranges.collect::<Option<Vec<_>>>().map(|ranges| ranges.into_iter().unzip())
    }

    /// The elements of a chunk along each dimension, which may lie past the greatest number.
    fn elements(&self, chunk: &[u64]) -> Option<Vec<Range<u128>>> {
        self.sized().zip(chunk).map(|((axis, size), chunk)| axis.elements(size, *chunk)).collect()
    }

    pub fn chunk_shape(&self, chunk: &[u64]) -> Option<Vec<u64>> {
        let sizes = self.elements(chunk)?.into_iter().map(|range| range.end - range.start);
        sizes.map(|size| u64::try_from(size).ok()).collect()
    }

    pub fn chunk_origin(&self, chunk: &[u64]) -> Option<Vec<u64>> {
        let starts = self.elements(chunk)?.into_iter().map(|range| u64::try_from(range.start));
        starts.map(Result::ok).collect()
    }

    pub fn has_chunk(&self, chunk: &[u64]) -> bool {
        let is_in = |(count, number): (u64, &u64)| *number < count || count == 0;
        self.grid_shape().into_iter().zip(chunk).all(is_in)
    }

    pub fn has_element(&self, index: &[u64]) -> bool {
        let is_in = |((axis, size), number): ((&Axis, u64), &u64)| match (axis, size) {
            (Axis::Listed(_), 0) => axis.chunk(0, *number).is_some(),
            (_, size) => *number < size || size == 0,
        };
        self.sized().zip(index).all(is_in)
    }

    /// The first chunk of the cover of a box, and how many chunks it has; of an empty box that it
    /// has none, by an empty list.
    pub fn cover(&self, start: &[u64], shape: &[u64]) -> Option<(Vec<u64>, Vec<u64>)> {
        if shape.contains(&0) {
            return Some((Vec::new(), Vec::new()));
        }
        let last: Vec<_> = start.iter().zip(shape).map(|(start, size)| start + size - 1).collect();
        let (first, last) = (self.chunk_indices(start)?, self.chunk_indices(&last)?);
        let counts = first.iter().zip(&last).map(|(first, last)| last - first + 1).collect();
        Some((first, counts))
    }

    /// All chunks that are counted, in row-major order.
    pub fn chunks(&self) -> Vec<Vec<u64>> {
        row_major(&vec![0; self.dimensionality()], &self.grid_shape())
    }

    /// The parts of a box.
    pub fn parts(&self, start: &[u64], shape: &[u64]) -> Option<Parts> {
        let (first, counts) = self.cover(start, shape)?;
        if shape.contains(&0) {
            return Some(Vec::new());
        }
        let part = |chunk: Vec<u64>| {
            let mut lists = [(); 3].map(|()| Vec::new());
            for (axis, ((of_axis, size), chunk)) in self.sized().zip(&chunk).enumerate() {
                let elements = of_axis.elements(size, *chunk).unwrap();
                let from = u128::from(start[axis]);
                let begin = elements.start.max(from);
                let end = elements.end.min(from + u128::from(shape[axis]));
                lists[0].push((begin - elements.start) as u64);
                lists[1].push((begin - from) as u64);
                lists[2].push((end - begin) as u64);
            }
            let [in_chunk, in_selection, shape] = lists;
            [chunk, in_chunk, in_selection, shape]
        };
        Some(row_major(&first, &counts).into_iter().map(part).collect())
    }

    /// The elements of the array that a chunk holds along each dimension, and how many it has with
    /// those past the array; `None` where it holds none.
    pub fn held(&self, chunk: &[u64]) -> Option<Vec<(Range<u128>, u128)>> {
        let along = self.sized().zip(chunk).map(|((axis, size), chunk)| {
            let elements = axis.elements(size, *chunk)?;
            let end = elements.end.min(u128::from(size));
            let edge = elements.end - elements.start;
            (elements.start < end).then_some((elements.start..end, edge))
        });
        along.collect()
    }
}

pub fn grid_of(model: &Model) -> Grid {
    Grid::new(&model.shape, &model.chunk_grid()).unwrap()
}

pub fn regular(shape: &[u64], edges: &[u64]) -> Model {
    Model::new("regular", shape, edges.iter().map(|edge| Axis::Fixed(*edge)).collect())
}

/// All lists of a box of numbers, in row-major order.
pub fn row_major(first: &[u64], counts: &[u64]) -> Vec<Vec<u64>> {
    let mut lists = vec![Vec::new()];
    for (first, count) in first.iter().zip(counts) {
        let longer = |list: &Vec<u64>| {
            let list = list.clone();
            (*first..first + count).map(move |number| [&list[..], &[number]].concat())
        };
        lists = lists.iter().flat_map(longer).collect();
    }
    lists
}

/// A key of the encoding `default`.
pub fn default_key(chunk: &[u64]) -> String {
    chunk.iter().fold("c".to_owned(), |key, number| format!("{key}/{number}"))
}

/// Numbers that look like any, and are the same each time.
pub struct Numbers(u64);

impl Numbers {
    pub fn new(seed: u64) -> Numbers {
        Numbers(seed)
    }

    /// A number below this one.
    pub fn below(&mut self, end: u64) -> u64 {
        self.0 = self.0.wrapping_add(0x9E37_79B9_7F4A_7C15);
        let mut mixed = self.0;
        mixed = (mixed ^ (mixed >> 30)).wrapping_mul(0xBF58_476D_1CE4_E5B9);
        mixed = (mixed ^ (mixed >> 27)).wrapping_mul(0x94D0_49BB_1331_11EB);
        (mixed ^ (mixed >> 31)) % end
    }
}

/// Grids of each kind, of which all chunks can be gone through.
pub fn small_models() -> Vec<Model> {
    use Axis::{Bounded, Fixed, Listed};
    vec![
        Model::new("regular", &[5, 7, 52], vec![Fixed(1), Fixed(2), Fixed(3)]),
        Model::new("regular", &[100], vec![Fixed(7)]),
        Model::new("regular", &[5, 0], vec![Fixed(2), Fixed(3)]),
        Model::new("regular", &[], vec![]),
        Model::new("zarrs.regular_bounded", &[5, 7], vec![Bounded(2), Bounded(3)]),
        Model::new("zarrs.regular_bounded", &[64, 1, 9], vec![Bounded(5), Bounded(4), Bounded(9)]),
        Model::new("zarrs.regular_bounded", &[5, 0], vec![Bounded(2), Bounded(3)]),
        Model::new("zarrs.regular_bounded", &[], vec![]),
        Model::new("rectangular", &[30, 10], vec![Listed(vec![5, 5, 15, 5]), Fixed(4)]),
        Model::new("rectangular", &[6, 6], vec![Listed(vec![1, 2, 3]), Listed(vec![3, 2, 1])]),
        Model::new("rectangular", &[], vec![]),
        Model::new("rectilinear", &[20, 12], vec![Listed(vec![5, 5, 15, 2, 2]), Fixed(5)]),
        Model::new("rectilinear", &[9], vec![Listed(vec![4, 4, 4, 1, 7])]),
        Model::new("rectilinear", &[], vec![]),
    ]
}

/// Grids at the greatest numbers.
pub fn great_models() -> Vec<Model> {
    use Axis::{Bounded, Fixed, Listed};
    let half = 1 << 63;
    vec![
        Model::new("regular", &[GREATEST, 7], vec![Fixed(half), Fixed(1)]),
        Model::new("regular", &[GREATEST], vec![Fixed(1)]),
        Model::new("regular", &[3], vec![Fixed(GREATEST)]),
        Model::new("zarrs.regular_bounded", &[GREATEST, GREATEST], vec![Bounded(2), Bounded(half)]),
        Model::new("rectangular", &[GREATEST], vec![Listed(vec![GREATEST - 1, 1])]),
        Model::new("rectilinear", &[GREATEST], vec![Listed(vec![half - 1, half - 1, 1])]),
        Model::new("rectilinear", &[half, 5], vec![Listed(vec![half, half - 1]), Fixed(half)]),
    ]
}

/// A grid of 300 dimensions.
pub fn wide_model() -> Model {
    let axes = (0..300).map(|axis| Axis::Bounded(1 + axis % 11)).collect();
    let shape: Vec<_> = (0..300).map(|axis| 1 + axis % 37).collect();
    Model::new("zarrs.regular_bounded", &shape, axes)
}
