//! `rust KIND SHAPE EDGES CALL COUNT` answers what `main.rt.txt` is asked, by lists, as a library does: the yardstick of `calls.py`.
//!
//! KIND is `regular`, `bounded` or `listed`, SHAPE is the array's sizes, `1000,700,5200`. EDGES is a dimension's edges after another,
//! parted by a semicolon: one edge for all chunks, `10`, or a list, `[3,5,2]`.
use std::env;
use std::hint::black_box;
use std::process::exit;

/// A call was asked of a list with another number of dimensions.
#[derive(Debug)]
struct Lengths;

type Looked<T> = Result<Option<T>, Lengths>;

/// A box: its start and its shape.
type Subset = (Vec<u64>, Vec<u64>);

trait Grid {
    fn grid_shape(&self) -> &[u64];
    fn chunk_indices(&self, indices: &[u64]) -> Looked<Vec<u64>>;
    fn chunk_origin(&self, chunk: &[u64]) -> Looked<Vec<u64>>;
    fn chunk_shape(&self, chunk: &[u64]) -> Looked<Vec<u64>>;

    fn chunk_element_indices(&self, indices: &[u64]) -> Looked<Vec<u64>> {
        let Some(chunk) = self.chunk_indices(indices)? else {
            return Ok(None);
        };
        let origin = self.chunk_origin(&chunk)?;
        Ok(origin.map(|origin| indices.iter().zip(&origin).map(|(index, start)| index - start).collect()))
    }

    fn subset(&self, chunk: &[u64]) -> Looked<Subset> {
        let Some(start) = self.chunk_origin(chunk)? else {
            return Ok(None);
        };
        Ok(self.chunk_shape(chunk)?.map(|shape| (start, shape)))
    }

    fn cover(&self, elements: &Subset) -> Looked<Subset> {
        let last: Vec<u64> = elements.0.iter().zip(&elements.1).map(|(start, size)| start + size - 1).collect();
        let Some(first) = self.chunk_indices(&elements.0)? else {
            return Ok(None);
        };
        let last = self.chunk_indices(&last)?;
        Ok(last.map(|last| {
            let shape = first.iter().zip(&last).map(|(first, last)| last - first + 1).collect();
            (first, shape)
        }))
    }
}

/// One edge for all chunks of a dimension; they end with the array, if they are bounded.
struct Equal {
    shape: Vec<u64>,
    edges: Vec<u64>,
    grid_shape: Vec<u64>,
    bounded: bool,
}

impl Grid for Equal {
    fn grid_shape(&self) -> &[u64] {
        &self.grid_shape
    }

    fn chunk_indices(&self, indices: &[u64]) -> Looked<Vec<u64>> {
        if indices.len() != self.shape.len() {
            return Err(Lengths);
        }
        if self.bounded && indices.iter().zip(&self.shape).any(|(index, size)| index >= size) {
            return Ok(None);
        }
        Ok(Some(indices.iter().zip(&self.edges).map(|(index, edge)| index / edge).collect()))
    }

    fn chunk_origin(&self, chunk: &[u64]) -> Looked<Vec<u64>> {
        if chunk.len() != self.shape.len() {
            return Err(Lengths);
        }
        Ok(chunk.iter().zip(&self.edges).map(|(number, edge)| number.checked_mul(*edge)).collect())
    }

    fn chunk_shape(&self, chunk: &[u64]) -> Looked<Vec<u64>> {
        if chunk.len() != self.shape.len() {
            return Err(Lengths);
        }
        if !self.bounded {
            return Ok(Some(self.edges.clone()));
        }
        let each = chunk.iter().zip(&self.edges).zip(&self.shape);
        Ok(each.map(|((number, edge), size)| Some(*edge.min(&size.checked_sub(number * edge)?))).collect())
    }
}

/// A dimension of one edge, or of listed ones with where each of their chunks starts.
enum Dimension {
    Equal(u64),
    Listed { edges: Vec<u64>, starts: Vec<u64> },
}

impl Dimension {
    fn chunk_of(&self, index: u64) -> Option<u64> {
        match self {
            Dimension::Equal(edge) => Some(index / edge),
            Dimension::Listed { edges, starts } => {
                let chunk = starts.partition_point(|start| *start <= index).checked_sub(1)?;
                (index - starts[chunk] < edges[chunk]).then_some(chunk as u64)
            }
        }
    }

    fn origin_of(&self, chunk: u64) -> Option<u64> {
        match self {
            Dimension::Equal(edge) => chunk.checked_mul(*edge),
            Dimension::Listed { starts, .. } => starts.get(chunk as usize).copied(),
        }
    }

    fn edge_of(&self, chunk: u64) -> Option<u64> {
        match self {
            Dimension::Equal(edge) => Some(*edge),
            Dimension::Listed { edges, .. } => edges.get(chunk as usize).copied(),
        }
    }
}

struct Listed {
    dimensions: Vec<Dimension>,
    grid_shape: Vec<u64>,
}

impl Listed {
    fn look_up(&self, numbers: &[u64], look_up: impl Fn(&Dimension, u64) -> Option<u64>) -> Looked<Vec<u64>> {
        if numbers.len() != self.dimensions.len() {
            return Err(Lengths);
        }
        Ok(self.dimensions.iter().zip(numbers).map(|(dimension, number)| look_up(dimension, *number)).collect())
    }
}

impl Grid for Listed {
    fn grid_shape(&self) -> &[u64] {
        &self.grid_shape
    }

    fn chunk_indices(&self, indices: &[u64]) -> Looked<Vec<u64>> {
        self.look_up(indices, Dimension::chunk_of)
    }

    fn chunk_origin(&self, chunk: &[u64]) -> Looked<Vec<u64>> {
        self.look_up(chunk, Dimension::origin_of)
    }

    fn chunk_shape(&self, chunk: &[u64]) -> Looked<Vec<u64>> {
        self.look_up(chunk, Dimension::edge_of)
    }
}

/// The key of a chunk in the encoding `default` with the separator `/`.
fn encode(chunk: &[u64]) -> String {
    let mut key = String::from("c");
    for number in chunk {
        key.push('/');
        key.push_str(&number.to_string());
    }
    key
}

/// The chunk of so many numbers of which a text is the key in this encoding.
fn decode(key: &str, dimensionality: usize) -> Option<Vec<u64>> {
    let numbers = key.strip_prefix('c')?;
    if numbers.is_empty() {
        return (dimensionality == 0).then(Vec::new);
    }
    let chunk: Vec<u64> = numbers.strip_prefix('/')?.split('/').map(number_of).collect::<Option<_>>()?;
    (chunk.len() == dimensionality).then_some(chunk)
}

/// A number has no sign and no leading zero.
fn number_of(text: &str) -> Option<u64> {
    let digits = text.bytes().all(|byte| byte.is_ascii_digit());
    let leading_zero = text.len() > 1 && text.starts_with('0');
    if digits && !leading_zero { text.parse().ok() } else { None }
}

fn spread(at: &mut [u64], shape: &[u64], k: u64) {
    let mut x = k.wrapping_add(1).wrapping_mul(0x9E37_79B9_7F4A_7C15);
    for (index, size) in at.iter_mut().zip(shape) {
        *index = (x >> 32).wrapping_mul(*size) >> 32;
        x = x.wrapping_mul(0xD134_2543_DE82_EF95).wrapping_add(1);
    }
}

fn add(sum: &mut u64, list: &[u64]) {
    for number in list {
        *sum = sum.wrapping_mul(31).wrapping_add(*number);
    }
}

/// Goes on to the next chunk in row-major order.
fn next(chunk: &mut [u64], shape: &[u64]) {
    for (number, size) in chunk.iter_mut().zip(shape).rev() {
        *number += 1;
        if *number < *size {
            break;
        }
        *number = 0;
    }
}

/// Asks one call so many times, and answers the sum of what it answered.
fn ask(grid: &dyn Grid, shape: &[u64], call: &str, count: u64) -> Option<u64> {
    let mut sum = 0;
    let mut at = shape.to_vec();
    match call {
        "chunk_indices" => {
            for k in 0..count {
                spread(&mut at, shape, k);
                add(&mut sum, &grid.chunk_indices(&at).ok()??);
            }
        }
        "chunk_element_indices" => {
            for k in 0..count {
                spread(&mut at, shape, k);
                add(&mut sum, &grid.chunk_element_indices(&at).ok()??);
            }
        }
        "chunk_origin" => {
            for k in 0..count {
                spread(&mut at, grid.grid_shape(), k);
                add(&mut sum, &grid.chunk_origin(&at).ok()??);
            }
        }
        "subset" => {
            for k in 0..count {
                spread(&mut at, grid.grid_shape(), k);
                let (start, shape) = grid.subset(&at).ok()??;
                add(&mut sum, &start);
                add(&mut sum, &shape);
            }
        }
        "cover" => {
            for k in 0..count {
                spread(&mut at, shape, k);
                let sizes = at.iter().zip(shape).map(|(index, size)| (size - index).min(100)).collect();
                let (start, shape) = grid.cover(&(at.clone(), sizes)).ok()??;
                add(&mut sum, &start);
                add(&mut sum, &shape);
            }
        }
        "encode" => {
            for k in 0..count {
                spread(&mut at, grid.grid_shape(), k);
                add(&mut sum, &[encode(&at).len() as u64]);
            }
        }
        "locate" => {
            for k in 0..count {
                spread(&mut at, shape, k);
                let chunk = grid.chunk_indices(&at).ok()??;
                let element = grid.chunk_element_indices(&at).ok()??;
                add(&mut sum, &chunk);
                add(&mut sum, &[encode(&chunk).len() as u64]);
                add(&mut sum, &element);
            }
        }
        "decode" => {
            let mut keys = Vec::new();
            for k in 0..100 {
                spread(&mut at, grid.grid_shape(), k);
                keys.push(encode(&at));
            }
            for k in 0..count {
                add(&mut sum, &decode(&keys[(k % 100) as usize], shape.len())?);
            }
        }
        "parts" => {
            let mut chunk = vec![0; shape.len()];
            for _ in 0..count {
                // The box begins at 1 in each dimension, and ends where the array does.
                let origin = grid.chunk_origin(&chunk).ok()??;
                let edges = grid.chunk_shape(&chunk).ok()??;
                let first: Vec<u64> = origin.iter().map(|start| (*start).max(1)).collect();
                let ends = origin.iter().zip(&edges).zip(shape).map(|((start, edge), size)| (start + edge).min(*size));
                let sizes: Vec<u64> = ends.zip(&first).map(|(end, first)| end - first).collect();
                let in_chunk: Vec<u64> = first.iter().zip(&origin).map(|(first, start)| first - start).collect();
                let in_selection: Vec<u64> = first.iter().map(|first| first - 1).collect();
                let part = (chunk.clone(), encode(&chunk), (in_chunk, sizes.clone()), (in_selection, sizes));
                add(&mut sum, &part.0);
                add(&mut sum, &[part.1.len() as u64]);
                add(&mut sum, &part.2.0);
                add(&mut sum, &part.2.1);
                add(&mut sum, &part.3.0);
                next(&mut chunk, grid.grid_shape());
            }
        }
        "walk" => {
            let mut chunk = vec![0; shape.len()];
            for _ in 0..count {
                add(&mut sum, &chunk.clone());
                next(&mut chunk, grid.grid_shape());
            }
        }
        _ => return None,
    }
    Some(sum)
}

fn numbers(text: &str) -> Vec<u64> {
    text.split(',').map(|word| word.parse().expect("a number")).collect()
}

fn make(kind: &str, shape: &[u64], edges: &str) -> Box<dyn Grid> {
    if kind == "listed" {
        let dimensions: Vec<Dimension> = edges.split(';').map(dimension).collect();
        let counted = dimensions.iter().zip(shape).map(|(dimension, size)| match dimension {
            Dimension::Equal(edge) => size.div_ceil(*edge),
            Dimension::Listed { edges, .. } => edges.len() as u64,
        });
        return Box::new(Listed { grid_shape: counted.collect(), dimensions });
    }
    let edges = numbers(&edges.replace(';', ","));
    let grid_shape = shape.iter().zip(&edges).map(|(size, edge)| size.div_ceil(*edge)).collect();
    Box::new(Equal { shape: shape.to_vec(), edges, grid_shape, bounded: kind == "bounded" })
}

fn dimension(text: &str) -> Dimension {
    let Some(list) = text.strip_prefix('[') else {
        return Dimension::Equal(text.parse().expect("an edge"));
    };
    let edges = numbers(list.trim_end_matches(']'));
    let starts = edges.iter().scan(0, |end, edge| {
        let start = *end;
        *end += edge;
        Some(start)
    });
    Dimension::Listed { starts: starts.collect(), edges }
}

fn main() {
    let words: Vec<String> = env::args().skip(1).collect();
    let [kind, shape, edges, call, count] = words.as_slice() else {
        eprintln!("usage: rust KIND SHAPE EDGES CALL COUNT");
        exit(2);
    };
    let shape = numbers(shape);
    // The compiler isn't told which grid it is, as it isn't where a document tells it.
    let grid = black_box(make(kind, &shape, edges));
    match ask(&*grid, &shape, call, count.parse().expect("a count")) {
        Some(sum) => println!("{sum}"),
        None => println!("no such call, or no answer"),
    }
}
