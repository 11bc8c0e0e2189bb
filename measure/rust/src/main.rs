//! What `chunkwhere` answers, as a Rust program answers it with `serde_json` and `itoa`: the tree of the whole text, for each index
//! list its chunk, its place and its key, and the text of all lines written at once. The input is given back before the text is formed.
//! It knows the grids and the encoding of the measured documents, and stops at any other.
use serde_json::Value;
use std::io::{Read, Write};

/// The edges of one dimension: one for all chunks, or where each chunk starts and the last one ends.
enum Edges {
    Equal(u64),
    Listed(Vec<u64>),
}

impl Edges {
    /// The chunk that holds an index, and the index's place in it.
    fn home(&self, index: u64) -> Option<(u64, u64)> {
        match self {
            Edges::Equal(edge) => Some((index / edge, index % edge)),
            Edges::Listed(starts) => {
                let after = starts.partition_point(|start| *start <= index);
                if after == starts.len() {
                    return None;
                }
                let chunk = after - 1;
                Some((chunk as u64, index - starts[chunk]))
            }
        }
    }
}

/// Where each of the chunks of these edges starts, and where the last one ends.
fn starts(edges: impl Iterator<Item = u64>) -> Edges {
    let mut starts = vec![0];
    let mut end = 0;
    for edge in edges {
        end += edge;
        starts.push(end);
    }
    Edges::Listed(starts)
}

/// An edge and how often it comes, or an edge that comes once.
fn run(element: &Value) -> std::iter::RepeatN<u64> {
    match element.as_array() {
        Some(pair) => std::iter::repeat_n(number(&pair[0]), number(&pair[1]) as usize),
        None => std::iter::repeat_n(number(element), 1),
    }
}

fn number(tree: &Value) -> u64 {
    tree.as_u64().expect("a whole number")
}

/// The edges of each dimension that a grid's metadata says.
fn edges(grid: &Value) -> Vec<Edges> {
    let configuration = &grid["configuration"];
    let lists = |name: &str| configuration[name].as_array().expect("a list").iter();
    match grid["name"].as_str() {
        Some("regular") => lists("chunk_shape").map(|edge| Edges::Equal(number(edge))).collect(),
        Some("rectangular") => lists("chunk_shape")
            .map(|dimension| match dimension.as_array() {
                Some(edges) => starts(edges.iter().map(number)),
                None => Edges::Equal(number(dimension)),
            })
            .collect(),
        Some("rectilinear") => lists("chunk_shapes")
            .map(|dimension| match dimension.as_array() {
                Some(elements) => starts(elements.iter().flat_map(run)),
                None => Edges::Equal(number(dimension)),
            })
            .collect(),
        name => panic!("not a measured grid: {name:?}"),
    }
}

/// The chunk that holds an element, and the element's place in it.
fn home(edges: &[Edges], index: &[u64]) -> Option<(Vec<u64>, Vec<u64>)> {
    edges.iter().zip(index).map(|(edges, index)| edges.home(*index)).collect()
}

/// The key of a chunk.
fn encode(chunk: &[u64]) -> String {
    let mut key = String::from("c");
    let mut buffer = itoa::Buffer::new();
    for number in chunk {
        key.push('/');
        key.push_str(buffer.format(*number));
    }
    key
}

fn main() -> std::io::Result<()> {
    let mut input = Vec::new();
    std::io::stdin().read_to_end(&mut input)?;
    let document: Value = serde_json::from_slice(&input)?;
    drop(input);
    let edges = edges(&document["chunk_grid"]);
    assert_eq!(document["chunk_key_encoding"], "default");
    let mut text = String::new();
    let mut buffer = itoa::Buffer::new();
    for list in document["indices"].as_array().expect("a list of indices") {
        let index: Vec<u64> = list.as_array().expect("an index list").iter().map(number).collect();
        assert_eq!(index.len(), edges.len());
        match home(&edges, &index) {
            Some((chunk, place)) => {
                text.push_str(&encode(&chunk));
                for element in &place {
                    text.push(' ');
                    text.push_str(buffer.format(*element));
                }
            }
            None => text.push('-'),
        }
        text.push('\n');
    }
    std::io::stdout().write_all(text.as_bytes())
}
