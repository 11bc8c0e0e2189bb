//! `rust SHAPE SOURCE TARGET`, each a list of numbers with commas: the lines of a rechunking from one regular grid to another, keys by `default`, as
//! `chunkplan` writes them. Each line is made of lists, as a library that answers by lists does.
use std::io::{self, BufWriter, Write};

struct Chunk {
    chunk: Vec<u64>,
    key: String,
    shape: Vec<u64>,
}

struct Piece {
    chunk: Chunk,
    in_chunk: Vec<u64>,
    in_buffer: Vec<u64>,
    shape: Vec<u64>,
}

fn numbers(text: &str) -> Vec<u64> {
    text.split(',').map(|number| number.parse().unwrap()).collect()
}

fn key(chunk: &[u64]) -> String {
    let mut key = String::from("c");
    for number in chunk {
        key.push('/');
        key.push_str(&number.to_string());
    }
    key
}

/// The lists in a box, in row-major order.
fn within(first: &[u64], last: &[u64]) -> Vec<Vec<u64>> {
    let mut lists = vec![vec![]];
    for (first, last) in first.iter().zip(last) {
        lists = lists
            .into_iter()
            .flat_map(|list: Vec<u64>| {
                (*first..=*last).map(move |number| {
                    let mut list = list.clone();
                    list.push(number);
                    list
                })
            })
            .collect();
    }
    lists
}

fn list(numbers: &[u64]) -> String {
    let numbers: Vec<String> = numbers.iter().map(u64::to_string).collect();
    format!("[{}]", numbers.join(","))
}

fn piece(piece: &Piece, whole: &str) -> String {
    format!(
        "{{\"chunk\":{},\"in_buffer\":[{},{}],\"in_chunk\":[{},{}],\"key\":\"{}\",\"shape\":{}{whole}}}",
        list(&piece.chunk.chunk),
        list(&piece.in_buffer),
        list(&piece.shape),
        list(&piece.in_chunk),
        list(&piece.shape),
        piece.chunk.key,
        list(&piece.chunk.shape)
    )
}

fn chunk_of(chunk: &[u64], edges: &[u64]) -> Chunk {
    Chunk {
        chunk: chunk.to_vec(),
        key: key(chunk),
        shape: edges.to_vec(),
    }
}

/// Where an element lies in a chunk.
fn place_of(chunk: &Chunk, element: &[u64]) -> Vec<u64> {
    let origin = chunk.chunk.iter().zip(&chunk.shape).map(|(chunk, edge)| chunk * edge);
    element.iter().zip(origin).map(|(element, origin)| element - origin).collect()
}

fn main() -> io::Result<()> {
    let given: Vec<Vec<u64>> = std::env::args().skip(1).map(|text| numbers(&text)).collect();
    let [shape, edges, target] = &given[..] else { panic!("three lists are needed") };
    let mut out = BufWriter::new(io::stdout().lock());
    let zeros = vec![0; shape.len()];
    let last: Vec<u64> = shape.iter().zip(target).map(|(size, edge)| (size - 1) / edge).collect();
    let of: u64 = last.iter().map(|last| last + 1).product();
    for (number, to) in within(&zeros, &last).into_iter().enumerate() {
        let start: Vec<u64> = to.iter().zip(target).map(|(chunk, edge)| chunk * edge).collect();
        let ends: Vec<u64> = start.iter().zip(target).zip(shape).map(|((start, edge), size)| (start + edge).min(*size)).collect();
        let first: Vec<u64> = start.iter().zip(edges).map(|(start, edge)| start / edge).collect();
        let last: Vec<u64> = ends.iter().zip(edges).map(|(end, edge)| (end - 1) / edge).collect();
        let written = chunk_of(&to, target);
        let mut sources = Vec::new();
        for from in within(&first, &last) {
            let low: Vec<u64> = from.iter().zip(edges).zip(&start).map(|((chunk, edge), start)| (chunk * edge).max(*start)).collect();
            let high = from.iter().zip(edges).zip(&ends).map(|((chunk, edge), end)| ((chunk + 1) * edge).min(*end));
            let sizes: Vec<u64> = high.zip(&low).map(|(high, low)| high - low).collect();
            let read = chunk_of(&from, edges);
            let (in_chunk, in_buffer) = (place_of(&read, &low), place_of(&written, &low));
            let from = Piece {
                chunk: read,
                in_chunk,
                in_buffer,
                shape: sizes,
            };
            sources.push(piece(&from, ""));
        }
        let buffer: Vec<u64> = ends.iter().zip(&start).map(|(end, start)| end - start).collect();
        let to = Piece {
            chunk: written,
            in_chunk: zeros.clone(),
            in_buffer: zeros.clone(),
            shape: buffer.clone(),
        };
        writeln!(
            out,
            "{{\"buffer\":{},\"from\":[{}],\"number\":{number},\"of\":{of},\"to\":[{}]}}",
            list(&buffer),
            sources.join(","),
            piece(&to, ",\"whole\":true")
        )?;
    }
    out.flush()
}
