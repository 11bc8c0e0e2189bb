//! The chunks and the keys of some elements of an array of 5 x 7 x 52 elements, in chunks of
//! 1 x 2 x 3, and the plan of reading a box of it. It prints:
//!
//! ```text
//! 5 x 4 x 18 chunks
//! [3, 5, 50] lies in the chunk [3, 2, 16] at the place [0, 1, 2], key c/3/2/16
//! two at once: c/3/2/16 c/0/0/0
//! c/3/2/16: [1, 1, 3] elements from [0, 1, 0] on, which go to [0, 0, 0]
//! c/3/2/17: [1, 1, 1] elements from [0, 1, 0] on, which go to [0, 0, 3]
//! c/1/1/1 is the key of the chunk [1, 1, 1], which begins at [1, 2, 3]
//! refused: name `hexagonal` is not supported
//! ```

use std::error::Error;

use zarrs_chunks::{ArraySubset, Encoding, Grid};

fn main() -> Result<(), Box<dyn Error>> {
    let shape = [5, 7, 52];
    let grid = Grid::new(&shape, r#"{"name":"regular","configuration":{"chunk_shape":[1,2,3]}}"#)?;
    let encoding = Encoding::new(r#"{"name":"default","configuration":{"separator":"/"}}"#)?;
    let counts: Vec<_> = grid.grid_shape().iter().map(u64::to_string).collect();
    println!("{} chunks", counts.join(" x "));

    let index = [3, 5, 50];
    if let Some(home) = grid.find_home(&index)? {
        let (chunk, place, key) = (&home.chunk, &home.place, encoding.encode(&home.chunk)?);
        println!("{index:?} lies in the chunk {chunk:?} at the place {place:?}, key {key}");
    }

    let (mut chunks, mut found) = ([0; 6], [false; 2]);
    grid.chunk_indices_of(&[3, 5, 50, 0, 0, 0], &mut chunks, &mut found)?;
    let keys = encoding.encode_all(found.len(), &chunks)?;
    println!("two at once: {}", keys.iter().collect::<Vec<_>>().join(" "));

    let subset = ArraySubset::new_with_start_shape(vec![3, 5, 48], vec![1, 1, 4])?;
    for part in grid.parts(&encoding, &subset)?.into_iter().flatten() {
        let part = part?;
        println!(
            "{}: {:?} elements from {:?} on, which go to {:?}",
            part.key, part.shape, part.in_chunk, part.in_selection
        );
    }

    let key = "c/1/1/1";
    if let Some(chunk) = encoding.decode(key, grid.dimensionality())? {
        if let Some(elements) = grid.subset(&chunk)? {
            let start = elements.start();
            println!("{key} is the key of the chunk {chunk:?}, which begins at {start:?}");
        }
    }

    if let Err(error) = Grid::new(&shape, r#""hexagonal""#) {
        println!("refused: {error}");
    }
    Ok(())
}
