//! Each call without each of its allocations in turn, those of the crate and those of the library:
//! too little memory is an error, and neither a panic nor the end of the process.
//!
//! Both take memory by `malloc` and `realloc` of the C library, which are defined here anew, over
//! the names that glibc has for its own.
#![cfg(target_env = "gnu")]
#![deny(unsafe_op_in_unsafe_fn)]

use std::cell::Cell;
use std::ffi::c_void;
use std::ptr;

use zarrs_chunks::{answer, ArraySubset, Encoding, Error, Grid, TaskOptions, TaskOrder};

extern "C" {
    fn __libc_malloc(size: usize) -> *mut c_void;
    fn __libc_realloc(place: *mut c_void, size: usize) -> *mut c_void;
}

thread_local! {
    /// How many allocations of this thread still succeed; `None` where all do.
    static LEFT: Cell<Option<usize>> = const { Cell::new(None) };
    /// Whether one has failed.
    static HAS_FAILED: Cell<bool> = const { Cell::new(false) };
}

fn fails() -> bool {
    LEFT.with(|left| match left.get() {
        Some(0) => {
            left.set(None);
            HAS_FAILED.with(|has_failed| has_failed.set(true));
            true
        }
        Some(number) => {
            left.set(Some(number - 1));
            false
        }
        None => false,
    })
}

/// # Safety
///
/// That of C.
#[no_mangle]
unsafe extern "C" fn malloc(size: usize) -> *mut c_void {
    if fails() {
        return ptr::null_mut();
    }
    // SAFETY: it is glibc's own `malloc`, which takes any size.
    unsafe { __libc_malloc(size) }
}

/// # Safety
///
/// That of C: the place is null, or one of `malloc` or `realloc` that wasn't given back.
#[no_mangle]
unsafe extern "C" fn realloc(place: *mut c_void, size: usize) -> *mut c_void {
    if fails() {
        return ptr::null_mut();
    }
    // SAFETY: it is glibc's own `realloc`, and the place is one of its `malloc` or `realloc`.
    unsafe { __libc_realloc(place, size) }
}

/// Makes a call without its first allocation, then without its second, until it needs no more.
/// Tells what it answers then.
fn without_each<T>(call: impl Fn() -> Result<T, Error>) -> Result<T, Error> {
    for number in 0.. {
        HAS_FAILED.with(|has_failed| has_failed.set(false));
        LEFT.with(|left| left.set(Some(number)));
        let answered = call();
        LEFT.with(|left| left.set(None));
        if !HAS_FAILED.with(Cell::get) {
            assert!(number > 0, "nothing was allocated");
            return answered;
        }
        assert_eq!(answered.err(), Some(Error::OutOfMemory), "without allocation {number}");
    }
    unreachable!()
}

const REGULAR: &str = r#"{"name":"regular","configuration":{"chunk_shape":[2,3]}}"#;
const REGULAR_WRITTEN: &str = r#"{"configuration":{"chunk_shape":[2,3]},"name":"regular"}"#;
const LISTED: &str = r#"{"name":"rectilinear","configuration":{"kind":"inline",
    "chunk_shapes":[[1,2,3,4,5,6,7,8,9],[3,2,1,4,3,2,1,4]]}}"#;

#[test]
fn grids_and_encodings_are_made_or_not() {
    assert_eq!(without_each(|| Grid::new(&[5, 7], REGULAR)).unwrap().grid_shape(), [3, 3]);
    assert_eq!(without_each(|| Grid::new(&[45, 20], LISTED)).unwrap().grid_shape(), [9, 8]);
    let refused = without_each(|| Grid::new(&[5], r#""hexagonal""#)).unwrap_err();
    assert_eq!(refused.to_string(), "name `hexagonal` is not supported");
    let refused = without_each(|| Encoding::new("v2")).unwrap_err();
    assert_eq!(refused.to_string(), "the metadata is not JSON");
    let suffix = r#"{"name":"zarrs.default_suffix","configuration":{"suffix":".tiff"}}"#;
    assert!(without_each(|| Encoding::new(suffix)).is_ok());
    let ranges = [3..5, 0..7];
    assert!(without_each(|| ArraySubset::new_with_ranges(&ranges)).is_ok());
}

#[test]
fn a_grid_answers_or_not() {
    let grid = Grid::new(&[5, 7], REGULAR).unwrap();
    let subset = ArraySubset::new_with_ranges(&[1..5, 2..7]).unwrap();
    assert_eq!(without_each(|| grid.chunk_indices(&[4, 5])), Ok(Some(vec![2, 1])));
    assert_eq!(without_each(|| grid.chunk_element_indices(&[4, 5])), Ok(Some(vec![0, 2])));
    assert_eq!(without_each(|| grid.find_home(&[4, 5])).unwrap().unwrap().chunk, [2, 1]);
    let elements = without_each(|| grid.subset(&[2, 1])).unwrap().unwrap();
    assert_eq!((elements.start(), elements.shape()), (&[4, 3][..], &[2, 3][..]));
    let cover = without_each(|| grid.chunks_in_array_subset(&subset)).unwrap().unwrap();
    assert_eq!((cover.start(), cover.shape()), (&[0, 0][..], &[3, 3][..]));
    let batch = || {
        let (mut a, mut b, mut found) = ([0; 2], [0; 2], [false]);
        grid.chunk_indices_of(&[4, 5], &mut a, &mut found)?;
        grid.homes_of(&[4, 5], &mut a, &mut b, &mut found)?;
        grid.chunk_boxes_of(&[2, 1], &mut a, &mut b, &mut found)?;
        grid.covers_of(&[0, 0], &[1, 1], &mut a, &mut b, &mut found)?;
        Ok((a, b, found))
    };
    assert_eq!(without_each(batch), Ok(([0, 0], [1, 1], [true])));
}

#[test]
fn questions_of_grids_are_answered_or_not() {
    let grid = Grid::new(&[5, 7], REGULAR).unwrap();
    assert_eq!(without_each(|| grid.chunk_shape(&[2, 1])), Ok(Some(vec![2, 3])));
    assert_eq!(without_each(|| grid.chunk_shape(&[1 << 63, 1])), Ok(Some(vec![2, 3])));
    assert_eq!(without_each(|| grid.chunk_origin(&[2, 1])), Ok(Some(vec![4, 3])));
    assert_eq!(without_each(|| grid.chunk_origin(&[1 << 63, 1])), Ok(None));
    let chunks = ArraySubset::new_with_ranges(&[1..3, 0..2]).unwrap();
    let elements = without_each(|| grid.chunks_subset(&chunks)).unwrap().unwrap();
    assert_eq!((elements.start(), elements.shape()), (&[2, 0][..], &[4, 6][..]));
    assert_eq!(without_each(|| grid.chunk_indices_inbounds(&[2, 2])), Ok(true));
    assert_eq!(without_each(|| grid.array_indices_inbounds(&[5, 2])), Ok(false));
    let suffix = r#"{"name":"zarrs.default_suffix","configuration":{"suffix":"\n\u0000"}}"#;
    let encoding = Encoding::new(suffix).unwrap();
    let located = without_each(|| grid.locate(&encoding, &[4, 5])).unwrap().unwrap();
    assert_eq!((located.place, &located.key[..]), (vec![0, 2], "c/2/1\n\0"));
    let refused = Err(Error::Refused { words: "there is no call `runs`".to_owned() });
    assert_eq!(without_each(|| grid.runs(0)), refused);
    assert_eq!(without_each(|| grid.written_metadata()).as_deref(), Ok(REGULAR_WRITTEN));
    let changed = without_each(|| grid.changed_chunks(&[6, 5])).unwrap();
    assert_eq!(changed, grid.changed_chunks(&[6, 5]).unwrap());
    let grid = Grid::new(&[45, 20], LISTED).unwrap();
    assert_eq!(without_each(|| grid.runs(0)), Ok(Some(9)));
    let counted = without_each(|| grid.chunk_indices_counted(&[44, 19])).unwrap();
    assert_eq!(counted.chunk, Some(vec![8, 7]));
}

#[test]
fn keys_are_answered_or_not() {
    let encoding = Encoding::new(r#""default""#).unwrap();
    assert_eq!(without_each(|| encoding.encode(&[10, 2])).as_deref(), Ok("c/10/2"));
    let long = [u64::MAX; 6];
    let keys = without_each(|| encoding.encode_all(2, &long)).unwrap();
    assert_eq!(keys.get(1), Some(&["c", "", "", ""].join("/18446744073709551615")[..]));
    assert_eq!(without_each(|| encoding.decode("c/10/2", 2)), Ok(Some(vec![10, 2])));
    let text = || {
        let (mut chunks, mut found) = ([0; 2], [false]);
        encoding.decode_text(b"c/10/2", &[0, 6], 2, &mut chunks, &mut found)?;
        Ok((chunks, found))
    };
    assert_eq!(without_each(text), Ok(([10, 2], [true])));
}

#[test]
fn walks_and_plans_are_gone_through_or_not() {
    let grid = Grid::new(&[5, 90], REGULAR).unwrap();
    let encoding = Encoding::new(r#""default""#).unwrap();
    let subset = ArraySubset::new_with_ranges(&[1..5, 2..89]).unwrap();
    // An item that is an error is the last one.
    fn count<T>(mut items: impl Iterator<Item = Result<T, Error>>) -> Result<usize, Error> {
        let mut count = 0;
        while let Some(item) = items.next() {
            if let Err(error) = item {
                assert!(items.next().is_none());
                assert_eq!(items.size_hint(), (0, Some(0)));
                return Err(error);
            }
            count += 1;
        }
        Ok(count)
    }
    let plan = || match grid.parts(&encoding, &subset)? {
        Some(parts) => count(parts),
        None => Ok(0),
    };
    assert_eq!(without_each(plan), Ok(3 * 30));
    assert_eq!(without_each(|| count(grid.iter_chunk_indices())), Ok(3 * 30));
    assert_eq!(without_each(|| count(grid.iter_chunk_subsets())), Ok(3 * 30));
    assert_eq!(without_each(|| count(grid.iter_chunk_indices_and_subsets())), Ok(3 * 30));
    let by_fours = r#"{"name":"regular","configuration":{"chunk_shape":[4,4]}}"#;
    let (grid, target) = (Grid::new(&[5, 37], REGULAR), Grid::new(&[5, 37], by_fours));
    let (grid, target) = (grid.unwrap(), target.unwrap());
    let tasks = |options| grid.tasks(&encoding, &target, &encoding, options);
    assert_eq!(without_each(|| count(tasks(TaskOptions::default())?)), Ok(2 * 10));
    let rest = || {
        let mut tasks = tasks(TaskOptions::default())?;
        tasks.nth(2).transpose()?;
        count(tasks)
    };
    assert_eq!(without_each(rest), Ok(2 * 10 - 3));
    let subset = ArraySubset::new_with_ranges(&[0..4, 1..36]).unwrap();
    let options = TaskOptions { subset: Some(&subset), at: Some(&[1, 0]), ..Default::default() };
    assert_eq!(without_each(|| count(tasks(options)?)), Ok(2 * 9));
    let counts = without_each(|| grid.task_counts(&target, options, (0, 3))).unwrap();
    assert_eq!((counts.tasks(), counts.share()), (Some(2 * 9), Some(0..6)));
    let options = TaskOptions { task_chunks: Some(&[2, 1]), order: TaskOrder::Source, ..options };
    assert_eq!(without_each(|| count(tasks(options)?)), Ok(12));
    let counts = without_each(|| grid.task_counts(&target, options, (0, 1))).unwrap();
    assert_eq!((counts.tasks(), counts.elements_moved()), (Some(12), Some(4 * 35)));
}

#[test]
fn questions_are_answered_or_not() {
    let question = r#"{"shape":[500],"chunk_grid":{"name":"regular",
        "configuration":{"chunk_shape":[1]}},"call":"iter_chunk_indices","items":500}"#;
    assert!(without_each(|| answer(question)).unwrap().ends_with(r#"[499]],"more":false}"#));
}
