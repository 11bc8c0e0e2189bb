//! The vectors: questions, each with the line that is to answer it.
//!
//! They are in the folder that `ZARRS_CHUNKS_VECTORS` names, or in the one of the repository or of
//! a release that the crate stands in. Its `README.md` says what a line of its files is.

use std::path::{Path, PathBuf};
use std::{env, fs};

use super::json::Json;

/// A question as text, and the line that is to answer it.
pub struct Vector {
    pub question: String,
    pub line: String,
}

pub fn vectors() -> Vec<Vector> {
    let folder = folder();
    let mut files: Vec<_> = fs::read_dir(&folder)
        .unwrap_or_else(|error| panic!("{}: {error}", folder.display()))
        .map(|entry| entry.unwrap().path())
        .filter(|path| path.extension().map_or(false, |extension| extension == "jsonl"))
        .collect();
    files.sort();
    let mut vectors = Vec::new();
    for path in &files {
        let text = fs::read_to_string(path).unwrap();
        assert!(!text.is_empty(), "{} is empty", path.display());
        vectors.extend(text.lines().map(vector));
    }
    assert!(vectors.len() >= 1000, "{} has {} vectors only", folder.display(), vectors.len());
    vectors
}

fn folder() -> PathBuf {
    if let Some(named) = env::var_os("ZARRS_CHUNKS_VECTORS") {
        return PathBuf::from(named);
    }
    let own = Path::new(env!("CARGO_MANIFEST_DIR"));
    let beside = ["../../../vectors", "../../vectors"].map(|folder| own.join(folder));
    let found = beside.iter().find(|folder| folder.is_dir());
    found.unwrap_or_else(|| panic!("no vectors: set ZARRS_CHUNKS_VECTORS to their folder")).clone()
}

fn vector(text: &str) -> Vector {
    let answer = Json(text).member("answer");
    let mut line = answer.0.to_owned();
    if line.starts_with('{') {
        for reason in ["refused", "unreadable"] {
            if let Some(words) = answer.get(reason) {
                line = format!("{reason}: {}", words.text());
            }
        }
    }
    // A line that is no question stands as a text. Other vectors are questions as they stand.
    let question = Json(text).get("line").map_or_else(|| text.to_owned(), Json::text);
    Vector { question, line }
}
