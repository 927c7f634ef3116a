//! Cases that are listed in a folder, with the answers that are listed there.

use super::calls::{listing_case, listing_lines, text_case, text_lines, value_case, value_lines};
use super::row::CaseFile;
use crate::format::Refusal;
use crate::vectors::{vectors_in, Vector};
use std::fs;
use std::io;
use std::path::Path;

/// The numbers of a refusal's line; None for what was written.
fn refusal_in(listed: &[u8]) -> Option<Refusal> {
    let line = std::str::from_utf8(listed).ok()?.strip_prefix("refused ")?.strip_suffix('\n')?;
    let (number, position) = line.split_once(" at ")?;
    Some(Refusal { number: number.parse().ok()?, position: position.parse().ok()? })
}

fn listed_answer(path: &Path, end: &str) -> io::Result<Result<Vec<u8>, Refusal>> {
    let listed = fs::read(path.with_extension(end))?;
    Ok(refusal_in(&listed).map_or(Ok(listed), Err))
}

/// The files of a folder of listed ones, with the answers that are listed there.
pub fn listed(folder: &Path) -> io::Result<Vec<CaseFile>> {
    let mut all = Vec::new();
    for (path, vector) in vectors_in(folder)? {
        let text = match vector {
            Vector::File => continue,
            Vector::Script => value_lines([listed_answer(&path, "A.text")?, listed_answer(&path, "B.text")?]),
            Vector::Text(..) => text_lines(listed_answer(&path, "out")?),
            Vector::Listing => listing_lines(listed_answer(&path, "out")?),
        };
        let name = path.file_name().and_then(|name| name.to_str()).unwrap_or_default().to_string();
        all.push(CaseFile { name, bytes: fs::read(&path)?, text });
    }
    Ok(all)
}

/// The listed files that are among the cases already, with our answers: their names begin with a number.
pub fn listed_before(data: &Path) -> io::Result<Vec<CaseFile>> {
    let mut all = Vec::new();
    for (path, vector) in vectors_in(data)? {
        let stem = path.file_name().and_then(|name| name.to_str()).unwrap_or_default();
        let name = stem.split('.').next().unwrap_or_default();
        if !name.starts_with(|letter: char| letter.is_ascii_digit()) {
            continue;
        }
        let bytes = fs::read(&path)?;
        match vector {
            Vector::File => {}
            Vector::Script => all.push(value_case(name, bytes)),
            Vector::Text(maker, kind) => all.push(text_case(name, maker, kind, bytes)),
            Vector::Listing => all.push(listing_case(name, bytes)),
        }
    }
    Ok(all)
}
