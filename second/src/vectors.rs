//! Runs a folder of vectors, by the ends of their names: NAME.bin is a file,
//! NAME.plan and NAME.judge are the exact texts of the two programs for it;
//! NAME.value is a script's value, NAME.A.text and NAME.B.text are its texts;
//! NAME.A1.text is a text to be read, NAME.A1.out the script field or the
//! refusal's line, and likewise for the other maker and type; NAME.rules is a
//! listing, NAME.out the deployment file or the refusal's line.

use crate::console::{script_text, text_script, type_named, Maker};
use crate::iptables::listing_text;
use crate::text::{judge_text, plan_text, printed};
use std::fs;
use std::io;
use std::path::{Path, PathBuf};

/// What is read from a vector, by its name.
#[derive(Clone, Copy, Debug, PartialEq, Eq)]
pub enum Vector {
    File,
    Script,
    Text(Maker, u8),
    Listing,
}

/// The vector with this name; a text that belongs to a script is none.
pub fn vector_named(path: &Path) -> Option<Vector> {
    let name = path.file_name()?.to_str()?;
    let (before, end) = name.rsplit_once('.')?;
    match end {
        "bin" => Some(Vector::File),
        "value" => Some(Vector::Script),
        "rules" => Some(Vector::Listing),
        "text" => {
            let (_, told) = before.rsplit_once('.')?;
            let maker = Maker::BOTH.into_iter().find(|maker| told.starts_with(maker.name()))?;
            Some(Vector::Text(maker, type_named(&told[1..])?))
        }
        _ => None,
    }
}

/// The vectors of a folder in the order of their names.
pub fn vectors_in(folder: &Path) -> io::Result<Vec<(PathBuf, Vector)>> {
    let mut found = Vec::new();
    for entry in fs::read_dir(folder)? {
        let path = entry?.path();
        if let Some(vector) = vector_named(&path) {
            found.push((path, vector));
        }
    }
    found.sort_by(|(one, _), (other, _)| one.cmp(other));
    Ok(found)
}

/// Our answers to a vector, each with the end of the name under which it is expected.
fn answers(vector: Vector, input: &[u8]) -> Vec<(&'static str, Vec<u8>)> {
    match vector {
        Vector::File => vec![("plan", plan_text(input).into_bytes()), ("judge", judge_text(input).into_bytes())],
        Vector::Script => {
            let text = |end, maker| (end, printed(script_text(input, maker)));
            vec![text("A.text", Maker::A), text("B.text", Maker::B)]
        }
        Vector::Text(maker, kind) => vec![("out", printed(text_script(input, kind, maker)))],
        Vector::Listing => vec![("out", listing_text(input))],
    }
}

/// Compares one answer; says on the error output where they differ.
fn agrees(expected_in: &Path, answer: &[u8]) -> io::Result<bool> {
    let agrees = fs::read(expected_in)? == answer;
    if !agrees {
        eprintln!("differs: {}\nours:\n{}", expected_in.display(), String::from_utf8_lossy(answer));
    }
    Ok(agrees)
}

/// Prints the counts; true when there are vectors and all answers agree.
pub fn run(folder: &Path) -> io::Result<bool> {
    let vectors = vectors_in(folder)?;
    let (mut texts, mut agreeing) = (0, 0);
    for (path, vector) in &vectors {
        for (end, answer) in answers(*vector, &fs::read(path)?) {
            texts += 1;
            agreeing += usize::from(agrees(&path.with_extension(end), &answer)?);
        }
    }
    println!("{} files, {texts} texts, {agreeing} agree, {} differ", vectors.len(), texts - agreeing);
    Ok(texts > 0 && agreeing == texts)
}

#[cfg(test)]
mod tests {
    use super::*;

    #[test]
    fn a_vector_goes_by_the_end_of_its_name() {
        let named = |name: &str| vector_named(Path::new(name));
        assert_eq!(named("0-a.bin"), Some(Vector::File));
        assert_eq!(named("0-a.value"), Some(Vector::Script));
        assert_eq!(named("0-a.B2.text"), Some(Vector::Text(Maker::B, 2)));
        assert_eq!(named("0-a.rules"), Some(Vector::Listing));
        for other in ["0-a.A.text", "0-a.A3.text", "0-a.out", "0-a.plan", "a", "0-a.text", "0-a.C1.text"] {
            assert_eq!(named(other), None, "{other}");
        }
    }
}
