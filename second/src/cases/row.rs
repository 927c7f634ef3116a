//! The files that a program reads, one at a time; most are rows: a two-byte length
//! and a case, again and again.

/// A program reads no more of a row.
const MOST_IN_ROW: usize = 65536;

/// What a program is given, a case or a row of them, and the text expected of it.
#[derive(Default)]
pub struct Trial {
    pub bytes: Vec<u8>,
    pub text: String,
}

/// Cases that belong together, under a name.
pub type Group = (&'static str, Vec<Trial>);

/// A file among a program's data, and what the program must print for it.
#[derive(Clone)]
pub struct CaseFile {
    pub name: String,
    pub bytes: Vec<u8>,
    pub text: Vec<u8>,
}

/// The rows of groups, each in a file.
pub fn row_files(groups: &[Group]) -> Vec<CaseFile> {
    let mut files = Vec::new();
    for (group, cases) in groups {
        for (number, row) in rows(cases).into_iter().enumerate() {
            files.push(CaseFile { name: format!("{group}{number:02}"), bytes: row.bytes, text: row.text.into_bytes() });
        }
    }
    files
}

/// Adds a part with its two-byte length.
pub fn add_part(row: &mut Vec<u8>, part: &[u8]) {
    row.extend_from_slice(&u16::try_from(part.len()).expect("a part of a row").to_be_bytes());
    row.extend_from_slice(part);
}

/// The rows of some cases, each as long as a program reads it.
fn rows(cases: &[Trial]) -> Vec<Trial> {
    let mut rows = vec![Trial::default()];
    for case in cases {
        if rows.last().is_some_and(|row| row.bytes.len() + 2 + case.bytes.len() > MOST_IN_ROW) {
            rows.push(Trial::default());
        }
        let row = rows.last_mut().expect("a row");
        add_part(&mut row.bytes, &case.bytes);
        row.text.push_str(&case.text);
    }
    rows
}

#[cfg(test)]
mod tests {
    use super::*;

    #[test]
    fn rows_hold_no_more_than_is_read() {
        let case = |size| Trial { bytes: vec![0; size], text: String::new() };
        let sizes = |cases: &[Trial]| rows(cases).iter().map(|row| row.bytes.len()).collect::<Vec<_>>();
        assert_eq!(sizes(&[case(MOST_IN_ROW / 2 - 2), case(MOST_IN_ROW / 2 - 2)]), [MOST_IN_ROW]);
        assert_eq!(
            sizes(&[case(MOST_IN_ROW / 2 - 2), case(MOST_IN_ROW / 2 - 1)]),
            [MOST_IN_ROW / 2, MOST_IN_ROW / 2 + 1]
        );
    }
}
