//! Cases for the programs `reader_cases`, `writer_cases`, `entry_cases`, `console_cases` and `iptables_cases`:
//! in `data` files of cases, their names in `args`, and in `stdout` what the program must print.
//!
//! The first three read rows of cases. A case of the reader is a file; `writer` says what one of the
//! writer is. One of the entries is numbers of two bytes: whether it is about a file (0) or field
//! values (1), whether there is a default, whether there is a keep list, whether
//! there is a script, the room lent for output, and the flow, whose addresses have
//! two numbers each; then its parts, themselves a row: the file; or the rules, both
//! policies, the default, the keep list and the script; and last flows, as the
//! entries take many at once. A file for the last two is a case by itself, and the end of its name
//! says what it is: `.bin` a deployment file, `.value` a script's value, `.A1.text` a text that is
//! read for maker A as type 1, and so on; `.rules` a listing.

mod base;
mod calls;
mod case;
mod console;
mod expected;
mod faults;
mod given;
mod groups;
mod iptables;
mod listed;
mod made;
mod not_read;
mod reader;
mod row;
mod scripts;
mod writer;

use row::{row_files, CaseFile, Group};
use std::fs;
use std::io;
use std::path::Path;

/// The groups of cases of a program that reads rows.
fn groups_of(program: &str) -> Option<Vec<Group>> {
    match program {
        "reader_cases" => Some(reader::all()),
        "writer_cases" => Some(writer::all()),
        "entry_cases" => Some(groups::all()),
        _ => None,
    }
}

/// The made cases of a program to which listed ones belong as well.
fn made_of(program: &str) -> Option<Vec<CaseFile>> {
    match program {
        "console_cases" => Some(console::made()),
        "iptables_cases" => Some(iptables::made()),
        _ => None,
    }
}

/// The cases listed in a folder, or else those that were listed before.
fn listed_files(data: &Path, folder: Option<&Path>) -> io::Result<Vec<CaseFile>> {
    match folder {
        Some(folder) => listed::listed(folder),
        None if data.exists() => listed::listed_before(data),
        None => Ok(Vec::new()),
    }
}

/// How many cases a program has, and their files; None for a program that has none.
fn files_of(program: &str, data: &Path, listed: Option<&Path>) -> io::Result<Option<(usize, Vec<CaseFile>)>> {
    if let Some(made) = made_of(program) {
        let files = [listed_files(data, listed)?, made].concat();
        return Ok(Some((files.len(), files)));
    }
    let count = |groups: &[Group]| groups.iter().map(|(_, cases)| cases.len()).sum();
    Ok(groups_of(program).map(|groups| (count(&groups), row_files(&groups))))
}

/// Writes the cases of the program whose folder this is, and the text expected of them, in place of those that are there.
pub fn run(folder: &Path, listed: Option<&Path>) -> io::Result<bool> {
    let program = folder.file_name().and_then(|name| name.to_str()).unwrap_or_default();
    let data = folder.join("data");
    let Some((count, files)) = files_of(program, &data, listed)? else {
        eprintln!("there are no cases of a program {program:?}");
        return Ok(false);
    };
    if data.exists() {
        fs::remove_dir_all(&data)?;
    }
    fs::create_dir_all(&data)?;
    let (mut args, mut stdout) = (String::new(), Vec::new());
    for CaseFile { name, bytes, text } in files {
        fs::write(data.join(&name), bytes)?;
        args.push_str(&format!("{name}\n"));
        stdout.extend([name.as_bytes(), b"\n", &text].concat());
    }
    fs::write(folder.join("args"), args)?;
    fs::write(folder.join("stdout"), stdout)?;
    println!("{count} cases");
    Ok(true)
}

#[cfg(test)]
mod tests {
    use super::*;
    use std::collections::HashSet;

    /// How often a line of all texts starts with these words.
    fn lines_with(text: &str, words: &str) -> usize {
        text.lines().filter(|line| *line == words || line.starts_with(&format!("{words} "))).count()
    }

    fn text_of(groups: Vec<Group>) -> String {
        groups.into_iter().flat_map(|(_, cases)| cases).map(|case| case.text).collect()
    }

    fn expect_lines(text: &str, wanted: &[String]) {
        for words in wanted {
            assert!(lines_with(text, words) > 0, "no line {words}");
        }
    }

    #[test]
    fn every_refusal_of_the_reader_occurs() {
        let mut wanted: Vec<String> = (1..=11).chain([50]).map(|number| format!("refused {number} at")).collect();
        wanted.push("rules 5 initial".into());
        expect_lines(&text_of(reader::all()), &wanted);
    }

    #[test]
    fn every_refusal_of_the_writer_occurs_and_nothing_else_is_written() {
        let mut wanted = [4, 5, 6, 7, 8, 9, 10, 11, 50].map(|number| format!("refused {number} at 0 kept")).to_vec();
        wanted.extend([6, 44049].map(|needed| format!("refused 13 at {needed} kept")));
        wanted.extend([6, 10, 44049].map(|written| format!("wrote {written} sum")));
        let text = text_of(writer::all());
        expect_lines(&text, &wanted);
        assert!(text.lines().all(|line| line.contains(" kept")));
    }

    #[test]
    fn every_outcome_of_every_entry_occurs() {
        let text = text_of(groups::all());
        let refused = |entry, numbers: &[u8]| -> Vec<String> {
            numbers.iter().map(|number| format!("{entry} refused {number}")).collect()
        };
        let of_file = [1, 2, 3, 4, 5, 6, 7, 8, 9, 10, 11, 50];
        let mut wanted = refused("read", &of_file);
        for entry in ["read to judge", "judge", "replay"] {
            wanted.extend(refused(entry, &of_file));
            wanted.extend(refused(entry, &[12]));
        }
        for entry in ["initial", "target", "flows by initial", "flows by target", "plan 1", "plan 2"] {
            wanted.extend(refused(entry, &of_file));
        }
        for entry in ["replay", "flows by initial", "flows by target", "plan 1", "plan 2"] {
            wanted.extend(refused(entry, &[13]));
        }
        wanted.extend([4, 5, 6, 7, 8, 9, 10, 11, 50].map(|number| format!("check {number}")));
        wanted.extend([20, 21, 22, 23, 24, 30, 31, 32].map(|number| format!("judge verdict {number}")));
        wanted.extend([20, 21, 22, 23].map(|number| format!("replay broken {number}")));
        for policy in ["initial", "target"] {
            let decisions = ["permit 0", "permit 1", "deny 0", "deny 1"];
            wanted.extend(decisions.map(|decision| format!("{policy} {decision}")));
        }
        wanted.push("check good".into());
        wanted.extend(["replay ended", "plan 1 kept", "plan 2 kept"].map(String::from));
        wanted.extend(["flows by initial bytes", "flows by target bytes"].map(String::from));
        expect_lines(&text, &wanted);
    }

    /// The text of made cases, of which no two have the same name and none has that of a listed one.
    fn text_of_files(files: &[CaseFile]) -> String {
        let names: HashSet<&str> = files.iter().map(|file| file.name.as_str()).collect();
        assert_eq!(names.len(), files.len());
        assert!(names.iter().all(|name| !name.starts_with(|letter: char| letter.is_ascii_digit())));
        let bytes: Vec<u8> = files.iter().flat_map(|file| file.text.clone()).collect();
        String::from_utf8_lossy(&bytes).into_owned()
    }

    #[test]
    fn every_outcome_of_console_text_occurs_under_its_own_name() {
        let text = text_of_files(&console::made());
        let of_file = [1, 2, 3, 4, 5, 6, 7, 8, 9, 10, 11, 13, 50];
        let mut wanted = Vec::new();
        for maker in ["A", "B"] {
            for entry in ["own", "plan 1", "plan 2"] {
                wanted.extend(of_file.map(|number| format!("{entry} {maker} refused {number} at")));
            }
            wanted.push(format!("own {maker} refused 12 at"));
            wanted.extend([4, 11].map(|number| format!("script {maker} refused {number} at 0 kept")));
            wanted.push(format!("script {maker} refused 13 at"));
            wanted.extend(["own", "plan 1", "plan 2", "script"].map(|entry| format!("{entry} {maker} wrote 0 kept")));
        }
        let longest = [("A", 32768), ("B", 49152)];
        for entry in ["own", "script"] {
            wanted.extend(longest.map(|(maker, size)| format!("{entry} {maker} wrote {size} kept")));
        }
        wanted.extend([11, 13, 55, 56].map(|number| format!("text refused {number} at")));
        wanted.extend([4, 55, 56].map(|number| format!("text refused {number} at 2049 kept")));
        wanted.extend([55, 56].map(|number| format!("text refused {number} at 2 kept")));
        wanted.extend([4, 10244].map(|size| format!("text wrote {size} kept")));
        expect_lines(&text, &wanted);
    }

    #[test]
    fn every_outcome_of_a_listing_occurs_under_its_own_name() {
        let files = iptables::made();
        let told = [(57, 4), (57, 0), (57, 1029), (58, 2), (58, 4), (13, 6), (13, 17418)];
        let mut wanted = told.map(|(number, at)| format!("listing refused {number} at {at} kept")).to_vec();
        wanted.extend([6, 10, 40, 17418].map(|size| format!("listing wrote {size} kept")));
        expect_lines(&text_of_files(&files), &wanted);
        let apart = |file: &&CaseFile| file.name.starts_with("rule-") || file.name.starts_with("line-");
        for file in files.iter().filter(apart) {
            assert_eq!(file.text, b"listing refused 57 at 4 kept\n", "{}", file.name);
        }
    }

    #[test]
    fn no_file_is_longer_than_the_programs_read() {
        let most = console::made().iter().chain(&iptables::made()).map(|file| file.bytes.len()).max();
        assert!(most.is_some_and(|most| most <= 65536), "{most:?}");
    }
}
