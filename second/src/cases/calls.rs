//! What the programs `console_cases` and `iptables_cases` must print for a file, by the calls that
//! the end of the file's name tells: a script's value, a text, a deployment file, or a listing.

use super::row::CaseFile;
use crate::console::{file_text, script_text, text_script, Maker, What};
use crate::format::Refusal;
use crate::iptables::from_iptables;

type Answer = Result<Vec<u8>, Refusal>;

/// The lines of a call: what was written and that the bytes behind it are kept, then that a place one byte
/// shorter is refused; or the refusal. A refused place keeps all bytes.
fn said(call: &str, answer: Answer) -> Vec<u8> {
    let refused = |number, position| format!("{call} refused {number} at {position} kept\n").into_bytes();
    match answer {
        Err(Refusal { number, position }) => refused(number, position),
        Ok(bytes) => {
            let count = bytes.len();
            let wrote = format!("{call} wrote {count} kept\n").into_bytes();
            let short = if count > 0 { refused(13, count) } else { Vec::new() };
            [wrote, bytes, b"\n".to_vec(), short].concat()
        }
    }
}

pub fn value_lines(texts: [Answer; 2]) -> Vec<u8> {
    let lines = |(maker, text): (Maker, Answer)| said(&format!("script {}", maker.name()), text);
    Maker::BOTH.into_iter().zip(texts).flat_map(lines).collect()
}

pub fn text_lines(field: Answer) -> Vec<u8> {
    said("text", field)
}

pub fn listing_lines(file: Answer) -> Vec<u8> {
    said("listing", file)
}

fn file_lines(file: &[u8]) -> Vec<u8> {
    let lines = |(what, maker): (What, Maker)| {
        let name = match what {
            What::Own => "own",
            What::PlanOne => "plan 1",
            What::PlanTwo => "plan 2",
        };
        said(&format!("{name} {}", maker.name()), file_text(file, what, maker))
    };
    What::ALL.into_iter().flat_map(|what| Maker::BOTH.map(|maker| (what, maker))).flat_map(lines).collect()
}

pub fn value_case(name: &str, value: Vec<u8>) -> CaseFile {
    let text = value_lines(Maker::BOTH.map(|maker| script_text(&value, maker)));
    CaseFile { name: format!("{name}.value"), bytes: value, text }
}

pub fn text_case(name: &str, maker: Maker, kind: u8, text: Vec<u8>) -> CaseFile {
    let lines = text_lines(text_script(&text, kind, maker));
    CaseFile { name: format!("{name}.{}{kind}.text", maker.name()), bytes: text, text: lines }
}

pub fn file_case(name: &str, file: Vec<u8>) -> CaseFile {
    CaseFile { name: format!("{name}.bin"), text: file_lines(&file), bytes: file }
}

pub fn listing_case(name: &str, listing: Vec<u8>) -> CaseFile {
    CaseFile { name: format!("{name}.rules"), text: listing_lines(from_iptables(&listing)), bytes: listing }
}
