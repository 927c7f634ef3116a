//! The text that `showlist` prints: what a deployment file contains.

use crate::commands::commands_of;
use crate::file::{permits, read, Contents};
use crate::format::numbers;
use crate::text::{command_line, refusal_line};
use std::net::Ipv4Addr;

/// A number read from bytes, most significant first.
fn number(bytes: &[u8]) -> u64 {
    bytes.iter().fold(0, |number, &byte| number << 8 | u64::from(byte))
}

/// One number; those of four bytes are addresses.
fn value(bytes: &[u8]) -> String {
    match <[u8; 4]>::try_from(bytes) {
        Ok(address) => Ipv4Addr::from(address).to_string(),
        Err(_) => number(bytes).to_string(),
    }
}

/// A range: all numbers, one, or from low to high.
fn range(bytes: &[u8]) -> String {
    let (low, high) = bytes.split_at(bytes.len() / 2);
    if low.iter().all(|&byte| byte == 0) && high.iter().all(|&byte| byte == 255) {
        "any".to_string()
    } else if low == high {
        value(low)
    } else {
        format!("{}-{}", value(low), value(high))
    }
}

fn action(permit: bool) -> &'static str {
    if permit {
        "permit"
    } else {
        "deny"
    }
}

fn rule_line(index: usize, rule: &[u8]) -> String {
    let action = action(rule[0] == 1);
    let [protocol, source, source_port, destination, destination_port] =
        [&rule[1..3], &rule[3..11], &rule[11..15], &rule[15..23], &rule[23..27]].map(range);
    format!(
        "{index} {action} protocol {protocol} source {source} port {source_port} \
         destination {destination} port {destination_port}\n"
    )
}

fn list_lines(name: &str, list: &[u8]) -> String {
    let words: Vec<String> = numbers(list).iter().map(u16::to_string).collect();
    let line = if words.is_empty() { String::new() } else { words.join(" ") + "\n" };
    format!("{name} {}\n{line}", words.len())
}

fn script_lines(script: &[u8]) -> String {
    let commands = commands_of(script);
    let head = format!("script type {} commands {}\n", script[0], commands.len());
    let lines = commands.iter().enumerate().map(|(index, &command)| command_line(index + 1, command));
    head + &lines.collect::<String>()
}

fn contents_text(contents: &Contents) -> String {
    let rules = contents.rules.iter().enumerate().map(|(index, rule)| rule_line(index, rule));
    let absent = |name: &str| format!("{name} absent\n");
    [
        format!("rules {}\n", contents.rules.len()),
        rules.collect(),
        list_lines("initial", contents.initial),
        list_lines("target", contents.target),
        format!("default {}\n", action(permits(contents.default))),
        contents.keep.map_or_else(|| absent("keep"), |keep| list_lines("keep", keep)),
        contents.script.map_or_else(|| absent("script"), script_lines),
    ]
    .concat()
}

/// What `showlist` prints for a file.
pub fn show_text(file: &[u8]) -> String {
    match read(file) {
        Ok(contents) => contents_text(&contents),
        Err(refusal) => refusal_line(refusal),
    }
}

#[cfg(test)]
mod tests {
    use super::*;

    #[test]
    fn a_range_has_one_of_three_forms() {
        assert_eq!(range(&[0, 255]), "any");
        assert_eq!(range(&[0, 0, 255, 255]), "any");
        assert_eq!(range(&[0, 0, 0, 255]), "0-255");
        assert_eq!(range(&[6, 6]), "6");
        assert_eq!(range(&[10, 0, 0, 0, 10, 0, 0, 255]), "10.0.0.0-10.0.0.255");
        assert_eq!(range(&[1, 2, 3, 4, 1, 2, 3, 4]), "1.2.3.4");
    }

    #[test]
    fn what_is_absent_or_empty_is_told() {
        assert_eq!(
            show_text(&[2, 0, 0, 3, 0, 0]),
            "rules 0\ninitial 0\ntarget 0\ndefault deny\nkeep absent\nscript absent\n"
        );
        assert_eq!(
            show_text(&[2, 0, 0, 3, 0, 0, 6, 0, 1, 1, 4, 0, 0, 5, 0, 1, 1]),
            "rules 0\ninitial 0\ntarget 0\ndefault permit\nkeep 0\nscript type 1 commands 0\n"
        );
        assert_eq!(show_text(&[]), "refused 3 at 0\n");
    }
}
