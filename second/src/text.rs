//! The texts that `planlist` and `judgelist` print, and what all texts share.

use crate::commands::{commands_of, Command};
use crate::file::{read, read_with_script};
use crate::format::{numbers, Refusal};
use crate::judge::{judge, Verdict};
use crate::plan::{plan, Plan};
use std::fmt::Write;

// ---- What all texts share ----

pub fn refusal_line(refusal: Refusal) -> String {
    format!("refused {} at {}\n", refusal.number, refusal.position)
}

/// What was written, or the refusal's line.
pub fn printed(answer: Result<Vec<u8>, Refusal>) -> Vec<u8> {
    answer.unwrap_or_else(|refusal| refusal_line(refusal).into_bytes())
}

/// The number that a word of digits without a leading zero says; one with more digits than can be counted says a great one.
pub fn number(word: &[u8]) -> Option<u64> {
    let digits = !word.is_empty() && word.iter().all(u8::is_ascii_digit);
    if !digits || (word.len() > 1 && word[0] == b'0') {
        return None;
    }
    let with = |number: u64, digit: &u8| number.saturating_mul(10).saturating_add(u64::from(digit - b'0'));
    Some(word.iter().fold(0, with))
}

// ---- Plans and verdicts ----

pub fn command_line(step: usize, command: Command) -> String {
    match command {
        Command::App { r } => format!("{step} app {r}\n"),
        Command::DelRule { r } => format!("{step} del {r}\n"),
        Command::Ins { i, r } => format!("{step} ins {i} {r}\n"),
        Command::DelPlace { i } => format!("{step} del {i}\n"),
        Command::Mov { i, j } => format!("{step} mov {i} {j}\n"),
    }
}

fn add_plan(text: &mut String, initial: usize, target: usize, plan: &Plan) {
    let Plan { kind, kept, commands } = plan;
    let count = commands.len();
    writeln!(text, "type {kind} initial {initial} target {target} kept {kept} commands {count}")
        .expect("a string takes all text");
    for (index, &command) in commands.iter().enumerate() {
        text.push_str(&command_line(index + 1, command));
    }
}

/// What `planlist` prints for a file.
pub fn plan_text(file: &[u8]) -> String {
    let contents = match read(file) {
        Ok(contents) => contents,
        Err(refusal) => return refusal_line(refusal),
    };
    let (initial, target) = (numbers(contents.initial), numbers(contents.target));
    let keep = contents.keep.map(numbers);
    let mut text = String::new();
    for kind in [1, 2] {
        let plan = plan(kind, &initial, &target, keep.as_deref());
        add_plan(&mut text, initial.len(), target.len(), &plan);
    }
    text
}

fn verdict_line(verdict: Verdict) -> String {
    let numbers: Vec<String> = verdict.numbers().iter().map(usize::to_string).collect();
    format!("verdict {}\n", numbers.join(" "))
}

/// What `judgelist` prints for a file.
pub fn judge_text(file: &[u8]) -> String {
    let (contents, script) = match read_with_script(file) {
        Ok(accepted) => accepted,
        Err(refusal) => return refusal_line(refusal),
    };
    let (initial, target) = (numbers(contents.initial), numbers(contents.target));
    verdict_line(judge(contents.rules.len(), &initial, &target, &commands_of(script)))
}

#[cfg(test)]
mod tests {
    use super::*;
    use crate::commands::script_value;
    use crate::file::{file_bytes, Contents};
    use crate::format::list_value;
    use crate::rule::plain_rule;

    const FIRST_EXAMPLE: &str = "\
type 1 initial 4 target 4 kept 1 commands 6
1 del 3
2 del 2
3 del 0
4 app 0
5 app 4
6 app 3
type 2 initial 4 target 4 kept 2 commands 3
1 ins 3 4
2 del 4
3 mov 1 2
";

    fn first_example(script: Option<&[u8]>) -> Vec<u8> {
        let rules: Vec<Vec<u8>> = (0..5).map(plain_rule).collect();
        file_bytes(&Contents {
            rules: rules.iter().map(Vec::as_slice).collect(),
            initial: &list_value(&[0, 1, 2, 3]),
            target: &list_value(&[1, 0, 4, 3]),
            default: None,
            keep: None,
            script,
        })
    }

    #[test]
    fn the_first_example_is_printed_exactly() {
        assert_eq!(plan_text(&first_example(None)), FIRST_EXAMPLE);
    }

    #[test]
    fn a_refusal_is_one_line() {
        assert_eq!(plan_text(&[]), "refused 3 at 0\n");
        assert_eq!(judge_text(&[]), "refused 3 at 0\n");
        assert_eq!(judge_text(&first_example(None)), "refused 12 at 172\n");
    }

    #[test]
    fn a_verdict_is_one_line() {
        let judged = |commands: &[Command]| judge_text(&first_example(Some(&script_value(2, commands))));
        assert_eq!(judged(&[]), "verdict 24 0\n");
        assert_eq!(judged(&[Command::DelPlace { i: 5 }]), "verdict 22 1\n");
        let safe = [Command::Ins { i: 3, r: 4 }, Command::DelPlace { i: 4 }, Command::Mov { i: 1, j: 2 }];
        assert_eq!(judged(&safe), "verdict 32\n");
    }
}
