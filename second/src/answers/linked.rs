//! The answers of the linked library, in the order of ours.

use super::answer::{Answer, Answers, LENT_BYTE};
use super::input::{Input, Program, Rooms};
use crate::console::{Maker, What};
use crate::library;
use crate::policy::PolicyValues;

/// No text is longer, and no console text or script field, and no file of a listing.
const TEXT_BYTES: usize = 262_144;
const CONSOLE_BYTES: usize = 65_536;
const FILE_BYTES: usize = 20_000;

/// What is written into ample room; or the refusal's line.
fn text(room: usize, call: impl FnOnce(&mut [u8], &mut [u64]) -> u32) -> Vec<u8> {
    let mut place = vec![LENT_BYTE; room];
    let mut word = [0];
    let number = call(&mut place, &mut word);
    match (number, place.get(..word[0] as usize)) {
        (0, Some(text)) => text.to_vec(),
        _ => format!("refused {number} at {}\n", word[0]).into_bytes(),
    }
}

fn over_files(input: &Input) -> Vec<Answer> {
    let (file, rooms) = (&input.file, &input.rooms);
    let mut all = vec![
        Answer::lend("read file", 0, |_, words| library::read(file, words)),
        Answer::lend("read file to judge", 0, |_, words| library::read_to_judge(file, words)),
        Answer::lend("replay file", rooms.replay, |place, words| library::replay_file(file, place, words)),
        Answer::lend("plan 1 file", rooms.plans[0], |place, words| library::plan_file(1, file, place, words)),
        Answer::lend("plan 2 file", rooms.plans[1], |place, words| library::plan_file(2, file, place, words)),
        Answer::lend("judge file", 0, |_, words| library::judge_file(file, words)),
        Answer::lend("text of plans", rooms.texts[0], |place, words| library::plan_text(file, place, words)),
        Answer::lend("text of judge", rooms.texts[1], |place, words| library::judge_text(file, place, words)),
        Answer::lend("text of file", rooms.texts[2], |place, words| library::show_text(file, place, words)),
    ];
    for flow in &input.flows {
        for of_target in [false, true] {
            all.push(Answer::lend("decide file", 0, |_, words| library::decide_file(file, of_target, flow, words)));
        }
    }
    for of_target in [false, true] {
        all.push(Answer::lend("decide flows file", rooms.flows, |place, words| {
            library::decide_flows_file(file, of_target, &input.flow_bytes, place, words)
        }));
    }
    all
}

fn over_values(input: &Input) -> Vec<Answer> {
    let (values, made, script) = (&input.made.values(), &input.made, input.lent_script());
    let both = [values.initial, values.target];
    let policies = both.map(|list| PolicyValues { rules: values.rules, list, default: values.default });
    let mut all = vec![
        Answer::lend("check values", 0, |_, words| library::check(values, words)),
        Answer::lend("write values", made.file_room, |place, words| library::write(values, place, words)),
        Answer::lend("replay values", input.rooms.replay_values, |place, words| {
            library::replay(values, script, place, words)
        }),
        Answer::lend("plan 1 values", made.plan_room, |place, words| library::plan(1, values, place, words)),
        Answer::lend("plan 2 values", made.plan_room, |place, words| library::plan(2, values, place, words)),
        Answer::lend("judge values", 0, |_, words| library::judge(values, script, words)),
    ];
    for flow in &input.flows {
        for policy in &policies {
            all.push(Answer::lend("decide values", 0, |_, words| library::decide(policy, flow, words)));
        }
    }
    for policy in &policies {
        all.push(Answer::lend("decide flows values", input.rooms.flows, |place, words| {
            library::decide_flows(policy, &input.flow_bytes, place, words)
        }));
    }
    all
}

const OF_FILE: [&str; 3] = ["console text of file", "console text of plan 1", "console text of plan 2"];

fn of_texts(input: &Input) -> Vec<Answer> {
    let Rooms { script_texts, file_texts, text_scripts, .. } = input.rooms;
    let mut all = Vec::new();
    for (maker, room) in Maker::BOTH.into_iter().zip(script_texts) {
        all.push(Answer::lend("console text of script", room, |place, words| {
            library::script_text(input.lent_script(), maker, place, words)
        }));
    }
    for ((what, rooms), entry) in What::ALL.into_iter().zip(file_texts).zip(OF_FILE) {
        for (maker, room) in Maker::BOTH.into_iter().zip(rooms) {
            all.push(Answer::lend(entry, room, |place, words| {
                library::file_text(&input.file, what, maker, place, words)
            }));
        }
    }
    for (made, room) in input.texts.iter().zip(text_scripts) {
        all.push(Answer::lend("script of console text", room, |place, words| {
            library::text_script(&made.text, made.kind, made.maker, place, words)
        }));
    }
    all
}

fn of_listings(input: &Input) -> Vec<Answer> {
    let mut all = Vec::new();
    for (listing, room) in input.listings.iter().zip(input.rooms.listings) {
        all.push(Answer::lend("file of listing", room, |place, words| library::from_iptables(listing, place, words)));
    }
    all
}

fn printed(program: Program, input: &[u8]) -> Vec<u8> {
    match program {
        Program::Planlist => text(TEXT_BYTES, |place, words| library::plan_text(input, place, words)),
        Program::Judgelist => text(TEXT_BYTES, |place, words| library::judge_text(input, place, words)),
        Program::Showlist => text(TEXT_BYTES, |place, words| library::show_text(input, place, words)),
        Program::Scripttext(maker, what) => {
            text(CONSOLE_BYTES, |place, words| library::file_text(input, what, maker, place, words))
        }
        Program::Textscript(maker, kind) => {
            text(CONSOLE_BYTES, |place, words| library::text_script(input, kind, maker, place, words))
        }
        Program::Fromiptables => text(FILE_BYTES, |place, words| library::from_iptables(input, place, words)),
    }
}

pub fn linked(input: &Input) -> Answers {
    let mut entries = over_files(input);
    entries.extend(over_values(input));
    entries.extend(of_texts(input));
    entries.extend(of_listings(input));
    let print = |(program, input)| (program, printed(program, input));
    Answers { printed: input.questions().into_iter().map(print).collect(), entries: Some(entries) }
}
