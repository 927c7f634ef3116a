//! Our answers, each brought to a number with its values.

use super::answer::{Answer, Answers};
use super::input::{Input, Program, Rooms};
use crate::commands::commands_of;
use crate::console::{self, Maker, What};
use crate::file::{self, Contents, Values};
use crate::format::{list_value, numbers, Refusal};
use crate::inputs::{MadeText, RoomMaker};
use crate::iptables::{from_iptables, listing_text};
use crate::judge::judge;
use crate::plan::plan_contents;
use crate::policy::{self, Decision, Policy, PolicyValues};
use crate::replay::{self, RunningList};
use crate::rule::Flow;
use crate::show::show_text;
use crate::text::{self, judge_text, plan_text};

type Outcome = (u32, Vec<usize>);
type Scripted<'a> = Result<(Contents<'a>, &'a [u8]), Refusal>;

const NO_ROOM: u32 = 13;

fn outcome<T>(answer: Result<T, Refusal>, accepted: impl FnOnce(T) -> Outcome) -> Outcome {
    match answer {
        Ok(answer) => accepted(answer),
        Err(Refusal { number, position }) => (u32::from(number), vec![position]),
    }
}

fn done<T>(answer: Result<T, Refusal>, values: impl FnOnce(T) -> Vec<usize>) -> Outcome {
    outcome(answer, |answer| (0, values(answer)))
}

/// Start and size of a part of a file.
fn span(file: &[u8], part: &[u8]) -> [usize; 2] {
    [part.as_ptr() as usize - file.as_ptr() as usize, part.len()]
}

fn places(file: &[u8], contents: &Contents) -> Vec<usize> {
    let mut all = vec![contents.rules.len()];
    all.extend(span(file, contents.initial));
    all.extend(span(file, contents.target));
    for part in [contents.default, contents.keep, contents.script] {
        all.push(usize::from(part.is_some()));
        all.extend(part.map_or([0, 0], |part| span(file, part)));
    }
    all
}

fn decision(decision: Decision) -> Vec<usize> {
    vec![usize::from(decision.permit), decision.place]
}

fn decide_file(file: &[u8], of_target: bool, flow: &Flow) -> Outcome {
    done(file::read(file), |contents| decision(policy::decide(&contents.rules, Policy::of(&contents, of_target), flow)))
}

fn written(bytes: Result<usize, Refusal>) -> Outcome {
    done(bytes, |bytes| vec![bytes])
}

fn planned(kind: u8, contents: Result<Contents, Refusal>, place: &mut [u8]) -> Outcome {
    let plan = contents.and_then(|contents| plan_contents(kind, &contents, place));
    done(plan, |plan| vec![plan.kept, plan.commands, plan.bytes])
}

fn replayed(scripted: Scripted, place: &mut [u8]) -> Outcome {
    outcome(scripted, |(contents, script)| {
        let mut list = RunningList::new(&numbers(contents.initial), contents.rules.len());
        match replay::replay(&mut list, &commands_of(script), |_, _| ()) {
            Err(broken) => (u32::from(broken.number), vec![broken.step]),
            Ok(()) => written(file::put(&list_value(list.rules()), place)),
        }
    })
}

fn judged(scripted: Scripted) -> Outcome {
    outcome(scripted, |(contents, script)| {
        let (initial, target) = (numbers(contents.initial), numbers(contents.target));
        let numbers = judge(contents.rules.len(), &initial, &target, &commands_of(script)).numbers();
        (numbers[0] as u32, numbers[1..].to_vec())
    })
}

fn put_text(text: &str, place: &mut [u8]) -> Outcome {
    written(file::put(text.as_bytes(), place))
}

/// What is refused for its room alone comes last.
fn put_bytes(bytes: Result<Vec<u8>, Refusal>, place: &mut [u8]) -> Outcome {
    written(bytes.and_then(|bytes| file::put(&bytes, place)))
}

/// Values tested with the script that is lent beside them.
fn scripted<'a>(values: &Values<'a>, script: &'a [u8]) -> Scripted<'a> {
    file::check(&Values { script: Some(script), ..*values }).map(|contents| (contents, script))
}

/// The replay is given neither a target nor a keep list.
fn to_replay(input: &Input) -> Scripted<'_> {
    let values = Values { target: &[], keep: None, ..input.made.values() };
    scripted(&values, input.lent_script())
}

/// A room about as large as these bytes need.
fn of_bytes(maker: &mut RoomMaker, bytes: Result<Vec<u8>, Refusal>) -> usize {
    maker.room(bytes.ok().map(|bytes| bytes.len()))
}

/// Rooms about as large as what is to be written.
pub fn rooms(input: &Input, maker: &mut RoomMaker) -> Rooms {
    let mut room = |(number, values): Outcome| maker.room((number == NO_ROOM).then(|| values[0]));
    let file = &input.file;
    Rooms {
        plans: [1, 2].map(|kind| room(planned(kind, file::read(file), &mut []))),
        replay: room(replayed(file::read_with_script(file), &mut [])),
        texts: [plan_text(file), judge_text(file), show_text(file)].map(|text| room(put_text(&text, &mut []))),
        replay_values: room(replayed(to_replay(input), &mut [])),
        flows: maker.room(Some(policy::DECISION_BYTES * input.flows.len())),
        script_texts: Maker::BOTH.map(|of| of_bytes(maker, console::script_text(input.lent_script(), of))),
        file_texts: What::ALL.map(|what| Maker::BOTH.map(|of| of_bytes(maker, console::file_text(file, what, of)))),
        text_scripts: std::array::from_fn(|index| {
            let MadeText { text, kind, maker: of } = &input.texts[index];
            of_bytes(maker, console::text_script(text, *kind, *of))
        }),
        listings: std::array::from_fn(|index| of_bytes(maker, from_iptables(&input.listings[index]))),
    }
}

fn lend(entry: &'static str, room: usize, call: impl FnOnce(&mut [u8]) -> Outcome) -> Answer {
    Answer::lend(entry, room, |place, words| {
        let (number, values) = call(place);
        for (word, value) in words.iter_mut().zip(values) {
            *word = value as u64;
        }
        number
    })
}

fn over_files(input: &Input) -> Vec<Answer> {
    let (file, rooms) = (&input.file, &input.rooms);
    let mut all = vec![
        lend("read file", 0, |_| done(file::read(file), |contents| places(file, &contents))),
        lend("read file to judge", 0, |_| done(file::read_with_script(file), |(contents, _)| places(file, &contents))),
        lend("replay file", rooms.replay, |place| replayed(file::read_with_script(file), place)),
        lend("plan 1 file", rooms.plans[0], |place| planned(1, file::read(file), place)),
        lend("plan 2 file", rooms.plans[1], |place| planned(2, file::read(file), place)),
        lend("judge file", 0, |_| judged(file::read_with_script(file))),
        lend("text of plans", rooms.texts[0], |place| put_text(&plan_text(file), place)),
        lend("text of judge", rooms.texts[1], |place| put_text(&judge_text(file), place)),
        lend("text of file", rooms.texts[2], |place| put_text(&show_text(file), place)),
    ];
    for flow in &input.flows {
        all.extend([false, true].map(|of_target| lend("decide file", 0, |_| decide_file(file, of_target, flow))));
    }
    all.extend([false, true].map(|of_target| {
        lend("decide flows file", rooms.flows, |place| {
            written(policy::decide_flows_file(file, of_target, &input.flow_bytes, place))
        })
    }));
    all
}

fn over_values(input: &Input) -> Vec<Answer> {
    let (values, made) = (&input.made.values(), &input.made);
    let both = [values.initial, values.target];
    let policies = both.map(|list| PolicyValues { rules: values.rules, list, default: values.default });
    let mut all = vec![
        lend("check values", 0, |_| done(file::check(values), |_| vec![])),
        lend("write values", made.file_room, |place| written(file::write(values, place))),
        lend("replay values", input.rooms.replay_values, |place| replayed(to_replay(input), place)),
        lend("plan 1 values", made.plan_room, |place| planned(1, file::check(values), place)),
        lend("plan 2 values", made.plan_room, |place| planned(2, file::check(values), place)),
        lend("judge values", 0, |_| judged(scripted(values, input.lent_script()))),
    ];
    for flow in &input.flows {
        for policy in &policies {
            let decided = policy::decide_values(policy, flow);
            all.push(lend("decide values", 0, |_| done(decided, decision)));
        }
    }
    all.extend(policies.map(|policy| {
        lend("decide flows values", input.rooms.flows, |place| {
            written(policy::decide_flows_values(&policy, &input.flow_bytes, place))
        })
    }));
    all
}

const OF_FILE: [&str; 3] = ["console text of file", "console text of plan 1", "console text of plan 2"];

fn of_texts(input: &Input) -> Vec<Answer> {
    let Rooms { script_texts, file_texts, text_scripts, .. } = input.rooms;
    let mut all = Vec::new();
    for (maker, room) in Maker::BOTH.into_iter().zip(script_texts) {
        let text = console::script_text(input.lent_script(), maker);
        all.push(lend("console text of script", room, |place| put_bytes(text, place)));
    }
    for ((what, rooms), entry) in What::ALL.into_iter().zip(file_texts).zip(OF_FILE) {
        for (maker, room) in Maker::BOTH.into_iter().zip(rooms) {
            let text = console::file_text(&input.file, what, maker);
            all.push(lend(entry, room, |place| put_bytes(text, place)));
        }
    }
    for (made, room) in input.texts.iter().zip(text_scripts) {
        let field = console::text_script(&made.text, made.kind, made.maker);
        all.push(lend("script of console text", room, |place| put_bytes(field, place)));
    }
    all
}

fn of_listings(input: &Input) -> Vec<Answer> {
    let mut all = Vec::new();
    for (listing, room) in input.listings.iter().zip(input.rooms.listings) {
        all.push(lend("file of listing", room, |place| put_bytes(from_iptables(listing), place)));
    }
    all
}

fn printed(program: Program, input: &[u8]) -> Vec<u8> {
    match program {
        Program::Planlist => plan_text(input).into_bytes(),
        Program::Judgelist => judge_text(input).into_bytes(),
        Program::Showlist => show_text(input).into_bytes(),
        Program::Scripttext(maker, what) => text::printed(console::file_text(input, what, maker)),
        Program::Textscript(maker, kind) => text::printed(console::text_script(input, kind, maker)),
        Program::Fromiptables => listing_text(input),
    }
}

pub fn ours(input: &Input) -> Answers {
    let mut entries = over_files(input);
    entries.extend(over_values(input));
    entries.extend(of_texts(input));
    entries.extend(of_listings(input));
    let print = |(program, input)| (program, printed(program, input));
    Answers { printed: input.questions().into_iter().map(print).collect(), entries: Some(entries) }
}
