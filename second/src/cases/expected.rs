//! What the program `entry_cases` must print for a case; and the words that it
//! shares with the programs for reader and writer.

use super::case::{Case, Over};
use super::given::Given;
use crate::answers::LENT_BYTE;
use crate::commands::commands_of;
use crate::file::{self, Contents, Values};
use crate::format::{list_value, numbers, Refusal};
use crate::judge::judge;
use crate::plan::plan_contents;
use crate::policy::{self, Decision, Policy, PolicyValues};
use crate::replay::{self, RunningList};

/// Contents with the script that is to be replayed.
type Scripted<'a> = Result<(Contents<'a>, &'a [u8]), Refusal>;

pub fn or_refused<T>(answer: Result<T, Refusal>, say: impl FnOnce(T) -> String) -> String {
    match answer {
        Ok(answer) => say(answer),
        Err(Refusal { number, position }) => format!("refused {number} at {position}"),
    }
}

/// The primes of checksums: the greatest of four bytes, and of two.
const WIDE_PRIME: u64 = 4_294_967_291;
pub const NARROW_PRIME: u64 = 65_521;

/// A checksum of every byte: a polynomial modulo a prime.
pub fn checksum(bytes: &[u8], prime: u64) -> u64 {
    bytes.iter().fold(1, |sum, &byte| (sum * 257 + u64::from(byte)) % prime)
}

/// What a call says that is lent a place, and the place's checksum afterwards.
fn lent(room: usize, call: impl FnOnce(&mut [u8]) -> String) -> String {
    let mut place = vec![LENT_BYTE; room];
    let said = call(&mut place);
    format!("{said} place {}", checksum(&place, WIDE_PRIME))
}

/// Start and size of a part of a file.
fn span(file: &[u8], part: &[u8]) -> String {
    format!("{} {}", part.as_ptr() as usize - file.as_ptr() as usize, part.len())
}

fn reading(file: &[u8], contents: &Contents) -> String {
    let Contents { rules, initial, target, default, keep, script } = contents;
    let optional = |part: &Option<&[u8]>| part.map_or("none".to_string(), |part| span(file, part));
    format!(
        "rules {} initial {} target {} default {} keep {} script {}",
        rules.len(),
        span(file, initial),
        span(file, target),
        optional(default),
        optional(keep),
        optional(script)
    )
}

/// What is read of a file: the refusal, or where its values stand.
pub fn read_line(bytes: &[u8]) -> String {
    or_refused(file::read(bytes), |contents| reading(bytes, &contents))
}

fn decision(decision: Decision) -> String {
    format!("{} {}", if decision.permit { "permit" } else { "deny" }, decision.place)
}

fn verdict(scripted: Scripted) -> String {
    or_refused(scripted, |(contents, script)| {
        let (initial, target) = (numbers(contents.initial), numbers(contents.target));
        let verdict = judge(contents.rules.len(), &initial, &target, &commands_of(script));
        let numbers: Vec<String> = verdict.numbers().iter().map(usize::to_string).collect();
        format!("verdict {}", numbers.join(" "))
    })
}

fn replayed(scripted: Scripted, place: &mut [u8]) -> String {
    or_refused(scripted, |(contents, script)| {
        let mut list = RunningList::new(&numbers(contents.initial), contents.rules.len());
        match replay::replay(&mut list, &commands_of(script), |_, _| ()) {
            Err(broken) => format!("broken {} at {}", broken.number, broken.step),
            Ok(()) => or_refused(file::put(&list_value(list.rules()), place), |bytes| format!("ended {bytes}")),
        }
    })
}

fn planned(kind: u8, contents: &Result<Contents, Refusal>, place: &mut [u8]) -> String {
    let answer = contents.as_ref().map_err(|&refusal| refusal);
    or_refused(answer.and_then(|contents| plan_contents(kind, contents, place)), |plan| {
        format!("kept {} commands {} bytes {}", plan.kept, plan.commands, plan.bytes)
    })
}

/// The lines of judge, replay and planners, which both kinds of entries have.
fn later_lines(room: usize, contents: Result<Contents, Refusal>, judged: Scripted, replay: Scripted) -> String {
    let judge = verdict(judged);
    let replay = lent(room, |place| replayed(replay, place));
    let [one, two] = [1, 2].map(|kind| lent(room, |place| planned(kind, &contents, place)));
    format!("judge {judge}\nreplay {replay}\nplan 1 {one}\nplan 2 {two}\n")
}

/// The lines of many flows, decided by both policies.
fn flow_lines(room: usize, mut decide: impl FnMut(bool, &mut [u8]) -> Result<usize, Refusal>) -> String {
    let [initial, target] = [false, true]
        .map(|of_target| lent(room, |place| or_refused(decide(of_target, place), |bytes| format!("bytes {bytes}"))));
    format!("flows by initial {initial}\nflows by target {target}\n")
}

fn file_text(bytes: &[u8], case: &Case) -> String {
    let Case { flow, room, .. } = case;
    let contents = file::read(bytes);
    let scripted = file::read_with_script(bytes);
    let read = read_line(bytes);
    let to_judge = or_refused(scripted.clone(), |(contents, _)| reading(bytes, &contents));
    let [initial, target] = [false, true].map(|of_target| {
        let decided = |contents: Contents| policy::decide(&contents.rules, Policy::of(&contents, of_target), flow);
        or_refused(contents.clone(), |contents| decision(decided(contents)))
    });
    let first = format!("read {read}\nread to judge {to_judge}\ninitial {initial}\ntarget {target}\n");
    let flows = flow_lines(*room, |of_target, place| policy::decide_flows_file(bytes, of_target, &case.flows, place));
    first + &later_lines(*room, contents, scripted.clone(), scripted) + &flows
}

fn checked<'a>(values: &Values<'a>, script: &'a [u8]) -> Scripted<'a> {
    file::check(&Values { script: Some(script), ..*values }).map(|contents| (contents, script))
}

fn lists_text(given: &Given, case: &Case) -> String {
    let Case { flow, room, .. } = case;
    let values = given.values();
    let contents = file::check(&values);
    let check = match &contents {
        Ok(_) => "good".to_string(),
        Err(refusal) => refusal.number.to_string(),
    };
    let both = [values.initial, values.target];
    let policies = both.map(|list| PolicyValues { rules: values.rules, list, default: values.default });
    let [initial, target] = policies.map(|policy| or_refused(policy::decide_values(&policy, flow), decision));
    let first = format!("check {check}\ninitial {initial}\ntarget {target}\n");
    let judged = checked(&values, given.lent_script());
    // The replay is given neither a target nor a keep list.
    let replay = checked(&Values { target: &[], keep: None, ..values }, given.lent_script());
    let flows = flow_lines(*room, |of_target, place| {
        policy::decide_flows_values(&policies[usize::from(of_target)], &case.flows, place)
    });
    first + &later_lines(*room, contents, judged, replay) + &flows
}

pub fn text(case: &Case) -> String {
    match &case.over {
        Over::File(file) => file_text(file, case),
        Over::Lists(given) => lists_text(given, case),
    }
}
