//! The verified library as `c/pageoriole.h` declares it, each function with its
//! slices put together. The number is returned, its values stand in `answer`.

use crate::console::{Maker, What};
use crate::file::Values;
use crate::policy::PolicyValues;
use crate::rule::Flow;

type Bytes = *const u8;
type Place = *mut u8;
type Words = *mut u64;
type Reads = unsafe extern "C" fn(Bytes, usize, Words, usize) -> u32;
type Writes = unsafe extern "C" fn(Bytes, usize, Place, usize, Words, usize) -> u32;
type WritesFor = unsafe extern "C" fn(Bytes, usize, bool, Place, usize, Words, usize) -> u32;

#[rustfmt::skip]
type Plans = unsafe extern "C" fn(
    Bytes, usize, Bytes, usize, Bytes, usize, bool, Bytes, usize, bool, Bytes, usize, bool, Bytes, usize, Place,
    usize, Words, usize,
) -> u32;

#[rustfmt::skip]
extern "C" {
    fn pageoriole_read(file: Bytes, size: usize, answer: Words, words: usize) -> u32;
    fn pageoriole_read_to_judge(file: Bytes, size: usize, answer: Words, words: usize) -> u32;
    fn pageoriole_judge_file(file: Bytes, size: usize, answer: Words, words: usize) -> u32;
    fn pageoriole_replay_file(file: Bytes, size: usize, place: Place, room: usize, answer: Words, words: usize) -> u32;
    fn pageoriole_plan_one_file(file: Bytes, size: usize, place: Place, room: usize, answer: Words, words: usize) -> u32;
    fn pageoriole_plan_two_file(file: Bytes, size: usize, place: Place, room: usize, answer: Words, words: usize) -> u32;
    fn pageoriole_plan_text(file: Bytes, size: usize, place: Place, room: usize, answer: Words, words: usize) -> u32;
    fn pageoriole_judge_text(file: Bytes, size: usize, place: Place, room: usize, answer: Words, words: usize) -> u32;
    fn pageoriole_show_text(file: Bytes, size: usize, place: Place, room: usize, answer: Words, words: usize) -> u32;
    fn pageoriole_decide_file(
        file: Bytes, size: usize, of_target: bool, protocol: u8, source: u32, source_port: u16, destination: u32,
        destination_port: u16, answer: Words, words: usize,
    ) -> u32;
    fn pageoriole_decide(
        rules: Bytes, rules_size: usize, policy: Bytes, policy_size: usize, has_default: bool, default_value: Bytes,
        default_size: usize, protocol: u8, source: u32, source_port: u16, destination: u32, destination_port: u16,
        answer: Words, words: usize,
    ) -> u32;
    fn pageoriole_decide_flows(
        rules: Bytes, rules_size: usize, policy: Bytes, policy_size: usize, has_default: bool, default_value: Bytes,
        default_size: usize, flows: Bytes, flows_size: usize, place: Place, room: usize, answer: Words, words: usize,
    ) -> u32;
    fn pageoriole_decide_flows_file(
        file: Bytes, size: usize, of_target: bool, flows: Bytes, flows_size: usize, place: Place, room: usize,
        answer: Words, words: usize,
    ) -> u32;
    fn pageoriole_check(
        rules: Bytes, rules_size: usize, initial: Bytes, initial_size: usize, target: Bytes, target_size: usize,
        has_default: bool, default_value: Bytes, default_size: usize, has_keep: bool, keep: Bytes, keep_size: usize,
        has_script: bool, script: Bytes, script_size: usize,
        answer: Words, words: usize,
    ) -> u32;
    fn pageoriole_write(
        rules: Bytes, rules_size: usize, initial: Bytes, initial_size: usize, target: Bytes, target_size: usize,
        has_default: bool, default_value: Bytes, default_size: usize, has_keep: bool, keep: Bytes, keep_size: usize,
        has_script: bool, script: Bytes, script_size: usize,
        place: Place, room: usize, answer: Words, words: usize,
    ) -> u32;
    fn pageoriole_plan_one(
        rules: Bytes, rules_size: usize, initial: Bytes, initial_size: usize, target: Bytes, target_size: usize,
        has_default: bool, default_value: Bytes, default_size: usize, has_keep: bool, keep: Bytes, keep_size: usize,
        has_script: bool, script: Bytes, script_size: usize,
        place: Place, room: usize, answer: Words, words: usize,
    ) -> u32;
    fn pageoriole_plan_two(
        rules: Bytes, rules_size: usize, initial: Bytes, initial_size: usize, target: Bytes, target_size: usize,
        has_default: bool, default_value: Bytes, default_size: usize, has_keep: bool, keep: Bytes, keep_size: usize,
        has_script: bool, script: Bytes, script_size: usize,
        place: Place, room: usize, answer: Words, words: usize,
    ) -> u32;
    fn pageoriole_replay(
        rules: Bytes, rules_size: usize, initial: Bytes, initial_size: usize, has_default: bool, default_value: Bytes,
        default_size: usize, script: Bytes, script_size: usize, place: Place, room: usize, answer: Words, words: usize,
    ) -> u32;
    fn pageoriole_judge(
        rules: Bytes, rules_size: usize, initial: Bytes, initial_size: usize, target: Bytes, target_size: usize,
        has_default: bool, default_value: Bytes, default_size: usize, has_keep: bool, keep: Bytes, keep_size: usize,
        script: Bytes, script_size: usize, answer: Words, words: usize,
    ) -> u32;
    fn pageoriole_script_text(
        script: Bytes, script_size: usize, maker_b: bool, place: Place, room: usize, answer: Words, words: usize,
    ) -> u32;
    fn pageoriole_script_text_file(
        file: Bytes, size: usize, maker_b: bool, place: Place, room: usize, answer: Words, words: usize,
    ) -> u32;
    fn pageoriole_plan_one_text(
        file: Bytes, size: usize, maker_b: bool, place: Place, room: usize, answer: Words, words: usize,
    ) -> u32;
    fn pageoriole_plan_two_text(
        file: Bytes, size: usize, maker_b: bool, place: Place, room: usize, answer: Words, words: usize,
    ) -> u32;
    fn pageoriole_text_script(
        text: Bytes, text_size: usize, kind: u8, maker_b: bool, place: Place, room: usize, answer: Words,
        words: usize,
    ) -> u32;
    fn pageoriole_from_iptables(
        listing: Bytes, size: usize, place: Place, room: usize, answer: Words, words: usize,
    ) -> u32;
}

// Safety, for every call below: a slice's pointer and length belong together,
// and what is lent for writing is borrowed apart from all else.

// ---- Over a file ----

fn reading(entry: Reads, file: &[u8], answer: &mut [u64]) -> u32 {
    unsafe { entry(file.as_ptr(), file.len(), answer.as_mut_ptr(), answer.len()) }
}

fn writing(entry: Writes, file: &[u8], place: &mut [u8], answer: &mut [u64]) -> u32 {
    unsafe { entry(file.as_ptr(), file.len(), place.as_mut_ptr(), place.len(), answer.as_mut_ptr(), answer.len()) }
}

pub fn read(file: &[u8], answer: &mut [u64]) -> u32 {
    reading(pageoriole_read, file, answer)
}

pub fn read_to_judge(file: &[u8], answer: &mut [u64]) -> u32 {
    reading(pageoriole_read_to_judge, file, answer)
}

pub fn judge_file(file: &[u8], answer: &mut [u64]) -> u32 {
    reading(pageoriole_judge_file, file, answer)
}

pub fn replay_file(file: &[u8], place: &mut [u8], answer: &mut [u64]) -> u32 {
    writing(pageoriole_replay_file, file, place, answer)
}

/// The planner of the given type, 1 or 2.
pub fn plan_file(kind: u8, file: &[u8], place: &mut [u8], answer: &mut [u64]) -> u32 {
    let entry: Writes = if kind == 1 { pageoriole_plan_one_file } else { pageoriole_plan_two_file };
    writing(entry, file, place, answer)
}

pub fn plan_text(file: &[u8], place: &mut [u8], answer: &mut [u64]) -> u32 {
    writing(pageoriole_plan_text, file, place, answer)
}

pub fn judge_text(file: &[u8], place: &mut [u8], answer: &mut [u64]) -> u32 {
    writing(pageoriole_judge_text, file, place, answer)
}

pub fn show_text(file: &[u8], place: &mut [u8], answer: &mut [u64]) -> u32 {
    writing(pageoriole_show_text, file, place, answer)
}

#[rustfmt::skip]
pub fn decide_file(file: &[u8], of_target: bool, flow: &Flow, answer: &mut [u64]) -> u32 {
    unsafe {
        pageoriole_decide_file(
            file.as_ptr(), file.len(), of_target, flow.protocol, flow.source, flow.source_port, flow.destination,
            flow.destination_port, answer.as_mut_ptr(), answer.len(),
        )
    }
}

#[rustfmt::skip]
pub fn decide_flows_file(file: &[u8], of_target: bool, flows: &[u8], place: &mut [u8], answer: &mut [u64]) -> u32 {
    unsafe {
        pageoriole_decide_flows_file(
            file.as_ptr(), file.len(), of_target, flows.as_ptr(), flows.len(), place.as_mut_ptr(), place.len(),
            answer.as_mut_ptr(), answer.len(),
        )
    }
}

// ---- Over field values ----

#[rustfmt::skip]
pub fn decide(values: &PolicyValues, flow: &Flow, answer: &mut [u64]) -> u32 {
    let PolicyValues { rules, list, default } = *values;
    let default_value = default.unwrap_or_default();
    unsafe {
        pageoriole_decide(
            rules.as_ptr(), rules.len(), list.as_ptr(), list.len(), default.is_some(), default_value.as_ptr(),
            default_value.len(), flow.protocol, flow.source, flow.source_port, flow.destination,
            flow.destination_port, answer.as_mut_ptr(), answer.len(),
        )
    }
}

#[rustfmt::skip]
pub fn decide_flows(values: &PolicyValues, flows: &[u8], place: &mut [u8], answer: &mut [u64]) -> u32 {
    let PolicyValues { rules, list, default } = *values;
    let default_value = default.unwrap_or_default();
    unsafe {
        pageoriole_decide_flows(
            rules.as_ptr(), rules.len(), list.as_ptr(), list.len(), default.is_some(), default_value.as_ptr(),
            default_value.len(), flows.as_ptr(), flows.len(), place.as_mut_ptr(), place.len(), answer.as_mut_ptr(),
            answer.len(),
        )
    }
}

#[rustfmt::skip]
pub fn check(values: &Values, answer: &mut [u64]) -> u32 {
    let Values { rules, initial, target, .. } = *values;
    let [default, keep, script] = [values.default, values.keep, values.script].map(Option::unwrap_or_default);
    unsafe {
        pageoriole_check(
            rules.as_ptr(), rules.len(), initial.as_ptr(), initial.len(), target.as_ptr(), target.len(),
            values.default.is_some(), default.as_ptr(), default.len(), values.keep.is_some(), keep.as_ptr(),
            keep.len(), values.script.is_some(), script.as_ptr(), script.len(),
            answer.as_mut_ptr(), answer.len(),
        )
    }
}

#[rustfmt::skip]
fn writing_values(entry: Plans, values: &Values, place: &mut [u8], answer: &mut [u64]) -> u32 {
    let Values { rules, initial, target, .. } = *values;
    let [default, keep, script] = [values.default, values.keep, values.script].map(Option::unwrap_or_default);
    unsafe {
        entry(
            rules.as_ptr(), rules.len(), initial.as_ptr(), initial.len(), target.as_ptr(), target.len(),
            values.default.is_some(), default.as_ptr(), default.len(), values.keep.is_some(), keep.as_ptr(),
            keep.len(), values.script.is_some(), script.as_ptr(), script.len(),
            place.as_mut_ptr(), place.len(), answer.as_mut_ptr(), answer.len(),
        )
    }
}

pub fn write(values: &Values, place: &mut [u8], answer: &mut [u64]) -> u32 {
    writing_values(pageoriole_write, values, place, answer)
}

/// The planner of the given type, 1 or 2.
pub fn plan(kind: u8, values: &Values, place: &mut [u8], answer: &mut [u64]) -> u32 {
    let entry: Plans = if kind == 1 { pageoriole_plan_one } else { pageoriole_plan_two };
    writing_values(entry, values, place, answer)
}

/// Replays the given script; a target, a keep list and a script among the values aren't looked at.
#[rustfmt::skip]
pub fn replay(values: &Values, script: &[u8], place: &mut [u8], answer: &mut [u64]) -> u32 {
    let Values { rules, initial, .. } = *values;
    let default = values.default.unwrap_or_default();
    unsafe {
        pageoriole_replay(
            rules.as_ptr(), rules.len(), initial.as_ptr(), initial.len(), values.default.is_some(), default.as_ptr(),
            default.len(), script.as_ptr(), script.len(), place.as_mut_ptr(), place.len(), answer.as_mut_ptr(),
            answer.len(),
        )
    }
}

/// Judges the given script; one among the values isn't looked at.
#[rustfmt::skip]
pub fn judge(values: &Values, script: &[u8], answer: &mut [u64]) -> u32 {
    let Values { rules, initial, target, .. } = *values;
    let [default, keep] = [values.default, values.keep].map(Option::unwrap_or_default);
    unsafe {
        pageoriole_judge(
            rules.as_ptr(), rules.len(), initial.as_ptr(), initial.len(), target.as_ptr(), target.len(),
            values.default.is_some(), default.as_ptr(), default.len(), values.keep.is_some(), keep.as_ptr(),
            keep.len(), script.as_ptr(), script.len(), answer.as_mut_ptr(), answer.len(),
        )
    }
}

// ---- Console text ----

#[rustfmt::skip]
fn writing_for(entry: WritesFor, input: &[u8], maker: Maker, place: &mut [u8], answer: &mut [u64]) -> u32 {
    unsafe {
        entry(
            input.as_ptr(), input.len(), maker == Maker::B, place.as_mut_ptr(), place.len(), answer.as_mut_ptr(),
            answer.len(),
        )
    }
}

/// The text of a script's value.
pub fn script_text(script: &[u8], maker: Maker, place: &mut [u8], answer: &mut [u64]) -> u32 {
    writing_for(pageoriole_script_text, script, maker, place, answer)
}

/// The text of a file's script, or of a plan for it.
pub fn file_text(file: &[u8], what: What, maker: Maker, place: &mut [u8], answer: &mut [u64]) -> u32 {
    let entry: WritesFor = match what {
        What::Own => pageoriole_script_text_file,
        What::PlanOne => pageoriole_plan_one_text,
        What::PlanTwo => pageoriole_plan_two_text,
    };
    writing_for(entry, file, maker, place, answer)
}

/// The script field of a text of this type, which may be none, and maker.
#[rustfmt::skip]
pub fn text_script(text: &[u8], kind: u8, maker: Maker, place: &mut [u8], answer: &mut [u64]) -> u32 {
    unsafe {
        pageoriole_text_script(
            text.as_ptr(), text.len(), kind, maker == Maker::B, place.as_mut_ptr(), place.len(), answer.as_mut_ptr(),
            answer.len(),
        )
    }
}

// ---- Saved iptables rules ----

/// The deployment file of a listing.
pub fn from_iptables(listing: &[u8], place: &mut [u8], answer: &mut [u64]) -> u32 {
    writing(pageoriole_from_iptables, listing, place, answer)
}
