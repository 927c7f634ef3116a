//! Made field values for the entries that take lists, with rooms for output.

use super::damage::Field;
use super::random::Random;
use crate::commands::script_field;
use crate::file::{check, file_bytes, Values};
use crate::format::{numbers, TAG_DEFAULT, TAG_INITIAL, TAG_KEEP, TAG_RULE, TAG_SCRIPT, TAG_TARGET};
use crate::plan::plan;

/// What is lent where nothing will be written.
pub const ROOM_OF_REFUSED: usize = 64;

/// Field values, and the sizes of the places lent for a script field and a file.
pub struct MadeValues {
    pub rules: Vec<u8>,
    pub initial: Vec<u8>,
    pub target: Vec<u8>,
    pub default: Option<Vec<u8>>,
    pub keep: Option<Vec<u8>>,
    pub script: Option<Vec<u8>>,
    pub plan_room: usize,
    pub file_room: usize,
}

impl MadeValues {
    pub fn values(&self) -> Values<'_> {
        Values {
            rules: &self.rules,
            initial: &self.initial,
            target: &self.target,
            default: self.default.as_deref(),
            keep: self.keep.as_deref(),
            script: self.script.as_deref(),
        }
    }
}

fn first_value(fields: &[Field], tag: u8) -> Option<Vec<u8>> {
    fields.iter().find(|field| field.tag == tag).map(|field| field.value.clone())
}

/// Bytes of a script field and of a file, had they room enough.
fn needed(random: &mut Random, values: &Values) -> (usize, usize) {
    let Ok(contents) = check(values) else { return (ROOM_OF_REFUSED, ROOM_OF_REFUSED) };
    let keep = contents.keep.map(numbers);
    let kind = random.pick(&[1, 2]);
    let plan = plan(kind, &numbers(contents.initial), &numbers(contents.target), keep.as_deref());
    (script_field(kind, &plan.commands).len(), file_bytes(&contents).len())
}

/// A room about as large as needed: too small, just enough, or larger.
pub fn any_room(random: &mut Random, needed: usize) -> usize {
    match random.below(8) {
        0 => 0,
        1 => needed.saturating_sub(1),
        2 => random.between(0, needed),
        3 | 4 => needed,
        _ => needed + random.below(40),
    }
}

/// The values of the fields, as far as there are such fields.
pub fn gather(random: &mut Random, fields: &[Field]) -> MadeValues {
    let rules = fields.iter().filter(|field| field.tag == TAG_RULE);
    let mut made = MadeValues {
        rules: rules.flat_map(|field| field.value.iter().copied()).collect(),
        initial: first_value(fields, TAG_INITIAL).unwrap_or_default(),
        target: first_value(fields, TAG_TARGET).unwrap_or_default(),
        default: first_value(fields, TAG_DEFAULT),
        keep: first_value(fields, TAG_KEEP),
        script: first_value(fields, TAG_SCRIPT),
        plan_room: 0,
        file_room: 0,
    };
    let (for_plan, for_file) = needed(random, &made.values());
    made.plan_room = any_room(random, for_plan);
    made.file_room = any_room(random, for_file);
    made
}
