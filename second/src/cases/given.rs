//! Field values for cases, and how they are put together.

use crate::commands::{commands_of, script_value, Command};
use crate::file::Values;
use crate::format::{
    add_field, list_value, numbers, RULE_BYTES, TAG_DEFAULT, TAG_INITIAL, TAG_KEEP, TAG_RULE, TAG_SCRIPT, TAG_TARGET,
};
use crate::plan::plan;
use crate::rule::plain_rule;

/// Lent for a default, a keep list and a script that are said to be absent.
const ABSENT_DEFAULT: [u8; 1] = [8];
const ABSENT_KEEP: [u8; 1] = [7];
const ABSENT_SCRIPT: [u8; 1] = [9];

/// Field values as they are given, sound or not.
#[derive(Clone, Debug, Default)]
pub struct Given {
    pub rules: Vec<u8>,
    pub initial: Vec<u8>,
    pub target: Vec<u8>,
    pub default: Option<Vec<u8>>,
    pub keep: Option<Vec<u8>>,
    pub script: Option<Vec<u8>>,
}

impl Given {
    pub fn values(&self) -> Values<'_> {
        Values {
            rules: &self.rules,
            initial: &self.initial,
            target: &self.target,
            default: self.default.as_deref(),
            keep: self.keep.as_deref(),
            script: self.script.as_deref(),
        }
    }

    /// The script's bytes, also where it is said to be absent.
    pub fn lent_script(&self) -> &[u8] {
        self.script.as_deref().unwrap_or(&ABSENT_SCRIPT)
    }

    pub fn lent_default(&self) -> &[u8] {
        self.default.as_deref().unwrap_or(&ABSENT_DEFAULT)
    }

    pub fn lent_keep(&self) -> &[u8] {
        self.keep.as_deref().unwrap_or(&ABSENT_KEEP)
    }

    /// The fields of a file of these values; bytes that are too many for a rule stand in one more.
    pub fn fields(&self) -> Vec<Vec<u8>> {
        let rules = self.rules.chunks(RULE_BYTES).map(|rule| field(TAG_RULE, rule));
        let policies = [field(TAG_INITIAL, &self.initial), field(TAG_TARGET, &self.target)];
        let default = self.default.iter().map(|value| field(TAG_DEFAULT, value));
        let keep = self.keep.iter().map(|value| field(TAG_KEEP, value));
        let script = self.script.iter().map(|value| field(TAG_SCRIPT, value));
        rules.chain(policies).chain(default).chain(keep).chain(script).collect()
    }

    pub fn file(&self) -> Vec<u8> {
        self.fields().concat()
    }

    /// With default permit.
    pub fn permitting(self) -> Given {
        Given { default: Some(vec![1]), ..self }
    }

    pub fn keep(self, keep: &[u16]) -> Given {
        Given { keep: Some(list_value(keep)), ..self }
    }

    pub fn script(self, kind: u8, commands: &[Command]) -> Given {
        Given { script: Some(script_value(kind, commands)), ..self }
    }

    /// With the planner's script.
    pub fn planned(self, kind: u8) -> Given {
        let keep = self.keep.as_deref().map(numbers);
        let plan = plan(kind, &numbers(&self.initial), &numbers(&self.target), keep.as_deref());
        self.script(kind, &plan.commands)
    }

    pub fn commands(&self) -> Vec<Command> {
        self.script.as_deref().map(commands_of).unwrap_or_default()
    }
}

/// The bytes of a field.
pub fn field(tag: u8, value: &[u8]) -> Vec<u8> {
    let mut bytes = Vec::new();
    add_field(&mut bytes, tag, value);
    bytes
}

/// Policies over so many plain rules.
pub fn given(rules: u16, initial: &[u16], target: &[u16]) -> Given {
    let rules = (0..rules).flat_map(plain_rule).collect();
    Given { rules, initial: list_value(initial), target: list_value(target), ..Given::default() }
}
