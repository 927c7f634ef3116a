//! Files at and just over the limits of rules, numbers and commands.

use super::damage::Field;
use super::draft::{any_keep, Draft};
use super::random::Random;
use super::scripts;
use crate::format::{MOST_COMMANDS, MOST_IN_POLICY, MOST_RULES};

/// 1,024 rules, or one too many, which may also be wrong in itself.
pub fn full_catalogue(random: &mut Random, over: bool) -> Vec<Field> {
    let mut draft = Draft::of_size(random, MOST_RULES);
    draft.script = scripts::any(random, &draft);
    let mut fields = draft.fields();
    if over {
        let mut extra = fields[random.below(MOST_RULES)].clone();
        extra.value[0] ^= random.pick(&[0, 1, 4]);
        extra.value.truncate(random.pick(&[27, 27, 26, 0]));
        fields.insert(MOST_RULES, extra);
    }
    fields
}

/// Policies of 512 numbers, or one of the lists one number longer.
pub fn full_policies(random: &mut Random, over: bool) -> Vec<Field> {
    let size = random.between(MOST_IN_POLICY + 1, MOST_RULES);
    let mut draft = Draft::of_size(random, size);
    draft.initial = full_policy(random, size);
    draft.target = full_policy(random, size);
    if random.one_in(3) {
        draft.target = draft.initial.clone();
    }
    draft.keep = any_keep(random, &draft.initial, &draft.target);
    draft.script = scripts::any(random, &draft);
    if over {
        lengthen_a_list(random, &mut draft);
    }
    draft.fields()
}

fn full_policy(random: &mut Random, rules: usize) -> Vec<u16> {
    let mut policy: Vec<u16> = (0..rules as u16).collect();
    random.shuffle(&mut policy);
    policy.truncate(MOST_IN_POLICY);
    policy
}

fn lengthen_a_list(random: &mut Random, draft: &mut Draft) {
    let unused = (0..).find(|rule| !draft.initial.contains(rule)).expect("a rule not in the policy");
    match random.below(3) {
        0 => draft.initial.push(unused),
        1 => draft.target.push(unused),
        _ => draft.keep = Some([&draft.initial[..], &[unused]].concat()),
    }
}

/// A script of 2,048 commands, or one more, mostly without effect.
pub fn full_script(random: &mut Random, over: bool) -> Vec<Field> {
    let size = random.between(2, 40);
    let mut draft = Draft::of_size(random, size);
    let count = MOST_COMMANDS + usize::from(over);
    draft.script = Some(scripts::padded(random, &draft, count));
    draft.fields()
}
