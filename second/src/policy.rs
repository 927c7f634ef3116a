//! Policies, and the first-match decision of flows by them.

use crate::file::{self, Contents};
use crate::format::Refusal;
use crate::rule::{matches, Flow, FLOW_BYTES};

/// The bytes of the answer for a flow, where many are asked about at once.
pub const DECISION_BYTES: usize = 3;

/// The answer for a flow: permit or deny, and the deciding place (0: default).
#[derive(Clone, Copy, Debug, PartialEq, Eq)]
pub struct Decision {
    pub permit: bool,
    pub place: usize,
}

/// A list together with its default: the list's value, and whether a flow that
/// no rule of it matches is permitted.
#[derive(Clone, Copy, Debug)]
pub struct Policy<'a> {
    pub list: &'a [u8],
    pub permits: bool,
}

impl<'a> Policy<'a> {
    /// One of the two policies of accepted contents: both have the same default.
    pub fn of(contents: &Contents<'a>, of_target: bool) -> Policy<'a> {
        let list = if of_target { contents.target } else { contents.initial };
        Policy { list, permits: file::permits(contents.default) }
    }
}

/// Decides a flow by a policy over the rules of accepted contents.
pub fn decide(rules: &[&[u8]], policy: Policy, flow: &Flow) -> Decision {
    for (index, pair) in policy.list.chunks_exact(2).enumerate() {
        let rule = rules[usize::from(u16::from_be_bytes([pair[0], pair[1]]))];
        if matches(rule, flow) {
            return Decision { permit: rule[0] == 1, place: index + 1 };
        }
    }
    Decision { permit: policy.permits, place: 0 }
}

/// Field values of one policy, as a caller hands them over.
#[derive(Clone, Copy, Debug)]
pub struct PolicyValues<'a> {
    pub rules: &'a [u8],
    pub list: &'a [u8],
    pub default: Option<&'a [u8]>,
}

impl<'a> PolicyValues<'a> {
    /// Tests the rules, the list, then the default.
    fn check(&self) -> Result<(Vec<&'a [u8]>, Policy<'a>), Refusal> {
        let rules = file::check_rules(self.rules)?;
        file::check_policy(self.list, rules.len())?;
        file::check_default(self.default)?;
        Ok((rules, Policy { list: self.list, permits: file::permits(self.default) }))
    }
}

/// The same over field values, tested first.
pub fn decide_values(values: &PolicyValues, flow: &Flow) -> Result<Decision, Refusal> {
    let (rules, policy) = values.check()?;
    Ok(decide(&rules, policy, flow))
}

/// Decides flows of 13 bytes by a policy over the rules of accepted contents:
/// for each, action and two-byte place in the first bytes of `place`.
pub fn decide_flows(rules: &[&[u8]], policy: Policy, flows: &[u8], place: &mut [u8]) -> Result<usize, Refusal> {
    if !flows.len().is_multiple_of(FLOW_BYTES) {
        return Err(Refusal { number: 4, position: 0 });
    }
    let needed = DECISION_BYTES * (flows.len() / FLOW_BYTES);
    let room = place.get_mut(..needed).ok_or(Refusal { number: 13, position: needed })?;
    for (flow, answer) in flows.chunks_exact(FLOW_BYTES).zip(room.chunks_exact_mut(DECISION_BYTES)) {
        let Decision { permit, place } = decide(rules, policy, &Flow::of_bytes(flow));
        answer[0] = u8::from(permit);
        answer[1..].copy_from_slice(&(place as u16).to_be_bytes());
    }
    Ok(needed)
}

/// The same over field values, tested first.
pub fn decide_flows_values(values: &PolicyValues, flows: &[u8], place: &mut [u8]) -> Result<usize, Refusal> {
    let (rules, policy) = values.check()?;
    decide_flows(&rules, policy, flows, place)
}

/// The same over a file, by its target policy or by its initial one.
pub fn decide_flows_file(file: &[u8], of_target: bool, flows: &[u8], place: &mut [u8]) -> Result<usize, Refusal> {
    let contents = file::read(file)?;
    decide_flows(&contents.rules, Policy::of(&contents, of_target), flows, place)
}

#[cfg(test)]
mod tests {
    use super::*;

    const GRE: Flow = Flow { protocol: 47, source: 1, source_port: 0, destination: 2, destination_port: 0 };
    const DEFAULTS: [Option<&[u8]>; 2] = [None, Some(&[1])];

    fn permit_port_zero() -> Vec<u8> {
        let mut rule = vec![1, 0, 255];
        rule.extend([[0; 4], [255; 4]].concat());
        rule.extend([0, 0, 255, 255]);
        rule.extend([[0; 4], [255; 4]].concat());
        rule.extend([0, 0, 0, 0]);
        rule
    }

    #[test]
    fn an_empty_policy_decides_by_its_default_at_place_0() {
        for permits in [false, true] {
            assert_eq!(decide(&[], Policy { list: &[], permits }, &GRE), Decision { permit: permits, place: 0 });
        }
    }

    #[test]
    fn ports_are_compared_for_every_protocol() {
        let rules = permit_port_zero();
        let other = Flow { destination_port: 1, ..GRE };
        for default in DEFAULTS {
            let values = PolicyValues { rules: &rules, list: &[0, 0], default };
            assert_eq!(decide_values(&values, &GRE), Ok(Decision { permit: true, place: 1 }));
            assert_eq!(decide_values(&values, &other), Ok(Decision { permit: default.is_some(), place: 0 }));
        }
    }

    #[test]
    fn the_first_match_decides() {
        let permit = permit_port_zero();
        let mut deny = permit.clone();
        deny[0] = 0;
        let rules = [permit.as_slice(), deny.as_slice()];
        for permits in [false, true] {
            let decide = |list: &[u8]| decide(&rules, Policy { list, permits }, &GRE);
            assert_eq!(decide(&[0, 1, 0, 0]), Decision { permit: false, place: 1 });
            assert_eq!(decide(&[0, 0, 0, 1]), Decision { permit: true, place: 1 });
        }
    }

    #[test]
    fn both_policies_of_a_file_have_its_default() {
        let file = |default: &[u8]| [&[2, 0, 0, 3, 0, 0], default].concat();
        for (file, permit) in [(file(&[]), 0), (file(&[6, 0, 1, 1]), 1)] {
            for of_target in [false, true] {
                let mut place = [7; 3];
                assert_eq!(decide_flows_file(&file, of_target, &GRE.bytes(), &mut place), Ok(3));
                assert_eq!(place, [permit, 0, 0]);
            }
        }
    }

    #[test]
    fn flows_are_decided_one_by_one() {
        let rules = permit_port_zero();
        let other = Flow { source_port: 0x0102, destination_port: 0x0304, ..GRE };
        let flows = [GRE.bytes(), other.bytes()].concat();
        assert_eq!(flows[13..], [47, 0, 0, 0, 1, 1, 2, 0, 0, 0, 2, 3, 4]);
        for default in DEFAULTS {
            let mut place = [7; 8];
            let values = PolicyValues { rules: &rules, list: &[0, 0], default };
            assert_eq!(decide_flows_values(&values, &flows, &mut place), Ok(6));
            assert_eq!(place, [1, 0, 1, u8::from(default.is_some()), 0, 0, 7, 7]);
        }
    }

    #[test]
    fn flows_are_refused_after_the_values_and_before_the_room() {
        let rules = permit_port_zero();
        let mut place = [7; 2];
        let mut number = |list: &[u8], default: Option<&[u8]>, size: usize| {
            let values = PolicyValues { rules: &rules, list, default };
            let refusal = decide_flows_values(&values, &vec![0; size], &mut place).unwrap_err();
            (refusal.number, refusal.position)
        };
        assert_eq!(number(&[0, 1], Some(&[]), 14), (8, 0));
        assert_eq!(number(&[0, 0], Some(&[]), 14), (4, 0));
        assert_eq!(number(&[0, 0], Some(&[2]), 14), (50, 0));
        assert_eq!(number(&[0, 0], Some(&[1]), 14), (4, 0));
        assert_eq!(number(&[0, 0], None, 26), (13, 6));
        assert_eq!(place, [7; 2]);
    }
}
