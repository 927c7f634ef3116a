//! The deployment file: reader, writer, and the refusals 1 to 13 and 50.
//!
//! `read` takes a whole file; `check` takes field values and tests them in the
//! order that "Turned away" gives for entries that take lists.

use crate::commands::Command;
use crate::format::{
    add_field, numbers, Refusal, COMMAND_BYTES, HEAD_BYTES, MOST_COMMANDS, MOST_IN_POLICY, MOST_RULES, RULE_BYTES,
    TAG_DEFAULT, TAG_INITIAL, TAG_KEEP, TAG_RULE, TAG_SCRIPT, TAG_TARGET,
};
use crate::rule::is_rule;
use std::collections::HashSet;

/// An accepted file: each part is the value of a field, lent from the file.
#[derive(Clone, Debug, Default, PartialEq, Eq)]
pub struct Contents<'a> {
    pub rules: Vec<&'a [u8]>,
    pub initial: &'a [u8],
    pub target: &'a [u8],
    pub default: Option<&'a [u8]>,
    pub keep: Option<&'a [u8]>,
    pub script: Option<&'a [u8]>,
}

/// Field values as a caller hands them over; the rules one after another.
#[derive(Clone, Copy, Debug, Default)]
pub struct Values<'a> {
    pub rules: &'a [u8],
    pub initial: &'a [u8],
    pub target: &'a [u8],
    pub default: Option<&'a [u8]>,
    pub keep: Option<&'a [u8]>,
    pub script: Option<&'a [u8]>,
}

// ---- Tests of one value; each gives the refusal's number ----

type Tested = Result<(), u8>;

fn refuse_if(wrong: bool, number: u8) -> Tested {
    if wrong {
        Err(number)
    } else {
        Ok(())
    }
}

fn test_length(tag: u8, length: usize) -> Tested {
    let right = match tag {
        TAG_RULE => length == RULE_BYTES,
        TAG_DEFAULT => length == 1,
        TAG_SCRIPT => length % COMMAND_BYTES == 1 && length / COMMAND_BYTES <= MOST_COMMANDS,
        _ => length.is_multiple_of(2) && length / 2 <= MOST_IN_POLICY,
    };
    refuse_if(!right, 4)
}

fn test_rule<'a>(value: &'a [u8], earlier: &mut HashSet<&'a [u8]>) -> Tested {
    refuse_if(!is_rule(value), 5)?;
    refuse_if(!earlier.insert(value), 6)
}

fn test_policy(value: &[u8], rules: usize) -> Tested {
    let list = numbers(value);
    refuse_if(list.iter().any(|&rule| usize::from(rule) >= rules), 8)?;
    let mut named = [false; MOST_RULES];
    let twice = list.iter().any(|&rule| std::mem::replace(&mut named[usize::from(rule)], true));
    refuse_if(twice, 9)
}

fn test_default(value: &[u8]) -> Tested {
    refuse_if(!permits(Some(value)), 50)
}

/// What a default means: value 1 is permit, absence is deny.
pub fn permits(default: Option<&[u8]>) -> bool {
    default == Some(&[1])
}

/// Whether `part` can be got from `whole` by leaving rules out.
pub fn occurs_in_order(part: &[u16], whole: &[u16]) -> bool {
    let mut rest = whole.iter();
    part.iter().all(|rule| rest.any(|other| other == rule))
}

fn test_keep(value: &[u8], initial: &[u8], target: &[u8]) -> Tested {
    let keep = numbers(value);
    let in_both = occurs_in_order(&keep, &numbers(initial)) && occurs_in_order(&keep, &numbers(target));
    refuse_if(!in_both, 10)
}

fn test_script(value: &[u8]) -> Tested {
    let (kind, commands) = (value[0], &value[1..]);
    let right = matches!(kind, 1 | 2)
        && commands.chunks_exact(COMMAND_BYTES).all(|bytes| Command::decode(kind, bytes).is_some());
    refuse_if(!right, 11)
}

// ---- The reader of a file ----

struct Reader<'a> {
    file: &'a [u8],
    position: usize,
    last_tag: u8,
    seen_rules: HashSet<&'a [u8]>,
    contents: Contents<'a>,
}

fn may_follow(last_tag: u8, tag: u8) -> bool {
    match last_tag {
        0 | TAG_RULE => tag == TAG_RULE || tag == TAG_INITIAL,
        TAG_INITIAL => tag == TAG_TARGET,
        TAG_TARGET => tag == TAG_DEFAULT || tag == TAG_KEEP || tag == TAG_SCRIPT,
        TAG_DEFAULT => tag == TAG_KEEP || tag == TAG_SCRIPT,
        TAG_KEEP => tag == TAG_SCRIPT,
        _ => false,
    }
}

impl<'a> Reader<'a> {
    /// Head and value of the next field; the tests up to "1 for the value".
    fn field(&self) -> Result<(u8, &'a [u8]), u8> {
        let rest = &self.file[self.position..];
        let [tag, high, low, after @ ..] = rest else { return Err(1) };
        refuse_if(!may_follow(self.last_tag, *tag), 2)?;
        refuse_if(*tag == TAG_RULE && self.contents.rules.len() == MOST_RULES, 7)?;
        let length = usize::from(u16::from_be_bytes([*high, *low]));
        test_length(*tag, length)?;
        after.get(..length).map(|value| (*tag, value)).ok_or(1)
    }

    /// The tests of a value against what has been read before it.
    fn take(&mut self, tag: u8, value: &'a [u8]) -> Tested {
        let contents = &mut self.contents;
        match tag {
            TAG_RULE => {
                test_rule(value, &mut self.seen_rules)?;
                contents.rules.push(value);
            }
            TAG_INITIAL => {
                test_policy(value, contents.rules.len())?;
                contents.initial = value;
            }
            TAG_TARGET => {
                test_policy(value, contents.rules.len())?;
                contents.target = value;
            }
            TAG_DEFAULT => {
                test_default(value)?;
                contents.default = Some(value);
            }
            TAG_KEEP => {
                test_keep(value, contents.initial, contents.target)?;
                contents.keep = Some(value);
            }
            _ => {
                test_script(value)?;
                contents.script = Some(value);
            }
        }
        Ok(())
    }

    fn step(&mut self) -> Tested {
        let (tag, value) = self.field()?;
        self.take(tag, value)?;
        self.last_tag = tag;
        self.position += HEAD_BYTES + value.len();
        Ok(())
    }
}

/// Reads a deployment file, copying no value.
pub fn read(file: &[u8]) -> Result<Contents<'_>, Refusal> {
    let mut reader =
        Reader { file, position: 0, last_tag: 0, seen_rules: HashSet::new(), contents: Contents::default() };
    while reader.position < file.len() {
        reader.step().map_err(|number| Refusal { number, position: reader.position })?;
    }
    if reader.last_tag < TAG_TARGET {
        return Err(Refusal { number: 3, position: file.len() });
    }
    Ok(reader.contents)
}

/// Reads a file for the judge, who needs a script in it.
pub fn read_with_script(file: &[u8]) -> Result<(Contents<'_>, &[u8]), Refusal> {
    let contents = read(file)?;
    match contents.script {
        Some(script) => Ok((contents, script)),
        None => Err(Refusal { number: 12, position: file.len() }),
    }
}

// ---- Entries that take field values ----

fn at_zero(tested: Tested) -> Result<(), Refusal> {
    tested.map_err(|number| Refusal { number, position: 0 })
}

/// Tests a catalogue: 4, 7, then 5 and 6 rule by rule.
pub fn check_rules(rules: &[u8]) -> Result<Vec<&[u8]>, Refusal> {
    at_zero(refuse_if(!rules.len().is_multiple_of(RULE_BYTES), 4))?;
    at_zero(refuse_if(rules.len() / RULE_BYTES > MOST_RULES, 7))?;
    let mut earlier = HashSet::new();
    let list: Vec<&[u8]> = rules.chunks_exact(RULE_BYTES).collect();
    for value in &list {
        at_zero(test_rule(value, &mut earlier))?;
    }
    Ok(list)
}

/// Tests one policy against a catalogue: 4, 8, 9.
pub fn check_policy(value: &[u8], rules: usize) -> Result<(), Refusal> {
    at_zero(test_length(TAG_INITIAL, value.len()))?;
    at_zero(test_policy(value, rules))
}

/// Tests a default, if there is one: 4, 50.
pub fn check_default(default: Option<&[u8]>) -> Result<(), Refusal> {
    let Some(value) = default else { return Ok(()) };
    at_zero(test_length(TAG_DEFAULT, value.len()))?;
    at_zero(test_default(value))
}

/// Tests a script: 4, 11.
pub fn check_script(value: &[u8]) -> Result<(), Refusal> {
    at_zero(test_length(TAG_SCRIPT, value.len()))?;
    at_zero(test_script(value))
}

/// Tests all values in the document's order, every refusal at position 0.
pub fn check<'a>(values: &Values<'a>) -> Result<Contents<'a>, Refusal> {
    let rules = check_rules(values.rules)?;
    check_policy(values.initial, rules.len())?;
    check_policy(values.target, rules.len())?;
    check_default(values.default)?;
    if let Some(keep) = values.keep {
        at_zero(test_length(TAG_KEEP, keep.len()))?;
        at_zero(test_keep(keep, values.initial, values.target))?;
    }
    if let Some(script) = values.script {
        check_script(script)?;
    }
    let Values { initial, target, default, keep, script, .. } = *values;
    Ok(Contents { rules, initial, target, default, keep, script })
}

// ---- The writer ----

/// Puts `bytes` first in a lent place, or refuses with 13 and the bytes needed.
pub fn put(bytes: &[u8], place: &mut [u8]) -> Result<usize, Refusal> {
    let room = place.get_mut(..bytes.len()).ok_or(Refusal { number: 13, position: bytes.len() })?;
    room.copy_from_slice(bytes);
    Ok(bytes.len())
}

/// The file of the given contents.
pub fn file_bytes(contents: &Contents) -> Vec<u8> {
    let mut out = Vec::new();
    for rule in &contents.rules {
        add_field(&mut out, TAG_RULE, rule);
    }
    add_field(&mut out, TAG_INITIAL, contents.initial);
    add_field(&mut out, TAG_TARGET, contents.target);
    if let Some(default) = contents.default {
        add_field(&mut out, TAG_DEFAULT, default);
    }
    if let Some(keep) = contents.keep {
        add_field(&mut out, TAG_KEEP, keep);
    }
    if let Some(script) = contents.script {
        add_field(&mut out, TAG_SCRIPT, script);
    }
    out
}

/// Writes the file of the given values into a lent place; gives its length.
pub fn write(values: &Values, place: &mut [u8]) -> Result<usize, Refusal> {
    let contents = check(values)?;
    put(&file_bytes(&contents), place)
}

#[cfg(test)]
mod tests {
    use super::*;
    use crate::format::list_value;
    use crate::rule::plain_rule;

    fn small_file(initial: &[u16], target: &[u16], keep: Option<&[u16]>) -> Vec<u8> {
        let rules: Vec<Vec<u8>> = (0..5).map(plain_rule).collect();
        let (initial, target) = (list_value(initial), list_value(target));
        let keep = keep.map(list_value);
        file_bytes(&Contents {
            rules: rules.iter().map(Vec::as_slice).collect(),
            initial: &initial,
            target: &target,
            default: None,
            keep: keep.as_deref(),
            script: None,
        })
    }

    fn refusal(file: &[u8]) -> (u8, usize) {
        let refusal = read(file).unwrap_err();
        (refusal.number, refusal.position)
    }

    #[test]
    fn an_empty_file_lacks_a_target() {
        assert_eq!(refusal(&[]), (3, 0));
    }

    #[test]
    fn one_or_two_bytes_are_no_head_even_after_the_script() {
        assert_eq!(refusal(&[9]), (1, 0));
        assert_eq!(refusal(&[9, 9]), (1, 0));
        assert_eq!(refusal(&[9, 9, 9]), (2, 0));
        let script = [2, 0, 0, 3, 0, 0, 5, 0, 1, 1];
        assert!(read(&script).is_ok());
        assert_eq!(refusal(&[&script[..], &[5, 0]].concat()), (1, 10));
        assert_eq!(refusal(&[&script[..], &[5, 0, 1]].concat()), (2, 10));
    }

    #[test]
    fn the_catalogue_holds_1024_rules() {
        let mut file = Vec::new();
        for number in 0..1024 {
            add_field(&mut file, TAG_RULE, &plain_rule(number));
        }
        let mut full = file.clone();
        add_field(&mut full, TAG_INITIAL, &[]);
        add_field(&mut full, TAG_TARGET, &[]);
        assert_eq!(read(&full).unwrap().rules.len(), 1024);
        add_field(&mut file, TAG_RULE, &[]);
        assert_eq!(refusal(&file), (7, 1024 * 30));
    }

    #[test]
    fn a_default_stands_behind_the_target() {
        let of = |fields: &[&[u8]]| fields.concat();
        let (policies, default, keep): (&[u8], &[u8], &[u8]) = (&[2, 0, 0, 3, 0, 0], &[6, 0, 1, 1], &[4, 0, 0]);
        assert!(!permits(read(policies).unwrap().default));
        assert!(permits(read(&of(&[policies, default])).unwrap().default));
        assert!(read(&of(&[policies, default, keep, &[5, 0, 1, 1]])).is_ok());
        assert!(read(&of(&[policies, default, &[5, 0, 1, 2]])).is_ok());
        assert_eq!(refusal(default), (2, 0));
        assert_eq!(refusal(&of(&[&policies[..3], default])), (2, 3));
        assert_eq!(refusal(&of(&[policies, keep, default])), (2, 9));
        assert_eq!(refusal(&of(&[policies, &[5, 0, 1, 1], default])), (2, 10));
        assert_eq!(refusal(&of(&[policies, default, default])), (2, 10));
    }

    #[test]
    fn a_default_other_than_permit_is_refused_after_its_length_and_its_cut() {
        let refused = |field: &[u8]| refusal(&[&[2, 0, 0, 3, 0, 0], field].concat());
        assert_eq!(refused(&[6, 0]), (1, 6));
        assert_eq!(refused(&[6, 0, 0]), (4, 6));
        assert_eq!(refused(&[6, 0, 2, 1]), (4, 6));
        assert_eq!(refused(&[6, 0, 1]), (1, 6));
        for value in [0, 2, 255] {
            assert_eq!(refused(&[6, 0, 1, value]), (50, 6));
        }
    }

    #[test]
    fn a_keep_list_out_of_order_is_refused() {
        let file = small_file(&[0, 1, 2], &[2, 0, 1], Some(&[1, 0]));
        assert_eq!(refusal(&file), (10, 5 * 30 + 9 + 9));
        assert!(read(&small_file(&[0, 1, 2], &[2, 0, 1], Some(&[0, 1]))).is_ok());
    }

    #[test]
    fn what_is_read_is_written_back() {
        for keep in [None, Some(&[][..]), Some(&[0u16, 1][..])] {
            let mut file = small_file(&[0, 1, 2], &[2, 0, 1], keep);
            if keep.is_some() {
                file.splice(5 * 30 + 9 + 9..5 * 30 + 9 + 9, [6, 0, 1, 1]);
            }
            let contents = read(&file).unwrap();
            let rules = contents.rules.concat();
            let values = Values {
                rules: &rules,
                initial: contents.initial,
                target: contents.target,
                default: contents.default,
                keep: contents.keep,
                script: contents.script,
            };
            let mut place = vec![7; file.len() + 2];
            assert_eq!(write(&values, &mut place), Ok(file.len()));
            assert_eq!(place[..file.len()], file);
            assert_eq!(place[file.len()..], [7, 7]);
        }
    }

    #[test]
    fn a_small_place_keeps_its_bytes() {
        let mut place = [7; 5];
        assert_eq!(write(&Values::default(), &mut place), Err(Refusal { number: 13, position: 6 }));
        assert_eq!(place, [7; 5]);
    }

    #[test]
    fn values_are_tested_in_the_documents_order() {
        let number = |values: Values| check(&values).unwrap_err().number;
        let rule = plain_rule(0);
        let twice = [rule.clone(), rule.clone()].concat();
        let many = vec![2; 27 * 1025];
        assert_eq!(number(Values { rules: &[0], ..Values::default() }), 4);
        assert_eq!(number(Values { rules: &many, initial: &[0], ..Values::default() }), 7);
        assert_eq!(number(Values { rules: &many[..54], ..Values::default() }), 5);
        assert_eq!(number(Values { rules: &twice, initial: &[0], ..Values::default() }), 6);
        assert_eq!(number(Values { initial: &[0, 0], target: &[0], ..Values::default() }), 8);
        assert_eq!(number(Values { rules: &rule, initial: &[0; 4], ..Values::default() }), 9);
        assert_eq!(number(Values { target: &[0], keep: Some(&[0]), ..Values::default() }), 4);
        assert_eq!(number(Values { target: &[0], default: Some(&[2]), ..Values::default() }), 4);
        assert_eq!(number(Values { target: &[0, 0], default: Some(&[2]), ..Values::default() }), 8);
        assert_eq!(number(Values { default: Some(&[]), keep: Some(&[0, 0]), ..Values::default() }), 4);
        assert_eq!(number(Values { default: Some(&[2, 2]), keep: Some(&[0, 0]), ..Values::default() }), 4);
        assert_eq!(number(Values { default: Some(&[0]), keep: Some(&[0]), ..Values::default() }), 50);
        assert_eq!(number(Values { default: Some(&[1]), keep: Some(&[0, 0]), ..Values::default() }), 10);
        assert_eq!(number(Values { keep: Some(&[0, 0]), script: Some(&[]), ..Values::default() }), 10);
        assert_eq!(number(Values { script: Some(&[3]), ..Values::default() }), 11);
    }
}
