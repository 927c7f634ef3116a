//! Maker B's move taken literally, on all small lists; and all short texts, of which
//! those are read that consist of lines of the type and the maker.

use super::held::{must, Held};
use super::literal::{after, policies};
use crate::commands::{commands_of, Command};
use crate::console::{text_of, text_script, Maker};
use crate::format::HEAD_BYTES;
use std::collections::HashSet;

/// "before b, counted in the list as it stands, from 1 to one past the end": the rule at place i is
/// taken out of the list and put before the rule that stood at place b, or at the end.
fn put_before(list: &[u16], i: usize, b: usize) -> Option<Vec<u16>> {
    let (&moved, following) = (list.get(i.checked_sub(1)?)?, list.get(b.checked_sub(1)?..)?);
    let others = |part: &[u16]| part.iter().copied().filter(|&rule| rule != moved).collect::<Vec<u16>>();
    Some([others(&list[..b - 1]), vec![moved], others(following)].concat())
}

fn commands_in(text: &[u8], kind: u8, maker: Maker) -> Option<Vec<Command>> {
    text_script(text, kind, maker).ok().map(|field| commands_of(&field[HEAD_BYTES..]))
}

/// What B reads does to the list what its words say; a place out of range breaks the replay.
fn test_read(list: &[u16], i: usize, b: usize, rules: u16) -> Held {
    let line = format!("move {i} before {b}\n");
    let read = commands_in(line.as_bytes(), 2, Maker::B).filter(|commands| commands.len() == 1);
    let done = read.as_ref().map(|commands| after(list, commands[0], rules).map_err(|number| number == 22));
    let literal = put_before(list, i, b).ok_or(true);
    must(done == Some(literal.clone()), || format!("{line:?} on {list:?}: {done:?}, literally {literal:?}"))
}

/// What B writes for a move does to the list what the move does, and is read as that move.
fn test_written(list: &[u16], i: u16, j: u16, rules: u16) -> Held {
    let command = Command::Mov { i, j };
    let text = text_of(&[command], Maker::B);
    let words = String::from_utf8_lossy(&text).into_owned();
    let b = words.trim_end().rsplit(' ').next().and_then(|digits| digits.parse().ok());
    let literal = b.and_then(|b| put_before(list, usize::from(i), b));
    let done = after(list, command, rules).ok();
    must(literal == done, || format!("{words:?} on {list:?}: literally {literal:?}, as {command:?} {done:?}"))?;
    must(commands_in(&text, 2, Maker::B) == Some(vec![command]), || format!("{words:?} isn't read as {command:?}"))
}

/// Tests all moves on a list, also with places out of range; gives their number.
fn test_list(list: &[u16], rules: u16) -> Result<usize, String> {
    let most = list.len() + 3;
    for i in 0..=most {
        for place in 0..=most {
            test_read(list, i, place, rules)?;
            test_written(list, i as u16, place as u16, rules)?;
        }
    }
    Ok((most + 1) * (most + 1))
}

// ---- All short texts ----

/// All words over some letters with up to so many of them.
fn words_over(letters: &[u8], most: usize) -> Vec<Vec<u8>> {
    let mut all = vec![Vec::new()];
    let mut at = 0;
    while at < all.len() {
        if all[at].len() < most {
            all.extend(letters.iter().map(|&letter| [&all[at][..], &[letter]].concat()).collect::<Vec<_>>());
        }
        at += 1;
    }
    all
}

/// All numbers of up to five digits that are 0 or 1, as they are written.
fn binary_looking() -> Vec<String> {
    let all = (0..=11_111).map(|number: u16| number.to_string());
    all.filter(|digits| digits.bytes().all(|digit| digit <= b'1')).collect()
}

/// The lines of a type and a maker that have such numbers.
fn lines(kind: u8, maker: Maker) -> HashSet<Vec<u8>> {
    let numbers = binary_looking();
    let with_one = |word: &str| numbers.iter().map(|n| format!("{word} {n}\n")).collect::<Vec<_>>();
    let with_two = |word: &str, between: &str| {
        let line =
            |first: &String| numbers.iter().map(|n| format!("{word} {first}{between} {n}\n")).collect::<Vec<_>>();
        numbers.iter().flat_map(line).collect::<Vec<_>>()
    };
    let all = match (kind, maker) {
        (1, _) => [with_one("app"), with_one("del")].concat(),
        (_, Maker::A) => [with_two("ins", ""), with_one("del"), with_two("mov", "")].concat(),
        (_, Maker::B) => [with_two("ins", ""), with_one("del"), with_two("move", " before")].concat(),
    };
    all.into_iter().map(String::into_bytes).collect()
}

/// A text is read exactly when each of its lines is one of these.
fn test_text(text: &[u8], kind: u8, maker: Maker, lines: &HashSet<Vec<u8>>) -> Held {
    let read = text_script(text, kind, maker).is_ok();
    let literally = text.split_inclusive(|&byte| byte == b'\n').all(|line| lines.contains(line));
    must(read == literally, || format!("{:?} is read: {read}", String::from_utf8_lossy(text)))
}

/// A beginning of texts, the letters that follow, and how many of them.
const SHORT: [(&str, &[u8], usize); 6] = [
    ("", b"del 01\n", 7),
    ("del ", b" 01+\r\nx", 6),
    ("app 1", b"ap 01\n", 6),
    ("ins", b" 01\n", 8),
    ("mov 1", b" 01\n", 7),
    ("move 1", b" 01befor\n", 5),
];

const BEFORE: (&str, &[u8], usize) = ("move 1 before", b" 01\n", 7);

/// Tests all short texts for both types and makers; gives their number.
fn test_short_texts() -> Result<usize, String> {
    let mut count = 0;
    for (kind, maker) in [(1, Maker::A), (1, Maker::B), (2, Maker::A), (2, Maker::B)] {
        let lines = lines(kind, maker);
        for (beginning, letters, most) in SHORT.into_iter().chain([BEFORE]) {
            for rest in words_over(letters, most) {
                test_text(&[beginning.as_bytes(), &rest].concat(), kind, maker, &lines)?;
                count += 1;
            }
        }
    }
    Ok(count)
}

/// Tests all moves of B on all lists of so many rules, and all short texts.
pub fn test_all(rules: u16) -> Result<String, String> {
    let lists = policies(rules);
    let mut moves = 0;
    for list in &lists {
        moves += test_list(list, rules)?;
    }
    let texts = test_short_texts()?;
    Ok(format!("{rules} rules, {} lists, {moves} moves of B each way, {texts} short texts, all hold", lists.len()))
}

#[cfg(test)]
mod tests {
    use super::*;

    #[test]
    fn the_rule_is_put_before_the_one_at_the_place() {
        let list = [10, 11, 12, 13];
        assert_eq!(put_before(&list, 1, 3), Some(vec![11, 10, 12, 13]));
        assert_eq!(put_before(&list, 4, 2), Some(vec![10, 13, 11, 12]));
        assert_eq!(put_before(&list, 2, 5), Some(vec![10, 12, 13, 11]));
        for stays in [2, 3] {
            assert_eq!(put_before(&list, 2, stays), Some(list.to_vec()));
        }
        for (i, b) in [(0, 1), (5, 1), (1, 0), (1, 6)] {
            assert_eq!(put_before(&list, i, b), None);
        }
    }

    #[test]
    fn all_hold_over_three_rules() {
        for list in policies(3) {
            test_list(&list, 3).unwrap();
        }
    }
}
