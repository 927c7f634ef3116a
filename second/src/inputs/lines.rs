//! Lines of made texts, and damage to them that knows nothing of what they say.

use super::random::Random;

/// A line without its line feed.
pub type Line = Vec<u8>;

pub fn join(lines: &[Line]) -> Vec<u8> {
    lines.iter().flat_map(|line| [&line[..], b"\n"].concat()).collect()
}

/// A text without its last bytes, mostly without its last line feed alone.
pub fn cut_short(random: &mut Random, text: &mut Vec<u8>) {
    let left = if random.one_in(3) { random.between(0, text.len()) } else { text.len().saturating_sub(1) };
    text.truncate(left);
}

/// Where the numbers of a line start and end.
fn numbers_in(line: &[u8]) -> Vec<(usize, usize)> {
    let mut found = Vec::new();
    let mut start = 0;
    for digits in line.split(|byte| !byte.is_ascii_digit()) {
        let end = start + digits.len();
        if start < end {
            found.push((start, end));
        }
        start = end + 1;
    }
    found
}

/// A number of the line with something before it, or one of these in its place.
pub fn other_number(random: &mut Random, line: &mut Line, numbers: &[&str]) {
    let found = numbers_in(line);
    if found.is_empty() {
        return;
    }
    let (start, end) = random.pick(&found);
    match random.below(6) {
        0 => line.insert(start, b'0'),
        1 => line.insert(start, random.pick(b"+-")),
        2 => drop(line.drain(start..end)),
        _ => drop(line.splice(start..end, random.pick(numbers).bytes())),
    }
}

/// A blank too many: before the line, behind it, or beside a blank; or another byte for a blank.
pub fn other_blanks(random: &mut Random, line: &mut Line) {
    let blanks: Vec<usize> = (0..line.len()).filter(|&at| line[at] == b' ').collect();
    match random.below(5) {
        0 => line.insert(0, b' '),
        1 => line.push(b' '),
        _ if blanks.is_empty() => {}
        2 => line[random.pick(&blanks)] = random.pick(b"\t_\0"),
        3 => drop(line.remove(random.pick(&blanks))),
        _ => line.insert(random.pick(&blanks), b' '),
    }
}

/// A word left out; one of these put in, or in another's place; or a number more.
pub fn other_words(random: &mut Random, line: &mut Line, words: &[&str]) {
    let mut parts: Vec<Vec<u8>> = line.split(|&byte| byte == b' ').map(<[u8]>::to_vec).collect();
    let at = random.below(parts.len());
    let new = random.pick(words).as_bytes().to_vec();
    match random.below(4) {
        0 => drop(parts.remove(at)),
        1 => parts.insert(at, new),
        2 => parts.push(random.below(20).to_string().into_bytes()),
        _ => parts[at] = new,
    }
    *line = parts.join(&b' ');
}

/// A byte behind the line, often a carriage return, or another byte in it.
pub fn other_byte(random: &mut Random, line: &mut Line) {
    let byte = random.pick(b"\r\r\r\0\xff9x");
    if line.is_empty() || random.one_in(2) {
        line.push(byte);
    } else {
        let at = random.below(line.len());
        line[at] = if random.one_in(2) { byte } else { line[at] ^ (1 << random.below(8)) };
    }
}
