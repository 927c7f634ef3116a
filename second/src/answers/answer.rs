//! What is answered to one input, and the first difference of two.

use super::input::Program;

/// What a lent place and lent words hold before a call.
pub const LENT_BYTE: u8 = 0xa5;
pub const LENT_WORD: u64 = 0xa5a5_a5a5_a5a5_a5a5;

/// The most values that belong to a number.
const WORDS: usize = 14;

/// What one entry answers: the number of document 01, or 0 if it did its work;
/// the lent words, of which the first hold its values; every byte of the lent place.
#[derive(Clone, PartialEq, Eq)]
pub struct Answer {
    pub entry: &'static str,
    pub number: u32,
    pub words: [u64; WORDS],
    pub place: Vec<u8>,
}

impl Answer {
    /// Lends words and a place of so many bytes to a call that gives a number.
    pub fn lend(entry: &'static str, room: usize, call: impl FnOnce(&mut [u8], &mut [u64]) -> u32) -> Answer {
        let mut answer = Answer { entry, number: 0, words: [LENT_WORD; WORDS], place: vec![LENT_BYTE; room] };
        answer.number = call(&mut answer.place, &mut answer.words);
        answer
    }
}

impl std::fmt::Debug for Answer {
    fn fmt(&self, out: &mut std::fmt::Formatter) -> std::fmt::Result {
        write!(out, "{}: {}", self.entry, self.number)?;
        for word in self.words.iter().take_while(|&&word| word != LENT_WORD) {
            write!(out, " {word}")?;
        }
        write!(out, " place ")?;
        self.place.iter().try_for_each(|byte| write!(out, "{byte:02x}"))
    }
}

/// What a program prints.
pub type Printed = (Program, Vec<u8>);

/// The answers of one implementation to one input. An implementation that
/// doesn't offer the entries leaves them out, and they aren't compared.
pub struct Answers {
    pub printed: Vec<Printed>,
    pub entries: Option<Vec<Answer>>,
}

/// Answers to one question that differ, as they are printed.
pub type Difference = (String, String);

/// A script field and a file are shown in letters.
fn shown((program, bytes): &Printed) -> String {
    match program {
        Program::Textscript(..) | Program::Fromiptables => format!("{program:?}: {}", bytes.escape_ascii()),
        _ => format!("{program:?}:\n{}", String::from_utf8_lossy(bytes)),
    }
}

/// The first of two lists of equal length that differ.
fn difference<T: PartialEq>(one: &[T], two: &[T], show: fn(&T) -> String) -> Option<Difference> {
    if one.len() != two.len() {
        return Some((format!("{} answers", one.len()), format!("{} answers", two.len())));
    }
    let (one, two) = one.iter().zip(two).find(|(one, two)| one != two)?;
    Some((show(one), show(two)))
}

impl Answers {
    /// How many answers there are: what is printed, and the entries that are offered.
    pub fn count(&self) -> usize {
        self.printed.len() + self.entries.as_ref().map_or(0, Vec::len)
    }

    /// The first answer that isn't the other's.
    pub fn difference(&self, other: &Answers) -> Option<Difference> {
        let printed = difference(&self.printed, &other.printed, shown);
        let entries = || difference(self.entries.as_ref()?, other.entries.as_ref()?, |answer| format!("{answer:?}"));
        printed.or_else(entries)
    }
}
