//! Saved iptables rules: the FORWARD list of a listing, with its default, brought in as a deployment file.
//!
//! What a line feed ends is a line; what follows the last line feed is none, so that a listing which is cut
//! short inside a `*filter` part is turned away.

use crate::file::{file_bytes, Contents};
use crate::format::{list_value, Refusal, MOST_IN_POLICY, MOST_RULES};
use crate::rule::{encode, full_ranges, Range};
use crate::text::{number, printed};
use std::collections::HashSet;

/// A line that isn't read; at 0, another number of `:FORWARD` lines than one.
pub const NOT_READ: u8 = 57;
/// A port range with its low above its high, on a line that is read but for that.
pub const LOW_ABOVE: u8 = 58;
const TOO_MANY_RULES: u8 = 7;
const LIST_TOO_LONG: u8 = 4;

const MOST_OF_BYTE: u32 = 255;
const MOST_PORT: u32 = 65_535;
const ADDRESS_BITS: u32 = 32;

/// The program takes a listing of so many bytes.
pub const MOST_LISTING: usize = 262_144;

// ---- The words of an option ----

fn up_to(most: u32, word: &[u8]) -> Option<u32> {
    number(word)?.try_into().ok().filter(|&number| number <= most)
}

/// Two words with a colon between them.
fn around_colon(word: &[u8]) -> Option<[&[u8]; 2]> {
    let mut parts = word.split(|&byte| byte == b':');
    let both = [parts.next()?, parts.next()?];
    parts.next().is_none().then_some(both)
}

/// Four numbers with dots.
fn address(word: &[u8]) -> Option<u32> {
    let mut parts = word.split(|&byte| byte == b'.');
    let mut address = 0;
    for _ in 0..4 {
        address = address << 8 | up_to(MOST_OF_BYTE, parts.next()?)?;
    }
    parts.next().is_none().then_some(address)
}

/// "A mask `/n` becomes the address range, host bits ignored."
fn addresses(word: &[u8]) -> Option<Range> {
    let mut parts = word.splitn(2, |&byte| byte == b'/');
    let address = address(parts.next()?)?;
    let bits = parts.next().map_or(Some(ADDRESS_BITS), |bits| up_to(ADDRESS_BITS, bits))?;
    let hosts = u32::MAX.checked_shr(bits).unwrap_or(0);
    Some(Range { low: address & !hosts, high: address | hosts })
}

fn protocol(word: &[u8]) -> Option<u32> {
    match word {
        b"icmp" => Some(1),
        b"tcp" => Some(6),
        b"udp" => Some(17),
        _ => up_to(MOST_OF_BYTE, word).filter(|&number| number > 0),
    }
}

/// "One number or a range with a colon"; its low may be above its high.
fn ports(word: &[u8]) -> Option<Range> {
    let [low, high] = around_colon(word).unwrap_or([word, word]);
    Some(Range { low: up_to(MOST_PORT, low)?, high: up_to(MOST_PORT, high)? })
}

fn action(word: &[u8]) -> Option<bool> {
    match word {
        b"ACCEPT" => Some(true),
        b"DROP" => Some(false),
        _ => None,
    }
}

// ---- A rule line ----

/// The options of a rule line, as far as it has been read.
#[derive(Default)]
struct Options<'a> {
    source: Option<Range>,
    destination: Option<Range>,
    protocol: Option<(&'a [u8], u32)>,
    source_port: Option<Range>,
    destination_port: Option<Range>,
    module: Option<()>,
    permits: Option<bool>,
}

/// Keeps the value of an option; None for an option that is given twice.
fn once<T>(kept: &mut Option<T>, value: T) -> Option<()> {
    kept.replace(value).is_none().then_some(())
}

impl<'a> Options<'a> {
    /// The word behind an earlier `-p`, if it is tcp or udp.
    fn with_ports(&self) -> Option<&'a [u8]> {
        self.protocol.map(|(word, _)| word).filter(|word| matches!(*word, b"tcp" | b"udp"))
    }

    /// One more option with its word.
    fn take(&mut self, option: &[u8], word: &'a [u8]) -> Option<()> {
        match option {
            b"-s" => once(&mut self.source, addresses(word)?),
            b"-d" => once(&mut self.destination, addresses(word)?),
            b"-p" => once(&mut self.protocol, (word, protocol(word)?)),
            b"--sport" if self.with_ports().is_some() => once(&mut self.source_port, ports(word)?),
            b"--dport" if self.with_ports().is_some() => once(&mut self.destination_port, ports(word)?),
            b"-m" if self.with_ports() == Some(word) => once(&mut self.module, ()),
            b"-j" => once(&mut self.permits, action(word)?),
            _ => None,
        }
    }

    /// "Options left out mean the full range."
    fn ranges(&self) -> [Range; 5] {
        let protocol = self.protocol.map(|(_, number)| Range { low: number, high: number });
        let given = [protocol, self.source, self.source_port, self.destination, self.destination_port];
        let mut ranges = full_ranges();
        for (range, given) in ranges.iter_mut().zip(given) {
            *range = given.unwrap_or(*range);
        }
        ranges
    }
}

/// The rule of a line, given the words behind `-A FORWARD`: 57 of the whole line, then 58.
fn rule_of<'a>(mut words: impl Iterator<Item = &'a [u8]>) -> Result<Vec<u8>, u8> {
    let mut options = Options::default();
    while let Some(option) = words.next() {
        words.next().and_then(|word| options.take(option, word)).ok_or(NOT_READ)?;
    }
    let (permits, ranges) = (options.permits.ok_or(NOT_READ)?, options.ranges());
    if ranges.iter().any(|range| range.low > range.high) {
        return Err(LOW_ABOVE);
    }
    Ok(encode(permits, &ranges))
}

// ---- The lines of a `*filter` part ----

/// The default of a `:FORWARD` line, given the words behind its first.
fn default_of<'a>(mut words: impl Iterator<Item = &'a [u8]>) -> Option<bool> {
    let (permits, counters) = (action(words.next()?)?, words.next()?);
    let [packets, bytes] = around_colon(counters.strip_prefix(b"[")?.strip_suffix(b"]")?)?;
    let numbers = number(packets).and(number(bytes));
    numbers.filter(|_| words.next().is_none()).map(|_| permits)
}

/// Whether a word names a chain. One with a quotation mark, a tab or the like could be FORWARD for the program that
/// restores listings.
fn is_chain(name: &[u8]) -> bool {
    !name.is_empty() && name.iter().all(|&byte| byte > b' ' && byte != b'"')
}

/// What the lines say of FORWARD: the defaults, and the rules in order, each as often as it is listed.
#[derive(Default)]
struct Forward {
    defaults: Vec<bool>,
    rules: Vec<Vec<u8>>,
}

impl Forward {
    /// One more line of a `*filter` part, which doesn't end it.
    fn take(&mut self, line: &[u8]) -> Result<(), u8> {
        if matches!(line, [] | [b'#', ..]) {
            return Ok(());
        }
        let mut words = line.split(|&byte| byte == b' ');
        match words.next().unwrap_or_default() {
            b":FORWARD" => self.defaults.push(default_of(words).ok_or(NOT_READ)?),
            [b':', name @ ..] if is_chain(name) => {}
            b"-A" => match words.next().unwrap_or_default() {
                b"FORWARD" => self.rules.push(rule_of(words)?),
                name if is_chain(name) => {}
                _ => return Err(NOT_READ),
            },
            _ => return Err(NOT_READ),
        }
        Ok(())
    }
}

/// The lines from first to last.
fn forward_in(listing: &[u8]) -> Result<Forward, Refusal> {
    let (mut forward, mut in_filter, mut position) = (Forward::default(), false, 1);
    let pieces = listing.split_inclusive(|&byte| byte == b'\n');
    for line in pieces.filter_map(|piece| piece.strip_suffix(b"\n")) {
        match line {
            b"*filter" => in_filter = true,
            b"COMMIT" | [b'*', ..] => in_filter = false,
            _ if in_filter => forward.take(line).map_err(|number| Refusal { number, position })?,
            _ => {}
        }
        position += 1;
    }
    if in_filter {
        return Err(Refusal { number: NOT_READ, position });
    }
    Ok(forward)
}

// ---- The file ----

/// "A rule listed twice goes in at its first place only, as later ones never decide."
fn at_first_places(rules: &[Vec<u8>]) -> Vec<&[u8]> {
    let mut earlier = HashSet::new();
    rules.iter().map(Vec::as_slice).filter(|&rule| earlier.insert(rule)).collect()
}

/// The deployment file of a listing: its FORWARD list as both policies.
pub fn from_iptables(listing: &[u8]) -> Result<Vec<u8>, Refusal> {
    let refused = |number| Err(Refusal { number, position: 0 });
    let forward = forward_in(listing)?;
    let [permits] = forward.defaults[..] else { return refused(NOT_READ) };
    let rules = at_first_places(&forward.rules);
    match rules.len() {
        count if count > MOST_RULES => return refused(TOO_MANY_RULES),
        count if count > MOST_IN_POLICY => return refused(LIST_TOO_LONG),
        _ => {}
    }
    let list = list_value(&(0..rules.len() as u16).collect::<Vec<_>>());
    let default = permits.then_some(&[1][..]);
    Ok(file_bytes(&Contents { rules, initial: &list, target: &list, default, ..Contents::default() }))
}

/// What `fromiptables` prints for a listing.
pub fn listing_text(listing: &[u8]) -> Vec<u8> {
    if listing.len() > MOST_LISTING {
        return format!("listing longer than {MOST_LISTING} bytes\n").into_bytes();
    }
    printed(from_iptables(listing))
}

#[cfg(test)]
mod tests {
    use super::*;
    use crate::file::{permits, read};
    use crate::format::numbers;
    use crate::rule;
    use std::net::Ipv4Addr;

    /// A listing with these lines between the chains of its `*filter` part and `COMMIT`.
    fn with(lines: &str) -> Vec<u8> {
        format!("*filter\n:INPUT ACCEPT [0:0]\n:FORWARD DROP [12:3456]\n{lines}COMMIT\n").into_bytes()
    }

    fn refused(listing: &[u8]) -> (u8, usize) {
        let refusal = from_iptables(listing).unwrap_err();
        (refusal.number, refusal.position)
    }

    /// Of each rule that is brought in, its action and its five ranges as low and high.
    fn brought_in(listing: &[u8]) -> Vec<(bool, [(u32, u32); 5])> {
        let file = from_iptables(listing).unwrap();
        let contents = read(&file).unwrap();
        let ends = |rule: &[u8]| (rule[0] == 1, rule::ranges(rule).map(|range| (range.low, range.high)));
        contents.rules.into_iter().map(ends).collect()
    }

    fn one(line: &str) -> (bool, [(u32, u32); 5]) {
        let rules = brought_in(&with(&format!("-A FORWARD {line}\n")));
        assert_eq!(rules.len(), 1, "{line}");
        rules[0]
    }

    const ALL: (u32, u32) = (0, u32::MAX);
    const PORTS: (u32, u32) = (0, 65535);

    #[test]
    fn what_is_not_given_is_the_full_range() {
        assert_eq!(one("-j ACCEPT"), (true, [(0, 255), ALL, PORTS, ALL, PORTS]));
        assert_eq!(one("-j DROP"), (false, [(0, 255), ALL, PORTS, ALL, PORTS]));
        let line = "-s 1.2.3.4 -d 5.6.7.8 -p udp -m udp --sport 1:2 --dport 3 -j DROP";
        let (source, destination) = (0x0102_0304, 0x0506_0708);
        assert_eq!(one(line), (false, [(17, 17), (source, source), (1, 2), (destination, destination), (3, 3)]));
    }

    #[test]
    fn host_bits_are_ignored() {
        for (word, low, high) in [
            ("10.1.2.3", 0x0a01_0203, 0x0a01_0203),
            ("10.1.2.3/32", 0x0a01_0203, 0x0a01_0203),
            ("10.1.2.3/31", 0x0a01_0202, 0x0a01_0203),
            ("10.1.2.3/24", 0x0a01_0200, 0x0a01_02ff),
            ("10.1.2.3/9", 0x0a00_0000, 0x0a7f_ffff),
            ("10.1.2.3/8", 0x0a00_0000, 0x0aff_ffff),
            ("255.255.255.255/1", 0x8000_0000, u32::MAX),
            ("10.1.2.3/0", 0, u32::MAX),
        ] {
            assert_eq!(one(&format!("-s {word} -j DROP")).1[1], (low, high), "{word}");
            assert_eq!(one(&format!("-d {word} -j DROP")).1[3], (low, high), "{word}");
        }
    }

    #[test]
    fn an_address_is_what_the_standard_library_takes() {
        let parts = ["0", "1", "10", "99", "100", "255", "256", "00", "01", "", "+1", "1 ", "a", "1000", "4294967296"];
        for first in parts {
            for last in parts {
                for word in [format!("{first}.2.3.{last}"), format!("{first}.{last}"), format!("{first}.2.3.{last}.5")]
                {
                    let taken = word.parse::<Ipv4Addr>().ok().map(u32::from);
                    assert_eq!(address(word.as_bytes()), taken, "{word}");
                }
            }
        }
    }

    #[test]
    fn options_stand_in_any_order() {
        let rule = one("-s 1.2.3.4 -d 5.6.7.8 -p tcp -m tcp --sport 1 --dport 2 -j ACCEPT");
        for line in [
            "-p tcp --dport 2 --sport 1 -m tcp -d 5.6.7.8/32 -s 1.2.3.4/32 -j ACCEPT",
            "-j ACCEPT -p tcp --dport 2:2 -s 1.2.3.4 --sport 1:1 -d 5.6.7.8",
            "-d 5.6.7.8 -j ACCEPT -s 1.2.3.4 -p tcp --sport 1 -m tcp --dport 2",
        ] {
            assert_eq!(one(line), rule, "{line}");
        }
    }

    #[test]
    fn protocols() {
        for (word, number) in [("icmp", 1), ("tcp", 6), ("udp", 17), ("1", 1), ("6", 6), ("47", 47), ("255", 255)] {
            assert_eq!(one(&format!("-p {word} -j DROP")).1[0], (number, number), "{word}");
        }
    }

    #[test]
    fn a_line_that_is_not_read() {
        let lines = ["x", "-A FORWARD -j DROP -s", "-A FORWARD ! -s 1.2.3.4 -j DROP", "[1:60] -A FORWARD -j DROP"];
        for line in lines {
            assert_eq!(refused(&with(&format!("{line}\n"))), (57, 4), "{line:?}");
            assert_eq!(refused(&with(&format!("\n#\n{line}\nx\n"))), (57, 6), "{line:?}");
        }
    }

    #[test]
    fn lines_that_are_passed_over() {
        let lines =
            "\n#\n# x\n#COMMIT\n:web - [0:0]\n:web\n:web \n:FORWARDX x\n:forward\n:FORWARD: DROP\n-A web\n-A web -z\n\
                     -A FORWARDX !\n-A web  \"x\"\n-A :FORWARD\n-A INPUT -j FORWARD\n:\u{ff}\n-A \u{7f}\n";
        let plain = from_iptables(&with("")).unwrap();
        assert_eq!(plain, [2, 0, 0, 3, 0, 0]);
        assert_eq!(from_iptables(&with(lines)).unwrap(), plain);
    }

    #[test]
    fn outside_of_the_filter_part_everything_is_passed_over() {
        let odd =
            "x\n-A FORWARD -z\n:FORWARD x\n[1:60] -A FORWARD\n COMMIT\n*filter \n *filter\n*filters\nCOMMIT\n*nat\n*\n";
        let middle = "*filter\n:FORWARD ACCEPT [0:0]\n-A FORWARD -j DROP\nCOMMIT\n";
        let plain = from_iptables(middle.as_bytes()).unwrap();
        assert!(permits(read(&plain).unwrap().default));
        for listing in [format!("{odd}{middle}{odd}"), format!("{odd}{middle}no line"), format!("{middle}{odd}*filter")]
        {
            assert_eq!(from_iptables(listing.as_bytes()).as_ref(), Ok(&plain), "{listing}");
        }
    }

    #[test]
    fn a_part_ends_with_commit_or_at_the_next_star() {
        let head = "*filter\n:FORWARD ACCEPT [0:0]\n";
        for end in ["COMMIT\n", "*\n", "*nat\n", "*filter\nCOMMIT\n", "*filter \n", "*nat\n*filter\nCOMMIT\n"] {
            assert!(from_iptables(format!("{head}{end}").as_bytes()).is_ok(), "{end:?}");
        }
        assert_eq!(refused(format!("{head}*filter\n-A FORWARD\nCOMMIT\n").as_bytes()), (57, 4));
        let two = format!("{head}-A FORWARD -p tcp -j DROP\nCOMMIT\nx\n*filter\n-A FORWARD -j DROP\n*nat\n");
        assert_eq!(brought_in(two.as_bytes()).len(), 2);
    }

    #[test]
    fn a_listing_that_is_cut_short_is_turned_away() {
        let listing = b"*nat\nCOMMIT\n*filter\n:FORWARD DROP [0:0]\n-A FORWARD -p tcp -j DROP\nCOMMIT\n# Completed";
        let whole = from_iptables(listing).unwrap();
        let end = listing.len() - b"# Completed".len();
        for length in 0..=listing.len() {
            let cut = from_iptables(&listing[..length]);
            assert_eq!(cut.as_ref().ok(), (length >= end).then_some(&whole), "{length}");
        }
        assert_eq!(refused(b"*filter\n"), (57, 2));
        assert_eq!(refused(b"*filter\n:FORWARD DROP [0:0]\nCOMMIT"), (57, 3));
        assert_eq!(refused(b"*filter\n:FORWARD DROP [0:0]\n\n\nx"), (57, 5));
    }

    #[test]
    fn one_forward_line_must_stand() {
        let forward = ":FORWARD DROP [0:0]\n";
        assert_eq!(refused(b""), (57, 0));
        assert_eq!(refused(b"*filter\nCOMMIT\n"), (57, 0));
        assert_eq!(refused(format!("*nat\n{forward}COMMIT\n").as_bytes()), (57, 0));
        assert_eq!(refused(&with(forward)), (57, 0));
        assert_eq!(refused(format!("*filter\n{forward}*filter\n{forward}COMMIT\n").as_bytes()), (57, 0));
        assert_eq!(refused(format!("{forward}*filter\nCOMMIT\n*filter\n").as_bytes()), (57, 5));
        assert!(from_iptables(format!("*filter\nCOMMIT\n*filter\n{forward}COMMIT\n").as_bytes()).is_ok());
        let many = "9".repeat(40);
        assert!(from_iptables(format!("*filter\n:FORWARD DROP [{many}:{many}]\nCOMMIT\n").as_bytes()).is_ok());
    }

    #[test]
    fn low_above_high_comes_after_57_of_the_line() {
        let falling = "-A FORWARD -p tcp --sport 9:8 -j DROP\n";
        assert_eq!(refused(&with(falling)), (58, 4));
        assert_eq!(refused(&with("-A FORWARD -p udp --dport 1:0 -j DROP\n")), (58, 4));
        assert_eq!(refused(&with(&format!("{falling}x\n"))), (58, 4));
        assert_eq!(refused(&with(&format!("x\n{falling}"))), (57, 4));
        assert_eq!(refused(&with("-A FORWARD -p tcp --sport 9:8 -j DROP -j DROP\n")), (57, 4));
        assert_eq!(refused(&with("-A FORWARD -p tcp --sport 9:8\n")), (57, 4));
        assert_eq!(refused(&with("-A FORWARD -p tcp --sport 65536:0 -j DROP\n")), (57, 4));
        assert_eq!(refused(format!("*filter\n{falling}COMMIT\n").as_bytes()), (58, 2));
        assert_eq!(refused(format!("*filter\n{falling}").as_bytes()), (58, 2));
    }

    #[test]
    fn equal_rules_go_in_at_their_first_place() {
        let lines = "-A FORWARD -j ACCEPT\n-A FORWARD -s 9.9.9.9/0 -j ACCEPT\n-A FORWARD -p tcp -j DROP\n\
                     -A FORWARD -j ACCEPT -d 0.0.0.0/0\n-A FORWARD -p 6 -j DROP\n-A FORWARD -j DROP\n\
                     -A FORWARD -p tcp -m tcp --dport 0:65535 --sport 0:65535 -j DROP\n";
        let rules: Vec<(bool, (u32, u32))> =
            brought_in(&with(lines)).into_iter().map(|(permit, ranges)| (permit, ranges[0])).collect();
        assert_eq!(rules, [(true, (0, 255)), (false, (6, 6)), (false, (0, 255))]);
    }

    /// So many different rules, one a line.
    fn different(count: u32) -> String {
        (0..count).map(|number| format!("-A FORWARD -s {} -j DROP\n", Ipv4Addr::from(number))).collect()
    }

    #[test]
    fn a_list_has_512_rules_and_a_catalogue_1024() {
        let file = from_iptables(&with(&format!("{}{}", different(512), different(100)))).unwrap();
        let contents = read(&file).unwrap();
        assert_eq!(file.len(), 17_414);
        assert_eq!(contents.initial, contents.target);
        assert_eq!(numbers(contents.initial), (0..512).collect::<Vec<u16>>());
        assert_eq!((contents.default, contents.keep, contents.script), (None, None, None));
        for (count, number) in [(513, 4), (1024, 4), (1025, 7), (1100, 7)] {
            assert_eq!(refused(&with(&different(count))), (number, 0), "{count}");
        }
        assert_eq!(refused(&with(&format!("{}x\n", different(1025)))), (57, 1029));
        assert_eq!(refused(format!("*filter\n{}COMMIT\n", different(1025)).as_bytes()), (57, 0));
    }

    #[test]
    fn what_the_program_prints() {
        assert_eq!(listing_text(&with("")), [2, 0, 0, 3, 0, 0]);
        assert_eq!(listing_text(b""), b"refused 57 at 0\n");
        let long = [&with("")[..], &vec![b'\n'; MOST_LISTING]].concat();
        assert_eq!(listing_text(&long), b"listing longer than 262144 bytes\n");
        assert_eq!(listing_text(&long[..MOST_LISTING]), [2, 0, 0, 3, 0, 0]);
    }
}
