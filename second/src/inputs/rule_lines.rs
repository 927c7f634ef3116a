//! Made rule lines of a listing: rules with their options in any order and spelling, and damage to them.

use super::lines::Line;
use super::random::Random;
use std::net::Ipv4Addr;

const ADDRESSES: [u32; 7] = [0, 0x0a00_0000, 0x0a01_0203, 0x7fff_ffff, 0x8000_0000, 0xc0a8_03ff, u32::MAX];
const BITS: [u32; 12] = [0, 0, 0, 0, 1, 8, 9, 24, 30, 31, 32, 32];
const PROTOCOLS: [Option<u8>; 10] =
    [None, None, Some(1), Some(6), Some(6), Some(6), Some(17), Some(17), Some(47), Some(255)];
const PORTS: [u16; 8] = [0, 1, 53, 80, 255, 256, 65534, 65535];

const ALL_PORTS: (u16, u16) = (0, u16::MAX);

/// What a rule line says. Source and destination have an address, of which so many bits count, and ports.
#[derive(Clone, Copy)]
pub struct Told {
    pub addresses: [(u32, u32); 2],
    protocol: Option<u8>,
    ports: [(u16, u16); 2],
    permits: bool,
}

/// An option with its word.
type Pair = [String; 2];

fn any_ports(random: &mut Random) -> (u16, u16) {
    let (one, other) = (random.pick(&PORTS), random.pick(&PORTS));
    match random.below(4) {
        0 => ALL_PORTS,
        1 => (one, one),
        2 => (random.next() as u16, u16::MAX),
        _ => (one.min(other), one.max(other)),
    }
}

fn any_addresses(random: &mut Random) -> (u32, u32) {
    let address = if random.one_in(4) { random.next() as u32 } else { random.pick(&ADDRESSES) };
    let bits = if random.one_in(4) { random.between(0, 32) as u32 } else { random.pick(&BITS) };
    (address, bits)
}

// ---- Spellings ----

/// Host bits may be any; all addresses need no word, and one address no mask.
fn address_word(random: &mut Random, (address, bits): (u32, u32)) -> Option<String> {
    let hosts = u32::MAX.checked_shr(bits).unwrap_or(0);
    let other_hosts = if random.one_in(2) { random.next() as u32 & hosts } else { 0 };
    let address = Ipv4Addr::from(address ^ other_hosts);
    match bits {
        0 if !random.one_in(4) => None,
        32 if random.one_in(2) => Some(address.to_string()),
        _ => Some(format!("{address}/{bits}")),
    }
}

fn port_word(random: &mut Random, ports: (u16, u16)) -> Option<String> {
    match ports {
        ALL_PORTS if !random.one_in(4) => None,
        (low, high) if low == high && random.one_in(2) => Some(low.to_string()),
        (low, high) => Some(format!("{low}:{high}")),
    }
}

fn protocol_name(protocol: u8) -> Option<&'static str> {
    match protocol {
        1 => Some("icmp"),
        6 => Some("tcp"),
        17 => Some("udp"),
        _ => None,
    }
}

/// Options that must stand behind `-p`.
fn needs_protocol(pair: &Pair) -> bool {
    matches!(pair[0].as_str(), "-m" | "--sport" | "--dport")
}

/// Puts `-p` before what must stand behind it.
fn put_protocol_first(options: &mut [Pair]) {
    let protocol = options.iter().position(|pair| pair[0] == "-p");
    let first = options.iter().position(needs_protocol);
    if let (Some(protocol), Some(first)) = (protocol, first) {
        if first < protocol {
            options.swap(first, protocol);
        }
    }
}

/// The rule line of these options.
fn line_of(options: &[Pair]) -> Line {
    let words = options.iter().map(|[option, word]| format!(" {option} {word}"));
    format!("-A FORWARD{}", words.collect::<String>()).into_bytes()
}

impl Told {
    pub fn any(random: &mut Random) -> Told {
        let protocol = if random.one_in(12) { Some(random.between(1, 255) as u8) } else { random.pick(&PROTOCOLS) };
        let mut ports = [ALL_PORTS; 2];
        if matches!(protocol, Some(6 | 17)) {
            ports = ports.map(|_| any_ports(random));
        }
        let addresses = [(); 2].map(|()| any_addresses(random));
        Told { addresses, protocol, ports, permits: random.one_in(2) }
    }

    /// The words of `-p`, and what must stand behind them.
    fn protocol_options(&self, random: &mut Random) -> Vec<Pair> {
        let Some(protocol) = self.protocol else { return Vec::new() };
        let mut options = Vec::new();
        if let (6 | 17, Some(name)) = (protocol, protocol_name(protocol)) {
            let [source, destination] = self.ports.map(|ports| port_word(random, ports));
            options.extend(source.map(|word| ["--sport".to_string(), word]));
            options.extend(destination.map(|word| ["--dport".to_string(), word]));
            if random.one_in(2) {
                options.push(["-m", name].map(str::to_string));
            }
        }
        let by_number = options.is_empty() && random.one_in(2);
        let name = protocol_name(protocol).filter(|_| !by_number).map(str::to_string);
        options.push(["-p".to_string(), name.unwrap_or_else(|| protocol.to_string())]);
        options
    }

    /// In any spelling and order that says this.
    fn options(&self, random: &mut Random) -> Vec<Pair> {
        let mut options = self.protocol_options(random);
        let [source, destination] = self.addresses.map(|addresses| address_word(random, addresses));
        options.extend(source.map(|word| ["-s".to_string(), word]));
        options.extend(destination.map(|word| ["-d".to_string(), word]));
        options.push(["-j", if self.permits { "ACCEPT" } else { "DROP" }].map(str::to_string));
        if !random.one_in(4) {
            random.shuffle(&mut options);
        }
        put_protocol_first(&mut options);
        options
    }

    pub fn line(&self, random: &mut Random) -> Line {
        line_of(&self.options(random))
    }
}

// ---- Damage ----

const ODD_OPTIONS: [&str; 24] = [
    "!",
    "",
    "-i",
    "-o",
    "-f",
    "-g",
    "-c",
    "-m",
    "-p",
    "-s",
    "-d",
    "-j",
    "--sport",
    "--dport",
    "--source",
    "--src",
    "--destination-port",
    "--icmp-type",
    "--ctstate",
    "--comment",
    "-S",
    "--",
    "-",
    "-J",
];

const ODD_ADDRESSES: [&str; 16] = [
    "1.2.3",
    "1.2.3.4.5",
    "1..3.4",
    "01.2.3.4",
    "1.2.3.256",
    "256.2.3.4",
    "1.2.3.4/33",
    "1.2.3.4/32",
    "1.2.3.4/",
    "1.2.3.4/08",
    "1.2.3.4/8/8",
    "1.2.3.4/255.0.0.0",
    "1.2.3.4,5.6.7.8",
    "!1.2.3.4",
    "host",
    "",
];
const ODD_PROTOCOLS: [&str; 18] = [
    "0",
    "0",
    "1",
    "6",
    "6",
    "17",
    "255",
    "256",
    "06",
    "262",
    "all",
    "TCP",
    "gre",
    "icmp",
    "4294967302",
    "tcp",
    "udp",
    "udp",
];
const ODD_PORTS: [&str; 14] =
    ["0", "65535", "65536", "65536:1", "1:65536", "080", "1:02", ":", ":80", "80:", "1:2:3", "http", "65616", "-1"];
const ODD_MODULES: [&str; 6] = ["tcp", "udp", "icmp", "6", "state", "TCP"];
const ODD_TARGETS: [&str; 8] = ["accept", "REJECT", "RETURN", "LOG", "web", "DROPX", "ACCEP", ""];

/// A word near those that an option can have.
fn odd_word(random: &mut Random, option: &str) -> String {
    let words: &[&str] = match option {
        "-s" | "-d" => &ODD_ADDRESSES,
        "-p" => &ODD_PROTOCOLS,
        "--sport" | "--dport" => &ODD_PORTS,
        "-m" => &ODD_MODULES,
        _ => &ODD_TARGETS,
    };
    random.pick(words).to_string()
}

/// A port range whose low is above its high, behind a protocol that has ports.
fn add_falling(random: &mut Random, options: &mut Vec<Pair>) {
    let side = random.pick(&["--sport", "--dport"]);
    options.retain(|pair| !["-p", "-m", side].contains(&pair[0].as_str()));
    let high = random.pick(&PORTS[..7]);
    let low = random.between(usize::from(high) + 1, 65535);
    options.insert(random.between(0, options.len()), [side.to_string(), format!("{low}:{high}")]);
    options.insert(0, ["-p", random.pick(&["tcp", "udp"])].map(str::to_string));
}

/// An option that isn't read, or one more that is, with a word of its own.
fn odd_pair(random: &mut Random) -> Pair {
    let option = random.pick(&ODD_OPTIONS);
    [option.to_string(), odd_word(random, option)]
}

/// Damage that knows of options and their words.
fn damage(random: &mut Random, options: &mut Vec<Pair>) {
    let (at, other) = (random.below(options.len()), random.below(options.len()));
    match random.below(17) {
        0..=5 => options[at][1] = odd_word(random, &options[at][0]),
        6 => options[at][0] = random.pick(&ODD_OPTIONS).to_string(),
        7 | 8 => options.insert(at, odd_pair(random)),
        9 | 10 => options.insert(at, options[other].clone()),
        11 => drop(options.remove(at)),
        12 => random.shuffle(options),
        13 => options[at][random.below(2)].insert_str(0, "! "),
        _ => add_falling(random, options),
    }
}

/// The line of a rule, damaged once or twice.
pub fn damaged(random: &mut Random, told: &Told) -> Line {
    let mut options = told.options(random);
    damage(random, &mut options);
    if random.one_in(3) && !options.is_empty() {
        damage(random, &mut options);
    }
    line_of(&options)
}
