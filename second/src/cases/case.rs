//! One case of the entries: field values or a file, the room and the flows; and its bytes.

use super::given::Given;
use super::row::add_part;
use crate::format::list_value;
use crate::rule::Flow;

/// A flow of a protocol without ports.
pub const NO_PORTS: Flow = Flow { protocol: 47, source: 1, source_port: 0, destination: 2, destination_port: 0 };

/// Room for any small plan.
const SMALL_ROOM: usize = 64;

pub enum Over {
    File(Vec<u8>),
    Lists(Given),
}

pub struct Case {
    pub over: Over,
    pub room: usize,
    pub flow: Flow,
    pub flows: Vec<u8>,
}

/// A flow and its way back; and the same with the ports left where they were.
fn flows_about(flow: &Flow) -> Vec<u8> {
    let Flow { source, source_port, destination, destination_port, .. } = *flow;
    let turned = Flow { source: destination, destination: source, ..*flow };
    let back = Flow { source_port: destination_port, destination_port: source_port, ..turned };
    [*flow, back, turned].iter().flat_map(Flow::bytes).collect()
}

impl Case {
    /// With the given flow for the entries that take one, and three like it for those that take many.
    pub fn new(over: Over, room: usize, flow: Flow) -> Case {
        let flows = flows_about(&flow);
        Case { over, room, flow, flows }
    }

    pub fn bytes(&self) -> Vec<u8> {
        let (flags, mut parts) = match &self.over {
            Over::File(file) => (vec![0; 4], vec![file.as_slice()]),
            Over::Lists(given) => {
                let there = [&given.default, &given.keep, &given.script].map(|part| u16::from(part.is_some()));
                let lent = [given.lent_default(), given.lent_keep(), given.lent_script()];
                let lists = [&given.rules[..], &given.initial, &given.target];
                ([&[1], &there[..]].concat(), [lists, lent].concat())
            }
        };
        let mut bytes = list_value(&flags);
        bytes.extend(u16::try_from(self.room).expect("a room of two bytes").to_be_bytes());
        // The protocol has two bytes here, so that all numbers have.
        bytes.push(0);
        bytes.extend(self.flow.bytes());
        parts.push(&self.flows);
        for part in parts {
            add_part(&mut bytes, part);
        }
        bytes
    }
}

/// The same values in a file and as lists.
pub fn both(given: Given, room: usize, flow: Flow) -> [Case; 2] {
    [Over::File(given.file()), Over::Lists(given)].map(|over| Case::new(over, room, flow))
}

pub fn both_of_all(all: Vec<Given>) -> Vec<Case> {
    all.into_iter().flat_map(|given| both(given, SMALL_ROOM, NO_PORTS)).collect()
}
