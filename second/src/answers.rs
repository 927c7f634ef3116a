//! One input with all answers to it: what the programs print, and every entry, over files, over
//! field values, over texts and over listings. `compare` holds two of these against each other.

mod answer;
mod input;
#[cfg(feature = "library")]
mod linked;
mod second;

use crate::format::RULE_BYTES;
use crate::inputs;
use crate::rule::Flow;
use input::Rooms;

pub use answer::{Answer, Answers, Difference, Printed, LENT_BYTE};
pub use input::{Input, Program};
pub use second::ours;

#[cfg(feature = "library")]
pub use linked::linked;

const FLOWS: u64 = 4;

impl Input {
    /// The input with this index.
    pub fn new(seed: u64, index: u64) -> Input {
        let made = inputs::values(seed, index);
        let rules: Vec<&[u8]> = made.rules.chunks_exact(RULE_BYTES).collect();
        let flows = (index * FLOWS..(index + 1) * FLOWS).map(|number| match number % 4 {
            0 => inputs::flow(seed, number),
            _ => inputs::flow_near(&rules, seed, number),
        });
        let flows: Vec<Flow> = flows.collect();
        let flow_bytes = inputs::flow_bytes(&flows, seed, index);
        let texts = inputs::texts(seed, index, made.script.as_deref().unwrap_or_default());
        let listings = inputs::listings(seed, index);
        let (file, rooms) = (inputs::make(seed, index), Rooms::default());
        let mut input = Input { file, made, rooms, flows, flow_bytes, texts, listings };
        input.rooms = second::rooms(&input, &mut inputs::rooms(seed, index));
        input
    }
}
