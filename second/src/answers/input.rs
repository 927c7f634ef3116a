//! One input: what is given to the entries, the rooms lent to them, and what the
//! programs are asked.

use crate::console::{Maker, What};
use crate::inputs::{MadeText, MadeValues, LISTINGS_OF_INPUT, TEXTS_OF_INPUT};
use crate::rule::Flow;

/// Rooms lent to the entries that write: of a file its plans, its replay and
/// its texts; of field values the replay; of both the decisions of flows. Then
/// those of console text: of the lent script for both makers; of each script of
/// a file for both makers; and of the script field of each text. Then those of
/// the file of each listing.
#[derive(Clone, Copy, Debug, Default)]
pub struct Rooms {
    pub plans: [usize; 2],
    pub replay: usize,
    pub texts: [usize; 3],
    pub replay_values: usize,
    pub flows: usize,
    pub script_texts: [usize; 2],
    pub file_texts: [[usize; 2]; 3],
    pub text_scripts: [usize; TEXTS_OF_INPUT],
    pub listings: [usize; LISTINGS_OF_INPUT],
}

/// A program with its arguments.
#[derive(Clone, Copy, Debug, PartialEq, Eq)]
pub enum Program {
    Planlist,
    Judgelist,
    Showlist,
    Scripttext(Maker, What),
    Textscript(Maker, u8),
    Fromiptables,
}

/// A file; field values with rooms of their own; more rooms; and flows, each for itself
/// and all of them as bytes, of which some may be missing; and texts; and listings.
pub struct Input {
    pub file: Vec<u8>,
    pub made: MadeValues,
    pub rooms: Rooms,
    pub flows: Vec<Flow>,
    pub flow_bytes: Vec<u8>,
    pub texts: [MadeText; TEXTS_OF_INPUT],
    pub listings: [Vec<u8>; LISTINGS_OF_INPUT],
}

impl Input {
    /// The script lent to an entry that can't do without one.
    pub fn lent_script(&self) -> &[u8] {
        self.made.script.as_deref().unwrap_or_default()
    }

    /// What the programs are asked, each with its standard input. A type that is none can't be told to a program.
    pub fn questions(&self) -> Vec<(Program, &[u8])> {
        let written = What::ALL.into_iter().flat_map(|what| Maker::BOTH.map(|maker| Program::Scripttext(maker, what)));
        let of_file = [Program::Planlist, Program::Judgelist, Program::Showlist].into_iter().chain(written);
        let told = self.texts.iter().filter(|made| matches!(made.kind, 1 | 2));
        let read = told.map(|made| (Program::Textscript(made.maker, made.kind), made.text.as_slice()));
        let brought_in = self.listings.iter().map(|listing| (Program::Fromiptables, listing.as_slice()));
        of_file.map(|program| (program, self.file.as_slice())).chain(read).chain(brought_in).collect()
    }
}
