//! 01, "Records of the new core": trails of both cores.

use crate::machine::{Area, End, Machine, WINDOWED};
use crate::new_core::{self, NewState, Program};
use crate::old_core::{self, Image, OldState};

/// "An entry is the address about to be executed, all registers, flags and data bytes" (demand 3). 02, N4: "each
/// trail entry" gains Y; N11: "Trail entries show the nesting and every window".
#[derive(Clone, PartialEq, Eq, Debug)]
pub struct Entry {
    pub address: u32,
    pub registers: [u32; 32],
    pub y: u32,
    pub nesting: u32,
    pub windows: [u32; WINDOWED],
    pub flags: u32,
    pub data: Vec<u8>,
}

fn entry(address: u32, machine: &Machine, area: &Area) -> Entry {
    Entry {
        address,
        registers: machine.registers(),
        y: machine.y,
        nesting: machine.nesting(),
        windows: *machine.windows(),
        flags: machine.flags.number(),
        data: area.bytes().to_vec(),
    }
}

#[derive(Clone, Debug)]
pub struct Trail {
    pub entries: Vec<Entry>,
    /// "how the run ended, with its number, closes the trail"
    pub close: (u32, u32),
    /// How many steps the core did from each entry to the next; the last number is that of the steps
    /// from the last entry to the close.
    pub steps: Vec<u32>,
    /// Of the old core: the next of each entry's place. No part of the trail.
    pub nexts: Vec<u32>,
    /// Of the new core: the last entry is one that a kind 6, or a start, without a place gained.
    pub landed: bool,
}

impl Trail {
    fn new() -> Trail {
        Trail {
            entries: vec![],
            close: (0, 0),
            steps: vec![],
            nexts: vec![],
            landed: false,
        }
    }

    /// One more entry, if the cut leaves room for it. "A trail cut at k entries closes with 0 where entry
    /// k + 1 would come".
    fn gain(&mut self, entry: Entry, cut: usize) -> bool {
        if self.entries.len() == cut {
            return false;
        }
        self.entries.push(entry);
        self.steps.push(0);
        true
    }

    fn count_step(&mut self) {
        if let Some(last) = self.steps.last_mut() {
            *last += 1;
        }
    }

    /// Entries and close are the trail; the numbers of steps are beside it.
    pub fn shows_the_same(&self, other: &Trail) -> bool {
        self.entries == other.entries && self.close == other.close
    }
}

/// "The old core's trail has an entry before each step in which annul is clear and the run has not ended,
/// addresses outside the image included."
pub fn old_trail(image: Image, mut state: OldState, area: &mut Area, cut: usize) -> Trail {
    let mut trail = Trail::new();
    loop {
        if state.end != End::Going {
            trail.close = state.end.numbers();
            return trail;
        }
        if !state.annul {
            if !trail.gain(entry(state.pc, &state.machine, area), cut) {
                trail.close = (0, 0);
                return trail;
            }
            trail.nexts.push(state.npc);
        }
        old_core::step(image, &mut state, area);
        trail.count_step();
    }
}

/// Where the new core's trail begins: begun at an address.
#[derive(Clone)]
pub struct NewBegun {
    state: NewState,
    /// The address of a start without a place, at which the trail gains its one entry.
    unplaced: Option<u32>,
}

pub fn new_begun(program: Program, machine: Machine, address: u32) -> NewBegun {
    let state = new_core::begin(program, machine, address);
    let unplaced = (state.end != End::Going).then_some(address);
    NewBegun { state, unplaced }
}

/// "An entry also stands before each group's first record; its address is its place's, in a malformed
/// table that of the lowest-numbered place naming that record". Past the last record one stands too, where
/// a row names that number: the old core's trail has entries outside the image as well.
fn marked(program: Program, state: &NewState) -> Option<u32> {
    program
        .rows()
        .find(|row| row.first_record == state.record)
        .map(|row| row.address)
}

/// The address that a kind 6 at hand goes by without a place.
fn landing(program: Program, state: &NewState) -> Option<u32> {
    match program.record(state.record) {
        Some(record) if record.kind == 6 && program.seek(state.held).is_err() => Some(state.held),
        _ => None,
    }
}

/// The new core's trail cut at so many entries. The places and records are those of a translation; over
/// others there is `new_trail_of_run`.
pub fn new_trail(program: Program, begun: NewBegun, area: &mut Area, cut: usize) -> Trail {
    new_trail_within(program, begun, area, cut, u64::MAX)
}

/// "in a malformed table ... the trail is that of a run of a given count": no cut, and after the count it
/// closes with how the run then stands.
pub fn new_trail_of_run(program: Program, begun: NewBegun, area: &mut Area, count: u16) -> Trail {
    new_trail_within(program, begun, area, usize::MAX, count as u64)
}

fn new_trail_within(
    program: Program,
    begun: NewBegun,
    area: &mut Area,
    cut: usize,
    count: u64,
) -> Trail {
    let mut trail = Trail::new();
    let mut state = begun.state;
    if let Some(address) = begun.unplaced {
        trail.landed = trail.gain(entry(address, &state.machine, area), cut);
        trail.close = state.end.numbers();
        return trail;
    }
    for _ in 0..count {
        if state.end != End::Going {
            break;
        }
        if let Some(address) = marked(program, &state) {
            if !trail.gain(entry(address, &state.machine, area), cut) {
                trail.close = (0, 0);
                return trail;
            }
        }
        let landing = landing(program, &state);
        new_core::step(program, &mut state, area);
        trail.count_step();
        // "with none, the trail gains an entry at that address and ends 2 outside the image, 6 inside"
        if let Some(address) = landing {
            if !trail.gain(entry(address, &state.machine, area), cut) {
                trail.close = (0, 0);
                return trail;
            }
            trail.landed = true;
        }
    }
    trail.close = state.end.numbers();
    trail
}
