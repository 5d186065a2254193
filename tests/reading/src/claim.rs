//! Demand 3's claim about the two trails, as a check of one case.

use std::collections::HashSet;

use crate::machine::{Area, End, Machine, DATA_LIMIT, DEEPEST, WINDOWED};
use crate::new_core::{self, Program};
use crate::old_core::{self, Image};
use crate::places::Place;
use crate::trails::{new_begun, new_trail, old_trail, Trail};
use crate::words::Flags;

/// "for each core, any address with a plain place to begin at and any registers, flags and data"; 02, N4: "demand 3
/// takes any Y"; N11: "demand 3 takes any windows and any nesting from 0 to 6, and a nesting handed in above 6 counts as
/// 6".
#[derive(Clone, PartialEq, Eq, Debug)]
pub struct Start {
    pub address: u32,
    pub registers: [u32; 32],
    pub y: u32,
    pub nesting: u32,
    pub windows: [u32; WINDOWED],
    pub flags: u32,
    pub data: Vec<u8>,
}

impl Start {
    /// With the start values, and no data.
    pub fn at(address: u32) -> Start {
        Start {
            address,
            registers: [0; 32],
            y: 0,
            nesting: 0,
            windows: [0; WINDOWED],
            flags: 0,
            data: vec![],
        }
    }

    pub fn machine(&self) -> Machine {
        Machine::of(self.registers, self.y, Flags::of_number(self.flags))
            .within(self.nesting, self.windows)
    }

    /// The windows as an entry shows them: from the current window's ins on, ins, locals and outs are 24 numbers in a
    /// row, where registers 24 to 31, 16 to 23 and 8 to 15 stand. (The nesting is below 7, so they end before the ring does.)
    pub fn shown_windows(&self) -> [u32; WINDOWED] {
        let first = 16 * self.nesting.min(DEEPEST) as usize;
        let mut windows = self.windows;
        windows[first..first + 8].copy_from_slice(&self.registers[24..]);
        windows[first + 8..first + 16].copy_from_slice(&self.registers[16..24]);
        windows[first + 16..first + 24].copy_from_slice(&self.registers[8..16]);
        windows
    }

    /// Whether a trail's first entry is this start.
    fn is_first_of(&self, trail: &Trail) -> bool {
        let existing = self.data.len().min(DATA_LIMIT);
        trail.entries.first().is_some_and(|entry| {
            entry.address == self.address
                && entry.registers[0] == 0
                && entry.registers[1..] == self.registers[1..]
                && entry.y == self.y
                && entry.nesting == self.nesting.min(DEEPEST)
                && entry.windows == self.shown_windows()
                && entry.flags == self.flags % 16
                && entry.data == self.data[..existing]
        })
    }
}

/// An accepted image, its translation "just the places and records counted", and the places that the
/// rules make.
pub struct Accepted {
    pub image: Vec<u8>,
    pub base: u32,
    pub records: Vec<u8>,
    pub places: Vec<u8>,
    pub made: HashSet<Place>,
    pub data_base: u32,
}

impl Accepted {
    fn image(&self) -> Image<'_> {
        Image::at(self.base, &self.image)
    }

    fn program(&self) -> Program<'_> {
        Program {
            records: &self.records,
            places: &self.places,
            base: self.base,
            image_length: self.image.len() as u32,
        }
    }

    /// "an address has a plain place where the rules under Places make one"
    pub fn has_plain_place(&self, address: u32) -> bool {
        self.made.contains(&Place::Plain(address))
    }

    pub fn old_trail(&self, start: &Start, cut: usize) -> Trail {
        let mut data = start.data.clone();
        let mut area = Area::lent(self.data_base, &mut data);
        let state = old_core::begin(start.machine(), start.address);
        old_trail(self.image(), state, &mut area, cut)
    }

    pub fn new_trail(&self, start: &Start, cut: usize) -> Trail {
        let mut data = start.data.clone();
        let mut area = Area::lent(self.data_base, &mut data);
        let begun = new_begun(self.program(), start.machine(), start.address);
        new_trail(self.program(), begun, &mut area, cut)
    }

    /// "where the new core goes by a held address that lies in the image and has no plain place, and the
    /// cut leaves room for the entry at that address": that address. It is found in the core's steps, not
    /// in its trail.
    fn unplaced_jump(&self, start: &Start, cut: usize) -> Option<u32> {
        let mut data = start.data.clone();
        let mut area = Area::lent(self.data_base, &mut data);
        let program = self.program();
        let mut state = new_core::begin(program, start.machine(), start.address);
        let mut stand = 0;
        while state.end == End::Going {
            if program.rows().any(|row| row.first_record == state.record) {
                stand += 1;
            }
            if stand > cut {
                return None;
            }
            let by_held = program
                .record(state.record)
                .is_some_and(|record| record.kind == 6);
            if by_held && self.image().holds(state.held) && !self.has_plain_place(state.held) {
                return (stand < cut).then_some(state.held);
            }
            new_core::step(program, &mut state, &mut area);
        }
        None
    }
}

/// What a check that found the claim to hold has seen.
pub struct Seen {
    pub old: Trail,
    pub new: Trail,
    pub first_entries_equal: bool,
    /// The address where the exception was met.
    pub exception: Option<u32>,
}

/// Whether the claim holds for these two starts, both at addresses with plain places, and this cut, at
/// least 1. What comes back otherwise says which part fails.
pub fn check(
    accepted: &Accepted,
    old_start: &Start,
    new_start: &Start,
    cut: usize,
) -> Result<Seen, String> {
    if cut == 0
        || !accepted.has_plain_place(old_start.address)
        || !accepted.has_plain_place(new_start.address)
    {
        return Err("no case of the claim".to_string());
    }
    let old = accepted.old_trail(old_start, cut);
    let new = accepted.new_trail(new_start, cut);
    let exception = accepted.unplaced_jump(new_start, cut);

    if !old_start.is_first_of(&old) || !new_start.is_first_of(&new) {
        return Err("a first entry is not the start".to_string());
    }
    let first_entries_equal = old.entries[0] == new.entries[0];

    if let Some(address) = exception {
        // "the new trail ends there with end 6 ...; both are then compared up to and including that
        // entry, but not beyond it and not in how they close"
        let last = new.entries.last().map(|entry| entry.address);
        if new.close != (6, address) || last != Some(address) || !new.landed {
            return Err("the new trail does not end with 6 at the unplaced address".to_string());
        }
        let up_to_there = old.entries.get(..new.entries.len());
        if first_entries_equal != (up_to_there == Some(&new.entries[..])) {
            return Err("the trails differ up to the unplaced address".to_string());
        }
    } else {
        // "as it does nowhere else"
        if new.close.0 == 6 {
            return Err("end 6 without the exception".to_string());
        }
        // "the old core's trail ... and the new core's ... are equal exactly when their first entries are"
        if first_entries_equal != old.shows_the_same(&new) {
            return Err(
                "the trails are not equal exactly when their first entries are".to_string(),
            );
        }
    }

    // "From each entry to the next the new core does one or two records and the old core passes one or two
    // words, annulled ones counted." Where the cut closes a trail with 0, the next entry would come.
    for trail in [&old, &new] {
        let (last, between) = trail.steps.split_last().unwrap();
        let to_next = if trail.close == (0, 0) {
            Some(last)
        } else {
            None
        };
        if between
            .iter()
            .chain(to_next)
            .any(|steps| !(1..=2).contains(steps))
        {
            return Err("other than one or two steps from an entry to the next".to_string());
        }
    }
    Ok(Seen {
        old,
        new,
        first_entries_equal,
        exception,
    })
}
