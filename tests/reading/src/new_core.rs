//! 01, "Records of the new core": the core itself, over records and a place table of any bytes.

use crate::machine::{effect, Area, End, Machine};
use crate::old_core::lies_in_image;
use crate::places::transfers;
use crate::records::Record;
use crate::words::{condition_holds, decode, Instruction};

/// "The new core is given records, place table, base and image length".
#[derive(Clone, Copy)]
pub struct Program<'a> {
    pub records: &'a [u8],
    pub places: &'a [u8],
    pub base: u32,
    pub image_length: u32,
}

/// A row of the place table: "four numbers each: address, next, kind, first record". The new core does
/// not read the next.
#[derive(Clone, Copy, PartialEq, Eq, Debug)]
pub struct Row {
    pub address: u32,
    pub next: u32,
    pub kind: u32,
    pub first_record: u32,
}

/// "four bytes a number, big-endian"
pub fn number(bytes: &[u8], position: usize) -> u32 {
    let mut number = [0; 4];
    number.copy_from_slice(&bytes[4 * position..4 * position + 4]);
    u32::from_be_bytes(number)
}

impl Program<'_> {
    /// "A tail too short for a whole ... place or record is not counted as one."
    pub fn record_count(&self) -> usize {
        self.records.len() / 12
    }

    pub fn record(&self, record: u32) -> Option<Record> {
        let position = record as usize;
        if position >= self.record_count() {
            return None;
        }
        Some(Record::new(
            number(self.records, 3 * position),
            number(self.records, 3 * position + 1),
            number(self.records, 3 * position + 2),
        ))
    }

    pub fn place_count(&self) -> usize {
        self.places.len() / 16
    }

    pub fn row(&self, place: usize) -> Row {
        Row {
            address: number(self.places, 4 * place),
            next: number(self.places, 4 * place + 1),
            kind: number(self.places, 4 * place + 2),
            first_record: number(self.places, 4 * place + 3),
        }
    }

    pub fn rows(&self) -> impl Iterator<Item = Row> + '_ {
        (0..self.place_count()).map(|place| self.row(place))
    }

    /// "Kind 6 seeks the lowest-numbered plain place of the held address; with none, the trail gains an
    /// entry at that address and ends 2 outside the image, 6 inside." A start seeks alike. Found, it is
    /// the first record.
    pub fn seek(&self, address: u32) -> Result<u32, End> {
        let found = self
            .rows()
            .find(|row| row.kind == 0 && row.address == address);
        match found {
            Some(row) => Ok(row.first_record),
            None if lies_in_image(address, self.base, self.image_length as usize) => {
                Err(End::NoPlace(address))
            }
            None => Err(End::Outside(address)),
        }
    }
}

/// The new core's state: registers, windows, Y and flags as the old core's, a record number, the held address,
/// and how the run ended.
#[derive(Clone, PartialEq, Eq, Debug)]
pub struct NewState {
    pub machine: Machine,
    pub record: u32,
    pub held: u32,
    pub end: End,
}

/// "its held address starts as 0. ... Begun at an address, neither ended, it starts at the first record
/// of that address's lowest-numbered plain place (with none, as kind 6 would)".
pub fn begin(program: Program, machine: Machine, address: u32) -> NewState {
    let (record, end) = match program.seek(address) {
        Ok(record) => (record, End::Going),
        Err(end) => (0, end),
    };
    NewState {
        machine,
        record,
        held: 0,
        end,
    }
}

/// One step, which is one record.
pub fn step(program: Program, state: &mut NewState, area: &mut Area) {
    // "A step of either core on an ended state changes nothing."
    if state.end != End::Going {
        return;
    }
    match carry_out(program, state, area) {
        Ok(record) => state.record = record,
        Err(end) => state.end = end,
    }
}

/// The record at hand is done; what comes back is the record number after it, or the end.
fn carry_out(program: Program, state: &mut NewState, area: &mut Area) -> Result<u32, End> {
    // "7 a record past the last, of unknown kind, with an unfit word ..., a condition above 15 or a kind
    // 7 whose first is not 2 or 3, with the record number."
    let bad = End::BadRecord(state.record);
    let record = program.record(state.record).ok_or(bad)?;
    // "After 1, 2, 3 and a 4 whose condition fails comes the next record."
    let next = state.record.wrapping_add(1);
    match record.kind {
        // "1 do the word"; unfit for "kind 1: illegal, call, jmpl or any Bicc but 0 without annul"
        1 => {
            let instruction = decode(record.first).ok_or(bad)?;
            if transfers(instruction) {
                return Err(bad);
            }
            effect(instruction, &mut state.machine, area)?;
            Ok(next)
        }
        // "2 register 15 := first"
        2 => {
            state.machine.write(15, record.first);
            Ok(next)
        }
        // "3 hold the jmpl word in first, second being its source address"; unfit for "kind 3: anything
        // but jmpl". "Jmpl takes its address from the registers before it writes its own address to rd;
        // a misaligned address leaves rd untouched."
        3 => {
            let Some(Instruction::Jmpl { rd, rs1, operand }) = decode(record.first) else {
                return Err(bad);
            };
            let address = state.machine.sum(rs1, operand);
            if !address.is_multiple_of(4) {
                return Err(End::Misaligned(address));
            }
            state.machine.write(rd, record.second);
            state.held = address;
            Ok(next)
        }
        // "4 if condition first holds, go to record second"
        4 => {
            if record.first > 15 {
                return Err(bad);
            }
            if condition_holds(record.first, state.machine.flags) {
                Ok(record.second)
            } else {
                Ok(next)
            }
        }
        // "5 go to record first"
        5 => Ok(record.first),
        // "6 go by the held address"
        6 => program.seek(state.held),
        // "7 end as first says, at address second"; no other end is said so, 8 and 9 neither
        7 => match record.first {
            2 => Err(End::Outside(record.second)),
            3 => Err(End::Illegal(record.second)),
            _ => Err(bad),
        },
        _ => Err(bad),
    }
}

/// "a run of a given count does that many of these steps, or fewer where it ends"
pub fn run(program: Program, state: &mut NewState, area: &mut Area, count: u16) {
    for _ in 0..count {
        if state.end != End::Going {
            break;
        }
        step(program, state, area);
    }
}
