//! Files of cases: numbers of four bytes, big-endian; a byte area is padded with zeros to a multiple of four.
//! The first number is how many cases follow.

use crate::interface::{new_begin_call, old_begin_call, translate_call};
use crate::listing::listing;
use crate::new_core::Program;
use crate::old_core::Image;
use crate::random::{NewRunCall, OldRunCall, TranslateCall};
use crate::translator::bytes;
use crate::writer::{read, write, Numbers};

fn add_areas(case: &mut Vec<u8>, areas: &[&[u8]]) {
    for area in areas {
        case.extend(*area);
        case.resize(case.len().div_ceil(4) * 4, 0);
    }
}

/// A call of the translator with this reading's answer.
pub fn translate_case(call: &TranslateCall) -> Vec<u8> {
    let mut places = vec![0xFF; call.places_length];
    let mut records = vec![0xFF; call.records_length];
    let image = Image::at(call.base, &call.image);
    let answer = translate_call(image, &call.entries, &mut places, &mut records);
    let mut case = bytes([
        0x5452_4E53,
        call.image.len() as u32,
        call.base,
        call.entries.len() as u32,
        call.places_length as u32,
        call.records_length as u32,
        answer.number,
        answer.first as u32,
        answer.second as u32,
    ]);
    add_areas(&mut case, &[&call.image, &call.entries]);
    if answer.number == 0 {
        case.extend(&places[..16 * answer.first as usize]);
        case.extend(&records[..12 * answer.second as usize]);
    }
    case
}

/// A begin of the old core, with the state of a run's call.
pub fn old_begin_case(call: &OldRunCall, address: u32) -> Vec<u8> {
    let mut state = call.state;
    let mut case = bytes([0x4F4C_4442, address]);
    case.extend(state);
    old_begin_call(address, &mut state);
    case.extend(state);
    case
}

pub fn old_run_case(mut call: OldRunCall) -> Vec<u8> {
    let mut case = bytes([
        0x4F4C_4443,
        call.image.len() as u32,
        call.base,
        call.data_base,
        call.data.len() as u32,
        call.count as u32,
    ]);
    add_areas(&mut case, &[&call.state, &call.image, &call.data]);
    call.run();
    add_areas(&mut case, &[&call.state, &call.data]);
    case
}

/// A begin of the new core, with table and state of a run's call.
pub fn new_begin_case(mut call: NewRunCall, address: u32) -> Vec<u8> {
    let mut case = bytes([
        0x4E45_5742,
        call.places.len() as u32,
        call.base,
        call.image_length,
        address,
    ]);
    add_areas(&mut case, &[&call.state, &call.places]);
    let program = Program {
        records: &[],
        places: &call.places,
        base: call.base,
        image_length: call.image_length,
    };
    new_begin_call(program, address, &mut call.state);
    case.extend(call.state);
    case
}

pub fn new_run_case(mut call: NewRunCall) -> Vec<u8> {
    let mut case = bytes([
        0x4E45_5743,
        call.places.len() as u32,
        call.records.len() as u32,
        call.base,
        call.image_length,
        call.data_base,
        call.data.len() as u32,
        call.count as u32,
    ]);
    add_areas(
        &mut case,
        &[&call.state, &call.places, &call.records, &call.data],
    );
    call.run();
    add_areas(&mut case, &[&call.state, &call.data]);
    case
}

/// A word that is read, and what it reads as written again.
pub fn read_case(word: u32) -> Vec<u8> {
    let written = write(read(word));
    let mut case = bytes([0x574F_5244, word]);
    case.extend(bytes(read(word)));
    case.extend(bytes([written.number, written.value]));
    case
}

pub fn write_case(instruction: Numbers) -> Vec<u8> {
    let written = write(instruction);
    let mut case = bytes([0x494E_5354]);
    case.extend(bytes(instruction));
    case.extend(bytes([written.number, written.value]));
    case
}

/// An input of the listing program, and what it prints.
pub fn listing_case(input: &[u8]) -> Vec<u8> {
    let text = listing(input);
    let mut case = bytes([0x4C49_5354, input.len() as u32, text.len() as u32]);
    add_areas(&mut case, &[input, text.as_bytes()]);
    case
}
