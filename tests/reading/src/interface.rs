//! "The loader, in C, calls translator and cores with numbers and byte areas, four bytes a number,
//! big-endian." The calls of the C interface, one function for each, as this reading answers them.

use crate::machine::Area;
use crate::new_core::{self, Program};
use crate::old_core::{self, Image};
use crate::state::{decode_new, decode_old, encode_new, encode_old, NEW_STATE, OLD_STATE};
use crate::translator::{answer_of, fill, translate, Answer};

/// The answer, and both buffers.
pub fn translate_call(
    image: Image,
    entries: &[u8],
    places: &mut [u8],
    records: &mut [u8],
) -> Answer {
    let outcome = translate(image, entries, places.len(), records.len());
    fill(&outcome, places, records);
    answer_of(&outcome)
}

pub fn old_begin_call(address: u32, state: &mut [u8; OLD_STATE]) {
    let begun = old_core::begin(decode_old(state).machine, address);
    *state = encode_old(&begun);
}

/// The end and the number beside it.
pub fn old_run_call(
    image: Image,
    data_base: u32,
    state: &mut [u8; OLD_STATE],
    data: &mut [u8],
    count: u16,
) -> (u32, u32) {
    let mut decoded = decode_old(state);
    let mut area = Area::lent(data_base, data);
    old_core::run(image, &mut decoded, &mut area, count);
    *state = encode_old(&decoded);
    decoded.end.numbers()
}

/// Of the program the records are not read.
pub fn new_begin_call(program: Program, address: u32, state: &mut [u8; NEW_STATE]) -> (u32, u32) {
    let begun = new_core::begin(program, decode_new(state).machine, address);
    *state = encode_new(&begun);
    begun.end.numbers()
}

pub fn new_run_call(
    program: Program,
    data_base: u32,
    state: &mut [u8; NEW_STATE],
    data: &mut [u8],
    count: u16,
) -> (u32, u32) {
    let mut decoded = decode_new(state);
    let mut area = Area::lent(data_base, data);
    new_core::run(program, &mut decoded, &mut area, count);
    *state = encode_new(&decoded);
    decoded.end.numbers()
}
