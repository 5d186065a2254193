//! Random calls of all functions of the C interface, each with this reading's answer. Most are those of `random`; the
//! others are there for lengths and bytes that no loader would lend. Calls of the reader and writer of words are a
//! stream of their own.

use crate::files::{
    new_begin_case, new_run_case, old_begin_case, old_run_case, read_case, translate_case,
    write_case,
};
use crate::machine::WINDOWED;
use crate::new_core::number;
use crate::random::{
    random_large_program, random_lengths, random_new_run_call, random_old_run_call,
    random_translate_call, with_stray_bit, NewRunCall, OldRunCall, Random, TranslateCall,
};
use crate::writer::{fields, forms, write, Field, Numbers};

/// A call of the translator or a core, as a case of a file.
pub fn random_case(random: &mut Random) -> Vec<u8> {
    match random.weighted(&[36, 4, 28, 6, 26]) {
        0 => translate_case(&any_translate_call(random)),
        1 => old_begin_case(&any_old_run_call(random), random.word()),
        2 => old_run_case(any_old_run_call(random)),
        3 => {
            let call = any_new_run_call(random);
            let address = address_to_begin_at(random, &call);
            new_begin_case(call, address)
        }
        _ => new_run_case(any_new_run_call(random)),
    }
}

fn random_bytes(random: &mut Random, limit: u32) -> Vec<u8> {
    let length = random.below(limit);
    (0..length).map(|_| random.word() as u8).collect()
}

/// Now and then a state of any bytes, half of these with a nesting that is not far too large.
fn loosen_state(random: &mut Random, state: &mut [u8]) {
    if random.chance(10) {
        state.fill_with(|| random.word() as u8);
        if random.chance(50) {
            let nesting = state.len() - 4 * (1 + WINDOWED);
            state[nesting..nesting + 4].copy_from_slice(&random.below(9).to_be_bytes());
        }
    }
}

fn any_translate_call(random: &mut Random) -> TranslateCall {
    match random.weighted(&[790, 10, 200]) {
        0 => random_translate_call(random),
        1 => large_translate_call(random),
        _ => loose_translate_call(random),
    }
}

/// An image of up to 4,096 words, with both buffers about as long as needed.
fn large_translate_call(random: &mut Random) -> TranslateCall {
    let program = random_large_program(random);
    let (places_length, records_length) = random_lengths(random, &program);
    TranslateCall {
        image: program.image_bytes(),
        base: program.base,
        entries: program.entry_bytes(),
        places_length,
        records_length,
    }
}

/// Buffers, lists and images of any length; entries around the image; any bytes as an image.
fn loose_translate_call(random: &mut Random) -> TranslateCall {
    let mut call = random_translate_call(random);
    if random.chance(50) {
        call.places_length = random.below(700) as usize;
    }
    if random.chance(50) {
        call.records_length = random.below(900) as usize;
    }
    if random.chance(20) {
        let length = call.image.len() as u32;
        call.entries.clear();
        for _ in 0..random.below(70) {
            let entry = call.base.wrapping_add(4 * random.below(length / 4 + 1));
            call.entries.extend(entry.to_be_bytes());
        }
        call.entries.truncate(random.below(281) as usize);
    }
    if random.chance(10) {
        call.entries = random_bytes(random, 30);
    }
    if random.chance(20) {
        call.image = random_bytes(random, 200);
    }
    if random.chance(5) {
        call.base = random.word();
    }
    call
}

/// The data areas' lengths that matter: any small one, and those around 65,536.
fn any_data(random: &mut Random, data: &mut Vec<u8>) {
    if random.below(400) == 0 {
        let length = random.between(65_528, 65_545) as usize;
        data.resize(length, 0);
    } else {
        *data = random_bytes(random, 80);
    }
}

/// Now and then other data, with an address in data register 12 by which accesses meet the last bytes of the area and
/// the first past it.
fn loosen_data(random: &mut Random, base: u32, data: &mut Vec<u8>, state: &mut [u8]) {
    if random.chance(20) {
        any_data(random, data);
        let past = base.wrapping_add(data.len() as u32);
        let near = past.wrapping_sub(random.below(9));
        state[4 * 12..4 * 13].copy_from_slice(&near.to_be_bytes());
    }
}

/// Now and then another count, up to the largest; runs in a circle take all of it.
fn loosen_count(random: &mut Random, count: &mut u16) {
    if random.chance(10) {
        *count = if random.below(100) == 0 {
            random.pick(&[65_535, 65_534, 32_768])
        } else {
            random.below(300) as u16
        };
    }
}

fn any_old_run_call(random: &mut Random) -> OldRunCall {
    let mut call = random_old_run_call(random);
    loosen_state(random, &mut call.state);
    if random.chance(10) {
        call.image = random_bytes(random, 100);
    }
    loosen_data(random, call.data_base, &mut call.data, &mut call.state);
    loosen_count(random, &mut call.count);
    call
}

fn any_new_run_call(random: &mut Random) -> NewRunCall {
    let mut call = random_new_run_call(random);
    loosen_state(random, &mut call.state);
    if random.chance(5) {
        call.places = random_bytes(random, 200);
    }
    if random.chance(5) {
        call.records = random_bytes(random, 200);
    }
    if random.chance(5) {
        call.records = small_numbers(random);
    }
    loosen_data(random, call.data_base, &mut call.data, &mut call.state);
    loosen_count(random, &mut call.count);
    call
}

/// Records of kinds 0 to 8 whose numbers are small, so that some are good and go round.
fn small_numbers(random: &mut Random) -> Vec<u8> {
    let mut records = vec![];
    for _ in 0..random.below(12) {
        for number in [random.below(9), random.below(20), random.below(14)] {
            records.extend(number.to_be_bytes());
        }
    }
    records
}

/// Mostly the address of a place in the table, of whatever kind.
fn address_to_begin_at(random: &mut Random, call: &NewRunCall) -> u32 {
    let places = call.places.len() / 16;
    match random.weighted(&[70, 25, 5]) {
        0 if places > 0 => number(&call.places, 4 * random.below(places as u32) as usize),
        0 | 1 => call.base.wrapping_add(random.below(120)),
        _ => random.word(),
    }
}

/// A call of the reader or the writer, as a case of a file.
pub fn random_word_case(random: &mut Random) -> Vec<u8> {
    if random.chance(40) {
        read_case(any_word(random))
    } else {
        write_case(any_instruction(random))
    }
}

/// Known words, the same with an unused bit set or any one bit changed, and any words.
fn any_word(random: &mut Random) -> u32 {
    let known = write(fitting_numbers(random)).value;
    match random.weighted(&[40, 30, 20, 10]) {
        0 => known,
        1 => with_stray_bit(random, known),
        2 => known ^ 1 << random.below(32),
        _ => random.word(),
    }
}

/// Numbers that fit; the same with one or two at the edge of a field, or of another form; and any numbers.
fn any_instruction(random: &mut Random) -> Numbers {
    let mut numbers = fitting_numbers(random);
    match random.weighted(&[30, 35, 15, 15, 5]) {
        0 => {}
        1 => put_at_an_edge(random, &mut numbers),
        2 => {
            put_at_an_edge(random, &mut numbers);
            put_at_an_edge(random, &mut numbers);
        }
        3 => numbers[0] = random.below(260),
        _ => numbers.fill_with(|| random.word()),
    }
    numbers
}

/// An instruction that is not refused, with any bytes in numbers that its form does not have.
fn fitting_numbers(random: &mut Random) -> Numbers {
    let mut numbers = [0; 6];
    for number in &mut numbers {
        let any = random.word();
        *number = random.pick(&[0, 1, 2, 0x8000_0000, any]);
    }
    // Call, Bicc, sethi, the shifts, rdy, wry and Ticc have fields of their own; save and restore are to be met often.
    numbers[0] = if random.chance(40) {
        random.pick(&[64, 2, 4, 165, 166, 167, 168, 176, 186, 188, 189])
    } else {
        random.pick(&forms())
    };
    let constant = numbers[4] != 0;
    for field in fields(numbers[0], constant).expect("a form that a word has") {
        // Of annul and of the mark of a constant every number counts.
        if field.width > 1 {
            numbers[field.number] = fitting_number(random, field);
        }
    }
    numbers
}

/// A number that a field can have, often its least or largest.
fn fitting_number(random: &mut Random, field: Field) -> u32 {
    let top = 1 << (field.low + field.width - 1);
    let any = random.word();
    let bits = random.pick(&[any, any, 0, !0, top, !top]);
    field.read(bits)
}

/// Replaces the number of a field by one of the last that fit it or the first that do not, or that fit some other field.
fn put_at_an_edge(random: &mut Random, numbers: &mut Numbers) {
    let fields = fields(numbers[0], numbers[4] != 0).expect("a form that a word has");
    let field = random.pick(&fields);
    let other = random.pick(&[4, 5, 7, 13, 22, 30]);
    let width = if random.chance(70) {
        field.width
    } else {
        other
    };
    let (whole, half) = (1u32 << width, 1u32 << (width - 1));
    let edge = random.pick(&[0, whole, half, half.wrapping_neg()]);
    numbers[field.number] = edge.wrapping_add_signed(random.between(-2, 1));
}
