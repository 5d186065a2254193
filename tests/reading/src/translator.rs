//! 01, "What the translator hands back".

use crate::new_core::{number, Row};
use crate::old_core::Image;
use crate::places::{walk, Stop};
use crate::records::{lay_out, Record};

/// An accepted image: "place count, record count", and what they count.
#[derive(Clone, PartialEq, Eq, Debug)]
pub struct Translation {
    pub rows: Vec<Row>,
    pub records: Vec<Record>,
}

/// The table's refusals, each with what it returns.
#[derive(Clone, PartialEq, Eq, Debug)]
pub enum Refusal {
    /// "image length | 1 | length 0, above 16,384, or no multiple of 4"
    ImageLength(u64),
    /// "base | 2 | base no multiple of 4"
    Base(u32),
    /// "position of a bad entry, counted from 1; 0 if the count is bad | 3 | 0 or over 64 entries; ..."; 02, N8:
    /// "a bad count still gives 0"
    EntryCount,
    /// "... an entry misaligned or outside the image"; 02, N8: the position is "that of the first entry, in list
    /// order, that is misaligned or outside the image"
    Entry(u64),
    /// "its address | 4 | a held place has a forbidden word"
    ForbiddenWord(u32),
    /// "address of the place | 5 | a new place exceeds the table ... or is the 8,193rd"
    TooManyPlaces(u32),
    /// "records needed | 6 | the record buffer is short"
    RecordsNeeded(u64),
}

/// The answer as numbers: 0, place count and record count; or the refusal, what it returns, and 0.
#[derive(Clone, Copy, PartialEq, Eq, Debug)]
pub struct Answer {
    pub number: u32,
    pub first: u64,
    pub second: u64,
}

impl Refusal {
    fn answer(&self) -> Answer {
        let (number, first) = match *self {
            Refusal::ImageLength(length) => (1, length),
            Refusal::Base(base) => (2, base as u64),
            Refusal::EntryCount => (3, 0),
            Refusal::Entry(position) => (3, position),
            Refusal::ForbiddenWord(address) => (4, address as u64),
            Refusal::TooManyPlaces(address) => (5, address as u64),
            Refusal::RecordsNeeded(needed) => (6, needed),
        };
        Answer {
            number,
            first,
            second: 0,
        }
    }
}

/// The answer for either outcome.
pub fn answer_of(outcome: &Result<Translation, Refusal>) -> Answer {
    match outcome {
        Ok(translation) => Answer {
            number: 0,
            first: translation.rows.len() as u64,
            second: translation.records.len() as u64,
        },
        Err(refusal) => refusal.answer(),
    }
}

/// "A tail too short for a whole entry ... is not counted as one."
pub fn entry_numbers(entries: &[u8]) -> Vec<u32> {
    (0..entries.len() / 4)
        .map(|position| number(entries, position))
        .collect()
}

/// The translation of an image; the lengths are those of the lent buffers, in bytes.
pub fn translate(
    image: Image,
    entries: &[u8],
    places_length: usize,
    records_length: usize,
) -> Result<Translation, Refusal> {
    // "Order: 1, 2, 3."
    let length = image.bytes.len();
    if length == 0 || length > 16_384 || !length.is_multiple_of(4) {
        return Err(Refusal::ImageLength(length as u64));
    }
    if !image.base.is_multiple_of(4) {
        return Err(Refusal::Base(image.base));
    }
    let count = entries.len() / 4;
    if count == 0 || count > 64 {
        return Err(Refusal::EntryCount);
    }
    let entries = entry_numbers(entries);
    let bad = |entry: &u32| !entry.is_multiple_of(4) || !image.holds(*entry);
    if let Some(before) = entries.iter().position(bad) {
        return Err(Refusal::Entry(before as u64 + 1));
    }
    // "In the walk, ... the first event of 4 or 5 decides; 6 comes last."
    let (places, numbers) =
        walk(image, &entries, places_length / 16).map_err(|stop| match stop {
            Stop::ForbiddenWord(address) => Refusal::ForbiddenWord(address),
            Stop::TooManyPlaces(address) => Refusal::TooManyPlaces(address),
        })?;
    let (firsts, records) = lay_out(image, &places, &numbers);
    if records.len() > records_length / 12 {
        return Err(Refusal::RecordsNeeded(records.len() as u64));
    }
    let rows = places
        .iter()
        .zip(firsts)
        .map(|(place, first_record)| Row {
            address: place.address(),
            next: place.next(),
            kind: place.kind(),
            first_record,
        })
        .collect();
    Ok(Translation { rows, records })
}

impl Translation {
    pub fn place_bytes(&self) -> Vec<u8> {
        let numbers = |row: &Row| [row.address, row.next, row.kind, row.first_record];
        bytes(self.rows.iter().flat_map(numbers))
    }

    pub fn record_bytes(&self) -> Vec<u8> {
        let numbers = |record: &Record| [record.kind, record.first, record.second];
        bytes(self.records.iter().flat_map(numbers))
    }
}

/// "four bytes a number, big-endian"
pub fn bytes(numbers: impl IntoIterator<Item = u32>) -> Vec<u8> {
    numbers.into_iter().flat_map(u32::to_be_bytes).collect()
}

/// Both lent buffers. "Every refusal fills both buffers with 0; on acceptance all bytes past the last
/// number used are 0."
pub fn fill(outcome: &Result<Translation, Refusal>, places: &mut [u8], records: &mut [u8]) {
    places.fill(0);
    records.fill(0);
    if let Ok(translation) = outcome {
        let place_bytes = translation.place_bytes();
        let record_bytes = translation.record_bytes();
        places[..place_bytes.len()].copy_from_slice(&place_bytes);
        records[..record_bytes.len()].copy_from_slice(&record_bytes);
    }
}
