//! The files of cases with known answers. Their directory is PIJORREL_VECTORS, else crates/cases/data.

use std::env;
use std::fs;
use std::path::PathBuf;

use reading::interface::{new_run_call, old_run_call, translate_call};
use reading::new_core::Program;
use reading::old_core::Image;
use reading::state::{NEW_STATE, OLD_STATE};
use reading::translator::Answer;
use reading::writer::{read, write, Numbers as Six};

/// A file of numbers of four bytes, big-endian, read from its start.
struct Numbers {
    bytes: Vec<u8>,
    position: usize,
}

impl Numbers {
    fn open(name: &str) -> Numbers {
        let directory = match env::var_os("PIJORREL_VECTORS") {
            Some(directory) => PathBuf::from(directory),
            None => PathBuf::from(env!("CARGO_MANIFEST_DIR")).join("../../crates/cases/data"),
        };
        let path = directory.join(name);
        let bytes = fs::read(&path)
            .unwrap_or_else(|error| panic!("{} (set PIJORREL_VECTORS): {error}", path.display()));
        Numbers { bytes, position: 0 }
    }

    fn next(&mut self) -> u32 {
        let mut number = [0; 4];
        number.copy_from_slice(&self.bytes[self.position..self.position + 4]);
        self.position += 4;
        u32::from_be_bytes(number)
    }

    /// A byte area, padded with zeros to a multiple of four.
    fn area(&mut self, length: u32) -> Vec<u8> {
        let end = self.position + length as usize;
        let area = self.bytes[self.position..end].to_vec();
        let padded = end.div_ceil(4) * 4;
        assert!(self.bytes[end..padded].iter().all(|byte| *byte == 0));
        self.position = padded;
        area
    }

    fn state<const LENGTH: usize>(&mut self) -> [u8; LENGTH] {
        self.area(LENGTH as u32).try_into().unwrap()
    }

    fn is_done(&self) -> bool {
        self.position == self.bytes.len()
    }
}

/// Runs all cases of a file; each says what differs, if anything.
fn all_cases(name: &str, mut case: impl FnMut(&mut Numbers) -> Result<(), String>) {
    let mut numbers = Numbers::open(name);
    let count = numbers.next();
    let mut differing = 0;
    for position in 0..count {
        if let Err(difference) = case(&mut numbers) {
            differing += 1;
            println!("{name}, case {position}: {difference}");
        }
    }
    println!("{name}: {} of {count} agree", count - differing);
    assert!(numbers.is_done(), "{name} goes on past its cases");
    assert!(count > 0);
    assert_eq!(differing, 0, "{name}");
}

#[test]
fn translate() {
    all_cases("translate.bin", |numbers| {
        assert_eq!(numbers.next(), 0x5452_4E53);
        let image_length = numbers.next();
        let base = numbers.next();
        let entries_length = numbers.next();
        let places_length = numbers.next() as usize;
        let records_length = numbers.next() as usize;
        let number = numbers.next();
        let first = numbers.next();
        let second = numbers.next();
        let image = numbers.area(image_length);
        let entries = numbers.area(entries_length);
        let mut expected_places = vec![0; places_length];
        let mut expected_records = vec![0; records_length];
        if number == 0 {
            let places = numbers.area(16 * first);
            let records = numbers.area(12 * second);
            expected_places[..places.len()].copy_from_slice(&places);
            expected_records[..records.len()].copy_from_slice(&records);
        }

        let mut places = vec![0xA5; places_length];
        let mut records = vec![0x5A; records_length];
        let image = Image::at(base, &image);
        let answer = translate_call(image, &entries, &mut places, &mut records);
        let expected = Answer {
            number,
            first: first as u64,
            second: second as u64,
        };
        if answer != expected {
            return Err(format!("answer {expected:?}, here {answer:?}"));
        }
        if places != expected_places {
            return Err("place tables differ".to_string());
        }
        if records != expected_records {
            return Err("records differ".to_string());
        }
        Ok(())
    });
}

#[test]
fn old_core() {
    all_cases("old_core.bin", |numbers| {
        assert_eq!(numbers.next(), 0x4F4C_4443);
        let image_length = numbers.next();
        let base = numbers.next();
        let data_base = numbers.next();
        let data_length = numbers.next();
        let count = numbers.next();
        let mut state = numbers.state::<OLD_STATE>();
        let image = numbers.area(image_length);
        let mut data = numbers.area(data_length);
        let expected_state = numbers.state::<OLD_STATE>();
        let expected_data = numbers.area(data_length);

        let image = Image::at(base, &image);
        let count = u16::try_from(count).unwrap();
        old_run_call(image, data_base, &mut state, &mut data, count);
        compare(&state, &expected_state, &data, &expected_data)
    });
}

#[test]
fn new_core() {
    all_cases("new_core.bin", |numbers| {
        assert_eq!(numbers.next(), 0x4E45_5743);
        let places_length = numbers.next();
        let records_length = numbers.next();
        let base = numbers.next();
        let image_length = numbers.next();
        let data_base = numbers.next();
        let data_length = numbers.next();
        let count = numbers.next();
        let mut state = numbers.state::<NEW_STATE>();
        let places = numbers.area(places_length);
        let records = numbers.area(records_length);
        let mut data = numbers.area(data_length);
        let expected_state = numbers.state::<NEW_STATE>();
        let expected_data = numbers.area(data_length);

        let program = Program {
            records: &records,
            places: &places,
            base,
            image_length,
        };
        let count = u16::try_from(count).unwrap();
        new_run_call(program, data_base, &mut state, &mut data, count);
        compare(&state, &expected_state, &data, &expected_data)
    });
}

/// Words that are read and written again, and instructions that are written.
#[test]
fn words() {
    all_cases("words.bin", |numbers| {
        let word = match numbers.next() {
            0x574F_5244 => Some(numbers.next()),
            mark => {
                assert_eq!(mark, 0x494E_5354);
                None
            }
        };
        let instruction: Six = std::array::from_fn(|_| numbers.next());
        let expected = (numbers.next(), numbers.next());
        let here = word.map_or(instruction, read);
        if here != instruction {
            return Err(format!("reads as {instruction:?}, here {here:?}"));
        }
        let written = write(instruction);
        if (written.number, written.value) != expected {
            return Err(format!("written {expected:?}, here {written:?}"));
        }
        Ok(())
    });
}

fn compare(
    state: &[u8],
    expected_state: &[u8],
    data: &[u8],
    expected_data: &[u8],
) -> Result<(), String> {
    for (position, expected) in expected_state.chunks(4).enumerate() {
        let here = &state[4 * position..4 * position + 4];
        if here != expected {
            return Err(format!(
                "state number {position}: {expected:?}, here {here:?}"
            ));
        }
    }
    if data != expected_data {
        return Err("data differ".to_string());
    }
    Ok(())
}
