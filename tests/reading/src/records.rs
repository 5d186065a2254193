//! 01, "Records of the new core": the records, the groups that places get, and their layout.

use std::collections::HashMap;

use crate::old_core::Image;
use crate::places::{followers, word_at, Place, Word};
use crate::words::Instruction;

/// "A record is three 32-bit numbers." "A number not named is 0."
#[derive(Clone, Copy, PartialEq, Eq, Debug)]
pub struct Record {
    pub kind: u32,
    pub first: u32,
    pub second: u32,
}

/// "Kinds: 1 do the word; 2 register 15 := first; 3 hold the jmpl word in first, second being its source
/// address; 4 if condition first holds, go to record second; 5 go to record first; 6 go by the held
/// address; 7 end as first says, at address second."
impl Record {
    fn do_word(word: u32) -> Record {
        Record::new(1, word, 0)
    }

    fn link(address: u32) -> Record {
        Record::new(2, address, 0)
    }

    fn hold(word: u32, address: u32) -> Record {
        Record::new(3, word, address)
    }

    fn go_if(condition: u32, record: u32) -> Record {
        Record::new(4, condition, record)
    }

    fn go(record: u32) -> Record {
        Record::new(5, record, 0)
    }

    fn go_held() -> Record {
        Record::new(6, 0, 0)
    }

    fn end(end: u32, address: u32) -> Record {
        Record::new(7, end, address)
    }

    pub fn new(kind: u32, first: u32, second: u32) -> Record {
        Record {
            kind,
            first,
            second,
        }
    }
}

/// The group of a place. "The first that fits applies." The first record of a place's group is asked of
/// `record_of`.
pub fn group(image: Image, place: Place, record_of: &dyn Fn(Place) -> u32) -> Vec<Record> {
    let p = place.address();
    let named = followers(image, place);
    let (word, instruction) = match word_at(image, p) {
        // "Outside or illegal: one 7 (end 2 or 3, address p)."
        Word::Outside => return vec![Record::end(2, p)],
        Word::Illegal => return vec![Record::end(3, p)],
        Word::Known(word, instruction) => (word, instruction),
    };
    // "Ticc 8: one 1."
    if matches!(instruction, Instruction::Ticc { condition: 8, .. }) {
        return vec![Record::do_word(word)];
    }
    // "Held: 1, 6."
    if matches!(place, Place::Held(_)) {
        return vec![Record::do_word(word), Record::go_held()];
    }
    // "any other 5 goes to the first follower named."
    let go_first = Record::go(record_of(named[0]));
    match instruction {
        // "Bicc 0 and 8: one 5."
        Instruction::Bicc {
            condition: 0 | 8, ..
        } => vec![go_first],
        // "Other Bicc: 4, 5." "A 4 carries the word's condition and goes to (n, t), the 5 after it to the
        // other follower"; 02, N6: (n, t) is named second.
        Instruction::Bicc { condition, .. } => vec![
            Record::go_if(condition, record_of(named[1])),
            Record::go(record_of(named[0])),
        ],
        // "Call: 2 (p), 5."
        Instruction::Call { .. } => vec![Record::link(p), go_first],
        // "Jmpl: 3, 5."
        Instruction::Jmpl { .. } => vec![Record::hold(word, p), go_first],
        // "The rest: 1, 5."
        _ => vec![Record::do_word(word), go_first],
    }
}

/// "Groups follow place order." The first records of all places, then all records.
pub fn lay_out(
    image: Image,
    places: &[Place],
    numbers: &HashMap<Place, usize>,
) -> (Vec<u32>, Vec<Record>) {
    let mut firsts = vec![];
    let mut next = 0;
    for place in places {
        firsts.push(next);
        next += group(image, *place, &|_| 0).len() as u32;
    }
    let record_of = |place: Place| firsts[numbers[&place]];
    let mut records = vec![];
    for place in places {
        records.extend(group(image, *place, &record_of));
    }
    (firsts, records)
}
