//! Random cases with this reading's results, each determined by a seed and its position.

use crate::claim::Start;
use crate::couples::{random_coupled, Couple, Transfer};
use crate::machine::Area;
use crate::new_core;
use crate::old_core::{self, Image};
use crate::random::{
    ample_lengths, damage_some, random_address, random_lengths, random_nesting, random_plain,
    random_program, random_start, random_y, rename_first_record, spoil_entries, Program, Random,
};
use crate::trails::{new_begun, new_trail, new_trail_of_run, old_trail, Trail};
use crate::translator::{translate, Refusal, Translation};
use crate::words::{condition_holds, Flags};

/// The most entries that a trail is cut at.
const LONGEST: usize = 12;

/// What a case asks: the call of the translator, and where and how far both cores run.
pub struct Asked {
    pub program: Program,
    /// Bytes too few for a word, and for an entry.
    pub image_tail: Vec<u8>,
    pub entries_tail: Vec<u8>,
    pub places_length: usize,
    pub records_length: usize,
    pub start: Start,
    pub cut: usize,
}

/// The new core's trail over damaged tables, of a run of a given count.
pub struct Malformed {
    pub places: Vec<u8>,
    pub records: Vec<u8>,
    pub count: u16,
    pub trail: Trail,
}

pub struct Case {
    pub asked: Asked,
    pub outcome: Result<Translation, Refusal>,
    pub old: Trail,
    /// Of an accepted image.
    pub new: Option<Trail>,
    /// Of some accepted images.
    pub malformed: Option<Malformed>,
}

/// Every second case has a couple, all of them in turn.
pub fn random_case(random: &mut Random, position: u64) -> Case {
    let couples = Couple::all();
    let asked = if position.is_multiple_of(2) {
        random_asked(random)
    } else {
        coupled(random, couples[(position / 2) as usize % couples.len()])
    };
    let (outcome, old, new) = asked.results();
    let malformed = match &outcome {
        Ok(translation) if random.chance(50) => Some(asked.malformed(random, translation)),
        _ => None,
    };
    Case {
        asked,
        outcome,
        old,
        new,
        malformed,
    }
}

/// Mostly an image that is accepted; every refusal now and then.
fn random_asked(random: &mut Random) -> Asked {
    let mut program = random_program(random);
    match random.weighted(&[90, 8, 2]) {
        0 => {}
        1 => spoil_entries(random, &mut program),
        _ => program.entries = vec![program.base; random.pick(&[0, 0, 64, 65])],
    }
    let (places_length, records_length) = match program.translate() {
        Ok(translation) if random.chance(60) => {
            (translation.rows.len() * 16, translation.records.len() * 12)
        }
        _ => random_lengths(random, &program),
    };
    if random.chance(1) {
        program.words.clear();
    }
    if random.chance(1) {
        program.base = program.base.wrapping_add(random.pick(&[1, 2, 3]));
    }
    let mut asked = Asked {
        image_tail: random_tail(random, 2),
        entries_tail: random_tail(random, 10),
        places_length,
        records_length,
        start: Start::at(0),
        cut: LONGEST,
        program,
    };
    asked.start = asked.random_start(random);
    asked.cut = asked.random_cut(random, 1);
    asked
}

/// A case whose start is a couple's first word, and whose trails come past the second: a jmpl to a
/// misaligned address would end them before it.
fn coupled(random: &mut Random, couple: Couple) -> Asked {
    loop {
        let (program, address) = random_coupled(random, couple);
        let (places_length, records_length) = ample_lengths(random, &program);
        let mut asked = Asked {
            image_tail: vec![],
            entries_tail: random_tail(random, 10),
            places_length,
            records_length,
            start: coupled_start(random, couple, &program, address),
            cut: LONGEST,
            program,
        };
        asked.cut = asked.random_cut(random, 2);
        let (_, old, _) = asked.results();
        if couple.annulled || old.entries.len() > 1 {
            return asked;
        }
    }
}

/// Where the slot may be either, the flags have it executed or annulled as the couple says.
fn coupled_start(random: &mut Random, couple: Couple, program: &Program, address: u32) -> Start {
    let plain = program.plain_addresses();
    let mut start = random_start(random, program, &plain, address);
    if couple.first == (Transfer::Conditional { annul: true }) {
        let word = program.words[(address.wrapping_sub(program.base) / 4) as usize];
        let annuls = |flags| !condition_holds((word >> 25) & 15, Flags::of_number(flags));
        while annuls(start.flags) != couple.annulled {
            start.flags = random.below(16);
        }
    }
    start
}

fn random_tail(random: &mut Random, percent: u32) -> Vec<u8> {
    if !random.chance(percent) {
        return vec![];
    }
    let length = random.between(1, 3);
    (0..length).map(|_| random.word() as u8).collect()
}

impl Asked {
    pub fn image_bytes(&self) -> Vec<u8> {
        [self.program.image_bytes(), self.image_tail.clone()].concat()
    }

    pub fn entry_bytes(&self) -> Vec<u8> {
        [self.program.entry_bytes(), self.entries_tail.clone()].concat()
    }

    /// The translation, the old core's trail and, of an accepted image, the new core's.
    fn results(&self) -> (Result<Translation, Refusal>, Trail, Option<Trail>) {
        let image_bytes = self.image_bytes();
        let image = Image::at(self.program.base, &image_bytes);
        let outcome = self.outcome(image);
        let new = outcome
            .as_ref()
            .ok()
            .map(|translation| self.new_trail(translation));
        (outcome, self.old_trail(image), new)
    }

    /// Any cut; or just the entries that there are, or one less: where a cut and an end are told apart.
    fn random_cut(&self, random: &mut Random, least: usize) -> usize {
        let (_, old, new) = self.results();
        let entries = new.map_or(old.entries.len(), |new| new.entries.len());
        match random.weighted(&[60, 20, 20]) {
            0 => random.between(least as i32, LONGEST as i32) as usize,
            1 => entries.max(least),
            _ => (entries - 1).max(least),
        }
    }

    fn outcome(&self, image: Image) -> Result<Translation, Refusal> {
        let (places, records) = (self.places_length, self.records_length);
        translate(image, &self.entry_bytes(), places, records)
    }

    /// At a plain place, if the image is accepted, and else at any address.
    fn random_start(&self, random: &mut Random) -> Start {
        let program = &self.program;
        if program.words.is_empty() {
            let address = random.pick(&[0, program.base, 2]);
            let (y, flags) = (random_y(random), random.below(16));
            return Start {
                y,
                nesting: random_nesting(random),
                flags,
                ..Start::at(address)
            };
        }
        let image_bytes = self.image_bytes();
        let image = Image::at(program.base, &image_bytes);
        let plain = program.plain_addresses();
        let address = match self.outcome(image) {
            Ok(_) => random_plain(random, program, &plain),
            Err(_) => random_address(random, program, &plain),
        };
        random_start(random, program, &plain, address)
    }

    fn old_trail(&self, image: Image) -> Trail {
        let mut data = self.start.data.clone();
        let mut area = Area::lent(self.program.data_base, &mut data);
        let state = old_core::begin(self.start.machine(), self.start.address);
        old_trail(image, state, &mut area, self.cut)
    }

    fn new_trail(&self, translation: &Translation) -> Trail {
        let (records, places) = (translation.record_bytes(), translation.place_bytes());
        let program = self.over(&records, &places);
        let mut data = self.start.data.clone();
        let mut area = Area::lent(self.program.data_base, &mut data);
        let begun = new_begun(program, self.start.machine(), self.start.address);
        new_trail(program, begun, &mut area, self.cut)
    }

    fn over<'a>(&self, records: &'a [u8], places: &'a [u8]) -> new_core::Program<'a> {
        new_core::Program {
            records,
            places,
            base: self.program.base,
            image_length: self.image_bytes().len() as u32,
        }
    }

    fn malformed(&self, random: &mut Random, translation: &Translation) -> Malformed {
        let mut places = translation.place_bytes();
        let mut records = translation.record_bytes();
        if random.chance(50) {
            rename_first_record(random, &mut places, translation.records.len() as u32);
        } else {
            damage_some(random, &mut records, &mut places);
        }
        let program = self.over(&records, &places);
        let count = random.below(16) as u16;
        let mut data = self.start.data.clone();
        let mut area = Area::lent(self.program.data_base, &mut data);
        let begun = new_begun(program, self.start.machine(), self.start.address);
        let trail = new_trail_of_run(program, begun, &mut area, count);
        Malformed {
            places,
            records,
            count,
            trail,
        }
    }
}

#[cfg(test)]
mod tests {
    use super::*;

    /// In 144 cases each couple is what the old core meets first, and the image is accepted or refused for it.
    #[test]
    fn every_couple_is_met() {
        let mut random = Random::new(1);
        for (number, couple) in Couple::all().into_iter().enumerate() {
            let case = random_case(&mut random, 2 * number as u64 + 1);
            let image_bytes = case.asked.image_bytes();
            let image = Image::at(case.asked.program.base, &image_bytes);
            let met = [case.old.entries[0].address, case.old.nexts[0]]
                .map(|address| image.word(address).and_then(Transfer::of));
            assert_eq!(met, [Some(couple.first), Some(couple.second)]);
            assert_eq!(case.old.steps[0], 1 + couple.annulled as u32);
            match case.outcome {
                Ok(_) => assert!(!couple.is_refused()),
                Err(refusal) => assert_eq!(refusal, Refusal::ForbiddenWord(case.old.nexts[0])),
            }
        }
    }
}
