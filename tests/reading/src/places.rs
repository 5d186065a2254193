//! 01, "Places": what the old core is about to do, and the walk that finds all of it.

use std::collections::HashMap;

use crate::old_core::Image;
use crate::words::{decode, Instruction};

/// "A place is what the old core is about to do."
#[derive(Clone, Copy, PartialEq, Eq, Hash, Debug)]
pub enum Place {
    /// "Kind 0, plain: address p, next p + 4."
    Plain(u32),
    /// "Kind 1, slot: address p, next n other than p + 4."
    Slot(u32, u32),
    /// "Kind 2, held: address p, next known only when run (shown as 0)."
    Held(u32),
}

impl Place {
    /// "A pair whose next is p + 4 is always the plain place."
    pub fn pair(address: u32, next: u32) -> Place {
        if next == address.wrapping_add(4) {
            Place::Plain(address)
        } else {
            Place::Slot(address, next)
        }
    }

    pub fn address(self) -> u32 {
        match self {
            Place::Plain(address) | Place::Slot(address, _) | Place::Held(address) => address,
        }
    }

    /// The next as the place table shows it.
    pub fn next(self) -> u32 {
        match self {
            Place::Plain(address) => address.wrapping_add(4),
            Place::Slot(_, next) => next,
            Place::Held(_) => 0,
        }
    }

    pub fn kind(self) -> u32 {
        match self {
            Place::Plain(_) => 0,
            Place::Slot(_, _) => 1,
            Place::Held(_) => 2,
        }
    }
}

/// What stands at a place's address.
#[derive(Clone, Copy, PartialEq, Eq, Debug)]
pub enum Word {
    Outside,
    Illegal,
    Known(u32, Instruction),
}

pub fn word_at(image: Image, address: u32) -> Word {
    match image.word(address) {
        None => Word::Outside,
        Some(word) => match decode(word) {
            None => Word::Illegal,
            Some(instruction) => Word::Known(word, instruction),
        },
    }
}

/// Where a call at p comes back to: "plain p + 8"; 02, N1: "Where ... the word at p + 8 is in the image with bits 31, 30
/// and 24 to 22 all 0, the place at p names plain p + 12 right after plain p + 8."
fn returns(image: Image, p: u32) -> Vec<Place> {
    let at = p.wrapping_add(8);
    let past = match image.word(at) {
        Some(word) => [31, 30, 24, 23, 22].iter().all(|bit| word >> bit & 1 == 0),
        None => false,
    };
    if past {
        vec![Place::Plain(at), Place::Plain(p.wrapping_add(12))]
    } else {
        vec![Place::Plain(at)]
    }
}

/// "Each names its followers, in the order given here".
pub fn followers(image: Image, place: Place) -> Vec<Place> {
    let (p, n) = match place {
        // "A held place has no followers."
        Place::Held(_) => return vec![],
        // "For a plain or slot place (p, n):"
        Place::Plain(_) | Place::Slot(_, _) => (place.address(), place.next()),
    };
    let after_n = n.wrapping_add(4);
    let instruction = match word_at(image, p) {
        // "p outside the image, illegal word, Ticc 8: none."
        Word::Outside | Word::Illegal => return vec![],
        Word::Known(_, instruction) => instruction,
    };
    match instruction {
        Instruction::Ticc { condition: 8, .. } => vec![],
        // "call to t: (n, t), then plain p + 8."
        Instruction::Call { displacement } => {
            let t = p.wrapping_add(displacement);
            [vec![Place::pair(n, t)], returns(image, p)].concat()
        }
        Instruction::Bicc {
            condition,
            annul,
            displacement,
        } => {
            let t = p.wrapping_add(displacement);
            match (condition, annul) {
                // "Bicc 0 without annul, ...: plain n. Bicc 0 with annul: plain n + 4."
                (0, false) => vec![Place::Plain(n)],
                (0, true) => vec![Place::Plain(after_n)],
                // "Bicc 8 to t: (n, t); with annul, plain t."
                (8, false) => vec![Place::pair(n, t)],
                (8, true) => vec![Place::Plain(t)],
                // "other Bicc to t": the same two as in 01, and 02, N6: "the plain place is named before (n, t)".
                (_, false) => vec![Place::Plain(n), Place::pair(n, t)],
                (_, true) => vec![Place::Plain(after_n), Place::pair(n, t)],
            }
        }
        // "jmpl: held n, then plain p + 8 if rd is not 0."
        Instruction::Jmpl { rd: 0, .. } => vec![Place::Held(n)],
        Instruction::Jmpl { .. } => [vec![Place::Held(n)], returns(image, p)].concat(),
        // "any other word that is not call, Bicc or jmpl: plain n."
        _ => vec![Place::Plain(n)],
    }
}

/// "Its word may not be call, jmpl or any Bicc but 0 without annul." The same words are unfit for a
/// record of kind 1.
pub fn transfers(instruction: Instruction) -> bool {
    match instruction {
        Instruction::Call { .. } | Instruction::Jmpl { .. } => true,
        Instruction::Bicc {
            condition, annul, ..
        } => condition != 0 || annul,
        _ => false,
    }
}

/// A place that the walk may not accept.
fn is_forbidden(image: Image, place: Place) -> bool {
    match (place, word_at(image, place.address())) {
        (Place::Held(_), Word::Known(_, instruction)) => transfers(instruction),
        _ => false,
    }
}

/// The first event of refusal 4 or 5 in the walk, each with its address.
#[derive(Clone, Copy, PartialEq, Eq, Debug)]
pub enum Stop {
    ForbiddenWord(u32),
    TooManyPlaces(u32),
}

/// The places found so far, in number order.
struct Found {
    places: Vec<Place>,
    numbers: HashMap<Place, usize>,
    room: usize,
}

pub const PLACE_LIMIT: usize = 8_192;

impl Found {
    /// "one not yet present takes the next number". Refusal 5: "a new place exceeds the table ... or is
    /// the 8,193rd", with the "address of the place".
    fn add(&mut self, place: Place) -> Result<(), Stop> {
        if self.numbers.contains_key(&place) {
            return Ok(());
        }
        if self.places.len() >= self.room || self.places.len() >= PLACE_LIMIT {
            return Err(Stop::TooManyPlaces(place.address()));
        }
        self.numbers.insert(place, self.places.len());
        self.places.push(place);
        Ok(())
    }
}

/// All places of an image and entry list in number order, and the number of each; the table has room for
/// so many.
pub fn walk(
    image: Image,
    entries: &[u32],
    room: usize,
) -> Result<(Vec<Place>, HashMap<Place, usize>), Stop> {
    let mut found = Found {
        places: vec![],
        numbers: HashMap::new(),
        room,
    };
    // "Entries become plain places in list order, a repeat adding none."
    for entry in entries {
        found.add(Place::Plain(*entry))?;
    }
    // "Places are then handled in number order."
    let mut handled = 0;
    while handled < found.places.len() {
        let place = found.places[handled];
        // "4 is tested when a place is handled, before its followers; the first event of 4 or 5 decides"
        if is_forbidden(image, place) {
            return Err(Stop::ForbiddenWord(place.address()));
        }
        for follower in followers(image, place) {
            found.add(follower)?;
        }
        handled += 1;
    }
    Ok((found.places, found.numbers))
}

/// Whether 01's rules make a plain place of an address: "an address has a plain place where the rules
/// under Places make one from image, base and entry list". This is the closure alone, without numbers,
/// tables or limits, and the claim uses it instead of a search in a table.
pub fn made_by_the_rules(image: Image, entries: &[u32]) -> std::collections::HashSet<Place> {
    let mut made = std::collections::HashSet::new();
    let mut open: Vec<Place> = entries.iter().map(|entry| Place::Plain(*entry)).collect();
    while let Some(place) = open.pop() {
        if made.insert(place) {
            open.extend(followers(image, place));
        }
    }
    made
}
