//! Branches in delay slots of branches: every pairing that the old core can meet.

use crate::random::{
    allow_held_places, random_bicc, random_call, random_jmpl, random_program, Program, Random,
};
use crate::translator::Refusal;
use crate::words::{decode, Instruction};

/// A word that transfers control; of a Bicc, whether it has the annul bit.
#[derive(Clone, Copy, PartialEq, Eq, Debug)]
pub enum Transfer {
    Conditional { annul: bool },
    Always { annul: bool },
    Never { annul: bool },
    Call,
    Jmpl,
}

const TRANSFERS: [Transfer; 8] = [
    Transfer::Conditional { annul: false },
    Transfer::Conditional { annul: true },
    Transfer::Always { annul: false },
    Transfer::Always { annul: true },
    Transfer::Never { annul: false },
    Transfer::Never { annul: true },
    Transfer::Call,
    Transfer::Jmpl,
];

impl Transfer {
    pub fn of(word: u32) -> Option<Transfer> {
        match decode(word)? {
            Instruction::Call { .. } => Some(Transfer::Call),
            Instruction::Jmpl { .. } => Some(Transfer::Jmpl),
            Instruction::Bicc {
                condition, annul, ..
            } => Some(match condition {
                0 => Transfer::Never { annul },
                8 => Transfer::Always { annul },
                _ => Transfer::Conditional { annul },
            }),
            _ => None,
        }
    }

    pub fn name(self) -> &'static str {
        match self {
            Transfer::Conditional { annul: false } => "bcc",
            Transfer::Conditional { annul: true } => "bcc,a",
            Transfer::Always { annul: false } => "ba",
            Transfer::Always { annul: true } => "ba,a",
            Transfer::Never { annul: false } => "bn",
            Transfer::Never { annul: true } => "bn,a",
            Transfer::Call => "call",
            Transfer::Jmpl => "jmpl",
        }
    }

    /// Whether its delay slot is ever annulled, or ever executed.
    fn has_slot(self, annulled: bool) -> bool {
        match self {
            Transfer::Conditional { annul } => annul || !annulled,
            Transfer::Always { annul } | Transfer::Never { annul } => annul == annulled,
            Transfer::Call | Transfer::Jmpl => !annulled,
        }
    }

    fn word(self, random: &mut Random, position: i32, program: &Program) -> u32 {
        let count = program.words.len() as i32;
        let (condition, annul) = match self {
            Transfer::Call => return random_call(random, position, count),
            Transfer::Jmpl => return random_jmpl(random, program),
            Transfer::Always { annul } => (8, annul),
            Transfer::Never { annul } => (0, annul),
            Transfer::Conditional { annul } => {
                let condition = random.between(1, 14) as u32;
                (condition + (condition >= 8) as u32, annul)
            }
        };
        random_bicc(random, condition, annul as u32, position, count)
    }
}

/// A transfer of control with another in its delay slot, which is executed or annulled.
#[derive(Clone, Copy, PartialEq, Eq, Debug)]
pub struct Couple {
    pub first: Transfer,
    pub second: Transfer,
    pub annulled: bool,
}

impl Couple {
    /// All that the old core can meet: six first words whose slot is executed, three whose slot is annulled.
    pub fn all() -> Vec<Couple> {
        let mut couples = vec![];
        for annulled in [false, true] {
            for first in TRANSFERS
                .into_iter()
                .filter(|first| first.has_slot(annulled))
            {
                couples.extend(TRANSFERS.map(|second| Couple {
                    first,
                    second,
                    annulled,
                }));
            }
        }
        couples
    }

    /// A held place may not have the second word: refusal 4.
    pub fn is_refused(self) -> bool {
        self.first == Transfer::Jmpl && self.second != (Transfer::Never { annul: false })
    }
}

/// A program with a couple whose first word is at an entry, and that entry: accepted, or refused for the
/// couple.
pub fn random_coupled(random: &mut Random, couple: Couple) -> (Program, u32) {
    loop {
        let mut program = random_program(random);
        let count = program.words.len() as i32;
        if count < 2 {
            continue;
        }
        let position = random.between(0, count - 2);
        let at = position as usize;
        program.words[at] = couple.first.word(random, position, &program);
        program.words[at + 1] = couple.second.word(random, position + 1, &program);
        let words = [program.words[at], program.words[at + 1]];
        let address = program.address(position);
        let among = random.below(program.entries.len() as u32 + 1) as usize;
        program.entries.insert(among, address);
        if !couple.is_refused() {
            allow_held_places(random, &mut program);
        }
        let as_wanted = match program.translate() {
            Ok(_) => !couple.is_refused() && program.words[at..at + 2] == words,
            Err(Refusal::ForbiddenWord(held)) => held == address.wrapping_add(4),
            Err(_) => false,
        };
        if as_wanted {
            return (program, address);
        }
    }
}
