//! 01, "The old core": image, state, step, run, begin.

use crate::machine::{effect, Area, End, Machine};
use crate::words::{condition_holds, decode, Instruction};

/// "A program is an image of 32-bit words, big-endian, at a base address."
#[derive(Clone, Copy)]
pub struct Image<'a> {
    pub bytes: &'a [u8],
    pub base: u32,
}

/// "An address lies in the image if (address − base) modulo 2^32, plus 4, is at most its length."
pub fn lies_in_image(address: u32, base: u32, length: usize) -> bool {
    address.wrapping_sub(base) as usize + 4 <= length
}

impl<'a> Image<'a> {
    pub fn at(base: u32, bytes: &'a [u8]) -> Image<'a> {
        Image { bytes, base }
    }

    pub fn holds(&self, address: u32) -> bool {
        lies_in_image(address, self.base, self.bytes.len())
    }

    /// The word at an address, if that lies in the image.
    pub fn word(&self, address: u32) -> Option<u32> {
        if !self.holds(address) {
            return None;
        }
        let offset = address.wrapping_sub(self.base) as usize;
        let mut word = [0; 4];
        word.copy_from_slice(&self.bytes[offset..offset + 4]);
        Some(u32::from_be_bytes(word))
    }
}

/// "State: 32 registers of 32 bits, flags N, Z, V, C, PC, nPC, annul, and how the run ended." 02, N4: and Y;
/// N11: nesting and windows; these are the machine's.
#[derive(Clone, PartialEq, Eq, Debug)]
pub struct OldState {
    pub machine: Machine,
    pub pc: u32,
    pub npc: u32,
    pub annul: bool,
    pub end: End,
}

/// "Begun at an address, neither ended, ... the old core starts with PC there, nPC 4 further and annul
/// clear."
pub fn begin(machine: Machine, address: u32) -> OldState {
    OldState {
        machine,
        pc: address,
        npc: address.wrapping_add(4),
        annul: false,
        end: End::Going,
    }
}

/// One step. "The old core is fed image, base, data base, its own state and the data area, and nothing
/// of a translation."
pub fn step(image: Image, state: &mut OldState, area: &mut Area) {
    // "A step of either core on an ended state changes nothing."
    if state.end != End::Going {
        return;
    }
    // "An annulled word is passed unread: annul clears, PC becomes nPC, nPC gains 4."
    if state.annul {
        state.annul = false;
        state.pc = state.npc;
        state.npc = state.npc.wrapping_add(4);
        return;
    }
    match pass(image, state, area) {
        // "Unless that ends the run, PC then becomes nPC, and nPC gains 4 or ... becomes its target."
        Ok(passed) => {
            state.pc = state.npc;
            state.npc = passed.target.unwrap_or(state.npc.wrapping_add(4));
            state.annul = passed.annuls;
        }
        Err(end) => state.end = end,
    }
}

/// What a word says of the path: its target, "after a call, a jmpl or a Bicc whose condition holds", and
/// whether it sets annul.
struct Passed {
    target: Option<u32>,
    annuls: bool,
}

/// "Otherwise the order is: PC a multiple of 4, PC in the image, known word, its effect."
fn pass(image: Image, state: &mut OldState, area: &mut Area) -> Result<Passed, End> {
    let pc = state.pc;
    if !pc.is_multiple_of(4) {
        return Err(End::Misaligned(pc));
    }
    let word = image.word(pc).ok_or(End::Outside(pc))?;
    let instruction = decode(word).ok_or(End::Illegal(pc))?;
    match instruction {
        // "Call writes its own address to register 15."
        Instruction::Call { displacement } => {
            state.machine.write(15, pc);
            Ok(Passed {
                target: Some(pc.wrapping_add(displacement)),
                annuls: false,
            })
        }
        // "A Bicc with the annul bit sets annul where its condition is 8 or fails."
        Instruction::Bicc {
            condition,
            annul,
            displacement,
        } => {
            let holds = condition_holds(condition, state.machine.flags);
            Ok(Passed {
                target: holds.then_some(pc.wrapping_add(displacement)),
                annuls: annul && (condition == 8 || !holds),
            })
        }
        // "Jmpl takes its address from the registers before it writes its own address to rd; a
        // misaligned address leaves rd untouched."
        Instruction::Jmpl { rd, rs1, operand } => {
            let address = state.machine.sum(rs1, operand);
            if !address.is_multiple_of(4) {
                return Err(End::Misaligned(address));
            }
            state.machine.write(rd, pc);
            Ok(Passed {
                target: Some(address),
                annuls: false,
            })
        }
        other => {
            effect(other, &mut state.machine, area)?;
            Ok(Passed {
                target: None,
                annuls: false,
            })
        }
    }
}

/// "a run of a given count does that many of these steps, or fewer where it ends"; the count is "0 to
/// 65,535 words ..., a number of 16 bits".
pub fn run(image: Image, state: &mut OldState, area: &mut Area, count: u16) {
    for _ in 0..count {
        if state.end != End::Going {
            break;
        }
        step(image, state, area);
    }
}
