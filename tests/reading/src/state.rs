//! States as bytes, for the C interface: numbers of four bytes, big-endian. Registers 0 to 31, flags as
//! 8N + 4Z + 2V + C, then PC, nPC, annul, end and the end's number (old core) or record, held address, end
//! and the end's number (new core); 02, N4: then Y, number 38 of the old core and 37 of the new one; N11: then
//! the nesting, and 128 numbers of windows.
//!
//! Of bytes that no core wrote: register 0's number counts as 0, of the flags number the low four bits
//! count, any annul but 0 is set, ends 1 to 9 count as ended in both cores with their number, any other
//! end counts as still going with number 0. A nesting above 6 counts as 6; of the windows the 24 numbers that
//! repeat registers 8 to 31 are not looked at, and come out equal to these.

use crate::machine::{End, Machine, WINDOWED};
use crate::new_core::{number, NewState};
use crate::old_core::OldState;
use crate::words::Flags;

pub const OLD_STATE: usize = 672;
pub const NEW_STATE: usize = 668;

/// The machine of a state whose Y is at a position, with nesting and windows behind it.
fn decode_machine(bytes: &[u8], y: usize) -> Machine {
    let registers = std::array::from_fn(|register| number(bytes, register));
    let windows: [u32; WINDOWED] = std::array::from_fn(|k| number(bytes, y + 2 + k));
    Machine::of(
        registers,
        number(bytes, y),
        Flags::of_number(number(bytes, 32)),
    )
    .within(number(bytes, y + 1), windows)
}

/// Registers and flags, with which both states begin, what is the core's own, and Y, nesting and windows.
fn encode_state(machine: &Machine, own: &[u32]) -> Vec<u8> {
    let mut numbers = machine.registers().to_vec();
    numbers.push(machine.flags.number());
    numbers.extend(own);
    numbers.extend([machine.y, machine.nesting()]);
    numbers.extend(machine.windows());
    crate::translator::bytes(numbers)
}

pub fn decode_old(bytes: &[u8; OLD_STATE]) -> OldState {
    OldState {
        machine: decode_machine(bytes, 38),
        pc: number(bytes, 33),
        npc: number(bytes, 34),
        annul: number(bytes, 35) != 0,
        end: End::of_numbers(number(bytes, 36), number(bytes, 37)),
    }
}

pub fn encode_old(state: &OldState) -> [u8; OLD_STATE] {
    let (end, number) = state.end.numbers();
    let own = [state.pc, state.npc, state.annul as u32, end, number];
    let mut bytes = [0; OLD_STATE];
    bytes.copy_from_slice(&encode_state(&state.machine, &own));
    bytes
}

pub fn decode_new(bytes: &[u8; NEW_STATE]) -> NewState {
    NewState {
        machine: decode_machine(bytes, 37),
        record: number(bytes, 33),
        held: number(bytes, 34),
        end: End::of_numbers(number(bytes, 35), number(bytes, 36)),
    }
}

pub fn encode_new(state: &NewState) -> [u8; NEW_STATE] {
    let (end, number) = state.end.numbers();
    let own = [state.record, state.held, end, number];
    let mut bytes = [0; NEW_STATE];
    bytes.copy_from_slice(&encode_state(&state.machine, &own));
    bytes
}
