//! 01, "The old core" and "Ends of a run": what both cores share. Registers, flags, the data area, how
//! a run ended, and the effect of every word that does not transfer control.

use crate::words::{condition_holds, Flags, Instruction, Load, Operand, Operation, Shift, Store};

/// 01, "Ends of a run".
#[derive(Clone, Copy, PartialEq, Eq, Debug)]
pub enum End {
    /// "0 still going"; "the number beside it is 0"
    Going,
    /// "1 Ticc taken, with (rs1 + operand) modulo 128."
    Trap(u32),
    /// "2 outside the image, with the address."
    Outside(u32),
    /// "3 illegal, with the address."
    Illegal(u32),
    /// "4 misaligned ... with the address."
    Misaligned(u32),
    /// "5 data access that does not fit, ... with the address."
    DoesNotFit(u32),
    /// "6 no place, with the address."
    NoPlace(u32),
    /// "7 a record past the last, of unknown kind, with an unfit word ..., a condition above 15 or a
    /// kind 7 whose first is not 2 or 3, with the record number."
    BadRecord(u32),
    /// 02, N11: "Two ends are added after 7: 8, too many saves; 9, too many restores, each with the nesting."
    TooManySaves(u32),
    TooManyRestores(u32),
}

impl End {
    /// The end and the number beside it.
    pub fn numbers(self) -> (u32, u32) {
        match self {
            End::Going => (0, 0),
            End::Trap(number) => (1, number),
            End::Outside(address) => (2, address),
            End::Illegal(address) => (3, address),
            End::Misaligned(address) => (4, address),
            End::DoesNotFit(address) => (5, address),
            End::NoPlace(address) => (6, address),
            End::BadRecord(record) => (7, record),
            End::TooManySaves(nesting) => (8, nesting),
            End::TooManyRestores(nesting) => (9, nesting),
        }
    }

    /// Ends 1 to 9 count as ended, with their number; any other counts as still going.
    pub fn of_numbers(end: u32, number: u32) -> End {
        match end {
            1 => End::Trap(number),
            2 => End::Outside(number),
            3 => End::Illegal(number),
            4 => End::Misaligned(number),
            5 => End::DoesNotFit(number),
            6 => End::NoPlace(number),
            7 => End::BadRecord(number),
            8 => End::TooManySaves(number),
            9 => End::TooManyRestores(number),
            _ => End::Going,
        }
    }
}

/// 02, N11: "eight, of which seven can be in use, so nesting 0 to 6".
pub const WINDOWS: usize = 8;
pub const DEEPEST: u32 = 6;

/// The ins and locals of eight windows, eight of each.
pub const WINDOWED: usize = 16 * WINDOWS;

/// Where a register from 8 to 31 stands among the 128, as the header has them: block w has window w's ins, then its
/// locals; its outs are the ins of window w + 1, and window 7's those of window 0.
fn windowed(window: usize, register: usize) -> usize {
    let next = (window + 1) % WINDOWS;
    match register {
        8..=15 => 16 * next + (register - 8),
        16..=23 => 16 * window + 8 + (register - 16),
        24..=31 => 16 * window + (register - 24),
        _ => panic!("registers 8 to 31 have a window"),
    }
}

/// "32 registers of 32 bits, flags N, Z, V, C"; 02, N4: "The state and each trail entry gain Y"; N11: "Add V8's
/// windows". There is one number for each register of each window, and no copy of the current window: which 24 of the
/// 128 registers 8 to 31 are is a matter of the nesting.
#[derive(Clone, PartialEq, Eq, Debug)]
pub struct Machine {
    globals: [u32; 8],
    windows: [u32; WINDOWED],
    nesting: u32,
    pub y: u32,
    pub flags: Flags,
}

impl Machine {
    /// "The start values are all registers 0 and all flags clear." 02, N4: Y is "0 among the start values"; N11: "the
    /// start values are 0 throughout".
    pub fn start() -> Machine {
        Machine {
            globals: [0; 8],
            windows: [0; WINDOWED],
            nesting: 0,
            y: 0,
            flags: Flags::CLEAR,
        }
    }

    /// Any registers, Y and flags, in window 0.
    pub fn of(registers: [u32; 32], y: u32, flags: Flags) -> Machine {
        let mut machine = Machine::start();
        machine.put_registers(&registers);
        machine.y = y;
        machine.flags = flags;
        machine
    }

    /// The same with any nesting and windows: "a nesting handed in above 6 counts as 6"; registers 8 to 31 count, and
    /// the 24 numbers that repeat them are not looked at.
    pub fn within(self, nesting: u32, windows: [u32; WINDOWED]) -> Machine {
        let registers = self.registers();
        let mut machine = self;
        machine.nesting = nesting.min(DEEPEST);
        machine.windows = windows;
        machine.put_registers(&registers);
        machine
    }

    fn put_registers(&mut self, registers: &[u32; 32]) {
        for (register, value) in registers.iter().enumerate() {
            self.write(register, *value);
        }
    }

    /// Those of the current window, as a state has them.
    pub fn registers(&self) -> [u32; 32] {
        std::array::from_fn(|register| self.read(register))
    }

    /// Every window, the current one among them.
    pub fn windows(&self) -> &[u32; WINDOWED] {
        &self.windows
    }

    pub fn nesting(&self) -> u32 {
        self.nesting
    }

    /// "Register 0 reads and shows as 0."
    pub fn read(&self, register: usize) -> u32 {
        match register {
            0 => 0,
            1..=7 => self.globals[register],
            _ => self.windows[windowed(self.nesting as usize, register)],
        }
    }

    /// A write to register 0 is lost.
    pub fn write(&mut self, register: usize, value: u32) {
        match register {
            0 => {}
            1..=7 => self.globals[register] = value,
            _ => self.windows[windowed(self.nesting as usize, register)] = value,
        }
    }

    /// 02, N11: "Save and restore add like add, reading in the old window and writing rd in the new. A save at 6 or a
    /// restore at 0 ends the run and changes nothing."
    fn save(&mut self, rd: usize, rs1: usize, operand: Operand) -> Result<(), End> {
        if self.nesting == DEEPEST {
            return Err(End::TooManySaves(self.nesting));
        }
        let sum = self.sum(rs1, operand);
        self.nesting += 1;
        self.write(rd, sum);
        Ok(())
    }

    fn restore(&mut self, rd: usize, rs1: usize, operand: Operand) -> Result<(), End> {
        if self.nesting == 0 {
            return Err(End::TooManyRestores(self.nesting));
        }
        let sum = self.sum(rs1, operand);
        self.nesting -= 1;
        self.write(rd, sum);
        Ok(())
    }

    pub fn operand(&self, operand: Operand) -> u32 {
        match operand {
            Operand::Register(register) => self.read(register),
            Operand::Constant(constant) => constant,
        }
    }

    /// rs1 + operand: "Address sums are taken modulo 2^32."
    pub fn sum(&self, rs1: usize, operand: Operand) -> u32 {
        self.read(rs1).wrapping_add(self.operand(operand))
    }
}

/// "Data is one lent area of 0 to 65,536 bytes at a data base, big-endian; bytes past that are no part
/// of it."
pub struct Area<'a> {
    base: u32,
    bytes: &'a mut [u8],
}

pub const DATA_LIMIT: usize = 65_536;

impl<'a> Area<'a> {
    pub fn lent(base: u32, bytes: &'a mut [u8]) -> Area<'a> {
        let length = bytes.len().min(DATA_LIMIT);
        Area {
            base,
            bytes: &mut bytes[..length],
        }
    }

    pub fn bytes(&self) -> &[u8] {
        self.bytes
    }

    /// "A data access of w bytes fits if (address − data base) modulo 2^32, plus w, is at most the
    /// area's length. Alignment is tested before fit."
    fn offset(&self, address: u32, width: u32) -> Result<usize, End> {
        if !address.is_multiple_of(width) {
            return Err(End::Misaligned(address));
        }
        let distance = address.wrapping_sub(self.base) as usize;
        if distance + width as usize <= self.bytes.len() {
            Ok(distance)
        } else {
            Err(End::DoesNotFit(address))
        }
    }

    fn load(&self, address: u32, width: u32) -> Result<u32, End> {
        let offset = self.offset(address, width)?;
        let mut value = 0;
        for byte in &self.bytes[offset..offset + width as usize] {
            value = (value << 8) | *byte as u32;
        }
        Ok(value)
    }

    fn store(&mut self, address: u32, width: u32, value: u32) -> Result<(), End> {
        let offset = self.offset(address, width)?;
        let bytes = value.to_be_bytes();
        self.bytes[offset..offset + width as usize].copy_from_slice(&bytes[4 - width as usize..]);
        Ok(())
    }
}

/// The effect of a word that does not transfer control. "Ends 1 to 7 change no register, flag, counter,
/// held address or data." 02, N4, of Y: "no end changes it"; with N11 these are ends 1 to 9, and nesting and
/// windows too. Calls, jmpl and branches are the cores' own; a Bicc 0 without annul is also a word that does
/// nothing.
pub fn effect(instruction: Instruction, machine: &mut Machine, area: &mut Area) -> Result<(), End> {
    match instruction {
        Instruction::Sethi { rd, value } => machine.write(rd, value),
        Instruction::Bicc {
            condition: 0,
            annul: false,
            ..
        } => {}
        Instruction::Arithmetic {
            operation,
            sets_flags,
            rd,
            rs1,
            operand,
        } => {
            let (result, flags) = compute(
                operation,
                machine.read(rs1),
                machine.operand(operand),
                machine.flags.c,
            );
            machine.write(rd, result);
            if sets_flags {
                machine.flags = flags;
            }
        }
        Instruction::Shift {
            shift,
            rd,
            rs1,
            operand,
        } => {
            // V8: the shift count is the low five bits of the operand.
            let count = machine.operand(operand) % 32;
            let value = machine.read(rs1);
            let result = match shift {
                Shift::Sll => value << count,
                Shift::Srl => value >> count,
                Shift::Sra => ((value as i32) >> count) as u32,
            };
            machine.write(rd, result);
        }
        // 02, N4: "the high 32 bits go to Y, the low to rd; the flag forms set N and Z from the low word and
        // clear V and C". Both operands are read before either is written.
        Instruction::Multiply {
            signed,
            sets_flags,
            rd,
            rs1,
            operand,
        } => {
            let (high, low) = product(signed, machine.read(rs1), machine.operand(operand));
            machine.y = high;
            machine.write(rd, low);
            if sets_flags {
                machine.flags = flags_of(low, false, false);
            }
        }
        Instruction::ReadY { rd } => machine.write(rd, machine.y),
        // 02, N4: "Wry writes rs1 xor operand without delay".
        Instruction::WriteY { rs1, operand } => {
            machine.y = machine.read(rs1) ^ machine.operand(operand);
        }
        Instruction::Save { rd, rs1, operand } => machine.save(rd, rs1, operand)?,
        Instruction::Restore { rd, rs1, operand } => machine.restore(rd, rs1, operand)?,
        // "1 Ticc taken, with (rs1 + operand) modulo 128."
        Instruction::Ticc {
            condition,
            rs1,
            operand,
        } => {
            if condition_holds(condition, machine.flags) {
                return Err(End::Trap(machine.sum(rs1, operand) % 128));
            }
        }
        Instruction::Load {
            load,
            rd,
            rs1,
            operand,
        } => {
            let address = machine.sum(rs1, operand);
            let value = match load {
                Load::Ld => area.load(address, 4)?,
                Load::Ldub => area.load(address, 1)?,
                Load::Ldsb => area.load(address, 1)? as u8 as i8 as u32,
                Load::Lduh => area.load(address, 2)?,
                Load::Ldsh => area.load(address, 2)? as u16 as i16 as u32,
            };
            machine.write(rd, value);
        }
        Instruction::Store {
            store,
            rd,
            rs1,
            operand,
        } => {
            let address = machine.sum(rs1, operand);
            let width = match store {
                Store::St => 4,
                Store::Stb => 1,
                Store::Sth => 2,
            };
            area.store(address, width, machine.read(rd))?;
        }
        Instruction::Call { .. } | Instruction::Jmpl { .. } | Instruction::Bicc { .. } => {
            panic!("a word that transfers control")
        }
    }
    Ok(())
}

/// The result of an arithmetic word and the flags that its flag form sets. Overflow and carry are taken
/// from exact numbers, as 02 says of N3's steps: overflow "exactly where the exact signed result does not
/// fit 32 bits, and carry exactly where the unsigned sum does not or the difference is below 0". The tests
/// hold them against the steps themselves, V8's formulas over the three top bits.
fn compute(operation: Operation, left: u32, right: u32, carry: bool) -> (u32, Flags) {
    let logical = |result: u32| (result, flags_of(result, false, false));
    match operation {
        Operation::Add => sum(left, right, 0),
        Operation::Addx => sum(left, right, carry as i64),
        Operation::Sub => difference(left, right, 0),
        Operation::Subx => difference(left, right, carry as i64),
        Operation::And => logical(left & right),
        Operation::Andn => logical(left & !right),
        Operation::Or => logical(left | right),
        Operation::Orn => logical(left | !right),
        Operation::Xor => logical(left ^ right),
        Operation::Xnor => logical(!(left ^ right)),
    }
}

/// The high and the low word of the exact product, of unsigned or of signed numbers.
fn product(signed: bool, left: u32, right: u32) -> (u32, u32) {
    let exact = if signed {
        left as i32 as i128 * right as i32 as i128
    } else {
        left as i128 * right as i128
    };
    let low = exact.rem_euclid(1 << 32);
    let high = ((exact - low) >> 32).rem_euclid(1 << 32);
    (high as u32, low as u32)
}

fn flags_of(result: u32, v: bool, c: bool) -> Flags {
    Flags {
        n: result >= 0x8000_0000,
        z: result == 0,
        v,
        c,
    }
}

fn sum(left: u32, right: u32, carry: i64) -> (u32, Flags) {
    let signed = left as i32 as i64 + right as i32 as i64 + carry;
    let unsigned = left as i64 + right as i64 + carry;
    let result = unsigned as u32;
    let overflow = i32::try_from(signed).is_err();
    let carried = u32::try_from(unsigned).is_err();
    (result, flags_of(result, overflow, carried))
}

/// 01 names "Carry of a subtraction as no borrow" among the wrong readings: carry is the borrow.
fn difference(left: u32, right: u32, borrow: i64) -> (u32, Flags) {
    let signed = left as i32 as i64 - right as i32 as i64 - borrow;
    let unsigned = left as i64 - right as i64 - borrow;
    let result = unsigned as u32;
    let overflow = i32::try_from(signed).is_err();
    let borrowed = unsigned < 0;
    (result, flags_of(result, overflow, borrowed))
}

#[cfg(test)]
mod tests {
    use super::*;

    /// V8's formulas for overflow and carry, from the top bits of both operands and of the result.
    #[test]
    fn flags_are_those_of_v8() {
        let edges = [
            0,
            1,
            2,
            0x7FFF_FFFE,
            0x7FFF_FFFF,
            0x8000_0000,
            0x8000_0001,
            0xFFFF_FFFE,
            0xFFFF_FFFF,
            0x1234_5678,
            0x89AB_CDEF,
        ];
        for left in edges {
            for right in edges {
                for carry in [false, true] {
                    for (operation, adds, with) in [
                        (Operation::Add, true, false),
                        (Operation::Addx, true, carry),
                        (Operation::Sub, false, false),
                        (Operation::Subx, false, carry),
                    ] {
                        let (result, flags) = compute(operation, left, right, carry);
                        let wrapped = if adds {
                            left.wrapping_add(right).wrapping_add(with as u32)
                        } else {
                            left.wrapping_sub(right).wrapping_sub(with as u32)
                        };
                        assert_eq!(result, wrapped);
                        let a = left >> 31 == 1;
                        let b = right >> 31 == 1;
                        let r = result >> 31 == 1;
                        let (v, c) = if adds {
                            (
                                (a && b && !r) || (!a && !b && r),
                                (a && b) || (!r && (a || b)),
                            )
                        } else {
                            (
                                (a && !b && !r) || (!a && b && r),
                                (!a && b) || (r && (!a || b)),
                            )
                        };
                        assert_eq!((flags.n, flags.z, flags.v, flags.c), (r, result == 0, v, c));
                    }
                }
            }
        }
    }

    /// Products by hand: both signs of the same numbers, and those that need every bit of the high word.
    #[test]
    fn products_by_hand() {
        let (least, most) = (0x8000_0000, 0x7FFF_FFFF);
        for (left, right, unsigned, signed) in [
            (0, !0, (0, 0), (0, 0)),
            (3, 5, (0, 15), (0, 15)),
            (2, !0, (1, 0xFFFF_FFFE), (!0, 0xFFFF_FFFE)), // 2 and -1
            (!0, !0, (0xFFFF_FFFE, 1), (0, 1)),
            (least, least, (0x4000_0000, 0), (0x4000_0000, 0)),
            (least, !0, (most, least), (0, least)),
            (least, 1, (0, least), (!0, least)),
            (least, most, (0x3FFF_FFFF, least), (0xC000_0000, least)),
            (most, most, (0x3FFF_FFFF, 1), (0x3FFF_FFFF, 1)),
            (0x1_0000, 0x1_0000, (1, 0), (1, 0)),
        ] {
            assert_eq!(product(false, left, right), unsigned);
            assert_eq!(product(false, right, left), unsigned);
            assert_eq!(product(true, left, right), signed);
            assert_eq!(product(true, right, left), signed);
        }
    }

    /// V8's figure of windows: each number of the 128 is a local of one window, or an in of one and an out of the one
    /// before it.
    #[test]
    fn windows_overlap_as_drawn() {
        for window in 0..WINDOWS {
            let before = (window + WINDOWS - 1) % WINDOWS;
            for k in 0..8 {
                assert_eq!(windowed(window, 24 + k), windowed(before, 8 + k));
                assert_eq!(windowed(window, 24 + k), 16 * window + k);
                assert_eq!(windowed(window, 16 + k), 16 * window + 8 + k);
            }
            let mut met: Vec<usize> = (8..32).map(|r| windowed(window, r)).collect();
            met.sort();
            met.dedup();
            assert_eq!(met.len(), 24);
        }
    }

    #[test]
    fn alignment_before_fit_and_no_wrap() {
        let mut bytes = [1, 2, 3, 4];
        let area = Area::lent(0xFFFF_FFFC, &mut bytes);
        assert_eq!(area.load(0xFFFF_FFFC, 4), Ok(0x0102_0304));
        assert_eq!(area.load(0, 1), Err(End::DoesNotFit(0)));
        assert_eq!(area.load(2, 4), Err(End::Misaligned(2)));
        assert_eq!(area.load(0xFFFF_FFFE, 2), Ok(0x0304));
        assert_eq!(area.load(0xFFFF_FFFB, 1), Err(End::DoesNotFit(0xFFFF_FFFB)));
    }

    #[test]
    fn bytes_past_the_limit_do_not_exist() {
        let mut bytes = vec![7; DATA_LIMIT + 4];
        let area = Area::lent(0, &mut bytes);
        assert_eq!(area.bytes().len(), DATA_LIMIT);
        assert_eq!(area.load(65_535, 1), Ok(7));
        assert_eq!(area.load(65_536, 1), Err(End::DoesNotFit(65_536)));
    }
}
