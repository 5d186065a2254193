//! 01, "The old core": what a word is.

/// "Each word reads as one instruction whose second operand is a register or a signed 13-bit
/// constant."
#[derive(Clone, Copy, PartialEq, Eq, Debug)]
pub enum Operand {
    Register(usize),
    /// The constant with its sign extended to 32 bits.
    Constant(u32),
}

#[derive(Clone, Copy, PartialEq, Eq, Debug)]
pub enum Operation {
    Add,
    Addx,
    Sub,
    Subx,
    And,
    Andn,
    Or,
    Orn,
    Xor,
    Xnor,
}

#[derive(Clone, Copy, PartialEq, Eq, Debug)]
pub enum Shift {
    Sll,
    Srl,
    Sra,
}

#[derive(Clone, Copy, PartialEq, Eq, Debug)]
pub enum Load {
    Ld,
    Ldub,
    Ldsb,
    Lduh,
    Ldsh,
}

#[derive(Clone, Copy, PartialEq, Eq, Debug)]
pub enum Store {
    St,
    Stb,
    Sth,
}

/// "Words known: call; sethi; the sixteen integer branches (Bicc) with the annul bit; add, addx,
/// sub, subx, and, andn, or, orn, xor, xnor, each plain and setting flags; sll, srl, sra; jmpl; the
/// sixteen Ticc; ld, ldub, ldsb, lduh, ldsh, st, stb, sth." 02, N4: "Add umul, smul, umulcc, smulcc, rdy and wry";
/// N11: "Compiled images use save and restore".
///
/// Displacements are in bytes, modulo 2^32, and are added to the word's own address.
#[derive(Clone, Copy, PartialEq, Eq, Debug)]
pub enum Instruction {
    Call {
        displacement: u32,
    },
    Sethi {
        rd: usize,
        value: u32,
    },
    Bicc {
        condition: u32,
        annul: bool,
        displacement: u32,
    },
    Arithmetic {
        operation: Operation,
        sets_flags: bool,
        rd: usize,
        rs1: usize,
        operand: Operand,
    },
    Shift {
        shift: Shift,
        rd: usize,
        rs1: usize,
        operand: Operand,
    },
    Multiply {
        signed: bool,
        sets_flags: bool,
        rd: usize,
        rs1: usize,
        operand: Operand,
    },
    /// Rdy has no rs1 and no operand, wry no rd.
    ReadY {
        rd: usize,
    },
    WriteY {
        rs1: usize,
        operand: Operand,
    },
    Save {
        rd: usize,
        rs1: usize,
        operand: Operand,
    },
    Restore {
        rd: usize,
        rs1: usize,
        operand: Operand,
    },
    Jmpl {
        rd: usize,
        rs1: usize,
        operand: Operand,
    },
    Ticc {
        condition: u32,
        rs1: usize,
        operand: Operand,
    },
    Load {
        load: Load,
        rd: usize,
        rs1: usize,
        operand: Operand,
    },
    Store {
        store: Store,
        rd: usize,
        rs1: usize,
        operand: Operand,
    },
}

/// The bits of a word from `high` down to `low`.
fn bits(word: u32, high: u32, low: u32) -> u32 {
    let width = high - low + 1;
    let mask = if width == 32 {
        0xFFFF_FFFF
    } else {
        (1 << width) - 1
    };
    (word >> low) & mask
}

/// A field of so many bits read as a signed number, modulo 2^32.
fn signed(field: u32, width: u32) -> u32 {
    if field >> (width - 1) == 1 {
        field.wrapping_sub(1 << width)
    } else {
        field
    }
}

/// "All others are illegal." 02, N2: "takes a word with an unused bit set as illegal". An illegal word
/// gives `None`.
pub fn decode(word: u32) -> Option<Instruction> {
    let instruction = decode_fields(word)?;
    (word & unused_bits(instruction) == 0).then_some(instruction)
}

/// 02, N2: "bits 12 to 5 when the second operand is a register, or a shift's constant; bits 12 to 7 of a
/// Ticc with a constant; bit 29 of a Ticc". Those of a rdy, and the rd of a wry, are N4's own.
fn unused_bits(instruction: Instruction) -> u32 {
    const BITS_12_TO_5: u32 = 0x1FE0;
    const BITS_12_TO_7: u32 = 0x1F80;
    const BIT_29: u32 = 1 << 29;
    match instruction {
        Instruction::Call { .. }
        | Instruction::Sethi { .. }
        | Instruction::Bicc { .. }
        | Instruction::ReadY { .. } => 0,
        Instruction::Shift { .. } => BITS_12_TO_5,
        Instruction::Ticc { operand, .. } => match operand {
            Operand::Register(_) => BIT_29 | BITS_12_TO_5,
            Operand::Constant(_) => BIT_29 | BITS_12_TO_7,
        },
        Instruction::Arithmetic { operand, .. }
        | Instruction::Multiply { operand, .. }
        | Instruction::WriteY { operand, .. }
        | Instruction::Save { operand, .. }
        | Instruction::Restore { operand, .. }
        | Instruction::Jmpl { operand, .. }
        | Instruction::Load { operand, .. }
        | Instruction::Store { operand, .. } => match operand {
            Operand::Register(_) => BITS_12_TO_5,
            Operand::Constant(_) => 0,
        },
    }
}

/// "Bits 31 and 30 of a word choose its format, and the other fields are cut from it as V8 draws
/// them." Unused bits are not looked at.
fn decode_fields(word: u32) -> Option<Instruction> {
    match bits(word, 31, 30) {
        // Format 1: op, disp30.
        1 => Some(Instruction::Call {
            displacement: bits(word, 29, 0).wrapping_mul(4),
        }),
        0 => decode_format_2(word),
        2 => decode_arithmetic(word),
        _ => decode_memory(word),
    }
}

/// Format 2: op, rd or (a, cond), op2, imm22 or disp22.
fn decode_format_2(word: u32) -> Option<Instruction> {
    match bits(word, 24, 22) {
        4 => Some(Instruction::Sethi {
            rd: bits(word, 29, 25) as usize,
            value: bits(word, 21, 0) << 10,
        }),
        2 => Some(Instruction::Bicc {
            condition: bits(word, 28, 25),
            annul: bits(word, 29, 29) == 1,
            displacement: signed(bits(word, 21, 0), 22).wrapping_mul(4),
        }),
        _ => None,
    }
}

/// Format 3: op, rd, op3, rs1, i, then (asi, rs2) or simm13.
fn operand(word: u32) -> Operand {
    if bits(word, 13, 13) == 1 {
        Operand::Constant(signed(bits(word, 12, 0), 13))
    } else {
        Operand::Register(bits(word, 4, 0) as usize)
    }
}

fn decode_arithmetic(word: u32) -> Option<Instruction> {
    let rd = bits(word, 29, 25) as usize;
    let rs1 = bits(word, 18, 14) as usize;
    let operand = operand(word);
    let arithmetic = |operation, sets_flags| {
        Some(Instruction::Arithmetic {
            operation,
            sets_flags,
            rd,
            rs1,
            operand,
        })
    };
    let shift = |shift| {
        Some(Instruction::Shift {
            shift,
            rd,
            rs1,
            operand,
        })
    };
    match bits(word, 24, 19) {
        0b000000 => arithmetic(Operation::Add, false),
        0b000001 => arithmetic(Operation::And, false),
        0b000010 => arithmetic(Operation::Or, false),
        0b000011 => arithmetic(Operation::Xor, false),
        0b000100 => arithmetic(Operation::Sub, false),
        0b000101 => arithmetic(Operation::Andn, false),
        0b000110 => arithmetic(Operation::Orn, false),
        0b000111 => arithmetic(Operation::Xnor, false),
        0b001000 => arithmetic(Operation::Addx, false),
        0b001100 => arithmetic(Operation::Subx, false),
        0b010000 => arithmetic(Operation::Add, true),
        0b010001 => arithmetic(Operation::And, true),
        0b010010 => arithmetic(Operation::Or, true),
        0b010011 => arithmetic(Operation::Xor, true),
        0b010100 => arithmetic(Operation::Sub, true),
        0b010101 => arithmetic(Operation::Andn, true),
        0b010110 => arithmetic(Operation::Orn, true),
        0b010111 => arithmetic(Operation::Xnor, true),
        0b011000 => arithmetic(Operation::Addx, true),
        0b011100 => arithmetic(Operation::Subx, true),
        0b100101 => shift(Shift::Sll),
        0b100110 => shift(Shift::Srl),
        0b100111 => shift(Shift::Sra),
        0b111000 => Some(Instruction::Jmpl { rd, rs1, operand }),
        0b111010 => Some(Instruction::Ticc {
            condition: bits(word, 28, 25),
            rs1,
            operand,
        }),
        0b111100 => Some(Instruction::Save { rd, rs1, operand }),
        0b111101 => Some(Instruction::Restore { rd, rs1, operand }),
        _ => decode_product(word),
    }
}

/// 02, N4: "Add umul, smul, umulcc, smulcc, rdy and wry from V8".
fn decode_product(word: u32) -> Option<Instruction> {
    let multiply = |signed, sets_flags| {
        Some(Instruction::Multiply {
            signed,
            sets_flags,
            rd: bits(word, 29, 25) as usize,
            rs1: bits(word, 18, 14) as usize,
            operand: operand(word),
        })
    };
    match bits(word, 24, 19) {
        0b001010 => multiply(false, false),
        0b001011 => multiply(true, false),
        0b011010 => multiply(false, true),
        0b011011 => multiply(true, true),
        0b101000 => decode_read_y(word),
        0b110000 => decode_write_y(word),
        _ => None,
    }
}

/// 02, N4: "Rdy with rs1 not 0 and wry with rd not 0 are illegal, as is rdy with any of bits 13 to 0 set."
fn decode_read_y(word: u32) -> Option<Instruction> {
    let clear = bits(word, 18, 14) == 0 && bits(word, 13, 0) == 0;
    let rd = bits(word, 29, 25) as usize;
    clear.then_some(Instruction::ReadY { rd })
}

fn decode_write_y(word: u32) -> Option<Instruction> {
    let rs1 = bits(word, 18, 14) as usize;
    let operand = operand(word);
    (bits(word, 29, 25) == 0).then_some(Instruction::WriteY { rs1, operand })
}

fn decode_memory(word: u32) -> Option<Instruction> {
    let rd = bits(word, 29, 25) as usize;
    let rs1 = bits(word, 18, 14) as usize;
    let operand = operand(word);
    let load = |load| {
        Some(Instruction::Load {
            load,
            rd,
            rs1,
            operand,
        })
    };
    let store = |store| {
        Some(Instruction::Store {
            store,
            rd,
            rs1,
            operand,
        })
    };
    match bits(word, 24, 19) {
        0b000000 => load(Load::Ld),
        0b000001 => load(Load::Ldub),
        0b000010 => load(Load::Lduh),
        0b001001 => load(Load::Ldsb),
        0b001010 => load(Load::Ldsh),
        0b000100 => store(Store::St),
        0b000101 => store(Store::Stb),
        0b000110 => store(Store::Sth),
        _ => None,
    }
}

/// "flags N, Z, V, C"
#[derive(Clone, Copy, PartialEq, Eq, Debug)]
pub struct Flags {
    pub n: bool,
    pub z: bool,
    pub v: bool,
    pub c: bool,
}

impl Flags {
    /// "all flags clear"
    pub const CLEAR: Flags = Flags {
        n: false,
        z: false,
        v: false,
        c: false,
    };

    /// "flag value 8N + 4Z + 2V + C"
    pub fn number(self) -> u32 {
        8 * self.n as u32 + 4 * self.z as u32 + 2 * self.v as u32 + self.c as u32
    }

    /// The flags of a number's low four bits.
    pub fn of_number(number: u32) -> Flags {
        Flags {
            n: number & 8 != 0,
            z: number & 4 != 0,
            v: number & 2 != 0,
            c: number & 1 != 0,
        }
    }
}

/// Conditions as V8's formulas for Bicc and Ticc give them; 01's own table is in the tests. Numbers
/// above 15 are no conditions.
pub fn condition_holds(condition: u32, flags: Flags) -> bool {
    let Flags { n, z, v, c } = flags;
    match condition {
        0b0000 => false,          // never
        0b0001 => z,              // equal
        0b0010 => z || (n != v),  // less or equal
        0b0011 => n != v,         // less
        0b0100 => c || z,         // less or equal, unsigned
        0b0101 => c,              // carry set
        0b0110 => n,              // negative
        0b0111 => v,              // overflow set
        0b1000 => true,           // always
        0b1001 => !z,             // not equal
        0b1010 => !(z || n != v), // greater
        0b1011 => n == v,         // greater or equal
        0b1100 => !(c || z),      // greater, unsigned
        0b1101 => !c,             // carry clear
        0b1110 => !n,             // positive
        0b1111 => !v,             // overflow clear
        _ => panic!("conditions are 0 to 15"),
    }
}

#[cfg(test)]
mod tests {
    use super::*;

    /// "Conditions 0 to 15, one bit for each flag value 8N + 4Z + 2V + C, lowest first"
    const TABLE: [u32; 16] = [
        0x0000, 0xF0F0, 0xF3FC, 0x33CC, 0xFAFA, 0xAAAA, 0xFF00, 0xCCCC, 0xFFFF, 0x0F0F, 0x0C03,
        0xCC33, 0x0505, 0x5555, 0x00FF, 0x3333,
    ];

    #[test]
    fn formulas_and_table_agree() {
        for condition in 0..16 {
            for value in 0..16 {
                let flags = Flags::of_number(value);
                assert_eq!(flags.number(), value);
                assert_eq!(
                    condition_holds(condition, flags),
                    (TABLE[condition as usize] >> value) & 1 == 1,
                    "condition {condition}, flags {value}"
                );
            }
        }
    }

    #[test]
    fn fields() {
        assert_eq!(
            decode(0x1080_0003),
            Some(Instruction::Bicc {
                condition: 8,
                annul: false,
                displacement: 12
            })
        );
        assert_eq!(
            decode(0x30BF_FFFF),
            Some(Instruction::Bicc {
                condition: 8,
                annul: true,
                displacement: 0xFFFF_FFFC
            })
        );
        assert_eq!(
            decode(0x7FFF_FFFF),
            Some(Instruction::Call {
                displacement: 0xFFFF_FFFC
            })
        );
        assert_eq!(
            decode(0x81C3_E008),
            Some(Instruction::Jmpl {
                rd: 0,
                rs1: 15,
                operand: Operand::Constant(8)
            })
        );
        assert_eq!(
            decode(0x91D0_2000),
            Some(Instruction::Ticc {
                condition: 8,
                rs1: 0,
                operand: Operand::Constant(0)
            })
        );
        assert_eq!(
            decode(0x0300_0001),
            Some(Instruction::Sethi {
                rd: 1,
                value: 0x400
            })
        );
        assert_eq!(decode(0), None);
    }

    /// Which bits a known word may not have, set one at a time: in an add, a ld and a jmpl with a register, in a
    /// shift with a register and with a constant, in a Ticc and a wry with each, in products, in save and restore.
    #[test]
    fn each_unused_bit_is_illegal() {
        let words: [(u32, &[u32]); 16] = [
            (0x8200_4002, &[5, 6, 7, 8, 9, 10, 11, 12]), // add
            (0xC200_4002, &[5, 6, 7, 8, 9, 10, 11, 12]), // ld
            (0x83C0_4002, &[5, 6, 7, 8, 9, 10, 11, 12]), // jmpl
            (0x8328_4002, &[5, 6, 7, 8, 9, 10, 11, 12]), // sll
            (0x8328_6000, &[5, 6, 7, 8, 9, 10, 11, 12]),
            (0x91D0_0002, &[5, 6, 7, 8, 9, 10, 11, 12, 29]), // ta
            (0x91D0_2000, &[7, 8, 9, 10, 11, 12, 29]),
            (0x8250_4002, &[5, 6, 7, 8, 9, 10, 11, 12]), // umul
            (0x8180_4002, &[5, 6, 7, 8, 9, 10, 11, 12, 29]), // wry
            (0x8180_6000, &[29]),
            (0x9DE0_4002, &[5, 6, 7, 8, 9, 10, 11, 12]), // save
            (0x81E8_4002, &[5, 6, 7, 8, 9, 10, 11, 12]), // restore
            (0x9DE0_6000, &[]),                          // save with a constant
            (0x8258_6000, &[]),                          // smul with a constant
            (0x8200_6000, &[]),                          // add with a constant
            (0x0300_0000, &[]),                          // sethi
        ];
        for (word, unused) in words {
            for bit in (0..13).chain([29]) {
                let known = !unused.contains(&bit);
                assert_eq!(decode(word | 1 << bit).is_some(), known, "{word:x}, {bit}");
            }
        }
    }

    /// A rdy has only its rd; a wry has none. The words are those of GNU's assembler.
    #[test]
    fn reading_and_writing_y() {
        let read = 0x8F40_0000; // rd %y, %g7
        assert_eq!(decode(read), Some(Instruction::ReadY { rd: 7 }));
        for bit in 0..19 {
            assert_eq!(decode(read | 1 << bit), None, "bit {bit}");
        }
        let write = 0x8180_E005; // wr %g3, 5, %y
        let operand = Operand::Constant(5);
        assert_eq!(decode(write), Some(Instruction::WriteY { rs1: 3, operand }));
        for bit in 25..30 {
            assert_eq!(decode(write | 1 << bit), None, "bit {bit}");
        }
    }

    /// The words are those of GNU's assembler.
    #[test]
    fn save_and_restore() {
        let (rd, rs1, operand) = (14, 14, Operand::Constant(0xFFFF_FFA0));
        let save = Instruction::Save { rd, rs1, operand };
        assert_eq!(decode(0x9DE3_BFA0), Some(save)); // save %sp, -96, %sp
        let (rd, rs1, operand) = (8, 24, Operand::Register(17));
        let restore = Instruction::Restore { rd, rs1, operand };
        assert_eq!(decode(0x91EE_0011), Some(restore)); // restore %i0, %l1, %o0
    }

    /// How many of the op, op2 and op3 values are known: 1 call, 2 of format 2, 33 and 8 of format 3.
    #[test]
    fn how_many_are_known() {
        let format_2 = (0..8).filter(|op2| decode(op2 << 22).is_some()).count();
        let arithmetic = (0..64)
            .filter(|op3| decode(0x8000_0000 | (op3 << 19)).is_some())
            .count();
        let memory = (0..64)
            .filter(|op3| decode(0xC000_0000 | (op3 << 19)).is_some())
            .count();
        assert_eq!((format_2, arithmetic, memory), (2, 33, 8));
    }
}
