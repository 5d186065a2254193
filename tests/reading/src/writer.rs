//! 02, N2: words read to instructions of six numbers, and instructions written to words; N4: "N2's writer covers them";
//! N11: "N2's writer gains both words". Which forms there are is asked of the reader of words.

use crate::words::decode;

/// An instruction as six numbers: its form; annul; rd or cond; rs1; 1 where the second operand is a constant, 0
/// where it is a register; and the constant, the second register's number or the displacement in words, "negative
/// ones modulo 2^32".
pub type Numbers = [u32; 6];

const FORM: usize = 0;
const ANNUL: usize = 1;
const RD: usize = 2;
const RS1: usize = 3;
const MARK: usize = 4;
const SECOND: usize = 5;

/// "The form is V8's own numbers: 64 * op + op3 for op 2 and 3, 64 for call, 2 for Bicc, 4 for sethi".
const CALL: u32 = 64;
const BICC: u32 = 2;
const SETHI: u32 = 4;
const SLL: u32 = 64 * 2 + 0b100101;
const SRA: u32 = 64 * 2 + 0b100111;
const TICC: u32 = 64 * 2 + 0b111010;
const RDY: u32 = 168;
const WRY: u32 = 176;

/// A field of a word: which of the six numbers it holds, its lowest bit and how many bits it has.
#[derive(Clone, Copy, PartialEq, Eq, Debug)]
pub struct Field {
    pub number: usize,
    pub low: u32,
    pub width: u32,
    pub signed: bool,
}

impl Field {
    fn mask(self) -> u32 {
        (1 << self.width) - 1
    }

    /// "a signed field of b bits takes 0 to 2^(b-1) - 1 and 2^32 - 2^(b-1) to 2^32 - 1"
    fn takes(self, number: u32) -> bool {
        if self.signed {
            let half = 1i64 << (self.width - 1);
            (-half..half).contains(&(number as i32 as i64))
        } else {
            number <= self.mask()
        }
    }

    pub fn read(self, word: u32) -> u32 {
        let bits = (word >> self.low) & self.mask();
        if self.signed && bits >> (self.width - 1) == 1 {
            bits | !self.mask()
        } else {
            bits
        }
    }
}

const fn unsigned(number: usize, low: u32, width: u32) -> Field {
    Field {
        number,
        low,
        width,
        signed: false,
    }
}

/// "displacements count words and are signed"; so is the constant of other words than shifts, Ticc and sethi.
const fn signed(width: u32) -> Field {
    Field {
        number: SECOND,
        low: 0,
        width,
        signed: true,
    }
}

/// The fields of a form, from the highest in the word to the lowest; none for a form that no word has.
pub fn fields(form: u32, constant: bool) -> Option<Vec<Field>> {
    let (rd, cond) = (unsigned(RD, 25, 5), unsigned(RD, 25, 4));
    let (rs1, mark) = (unsigned(RS1, 14, 5), unsigned(MARK, 13, 1));
    let register = unsigned(SECOND, 0, 5);
    Some(match form {
        CALL => vec![signed(30)],
        BICC => vec![unsigned(ANNUL, 29, 1), cond, signed(22)],
        SETHI => vec![rd, unsigned(SECOND, 0, 22)],
        _ if !is_format_3(form) => return None,
        TICC if constant => vec![cond, rs1, mark, unsigned(SECOND, 0, 7)],
        TICC => vec![cond, rs1, mark, register],
        SLL..=SRA if constant => vec![rd, rs1, mark, unsigned(SECOND, 0, 5)],
        // What rdy and wry do not have is 0.
        RDY => vec![rd],
        WRY if constant => vec![rs1, mark, signed(13)],
        WRY => vec![rs1, mark, register],
        _ if constant => vec![rd, rs1, mark, signed(13)],
        _ => vec![rd, rs1, mark, register],
    })
}

/// Whether a form is one of the words of op 2 and 3: the one with all fields 0 is then known.
fn is_format_3(form: u32) -> bool {
    (128..256).contains(&form) && decode(fixed_bits(form)).is_some()
}

/// The bits of a word that its form decides.
fn fixed_bits(form: u32) -> u32 {
    match form / 64 {
        0 => form << 22,
        op => (op << 30) | ((form % 64) << 19),
    }
}

fn form_of(word: u32) -> u32 {
    match word >> 30 {
        0 => (word >> 22) & 7,
        1 => CALL,
        op => 64 * op + ((word >> 19) & 63),
    }
}

/// "0 for a word that is not known. A number that the form does not have is 0 when read"
pub fn read(word: u32) -> Numbers {
    let mut numbers = [0; 6];
    if decode(word).is_none() {
        return numbers;
    }
    numbers[FORM] = form_of(word);
    let constant = (word >> 13) & 1 == 1;
    for field in fields(numbers[FORM], constant).expect("a known word has a form") {
        numbers[field.number] = field.read(word);
    }
    numbers
}

/// "0 and the word, or 7 and the bits of the field"
#[derive(Clone, Copy, PartialEq, Eq, Debug)]
pub struct Written {
    pub number: u32,
    pub value: u32,
}

fn refused(bits: u32) -> Written {
    Written {
        number: 7,
        value: bits,
    }
}

/// "Refused: 7, a constant, displacement, condition or register number does not fit its field, with the bits the
/// field has; of several, the one highest in the word counts." "Of annul and of the mark of a constant any number but
/// 0 counts as 1." A form that no word has "is refused with 7 and 0 bits".
pub fn write(mut numbers: Numbers) -> Written {
    numbers[ANNUL] = (numbers[ANNUL] != 0) as u32;
    numbers[MARK] = (numbers[MARK] != 0) as u32;
    let Some(fields) = fields(numbers[FORM], numbers[MARK] == 1) else {
        return refused(0);
    };
    let mut word = fixed_bits(numbers[FORM]);
    for field in fields {
        let number = numbers[field.number];
        if !field.takes(number) {
            return refused(field.width);
        }
        word |= (number & field.mask()) << field.low;
    }
    Written {
        number: 0,
        value: word,
    }
}

/// Every form that a word has.
pub fn forms() -> Vec<u32> {
    (0..256)
        .filter(|form| fields(*form, false).is_some())
        .collect()
}

#[cfg(test)]
mod tests {
    use super::*;

    fn written(numbers: Numbers) -> (u32, u32) {
        let written = write(numbers);
        (written.number, written.value)
    }

    #[test]
    fn words_by_hand() {
        let known = [
            ([128, 0, 1, 1, 1, 1], 0x8200_6001),  // add 1 to register 1
            ([186, 0, 8, 0, 1, 0], 0x91D0_2000),  // ta 0
            ([184, 0, 0, 15, 1, 8], 0x81C3_E008), // jmpl
            ([2, 1, 8, 0, 0, 0xFFFF_FFFF], 0x30BF_FFFF), // ba,a to the word before
            ([64, 0, 0, 0, 0, 0xFFFF_FFFF], 0x7FFF_FFFF), // call of the word before
            ([4, 0, 1, 0, 0, 1], 0x0300_0001),    // sethi
            ([165, 0, 1, 1, 1, 31], 0x8328_601F), // sll by 31
            ([192, 0, 1, 1, 0, 2], 0xC200_4002),  // ld
            ([138, 0, 1, 2, 0, 3], 0x8250_8003),  // umul
            ([139, 0, 1, 2, 1, 0xFFFF_FFFF], 0x8258_BFFF), // smul by -1
            ([154, 0, 31, 30, 0, 29], 0xBED7_801D), // umulcc
            ([155, 0, 31, 30, 1, 4095], 0xBEDF_AFFF), // smulcc
            ([168, 0, 7, 0, 0, 0], 0x8F40_0000),  // rdy
            ([176, 0, 0, 3, 1, 5], 0x8180_E005),  // wry
            ([176, 0, 0, 31, 0, 2], 0x8187_C002),
            ([188, 0, 14, 14, 1, 0xFFFF_FFA0], 0x9DE3_BFA0), // save %sp, -96, %sp
            ([188, 0, 0, 0, 0, 0], 0x81E0_0000),
            ([189, 0, 8, 24, 0, 17], 0x91EE_0011), // restore %i0, %l1, %o0
            ([189, 0, 0, 0, 0, 0], 0x81E8_0000),
        ];
        for (numbers, word) in known {
            assert_eq!(written(numbers), (0, word));
            assert_eq!(read(word), numbers);
        }
        assert_eq!(forms().len(), 3 + 33 + 8);
    }

    /// Among them a rdy with rs1 1, with a constant 0 and with bit 0, a wry with rd 1, and save and restore with an unused
    /// bit.
    #[test]
    fn words_not_known() {
        for unknown in [
            0,
            0x8200_4022,
            0xB1D0_2000,
            0x0040_0000,
            0x8F40_4000,
            0x8F40_2000,
            0x8F40_0001,
            0x8380_E005,
            0x81E0_0020,
            0x81E8_1000,
        ] {
            assert_eq!(read(unknown), [0; 6]);
        }
    }

    /// The last number that fits a field, the first that does not, and which of several counts.
    #[test]
    fn fields_by_hand() {
        let refused = [
            ([128, 0, 32, 32, 1, 4096], 5),
            ([128, 0, 31, 31, 1, 4096], 13),
            ([128, 0, 31, 31, 1, 0u32.wrapping_sub(4097)], 13),
            ([128, 0, 31, 31, 0, 32], 5),
            ([166, 0, 0, 0, 1, 32], 5),
            ([186, 0, 16, 32, 1, 128], 4),
            ([186, 0, 15, 32, 1, 128], 5),
            ([186, 0, 15, 31, 1, 128], 7),
            ([2, 0, 16, 0, 0, 1 << 21], 4),
            ([2, 0, 15, 0, 0, 1 << 21], 22),
            ([64, 0, 0, 0, 0, 1 << 29], 30),
            ([4, 0, 32, 0, 0, 1 << 22], 5),
            ([4, 0, 31, 0, 0, 1 << 22], 22),
            ([0, 0, 0, 0, 0, 0], 0),
            ([65, 0, 0, 0, 0, 0], 0),
            ([169, 99, 99, 99, 99, 99], 0),
            ([138, 0, 32, 32, 1, 4096], 5),
            ([155, 0, 31, 31, 1, 4096], 13),
            ([168, 99, 32, 99, 99, 99], 5),
            ([176, 99, 99, 32, 1, 4096], 5),
            ([176, 99, 99, 31, 1, 4096], 13),
            ([176, 99, 99, 31, 0, 32], 5),
            ([188, 0, 32, 32, 1, 4096], 5),
            ([188, 0, 31, 31, 1, 0u32.wrapping_sub(4097)], 13),
            ([189, 0, 31, 32, 1, 4096], 5),
            ([189, 0, 31, 31, 0, 32], 5),
            ([187, 0, 0, 0, 0, 0], 0),
            ([190, 0, 0, 0, 0, 0], 0),
            ([256, 0, 0, 0, 0, 0], 0),
        ];
        for (numbers, bits) in refused {
            assert_eq!(written(numbers), (7, bits), "{numbers:?}");
        }
    }

    /// Of each kind of field the last numbers that fit.
    #[test]
    fn numbers_that_fit() {
        let fitting = [
            [128, 0, 31, 31, 1, 4095],
            [128, 9, 31, 31, 7, 0u32.wrapping_sub(4096)],
            [166, 0, 0, 0, 1, 31],
            [186, 0, 15, 31, 1, 127],
            [2, 5, 15, 99, 99, 0u32.wrapping_sub(1 << 21)],
            [64, 99, 99, 99, 99, 0u32.wrapping_sub(1 << 29)],
            [4, 99, 31, 99, 99, (1 << 22) - 1],
            [168, 99, 31, 99, 99, 99],
            [176, 99, 99, 31, 99, 4095],
            [188, 99, 31, 31, 7, 0u32.wrapping_sub(4096)],
            [189, 99, 31, 31, 0, 31],
        ];
        for numbers in fitting {
            assert_eq!(write(numbers).number, 0, "{numbers:?}");
        }
    }

    /// A known word may have any bit of a field set, and none that is neither a field's nor its form's.
    #[test]
    fn the_other_bits_are_unused() {
        let both = forms().into_iter().flat_map(|f| [(f, false), (f, true)]);
        // a rdy has no constant
        for (form, constant) in both.filter(|pair| *pair != (RDY, true)) {
            let word = fixed_bits(form) | ((constant as u32) << 13);
            let form_bits: u32 = match form / 64 {
                0 => 0xC1C0_0000,
                1 => 0xC000_0000,
                _ => 0xC1F8_0000,
            };
            let fields = fields(form, constant).unwrap().into_iter();
            let used = fields.fold(0, |bits, field| bits | (field.mask() << field.low));
            for bit in (0..32)
                .map(|bit| 1 << bit)
                .filter(|bit| form_bits & bit == 0)
            {
                let known = decode(word | bit).is_some();
                assert_eq!(known, used & bit != 0, "form {form}, bit {bit:x}");
            }
        }
    }
}
