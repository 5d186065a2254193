//! Random images, entry lists, starts and calls, each determined by a seed.

use crate::claim::{Accepted, Start};
use crate::interface::{new_run_call, old_run_call};
use crate::machine::WINDOWED;
use crate::new_core::{self, number};
use crate::old_core::{lies_in_image, Image};
use crate::places::{made_by_the_rules, walk, Place, Stop};
use crate::state::{NEW_STATE, OLD_STATE};
use crate::translator::{bytes, translate, Refusal, Translation};
use crate::words::{decode, Instruction};

/// splitmix64.
pub struct Random {
    state: u64,
}

impl Random {
    pub fn new(seed: u64) -> Random {
        Random { state: seed }
    }

    pub fn draw(&mut self) -> u64 {
        self.state = self.state.wrapping_add(0x9E37_79B9_7F4A_7C15);
        let mut z = self.state;
        z = (z ^ (z >> 30)).wrapping_mul(0xBF58_476D_1CE4_E5B9);
        z = (z ^ (z >> 27)).wrapping_mul(0x94D0_49BB_1331_11EB);
        z ^ (z >> 31)
    }

    pub fn word(&mut self) -> u32 {
        (self.draw() >> 32) as u32
    }

    /// A number below the limit, which is not 0.
    pub fn below(&mut self, limit: u32) -> u32 {
        (((self.draw() >> 32) * limit as u64) >> 32) as u32
    }

    /// A number from `low` to `high`, both included.
    pub fn between(&mut self, low: i32, high: i32) -> i32 {
        low + self.below((high - low + 1) as u32) as i32
    }

    pub fn chance(&mut self, percent: u32) -> bool {
        self.below(100) < percent
    }

    pub fn pick<T: Copy>(&mut self, list: &[T]) -> T {
        list[self.below(list.len() as u32) as usize]
    }

    /// The position of one of the weights.
    pub fn weighted(&mut self, weights: &[u32]) -> usize {
        let mut left = self.below(weights.iter().sum());
        for (position, weight) in weights.iter().enumerate() {
            if left < *weight {
                return position;
            }
            left -= weight;
        }
        unreachable!()
    }
}

const EDGES: [u32; 12] = [
    0,
    1,
    2,
    4,
    31,
    32,
    0x7FFF_FFFF,
    0x8000_0000,
    0x8000_0001,
    0xFFFF_FFFC,
    0xFFFF_FFFE,
    0xFFFF_FFFF,
];

/// Registers by what a start mostly puts into them.
const ADDRESS_REGISTERS: [u32; 4] = [8, 9, 10, 11];
const DATA_REGISTERS: [u32; 3] = [12, 13, 14];
const NUMBER_REGISTERS: [u32; 8] = [1, 2, 3, 4, 17, 24, 30, 31];

/// An image with what belongs to it. Words are whole; tails are added to calls only.
#[derive(Clone, Debug)]
pub struct Program {
    pub words: Vec<u32>,
    pub base: u32,
    pub data_base: u32,
    pub data_length: u32,
    pub entries: Vec<u32>,
}

impl Program {
    pub fn image_bytes(&self) -> Vec<u8> {
        bytes(self.words.iter().copied())
    }

    pub fn entry_bytes(&self) -> Vec<u8> {
        bytes(self.entries.iter().copied())
    }

    /// The translation with buffers that are never short.
    pub fn translate(&self) -> Result<Translation, Refusal> {
        let image_bytes = self.image_bytes();
        let image = Image::at(self.base, &image_bytes);
        translate(image, &self.entry_bytes(), 1 << 24, 1 << 24)
    }

    /// What the claim is about, with a translation of this program or a wrong one.
    pub fn accepted(&self, translation: &Translation) -> Accepted {
        let image = self.image_bytes();
        Accepted {
            made: made_by_the_rules(Image::at(self.base, &image), &self.entries),
            image,
            base: self.base,
            records: translation.record_bytes(),
            places: translation.place_bytes(),
            data_base: self.data_base,
        }
    }

    /// The smallest number of places with which the walk does not meet refusal 5.
    fn room_for_the_walk(&self) -> usize {
        let image_bytes = self.image_bytes();
        let image = Image::at(self.base, &image_bytes);
        (0..)
            .find(|room| {
                let outcome = walk(image, &self.entries, *room);
                !matches!(outcome, Err(Stop::TooManyPlaces(_)))
            })
            .unwrap()
    }

    /// The addresses of all plain places by the rules, lowest first.
    pub fn plain_addresses(&self) -> Vec<u32> {
        let image_bytes = self.image_bytes();
        let image = Image::at(self.base, &image_bytes);
        let mut addresses: Vec<u32> = made_by_the_rules(image, &self.entries)
            .into_iter()
            .filter_map(|place| match place {
                Place::Plain(address) => Some(address),
                _ => None,
            })
            .collect();
        addresses.sort();
        addresses
    }

    pub fn address(&self, position: i32) -> u32 {
        self.base.wrapping_add((position as u32).wrapping_mul(4))
    }
}

/// Kinds of words, in the order of an image's weights.
const BICC: usize = 0;
const CALL: usize = 1;
const JMPL: usize = 2;
const TICC: usize = 3;
const ILLEGAL: usize = 4;
const ARITHMETIC: usize = 5;
const LOAD: usize = 6;
const STORE: usize = 7;
const SETHI: usize = 8;
const PRODUCT: usize = 9;
const WINDOW: usize = 10;
const KINDS: usize = 11;

/// How often each kind of word stands in an image.
const STYLES: [[u32; KINDS]; 7] = [
    [88, 10, 0, 2, 0, 0, 0, 0, 0, 0, 0],
    [60, 7, 8, 3, 2, 6, 3, 2, 1, 4, 4],
    [33, 6, 12, 5, 2, 12, 9, 7, 2, 6, 6],
    [20, 10, 30, 4, 1, 9, 10, 4, 1, 5, 6],
    [15, 3, 6, 5, 1, 29, 12, 10, 3, 8, 8],
    [15, 3, 5, 4, 1, 10, 6, 5, 2, 41, 8],
    [15, 4, 6, 4, 1, 14, 6, 5, 2, 3, 40],
];

/// Words that transfer control, and words that a held place may have.
const BACK: [u32; KINDS] = [70, 10, 15, 5, 0, 0, 0, 0, 0, 0, 0];
const HARMLESS: [u32; KINDS] = [0, 0, 0, 2, 1, 15, 8, 6, 2, 10, 10];

const RDY: u32 = 0b101000;
const WRY: u32 = 0b110000;
const SAVE: u32 = 0b111100;
const RESTORE: u32 = 0b111101;

fn format_3(op: u32, op3: u32, rd: u32, rs1: u32, operand: u32) -> u32 {
    (op << 30) | (rd << 25) | (op3 << 19) | (rs1 << 14) | operand
}

fn constant(value: i32) -> u32 {
    (1 << 13) | (value as u32 & 0x1FFF)
}

fn number_register(random: &mut Random) -> u32 {
    if random.chance(10) {
        random.below(32)
    } else {
        random.pick(&NUMBER_REGISTERS)
    }
}

/// A register or a constant.
fn any_operand(random: &mut Random) -> u32 {
    if random.chance(50) {
        number_register(random)
    } else if random.chance(60) {
        constant(random.between(-8, 8))
    } else {
        constant(random.between(-4096, 4095))
    }
}

/// A register or an unsigned constant below the limit, of a shift or a Ticc.
fn unsigned_operand(random: &mut Random, limit: u32) -> u32 {
    if random.chance(50) {
        number_register(random)
    } else {
        constant(random.below(limit) as i32)
    }
}

/// A word of op 2 or 3 with one of the bits set that 02 calls unused in some form: with a register, but shifts and Ticc
/// also with a constant; of a rdy any below its op3, of a wry also one of its rd. Other words stay. (Which bits are unused
/// is the reader's to say, not asked here.)
pub(crate) fn with_stray_bit(random: &mut Random, word: u32) -> u32 {
    let (op, op3) = (word >> 30, (word >> 19) & 63);
    match (op, op3) {
        (0 | 1, _) => word,
        (2, 0x3A) if random.chance(30) => word | 1 << 29,
        (2, RDY) => word | 1 << random.between(0, 18),
        (2, WRY) if random.chance(40) => word | 1 << random.between(25, 29),
        (2, 0x25 | 0x26 | 0x27 | 0x3A) => word | 1 << random.between(5, 12),
        _ => word & !0x3FE0 | 1 << random.between(5, 12),
    }
}

/// A few words get an unused bit.
fn seldom_stray(random: &mut Random, word: u32) -> u32 {
    if random.chance(3) {
        with_stray_bit(random, word)
    } else {
        word
    }
}

/// The displacement, in words, from a position to a target: mostly inside the image, else one word
/// outside, near, in line with the path, or far.
fn displacement(random: &mut Random, position: i32, count: i32) -> u32 {
    let target = match random.weighted(&[78, 6, 4, 8, 4]) {
        0 => random.between(0, count - 1),
        1 => random.pick(&[-1, count]),
        2 => random.between(-4, count + 4),
        3 => position + random.pick(&[0, 1, 2, 3]),
        _ => return random.word(),
    };
    (target - position) as u32
}

pub(crate) fn random_bicc(
    random: &mut Random,
    condition: u32,
    annul: u32,
    position: i32,
    count: i32,
) -> u32 {
    let field = displacement(random, position, count) & 0x3F_FFFF;
    (annul << 29) | (condition << 25) | (2 << 22) | field
}

pub(crate) fn random_call(random: &mut Random, position: i32, count: i32) -> u32 {
    (1 << 30) | (displacement(random, position, count) & 0x3FFF_FFFF)
}

fn random_word(random: &mut Random, style: &[u32; KINDS], position: i32, program: &Program) -> u32 {
    let word = clean_word(random, style, position, program);
    seldom_stray(random, word)
}

fn clean_word(random: &mut Random, style: &[u32; KINDS], position: i32, program: &Program) -> u32 {
    let count = program.words.len() as i32;
    match random.weighted(style) {
        BICC => {
            let condition = match random.weighted(&[25, 15, 60]) {
                0 => 8,
                1 => 0,
                _ => random.below(16),
            };
            let annul = random.below(2);
            random_bicc(random, condition, annul, position, count)
        }
        CALL => random_call(random, position, count),
        JMPL => random_jmpl(random, program),
        TICC => {
            let condition = if random.chance(40) {
                8
            } else {
                random.below(16)
            };
            let rs1 = number_register(random);
            format_3(2, 0x3A, condition, rs1, unsigned_operand(random, 128))
        }
        ILLEGAL => match random.weighted(&[30, 20, 30, 20]) {
            0 => 0,
            // unimp, FBfcc, CBccc and the other op2 values
            1 => (random.pick(&[0, 1, 3, 5, 6, 7]) << 22) | (random.word() & 0x3E3F_FFFF),
            // divisions, mulscc, other state registers than Y, rett, flush, and what stands behind restore
            2 => {
                let op3 = random.pick(&[
                    0x0E, 0x0F, 0x1E, 0x24, RDY, 0x29, WRY, 0x31, 0x39, 0x3B, 0x3E, 0x3F,
                ]);
                format_3(
                    2,
                    op3,
                    random.below(32),
                    random.below(32),
                    any_operand(random),
                )
            }
            _ => random.word(),
        },
        ARITHMETIC => {
            let rd = if random.chance(10) {
                random.pick(&ADDRESS_REGISTERS)
            } else {
                number_register(random)
            };
            let rs1 = number_register(random);
            if random.chance(15) {
                let op3 = random.pick(&[0x25, 0x26, 0x27]);
                format_3(2, op3, rd, rs1, unsigned_operand(random, 32))
            } else {
                let operation = random.pick(&[0, 1, 2, 3, 4, 5, 6, 7, 8, 12]);
                let op3 = operation | (random.below(2) << 4);
                format_3(2, op3, rd, rs1, any_operand(random))
            }
        }
        LOAD => {
            let op3 = random.pick(&[0, 0, 0, 1, 2, 9, 10]);
            let rd = if random.chance(50) {
                random.pick(&ADDRESS_REGISTERS)
            } else {
                number_register(random)
            };
            random_access(random, op3, rd, program)
        }
        STORE => {
            let op3 = random.pick(&[4, 5, 6]);
            let rd = if random.chance(20) {
                15
            } else {
                number_register(random)
            };
            random_access(random, op3, rd, program)
        }
        PRODUCT => random_product(random),
        WINDOW => random_window(random),
        _ => {
            debug_assert_eq!(SETHI, 8);
            let rd = number_register(random);
            let value = if random.chance(50) {
                program.base >> 10
            } else {
                random.below(1 << 22)
            };
            (rd << 25) | (4 << 22) | value
        }
    }
}

/// A product, rdy or wry, some to register 0; a few miss by one bit.
fn random_product(random: &mut Random) -> u32 {
    let rd = if random.chance(15) {
        0
    } else {
        number_register(random)
    };
    let rs1 = number_register(random);
    let word = match random.weighted(&[60, 20, 20]) {
        0 => {
            let op3 = random.pick(&[0b001010, 0b001011, 0b011010, 0b011011]);
            format_3(2, op3, rd, rs1, any_operand(random))
        }
        1 => format_3(2, RDY, rd, 0, 0),
        _ => format_3(2, WRY, 0, rs1, any_operand(random)),
    };
    if random.chance(8) {
        with_stray_bit(random, word)
    } else {
        word
    }
}

/// A save or restore: mostly with any registers, since each is another one in the new window, and often as compilers
/// write them.
fn random_window(random: &mut Random) -> u32 {
    let op3 = random.pick(&[SAVE, RESTORE]);
    match random.weighted(&[15, 10, 50, 25]) {
        0 => format_3(2, SAVE, 14, 14, constant(-96)),
        1 => format_3(2, RESTORE, 0, 0, 0),
        2 => {
            let (rd, rs1, rs2) = (random.below(32), random.below(32), random.below(32));
            format_3(2, op3, rd, rs1, rs2)
        }
        _ => format_3(
            2,
            op3,
            random.below(32),
            random.below(32),
            any_operand(random),
        ),
    }
}

/// A load or store, mostly into the data area.
fn random_access(random: &mut Random, op3: u32, rd: u32, program: &Program) -> u32 {
    let length = program.data_length as i32;
    let offset = if random.chance(70) {
        4 * random.between(0, length / 4)
    } else {
        random.between(-2, length + 2)
    };
    if random.chance(90) {
        let rs1 = random.pick(&DATA_REGISTERS);
        format_3(3, op3, rd, rs1, constant(offset))
    } else {
        format_3(3, op3, rd, number_register(random), any_operand(random))
    }
}

/// A jmpl by a register that mostly holds an address of the image, by the return register, or to a
/// constant address.
pub(crate) fn random_jmpl(random: &mut Random, program: &Program) -> u32 {
    let count = program.words.len() as i32;
    let rs1 = random.pick(&ADDRESS_REGISTERS);
    let rd = match random.weighted(&[45, 20, 15, 20]) {
        0 => 0,
        1 => 15,
        2 => rs1,
        _ => random.below(32),
    };
    match random.weighted(&[45, 15, 15, 10, 15]) {
        0 => format_3(2, 0x38, rd, rs1, constant(0)),
        1 => format_3(
            2,
            0x38,
            rd,
            rs1,
            constant(random.pick(&[-8, -4, 4, 8, 12, 2, 1])),
        ),
        2 => format_3(2, 0x38, rd, 15, constant(random.pick(&[8, 12]))),
        3 => {
            let index = random.pick(&NUMBER_REGISTERS);
            format_3(2, 0x38, rd, rs1, index)
        }
        // Register 0 and a constant: an address near 0 or near the top of the address space.
        _ => {
            let address = program.address(random.between(-1, count)) as i32;
            let near = if (-4096..4096).contains(&address) {
                address
            } else {
                4 * random.between(-8, 8)
            };
            format_3(2, 0x38, rd, 0, constant(near))
        }
    }
}

/// Blocks that each end in a jmpl and its slot, so that most addresses get a plain place only if an entry
/// or a branch names them, and jumps by addresses of the image land without one.
fn make_blocks(random: &mut Random, program: &mut Program) {
    let count = program.words.len() as i32;
    let body = random.pick(&[STYLES[4], STYLES[5], STYLES[2], STYLES[6]]);
    let mut position = 0;
    while position < count {
        let length = random.between(0, 3);
        let jump = position + length;
        let slot = jump + 1;
        for at in position..=slot.min(count - 1) {
            let word = if at == jump {
                let jmpl = random_jmpl(random, program);
                seldom_stray(random, jmpl)
            } else if at == slot {
                random_word(random, &HARMLESS, at, program)
            } else {
                random_word(random, &body, at, program)
            };
            program.words[at as usize] = word;
        }
        position = slot + 1;
    }
}

/// Behind the delay slots of some calls a word that lets the callee return past it, or that misses it by one bit.
fn return_records(random: &mut Random, program: &mut Program) {
    for position in 2..program.words.len() {
        let links = match decode(program.words[position - 2]) {
            Some(Instruction::Call { .. }) => true,
            Some(Instruction::Jmpl { rd, .. }) => rd != 0,
            _ => false,
        };
        if links && random.chance(50) {
            let size = random.pick(&[0, 8, 12, 0xFFFF_FFFF]);
            let bit = random.pick(&[0, 0, 0, 0, 0, 1 << 22, 1 << 23, 1 << 24, 1 << 30, 1 << 31]);
            program.words[position] = size & 0x3E3F_FFFF | bit;
        }
    }
}

fn random_base(random: &mut Random, count: u32) -> u32 {
    match random.weighted(&[30, 25, 10, 15, 10, 10]) {
        0 => 0,
        1 => random.pick(&[0xFFFF_FFF0, 0xFFFF_FFC0, 0xFFFF_FFFC, 0xFFFF_FFE0]),
        2 => 0u32.wrapping_sub(4 * count),
        3 => random.pick(&[4, 8, 0x100, 0x1000, 0x4000_0000]),
        4 => random.pick(&[0x7FFF_FFF0, 0x8000_0000, 0x7FFF_FFFC]),
        _ => random.word() & !3,
    }
}

/// An image of 1 to 24 words with a base, a data area and 1 to 4 entries, all good. In most images the
/// words that a held place forbids are replaced until no refusal 4 is left.
pub fn random_program(random: &mut Random) -> Program {
    let count = match random.weighted(&[15, 50, 35]) {
        0 => random.between(1, 3),
        1 => random.between(3, 10),
        _ => random.between(8, 24),
    };
    let base = random_base(random, count as u32);
    let data_base = match random.weighted(&[40, 30, 15, 15]) {
        0 => random.pick(&[0x100, 0x8000, 0x4000_0000]),
        1 => random.pick(&[0, 0xFFFF_FFF8, 0xFFFF_FFFC]),
        2 => base,
        _ => random.word() & random.pick(&[!3, !3, !1, !0]),
    };
    let mut program = Program {
        words: vec![0; count as usize],
        base,
        data_base,
        data_length: random.pick(&[0, 4, 8, 8, 12, 16, 7]),
        entries: vec![],
    };
    let style = random.pick(&STYLES);
    for position in 0..count {
        let word = random_word(random, &style, position, &program);
        program.words[position as usize] = word;
    }
    match random.weighted(&[45, 20, 35]) {
        0 => {}
        // A pair of branches at the top, whatever the style.
        1 => {
            for position in 0..count.min(2) {
                let word = random_word(random, &STYLES[0], position, &program);
                program.words[position as usize] = word;
            }
        }
        _ => make_blocks(random, &mut program),
    }
    if count > 1 && random.chance(60) {
        // A way back instead of running off the end.
        let word = random_word(random, &BACK, count - 2, &program);
        program.words[count as usize - 2] = word;
    }
    if random.chance(50) {
        return_records(random, &mut program);
    }
    for _ in 0..random.pick(&[1, 1, 1, 2, 2, 3, 4]) {
        let position = if random.chance(40) {
            0
        } else {
            random.between(0, count - 1)
        };
        program.entries.push(program.address(position));
    }
    if random.chance(85) {
        allow_held_places(random, &mut program);
    }
    program
}

/// An image of 25 to 4,096 words, without jmpl and so without held places; some have too many places.
pub fn random_large_program(random: &mut Random) -> Program {
    let count = match random.weighted(&[60, 25, 10, 5]) {
        0 => random.between(25, 200),
        1 => random.between(200, 1_000),
        2 => random.between(1_000, 4_095),
        _ => 4_096,
    };
    let mut program = Program {
        words: vec![0; count as usize],
        base: random_base(random, count as u32),
        data_base: 0,
        data_length: 0,
        entries: vec![],
    };
    let mut style = random.pick(&STYLES);
    style[JMPL] = 0;
    for position in 0..count {
        program.words[position as usize] = random_word(random, &style, position, &program);
    }
    return_records(random, &mut program);
    for _ in 0..random.between(1, 64) {
        program
            .entries
            .push(program.address(random.between(0, count - 1)));
    }
    program
}

/// Replaces the word of each refusal 4 by one that a held place may have; some jmpl by one with an unused bit set.
pub(crate) fn allow_held_places(random: &mut Random, program: &mut Program) {
    while let Err(Refusal::ForbiddenWord(address)) = program.translate() {
        let position = (address.wrapping_sub(program.base) / 4) as i32;
        let word = match random.weighted(&[15, 15, 70]) {
            // bn without annul
            0 => (2 << 22) | random.below(1 << 22),
            1 => with_stray_bit(random, program.words[position as usize]),
            _ => random_word(random, &HARMLESS, position, program),
        };
        program.words[position as usize] = word;
    }
}

/// What a register holds at a start: an image address, a data address or a number.
fn random_register(random: &mut Random, program: &Program, plain: &[u32], register: u32) -> u32 {
    let count = program.words.len() as u32;
    if ADDRESS_REGISTERS.contains(&register) || random.chance(10) {
        return random_target(random, program, plain);
    }
    if DATA_REGISTERS.contains(&register) {
        return match random.weighted(&[80, 10, 10]) {
            0 => program.data_base,
            1 => program.data_base.wrapping_add(random.between(-4, 8) as u32),
            _ => random.word(),
        };
    }
    match random.weighted(&[30, 30, 10, 30]) {
        0 => random.pick(&EDGES),
        1 => 4 * random.below(count + 1),
        2 => program.data_base,
        _ => random.word(),
    }
}

/// Windows in which outs are what outs of a start are, so that programs go on behind a save or a restore.
fn random_windows(random: &mut Random, program: &Program, plain: &[u32]) -> [u32; WINDOWED] {
    std::array::from_fn(|k| {
        let register = 8 + k as u32 % 16; // ins are outs of the window before
        random_register(random, program, plain, register)
    })
}

/// Any nesting from 0 to 6, the first and the last more often; now and then one above that.
pub fn random_nesting(random: &mut Random) -> u32 {
    match random.weighted(&[25, 20, 43, 7, 5]) {
        0 => 0,
        1 => 6,
        2 => random.below(7),
        3 => random.pick(&[7, 8, 9, 15, 16, 256, 0x0100_0000, 0x8000_0000, 0xFFFF_FFFF]),
        _ => random.word(),
    }
}

/// A random start at an address. Half of them have other windows than the registers that count.
pub fn random_start(random: &mut Random, program: &Program, plain: &[u32], address: u32) -> Start {
    let registers =
        std::array::from_fn(|register| random_register(random, program, plain, register as u32));
    let mut start = Start {
        registers,
        y: random_y(random),
        nesting: random_nesting(random),
        windows: random_windows(random, program, plain),
        flags: random.below(16),
        data: random_data(random, program, plain),
        ..Start::at(address)
    };
    if random.chance(50) {
        start.windows = start.shown_windows();
    }
    start
}

fn random_data(random: &mut Random, program: &Program, plain: &[u32]) -> Vec<u8> {
    let mut data = vec![];
    while data.len() < program.data_length as usize {
        let number = if random.chance(70) {
            random_target(random, program, plain)
        } else {
            random.word()
        };
        data.extend(number.to_be_bytes());
    }
    data.truncate(program.data_length as usize);
    data
}

pub fn random_y(random: &mut Random) -> u32 {
    if random.chance(50) {
        random.word()
    } else {
        random.pick(&EDGES)
    }
}

/// An address to jump to: with a plain place, in the image, outside, or misaligned.
fn random_target(random: &mut Random, program: &Program, plain: &[u32]) -> u32 {
    let count = program.words.len() as i32;
    match random.weighted(&[45, 43, 4, 4, 4]) {
        0 if !plain.is_empty() => random.pick(plain),
        0 | 1 => program.address(random.between(0, count - 1)),
        2 => program.address(random.between(-2, count + 2)),
        3 => program
            .address(random.between(0, count - 1))
            .wrapping_add(random.pick(&[1, 2, 3])),
        _ => random.word(),
    }
}

/// Bad entries for a list, at random positions among the good ones.
pub fn spoil_entries(random: &mut Random, program: &mut Program) {
    let count = program.words.len() as i32;
    if random.chance(10) {
        program.entries.clear();
        if random.chance(50) {
            program.entries = vec![program.base; random.pick(&[63, 64, 65, 66])];
        }
        return;
    }
    for _ in 0..random.pick(&[1, 1, 1, 2, 3]) {
        let bad = match random.weighted(&[40, 30, 30]) {
            0 => program.address(random.pick(&[-1, count])),
            1 => program
                .address(random.between(0, count - 1))
                .wrapping_add(random.pick(&[1, 2, 3])),
            _ => random.word(),
        };
        let position = random.below(program.entries.len() as u32 + 1) as usize;
        program.entries.insert(position, bad);
    }
}

/// How many places and records a program needs.
fn needs(random: &mut Random, program: &Program) -> (usize, usize) {
    match program.translate() {
        Ok(translation) => (translation.rows.len(), translation.records.len()),
        // The table in which the walk just reaches its refusal 4; one place less is refusal 5.
        Err(Refusal::ForbiddenWord(_)) => (program.room_for_the_walk(), random.below(20) as usize),
        Err(_) => (random.below(12) as usize, random.below(20) as usize),
    }
}

/// The lengths of both buffers, in bytes: large enough, exact, with a tail, one item or one byte short.
pub fn random_lengths(random: &mut Random, program: &Program) -> (usize, usize) {
    let (places, records) = needs(random, program);
    (
        random_length(random, places, 16),
        random_length(random, records, 12),
    )
}

/// The lengths of buffers that are not short.
pub fn ample_lengths(random: &mut Random, program: &Program) -> (usize, usize) {
    let (places, records) = needs(random, program);
    (
        places * 16 + random_excess(random, 16),
        records * 12 + random_excess(random, 12),
    )
}

fn random_excess(random: &mut Random, size: u32) -> usize {
    if random.chance(40) {
        random.below(3 * size) as usize
    } else {
        0
    }
}

fn random_length(random: &mut Random, count: usize, size: usize) -> usize {
    let exact = count * size;
    match random.weighted(&[35, 20, 15, 10, 10, 5, 5]) {
        0 => exact,
        1 => exact + random.below(3 * size as u32) as usize,
        2 => exact + size * random.below(8) as usize,
        3 => exact.saturating_sub(size),
        4 => exact.saturating_sub(1),
        5 => exact.saturating_sub(random.below(exact as u32 + 1) as usize),
        _ => random.below(2 * size as u32) as usize,
    }
}

/// A call of the translator.
#[derive(Clone, Debug)]
pub struct TranslateCall {
    pub image: Vec<u8>,
    pub base: u32,
    pub entries: Vec<u8>,
    pub places_length: usize,
    pub records_length: usize,
}

pub fn random_translate_call(random: &mut Random) -> TranslateCall {
    let mut program = random_program(random);
    if random.chance(8) {
        spoil_entries(random, &mut program);
    }
    let (places_length, records_length) = random_lengths(random, &program);
    let mut call = TranslateCall {
        image: program.image_bytes(),
        base: program.base,
        entries: program.entry_bytes(),
        places_length,
        records_length,
    };
    if random.chance(3) {
        match random.below(4) {
            0 => call.image.clear(),
            1 => call.image.truncate(call.image.len() - 1),
            2 => call.image.resize(16_388, 1),
            _ => call.image.push(0),
        }
    }
    if random.chance(3) {
        call.base = call.base.wrapping_add(random.pick(&[1, 2, 3]));
    }
    if random.chance(10) {
        // A tail too short for an entry.
        for _ in 0..random.pick(&[1, 2, 3]) {
            call.entries.push(random.word() as u8);
        }
    }
    call
}

/// A run of the old core.
#[derive(Clone, Debug)]
pub struct OldRunCall {
    pub image: Vec<u8>,
    pub base: u32,
    pub data_base: u32,
    pub state: [u8; OLD_STATE],
    pub data: Vec<u8>,
    pub count: u16,
}

impl OldRunCall {
    /// What the call leaves in state and data; the end and the number beside it.
    pub fn run(&mut self) -> (u32, u32) {
        let image = Image::at(self.base, &self.image);
        let (state, data) = (&mut self.state, &mut self.data);
        old_run_call(image, self.data_base, state, data, self.count)
    }
}

pub fn random_old_run_call(random: &mut Random) -> OldRunCall {
    let program = random_program(random);
    let plain = program.plain_addresses();
    let address = random_address(random, &program, &plain);
    let start = random_start(random, &program, &plain, address);
    let mut image = program.image_bytes();
    let mut base = program.base;
    if random.chance(5) {
        image.truncate(image.len() - random.below(4) as usize);
    }
    if random.chance(5) {
        base = base.wrapping_add(random.below(4));
    }
    let next = match random.weighted(&[60, 30, 10]) {
        0 => address.wrapping_add(4),
        1 => random_address(random, &program, &plain),
        _ => random.word(),
    };
    let annul = match random.weighted(&[75, 15, 10]) {
        0 => 0,
        1 => 1,
        _ => random.word(),
    };
    let (end, number) = random_end(random);
    let mut numbers = start_numbers(random, &start);
    numbers.extend([address, next, annul, end, number, start.y, start.nesting]);
    numbers.extend(start.windows);
    let mut state = [0; OLD_STATE];
    state.copy_from_slice(&bytes(numbers));
    OldRunCall {
        image,
        base,
        data_base: program.data_base,
        state,
        data: start.data,
        count: random_count(random),
    }
}

/// A run of the new core.
#[derive(Clone, Debug)]
pub struct NewRunCall {
    pub records: Vec<u8>,
    pub places: Vec<u8>,
    pub base: u32,
    pub image_length: u32,
    pub data_base: u32,
    pub state: [u8; NEW_STATE],
    pub data: Vec<u8>,
    pub count: u16,
}

impl NewRunCall {
    /// What the call leaves in state and data; the end and the number beside it.
    pub fn run(&mut self) -> (u32, u32) {
        let program = new_core::Program {
            records: &self.records,
            places: &self.places,
            base: self.base,
            image_length: self.image_length,
        };
        let (state, data) = (&mut self.state, &mut self.data);
        new_run_call(program, self.data_base, state, data, self.count)
    }
}

pub fn random_new_run_call(random: &mut Random) -> NewRunCall {
    let (program, translation) = random_accepted(random);
    let plain = program.plain_addresses();
    let start = random_start(random, &program, &plain, 0);
    let mut records = translation.record_bytes();
    let mut places = translation.place_bytes();
    if random.chance(50) {
        damage_some(random, &mut records, &mut places);
    }
    let record = match random.weighted(&[70, 25, 5]) {
        0 => random.pick(&translation.rows).first_record,
        1 => random.below(translation.records.len() as u32 + 2),
        _ => random.word(),
    };
    let held = match random.weighted(&[30, 60, 10]) {
        0 => 0,
        1 => random_target(random, &program, &plain),
        _ => random.word(),
    };
    let image_length = match random.weighted(&[90, 5, 5]) {
        0 => 4 * program.words.len() as u32,
        1 => random.below(100),
        _ => random.word(),
    };
    let (end, number) = random_end(random);
    let mut numbers = start_numbers(random, &start);
    numbers.extend([record, held, end, number, start.y, start.nesting]);
    numbers.extend(start.windows);
    let mut state = [0; NEW_STATE];
    state.copy_from_slice(&bytes(numbers));
    NewRunCall {
        records,
        places,
        base: program.base,
        image_length,
        data_base: program.data_base,
        state,
        data: start.data,
        count: random_count(random),
    }
}

/// Damages records and place table.
pub fn damage_some(random: &mut Random, records: &mut Vec<u8>, places: &mut Vec<u8>) {
    for _ in 0..random.pick(&[1, 1, 2, 4]) {
        match random.weighted(&[45, 18, 27, 10]) {
            0 => damage(random, records, 12),
            1 => stray_in_record(random, records),
            2 => damage(random, places, 16),
            _ => end_in_record(random, records),
        }
    }
}

/// Sets an unused bit in the word of a record of kind 1 or 3.
fn stray_in_record(random: &mut Random, records: &mut [u8]) {
    let with_words: Vec<usize> = (0..records.len() / 12)
        .filter(|record| [1, 3].contains(&number(records, 3 * record)))
        .collect();
    if with_words.is_empty() {
        return;
    }
    let record = random.pick(&with_words);
    let word = with_stray_bit(random, number(records, 3 * record + 1));
    records[12 * record + 4..12 * record + 8].copy_from_slice(&word.to_be_bytes());
}

/// Has a record end a run, mostly with an end that no record may say: those that it may, and 8 and 9, often.
fn end_in_record(random: &mut Random, records: &mut [u8]) {
    if records.len() < 12 {
        return;
    }
    let record = random.below(records.len() as u32 / 12) as usize;
    let first = random.pick(&[0, 1, 2, 3, 4, 5, 6, 7, 8, 8, 8, 9, 9, 9, 10]);
    let numbers = bytes([7, first, random.below(8)]);
    records[12 * record..12 * record + 12].copy_from_slice(&numbers);
}

/// Has a row name another first record: another row's, or one at the end of the records or past it.
pub fn rename_first_record(random: &mut Random, places: &mut [u8], record_count: u32) {
    let rows = places.len() as u32 / 16;
    if rows == 0 {
        return;
    }
    let other = random.below(rows) as usize;
    let named = if random.chance(50) {
        number(places, 4 * other + 3)
    } else {
        record_count.wrapping_add_signed(random.between(-1, 2))
    };
    let position = 16 * random.below(rows) as usize + 12;
    places[position..position + 4].copy_from_slice(&named.to_be_bytes());
}

/// Changes a number of a table, cuts it or adds a tail.
fn damage(random: &mut Random, table: &mut Vec<u8>, size: u32) {
    let numbers = table.len() as u32 / 4;
    match random.weighted(&[75, 10, 10, 5]) {
        0 if numbers > 0 => {
            let position = 4 * random.below(numbers) as usize;
            let value = match random.weighted(&[60, 20, 10, 10]) {
                0 => random.below(10),
                1 => random.below(40),
                2 => random.pick(&EDGES),
                _ => random.word(),
            };
            table[position..position + 4].copy_from_slice(&value.to_be_bytes());
        }
        0 | 1 => {
            let length = random.below(table.len() as u32 + 1) as usize;
            table.truncate(length);
        }
        2 => {
            for _ in 0..random.below(size) {
                table.push(random.below(8) as u8);
            }
        }
        _ => table.clear(),
    }
}

/// A start's registers and flags as numbers, the flags sometimes with higher bits set.
fn start_numbers(random: &mut Random, start: &Start) -> Vec<u32> {
    let mut numbers = start.registers.to_vec();
    if random.chance(70) {
        numbers[0] = 0;
    }
    let higher = if random.chance(10) {
        random.word() & !15
    } else {
        0
    };
    numbers.push(start.flags | higher);
    numbers
}

fn random_end(random: &mut Random) -> (u32, u32) {
    match random.weighted(&[85, 8, 4, 3]) {
        0 => (0, 0),
        1 => (random.between(1, 9) as u32, random.word()),
        2 => (0, random.word()),
        _ => (
            random.pick(&[10, 11, 16, 256, 264, 0xFFFF_FFFF, 0x0100_0001]),
            random.word(),
        ),
    }
}

fn random_count(random: &mut Random) -> u16 {
    match random.weighted(&[5, 55, 35, 5]) {
        0 => 0,
        1 => random.between(1, 8) as u16,
        2 => random.between(8, 60) as u16,
        _ => random.pick(&[255, 256, 1000]),
    }
}

/// An address to start at, mostly one with a plain place.
pub fn random_address(random: &mut Random, program: &Program, plain: &[u32]) -> u32 {
    let count = program.words.len() as i32;
    match random.weighted(&[70, 24, 3, 3]) {
        0 if !plain.is_empty() => random_plain(random, program, plain),
        0 | 1 => program.address(random.between(-1, count)),
        2 => random_target(random, program, plain),
        _ => random.word(),
    }
}

/// An address with a plain place to begin at, mostly in the image.
pub fn random_plain(random: &mut Random, program: &Program, plain: &[u32]) -> u32 {
    let length = 4 * program.words.len();
    let inside: Vec<u32> = plain
        .iter()
        .copied()
        .filter(|address| lies_in_image(*address, program.base, length))
        .collect();
    if inside.is_empty() || random.chance(5) {
        random.pick(plain)
    } else {
        random.pick(&inside)
    }
}

/// A program that the translator accepts, with its translation.
pub fn random_accepted(random: &mut Random) -> (Program, Translation) {
    loop {
        let program = random_program(random);
        if let Ok(translation) = program.translate() {
            return (program, translation);
        }
    }
}

/// A start that differs from another in one thing, or, by what is not looked at or nothing, not at all.
pub fn other_start(random: &mut Random, start: &Start, plain: &[u32]) -> Start {
    let mut other = start.clone();
    match random.below(10) {
        0 => other.address = random.pick(plain),
        1 => {
            let register = random.below(32) as usize;
            other.registers[register] ^= 1 << random.below(32);
        }
        2 => other.flags ^= 1 << random.below(4),
        3 if !other.data.is_empty() => {
            let position = random.below(other.data.len() as u32) as usize;
            other.data[position] ^= 1 << random.below(8);
        }
        3 | 4 => other.data.push(0),
        5 => other.registers[0] = random.word(),
        6 => other.y ^= 1 << random.below(32),
        // where the nesting counts the same, or the number is the current window's, this is no difference
        7 => other.nesting = random_nesting(random),
        8 => {
            let number = random.below(WINDOWED as u32) as usize;
            other.windows[number] ^= 1 << random.below(32);
        }
        _ => {}
    }
    other
}
