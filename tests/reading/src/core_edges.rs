//! Runs of both cores at the edges of 01's rules: of the image, of the data area, of tables and records, and of words that
//! end a run or do nothing. Each has its answer, worked out by hand from 01 and 02: the numbers of the state and the
//! bytes of the data that are others afterwards.

use std::array::from_fn;

use crate::edges::{
    over, ADD, ADD_REGISTER, ANNUL, BA, BN, CALL, CONSTANT, ILLEGAL, LINK, OTHER, RESTORE, SAVE, TA,
};
use crate::files::{new_run_case, old_run_case};
use crate::machine::Machine;
use crate::random::{NewRunCall, OldRunCall};
use crate::translator::bytes;
use crate::words::Flags;

// Positions of numbers in a state: the old core's own, then the new core's.
const PC: usize = 33;
const NPC: usize = 34;
const ANNULLED: usize = 35;
const OLD_END: usize = 36;
const RECORD: usize = 33;
const HELD: usize = 34;
const NEW_END: usize = 35;

const BASE: u32 = 0x1000;
const DATA: u32 = 0x8000;
const HOLDS: u32 = 0x0BAD_F00C; // the held address of a run that does not go by it

// Op3 of loads and stores.
const LD: u32 = 0;
const LDUB: u32 = 1;
const LDUH: u32 = 2;
const ST: u32 = 4;
const STB: u32 = 5;
const STH: u32 = 6;
const LDSB: u32 = 9;
const LDSH: u32 = 10;

const JUMP: u32 = 0x8DC1_E000; // jmpl register 7, constant 0, to register 6
const ASTRAY: u32 = 0x83C0_6002; // jmpl register 1, constant 2, to register 1

/// A program of a core, the rest of the call, and its answer.
pub struct Edge<Program> {
    program: Program,
    state: Vec<u32>,
    end_at: usize,
    data_base: u32,
    data: Vec<u8>,
    count: u16,
    changed: Vec<(usize, u32)>,
    stored: Vec<(usize, u8)>,
}

pub struct Old {
    image: Vec<u8>,
    base: u32,
}

pub struct New {
    records: Vec<u8>,
    places: Vec<u8>,
    base: u32,
    image_length: u32,
}

/// What a register from 1 to 7 holds unless a case says otherwise.
fn register(number: u32) -> u32 {
    0x6000_0000 + 0x0102_0304 * number
}

/// A state with a core's own numbers. No two numbers of registers, windows and Y are equal, so that one changed by
/// mistake shows; N, V and C are set.
fn state(own: &[u32], nesting: u32) -> Vec<u32> {
    let registers = from_fn(|k| register(k as u32));
    let windows = from_fn(|k| 0xA000_0000 + 0x0010_2030 * k as u32);
    let machine =
        Machine::of(registers, 0x9876_5432, Flags::of_number(11)).within(nesting, windows);
    let mut numbers = machine.registers().to_vec();
    numbers.push(machine.flags.number());
    numbers.extend(own);
    numbers.extend([machine.y, machine.nesting()]);
    numbers.extend(machine.windows());
    numbers
}

impl<Program> Edge<Program> {
    /// One step over data of eight bytes.
    fn of(program: Program, own: &[u32], end_at: usize) -> Edge<Program> {
        Edge {
            program,
            state: state(own, 3),
            end_at,
            data_base: DATA,
            data: vec![0x1A, 0x2B, 0x3C, 0x4D, 0x5E, 0x6F, 0x70, 0x81],
            count: 1,
            changed: vec![],
            stored: vec![],
        }
    }

    fn nested(mut self, nesting: u32) -> Self {
        let own = self.state[33..self.end_at + 2].to_vec();
        self.state = state(&own, nesting);
        self
    }

    /// Registers 1 to 7 alone: the others stand among the windows too.
    fn with(mut self, register: usize, value: u32) -> Self {
        assert!((1..8).contains(&register));
        self.state[register] = value;
        self
    }

    fn lent(mut self, data_base: u32, data: Vec<u8>) -> Self {
        self.data_base = data_base;
        self.data = data;
        self
    }

    fn steps(mut self, count: u16) -> Self {
        self.count = count;
        self
    }

    /// The answer: numbers of the state, by position.
    fn leaves(mut self, numbers: &[(usize, u32)]) -> Self {
        self.changed.extend(numbers);
        self
    }

    /// The answer: the end and the number beside it. Nothing else is changed by it.
    fn ends(self, end: u32, number: u32) -> Self {
        let at = self.end_at;
        self.leaves(&[(at, end), (at + 1, number)])
    }

    /// The answer: bytes of the data.
    fn stores(mut self, at: usize, stored: [u8; 4]) -> Self {
        self.stored.extend((at..).zip(stored));
        self
    }

    /// State and data by hand.
    pub fn answer(&self) -> (Vec<u8>, Vec<u8>) {
        let (mut state, mut data) = (self.state.clone(), self.data.clone());
        self.changed.iter().for_each(|(at, n)| state[*at] = *n);
        self.stored.iter().for_each(|(at, byte)| data[*at] = *byte);
        (bytes(state), data)
    }

    pub fn end(&self) -> u32 {
        let ends = self.changed.iter().find(|(at, _)| *at == self.end_at);
        ends.map_or(0, |(_, end)| *end)
    }
}

/// An image at `BASE`, and PC and nPC.
fn old(words: &[u32], pc: u32) -> Edge<Old> {
    let image = bytes(words.iter().copied());
    let own = [pc, pc.wrapping_add(4), 0, 0, 0];
    Edge::of(Old { image, base: BASE }, &own, OLD_END)
}

impl Edge<Old> {
    fn image_of(mut self, length: usize) -> Self {
        self.program.image.truncate(length);
        self
    }

    fn at_base(mut self, base: u32) -> Self {
        self.program.base = base;
        self
    }

    pub fn call(&self) -> OldRunCall {
        OldRunCall {
            image: self.program.image.clone(),
            base: self.program.base,
            data_base: self.data_base,
            state: bytes(self.state.clone()).try_into().unwrap(),
            data: self.data.clone(),
            count: self.count,
        }
    }
}

/// Records and places, from record 0, with an image of 64 bytes at `BASE`.
fn new(records: &[[u32; 3]], places: &[[u32; 4]]) -> Edge<New> {
    let program = New {
        records: bytes(records.concat()),
        places: bytes(places.concat()),
        base: BASE,
        image_length: 64,
    };
    Edge::of(program, &[0, HOLDS, 0, 0], NEW_END)
}

impl Edge<New> {
    fn from(mut self, record: u32) -> Self {
        self.state[RECORD] = record;
        self
    }

    fn holding(mut self, address: u32) -> Self {
        self.state[HELD] = address;
        self
    }

    fn image_of(mut self, length: u32) -> Self {
        self.program.image_length = length;
        self
    }

    /// Places and records without so many of their last bytes.
    fn cut(mut self, places: usize, records: usize) -> Self {
        let (p, r) = (&mut self.program.places, &mut self.program.records);
        p.truncate(p.len() - places);
        r.truncate(r.len() - records);
        self
    }

    pub fn call(&self) -> NewRunCall {
        NewRunCall {
            records: self.program.records.clone(),
            places: self.program.places.clone(),
            base: self.program.base,
            image_length: self.program.image_length,
            data_base: self.data_base,
            state: bytes(self.state.clone()).try_into().unwrap(),
            data: self.data.clone(),
            count: self.count,
        }
    }
}

/// A load or store at register 1 and a constant.
fn access(op3: u32, rd: u32, constant: i32) -> u32 {
    3 << 30 | rd << 25 | op3 << 19 | 1 << 14 | CONSTANT | (constant as u32 & 0x1FFF)
}

/// "PC a multiple of 4, PC in the image", in images of one and two words, whole and with a tail: "(address − base) modulo
/// 2^32, plus 4, is at most its length".
fn image_lengths() -> Vec<Edge<Old>> {
    let of = |length, distance: i32| {
        let pc = BASE.wrapping_add_signed(distance);
        (old(&[ADD, ADD], pc).image_of(length), pc)
    };
    let inside = [(4, 0), (5, 0), (7, 0), (8, 0), (8, 4)].map(|(length, distance)| {
        let (edge, pc) = of(length, distance);
        edge.leaves(&[(1, register(1) + 1), (PC, pc + 4), (NPC, pc + 8)])
    });
    let past = [(0, 0), (1, 0), (2, 0), (3, 0), (4, 4), (5, 4), (7, 4)];
    let far = [(8, 8), (0, -4), (4, -4), (8, -4)];
    let outside = past.into_iter().chain(far).map(|(length, distance)| {
        let (edge, pc) = of(length, distance);
        edge.ends(2, pc)
    });
    // the first three are outside too; of two words the second three are inside
    let beside = [(4, 1), (4, 2), (4, 3), (8, 1), (8, 2), (8, 3), (0, 1)];
    let misaligned = beside.map(|(length, distance)| {
        let (edge, pc) = of(length, distance);
        edge.ends(4, pc)
    });
    let all = inside.into_iter().chain(outside).chain(misaligned);
    all.collect()
}

/// Past the last word by steps, across the top of the address space, and at a base that is no multiple of 4.
fn images_left() -> Vec<Edge<Old>> {
    let top = 0xFFFF_FFFC;
    let added = (1, register(1) + 1);
    // two bytes, and an add at BASE + 4
    let odd = |pc: u32, length| {
        let words = [ADD >> 16, ADD << 16];
        old(&words, pc).image_of(length).at_base(BASE + 2)
    };
    vec![
        old(&[ADD], BASE)
            .steps(9)
            .leaves(&[added, (PC, BASE + 4), (NPC, BASE + 8)])
            .ends(2, BASE + 4),
        old(&[ADD], top)
            .at_base(top)
            .leaves(&[added, (PC, 0), (NPC, 4)]),
        old(&[ADD], 0).at_base(top).ends(2, 0),
        old(&[ADD; 2], 0)
            .at_base(top)
            .leaves(&[added, (PC, 4), (NPC, 8)]),
        odd(BASE + 4, 6).leaves(&[added, (PC, BASE + 8), (NPC, BASE + 12)]),
        odd(BASE + 4, 5).ends(2, BASE + 4),
        odd(BASE + 2, 6).ends(4, BASE + 2),
        // two bytes before the base: modulo 2^32 the sum would be 2
        odd(BASE, 6).ends(2, BASE),
    ]
}

/// Bicc 0 does nothing, wherever its displacement goes; with annul the next word is passed unread, whatever it is.
/// Plain, in the slot of a branch and in that of a jmpl, which go to BASE + 16.
fn never_taken() -> Vec<Edge<Old>> {
    let t = BASE + 16;
    let after = |first, branch, last| [first, branch, ILLEGAL, ILLEGAL, last];
    let added = (1, register(1) + 1);
    let linked = (6, BASE);
    let mut edges = vec![];
    for branch in [BN, over(BN, 5)] {
        let slot = old(&after(over(BA, 4), branch, ADD), BASE);
        let held = old(&after(JUMP, branch, ADD), BASE).with(7, t);
        edges.extend([
            old(&[branch, ADD], BASE).leaves(&[(PC, BASE + 4), (NPC, BASE + 8)]),
            old(&[branch, ADD], BASE)
                .steps(2)
                .leaves(&[added, (PC, BASE + 8), (NPC, BASE + 12)]),
            slot.steps(3).leaves(&[added, (PC, t + 4), (NPC, t + 8)]),
            held.steps(3)
                .leaves(&[linked, added, (PC, t + 4), (NPC, t + 8)]),
        ]);
    }
    edges
}

fn never_taken_with_annul() -> Vec<Edge<Old>> {
    let t = BASE + 16;
    let after = |first, branch| [first, branch, ILLEGAL, ILLEGAL, ILLEGAL];
    let linked = (6, BASE);
    let mut edges = vec![];
    for branch in [BN | ANNUL, over(BN | ANNUL, 5)] {
        let plain = |count| old(&[branch], BASE).steps(count);
        let slot = |count| old(&after(over(BA, 4), branch), BASE).steps(count);
        let held = |count| old(&after(JUMP, branch), BASE).with(7, t).steps(count);
        let (waits, passed) = (
            [(PC, t), (NPC, t + 4), (ANNULLED, 1)],
            [(PC, t + 4), (NPC, t + 8)],
        );
        edges.extend([
            plain(1).leaves(&[(PC, BASE + 4), (NPC, BASE + 8), (ANNULLED, 1)]),
            // the word passed is outside, and so is the one after it
            plain(2).leaves(&[(PC, BASE + 8), (NPC, BASE + 12)]),
            plain(9)
                .leaves(&[(PC, BASE + 8), (NPC, BASE + 12)])
                .ends(2, BASE + 8),
            slot(2).leaves(&waits),
            slot(3).leaves(&passed),
            held(2).leaves(&waits).leaves(&[linked]),
            held(3).leaves(&passed).leaves(&[linked]),
        ]);
    }
    edges
}

/// A word that ends the run: plain, in the slot of a branch, and held by a jmpl, which go to BASE + 16. Register 1 is the
/// data base; the end's number is worked out from the word's address.
fn in_each_place(word: u32, nesting: u32, end: u32, number: impl Fn(u32) -> u32) -> Vec<Edge<Old>> {
    let (slot, t) = (BASE + 4, BASE + 16);
    let of = |words: &[u32]| old(words, BASE).steps(9).nested(nesting).with(1, DATA);
    vec![
        of(&[word]).ends(end, number(BASE)),
        of(&[over(BA, 4), word])
            .leaves(&[(PC, slot), (NPC, t)])
            .ends(end, number(slot)),
        of(&[JUMP, word])
            .with(7, t)
            .leaves(&[(6, BASE), (PC, slot), (NPC, t)])
            .ends(end, number(slot)),
    ]
}

/// Ends 3, 8 and 9: op2 of 0, one that V8 leaves out, an unused bit, ldd; save at nesting 6, restore at 0.
fn words_that_end() -> Vec<Edge<Old>> {
    let illegal = [ILLEGAL, OTHER, ADD_REGISTER | 1 << 5, access(3, 2, 0)];
    let mut edges: Vec<_> = illegal
        .into_iter()
        .flat_map(|word| in_each_place(word, 3, 3, |p| p))
        .collect();
    edges.extend(in_each_place(SAVE, 6, 8, |_| 6));
    edges.extend(in_each_place(RESTORE, 0, 9, |_| 0));
    edges
}

/// Ends 4 and 5, over data of eight bytes: "Alignment is tested before fit." A jmpl leaves rd untouched.
fn accesses_that_end() -> Vec<Edge<Old>> {
    let misaligned = [
        (LD, 1),
        (LD, 2),
        (LD, 3),
        (LDUH, 1),
        (LDSH, 7),
        (ST, 2),
        (STH, 1),
        // these do not fit either
        (LD, 9),
        (STH, -1),
    ];
    // those below the data base would fit modulo 2^32
    let unfit = [
        (LDUB, 8),
        (LDSB, -1),
        (LDUH, 8),
        (LDSH, -2),
        (LD, 8),
        (STB, 8),
        (STH, -2),
        (ST, -4),
    ];
    let with = |end, (op3, distance): (u32, i32)| {
        let address = DATA.wrapping_add_signed(distance);
        in_each_place(access(op3, 2, distance), 3, end, move |_| address)
    };
    let mut edges: Vec<_> = misaligned.into_iter().flat_map(|at| with(4, at)).collect();
    edges.extend(unfit.into_iter().flat_map(|at| with(5, at)));
    edges.extend(in_each_place(ASTRAY, 3, 4, |_| DATA + 2));
    edges
}

/// Areas of few bytes, at the data base and two bytes past it, where a word at DATA + 4 has two bytes before it.
fn small_areas() -> Vec<Edge<Old>> {
    let area = |base, length, word| {
        let bytes = [0x1A, 0x2B, 0x3C, 0x4D, 0x5E, 0x6F];
        let edge = old(&[word], BASE).with(1, DATA);
        edge.lent(base, bytes[..length].to_vec())
    };
    let loaded = |value| [(2, value), (PC, BASE + 4), (NPC, BASE + 8)];
    vec![
        area(DATA, 0, access(LDUB, 2, 0)).ends(5, DATA),
        area(DATA, 1, access(LDUB, 2, 0)).leaves(&loaded(0x1A)),
        area(DATA, 1, access(LDUH, 2, 0)).ends(5, DATA),
        area(DATA, 3, access(LD, 2, 0)).ends(5, DATA),
        area(DATA, 4, access(LD, 2, 0)).leaves(&loaded(0x1A2B_3C4D)),
        area(DATA + 2, 5, access(LD, 2, 4)).ends(5, DATA + 4),
        area(DATA + 2, 6, access(LD, 2, 4)).leaves(&loaded(0x3C4D_5E6F)),
        // modulo 2^32 the sum would be 2
        area(DATA + 2, 6, access(LD, 2, 0)).ends(5, DATA),
    ]
}

/// "0 to 65,536 bytes": the last four are read and written by every width, then a byte is asked for that is none.
fn last_bytes(past: u32) -> [u32; 8] {
    [
        access(LDUB, 2, 3),
        access(LDSB, 3, 3),
        access(LDUH, 4, 2),
        access(LD, 5, 0),
        access(ST, 6, 0),
        access(STH, 7, 2),
        access(STB, 1, 3),
        access(past, 2, 4),
    ]
}

/// What these words leave in both cores, where register 1 is 65,532 bytes past the data base. They end at the last.
fn over_last_bytes<Program>(edge: Edge<Program>, base: u32, length: usize) -> Edge<Program> {
    let mut data = vec![0x5A; length];
    data[65_532..65_536].copy_from_slice(&[0x81, 0x92, 0xA3, 0xB4]);
    let loaded = [(2, 0xB4), (3, 0xFFFF_FFB4), (4, 0xA3B4), (5, 0x8192_A3B4)];
    edge.lent(base, data)
        .with(1, base.wrapping_add(65_532))
        .with(6, 0xC0C1_C2C3)
        .with(7, 0xD0D1_D2D3)
        .steps(9)
        .leaves(&loaded)
        .stores(65_532, [0xC0, 0xC1, 0xD2, 0xFC])
        .ends(5, base.wrapping_add(65_536))
}

/// An area of 65,536 bytes across the top of the address space, and one of more.
fn old_last_bytes() -> Vec<Edge<Old>> {
    let of = |past, base, length| {
        over_last_bytes(old(&last_bytes(past), BASE), base, length)
            .leaves(&[(PC, BASE + 28), (NPC, BASE + 32)])
    };
    vec![of(STB, 0xFFFF_8000, 65_536), of(LDUB, 0, 65_552)]
}

pub fn old_edges() -> Vec<Edge<Old>> {
    let parts = [
        image_lengths(),
        images_left(),
        never_taken(),
        never_taken_with_annul(),
        words_that_end(),
        accesses_that_end(),
        small_areas(),
        old_last_bytes(),
    ];
    parts.into_iter().flatten().collect()
}

/// "a kind 7 whose first is not 2 or 3": no other end is said so. At record 2, and at 0.
fn ends_said() -> Vec<Edge<New>> {
    let address = 0x1234_5679;
    let at_2 = |first| new(&[[1, ADD, 0], [1, ADD, 0], [7, first, address]], &[]).from(2);
    let at_0 = |first| new(&[[7, first, address]], &[]);
    let others = [0, 1, 4, 5, 6, 7, 8, 9, 10, 0x102, 0x0300_0000, u32::MAX];
    let mut edges: Vec<_> = others.into_iter().map(|k| at_2(k).ends(7, 2)).collect();
    edges.extend([0, 1, 4, 5].map(|first| at_0(first).ends(7, 0)));
    edges.extend([2, 3].map(|first| at_2(first).ends(first, address)));
    edges.extend([2, 3].map(|first| at_0(first).ends(first, address)));
    edges
}

/// Kind 6 "seeks the lowest-numbered plain place of the held address": no slot place, held place or row of unknown kind.
fn sought() -> Vec<Edge<New>> {
    let (p, past) = (BASE + 8, BASE + 64);
    let row = |address: u32, kind, first| [address, address + 4, kind, first];
    let others = [
        row(p, 1, 3),
        row(p, 2, 4),
        row(p, 9, 5),
        row(p, 0x100, 6),
        row(p + 4, 0, 7),
    ];
    let before = |rows: &[[u32; 4]]| [&others[..], rows].concat();
    let go = |places: &[[u32; 4]], address| new(&[[6, 0, 0]], places).holding(address);
    let two = before(&[row(p, 0, 8), row(p, 0, 9)]);
    let lost = before(&[row(p, 0, u32::MAX)]);
    vec![
        go(&two, p).leaves(&[(RECORD, 8)]),
        go(&[row(p, 0, 9), row(p, 0, 8)], p).leaves(&[(RECORD, 9)]),
        // the next is not read
        go(&[[p, 0, 0, 9], row(p, 0, 8)], p).leaves(&[(RECORD, 9)]),
        go(&two, p + 4).leaves(&[(RECORD, 7)]),
        go(&others, p).ends(6, p),
        go(&[], p).ends(6, p),
        go(&others, past).ends(2, past),
        // a place counts wherever its address is
        go(&before(&[row(past, 0, 9)]), past).leaves(&[(RECORD, 9)]),
        go(&before(&[row(p + 1, 0, 9)]), p + 1).leaves(&[(RECORD, 9)]),
        // a tail is no place
        go(&two, p).cut(16, 0).leaves(&[(RECORD, 8)]),
        go(&two, p).cut(17, 0).ends(6, p),
        // a record past the last, at hand with the next step
        go(&lost, p).leaves(&[(RECORD, u32::MAX)]),
        go(&lost, p)
            .steps(9)
            .leaves(&[(RECORD, u32::MAX)])
            .ends(7, u32::MAX),
    ]
}

/// "ends 2 outside the image, 6 inside": images of one word, of less, and of nearly all addresses; record 1.
fn landings() -> Vec<Edge<New>> {
    let land = |length, distance: i32, end| {
        let address = BASE.wrapping_add_signed(distance);
        let edge = new(&[[1, ADD, 0], [6, 0, 0]], &[]).from(1);
        edge.image_of(length).holding(address).ends(end, address)
    };
    let inside = [
        (4, 0),
        (5, 0),
        (5, 1),
        (7, 3),
        (8, 4),
        (8, 1),
        (u32::MAX, -5),
    ];
    let past = [
        (4, 4),
        (4, 1),
        (4, 2),
        (4, 3),
        (5, 2),
        (7, 4),
        (8, 5),
        (8, 8),
    ];
    let below = [(4, -4), (4, -1), (64, -4), (u32::MAX, -4), (u32::MAX, -1)];
    let none = [(0, 0), (0, 4), (0, -4), (3, 0), (3, -1)];
    let outside = past.into_iter().chain(below).chain(none);
    let mut edges: Vec<_> = inside.into_iter().map(|(n, d)| land(n, d, 6)).collect();
    edges.extend(outside.map(|(n, d)| land(n, d, 2)));
    edges
}

/// Unfit words, at record 1: of kind 1 "illegal, call, jmpl or any Bicc but 0 without annul", which does nothing; of
/// kind 3 "anything but jmpl".
fn unfit_words() -> Vec<Edge<New>> {
    let of = |kind, word| new(&[[1, ADD, 0], [kind, word, BASE]], &[]).from(1);
    let mut edges = vec![];
    for branch in (0..32).map(|k| BN | (k / 2) << 25 | (k % 2 * ANNUL)) {
        edges.push(match branch {
            BN => of(1, branch).leaves(&[(RECORD, 2)]),
            _ => of(1, branch).ends(7, 1),
        });
    }
    edges.push(of(1, over(BN, 5)).leaves(&[(RECORD, 2)]));
    edges.extend([ILLEGAL, OTHER, CALL, JUMP, LINK].map(|word| of(1, word).ends(7, 1)));
    edges.extend([ILLEGAL, ADD, BN, BA, CALL, TA].map(|word| of(3, word).ends(7, 1)));
    edges.push(of(1, ADD_REGISTER | 1 << 5).ends(7, 1));
    edges
}

/// Words of kinds 1 and 3 that end the run, at record 1.
fn records_that_end() -> Vec<Edge<New>> {
    let of = |kind, word| {
        let edge = new(&[[1, ADD, 0], [kind, word, BASE]], &[]).from(1);
        edge.with(1, DATA)
    };
    let save = new(&[[1, SAVE, 0]], &[]).nested(6);
    let restore = new(&[[1, RESTORE, 0]], &[]).nested(0);
    vec![
        of(1, TA | 127).ends(1, 127),
        of(1, access(LD, 2, 2)).ends(4, DATA + 2),
        of(1, access(STH, 2, 9)).ends(4, DATA + 9),
        of(1, access(LDUB, 2, 8)).ends(5, DATA + 8),
        of(1, access(ST, 2, -4)).ends(5, DATA - 4),
        of(3, ASTRAY).ends(4, DATA + 2),
        save.ends(8, 6),
        restore.ends(9, 0),
    ]
}

/// "a record past the last, of unknown kind, ... a condition above 15". V is set, so that condition 15 fails.
fn bad_records() -> Vec<Edge<New>> {
    let three = |record| new(&[[1, ADD, 0]; 3], &[]).from(record);
    let kind = |kind| new(&[[1, ADD, 0], [kind, 2, 2]], &[]).from(1);
    let condition = |first| new(&[[1, ADD, 0], [4, first, 9]], &[]).from(1);
    let mut edges = vec![
        three(2).leaves(&[(1, register(1) + 1), (RECORD, 3)]),
        three(2)
            .steps(9)
            .leaves(&[(1, register(1) + 1), (RECORD, 3)])
            .ends(7, 3),
        new(&[], &[]).ends(7, 0),
        // a tail is no record
        three(2).cut(0, 1).ends(7, 2),
        three(1)
            .cut(0, 12)
            .leaves(&[(1, register(1) + 1), (RECORD, 2)]),
        condition(8).leaves(&[(RECORD, 9)]),
        condition(8).steps(9).leaves(&[(RECORD, 9)]).ends(7, 9),
        condition(0).leaves(&[(RECORD, 2)]),
        condition(15).leaves(&[(RECORD, 2)]),
    ];
    // of the last two, twelve times the number is 0 modulo 2^32
    let past = [3, u32::MAX, 0x4000_0000, 0x8000_0000];
    edges.extend(past.map(|record| three(record).ends(7, record)));
    edges.extend([0, 8, 9, 0x101, 0x0500_0000, u32::MAX].map(|k| kind(k).ends(7, 1)));
    edges.extend([16, 17, 24, 0x108, u32::MAX].map(|first| condition(first).ends(7, 1)));
    edges
}

/// Areas of 65,536 bytes at 0 and across the top of the address space, and one of more.
fn new_last_bytes() -> Vec<Edge<New>> {
    let of = |past, base, length| {
        let records = last_bytes(past).map(|word| [1, word, 0]);
        over_last_bytes(new(&records, &[]), base, length).leaves(&[(RECORD, 7)])
    };
    vec![
        of(LDUB, 0, 65_536),
        of(STB, 0xFFFF_8000, 65_536),
        of(STB, 0, 65_552),
    ]
}

pub fn new_edges() -> Vec<Edge<New>> {
    let parts = [
        ends_said(),
        sought(),
        landings(),
        unfit_words(),
        records_that_end(),
        bad_records(),
        new_last_bytes(),
    ];
    parts.into_iter().flatten().collect()
}

/// The edges with this reading's answers, as files of cases.
pub fn old_edges_file() -> Vec<u8> {
    file_of(old_edges(), |edge| old_run_case(edge.call()))
}

pub fn new_edges_file() -> Vec<u8> {
    file_of(new_edges(), |edge| new_run_case(edge.call()))
}

fn file_of<Program>(
    edges: Vec<Edge<Program>>,
    case: impl Fn(&Edge<Program>) -> Vec<u8>,
) -> Vec<u8> {
    let mut file = bytes([edges.len() as u32]);
    file.extend(edges.iter().flat_map(case));
    file
}
