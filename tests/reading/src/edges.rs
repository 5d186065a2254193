//! Calls of the translator at the edges of 01's table of answers, and inputs of the listing program: for every
//! refusal the last value that passes and the first that does not. Each has its answer, worked out by hand from 01 and 02.

use crate::files::{listing_case, translate_case};
use crate::random::TranslateCall;
use crate::translator::bytes;

pub const ADD: u32 = 0x8200_6001; // add 1 to register 1
const NOP: u32 = 0x0100_0000;
pub const TA: u32 = 0x91D0_2000; // ta 0
const TN: u32 = 0x81D0_2000; // tn 0: a Ticc that is never taken
pub const BA: u32 = 0x1080_0000;
const BE: u32 = 0x0280_0000;
pub const BN: u32 = 0x0080_0000;
pub const ANNUL: u32 = 0x2000_0000;
pub const CALL: u32 = 0x4000_0000;
const RETURN: u32 = 0x81C3_E008; // jmpl register 15, constant 8, to register 0
pub const LINK: u32 = 0x83C3_E008; // the same to register 1
const LINK_BY_REGISTER: u32 = 0x83C3_C002; // jmpl registers 15 and 2, to register 1
pub const ADD_REGISTER: u32 = 0x8200_4002; // add register 2 to register 1
const SLL: u32 = 0x8328_6000; // sll register 1 by 0
const SLL_REGISTER: u32 = 0x8328_4002; // sll register 1 by register 2
const TN_REGISTER: u32 = 0x81D0_0002; // tn of registers 0 and 2
pub const CONSTANT: u32 = 1 << 13;
const UMUL: u32 = 0x8250_4002; // umul of registers 1 and 2 to register 1
const WRY: u32 = 0x8180_4002; // wry of registers 1 and 2
const RDY: u32 = 0x8340_0000; // rdy to register 1
pub const SAVE: u32 = 0x9DE3_8001; // save of registers 14 and 1 to register 14
pub const RESTORE: u32 = 0x91EE_0001; // restore of registers 24 and 1 to register 8
pub const ILLEGAL: u32 = 0;
const UNIMP: u32 = 12; // as gcc puts it behind the call of a function that returns 12 bytes
pub const OTHER: u32 = 0x0040_0000; // illegal too, but its op2 is not 0

/// 01's listing.
const LISTED: [u32; 4] = [0x1080_0003, ADD, ILLEGAL, TA];

const PLACE: usize = 16;
const RECORD: usize = 12;

/// A call, and its answer: number, first, second.
pub struct Edge {
    pub call: TranslateCall,
    pub answer: (u32, u64, u64),
}

/// A branch of this kind over so many words.
pub fn over(branch: u32, words: i32) -> u32 {
    branch | (words as u32 & 0x3F_FFFF)
}

/// A call of an image at a base with room for 80 places and 160 records.
fn edge(words: &[u32], base: u32, entries: &[u32], answer: (u32, u64, u64)) -> Edge {
    Edge {
        call: TranslateCall {
            image: bytes(words.iter().copied()),
            base,
            entries: bytes(entries.iter().copied()),
            places_length: 80 * PLACE,
            records_length: 160 * RECORD,
        },
        answer,
    }
}

impl Edge {
    /// The image cut, or continued with zeros, to so many bytes.
    fn image_of(mut self, length: usize) -> Edge {
        self.call.image.resize(length, 0);
        self
    }

    /// The entry list cut, or continued with bytes that make a bad entry, to so many bytes.
    fn entries_of(mut self, length: usize) -> Edge {
        self.call.entries.resize(length, 0xFF);
        self
    }

    /// Lent buffers of so many bytes.
    fn lent(mut self, places: usize, records: usize) -> Edge {
        self.call.places_length = places;
        self.call.records_length = records;
        self
    }
}

/// Refusal 1. Accepted: a ta alone, one place and one record.
fn lengths() -> Vec<Edge> {
    let of = |length: usize, answer| edge(&[TA], 0, &[0], answer).image_of(length);
    let accepted = [4, 8, 12, 16_380, 16_384].map(|length| of(length, (0, 1, 1)));
    let refused = [0, 1, 2, 3, 5, 6, 7, 16_381, 16_385, 16_388]
        .map(|length| of(length, (1, length as u64, 0)));
    // 1 comes before all others, and with buffers of no bytes.
    let first = [
        edge(&[], 1, &[], (1, 0, 0)),
        edge(&[TA; 2], 3, &[2, 6], (1, 6, 0)).image_of(6),
        edge(&[], 0, &[0], (1, 0, 0)).lent(0, 0),
    ];
    accepted.into_iter().chain(refused).chain(first).collect()
}

/// Refusal 2.
fn bases() -> Vec<Edge> {
    let accepted =
        [0, 4, 0x8000_0000, 0xFFFF_FFFC].map(|base| edge(&[TA], base, &[base], (0, 1, 1)));
    let refused = [1, 2, 3, 0x8000_0002, 0xFFFF_FFFD, 0xFFFF_FFFE, 0xFFFF_FFFF]
        .map(|base| edge(&[TA], base, &[base & !3], (2, base as u64, 0)));
    // 2 comes before 3, 5 and 6.
    let first = [
        edge(&[TA], 2, &[], (2, 2, 0)),
        edge(&[TA], 2, &[0; 65], (2, 2, 0)),
        edge(&[TA], 2, &[2], (2, 2, 0)).lent(0, 0),
    ];
    accepted.into_iter().chain(refused).chain(first).collect()
}

/// Refusal 3, the count: each entry is a ta, so a list of so many has as many places and records. Tails are bytes
/// of an entry that would be bad.
fn entry_counts() -> Vec<Edge> {
    let base = 0x1000;
    let words = [TA; 65];
    let all: Vec<u32> = (0..65).map(|k| base + 4 * k).collect();
    let of =
        |length: usize, answer| edge(&words, base, &all[..length / 4], answer).entries_of(length);
    let accepted = [4, 5, 6, 7, 8, 252, 253, 254, 255, 256, 257, 258, 259]
        .map(|length| of(length, (0, length as u64 / 4, length as u64 / 4)));
    let refused = [0, 1, 2, 3, 260, 261, 263].map(|length| of(length, (3, 0, 0)));
    let others = [
        edge(&words, base, &[0; 1000], (3, 0, 0)),
        edge(&words, base, &[base; 64], (0, 1, 1)),
        edge(&words, base, &[base; 65], (3, 0, 0)),
        // 3 comes before 5 and 6.
        edge(&words, base, &[base; 65], (3, 0, 0)).lent(0, 0),
    ];
    accepted.into_iter().chain(refused).chain(others).collect()
}

/// Refusal 3, the entries: an image of four words, each a ta, with its second word at `base + 4`.
fn entries_around(base: u32) -> Vec<Edge> {
    let at = |distance: i32, answer| {
        edge(
            &[TA; 4],
            base,
            &[base.wrapping_add(distance as u32)],
            answer,
        )
    };
    let accepted = [0, 4, 8, 12].map(|distance| at(distance, (0, 1, 1)));
    let refused = [
        -16,
        -4,
        -3,
        -2,
        -1,
        1,
        2,
        3,
        5,
        11,
        13,
        14,
        15,
        16,
        17,
        20,
        i32::MIN,
    ]
    .map(|distance| at(distance, (3, 1, 0)));
    accepted.into_iter().chain(refused).collect()
}

/// An image of one word: that word as entry and what lies around it; the place past it has a kind 7.
fn one_word() -> Vec<Edge> {
    let (base, past) = (0x1000, 0x1004);
    let ta = |entries: &[u32], answer| edge(&[TA], base, entries, answer);
    let add = |places, records, answer| edge(&[ADD], base, &[base], answer).lent(places, records);
    let beside = [base - 4, base + 1, base + 2, base + 3, past];
    let mut edges: Vec<Edge> = beside.map(|entry| ta(&[entry], (3, 1, 0))).into();
    edges.extend([
        ta(&[base], (0, 1, 1)),
        ta(&[base, past], (3, 2, 0)),
        ta(&[past, base], (3, 1, 0)),
        // 1 and 5, then one 7
        add(2 * PLACE, 3 * RECORD, (0, 2, 3)),
        add(2 * PLACE - 1, 3 * RECORD, (5, past as u64, 0)),
        add(2 * PLACE, 3 * RECORD - 1, (6, 3, 0)),
    ]);
    edges
}

/// Refusal 3, the position: lists with exactly one bad entry.
fn one_bad_entry() -> Vec<Edge> {
    let words = [TA; 4];
    let one_bad = |count: usize, position: usize, bad| {
        let mut entries = vec![12; count];
        entries[position - 1] = bad;
        edge(&words, 0, &entries, (3, position as u64, 0))
    };
    let positions = [
        (2, 1),
        (2, 2),
        (3, 2),
        (63, 63),
        (64, 1),
        (64, 2),
        (64, 32),
        (64, 63),
        (64, 64),
    ];
    let outside = positions.map(|(count, position)| one_bad(count, position, 16));
    let misaligned = positions.map(|(count, position)| one_bad(count, position, 2));
    // A tail is no entry, whatever its bytes; and 3 comes before 5 and 6.
    let tails = [1, 2, 3].map(|tail| one_bad(2, 2, 16).entries_of(8 + tail));
    let first = [one_bad(2, 2, 16).lent(0, 0)];
    outside
        .into_iter()
        .chain(misaligned)
        .chain(tails)
        .chain(first)
        .collect()
}

/// Refusal 3, 02, N8: of several bad entries the first in list order is named, whichever way it is bad.
fn several_bad_entries() -> Vec<Edge> {
    let words = [TA; 4];
    let (misaligned, outside) = (2, 16);
    // 64 entries: good ones, a bad one at a position, and others bad, from there on or at the list's end alone.
    let list = |position: usize, bad: u32, others: u32, from: usize| {
        let mut entries = vec![12; 64];
        entries[position - 1] = bad;
        entries[from..].fill(others);
        edge(&words, 0, &entries, (3, position as u64, 0))
    };
    let mut edges = vec![];
    for (position, from) in [(1, 1), (1, 63), (2, 2), (2, 63), (63, 63)] {
        edges.push(list(position, misaligned, outside, from));
        edges.push(list(position, outside, misaligned, from));
    }
    let base = 0xFFFF_FFF8;
    edges.extend([
        edge(&words, 0, &[16, 0, 2], (3, 1, 0)),
        edge(&words, 0, &[0, 2, 16], (3, 2, 0)),
        edge(&words, 0, &[0, 16, 2], (3, 2, 0)),
        edge(&words, 0, &[12, 18, 2, 16], (3, 2, 0)),
        edge(&words, 0, &[0, 4, 8, 13, 12, 0xFFFF_FFFC], (3, 4, 0)),
        edge(&words, 0, &[16; 64], (3, 1, 0)),
        edge(&words, base, &[base, 4, 8, base + 2], (3, 3, 0)),
        edge(&words, base, &[base, 4, base + 2, 8], (3, 3, 0)),
    ]);
    edges
}

/// Refusal 3, 02, N8: "a bad count still gives 0", whatever the entries are.
fn bad_counts_of_bad_entries() -> Vec<Edge> {
    let words = [TA; 4];
    let list = |positions: &[usize], bad| {
        let mut entries = vec![12; 65];
        positions.iter().for_each(|at| entries[at - 1] = bad);
        edge(&words, 0, &entries, (3, 0, 0))
    };
    vec![
        list(&[1], 2),
        list(&[1], 16),
        list(&[33], 2),
        list(&[65], 2),
        list(&[65], 16),
        list(&[2, 64], 16),
        edge(&words, 0, &[2; 65], (3, 0, 0)),
        edge(&words, 0, &[16; 65], (3, 0, 0)).entries_of(263),
    ]
}

/// Refusal 4: a jmpl to register 0 and the word that it holds.
fn held(word: u32, answer: (u32, u64, u64)) -> Edge {
    let base = 0x2000;
    edge(&[RETURN, word], base, &[base], answer)
}

/// Its 32 branches: "any Bicc but 0 without annul". That one has records 3, 5 and 1, 6.
fn held_branches() -> Vec<Edge> {
    (0..32)
        .map(|k| BN | (k / 2) << 25 | (k % 2 * ANNUL))
        .map(|branch| {
            held(
                branch,
                if branch == BN {
                    (0, 2, 4)
                } else {
                    (4, 0x2004, 0)
                },
            )
        })
        .collect()
}

/// Bicc 0 in a place that is not held has one 5, to plain n or, with annul, to plain n + 4, and no place for its target.
fn never_taken() -> Vec<Edge> {
    let of = |words: &[u32], answer| edge(words, 0, &[0], answer);
    let mut edges = vec![];
    for branch in [BN, over(BN, 5)] {
        let annulling = branch | ANNUL;
        edges.extend([
            // plain 0, plain 4; with annul plain 0, plain 8
            of(&[branch, TA], (0, 2, 2)),
            of(&[annulling, ILLEGAL, TA], (0, 2, 2)),
            // plain 0, (4, 12), plain 12; with annul plain 16
            of(&[over(BA, 3), branch, ADD, TA], (0, 3, 3)),
            of(&[over(BA, 3), annulling, ADD, ADD, TA], (0, 3, 3)),
            // plain 4, plain 0, plain 8, held 4: 5, then 3 and 5, 1, then 1 and 6
            edge(&[RETURN, branch, TA], 0, &[4, 0], (0, 4, 6)),
            edge(&[RETURN, annulling, TA], 0, &[4, 0], (4, 4, 0)),
        ]);
    }
    edges
}

fn held_words() -> Vec<Edge> {
    let forbidden = [CALL, CALL | 1, RETURN, LINK].map(|word| held(word, (4, 0x2004, 0)));
    let accepted = [ADD, TN, over(BN, 5)].map(|word| held(word, (0, 2, 4)));
    // records 3, 5 and one 1, or one 7; outside the image too
    let ending = [TA, ILLEGAL].map(|word| held(word, (0, 2, 3)));
    let others = [
        edge(&[RETURN], 0x2000, &[0x2000], (0, 2, 3)),
        // The same branch is plain too; a branch in the slot of a branch to the held word.
        edge(&[RETURN, BA], 0, &[4, 0], (4, 4, 0)),
        edge(&[over(BA, 3), RETURN, ADD, BA], 0, &[0], (4, 12, 0)),
        edge(&[over(BA, 3), RETURN, BA, ADD], 0, &[0], (0, 3, 5)),
    ];
    let words = forbidden.into_iter().chain(accepted).chain(ending);
    words.chain(others).collect()
}

/// Refusals 4 and 5: the first event decides, and 6 comes last.
fn first_events() -> Vec<Edge> {
    // plain 0, held 4 (forbidden), plain 8
    let one = |room: usize, records: usize, answer| {
        edge(&[LINK, BA, TA], 0, &[0], answer).lent(room * PLACE, records)
    };
    // plain 0, plain 12, held 4 (forbidden), plain 16; plain 20 would come after held 4 is handled
    let two = |room: usize, answer| {
        edge(&[RETURN, BA, TA, ADD, ADD, TA], 0, &[0, 12], answer).lent(room * PLACE, 0)
    };
    vec![
        one(0, 0, (5, 0, 0)),
        one(0, 1920, (5, 0, 0)),
        one(1, 0, (5, 4, 0)),
        one(1, 1920, (5, 4, 0)),
        one(2, 0, (5, 8, 0)),
        one(2, 1920, (5, 8, 0)),
        one(3, 0, (4, 4, 0)),
        one(3, 1920, (4, 4, 0)),
        two(2, (5, 4, 0)),
        two(3, (5, 16, 0)),
        two(4, (4, 4, 0)),
        two(5, (4, 4, 0)),
    ]
}

/// 02, N6: "for every Bicc but 0 and 8 the plain place is named before (n, t)". Each of the 32 branches at 0 to 12,
/// with adds up to a ta and a table that is too short just where the order tells: with annul for the first or second of
/// the two followers, without it, where both have one address, for the first's or second's own follower.
fn first_named() -> Vec<Edge> {
    let of = |branch: u32, room: usize, address: u64| {
        let words = [over(branch, 3), ADD, ADD, ADD, TA];
        edge(&words, 0, &[0], (5, address, 0)).lent(room * PLACE, 160 * RECORD)
    };
    let mut edges = vec![
        of(BN, 1, 4),
        of(BN | ANNUL, 1, 8),
        of(BA, 1, 4),
        of(BA | ANNUL, 1, 12),
    ];
    for branch in (0..16).filter(|k| k % 8 != 0).map(|k| BN | k << 25) {
        // plain 0, plain 4, (4, 12), plain 8, plain 12; with annul plain 0, plain 8, (4, 12)
        edges.extend([of(branch, 3, 8), of(branch, 4, 12)]);
        edges.extend([of(branch | ANNUL, 1, 8), of(branch | ANNUL, 2, 4)]);
    }
    edges
}

/// The same from a slot place (4, 16), at the top of the address space, and where a follower is no new place.
fn first_named_elsewhere() -> Vec<Edge> {
    let room = |words: &[u32], base, places, answer| {
        edge(words, base, &[base], answer).lent(places * PLACE, 160 * RECORD)
    };
    // plain 0, (4, 16), plain 16, (16, 24), plain 20; with annul plain 20 before (16, 24), and plain 24
    let slot = |branch| [over(BA, 4), over(branch, 5), ILLEGAL, ILLEGAL, ADD, ADD, TA];
    // the top word, plain 0 or, with annul, plain 4, and (0, 8)
    let top = 0xFFFF_FFFC;
    let across = |branch| [over(branch, 3), ADD, ADD, ADD, TA];
    // to n + 4: plain 4 alone; with annul plain 8 and plain 4
    let near = |branch| [over(branch, 2), ADD, TA];
    // to itself: plain 0, plain 4, (4, 0), plain 8; with annul plain 0, plain 8, (4, 0)
    let itself = |branch| [branch, ADD, TA];
    vec![
        room(&slot(BE), 0, 3, (5, 16, 0)),
        room(&slot(BE), 0, 4, (5, 20, 0)),
        room(&slot(BE | ANNUL), 0, 2, (5, 20, 0)),
        room(&slot(BE | ANNUL), 0, 3, (5, 16, 0)),
        room(&across(BE), top, 3, (5, 4, 0)),
        room(&across(BE | ANNUL), top, 1, (5, 4, 0)),
        room(&across(BE | ANNUL), top, 2, (5, 0, 0)),
        room(&near(BE), 0, 2, (5, 8, 0)),
        room(&near(BE), 0, 3, (0, 3, 5)),
        room(&near(BE | ANNUL), 0, 1, (5, 8, 0)),
        room(&near(BE | ANNUL), 0, 2, (5, 4, 0)),
        room(&near(BE | ANNUL), 0, 3, (0, 3, 5)),
        room(&itself(BE), 0, 3, (5, 8, 0)),
        room(&itself(BE), 0, 4, (0, 4, 7)),
        room(&itself(BE | ANNUL), 0, 2, (5, 4, 0)),
        room(&itself(BE | ANNUL), 0, 3, (0, 3, 5)),
        // the other one is an entry: only plain 8 is new, or only (4, 12)
        edge(&near(BE | ANNUL), 0, &[0, 4], (5, 8, 0)).lent(2 * PLACE, 0),
        edge(&[over(BE | ANNUL, 3), ADD, TA, TA], 0, &[0, 8], (5, 4, 0)).lent(2 * PLACE, 0),
    ]
}

/// Refusals 4 and 5 by 02's order: the side that is not taken is handled first, of places that are equally far.
fn first_events_of_branches() -> Vec<Edge> {
    let room = |words: &[u32], places: usize, answer| {
        edge(words, 0, &[0], answer).lent(places * PLACE, 160 * RECORD)
    };
    // a forbidden word on both sides
    let both = |branch| [over(branch, 4), NOP, RETURN, BA, RETURN, BA];
    let in_slots = |branch| [over(branch, 4), RETURN, RETURN, BA, BA];
    // on the side not taken: held 12, and words up to 24 on the other
    let left = |branch| [over(branch, 4), ADD, RETURN, BA, ADD, ADD, TA];
    // on the side taken: held 28, and words up to 20 on the other
    let taken = |branch| [over(branch, 6), ADD, ADD, ADD, ADD, TA, RETURN, BA];
    vec![
        room(&both(BE), 80, (4, 12, 0)),
        room(&both(BE | ANNUL), 80, (4, 12, 0)),
        room(&in_slots(BE), 80, (4, 8, 0)),
        room(&in_slots(BE | ANNUL), 80, (4, 12, 0)),
        // plain 0, plain 4, (4, 16), plain 8, plain 16, held 12, plain 20; then held 12 is handled
        room(&left(BE), 5, (5, 12, 0)),
        room(&left(BE), 6, (5, 20, 0)),
        room(&left(BE), 7, (4, 12, 0)),
        // plain 0, plain 8, (4, 16), held 12, plain 16; then held 12 is handled
        room(&left(BE | ANNUL), 3, (5, 12, 0)),
        room(&left(BE | ANNUL), 4, (5, 16, 0)),
        room(&left(BE | ANNUL), 5, (4, 12, 0)),
        // plain 0, plain 4, (4, 24), plain 8, plain 24, plain 12, held 28, plain 16; then held 28 is handled
        room(&taken(BE), 6, (5, 28, 0)),
        room(&taken(BE), 7, (5, 16, 0)),
        room(&taken(BE), 8, (4, 28, 0)),
        // plain 0, plain 8, (4, 24), plain 12, plain 24, plain 16, held 28, plain 20; then held 28 is handled
        room(&taken(BE | ANNUL), 6, (5, 28, 0)),
        room(&taken(BE | ANNUL), 7, (5, 20, 0)),
        room(&taken(BE | ANNUL), 8, (4, 28, 0)),
    ]
}

/// 02, N1: "bits 31, 30 and 24 to 22 all 0". A call and a jmpl that links, with each of the 32 bits set at p + 8, and
/// with all but those five: the table has no room left just where p + 12, or else what comes after it, is named.
fn record_calls_by_bit() -> Vec<Edge> {
    let five = [31, 30, 24, 23, 22];
    // plain 0, (4, 16), plain 8; then plain 12, or plain 16
    let call = |word, address: u64| {
        edge(&[CALL | 4, NOP, word, TA, TA], 0, &[0], (5, address, 0)).lent(3 * PLACE, 0)
    };
    // plain 0, plain 16, held 4, plain 8; then plain 12, or plain 20
    let jump = |word, address: u64| {
        let words = [LINK, NOP, word, TA, ADD, TA];
        edge(&words, 0, &[0, 16], (5, address, 0)).lent(4 * PLACE, 0)
    };
    let mut edges = vec![
        call(0x3E3F_FFFF, 12),
        jump(0x3E3F_FFFF, 12),
        call(0, 12),
        jump(0, 12),
    ];
    for bit in 0..32 {
        let set = five.contains(&bit);
        edges.push(call(1 << bit, if set { 16 } else { 12 }));
        edges.push(jump(1 << bit, if set { 20 } else { 12 }));
    }
    edges
}

/// The places of calls that return records, and tables that are one place short at p + 12.
fn record_calls() -> Vec<Edge> {
    let room = |words: &[u32], places, answer| {
        edge(words, 0, &[0], answer).lent(places * PLACE, 160 * RECORD)
    };
    let jump = |rd: u32| [0x81C3_E008 | rd << 25, NOP, UNIMP, TA];
    // ba 24; a word in its slot; 12 and 16 are p + 8 and p + 12, 32 and 36 would be n + 8 and n + 12
    let slot = |word, after, far| [over(BA, 6), word, NOP, after, TA, TA, NOP, NOP, far, TA];
    vec![
        // plain 0, (4, 16), plain 8, plain 12, plain 16
        room(&[CALL | 4, NOP, UNIMP, TA, TA], 5, (0, 5, 7)),
        room(&[CALL | 4, NOP, UNIMP, TA, TA], 4, (5, 16, 0)),
        room(&[CALL | 4, NOP, OTHER, TA, TA], 4, (0, 4, 6)),
        // to p + 12: plain 0, (4, 12), plain 8, plain 12
        room(&[CALL | 3, NOP, UNIMP, TA], 4, (0, 4, 6)),
        room(&[CALL | 3, NOP, UNIMP, TA], 3, (5, 12, 0)),
        // plain 0, held 4, plain 8, plain 12; with rd 0 the first two
        room(&jump(1), 4, (0, 4, 6)),
        room(&jump(1), 3, (5, 12, 0)),
        room(&jump(15), 3, (5, 12, 0)),
        room(&jump(16), 3, (5, 12, 0)),
        room(&jump(31), 3, (5, 12, 0)),
        room(&jump(0), 2, (0, 2, 4)),
        room(&[LINK, NOP, OTHER, TA], 3, (0, 3, 5)),
        // plain 0, (4, 24), (24, 20), plain 12, plain 16, plain 20
        room(&slot(CALL | 4, UNIMP, NOP), 6, (0, 6, 8)),
        room(&slot(CALL | 4, UNIMP, NOP), 4, (5, 16, 0)),
        room(&slot(CALL | 4, TA, UNIMP), 5, (0, 5, 7)),
        room(&slot(CALL | 4, TA, UNIMP), 4, (5, 20, 0)),
        // plain 0, (4, 24), held 24, plain 12, plain 16; with rd 0 the first three
        room(&slot(LINK, UNIMP, NOP), 5, (0, 5, 7)),
        room(&slot(LINK, UNIMP, NOP), 4, (5, 16, 0)),
        room(&slot(LINK, TA, UNIMP), 4, (0, 4, 6)),
        room(&slot(RETURN, UNIMP, UNIMP), 3, (0, 3, 5)),
        // p + 12 or p + 8 is an entry
        edge(&jump(1), 0, &[0, 12], (5, 8, 0)).lent(3 * PLACE, 0),
        edge(&jump(1), 0, &[0, 12], (0, 4, 6)).lent(4 * PLACE, 6 * RECORD),
        edge(&jump(1), 0, &[0, 8], (5, 12, 0)).lent(3 * PLACE, 0),
        // the last word is at p + 8, and p + 12 outside; at p + 4; at p
        room(&[LINK, NOP, UNIMP], 4, (0, 4, 6)),
        room(&[LINK, NOP, UNIMP], 3, (5, 12, 0)),
        room(&[CALL | 4, NOP, UNIMP], 5, (0, 5, 7)),
        room(&[LINK, NOP], 3, (0, 3, 5)),
        room(&[CALL | 4, NOP], 4, (0, 4, 6)),
        room(&[LINK], 3, (0, 3, 4)),
        room(&[CALL | 4], 3, (0, 3, 4)),
    ]
}

/// The same with sums across the top of the address space: p + 4, p + 8 or p + 12 is 0.
fn record_calls_across_the_top() -> Vec<Edge> {
    let jump = [LINK, NOP, UNIMP, TA];
    let of = |words: &[u32], base: u32, places: usize, answer| {
        edge(words, base, &[base], answer).lent(places * PLACE, 160 * RECORD)
    };
    let mut edges = vec![];
    for base in [0xFFFF_FFFC, 0xFFFF_FFF8, 0xFFFF_FFF4, 0xFFFF_FFF0u32] {
        let past = base.wrapping_add(12) as u64;
        edges.push(of(&jump, base, 4, (0, 4, 6)));
        edges.push(of(&jump, base, 3, (5, past, 0)));
        // outside, and p + 8 outside
        edges.push(of(&jump[..3], base, 3, (5, past, 0)));
        edges.push(of(&jump[..2], base, 3, (0, 3, 5)));
        // (p + 4, p + 16) and plain p + 16
        edges.push(of(&[CALL | 4, NOP, UNIMP, TA, TA], base, 3, (5, past, 0)));
        edges.push(of(&[CALL | 4, NOP, UNIMP, TA, TA], base, 5, (0, 5, 7)));
    }
    edges
}

/// Refusal 4 where only p + 12 leads: plain 0, (4, 24), plain 8, plain 12, plain 24, held 16 (forbidden).
fn forbidden_past_a_call() -> Vec<Edge> {
    let of = |word, places: usize, answer| {
        let words = [CALL | 6, NOP, word, RETURN, BA, NOP, TA];
        edge(&words, 0, &[0], answer).lent(places * PLACE, 160 * RECORD)
    };
    vec![
        of(UNIMP, 80, (4, 16, 0)),
        of(UNIMP, 6, (4, 16, 0)),
        of(UNIMP, 5, (5, 16, 0)),
        of(OTHER, 80, (0, 4, 6)),
    ]
}

/// A word that does not transfer, before a ta: known it has records 1 and 5, and the ta one more; else it has a kind 7.
fn known_or_not(word: u32, known: bool) -> Edge {
    let answer = if known { (0, 2, 3) } else { (0, 1, 1) };
    edge(&[word, TA], 0, &[0], answer)
}

/// 02, N2: "a word with an unused bit set" is illegal. Each bit of the second operand, and bit 29 of a Ticc.
fn unused_bits() -> Vec<Edge> {
    // the word, and how many low bits its operand has
    let operands = [
        (ADD_REGISTER, 5),
        (ADD, 13),
        (SLL_REGISTER, 5),
        (SLL, 5),
        (TN_REGISTER, 5),
        (TN, 7),
    ];
    let mut edges = vec![];
    for (word, used) in operands {
        edges.extend((0..13).map(|bit| known_or_not(word | 1 << bit, bit < used)));
    }
    for word in [TN, TN_REGISTER] {
        edges.push(known_or_not(word, true));
        edges.push(known_or_not(word | 1 << 29, false));
    }
    // a ta has one record either way, kind 1 or kind 7
    edges.push(edge(&[TA, TA], 0, &[0], (0, 1, 1)));
    edges.push(edge(&[TA | 1 << 29, TA], 0, &[0], (0, 1, 1)));
    edges
}

/// The same with one bit of 12 to 5 for every other form of op 2 and 3, with a register and with a constant: only srl and
/// sra have the bit unused with a constant too. A sethi has none.
fn unused_bits_by_form() -> Vec<Edge> {
    let arithmetic = (0..9).chain([12]).flat_map(|op3| [op3, op3 + 16]);
    let op_2 = arithmetic.map(|op3| 2 << 30 | op3 << 19);
    let op_3 = [0, 1, 2, 4, 5, 6, 9, 10].map(|op3| 3 << 30 | op3 << 19);
    let shifts = [38, 39].map(|op3| 2 << 30 | op3 << 19);
    let mut edges = vec![];
    for (position, word) in op_2.chain(op_3).chain(shifts).enumerate() {
        let bit = 1 << (5 + position % 8);
        let by_constant = !shifts.contains(&word);
        edges.push(known_or_not(word, true));
        edges.push(known_or_not(word | bit, false));
        edges.push(known_or_not(word | bit | CONSTANT, by_constant));
    }
    edges.extend((5..13).map(|bit| known_or_not(NOP | 1 << bit, true)));
    edges
}

/// A jmpl with an unused bit set: as held word, where a known one is refused with 4, it has one kind 7; by itself it holds
/// nothing and links nothing, also before an unimp. With a constant it has no unused bit.
fn unused_bits_of_jmpl() -> Vec<Edge> {
    let mut edges = vec![
        held(LINK_BY_REGISTER, (4, 0x2004, 0)),
        edge(&[LINK_BY_REGISTER, ADD, UNIMP, TA], 0, &[0], (0, 4, 6)),
    ];
    for bit in 5..13 {
        let stray = LINK_BY_REGISTER | 1 << bit;
        edges.push(held(stray, (0, 2, 3)));
        edges.push(held(LINK | 1 << bit, (4, 0x2004, 0)));
        edges.push(edge(&[stray, ADD, UNIMP, TA], 0, &[0], (0, 1, 1)));
        // in the slot of a branch: plain 0 and (4, 12), one kind 7
        edges.push(edge(&[over(BA, 3), stray, ADD, TA], 0, &[0], (0, 2, 2)));
    }
    // a held Ticc 8 with bit 29: one kind 7
    edges.push(held(TA | 1 << 29, (0, 2, 3)));
    edges
}

/// 02, N4: the four products and wry, with each bit of the second operand, and rdy, which has none: "illegal, as is rdy
/// with any of bits 13 to 0 set". Rd and rs1 of 0 and of others.
fn products_and_y() -> Vec<Edge> {
    let of = |op3: u32| 2 << 30 | op3 << 19;
    let mut edges = vec![];
    for word in [10, 11, 26, 27, 48].map(of) {
        edges.push(known_or_not(word, true));
        edges.extend((0..13).map(|bit| known_or_not(word | 1 << bit, bit < 5)));
        edges.extend((5..13).map(|bit| known_or_not(word | CONSTANT | 1 << bit, true)));
        edges.push(known_or_not(word | 31 << 14, true));
    }
    // every product has a rd, a wry none
    edges.extend([10, 11, 26, 27].map(|op3| known_or_not(of(op3) | 31 << 25, true)));
    edges.extend((25..30).map(|bit| known_or_not(of(48) | 1 << bit, false)));
    edges.push(known_or_not(of(40), true));
    edges.extend((0..19).map(|bit| known_or_not(of(40) | 1 << bit, false)));
    edges.extend((25..30).map(|bit| known_or_not(of(40) | 1 << bit, true)));
    // beside them: divisions, mulscc, reads and writes of PSR, WIM and TBR, and op3 that V8 leaves out
    let beside = [9, 13, 14, 15, 25, 29, 30, 31, 36, 41, 42, 43, 49, 50, 51];
    edges.extend(beside.map(|op3| known_or_not(of(op3), false)));
    edges
}

/// The same words in delay slots: of a jmpl, where they have records 1 and 6, or one 7; of a branch, in a slot place.
fn products_and_y_in_slots() -> Vec<Edge> {
    let in_slot = |word, answer| edge(&[over(BA, 3), word, ADD, TA], 0, &[0], answer);
    let mut edges = vec![];
    for word in [UMUL, UMUL | 1 << 19, UMUL | 1 << 23, WRY, RDY] {
        edges.push(held(word, (0, 2, 4)));
        // plain 0, (4, 12), plain 12: one 5, then 1 and 5, then one 1
        edges.push(in_slot(word, (0, 3, 4)));
    }
    // with an unused bit, with a rd, with a rs1: one kind 7
    for word in [UMUL | 1 << 5, WRY | 1 << 25, RDY | 15 << 14, RDY | 1] {
        edges.push(held(word, (0, 2, 3)));
        edges.push(in_slot(word, (0, 2, 2)));
    }
    edges
}

/// 02, N11: "Translation treats them as words that don't transfer." Save and restore with each bit of the second operand,
/// of rs1 and of rd, with a register and with a constant.
fn save_and_restore() -> Vec<Edge> {
    let of = |op3: u32| 2 << 30 | op3 << 19;
    let mut edges = vec![];
    for word in [60, 61].map(of) {
        edges.push(known_or_not(word, true));
        edges.push(known_or_not(word | CONSTANT, true));
        edges.extend((0..13).map(|bit| known_or_not(word | 1 << bit, bit < 5)));
        edges.extend((0..13).map(|bit| known_or_not(word | CONSTANT | 1 << bit, true)));
        let registers = (14..19).chain(25..30);
        edges.extend(registers.map(|bit| known_or_not(word | 1 << bit, true)));
    }
    // beside them: rett, flush, and op3 that V8 leaves to coprocessors or out
    edges.extend([55, 57, 59, 62, 63].map(|op3| known_or_not(of(op3), false)));
    // with op 3: no load or store of these
    edges.extend([60, 61].map(|op3| known_or_not(of(op3) | 1 << 30, false)));
    edges
}

/// The same words in delay slots, as compiled functions have them: held by a jmpl, with records 1 and 6; of a call and of a
/// branch, in slot places; and more saves than there are windows, which is no matter of the translator's.
fn save_and_restore_in_slots() -> Vec<Edge> {
    let in_slot = |word, answer| edge(&[over(BA, 3), word, ADD, TA], 0, &[0], answer);
    let mut edges = vec![];
    for word in [SAVE, RESTORE] {
        edges.push(held(word, (0, 2, 4)));
        edges.push(held(word | 1 << 12, (0, 2, 3)));
        // plain 0, (4, 12), plain 12: one 5, then 1 and 5, then one 1
        edges.push(in_slot(word, (0, 3, 4)));
        edges.push(in_slot(word | 1 << 5, (0, 2, 2)));
        // plain 0, (4, 16), plain 8, plain 16: 2 and 5, 1 and 5, one 1, one 1
        edges.push(edge(&[CALL | 4, word, TA, ILLEGAL, TA], 0, &[0], (0, 4, 6)));
        // every one of nine has records 1 and 5
        let nine = [vec![word; 9], vec![TA]].concat();
        edges.push(edge(&nine, 0, &[0], (0, 10, 19)));
    }
    // a routine: save, call, nop, ret, restore; plain 0, plain 4, (8, 0), plain 12, held 16
    let ret = 0x81C7_E008; // jmpl register 31, constant 8, to register 0
    let routine = [SAVE, CALL | 0x3FFF_FFFF, NOP, ret, RESTORE];
    edges.push(edge(&routine, 0, &[0], (0, 5, 10)));
    edges.push(edge(&routine, 0, &[0], (5, 16, 0)).lent(4 * PLACE, 160 * RECORD));
    edges
}

/// Refusals 5 and 6 on 01's listing, which has three places and four records.
fn short_buffers() -> Vec<Edge> {
    let lend = |places, records, answer| edge(&LISTED, 0, &[0], answer).lent(places, records);
    let tables = [
        (0, 0),
        (1, 0),
        (15, 0),
        (16, 4),
        (31, 4),
        (32, 12),
        (46, 12),
        (47, 12),
    ];
    let no_place = tables.map(|(length, address)| lend(length, 48, (5, address, 0)));
    let neither = tables.map(|(length, address)| lend(length, 47, (5, address, 0)));
    let no_record = [0, 1, 11, 12, 35, 36, 46, 47].map(|length| lend(48, length, (6, 4, 0)));
    let tail = [0, 47].map(|length| lend(63, length, (6, 4, 0)));
    let accepted = [(48, 48), (49, 48), (63, 59), (64, 60), (48, 49), (101, 103)]
        .map(|(places, records)| lend(places, records, (0, 3, 4)));
    let others = [
        lend(0, 0, (5, 0, 0)),
        // An entry is a place like any other; a repeat adds none.
        edge(&LISTED, 0, &[12, 8], (5, 8, 0)).lent(PLACE, 160 * RECORD),
        edge(&LISTED, 0, &[12, 8], (0, 2, 2)).lent(2 * PLACE, 2 * RECORD),
        edge(&LISTED, 0, &[12, 12], (0, 1, 1)).lent(PLACE, RECORD),
    ];
    let short = no_place.into_iter().chain(neither).chain(no_record);
    short.chain(tail).chain(accepted).chain(others).collect()
}

/// So many words, the first illegal and the others be to it, from the second on: a slot (p, 0) and a plain place for
/// every word, the word past the end included, but no slot for the first two; and (0, 0) and plain 0. Of 4,096 words
/// they are 8,193, and the last two are at the image's end.
fn branches_to_the_first(count: usize) -> Vec<u32> {
    let mut words = vec![ILLEGAL];
    words.extend((1..count as i32).map(|k| over(BE, -k)));
    words
}

/// The same with an add as the last word: one place fewer, the last a plain one at the image's end.
fn with_an_add(count: usize) -> Vec<u32> {
    let mut words = branches_to_the_first(count);
    words[count - 1] = ADD;
    words
}

/// Refusal 5, "or is the 8,193rd". The records of 8,192 places: two for each, but one for plain 0, (0, 0) and the
/// place past the end.
fn most_places() -> Vec<Edge> {
    let base = 0x4000_0000;
    let entry = [base + 4];
    let (past, last) = (base as u64 + 16_384, base as u64 + 16_380);
    let records = 2 * 8_192 - 3;
    let room = records * RECORD;
    let too_many = |answer| edge(&branches_to_the_first(4096), base, &entry, answer);
    let most = |answer| edge(&with_an_add(4096), base, &entry, answer);
    vec![
        too_many((5, past, 0)).lent(8_194 * PLACE, 0),
        too_many((5, past, 0)).lent(8_192 * PLACE, 16_384 * RECORD),
        most((5, past, 0)).lent(8_192 * PLACE - 1, room),
        most((5, last, 0)).lent(8_191 * PLACE - 1, room),
        most((6, records as u64, 0)).lent(8_192 * PLACE, room - 1),
        most((0, 8_192, records as u64)).lent(8_193 * PLACE + 5, room + 7),
    ]
}

/// Bases that wrap, and transfers across the top of the address space in both directions.
fn across_the_top() -> Vec<Edge> {
    let base = 0xFFFF_FFF8;
    let mut edges = vec![
        // plain, plain (a pair whose next is p + 4), plain 0
        edge(&[over(BA, 2), ADD, TA], base, &[base], (0, 3, 4)),
        // plain, slot to 4, plain 0, plain 4
        edge(&[CALL | 3, ADD, TA, TA], base, &[base], (0, 4, 6)),
        // plain 0, plain 4, slot 4 to the top word, plain 8, the top word
        edge(&[TA, over(BE, -1), ADD, TA], base + 4, &[0], (0, 5, 8)),
        // plain 0, slot 4, and far outside
        edge(&[over(BA, -0x20_0000), ADD], 0, &[0], (0, 3, 4)),
        // plain 0, slot 4, plain 8, outside at the top word
        edge(&[CALL | 0x3FFF_FFFF, ADD, TA], 0, &[0], (0, 4, 6)),
        // the top word and plain 0: outside an image that ends at the top, inside one that goes on
        edge(&[ADD], base + 4, &[base + 4], (0, 2, 3)),
        edge(&[ADD, TA], base + 4, &[base + 4], (0, 2, 3)),
        edge(&[ADD, TA], base + 4, &[base + 4, 0], (0, 2, 3)),
        edge(&[ADD], base + 4, &[0], (3, 1, 0)),
        // jmpl at the top word holds 0, the place past it is 4
        edge(&[LINK, ADD, TA], base + 4, &[base + 4], (0, 3, 5)),
        edge(&[LINK, BA, TA], base + 4, &[base + 4], (4, 0, 0)),
        edge(&[LINK, ADD, TA], base + 4, &[base + 4], (5, 4, 0)).lent(47, 60),
    ];
    // The largest image, its last word the top word; then one that wraps after its first word.
    let largest = [vec![TA; 4095], vec![ADD]].concat();
    edges.push(edge(&largest, 0xFFFF_C000, &[base + 4], (0, 2, 3)));
    edges.push(edge(&largest, base + 4, &[0x3FF8, base + 4], (0, 3, 4)));
    edges
}

/// 01's cases P1 to P7 as far as they are the translator's.
fn cases_of_01() -> Vec<Edge> {
    vec![
        edge(&LISTED, 0, &[0], (0, 3, 4)),
        edge(
            &[over(BA, 4), over(BA, 5), 0, 0, ADD, 0, TA],
            0,
            &[0],
            (0, 4, 5),
        ),
        edge(&[over(BA, 2), ADD, TA], 0, &[0], (0, 3, 4)),
        edge(&[over(BE | ANNUL, 4), ADD, TA, 0, TA], 0, &[0], (0, 4, 6)),
        edge(&[BA | ANNUL], 0, &[0], (0, 1, 1)),
        edge(&[RETURN, BA], 0, &[0], (4, 4, 0)),
    ]
}

pub fn edges() -> Vec<Edge> {
    let parts = [
        cases_of_01(),
        lengths(),
        bases(),
        entry_counts(),
        entries_around(0x1000),
        entries_around(0xFFFF_FFF8),
        entries_around(0xFFFF_FFF0),
        one_word(),
        one_bad_entry(),
        several_bad_entries(),
        bad_counts_of_bad_entries(),
        held_branches(),
        held_words(),
        never_taken(),
        first_events(),
        first_named(),
        first_named_elsewhere(),
        first_events_of_branches(),
        record_calls_by_bit(),
        record_calls(),
        record_calls_across_the_top(),
        forbidden_past_a_call(),
        unused_bits(),
        unused_bits_by_form(),
        unused_bits_of_jmpl(),
        products_and_y(),
        products_and_y_in_slots(),
        save_and_restore(),
        save_and_restore_in_slots(),
        short_buffers(),
        across_the_top(),
        most_places(),
    ];
    parts.into_iter().flatten().collect()
}

/// The edges with this reading's answers, as a file of cases.
pub fn edges_file() -> Vec<u8> {
    let cases: Vec<Vec<u8>> = edges()
        .iter()
        .map(|edge| translate_case(&edge.call))
        .collect();
    [bytes([cases.len() as u32]), cases.concat()].concat()
}

/// Inputs of the listing program, each with how its output starts: 01's, conditional branches, a call that returns a record,
/// a product with Y, save and restore, around 0 and 1,024 bytes, a refusal of each number that it can meet, and 512 and 513 places.
pub fn listings() -> Vec<(Vec<u8>, &'static str)> {
    let zeros = |length| vec![0; length];
    // be to far outside, but for some adds at the end: plain places of 256 words and the end, a slot after each be,
    // (t, t) and plain t.
    let many = |adds: usize| {
        let mut words: Vec<u32> = (0..256).map(|k| over(BE, 300 - k)).collect();
        words[256 - adds..].fill(ADD);
        bytes(words)
    };
    let tables = "place address next kind record\n0 0 4 0 0\n";
    vec![
        (bytes(LISTED), "place address next kind record\n0 0 4 0 0\n1 4 12 1 1\n2 12 16 0 3\nkind first second\n5 1 0\n1 2181062657 0\n5 3 0\n1 2446336000 0\n"),
        (bytes([over(BE, 3), ADD, TA | 1, TA]), "place address next kind record\n0 0 4 0 0\n1 4 8 0 2\n2 4 12 1 4\n3 8 12 0 6\n4 12 16 0 7\nkind first second\n4 1 4\n5 2 0\n1 2181062657 0\n5 6 0\n1 2181062657 0\n5 7 0\n1 2446336001 0\n1 2446336000 0\n"),
        (bytes([over(BE | ANNUL, 3), ADD, TA | 1, TA]), "place address next kind record\n0 0 4 0 0\n1 8 12 0 2\n2 4 12 1 3\n3 12 16 0 5\nkind first second\n4 1 3\n5 2 0\n1 2446336001 0\n1 2181062657 0\n5 5 0\n1 2446336000 0\n"),
        (bytes([CALL | 4, NOP, UNIMP, TA, TA | 1]), "place address next kind record\n0 0 4 0 0\n1 4 16 1 2\n2 8 12 0 4\n3 12 16 0 5\n4 16 20 0 6\nkind first second\n2 0 0\n5 2 0\n1 16777216 0\n5 6 0\n7 3 8\n1 2446336000 0\n1 2446336001 0\n"),
        (bytes([TA | 1 << 29, TA]), "place address next kind record\n0 0 4 0 0\nkind first second\n7 3 0\n"),
        (bytes([RETURN, LINK_BY_REGISTER | 1 << 5]), "place address next kind record\n0 0 4 0 0\n1 4 0 2 2\nkind first second\n3 2177097736 0\n5 2 0\n7 3 4\n"),
        (bytes([RETURN, LINK_BY_REGISTER]), "refused detail\n4 4\n"),
        (bytes([0x8180_2005, 0x82D0_4002, 0x8540_0000, TA]), "place address next kind record\n0 0 4 0 0\n1 4 8 0 2\n2 8 12 0 4\n3 12 16 0 6\nkind first second\n1 2172657669 0\n5 2 0\n1 2194685954 0\n5 4 0\n1 2235564032 0\n5 6 0\n1 2446336000 0\n"),
        (bytes([RDY | 1 << 14, TA]), "place address next kind record\n0 0 4 0 0\nkind first second\n7 3 0\n"),
        (bytes([0x9DE3_BFA0, 0x91EE_0001, TA]), "place address next kind record\n0 0 4 0 0\n1 4 8 0 2\n2 8 12 0 4\nkind first second\n1 2648948640 0\n5 2 0\n1 2448293889 0\n5 4 0\n1 2446336000 0\n"),
        (bytes([RETURN, RESTORE]), "place address next kind record\n0 0 4 0 0\n1 4 0 2 2\nkind first second\n3 2177097736 0\n5 2 0\n1 2448293889 0\n6 0 0\n"),
        (bytes([SAVE | 1 << 5, TA]), "place address next kind record\n0 0 4 0 0\nkind first second\n7 3 0\n"),
        (zeros(0), "refused detail\n1 0\n"),
        (zeros(1), "refused detail\n1 1\n"),
        (zeros(3), "refused detail\n1 3\n"),
        (zeros(4), "place address next kind record\n0 0 4 0 0\nkind first second\n7 3 0\n"),
        (zeros(1_020), "place address next kind record\n0 0 4 0 0\nkind first second\n7 3 0\n"),
        (zeros(1_022), "refused detail\n1 1022\n"),
        (zeros(1_023), "refused detail\n1 1023\n"),
        (zeros(1_024), "place address next kind record\n0 0 4 0 0\nkind first second\n7 3 0\n"),
        (zeros(1_025), "refused detail\n1 1025\n"),
        (zeros(1_028), "refused detail\n1 1025\n"),
        (zeros(4_096), "refused detail\n1 1025\n"),
        (bytes([RETURN, BA]), "refused detail\n4 4\n"),
        (bytes(vec![ADD; 256]), tables),
        (many(3), tables),
        (many(2), "refused detail\n5 1024\n"),
    ]
}

/// The inputs with what the program prints, as a file of cases.
pub fn listings_file() -> Vec<u8> {
    let inputs = listings();
    let cases: Vec<Vec<u8>> = inputs
        .iter()
        .map(|(input, _)| listing_case(input))
        .collect();
    [bytes([cases.len() as u32]), cases.concat()].concat()
}
