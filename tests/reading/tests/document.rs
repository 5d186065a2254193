//! 01's listing and its cases P1 to P11.

use reading::claim::{check, Start};
use reading::interface::{new_begin_call, new_run_call, old_begin_call, old_run_call};
use reading::listing::listing;
use reading::machine::{Area, End, Machine, WINDOWED};
use reading::new_core::{self, Program};
use reading::old_core::{self, Image, OldState};
use reading::places::{made_by_the_rules, walk, Place};
use reading::random::{random_accepted, random_plain, random_start, Random};
use reading::records::Record;
use reading::state::{decode_new, decode_old, encode_new, encode_old, NEW_STATE, OLD_STATE};
use reading::trails::{new_begun, new_trail, new_trail_of_run, old_trail, Trail};
use reading::translator::{answer_of, bytes, fill, translate, Answer};
use reading::words::Flags;

const LARGE: usize = 1 << 20;
const ADD: u32 = 0x8200_6001; // add 1 to register 1
const TA: u32 = 0x91D0_2000; // ta 0
const LISTED: [u32; 4] = [0x1080_0003, ADD, 0, TA];

fn answer(number: u32, first: u64, second: u64) -> Answer {
    Answer {
        number,
        first,
        second,
    }
}

fn ask(words: &[u32], entries: &[u32], places_length: usize, records_length: usize) -> Answer {
    let image_bytes = bytes(words.iter().copied());
    let image = Image::at(0, &image_bytes);
    let entry_bytes = bytes(entries.iter().copied());
    answer_of(&translate(
        image,
        &entry_bytes,
        places_length,
        records_length,
    ))
}

fn flags(number: u32) -> Flags {
    Flags::of_number(number)
}

/// The old core's trail from address 0 over an image at base 0 without data.
fn trail_from_0(words: &[u32], machine: Machine, cut: usize) -> Trail {
    let image_bytes = bytes(words.iter().copied());
    let image = Image::at(0, &image_bytes);
    let mut area = Area::lent(0, &mut []);
    old_trail(image, old_core::begin(machine, 0), &mut area, cut)
}

fn addresses(trail: &Trail) -> Vec<u32> {
    trail.entries.iter().map(|entry| entry.address).collect()
}

/// One step of the old core over one word at address 0.
fn step_word(word: u32, machine: Machine) -> OldState {
    let image_bytes = bytes([word]);
    let image = Image::at(0, &image_bytes);
    let mut state = old_core::begin(machine, 0);
    old_core::step(image, &mut state, &mut Area::lent(0, &mut []));
    state
}

#[test]
fn p1_the_listing() {
    let expected = "\
place address next kind record
0 0 4 0 0
1 4 12 1 1
2 12 16 0 3
kind first second
5 1 0
1 2181062657 0
5 3 0
1 2446336000 0
";
    assert_eq!(listing(&bytes(LISTED)), expected);
    assert_eq!(listing(&[0; 1025]), "refused detail\n1 1025\n");
    assert_eq!(listing(&[0; 3]), "refused detail\n1 3\n");
    assert_eq!(
        listing(&bytes([0x81C3_E008, 0x1080_0000])),
        "refused detail\n4 4\n"
    );
}

#[test]
fn p2_a_branch_in_a_branch() {
    let words = [0x1080_0004, 0x1080_0005, 0, 0, ADD, 0, TA];
    let trail = trail_from_0(&words, Machine::start(), 100);
    assert_eq!(addresses(&trail), [0, 4, 16, 24]);
    assert_eq!(trail.close, (1, 0));
    assert_eq!(ask(&words, &[0], LARGE, LARGE), answer(0, 4, 5));
}

#[test]
fn p3_a_branch_over_its_slot() {
    let image_bytes = bytes([0x1080_0002, ADD, TA]);
    let image = Image::at(0, &image_bytes);
    let (places, _) = walk(image, &[0], 100).unwrap();
    assert_eq!(places[1], Place::Plain(4));
}

#[test]
fn p4_p5_annulled_where_the_condition_fails() {
    let words = [0x2280_0004, ADD, TA, 0, TA];
    let clear = trail_from_0(&words, Machine::start(), 100);
    assert_eq!(addresses(&clear), [0, 8]);
    assert_eq!(clear.steps, [2, 1]);
    let set = trail_from_0(&words, Machine::of([0; 32], 0, flags(4)), 100);
    assert_eq!(addresses(&set), [0, 4, 16]);
}

#[test]
fn p6_a_branch_to_itself() {
    assert_eq!(ask(&[0x3080_0000], &[0], LARGE, LARGE), answer(0, 1, 1));
    let trail = trail_from_0(&[0x3080_0000], Machine::start(), 3);
    assert_eq!(addresses(&trail), [0, 0, 0]);
    assert_eq!((trail.close, trail.steps), ((0, 0), vec![2, 2, 2]));
}

#[test]
fn p7_a_branch_in_the_slot_of_a_jmpl() {
    let words = [0x81C3_E008, 0x1080_0000];
    assert_eq!(ask(&words, &[0], LARGE, LARGE), answer(4, 4, 0));
}

#[test]
fn p8_p9_flags() {
    // subcc 0, 1 to register 1
    let state = step_word(0x82A0_2001, Machine::start());
    assert_eq!(state.machine.read(1), 4_294_967_295);
    assert_eq!(state.machine.flags, flags(8 + 1));
    // addcc register 1, 1 to register 1
    let mut machine = Machine::start();
    machine.write(1, 2_147_483_647);
    let state = step_word(0x8280_6001, machine);
    assert_eq!(state.machine.read(1), 2_147_483_648);
    assert_eq!(state.machine.flags, flags(8 + 2));
}

/// 02, N4: single words, each with its rd, Y and flags by hand; register 1 is 2^31, register 2 is -2, Y 7 and all flags
/// set before.
#[test]
fn products_and_y() {
    let mut machine = Machine::of([0; 32], 7, flags(15));
    machine.write(1, 0x8000_0000);
    machine.write(2, 0xFFFF_FFFE);
    for (word, rd, result, y, set) in [
        (0x8650_4002, 3, 0, 0x7FFF_FFFF, 15),          // umul
        (0x8658_4002, 3, 0, 1, 15),                    // smul
        (0x86D0_4002, 3, 0, 0x7FFF_FFFF, 4),           // umulcc
        (0x86D8_4002, 3, 0, 1, 4),                     // smulcc
        (0x84D8_A003, 2, 0xFFFF_FFFA, 0xFFFF_FFFF, 8), // smulcc by 3, to itself
        (0x86D0_BFFF, 3, 2, 0xFFFF_FFFD, 0),           // umulcc by 2^32 - 1
        (0x80D0_4001, 0, 0, 0x4000_0000, 4),           // umulcc to register 0
        (0x80D8_4001, 0, 0, 0x4000_0000, 4),           // smulcc to register 0
        (0x8740_0000, 3, 7, 7, 15),                    // rdy
        (0x8140_0000, 0, 0, 7, 15),                    // rdy to register 0
        (0x8180_4002, 3, 0, 0x7FFF_FFFE, 15),          // wry
        (0x8180_BFFF, 3, 0, 1, 15),                    // wry of register 2 xor -1
    ] {
        let state = step_word(word, machine.clone());
        let here = (state.machine.read(rd), state.machine.y, state.machine.flags);
        assert_eq!(here, (result, y, flags(set)), "{word:x}");
        assert_eq!((state.pc, state.end), (4, End::Going), "{word:x}");
    }
}

/// 02, N4: "no end changes it", and neither core's begin does; "without delay": the word behind a wry reads what it wrote.
#[test]
fn y_stays_and_comes_at_once() {
    // wry of register 0 xor 9, rdy to register 1, ta 0
    let words = [0x8180_2009, 0x8340_0000, TA];
    let trail = trail_from_0(&words, Machine::of([0; 32], 7, flags(0)), 9);
    let shown: Vec<u32> = trail.entries.iter().map(|entry| entry.y).collect();
    assert_eq!((shown, trail.close), (vec![7, 9, 9], (1, 0)));
    assert_eq!(trail.entries[2].registers[1], 9);
    // a trap, a misaligned jmpl, an illegal word, a load that does not fit
    for word in [TA, 0x81C0_2002, 0, 0xC200_2000] {
        let state = step_word(word, Machine::of([0; 32], 7, flags(0)));
        assert!(state.end != End::Going && state.machine.y == 7, "{word:x}");
    }
    let mut bytes = [0xFF; NEW_STATE];
    let nowhere = Program {
        records: &[],
        places: &[],
        base: 0,
        image_length: 0,
    };
    new_begin_call(nowhere, 4, &mut bytes);
    assert_eq!(bytes[148..152], [0xFF; 4]);
    let mut bytes = [0xFF; OLD_STATE];
    old_begin_call(4, &mut bytes);
    assert_eq!(bytes[152..156], [0xFF; 4]);
}

/// Registers 0 to 31 are 100 to 131, and the 128 numbers of windows 1000 to 1127, as far as they count.
fn numbered(nesting: u32) -> Machine {
    let registers = std::array::from_fn(|register| 100 + register as u32);
    let windows = std::array::from_fn(|k| 1000 + k as u32);
    Machine::of(registers, 7, flags(5)).within(nesting, windows)
}

/// 02, N11: "reading in the old window and writing rd in the new". At nesting 2 a save of registers 17 and 9 goes to
/// register 16, 24 or 1, or nowhere, and a restore of 17 and -1 to 16 or 14.
#[test]
fn save_and_restore() {
    for (word, nesting, rd, sum) in [
        (0xA1E4_4009, 3, 16, 226),
        (0xB1E4_4009, 3, 24, 226),
        (0x83E4_4009, 3, 1, 226),
        (0x81E4_4009, 3, 0, 0),
        (0xA1EC_7FFF, 1, 16, 116),
        (0x9DEC_7FFF, 1, 14, 116),
    ] {
        let state = step_word(word, numbered(2));
        assert_eq!((state.pc, state.end), (4, End::Going), "{word:x}");
        assert_eq!(state.machine.nesting(), nesting);
        assert_eq!(state.machine.read(rd), sum, "{word:x}");
        assert_eq!((state.machine.y, state.machine.flags), (7, flags(5)));
    }
}

/// "Ins and outs overlap as V8 draws them": what a window's registers are after a save and after a restore at nesting 2,
/// whose ins are numbers 32 to 39 of the windows, locals 40 to 47 and outs 48 to 55.
#[test]
fn windows_move() {
    let saved = step_word(0x81E0_0000, numbered(2)).machine.registers();
    assert_eq!(saved[..8], numbered(2).registers()[..8]);
    assert_eq!(saved[24..], [108, 109, 110, 111, 112, 113, 114, 115]); // the outs before
    assert_eq!(saved[16..18], [1056, 1057]);
    assert_eq!(saved[8..10], [1064, 1065]);
    let restored = step_word(0x81E8_0000, numbered(2)).machine.registers();
    assert_eq!(restored[8..16], [124, 125, 126, 127, 128, 129, 130, 131]); // the ins before
    assert_eq!(restored[16..18], [1024, 1025]);
    assert_eq!(restored[24..26], [1016, 1017]);
    // nesting 6: its outs are the ins of window 7, numbers 112 to 119
    assert_eq!(numbered(6).windows()[112..120], saved[24..]);
    assert_eq!(numbered(6).windows()[120..122], [1120, 1121]);
    assert_eq!(numbered(6).windows()[0..2], [1000, 1001]);
}

/// "A save at 6 or a restore at 0 ends the run and changes nothing", "each with the nesting"; one above 6 counts as 6.
#[test]
fn too_many_saves_and_restores() {
    for (word, nesting, end) in [
        (0x9DE3_BFA0, 6, End::TooManySaves(6)),
        (0x9DE3_BFA0, 7, End::TooManySaves(6)),
        (0x9DE3_BFA0, 0xFFFF_FFFF, End::TooManySaves(6)),
        (0x81E8_0000, 0, End::TooManyRestores(0)),
    ] {
        let state = step_word(word, numbered(nesting));
        assert_eq!(state.machine, numbered(nesting));
        assert_eq!((state.end, state.pc, state.npc), (end, 0, 4));
    }
    let going = [(0x9DE3_BFA0, 5), (0x81E8_0000, 6), (0x81E8_0000, 1)];
    for (word, nesting) in going {
        assert_eq!(step_word(word, numbered(nesting)).end, End::Going);
    }
    assert_eq!(End::TooManySaves(6).numbers(), (8, 6));
    assert_eq!(End::TooManyRestores(0).numbers(), (9, 0));
}

/// Seven windows deep and back: six saves, six restores, and one restore too many; the entries show each window.
#[test]
fn all_windows_in_use() {
    let mut words = vec![0x9DE3_BFA0; 6]; // save %sp, -96, %sp
    words.extend([0x81E8_0000; 6]);
    words.push(0x81E8_0000); // one too many
    let mut machine = Machine::start();
    machine.write(14, 4096);
    let trail = trail_from_0(&words, machine, 99);
    let nestings: Vec<u32> = trail.entries.iter().map(|entry| entry.nesting).collect();
    assert_eq!(nestings, [0, 1, 2, 3, 4, 5, 6, 5, 4, 3, 2, 1, 0]);
    for entry in &trail.entries {
        assert_eq!(entry.registers[14], 4096 - 96 * entry.nesting);
        // the stack pointers so far, each an in of the window after its own
        assert_eq!(entry.windows[16 + 6], 4096);
    }
    let last = trail.entries.last().unwrap();
    let pointers: Vec<u32> = (0..8).map(|w| last.windows[16 * w + 6]).collect();
    assert_eq!(pointers, [0, 4096, 4000, 3904, 3808, 3712, 3616, 3520]);
    assert_eq!(trail.close, (9, 0));
}

#[test]
fn p10_a_misaligned_jmpl() {
    let mut machine = Machine::start();
    machine.write(1, 18);
    let state = step_word(0x83C0_6000, machine.clone());
    assert_eq!(state.end, End::Misaligned(18));
    assert_eq!((state.machine, state.pc, state.npc), (machine, 0, 4));
}

#[test]
fn p11_short_buffers() {
    assert_eq!(ask(&LISTED, &[0], 3 * 16, 4 * 12), answer(0, 3, 4));
    assert_eq!(ask(&LISTED, &[0], 2 * 16, LARGE), answer(5, 12, 0));
    assert_eq!(ask(&LISTED, &[0], 3 * 16 - 1, LARGE), answer(5, 12, 0));
    assert_eq!(ask(&LISTED, &[0], LARGE, 3 * 12), answer(6, 4, 0));
    assert_eq!(ask(&LISTED, &[0], LARGE, 4 * 12 - 1), answer(6, 4, 0));
    assert_eq!(ask(&LISTED, &[0], 0, LARGE), answer(5, 0, 0));
}

#[test]
fn limits() {
    let longest = vec![TA; 4096];
    assert_eq!(ask(&longest, &[0], LARGE, LARGE), answer(0, 1, 1));
    let longer = vec![TA; 4097];
    assert_eq!(ask(&longer, &[0], LARGE, LARGE), answer(1, 16_388, 0));
    assert_eq!(ask(&[TA], &[0; 64], LARGE, LARGE), answer(0, 1, 1));
    assert_eq!(ask(&[TA], &[0; 65], LARGE, LARGE), answer(3, 0, 0));
    assert_eq!(ask(&[TA], &[], LARGE, LARGE), answer(3, 0, 0));
}

/// 02, N8: "the first entry, in list order, that is misaligned or outside the image; a bad count still gives 0".
#[test]
fn first_bad_entry() {
    assert_eq!(ask(&[TA], &[0, 4, 0, 2], LARGE, LARGE), answer(3, 2, 0));
    assert_eq!(ask(&[TA], &[0, 2, 0, 4], LARGE, LARGE), answer(3, 2, 0));
    assert_eq!(ask(&[TA], &[2; 65], LARGE, LARGE), answer(3, 0, 0));
}

/// The largest image, all of its words conditional branches backwards: the 8,193rd place is refused.
#[test]
fn many_places() {
    let words: Vec<u32> = (0..4096u32)
        .map(|position| 0x0280_0000 | (0u32.wrapping_sub(position / 2) & 0x3F_FFFF))
        .collect();
    let refused = ask(&words, &[0], LARGE, LARGE);
    assert_eq!(refused.number, 5);
}

/// Refusals fill both buffers with 0, and acceptance leaves zeros past the last number.
#[test]
fn buffers() {
    let image_bytes = bytes(LISTED);
    let image = Image::at(0, &image_bytes);
    let mut places = [0xFF; 3 * 16 + 5];
    let mut records = [0xFF; 4 * 12 + 7];
    let outcome = translate(image, &bytes([0]), places.len(), records.len());
    fill(&outcome, &mut places, &mut records);
    assert_eq!(places[16..32], bytes([4, 12, 1, 1]));
    assert_eq!(records[12..24], bytes([1, ADD, 0]));
    assert_eq!(places[48..], [0; 5]);
    assert_eq!(records[48..], [0; 7]);
    let mut short = [0xFF; 47];
    let outcome = translate(image, &bytes([0]), places.len(), short.len());
    fill(&outcome, &mut places, &mut short);
    assert_eq!((places, short), ([0; 53], [0; 47]));
}

/// A jmpl to an address in the image without a plain place, and to one outside.
#[test]
fn a_landing_without_a_place() {
    // jmpl register 1, constant 0; add; illegal; ta 0
    let image_bytes = bytes([0x81C0_6000, ADD, 0, TA]);
    let image = Image::at(0, &image_bytes);
    let translation = translate(image, &bytes([0]), LARGE, LARGE).unwrap();
    let (places, records) = (translation.place_bytes(), translation.record_bytes());
    let program = Program {
        records: &records,
        places: &places,
        base: 0,
        image_length: 16,
    };
    for (target, end) in [(12, 6), (16, 2), (0xFFFF_FFFC, 2)] {
        let mut machine = Machine::start();
        machine.write(1, target);
        let mut area = Area::lent(0, &mut []);
        let begun = new_begun(program, machine.clone(), 0);
        let trail = new_trail(program, begun.clone(), &mut area, 3);
        assert_eq!(addresses(&trail), [0, 4, target]);
        assert_eq!((trail.close, trail.landed), ((end, target), true));
        assert_eq!(trail.steps, [2, 2, 0]);
        // Without room for that entry the trail closes with 0.
        let trail = new_trail(program, begun.clone(), &mut area, 2);
        assert_eq!(addresses(&trail), [0, 4]);
        assert_eq!((trail.close, trail.landed), ((0, 0), false));
        // A run of a given count stops where it is.
        let trail = new_trail_of_run(program, begun, &mut area, 3);
        assert_eq!(addresses(&trail), [0, 4]);
        assert_eq!(trail.close, (0, 0));
    }
    // A start without a place.
    let begun = new_begun(program, Machine::start(), 12);
    let trail = new_trail(program, begun, &mut Area::lent(0, &mut []), 1);
    assert_eq!((addresses(&trail), trail.close), (vec![12], (6, 12)));
}

/// Rows that name a record past the last, and two that name one record: an entry stands before the step, of
/// the lowest-numbered row.
#[test]
fn entries_in_a_malformed_table() {
    let records = bytes([5, 2, 0, 5, 3, 0]);
    // address, next, kind, first record
    let rows = [
        [8, 12, 0, 0],
        [24, 28, 0, 3],
        [16, 20, 0, 2],
        [20, 24, 1, 2],
    ];
    let places = bytes(rows.concat());
    let program = Program {
        records: &records,
        places: &places,
        base: 0,
        image_length: 64,
    };
    // Past the last record, the first and the second.
    for (start, expected, steps, end) in [
        (8, vec![8, 16], vec![1, 1], (7, 2)),
        (24, vec![24], vec![1], (7, 3)),
        (16, vec![16], vec![1], (7, 2)),
    ] {
        let begun = new_begun(program, Machine::start(), start);
        let trail = new_trail_of_run(program, begun, &mut Area::lent(0, &mut []), 5);
        assert_eq!((addresses(&trail), trail.close), (expected, end));
        assert_eq!(trail.steps, steps);
    }
    // A count that is done before the end closes with 0, and no entry stands where no step follows.
    for (count, expected) in [(0, vec![]), (1, vec![8])] {
        let begun = new_begun(program, Machine::start(), 8);
        let trail = new_trail_of_run(program, begun, &mut Area::lent(0, &mut []), count);
        assert_eq!((addresses(&trail), trail.close), (expected, (0, 0)));
    }
}

/// The closure by the rules and the walk find the same places.
#[test]
fn walk_and_rules_agree() {
    let mut random = Random::new(7);
    for _ in 0..2000 {
        let (program, _) = random_accepted(&mut random);
        let image_bytes = program.image_bytes();
        let image = Image::at(program.base, &image_bytes);
        let (places, numbers) = walk(image, &program.entries, LARGE).unwrap();
        let made = made_by_the_rules(image, &program.entries);
        assert_eq!(made, places.iter().copied().collect());
        assert_eq!(numbers.len(), places.len());
    }
}

/// The claim fails of a translation whose groups but the first end, and of one that links p + 8.
#[test]
fn the_claim_says_something() {
    let mut random = Random::new(11);
    let mut violated = [0, 0];
    for _ in 0..300 {
        let (program, translation) = random_accepted(&mut random);
        let plain = program.plain_addresses();
        let address = random_plain(&mut random, &program, &plain);
        let start = random_start(&mut random, &program, &plain, address);

        let mut ending = translation.clone();
        let second_group = translation.rows.get(1).map_or(0, |row| row.first_record);
        for record in &mut ending.records[second_group as usize..] {
            *record = Record::new(7, 2, 0);
        }
        let mut linking = translation.clone();
        for record in &mut linking.records {
            if record.kind == 2 {
                record.first = record.first.wrapping_add(8);
            }
        }
        for (position, wrong) in [ending, linking].iter().enumerate() {
            let accepted = program.accepted(wrong);
            violated[position] += check(&accepted, &start, &start, 8).is_err() as u32;
        }
    }
    assert!(violated[0] > 100 && violated[1] > 10, "{violated:?}");
}

/// Bytes that no core wrote come back in normal form.
#[test]
fn state_bytes() {
    let state = decode_old(&[0xFF; OLD_STATE]);
    assert_eq!(state.end, End::Going);
    assert!(state.annul);
    let mut normal = [0xFF; OLD_STATE];
    normal[..4].fill(0);
    normal[128..132].copy_from_slice(&[0, 0, 0, 15]);
    normal[140..152].copy_from_slice(&[0, 0, 0, 1, 0, 0, 0, 0, 0, 0, 0, 0]);
    normal[156..160].copy_from_slice(&[0, 0, 0, 6]);
    assert_eq!(encode_old(&state), normal);
    let mut ended = [0; NEW_STATE];
    ended[143] = 7;
    ended[147] = 9;
    ended[151] = 5;
    assert_eq!(decode_new(&ended).end, End::BadRecord(9));
    assert_eq!(decode_new(&ended).machine.y, 5);
    assert_eq!(encode_new(&decode_new(&ended)), ended);
}

/// A state of the new core as numbers: registers 200 to 231, an end, a nesting, and windows 300 to 427.
fn state_numbers(end: u32, nesting: u32) -> Vec<u32> {
    let mut numbers: Vec<u32> = (200..232).collect();
    numbers.extend([0, 0, 0, end, 5, 1, nesting]);
    numbers.extend(300..300 + WINDOWED as u32);
    numbers
}

/// The same as it comes out: the ins, locals and outs of a window laid over its 24 numbers.
fn laid_over(mut numbers: Vec<u32>, window: usize) -> Vec<u32> {
    numbers[0] = 0;
    numbers[38] = window as u32;
    for k in 0..8 {
        numbers[39 + 16 * window + k] = 224 + k as u32;
        numbers[39 + 16 * window + 8 + k] = 216 + k as u32;
        numbers[39 + 16 * window + 16 + k] = 208 + k as u32;
    }
    numbers
}

/// Lent, registers 8 to 31 count and the 24 numbers that repeat them are not looked at; left, they are equal, also of
/// ended states and after a begin; "a nesting handed in above 6 counts as 6"; ends 1 to 9 count as ended.
#[test]
fn windows_in_state_bytes() {
    let program = Program {
        records: &[],
        places: &bytes([4, 8, 0, 1]),
        base: 0,
        image_length: 0,
    };
    for (nesting, window) in [(0, 0), (3, 3), (6, 6), (7, 6), (8, 6), (0x8000_0000, 6)] {
        for end in [0, 1, 7, 8, 9, 10, 11, 0xFFFF_FFFF] {
            let mut state = [0; NEW_STATE];
            state.copy_from_slice(&bytes(state_numbers(end, nesting)));
            let mut begun = state;
            let stands = new_run_call(program, 0, &mut state, &mut [], 0);
            let mut known = laid_over(state_numbers(end, nesting), window);
            if !(1..=9).contains(&end) {
                known[35..37].fill(0);
            }
            assert_eq!(stands, (known[35], known[36]));
            assert_eq!(
                state[..],
                bytes(known.clone()),
                "nesting {nesting}, end {end}"
            );
            new_begin_call(program, 4, &mut begun);
            known[33] = 1;
            known[35..37].fill(0);
            assert_eq!(begun[..], bytes(known), "nesting {nesting}, end {end}");
        }
    }
}

/// The old core's state has the same numbers, one place further behind the flags.
#[test]
fn windows_in_old_state_bytes() {
    let old = |numbers: Vec<u32>| {
        let mut state = [0; OLD_STATE];
        state.copy_from_slice(&bytes([&numbers[..33], &[0], &numbers[33..]].concat()));
        state
    };
    for (nesting, window) in [(0, 0), (5, 5), (6, 6), (99, 6)] {
        for end in [8, 9] {
            let mut state = old(state_numbers(end, nesting));
            let image = Image::at(0, &[]);
            assert_eq!(old_run_call(image, 0, &mut state, &mut [], 3), (end, 5));
            let mut known = laid_over(state_numbers(end, nesting), window);
            assert_eq!(state, old(known.clone()));
            old_begin_call(0, &mut state);
            known[33..37].copy_from_slice(&[4, 0, 0, 0]);
            assert_eq!(state, old(known));
        }
    }
}

/// The end and the record that a run over these records, all other things 0, comes to.
fn run_from_0(records: &[u32]) -> (End, u32) {
    let program = Program {
        records: &bytes(records.iter().copied()),
        places: &[],
        base: 0,
        image_length: 0,
    };
    let mut state = decode_new(&[0; NEW_STATE]);
    new_core::run(program, &mut state, &mut Area::lent(0, &mut []), 9);
    (state.end, state.record)
}

/// Every end 7 that 01 names, with the record number and nothing else changed.
#[test]
fn bad_records() {
    for record in [
        [0, 0, 0],
        [8, 0, 0],
        [1, 0, 0],           // illegal
        [1, 0x4000_0000, 0], // call
        [1, 0x81C0_6000, 0], // jmpl
        [1, 0x1080_0000, 0], // ba
        [1, 0x2080_0000, 0], // bn,a
        [3, ADD, 0],
        [3, 0, 0],
        [4, 16, 0],
        [7, 0, 0],
        [7, 1, 0],
        [7, 4, 0],
        [7, 7, 0],
        [7, 8, 0],
        [7, 9, 0],
        [7, 10, 0],
        [1, 0x81E0_0020, 0], // save with an unused bit
    ] {
        let stands = run_from_0(&[[5, 1, 0], record].concat());
        assert_eq!(stands, (End::BadRecord(1), 1), "{record:?}");
    }
    // bn without annul is a word that kind 1 does, and so are products, rdy, wry and save, but not those that are illegal.
    for word in [
        0x0080_0000,
        0x8650_4002,
        0x8140_0000,
        0x8180_4002,
        0x81E0_0000,
    ] {
        assert_eq!(run_from_0(&[1, word, 0]), (End::BadRecord(1), 1));
    }
    // a restore at nesting 0, and behind a save
    assert_eq!(
        run_from_0(&[1, 0x81E8_0000, 0]),
        (End::TooManyRestores(0), 0)
    );
    let both = [1, 0x81E0_0000, 0, 1, 0x81E8_0000, 0];
    assert_eq!(run_from_0(&both), (End::BadRecord(2), 2));
    for word in [0x8140_4000, 0x8140_2000, 0x8140_0001, 0x8380_4002] {
        assert_eq!(run_from_0(&[1, word, 0]), (End::BadRecord(0), 0));
    }
}

/// A start shows register 0 as 0, the low four flag bits, a nesting of at most 6 and the current window among all.
#[test]
fn starts() {
    let start = Start {
        address: 0,
        registers: [5; 32],
        y: 6,
        nesting: 7,
        windows: [8; WINDOWED],
        flags: 0x19,
        data: vec![],
    };
    assert_eq!(start.machine().read(0), 0);
    assert_eq!(start.machine().y, 6);
    assert_eq!(start.machine().flags, flags(9));
    assert_eq!(start.machine().nesting(), 6);
    assert_eq!(start.machine().windows(), &start.shown_windows());
    let fives = start.shown_windows().iter().filter(|n| **n == 5).count();
    assert_eq!(fives, 24);
}
