//! The program over the reading.
//!
//! ```text
//! reading cases SEED COUNT     random cases with their results, as lines
//! reading claim SEED COUNT     demand 3's claim on COUNT random accepted images
//! reading census SEED COUNT    what the random cases meet
//! reading file KIND SEED COUNT random cases as a file of numbers; KIND is translate, old_core (runs),
//!                              new_core (runs), calls (all five functions of translator and cores, mixed)
//!                              or words (read and written)
//! reading file edges           calls of the translator at the edges of its answers, as such a file
//! reading file old_edges       runs of the old core at the edges of its rules, as such a file; new_edges: of
//!                              the new core
//! reading file listings        inputs of the listing program with what it prints, as such a file
//! reading listing              01's listing of the image on standard input
//! reading translate BASE ENTRY...
//!                              the translation of the image on standard input, as lines
//! ```
//!
//! # The lines of `cases`
//!
//! One item per line: a key word, then decimal numbers, separated by single spaces. A case has these lines in
//! this order; those marked * come any number of times, those marked ? once or not at all.
//!
//! ```text
//!   case POSITION                       counted from 0
//!   image WORD...                       the words of the image, maybe none
//!   base BASE
//!   data_base BASE
//!   entries ENTRY...                    maybe none
//!   image_tail BYTE...                  after the words, mostly none
//!   entries_tail BYTE...                after the entries, mostly none
//!   places_length BYTES                 of the lent place table
//!   records_length BYTES                of the lent record buffer
//!   address ADDRESS                     where both cores begin
//!   registers R0 ... R31                R0 any number; it counts as 0
//!   y NUMBER
//!   nesting NUMBER                      any number; one above 6 counts as 6
//!   windows N0 ... N127                 those that repeat registers 8 to 31 any numbers; they do not count
//!   flags NUMBER                        8N + 4Z + 2V + C
//!   data BYTE...                        maybe none
//!   cut K                               1 to 12
//!   answer NUMBER FIRST SECOND          0, place count, record count; or refusal, detail, 0
//! * place ADDRESS NEXT KIND RECORD      in place order; none for a refusal
//! * record KIND FIRST SECOND            in record order; none for a refusal
//! * old ADDRESS R0 ... R31 Y NESTING N0 ... N127 FLAGS BYTE...   an entry of the old core's trail
//!   old_close END NUMBER
//!   old_steps STEPS...                  from each entry to the next; the last, to the close
//!   old_next ADDRESS...                 nPC at each entry
//! * new ADDRESS R0 ... R31 Y NESTING N0 ... N127 FLAGS BYTE...   an entry of the new core's trail over the
//!                                       translation
//! ? new_close END NUMBER                only for an accepted image
//! ? new_steps STEPS...
//! ? malformed_places BYTE...            for about half of the accepted images: a damaged place table
//! ? malformed_records BYTE...           and damaged records
//! ? malformed_count COUNT               of the run over them
//! * malformed ADDRESS R0 ... R31 Y NESTING N0 ... N127 FLAGS BYTE...   an entry of that run's trail
//! ? malformed_close END NUMBER          0 0 where the count was done
//! ? malformed_steps STEPS...
//!   done
//! ```
//!
//! Past the places and records shown, both lent buffers hold zeros. An accepted image's start has a plain
//! place; a refused one's may be any address. The steps to the close are those up to the point where entry
//! K + 1 would come, or up to the end, the step that ended the run included. Every second case begins at a
//! transfer of control with another in its delay slot: all pairings in turn, in 144 cases.
//!
//! `translate` prints the lines answer, place and record of such a case; the lent buffers have room for 8,192
//! places and all of their records.

use std::collections::BTreeMap;
use std::env;
use std::io::{self, BufWriter, Read, Write};
use std::process::ExitCode;

use reading::calls;
use reading::cases::{random_case, Asked, Malformed};
use reading::claim::{check, Accepted, Seen, Start};
use reading::core_edges::{new_edges_file, old_edges_file};
use reading::couples::Transfer;
use reading::edges::{edges_file, listings_file};
use reading::files::{new_run_case, old_run_case, translate_case};
use reading::old_core::Image;
use reading::random::{
    other_start, random_accepted, random_new_run_call, random_old_run_call, random_start,
    random_translate_call, Program, Random,
};
use reading::trails::{Entry, Trail};
use reading::translator::{answer_of, bytes, translate, Refusal, Translation};

fn main() -> ExitCode {
    let arguments: Vec<String> = env::args().skip(1).collect();
    let words: Vec<&str> = arguments.iter().map(String::as_str).collect();
    let number = |text: &str| text.parse::<u64>().ok();
    let address = |text: &str| text.parse::<u32>().ok();
    let done = match words[..] {
        ["cases", seed, count] => number(seed).zip(number(count)).map(|(s, c)| cases(s, c)),
        ["claim", seed, count] => number(seed).zip(number(count)).map(|(s, c)| claim(s, c)),
        ["census", seed, count] => number(seed).zip(number(count)).map(|(s, c)| census(s, c)),
        ["file", kind, seed, count]
            if ["translate", "old_core", "new_core", "calls", "words"].contains(&kind) =>
        {
            number(seed)
                .zip(number(count))
                .map(|(s, c)| file(kind, s, c))
        }
        ["file", "edges"] => Some(whole_file(&edges_file())),
        ["file", "old_edges"] => Some(whole_file(&old_edges_file())),
        ["file", "new_edges"] => Some(whole_file(&new_edges_file())),
        ["file", "listings"] => Some(whole_file(&listings_file())),
        ["listing"] => Some(listing()),
        ["translate", base, ref entries @ ..] => address(base)
            .zip(entries.iter().copied().map(address).collect())
            .map(|(b, e)| translated(b, e)),
        _ => None,
    };
    match done {
        Some(Ok(code)) => code,
        // A reader that has seen enough closes the pipe.
        Some(Err(error)) if error.kind() == io::ErrorKind::BrokenPipe => ExitCode::SUCCESS,
        Some(Err(error)) => {
            eprintln!("reading: {error}");
            ExitCode::from(2)
        }
        None => {
            eprintln!("usage: reading cases SEED COUNT");
            eprintln!("       reading claim SEED COUNT");
            eprintln!("       reading census SEED COUNT");
            eprintln!("       reading file translate|old_core|new_core|calls|words SEED COUNT");
            eprintln!("       reading file edges|old_edges|new_edges|listings");
            eprintln!("       reading listing < IMAGE");
            eprintln!("       reading translate BASE ENTRY... < IMAGE");
            ExitCode::from(2)
        }
    }
}

fn line<T: ToString>(
    out: &mut impl Write,
    key: &str,
    numbers: impl IntoIterator<Item = T>,
) -> io::Result<()> {
    let mut text = key.to_string();
    for number in numbers {
        text.push(' ');
        text += &number.to_string();
    }
    writeln!(out, "{text}")
}

fn print_start(out: &mut impl Write, start: &Start) -> io::Result<()> {
    line(out, "address", [start.address])?;
    line(out, "registers", start.registers)?;
    line(out, "y", [start.y])?;
    line(out, "nesting", [start.nesting])?;
    line(out, "windows", start.windows)?;
    line(out, "flags", [start.flags])?;
    line(out, "data", &start.data)
}

fn print_trail(out: &mut impl Write, name: &str, trail: &Trail) -> io::Result<()> {
    for entry in &trail.entries {
        line(out, name, entry_numbers(entry))?;
    }
    line(
        out,
        &format!("{name}_close"),
        [trail.close.0, trail.close.1],
    )?;
    line(out, &format!("{name}_steps"), &trail.steps)
}

fn entry_numbers(entry: &Entry) -> Vec<u32> {
    let mut numbers = vec![entry.address];
    numbers.extend(entry.registers);
    numbers.extend([entry.y, entry.nesting]);
    numbers.extend(entry.windows);
    numbers.push(entry.flags);
    numbers.extend(entry.data.iter().map(|byte| *byte as u32));
    numbers
}

fn print_program(out: &mut impl Write, program: &Program) -> io::Result<()> {
    line(out, "image", &program.words)?;
    line(out, "base", [program.base])?;
    line(out, "data_base", [program.data_base])?;
    line(out, "entries", &program.entries)
}

fn print_asked(out: &mut impl Write, asked: &Asked) -> io::Result<()> {
    print_program(out, &asked.program)?;
    line(out, "image_tail", &asked.image_tail)?;
    line(out, "entries_tail", &asked.entries_tail)?;
    line(out, "places_length", [asked.places_length])?;
    line(out, "records_length", [asked.records_length])?;
    print_start(out, &asked.start)?;
    line(out, "cut", [asked.cut])
}

fn print_outcome(out: &mut impl Write, outcome: &Result<Translation, Refusal>) -> io::Result<()> {
    let answer = answer_of(outcome);
    let numbers = [answer.number as u64, answer.first, answer.second];
    line(out, "answer", numbers)?;
    let Ok(translation) = outcome else {
        return Ok(());
    };
    for row in &translation.rows {
        let numbers = [row.address, row.next, row.kind, row.first_record];
        line(out, "place", numbers)?;
    }
    for record in &translation.records {
        let numbers = [record.kind, record.first, record.second];
        line(out, "record", numbers)?;
    }
    Ok(())
}

fn print_malformed(out: &mut impl Write, malformed: &Malformed) -> io::Result<()> {
    line(out, "malformed_places", &malformed.places)?;
    line(out, "malformed_records", &malformed.records)?;
    line(out, "malformed_count", [malformed.count])?;
    print_trail(out, "malformed", &malformed.trail)
}

fn cases(seed: u64, count: u64) -> io::Result<ExitCode> {
    let mut random = Random::new(seed);
    let mut out = BufWriter::new(io::stdout().lock());
    for position in 0..count {
        let case = random_case(&mut random, position);
        line(&mut out, "case", [position])?;
        print_asked(&mut out, &case.asked)?;
        print_outcome(&mut out, &case.outcome)?;
        print_trail(&mut out, "old", &case.old)?;
        line(&mut out, "old_next", &case.old.nexts)?;
        if let Some(new) = &case.new {
            print_trail(&mut out, "new", new)?;
        }
        if let Some(malformed) = &case.malformed {
            print_malformed(&mut out, malformed)?;
        }
        writeln!(out, "done")?;
    }
    out.flush()?;
    Ok(ExitCode::SUCCESS)
}

const CUTS: [usize; 5] = [1, 2, 3, 8, 40];

/// What the checks of the claim have met.
#[derive(Default)]
struct Tally {
    pairs: u64,
    entries: u64,
    unequal_starts: u64,
    exceptions: u64,
    closes: BTreeMap<u32, u64>,
}

impl Tally {
    fn count(&mut self, seen: &Seen) {
        self.pairs += 1;
        self.entries += (seen.old.entries.len() + seen.new.entries.len()) as u64;
        self.unequal_starts += !seen.first_entries_equal as u64;
        self.exceptions += seen.exception.is_some() as u64;
        *self.closes.entry(seen.new.close.0).or_default() += 1;
    }

    fn print(&self, out: &mut impl Write) -> io::Result<()> {
        writeln!(out, "pairs of trails {}", self.pairs)?;
        writeln!(out, "trails {}", 2 * self.pairs)?;
        writeln!(out, "entries {}", self.entries)?;
        let unequal = self.unequal_starts;
        writeln!(out, "pairs with unequal first entries {unequal}")?;
        writeln!(out, "pairs that met the exception {}", self.exceptions)?;
        for (end, times) in &self.closes {
            writeln!(out, "new trails closed with {end}: {times}")?;
        }
        Ok(())
    }
}

/// The starts of both cores and the cut of one check.
struct Pair {
    old: Start,
    new: Start,
    cut: usize,
}

/// From each plain place, at each cut: both cores from one start, and the new one from another start.
fn random_pairs(random: &mut Random, program: &Program) -> Vec<Pair> {
    let plain = program.plain_addresses();
    let mut pairs = vec![];
    for address in &plain {
        let old = random_start(random, program, &plain, *address);
        let other = other_start(random, &old, &plain);
        for cut in CUTS {
            for new in [&old, &other] {
                let (old, new) = (old.clone(), new.clone());
                pairs.push(Pair { old, new, cut });
            }
        }
    }
    pairs
}

fn print_pair(out: &mut impl Write, accepted: &Accepted, pair: &Pair) -> io::Result<()> {
    line(out, "cut", [pair.cut])?;
    writeln!(out, "old core's start and trail:")?;
    print_start(out, &pair.old)?;
    print_trail(out, "old", &accepted.old_trail(&pair.old, pair.cut))?;
    writeln!(out, "new core's start and trail:")?;
    print_start(out, &pair.new)?;
    print_trail(out, "new", &accepted.new_trail(&pair.new, pair.cut))
}

fn claim(seed: u64, count: u64) -> io::Result<ExitCode> {
    let mut random = Random::new(seed);
    let mut out = io::stdout().lock();
    let mut tally = Tally::default();
    for _ in 0..count {
        let (program, translation) = random_accepted(&mut random);
        let accepted = program.accepted(&translation);
        for pair in random_pairs(&mut random, &program) {
            match check(&accepted, &pair.old, &pair.new, pair.cut) {
                Ok(seen) => tally.count(&seen),
                Err(reason) => {
                    writeln!(out, "violated: {reason}")?;
                    print_program(&mut out, &program)?;
                    print_pair(&mut out, &accepted, &pair)?;
                    return Ok(ExitCode::FAILURE);
                }
            }
        }
    }
    writeln!(out, "images {count}")?;
    tally.print(&mut out)?;
    writeln!(out, "the claim holds of all")?;
    Ok(ExitCode::SUCCESS)
}

/// How often the random cases of `cases` meet what they are to meet.
fn census(seed: u64, count: u64) -> io::Result<ExitCode> {
    let mut random = Random::new(seed);
    let mut met: BTreeMap<String, u64> = BTreeMap::new();
    for position in 0..count {
        let case = random_case(&mut random, position);
        let mut meet = |what: String| *met.entry(what).or_default() += 1;
        meet(format!("answer {}", answer_of(&case.outcome).number));
        meet(format!("old trail closed with {}", case.old.close.0));
        if let Some(new) = &case.new {
            meet(format!("new trail closed with {}", new.close.0));
            if new.landed {
                meet("new trail landed without a place".to_string());
            }
        }
        if let Ok(translation) = &case.outcome {
            let kinds: Vec<u32> = translation
                .records
                .iter()
                .map(|record| record.kind)
                .collect();
            for kind in 1..=7 {
                if kinds.contains(&kind) {
                    meet(format!("translation with records of kind {kind}"));
                }
            }
            for row in translation.rows.iter().filter(|row| row.kind == 1) {
                let offset = row.address.wrapping_sub(case.asked.program.base) / 4;
                let word = case.asked.program.words.get(offset as usize).copied();
                meet(format!("slot place with {}", name(word)));
            }
        }
        for pair in case.asked.program.words.windows(2) {
            let names = (name(Some(pair[0])), name(Some(pair[1])));
            if names.0 != "another word" && names.1 != "another word" {
                meet(format!("pair {} then {}", names.0, names.1));
            }
        }
    }
    let mut out = io::stdout().lock();
    for (what, times) in met {
        writeln!(out, "{what}: {times}")?;
    }
    Ok(ExitCode::SUCCESS)
}

/// The name of a word that transfers control, for the census.
fn name(word: Option<u32>) -> &'static str {
    word.and_then(Transfer::of)
        .map_or("another word", Transfer::name)
}

/// Random calls with their answers, in the format of the files of cases: numbers of four bytes, big-endian;
/// a byte area is padded with zeros to a multiple of four. The first number is how many cases follow.
fn file(kind: &str, seed: u64, count: u64) -> io::Result<ExitCode> {
    let mut random = Random::new(seed);
    let mut out = BufWriter::new(io::stdout().lock());
    out.write_all(&bytes([count as u32]))?;
    for _ in 0..count {
        let case = match kind {
            "translate" => translate_case(&random_translate_call(&mut random)),
            "old_core" => old_run_case(random_old_run_call(&mut random)),
            "new_core" => new_run_case(random_new_run_call(&mut random)),
            "words" => calls::random_word_case(&mut random),
            _ => calls::random_case(&mut random),
        };
        out.write_all(&case)?;
    }
    out.flush()?;
    Ok(ExitCode::SUCCESS)
}

fn whole_file(bytes: &[u8]) -> io::Result<ExitCode> {
    io::stdout().lock().write_all(bytes)?;
    Ok(ExitCode::SUCCESS)
}

fn listing() -> io::Result<ExitCode> {
    let mut input = vec![];
    io::stdin().lock().read_to_end(&mut input)?;
    print!("{}", reading::listing::listing(&input));
    Ok(ExitCode::SUCCESS)
}

fn translated(base: u32, entries: Vec<u32>) -> io::Result<ExitCode> {
    let mut input = vec![];
    io::stdin().lock().read_to_end(&mut input)?;
    let image = Image::at(base, &input);
    let outcome = translate(image, &bytes(entries), 8_192 * 16, 2 * 8_192 * 12);
    print_outcome(&mut io::stdout().lock(), &outcome)?;
    Ok(if outcome.is_ok() {
        ExitCode::SUCCESS
    } else {
        ExitCode::FAILURE
    })
}
