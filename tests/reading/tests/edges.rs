//! The edges: this reading's answers beside those worked out by hand, and the files of cases that hold them.

use std::fs;

use reading::core_edges::{new_edges, new_edges_file, old_edges, old_edges_file, Edge};
use reading::edges::{edges, edges_file, listings, listings_file};
use reading::listing::listing;
use reading::old_core::Image;
use reading::translator::{answer_of, translate};

#[test]
fn answers_are_those_by_hand() {
    for (position, edge) in edges().iter().enumerate() {
        let call = &edge.call;
        let image = Image::at(call.base, &call.image);
        let outcome = translate(
            image,
            &call.entries,
            call.places_length,
            call.records_length,
        );
        let answer = answer_of(&outcome);
        let numbers = (answer.number, answer.first, answer.second);
        assert_eq!(numbers, edge.answer, "edge {position}: {call:?}");
    }
}

#[test]
fn listings_are_those_by_hand() {
    for (input, start) in listings() {
        let text = listing(&input);
        assert!(text.starts_with(start), "{} bytes: {text}", input.len());
        assert!(
            start.starts_with("place") || text == start,
            "{} bytes",
            input.len()
        );
    }
}

/// What a run left, and its end, are those by hand.
fn held_to<Program>(edge: &Edge<Program>, state: &[u8], data: &[u8], end: u32, position: usize) {
    let by_hand = edge.answer();
    assert!(state == by_hand.0, "edge {position}: {state:?}");
    assert!(data == by_hand.1, "edge {position}");
    assert_eq!(end, edge.end(), "edge {position}");
}

#[test]
fn old_runs_are_those_by_hand() {
    for (position, edge) in old_edges().iter().enumerate() {
        let mut call = edge.call();
        let (end, _) = call.run();
        held_to(edge, &call.state, &call.data, end, position);
    }
}

#[test]
fn new_runs_are_those_by_hand() {
    for (position, edge) in new_edges().iter().enumerate() {
        let mut call = edge.call();
        let (end, _) = call.run();
        held_to(edge, &call.state, &call.data, end, position);
    }
}

/// Every end of each core is there, but the traps of the old one.
#[test]
fn every_end_is_met() {
    let old: Vec<u32> = old_edges().iter().map(|edge| edge.end()).collect();
    let new: Vec<u32> = new_edges().iter().map(|edge| edge.end()).collect();
    for (name, ends, known) in [
        ("old", old, vec![0, 2, 3, 4, 5, 8, 9]),
        ("new", new, (0..=9).collect()),
    ] {
        println!("{name}: {}", ends.len());
        for end in known {
            let met = ends.iter().filter(|met| **met == end).count();
            println!("end {end}: {met}");
            assert!(met > 0, "{name} core, end {end}");
        }
    }
}

/// Every answer's number is there, accepted ones too.
#[test]
fn every_answer_is_met() {
    for number in 0..=6 {
        let met = edges()
            .iter()
            .filter(|edge| edge.answer.0 == number)
            .count();
        println!("answer {number}: {met}");
        assert!(met > 5, "answer {number}");
    }
    println!("edges: {}", edges().len());
}

#[test]
fn files_are_these() {
    let data = concat!(env!("CARGO_MANIFEST_DIR"), "/../../crates/cases/data/");
    for (name, made) in [
        ("edges.bin", edges_file()),
        ("old_core_edges.bin", old_edges_file()),
        ("new_core_edges.bin", new_edges_file()),
        ("listings.bin", listings_file()),
    ] {
        let stored = fs::read(format!("{data}{name}")).unwrap();
        assert!(stored == made, "{name} is not what 'reading file' writes");
    }
}
