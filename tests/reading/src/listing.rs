//! 01, "One listing in full".

use crate::old_core::Image;
use crate::translator::{answer_of, bytes, translate};

/// "The program reads from standard input an image of up to 1,024 bytes, base 0, entry 0, with 512 places
/// and 1,024 records." What it prints.
pub fn listing(input: &[u8]) -> String {
    // "A refusal prints the line of names "refused detail", then a line with the two values. Longer input
    // prints 1 1025 under those names."
    if input.len() > 1_024 {
        return "refused detail\n1 1025\n".to_string();
    }
    let image = Image::at(0, input);
    let outcome = translate(image, &bytes([0]), 512 * 16, 1_024 * 12);
    let translation = match &outcome {
        Err(_) => {
            let answer = answer_of(&outcome);
            return format!("refused detail\n{} {}\n", answer.number, answer.first);
        }
        Ok(translation) => translation,
    };
    // "Its output opens with this line of names: place number, source address, next, kind, first record.
    // Records follow under theirs."
    let mut text = "place address next kind record\n".to_string();
    for (place, row) in translation.rows.iter().enumerate() {
        text += &format!(
            "{} {} {} {} {}\n",
            place, row.address, row.next, row.kind, row.first_record
        );
    }
    text += "kind first second\n";
    for record in &translation.records {
        text += &format!("{} {} {}\n", record.kind, record.first, record.second);
    }
    text
}
