//! Inputs of "Tidy".

use crate::labels::damaged;
use crate::size::{by_definitions, capacities, some_walk};
use compare::text_damage::{break_form, put_a_number_outside};
use compare::Tally;
use reference::cases::text::{damage_text, typed_text};
use reference::cases::Random;
use reference::tidy_form;

/// Texts with damage for each text of a Baxter list.
const DAMAGED: usize = 3;

/// Texts of lists of so many labels are always held to the definitions.
const SHORT: usize = 16;

/// Compares a text of a Baxter list, and other texts of the same list with
/// damage.
pub fn compare_some(tally: &mut Tally, random: &mut Random) {
    let list = some_walk(random).labels;
    let text = match random.below(4) {
        0 => tidy_form(&list),
        _ => typed_text(&list, random),
    };
    compare(tally, &text, &list, random);
    for _ in 0..DAMAGED {
        compare(tally, &damaged_text(&list, random), &list, random);
    }
}

/// Compares a text of a list, or one with damage, in a slice of some length.
fn compare(tally: &mut Tally, text: &[u8], list: &[u8], random: &mut Random) {
    let [capacity] = capacities([tidy_form(list).len()], random);
    let _ = if by_definitions(list.len(), SHORT, random) {
        tally.tidy(text, capacity)
    } else {
        tally.tidy_quickly(text, capacity)
    };
}

/// A text of a list with damage, or sometimes random bytes.
fn damaged_text(list: &[u8], random: &mut Random) -> Vec<u8> {
    match random.below(16) {
        0 => any_bytes(random),
        1 | 2 => {
            let mut text = typed_text(list, random);
            break_form(&mut text, random);
            text
        }
        3 | 4 => {
            let mut numbers: Vec<u16> = list.iter().copied().map(u16::from).collect();
            put_a_number_outside(&mut numbers, random);
            typed_text(&numbers, random)
        }
        // The labels have the damage, and the text keeps the form.
        5..=10 => typed_text(&damaged(list, random), random),
        _ => {
            let mut text = typed_text(list, random);
            for _ in 0..random.pick(&[1, 1, 1, 2, 3]) {
                damage_text(&mut text, random);
            }
            text
        }
    }
}

/// Bytes of any number, of the form only, or such that most texts keep it.
fn any_bytes(random: &mut Random) -> Vec<u8> {
    let length = random.pick(&[0, 1, 2, 3, 5, 20, 100, 4095, 4096, 4097]);
    let choices: &[u8] = random.pick(&[b"", b"123  ,\n", b"12   "]);
    (0..length)
        .map(|_| match choices {
            [] => random.byte(),
            _ => random.pick(choices),
        })
        .collect()
}
