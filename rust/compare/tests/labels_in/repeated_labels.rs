//! Repeated labels: in long lists each label twice, in place of each other one.
//! So each of the 255 marks of seen labels is asked for while every other one,
//! in turn, stays unset.

use compare::label_damage::barred;
use compare::Tally;
use reference::cases::walk::random_list;
use reference::cases::Random;
use reference::Refusal;

/// As many labels as there can be.
const LONGEST: u8 = 255;

/// Puts each label in place of each other one. Each list has then a label twice.
fn repeat_each(tally: &mut Tally, labels: &[u8]) {
    let mut repeated = labels.to_vec();
    for place in 0..labels.len() {
        for label in (1..=LONGEST).filter(|&label| label != labels[place]) {
            repeated[place] = label;
            tally.expect_refusal(&repeated, 100, Refusal::LabelTwice);
        }
        repeated[place] = labels[place];
    }
}

#[test]
fn each_label_in_place_of_each_other_one() {
    let rising: Vec<u8> = (1..=LONGEST).collect();
    let falling: Vec<u8> = rising.iter().rev().copied().collect();
    let random = random_list(255, &mut Random::from_seed(31)).labels;
    let mut tally = Tally::new("each label in place of each other one");
    for labels in [rising, falling, random] {
        repeat_each(&mut tally, &labels);
    }
    tally.finish(3 * 255 * 254);
}

#[test]
fn a_label_twice_in_a_barred_list_is_7_wherever_the_two_stand() {
    const LISTS: usize = 40;
    let name = "a label twice in a barred list";
    let tally = Tally::of_rounds(name, 32, 0..LISTS, |tally, random, _| {
        let labels = barred(random);
        tally.expect_refusal(&labels, 100, Refusal::BarredPattern);
        let last = labels.len() - 1;
        for place in 1..last {
            for end in [0, last] {
                let mut repeated = labels.clone();
                repeated[end] = labels[place];
                tally.expect_refusal(&repeated, 100, Refusal::LabelTwice);
            }
        }
    });
    tally.expect_often(LISTS, &[Refusal::LabelTwice]);
    tally.finish(LISTS);
}
