//! Lists with damage: each refusal for its own cause, and in the order 1, 6, 7
//! where there are several, whatever patterns there are.

use compare::label_damage::{barred, outside, repeated, sound};
use compare::{report, Tally};
use nenturxo::RECORD_CAPACITY;
use reference::cases::Random;
use reference::Refusal;

/// A name, a seed, the refusal and the damaged lists that have it.
type Damaged = (&'static str, u64, Refusal, fn(&mut Random) -> Vec<u8>);

/// Damage anywhere, alone and beside damage that is named later.
const DAMAGED: [Damaged; 6] = [
    ("a label outside", 431, Refusal::LabelOutside, |random| {
        outside(sound(random), random)
    }),
    ("a repeated label", 432, Refusal::LabelTwice, |random| {
        repeated(sound(random), 1, random)
    }),
    ("7 beside a pattern", 433, Refusal::LabelTwice, |random| {
        repeated(barred(random), 1, random)
    }),
    ("6 beside a pattern", 434, Refusal::LabelOutside, |random| {
        outside(barred(random), random)
    }),
    ("6 before 7", 435, Refusal::LabelOutside, |random| {
        let labels = barred(random);
        let times = random.between(1, 4);
        outside(repeated(labels, times, random), random)
    }),
    ("1 before 6 and 7", 436, Refusal::ListLength, |random| {
        let labels = outside(barred(random), random);
        let length = random.pick(&[256, 257, 300, 512]);
        labels.into_iter().cycle().take(length).collect()
    }),
];

#[test]
fn a_label_outside_is_6_else_a_repeated_one_7() {
    const LISTS: usize = 3_000;
    for (name, seed, refusal, damaged) in DAMAGED {
        let tally = Tally::of_rounds(name, seed, 0..LISTS, |tally, random, _| {
            let labels = damaged(random);
            assert_eq!(tally.pattern(&labels), Err(refusal), "{labels:?}");
        });
        tally.expect_refused([refusal], [LISTS]);
        tally.finish(LISTS);
    }
}

#[test]
fn damage_at_the_last_place_beats_damage_at_the_first() {
    let mut tally = Tally::new("damage at the ends");
    let mut expect = |labels: &[u8], refusal: Refusal| {
        assert_eq!(tally.pattern(labels), Err(refusal), "{labels:?}");
    };
    for n in 5..=255u8 {
        let last = usize::from(n) - 1;

        // 2 4 1 3 at the front is barred; the last label repeats the one before.
        let mut labels: Vec<u8> = (1..=n).collect();
        labels[..4].copy_from_slice(&[2, 4, 1, 3]);
        labels[last] = labels[last - 1];
        expect(&labels, Refusal::LabelTwice);
        labels[last] = 0;
        expect(&labels, Refusal::LabelOutside);

        // The first two labels are the same; the last one is outside.
        let mut labels: Vec<u8> = (1..=n).collect();
        labels[1] = labels[0];
        expect(&labels, Refusal::LabelTwice);
        labels[last] = n.checked_add(1).unwrap_or(0);
        expect(&labels, Refusal::LabelOutside);

        // More than 255 entries beat everything.
        labels.resize(256, 0);
        expect(&labels, Refusal::ListLength);
    }
    tally.finish(251 * 5);
}

/// One label put at every other place, and one label outside at every place.
#[test]
fn one_label_changed_at_every_place() {
    let mut tally = Tally::new("one label changed");
    for n in [2, 5, 40, 62, 63, 64, 65, 254, 255u8] {
        let labels: Vec<u8> = (1..=n).rev().collect();
        for place in 0..labels.len() {
            let mut changed = labels.clone();
            for entry in [0, 1, n / 2 + 1, n, n.wrapping_add(1), 64, 128, 192, 255] {
                changed[place] = entry;
                let expected = if entry == labels[place] {
                    Ok(None)
                } else if (1..=n).contains(&entry) {
                    Err(Refusal::LabelTwice)
                } else {
                    Err(Refusal::LabelOutside)
                };
                tally.expect_pattern(&changed, expected);
            }
        }
    }
    tally.expect_often(1_000, &Refusal::OF_PATTERNS[1..]);
    tally.finish(9 * (2 + 5 + 40 + 62 + 63 + 64 + 65 + 254 + 255));
}

/// What "Labels in" of the library answers, in numbers: 0 if it accepts.
fn number_of_labels_in(labels: &[u8]) -> u32 {
    let mut record = [0; RECORD_CAPACITY];
    let refusal = nenturxo::labels_in(labels, &mut record).err();
    refusal.map_or(0, |refusal| refusal.number())
}

/// The library against itself: sound lists, barred ones and damaged ones.
#[test]
fn a_pattern_is_named_exactly_where_labels_in_gives_8() {
    let mut answers = [0; 9];
    let mut random = Random::from_seed(437);
    for round in 0..12_000 {
        let labels = match round % 8 {
            0 => sound(&mut random),
            1 => barred(&mut random),
            kind => DAMAGED[kind - 2].3(&mut random),
        };
        let number = match nenturxo::pattern(&labels) {
            Ok(None) => 0,
            Ok(Some(_)) => 8,
            Err(refusal) => refusal.number(),
        };
        assert_eq!(number_of_labels_in(&labels), number, "{labels:?}");
        answers[number as usize] += 1;
    }
    report(format_args!("lists by what Labels in says: {answers:?}"));
    for number in [0, 1, 6, 7, 8] {
        assert!(answers[number] > 1_000, "{answers:?}");
    }
}
