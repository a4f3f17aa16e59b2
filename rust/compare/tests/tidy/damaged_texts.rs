//! Texts with damage: each refusal for its own cause, and in the order 18, 1,
//! 6, 7, 8, 15 where there are several.

use compare::text_damage::TextDamage;
use compare::{each_times, Tally};
use reference::cases::text::{damage_text, typed_text};
use reference::cases::walk::{list_in_turn, some_count};
use reference::cases::Random;
use reference::{numbers_in, Refusal};

#[test]
fn every_damage_alone_and_with_every_other() {
    const TEXTS: usize = 300;
    let damages = each_times(TextDamage::all(), TEXTS);
    let tally = Tally::of_rounds("damaged texts", 211, damages, |tally, random, damage| {
        let text = damage.text(random);
        if let Some(refusal) = damage.refusal() {
            tally.expect_refused_text(&text, refusal);
        } else {
            let needed = tally.tidy(&text, nenturxo::TIDY_CAPACITY);
            let needed = needed.expect("a text without damage is accepted");
            tally.expect_tidy_length(&text, needed, needed);
            tally.expect_tidy_length(&text, needed, needed - 1);
        }
    });
    // Of the 32 combinations half break the form; of the others half have too
    // many numbers; and so on.
    let counts = [16, 8, 4, 2, 1].map(|combinations| combinations * 3 * TEXTS);
    tally.expect_refused(Refusal::OF_TEXTS, counts);
    tally.expect_refused([Refusal::SliceShort], [TEXTS]);
    assert_eq!(tally.accepted(), 2 * TEXTS);
    tally.finish(TextDamage::COUNT * 3 * TEXTS);
}

/// Compares a text of a random list with one slip of the finger, and with some
/// more.
fn compare_slips(tally: &mut Tally, n: usize, round: usize, random: &mut Random) {
    let labels = list_in_turn(n, round, random).labels;
    let sound = typed_text(&labels, random);
    for slips in [1, 1, 2, 3] {
        let mut text = sound.clone();
        for _ in 0..slips {
            damage_text(&mut text, random);
        }
        let _ = tally.tidy(&text, random.pick(&[0, 2, 9, 911, 912, 1000]));
    }
}

#[test]
fn slips_in_short_texts() {
    const TEXTS: usize = 20_000;
    let name = "slips in texts of up to 7 labels";
    let tally = Tally::of_rounds(name, 212, 0..TEXTS, |tally, random, round| {
        compare_slips(tally, 1 + round % 7, round, random);
    });
    // 1 takes a text of one label that is dropped; 8 hardly comes up.
    tally.expect_often(TEXTS / 4, &[Refusal::TextForm, Refusal::LabelOutside]);
    tally.expect_often(TEXTS / 20, &[Refusal::LabelTwice, Refusal::SliceShort]);
    assert!(tally.accepted() > TEXTS / 4, "{}", tally.accepted());
    tally.finish(4 * TEXTS);
}

#[test]
fn slips_in_texts_of_any_length() {
    const TEXTS: usize = 4_000;
    let name = "slips in texts of any length";
    let tally = Tally::of_rounds(name, 213, 0..TEXTS, |tally, random, round| {
        compare_slips(tally, some_count(random), round, random);
    });
    tally.expect_often(TEXTS / 4, &[Refusal::TextForm, Refusal::LabelOutside]);
    assert!(tally.accepted() > TEXTS / 20, "{}", tally.accepted());
    tally.finish(4 * TEXTS);
}

#[test]
fn any_bytes() {
    const TEXTS: usize = 20_000;
    let name = "any bytes as texts";
    let tally = Tally::of_rounds(name, 214, 0..TEXTS, |tally, random, _| {
        let length = random.pick(&[0, 1, 2, 3, 5, 8, 20, 100, 1000]);
        let bytes: Vec<u8> = (0..length).map(|_| random.byte()).collect();
        let _ = tally.tidy(&bytes, 20);
        // Bytes of the form only.
        let bytes: Vec<u8> = (0..length).map(|_| random.pick(b"1234  ,\n")).collect();
        let _ = tally.tidy(&bytes, 20);
        // And only such that most texts of them keep it.
        let bytes: Vec<u8> = (0..length).map(|_| random.pick(b"123     ")).collect();
        let kept = numbers_in(&bytes).is_some();
        let answer = tally.tidy(&bytes, 20);
        assert_eq!(kept, answer != Err(Refusal::TextForm), "{bytes:?}");
    });
    tally.expect_often(TEXTS / 100, &Refusal::OF_TEXTS[..4]);
    assert!(tally.accepted() > TEXTS / 100, "{}", tally.accepted());
    tally.finish(3 * TEXTS);
}
