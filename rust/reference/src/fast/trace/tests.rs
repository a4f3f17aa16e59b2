use crate::cases::trace::{Draft, Fault, Habits, ONE_RUN};
use crate::cases::{every_list, Random};
use crate::{fast, trace, Refusal, TraceRefusal, Traced};

/// Compares the two versions in a slice of so many entries, and gives the
/// answer.
fn compare(bytes: &[u8], capacity: usize) -> Result<Traced, TraceRefusal> {
    let [mut expected, mut found] = [vec![0xa5a5; capacity], vec![0xa5a5; capacity]];
    let answer = trace(bytes, &mut expected);
    let fast = fast::trace(bytes, &mut found);
    assert_eq!(fast, answer, "{bytes:02x?} into {capacity}");
    assert!(found == expected, "{bytes:02x?} into {capacity}");
    answer
}

/// Holds the tuned version to what is known of a trace.
fn check(draft: &Draft) {
    let mut entries = vec![0xa5a5; draft.entries.len() + 1];
    let answer = fast::trace(&draft.bytes, &mut entries);
    assert_eq!(answer, Ok(draft.answer()), "{:02x?}", draft.bytes);
    assert_eq!(entries.pop(), Some(0xa5a5));
    assert!(entries == draft.entries, "{:02x?}", draft.bytes);
    if let Some(fewer) = draft.entries.len().checked_sub(1) {
        let mut short = vec![0xa5a5; fewer];
        let answer = fast::trace(&draft.bytes, &mut short);
        assert_eq!(answer, Err(Refusal::SliceShort.into()));
        assert!(short.iter().all(|&entry| entry == 0xa5a5));
    }
}

#[test]
fn agrees_with_the_definitions_on_every_trace_of_up_to_6_bytes() {
    const BYTES: [u8; 7] = [0, 1, 2, 3, 4, 7, 8];
    let mut accepted = 0;
    for length in 0..=6 {
        for digits in every_list(6, length) {
            let bytes: Vec<u8> = digits
                .iter()
                .map(|&digit| BYTES[usize::from(digit)])
                .collect();
            for capacity in [2, 7] {
                accepted += usize::from(compare(&bytes, capacity).is_ok());
            }
        }
    }
    assert!(accepted > 250, "{accepted}");
}

/// Here the first eight bytes are taken at once.
#[test]
fn agrees_with_the_definitions_on_traces_of_a_few_bytes_more_than_a_word() {
    let mut accepted = 0;
    for length in 8..=10 {
        for digits in every_list(2, length) {
            let bytes: Vec<u8> = digits.iter().map(|digit| 1 + digit).collect();
            accepted += usize::from(compare(&bytes, 10).is_ok());
        }
    }
    assert!(accepted > 1_000, "{accepted}");
}

#[test]
fn agrees_with_the_definitions_on_random_traces_of_every_length() {
    let mut random = Random::from_seed(261);
    for length in 0..400 {
        for _ in 0..4 {
            let draft = Draft::random(length, Habits::some(&mut random), &mut random);
            let _ = compare(&draft.bytes, length);
            check(&draft);
        }
    }
}

#[test]
fn agrees_with_the_definitions_on_damaged_traces() {
    let mut random = Random::from_seed(262);
    let mut refused = [0; Refusal::ALL.len() + 1];
    for round in 0..4_000 {
        let length = random.pick(&[3, 9, 20, 124, 125, 126, 200, 300]);
        let draft = Draft::random(length, Habits::some(&mut random), &mut random);
        let mut bytes = draft.bytes;
        for _ in 0..random.pick(&[1, 1, 2, 3]) {
            let place = random.below(bytes.len());
            match random.below(4) {
                0 => drop(bytes.remove(place)),
                1 => bytes.insert(place, random.pick(&[1, 2, 3])),
                2 => bytes[place] = random.byte(),
                _ => bytes[place] = random.pick(&[0, 1, 2, 3, 4, 7, 8]),
            }
            bytes.push(random.pick(&[1, 2, 3]));
        }
        if let Err(bad) = compare(&bytes, [bytes.len(), 9][round % 2]) {
            refused[usize::from(bad.refusal.number())] += 1;
        }
    }
    for number in [28, 29, 12, 13, 15] {
        assert!(refused[number] > 100, "{number}: {refused:?}");
    }
}

#[test]
fn agrees_with_the_definitions_on_every_fault() {
    let mut random = Random::from_seed(263);
    for round in 0..70 {
        for fault in Fault::ALL {
            let length = random.below(40 + 10 * round);
            let draft = Draft::random(length, Habits::some(&mut random), &mut random);
            let faulty = draft.with_fault(fault, &mut random);
            check(&faulty.before);
            assert_eq!(compare(&faulty.bytes, 2_000), Err(faulty.refused));
        }
    }
}

#[test]
fn goes_through_traces_of_65_535_bytes() {
    let mut random = Random::from_seed(264);
    for length in [65_535, 65_534, 65_529, 65_528] {
        check(&Draft::random(length, Habits::new(1, 1, 0), &mut random));
        check(&Draft::random(length, Habits::new(9, 8, 3), &mut random));
        let claims = Habits::new(1, 1, 50).with(ONE_RUN);
        check(&Draft::random(length, claims, &mut random));
        check(&Draft::up_and_down(254, length, &mut random));
        check(&Draft::up_and_down(7, length, &mut random));
        check(&Draft::alternating(100, length, &mut random));
        check(&Draft::alternating(254, length, &mut random));
    }
}

#[test]
fn a_trace_of_65_536_bytes_is_too_long() {
    for byte in [0, 1, 2, 3] {
        let bytes = [byte; 65_536];
        for capacity in [0, 65_536] {
            let answer = compare(&bytes, capacity);
            assert_eq!(answer, Err(Refusal::BookLength.into()));
        }
    }
}

#[test]
fn the_256th_room_is_refused_wherever_it_stands() {
    let mut random = Random::from_seed(265);
    for before in 0..20 {
        for after in 0..10 {
            let mut draft = Draft::random(before, Habits::new(0, 0, 1), &mut random);
            let up = before + 2 * 254;
            draft.go_on_to(up, Habits::new(1, 0, 0), &mut random);
            check(&draft);
            for triple in 0..9 {
                let more = [&[1, triple][..], &[2; 10][..after]].concat();
                let bytes = [&draft.bytes[..], &more].concat();
                let refusal = if triple > 7 {
                    Refusal::BadMove
                } else {
                    Refusal::ListLength
                };
                assert_eq!(compare(&bytes, 600), Err(draft.refused(refusal)));
            }
        }
    }
}
