//! Inputs of "Record in", of the question and of "Tree".

use crate::rooms::some_plan;
use crate::size::{by_definitions, capacities, some_count, some_walk};
use compare::damage::Damage;
use compare::records::record_length;
use compare::{AskedPlan, AskedRecord, GivenRecord, GivenTree, Tally};
use reference::cases::slicing::{SlicingPlan, PINWHEELS};
use reference::cases::Random;

/// Records of a turn.
const RECORDS: usize = 2;

/// Pairs of positions for each record.
const PAIRS: usize = 5;

/// Trees of so many rooms are always held to the definitions.
const SHORT: usize = 40;

/// Compares a record, and the same record with damage.
pub fn compare_some(tally: &mut Tally, random: &mut Random) {
    for given in some_records(random).map(GivenRecord::new) {
        let needed = [usize::from(kind(&given.input)); 2];
        let _ = tally.record_in(&given, capacities(needed, random));
    }
}

/// Asks for positions of a record, and of the same record with damage. In some
/// turns asks as often for rooms of a floorplan.
pub fn ask_some(tally: &mut Tally, random: &mut Random) {
    if random.below(8) == 0 {
        let plan = AskedPlan::new(&some_plan(random));
        if plan.rooms.len() > 1 {
            return ask_for_rooms(tally, &plan, random);
        }
    }
    for given in some_records(random).map(AskedRecord::new) {
        for _ in 0..PAIRS {
            let first = some_position(&given.input, random);
            let second = match random.below(8) {
                0 => first,
                _ => some_position(&given.input, random),
            };
            let _ = tally.question(&given, first, second);
        }
    }
}

/// Asks for rooms of a plan of two or more.
fn ask_for_rooms(tally: &mut Tally, plan: &AskedPlan, random: &mut Random) {
    let n = plan.rooms.len();
    for _ in 0..RECORDS * PAIRS {
        let first = random.below(n);
        let second = (first + random.between(1, n - 1)) % n;
        tally.question_of_rooms(plan, first, second);
    }
}

/// Compares the trees of a record, and of the same record with damage. In most
/// turns the plan is slicing, which hardly any large one is by chance.
pub fn cut_some(tally: &mut Tally, random: &mut Random) {
    let records = match random.below(4) {
        0 => some_records(random),
        _ => with_damage(some_slicing_record(random), random),
    };
    for record in records {
        let n = usize::from(kind(&record));
        let given = if by_definitions(n, SHORT, random) {
            GivenTree::new(record)
        } else {
            GivenTree::quick(record)
        };
        let needed = given.answer.as_ref().map_or(3 * n, Vec::len);
        let [capacity] = capacities([needed], random);
        let _ = tally.tree(&given, capacity);
    }
}

/// The record of a slicing plan, sometimes with a pinwheel in it.
fn some_slicing_record(random: &mut Random) -> Vec<u8> {
    let n = some_count(random);
    let plan = SlicingPlan::in_turn(n, random.below(2), random);
    if n <= 251 && random.below(8) == 0 {
        let walked = plan.with_a_pinwheel(random.below(n), random.pick(&PINWHEELS));
        return walked.record();
    }
    plan.record()
}

/// The kind byte of a record, 0 if there is none.
fn kind(record: &[u8]) -> u8 {
    record.first().copied().unwrap_or(0)
}

/// A position: mostly one of the record's rooms, often the first or the last,
/// but any number can come up.
fn some_position(record: &[u8], random: &mut Random) -> u8 {
    let n = kind(record);
    match random.below(16) {
        0 => 0,
        1 => 1,
        2 => n,
        3 => n.wrapping_add(1),
        4 => random.byte(),
        _ => 1 + random.byte() % n.max(1),
    }
}

/// A record that is accepted, and one with damage.
fn some_records(random: &mut Random) -> [Vec<u8>; RECORDS] {
    with_damage(some_walk(random).record(), random)
}

/// A record, and the same record with damage.
fn with_damage(record: Vec<u8>, random: &mut Random) -> [Vec<u8>; RECORDS] {
    let damaged = damaged(&record, random);
    [record, damaged]
}

/// A record with damage, or sometimes random bytes.
pub fn damaged(record: &[u8], random: &mut Random) -> Vec<u8> {
    match random.below(16) {
        0 => any_bytes(random.pick(&[0, 1, 2, 3, 98, 200]), random),
        1 => any_body(random),
        2 => {
            let damages: Vec<Damage> = Damage::all().collect();
            random.pick(&damages).record(random)
        }
        _ => {
            let mut record = record.to_vec();
            for _ in 0..random.pick(&[1, 1, 1, 1, 2, 3]) {
                damage(&mut record, random);
            }
            record
        }
    }
}

/// So many bytes.
fn any_bytes(length: usize, random: &mut Random) -> Vec<u8> {
    (0..length).map(|_| random.byte()).collect()
}

/// A kind, and as many bytes as it fixes.
fn any_body(random: &mut Random) -> Vec<u8> {
    let kind = random.pick(&[2, 3, 4, 5, 6, 9, 255]);
    let mut record = any_bytes(record_length(usize::from(kind)), random);
    record[0] = kind;
    record
}

/// Does some damage.
fn damage(record: &mut Vec<u8>, random: &mut Random) {
    let length = record.len();
    if length < 2 {
        return record.push(random.byte());
    }
    let place = random.between(1, length - 1);
    match random.below(12) {
        0..=3 => record[place] ^= 1 << random.below(8),
        4 | 5 => record[place] = random.byte(),
        // A bit of the last triple, or a spare one.
        6 => record[length - 1] ^= 1 << random.below(5),
        7 => record[0] = record[0].wrapping_add(random.pick(&[1, 255, 8])),
        8 => record[0] = random.pick(&[0, 1, 255]),
        9 => record.truncate(random.pick(&[length - 1, length - 1, place, 0])),
        10 => record.extend(any_bytes(random.pick(&[1, 1, 2, 100]), random)),
        _ => record.swap(1, place),
    }
}
