//! What the tests of this folder share.

use reference::cases::unwritten;
use reference::{rooms_in, Contacts, Numbering, Refusal, Relation, Room};
use std::collections::BTreeMap;

/// Asks Rooms in, with slices that are longer than needed. The rest of each
/// must stay as it was, and all of them on a refusal.
pub fn ask(rooms: &[Room]) -> Result<Numbering, Refusal> {
    let lengths = [100, 300, 301, 302];
    let mut written = unwritten(lengths);
    let length = rooms_in(rooms, written.slices());
    let (used, n) = length.map_or((0, 0), |length| (length, rooms.len()));
    let rest = Numbering {
        record: written.record.split_off(used),
        labels: written.labels.split_off(n),
        positions: written.positions.split_off(n),
        names: written.names.split_off(n),
    };
    let used = [used, n, n, n];
    assert_eq!(
        rest,
        unwritten([0, 1, 2, 3].map(|slice| lengths[slice] - used[slice]))
    );
    length.map(|_| written)
}

/// The labels by position; every position must occur once.
pub fn label_list(answer: &Numbering) -> Vec<u8> {
    (1..=u8::try_from(answer.labels.len()).unwrap())
        .map(|position| {
            let mut at = (0..answer.labels.len()).filter(|&at| answer.positions[at] == position);
            let label = answer.labels[at.next().unwrap()];
            assert_eq!(at.next(), None, "{answer:?}");
            label
        })
        .collect()
}

/// How the rooms of each pair of positions stand to each other and whether they
/// touch, given the position of each room.
pub fn standings(rooms: &[Room], positions: &[u8]) -> BTreeMap<[u8; 2], (Relation, bool)> {
    let contacts = Contacts::of(rooms);
    let chains = contacts.chains();
    let mut standings = BTreeMap::new();
    for a in 0..rooms.len() {
        for b in (0..rooms.len()).filter(|&b| b != a) {
            let standing = (chains.relation(a, b), contacts.touch(a, b));
            standings.insert([positions[a], positions[b]], standing);
        }
    }
    standings
}
