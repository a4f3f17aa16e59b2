//! Records in bulk, and how long they are.

use reference::cases::walk::Walked;
use reference::cases::worked;
use reference::Refusal;

/// The length of the record of `n` labels: the kind byte, then 3n − 3 bits
/// rounded up to whole bytes.
#[must_use]
pub fn record_length(n: usize) -> usize {
    1 + (3 * n).saturating_sub(3).div_ceil(8)
}

/// The records of the sheet's worked plans, the first nine of which are
/// accepted.
#[must_use]
pub fn worked_records() -> Vec<Vec<u8>> {
    let accepted = worked::LISTS.map(|(_, record)| record.to_vec());
    let refused = worked::REFUSED_RECORDS.map(|(record, _)| record.to_vec());
    let longest = Walked::rising(255).record();
    accepted
        .into_iter()
        .chain([longest])
        .chain(refused)
        .collect()
}

/// Records with one cause of a refusal, and with two of which the one comes
/// first that is named here; and large ones.
#[must_use]
pub fn refused_records() -> Vec<(Vec<u8>, Refusal)> {
    let of_255 = |first: u8, last: u8| {
        let mut record = vec![0; 97];
        (record[0], record[1], record[96]) = (255, first, last);
        record
    };
    let two_causes = [
        (vec![], Refusal::NoKind),
        (vec![0x00, 0x60], Refusal::NoKind),    // and bytes after
        (vec![0x04, 0x60], Refusal::BodyShort), // and a run missing
        (vec![0x02, 0xc1, 0x00], Refusal::BytesAfter), // and 14 and 12
        (vec![0x02, 0x00, 0x01], Refusal::BytesAfter), // and 13
        (vec![0x02, 0x61], Refusal::SpareBit),  // and 12
        (vec![0x02, 0x01], Refusal::SpareBit),  // and 13
        (vec![0x03, 0x60], Refusal::RunMissing), // and 13
        (vec![255; 96], Refusal::BodyShort),
        (vec![255; 98], Refusal::BytesAfter),
        (of_255(0, 0x20), Refusal::SpareBit),
        (of_255(0x60, 0), Refusal::RunMissing),
        (of_255(0, 0), Refusal::RunsLeft),
    ];
    let printed = worked::REFUSED_RECORDS.map(|(record, refusal)| (record.to_vec(), refusal));
    printed.into_iter().chain(two_causes).collect()
}
