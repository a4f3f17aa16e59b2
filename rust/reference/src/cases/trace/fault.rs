//! Moves that are refused.

use super::{runs_after, Draft, Habits, ALL_TRIPLES};
use crate::cases::Random;
use crate::{Refusal, TraceRefusal};

/// What can be wrong with a move.
#[derive(Clone, Copy, Debug, PartialEq, Eq)]
pub enum Fault {
    /// It has an unknown kind.
    UnknownKind,
    /// It lacks its body. Nothing may follow it.
    NoBody,
    /// It has a triple above 7.
    TripleAbove7,
    /// It adds a room past 255, whose triple may need a run that is missing.
    TooManyRooms,
    /// It takes the only room away.
    OnlyRoom,
    /// It has a triple that needs a run that is missing.
    RunMissing,
    /// It claims that one run is left, and there are more.
    RunsLeft,
}

impl Fault {
    /// All of them.
    pub const ALL: [Self; 7] = [
        Self::UnknownKind,
        Self::NoBody,
        Self::TripleAbove7,
        Self::TooManyRooms,
        Self::OnlyRoom,
        Self::RunMissing,
        Self::RunsLeft,
    ];

    /// What a move with this fault is refused with.
    #[must_use]
    pub const fn refusal(self) -> Refusal {
        match self {
            Self::UnknownKind | Self::NoBody | Self::TripleAbove7 => Refusal::BadMove,
            Self::TooManyRooms => Refusal::ListLength,
            Self::OnlyRoom => Refusal::OnlyRoom,
            Self::RunMissing => Refusal::RunMissing,
            Self::RunsLeft => Refusal::RunsLeft,
        }
    }
}

/// A trace with a refused move.
#[derive(Clone, Debug)]
pub struct Faulty {
    /// The moves before it.
    pub before: Draft,
    /// The bytes of the trace: those moves, the refused one, and mostly some more,
    /// which count for nothing.
    pub bytes: Vec<u8>,
    /// What the trace is answered with.
    pub refused: TraceRefusal,
}

impl Draft {
    /// Goes on until the next move can have a fault, which it then has.
    pub fn with_fault(mut self, fault: Fault, random: &mut Random) -> Faulty {
        while !self.can_have(fault) {
            match fault {
                Fault::TooManyRooms => {
                    let next = self.bytes.len() + 2;
                    self.go_on_to(next, Habits::new(1, 0, 0), random);
                }
                Fault::RunsLeft if self.rooms() < 255 => self.add(random.pick(&[0b000, 0b001])),
                _ => self.take_away(),
            }
        }
        let mut bytes = [&self.bytes[..], &self.bytes_with(fault, random)].concat();
        if fault != Fault::NoBody {
            let more = random.pick(&[0, 1, 2, 9]);
            bytes.extend((0..more).map(|_| random.byte() % 9));
        }
        Faulty {
            refused: self.refused(fault.refusal()),
            bytes,
            before: self,
        }
    }

    /// Whether the next move can have a fault.
    fn can_have(&self, fault: Fault) -> bool {
        match fault {
            Fault::UnknownKind | Fault::NoBody | Fault::TripleAbove7 => true,
            Fault::TooManyRooms => self.rooms() == 255,
            Fault::OnlyRoom => self.rooms() == 1,
            Fault::RunMissing => self.rooms() < 255 && !self.lacking().is_empty(),
            Fault::RunsLeft => self.runs() > 1,
        }
    }

    /// The triples that need a run that is missing, by their numbers.
    fn lacking(&self) -> Vec<u8> {
        let lacks = |&triple: &u8| runs_after(self.counts(), triple).is_none();
        (0..8).filter(lacks).collect()
    }

    /// A move with a fault that it can have.
    fn bytes_with(&self, fault: Fault, random: &mut Random) -> Vec<u8> {
        let above = |least: usize, random: &mut Random| {
            let any = random.between(least, 255) as u8;
            random.pick(&[least as u8, 128 + 1, 128 + 2, 128 + 3, 255, any])
        };
        match fault {
            Fault::UnknownKind => {
                let large = above(4, random);
                vec![random.pick(&[0, large])]
            }
            Fault::NoBody => vec![1],
            Fault::TripleAbove7 => vec![1, above(8, random)],
            Fault::TooManyRooms => vec![1, random.pick(ALL_TRIPLES)],
            Fault::OnlyRoom => vec![2],
            Fault::RunMissing => vec![1, random.pick(&self.lacking())],
            Fault::RunsLeft => vec![3],
        }
    }
}

#[cfg(test)]
mod tests {
    use super::{Draft, Fault, Habits};
    use crate::cases::Random;
    use crate::trace;

    #[test]
    fn faults_are_refused_for_their_causes() {
        let mut random = Random::from_seed(244);
        for round in 0..700 {
            let (length, habits) = (random.below(60), Habits::some(&mut random));
            let draft = Draft::random(length, habits, &mut random);
            let fault = Fault::ALL[round % 7];
            let faulty = draft.with_fault(fault, &mut random);
            let before = &faulty.before;
            let mut entries = vec![0; before.entries.len()];
            assert_eq!(trace(&before.bytes, &mut entries), Ok(before.answer()));
            assert_eq!(entries, before.entries);
            let answer = trace(&faulty.bytes, &mut []);
            assert_eq!(answer, Err(faulty.refused), "{faulty:02x?}");
        }
    }
}
