//! Traces, made move by move, so that what they come to is known.

mod fault;

pub use fault::{Fault, Faulty};

use super::walk::Walked;
use super::Random;
use crate::{Refusal, RefusedMove, TraceRefusal, Traced, Triple};
use std::iter::repeat_n;

/// All triples, by their numbers.
pub const ALL_TRIPLES: &[u8] = &[0, 1, 2, 3, 4, 5, 6, 7];

/// Those that leave the runs as they are.
pub const ONE_RUN: &[u8] = &[0b010, 0b101];

/// The moves that add these triples, whatever they need.
#[must_use]
pub fn adds(triples: &[Triple]) -> Vec<u8> {
    triples
        .iter()
        .flat_map(|&triple| [1, number(triple)])
        .collect()
}

/// The number of a triple, the first bit worth 4.
fn number(triple: Triple) -> u8 {
    let [first, second, third] = triple.map(u8::from);
    4 * first + 2 * second + third
}

/// The runs below the current one and those above it after the triple with this
/// number, if none is missing.
fn runs_after((p, q): (usize, usize), triple: u8) -> Option<(usize, usize)> {
    match triple {
        0b000 => Some((p + 1, q)),
        0b100 => Some((p + 1, q.checked_sub(1)?)),
        0b110 => Some((p, q.checked_sub(1)?)),
        0b001 => Some((p, q + 1)),
        0b011 => Some((p.checked_sub(1)?, q + 1)),
        0b111 => Some((p.checked_sub(1)?, q)),
        _ => Some((p, q)),
    }
}

/// How often which moves come up, by their weights, where they are possible, and
/// with which triples.
#[derive(Clone, Copy, Debug)]
pub struct Habits {
    adds: usize,
    take_aways: usize,
    claims: usize,
    triples: &'static [u8],
}

impl Habits {
    /// Adds, take-aways and claims with these weights, and any triples.
    #[must_use]
    pub const fn new(adds: usize, take_aways: usize, claims: usize) -> Self {
        Self {
            adds,
            take_aways,
            claims,
            triples: ALL_TRIPLES,
        }
    }

    /// The same with these triples only, by their numbers.
    #[must_use]
    pub const fn with(self, triples: &'static [u8]) -> Self {
        Self { triples, ..self }
    }

    /// Some habits: with many rooms or few, with many runs or few.
    pub fn some(random: &mut Random) -> Self {
        let [adds, take_aways, claims] = [(); 3].map(|()| random.pick(&[1, 1, 2, 4, 12]));
        let triples = random.pick(&[
            ALL_TRIPLES,
            ALL_TRIPLES,
            ALL_TRIPLES,
            ONE_RUN,
            &[0, 1, 3, 4, 6, 7],
            &[0, 2, 7],
            &[1, 5, 6],
        ]);
        Self::new(adds, take_aways, claims).with(triples)
    }
}

/// The kinds of moves.
#[derive(Clone, Copy)]
enum Kind {
    Add,
    TakeAway,
    Claim,
}

/// A trace whose moves are all accepted, and what they come to.
#[derive(Clone, Debug)]
pub struct Draft {
    /// The bytes of the moves.
    pub bytes: Vec<u8>,
    /// Where each move begins.
    pub places: Vec<usize>,
    /// After each move 256 × rooms + runs.
    pub entries: Vec<u16>,
    /// With each room that is present p and q.
    rooms: Vec<(usize, usize)>,
}

impl Default for Draft {
    /// No move yet: one room.
    fn default() -> Self {
        Self {
            bytes: Vec::new(),
            places: Vec::new(),
            entries: Vec::new(),
            rooms: vec![(0, 0)],
        }
    }
}

impl Draft {
    /// The trace that adds the rooms of a walk.
    #[must_use]
    pub fn of(walked: &Walked) -> Self {
        let mut draft = Self::default();
        for &triple in &walked.triples {
            draft.add(number(triple));
        }
        draft
    }

    /// A random trace of just so many bytes.
    pub fn random(length: usize, habits: Habits, random: &mut Random) -> Self {
        let mut draft = Self::default();
        draft.go_on_to(length, habits, random);
        draft
    }

    /// Rooms are added, so many, and all taken away again, and so on, up to just
    /// so many bytes. The triples are random.
    pub fn up_and_down(rooms: usize, length: usize, random: &mut Random) -> Self {
        let mut draft = Self::default();
        while draft.bytes.len() < length {
            let up = (draft.bytes.len() + 2 * rooms).min(length);
            draft.go_on_to(up, Habits::new(1, 0, 0), random);
            let down = (draft.bytes.len() + rooms).min(length);
            draft.go_on_to(down, Habits::new(0, 1, 0), random);
        }
        draft
    }

    /// So many rooms are added, and then one again and again and taken away, up
    /// to just so many bytes. The triples are random.
    pub fn alternating(rooms: usize, length: usize, random: &mut Random) -> Self {
        let mut draft = Self::default();
        draft.go_on_to((2 * rooms).min(length), Habits::new(1, 0, 0), random);
        while draft.bytes.len() < length {
            let next = (draft.bytes.len() + 2).min(length);
            draft.go_on_to(next, Habits::new(1, 0, 0), random);
            let next = (draft.bytes.len() + 1).min(length);
            draft.go_on_to(next, Habits::new(0, 1, 0), random);
        }
        draft
    }

    /// Random moves up to just so many bytes. Where none has a weight and is
    /// possible a room is taken away, or there is a claim if it is the only one.
    pub fn go_on_to(&mut self, length: usize, habits: Habits, random: &mut Random) {
        while self.bytes.len() < length {
            let left = length - self.bytes.len();
            let triples = habits.triples.iter().copied();
            let triples: Vec<u8> = triples.filter(|&triple| self.allows(triple)).collect();
            let mut choices = Vec::new();
            let mut offer = |kind, weight, is_possible| {
                choices.extend(repeat_n(kind, if is_possible { weight } else { 0 }));
            };
            offer(Kind::Add, habits.adds, left > 1 && !triples.is_empty());
            offer(Kind::TakeAway, habits.take_aways, self.rooms() > 1);
            offer(Kind::Claim, habits.claims, self.runs() == 1);
            if choices.is_empty() {
                choices.push(if self.rooms() > 1 {
                    Kind::TakeAway
                } else {
                    Kind::Claim
                });
            }
            match random.pick(&choices) {
                Kind::Add => self.add(random.pick(&triples)),
                Kind::TakeAway => self.take_away(),
                Kind::Claim => self.claim(),
            }
        }
    }

    /// Adds a room, with the triple of this number.
    ///
    /// # Panics
    ///
    /// If that is refused.
    pub fn add(&mut self, triple: u8) {
        assert!(self.allows(triple), "{triple} is refused");
        self.rooms.extend(runs_after(self.counts(), triple));
        self.put(&[1, triple]);
    }

    /// Takes the newest room away.
    ///
    /// # Panics
    ///
    /// If it is the only one.
    pub fn take_away(&mut self) {
        assert!(self.rooms() > 1, "the only room");
        self.rooms.pop();
        self.put(&[2]);
    }

    /// Claims that one run is left.
    ///
    /// # Panics
    ///
    /// If there are more.
    pub fn claim(&mut self) {
        assert_eq!(self.runs(), 1, "more than one run");
        self.put(&[3]);
    }

    fn put(&mut self, bytes: &[u8]) {
        self.places.push(self.bytes.len());
        self.bytes.extend(bytes);
        let entry = 256 * self.rooms() + self.runs();
        self.entries.push(u16::try_from(entry).expect("two bytes"));
    }

    /// Whether a room with the triple of this number can be added.
    #[must_use]
    pub fn allows(&self, triple: u8) -> bool {
        self.rooms() < 255 && runs_after(self.counts(), triple).is_some()
    }

    /// How many rooms there are.
    #[must_use]
    pub fn rooms(&self) -> usize {
        self.rooms.len()
    }

    /// How many runs there are.
    #[must_use]
    pub fn runs(&self) -> usize {
        let (p, q) = self.counts();
        p + q + 1
    }

    /// p and q.
    fn counts(&self) -> (usize, usize) {
        self.rooms[self.rooms.len() - 1]
    }

    /// What the trace is answered with, in a slice that is long enough.
    #[must_use]
    pub fn answer(&self) -> Traced {
        let [rooms, runs] = self.rooms_and_runs();
        Traced {
            moves: self.places.len(),
            rooms,
            runs,
        }
    }

    fn rooms_and_runs(&self) -> [u8; 2] {
        [self.rooms(), self.runs()].map(|count| u8::try_from(count).expect("at most 255"))
    }

    /// What the trace is answered with if its next move is refused so.
    #[must_use]
    pub fn refused(&self, refusal: Refusal) -> TraceRefusal {
        let [rooms, runs] = self.rooms_and_runs();
        TraceRefusal::of_move(
            refusal,
            RefusedMove {
                ordinal: self.places.len() + 1,
                rooms,
                runs,
            },
        )
    }
}

#[cfg(test)]
mod tests {
    use super::{adds, Draft, Habits, ONE_RUN};
    use crate::cases::walk::{list_in_turn, Walked};
    use crate::cases::Random;
    use crate::trace;

    /// Holds a trace to the definitions.
    fn check(draft: &Draft) {
        let mut entries = vec![0; draft.entries.len()];
        let answer = trace(&draft.bytes, &mut entries);
        assert_eq!(answer, Ok(draft.answer()), "{:02x?}", draft.bytes);
        assert_eq!(entries, draft.entries, "{:02x?}", draft.bytes);
    }

    #[test]
    fn traces_come_to_what_the_definitions_say() {
        let mut random = Random::from_seed(241);
        check(&Draft::default());
        for length in 0..300 {
            let habits = Habits::some(&mut random);
            let rooms = random.between(1, 254);
            for draft in [
                Draft::random(length, habits, &mut random),
                Draft::up_and_down(rooms, length, &mut random),
                Draft::alternating(rooms, length, &mut random),
            ] {
                assert_eq!(draft.bytes.len(), length);
                check(&draft);
            }
        }
        let most = Draft::up_and_down(254, 2_000, &mut random);
        assert!(most.entries.iter().any(|entry| entry >> 8 == 255));
        check(&most);
    }

    #[test]
    fn habits_decide_which_moves_come_up() {
        let mut random = Random::from_seed(242);
        let claims = Draft::random(1_000, Habits::new(1, 1, 8).with(ONE_RUN), &mut random);
        assert!(claims.entries.iter().all(|entry| entry % 256 == 1));
        assert!(claims.places.len() > 800, "{}", claims.places.len());
        check(&claims);
        let turns = Draft::alternating(99, 900, &mut random);
        let ends: Vec<u16> = turns.entries[99..].iter().map(|entry| entry >> 8).collect();
        assert!(ends
            .chunks(2)
            .all(|rooms| rooms.iter().eq(&[101, 100][..rooms.len()])));
    }

    #[test]
    fn the_trace_of_a_walk_adds_its_triples() {
        let mut random = Random::from_seed(243);
        for (round, n) in [1, 2, 7, 40, 254, 255].into_iter().enumerate() {
            let walked: Walked = list_in_turn(n, round, &mut random);
            let mut draft = Draft::of(&walked);
            assert_eq!(draft.bytes, adds(&walked.triples));
            assert_eq!((draft.rooms(), draft.runs()), (n, 1));
            draft.claim();
            check(&draft);
        }
    }
}
