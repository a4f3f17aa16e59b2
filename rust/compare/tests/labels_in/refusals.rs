//! The tables of refusals on both sides.

use compare::report;
use nenturxo::Refusal as Bound;
use reference::Refusal;

#[test]
fn both_sides_give_the_same_number_and_sentence_to_every_refusal() {
    let bound = [
        Bound::LIST_LENGTH,
        Bound::EMPTY_ROOM,
        Bound::SHARED_SQUARE,
        Bound::OPEN_SQUARE,
        Bound::FOUR_ROOMS_MEET,
        Bound::LABEL_OUTSIDE,
        Bound::LABEL_TWICE,
        Bound::BARRED_PATTERN,
        Bound::NO_KIND,
        Bound::BODY_SHORT,
        Bound::BYTES_AFTER,
        Bound::RUN_MISSING,
        Bound::RUNS_LEFT,
        Bound::SPARE_BIT,
        Bound::SLICE_SHORT,
        Bound::POSITION_OUTSIDE,
        Bound::POSITIONS_EQUAL,
        Bound::TEXT_FORM,
        Bound::NOT_SLICING,
    ];
    let mut compared = 0;
    for (bound, refusal) in bound.into_iter().zip(Refusal::ALL) {
        assert_eq!(bound.number(), u32::from(refusal.number()));
        assert_eq!(bound.cause(), refusal.to_string());
        compared += 1;
    }
    report(format_args!("{compared} refusals compared"));
    assert_eq!(compared, 19);
}
