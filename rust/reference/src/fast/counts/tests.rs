use crate::{fast, plan_count, plan_total};

#[test]
fn agrees_with_the_definitions_on_every_pair() {
    for n in 0..=255 {
        assert_eq!(fast::plan_total(n), plan_total(n), "n = {n}");
        for rises in 0..=255 {
            let count = fast::plan_count(n, rises);
            assert_eq!(count, plan_count(n, rises), "{n}, {rises}");
        }
    }
}
