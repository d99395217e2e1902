//! The bill of nights, with the rule of the stale save and without it.

use crate::bill::{self, nights, Bill, Rule};

#[test]
fn what_was_ticked_and_saved_is_never_ordered_again() {
    for seed in 1..=20 {
        let desks = 2 + seed as usize % 7;
        let with = nights(seed, 20, desks, Rule::Stale);
        assert_eq!((with.ordered_again, with.nights), (0, 0), "seed {seed}");
        assert!(with.stale > 0);
    }
    // A desk that is alone is never stale, and loses nothing without the rule.
    for rule in [Rule::Stale, Rule::LastSaveWins] {
        assert_eq!(nights(1, 20, 1, rule), Bill::default());
    }
}

#[test]
fn without_the_rule_it_is() {
    let without = nights(1, 20, 2, Rule::LastSaveWins);
    assert_eq!((without.stale, without.nights), (0, 20));
    assert!(without.ordered_again > 20);
    assert_eq!(bill::told(1, 20, 2).lines().count(), 3);
}
