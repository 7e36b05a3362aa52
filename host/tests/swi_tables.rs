//! What the random tables that SWI-Prolog is compared on have to be.

use std::collections::BTreeSet;

use nadhirukh_host::cases::Case;
use nadhirukh_host::divisions;
use nadhirukh_host::format::{ANSWER_LEN, MAX_LIMIT};
use nadhirukh_host::swi::tables::{DIVIDING, ONE_HEADED};

#[test]
fn no_rule_has_a_partner() {
    for tables in [ONE_HEADED, DIVIDING] {
        for (plan, _) in tables.with_goals() {
            for rule in &plan.rules {
                assert_eq!(rule.kept.len() + rule.removed.len(), 1, "{:?}", rule);
            }
        }
    }
}

#[test]
fn tables_that_divide_do_so_at_every_edge() {
    let mut reached = BTreeSet::new();
    for (plan, goals) in DIVIDING.with_goals() {
        for goal in goals {
            let case = Case::run(plan.bytes(), goal, MAX_LIMIT, ANSWER_LEN);
            reached.extend(divisions::reached(&case));
        }
    }
    assert_eq!(reached, divisions::edges());
}
