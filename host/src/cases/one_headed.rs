//! Random tables whose rules have one head each: no rule has a partner, so that every engine for
//! CHR must come to the same end, whatever order it tries partners in.

use super::random::Random;
use super::tables::{self, Style};
use super::{goals, Plan};
use crate::build::Rule;

/// A table with at least one rule.
pub fn table(random: &mut Random) -> Plan {
    loop {
        let styles = [Style::Mixed, Style::Propagation, Style::Shrinking];
        let style = *random.pick(&styles);
        let mut plan = tables::table(random, style);
        plan.rules.retain(one_headed);
        if !plan.rules.is_empty() {
            return plan;
        }
    }
}

fn one_headed(rule: &Rule) -> bool {
    rule.kept.len() + rule.removed.len() == 1
}

/// A goal for a table.
pub fn goal(random: &mut Random, plan: &Plan) -> Vec<u8> {
    goals::goal(random, plan, plan.most_facts)
}
