//! The two sheets, bit by bit.

use super::learning::Rules;
use crate::gen::Fact;
use crate::limits::{END_SHEET_LENGTH, RULES_LENGTH, SET_LENGTH};

/// The rule sheet of these moves.
pub(super) fn rule_sheet(model: &[Rules]) -> Vec<u8> {
    let mut sheet = vec![0; RULES_LENGTH * model.len()];
    for (rules, of_move) in model.iter().zip(sheet.chunks_exact_mut(RULES_LENGTH)) {
        for rule in rules {
            let sets = [rule.pre_pos, rule.pre_neg, rule.add, rule.delete];
            for (is_in, set) in sets.into_iter().zip(of_move.chunks_exact_mut(SET_LENGTH)) {
                set[rule.atom.n / 8] |= u8::from(is_in) << (rule.atom.n % 8);
            }
        }
    }
    sheet
}

/// The end sheet with just these facts.
#[must_use]
pub fn end_sheet(facts: &[Fact]) -> Vec<u8> {
    let mut sheet = vec![0; END_SHEET_LENGTH];
    for &[relation, first, second] in facts {
        let from_zero = |number: u8| usize::from(number.max(1)) - 1;
        let n = 256 * from_zero(relation) + 16 * from_zero(first) + from_zero(second);
        sheet[n / 8] |= 1 << (n % 8);
    }
    sheet
}
