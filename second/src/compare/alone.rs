//! An order of several starts beside the orders that have one of them each: the
//! answer to the first follows from those to the others, whoever gives them.

use crate::answer::Answer;
use crate::calls::unpacked;
use crate::gen::draft::put_number;
use crate::limits::END_SHEET_LENGTH;

/// What an order of several starts must be answered with, by the answers of
/// `check` to each start alone; `None` if the order has one start, or if it was
/// refused before its plan is executed.
pub fn by_each_start(
    order: &[u8],
    answer: Answer,
    mut check: impl FnMut(&[u8], &mut [u8]) -> u64,
) -> Option<Answer> {
    if !matches!(answer.number, 0 | 19 | 20) || order[3] == 1 {
        return None;
    }
    let mut last = answer;
    for (position, order) in (1..).zip(each_alone(order)) {
        last = unpacked(check(&order, &mut [0; END_SHEET_LENGTH]));
        if last.number != 0 {
            return Some(last.from_start(position));
        }
    }
    Some(last)
}

/// For each start of an order of good form the order with this one alone.
fn each_alone(order: &[u8]) -> Vec<Vec<u8>> {
    let number = |at: usize| usize::from(u16::from_be_bytes([order[at], order[at + 1]]));
    let (count, start_at, goal_at, goal) = (number(2), number(10), number(12), number(4));
    let mut at = start_at;
    (0..count)
        .map(|_| {
            let start = &order[at..][..2 + 3 * number(at)];
            at += start.len();
            let mut alone = [&order[..start_at], start, &order[goal_at..]].concat();
            let goal_at = start_at + start.len();
            put_number(&mut alone, 2, 1);
            put_number(&mut alone, 12, goal_at);
            put_number(&mut alone, 14, goal_at + 4 * goal);
            alone
        })
        .collect()
}

#[cfg(test)]
mod tests {
    use super::each_alone;
    use crate::gen::plan::order;
    use crate::gen::{OrderDraft, Rng};

    #[test]
    fn each_order_has_one_of_the_starts() {
        for seed in 0..500 {
            let order = order::draw(&mut Rng::new(seed)).order;
            let alone: Vec<Vec<u8>> = order
                .starts
                .iter()
                .map(|start| OrderDraft { starts: vec![start.clone()], ..order.clone() }.bytes())
                .collect();
            assert_eq!(each_alone(&order.bytes()), alone);
        }
    }
}
