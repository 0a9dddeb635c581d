//! Several starts, from the paper: the small hall by hand, and drawn orders.

mod shared;

use second::calls::Form;
use second::gen::plan::{order, several};
use second::gen::Rng;
use second::judge::{verdicts, Verdict};
use second::{check, listing, Answer, Refusal};
use shared::hex;

/// Bank 1 at spot 2, spots 3 and 4 clear; then the same without spot 4, or with
/// spot 2 clear as well.
const PASSES: &str = "0003 010102 020300 020400";
const STOPS_AT_2: &str = "0002 010102 020300";
const STOPS_AT_1: &str = "0004 010102 020200 020300 020400";

fn small_hall() -> Vec<u8> {
    hex("0002 0002 0001 0001 0010 0018 001E 003A | 02010200 01020000 | 030102020000 | \
         0301001C 010202 0002 010102 020300 0101020300 0002 010103 020200")
}

/// M2's plan from these starts.
fn order_of(starts: &[&str]) -> Vec<u8> {
    let all = hex(&starts.concat());
    let goal = 20 + all.len();
    let offsets = [16, 20, goal, goal + 4].map(|offset| format!("{offset:04x}")).concat();
    let front = format!("0004 {:04x} 0001 0002 {offsets} 01020202", starts.len());
    [hex(&front), all, hex("01010104 0101020300 0101030400")].concat()
}

fn checked(starts: &[&str]) -> (Answer, bool) {
    let mut end = [0xa5; 512];
    let answer = check::check(&small_hall(), Form::Full, &order_of(starts), &mut end);
    (answer, end != [0xa5; 512])
}

#[test]
fn the_first_start_that_fails_decides() {
    let stops = |step, position| (Refusal::NeedUnmet.at(step).from_start(position), false);
    assert_eq!(checked(&[PASSES]), (Answer::success(2), true));
    assert_eq!(checked(&[PASSES, PASSES]), (Answer::success(2), false));
    assert_eq!(checked(&[STOPS_AT_2]), stops(2, 1));
    assert_eq!(checked(&[PASSES, STOPS_AT_2]), stops(2, 2));
    assert_eq!(checked(&[STOPS_AT_2, STOPS_AT_1]), stops(2, 1));
    assert_eq!(checked(&[PASSES, PASSES, STOPS_AT_1, STOPS_AT_2]), stops(1, 3));
}

/// Bits 32 to 47 have the position; the program prints number and place alone.
#[test]
fn the_position_is_packed_and_not_printed() {
    let (answer, _) = checked(&[PASSES, STOPS_AT_2]);
    assert_eq!(answer.packed(), 19 << 48 | 2 << 32 | 2);
    let printed = |starts: &[&str]| listing::plan(&small_hall(), &order_of(starts));
    assert_eq!(printed(&[PASSES, STOPS_AT_2]), "refused 19 2\n");
    assert_eq!(printed(&[PASSES, PASSES]), "passes 2\n");
}

#[test]
fn the_judge_speaks_of_each_start() {
    let said = verdicts(&small_hall(), Form::Full, &order_of(&[STOPS_AT_2, PASSES, STOPS_AT_1]));
    let end = vec![[1, 1, 4], [2, 2, 0], [2, 3, 0]];
    let (second, first) = (Verdict::Stops { step: 2 }, Verdict::Stops { step: 1 });
    assert_eq!(said, [second, Verdict::Passes { steps: 2, end }, first]);
}

/// The sequence of the starts decides which one is told, not whether the plan passes.
#[test]
fn the_sequence_of_starts_does_not_decide_a_pass() {
    let mut passed = 0;
    for seed in 0..2_000 {
        let mut rng = Rng::new(seed);
        let mut plan = order::draw(&mut rng);
        let book = plan.book.bytes();
        let mut number = || {
            let answer = check::check(&book, Form::Full, &plan.order.bytes(), &mut [0; 512]);
            rng.shuffle(&mut plan.order.starts);
            answer.number
        };
        let numbers = [number(), number(), number()];
        assert!(numbers.iter().all(|&other| (other == 0) == (numbers[0] == 0)), "{numbers:?}");
        passed += usize::from(numbers[0] == 0 && plan.order.starts.len() > 1);
    }
    assert!(passed > 300, "{passed}");
}

/// Starts that are drawn to fail in a place do so.
#[test]
fn drawn_starts_are_answered_as_aimed() {
    for (index, kind) in several::Starts::ALL.into_iter().cycle().take(700).enumerate() {
        let (plan, aimed) = several::case(kind, &mut Rng::of_case(4, index));
        let mut end = [0xa5; 512];
        let answer = check::check(&plan.book.bytes(), Form::Full, &plan.order.bytes(), &mut end);
        assert_eq!(answer, aimed, "{}", kind.label());
        assert!(plan.order.starts.len() > 1 && end == [0xa5; 512]);
    }
}
