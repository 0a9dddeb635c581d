//! Kinds under kinds, from the paper: books and orders by hand.

mod shared;

use second::calls::Form;
use second::judge::{verdicts, Verdict};
use second::{add, form, listing, Answer, Refusal};
use shared::{hex, learned, order, passes, refused, set};

/// Kind 1 is a bank, 2 a spot, 3 a wagon, which is a bank. Relation 1 "bank at
/// spot", 2 "spot clear", 3 "wagon loaded"; move 1 rolls a bank from spot to
/// spot, move 2 loads a wagon. The header is for the record that follows.
fn with_record(record: &str) -> Vec<u8> {
    let mut book = hex("0003 0003 0002 0001 0013 001F 002B 0000 | 00 00 01 | \
                        02010200 01020000 01030000 | 030102020000 010300000000");
    book.extend(hex(record));
    let end = (book.len() as u16).to_be_bytes();
    book[14..16].copy_from_slice(&end);
    book
}

/// The paper's record, with a wagon for the bank.
const WAGON_ROLLS: &str = "0301001C 030202 0002 010102 020300 0101020300 0002 010103 020200";
/// The same with a wagon that is loaded throughout.
const LOADED_ROLLS: &str =
    "03010022 030202 0003 010102 020300 030100 0101020300 0003 010103 020200 030100";
/// The wagon is loaded before the roll and not after it.
const LOAD_LOST: &str = "0301001F 030202 0003 010102 020300 030100 0101020300 0002 010103 020200";
/// A wagon is loaded by move 2.
const WAGON_LOADED: &str = "01010011 03 0000 0201000000 0001 030100 ";

/// The small hall's rules of a roll, and those of a loading never recorded.
fn roll_and_unrecorded_load() -> Vec<u8> {
    let roll = [vec![1, 24], vec![2, 20], vec![2, 20], vec![1, 24]];
    let load = [vec![32], vec![32], vec![], vec![]];
    roll.iter().chain(&load).flat_map(|atoms| set(32, atoms)).collect()
}

#[test]
fn a_wagon_is_learned_from() {
    for record in [WAGON_ROLLS, LOADED_ROLLS] {
        let book = with_record(record);
        assert_eq!(form::look_over(&book, Form::Full), Answer::success(1));
        assert_eq!(learned(&book), (Answer::success(1), roll_and_unrecorded_load()));
    }
    let text = "moves 2 records 1 steps 1\n1 1 1 2 H R\n1 1 1 3 N A\n1 2 2 0 N A\n1 2 3 0 H R\n\
                2 3 1 0 B K\n";
    assert_eq!(listing::rules(&with_record(LOADED_ROLLS)), text);
}

/// A bank taught, a wagon rolls; what is said of the wagon alone stays.
#[test]
fn a_wagon_is_planned_with() {
    let book = with_record(&WAGON_ROLLS.replace("030202", "010202"));
    let start = [[1, 1, 2], [2, 3, 0], [2, 4, 0], [3, 1, 0]];
    let goal = [(0, [1, 1, 2]), (1, [1, 1, 4]), (1, [3, 1, 0])];
    let rolls = [[1, 1, 2, 3, 0], [1, 1, 3, 4, 0]];
    let [wagon, bank] = [3, 1].map(|kind| order(&[kind, 2, 2, 2], &start, &goal, &rolls));
    passes(&book, &wagon, 2, &[3, 256 + 16, 256 + 32, 512]);
    let end = vec![[1, 1, 4], [2, 2, 0], [2, 3, 0], [3, 1, 0]];
    assert_eq!(verdicts(&book, Form::Full, &wagon), [Verdict::Passes { steps: 2, end }]);
    // A bank cannot be loaded: the fourth start fact.
    refused(&book, &bank, Refusal::Start.at(22 + 3 * 3));
    // Nor its goal be so, nor move 2 be for it.
    let order_of = |kind: u8, goal: &[_], steps: &[_]| order(&[kind, 2, 2, 2], &[], goal, steps);
    refused(&book, &order_of(1, &[(0, [3, 1, 0])], &[]), Refusal::GoalEntry.at(22));
    refused(&book, &order_of(1, &[], &[[2, 1, 0, 0, 0]]), Refusal::PlanStep.at(22));
    refused(&book, &order_of(3, &[], &[[2, 1, 0, 0, 0]]), Refusal::NeedUnmet.at(1).from_start(1));
}

/// Its object is the step's, but a bank's parameter makes no bound fact of it.
#[test]
fn row_11_by_a_parameter_too_wide() {
    let book = with_record(LOAD_LOST);
    assert_eq!(form::look_over(&book, Form::Full), Answer::success(1));
    let step_at = 43 + 4 + 3 + 2 + 9;
    assert_eq!(learned(&book).0, Refusal::UnboundChange.at(step_at));
    let order = order(&[3], &[], &[], &[]);
    refused(&book, &order, Refusal::UnboundChange.at(step_at));
    assert_eq!(verdicts(&book, Form::Full, &order), [Verdict::Impossible]);
    // The wagon's own parameter does.
    let (answer, sheet) = learned(&with_record(WAGON_LOADED));
    assert_eq!(answer, Answer::success(1));
    let load: Vec<u8> =
        [vec![], vec![32], vec![32], vec![]].iter().flat_map(|atoms| set(32, atoms)).collect();
    assert_eq!(sheet[128..], load);
}

/// Facts and steps by a bank and by a wagon where the wagon is named.
#[test]
fn a_place_that_names_the_lower_kind() {
    let state = |kind: u8| with_record(&format!("01010011 {kind:02x} 0001 030100 0201000000 0000"));
    assert_eq!(form::look_over(&state(3), Form::Full), Answer::success(1));
    assert_eq!(form::look_over(&state(1), Form::Full), Refusal::State.at(43 + 5 + 2));
    let step = |kind: u8| with_record(&format!("0101000E {kind:02x} 0000 0201000000 0000"));
    assert_eq!(form::look_over(&step(3), Form::Full), Answer::success(1));
    assert_eq!(form::look_over(&step(1), Form::Full), Refusal::Step.at(43 + 5 + 2));
}

/// A move that takes a bank and a wagon: one wagon for both is 10, one bank 9.
#[test]
fn one_object_for_two_kinds() {
    let book = |kind: u8| {
        hex(&format!(
            "0002 0000 0001 0001 0012 0012 0018 0026 | 00 01 | 020102000000 | \
                      0101000E {kind:02x} 0000 0101010000 0000"
        ))
    };
    assert_eq!(form::look_over(&book(2), Form::Full), Refusal::ObjectTwice.at(24 + 5 + 2));
    assert_eq!(form::look_over(&book(1), Form::Full), Refusal::Step.at(24 + 5 + 2));
}

/// Kind 3 lies below 2 and 2 below 1. Relation 1 is over kind 1, relation 2 over
/// kind 3. Move 1 takes kind 3, move 2 takes kind 1; object 1 is of kind 3, and
/// each move takes its fact of relation 1 away.
#[test]
fn two_steps_up() {
    let book = hex("0003 0002 0002 0001 0013 001B 0027 0046 | 00 01 02 | \
                    01010000 01030000 | 010300000000 010100000000 | \
                    0202001F 0303 0002 010100 010200 0101000000 0001 010200 0202000000 0000");
    assert_eq!(form::look_over(&book, Form::Full), Answer::success(2));
    let sets = [
        // Both relations' facts are bound to the parameter of kind 3.
        [vec![0], vec![16], vec![], vec![0]],
        [vec![0], vec![], vec![], vec![0]],
    ];
    let sheet: Vec<u8> = sets.iter().flatten().flat_map(|atoms| set(32, atoms)).collect();
    assert_eq!(learned(&book), (Answer::success(2), sheet));
    // An object of each kind: move 2 suits all, move 1 the last alone.
    let start = [[1, 1, 0], [1, 2, 0], [1, 3, 0]];
    let steps = [[2, 1, 0, 0, 0], [2, 2, 0, 0, 0], [1, 3, 0, 0, 0]];
    passes(&book, &order(&[1, 2, 3], &start, &[(0, [1, 3, 0])], &steps), 3, &[]);
    for object in [1, 2] {
        let order = order(&[1, 2, 3], &start, &[], &[[1, object, 0, 0, 0]]);
        refused(&book, &order, Refusal::PlanStep.at(16 + 3 + 2 + 9));
    }
}

/// Seven climbs, the most that there are: of an object and of a parameter.
#[test]
fn a_chain_of_eight() {
    let book = hex("0008 0001 0001 0001 0018 001C 0022 0033 | 00 01 02 03 04 05 06 07 | \
                    01010000 | 010800000000 | 01010011 08 0001 010100 0101000000 0000");
    let sheet: Vec<u8> =
        [vec![0], vec![], vec![], vec![0]].iter().flat_map(|atoms| set(32, atoms)).collect();
    assert_eq!(learned(&book), (Answer::success(1), sheet));
}

/// A book of these kinds' parents and nothing else.
fn parents(parents: &[u8]) -> Vec<u8> {
    let (kinds, at) = (parents.len() as u8, 16 + parents.len() as u8);
    let mut book = vec![0, kinds, 0, 0, 0, 0, 0, 0, 0, at, 0, at, 0, at, 0, at];
    book.extend(parents);
    book
}

#[test]
fn row_21() {
    let looked = |given: &[u8]| form::look_over(&parents(given), Form::Full);
    for good in [&[0, 0][..], &[0, 1], &[0, 0, 1], &[0, 1, 2], &[0, 1, 1, 0, 4], &[0; 8]] {
        assert_eq!(looked(good), Answer::success(0), "{good:?}");
    }
    for kind in 1..=8 {
        for wrong in [kind, kind + 1, 9, 128, 255] {
            let mut all = [0; 8];
            all[usize::from(kind) - 1] = wrong;
            let place = 15 + usize::from(kind);
            assert_eq!(looked(&all), Refusal::Parent.at(place), "{all:?}");
            // The last may be wrong as well.
            all[7] = 255;
            assert_eq!(looked(&all), Refusal::Parent.at(place), "{all:?}");
        }
    }
}

/// The order of the rows is 3, 21, 4.
#[test]
fn row_21_between_3_and_4() {
    let good = with_record(WAGON_ROLLS);
    let changed = |changes: &[(usize, u8)]| {
        let mut book = good.clone();
        for &(at, new) in changes {
            book[at] = new;
        }
        form::look_over(&book, Form::Full)
    };
    assert_eq!(changed(&[(18, 3), (19, 3)]), Refusal::Parent.at(18));
    assert_eq!(changed(&[(18, 3), (15, 70)]), Refusal::HeaderOffsets.at(0));
    assert_eq!(changed(&[(18, 3), (1, 9)]), Refusal::HeaderCounts.at(0));
    assert_eq!(changed(&[(19, 3)]), Refusal::Relation.at(19));
}

/// The relations begin at 16 or at 16 plus the kinds, and the rest follows.
#[test]
fn where_the_relations_begin() {
    let front = "02010200 01020000 030102020000";
    let book = |relations_at: u16, between: &str| {
        let mut book = hex("0002 0002 0001 0000");
        let end = (16 + hex(between).len() + 14) as u16;
        for offset in [relations_at, relations_at + 8, relations_at + 14, end] {
            book.extend(offset.to_be_bytes());
        }
        book.extend(hex(between));
        book.extend(hex(front));
        form::look_over(&book, Form::Full)
    };
    assert_eq!(book(16, ""), Answer::success(0));
    assert_eq!(book(18, "00 01"), Answer::success(0));
    for (relations_at, between) in [(15, ""), (17, "00"), (19, "00 00 00"), (20, "00 00 00 00")] {
        assert_eq!(book(relations_at, between), Refusal::HeaderOffsets.at(0), "{relations_at}");
    }
    // Bytes that the header does not tell of are read as the first relation.
    assert_eq!(book(16, "00 00"), Refusal::Relation.at(16));
    // Parents that are not there are read from the first relation.
    assert_eq!(book(18, ""), Refusal::HeaderOffsets.at(0));
    let mut longer = hex("0002 0002 0001 0001 0012 001A 0020 003A");
    longer.extend(hex(front));
    longer.extend([0; 28]);
    assert_eq!(form::look_over(&longer, Form::Full), Refusal::Parent.at(16));
}

/// Adding keeps the parents, and looks the record over by them.
#[test]
fn adding_to_a_book_with_parents() {
    let old = with_record(WAGON_ROLLS);
    let mut new = vec![0; 99];
    assert_eq!(add::add(&old, Form::Full, &hex(WAGON_ROLLS), &mut new), Answer::success(99));
    let mut expected = [old.clone(), hex(WAGON_ROLLS)].concat();
    (expected[7], expected[15]) = (2, 99);
    assert_eq!(new, expected);
    let bank_loaded = hex("01010011 01 0001 030100 0201000000 0000");
    assert_eq!(add::add(&old, Form::Full, &bank_loaded, &mut new), Refusal::State.at(71 + 7));
    assert_eq!(new, expected, "a refusal leaves lent memory untouched");
    let mut wrong = old;
    wrong[17] = 2;
    assert_eq!(add::add(&wrong, Form::Full, &bank_loaded, &mut new), Refusal::Parent.at(17));
}
