//! Demand 3 on tiny halls and on those in which over 256 facts hold: learning
//! and checking give the judge's verdict.

mod shared;

use second::calls::{unpacked, Form, Job};
use second::compare::{judge, judge_crowded, By, Capped, Run};
use second::gen::extreme::fullbook;
use second::gen::plan::tiny;
use second::gen::{BookDraft, OrderDraft, RecordDraft, Rng};
use second::judge::{self, verdicts, Verdict};
use second::{check, form, Answer, Refusal, Second};
use shared::hex;

#[test]
fn learn_and_check_give_the_judges_verdict() {
    let run = Run { seed: 0, count: 8_000 };
    let met = judge(run, &Second).unwrap_or_else(|difference| panic!("{difference}"));
    println!("{met}");
    assert_eq!(met.missing(), Vec::<String>::new());
}

#[test]
fn learn_and_check_give_the_judges_verdict_over_256_facts() {
    let run = Run { seed: 0, count: 800 };
    let met = judge_crowded(run, &Second).unwrap_or_else(|difference| panic!("{difference}"));
    println!("{met}");
    assert_eq!(met.missing(), Vec::<String>::new());
}

#[test]
fn cheats_are_found() {
    let run = Run { seed: 3, count: 500 };
    let stops_at_step_1 = |answer: Answer| match answer.number {
        19 => Answer { place: 1, ..answer },
        _ => answer,
    };
    let refuses_every_plan = |answer: Answer| match answer.number {
        0 => Refusal::NeedUnmet.at(1),
        _ => answer,
    };
    let passes_every_plan = |answer: Answer| match answer.number {
        19 | 20 => Answer::success(1),
        _ => answer,
    };
    // By 28 he says impossible, too, but no conflict is to be found.
    let refuses_by_12 = |answer: Answer| match answer.number {
        28 => Refusal::EffectConflict.at(1),
        _ => answer,
    };
    let cheats: [fn(Answer) -> Answer; 4] =
        [stops_at_step_1, refuses_every_plan, passes_every_plan, refuses_by_12];
    for (cheat, form) in cheats.into_iter().flat_map(|cheat| [0, 1].map(|form| (cheat, form))) {
        // Right but for one cheat that the paper names, with books of one form.
        let calls = By(|job: Job, book: &[u8], told: u32, other: &[u8], out: &mut [u8]| {
            let answer = unpacked(job.run(&Second, book, told, other, out));
            let cheats = job == Job::Check && told == form;
            if cheats { cheat(answer) } else { answer }.packed()
        });
        assert!(judge(run, &calls).is_err());
    }
}

/// He decodes a short book by himself: his verdicts are those on its full twin.
#[test]
fn the_judge_says_the_same_of_both_forms() {
    let mut differ = 0;
    for index in 0..1_500 {
        let plan = tiny::draw(&mut Rng::of_case(6, index));
        let order = plan.order.bytes();
        let [full, short] = Form::BOTH.map(|form| plan.book.in_form(form).bytes());
        let said = verdicts(&full, Form::Full, &order);
        assert_eq!(said, verdicts(&short, Form::Short, &order), "hall {index}");
        // Read as if it were full, the short one mostly says something else, if it is good.
        let is_good = form::look_over(&short, Form::Full).number == 0;
        let as_full = || verdicts(&short, Form::Full, &order);
        differ += usize::from(full != short && is_good && said != as_full());
    }
    assert!(differ > 200, "{differ}");
}

/// Tiny halls can't tell a checker with room for 256 facts; the others do.
#[test]
fn a_state_of_256_facts_is_found() {
    let run = Run { seed: 3, count: 500 };
    assert!(judge(run, &Capped).is_ok());
    assert!(judge_crowded(Run { count: 50, ..run }, &Capped).is_err());
}

/// 256 facts hold at the start, and one step adds another one.
#[test]
fn the_judge_has_room_for_over_256_facts() {
    let step = [1, 0, 0, 0, 0];
    let record = RecordDraft {
        objects: Vec::new(),
        states: vec![Vec::new(), vec![[2, 0, 0]]],
        steps: vec![step],
    };
    let book = BookDraft {
        kinds: 1,
        relations: vec![[2, 1, 1, 0], [0; 4]],
        moves: vec![[0; 6]],
        records: vec![record],
        ..BookDraft::default()
    };
    let start = fullbook::first_facts(16, 256);
    let judged = |steps: usize, holds: u8| {
        let order = OrderDraft {
            objects: vec![1; 16],
            starts: vec![start.clone()],
            goal: vec![(holds, [2, 0, 0])],
            steps: vec![step; steps],
        };
        let judged = judge::judge(&book.bytes(), Form::Full, &order.bytes()).swap_remove(0);
        (judged.verdict, judged.most)
    };
    let end = start.iter().copied().chain([[2, 0, 0]]).collect();
    assert_eq!(judged(1, 1), (Verdict::Passes { steps: 1, end }, 257));
    assert_eq!(judged(1, 0), (Verdict::Misses { entry: 1 }, 257));
    // The fact added is needed not to hold.
    assert_eq!(judged(2, 1), (Verdict::Stops { step: 2 }, 257));
}

/// Objects that nothing is said of change how the judge holds a state, and no
/// verdict.
#[test]
fn idle_objects_change_no_verdict() {
    for index in 0..300 {
        let mut plan = tiny::draw(&mut Rng::of_case(5, index));
        let (book, order) = (plan.book.bytes(), plan.order.bytes());
        plan.order.objects.resize(if plan.book.kinds > 0 { 16 } else { 0 }, 1);
        let idle = verdicts(&book, Form::Full, &plan.order.bytes());
        assert_eq!(verdicts(&book, Form::Full, &order), idle, "hall {index}");
    }
}

/// An effect is a change seen: what held after a step because it held before
/// is none.
#[test]
fn held_after_is_no_effect() {
    // One nullary relation and one move, in two records of one step. The fact
    // holds throughout the first and at no time in the second.
    let book = hex("0000 0001 0001 0002 0010 0014 001a 003a 00000000 000000000000 \
                    0001 0013 0001 010000 0100000000 0001 010000 \
                    0001 000d 0000 0100000000 0000");
    // From a start without the fact to a goal without it.
    let order = hex("0000 0001 0001 0001 0010 0010 0012 0016 0000 00010000 0100000000");
    assert_eq!(
        verdicts(&book, Form::Full, &order),
        [Verdict::Passes { steps: 1, end: Vec::new() }]
    );
    let mut end = [0xff; 512];
    assert_eq!(check::check(&book, Form::Full, &order, &mut end), Answer::success(1));
    assert_eq!(end, [0; 512]);
}
