//! Demand 3 on tiny halls and on crowded ones: learning and checking give the
//! judge's verdict, from each start alone and from all of them, in both forms of a
//! book.
//!
//! The judge enumerates the action models; nothing of this implementation's
//! learning or checking is asked.

use std::fmt;

use super::kinds::Kind;
use super::verdicts::{Decision, IsMet, Verdicts, CROWDED, TINY};
use super::Run;
use crate::answer::{Answer, Refusal};
use crate::calls::{unpacked, Calls, Form};
use crate::definition::end_sheet;
use crate::gen::plan::order::Plan;
use crate::gen::plan::{crowded_hall, tiny};
use crate::gen::{OrderDraft, Rng};
use crate::judge::{self, Judgement, Verdict};
use crate::limits::{END_SHEET_LENGTH, FACT_LIMIT, RULES_LENGTH};

const FILL: u8 = 0xa5;

/// Compares `calls` with the judge on tiny halls, or tells the first hall on
/// which they differ.
pub fn judge(run: Run, calls: &impl Calls) -> Result<Verdicts, String> {
    compare_halls(run, calls, tiny::draw, &TINY, |_| true)
}

/// Likewise on halls in which over 256 facts hold. A hall in which this is so from
/// no start under the judge's models is of no kind.
pub fn judge_crowded(run: Run, calls: &impl Calls) -> Result<Verdicts, String> {
    compare_halls(run, calls, crowded_hall::draw, &CROWDED, |judgements| {
        judgements.iter().any(|of| of.most > FACT_LIMIT)
    })
}

fn compare_halls(
    run: Run,
    calls: &impl Calls,
    draw: impl Fn(&mut Rng) -> Plan,
    kinds: &'static [Kind<IsMet>],
    is_counted: impl Fn(&[Judgement]) -> bool,
) -> Result<Verdicts, String> {
    let mut met = Verdicts::of(kinds);
    for index in 0..run.count {
        let plan = draw(&mut Rng::of_case(run.seed, index));
        let halls = Form::BOTH.map(|form| Hall::new(calls, &plan, form));
        // He is shown each form of a book in turn; the calls are asked about both.
        let shown = &halls[index % halls.len()];
        let judgements = judge::judge(&shown.book, shown.form, &plan.order.bytes());
        let absent = plan.book.has_inapplicable().then(|| Absent::of(shown, &judgements));
        if matches!(absent, Some(Absent::Differs)) {
            return Err(format!("seed {} hall {index}: not as if absent", run.seed));
        }
        let impossible = match absent {
            Some(Absent::Possible) => &[Refusal::NeedsMet][..],
            _ => &[Refusal::UnboundChange, Refusal::EffectConflict],
        };
        let differs = |hall: &&Hall| !hall.agrees(calls, &plan, &judgements, impossible);
        if let Some(hall) = halls.iter().find(differs) {
            let verdicts: Vec<&Verdict> = judgements.iter().map(|of| &of.verdict).collect();
            return Err(format!("seed {} hall {index}: {hall}, {verdicts:?}", run.seed));
        }
        if halls[0].given.sheet != halls[1].given.sheet {
            return Err(format!("seed {} hall {index}: two sheets for one book", run.seed));
        }
        let decision = Decision::of(&judgements, absent);
        met.count_hall(Some(&decision).filter(|_| is_counted(&judgements)));
    }
    Ok(met)
}

/// What he says of a book with steps that did not go, beside what he says as if these
/// were absent.
#[derive(Clone, Copy, PartialEq, Eq)]
pub enum Absent {
    /// Impossible with and without them.
    Impossible,
    /// Possible, with the same verdict on each start.
    Same,
    /// Impossible, and possible without them.
    Possible,
    /// Possible, with another verdict, which must not be.
    Differs,
}

impl Absent {
    fn of(hall: &Hall, judgements: &[Judgement]) -> Self {
        let absent = judge::judge_absent(&hall.book, hall.form, &hall.order);
        let is_impossible = |of: &[Judgement]| of[0].verdict == Verdict::Impossible;
        let same =
            || judgements.iter().zip(&absent).all(|(of, absent)| of.verdict == absent.verdict);
        match (is_impossible(judgements), is_impossible(&absent)) {
            (true, true) => Self::Impossible,
            (true, false) => Self::Possible,
            _ if same() => Self::Same,
            _ => Self::Differs,
        }
    }
}

/// A hall in one form of its book, and what the calls say of it.
struct Hall {
    form: Form,
    book: Vec<u8>,
    order: Vec<u8>,
    given: Given,
}

impl Hall {
    fn new(calls: &impl Calls, plan: &Plan, form: Form) -> Self {
        let (book, order) = (plan.book.in_form(form).bytes(), plan.order.bytes());
        let given = Given::by(calls, &book, form, &order, plan.book.moves.len());
        Self { form, book, order, given }
    }

    /// `impossible` are the refusals of which an impossible book has one.
    fn agrees(
        &self,
        calls: &impl Calls,
        plan: &Plan,
        judgements: &[Judgement],
        impossible: &[Refusal],
    ) -> bool {
        let given = &self.given;
        match judgements.first() {
            Some(Judgement { verdict: Verdict::Impossible, .. }) => {
                given.impossible(impossible) && self.impossible_anyhow(calls, given.end_answer)
            }
            _ => {
                given.learned == Answer::success(plan.book.steps())
                    && given.checks_as(judgements)
                    && self.agrees_alone(calls, plan, judgements)
            }
        }
    }

    /// Demand 3 is said of each start alone.
    fn agrees_alone(&self, calls: &impl Calls, plan: &Plan, judgements: &[Judgement]) -> bool {
        judgements.iter().zip(&plan.order.starts).all(|(judgement, start)| {
            let order = OrderDraft { starts: vec![start.clone()], ..plan.order.clone() }.bytes();
            let given = Given::by(calls, &self.book, self.form, &order, plan.book.moves.len());
            given.checks_as(std::slice::from_ref(judgement))
        })
    }

    /// An impossible book is so whatever order and output come with it.
    fn impossible_anyhow(&self, calls: &impl Calls, answer: Answer) -> bool {
        let (book, form) = (&self.book, self.form.number());
        let mut wrong_length = [FILL; 3];
        unpacked(calls.learn(book, form, &mut wrong_length)) == answer
            && unpacked(calls.check(book, form, &[], &mut wrong_length)) == answer
            && unpacked(calls.check(book, form, &[0xff; 20], &mut [])) == answer
            && untouched(&wrong_length)
    }
}

impl fmt::Display for Hall {
    fn fmt(&self, f: &mut fmt::Formatter<'_>) -> fmt::Result {
        let Self { form, book, order, given } = self;
        writeln!(f, "learned {}, checked {}", given.learned, given.end_answer)?;
        write!(f, "{} book {book:02x?}\norder {order:02x?}\nthe judge says", form.name())
    }
}

/// What the two calls gave.
struct Given {
    learned: Answer,
    sheet: Vec<u8>,
    end_answer: Answer,
    end: Vec<u8>,
}

impl Given {
    fn by(calls: &impl Calls, book: &[u8], form: Form, order: &[u8], moves: usize) -> Self {
        let mut sheet = vec![FILL; RULES_LENGTH * moves];
        let mut end = vec![FILL; END_SHEET_LENGTH];
        let learned = unpacked(calls.learn(book, form.number(), &mut sheet));
        let end_answer = unpacked(calls.check(book, form.number(), order, &mut end));
        Self { learned, sheet, end_answer, end }
    }

    /// Both answer one of these alike, and write nothing.
    fn impossible(&self, refusals: &[Refusal]) -> bool {
        refusals.iter().any(|&refusal| self.learned.number == refusal as u32)
            && self.learned == self.end_answer
            && untouched(&self.sheet)
            && untouched(&self.end)
    }

    /// By the first start whose verdict is no pass; the end sheet is written on a
    /// pass from one start alone.
    fn checks_as(&self, judgements: &[Judgement]) -> bool {
        let refused = |position, refusal: Refusal, place: u32| {
            self.end_answer == refusal.at(place as usize).from_start(position)
                && untouched(&self.end)
        };
        match judge::failing(judgements).map(|(position, of)| (position, &of.verdict)) {
            Some((position, Verdict::Stops { step })) => {
                refused(position, Refusal::NeedUnmet, *step)
            }
            Some((position, Verdict::Misses { entry })) => {
                refused(position, Refusal::GoalMissed, *entry)
            }
            Some(_) => false,
            None => self.passes_as(judgements),
        }
    }

    fn passes_as(&self, judgements: &[Judgement]) -> bool {
        let Some(Judgement { verdict: Verdict::Passes { steps, end }, .. }) = judgements.first()
        else {
            return false;
        };
        let written =
            if judgements.len() == 1 { self.end == end_sheet(end) } else { untouched(&self.end) };
        self.end_answer == Answer::success(*steps as usize) && written
    }
}

fn untouched(lent: &[u8]) -> bool {
    lent.iter().all(|&byte| byte == FILL)
}
