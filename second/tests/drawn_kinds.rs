//! Kinds under kinds in drawn books: parents of 0 are none, and the generators
//! meet what parents are for.

mod shared;

use second::calls::Form;
use second::gen::draft::action;
use second::gen::extreme::fullbook;
use second::gen::hall::{book, Dynamics, Rule, World};
use second::gen::plan::tiny;
use second::gen::{BookDraft, OrderDraft, Rng, Step};
use second::{check, form, listing, Answer};
use shared::learned;

/// The same book with parents that are all 0 and without any; with the bytes in
/// all offsets behind the header are further.
#[test]
fn parents_of_0_are_none() {
    let mut compared = [0; 3];
    for seed in 0..3_000 {
        let mut rng = Rng::new(seed);
        let mut without = book::of_shape(&book::SMALL, Dynamics::Slips, &mut rng).book;
        without.parents.clear();
        let with = BookDraft { parents: vec![0; without.kinds], ..without.clone() };
        let shifted = |answer: Answer| match answer.number {
            0 | 12 => answer,
            _ => Answer { place: answer.place + without.kinds as u32, ..answer },
        };
        let (books, kinds) = ([without.bytes(), with.bytes()], without.kinds);
        let looked = books.each_ref().map(|book| form::look_over(book, Form::Full));
        assert_eq!(looked[1], shifted(looked[0]));
        let sheets = books.each_ref().map(|book| learned(book));
        assert_eq!(sheets[1], (shifted(sheets[0].0), sheets[0].1.clone()), "{kinds} kinds");
        if let (Some(record), 0) = (without.records.first(), sheets[0].0.number) {
            let order = OrderDraft {
                objects: record.objects.clone(),
                starts: vec![record.states[0].clone()],
                goal: Vec::new(),
                steps: record.steps.clone(),
            };
            let mut ends = [[0; 512]; 2];
            let [first, second] = &mut ends;
            let answer = check::check(&books[0], Form::Full, &order.bytes(), first);
            assert_eq!(answer, check::check(&books[1], Form::Full, &order.bytes(), second));
            assert_eq!(ends[0], ends[1]);
            compared[2] += usize::from(!record.steps.is_empty());
        }
        compared[usize::from(sheets[0].0.number == 0)] += 1;
    }
    assert!(compared.iter().all(|&times| times > 200), "{compared:?}");
}

/// How often drawn books meet what parents are for.
#[derive(Default, Debug)]
struct Met {
    /// A kind has a parent.
    books: usize,
    /// An object lies below the kind of its parameter.
    below: usize,
    /// Facts of the step's objects that are not bound.
    beside: usize,
    /// Such a fact changes.
    beside_changes: usize,
}

impl Met {
    fn count(&mut self, book: &BookDraft) {
        let world = World::with_rules(book.clone(), || Rule { needed: None, effect: None });
        self.books += usize::from(book.parents.iter().any(|&parent| parent > 0));
        for record in &book.records {
            for (step, states) in record.steps.iter().zip(record.states.windows(2)) {
                let beside = world.beside(&record.objects, step);
                let changes = |fact| states[0].contains(fact) != states[1].contains(fact);
                self.below += usize::from(is_below(book, &record.objects, step));
                self.beside += usize::from(!beside.is_empty());
                self.beside_changes += usize::from(beside.iter().any(changes));
            }
        }
    }

    fn least(&self) -> usize {
        self.books.min(self.below).min(self.beside).min(self.beside_changes)
    }
}

fn is_below(book: &BookDraft, objects: &[u8], step: &Step) -> bool {
    let entry = book.moves[action(step)];
    let kind = |parameter: usize| objects[usize::from(step[parameter]) - 1];
    (1..=usize::from(entry[0])).any(|parameter| kind(parameter) != entry[parameter])
}

#[test]
fn drawn_books_and_tiny_halls_have_kinds_under_kinds() {
    let (mut books, mut halls) = (Met::default(), Met::default());
    for index in 0..2_000 {
        let mut rng = Rng::of_case(9, index);
        books.count(&book::any_size(Form::Full, Dynamics::Slips, &mut rng).1);
        halls.count(&tiny::draw(&mut rng).book);
    }
    assert!(books.least() >= 200, "{books:?}");
    assert!(halls.least() >= 30, "{halls:?}");
}

/// The book of many bound facts has all that there can be.
#[test]
fn many_bound_facts() {
    let draft = fullbook::many_atoms(&mut Rng::new(3));
    let lines = listing::rules(&draft.bytes()).lines().count();
    assert_eq!(lines, 1 + 32 * 256);
}
